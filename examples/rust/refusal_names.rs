//! The names of refusals, made from docs/refusals.json by `node docs/refusals --write`.

/// The name of a refusal's number; of any other number, that it is unknown.
pub fn refusal_name(number: u64) -> &'static str {
    match number {
        1 => "number too long",
        2 => "number not shortest",
        3 => "number cut short",
        4 => "word missing",
        5 => "word out of range",
        6 => "greatest below least",
        7 => "shares not whole",
        8 => "words left over",
        9 => "lows above limit",
        10 => "demand count",
        11 => "demand too large",
        12 => "output too short",
        13 => "caps too short",
        14 => "headroom too short",
        15 => "held too short",
        16 => "controller out of range",
        17 => "reading out of range",
        18 => "controllers unfit",
        19 => "versions differ",
        20 => "joined too large",
        21 => "grant count",
        22 => "cut out of range",
        23 => "link across the cut",
        24 => "not a line",
        25 => "not a size",
        26 => "line out of range",
        27 => "no messages",
        28 => "position out of range",
        _ => "unknown",
    }
}
