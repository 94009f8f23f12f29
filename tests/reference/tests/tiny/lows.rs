//! Demand 3 over refusal 9: exactly when the lows beneath some breaker exceed its limit.

use crate::family::{drawn, listed};
use crate::room::Room;
use reference::{plan, Refusal};

#[test]
fn refusal_9_names_the_lowest_overfull_breaker() {
    let cases = [listed(), drawn(0xA076_1D64_78BD_642F, 30_000)].concat();
    let (mut refused, mut not_the_first, mut several, mut accepted) = (0, 0, 0, 0);
    for (room, demands) in cases {
        let answer = plan(&room.table(), &demands, [6, 3, 6, 6]);
        let Some(node) = room.first_exceeded(&room.lows()) else {
            assert!(answer.is_ok(), "{room:?} {answer:?}");
            accepted += 1;
            continue;
        };
        let place = node.into();
        assert_eq!(answer, Err(Refusal { number: 9, place }), "{room:?}");
        refused += 1;
        not_the_first += usize::from(node > 1);
        several += usize::from(overfull_after(&room, node));
    }
    assert!(accepted > 10_000 && refused > 3_000, "{accepted} {refused}");
    assert!(not_the_first > 1_000, "{not_the_first}");
    assert!(several > 300, "{several}");
}

/// Is another breaker overfull, with a higher number?
fn overfull_after(room: &Room, node: u32) -> bool {
    let mut eased = room.clone();
    eased.nodes[node as usize - 1].1 = 1_000;
    eased.first_exceeded(&eased.lows()).is_some()
}
