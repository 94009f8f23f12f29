//! Breaker schedules, worked by hand from document 02.

use reference::schedule::{call, schedule, written};
use reference::Refusal;

fn refused(text: &str) -> Option<(u64, u64)> {
    let Refusal { number, place } = schedule(text.as_bytes(), 2000).err()?;
    Some((number, place))
}

fn lines(count: usize) -> String {
    "0 15 100\n".repeat(count)
}

#[test]
fn each_line_is_a_node() {
    let table = schedule(b"0 200 240\n1 20 120\n1 60 120\n", 9);
    assert_eq!(table, Ok(vec![1, 3, 0, 48_000, 1, 2_400, 1, 7_200, 0]));
    assert_eq!(
        schedule(b"0 6000 480\n", 5),
        Ok(vec![1, 1, 0, 2_880_000, 0])
    );
    assert_eq!(
        schedule(lines(512).as_bytes(), 1027).map(|t| t.len()),
        Ok(1027)
    );
}

#[test]
fn a_line_not_of_the_form() {
    let bad = [
        "\n",
        " \n",
        "0 15\n",
        "0 15 \n",
        "0 15 100",
        "0 15 100 \n",
        " 0 15 100\n",
        "0  15 100\n",
        "0\t15 100\n",
        "0 15 100\r\n",
        "00 15 100\n",
        "0 015 100\n",
        "0 15 0100\n",
        "0 15 100 0\n",
        "0 15 10000\n",
        "10000 15 100\n",
        "0 15 +100\n",
        "-0 15 100\n",
        "0 15 1e2\n",
        "0 15\0 100\n",
        "0 15 100\n\n",
        "0 15 100\n0 15 100",
        "0,15,100\n",
        "٣ 15 100\n",
    ];
    for text in bad {
        let place = text.strip_prefix("0 15 100\n").map_or(0, |_| 1);
        assert_eq!(refused(text), Some((24, place)), "{text:?}");
    }
}

#[test]
fn amperes_are_a_size() {
    for amperes in [0, 14, 16, 55, 120, 900, 5999, 6001, 9999] {
        assert_eq!(refused(&format!("0 {amperes} 100\n")), Some((25, 0)));
    }
    // Volts and parent come after.
    assert_eq!(refused("9 55 9\n"), Some((25, 0)));
}

#[test]
fn volts_and_parent_have_a_range() {
    for volts in [0, 99, 481, 9999] {
        assert_eq!(refused(&format!("0 15 {volts}\n")), Some((26, 0)));
    }
    assert_eq!(refused("1 15 100\n"), Some((26, 0)));
    assert_eq!(refused("0 15 100\n2 15 100\n"), Some((26, 1)));
    assert_eq!(refused("0 15 100\n1 15 100\n"), None);
}

#[test]
fn no_lines_and_too_many() {
    assert_eq!(refused(""), Some((26, 0)));
    assert_eq!(refused(&lines(513)), Some((26, 512)));
    // A 513th line is judged as the others first.
    assert_eq!(refused(&(lines(512) + "x")), Some((24, 512)));
    assert_eq!(refused(&(lines(512) + "0 55 100\n")), Some((25, 512)));
    // None after it is.
    assert_eq!(refused(&(lines(513) + "x")), Some((26, 512)));
}

#[test]
fn line_by_line_and_the_list_last() {
    assert_eq!(refused("0 15 99\nx\n"), Some((26, 0)));
    assert_eq!(refused("0 55 100\nx\n"), Some((25, 0)));
    let short = Refusal {
        number: 12,
        place: 5,
    };
    assert_eq!(schedule(b"0 15 100\n", 4), Err(short));
    assert_eq!(schedule(b"0 15 100\nx", 0).map_err(|r| r.number), Err(24));
}

#[test]
fn called_from_c() {
    let mut table = [0xAA; 23];
    let mut answer = [0xAA; 17];
    assert_eq!(call(b"0 20 120\n", &mut table, &mut answer), 1);
    let words = [
        1, 0, 0, 0, 1, 0, 0, 0, 0, 0, 0, 0, 0x60, 9, 0, 0, 0, 0, 0, 0,
    ];
    assert_eq!(table[..20], words);
    assert_eq!(table[20..], [0xAA; 3]);
    assert_eq!(
        answer,
        [0, 0, 0, 0, 0, 0, 0, 0, 5, 0, 0, 0, 0, 0, 0, 0, 0xAA]
    );
    assert_eq!(call(b"0 20 120\n", &mut table, &mut answer[..15]), 0);
    assert_eq!(call(b"0 20 120\n", &mut table[..19], &mut answer), 1);
    assert_eq!(answer[..9], [12, 0, 0, 0, 0, 0, 0, 0, 5]);
}

#[test]
fn the_program() {
    let sheet = vec![1, 1, 0, 0xE0, 0x12, 0];
    assert_eq!(written(b"0 20 120\n"), (sheet, String::new()));
    assert_eq!(
        written(b"0 20 12\n"),
        (vec![], "refused 26 at 0\n".to_string())
    );
}
