//! The program and its print.

mod common;

use common::{room_h, table, Server};
use reference::{print, write};

const PRINT_H: &str = "freed 13
server 1 cap 240
cord 1 node 1 grant 120 headroom 0 held 1
cord 2 node 2 grant 120 headroom 0 held 0
server 2 cap 280
cord 1 node 2 grant 280 headroom 0 held 2
";

/// With demands of 100, where both nodes lend.
const PRINT_LENT_H: &str = "freed 0
server 1 cap 100
cord 1 node 1 grant 50 headroom 70 held 0
cord 2 node 2 grant 50 headroom 83 held 0
server 2 cap 100
cord 1 node 2 grant 100 headroom 167 held 0
";

fn sheet(words: &[u32]) -> Vec<u8> {
    write(words, 1 << 20).expect("an accepted room")
}

fn print_h(stdin: &[u8]) -> String {
    print(Some(&sheet(&room_h(500))), stdin)
}

#[test]
fn room_h_prints_its_plan() {
    assert_eq!(print_h(b"400\n400\n"), PRINT_H);
    assert_eq!(print_h(b"100\n100\n"), PRINT_LENT_H);
}

#[test]
fn the_last_line_needs_no_newline() {
    assert_eq!(print_h(b"400\n400"), PRINT_H);
    assert_eq!(print_h(b"400"), "refused 10 at 2\n");
}

#[test]
fn one_to_eight_digits_are_a_demand() {
    assert_eq!(print_h(b"00000400\n0400\n"), PRINT_H);
    assert_eq!(print_h(b"16777215\n400\n"), PRINT_H);
    assert_eq!(print_h(b"16777216\n400\n"), "refused 11 at 0\n");
    assert_eq!(print_h(b"400\n99999999\n"), "refused 11 at 1\n");
}

#[test]
fn any_other_line_is_too_great_a_demand() {
    let lines: [&[u8]; 10] = [
        b"",
        b"000000400",
        b"400\r",
        b" 400",
        b"400 ",
        b"+400",
        b"-1",
        b"4e2",
        b"\xFF\xFE",
        b"4\x000",
    ];
    for line in lines {
        let stdin = [b"400\n", line, b"\n"].concat();
        assert_eq!(print_h(&stdin), "refused 11 at 1\n", "{line:?}");
    }
    assert_eq!(print_h("٤٠٠\n400".as_bytes()), "refused 11 at 0\n");
}

/// A newline ends a line: two of them with nothing before are two empty lines.
#[test]
fn empty_lines_count() {
    assert_eq!(print_h(b""), "refused 10 at 2\n");
    assert_eq!(print_h(b"\n"), "refused 10 at 2\n");
    assert_eq!(print_h(b"\n\n"), "refused 11 at 0\n");
    assert_eq!(print_h(b"400\n400\n\n"), "refused 10 at 2\n");
}

#[test]
fn a_missing_file_is_empty() {
    assert_eq!(print(None, b"400\n400\n"), "refused 4 at 0\n");
    assert_eq!(print(Some(&[]), b""), "refused 4 at 0\n");
}

#[test]
fn refusals_are_printed() {
    let of = |bytes: &[u8]| print(Some(bytes), b"");
    assert_eq!(of(&[0x80, 0x80, 0x80, 0x80]), "refused 1 at 0\n");
    assert_eq!(of(&[0x01, 0x80, 0x00]), "refused 2 at 1\n");
    assert_eq!(of(&[0x80]), "refused 3 at 0\n");
    let overfull = reference::number::bytes(&room_h(187));
    assert_eq!(of(&overfull), "refused 9 at 2\n");
}

#[test]
fn a_room_without_servers_prints_one_line() {
    assert_eq!(print(Some(&[1, 1, 0, 0, 0]), b""), "freed 0\n");
    assert_eq!(print(Some(&[1, 1, 0, 0, 0]), b"1\n"), "refused 10 at 0\n");
}

#[test]
fn only_32768_bytes_of_the_file_are_read() {
    let h = sheet(&room_h(500));
    let padding = vec![0; 32_768 - h.len()];
    let full = [h.clone(), padding.clone()].concat();
    let stdin = b"400\n400\n";
    assert_eq!(print(Some(&full), stdin), "refused 8 at 21\n");
    let past = [full, vec![0x80; 4]].concat();
    assert_eq!(print(Some(&past), stdin), "refused 8 at 21\n");
    // A number whose first byte is the last one read has lost its end.
    let mut cut = past;
    cut[32_767] = 0x81;
    cut[32_768] = 0x01;
    assert_eq!(print(Some(&cut), stdin), "refused 3 at 32767\n");
}

/// 513 lines are enough to tell 512 demands from more.
#[test]
fn a_full_room_takes_512_lines() {
    let server: Server = (1, 0, 1, &[(1, 1000)]);
    let room = table(&[(0, 1_000)], &vec![server; 512]);
    let print = |lines| print(Some(&sheet(&room)), "1\n".repeat(lines).as_bytes());
    let full = print(512);
    assert_eq!(full.lines().count(), 1 + 2 * 512);
    assert!(full.ends_with("server 512 cap 1\ncord 1 node 1 grant 1 headroom 0 held 0\n"));
    assert_eq!(print(511), "refused 10 at 512\n");
    assert_eq!(print(513), "refused 10 at 512\n");
    assert_eq!(print(514), "refused 10 at 512\n");
    assert_eq!(print(100_000), "refused 10 at 512\n");
}
