//! The C calls: lists as bytes and the answer buffer.

#[path = "common/bytes.rs"]
mod bytes;
mod common;

use bytes::{list, padded};
use common::room_h;
use reference::{call, write};

/// Plan's lists: grants, caps, headroom and held.
type Lists = [Vec<u8>; 4];

fn plan(table: &[u8], demands: &[u8], lists: &mut Lists, answer: &mut [u8]) -> u32 {
    let [grants, caps, headroom, held] = lists;
    call::plan(table, demands, grants, caps, headroom, held, answer)
}

/// Lists of so many bytes, all 0xAA.
fn untouched(lengths: [usize; 4]) -> Lists {
    lengths.map(|length| vec![0xAA; length])
}

fn answer_of(number: u64, figure: u64) -> [u8; 16] {
    let mut answer = [0; 16];
    answer[..8].copy_from_slice(&number.to_le_bytes());
    answer[8..].copy_from_slice(&figure.to_le_bytes());
    answer
}

#[test]
fn words_and_answers_stand_low_byte_first() {
    let mut table = [0xAA; 24];
    let mut answer = [0xAA; 16];
    assert_eq!(
        call::read(&[1, 1, 0, 0x80, 1, 0], &mut table, &mut answer),
        1
    );
    let words = [1, 0, 0, 0, 1, 0, 0, 0, 0, 0, 0, 0, 128, 0, 0, 0, 0, 0, 0, 0];
    assert_eq!(table[..20], words);
    assert_eq!(table[20..], [0xAA; 4]);
    assert_eq!(answer, [0, 0, 0, 0, 0, 0, 0, 0, 5, 0, 0, 0, 0, 0, 0, 0]);
}

#[test]
fn read_fills_the_front_of_the_table() {
    let sheet = write(&room_h(500), 28).expect("room H");
    for over in 0..9 {
        let mut table = vec![0xAA; 84 + over];
        let mut answer = [0xAA; 20];
        assert_eq!(call::read(&sheet, &mut table, &mut answer), 1);
        assert_eq!(table, padded(&room_h(500), over));
        assert_eq!(answer[..16], answer_of(0, 21));
        assert_eq!(answer[16..], [0xAA; 4]);
    }
}

#[test]
fn write_fills_the_front_of_the_sheet() {
    let expected = write(&room_h(500), 28).expect("room H");
    for over in 0..4 {
        let mut sheet = vec![0xAA; 28 + over];
        let mut answer = [0xAA; 16];
        let table = padded(&room_h(500), over);
        assert_eq!(call::write(&table, &mut sheet, &mut answer), 1);
        assert_eq!(sheet, [expected.clone(), vec![0xAA; over]].concat());
        assert_eq!(answer, answer_of(0, 28));
    }
}

#[test]
fn plan_fills_the_front_of_all_lists() {
    let full: [&[u32]; 4] = [&[120, 120, 280], &[240, 280], &[0, 0, 0], &[1, 0, 2]];
    let lent: [&[u32]; 4] = [&[50, 50, 100], &[100, 100], &[70, 83, 167], &[0, 0, 0]];
    for (demands, freed, expected) in [([400, 400], 13, full), ([100, 100], 0, lent)] {
        for over in 0..4 {
            let table = padded(&room_h(500), over);
            let demands = padded(&demands, over);
            let mut lists = untouched(expected.map(|words| 4 * words.len() + over));
            let mut answer = [0xAA; 17];
            assert_eq!(plan(&table, &demands, &mut lists, &mut answer), 1);
            assert_eq!(lists, expected.map(|words| padded(words, over)));
            assert_eq!(answer[..16], answer_of(0, freed));
            assert_eq!(answer[16], 0xAA);
        }
    }
}

/// Four bytes over are a word.
#[test]
fn a_whole_word_over_is_read() {
    let mut sheet = [0xAA; 40];
    let mut answer = [0xAA; 16];
    assert_eq!(
        call::write(&padded(&room_h(500), 4), &mut sheet, &mut answer),
        1
    );
    assert_eq!(answer, answer_of(8, 21));
    assert_eq!(sheet, [0xAA; 40]);
    let demands = padded(&[400, 400], 4);
    let table = list(&room_h(500));
    let done = plan(&table, &demands, &mut untouched([0; 4]), &mut answer);
    assert_eq!(done, 1);
    assert_eq!(answer, answer_of(10, 2));
}

/// Three bytes of a word are no room for it, and none of it.
#[test]
fn a_word_lacking_a_byte_is_no_word() {
    let table = list(&room_h(500));
    let sheet = write(&room_h(500), 28).expect("room H");
    let mut words = [0xAA; 83];
    let mut answer = [0; 16];
    assert_eq!(call::read(&sheet, &mut words, &mut answer), 1);
    assert_eq!(answer, answer_of(12, 21));
    assert_eq!(words, [0xAA; 83]);
    assert_eq!(call::write(&table[..83], &mut [0; 28], &mut answer), 1);
    assert_eq!(answer, answer_of(4, 20));
    let demands = list(&[400, 400]);
    let mut refused = |demands: &[u8], lengths: [usize; 4]| {
        let mut lists = untouched(lengths);
        assert_eq!(plan(&table, demands, &mut lists, &mut answer), 1);
        assert_eq!(lists, untouched(lengths));
        answer
    };
    assert_eq!(refused(&demands[..7], [12, 8, 12, 12]), answer_of(10, 2));
    assert_eq!(refused(&demands, [11, 8, 12, 12]), answer_of(12, 3));
    assert_eq!(refused(&demands, [12, 7, 12, 12]), answer_of(13, 2));
    assert_eq!(refused(&demands, [12, 8, 11, 12]), answer_of(14, 3));
    assert_eq!(refused(&demands, [12, 8, 12, 11]), answer_of(15, 3));
}

#[test]
fn a_refusal_changes_nothing_but_the_answer() {
    let mut answer = [0xAA; 18];
    let mut table = [0xAA; 100];
    assert_eq!(call::read(&[0x01, 0x80, 0x00], &mut table, &mut answer), 1);
    assert_eq!(answer[..16], answer_of(2, 1));
    assert_eq!(answer[16..], [0xAA; 2]);
    assert_eq!(table, [0xAA; 100]);
    let mut sheet = [0xAA; 100];
    assert_eq!(call::write(&list(&room_h(187)), &mut sheet, &mut answer), 1);
    assert_eq!(answer[..16], answer_of(9, 2));
    assert_eq!(sheet, [0xAA; 100]);
}

#[test]
fn a_short_answer_buffer_stops_the_call() {
    let h = list(&room_h(500));
    let sheet = write(&room_h(500), 28).expect("room H");
    let mut lists = untouched([100; 4]);
    for length in 0..16 {
        let mut answer = vec![0xAA; length];
        assert_eq!(call::read(&sheet, &mut lists[0], &mut answer), 0);
        assert_eq!(call::write(&h, &mut lists[0], &mut answer), 0);
        let demands = list(&[400, 400]);
        assert_eq!(plan(&h, &demands, &mut lists, &mut answer), 0);
        assert_eq!(answer, vec![0xAA; length]);
    }
    assert_eq!(lists, untouched([100; 4]));
}

#[test]
fn a_room_without_servers_leaves_the_lists_untouched() {
    let mut answer = [0xAA; 16];
    let mut lists = untouched([9; 4]);
    let table = list(&[1, 1, 0, 0, 0]);
    assert_eq!(plan(&table, &[], &mut lists, &mut answer), 1);
    assert_eq!(answer, answer_of(0, 0));
    assert_eq!(lists, untouched([9; 4]));
}

#[test]
fn empty_lists_are_good_input() {
    let mut answer = [0xAA; 16];
    assert_eq!(call::read(&[], &mut [], &mut answer), 1);
    assert_eq!(answer, answer_of(4, 0));
    assert_eq!(call::write(&[], &mut [], &mut answer), 1);
    assert_eq!(answer, answer_of(4, 0));
    assert_eq!(plan(&[], &[], &mut untouched([0; 4]), &mut answer), 1);
    assert_eq!(answer, answer_of(4, 0));
}
