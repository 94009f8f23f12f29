//! Numbers on the sheet.

mod common;

use common::room_h;
use reference::number::{bytes, words};
use reference::Refusal;

/// Room H's 28 bytes, as document 01 has them.
const SHEET_H: [u8; 28] = [
    0x01, 0x02, 0x00, 0x96, 0x01, 0x00, 0xF4, 0x03, 0x02, 0x01, 0x64, 0x90, 0x03, 0x02, 0x01, 0xF4,
    0x03, 0x02, 0xF4, 0x03, 0x01, 0x64, 0x90, 0x03, 0x01, 0x02, 0xE8, 0x07,
];

fn bad(number: u64, place: u64) -> Result<Vec<u32>, Refusal> {
    Err(Refusal { number, place })
}

#[test]
fn a_number_has_its_shortest_form() {
    let forms: [(u32, &[u8]); 9] = [
        (0, &[0x00]),
        (1, &[0x01]),
        (127, &[0x7F]),
        (128, &[0x80, 0x01]),
        (16_383, &[0xFF, 0x7F]),
        (16_384, &[0x80, 0x80, 0x01]),
        (2_097_151, &[0xFF, 0xFF, 0x7F]),
        (2_097_152, &[0x80, 0x80, 0x80, 0x01]),
        (16_777_215, &[0xFF, 0xFF, 0xFF, 0x07]),
    ];
    for (word, form) in forms {
        assert_eq!(words(form), Ok(vec![word]));
        assert_eq!(bytes(&[word]), form);
    }
}

#[test]
fn a_number_may_be_longer_than_any_word_of_a_room() {
    assert_eq!(words(&[0xFF, 0xFF, 0xFF, 0x7F]), Ok(vec![268_435_455]));
    assert_eq!(reference::read(&[0xFF, 0xFF, 0xFF, 0x7F], 9), bad(5, 0));
}

#[test]
fn every_number_of_up_to_three_bytes_comes_back() {
    for word in 0..2_097_152 {
        assert_eq!(words(&bytes(&[word])), Ok(vec![word]));
    }
}

#[test]
fn numbers_stand_without_anything_between() {
    let sheet = [0x00, 0x80, 0x01, 0x7F, 0xFF, 0xFF, 0xFF, 0x07];
    assert_eq!(words(&sheet), Ok(vec![0, 128, 127, 16_777_215]));
    assert_eq!(words(&[]), Ok(vec![]));
}

#[test]
fn faults_are_placed_where_the_number_starts() {
    assert_eq!(words(&[0x80, 0x80, 0x80, 0x80]), bad(1, 0));
    assert_eq!(words(&[0x05, 0xFF, 0xFF, 0xFF, 0xFF, 0x01]), bad(1, 1));
    assert_eq!(words(&[0x80, 0x00]), bad(2, 0));
    assert_eq!(words(&[0x01, 0x80, 0x00]), bad(2, 1));
    assert_eq!(words(&[0x80, 0x80, 0x00]), bad(2, 0));
    assert_eq!(words(&[0x80, 0x01, 0xFF, 0xFF, 0xFF, 0x00]), bad(2, 2));
    assert_eq!(words(&[0x80]), bad(3, 0));
    assert_eq!(words(&[0x07, 0x80, 0x01, 0x80, 0x80]), bad(3, 3));
    assert_eq!(words(&[0x80, 0x80, 0x80]), bad(3, 0));
}

#[test]
fn the_first_bad_number_is_told() {
    assert_eq!(words(&[0x80, 0x00, 0x80, 0x80, 0x80, 0x80]), bad(2, 0));
    assert_eq!(words(&[0x80, 0x80, 0x80, 0x80, 0x80, 0x00]), bad(1, 0));
    assert_eq!(words(&[0x03, 0x80, 0x00, 0x80]), bad(2, 1));
}

#[test]
fn room_h_reads_and_writes() {
    let words = room_h(500);
    assert_eq!(words.len(), 21);
    assert_eq!(reference::read(&SHEET_H, 21), Ok(words.clone()));
    assert_eq!(reference::read(&SHEET_H, 22), Ok(words.clone()));
    assert_eq!(reference::write(&words, 28), Ok(SHEET_H.to_vec()));
    assert_eq!(reference::write(&words, 29), Ok(SHEET_H.to_vec()));
}

#[test]
fn the_starred_bytes_are_turned_back() {
    assert_eq!(reference::read(&[0x80], 0), bad(3, 0));
    assert_eq!(reference::read(&[0x01, 0x80, 0x00], 0), bad(2, 1));
    assert_eq!(reference::read(&[0x80, 0x80, 0x80, 0x80], 0), bad(1, 0));
    assert_eq!(reference::read(&[], 0), bad(4, 0));
}
