//! Caps over a slow bus: cases worked by hand from request A.13, and what it claims, tried on small
//! huts one and all.

use reference::call;
use reference::send::{send, Period};
use reference::Refusal;
use std::collections::BTreeSet;

fn period(named: &[u32], position: u64) -> Result<Period, Refusal> {
    Ok(Period {
        named: named.to_vec(),
        position,
    })
}

fn refused(number: u64, place: u64) -> Result<Period, Refusal> {
    Err(Refusal { number, place })
}

#[test]
fn the_next_servers_go_round_from_the_last_to_the_first() {
    assert_eq!(send(5, 0, 2, 2), period(&[0, 1], 2));
    assert_eq!(send(5, 2, 2, 9), period(&[2, 3], 4));
    assert_eq!(send(5, 4, 2, 2), period(&[4, 0], 1));
    assert_eq!(send(5, 3, 2, 2), period(&[3, 4], 0));
    assert_eq!(send(5, 3, 4, 4), period(&[3, 4, 0, 1], 2));
    assert_eq!(send(1, 0, 1, 1), period(&[0], 0));
    assert_eq!(send(512, 511, 2, 2), period(&[511, 0], 1));
}

#[test]
fn with_more_messages_than_servers_each_is_named_once() {
    for m in [5, 6, 512, u64::MAX] {
        assert_eq!(send(5, 3, m, 5), period(&[3, 4, 0, 1, 2], 3));
    }
    assert_eq!(
        send(512, 0, u64::MAX, 512),
        period(&Vec::from_iter(0..512), 0)
    );
}

#[test]
fn refusals_come_in_order() {
    assert_eq!(send(0, 0, 0, 0), refused(27, 0));
    assert_eq!(send(513, 600, 0, 0), refused(27, 0));
    for (count, position) in [(0, 0), (5, 5), (5, 6), (5, u64::MAX), (513, 0), (513, 512)] {
        assert_eq!(send(count, position, 1, 0), refused(28, 1));
    }
    assert_eq!(send(u64::MAX, 0, u64::MAX, 0), refused(28, 1));
    assert_eq!(send(5, 4, 3, 2), refused(12, 3));
    assert_eq!(send(5, 4, 9, 4), refused(12, 5));
    assert_eq!(send(512, 511, u64::MAX, 511), refused(12, 512));
    assert_eq!(send(5, 4, 1, 0), refused(12, 1));
}

/// The claims of A.13, at every position, with up to 24 servers and 27 messages.
#[test]
fn every_server_is_named_in_time_and_none_twice() {
    for count in 1..25_u64 {
        for m in 1..28_u64 {
            for start in 0..count {
                let (mut position, mut seen) = (start, BTreeSet::new());
                for _ in 0..count.div_ceil(m) {
                    let period = send(count, position, m, 24).expect("accepted");
                    let names = BTreeSet::from_iter(period.named.iter().copied());
                    assert_eq!(names.len(), period.named.len(), "a server twice");
                    assert_eq!(names.len() as u64, m.min(count));
                    assert_eq!(u64::from(period.named[0]), position);
                    seen.extend(names);
                    position = period.position;
                }
                assert_eq!(seen, BTreeSet::from_iter(0..count as u32));
                // Without going round early: one period fewer is too few, if it falls short.
                assert_eq!(position, (start + count.div_ceil(m) * m.min(count)) % count);
            }
        }
    }
}

#[test]
fn the_call_fills_the_front_of_list_and_answer() {
    for over in 0..5 {
        let mut list = vec![0xAA; 8 + over];
        let mut answer = vec![0xAA; 24 + over];
        assert_eq!(call::send(300, 299, 2, &mut list, &mut answer), 1);
        assert_eq!(list[..8], [43, 1, 0, 0, 0, 0, 0, 0]);
        assert_eq!(list[8..], vec![0xAA; over]);
        let mut expected = [0; 24];
        (expected[8], expected[16]) = (2, 1);
        assert_eq!(answer[..24], expected);
        assert_eq!(answer[24..], vec![0xAA; over]);
    }
}

#[test]
fn a_refusal_leaves_the_list_and_the_last_eight_bytes() {
    for length in 0..8 {
        let mut list = vec![0xAA; length];
        let mut answer = [0xAA; 24];
        assert_eq!(call::send(300, 299, 2, &mut list, &mut answer), 1);
        assert_eq!(list, vec![0xAA; length]);
        let mut expected = [0; 16];
        (expected[0], expected[8]) = (12, 2);
        assert_eq!(answer[..16], expected);
        assert_eq!(answer[16..], [0xAA; 8]);
    }
}

#[test]
fn a_short_answer_buffer_stops_the_call() {
    for length in 0..24 {
        let mut list = [0xAA; 8];
        let mut answer = vec![0xAA; length];
        assert_eq!(call::send(300, 299, 2, &mut list, &mut answer), 0);
        assert_eq!(call::send(0, 0, 0, &mut list, &mut answer), 0);
        assert_eq!(list, [0xAA; 8]);
        assert_eq!(answer, vec![0xAA; length]);
    }
}
