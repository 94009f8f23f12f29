//! Send beside plain Rust: equal answers, then times by how many servers a period names, and its stack.

use crate::calls::{Call, Inputs, Outputs};
use crate::compare::both;
use crate::{stack, times};

#[rustfmt::skip] // As in calls.rs.
extern "C" {
    fn hutplan_send(
        count: u64, position: u64, m: u64,
        list: *mut u8, list_len: usize, answer: *mut u8, answer_len: usize,
    ) -> u32;
}

/// Each period's name, the product's call and the baseline's, from position 300 of 512.
const PERIODS: [(&str, Call, Call); 3] = [
    ("Send, 1 of 512", product::<1>, baseline::<1>),
    ("Send, 32 of 512", product::<32>, baseline::<32>),
    ("Send, 512 of 512", product::<512>, baseline::<512>),
];

fn product<const M: u64>(_: &Inputs, out: &mut Outputs) -> u32 {
    let (list, answer) = (&mut out.first, &mut out.answer);
    // SAFETY: the buffers are lent whole.
    unsafe { hutplan_send(512, 300, M, list.as_mut_ptr(), list.len(), answer.as_mut_ptr(), answer.len()) }
}

fn baseline<const M: u64>(_: &Inputs, out: &mut Outputs) -> u32 {
    plain(std::hint::black_box(512), 300, M, &mut out.first, &mut out.answer)
}

fn plain(count: u64, position: u64, m: u64, list: &mut [u8], answer: &mut [u8]) -> u32 {
    let Some(answer) = answer.first_chunk_mut::<24>() else { return 0 };
    let named = m.min(count);
    let (number, figure) = match () {
        _ if m == 0 => (27, 0),
        _ if position >= count || count > 512 => (28, 1),
        _ if (list.len() as u64) / 4 < named => (12, named),
        _ => (0, named),
    };
    answer[..8].copy_from_slice(&u64::to_le_bytes(number));
    answer[8..16].copy_from_slice(&figure.to_le_bytes());
    if number != 0 {
        return 1;
    }
    let mut server = position;
    for word in list.chunks_exact_mut(4).take(named as usize) {
        word.copy_from_slice(&(server as u32).to_le_bytes());
        server = if server + 1 < count { server + 1 } else { 0 };
    }
    answer[16..].copy_from_slice(&server.to_le_bytes());
    1
}

pub fn periods() {
    let rooms = vec![Inputs::default(); 8];
    println!("Send                                     product  baseline     ratio");
    for (name, product, baseline) in PERIODS {
        let out = both(name, product, baseline, &rooms[0], Outputs::lent());
        assert_eq!(out.told().0, 0, "{name} is refused");
        let (ours, theirs) = times(product, baseline, &rooms);
        println!("{name:36} {ours:11.2} {theirs:9.2} {:9.2}", ours / theirs);
    }
    let mut out = Outputs::lent();
    let mut depth = |call: Call| stack::depth(&mut || call(&rooms[0], &mut out));
    let (_, product, baseline) = PERIODS[2];
    println!("its stack, in bytes                  {:10} {:9}", depth(product), depth(baseline));
    println!();
}

/// Each period once.
pub fn once() {
    for (name, product, _) in PERIODS {
        println!("{name}");
        product(&Inputs::default(), &mut Outputs::lent());
    }
}
