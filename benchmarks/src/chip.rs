//! The product's calls, each made once, for a recorder between this program and the archive: a chip then makes them again
//! and counts its instructions (benchmarks/chips). Prints a label for each call, in their order.

use crate::calls::{Inputs, Outputs, CALLS};
use crate::rooms::{bytes, room, Chance, Kind, Shape};
use crate::{joins, send, steps, FULL, SHAPES};

pub fn calls() {
    for shape in SHAPES {
        for ranks in [1, 16] {
            all_four(&format!("{shape:?}, ranks: {ranks}"), Kind { shape, ranks, ..FULL });
        }
    }
    for shape in [Shape::Chain, Shape::Binary] {
        for nodes in [64, 128, 256, 512] {
            all_four(&format!("{shape:?}, {nodes} nodes"), Kind { shape, nodes, ..FULL });
        }
        for cords in [128, 256, 512, 1024] {
            all_four(&format!("{shape:?}, {cords} cords"), Kind { shape, cords, ..FULL });
        }
        for ranks in [2, 4, 8] {
            all_four(&format!("{shape:?}, ranks: {ranks}"), Kind { shape, ranks, ..FULL });
        }
    }
    for shape in SHAPES {
        all_four(&format!("{shape:?}, large watts"), Kind { shape, watts: 1000, ..FULL });
    }
    all_four("20 servers, 4 ranks", Kind { shape: Shape::Binary, nodes: 15, cords: 40, ranks: 4, watts: 1 });
    for (way, want) in [("short", 63), ("long", 65)] {
        plan(&format!("1,024 cords of one node, the {way} way"), &one_node(want));
    }
    joins::once();
    steps::once();
    send::once();
}

/// Write, which the making of a room calls, then Read, Plan and Judge.
fn all_four(label: &str, kind: Kind) {
    println!("Write, {label}");
    let given = room(kind, 3, &mut Chance(0x9E37_79B9_7F4A_7C15));
    println!("Read, {label}");
    (CALLS[0].1)(&given, &mut Outputs::lent());
    plan(label, &given);
    println!("Judge, {label}");
    let mut out = Outputs::lent();
    (CALLS[3].1)(&given, &mut out);
    assert_eq!(out.told().0, 0, "{label}: refused");
}

fn plan(label: &str, given: &Inputs) {
    println!("Plan, {label}");
    let mut out = Outputs::lent();
    (CALLS[2].1)(given, &mut out);
    assert_eq!(out.told().0, 0, "{label}: refused");
}

/// A root of 1,024 cords that want so many watts each and may have 40,000 together. The weights of its split sum to less
/// than 65,536 with 63 W a cord and to more with 65, and all else is the same.
fn one_node(want: u32) -> Inputs {
    let mut words = vec![1, 1, 0, 50_000, 512];
    for _ in 0..512 {
        words.extend([1, 0, 2 * want, 2, 1, 500, 1, 500]);
    }
    Inputs { table: bytes(&words), demands: bytes(&[2 * want; 512]), ..Inputs::default() }
}
