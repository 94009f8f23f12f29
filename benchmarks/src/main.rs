//! The C calls beside plain Rust: equal answers first, then times, growth, stack and size.

mod calls;
mod chip;
mod compare;
mod joins;
mod plain;
mod rooms;
mod send;
mod stack;
mod steps;

use std::process::Command;
use std::time::Instant;

use calls::{Call, Inputs, Outputs, CALLS};
use rooms::{room, Chance, Kind, Shape};

/// Rooms of each kind. One sample runs them all, so that no branch predictor learns a room.
const ROOMS: usize = 8;

/// Samples of each call on each side, in turn. The least is told: what else runs on the machine only adds.
const ROUNDS: usize = 150;

const SHAPES: [Shape; 4] = [Shape::Chain, Shape::Star, Shape::Binary, Shape::Feeds];

const FULL: Kind = Kind { shape: Shape::Binary, nodes: 512, cords: 1024, ranks: 16, watts: 1 };

fn main() {
    if std::env::args().any(|word| word == "--once") {
        return chip::calls();
    }
    println!("Microseconds a call: the least of {ROUNDS} rounds, product and baseline in turn, {ROOMS} rooms a round.");
    println!();
    full_rooms();
    small_rooms();
    growth();
    large_watts();
    joins::huts();
    steps::times();
    stack_depths();
    send::periods();
    archive_size();
}

/// Rooms of a kind, on which both sides have given equal answers.
fn compared_rooms(kind: Kind) -> Vec<Inputs> {
    let mut chance = Chance(0x9E37_79B9_7F4A_7C15);
    let rooms: Vec<Inputs> = (0..ROOMS).map(|i| room(kind, 1 + i as u32 % 3, &mut chance)).collect();
    for given in &rooms {
        compare::good(given);
        compare::damaged(given, &mut chance);
    }
    rooms
}

fn full_rooms() {
    println!("512 nodes, 512 servers, 1,024 cords      product  baseline     ratio");
    for shape in SHAPES {
        for ranks in [1, 4, 16] {
            let rooms = compared_rooms(Kind { shape, ranks, ..FULL });
            for (name, product, baseline) in CALLS {
                let (ours, theirs) = times(product, baseline, &rooms);
                let label = format!("{name}, {shape:?}, ranks: {ranks}");
                println!("{label:36} {ours:11.2} {theirs:9.2} {:9.2}", ours / theirs);
            }
        }
    }
    println!();
}

/// The least time of a call on each side, a room.
fn times(product: Call, baseline: Call, rooms: &[Inputs]) -> (f64, f64) {
    times_into(&mut Outputs::lent(), product, baseline, rooms)
}

/// The same, into lists of other lengths.
fn times_into(out: &mut Outputs, product: Call, baseline: Call, rooms: &[Inputs]) -> (f64, f64) {
    let mut least = (f64::MAX, f64::MAX);
    for _ in 0..ROUNDS {
        least.0 = least.0.min(sample(product, rooms, out));
        least.1 = least.1.min(sample(baseline, rooms, out));
    }
    least
}

fn sample(call: Call, rooms: &[Inputs], out: &mut Outputs) -> f64 {
    let start = Instant::now();
    for given in rooms {
        call(std::hint::black_box(given), out);
    }
    start.elapsed().as_secs_f64() * 1e6 / rooms.len() as f64
}

fn growth() {
    println!("What is not told is of full size         product  baseline     ratio");
    for shape in [Shape::Chain, Shape::Binary] {
        for nodes in [64, 128, 256, 512] {
            grown(&format!("{shape:?}, {nodes} nodes"), Kind { shape, nodes, ..FULL });
        }
        for cords in [128, 256, 512, 1024] {
            grown(&format!("{shape:?}, {cords} cords"), Kind { shape, cords, ..FULL });
        }
        for ranks in [1, 2, 4, 8, 16] {
            grown(&format!("{shape:?}, ranks: {ranks}"), Kind { shape, ranks, ..FULL });
        }
    }
    println!();
}

/// Plan and Judge in rooms such as most huts have: what does not grow with the room counts most.
fn small_rooms() {
    println!("10 nodes, 20 servers, 40 cords           product  baseline     ratio");
    for shape in SHAPES {
        for ranks in [1, 4] {
            grown(&format!("{shape:?}, ranks: {ranks}"), Kind { shape, ranks, nodes: 10, cords: 40, ..FULL });
        }
    }
    println!();
}

/// Plan, and Judge beside it, where the weights of a node's children mostly sum to 65,536 or more, so that the split goes its long way.
fn large_watts() {
    println!("Full size, large watts                   product  baseline     ratio");
    for shape in SHAPES {
        for ranks in [1, 16] {
            grown(&format!("{shape:?}, ranks: {ranks}"), Kind { shape, ranks, watts: 1000, ..FULL });
        }
    }
    println!();
}

fn grown(label: &str, kind: Kind) {
    let rooms = compared_rooms(kind);
    for (name, product, baseline) in &CALLS[2..] {
        let (ours, theirs) = times(*product, *baseline, &rooms);
        let label = format!("{name}, {label}");
        println!("{label:36} {ours:11.2} {theirs:9.2} {:9.2}", ours / theirs);
    }
}

/// The deepest stack of each call over the rooms of every shape.
fn stack_depths() {
    println!("Stack, in bytes                         product  baseline");
    for (name, product, baseline) in CALLS {
        let mut deepest = (0, 0);
        for shape in SHAPES {
            for given in compared_rooms(Kind { shape, ..FULL }) {
                let mut out = Outputs::lent();
                let mut depth = |call: Call| stack::depth(&mut || call(&given, &mut out));
                deepest = (depth(product).max(deepest.0), depth(baseline).max(deepest.1));
            }
        }
        println!("{name:36} {:10} {:9}", deepest.0, deepest.1);
    }
    steps::stack_depth();
    println!();
}

/// The archive's own size, and that of its members' code and constants, where binutils are there to tell.
fn archive_size() {
    let archive = env!("HUTPLAN_ARCHIVE");
    if let Ok(file) = std::fs::metadata(archive) {
        println!("Archive: {} bytes", file.len());
    }
    if let Ok(listed) = Command::new("size").args(["-A", archive]).output() {
        let listed = String::from_utf8_lossy(&listed.stdout);
        println!("its .text: {} bytes, its .rodata: {} bytes", section(&listed, ".text"), section(&listed, ".rodata"));
    }
}

/// The sum over a section and its parts, as `.text` has `.text.hutplan_read`.
fn section(listed: &str, name: &str) -> u64 {
    let sizes = listed.lines().filter(|line| line.starts_with(name)).filter_map(|line| line.split_whitespace().nth(1));
    sizes.filter_map(|size| size.parse::<u64>().ok()).sum()
}
