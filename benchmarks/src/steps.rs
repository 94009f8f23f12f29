//! A step of every controller beside plain Rust: equal lists first, then times.

use std::time::Instant;

use crate::plain;
use crate::rooms::Chance;
use crate::stack;

const LISTS: usize = 8;
const ROUNDS: usize = 400;

#[rustfmt::skip] // A line a buffer pair would be thrice as long.
extern "C" {
    fn hutplan_step_all(
        controllers: *mut f64, controllers_len: usize, working: *const u8, working_len: usize,
        budgets: *const f64, budgets_len: usize, measured: *const f64, measured_len: usize,
        results: *mut u8, results_len: usize, answer: *mut u8, answer_len: usize,
    ) -> u32;
}

/// What a pass takes and changes.
#[derive(Clone)]
struct Lists {
    controllers: Vec<f64>,
    working: Vec<u8>,
    budgets: Vec<f64>,
    measured: Vec<f64>,
    results: Vec<u8>,
    answer: [u8; 16],
}

type Pass = fn(&mut Lists) -> u32;

/// Which cords work: two, all four, or any, with some controllers and readings out of their range.
#[derive(Clone, Copy, Debug)]
enum Cords {
    Two,
    Four,
    Any,
}

fn lists(count: usize, cords: Cords, chance: &mut Chance) -> Lists {
    let mut watts = |most: u32| f64::from(chance.below(most)) + f64::from(chance.below(1000)) / 1000.0;
    let mut made = Lists {
        controllers: (0..count).flat_map(|_| [200.0 + watts(200), 0.9, 100.0, 450.0]).collect(),
        working: vec![1; 4 * count],
        budgets: (0..4 * count).map(|_| 100.0 + watts(300)).collect(),
        measured: (0..4 * count).map(|_| 100.0 + watts(300)).collect(),
        results: vec![0xA5; count],
        answer: [0xA5; 16],
    };
    for (at, mark) in made.working.iter_mut().enumerate() {
        *mark = match cords {
            Cords::Two => u8::from(at % 4 < 2),
            Cords::Four => 1,
            Cords::Any => chance.below(2) as u8,
        };
    }
    if let Cords::Any = cords {
        for _ in 0..count / 16 {
            made.controllers[4 * chance.below(count as u32) as usize + 1] = 0.0;
            made.budgets[chance.below(4 * count as u32) as usize] = f64::NAN;
        }
    }
    made
}

#[rustfmt::skip] // A list's pointer and length stand on one line.
fn product(lists: &mut Lists) -> u32 {
    // SAFETY: each pointer goes with its own list's length, and the lists lie apart.
    unsafe {
        hutplan_step_all(
            lists.controllers.as_mut_ptr(), lists.controllers.len(),
            lists.working.as_ptr(), lists.working.len(),
            lists.budgets.as_ptr(), lists.budgets.len(),
            lists.measured.as_ptr(), lists.measured.len(),
            lists.results.as_mut_ptr(), lists.results.len(),
            lists.answer.as_mut_ptr(), lists.answer.len(),
        )
    }
}

fn baseline(lists: &mut Lists) -> u32 {
    plain::step_all(
        &mut lists.controllers,
        &lists.working,
        &lists.budgets,
        &lists.measured,
        &mut lists.results,
        &mut lists.answer,
    )
}

/// All that a pass leaves, in bits.
fn left(pass: Pass, given: &Lists) -> (u32, Vec<u64>, Vec<u8>, [u8; 16]) {
    let mut lists = given.clone();
    let returned = pass(&mut lists);
    (returned, lists.controllers.iter().map(|figure| figure.to_bits()).collect(), lists.results, lists.answer)
}

/// Microseconds of a pass, from the lists as given.
fn sample(pass: Pass, given: &[Lists], work: &mut [Lists]) -> f64 {
    let mut spent = 0.0;
    for (lists, given) in work.iter_mut().zip(given) {
        lists.controllers.copy_from_slice(&given.controllers);
        let start = Instant::now();
        std::hint::black_box(pass(std::hint::black_box(lists)));
        spent += start.elapsed().as_secs_f64();
    }
    spent * 1e6 / given.len() as f64
}

pub fn times() {
    println!("Step all, controllers                    product  baseline     ratio");
    let mut chance = Chance(0x9E37_79B9_7F4A_7C15);
    for cords in [Cords::Two, Cords::Four, Cords::Any] {
        for count in [64, 128, 256, 512] {
            let given: Vec<Lists> = (0..LISTS).map(|_| lists(count, cords, &mut chance)).collect();
            for lists in &given {
                assert!(left(product, lists) == left(baseline, lists), "step all: lists differ");
            }
            let (mut work, mut least) = (given.clone(), (f64::MAX, f64::MAX));
            for _ in 0..ROUNDS {
                least.0 = least.0.min(sample(product, &given, &mut work));
                least.1 = least.1.min(sample(baseline, &given, &mut work));
            }
            let label = format!("{count}, working cords: {cords:?}");
            println!("{label:36} {:11.2} {:9.2} {:9.2}", least.0, least.1, least.0 / least.1);
        }
    }
    println!();
}

/// The stack of a pass over 512 controllers.
pub fn stack_depth() {
    let mut chance = Chance(1);
    let mut given = lists(512, Cords::Any, &mut chance);
    let ours = stack::depth(&mut || product(&mut given));
    let theirs = stack::depth(&mut || baseline(&mut given));
    println!("{:36} {ours:10} {theirs:9}", "Step all");
}

/// One pass over 512 controllers, for each kind of their cords.
pub fn once() {
    let mut chance = Chance(1);
    for cords in [Cords::Two, Cords::Four, Cords::Any] {
        println!("Step all, 512 controllers, working cords: {cords:?}");
        product(&mut lists(512, cords, &mut chance));
    }
}
