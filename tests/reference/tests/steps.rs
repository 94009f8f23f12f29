//! The DC cap loop on figures worked by hand from document 02, A.6.

use reference::control::{Controller, Cord};
use reference::{call, Refusal};

const SERVER: Controller = Controller {
    cap: 300.0,
    k: 0.5,
    low: 100.0,
    high: 400.0,
};

fn refused(number: u64, place: u64) -> Result<f64, Refusal> {
    Err(Refusal { number, place })
}

/// The cap that is left, bit for bit.
fn cap(controller: Controller, cords: [Cord; 4]) -> u64 {
    let stepped = controller.step(cords);
    stepped.expect("a good step").to_bits()
}

#[test]
fn the_least_error_moves_the_cap() {
    // Errors 10 and 20: (10 × 0.5) × 2 = 10.
    let cords = [Some((200.0, 190.0)), None, Some((200.0, 180.0)), None];
    assert_eq!(SERVER.step(cords), Ok(310.0));
    // Errors 10 and -60: (-60 × 0.5) × 2 = -60.
    let cords = [Some((200.0, 190.0)), None, None, Some((140.0, 200.0))];
    assert_eq!(SERVER.step(cords), Ok(240.0));
}

#[test]
fn the_sum_is_cut_to_the_range() {
    let more = [Some((1000.0, 100.0)), None, None, None];
    assert_eq!(SERVER.step(more), Ok(400.0));
    let less = [Some((100.0, 1000.0)), None, None, None];
    assert_eq!(SERVER.step(less), Ok(100.0));
}

#[test]
fn with_no_working_cord_the_cap_stays() {
    assert_eq!(SERVER.step([None; 4]), Ok(300.0));
}

#[test]
fn a_cord_at_no_watts_works() {
    // Errors 0 - 0 and 50 - 10, over two cords; with one cord the cap would become 320.
    let cords = [Some((0.0, 0.0)), Some((50.0, 10.0)), None, None];
    assert_eq!(SERVER.step(cords), Ok(300.0));
}

#[test]
fn each_operation_is_rounded_once_and_in_order() {
    // (2.9 × 0.05) × 3 is 0.43499999999999994; 2.9 × (0.05 × 3) is 0.43500000000000005, and
    // (2.9 × 3) × 0.05 is 0.435.
    let server = Controller {
        cap: 0.0,
        k: 0.05,
        low: 0.0,
        high: 1.0,
    };
    let cord = Some((2.9, 0.0));
    let stepped = cap(server, [cord, cord, cord, None]);
    assert_eq!(stepped, 0.43499999999999994_f64.to_bits());
}

#[test]
fn of_equal_errors_the_first_is_taken() {
    // -0 - 0 is -0, and 0 - 0 is +0; -0 plus -0 stays -0, and -0 plus +0 is +0.
    let server = Controller {
        cap: -0.0,
        k: 1.0,
        low: -0.0,
        high: 1.0,
    };
    let (minus, plus) = (Some((-0.0, 0.0)), Some((0.0, 0.0)));
    assert_eq!(cap(server, [minus, plus, None, None]), (-0.0_f64).to_bits());
    assert_eq!(cap(server, [plus, minus, None, None]), 0.0_f64.to_bits());
}

#[test]
fn a_controller_out_of_range_is_refused_first() {
    let bad = Some((-1.0, f64::NAN));
    for k in [0.0, -0.0, -0.5, 1.0000000000000002, f64::INFINITY, f64::NAN] {
        assert_eq!(Controller { k, ..SERVER }.step([bad; 4]), refused(16, 0));
    }
    for low in [-1e-300, 300.00000000000006, f64::NEG_INFINITY, f64::NAN] {
        assert_eq!(Controller { low, ..SERVER }.step([bad; 4]), refused(16, 0));
    }
    for high in [299.9, 16_777_216.0, f64::INFINITY, f64::NAN] {
        assert_eq!(Controller { high, ..SERVER }.step([bad; 4]), refused(16, 0));
    }
    for cap in [99.9, 400.1, f64::INFINITY, f64::NAN] {
        assert_eq!(Controller { cap, ..SERVER }.step([bad; 4]), refused(16, 0));
    }
}

#[test]
fn the_first_cord_out_of_range_is_named() {
    let good = Some((16_777_215.0, 0.0));
    for bad in [-1e-300, 16_777_215.000000002, f64::INFINITY, f64::NAN] {
        for place in 0..4 {
            for reading in [Some((bad, 1.0)), Some((1.0, bad))] {
                let mut cords = [good; 4];
                cords[place..].fill(reading);
                assert_eq!(SERVER.step(cords), refused(17, place as u64));
            }
        }
    }
    assert_eq!(SERVER.step([good, None, good, None]), Ok(400.0));
}

#[test]
fn the_call_changes_the_cap_alone() {
    let mut controller = [300.0, 0.5, 100.0, 400.0];
    let (budgets, measured) = ([200.0, f64::NAN, 0.0, 0.0], [190.0, -7.0, 0.0, 0.0]);
    let mut answer = [0xAA; 18];
    let returned = call::step(
        &mut controller,
        &[255, 0, 0, 0],
        &budgets,
        &measured,
        &mut answer,
    );
    assert_eq!((returned, controller), (1, [305.0, 0.5, 100.0, 400.0]));
    assert_eq!(answer, [[0; 16].as_slice(), &[0xAA; 2]].concat()[..]);

    let returned = call::step(
        &mut controller,
        &[1, 1, 0, 0],
        &budgets,
        &measured,
        &mut answer,
    );
    assert_eq!((returned, controller), (1, [305.0, 0.5, 100.0, 400.0]));
    assert_eq!(
        answer[..16],
        [17, 0, 0, 0, 0, 0, 0, 0, 1, 0, 0, 0, 0, 0, 0, 0]
    );

    let mut short = [0xAA; 15];
    let returned = call::step(
        &mut controller,
        &[1, 0, 0, 0],
        &budgets,
        &measured,
        &mut short,
    );
    assert_eq!(
        (returned, controller, short),
        (0, [305.0, 0.5, 100.0, 400.0], [0xAA; 15])
    );
}

/// Three controllers, of which the second has no efficiency and the third a bad reading at cord 1.
fn three() -> ([f64; 12], [u8; 12], [f64; 12], [f64; 12]) {
    let controllers = [
        [300.0, 0.5, 100.0, 400.0],
        [300.0, 0.0, 100.0, 400.0],
        [300.0, 0.5, 100.0, 400.0],
    ];
    let working = [[1, 0, 0, 1], [1, 0, 0, 0], [1, 1, 0, 0]];
    let budgets = [
        [200.0, 0.0, 0.0, 250.0],
        [200.0, 0.0, 0.0, 0.0],
        [200.0, -1.0, 0.0, 0.0],
    ];
    let measured = [[190.0, 0.0, 0.0, 190.0], [190.0; 4], [190.0; 4]];
    (
        controllers.concat().try_into().expect("twelve"),
        working.concat().try_into().expect("twelve"),
        budgets.concat().try_into().expect("twelve"),
        measured.concat().try_into().expect("twelve"),
    )
}

#[test]
fn a_pass_steps_those_that_can_be_stepped() {
    let (mut controllers, working, budgets, measured) = three();
    let mut expected = controllers;
    expected[0] = 310.0;
    let (mut results, mut answer) = ([0xAA; 3], [0xAA; 16]);
    let returned = call::step_all(
        &mut controllers,
        &working,
        &budgets,
        &measured,
        &mut results,
        &mut answer,
    );
    assert_eq!((returned, controllers, results), (1, expected, [0, 16, 17]));
    assert_eq!(answer, [0, 0, 0, 0, 0, 0, 0, 0, 1, 0, 0, 0, 0, 0, 0, 0]);
}

#[test]
fn lists_that_do_not_fit_are_refused_before_any_step() {
    let (controllers, working, budgets, measured) = three();
    let refused = |w: usize, b: usize, m: usize, r: usize| {
        let (mut after, mut results, mut answer) = (controllers, [0xAA; 4], [0xAA; 16]);
        call::step_all(
            &mut after,
            &working[..w],
            &budgets[..b],
            &measured[..m],
            &mut results[..r],
            &mut answer,
        );
        assert_eq!((after, results), (controllers, [0xAA; 4]));
        assert_eq!(answer, [18, 0, 0, 0, 0, 0, 0, 0, 3, 0, 0, 0, 0, 0, 0, 0]);
    };
    refused(11, 12, 12, 3);
    refused(12, 8, 12, 3);
    refused(12, 12, 0, 3);
    refused(12, 12, 12, 2);
    refused(12, 12, 12, 4);
}

#[test]
fn at_most_512_controllers_are_stepped() {
    for (count, number, figure) in [(512, 0, 512), (513, 18, 513)] {
        let mut controllers = [300.0, 0.5, 100.0, 400.0].repeat(count);
        let (marks, watts) = (vec![0; 4 * count], vec![0.0; 4 * count]);
        let (mut results, mut answer) = (vec![9; count], [0xAA; 16]);
        let (working, budgets) = (&marks, &watts);
        call::step_all(
            &mut controllers,
            working,
            budgets,
            &watts,
            &mut results,
            &mut answer,
        );
        assert_eq!(answer[..8], u64::to_le_bytes(number));
        assert_eq!(answer[8..], u64::to_le_bytes(figure));
        assert!(results
            .iter()
            .all(|result| *result == if number == 0 { 0 } else { 9 }));
    }
}

#[test]
fn figures_over_belong_to_no_controller() {
    let mut controllers = [300.0, 0.5, 100.0, 400.0, 1.0, 2.0, 3.0];
    let (mut results, mut answer) = ([9], [0xAA; 16]);
    let returned = call::step_all(
        &mut controllers,
        &[1, 0, 0, 0],
        &[200.0; 4],
        &[190.0; 4],
        &mut results,
        &mut answer,
    );
    assert_eq!((returned, results), (1, [0]));
    assert_eq!(controllers, [305.0, 0.5, 100.0, 400.0, 1.0, 2.0, 3.0]);
}
