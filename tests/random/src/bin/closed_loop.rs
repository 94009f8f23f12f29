//! The archive's step in a closed loop with a simple model of a server with two supplies: the plot of
//! docs/CONTROL.md. Fails if the loop does not settle on its budgets. With the argument `reference`
//! the reference's step runs in the loop, which makes the plot that is expected.

use std::env;
use std::process::exit;

/// What the server's parts would draw without a cap, in DC watts.
const LOAD: f64 = 480.0;
/// The supplies' efficiency.
const K: f64 = 0.9;
/// The part of the load that the first supply carries while both work.
const FIRST: f64 = 0.55;
/// The part of the way to its new draw that the server goes in a period.
const FOLLOWS: f64 = 0.8;
const PERIODS: usize = 36;
/// The watts of one column of the plot.
const SCALE: f64 = 10.0;

/// The periods in which the loop must have settled: the last ones before something changes. Each has
/// the supply that is at its budget, if one is.
const SETTLED: [(usize, Option<usize>); 4] =
    [(3, None), (13, Some(1)), (23, Some(0)), (35, Some(0))];

/// A step's arguments are the controller, the marks, the budgets, the measured watts and the answer.
type Step = fn(&mut [f64; 4], &[u8; 4], &[f64; 4], &[f64; 4], &mut [u8]) -> u32;

struct Server {
    step: Step,
    controller: [f64; 4],
    draw: f64,
    working: [u8; 4],
    budgets: [f64; 4],
}

impl Server {
    /// AC watts of each supply: what works carries the whole draw.
    fn measured(&self) -> [f64; 4] {
        let carried = match self.working {
            [1, 1, ..] => [FIRST, 1.0 - FIRST],
            [1, 0, ..] => [1.0, 0.0],
            _ => [0.0, 1.0],
        };
        [
            carried[0] * self.draw / K,
            carried[1] * self.draw / K,
            0.0,
            0.0,
        ]
    }

    /// One period: the loop's step, then the server follows its cap.
    fn period(&mut self) {
        let measured = self.measured();
        let mut answer = [0xFF; 16];
        let returned = (self.step)(
            &mut self.controller,
            &self.working,
            &self.budgets,
            &measured,
            &mut answer,
        );
        assert!(returned == 1 && answer == [0; 16], "a step was refused");
        let wanted = LOAD.min(self.controller[0]);
        self.draw += FOLLOWS * (wanted - self.draw);
    }
}

/// A line of the plot: each supply's watts by its number, the budgets by `|`, the cap by `c`.
fn line(period: usize, server: &Server) -> String {
    let measured = server.measured();
    let mut row = vec![' '; 60];
    let mut put = |watts: f64, mark: char| row[(watts / SCALE).round() as usize] = mark;
    for supply in (0..2).filter(|supply| server.working[*supply] != 0) {
        put(server.budgets[supply], '|');
    }
    put(server.controller[0], 'c');
    for (supply, mark) in ['1', '2'].into_iter().enumerate() {
        if server.working[supply] != 0 {
            put(measured[supply], mark);
        }
    }
    let row: String = row.into_iter().collect();
    let watts = |supply: usize| match server.working[supply] {
        0 => "    -".to_string(),
        _ => format!("{:5.0}", measured[supply]),
    };
    let [cap, ..] = server.controller;
    let text = format!("{period:3} {cap:5.0} {} {}  {row}", watts(0), watts(1));
    text.trim_end().to_string()
}

fn main() {
    let step: Step = match env::args().nth(1).as_deref() {
        Some("reference") => reference::call::step,
        _ => random::steps::step,
    };
    let mut server = Server {
        step,
        controller: [500.0, K, 120.0, 500.0],
        draw: LOAD,
        working: [1, 1, 0, 0],
        budgets: [320.0, 320.0, 0.0, 0.0],
    };
    let mut settled = true;
    println!("  p   cap     1     2  0         100       200       300       400       500");
    for period in 0..PERIODS {
        match period {
            4 => server.budgets[1] = 200.0,
            14 => server.budgets[0] = 150.0,
            24 => {
                server.working[1] = 0;
                server.budgets[0] = 240.0;
            }
            _ => {}
        }
        println!("{}", line(period, &server));
        server.period();
        for (_, bound) in SETTLED.into_iter().filter(|(at, _)| *at == period) {
            let measured = server.measured();
            let over =
                (0..2).any(|i| server.working[i] != 0 && measured[i] > server.budgets[i] + 0.5);
            let below = bound.is_some_and(|i| measured[i] < server.budgets[i] - 0.5);
            settled &= !over && !below;
        }
    }
    if !settled {
        println!("the loop has not settled");
        exit(1);
    }
}
