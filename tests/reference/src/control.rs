//! The DC cap loop of document 02, A.6, after section IV.B of the report. It was written from these,
//! and landed with the product's own: it is not to be taken for another hand's.

use crate::Refusal;

/// The greatest watts of a budget, a measurement or a cap.
const MOST: f64 = 16_777_215.0;

#[derive(Clone, Copy, Debug)]
pub struct Controller {
    pub cap: f64,
    pub k: f64,
    pub low: f64,
    pub high: f64,
}

/// A working cord's budget and measured watts.
pub type Cord = Option<(f64, f64)>;

impl Controller {
    /// The cap that a step leaves.
    pub fn step(&self, cords: [Cord; 4]) -> Result<f64, Refusal> {
        self.check()?;
        for (place, cord) in cords.iter().enumerate() {
            let figures = cord.map_or(vec![], |(budget, measured)| vec![budget, measured]);
            if !figures.into_iter().all(in_range) {
                return Err(Refusal::new(17, place));
            }
        }
        let errors = cords
            .iter()
            .flatten()
            .map(|(budget, measured)| budget - measured);
        let least = errors.clone().reduce(|least, next| match next < least {
            true => next,
            false => least,
        });
        Ok(match least {
            Some(error) => self.cut(self.cap + error * self.k * errors.count() as f64),
            None => self.cap,
        })
    }

    fn check(&self) -> Result<(), Refusal> {
        let figures = [0.0, self.low, self.cap, self.high, MOST];
        let rising = figures.windows(2).all(|pair| pair[0] <= pair[1]);
        let finite = figures.iter().all(|figure| figure.is_finite());
        match rising && finite && self.k > 0.0 && self.k <= 1.0 {
            true => Ok(()),
            false => Err(Refusal::new(16, 0)),
        }
    }

    fn cut(&self, cap: f64) -> f64 {
        match cap {
            below if below < self.low => self.low,
            above if above > self.high => self.high,
            within => within,
        }
    }
}

/// Every controller's step, each with its four cords: the cap that it is left with, and the number of its
/// refusal, or 0.
pub fn step_all(controllers: &[Controller], cords: &[[Cord; 4]]) -> Vec<(f64, u64)> {
    let both = controllers.iter().zip(cords);
    both.map(|(controller, cords)| match controller.step(*cords) {
        Ok(cap) => (cap, 0),
        Err(refusal) => (controller.cap, refusal.number),
    })
    .collect()
}

fn in_range(watts: f64) -> bool {
    watts.is_finite() && (0.0..=MOST).contains(&watts)
}
