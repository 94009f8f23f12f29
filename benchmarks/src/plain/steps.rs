//! A step of every controller, of document 02's A.7, over the lists that a C caller lends.

use super::{tell, Refusal};

const MOST_CONTROLLERS: usize = 512;
const MOST: f64 = 16_777_215.0;

pub fn step_all(
    controllers: &mut [f64],
    working: &[u8],
    budgets: &[f64],
    measured: &[f64],
    results: &mut [u8],
    answer: &mut [u8],
) -> u32 {
    tell(answer, || {
        let count = controllers.len() / 4;
        let lengths = [working.len(), budgets.len(), measured.len()];
        if count > MOST_CONTROLLERS || lengths != [4 * count; 3] || results.len() != count {
            return Err(Refusal(18, count as u64));
        }
        let cords = working.chunks_exact(4).zip(budgets.chunks_exact(4)).zip(measured.chunks_exact(4));
        let mut stepped = 0;
        for ((controller, ((marks, budgets), measured)), result) in
            controllers.chunks_exact_mut(4).zip(cords).zip(results)
        {
            *result = step(
                controller.try_into().unwrap(),
                marks.try_into().unwrap(),
                budgets.try_into().unwrap(),
                measured.try_into().unwrap(),
            );
            stepped += u64::from(*result == 0);
        }
        Ok(stepped)
    })
}

/// One step, in place: 0, or the refusal's number.
fn step(controller: &mut [f64; 4], marks: &[u8; 4], budgets: &[f64; 4], measured: &[f64; 4]) -> u8 {
    let [cap, k, low, high] = *controller;
    if !(0.0 < k && k <= 1.0 && 0.0 <= low && low <= cap && cap <= high && high <= MOST) {
        return 16;
    }
    let (mut least, mut count) = (f64::INFINITY, 0);
    for i in 0..4 {
        if marks[i] != 0 {
            let good = |watts: f64| (0.0..=MOST).contains(&watts);
            if !(good(budgets[i]) && good(measured[i])) {
                return 17;
            }
            let error = budgets[i] - measured[i];
            if error < least {
                least = error;
            }
            count += 1;
        }
    }
    if count > 0 {
        let sum = cap + (least * k) * f64::from(count);
        controller[0] = if sum < low {
            low
        } else if high < sum {
            high
        } else {
            sum
        };
    }
    0
}
