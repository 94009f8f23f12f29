//! The archive's calls of the DC cap loop, as safe functions.

extern "C" {
    fn hutplan_step(
        controller: *mut f64,
        working: *const u8,
        budgets: *const f64,
        measured: *const f64,
        answer: *mut u8,
        answer_len: usize,
    ) -> u32;
    fn hutplan_step_all(
        controllers: *mut f64,
        controllers_len: usize,
        working: *const u8,
        working_len: usize,
        budgets: *const f64,
        budgets_len: usize,
        measured: *const f64,
        measured_len: usize,
        results: *mut u8,
        results_len: usize,
        answer: *mut u8,
        answer_len: usize,
    ) -> u32;
}

/// One step, in place: the controller's cap, k, low and high; each cord's mark, budget and measured
/// watts.
pub fn step(
    controller: &mut [f64; 4],
    working: &[u8; 4],
    budgets: &[f64; 4],
    measured: &[f64; 4],
    answer: &mut [u8],
) -> u32 {
    // SAFETY: the arrays have the lengths that the call takes, and lie apart.
    unsafe {
        hutplan_step(
            controller.as_mut_ptr(),
            working.as_ptr(),
            budgets.as_ptr(),
            measured.as_ptr(),
            answer.as_mut_ptr(),
            answer.len(),
        )
    }
}

/// A step of every controller, in place; one result each.
pub fn step_all(
    controllers: &mut [f64],
    working: &[u8],
    budgets: &[f64],
    measured: &[f64],
    results: &mut [u8],
    answer: &mut [u8],
) -> u32 {
    // SAFETY: the slices have these lengths, and lie apart.
    unsafe {
        hutplan_step_all(
            controllers.as_mut_ptr(),
            controllers.len(),
            working.as_ptr(),
            working.len(),
            budgets.as_ptr(),
            budgets.len(),
            measured.as_ptr(),
            measured.len(),
            results.as_mut_ptr(),
            results.len(),
            answer.as_mut_ptr(),
            answer.len(),
        )
    }
}
