//! How deep a call goes, on a stack of its own that is painted beforehand.

use std::arch::asm;

const STACK: usize = 1 << 20;
const PAINT: u8 = 0xC3;

/// A call, for the far side of the change of stacks.
struct Errand<'a> {
    call: &'a mut dyn FnMut() -> u32,
}

/// The bytes of stack that a call used, without those that an empty one uses.
pub fn depth(call: &mut dyn FnMut() -> u32) -> usize {
    let own = painted(&mut || 1);
    painted(call) - own
}

fn painted(call: &mut dyn FnMut() -> u32) -> usize {
    let mut stack = vec![PAINT; STACK];
    let mut errand = Errand { call };
    let top = (stack.as_mut_ptr() as usize + STACK) & !15;
    // SAFETY: a mebibyte is far more than any call needs; r12, which every callee keeps, holds the old stack meanwhile.
    unsafe {
        asm!(
            "mov r12, rsp",
            "mov rsp, {top}",
            "call {run}",
            "mov rsp, r12",
            top = in(reg) top,
            run = sym run,
            in("rdi") &mut errand,
            out("r12") _,
            clobber_abi("C"),
        );
    }
    STACK - stack.iter().take_while(|&&byte| byte == PAINT).count()
}

extern "C" fn run(errand: &mut Errand) {
    (errand.call)();
}
