//! Lists as a program has them that trusts its own indexes: nothing is cleared before it is written, and no index is checked. Only
//! what was checked before may use them: every index below comes from a table that passed its checks.

use std::mem::MaybeUninit;
use std::ops::{Index, IndexMut};

/// A list of so many entries. An entry is read only after it was written.
pub struct List<T, const N: usize>(MaybeUninit<[T; N]>);

impl<T: Copy, const N: usize> List<T, N> {
    pub fn new() -> List<T, N> {
        List(MaybeUninit::uninit())
    }

    /// The first entries, all written.
    pub fn front(&self, count: usize) -> &[T] {
        debug_assert!(count <= N);
        // SAFETY: the caller has written so many entries, and there are no more than the list has.
        unsafe { std::slice::from_raw_parts(self.0.as_ptr().cast(), count) }
    }

    /// So many entries of a value, from the first.
    pub fn fill(&mut self, count: usize, value: T) {
        for i in 0..count {
            self[i] = value;
        }
    }

    /// Puts four entries down, side by side.
    pub fn put_four(&mut self, from: usize, four: [T; 4]) {
        debug_assert!(from + 4 <= N);
        // SAFETY: the caller has room for four entries from there on.
        unsafe { self.0.as_mut_ptr().cast::<T>().add(from).cast::<[T; 4]>().write_unaligned(four) }
    }
}

impl<T, const N: usize> Index<usize> for List<T, N> {
    type Output = T;

    #[inline(always)]
    fn index(&self, i: usize) -> &T {
        debug_assert!(i < N);
        // SAFETY: the index is one of a checked table's, below the list's length, and the entry was written.
        unsafe { &*self.0.as_ptr().cast::<T>().add(i) }
    }
}

impl<T, const N: usize> IndexMut<usize> for List<T, N> {
    #[inline(always)]
    fn index_mut(&mut self, i: usize) -> &mut T {
        debug_assert!(i < N);
        // SAFETY: as above; what is not written yet is only written through it.
        unsafe { &mut *self.0.as_mut_ptr().cast::<T>().add(i) }
    }
}
