//! The loops of the linked library.

use crate::loops::Loops;

// A slice is handed over as its pointer and then its length.
extern "C" {
    fn timing_mul_chain(n: u64, a: u64, b: u64) -> u64;
    fn timing_mul_add_chain(n: u64, a: u64, b: u64, c: u64) -> u64;
    fn timing_add_chain(n: u64, a: u64, b: u64) -> u64;
    fn timing_sub_chain(n: u64, a: u64, b: u64) -> u64;
    fn timing_mul_each(x: *mut u64, x_len: usize, y: *const u64, y_len: usize);
    fn timing_mul_add_each(
        x: *mut u64,
        x_len: usize,
        y: *const u64,
        y_len: usize,
        z: *const u64,
        z_len: usize,
    );
    fn timing_add_each(x: *mut u64, x_len: usize, y: *const u64, y_len: usize);
    fn timing_sub_each(x: *mut u64, x_len: usize, y: *const u64, y_len: usize);
}

/// The linked library.
pub struct Linked;

// SAFETY, for every call below: the functions take any numbers, read and write only within
// the lengths that they are given, and keep no pointer.
impl Loops for Linked {
    fn mul_chain(&self, n: u64, a: u64, b: u64) -> u64 {
        unsafe { timing_mul_chain(n, a, b) }
    }

    fn mul_add_chain(&self, n: u64, a: u64, b: u64, c: u64) -> u64 {
        unsafe { timing_mul_add_chain(n, a, b, c) }
    }

    fn add_chain(&self, n: u64, a: u64, b: u64) -> u64 {
        unsafe { timing_add_chain(n, a, b) }
    }

    fn sub_chain(&self, n: u64, a: u64, b: u64) -> u64 {
        unsafe { timing_sub_chain(n, a, b) }
    }

    fn mul_each(&self, x: &mut [u64], y: &[u64]) {
        unsafe { timing_mul_each(x.as_mut_ptr(), x.len(), y.as_ptr(), y.len()) }
    }

    fn mul_add_each(&self, x: &mut [u64], y: &[u64], z: &[u64]) {
        let (x_ptr, x_len) = (x.as_mut_ptr(), x.len());
        unsafe {
            timing_mul_add_each(x_ptr, x_len, y.as_ptr(), y.len(), z.as_ptr(), z.len());
        }
    }

    fn add_each(&self, x: &mut [u64], y: &[u64]) {
        unsafe { timing_add_each(x.as_mut_ptr(), x.len(), y.as_ptr(), y.len()) }
    }

    fn sub_each(&self, x: &mut [u64], y: &[u64]) {
        unsafe { timing_sub_each(x.as_mut_ptr(), x.len(), y.as_ptr(), y.len()) }
    }
}
