//! Preloaded into a program that is compared: its `read` from standard input and its `write` to
//! standard output, made to move few bytes at a time or to fail, as environment variables say.

use std::ffi::{c_char, c_int, c_void, CStr};
use std::sync::atomic::{AtomicUsize, Ordering};

type Move = unsafe extern "C" fn(c_int, *mut c_void, usize) -> isize;

extern "C" {
    fn dlsym(handle: *mut c_void, name: *const c_char) -> *mut c_void;
    fn __errno_location() -> *mut c_int;
}

/// The next function of a name after this library's.
const RTLD_NEXT: *mut c_void = -1isize as *mut c_void;
const EIO: c_int = 5;

/// A function that is replaced.
struct Replaced {
    name: &'static CStr,
    /// The file descriptor of which calls are altered.
    fd: c_int,
    /// The variable with the most bytes that a call moves.
    most: &'static str,
    /// The variable with the number of bytes after which every call fails.
    fails_after: &'static str,
    moved: AtomicUsize,
}

static READ: Replaced = Replaced {
    name: c"read",
    fd: 0,
    most: "FAULTY_READ_MOST",
    fails_after: "FAULTY_READ_FAILS_AFTER",
    moved: AtomicUsize::new(0),
};

static WRITE: Replaced = Replaced {
    name: c"write",
    fd: 1,
    most: "FAULTY_WRITE_MOST",
    fails_after: "FAULTY_WRITE_FAILS_AFTER",
    moved: AtomicUsize::new(0),
};

/// See [`Replaced`].
///
/// # Safety
///
/// As C's.
#[no_mangle]
pub unsafe extern "C" fn read(fd: c_int, bytes: *mut c_void, count: usize) -> isize {
    READ.call(fd, bytes, count)
}

/// See [`Replaced`].
///
/// # Safety
///
/// As C's.
#[no_mangle]
pub unsafe extern "C" fn write(fd: c_int, bytes: *const c_void, count: usize) -> isize {
    WRITE.call(fd, bytes.cast_mut(), count)
}

impl Replaced {
    unsafe fn call(&self, fd: c_int, bytes: *mut c_void, count: usize) -> isize {
        let original: Move = std::mem::transmute(dlsym(RTLD_NEXT, self.name.as_ptr()));
        if fd != self.fd || count == 0 {
            return original(fd, bytes, count);
        }
        let moved = self.moved.load(Ordering::Relaxed);
        let left = number(self.fails_after).map_or(count, |after| after.saturating_sub(moved));
        if left == 0 {
            *__errno_location() = EIO;
            return -1;
        }
        let most = number(self.most).unwrap_or(count);
        let answer = original(fd, bytes, count.min(left).min(most));
        self.moved
            .fetch_add(answer.max(0) as usize, Ordering::Relaxed);
        answer
    }
}

fn number(variable: &str) -> Option<usize> {
    std::env::var(variable).ok()?.parse().ok()
}
