//! Counts what the C library's functions copy and fill.
//!
//! The linker sends every call of `memcpy` here as `__wrap_memcpy`, and `__real_memcpy` from here to the C library
//! (`--wrap`, see build.rs); so too the other two. The detour makes a get slower by about a hundredth.

use std::ffi::{c_int, c_void};
use std::sync::atomic::{AtomicBool, AtomicU64, Ordering::Relaxed};

use yokehour_host::bench::{Copies, Moved};

extern "C" {
    fn __real_memcpy(to: *mut c_void, from: *const c_void, bytes: usize) -> *mut c_void;
    fn __real_memmove(to: *mut c_void, from: *const c_void, bytes: usize) -> *mut c_void;
    fn __real_memset(to: *mut c_void, byte: c_int, bytes: usize) -> *mut c_void;
}

/// Whether calls are counted now.
static COUNTING: AtomicBool = AtomicBool::new(false);

/// What one function did while calls were counted.
struct Tally {
    calls: AtomicU64,
    bytes: AtomicU64,
}

impl Tally {
    const fn zero() -> Tally {
        Tally { calls: AtomicU64::new(0), bytes: AtomicU64::new(0) }
    }

    #[inline(always)]
    fn note(&self, bytes: usize) {
        if COUNTING.load(Relaxed) {
            self.calls.fetch_add(1, Relaxed);
            self.bytes.fetch_add(bytes as u64, Relaxed);
        }
    }

    /// What was counted, and back to zero.
    fn take(&self) -> Moved {
        Moved { calls: self.calls.swap(0, Relaxed), bytes: self.bytes.swap(0, Relaxed) }
    }
}

static MEMCPY: Tally = Tally::zero();
static MEMMOVE: Tally = Tally::zero();
static MEMSET: Tally = Tally::zero();

#[no_mangle]
unsafe extern "C" fn __wrap_memcpy(to: *mut c_void, from: *const c_void, bytes: usize) -> *mut c_void {
    MEMCPY.note(bytes);
    __real_memcpy(to, from, bytes)
}

#[no_mangle]
unsafe extern "C" fn __wrap_memmove(to: *mut c_void, from: *const c_void, bytes: usize) -> *mut c_void {
    MEMMOVE.note(bytes);
    __real_memmove(to, from, bytes)
}

#[no_mangle]
unsafe extern "C" fn __wrap_memset(to: *mut c_void, byte: c_int, bytes: usize) -> *mut c_void {
    MEMSET.note(bytes);
    __real_memset(to, byte, bytes)
}

/// Does some work, and gives what was copied meanwhile.
pub fn count(work: &mut dyn FnMut()) -> Copies {
    COUNTING.store(true, Relaxed);
    work();
    COUNTING.store(false, Relaxed);
    [MEMCPY.take(), MEMMOVE.take(), MEMSET.take()]
}
