//! How deep a call goes into the stack: the stack below it is painted, and the deepest byte that lost its paint tells.
//!
//! A call that takes room on the stack and leaves the end of it unwritten has gone a little deeper than is seen.

mod cases;

pub use cases::{Case, CASES};

use std::thread;

/// The stack of the thread that a call is made on.
const THREAD_BYTES: usize = 1 << 20;
/// The part of it below the call that is painted.
const PAINTED_BYTES: usize = 1 << 18;
/// The part between that is not: the painter's own frame and what it calls.
const MARGIN_BYTES: usize = 512;

/// A word that no call writes by chance.
const PAINT: u64 = 0xA7C5_39E1_5D8B_F263;
const WORD_BYTES: usize = size_of::<u64>();

/// Makes a call on a thread of its own, and gives what it returns with the bytes of stack that it took.
///
/// Fewer than [`MARGIN_BYTES`] bytes count as so many.
pub fn deepest<T: Send>(call: impl FnOnce() -> T + Send) -> Result<(T, usize), String> {
    let measured = || {
        let top = paint();
        let result = call();
        (result, unpainted(top))
    };
    let joined = thread::scope(|scope| {
        let thread = thread::Builder::new().stack_size(THREAD_BYTES).spawn_scoped(scope, measured);
        thread.map(|thread| thread.join()).map_err(|error| format!("no thread for a call: {error}"))
    })?;
    match joined {
        Ok((_, PAINTED_BYTES..)) => Err(format!("a call took more than {PAINTED_BYTES} bytes of stack")),
        Ok(result) => Ok(result),
        Err(panic) => std::panic::resume_unwind(panic),
    }
}

/// Paints the stack below its own frame, and gives the address at which its caller's next call begins, near enough.
#[inline(never)]
fn paint() -> usize {
    let here = PAINT;
    let top = std::hint::black_box(&raw const here).addr();
    let mut address = top - PAINTED_BYTES;
    while address < top - MARGIN_BYTES {
        // SAFETY: the thread's stack reaches further down, and nothing lives below the frame of its newest call.
        unsafe { std::ptr::with_exposed_provenance_mut::<u64>(address).write_volatile(PAINT) };
        address += WORD_BYTES;
    }
    top
}

/// The bytes from the top down to the deepest word without paint; the margin has none.
#[inline(never)]
fn unpainted(top: usize) -> usize {
    let mut address = top - PAINTED_BYTES;
    // SAFETY: all of this was painted, and is stack of this thread still.
    while address < top - MARGIN_BYTES
        && unsafe { std::ptr::with_exposed_provenance::<u64>(address).read_volatile() } == PAINT
    {
        address += WORD_BYTES;
    }
    top - address
}

#[cfg(test)]
mod tests {
    use super::*;

    /// A call that writes so many bytes of stack.
    #[inline(never)]
    fn take<const BYTES: usize>() -> u8 {
        let bytes = std::hint::black_box([1; BYTES]);
        bytes[BYTES / 2]
    }

    #[test]
    fn a_call_takes_what_it_writes() {
        for (call, bytes) in [(take::<4096> as fn() -> u8, 4096), (take::<20_000>, 20_000), (take::<100_000>, 100_000)]
        {
            let (result, taken) = deepest(call).expect("within the paint");
            assert_eq!(result, 1);
            // The array may stand there twice: as it is made, and as it is looked at.
            assert!((bytes..2 * bytes + 1000).contains(&taken), "{taken} bytes taken for {bytes}");
        }
    }

    #[test]
    fn a_call_that_takes_nothing_is_within_the_margin() {
        assert_eq!(deepest(|| 7), Ok((7, MARGIN_BYTES)));
    }

    #[test]
    fn a_call_below_the_paint_is_an_error() {
        let why = deepest(take::<300_000>).expect_err("too deep");
        assert_eq!(why, format!("a call took more than {PAINTED_BYTES} bytes of stack"));
    }
}
