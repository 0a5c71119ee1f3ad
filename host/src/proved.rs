//! The proved book, called as firmware calls it: by the three functions of `include/wall_book.h`.

use crate::book::{Book, Outcome};
use crate::layout::PANELS;

extern "C" {
    fn wall_book_prepare(
        pool: *mut u8,
        pool_bytes: usize,
        log_read: u32,
        log_edit: u32,
        log_rewrite: u32,
        disk_read: u32,
        disk_edit: u32,
        disk_rewrite: u32,
        to_disk: u32,
        to_log: u32,
    ) -> u32;

    fn wall_book_batch(
        pool: *mut u8,
        pool_bytes: usize,
        table: *mut u8,
        table_bytes: usize,
        commands: *const u8,
        commands_bytes: usize,
        answers: *mut u8,
        answers_bytes: usize,
        length: *mut usize,
        charges: *mut u64,
    ) -> u32;

    fn wall_book_desk(
        pool: *mut u8,
        pool_bytes: usize,
        table: *mut u8,
        table_bytes: usize,
        lengths: *const u8,
        lengths_bytes: usize,
        queues: *const u8,
        queues_bytes: usize,
        answers: *mut u8,
        answers_bytes: usize,
        length: *mut usize,
        charges: *mut u64,
    ) -> u32;
}

/// The book that is proved.
pub struct ProvedBook;

impl Book for ProvedBook {
    fn prepare(&mut self, pool: &mut [u8], tariff: [u32; 8]) -> u8 {
        let [a, b, c, d, e, f, g, h] = tariff;
        // SAFETY: the pointer and the length are those of one slice that is lent for the call.
        number(unsafe { wall_book_prepare(pool.as_mut_ptr(), pool.len(), a, b, c, d, e, f, g, h) })
    }

    fn batch(&mut self, pool: &mut [u8], table: &mut [u8], batch: &[u8], answers: &mut [u8]) -> Outcome {
        // SAFETY: each pointer and length are those of one slice, and slices that are lent mutably do not overlap;
        // the charges are as many as the header says.
        outcome(|length, charges| unsafe {
            wall_book_batch(
                pool.as_mut_ptr(),
                pool.len(),
                table.as_mut_ptr(),
                table.len(),
                batch.as_ptr(),
                batch.len(),
                answers.as_mut_ptr(),
                answers.len(),
                length,
                charges.as_mut_ptr(),
            )
        })
    }

    fn desk(
        &mut self,
        pool: &mut [u8],
        table: &mut [u8],
        lengths: &[u8],
        queues: &[u8],
        answers: &mut [u8],
    ) -> Outcome {
        // SAFETY: as for a batch.
        outcome(|length, charges| unsafe {
            wall_book_desk(
                pool.as_mut_ptr(),
                pool.len(),
                table.as_mut_ptr(),
                table.len(),
                lengths.as_ptr(),
                lengths.len(),
                queues.as_ptr(),
                queues.len(),
                answers.as_mut_ptr(),
                answers.len(),
                length,
                charges.as_mut_ptr(),
            )
        })
    }
}

/// What a call comes to that is lent places for its length and its charges.
fn outcome(call: impl FnOnce(&mut usize, &mut [u64; PANELS]) -> u32) -> Outcome {
    // Anything but zero, so that a place that the book leaves out shows.
    let mut length = usize::MAX;
    let mut charges = [u64::MAX; PANELS];
    let refused = call(&mut length, &mut charges);
    Outcome { number: number(refused), length, charges }
}

/// The place of the book's code in memory.
pub fn code_address() -> usize {
    wall_book_batch as *const () as usize
}

/// Refusals are 1 to 11; anything else shows as 255.
fn number(refused: u32) -> u8 {
    u8::try_from(refused).unwrap_or(u8::MAX)
}
