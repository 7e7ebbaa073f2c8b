//! Unfolding a table into a circuit.

use crate::{raw, Answer};

/// Puts a circuit that answers as `table` does, with the same outputs connected, at the front of
/// `result`.
pub fn unfold(table: &[u8], result: &mut [u8]) -> Answer {
    Answer::of(|answer| {
        // SAFETY: each pointer and length is that of one slice; `result` and `answer` are exclusive.
        unsafe {
            raw::tff_unfold(
                table.as_ptr(),
                table.len(),
                result.as_mut_ptr(),
                result.len(),
                answer.as_mut_ptr(),
                answer.len(),
            )
        }
    })
}
