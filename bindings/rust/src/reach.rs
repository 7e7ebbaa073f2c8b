//! How many histories reach each state of a table.

use crate::{raw, Answer};

/// Puts the number of histories that reach each state of `table`, and the smallest of them, at the
/// front of `result`.
///
/// Before them stand T and the counts of states, in 16 bits each. Both arrays have 32 bits for each
/// state of layers 0 to T, by layer and state, 0 where no history reaches it.
pub fn reach(table: &[u8], result: &mut [u8]) -> Answer {
    Answer::of(|answer| {
        // SAFETY: each pointer and length is that of one slice; `result` and `answer` are exclusive.
        unsafe {
            raw::tff_reach(
                table.as_ptr(),
                table.len(),
                result.as_mut_ptr(),
                result.len(),
                answer.as_mut_ptr(),
                answer.len(),
            )
        }
    })
}
