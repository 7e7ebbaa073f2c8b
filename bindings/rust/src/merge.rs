//! Merging the frames of a table into one machine.

use crate::{raw, Answer};

/// Puts the machine with the fewest states, one to three, that gives the connected outputs of `table`
/// in every frame at the front of `result`.
///
/// Of machines with as few states it is the first by all next states, then by all output words, so that
/// 0 stands wherever no sequence decides. Before both arrays, outputs and next states by state and input
/// word, stand n, m and the number of states, all in 16 bits. `table` has one or two inputs a frame.
/// Where three states are too few (21), more room does not help.
pub fn merge(table: &[u8], result: &mut [u8]) -> Answer {
    Answer::of(|answer| {
        // SAFETY: each pointer and length is that of one slice; `result` and `answer` are exclusive.
        unsafe {
            raw::tff_merge(
                table.as_ptr(),
                table.len(),
                result.as_mut_ptr(),
                result.len(),
                answer.as_mut_ptr(),
                answer.len(),
            )
        }
    })
}
