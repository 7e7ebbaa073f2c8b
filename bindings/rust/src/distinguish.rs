//! The words that tell two states of a layer apart.

use crate::{raw, Answer};

/// Puts the shortest list of input words that tells the states `first` and `second` of `layer` apart at
/// the front of `result`.
///
/// From both states of `table` it gives other outputs at its last word, and the same before. Of lists
/// of equal length it is the smallest, the first word counting most. The place is its length: 0 where
/// every continuation gives both states the same outputs. `result` has room for T less the layer,
/// whatever is found.
pub fn distinguish(
    table: &[u8],
    layer: u16,
    first: u16,
    second: u16,
    result: &mut [u16],
) -> Answer {
    Answer::of(|answer| {
        // SAFETY: each pointer and length is that of one slice; `result` and `answer` are exclusive.
        unsafe {
            raw::tff_distinguish(
                table.as_ptr(),
                table.len(),
                layer,
                first,
                second,
                result.as_mut_ptr(),
                result.len(),
                answer.as_mut_ptr(),
                answer.len(),
            )
        }
    })
}
