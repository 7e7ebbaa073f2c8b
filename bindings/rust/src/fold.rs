//! Folding a circuit into a table.

use crate::{raw, Answer, Node};

/// Puts the table with the fewest states that answers as `circuit` does, with the same outputs
/// connected, at the front of `result`.
///
/// `scratch` and `nodes` are memory to work in. Once `scratch` is judged long enough, the part of it
/// that is needed and all of `nodes` end as zeros, also where there are too few records (18) or
/// `result` is too short. `Nodes` finds out how many records are enough.
pub fn fold(circuit: &[u8], scratch: &mut [u16], nodes: &mut [Node], result: &mut [u8]) -> Answer {
    Answer::of(|answer| {
        // SAFETY: each pointer and length is that of one slice; those written to are exclusive.
        unsafe {
            raw::tff_fold(
                circuit.as_ptr(),
                circuit.len(),
                scratch.as_mut_ptr(),
                scratch.len(),
                nodes.as_mut_ptr(),
                nodes.len(),
                result.as_mut_ptr(),
                result.len(),
                answer.as_mut_ptr(),
                answer.len(),
            )
        }
    })
}
