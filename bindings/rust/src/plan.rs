//! Asking for the plan of a circuit, and folding the circuit only as planned.

use crate::{raw, Answer, Node};

/// What the table of a circuit takes. Which outputs are connected is no part of it.
#[derive(Clone, Copy, Debug, PartialEq, Eq)]
pub struct Plan {
    /// Inputs per frame, n.
    pub inputs: u64,
    /// Outputs per frame, m.
    pub outputs: u64,
    /// Frames, T.
    pub frames: u64,
    /// States of layers 0 to 16, 0 beyond T.
    pub counts: [u64; 17],
    /// Bytes of the table.
    pub bytes: u64,
}

impl Plan {
    /// In the order of the C interface.
    pub fn numbers(&self) -> [u64; 21] {
        let mut numbers = [0; 21];
        numbers[..3].copy_from_slice(&[self.inputs, self.outputs, self.frames]);
        numbers[3..20].copy_from_slice(&self.counts);
        numbers[20] = self.bytes;
        numbers
    }
}

impl From<[u64; 21]> for Plan {
    /// From the order of the C interface.
    fn from(numbers: [u64; 21]) -> Plan {
        let [inputs, outputs, frames, counts @ .., bytes] = numbers;
        Plan {
            inputs,
            outputs,
            frames,
            counts,
            bytes,
        }
    }
}

/// The plan of the table that `circuit` folds to, or the refusal.
///
/// `scratch` and `nodes` are memory to work in. Once `scratch` is judged long enough, the part of it
/// that is needed and all of `nodes` end as zeros, also where there are too few records (18).
pub fn ask(circuit: &[u8], scratch: &mut [u16], nodes: &mut [Node]) -> Result<Plan, Answer> {
    let mut answer = [0; 23];
    // SAFETY: each pointer and length is that of one slice; those written to are exclusive.
    unsafe {
        raw::tff_ask(
            circuit.as_ptr(),
            circuit.len(),
            scratch.as_mut_ptr(),
            scratch.len(),
            nodes.as_mut_ptr(),
            nodes.len(),
            answer.as_mut_ptr(),
            answer.len(),
        )
    }
    let [number, place, plan @ ..] = answer;
    match number {
        0 => Ok(plan.into()),
        _ => Err(Answer { number, place }),
    }
}

/// Folds `circuit` into `result` as `fold` does, but only where `plan` is the one that asking gives.
///
/// `scratch` and `nodes` are memory to work in. Once `scratch` is judged long enough, the part of it
/// that is needed and all of `nodes` end as zeros, also where there are too few records (18), `plan`
/// is another or `result` is too short.
pub fn commit(
    circuit: &[u8],
    plan: &Plan,
    scratch: &mut [u16],
    nodes: &mut [Node],
    result: &mut [u8],
) -> Answer {
    let plan = plan.numbers();
    Answer::of(|answer| {
        // SAFETY: each pointer and length is that of one slice; those written to are exclusive.
        unsafe {
            raw::tff_commit(
                circuit.as_ptr(),
                circuit.len(),
                plan.as_ptr(),
                plan.len(),
                scratch.as_mut_ptr(),
                scratch.len(),
                nodes.as_mut_ptr(),
                nodes.len(),
                result.as_mut_ptr(),
                result.len(),
                answer.as_mut_ptr(),
                answer.len(),
            )
        }
    })
}
