//! Checking and simulating a circuit.

use crate::{raw, Answer};

/// Judges the circuit: head, length and literals, marks of unconnected outputs among them, and that no
/// output looks ahead.
pub fn check_circuit(circuit: &[u8]) -> Answer {
    Answer::of(|answer| {
        // SAFETY: each pointer and length is that of one slice; only `answer` is written to.
        unsafe {
            raw::tff_check_circuit(
                circuit.as_ptr(),
                circuit.len(),
                answer.as_mut_ptr(),
                answer.len(),
            )
        }
    })
}

/// Puts the circuit's output words on `sequences`, at most 32, at the front of `result`, first
/// sequence first.
///
/// They are simulated side by side, from one list in which they stand one behind the other: the place
/// of a word is its index there. Sequences of different lengths are a list of the wrong length (12),
/// whatever they add up to.
pub fn simulate<S: AsRef<[u16]>>(circuit: &[u8], sequences: &[S], result: &mut [u16]) -> Answer {
    let sequences: Vec<&[u16]> = sequences.iter().map(AsRef::as_ref).collect();
    let (count, words) = (sequences.len(), sequences.concat());
    if sequences.windows(2).all(|two| two[0].len() == two[1].len()) {
        return simulate_list(circuit, count, &words, result);
    }
    // Without a result nothing is accepted: a list that is as long as asked for ends with 9 or 7.
    match simulate_list(circuit, count, &words, &mut []) {
        Answer { number: 9 | 7, .. } => Answer {
            number: 12,
            place: words.len() as u64,
        },
        refusal => refusal,
    }
}

/// Puts the circuit's output words on the one sequence `words` at the front of `result`.
pub fn simulate_one(circuit: &[u8], words: &[u16], result: &mut [u16]) -> Answer {
    simulate_list(circuit, 1, words, result)
}

/// Simulates `count` sequences that stand one behind the other in `words`.
fn simulate_list(circuit: &[u8], count: usize, words: &[u16], result: &mut [u16]) -> Answer {
    Answer::of(|answer| {
        // SAFETY: each pointer and length is that of one slice; `result` and `answer` are exclusive.
        unsafe {
            raw::tff_simulate(
                circuit.as_ptr(),
                circuit.len(),
                count,
                words.as_ptr(),
                words.len(),
                result.as_mut_ptr(),
                result.len(),
                answer.as_mut_ptr(),
                answer.len(),
            )
        }
    })
}
