//! Folding, plain and proved.

use crate::common::{compare, Case, Lent, Room};
use reference::{nodes_needed, Circuit, Sizes};

pub fn call_fold(circuit: &[u8], lent: Lent, answer: &mut [u64]) {
    // SAFETY: each pointer and length is that of one slice; a record is its three numbers.
    unsafe {
        tff::raw::tff_fold(
            circuit.as_ptr(),
            circuit.len(),
            lent.numbers.as_mut_ptr(),
            lent.numbers.len(),
            lent.nodes.as_mut_ptr().cast(),
            lent.nodes.len(),
            lent.bytes.as_mut_ptr(),
            lent.bytes.len(),
            answer.as_mut_ptr(),
            answer.len(),
        )
    }
}

pub fn fold_case(seed: u64, file: &[u8]) -> Case<'_> {
    Case {
        call: "fold",
        seed,
        file,
        ..Case::default()
    }
}

/// Folds with both implementations.
pub fn fold(seed: u64, file: &[u8], room: Room) -> [u64; 2] {
    compare(
        &fold_case(seed, file),
        room,
        |lent| reference::fold(file, lent.numbers, lent.nodes, lent.bytes).into(),
        |lent, answer| call_fold(file, lent, answer),
    )
}

/// Room that suffices for a legal circuit: just enough records, and some more of all else.
pub fn ample(circuit: &Circuit) -> Room {
    Room {
        numbers: scratch_needed(&circuit.sizes) + 3,
        records: nodes_needed(circuit),
        bytes: longest_table(&circuit.sizes) + 5,
    }
}

/// Bytes of a table in which every history has its own state: none of these sizes is longer.
pub fn longest_table(sizes: &Sizes) -> usize {
    let entries: usize = (1..=sizes.frames)
        .map(|length| sizes.histories(length))
        .sum();
    8 + 4 * sizes.frames + 4 * entries
}

pub fn scratch_needed(sizes: &Sizes) -> usize {
    2 * sizes.histories(sizes.frames)
}
