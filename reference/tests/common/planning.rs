//! Asking and committing, plain and proved.

use crate::common::{compare, Case, Lent, Room};

pub fn call_ask(circuit: &[u8], lent: Lent, answer: &mut [u64]) {
    // SAFETY: each pointer and length is that of one slice; a record is its three numbers.
    unsafe {
        tff::raw::tff_ask(
            circuit.as_ptr(),
            circuit.len(),
            lent.numbers.as_mut_ptr(),
            lent.numbers.len(),
            lent.nodes.as_mut_ptr().cast(),
            lent.nodes.len(),
            answer.as_mut_ptr(),
            answer.len(),
        )
    }
}

pub fn call_commit(circuit: &[u8], plan: &[u64], lent: Lent, answer: &mut [u64]) {
    // SAFETY: each pointer and length is that of one slice; a record is its three numbers.
    unsafe {
        tff::raw::tff_commit(
            circuit.as_ptr(),
            circuit.len(),
            plan.as_ptr(),
            plan.len(),
            lent.numbers.as_mut_ptr(),
            lent.numbers.len(),
            lent.nodes.as_mut_ptr().cast(),
            lent.nodes.len(),
            lent.bytes.as_mut_ptr(),
            lent.bytes.len(),
            answer.as_mut_ptr(),
            answer.len(),
        )
    }
}

pub fn ask_case(seed: u64, file: &[u8]) -> Case<'_> {
    Case {
        call: "ask",
        seed,
        file,
        ..Case::default()
    }
}

pub fn commit_case<'a>(seed: u64, file: &'a [u8], plan: &'a [u64]) -> Case<'a> {
    Case {
        call: "commit",
        seed,
        file,
        plan,
        ..Case::default()
    }
}

/// Asks with both implementations; there is no result to lend.
pub fn ask(seed: u64, file: &[u8], room: Room) -> [u64; 23] {
    compare(
        &ask_case(seed, file),
        Room { bytes: 0, ..room },
        |lent| reference::ask(file, lent.numbers, lent.nodes).into(),
        |lent, answer| call_ask(file, lent, answer),
    )
}

/// Commits with both implementations.
pub fn commit(seed: u64, file: &[u8], plan: &[u64], room: Room) -> [u64; 2] {
    committed(seed, file, plan, room, |lent| {
        reference::commit(file, plan, lent.numbers, lent.nodes, lent.bytes).into()
    })
}

/// Commits with the proved library, which must answer and leave what `expected` does.
pub fn committed(
    seed: u64,
    file: &[u8],
    plan: &[u64],
    room: Room,
    expected: impl FnOnce(Lent) -> [u64; 2],
) -> [u64; 2] {
    compare(
        &commit_case(seed, file, plan),
        room,
        expected,
        |lent, answer| call_commit(file, plan, lent, answer),
    )
}
