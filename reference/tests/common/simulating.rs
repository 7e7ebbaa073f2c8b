//! The proved simulation of sequences side by side.

pub fn call_simulate(
    circuit: &[u8],
    count: usize,
    words: &[u16],
    result: &mut [u16],
    answer: &mut [u64],
) {
    // SAFETY: each pointer and length is that of one slice.
    unsafe {
        tff::raw::tff_simulate(
            circuit.as_ptr(),
            circuit.len(),
            count,
            words.as_ptr(),
            words.len(),
            result.as_mut_ptr(),
            result.len(),
            answer.as_mut_ptr(),
            answer.len(),
        )
    }
}
