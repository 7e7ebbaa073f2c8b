//! Circuits that folding is tried on, in one call and with a plan.

use crate::common::{seeds, Room};
use crate::folding::{longest_table, scratch_needed};
use reference::gen::{any_sizes, circuits, damaged, sizes_with, Rng};
use reference::{Circuit, Sizes};

/// Inputs and frames that together have the most sequences.
const LARGEST: [(usize, usize); 4] = [(1, 16), (2, 8), (4, 4), (8, 2)];

/// Every behaviour of these sizes: the bits of a seed are the output words of all histories.
pub fn every_behaviour(sizes: Sizes) -> impl Iterator<Item = (u64, Circuit)> {
    let bits_before = move |frame| -> usize {
        (1..=frame)
            .map(|length| sizes.outputs * sizes.histories(length))
            .sum()
    };
    seeds(1 << bits_before(sizes.frames)).map(move |seed| {
        let circuit = circuits::with_outputs(sizes, |frame, history| {
            let first_bit = bits_before(frame) + sizes.outputs * history;
            (seed >> first_bit) as u16 & ((1 << sizes.outputs) - 1)
        });
        (seed, circuit)
    })
}

pub fn random() -> impl Iterator<Item = (u64, Circuit)> {
    seeds(4_000).map(|seed| (seed, circuits::any_legal(&mut Rng::new(seed), 9, 60)))
}

pub fn unrolled() -> impl Iterator<Item = (u64, Circuit)> {
    seeds(2_000).map(|seed| {
        let mut rng = Rng::new(seed);
        let sizes = any_sizes(&mut rng, 10);
        let memory = rng.between(1, 4);
        let circuit = circuits::unrolled(&mut rng, sizes, memory);
        (seed, circuits::partly_connected(&mut rng, circuit))
    })
}

/// Circuits in which every history has its own state.
pub fn most_states() -> impl Iterator<Item = Circuit> {
    LARGEST.into_iter().map(|(inputs, frames)| {
        let sizes = Sizes::new(inputs, 16, frames);
        circuits::many_states(sizes, sizes.output_gates())
    })
}

/// Circuits with few states, and how many before each frame.
pub fn few_states() -> impl Iterator<Item = (Circuit, Vec<usize>)> {
    LARGEST.into_iter().map(|(inputs, frames)| {
        // Set inputs are counted modulo 4, and before the last layer each count matters.
        let counts = (0..frames).map(|layer| (inputs * layer + 1).min(4));
        (circuits::few_states(inputs, frames, 200), counts.collect())
    })
}

/// Careless circuits, every other one damaged too, with room for what they were before, at times but
/// for the records.
pub fn with_faults() -> impl Iterator<Item = (u64, Vec<u8>, Room)> {
    seeds(6_000).map(|seed| {
        let mut rng = Rng::new(seed);
        let sizes = any_sizes(&mut rng, 8);
        let gates = sizes.output_gates() + rng.below(12);
        let mut file = circuits::careless(&mut rng, sizes, gates).to_bytes();
        if rng.one_in(2) {
            file = damaged(&mut rng, &file);
        }
        let room = Room {
            numbers: scratch_needed(&sizes),
            // Gates have at most 16 times as many nodes at the fifth input, and at the last three
            // inputs all functions have 254.
            records: rng.pick(&[5_000, 5_000, 20]),
            bytes: longest_table(&sizes),
        };
        (seed, file, room)
    })
}

/// Two circuits of each size, one of them with outputs alone, and lengths of scratch that are too
/// short for both.
pub fn short_of_scratch() -> impl Iterator<Item = (Circuit, [usize; 4])> {
    sizes_with(1).into_iter().flat_map(|sizes| {
        let needed = scratch_needed(&sizes);
        [0, 30].map(|inner| {
            let gates = sizes.output_gates() + inner;
            let circuit = circuits::legal(&mut Rng::new(0), sizes, gates);
            (circuit, [0, 1, needed / 2, needed - 1])
        })
    })
}
