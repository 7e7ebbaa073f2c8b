//! Tables to try the implementations on.

use super::{any_connected, any_sizes, Rng};
use crate::circuit::{simulate, Circuit};
use crate::sizes::Sizes;
use crate::table::{Head, Table};
use crate::unfold::gates_needed;

/// A random legal table, every other time with any outputs connected.
pub fn legal(rng: &mut Rng, sizes: Sizes, counts: Vec<u16>) -> Table {
    let table = connected(rng, sizes, counts);
    if rng.one_in(2) {
        let connected = any_connected(rng, &sizes);
        with_connected(&table, &connected)
    } else {
        table
    }
}

/// A random legal table of the largest size: 33,555,472 bytes.
pub fn largest(rng: &mut Rng) -> Table {
    legal(rng, Sizes::new(8, 7, 2), vec![1, Table::MOST_STATES, 1])
}

/// The table with the outputs connected that `connected` has, by frame, and all others never set.
pub fn with_connected(table: &Table, connected: &[u16]) -> Table {
    let mut made = table.clone();
    made.head.connected = connected.to_vec();
    for (layer, word) in connected.iter().enumerate() {
        for entry in table.head.entries_of(layer) {
            made.output_words[entry] &= word;
        }
    }
    made
}

/// Words of connected outputs, by which each frame connects others than every other frame: one output,
/// all but one, or the first ones. There must be an output for each frame.
pub fn each_frame_its_own(sizes: &Sizes) -> [Vec<u16>; 3] {
    let one = |frame: usize| 1u16 << frame;
    let all_but_one = |frame| sizes.every_output() & !one(frame);
    let first_ones = |frame| one(frame + 1) - 1;
    let by_frame = |word: &dyn Fn(usize) -> u16| (0..sizes.frames).map(word).collect();
    [
        by_frame(&one),
        by_frame(&all_but_one),
        by_frame(&first_ones),
    ]
}

/// A random legal table, all its outputs connected. Some layers have states that nothing enters, some
/// have equal states.
pub fn connected(rng: &mut Rng, sizes: Sizes, counts: Vec<u16>) -> Table {
    let head = every_output_connected(sizes, counts);
    let bits = rng.between(0, sizes.outputs);
    let mut table = Table {
        output_words: (0..head.entries())
            .map(|_| rng.below(1 << bits) as u16)
            .collect(),
        next_states: Vec::new(),
        head,
    };
    for layer in 0..sizes.frames {
        let entered = rng.between(1, usize::from(table.head.counts[layer + 1]));
        for _ in table.head.entries_of(layer) {
            table.next_states.push(rng.below(entered) as u16);
        }
        if rng.one_in(2) {
            repeat_states(rng, &mut table, layer);
        }
    }
    table
}

/// A table with all outputs connected, of zeros that lead to state 0.
pub fn zeros(sizes: Sizes, counts: Vec<u16>) -> Table {
    let head = every_output_connected(sizes, counts);
    Table {
        output_words: vec![0; head.entries()],
        next_states: vec![0; head.entries()],
        head,
    }
}

/// A head whose outputs are all connected.
fn every_output_connected(sizes: Sizes, counts: Vec<u16>) -> Head {
    Head {
        sizes,
        counts,
        connected: vec![sizes.every_output(); sizes.frames],
    }
}

/// A random legal table of random sizes, with up to `most_states` states a layer.
pub fn any_legal(rng: &mut Rng, most_signals: usize, most_states: usize) -> Table {
    let sizes = any_sizes(rng, most_signals);
    let counts = any_counts(rng, &sizes, most_states);
    legal(rng, sizes, counts)
}

/// Legal counts of states, up to `most` a layer.
pub fn any_counts(rng: &mut Rng, sizes: &Sizes, most: usize) -> Vec<u16> {
    (0..=sizes.frames)
        .map(|layer| layer == 0 || layer == sizes.frames)
        .map(|at_end| {
            if at_end {
                1
            } else {
                rng.between(1, most) as u16
            }
        })
        .collect()
}

/// Legal counts with `charged` states before the last layer together, spread at random. The layers
/// between the first and the last must be able to hold them, at least one each.
pub fn counts_with(rng: &mut Rng, frames: usize, charged: usize) -> Vec<u16> {
    let mut counts = vec![1; frames + 1];
    let mut growing: Vec<usize> = (1..frames).collect();
    let mut left = charged - frames;
    while left > 0 {
        let chosen = rng.below(growing.len());
        let count = &mut counts[growing[chosen]];
        let more = rng.between(1, left.min(usize::from(Table::MOST_STATES - *count)));
        *count += more as u16;
        left -= more;
        if *count == Table::MOST_STATES {
            growing.swap_remove(chosen);
        }
    }
    counts
}

/// The same table with one state more in an inner layer, which nothing enters.
pub fn with_spare_state(table: &Table, layer: usize) -> Table {
    let mut larger = table.clone();
    let end = table.head.entries_of(layer).end;
    let words = table.head.sizes.input_words();
    larger.head.counts[layer] += 1;
    for entries in [&mut larger.output_words, &mut larger.next_states] {
        entries.splice(end..end, vec![0; words]);
    }
    larger
}

/// The table of a circuit in which each history has a state of its own.
pub fn each_history(circuit: &Circuit) -> Table {
    let sizes = circuit.sizes;
    let mut table = histories_apart(sizes);
    table.head.connected = circuit.connected();
    for layer in 0..sizes.frames {
        for (history, entry) in table.head.entries_of(layer).enumerate() {
            let mut words = sizes.history_words(layer + 1, history);
            words.resize(sizes.frames, 0);
            let mut outputs = vec![0; sizes.frames];
            simulate(&circuit.to_bytes(), 1, &words, &mut outputs);
            table.output_words[entry] = outputs[layer];
        }
    }
    table
}

/// A table in which each history has a state of its own, with the history's number. Outputs are 0, all
/// of them connected.
pub fn histories_apart(sizes: Sizes) -> Table {
    let mut counts: Vec<u16> = (0..sizes.frames)
        .map(|layer| sizes.histories(layer) as u16)
        .collect();
    counts.push(1);
    let mut table = zeros(sizes, counts);
    // The entries before the last layer's lead to a state each.
    let nexts = (1..sizes.frames).flat_map(|layer| 0..table.head.counts[layer]);
    for (entry, next) in table.next_states.iter_mut().zip(nexts) {
        *entry = next;
    }
    table
}

/// The same table with all entries of a layer leading to one state of the next, whichever.
pub fn led_to_one_state(rng: &mut Rng, table: &Table) -> Table {
    let mut led = table.clone();
    for layer in 0..table.head.sizes.frames {
        let next = rng.below(usize::from(table.head.counts[layer + 1])) as u16;
        led.next_states[table.head.entries_of(layer)].fill(next);
    }
    led
}

/// New numbers for the states of each layer, at random.
pub fn any_numbers(rng: &mut Rng, counts: &[u16]) -> Vec<Vec<u16>> {
    counts.iter().map(|&count| rng.shuffled(count)).collect()
}

/// The same table with its states numbered anew: `numbers` is by layer and old number.
pub fn renumbered(table: &Table, numbers: &[Vec<u16>]) -> Table {
    let mut made = table.clone();
    let words = table.head.sizes.input_words();
    for layer in 0..table.head.sizes.frames {
        let first = table.head.entries_of(layer).start;
        for (state, &number) in numbers[layer].iter().enumerate() {
            let [from, to] = [state, usize::from(number)].map(|state| first + state * words);
            for word in 0..words {
                let next = usize::from(table.next_states[from + word]);
                made.output_words[to + word] = table.output_words[from + word];
                made.next_states[to + word] = numbers[layer + 1][next];
            }
        }
    }
    made
}

/// Gives some states of a layer the entries of an earlier one.
fn repeat_states(rng: &mut Rng, table: &mut Table, layer: usize) {
    let entries = table.head.entries_of(layer);
    let words = table.head.sizes.input_words();
    for state in 1..usize::from(table.head.counts[layer]) {
        if rng.one_in(2) {
            let from = entries.start + rng.below(state) * words;
            let to = entries.start + state * words;
            table.output_words.copy_within(from..from + words, to);
            table.next_states.copy_within(from..from + words, to);
        }
    }
}

/// A random legal table, all its outputs connected, that unfolds to exactly `gates` gates, which the
/// counts must allow.
pub fn with_gates(rng: &mut Rng, sizes: Sizes, counts: Vec<u16>, gates: usize) -> Table {
    let mut table = connected(rng, sizes, counts);
    table.output_words.fill(0);
    let bits = gates - gates_needed(&table);
    let places = table.output_words.len() * sizes.outputs;
    assert!(bits <= places);
    // The chosen bits run on from a random place, so that they differ among words and outputs.
    let first = rng.below(places);
    for place in (first..first + bits).map(|place| place % places) {
        table.output_words[place / sizes.outputs] |= 1 << (place % sizes.outputs);
    }
    table
}
