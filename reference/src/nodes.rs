//! The distinct nodes of a circuit's signals, by their truth tables.
//!
//! A truth table has a bit for each assignment of the inputs, the first input counting most. So what
//! remains of a function when its first k inputs are fixed is one of 2^k equal parts of its table, and
//! it depends on input k + 1 where the two halves of that part differ.

use std::collections::HashSet;

use crate::answer::{refused, Answer, NODES};
use crate::circuit::Circuit;

/// A record of the list that folding is lent: level, low and high branch.
pub type Node = [u32; 3];

/// A truth table, or an equal part of one: 64 bits a word, or in one word that is otherwise 0.
type Part = Box<[u64]>;

/// Whether the inputs and all gates, which have these counts of distinct nodes, have at most so many;
/// else refuses with the first gate, from 1, that has too many with all before it, or with 0 for the
/// inputs alone.
pub fn judge_nodes(mut counts: impl Iterator<Item = usize>, records: usize) -> Result<(), Answer> {
    match counts.position(|count| count > records) {
        Some(gate) => Err(refused(NODES, gate)),
        None => Ok(()),
    }
}

/// How many distinct nodes the inputs and all gates have.
pub fn nodes_needed(circuit: &Circuit) -> usize {
    node_counts(circuit).last().expect("inputs come first")
}

/// How many distinct nodes the inputs have, then the inputs and gate 1, and so on.
pub fn node_counts(circuit: &Circuit) -> impl Iterator<Item = usize> + '_ {
    let inputs = circuit.sizes.input_signals();
    let places: Vec<u16> = (0..inputs as u16).collect();
    node_counts_at(circuit, inputs, &places)
}

/// The same where the circuit's inputs are those at `places` of `inputs` inputs, all of which count.
pub fn node_counts_at<'a>(
    circuit: &'a Circuit,
    inputs: usize,
    places: &[u16],
) -> impl Iterator<Item = usize> + 'a {
    let of_inputs: Vec<Part> = (0..inputs)
        .map(|input| input_table(inputs, input))
        .collect();
    let mut found = Found::new(inputs);
    for table in &of_inputs {
        found.add(table);
    }
    let mut tables = vec![constant_false(inputs)];
    for &place in places {
        tables.push(of_inputs[usize::from(place)].clone());
    }
    let after_inputs = found.count;
    let after_gates = (0..circuit.gates()).map(move |gate| {
        let table = gate_table(circuit, inputs, &tables, gate);
        found.add(&table);
        tables.push(table);
        found.count
    });
    [after_inputs].into_iter().chain(after_gates)
}

fn constant_false(inputs: usize) -> Part {
    vec![0; (1 << inputs) / 64 + usize::from(inputs < 6)].into()
}

/// The table of input `input`, from 0.
fn input_table(inputs: usize, input: usize) -> Part {
    let mut table = constant_false(inputs);
    for assignment in 0..1 << inputs {
        if assignment >> (inputs - 1 - input) & 1 == 1 {
            table[assignment / 64] |= 1 << (assignment % 64);
        }
    }
    table
}

/// The table of gate `gate`, from 0, given those of the signals before it.
fn gate_table(circuit: &Circuit, inputs: usize, tables: &[Part], gate: usize) -> Part {
    if circuit.is_unconnected(gate) {
        return constant_false(inputs);
    }
    let assignments = u64::MAX >> (64 - (1 << inputs.min(6)));
    let words = |literal: u16| {
        let inverted = if literal % 2 == 1 { assignments } else { 0 };
        let table = &tables[usize::from(literal / 2)];
        table.iter().map(move |word| word ^ inverted)
    };
    words(circuit.left[gate])
        .zip(words(circuit.right[gate]))
        .map(|(left, right)| left & right)
        .collect()
}

/// Both halves of a part of `bits` bits, the low one first.
fn halves(part: &[u64], bits: usize) -> [Part; 2] {
    match part {
        &[word] => {
            let half = bits / 2;
            let low = u64::MAX >> (64 - half);
            [word & low, word >> half].map(|half| vec![half].into())
        }
        words => {
            let (low, high) = words.split_at(words.len() / 2);
            [low.into(), high.into()]
        }
    }
}

/// The nodes of some functions.
struct Found {
    /// How many inputs the functions have.
    inputs: usize,
    /// By the number of inputs fixed: what remains and depends on the next input.
    parts: Vec<HashSet<Part>>,
    count: usize,
}

impl Found {
    fn new(inputs: usize) -> Found {
        Found {
            inputs,
            parts: vec![HashSet::new(); inputs],
            count: 0,
        }
    }

    /// Adds a function's nodes, level by level. Of a part that is known, all that remains is too.
    fn add(&mut self, table: &Part) {
        let mut remaining = vec![table.clone()];
        for (fixed, known) in self.parts.iter_mut().enumerate() {
            let bits = 1 << (self.inputs - fixed);
            let mut next = Vec::new();
            for part in remaining {
                let [low, high] = halves(&part, bits);
                if low == high {
                    next.push(low);
                } else if known.insert(part) {
                    self.count += 1;
                    next.extend([low, high]);
                }
            }
            remaining = next;
        }
    }
}

#[cfg(test)]
mod tests {
    use super::*;
    use crate::gates::{not, Gates, FALSE, TRUE};
    use crate::gen::{circuits, Rng};
    use crate::sizes::Sizes;
    use std::collections::BTreeSet;

    fn counts(circuit: &Circuit) -> Vec<usize> {
        node_counts(circuit).collect()
    }

    #[test]
    fn a_function_and_its_inverse_are_two_and_constants_none() {
        let mut gates = Gates::new(Sizes::new(1, 1, 2));
        let [a, b] = [0, 1].map(|frame| gates.input(frame, 0));
        let both = gates.and(a, b);
        for (left, right) in [
            (b, a),
            (a, FALSE),
            (TRUE, TRUE),
            (a, not(a)),
            (a, TRUE),
            (not(a), TRUE),
            (not(both), not(both)),
        ] {
            gates.and(left, right);
        }
        let circuit = gates.finish(&[FALSE, FALSE]);
        // The inverse of an AND is two nodes more: its own, and the inverse of b.
        let expected = [2, 3, 3, 3, 3, 3, 3, 4, 6, 6, 6];
        assert_eq!(counts(&circuit), expected);
    }

    /// Straight from the definition: the functions that remain, as lists of values.
    fn by_definition(circuit: &Circuit) -> Vec<usize> {
        let sizes = circuit.sizes;
        let inputs = sizes.input_signals();
        let values: Vec<Vec<bool>> = (0..1usize << inputs)
            .map(|assignment| {
                let bit = |input: usize| (assignment >> (inputs - 1 - input) & 1) as u16;
                let word = |frame: usize| {
                    (0..sizes.inputs)
                        .map(|input| bit(frame * sizes.inputs + input) << input)
                        .sum()
                };
                let words: Vec<u16> = (0..sizes.frames).map(word).collect();
                circuit.values(&words)
            })
            .collect();
        let mut nodes = BTreeSet::new();
        let mut counts = Vec::new();
        for signal in 1..=inputs + circuit.gates() {
            for fixed in 0..inputs {
                let rest = 1 << (inputs - fixed);
                for remaining in values.chunks(rest) {
                    let part: Vec<bool> = remaining.iter().map(|of| of[signal]).collect();
                    if part[..rest / 2] != part[rest / 2..] {
                        nodes.insert((fixed, part));
                    }
                }
            }
            if signal >= inputs {
                counts.push(nodes.len());
            }
        }
        counts
    }

    #[test]
    fn nodes_are_counted_as_defined() {
        let mut rng = Rng::new(1);
        for _ in 0..300 {
            let circuit = circuits::any_legal(&mut rng, 9, 40);
            assert_eq!(counts(&circuit), by_definition(&circuit));
        }
    }
}
