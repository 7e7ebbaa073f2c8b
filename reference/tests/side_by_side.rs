//! Up to 32 sequences simulated side by side: the proved call against the plain one, and against
//! itself on each sequence alone; then the safe calls for a slice of sequences and for one.

mod common;
#[path = "common/simulating.rs"]
mod simulating;

use common::{compare, seeds, short_answers_change_nothing, Case, Room, Seen};
use reference::gates::not;
use reference::gen::{
    all_sizes, any_sequence, any_sequences, circuits, damaged, look_ahead, sizes_with, Rng,
};
use reference::{examples, Circuit, Gates, Sizes};
use simulating::call_simulate;

/// Inputs and frames of the shapes with the most input bits, 16 a sequence.
const LARGEST: [(usize, usize); 4] = [(1, 16), (2, 8), (4, 4), (8, 2)];

/// Some numbers of sequences that one call takes, the least and the most among them.
const COUNTS: [usize; 7] = [0, 1, 2, 15, 17, 31, 32];

/// Simulates `count` sequences with both implementations, with a result of `length` numbers.
fn simulate(seed: u64, file: &[u8], count: usize, words: &[u16], length: usize) -> [u64; 2] {
    compare(
        &Case {
            call: &called(count),
            seed,
            file,
            words,
            ..Case::default()
        },
        Room::of_numbers(length),
        |lent| reference::simulate(file, count, words, lent.numbers).into(),
        |lent, answer| call_simulate(file, count, words, lent.numbers, answer),
    )
}

fn called(count: usize) -> String {
    format!("simulate with count {count}")
}

/// A legal circuit is simulated on the sequences in `words`, with room for more than 32.
fn accepts(seed: u64, circuit: &Circuit, words: &[u16]) {
    let frames = circuit.sizes.frames;
    let count = words.len() / frames;
    let answer = simulate(seed, &circuit.to_bytes(), count, words, 32 * frames + 3);
    assert_eq!(answer, [0, words.len() as u64]);
}

/// The proved outputs on `count` sequences.
fn outputs(file: &[u8], count: usize, words: &[u16]) -> Vec<u16> {
    let (mut result, mut answer) = (vec![0; words.len()], [0; 2]);
    call_simulate(file, count, words, &mut result, &mut answer);
    assert_eq!(answer, [0, words.len() as u64]);
    result
}

/// A legal circuit of one input and one output.
fn narrow(frames: usize) -> Vec<u8> {
    circuits::legal(&mut Rng::new(0), Sizes::new(1, 1, frames), frames + 5).to_bytes()
}

#[test]
fn parity_gives_its_truth_table_in_one_call() {
    let mut result = [9; 9];
    let sequences = [[0, 0], [0, 1], [1, 0], [1, 1]];
    let answer = tff::simulate(&examples::parity().to_bytes(), &sequences, &mut result);
    assert_eq!((answer.number, answer.place), (0, 8));
    assert_eq!(result, [0, 0, 0, 1, 1, 1, 1, 0, 9]);
}

#[test]
fn up_to_32_sequences_are_taken_and_no_more() {
    for seed in seeds(40) {
        let mut rng = Rng::new(seed);
        let circuit = circuits::any_legal(&mut rng, 16, 40);
        for count in 0..=34 {
            let words = any_sequences(&mut rng, &circuit.sizes, count);
            let answer = simulate(seed, &circuit.to_bytes(), count, &words, words.len());
            let (number, place) = if count > 32 {
                (13, count)
            } else {
                (0, words.len())
            };
            assert_eq!(answer, [number, place as u64]);
        }
    }
}

#[test]
fn circuits_of_all_shapes_are_simulated() {
    for seed in seeds(3) {
        let mut rng = Rng::new(seed);
        for sizes in all_sizes() {
            let gates = sizes.output_gates() + rng.below(60);
            let circuit = circuits::legal(&mut rng, sizes, gates);
            for count in [32, rng.below(32)] {
                accepts(seed, &circuit, &any_sequences(&mut rng, &sizes, count));
            }
        }
    }
}

#[test]
fn circuits_at_the_limits_are_simulated() {
    for seed in seeds(2) {
        let mut rng = Rng::new(seed);
        for (sizes, gates) in circuits::limits() {
            let circuit = circuits::legal(&mut rng, sizes, gates);
            for count in COUNTS {
                accepts(seed, &circuit, &any_sequences(&mut rng, &sizes, count));
            }
        }
    }
}

#[test]
fn circuits_that_reach_later_inputs_without_effect_are_simulated() {
    for seed in seeds(100) {
        let mut rng = Rng::new(seed);
        let circuit = circuits::any_legal(&mut rng, 8, 30);
        let gates = look_ahead::gates_crossed_out(&circuit);
        let crossed = look_ahead::crossed_out(&mut rng, &circuit, gates);
        accepts(seed, &crossed, &any_sequences(&mut rng, &circuit.sizes, 32));
    }
}

#[test]
fn all_sequences_of_small_circuits_are_simulated_32_at_a_time() {
    for seed in seeds(200) {
        let circuit = circuits::any_legal(&mut Rng::new(seed), 10, 40);
        let sizes = circuit.sizes;
        let all: Vec<u16> = (0..sizes.histories(sizes.frames))
            .flat_map(|sequence| sizes.history_words(sizes.frames, sequence))
            .collect();
        for words in all.chunks(32 * sizes.frames) {
            accepts(seed, &circuit, words);
        }
    }
}

#[test]
fn one_bit_changed_among_equal_sequences_is_seen_by_its_own_alone() {
    for seed in seeds(3) {
        for (inputs, frames) in LARGEST {
            let mut rng = Rng::new(seed);
            let sizes = Sizes::new(inputs, 4, frames);
            let circuit = circuits::legal(&mut rng, sizes, 150);
            let equal = any_sequence(&mut rng, &sizes).repeat(32);
            accepts(seed, &circuit, &equal);
            for bit in 0..inputs * equal.len() {
                let mut words = equal.clone();
                words[bit / inputs] ^= 1 << (bit % inputs);
                accepts(seed, &circuit, &words);
            }
        }
    }
}

#[test]
fn every_sequence_shows_its_own_inputs() {
    for seed in seeds(100) {
        for (inputs, frames) in LARGEST {
            let sizes = Sizes::new(inputs, inputs, frames);
            let words = any_sequences(&mut Rng::new(seed), &sizes, 32);
            let shown = |literal: fn(u16) -> u16| {
                let gates = Gates::new(sizes);
                let signals = 0..sizes.input_signals();
                let shown: Vec<u16> = signals.map(|i| literal(gates.input(0, i))).collect();
                outputs(&gates.finish(&shown).to_bytes(), 32, &words)
            };
            let highest = sizes.input_words() as u16 - 1;
            let opposite: Vec<u16> = words.iter().map(|word| highest - word).collect();
            assert_eq!(shown(|input| input), words);
            assert_eq!(shown(not), opposite);
        }
    }
}

#[test]
fn each_sequence_gets_what_it_gets_alone() {
    for seed in seeds(400) {
        let mut rng = Rng::new(seed);
        let circuit = circuits::any_legal(&mut rng, 16, 60);
        let (file, frames) = (circuit.to_bytes(), circuit.sizes.frames);
        for count in [32, rng.between(2, 31)] {
            let words = any_sequences(&mut rng, &circuit.sizes, count);
            let together = outputs(&file, count, &words);
            for (sequence, found) in words.chunks(frames).zip(together.chunks(frames)) {
                assert_eq!(outputs(&file, 1, sequence), found);
            }
        }
    }
}

#[test]
fn sequences_in_another_order_give_their_outputs_in_that_order() {
    for seed in seeds(400) {
        let mut rng = Rng::new(seed);
        let circuit = circuits::any_legal(&mut rng, 16, 60);
        let (file, frames) = (circuit.to_bytes(), circuit.sizes.frames);
        let words = any_sequences(&mut rng, &circuit.sizes, 32);
        let mut order: Vec<usize> = (0..32).collect();
        order.sort_by_cached_key(|_| rng.number());
        let reordered = |list: &[u16]| -> Vec<u16> {
            let sequences: Vec<&[u16]> = list.chunks(frames).collect();
            order
                .iter()
                .flat_map(|&lane| sequences[lane].to_vec())
                .collect()
        };
        let found = outputs(&file, 32, &reordered(&words));
        assert_eq!(found, reordered(&outputs(&file, 32, &words)));
    }
}

#[test]
fn huge_counts_are_refused_whatever_else_is_wrong() {
    let file = examples::parity().to_bytes();
    for count in [33, 64, 256, 1 << 16, 1 << 32, 1 << 63, usize::MAX] {
        for list in [0, 1, 2, 64, 66] {
            for word in [1, 2, u16::MAX] {
                for length in [0, list] {
                    let answer = simulate(0, &file, count, &vec![word; list], length);
                    assert_eq!(answer, [13, count as u64]);
                }
            }
        }
    }
}

/// The counts whose product with `frames` is `list` when cut to `bits` bits, but not before.
fn wrapping_counts(frames: usize, list: usize, bits: u32) -> Vec<usize> {
    let frames = frames as u128;
    (1..frames)
        .map(|turns| (turns << bits) + list as u128)
        .filter(|product| product % frames == 0)
        .map(|product| (product / frames) as usize)
        .collect()
}

#[test]
fn a_product_that_would_wrap_around_to_the_length_of_the_list_is_refused() {
    assert_eq!(wrapping_counts(2, 0, 64), [1 << 63]);
    assert_eq!(wrapping_counts(16, 48, 64)[0], (1 << 60) + 3);
    for frames in 2..=16 {
        let file = narrow(frames);
        for list in 0..=4 * frames {
            for bits in [8, 16, 32, 64] {
                for count in wrapping_counts(frames, list, bits) {
                    let answer = simulate(0, &file, count, &vec![1; list], list);
                    let (number, place) = if count > 32 { (13, count) } else { (12, list) };
                    assert_eq!(answer, [number, place as u64]);
                }
            }
        }
    }
}

#[test]
fn every_count_takes_lists_of_its_own_length_and_no_other() {
    for frames in [1, 2, 3, 16] {
        let file = narrow(frames);
        for count in 0..=32 {
            for list in 0..=33 * frames + 1 {
                let answer = simulate(0, &file, count, &vec![1; list], list);
                let number = if list == count * frames { 0 } else { 12 };
                assert_eq!(answer, [number, list as u64]);
            }
        }
    }
}

#[test]
fn no_sequences_take_no_words_and_change_nothing() {
    for sizes in sizes_with(2) {
        let file = circuits::legal(&mut Rng::new(1), sizes, 40).to_bytes();
        for length in [0, 1, sizes.frames, 20] {
            assert_eq!(simulate(0, &file, 0, &[], length), [0, 0]);
            for list in [1, sizes.frames, 32 * sizes.frames] {
                let answer = simulate(0, &file, 0, &vec![0; list], length);
                assert_eq!(answer, [12, list as u64]);
            }
        }
    }
}

#[test]
fn the_first_high_word_is_named_by_its_index_in_the_whole_list() {
    for seed in seeds(3) {
        for (inputs, frames) in LARGEST {
            let mut rng = Rng::new(seed);
            let sizes = Sizes::new(inputs, 2, frames);
            let file = circuits::legal(&mut rng, sizes, 40).to_bytes();
            for count in [1, 2, 31, 32] {
                for high in [sizes.input_words() as u16, u16::MAX] {
                    let legal = any_sequences(&mut rng, &sizes, count);
                    let mut all_behind = legal.clone();
                    for index in (0..legal.len()).rev() {
                        let mut alone = legal.clone();
                        alone[index] = high;
                        all_behind[index] = high;
                        for words in [&alone, &all_behind] {
                            let answer = simulate(seed, &file, count, words, words.len());
                            assert_eq!(answer, [9, index as u64]);
                        }
                    }
                }
            }
        }
    }
}

#[test]
fn results_of_every_length_are_judged() {
    for seed in seeds(12) {
        let mut rng = Rng::new(seed);
        let circuit = circuits::any_legal(&mut rng, 16, 10);
        for count in COUNTS {
            let words = any_sequences(&mut rng, &circuit.sizes, count);
            for length in 0..=words.len() + 5 {
                let answer = simulate(seed, &circuit.to_bytes(), count, &words, length);
                let number = if length < words.len() { 7 } else { 0 };
                assert_eq!(answer, [number, words.len() as u64]);
            }
        }
    }
}

#[test]
fn of_several_reasons_the_first_in_order_is_given() {
    for seed in seeds(100) {
        let mut rng = Rng::new(seed);
        let circuit = circuits::any_legal(&mut rng, 16, 10);
        let file = &circuit.to_bytes()[..];
        let cut = &file[..file.len() - 1];
        let words = any_sequences(&mut rng, &circuit.sizes, 32);
        let last = words.len() - 1;
        let high = [&words[..last], &[u16::MAX]].concat();
        let long = [&high[..], &[u16::MAX]].concat();
        // From line to line the first reason is taken away.
        for (file, count, words, length, expected) in [
            (cut, 33, &long, 0, [1, cut.len()]),
            (file, 33, &long, 0, [13, 33]),
            (file, 32, &long, 0, [12, long.len()]),
            (file, 32, &high, 0, [9, last]),
            (file, 32, &words, last, [7, words.len()]),
            (file, 32, &words, words.len(), [0, words.len()]),
        ] {
            let answer = simulate(seed, file, count, words, length);
            assert_eq!(answer, expected.map(|value| value as u64));
        }
    }
}

#[test]
fn faults_of_the_circuit_are_found_before_the_count() {
    let mut seen = Seen::default();
    for seed in seeds(6_000) {
        let mut rng = Rng::new(seed);
        let circuit = look_ahead::any_heedless(&mut rng, 8, 12);
        let mut file = circuit.to_bytes();
        if rng.one_in(2) {
            file = damaged(&mut rng, &file);
        }
        let count = rng.pick(&[33, 1 << 63, usize::MAX]);
        let words = any_sequences(&mut rng, &circuit.sizes, 33);
        let answer = simulate(seed, &file, count, &words, words.len());
        let expected = match reference::check_circuit(&file) {
            (0, _) => [13, count as u64],
            refusal => refusal.into(),
        };
        assert_eq!(answer, expected);
        seen.note(answer);
    }
    seen.expect(&[1, 2, 3, 4, 13]);
}

#[test]
fn any_counts_lists_and_results_are_judged() {
    let mut seen = Seen::default();
    for seed in seeds(20_000) {
        let mut rng = Rng::new(seed);
        let circuit = look_ahead::any_heedless(&mut rng, 8, 12);
        let right = rng.below(34);
        let mut words = any_sequences(&mut rng, &circuit.sizes, right);
        if rng.one_in(4) && !words.is_empty() {
            let index = rng.below(words.len());
            words[index] = rng.word();
        }
        let length = (words.len() + rng.below(4)).saturating_sub(1);
        if rng.one_in(4) {
            words.resize(rng.below(34 * circuit.sizes.frames), 0);
        }
        let count = rng.pick(&[right, right, right, right + 1, right.saturating_sub(1)]);
        seen.note(simulate(seed, &circuit.to_bytes(), count, &words, length));
    }
    seen.expect(&[0, 4, 7, 9, 12, 13]);
}

#[test]
fn a_short_answer_changes_nothing() {
    for seed in seeds(100) {
        let mut rng = Rng::new(seed);
        let circuit = look_ahead::any_heedless(&mut rng, 8, 20);
        let file = circuit.to_bytes();
        for count in [0, 1, 2, 31, 32, 33] {
            let words = any_sequences(&mut rng, &circuit.sizes, count);
            let case = Case {
                call: &called(count),
                seed,
                file: &file,
                words: &words,
                ..Case::default()
            };
            let room = Room::of_numbers(words.len());
            short_answers_change_nothing(&case, room, 2, |lent, answer| {
                call_simulate(&file, count, &words, lent.numbers, answer)
            });
        }
    }
}

/// What a call answers and leaves in a result of `length` numbers.
fn left<A>(length: usize, call: impl FnOnce(&mut [u16]) -> A) -> (A, Vec<u16>) {
    let mut result = vec![9; length];
    (call(&mut result), result)
}

/// What the safe call for a slice of sequences answers and leaves.
fn safely<S: AsRef<[u16]>>(file: &[u8], sequences: &[S], length: usize) -> ((u64, u64), Vec<u16>) {
    left(length, |result| {
        let answer = tff::simulate(file, sequences, result);
        (answer.number, answer.place)
    })
}

#[test]
fn a_slice_of_sequences_is_simulated_as_their_list() {
    let mut seen = Seen::default();
    for seed in seeds(300) {
        let mut rng = Rng::new(seed);
        let circuit = look_ahead::any_heedless(&mut rng, 8, 20);
        let file = circuit.to_bytes();
        for count in [0, 1, 2, 31, 32, 33] {
            let mut words = any_sequences(&mut rng, &circuit.sizes, count);
            if rng.one_in(4) && count > 0 {
                let index = rng.below(words.len());
                words[index] = u16::MAX;
            }
            let length = (words.len() + rng.below(4)).saturating_sub(1);
            let expected = left(length, |result| {
                reference::simulate(&file, count, &words, result)
            });
            let slices: Vec<&[u16]> = words.chunks(circuit.sizes.frames).collect();
            let vectors: Vec<Vec<u16>> = slices.iter().map(|words| words.to_vec()).collect();
            assert_eq!(safely(&file, &slices, length), expected);
            assert_eq!(safely(&file, &vectors, length), expected);
            let (number, place) = expected.0;
            seen.note([number, place]);
        }
    }
    seen.expect(&[0, 4, 7, 9, 13]);
}

#[test]
fn arrays_are_sequences_too() {
    let file = examples::parity().to_bytes();
    let none: [[u16; 2]; 0] = [];
    assert_eq!(safely(&file, &none, 1), ((0, 0), vec![9]));
    assert_eq!(safely(&file, &[[1, 1]], 3), ((0, 2), vec![1, 0, 9]));
    assert_eq!(
        safely(&file, &[[1, 1]; 32], 64),
        ((0, 64), [1, 0].repeat(32))
    );
    assert_eq!(safely(&file, &[[1, 1]; 33], 66), ((13, 33), vec![9; 66]));
    assert_eq!(safely(&file, &[[1, 1, 1]; 2], 4), ((12, 6), vec![9; 4]));
}

#[test]
fn sequences_of_different_lengths_are_refused_whatever_they_add_up_to() {
    let file = examples::parity().to_bytes();
    for lengths in (0..216).map(|all| [all / 36, all / 6 % 6, all % 6]) {
        let sum: usize = lengths.iter().sum();
        for (word, room) in [(1, 6), (1, 0), (2, 6)] {
            let (answer, result) = safely(&file, &lengths.map(|length| vec![word; length]), room);
            let expected = match (lengths, word, room) {
                ([2, 2, 2], 1, 6) => (0, 6),
                ([2, 2, 2], 1, _) => (7, 6),
                ([2, 2, 2], ..) => (9, 0),
                _ => (12, sum as u64),
            };
            assert_eq!(answer, expected);
            assert_eq!(answer.0 != 0, result == vec![9; room]);
        }
    }
}

#[test]
fn different_lengths_are_refused_after_the_circuit_and_the_count() {
    let file = &examples::parity().to_bytes()[..];
    let mut sequences = vec![vec![1; 2]; 33];
    // Lengths 1 and 3 among those of 2: together as many words as asked for.
    sequences[0].pop();
    sequences[1].push(1);
    for (file, count, expected) in [
        (&file[..27], 33, (1, 27)),
        (file, 33, (13, 33)),
        (&file[..27], 32, (1, 27)),
        (file, 32, (12, 64)),
    ] {
        let found = safely(file, &sequences[..count], 66);
        assert_eq!(found, (expected, vec![9; 66]));
    }
}

#[test]
fn one_sequence_is_simulated_as_a_slice_of_one() {
    let mut seen = Seen::default();
    for seed in seeds(2_000) {
        let mut rng = Rng::new(seed);
        let circuit = look_ahead::any_heedless(&mut rng, 8, 20);
        let file = circuit.to_bytes();
        let mut words = any_sequence(&mut rng, &circuit.sizes);
        if rng.one_in(4) {
            words[0] = rng.word();
        }
        let length = words.len() + 1 - rng.below(3);
        if rng.one_in(4) {
            words.resize(rng.below(2 * words.len() + 1), 0);
        }
        let (answer, result) = left(length, |result| tff::simulate_one(&file, &words, result));
        let figures = (answer.number, answer.place);
        assert_eq!(safely(&file, &[&words], length), (figures, result));
        seen.note([answer.number, answer.place]);
    }
    seen.expect(&[0, 4, 7, 9, 12]);
}
