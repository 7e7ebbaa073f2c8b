//! The proved views of a table against the plain ones: its outputs through a mask, beside those of
//! runs, and the output words of a layer, beside the table's own.

#[path = "common/combinations.rs"]
mod combinations;
mod common;
#[path = "common/evaluator.rs"]
mod evaluator;
#[path = "common/faults.rs"]
mod faults;
#[path = "common/folded.rs"]
mod folded;
#[path = "common/limits.rs"]
mod limits;
#[path = "common/three_frames.rs"]
mod three_frames;

use combinations::{with_faults, Fault};
use common::{compare, seeds, short_answers_change_nothing, Case, Room, Seen};
use evaluator::Evaluator;
use folded::folded;
use limits::sizes_around_the_limits;
use reference::gen::{
    all_sizes, any_connected, any_sequence, any_sizes, circuits, damaged, tables, Rng,
};
use reference::vectors::{counts, LAYERS, PARITY_TABLE, VIEWS};
use reference::words::{set_word, to_bytes, word_at};
use reference::{Sizes, Table};
use tff::Answer;
use three_frames::{three_frames, ENTRY_FAULTS, HEAD_FAULTS};

/// Views through a mask of the first output, which every table has.
const FIRST_OUTPUT: Evaluator = Evaluator {
    plain_check: reference::check_table,
    plain_evaluate: |file, words, result| reference::view(file, 1, words, result),
    proved_check: tff::raw::tff_check_table,
    proved_evaluate: |file, words, result, answer| call_view(file, 1, words, result, answer),
};

fn call_view(file: &[u8], mask: u16, words: &[u16], result: &mut [u16], answer: &mut [u64]) {
    // SAFETY: each pointer and length is that of one slice.
    unsafe {
        tff::raw::tff_view(
            file.as_ptr(),
            file.len(),
            mask,
            words.as_ptr(),
            words.len(),
            result.as_mut_ptr(),
            result.len(),
            answer.as_mut_ptr(),
            answer.len(),
        )
    }
}

fn call_layer_outputs(file: &[u8], layer: u16, answer: &mut [u64]) {
    // SAFETY: each pointer and length is that of one slice.
    unsafe {
        tff::raw::tff_layer_outputs(
            file.as_ptr(),
            file.len(),
            layer,
            answer.as_mut_ptr(),
            answer.len(),
        )
    }
}

/// What a view is given beside the table.
#[derive(Clone, Debug)]
struct Given {
    mask: u16,
    words: Vec<u16>,
    /// Numbers of result.
    room: usize,
}

impl Given {
    fn new(mask: u16, words: &[u16], room: usize) -> Given {
        let words = words.to_vec();
        Given { mask, words, room }
    }

    fn named(&self) -> String {
        format!("view, mask {}", self.mask)
    }

    fn case<'a>(&'a self, seed: u64, call: &'a str, file: &'a [u8]) -> Case<'a> {
        Case {
            call,
            seed,
            file,
            words: &self.words,
            ..Case::default()
        }
    }

    fn room(&self) -> Room {
        Room {
            numbers: self.room,
            ..Room::default()
        }
    }

    /// Views with both implementations.
    fn view(&self, seed: u64, file: &[u8]) -> [u64; 2] {
        compare(
            &self.case(seed, &self.named(), file),
            self.room(),
            |lent| reference::view(file, self.mask, &self.words, lent.numbers).into(),
            |lent, answer| call_view(file, self.mask, &self.words, lent.numbers, answer),
        )
    }

    /// The proved view: its answer, and its result, which is all 99 before.
    fn seen(&self, file: &[u8]) -> (Answer, Vec<u16>) {
        let mut result = vec![99; self.room];
        let answer = tff::view(file, self.mask, &self.words, &mut result);
        (answer, result)
    }

    /// The proved run likewise, whatever the mask.
    fn ran(&self, file: &[u8]) -> (Answer, Vec<u16>) {
        let mut result = vec![99; self.room];
        let answer = tff::run(file, &self.words, &mut result);
        (answer, result)
    }
}

fn layer_case<'a>(seed: u64, file: &'a [u8], layer: &'a [u16; 1]) -> Case<'a> {
    Case {
        call: "layer outputs",
        seed,
        file,
        words: layer,
        ..Case::default()
    }
}

/// Asks both implementations for a layer's output words.
fn layer_outputs(seed: u64, file: &[u8], layer: u16) -> [u64; 4] {
    compare(
        &layer_case(seed, file, &[layer]),
        Room::default(),
        |_| reference::layer_outputs(file, layer).into(),
        |_, answer| call_layer_outputs(file, layer, answer),
    )
}

/// An accepted view or run of so many frames.
fn accepted(frames: usize) -> Answer {
    Answer {
        number: 0,
        place: frames as u64,
    }
}

fn every_sequence(sizes: Sizes) -> impl Iterator<Item = Vec<u16>> {
    let sequences = 0..sizes.histories(sizes.frames);
    sequences.map(move |sequence| sizes.history_words(sizes.frames, sequence))
}

/// Masks of one output each, of none, all, and all but the first, and those beyond the outputs.
fn masks(sizes: &Sizes) -> Vec<u16> {
    let every = sizes.every_output();
    let mut masks: Vec<u16> = (0..16).map(|output| 1 << output).collect();
    masks.extend([0, every, every - 1, every.wrapping_add(1)]);
    masks.extend([u16::MAX - 1, u16::MAX]);
    masks
}

/// Whether a table of these sizes can be viewed through a mask.
fn is_legal(sizes: &Sizes, mask: u16) -> bool {
    usize::from(mask) < 1 << sizes.outputs
}

fn any_legal_mask(rng: &mut Rng, sizes: &Sizes) -> u16 {
    let (every, one) = (sizes.every_output(), 1 << rng.below(sizes.outputs));
    let any = rng.word() & every;
    rng.pick(&[0, every, one, every - one, any, any, any])
}

/// Beside a table of these sizes, with faults or without.
fn any_given(rng: &mut Rng, sizes: &Sizes) -> Given {
    let (legal, other) = (any_legal_mask(rng, sizes), rng.pick(&masks(sizes)));
    let mut words = any_sequence(rng, sizes);
    if rng.one_in(4) {
        let high = sizes.input_words() as u16;
        words[rng.below(sizes.frames)] = rng.pick(&[high, u16::MAX]);
    }
    if rng.one_in(6) {
        words.resize(rng.pick(&[0, sizes.frames - 1, sizes.frames + 1]), 0);
    }
    let room = sizes.frames + rng.below(4);
    Given {
        mask: rng.pick(&[legal, legal, legal, other]),
        words,
        room: rng.pick(&[room, room, room, sizes.frames - 1, 0]),
    }
}

/// A layer that a table of these sizes has, or one beyond.
fn any_layer(rng: &mut Rng, sizes: &Sizes) -> u16 {
    let inner = rng.below(sizes.frames + 1) as u16;
    let beyond = sizes.frames as u16 + rng.between(1, 2) as u16;
    rng.pick(&[inner, inner, inner, inner, beyond, 256 + inner, u16::MAX])
}

/// A table's bytes, in one of three cases damaged, and the sizes that it had before.
fn any_file(rng: &mut Rng) -> (Vec<u8>, Sizes) {
    let table = tables::any_legal(rng, 12, 3);
    let mut file = table.to_bytes();
    if rng.one_in(3) {
        file = damaged(rng, &file);
    }
    (file, table.head.sizes)
}

#[test]
fn the_given_vectors_hold() {
    let file = to_bytes(&PARITY_TABLE);
    for (mask, words, room, (number, place), shown) in VIEWS {
        let given = Given::new(mask, words, room);
        assert_eq!(given.view(0, &file), [number, place]);
        let mut expected = shown.to_vec();
        expected.resize(room, 99);
        assert_eq!(given.seen(&file), (Answer { number, place }, expected));
    }
    for (layer, expected) in LAYERS {
        assert_eq!(layer_outputs(0, &file, layer), expected);
        let [number, place, offset, length] = expected;
        let part = &file[offset as usize..][..length as usize];
        let answer = match number {
            0 => Ok(part),
            _ => Err(Answer { number, place }),
        };
        assert_eq!(tff::layer_outputs(&file, layer), answer);
    }
}

// ---- the outputs through a mask

#[test]
fn masks_are_judged_at_their_limit() {
    for sizes in all_sizes() {
        let mut rng = Rng::new(1);
        let counts = tables::any_counts(&mut rng, &sizes, 3);
        let mut table = tables::connected(&mut rng, sizes, counts);
        // Where all outputs are set, the mask itself is seen.
        table.output_words.fill(sizes.every_output());
        let (file, words) = (table.to_bytes(), any_sequence(&mut rng, &sizes));
        for mask in masks(&sizes) {
            let given = Given::new(mask, &words, sizes.frames);
            let answer = given.view(u64::from(mask), &file);
            if is_legal(&sizes, mask) {
                let expected = (accepted(sizes.frames), vec![mask; sizes.frames]);
                assert_eq!(given.seen(&file), expected);
            } else {
                assert_eq!(answer, [17, 0]);
            }
            // With 16 outputs every mask is legal.
            assert!(sizes.outputs < 16 || answer[0] == 0);
        }
    }
}

#[test]
fn every_mask_of_few_outputs_is_judged() {
    for outputs in 1..=5 {
        let sizes = Sizes::new(1, outputs, 3);
        let table = tables::connected(&mut Rng::new(1), sizes, vec![1, 2, 3, 1]);
        for mask in 0..1 << (outputs + 1) {
            let number = if mask < 1 << outputs { 0 } else { 17 };
            let given = Given::new(mask, &[1, 0, 1], 3);
            assert_eq!(given.view(0, &table.to_bytes())[0], number);
        }
    }
}

#[test]
fn every_sequence_is_seen_as_in_the_run_without_the_hidden_outputs() {
    for seed in seeds(600) {
        let mut rng = Rng::new(seed);
        let table = tables::any_legal(&mut rng, 7, 5);
        let (file, sizes) = (table.to_bytes(), table.head.sizes);
        FIRST_OUTPUT.accepts_every_sequence(seed, &file, &sizes);
        for mask in [0; 3].map(|_| any_legal_mask(&mut rng, &sizes)) {
            for words in every_sequence(sizes) {
                let given = Given::new(mask, &words, sizes.frames);
                given.view(seed, &file);
                let (answer, mut outputs) = given.ran(&file);
                outputs.iter_mut().for_each(|output| *output &= mask);
                assert_eq!(given.seen(&file), (answer, outputs));
            }
        }
    }
}

#[test]
fn through_a_mask_of_all_outputs_the_run_is_seen() {
    let mut seen = Seen::default();
    for seed in seeds(6_000) {
        let mut rng = Rng::new(seed);
        let (file, sizes) = any_file(&mut rng);
        // A damaged table may have other outputs.
        let outputs = file.get(2).map_or(1, |&outputs| outputs.clamp(1, 16));
        let given = Given {
            mask: Sizes::new(1, usize::from(outputs), 1).every_output(),
            ..any_given(&mut rng, &sizes)
        };
        let (answer, result) = given.ran(&file);
        assert_eq!(given.seen(&file), (answer, result));
        seen.note([answer.number]);
    }
    seen.expect(&[0, 1, 2, 5, 7, 9, 12]);
}

#[test]
fn outputs_that_are_not_connected_may_be_in_a_mask() {
    let sizes = Sizes::new(1, 4, 4);
    for connected in tables::each_frame_its_own(&sizes) {
        let mut table = tables::connected(&mut Rng::new(1), sizes, vec![1, 2, 2, 2, 1]);
        table.output_words.fill(sizes.every_output());
        let file = tables::with_connected(&table, &connected).to_bytes();
        for mask in 0..=sizes.every_output() {
            let given = Given::new(mask, &[1, 0, 0, 1], 4);
            given.view(0, &file);
            let outputs = connected.iter().map(|word| word & mask).collect();
            assert_eq!(given.seen(&file), (accepted(4), outputs));
        }
    }
}

/// A table of the same sizes whose masked outputs are the same on every sequence. Its states have
/// other numbers, and there may be more of them; its hidden outputs are any, and it may connect more.
fn alike(rng: &mut Rng, table: &Table, mask: u16) -> Table {
    let numbers = tables::any_numbers(rng, &table.head.counts);
    let mut made = tables::renumbered(table, &numbers);
    let sizes = table.head.sizes;
    for layer in 1..sizes.frames {
        if rng.one_in(2) {
            made = tables::with_spare_state(&made, layer);
        }
    }
    for (layer, more) in any_connected(rng, &sizes).into_iter().enumerate() {
        made.head.connected[layer] = made.head.connected[layer] & mask | more;
        for entry in made.head.entries_of(layer) {
            let masked = made.output_words[entry] & mask;
            made.output_words[entry] = masked | rng.word() & more & !mask;
        }
    }
    made
}

#[test]
fn tables_with_the_same_masked_outputs_look_the_same() {
    let (mut seen, mut runs) = (Seen::default(), Seen::default());
    for seed in seeds(400) {
        let mut rng = Rng::new(seed);
        let table = tables::any_legal(&mut rng, 7, 4);
        let sizes = table.head.sizes;
        let mask = any_legal_mask(&mut rng, &sizes);
        let [first, second] = [&table, &alike(&mut rng, &table, mask)].map(Table::to_bytes);
        for words in every_sequence(sizes) {
            let given = Given::new(mask, &words, sizes.frames + 1);
            given.view(seed, &second);
            assert_eq!(given.seen(&first), given.seen(&second));
            runs.note([u64::from(given.ran(&first) == given.ran(&second))]);
        }
        // Whatever is given, with a mask of less or with one that is refused.
        for _ in 0..100 {
            let mut given = any_given(&mut rng, &sizes);
            if is_legal(&sizes, given.mask) {
                given.mask &= mask;
            }
            let (answer, result) = given.seen(&first);
            assert_eq!(given.seen(&second), (answer, result));
            seen.note([answer.number]);
        }
    }
    seen.expect(&[0, 7, 9, 12, 17]);
    // Without the mask some are told apart.
    runs.expect(&[0, 1]);
}

/// Whether a sequence comes by an entry.
fn meets(table: &Table, words: &[u16], entry: usize) -> bool {
    let mut state = 0;
    words.iter().enumerate().any(|(layer, &word)| {
        let met = table.head.entry(layer, state, word);
        state = table.next_states[met];
        met == entry
    })
}

#[test]
fn one_output_that_differs_is_seen_by_those_who_come_by_it_through_a_mask_that_has_it() {
    let mut seen = Seen::default();
    for seed in seeds(400) {
        let mut rng = Rng::new(seed);
        let mut table = tables::any_legal(&mut rng, 6, 4);
        let sizes = table.head.sizes;
        let layer = rng.below(sizes.frames);
        let entries = table.head.entries_of(layer);
        let entry = rng.between(entries.start, entries.end - 1);
        let output = 1 << rng.below(sizes.outputs);
        table.head.connected[layer] |= output;
        let first = table.to_bytes();
        table.output_words[entry] ^= output;
        let second = table.to_bytes();
        let (every, any) = (sizes.every_output(), any_legal_mask(&mut rng, &sizes));
        for mask in [0, every, output, every - output, any] {
            for words in every_sequence(sizes) {
                let given = Given::new(mask, &words, sizes.frames);
                let told = given.seen(&first) != given.seen(&second);
                assert_eq!(told, mask & output != 0 && meets(&table, &words, entry));
                seen.note([u64::from(told)]);
            }
        }
    }
    seen.expect(&[0, 1]);
}

#[test]
fn a_view_is_the_run_of_a_circuit_that_connects_the_masked_outputs_alone() {
    let mut seen = Seen::default();
    for seed in seeds(200) {
        let mut rng = Rng::new(seed);
        let sizes = any_sizes(&mut rng, 6);
        let memory = rng.between(1, 3);
        let circuit = circuits::unrolled(&mut rng, sizes, memory);
        let mask = any_legal_mask(&mut rng, &sizes);
        let masked = circuits::with_connected(&circuit, &vec![mask; sizes.frames]);
        let [whole, masked] = [circuit, masked].map(|circuit| folded(&circuit.to_bytes()));
        for words in every_sequence(sizes) {
            let given = Given::new(mask, &words, sizes.frames);
            given.view(seed, &whole);
            let expected = given.ran(&masked);
            assert_eq!(given.seen(&whole), expected);
            assert_eq!(given.seen(&masked), expected);
        }
        seen.note([u64::from(masked.len() < whole.len())]);
    }
    // What is hidden takes states of its own, or none.
    seen.expect(&[0, 1]);
}

#[test]
fn a_result_takes_the_outputs_and_keeps_the_rest() {
    for seed in seeds(200) {
        let mut rng = Rng::new(seed);
        let table = tables::any_legal(&mut rng, 16, 4);
        let (file, sizes) = (table.to_bytes(), table.head.sizes);
        let frames = sizes.frames;
        let mask = any_legal_mask(&mut rng, &sizes);
        let words = any_sequence(&mut rng, &sizes);
        let outputs = Given::new(mask, &words, frames).seen(&file).1;
        for room in [
            0,
            1,
            frames - 1,
            frames,
            frames + 1,
            frames + 2,
            2 * frames + 9,
        ] {
            let given = Given::new(mask, &words, room);
            let (number, mut expected) = match room < frames {
                true => (7, vec![]),
                false => (0, outputs.clone()),
            };
            assert_eq!(given.view(seed, &file), [number, frames as u64]);
            expected.resize(room, 99);
            assert_eq!(given.seen(&file).1, expected);
        }
    }
}

#[test]
fn legal_tables_of_all_shapes_are_viewed() {
    for seed in seeds(3) {
        let mut rng = Rng::new(seed);
        for sizes in all_sizes() {
            let counts = tables::any_counts(&mut rng, &sizes, 6);
            let file = tables::legal(&mut rng, sizes, counts).to_bytes();
            FIRST_OUTPUT.accepts(seed, &file, &sizes, 2);
            for _ in 0..3 {
                any_given(&mut rng, &sizes).view(seed, &file);
            }
        }
    }
}

#[test]
fn faults_of_words_and_result_are_judged_in_order() {
    for seed in seeds(60) {
        let table = tables::any_legal(&mut Rng::new(seed), 16, 4);
        let (file, sizes) = (table.to_bytes(), table.head.sizes);
        FIRST_OUTPUT.names_the_first_high_word(seed, &file, &sizes);
        FIRST_OUTPUT
            .judges_words_and_result(seed, &file, &sizes)
            .expect(&[0, 7, 9, 12]);
    }
}

#[test]
fn tables_with_faults_are_not_viewed() {
    for seed in seeds(20) {
        let table = tables::any_legal(&mut Rng::new(seed), 5, 3);
        FIRST_OUTPUT.judges_lengths(seed, &table.to_bytes());
    }
    let seen = FIRST_OUTPUT.judges(4_000, |rng| {
        let table = tables::any_legal(rng, 16, 3);
        (damaged(rng, &table.to_bytes()), table.head.sizes)
    });
    seen.expect(&[0, 1, 2, 5]);
}

#[test]
fn views_with_any_faults_are_judged() {
    let mut seen = Seen::default();
    for seed in seeds(20_000) {
        let mut rng = Rng::new(seed);
        let (file, sizes) = any_file(&mut rng);
        seen.note(any_given(&mut rng, &sizes).view(seed, &file));
    }
    seen.expect(&[0, 1, 2, 5, 7, 9, 12, 17]);
}

/// Faults of a view of three frames, in the order in which they are judged.
const VIEW_FAULTS: [Fault<Given>; 4] = [
    (|given| given.mask |= 4, |_| [17, 0]),
    (
        |given| given.words.push(0),
        |given| [12, given.words.len() as u64],
    ),
    (|given| given.words[1] = 2, |_| [9, 1]),
    (|given| given.room = 2, |_| [7, 3]),
];

#[test]
fn every_combination_of_faults_of_a_view_is_refused_for_the_first() {
    let faults = [&HEAD_FAULTS[..], &ENTRY_FAULTS].concat();
    for (file, first) in with_faults(&three_frames(), &faults) {
        let given = Given::new(2, &[1, 0, 1], 4);
        for (given, then) in with_faults(&given, &VIEW_FAULTS) {
            let expected = first.or(then).unwrap_or([0, 3]);
            assert_eq!(given.view(0, &file), expected, "{given:?}");
        }
    }
}

// ---- the output words of a layer

/// Every layer of a legal table stands where the one before it ends, in the table itself; the last is
/// empty, and there are none beyond.
fn shows_every_layer(seed: u64, file: &[u8]) {
    let Table {
        head, output_words, ..
    } = Table::read(file).expect("a legal table");
    let (frames, words) = (head.sizes.frames, head.sizes.input_words());
    let mut at = 8 + 4 * frames;
    let mut joined = Vec::new();
    for layer in 0..frames {
        let length = 2 * usize::from(head.counts[layer]) * words;
        let expected = [0, 0, at as u64, length as u64];
        assert_eq!(layer_outputs(seed, file, layer as u16), expected);
        let part = own_part(file, layer as u16);
        assert_eq!(part.as_ptr(), file[at..].as_ptr());
        assert_eq!(part, to_bytes(&output_words[head.entries_of(layer)]));
        joined.extend_from_slice(part);
        at += length;
    }
    assert_eq!(joined, to_bytes(&output_words));
    assert_eq!(layer_outputs(seed, file, frames as u16), [0; 4]);
    assert!(own_part(file, frames as u16).is_empty());
    let next = frames as u16 + 1;
    for layer in [next, next + 1, 255, 256, 32_768, u16::MAX - 1, u16::MAX] {
        no_such_layer(seed, file, layer);
    }
}

/// What the wrapper gives of a layer that the table has: a part of the slice that it is given.
fn own_part(file: &[u8], layer: u16) -> &[u8] {
    let part = tff::layer_outputs(file, layer).expect("a legal table");
    let (whole, part_of_it) = (file.as_ptr_range(), part.as_ptr_range());
    assert!(whole.start <= part_of_it.start && part_of_it.end <= whole.end);
    part
}

fn no_such_layer(seed: u64, file: &[u8], layer: u16) {
    let (number, place) = (11, u64::from(layer));
    assert_eq!(layer_outputs(seed, file, layer), [number, place, 0, 0]);
    let refusal = Err(Answer { number, place });
    assert_eq!(tff::layer_outputs(file, layer), refusal);
}

#[test]
fn every_layer_of_tables_of_all_shapes_is_shown() {
    for seed in seeds(3) {
        let mut rng = Rng::new(seed);
        for sizes in all_sizes() {
            let counts = tables::any_counts(&mut rng, &sizes, 5);
            let table = tables::legal(&mut rng, sizes, counts);
            shows_every_layer(seed, &table.to_bytes());
        }
    }
}

#[test]
fn every_layer_of_small_tables_is_shown() {
    for seed in seeds(1_000) {
        let mut rng = Rng::new(seed);
        let mut table = tables::any_legal(&mut rng, 16, 9);
        if rng.one_in(2) {
            table = tables::led_to_one_state(&mut rng, &table);
        }
        if table.head.sizes.frames > 1 {
            let layer = rng.between(1, table.head.sizes.frames - 1);
            table = tables::with_spare_state(&table, layer);
        }
        shows_every_layer(seed, &table.to_bytes());
    }
}

#[test]
fn every_layer_of_folded_tables_is_shown() {
    for (circuit, _) in counts() {
        shows_every_layer(0, &folded(&circuit.to_bytes()));
    }
    for seed in seeds(300) {
        let mut rng = Rng::new(seed);
        let circuit = circuits::any_legal(&mut rng, 9, 60);
        let circuit = circuits::partly_connected(&mut rng, circuit);
        shows_every_layer(seed, &folded(&circuit.to_bytes()));
    }
    let [few, many] = [
        circuits::few_states(1, 16, 200),
        circuits::many_states(Sizes::new(2, 11, 6), 200),
    ];
    for circuit in [few, many] {
        shows_every_layer(0, &folded(&circuit.to_bytes()));
    }
}

#[test]
fn offsets_and_lengths_take_more_than_16_bits() {
    let most = Table::MOST_STATES;
    let table = tables::connected(
        &mut Rng::new(1),
        Sizes::new(1, 1, 3),
        vec![1, most, most, 1],
    );
    let file = table.to_bytes();
    shows_every_layer(1, &file);
    assert_eq!(layer_outputs(1, &file, 2), [0, 0, 131_096, 131_072]);
    assert_eq!(own_part(&file, 1).len(), 131_072);
}

#[test]
fn the_largest_table_is_viewed() {
    let file = tables::largest(&mut Rng::new(1)).to_bytes();
    assert_eq!(file.len(), 33_555_472);
    assert_eq!(layer_outputs(1, &file, 1), [0, 0, 528, 16_777_216]);
    assert_eq!(layer_outputs(1, &file, 2), [0; 4]);
    let given = Given::new(0x55, &[255, 255], 2);
    assert_eq!(given.view(1, &file), [0, 2]);
}

#[test]
fn a_layer_has_the_outputs_of_all_steps_from_it() {
    for seed in seeds(300) {
        let table = tables::any_legal(&mut Rng::new(seed), 8, 4);
        let (file, words) = (table.to_bytes(), table.head.sizes.input_words());
        for layer in 0..table.head.sizes.frames {
            let part = own_part(&file, layer as u16);
            let count = table.head.counts[layer];
            assert_eq!(part.len(), 2 * usize::from(count) * words);
            for (state, outputs) in (0..count).zip(part.chunks(2 * words)) {
                for word in 0..words {
                    let stepped = tff::step(&file, layer as u16, state, word as u16);
                    assert_eq!(word_at(outputs, 2 * word), stepped.output);
                }
            }
        }
    }
}

#[test]
fn the_part_is_a_part_of_the_slice_wherever_that_stands() {
    for seed in seeds(100) {
        let table = tables::any_legal(&mut Rng::new(seed), 8, 3).to_bytes();
        for before in 0..4 {
            let memory = [&vec![0xee; before][..], &table, &[0xee; 3]].concat();
            shows_every_layer(seed, &memory[before..before + table.len()]);
        }
    }
}

#[test]
fn another_output_word_is_shown_by_its_layer_alone() {
    for seed in seeds(200) {
        let mut rng = Rng::new(seed);
        let mut table = tables::any_legal(&mut rng, 8, 3);
        let sizes = table.head.sizes;
        let layer = rng.below(sizes.frames);
        let entries = table.head.entries_of(layer);
        let entry = rng.between(entries.start, entries.end - 1);
        table.head.connected[layer] |= 1;
        let before = table.to_bytes();
        let mut after = before.clone();
        let (at, output) = (table.head.output_at(entry), table.output_words[entry]);
        set_word(&mut after, at, output ^ 1);
        for shown in 0..=sizes.frames {
            let [before, after] = [&before, &after].map(|file| own_part(file, shown as u16));
            assert_eq!(before != after, shown == layer);
        }
    }
}

#[test]
fn sizes_near_the_limits_are_judged() {
    let mut seen = Seen::default();
    for sizes in sizes_around_the_limits() {
        let mut file = to_bytes(&sizes);
        file.resize(8 + 4 * Sizes::MOST_FRAMES, 1);
        let head = 8 + 4 * usize::from(sizes[2]);
        for length in [5, 6, head - 1, head] {
            let file = &file[..length.min(file.len())];
            seen.note(layer_outputs(0, file, sizes[2]));
            seen.note(FIRST_OUTPUT.evaluate(0, file, &[0], 1));
        }
    }
    seen.expect(&[1, 2]);
}

#[test]
fn layers_of_damaged_tables_are_judged() {
    let mut seen = Seen::default();
    for seed in seeds(20_000) {
        let mut rng = Rng::new(seed);
        let (file, sizes) = any_file(&mut rng);
        let answer = layer_outputs(seed, &file, any_layer(&mut rng, &sizes));
        assert!(answer[0] == 0 || answer[2..] == [0, 0]);
        seen.note(answer);
    }
    seen.expect(&[0, 1, 2, 5, 11]);
}

#[test]
fn every_combination_of_faults_of_a_table_is_refused_before_its_layers() {
    let faults = [&HEAD_FAULTS[..], &ENTRY_FAULTS].concat();
    for (file, first) in with_faults(&three_frames(), &faults) {
        for layer in [2, 3, 4, u16::MAX] {
            let expected = match (first, layer) {
                (Some([number, place]), _) => [number, place, 0, 0],
                (None, 2) => [0, 0, 32, 8],
                (None, 3) => [0; 4],
                (None, _) => [11, u64::from(layer), 0, 0],
            };
            assert_eq!(layer_outputs(0, &file, layer), expected);
        }
    }
}

// ---- both

#[test]
fn a_short_answer_changes_nothing() {
    let mut seen = Seen::default();
    for seed in seeds(2_000) {
        let mut rng = Rng::new(seed);
        let (file, sizes) = any_file(&mut rng);
        FIRST_OUTPUT.needs_two_answers(seed, &file, &sizes);
        let given = any_given(&mut rng, &sizes);
        let named = given.named();
        let case = given.case(seed, &named, &file);
        short_answers_change_nothing(&case, given.room(), 2, |lent, answer| {
            call_view(&file, given.mask, &given.words, lent.numbers, answer)
        });
        let layer = [any_layer(&mut rng, &sizes)];
        let case = layer_case(seed, &file, &layer);
        short_answers_change_nothing(&case, Room::default(), 4, |_, answer| {
            call_layer_outputs(&file, layer[0], answer)
        });
        seen.note(reference::layer_outputs(&file, layer[0]).into());
        seen.note([given.seen(&file).0.number]);
    }
    seen.expect(&[0, 1, 2, 5, 7, 9, 11, 12, 17]);
}

#[test]
fn a_longer_answer_keeps_its_rest() {
    let file = to_bytes(&PARITY_TABLE);
    for length in 4..8 {
        let mut answer = vec![99; length];
        call_view(&file, 1, &[1, 0], &mut [0; 2], &mut answer);
        assert_eq!(answer[..2], [0, 2]);
        assert!(answer[2..].iter().all(|&number| number == 99));
        let mut answer = vec![99; length];
        call_layer_outputs(&file, 1, &mut answer);
        assert_eq!(answer[..4], [0, 0, 20, 8]);
        assert!(answer[4..].iter().all(|&number| number == 99));
    }
}

#[test]
fn empty_slices_are_ordinary() {
    let file = to_bytes(&PARITY_TABLE);
    for (mask, expected) in [(0, [12, 0]), (1, [12, 0]), (2, [17, 0])] {
        let given = Given::new(mask, &[], 0);
        assert_eq!(given.view(0, &[]), [1, 0]);
        assert_eq!(given.view(0, &file), expected);
    }
    assert_eq!(layer_outputs(0, &[], 3), [1, 0, 0, 0]);
    let refusal = Answer {
        number: 1,
        place: 0,
    };
    assert_eq!(tff::layer_outputs(&[], 0), Err(refusal));
}

#[test]
fn the_wrappers_give_refusals_with_their_places() {
    let file = to_bytes(&PARITY_TABLE);
    let refusal = |number, place| Answer { number, place };
    let mut result = [99; 3];
    for (mask, words, answer) in [
        (2, &[1, 0][..], refusal(17, 0)),
        (1, &[1][..], refusal(12, 1)),
        (0, &[1, 2][..], refusal(9, 1)),
    ] {
        assert_eq!(tff::view(&file, mask, words, &mut result), answer);
        let cut = tff::view(&file[..39], mask, words, &mut result);
        assert_eq!(cut, refusal(1, 39));
    }
    let short = tff::view(&file, 1, &[1, 0], &mut result[..1]);
    assert_eq!(short, refusal(7, 2));
    assert_eq!(result, [99; 3]);
    assert_eq!(tff::view(&file, 1, &[1, 0], &mut result), accepted(2));
    assert_eq!(result, [1, 1, 99]);
    let parts = [Ok(&file[16..20]), Ok(&file[20..28]), Ok(&[][..])];
    let parts = parts.into_iter().chain([Err(refusal(11, 3))]);
    for (layer, part) in (0..).zip(parts) {
        assert_eq!(tff::layer_outputs(&file, layer), part);
        let cut = tff::layer_outputs(&file[..39], layer);
        assert_eq!(cut, Err(refusal(1, 39)));
    }
}
