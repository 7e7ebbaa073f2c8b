//! The proved price of a table against the plain one.

mod common;
#[path = "common/folded.rs"]
mod folded;
#[path = "common/outputs.rs"]
mod outputs;

use common::{compare, seeds, short_answers_change_nothing, Case, Room, Seen};
use folded::folded;
use outputs::assert_same_outputs;
use reference::gen::{circuits, damaged, tables, Rng};
use reference::vectors::PARITY_TABLE;
use reference::words::{set_word, to_bytes, word_at};
use reference::{Circuit, Sizes, Table};

/// The most states that can be charged: 15 full layers behind the first.
const MOST_CHARGED: usize = 1 + 15 * 32_768;

fn call_price(table: &[u8], answer: &mut [u64]) {
    // SAFETY: each pointer and length is that of one slice.
    unsafe {
        tff::raw::tff_price(
            table.as_ptr(),
            table.len(),
            answer.as_mut_ptr(),
            answer.len(),
        )
    }
}

fn price_case(seed: u64, file: &[u8]) -> Case<'_> {
    Case {
        call: "price",
        seed,
        file,
        ..Case::default()
    }
}

/// Prices with both implementations. Only the table's checks refuse, and then without cents.
fn price(seed: u64, file: &[u8]) -> [u64; 3] {
    let answer = compare(
        &price_case(seed, file),
        Room::default(),
        |_| reference::price(file).into(),
        |_, answer| call_price(file, answer),
    );
    let [number, place, cents] = answer;
    assert_eq!((number, place), reference::check_table(file));
    assert_eq!(number != 0, cents == 0);
    answer
}

/// The cents of a table that is accepted.
fn cents(seed: u64, file: &[u8]) -> u64 {
    let [number, place, cents] = price(seed, file);
    assert_eq!([number, place], [0, 0]);
    cents
}

/// A table of so many frames and charged states, one input and one output.
fn with_charged(seed: u64, frames: usize, charged: usize) -> Vec<u8> {
    let mut rng = Rng::new(seed);
    let counts = tables::counts_with(&mut rng, frames, charged);
    tables::legal(&mut rng, Sizes::new(1, 1, frames), counts).to_bytes()
}

/// The price of so many charged states over so many frames, wherever the states are.
fn cents_of(charged: usize, frames: usize) -> u64 {
    let [first, second] = [0, 1].map(|seed| cents(seed, &with_charged(seed, frames, charged)));
    assert_eq!(first, second);
    first
}

#[test]
fn the_given_prices_hold() {
    let parity = tff::price(&to_bytes(&PARITY_TABLE));
    assert_eq!((parity.number, parity.place, parity.cents), (0, 0, 17_400));
    let thirteen = tff::price(&with_charged(0, 13, 33));
    assert_eq!(thirteen.number, 0);
    assert_eq!(thirteen.cents, 75_841);
}

#[test]
fn one_charged_state_is_priced() {
    // A table of one frame has one charged state; the end layer costs nothing.
    assert_eq!(cents(0, &with_charged(0, 1, 1)), 13_800);
}

#[test]
fn bands_change_after_32_and_256_states_and_the_sum_rises_above_12_frames() {
    let expected = [
        (31, 67_800, 72_885),
        (32, 69_600, 74_820),
        (33, 70_550, 75_841),
        (255, 281_450, 302_559),
        (256, 282_400, 303_580),
        (257, 282_720, 303_924),
    ];
    for (charged, sum, risen) in expected {
        for (frames, cents) in [(2, sum), (12, sum), (13, risen), (16, risen)] {
            assert_eq!(cents_of(charged, frames), cents);
        }
    }
}

#[test]
fn half_a_cent_is_rounded_upward() {
    // 7.5 percent of the sums: 5,291.25, 5,362.5, 5,433.75, 5,505, 5,576.25, 5,647.5.
    let expected = [
        (33, 70_550 + 5_291),
        (34, 71_500 + 5_363),
        (35, 72_450 + 5_434),
        (36, 73_400 + 5_505),
        (37, 74_350 + 5_576),
        (38, 75_300 + 5_648),
    ];
    for (charged, cents) in expected {
        assert_eq!(cents_of(charged, 13), cents);
    }
}

#[test]
fn every_count_about_the_bands_is_priced_over_every_number_of_frames() {
    for frames in 2..=16 {
        for charged in frames..300 {
            cents_of(charged, frames);
        }
    }
}

#[test]
fn the_most_states_are_priced() {
    let file = with_charged(0, 16, MOST_CHARGED);
    // 12,000 + 57,600 + 212,800 + 491,265 times 320 are 157,487,200; 7.5 percent are 11,811,540.
    assert_eq!(cents(0, &file), 169_298_740);
    let fewer = with_charged(1, 16, MOST_CHARGED - 1);
    assert_eq!(cents(1, &fewer), 169_298_740 - 344);
}

#[test]
fn the_longest_table_is_priced() {
    let table = tables::largest(&mut Rng::new(0));
    assert_eq!(cents(0, &table.to_bytes()), 10_686_560);
}

#[test]
fn tables_of_all_sizes_are_priced() {
    for seed in seeds(4_000) {
        let table = tables::any_legal(&mut Rng::new(seed), 16, 40);
        cents(seed, &table.to_bytes());
    }
}

#[test]
fn every_length_is_judged() {
    let mut seen = Seen::default();
    for seed in seeds(30) {
        let file = tables::any_legal(&mut Rng::new(seed), 5, 3).to_bytes();
        for length in 0..file.len() + 9 {
            let mut other = file.clone();
            other.resize(length, 0);
            seen.note(price(seed, &other));
        }
    }
    seen.expect(&[0, 1]);
}

#[test]
fn every_word_is_judged() {
    let mut seen = Seen::default();
    for seed in seeds(60) {
        let file = tables::any_legal(&mut Rng::new(seed), 6, 3).to_bytes();
        for at in (0..file.len()).step_by(2) {
            let old = word_at(&file, at);
            let near = [old.wrapping_sub(1), old.wrapping_add(1), 2 * (old % 1000)];
            for word in [0, 1, near[0], near[1], near[2], 32_769, u16::MAX] {
                let mut other = file.clone();
                set_word(&mut other, at, word);
                seen.note(price(seed, &other));
            }
        }
    }
    seen.expect(&[0, 1, 2, 5]);
}

#[test]
fn damaged_tables_are_judged() {
    let mut seen = Seen::default();
    for seed in seeds(40_000) {
        let mut rng = Rng::new(seed);
        let table = tables::any_legal(&mut rng, 16, 3);
        seen.note(price(seed, &damaged(&mut rng, &table.to_bytes())));
    }
    seen.expect(&[0, 1, 2, 5]);
}

#[test]
fn more_states_cost_more() {
    for seed in seeds(300) {
        let mut rng = Rng::new(seed);
        let table = tables::any_legal(&mut rng, 16, 60);
        let before = cents(seed, &table.to_bytes());
        for layer in 1..table.head.sizes.frames {
            let larger = tables::with_spare_state(&table, layer);
            assert!(before < cents(seed, &larger.to_bytes()));
        }
    }
}

#[test]
fn no_table_of_a_circuit_costs_less_than_the_folded_one() {
    for seed in seeds(200) {
        let circuit = circuits::any_legal(&mut Rng::new(seed), 8, 40);
        let folded = Table::read(&folded(&circuit.to_bytes())).unwrap();
        let least = cents(seed, &folded.to_bytes());
        let each_history = tables::each_history(&circuit);
        let cost = cost_as(seed, &circuit, &each_history);
        assert!(least <= cost);
        // Equal counts are the only way to cost no more.
        let equal_counts = folded.head.counts == each_history.head.counts;
        assert_eq!(least == cost, equal_counts);
        for layer in 1..circuit.sizes.frames {
            let spare = tables::with_spare_state(&folded, layer);
            assert!(least < cost_as(seed, &circuit, &spare));
        }
    }
}

/// What a table that gives the circuit's outputs costs.
fn cost_as(seed: u64, circuit: &Circuit, table: &Table) -> u64 {
    let file = table.to_bytes();
    assert_same_outputs(&circuit.sizes, &circuit.to_bytes(), &file);
    cents(seed, &file)
}

#[test]
fn empty_slices_are_ordinary() {
    assert_eq!(price(0, &[]), [1, 0, 0]);
}

#[test]
fn a_short_answer_changes_nothing() {
    for seed in seeds(300) {
        let table = tables::any_legal(&mut Rng::new(seed), 16, 4).to_bytes();
        for file in [&table[..], &table[1..]] {
            short_answers_change_nothing(
                &price_case(seed, file),
                Room::default(),
                3,
                |_, answer| call_price(file, answer),
            );
        }
    }
}
