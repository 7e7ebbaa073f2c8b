//! The first frames of circuits: their folded tables beside those of the whole circuits, by states, classes
//! and prices.

mod common;
#[path = "common/folded.rs"]
mod folded;
#[path = "common/folding.rs"]
mod folding;
// Circuits with faults have no frames to take.
#[allow(dead_code)]
#[path = "common/to_fold.rs"]
mod to_fold;

use std::collections::{BTreeMap, BTreeSet};

use common::{only_seed, seeds};
use folded::folded;
use folding::{ample, fold};
use reference::gen::{any_sizes, circuits, look_ahead, networks, Rng};
use reference::response::Response;
use reference::{examples, Circuit, Schedule, Sizes, Table};

/// What a circuit gives, and the table that it folds to.
struct Folded {
    response: Response,
    table: Table,
}

impl Folded {
    /// Folds a circuit with both implementations.
    fn new(seed: u64, circuit: &Circuit) -> Folded {
        let file = circuit.to_bytes();
        assert_eq!(fold(seed, &file, ample(circuit))[0], 0);
        Folded {
            response: circuit.response(),
            table: Table::read(&folded(&file)).expect("a table"),
        }
    }

    /// The first frames of a circuit, 1 up to all of them, one after the other.
    fn stages(seed: u64, circuit: &Circuit) -> Vec<Folded> {
        (1..=circuit.sizes.frames)
            .map(|frames| Folded::new(seed, &circuit.first_frames(frames)))
            .collect()
    }

    fn frames(&self) -> usize {
        self.response.sizes.frames
    }

    /// By layer, the state that each history comes to, by the history's number.
    fn states(&self) -> Vec<Vec<u16>> {
        let mut states = vec![vec![0]];
        for layer in 0..self.frames() {
            let next = states[layer]
                .iter()
                .flat_map(|&state| {
                    let first = self.table.head.entry(layer, state, 0);
                    &self.table.next_states[first..first + self.response.sizes.input_words()]
                })
                .copied()
                .collect();
            states.push(next);
        }
        states
    }

    /// The price, by both implementations.
    fn cents(&self) -> u64 {
        let file = self.table.to_bytes();
        let priced = tff::price(&file);
        assert_eq!(priced.number, 0);
        assert_eq!(priced.cents, reference::price(&file).cents);
        priced.cents
    }
}

/// By state of `longer`, the one of `shorter` that all its histories come to; none where some come to
/// different ones. Both have the states of all histories of a layer.
fn joined(longer: &[u16], shorter: &[u16]) -> Option<BTreeMap<u16, u16>> {
    let mut joined = BTreeMap::new();
    longer
        .iter()
        .zip(shorter)
        .all(|(&state, &within)| *joined.entry(state).or_insert(within) == within)
        .then_some(joined)
}

/// Inner layers of shorter tables that had fewer states than the longer ones, and those that had as
/// many.
#[derive(Debug, Default)]
struct Met {
    fewer: usize,
    as_many: usize,
}

impl Met {
    /// What is to hold of a circuit and its first frames holds.
    fn compare(&mut self, longer: &Folded, shorter: &Folded) {
        assert!(shorter.response.is_first_frames_of(&longer.response));
        let [of_longer, of_shorter] = [longer, shorter].map(Folded::states);
        for layer in 0..=shorter.frames() {
            let [more, fewer] =
                [longer, shorter].map(|of| usize::from(of.table.head.counts[layer]));
            assert!(fewer <= more, "layer {layer}");
            let joined = joined(&of_longer[layer], &of_shorter[layer]);
            let joined = joined.expect("each class of the shorter is a union of the longer's");
            // Each state of both is met.
            assert_eq!(joined.len(), more);
            assert_eq!(joined.values().collect::<BTreeSet<_>>().len(), fewer);
            if (1..shorter.frames()).contains(&layer) {
                self.fewer += usize::from(fewer < more);
                self.as_many += usize::from(fewer == more);
            }
        }
        assert!(shorter.cents() <= longer.cents());
    }

    /// Every number of frames with every larger one: the first frames of first frames are first frames.
    fn compare_stages(&mut self, seed: u64, circuit: &Circuit) {
        let stages = Folded::stages(seed, circuit);
        for (index, longer) in stages.iter().enumerate() {
            for shorter in &stages[..=index] {
                self.compare(longer, shorter);
            }
        }
    }

    /// A test that never met one of them would show nothing about it.
    fn expect(&self, fewer: usize, as_many: usize) {
        let enough = self.fewer >= fewer && self.as_many >= as_many;
        assert!(enough || only_seed().is_some(), "{self:?}");
    }
}

/// Counts of states and cents, for 1 frame up to all of them.
fn counts_and_cents(circuit: &Circuit) -> Vec<(Vec<u16>, u64)> {
    Folded::stages(0, circuit)
        .iter()
        .map(|stage| (stage.table.head.counts.clone(), stage.cents()))
        .collect()
}

#[test]
fn circuits_of_the_sources_have_the_worked_out_stages() {
    // y3 = x1 tells histories apart only once frame 3 is taken.
    let delayed = [
        (vec![1, 1], 13_800),
        (vec![1, 1, 1], 15_600),
        (vec![1, 2, 2, 1], 21_000),
    ];
    // A carry matters as soon as there is a frame behind it.
    let adder = [
        (vec![1, 1], 13_800),
        (vec![1, 2, 1], 17_400),
        (vec![1, 2, 2, 1], 21_000),
    ];
    // States 1 and 2 of layer 1 are told apart by frame 3 alone.
    let s27 = [
        (vec![1, 1], 13_800),
        (vec![1, 3, 1], 19_200),
        (vec![1, 4, 4, 1], 28_200),
    ];
    assert_eq!(counts_and_cents(&examples::delayed()), delayed);
    assert_eq!(counts_and_cents(&examples::s27()), s27);
    assert_eq!(counts_and_cents(&examples::adder()), adder);
    assert_eq!(counts_and_cents(&examples::unconnected_adder()), adder);
}

#[test]
fn every_behaviour_of_three_frames_and_its_first_two() {
    let mut met = Met::default();
    for (seed, circuit) in to_fold::every_behaviour(Sizes::new(1, 1, 3)) {
        let [longer, shorter] =
            [3, 2].map(|frames| Folded::new(seed, &circuit.first_frames(frames)));
        met.compare(&longer, &shorter);
    }
    met.expect(1_000, 1_000);
}

#[test]
fn every_behaviour_of_two_frames_and_its_first() {
    let mut met = Met::default();
    for (seed, circuit) in to_fold::every_behaviour(Sizes::new(1, 2, 2)) {
        met.compare_stages(seed, &circuit);
    }
}

#[test]
fn random_circuits_and_their_first_frames() {
    let mut met = Met::default();
    for seed in seeds(1_500) {
        let circuit = circuits::any_legal(&mut Rng::new(seed), 9, 60);
        met.compare_stages(seed, &circuit);
    }
    met.expect(200, 200);
}

#[test]
fn unrolled_machines_and_their_first_frames() {
    let mut met = Met::default();
    for (seed, circuit) in to_fold::unrolled().take(500) {
        met.compare_stages(seed, &circuit);
    }
    met.expect(200, 200);
}

#[test]
fn circuits_that_read_later_inputs_without_effect_and_their_first_frames() {
    let mut met = Met::default();
    let mut without_effect = 0;
    for seed in seeds(500) {
        let mut rng = Rng::new(seed);
        let plain = circuits::any_legal(&mut rng, 8, 40);
        let gates = look_ahead::gates_crossed_out(&plain);
        let circuit = look_ahead::crossed_out(&mut rng, &plain, gates);
        without_effect += usize::from(!circuit.outputs_reaching_later_inputs().is_empty());
        met.compare_stages(seed, &circuit);
    }
    met.expect(50, 50);
    assert!(without_effect >= 100 || only_seed().is_some());
}

#[test]
fn the_largest_circuits_and_their_first_frames() {
    let mut met = Met::default();
    for circuit in to_fold::most_states() {
        let stages = Folded::stages(0, &circuit);
        let (whole, first) = stages.split_last().expect("a frame");
        for shorter in first {
            met.compare(whole, shorter);
        }
    }
    // The whole history is shown in the last frame alone: without it nothing is told apart.
    assert_eq!(met.as_many, 0);
    let fewer = met.fewer;
    assert!(fewer > 0);
    for (circuit, _) in to_fold::few_states() {
        met.compare_stages(0, &circuit);
    }
    met.expect(fewer, 100);
}

#[test]
fn more_than_twelve_frames_rise_and_the_first_twelve_do_not() {
    // Set inputs are counted modulo 4: 1, 2, 3 and then 4 states a layer.
    let stages = Folded::stages(0, &circuits::few_states(1, 16, 200));
    let cents: Vec<u64> = stages.iter().map(Folded::cents).collect();
    assert!(cents.windows(2).all(|two| two[0] < two[1]), "{cents:?}");
    // 42 states with 12 frames: 12,000 + 32 times 1,800 + 10 times 950. With 13 there are 46, and 7.5
    // percent of 82,900 more, which are 6,217.5.
    assert_eq!(cents[11], 79_100);
    assert_eq!(cents[12], 82_900 + 6_218);
}

#[test]
fn the_first_frames_have_one_table_however_they_are_drawn() {
    for seed in seeds(300) {
        let mut rng = Rng::new(seed);
        let sizes = any_sizes(&mut rng, 6);
        let circuit = circuits::legal(&mut rng, sizes, sizes.output_gates() + 60);
        let frames = rng.between(1, sizes.frames);
        let first = circuit.first_frames(frames);
        let table = folded(&first.to_bytes());
        let outputs = first.response().sequences;
        let shown = circuits::with_outputs(first.sizes, |frame, history| {
            outputs[history * sizes.histories(frames - frame - 1)][frame]
        });
        let shown = circuits::with_connected(&shown, &first.connected());
        for drawn in [circuits::reordered(&mut rng, &first), shown] {
            assert!(drawn.response().is_first_frames_of(&circuit.response()));
            assert_eq!(folded(&drawn.to_bytes()), table);
        }
    }
}

#[test]
fn spread_networks_and_their_first_frames() {
    let mut met = Met::default();
    for seed in seeds(400) {
        let mut rng = Rng::new(seed);
        let (network, schedule) = networks::any_legal(&mut rng, 8, 40);
        let circuit = networks::rearranged(&network, &schedule);
        let table = spread(&network.to_bytes(), &schedule);
        let longer = Folded {
            response: circuit.response(),
            table: Table::read(&table).expect("a table"),
        };
        for frames in 1..=longer.frames() {
            met.compare(&longer, &Folded::new(seed, &circuit.first_frames(frames)));
        }
    }
    met.expect(50, 50);
}

/// The table that the proved library spreads a network to.
fn spread(network: &[u8], schedule: &Schedule) -> Vec<u8> {
    let [inputs, outputs, frames] = schedule.sizes;
    let schedule = tff::Schedule {
        inputs,
        outputs,
        frames,
        input_places: &schedule.input_places,
        output_places: &schedule.output_places,
    };
    let (mut scratch, mut result) = (vec![0; 1 << 17], vec![0; 1 << 20]);
    let mut nodes = tff::Nodes::up_to(tff::Nodes::ENOUGH);
    let answer = nodes.spread(network, &schedule, &mut scratch, &mut result);
    assert_eq!(answer.number, 0);
    result.truncate(answer.place as usize);
    result
}

#[test]
fn two_states_of_s27_are_one_where_the_last_frame_is_left_out() {
    let [longer, shorter] =
        [3, 2].map(|frames| Folded::new(0, &examples::s27_over(frames)).states());
    // By the words of frame 1.
    let with_three = [0, 1, 2, 2, 0, 1, 0, 1, 3, 3, 2, 2, 3, 3, 0, 1];
    let with_two = [0, 1, 1, 1, 0, 1, 0, 1, 2, 2, 1, 1, 2, 2, 0, 1];
    assert_eq!(longer[1], with_three);
    assert_eq!(shorter[1], with_two);
    let found = joined(&longer[1], &shorter[1]);
    assert_eq!(
        found,
        Some(BTreeMap::from([(0, 0), (1, 1), (2, 1), (3, 2)]))
    );
}

#[test]
fn classes_are_no_unions_the_other_way_round() {
    let [longer, shorter] =
        [examples::delayed(), examples::silent()].map(|circuit| Folded::new(0, &circuit).states());
    let found = joined(&longer[1], &shorter[1]);
    assert_eq!(found, Some(BTreeMap::from([(0, 0), (1, 0)])));
    assert_eq!(joined(&shorter[1], &longer[1]), None);
}

#[test]
fn other_circuits_of_fewer_frames_may_have_more_states() {
    // Three frames that are false, and parity, which is not their first two.
    let false_outputs = circuits::with_outputs(Sizes::new(1, 1, 3), |_, _| 0);
    let [silent, parity] =
        [false_outputs, examples::parity()].map(|circuit| Folded::new(0, &circuit));
    assert!(!parity.response.is_first_frames_of(&silent.response));
    assert_eq!(silent.table.head.counts, [1, 1, 1, 1]);
    assert_eq!(parity.table.head.counts, [1, 2, 1]);
    assert_eq!(joined(&silent.states()[1], &parity.states()[1]), None);
}
