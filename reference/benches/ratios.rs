//! Times of the proved library beside those of the plain implementation, one line a case; then of
//! asking and committing beside folding, of spreading a network beside folding the circuit over frames
//! that it then is, of pricing beside checking, of steps with quiet hours beside steps without, of views
//! beside runs, and of a layer's outputs beside checking, all proved.
//!
//! The two take turns in one run; a line gives their median times and the ratio of these. Folding is
//! measured beside plain Rust of the same algorithm, with the circuit's nodes and states behind the
//! ratio, and then beside a linear search for states without nodes. Merging is measured beside plain Rust
//! of the same search, with the number that is answered behind the ratio.

use std::hint::black_box;
use std::time::Instant;

use reference::diagrams::nodes_made;
use reference::gen::{
    any_sequence, any_sequences, any_windows, circuits, look_ahead, machines, merging, networks,
    tables, Rng,
};
use reference::program::NODE_RECORDS as LENT;
use reference::quiet::MOST_WINDOWS;
use reference::{examples, Circuit, Node, Schedule, Sizes, Table};

/// For calls of which one is too short to be measured alone.
const MANY_CALLS: Runs = Runs {
    runs: 21,
    calls: 500,
};

fn main() {
    heading("proved", "plain");
    circuit_level();
    table_level();
    unfold_level();
    heading("fold, proved", "plain");
    fold_with_few_patterns();
    fold_without_patterns();
    heading("fold, proved", "by search");
    fold_beside_search();
    heading("merge, proved", "plain");
    merge_shown_last();
    merge_machines();
    heading("ask", "fold");
    each_planned(ask_beside_fold);
    heading("commit", "fold");
    each_planned(commit_beside_fold);
    heading("spread", "fold");
    spread_beside_fold();
    heading("price", "check");
    price_beside_check();
    heading("quiet step", "step");
    quiet_step_beside_step();
    heading("view", "run");
    view_beside_run();
    heading("layer outputs", "check");
    layer_outputs_beside_check();
}

fn heading(first: &str, second: &str) {
    println!("{:<42} {first:>13} {second:>13} {:>7}", "case", "ratio");
}

/// Checking and simulating a circuit with the most gates.
fn circuit_level() {
    let sizes = Sizes::new(2, 4, 8);
    let mut rng = Rng::new(1);
    let circuit = circuits::connected(&mut rng, sizes, Circuit::MOST_GATES).to_bytes();
    let words = any_sequence(&mut rng, &sizes);
    check_line("check 4096 gates", &MANY_CALLS, &circuit);
    let mut result = vec![0; sizes.frames];
    MANY_CALLS.measure(
        "simulate 4096 gates",
        &mut result,
        |result| tff::simulate_one(black_box(&circuit), &words, result),
        |result| reference::simulate(black_box(&circuit), 1, &words, result),
    );
    simulate_together_line(&circuit, &sizes);
    // Outputs lead to later inputs without effect, which all 65536 sequences have to show.
    let clean = circuits::connected(&mut rng, sizes, 200);
    let crossed = look_ahead::crossed_out(&mut rng, &clean, Circuit::MOST_GATES).to_bytes();
    let few = Runs { runs: 3, calls: 1 };
    check_line("check 4096 gates, crossed out", &few, &crossed);
    // The most outputs and nothing else: finding their frames takes more of the time than elsewhere.
    let outputs = circuits::connected(&mut rng, Sizes::new(1, 16, 16), 256).to_bytes();
    check_line("check 256 outputs over 16 frames", &MANY_CALLS, &outputs);
}

/// The most sequences: in one call, and by the plain implementation one at a time.
fn simulate_together_line(circuit: &[u8], sizes: &Sizes) {
    let words = any_sequences(&mut Rng::new(2), sizes, Circuit::MOST_SEQUENCES);
    let sequences: Vec<&[u16]> = words.chunks(sizes.frames).collect();
    let mut result = vec![0; words.len()];
    let some = Runs {
        runs: 21,
        calls: 20,
    };
    some.measure(
        "simulate 4096 gates, 32 sequences",
        &mut result,
        |result| tff::simulate(black_box(circuit), &sequences, result),
        |result| {
            for (words, result) in sequences.iter().zip(result.chunks_mut(sizes.frames)) {
                black_box(reference::simulate(black_box(circuit), 1, words, result));
            }
        },
    );
}

fn check_line(case: &str, runs: &Runs, circuit: &[u8]) {
    assert_eq!(reference::check_circuit(circuit), (0, 0));
    runs.measure(
        case,
        &mut (),
        |_| tff::check_circuit(black_box(circuit)),
        |_| reference::check_circuit(black_box(circuit)),
    );
}

/// Checking a table of a million entries, pricing it, counting what reaches its states and telling two
/// of them apart; and two states of tables in which every history has its own, and nothing tells.
fn table_level() {
    let table = million_entries();
    let often = Runs { runs: 21, calls: 5 };
    often.measure(
        "check a table of 1000000 entries",
        &mut (),
        |_| tff::check_table(black_box(&table)),
        |_| reference::check_table(black_box(&table)),
    );
    often.measure(
        "price a table of 1000000 entries",
        &mut (),
        |_| tff::price(black_box(&table)),
        |_| reference::price(black_box(&table)),
    );
    reach_line("reach counts of a table of 1000000 entries", &table);
    reach_line("reach counts of a table of 491521 states", &most_states());
    distinguish_line("two of its states told apart", &table, [1, 0, 15_623]);
    for (inputs, frames) in [(1, 16), (2, 8), (4, 4), (8, 2)] {
        // Nothing is ever set, so all lists of all lengths are fed.
        let apart = tables::histories_apart(Sizes::new(inputs, 1, frames));
        let case = format!("two states never told apart, {inputs} x {frames}");
        distinguish_line(&case, &apart.to_bytes(), [1, 0, 1]);
    }
}

/// Telling two states of a layer apart.
fn distinguish_line(case: &str, table: &[u8], [layer, first, second]: [u16; 3]) {
    let often = Runs { runs: 21, calls: 5 };
    often.measure(
        case,
        &mut [0; 16],
        |result| tff::distinguish(black_box(table), layer, first, second, result),
        |result| reference::distinguish(black_box(table), layer, first, second, result),
    );
}

fn reach_line(case: &str, table: &[u8]) {
    let mut result = vec![0; 1 << 22];
    assert_eq!(reference::reach(table, &mut result).0, 0);
    let often = Runs { runs: 21, calls: 5 };
    often.measure(
        case,
        &mut result,
        |result| tff::reach(black_box(table), result),
        |result| reference::reach(black_box(table), result),
    );
}

/// What a price costs beyond the check that it begins with.
fn price_beside_check() {
    let table = million_entries();
    let often = Runs { runs: 21, calls: 5 };
    often.measure(
        "a table of 1000000 entries",
        &mut (),
        |_| tff::price(black_box(&table)),
        |_| tff::check_table(black_box(&table)),
    );
}

/// What quiet hours cost beyond the plain steps, from the start to the last layer.
fn quiet_step_beside_step() {
    let mut rng = Rng::new(1);
    let sizes = Sizes::new(1, 1, 16);
    let counts = tables::any_counts(&mut rng, &sizes, 4);
    let table = tables::connected(&mut rng, sizes, counts).to_bytes();
    let words = any_sequence(&mut rng, &sizes);
    for count in [0, MOST_WINDOWS] {
        let windows = any_windows(&mut rng, count);
        MANY_CALLS.measure(
            &format!("16 frames, {count} windows"),
            &mut (),
            |_| {
                let mut board = tff::Board::new(black_box(&table), &windows);
                for &word in &words {
                    board.step(black_box(600), word).expect("a legal table");
                }
                board.position()
            },
            |_| {
                let (mut layer, mut state) = (0, 0);
                for &word in &words {
                    let stepped = tff::step(black_box(&table), layer, state, word);
                    (layer, state) = (stepped.layer, stepped.state);
                }
                (layer, state)
            },
        );
    }
}

/// What a mask costs beyond the run, in a small table and in a large one.
fn view_beside_run() {
    let mut rng = Rng::new(1);
    let sizes = Sizes::new(1, 16, 16);
    let counts = tables::any_counts(&mut rng, &sizes, 4);
    let small = tables::connected(&mut rng, sizes, counts).to_bytes();
    let words = any_sequence(&mut rng, &sizes);
    view_line("16 frames", &MANY_CALLS, &small, &words);
    let often = Runs { runs: 21, calls: 5 };
    let large = million_entries();
    view_line("a table of 1000000 entries", &often, &large, &[63, 1]);
}

fn view_line(case: &str, runs: &Runs, table: &[u8], words: &[u16]) {
    let mut result = vec![0; words.len()];
    // Every other one of nine outputs.
    let mask = 0x155;
    assert_eq!(reference::view(table, mask, words, &mut result).0, 0);
    runs.measure(
        case,
        &mut result,
        |result| tff::view(black_box(table), black_box(mask), words, result),
        |result| tff::run(black_box(table), words, result),
    );
}

/// What finding a layer costs beyond the check that it begins with.
fn layer_outputs_beside_check() {
    let often = Runs { runs: 21, calls: 5 };
    for (case, table, layer) in [
        ("a table of 1000000 entries", million_entries(), 1),
        ("a table of 491521 states", most_states(), 15),
    ] {
        often.measure(
            case,
            &mut (),
            |_| tff::layer_outputs(black_box(&table), layer).map(<[u8]>::len),
            |_| tff::check_table(black_box(&table)),
        );
    }
}

fn million_entries() -> Vec<u8> {
    let sizes = Sizes::new(6, 9, 2);
    let table = tables::connected(&mut Rng::new(1), sizes, vec![1, 15_624, 1]);
    assert_eq!(table.head.entries(), 1_000_000);
    table.to_bytes()
}

/// One input over the most frames, with the most states in each layer; 983,042 entries.
fn most_states() -> Vec<u8> {
    let sizes = Sizes::new(1, 1, 16);
    let mut counts = vec![Table::MOST_STATES; sizes.frames + 1];
    (counts[0], counts[sizes.frames]) = (1, 1);
    tables::connected(&mut Rng::new(1), sizes, counts).to_bytes()
}

/// Folding circuits that have few distinct nodes, with the most sequences.
fn fold_with_few_patterns() {
    for (kind, circuit) in [
        ("counter", machines::counter(1, 16)),
        ("counter", machines::counter(2, 8)),
        ("adder", machines::adder(8)),
        ("comparator", machines::comparator(8)),
        ("s27", examples::s27_over(4)),
        ("b01", machines::b01(8)),
        ("b02", machines::b02(16)),
        ("repeats", machines::repeats(16)),
    ] {
        fold_line(kind, &circuit);
        fold_full_line(kind, &circuit);
        fold_line(kind, &machines::padded(&circuit, Circuit::MOST_GATES));
    }
    for (kind, circuit) in fold_cases() {
        fold_line(kind, &circuit);
    }
}

/// Folding circuits of which nearly every function is another.
fn fold_without_patterns() {
    for (inputs, frames, gates) in [(2, 8, 500), (4, 4, 500), (8, 2, 500), (2, 8, 4_096)] {
        let sizes = Sizes::new(inputs, 2, frames);
        let circuit = circuits::scrambled(&mut Rng::new(1), sizes, gates);
        fold_line("no pattern", &circuit);
        if gates == 500 {
            fold_full_line("no pattern", &circuit);
        }
    }
}

/// Circuits with the most sequences, that fold to few and to many states.
fn fold_cases() -> Vec<(&'static str, Circuit)> {
    let mut all = Vec::new();
    for (inputs, frames) in [(1, 16), (2, 8), (4, 4), (8, 2)] {
        all.extend(few_and_many_states(inputs, frames));
    }
    let mut rng = Rng::new(1);
    let sizes = Sizes::new(2, 2, 8);
    all.push(("frame by frame", circuits::unrolled(&mut rng, sizes, 150)));
    let any_order = circuits::connected(&mut rng, sizes, Circuit::MOST_GATES);
    all.push(("any order", any_order));
    all
}

fn fold_beside_search() {
    for (kind, circuit) in fold_cases() {
        let file = circuit.to_bytes();
        let few = Runs { runs: 3, calls: 1 };
        few.measure(
            &named(kind, &circuit),
            &mut fold_memory(LENT.max(nodes_made(&circuit))),
            |(scratch, nodes, result)| tff::fold(black_box(&file), scratch, nodes, result),
            |(scratch, _, result)| reference::plain_fold(black_box(&file), scratch, result),
        );
    }
}

/// Merging tables with the most sequences that show something in the last frame alone: folded, and with a
/// state for each history.
fn merge_shown_last() {
    for (inputs, frames) in [(2, 8), (1, 16)] {
        let [one, sixteen] = [1, 16].map(|outputs| Sizes::new(inputs, outputs, frames));
        let mut rng = Rng::new(1);
        // A one after these sequences alone.
        let after = |late: &'static [usize]| {
            merging::in_last_frame(one, |sequence| u16::from(late.contains(&sequence)))
        };
        for (kind, table) in [
            ("random", merging::in_last_frame(one, |_| rng.word() & 1)),
            (
                "random words",
                merging::in_last_frame(sixteen, |_| rng.word()),
            ),
            ("a late history", after(&[0xffb9])),
            ("two late histories", after(&[0xffb9, 0xfe1e])),
            ("a history", after(&[0xd2b9])),
            (
                "12 ones at least",
                merging::in_last_frame(one, |sequence| u16::from(sequence.count_ones() >= 12)),
            ),
        ] {
            merge_line(kind, &merging::folded(&table));
            merge_line(&format!("{kind}, apart"), &table);
        }
    }
}

/// Merging tables of machines over the most frames, with a state for each history where three states are
/// too few for certain.
fn merge_machines() {
    for (inputs, frames) in [(2, 8), (1, 16)] {
        let mut rng = Rng::new(1);
        for states in 3..=5 {
            let machine = merging::any_machine(&mut rng, inputs, 1, states);
            let table = merging::repeated(&machine, frames);
            merge_line(&format!("a machine of {states} states"), &table);
        }
        for modulus in [4, 9] {
            let sizes = Sizes::new(inputs, 4, frames);
            let ones = |history: usize| history.count_ones() as u16;
            let table = merging::by_history(sizes, |_, history| ones(history) % modulus);
            merge_line(&format!("ones modulo {modulus}, apart"), &table);
            let carried =
                merging::by_history(sizes, |_, history| ones(history) % modulus / (modulus - 1));
            merge_line(&format!("carry modulo {modulus}, apart"), &carried);
        }
    }
}

fn merge_line(kind: &str, table: &Table) {
    let Sizes { inputs, frames, .. } = table.head.sizes;
    let file = table.to_bytes();
    let mut result = [0; 54];
    let answer = tff::merge(&file, &mut result);
    let plain = reference::plain_merge(&file, &mut result);
    assert_eq!(plain, (answer.number, answer.place));
    let few = Runs { runs: 5, calls: 1 };
    few.measure_noted(
        &format!("{inputs}x{frames}, {kind}"),
        &format!("answers {}", answer.number),
        &mut result,
        |result| tff::merge(black_box(&file), result),
        |result| reference::plain_merge(black_box(&file), result),
    );
}

/// Circuits that fold to few and to many states, with 200 gates and with the most.
fn few_and_many_states(inputs: usize, frames: usize) -> Vec<(&'static str, Circuit)> {
    let mut all = Vec::new();
    // With 200 gates there is no room for 16 outputs in each of 16 frames.
    for (gates, outputs) in [(200, 11), (Circuit::MOST_GATES, 16)] {
        let sizes = Sizes::new(inputs, outputs, frames);
        let few = circuits::few_states(inputs, frames, gates);
        all.push(("few states", few));
        all.push(("many states", circuits::many_states(sizes, gates)));
    }
    all
}

/// Unfolding to the most gates.
fn unfold_level() {
    let sizes = Sizes::new(2, 16, 8);
    let mut counts = vec![12; sizes.frames + 1];
    (counts[0], counts[sizes.frames]) = (1, 1);
    let table = tables::with_gates(&mut Rng::new(1), sizes, counts, Circuit::MOST_GATES);
    let table = table.to_bytes();
    let often = Runs {
        runs: 21,
        calls: 50,
    };
    let mut result = vec![0; 8 + 4 * Circuit::MOST_GATES];
    often.measure(
        "unfold to 4096 gates",
        &mut result,
        |result| tff::unfold(black_box(&table), result),
        |result| reference::unfold(black_box(&table), result),
    );
}

/// Folding with as many records as the folding program lends, or twice the nodes where that is too
/// few.
fn fold_line(kind: &str, circuit: &Circuit) {
    let nodes = nodes_made(circuit);
    fold_in(kind, circuit, nodes, records_for(nodes));
}

fn records_for(nodes: usize) -> usize {
    if nodes > LENT {
        2 * nodes
    } else {
        LENT
    }
}

/// Folding with just as many records as there are nodes.
fn fold_full_line(kind: &str, circuit: &Circuit) {
    let nodes = nodes_made(circuit);
    fold_in(&format!("{kind}, full"), circuit, nodes, nodes);
}

fn fold_in(kind: &str, circuit: &Circuit, nodes: usize, records: usize) {
    let file = circuit.to_bytes();
    let mut memory = fold_memory(records);
    let (scratch, list, result) = &mut memory;
    let answer = tff::fold(&file, scratch, list, result);
    assert_eq!(answer.number, 0);
    let table = Table::read(&result[..answer.place as usize]).expect("a legal table");
    let states: usize = table.head.counts.into_iter().map(usize::from).sum();
    // Long ones are measured less often.
    let runs = if nodes > 50_000 { 3 } else { 15 };
    Runs { runs, calls: 1 }.measure_noted(
        &named(kind, circuit),
        &format!("{nodes} nodes, {states} states"),
        &mut (memory, vec![[0; 3]; records]),
        |((scratch, nodes, result), _)| tff::fold(black_box(&file), scratch, nodes, result),
        |((scratch, _, result), nodes): &mut (FoldMemory, Vec<Node>)| {
            reference::fold_diagrams(black_box(&file), scratch, nodes, result)
        },
    );
}

fn named(kind: &str, circuit: &Circuit) -> String {
    let Sizes { inputs, frames, .. } = circuit.sizes;
    format!("{inputs}x{frames}, {} gates, {kind}", circuit.gates())
}

type FoldMemory = (Vec<u16>, Vec<tff::Node>, Vec<u8>);

/// Scratch and result that suffice for every circuit, and so many records.
fn fold_memory(records: usize) -> FoldMemory {
    let nodes = vec![tff::Node::default(); records];
    (vec![0; 1 << 17], nodes, vec![0; 1 << 20])
}

/// A line for each circuit whose plan is asked for and committed to: a small one, and some with the
/// most sequences.
fn each_planned(line: fn(&str, &Runs, &[u8])) {
    let parity = examples::parity();
    line(&named("parity", &parity), &MANY_CALLS, &parity.to_bytes());
    let some = Runs { runs: 21, calls: 2 };
    for (inputs, frames) in [(1, 16), (4, 4)] {
        for (kind, circuit) in few_and_many_states(inputs, frames) {
            line(&named(kind, &circuit), &some, &circuit.to_bytes());
        }
    }
}

/// What a plan costs, beside the table.
fn ask_beside_fold(case: &str, runs: &Runs, circuit: &[u8]) {
    runs.measure(
        case,
        &mut fold_memory(LENT),
        |(scratch, nodes, _)| tff::ask(black_box(circuit), scratch, nodes),
        |(scratch, nodes, result)| tff::fold(black_box(circuit), scratch, nodes, result),
    );
}

/// What it costs to judge a plan, here the right one, before the table is written.
fn commit_beside_fold(case: &str, runs: &Runs, circuit: &[u8]) {
    let mut memory = fold_memory(LENT);
    let plan = tff::ask(circuit, &mut memory.0, &mut memory.1).expect("few nodes");
    runs.measure(
        case,
        &mut memory,
        |(scratch, nodes, result)| tff::commit(black_box(circuit), &plan, scratch, nodes, result),
        |(scratch, nodes, result)| tff::fold(black_box(circuit), scratch, nodes, result),
    );
}

/// What it costs to read inputs and show outputs at their places: with few gates and many, and where gates
/// reach later inputs without effect, so that all sequences are played.
fn spread_beside_fold() {
    let often = Runs {
        runs: 21,
        calls: 20,
    };
    let some = Runs { runs: 15, calls: 1 };
    let (adder, schedule) = (examples::plain_adder(), examples::adder_schedule());
    spread_line("adder", &MANY_CALLS, &adder, &schedule);
    let mut rng = Rng::new(1);
    for sizes in [Sizes::new(2, 2, 8), Sizes::new(4, 4, 4)] {
        for gates in [200, 2_000] {
            // The outputs of the network stand behind the gates of the circuit.
            let inner = gates - sizes.output_gates();
            let circuit = circuits::connected(&mut rng, sizes, inner);
            let (network, schedule) = networks::gathered(&mut rng, &circuit, 16, 16);
            spread_line("random", &often, &network, &schedule);
        }
        let circuit = circuits::scrambled(&mut rng, sizes, 200 - sizes.output_gates());
        let (network, schedule) = networks::gathered(&mut rng, &circuit, 16, 16);
        spread_line("no pattern", &some, &network, &schedule);
        let clean = circuits::connected(&mut rng, sizes, 200);
        let crossed = look_ahead::crossed_out(&mut rng, &clean, 2_000 - sizes.output_gates());
        let (network, schedule) = networks::gathered(&mut rng, &crossed, 16, 16);
        spread_line("crossed out", &some, &network, &schedule);
    }
}

fn spread_line(kind: &str, runs: &Runs, network: &Circuit, schedule: &Schedule) {
    let circuit = networks::rearranged(network, schedule);
    let [file, folded] = [network, &circuit].map(Circuit::to_bytes);
    let [inputs, outputs, frames] = schedule.sizes;
    let schedule = tff::Schedule {
        inputs,
        outputs,
        frames,
        input_places: &schedule.input_places,
        output_places: &schedule.output_places,
    };
    let mut memory = fold_memory(records_for(nodes_made(&circuit)));
    let (scratch, nodes, result) = &mut memory;
    let answer = tff::spread(&file, &schedule, scratch, nodes, result);
    assert_eq!(answer.number, 0);
    assert_eq!(tff::fold(&folded, scratch, nodes, result), answer);
    runs.measure(
        &format!("{inputs}x{frames}, {} gates, {kind}", network.gates()),
        &mut memory,
        |(scratch, nodes, result)| tff::spread(black_box(&file), &schedule, scratch, nodes, result),
        |(scratch, nodes, result)| tff::fold(black_box(&folded), scratch, nodes, result),
    );
}

/// How often to measure, and how many calls at a time.
struct Runs {
    runs: usize,
    calls: u32,
}

impl Runs {
    /// Prints a line on two calls that work in the same memory.
    fn measure<Memory, A, B>(
        &self,
        case: &str,
        memory: &mut Memory,
        first: impl Fn(&mut Memory) -> A,
        second: impl Fn(&mut Memory) -> B,
    ) {
        self.measure_noted(case, "", memory, first, second);
    }

    /// The same with a note behind it.
    fn measure_noted<Memory, A, B>(
        &self,
        case: &str,
        note: &str,
        memory: &mut Memory,
        first: impl Fn(&mut Memory) -> A,
        second: impl Fn(&mut Memory) -> B,
    ) {
        let (mut first_times, mut second_times) = (Vec::new(), Vec::new());
        for _ in 0..self.runs {
            first_times.push(self.time(memory, &first));
            second_times.push(self.time(memory, &second));
        }
        let [first, second] = [first_times, second_times].map(median);
        let ratio = first / second;
        let line = format!("{case:<42} {first:>10.4} ms {second:>10.4} ms {ratio:>7.3}  {note}");
        println!("{}", line.trim_end());
    }

    /// Milliseconds that a call takes.
    fn time<Memory, A>(&self, memory: &mut Memory, call: impl Fn(&mut Memory) -> A) -> f64 {
        let start = Instant::now();
        for _ in 0..self.calls {
            black_box(call(memory));
        }
        start.elapsed().as_secs_f64() * 1e3 / f64::from(self.calls)
    }
}

fn median(mut times: Vec<f64>) -> f64 {
    times.sort_by(f64::total_cmp);
    times[times.len() / 2]
}
