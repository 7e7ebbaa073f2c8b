//! The C header: programs in C, compiled with it, print what the plain implementation computes, or what
//! is worked out by hand.

#[path = "common/child.rs"]
mod child;
#[path = "common/root.rs"]
mod root;

use std::env;
use std::fmt::{Display, Write};
use std::fs;
use std::path::{Path, PathBuf};
use std::process::Command;

use child::written;
use reference::vectors::{PARITY_PLAN, PARITY_TABLE};
use reference::words::{to_bytes, words_at};
use reference::{
    ask, check_circuit, check_table, commit, distinguish, examples, fold, layer_outputs, merge,
    price, quiet_step, reach, run, simulate, spread, step, unfold, view, Circuit, Node, Position,
    Schedule, Table,
};
use root::root;

/// The C program in the file `source` of the repository, compiled.
fn compiled(source: &str) -> PathBuf {
    let library = env::var_os("TFF_LIB_DIR").map_or_else(
        || root().join("crates/tff/out"),
        |given| root().join("bindings/rust").join(given),
    );
    let source = root().join(source);
    let name = source.file_stem().expect("a file");
    let program = Path::new(env!("CARGO_TARGET_TMPDIR")).join(name);
    let mut compiler = Command::new("cc");
    compiler
        .args(["-std=c99", "-Wall", "-Wextra", "-Werror", "-I"])
        .arg(root().join("include"))
        .arg(&source)
        .arg("-L")
        .arg(library)
        .args(["-ltff", "-o"])
        .arg(&program);
    written(&mut compiler, &[]);
    program
}

/// What it prints.
fn printed(source: &str) -> String {
    written(&mut Command::new(compiled(source)), &[])
}

/// What `examples/parity.c` is to print.
fn example_lines() -> String {
    let circuit = examples::parity().to_bytes();
    let (mut table, mut reached, mut drawn) = ([0; 40], [0; 40], [0; 76]);
    let mut text = String::new();
    let few = ask(&circuit, &mut [0; 8], &mut [[0; 3]; 6]);
    writeln!(text, "ask with 6 records: {}, {}", few.number, few.place).unwrap();
    let asked = ask(&circuit, &mut [0; 8], &mut [[0; 3]; 7]);
    let [inputs, outputs, frames, counts @ .., bytes] = asked.plan;
    writeln!(
        text,
        "ask: {}, {}: n {inputs}, m {outputs}, T {frames}, states{}, {bytes} bytes",
        asked.number,
        asked.place,
        listed(&counts[..=frames as usize])
    )
    .unwrap();
    let (mut scratch, mut nodes) = ([0; 8], [[0; 3]; 7]);
    let (number, place) = commit(&circuit, &asked.plan, &mut scratch, &mut nodes, &mut table);
    writeln!(text, "commit: {number}, {place}").unwrap();

    // Parity has states 1 2 1, so six entries behind the eight words of the head; the last two of these
    // tell what is connected.
    let words = words_at(&table, 0, 20);
    for frame in [1, 2] {
        writeln!(text, "frame {frame}: connected {}", words[5 + frame]).unwrap();
    }
    for (entry, (layer, state)) in [(0, 0), (1, 0), (1, 1)].into_iter().enumerate() {
        for word in 0..2 {
            let at = 8 + 2 * entry + word;
            writeln!(
                text,
                "layer {layer} state {state} word {word}: output {}, next state {}",
                words[at],
                words[at + 6]
            )
            .unwrap();
        }
    }

    writeln!(text, "price: {} cents", price(&table).cents).unwrap();

    let (number, place) = reach(&table, &mut reached);
    writeln!(text, "reach: {number}, {place}").unwrap();
    // Behind T and three counts come two arrays of four numbers, none of them above 16 bits.
    let numbers = words_at(&reached, 8, 16);
    for (index, (layer, state)) in [(0, 0), (1, 0), (1, 1), (2, 0)].into_iter().enumerate() {
        let [histories, smallest] = [numbers[2 * index], numbers[8 + 2 * index]];
        writeln!(
            text,
            "layer {layer} state {state}: histories {histories}, smallest {smallest}"
        )
        .unwrap();
    }

    let (mut layer, mut state) = (0, 0);
    for _ in 0..2 {
        let stepped = step(&table, layer, state, 1);
        (layer, state) = (stepped.layer, stepped.state);
        writeln!(
            text,
            "step on 1: output {}, layer {layer}, state {state}",
            stepped.output
        )
        .unwrap();
    }

    let (number, place) = unfold(&table, &mut drawn);
    writeln!(text, "unfold: {number}, {place}").unwrap();
    let words = words_at(&drawn, 0, 38);
    for gate in 0..17 {
        let [left, right] = [words[4 + gate], words[21 + gate]];
        writeln!(text, "{} = {left} and {right}", 2 * (3 + gate)).unwrap();
    }
    text
}

/// What `calls.c` is to print: each function on parity, accepted and refused, in the same order.
fn calls_lines() -> String {
    let circuit = examples::parity().to_bytes();
    let table = to_bytes(&PARITY_TABLE);
    let words = [1, 1, 1, 0, 2];
    // Accepted, and refused with 1, 13, 12, 9, 7.
    let simulations = [
        (28, 0, &words[..0], 0),
        (28, 1, &words[..2], 2),
        (28, 2, &words[..4], 4),
        (27, 2, &words[..4], 4),
        (28, 33, &words[..4], 4),
        (28, usize::MAX, &words[..4], 4),
        (28, 2, &words[..3], 4),
        (28, 2, &words[1..], 4),
        (28, 2, &words[..4], 3),
    ];
    // Accepted, and refused with 1, 12, 9, 7.
    let runs = [
        (40, &words[..2], 2),
        (39, &words[..2], 2),
        (40, &words[..3], 2),
        (40, &words[3..], 2),
        (40, &words[..2], 1),
    ];
    // Accepted, and refused with 1, 17, 17, 12, 9, 7.
    let views = [
        (40, 1, &words[..2], 2),
        (40, 0, &words[..2], 2),
        (39, 2, &words[..2], 2),
        (40, 2, &words[..3], 2),
        (40, u16::MAX, &words[..2], 2),
        (40, 1, &words[..3], 2),
        (40, 1, &words[3..], 2),
        (40, 1, &words[..2], 1),
    ];
    // Accepted, and refused with 1, 11, 11.
    let layers = [(40, 0), (40, 1), (40, 2), (39, 3), (40, 3), (40, u16::MAX)];
    let plan = [&PARITY_PLAN[..], &[0]].concat();
    // Refused with 1, 6, 18, 18, 7, and accepted.
    let folds = [
        (27, 8, 7, 40),
        (28, 7, 7, 40),
        (28, 8, 0, 40),
        (28, 8, 6, 40),
        (28, 8, 7, 39),
        (28, 8, 7, 40),
    ];
    // Refused with 1, 6, 18, and accepted.
    let asks = [(27, 8, 7), (28, 7, 7), (28, 8, 4), (28, 8, 7)];
    // Refused with 1, 6, 18, 14, 14, 7, and accepted.
    let commits = [
        (27, 21, 8, 7, 40),
        (28, 21, 7, 7, 40),
        (28, 20, 8, 5, 40),
        (28, 20, 8, 7, 40),
        (28, 22, 8, 7, 40),
        (28, 21, 8, 7, 39),
        (28, 21, 8, 7, 40),
    ];
    let places = [0, 1, 0, 0, 2];
    // Refused with 1, 2, 12, 12, 19, 20, 4, 6, 18, 7, and accepted.
    let spreads = [
        (27, 2, 0..2, 0..2, [8, 7, 40]),
        (28, u16::MAX, 0..2, 0..2, [8, 7, 40]),
        (28, 2, 0..1, 0..3, [8, 7, 40]),
        (28, 2, 0..2, 0..3, [8, 7, 40]),
        (28, 2, 2..4, 3..5, [8, 7, 40]),
        (28, 2, 0..2, 2..4, [8, 7, 40]),
        (28, 2, 1..3, 0..2, [7, 6, 39]),
        (28, 2, 0..2, 0..2, [7, 6, 39]),
        (28, 2, 0..2, 0..2, [8, 6, 39]),
        (28, 2, 0..2, 0..2, [8, 7, 39]),
        (28, 2, 0..2, 0..2, [8, 7, 40]),
    ];
    let steps = [
        (40, 0, 0, 1),
        (40, 1, 0, 1),
        (39, 1, 0, 1),
        (40, 1, 2, 1),
        (40, 2, 0, 1),
        (40, 1, 0, 2),
    ];
    let windows = [600, 660, 10_000, 50];
    // Accepted, and refused with 1, 15, 16, 11, 11, 10, 9.
    let quiet_steps = [
        (0, 0, 40, 0, 600, 1),
        (0, 0, 40, 4, 600, 1),
        (1, 1, 40, 4, 50, 0),
        (1, 1, 39, 4, 50, 0),
        (1, 1, 40, 3, 50, 0),
        (1, 1, 40, 4, 10_080, 0),
        (usize::MAX, 1, 40, 4, 50, 0),
        (1, usize::MAX, 40, 4, 50, 0),
        (2, 0, 40, 4, 50, 0),
        (1, 1, 40, 4, 50, 2),
    ];
    // Accepted, with a list and without, and refused with 1, 11, 11, 11, 7, 7.
    let told_apart = [
        (40, 1, 0, 1, 1),
        (40, 1, 1, 0, 2),
        (40, 1, 1, 1, 1),
        (40, 2, 0, 0, 0),
        (39, 3, 0, 1, 1),
        (40, 3, 0, 0, 1),
        (40, 1, 2, 0, 0),
        (40, 1, 0, u16::MAX, 0),
        (40, 1, 0, 1, 0),
        (40, 0, 0, 0, 1),
    ];
    // One state a layer, and output words that are the frames, from 0.
    let head = [1, 2, 4, 1, 1, 1, 1, 1, 3, 3, 3, 3];
    let entries = [0, 0, 1, 1, 2, 2, 3, 3, 0, 0, 0, 0, 0, 0, 0, 0];
    let four_frames = to_bytes(&[&head[..], &entries].concat());
    // Accepted, and refused with 1, 2, 21, 21, 7, 7.
    let merges = [
        (&table[..], 22),
        (&table, 23),
        (&four_frames[..55], 76),
        (&[3, 0, 1, 0, 1, 0], 76),
        (&four_frames, 76),
        (&four_frames, 0),
        (&table, 21),
        (&table, 0),
    ];
    let mut text = String::new();
    for length in [28, 27] {
        text += &line("check_circuit", |_| {
            check_circuit(&circuit[..length]).into()
        });
    }
    for (length, count, words, result) in simulations {
        text += &line("simulate", |lent| {
            simulate(
                &circuit[..length],
                count,
                words,
                &mut lent.numbers[..result],
            )
            .into()
        });
    }
    for (length, scratch, records, result) in folds {
        text += &line("fold", |lent| {
            fold(
                &circuit[..length],
                &mut lent.numbers[..scratch],
                &mut lent.nodes[..records],
                &mut lent.bytes[..result],
            )
            .into()
        });
    }
    // Its answer is too short.
    text += &line("ask", |_| []);
    for (length, scratch, records) in asks {
        text += &line("ask", |lent| {
            ask(
                &circuit[..length],
                &mut lent.numbers[..scratch],
                &mut lent.nodes[..records],
            )
            .into()
        });
    }
    for (length, planned, scratch, records, result) in commits {
        text += &line("commit", |lent| {
            commit(
                &circuit[..length],
                &plan[..planned],
                &mut lent.numbers[..scratch],
                &mut lent.nodes[..records],
                &mut lent.bytes[..result],
            )
            .into()
        });
    }
    let network = examples::plain_parity().to_bytes();
    for (length, frames, inputs, outputs, [scratch, records, result]) in spreads {
        let schedule = Schedule {
            sizes: [1, 1, frames],
            input_places: places[inputs].to_vec(),
            output_places: places[outputs].to_vec(),
        };
        text += &line("spread", |lent| {
            spread(
                &network[..length],
                &schedule,
                &mut lent.numbers[..scratch],
                &mut lent.nodes[..records],
                &mut lent.bytes[..result],
            )
            .into()
        });
    }
    // Its answer is too short.
    text += &line("spread", |_| []);
    for length in [40, 39] {
        text += &line("check_table", |_| check_table(&table[..length]).into());
    }
    for (length, words, result) in runs {
        text += &line("run", |lent| {
            run(&table[..length], words, &mut lent.numbers[..result]).into()
        });
    }
    for (length, mask, words, result) in views {
        text += &line("view", |lent| {
            view(&table[..length], mask, words, &mut lent.numbers[..result]).into()
        });
    }
    // Its answer is too short.
    text += &line("view", |_| []);
    for (length, layer) in layers {
        text += &line("layer_outputs", |_| {
            layer_outputs(&table[..length], layer).into()
        });
    }
    // Its answer is too short.
    text += &line("layer_outputs", |_| []);
    for (length, layer, state, word) in steps {
        text += &line("step", |_| {
            step(&table[..length], layer, state, word).into()
        });
    }
    for (layer, state, length, numbers, minute, word) in quiet_steps {
        let (table, windows) = (&table[..length], &windows[..numbers]);
        let mut position = Position { layer, state };
        text += &line("quiet_step", |_| {
            quiet_step(table, windows, minute, &mut position, word).into()
        });
        writeln!(text, "position {} {}", position.layer, position.state).unwrap();
    }
    // Its answer is too short.
    text += &line("quiet_step", |_| []);
    text += "position 1 1\n";
    for length in [40, 39] {
        text += &line("price", |_| price(&table[..length]).into());
    }
    for (length, result) in [(40, 40), (39, 40), (40, 39)] {
        text += &line("reach", |lent| {
            reach(&table[..length], &mut lent.bytes[..result]).into()
        });
    }
    for (length, layer, first, second, result) in told_apart {
        text += &line("distinguish", |lent| {
            let result = &mut lent.numbers[..result];
            distinguish(&table[..length], layer, first, second, result).into()
        });
    }
    // Its answer is too short.
    text += &line("distinguish", |_| []);
    for (table, result) in merges {
        text += &line("merge", |lent| {
            merge(table, &mut lent.bytes[..result]).into()
        });
    }
    // Its answer is too short.
    text += &line("merge", |_| []);
    for (length, result) in [(40, 76), (39, 76), (40, 75)] {
        text += &line("unfold", |lent| {
            unfold(&table[..length], &mut lent.bytes[..result]).into()
        });
    }
    text
}

/// What `calls.c` lends, but for the answer.
struct Lent {
    numbers: [u16; 9],
    nodes: [Node; 8],
    bytes: [u8; 77],
}

/// A line of `calls.c`: what a call answers and leaves in memory that is all 99 before, and 98 and 97
/// in the branches of records.
fn line<const N: usize>(name: &str, call: impl FnOnce(&mut Lent) -> [u64; N]) -> String {
    let mut answer = [99; 24];
    let mut lent = Lent {
        numbers: [99; 9],
        nodes: [[99, 98, 97]; 8],
        bytes: [99; 77],
    };
    let values = call(&mut lent);
    answer[..N].copy_from_slice(&values);
    let [answer, numbers] = [listed(&answer), listed(&lent.numbers)];
    let [nodes, bytes] = [listed(lent.nodes.as_flattened()), listed(&lent.bytes)];
    format!("{name}: answer{answer}, numbers{numbers}, nodes{nodes}, bytes{bytes}\n")
}

fn listed(values: &[impl Display]) -> String {
    values.iter().map(|value| format!(" {value}")).collect()
}

#[test]
fn the_c_example_prints_what_the_plain_implementation_computes() {
    assert_eq!(printed("examples/parity.c"), example_lines());
}

/// What `examples/quiet.c` is to print: quiet from 22:00 up to 5:00, when the count is as without.
const NIGHT: &str = "\
Sunday 20:00: output 1, plain 1, layer 1, state 1
Sunday 21:00: output 2, plain 2, layer 2, state 2
Sunday 22:00: output 0, plain 3, layer 3, state 3
Sunday 23:00: output 0, plain 0, layer 4, state 0
Monday 00:00: output 0, plain 1, layer 5, state 1
Monday 01:00: output 0, plain 2, layer 6, state 2
Monday 02:00: output 0, plain 3, layer 7, state 3
Monday 03:00: output 0, plain 0, layer 8, state 0
Monday 04:00: output 0, plain 1, layer 9, state 1
Monday 05:00: output 2, plain 2, layer 10, state 2
Monday 06:00: output 3, plain 3, layer 11, state 3
Monday 07:00: output 0, plain 0, layer 12, state 0
";

#[test]
fn the_c_board_counts_on_through_a_quiet_night() {
    assert_eq!(printed("examples/quiet.c"), NIGHT);
}

/// What `examples/view.c` is to print: the lock, output 2, opens after 1 and then 0, and a mask of 1
/// does not show it.
const LOCK: &str = "\
words 0 0: outputs 0 0, seen 0 0
words 0 1: outputs 0 1, seen 0 1
words 1 0: outputs 1 3, seen 1 1
words 1 1: outputs 1 0, seen 1 0
mask 4: 17, 0
layer 0: 0, 0: 4 bytes at 16: 0 1
layer 1: 0, 0: 8 bytes at 20: 0 1 3 0
layer 2: 0, 0: 0 bytes at 0:
layer 3: 11, 3: 0 bytes at 0:
";

#[test]
fn the_c_views_hide_a_lock_and_show_every_layer() {
    assert_eq!(printed("examples/view.c"), LOCK);
}

/// What `examples/spread.c` is to print for the adder and the lists of the source.
const ADDER: &str = "\
layer states
0 1
1 2
2 2
3 1
total 6
frame 1: connected 1
frame 2: connected 1
frame 3: connected 3
";

#[test]
fn the_c_program_spreads_the_adder() {
    let network = fs::read(root().join("examples/plain_adder.circuit")).expect("the adder");
    let program = compiled("examples/spread.c");
    let spread = |bits: &str, sums: &str| {
        let mut command = Command::new(&program);
        command.args(["2", "2", "3", bits, sums]);
        written(&mut command, &network)
    };
    assert_eq!(spread("0,2,4,1,3,5", "0,2,4,5"), ADDER);
    assert_eq!(spread("1,3,5,0,2,4", "0,2,4,5"), ADDER);
    // The highest bits first; a list too short; a place that there is not, and one that is there twice.
    assert_eq!(spread("4,2,0,5,3,1", "0,2,4,5"), "refused 4 0\n");
    assert_eq!(spread("0,2,4,1,3", "0,2,4,5"), "refused 12 5\n");
    assert_eq!(spread("0,2,4,1,3,65536", "0,2,4,5"), "refused 19 5\n");
    assert_eq!(spread("0,2,4,1,3,5", "0,2,4,4"), "refused 20 9\n");
}

/// What `examples/distinguish.c` is to print for a circuit that folds to this table.
fn told_apart(table: &[u8]) -> String {
    let head = Table::read(table).expect("a table").head;
    let mut text = String::new();
    for (layer, &count) in head.counts.iter().enumerate() {
        for second in 0..count {
            for first in 0..second {
                let mut words = [0; 16];
                let (_, found) = distinguish(table, layer as u16, first, second, &mut words);
                let words = listed(&words[..found as usize]);
                writeln!(text, "layer {layer}, states {first} and {second}:{words}").unwrap();
            }
        }
    }
    text
}

#[test]
fn the_c_program_tells_states_apart() {
    let program = compiled("examples/distinguish.c");
    let tell = |circuit: &[u8]| written(&mut Command::new(&program), circuit);
    let parity = examples::parity().to_bytes();
    assert_eq!(tell(&parity), "layer 1, states 0 and 1: 0\n");
    assert_eq!(tell(&parity[..27]), "refused 1 27\n");
    let s27 = fs::read(root().join("examples/s27.circuit")).expect("s27");
    let mut table = [0; 1 << 10];
    let (number, length) = fold(&s27, &mut [0; 1 << 13], &mut [[0; 3]; 1 << 14], &mut table);
    assert_eq!(number, 0);
    let lines = told_apart(&table[..length as usize]);
    assert_eq!(lines.lines().count(), 12);
    assert_eq!(tell(&s27), lines);
}

/// What `examples/merge.c` is to print for the adder with its empty outputs unconnected: state 1 is the
/// carry.
const MERGED_ADDER: &str = "\
n 2, m 2, states 2
state 0 word 0: output 0, next state 0
state 0 word 1: output 1, next state 0
state 0 word 2: output 1, next state 0
state 0 word 3: output 2, next state 1
state 1 word 0: output 1, next state 0
state 1 word 1: output 2, next state 1
state 1 word 2: output 2, next state 1
state 1 word 3: output 3, next state 1
";

#[test]
fn the_c_program_merges_the_adder() {
    let program = compiled("examples/merge.c");
    let merge = |circuit: &[u8]| written(&mut Command::new(&program), circuit);
    let file = fs::read(root().join("examples/unconnected_adder.circuit")).expect("the adder");
    assert_eq!(file, examples::unconnected_adder().to_bytes());
    assert_eq!(merge(&file), MERGED_ADDER);
    assert_eq!(merge(&examples::adder().to_bytes()), "refused 21 0\n");
    // It folds, and has too many inputs to be merged.
    assert_eq!(merge(&examples::s27().to_bytes()), "refused 2 0\n");
    assert_eq!(merge(&file[..7]), "refused 1 7\n");
}

/// What `examples/stages.c` is to print for a circuit.
fn stages(circuit: &Circuit) -> String {
    let mut text = String::new();
    for frames in 1..=circuit.sizes.frames {
        let first = circuit.first_frames(frames).to_bytes();
        let mut table = [0; 1 << 10];
        let (_, length) = fold(&first, &mut [0; 1 << 13], &mut [[0; 3]; 1 << 14], &mut table);
        let table = &table[..length as usize];
        let counts = Table::read(table).expect("a table").head.counts;
        let cents = price(table).cents;
        writeln!(text, "frames {frames}: states{}, {cents} cents", listed(&counts)).unwrap();
    }
    text
}

/// What it is to print for s27: two states of layer 1 are told apart by frame 3 alone.
const S27_STAGES: &str = "\
frames 1: states 1 1, 13800 cents
frames 2: states 1 3 1, 19200 cents
frames 3: states 1 4 4 1, 28200 cents
";

#[test]
fn the_c_program_prices_the_first_frames() {
    let program = compiled("examples/stages.c");
    let print = |circuit: &[u8]| written(&mut Command::new(&program), circuit);
    let circuits = [
        examples::s27(),
        examples::crossed(),
        examples::unconnected(),
        examples::unconnected_adder(),
    ];
    for circuit in &circuits {
        assert_eq!(print(&circuit.to_bytes()), stages(circuit));
    }
    let s27 = fs::read(root().join("examples/s27.circuit")).expect("s27");
    assert_eq!(print(&s27), S27_STAGES);
    assert_eq!(print(&s27[..7]), "refused 1 7\n");
}

#[test]
fn every_c_function_answers_and_leaves_what_the_plain_implementation_does() {
    assert_eq!(printed("reference/tests/c/calls.c"), calls_lines());
}
