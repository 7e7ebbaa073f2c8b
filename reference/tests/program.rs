//! The folding program's output, and the example files it is shown on.

#[path = "common/child.rs"]
mod child;
#[path = "common/root.rs"]
mod root;

use std::fs;
use std::process::Command;

use child::written;
use reference::gates::{FALSE, TRUE};
use reference::gen::{circuits, Rng};
use reference::program::{printed, MOST_READ, NODE_RECORDS};
use reference::{examples, node_counts, nodes_needed, Circuit, Gates, Sizes};
use root::root;

/// What the built program writes for `input`.
fn run_program(input: &[u8]) -> String {
    written(&mut Command::new(root().join("crates/folding/out/folding")), input)
}

fn compare(input: &[u8]) {
    assert_eq!(run_program(input), printed(input), "{} bytes", input.len());
}

fn example_files() -> [(&'static str, Circuit); 6] {
    [
        ("parity", examples::parity()),
        ("crossed", examples::crossed()),
        ("unconnected", examples::unconnected()),
        ("adder", examples::adder()),
        ("plain_adder", examples::plain_adder()),
        ("s27", examples::s27()),
    ]
}

#[test]
fn example_files_are_the_circuits_they_are_named_after() {
    for (name, circuit) in example_files() {
        let file = root().join("examples").join(name).with_extension("circuit");
        let bytes = fs::read(&file).unwrap_or_else(|error| panic!("{}: {error}", file.display()));
        assert_eq!(bytes, circuit.to_bytes(), "{name}");
    }
}

#[test]
fn examples_print_the_counts_of_the_papers() {
    let counts = [
        [1, 2, 1, 0],
        [1, 2, 1, 0],
        [1, 2, 1, 0],
        [1, 2, 2, 1],
        [1, 1, 0, 0],
        [1, 4, 4, 1],
    ];
    for ((name, circuit), counts) in example_files().into_iter().zip(counts) {
        let mut expected = String::from("layer states\n");
        for (layer, count) in counts.iter().filter(|&&count| count > 0).enumerate() {
            expected += &format!("{layer} {count}\n");
        }
        expected += &format!("total {}\n", counts.iter().sum::<u32>());
        assert_eq!(run_program(&circuit.to_bytes()), expected, "{name}");
    }
}

#[test]
fn refusals_and_short_inputs_print_one_line() {
    let parity = examples::parity().to_bytes();
    for length in 0..=parity.len() + 2 {
        let mut input = parity.clone();
        input.resize(length, 0);
        compare(&input);
    }
    for index in 0..parity.len() {
        for value in [0, 1, 9, 255] {
            let mut input = parity.clone();
            input[index] = value;
            compare(&input);
        }
    }
}

#[test]
fn input_beyond_the_limit_is_cut() {
    for extra in [0, 1, 2, 70_000] {
        let mut input = examples::parity().to_bytes();
        input.resize(MOST_READ + extra, 0);
        compare(&input);
    }
}

#[test]
fn a_table_longer_than_the_result_is_refused() {
    // The last frame shows the inputs of all frames before it, so every history has a state of its own.
    let sizes = Sizes::new(1, 16, 12);
    let gates = Gates::new(sizes);
    let mut shown: Vec<u16> = (0..11).map(|frame| gates.input(frame, 0)).collect();
    shown.resize(sizes.outputs, FALSE);
    let outputs = [vec![FALSE; 11 * sizes.outputs], shown].concat();
    let input = gates.finish(&outputs).to_bytes();
    assert_eq!(printed(&input), "refused 7 32816\n");
    compare(&input);
}

#[test]
fn generated_circuits_print_their_counts() {
    let mut rng = Rng::new(5);
    for _ in 0..60 {
        let circuit = circuits::any_legal(&mut rng, 16, 60);
        compare(&circuit.to_bytes());
    }
}

/// The first `gates` gates of a circuit, which then has one output, the last of them.
fn cut(circuit: &Circuit, gates: usize) -> Circuit {
    let mut made = Circuit {
        sizes: circuit.sizes,
        left: circuit.left[..gates].to_vec(),
        right: circuit.right[..gates].to_vec(),
    };
    let last = made.literal(gates - 1);
    let empty = made.sizes.output_gates() - 1;
    made.left.extend(vec![FALSE; empty]);
    made.left.push(last);
    made.right.extend(vec![TRUE; empty + 1]);
    made
}

/// A circuit of twelve inputs with nodes around the number of records; behind its first gates, which
/// have fewer, each has at most a node more.
fn around_the_records() -> (Circuit, Vec<usize>) {
    let sizes = Sizes::new(1, 1, 12);
    let many = circuits::scrambled(&mut Rng::new(1), sizes, 900);
    let fewer = node_counts(&many)
        .position(|count| count > NODE_RECORDS - 500)
        .expect("many nodes");
    let (mut gates, _) = Gates::reopened(&cut(&many, fewer - 1));
    // Products of inputs, each of the first of them and a product of the others.
    let mut products = vec![TRUE];
    for frame in (0..sizes.frames).rev() {
        for product in products.clone() {
            let input = gates.input(frame, 0);
            products.push(gates.and(input, product));
        }
        if products.len() > 2_000 {
            break;
        }
    }
    let circuit = gates.finish(&vec![FALSE; sizes.output_gates()]);
    let counts = node_counts(&circuit).collect();
    (circuit, counts)
}

#[test]
fn a_circuit_with_more_nodes_than_records_is_refused() {
    let (circuit, counts) = around_the_records();
    let gate = counts
        .iter()
        .position(|&count| count > NODE_RECORDS)
        .expect("many nodes");
    let [enough, too_many] = [gate - 1, gate].map(|gates| cut(&circuit, gates));
    assert_eq!(nodes_needed(&enough), NODE_RECORDS);
    assert_eq!(nodes_needed(&too_many), NODE_RECORDS + 1);
    assert!(printed(&enough.to_bytes()).starts_with("layer states\n0 1\n"));
    assert_eq!(
        printed(&too_many.to_bytes()),
        format!("refused 18 {gate}\n")
    );
    for circuit in [enough, too_many, circuit] {
        compare(&circuit.to_bytes());
    }
}

#[test]
fn records_are_judged_after_scratch_and_before_the_result() {
    // Thirteen inputs are too many for the scratch.
    for (inputs, expected) in [(13, "refused 6 "), (12, "refused 18 ")] {
        let sizes = Sizes::new(1, 16, inputs);
        let circuit = circuits::scrambled(&mut Rng::new(2), sizes, 2_000);
        let input = circuit.to_bytes();
        assert!(printed(&input).starts_with(expected));
        compare(&input);
    }
}
