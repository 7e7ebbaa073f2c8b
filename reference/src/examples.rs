//! Small circuits that the papers name.

use crate::circuit::Circuit;
use crate::gates::{not, Gates, FALSE, UNCONNECTED};
use crate::sizes::Sizes;
use crate::spread::Schedule;

/// Each output word is the parity of the inputs so far, over two frames.
pub fn parity() -> Circuit {
    Circuit {
        sizes: Sizes::new(1, 1, 2),
        left: vec![2, 3, 7, 2, 11],
        right: vec![5, 4, 9, 1, 1],
    }
}

/// Parity, whose first output passes through a gate of the second input and its opposite, without
/// effect.
pub fn crossed() -> Circuit {
    Circuit {
        sizes: Sizes::new(1, 1, 2),
        left: vec![4, 2, 3, 9, 2, 13],
        right: vec![5, 5, 4, 11, 7, 1],
    }
}

/// Parity with nothing connected to its first output.
pub fn unconnected() -> Circuit {
    Circuit {
        sizes: Sizes::new(1, 1, 2),
        left: vec![2, 3, 7, UNCONNECTED, 11],
        right: vec![5, 4, 9, UNCONNECTED, 1],
    }
}

/// One frame whose output is its input.
pub fn identity() -> Circuit {
    let gates = Gates::new(Sizes::new(1, 1, 1));
    let input = gates.input(0, 0);
    gates.finish(&[input])
}

/// Two frames with outputs that are always false.
pub fn silent() -> Circuit {
    Gates::new(Sizes::new(1, 1, 2)).finish(&[FALSE; 2])
}

/// Three frames; the last output is the first input, the others are false.
pub fn delayed() -> Circuit {
    let gates = Gates::new(Sizes::new(1, 1, 3));
    let input = gates.input(0, 0);
    gates.finish(&[FALSE, FALSE, input])
}

/// Three-bit adder, one bit of both numbers a frame: sum bits, and in the last frame the carry. The
/// empty outputs before it are false.
pub fn adder() -> Circuit {
    adder_with_empty(FALSE)
}

/// The adder with nothing connected to its empty outputs.
pub fn unconnected_adder() -> Circuit {
    adder_with_empty(UNCONNECTED)
}

fn adder_with_empty(empty: u16) -> Circuit {
    let mut gates = Gates::new(Sizes::new(2, 2, 3));
    let mut carry = FALSE;
    let mut outputs = Vec::new();
    for frame in 0..3 {
        let [a, b] = [0, 1].map(|input| gates.input(frame, input));
        let sum = add_bits(&mut gates, a, b, &mut carry);
        outputs.extend([sum, if frame == 2 { carry } else { empty }]);
    }
    gates.finish(&outputs)
}

/// The sum bit of two bits and the carry, which becomes the carry of the sum.
fn add_bits(gates: &mut Gates, a: u16, b: u16, carry: &mut u16) -> u16 {
    let half = gates.xor(a, b);
    let sum = gates.xor(half, *carry);
    let both = gates.and(a, b);
    let passed = gates.and(half, *carry);
    *carry = gates.or(both, passed);
    sum
}

/// Three-bit adder without frames.
pub fn plain_adder() -> Circuit {
    plain_adder_of(3)
}

/// Adder without frames: the bits of one number, then those of the other, lowest first; sum bits, then the
/// carry.
pub fn plain_adder_of(bits: usize) -> Circuit {
    let mut gates = Gates::new(Sizes::new(2 * bits, bits + 1, 1));
    let mut carry = FALSE;
    let mut outputs = Vec::new();
    for bit in 0..bits {
        let [a, b] = [bit, bits + bit].map(|input| gates.input(0, input));
        outputs.push(add_bits(&mut gates, a, b, &mut carry));
    }
    outputs.push(carry);
    gates.finish(&outputs)
}

/// How the plain three-bit adder is spread to the one over frames.
pub fn adder_schedule() -> Schedule {
    adder_schedule_of(3)
}

/// A bit of both numbers and of their sum in each frame, and the carry in the last.
pub fn adder_schedule_of(bits: u16) -> Schedule {
    let each_frame = |first: u16| (0..bits).map(move |frame| 2 * frame + first);
    Schedule {
        sizes: [2, 2, bits],
        input_places: each_frame(0).chain(each_frame(1)).collect(),
        output_places: each_frame(0).chain([2 * bits - 1]).collect(),
    }
}

/// Parity without frames: the first of two inputs, and the parity of both.
pub fn plain_parity() -> Circuit {
    Circuit {
        sizes: Sizes::new(2, 2, 1),
        ..parity()
    }
}

/// ISCAS-89 circuit s27 over three frames.
pub fn s27() -> Circuit {
    s27_over(3)
}

/// ISCAS-89 circuit s27, its flip-flops false at first. Signals are named as there.
pub fn s27_over(frames: usize) -> Circuit {
    let mut gates = Gates::new(Sizes::new(4, 1, frames));
    let [mut g5, mut g6, mut g7] = [FALSE; 3];
    let mut outputs = Vec::new();
    for frame in 0..frames {
        let [g0, g1, g2, g3] = [0, 1, 2, 3].map(|input| gates.input(frame, input));
        let g14 = not(g0);
        let g8 = gates.and(g14, g6);
        let g12 = not(gates.or(g1, g7));
        let g15 = gates.or(g12, g8);
        let g16 = gates.or(g3, g8);
        let g9 = not(gates.and(g16, g15));
        let g11 = not(gates.or(g5, g9));
        outputs.push(not(g11));
        g5 = not(gates.or(g14, g11));
        g6 = g11;
        g7 = not(gates.or(g2, g12));
    }
    gates.finish(&outputs)
}
