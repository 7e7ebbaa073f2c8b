//! Checking circuits and simulating them on one sequence, plain and proved.

use crate::evaluator::Evaluator;
use crate::simulating::call_simulate;

pub const CIRCUIT: Evaluator = Evaluator {
    plain_check: reference::check_circuit,
    plain_evaluate: |file, words, result| reference::simulate(file, 1, words, result),
    proved_check: tff::raw::tff_check_circuit,
    proved_evaluate: |file, words, result, answer| call_simulate(file, 1, words, result, answer),
};
