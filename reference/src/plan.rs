//! Asking for the plan of a circuit, and folding the circuit only as planned.

use crate::answer::{deliver, refused, Answer, PLAN};
use crate::fold::table_in;
use crate::nodes::Node;
use crate::table::Table;

/// n, m, T, the counts of states of layers 0 to 16, 0 beyond T, and the bytes of the table.
pub type Plan = [u64; 21];

/// What asking answers. A refusal has a plan of zeros.
#[derive(Clone, Copy, Debug, PartialEq, Eq)]
pub struct Asked {
    pub number: u64,
    pub place: u64,
    pub plan: Plan,
}

impl From<Asked> for [u64; 23] {
    /// In the order of the C interface.
    fn from(asked: Asked) -> [u64; 23] {
        let mut values = [0; 23];
        values[..2].copy_from_slice(&[asked.number, asked.place]);
        values[2..].copy_from_slice(&asked.plan);
        values
    }
}

/// The plan of the circuit, place 0 where it is accepted.
pub fn ask(circuit: &[u8], scratch: &mut [u16], nodes: &mut [Node]) -> Asked {
    asked(table_in(circuit, scratch, nodes))
}

/// What asking answers for the table that folding finds, or for its refusal.
pub fn asked(found: Result<Table, Answer>) -> Asked {
    match found {
        Ok(table) => Asked {
            number: 0,
            place: 0,
            plan: plan_of(&table),
        },
        Err((number, place)) => Asked {
            number,
            place,
            plan: [0; 21],
        },
    }
}

/// Puts the circuit's table at the front of `result`, if `plan` is the circuit's.
pub fn commit(
    circuit: &[u8],
    plan: &[u64],
    scratch: &mut [u16],
    nodes: &mut [Node],
    result: &mut [u8],
) -> Answer {
    committed(table_in(circuit, scratch, nodes), plan, result)
}

/// What committing to `plan` answers and writes for the table that folding finds, or for its refusal.
pub fn committed(found: Result<Table, Answer>, plan: &[u64], result: &mut [u8]) -> Answer {
    match found {
        Ok(table) if plan == plan_of(&table) => deliver(&table.to_bytes(), result),
        Ok(_) => refused(PLAN, 0),
        Err(refusal) => refusal,
    }
}

/// The plan of a circuit that folds to `table`.
fn plan_of(table: &Table) -> Plan {
    let mut plan = [0; 21];
    let sizes = table.head.sizes.words();
    let head = sizes.iter().chain(&table.head.counts);
    for (number, &word) in plan.iter_mut().zip(head) {
        *number = u64::from(word);
    }
    plan[20] = table.to_bytes().len() as u64;
    plan
}
