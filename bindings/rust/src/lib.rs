//! Time-frame folding: a circuit of AND gates over frames becomes a layered state table.
//!
//! Safe calls of the proved library. Every call takes its memory from the caller, but for the list
//! that `simulate` joins its sequences into and the records of `Nodes`, and answers with a number, 0
//! where it accepts and otherwise the reason of its refusal, and a place; `ask` gives a plan where it
//! accepts, a `Board` an output, and `layer_outputs` a part of the caller's table. The meaning of all
//! of them, and of every byte written, is that of `include/tff.h`.

mod circuit;
mod distinguish;
mod fold;
mod merge;
mod nodes;
mod plan;
mod price;
mod quiet;
mod reach;
mod spread;
mod table;
mod unfold;
mod view;

pub mod raw;

pub use circuit::{check_circuit, simulate, simulate_one};
pub use distinguish::distinguish;
pub use fold::fold;
pub use merge::merge;
pub use nodes::Nodes;
pub use plan::{ask, commit, Plan};
pub use price::{price, Priced};
pub use quiet::Board;
pub use raw::{Node, Position};
pub use reach::reach;
pub use spread::{spread, Schedule};
pub use table::{check_table, run, step, Stepped};
pub use unfold::unfold;
pub use view::{layer_outputs, view};

/// What a call answers: 0 or the reason of its refusal, and a place.
#[derive(Clone, Copy, Debug, PartialEq, Eq)]
pub struct Answer {
    pub number: u64,
    pub place: u64,
}

impl Answer {
    /// The answer that `call` writes into the numbers it is given.
    fn of(call: impl FnOnce(&mut [u64; 2])) -> Answer {
        let mut answer = [0; 2];
        call(&mut answer);
        let [number, place] = answer;
        Answer { number, place }
    }
}
