//! Records to fold in, as many as it takes.

use crate::{ask, commit, fold, spread, Answer, Node, Plan, Schedule};

/// The number of a call that has too few records.
const TOO_FEW: u64 = 18;

/// A list of records that grows: its calls are the plain ones, made again with twice the records
/// wherever they answer 18, up to the most that the list may have.
///
/// It begins with `Nodes::FIRST` records, or the most if that is less, and never shrinks, so that a
/// list that folds several circuits grows at most once for each doubling. Each attempt begins anew;
/// those before the last together take about its time at most. A record is 12 bytes.
#[derive(Clone, Debug)]
pub struct Nodes {
    list: Vec<Node>,
    most: usize,
}

impl Nodes {
    /// How many records a list has at first.
    pub const FIRST: usize = 16_384;

    /// Enough for every circuit and network. At each of the first twelve inputs a gate has at most twice the nodes
    /// of the input before, one at the first; at the last four inputs all functions together have
    /// 65,534.
    pub const ENOUGH: usize = 16 + 4_096 * 4_095 + 65_534;

    /// A list of at most `most` records; with `Nodes::ENOUGH`, no call answers 18.
    pub fn up_to(most: usize) -> Nodes {
        let list = vec![Node::default(); most.min(Self::FIRST)];
        Nodes { list, most }
    }

    /// Folds as `fold` does.
    pub fn fold(&mut self, circuit: &[u8], scratch: &mut [u16], result: &mut [u8]) -> Answer {
        loop {
            let answer = fold(circuit, scratch, &mut self.list, result);
            if answer.number != TOO_FEW || !self.grow() {
                return answer;
            }
        }
    }

    /// Asks for a plan as `ask` does.
    pub fn ask(&mut self, circuit: &[u8], scratch: &mut [u16]) -> Result<Plan, Answer> {
        loop {
            let answer = ask(circuit, scratch, &mut self.list);
            let too_few = matches!(answer, Err(refusal) if refusal.number == TOO_FEW);
            if !too_few || !self.grow() {
                return answer;
            }
        }
    }

    /// Commits to a plan as `commit` does.
    pub fn commit(
        &mut self,
        circuit: &[u8],
        plan: &Plan,
        scratch: &mut [u16],
        result: &mut [u8],
    ) -> Answer {
        loop {
            let answer = commit(circuit, plan, scratch, &mut self.list, result);
            if answer.number != TOO_FEW || !self.grow() {
                return answer;
            }
        }
    }

    /// Spreads a network as `spread` does.
    pub fn spread(
        &mut self,
        network: &[u8],
        schedule: &Schedule,
        scratch: &mut [u16],
        result: &mut [u8],
    ) -> Answer {
        loop {
            let answer = spread(network, schedule, scratch, &mut self.list, result);
            if answer.number != TOO_FEW || !self.grow() {
                return answer;
            }
        }
    }

    /// Twice the records, or the most; false where there are the most already.
    fn grow(&mut self) -> bool {
        let length = self.list.len();
        self.list.resize(self.most.min(2 * length), Node::default());
        self.list.len() > length
    }
}
