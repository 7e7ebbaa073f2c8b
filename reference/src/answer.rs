//! Numbers and places that the calls return.

/// A number, 0 for an accepted call, and a place.
pub type Answer = (u64, u64);

/// A length under the head's, or not the exact one; place: the length given.
pub const LENGTH: u64 = 1;
/// A size, a count or a word of connected outputs out of limits; place: its byte offset.
pub const SIZE: u64 = 2;
/// A literal that is too high or names an unconnected output; place: its byte offset.
pub const LITERAL: u64 = 3;
/// An output that looks ahead: it can differ where all words up to its frame agree; place: its index
/// from 0.
pub const LOOKS_AHEAD: u64 = 4;
/// An output word that sets what is not connected, or a next state out of range; place: its byte
/// offset.
pub const ENTRY: u64 = 5;
/// Scratch too short; place: the numbers needed.
pub const SCRATCH: u64 = 6;
/// Result too short; place: the bytes or numbers needed.
pub const RESULT: u64 = 7;
/// Too many gates to unfold into; place: the gates needed.
pub const GATES: u64 = 8;
/// An input word out of range; place: its index.
pub const WORD: u64 = 9;
/// A step from the last layer; place: the number of frames.
pub const LAST_LAYER: u64 = 10;
/// A layer or position that the table does not have; place: the layer given.
pub const POSITION: u64 = 11;
/// A list that is not one word a frame of each sequence, or not one place for each input or output of a
/// network; place: its length.
pub const LIST_LENGTH: u64 = 12;
/// More sequences than are simulated at once; place: the count given.
pub const SEQUENCES: u64 = 13;
/// A plan that is not what asking returns for the circuit; place: 0.
pub const PLAN: u64 = 14;
/// A bad window; place: its index from 0. Else too many windows; place: the most.
pub const WINDOW: u64 = 15;
/// A minute that the week does not have; place: 0.
pub const MINUTE: u64 = 16;
/// A mask with bits beyond the outputs of a frame; place: 0.
pub const MASK: u64 = 17;
/// Too few records for the nodes; place: the first gate whose nodes are too many with all before it,
/// from 1, or 0 for those of the inputs alone.
pub const NODES: u64 = 18;
/// A place that the frames do not have; place: its index in the lists of inputs and outputs joined.
pub const NO_SUCH_PLACE: u64 = 19;
/// A place that an earlier item of the same list has; place: its index likewise.
pub const PLACE_TAKEN: u64 = 20;
/// No machine of one to three states matches the table; place: 0.
pub const UNMATCHED: u64 = 21;

pub fn accepted(place: usize) -> Answer {
    (0, place as u64)
}

pub fn refused(number: u64, place: usize) -> Answer {
    (number, place as u64)
}

/// Puts `values` at the front of `result`, or refuses where there is no room for all of them.
pub fn deliver<T: Copy>(values: &[T], result: &mut [T]) -> Answer {
    if result.len() < values.len() {
        return refused(RESULT, values.len());
    }
    result[..values.len()].copy_from_slice(values);
    accepted(values.len())
}
