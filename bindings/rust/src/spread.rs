//! Spreading a network over frames.

use crate::{raw, Answer, Node};

/// Over which frames a network is spread, and where in them its inputs and outputs come to stand.
///
/// Places are counted from 0, frame by frame. Nothing is judged before a network is spread.
#[derive(Clone, Copy, Debug, PartialEq, Eq)]
pub struct Schedule<'a> {
    /// Inputs per frame, n.
    pub inputs: u16,
    /// Outputs per frame, m.
    pub outputs: u16,
    /// Frames, T.
    pub frames: u16,
    /// The place of each input of the network, below n*T.
    pub input_places: &'a [u16],
    /// The place of each output of the network, below m*T.
    pub output_places: &'a [u16],
}

/// Puts the table with the fewest states that answers as `network` does, spread as `schedule` says, at
/// the front of `result`.
///
/// A network is a circuit of one frame with up to 16 inputs. Inputs at places that the schedule does not
/// name do nothing, and outputs there are unconnected.
///
/// `scratch` and `nodes` are memory to work in. Once `scratch` is judged long enough, the part of it
/// that is needed and all of `nodes` end as zeros, also where there are too few records (18) or
/// `result` is too short. `Nodes` finds out how many records are enough.
pub fn spread(
    network: &[u8],
    schedule: &Schedule,
    scratch: &mut [u16],
    nodes: &mut [Node],
    result: &mut [u8],
) -> Answer {
    Answer::of(|answer| {
        // SAFETY: each pointer and length is that of one slice; those written to are exclusive.
        unsafe {
            raw::tff_spread(
                network.as_ptr(),
                network.len(),
                schedule.inputs,
                schedule.outputs,
                schedule.frames,
                schedule.input_places.as_ptr(),
                schedule.input_places.len(),
                schedule.output_places.as_ptr(),
                schedule.output_places.len(),
                scratch.as_mut_ptr(),
                scratch.len(),
                nodes.as_mut_ptr(),
                nodes.len(),
                result.as_mut_ptr(),
                result.len(),
                answer.as_mut_ptr(),
                answer.len(),
            )
        }
    })
}
