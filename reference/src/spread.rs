//! Spreading a plain network, which is a circuit of one frame, over several frames.

use crate::answer::{deliver, refused, Answer, LIST_LENGTH, NO_SUCH_PLACE, PLACE_TAKEN};
use crate::circuit::Circuit;
use crate::fold::{clear_scratch, table_by_definition};
use crate::nodes::{judge_nodes, node_counts_at, Node};
use crate::response::Response;
use crate::sizes::Sizes;
use crate::table::Table;

/// Over which frames a network is spread, and where in them its inputs and outputs come to stand. Places
/// are counted from 0, frame by frame; none of it is judged yet.
#[derive(Clone, Debug, PartialEq, Eq)]
pub struct Schedule {
    /// n, m, T.
    pub sizes: [u16; 3],
    /// The place of each input of the network, among n*T.
    pub input_places: Vec<u16>,
    /// The place of each output of the network, among m*T.
    pub output_places: Vec<u16>,
}

/// Puts the table of the network, spread as scheduled, at the front of `result`.
pub fn spread(
    network: &[u8],
    schedule: &Schedule,
    scratch: &mut [u16],
    nodes: &mut [Node],
    result: &mut [u8],
) -> Answer {
    match table_in(network, schedule, scratch, nodes) {
        Ok(table) => deliver(&table.to_bytes(), result),
        Err(refusal) => refusal,
    }
}

/// The table, if network and schedule pass every check, `scratch` is long enough and there are as many
/// records as distinct nodes. Once `scratch` is long enough, the part of it that is needed and all
/// records end as zeros.
fn table_in(
    network: &[u8],
    schedule: &Schedule,
    scratch: &mut [u16],
    nodes: &mut [Node],
) -> Result<Table, Answer> {
    let network = Circuit::read_plain(network)?;
    let sizes = Sizes::judge(schedule.sizes)?;
    schedule.judge_lengths(&network)?;
    schedule.judge_places(&sizes)?;
    let response = schedule.response(&network, sizes);
    response.judge_outputs(0..sizes.output_gates())?;
    clear_scratch(&sizes, scratch)?;
    nodes.fill([0; 3]);
    judge_nodes(schedule.node_counts(&network, &sizes), nodes.len())?;
    Ok(table_by_definition(&response))
}

/// An item of one of the two lists.
struct Item<'a> {
    place: u16,
    /// How many places there are.
    places: usize,
    /// The items before it in its own list.
    earlier: &'a [u16],
}

impl Schedule {
    /// Each input and each output of the network has an item in its list.
    fn judge_lengths(&self, network: &Circuit) -> Result<(), Answer> {
        for (list, length) in [
            (&self.input_places, network.sizes.inputs),
            (&self.output_places, network.sizes.outputs),
        ] {
            if list.len() != length {
                return Err(refused(LIST_LENGTH, list.len()));
            }
        }
        Ok(())
    }

    /// All items are in range before one is judged to be there twice.
    fn judge_places(&self, sizes: &Sizes) -> Result<(), Answer> {
        let items = self.items(sizes);
        let outside = |item: &Item| usize::from(item.place) >= item.places;
        if let Some(index) = items.iter().position(outside) {
            return Err(refused(NO_SUCH_PLACE, index));
        }
        let taken = |item: &Item| item.earlier.contains(&item.place);
        match items.iter().position(taken) {
            Some(index) => Err(refused(PLACE_TAKEN, index)),
            None => Ok(()),
        }
    }

    /// The items of both lists, inputs first.
    fn items(&self, sizes: &Sizes) -> Vec<Item<'_>> {
        let mut items = Vec::new();
        for (list, places) in [
            (&self.input_places, sizes.input_signals()),
            (&self.output_places, sizes.output_gates()),
        ] {
            for (index, &place) in list.iter().enumerate() {
                items.push(Item {
                    place,
                    places,
                    earlier: &list[..index],
                });
            }
        }
        items
    }

    /// What the network gives on every sequence, when it reads its inputs and shows its outputs at their
    /// places. Other inputs do nothing, and other outputs are unconnected.
    fn response(&self, network: &Circuit, sizes: Sizes) -> Response {
        Response {
            sizes,
            connected: self.shown(&sizes, network.connected()[0]),
            sequences: (0..sizes.histories(sizes.frames))
                .map(|sequence| sizes.history_words(sizes.frames, sequence))
                .map(|words| network.outputs_on(&[self.read(&sizes, &words)]))
                .map(|outputs| self.shown(&sizes, outputs[0]))
                .collect(),
        }
    }

    /// The network's input word, read from the input words of the frames.
    fn read(&self, sizes: &Sizes, words: &[u16]) -> u16 {
        let bit = |place: u16| {
            let (frame, input) = frame_and_bit(place, sizes.inputs);
            words[frame] >> input & 1
        };
        let bits = self.input_places.iter().map(|&place| bit(place));
        bits.enumerate().map(|(input, bit)| bit << input).sum()
    }

    /// The output words of the frames that show an output word of the network.
    fn shown(&self, sizes: &Sizes, word: u16) -> Vec<u16> {
        let mut words = vec![0; sizes.frames];
        for (output, &place) in self.output_places.iter().enumerate() {
            let (frame, bit) = frame_and_bit(place, sizes.outputs);
            words[frame] |= (word >> output & 1) << bit;
        }
        words
    }

    /// How many distinct nodes the inputs of all frames have, then these and gate 1 of the network, and so
    /// on.
    pub fn node_counts<'a>(
        &self,
        network: &'a Circuit,
        sizes: &Sizes,
    ) -> impl Iterator<Item = usize> + 'a {
        node_counts_at(network, sizes.input_signals(), &self.input_places)
    }
}

/// The frame of a place, from 0, and the bit that it is in a word of the frame, where a frame has so
/// many places.
fn frame_and_bit(place: u16, per_frame: usize) -> (usize, usize) {
    let place = usize::from(place);
    (place / per_frame, place % per_frame)
}

#[cfg(test)]
mod tests {
    use super::*;
    use crate::gen::{networks, Rng};
    use crate::{examples, fold};

    /// All that a call answers and leaves.
    type Left = (Answer, Vec<u16>, Vec<Node>, Vec<u8>);

    fn left(
        [numbers, records, bytes]: [usize; 3],
        call: impl FnOnce(&mut [u16], &mut [Node], &mut [u8]) -> Answer,
    ) -> Left {
        let (mut scratch, mut result) = (vec![7; numbers], vec![0xee; bytes]);
        let mut nodes = vec![[7; 3]; records];
        let answer = call(&mut scratch, &mut nodes, &mut result);
        (answer, scratch, nodes, result)
    }

    /// A network is spread to what the circuit over frames, which it then is, folds to.
    fn spreads_as_rearranged(network: &Circuit, schedule: &Schedule, room: [usize; 3]) -> Answer {
        let [network, circuit] =
            [network, &networks::rearranged(network, schedule)].map(Circuit::to_bytes);
        let found = left(room, |scratch, nodes, result| {
            spread(&network, schedule, scratch, nodes, result)
        });
        let expected = left(room, |scratch, nodes, result| {
            fold(&circuit, scratch, nodes, result)
        });
        assert_eq!(found.0, expected.0);
        assert!(found == expected);
        found.0
    }

    #[test]
    fn the_adder_is_spread_as_in_the_source() {
        let [network, circuit] = [examples::plain_adder(), examples::unconnected_adder()];
        let schedule = examples::adder_schedule();
        let room = [1 << 7, 1 << 10, 1 << 10];
        assert_eq!(spreads_as_rearranged(&network, &schedule, room), (0, 100));
        let [network, circuit] = [network, circuit].map(|of| of.to_bytes());
        let found = left(room, |scratch, nodes, result| {
            spread(&network, &schedule, scratch, nodes, result)
        });
        let expected = left(room, |scratch, nodes, result| {
            fold(&circuit, scratch, nodes, result)
        });
        assert!(found == expected);
    }

    #[test]
    fn networks_are_spread_as_circuits_over_frames() {
        let mut rng = Rng::new(1);
        let (mut accepted, mut looking, mut few) = (0, 0, 0);
        for _ in 0..600 {
            let make = rng.pick(&[networks::any_legal, networks::any_heedless]);
            let (network, schedule) = make(&mut rng, 9, 40);
            let room = [1 << 10, rng.pick(&[1 << 12, 12]), 1 << 13];
            match spreads_as_rearranged(&network, &schedule, room).0 {
                0 => accepted += 1,
                4 => looking += 1,
                18 => few += 1,
                other => panic!("number {other}"),
            }
        }
        let each = [accepted, looking, few];
        assert!(each.iter().all(|&count| count >= 50), "{each:?}");
    }

    #[test]
    fn unnamed_inputs_do_nothing_and_outputs_are_recovered() {
        let mut rng = Rng::new(2);
        for _ in 0..200 {
            let (network, schedule) = networks::any_legal(&mut rng, 8, 30);
            let sizes = Sizes::judge(schedule.sizes).unwrap();
            let response = schedule.response(&network, sizes);
            for (sequence, outputs) in response.sequences.iter().enumerate() {
                let words = sizes.history_words(sizes.frames, sequence);
                let plain = network.outputs_on(&[schedule.read(&sizes, &words)])[0];
                let mut others = outputs.clone();
                for (output, &place) in schedule.output_places.iter().enumerate() {
                    let (frame, bit) = frame_and_bit(place, sizes.outputs);
                    assert_eq!(outputs[frame] >> bit & 1, plain >> output & 1);
                    others[frame] &= !(1 << bit);
                }
                assert_eq!(others, vec![0; sizes.frames]);
            }
        }
    }
}
