//! The proved step with quiet hours against the plain one, and both against the step without.

#[path = "common/combinations.rs"]
mod combinations;
mod common;
#[path = "common/folded.rs"]
mod folded;
#[path = "common/places.rs"]
mod places;

use combinations::{length, with_faults, Fault};
use common::{compare, seeds, short_answers_change_nothing, Case, Room, Seen};
use folded::folded;
use places::{places, places_around, Place};
use reference::gen::{any_windows, circuits, damaged, tables, Rng};
use reference::quiet::{quiet_minutes, WEEK};
use reference::vectors::{quiet_steps, PARITY_TABLE};
use reference::words::{set_word, to_bytes, words_at};
use reference::Sizes;
use tff::{Answer, Board, Position};

/// A minute that no window of these tests holds unless it is said.
const LOUD: u16 = 480;
/// Minutes at the ends of the week and beyond.
const EDGES: [u16; 6] = [0, 1, 10_078, 10_079, 10_080, u16::MAX];
/// Bad windows.
const BAD: [[u16; 2]; 8] = [
    [7, 7],
    [0, 0],
    [10_079, 10_079],
    [10_080, 0],
    [0, 10_080],
    [u16::MAX, 7],
    [7, u16::MAX],
    [10_080, 10_080],
];

/// What a step is given.
#[derive(Clone, Debug)]
struct Call {
    file: Vec<u8>,
    windows: Vec<u16>,
    minute: u16,
    position: Position,
    word: u16,
}

impl Call {
    /// Parity's first step on the word 1, which gives 1 and leads to state 1 of layer 1.
    fn parity(windows: &[u16], minute: u16) -> Call {
        Call::at([0, 0, 1], &to_bytes(&PARITY_TABLE), windows, minute)
    }

    fn at([layer, state, word]: Place, file: &[u8], windows: &[u16], minute: u16) -> Call {
        Call {
            file: file.to_vec(),
            windows: windows.to_vec(),
            minute,
            position: position(layer, state),
            word,
        }
    }

    /// All but the table and the windows.
    fn named(&self) -> String {
        let Position { layer, state } = self.position;
        let (minute, word) = (self.minute, self.word);
        format!("quiet step, minute {minute}, layer {layer}, state {state}, word {word}")
    }

    fn case<'a>(&'a self, seed: u64, call: &'a str) -> Case<'a> {
        Case {
            call,
            seed,
            file: &self.file,
            words: &self.windows,
            ..Case::default()
        }
    }

    /// Makes the proved call. Gives the position that it leaves, between others that it may not change.
    fn proved(&self, answer: &mut [u64]) -> Position {
        let guard = position(98, 99);
        let mut lent = [guard, self.position, guard];
        // SAFETY: each pointer and length is that of one slice, and the position is in none of them.
        unsafe {
            tff::raw::tff_quiet_step(
                self.file.as_ptr(),
                self.file.len(),
                self.windows.as_ptr(),
                self.windows.len(),
                self.minute,
                lent.as_mut_ptr().add(1),
                self.word,
                answer.as_mut_ptr(),
                answer.len(),
            )
        }
        assert_eq!((lent[0], lent[2]), (guard, guard));
        lent[1]
    }

    /// Makes the plain call. Gives number, place and output, and the position after.
    fn plain(&self) -> ([u64; 3], Position) {
        let Position { layer, state } = self.position;
        let mut after = reference::Position { layer, state };
        let (file, windows) = (&self.file, &self.windows);
        let stepped = reference::quiet_step(file, windows, self.minute, &mut after, self.word);
        let reference::Position { layer, state } = after;
        (stepped.into(), Position { layer, state })
    }

    /// Steps with both implementations. Gives number, place and output, and the position after.
    fn both(&self, seed: u64) -> ([u64; 3], Position) {
        let (named, mut found) = (self.named(), self.position);
        let (answer, after) = self.plain();
        compare(
            &self.case(seed, &named),
            Room::default(),
            |_| answer,
            |_, answer| found = self.proved(answer),
        );
        assert_eq!(found, after, "{self:?}");
        if answer[0] != 0 {
            assert_eq!((answer[2], found), (0, self.position), "{self:?}");
        }
        (answer, found)
    }

    /// Steps with both implementations. Gives number, place and output.
    fn answer(&self, seed: u64) -> [u64; 3] {
        self.both(seed).0
    }
}

fn position(layer: u16, state: u16) -> Position {
    Position {
        layer: usize::from(layer),
        state: usize::from(state),
    }
}

fn refusal(number: u64, place: u64) -> Result<u16, Answer> {
    Err(Answer { number, place })
}

/// So many good windows, none of which holds the loud minute.
fn good_windows(count: usize) -> Vec<u16> {
    (0..count)
        .map(|index| (index % 100) as u16)
        .flat_map(|later| [600 + later, 660 + 2 * later])
        .collect()
}

#[test]
fn the_given_vectors_hold() {
    let table = to_bytes(&PARITY_TABLE);
    for (windows, minute, expected) in quiet_steps() {
        assert_eq!(Call::parity(&windows, minute).answer(0), expected);
        let [number, place, output] = expected;
        let mut board = Board::new(&table, &windows);
        let (answer, after) = match number {
            0 => (Ok(output as u16), position(1, 1)),
            _ => (refusal(number, place), position(0, 0)),
        };
        assert_eq!(board.step(minute, 1), answer);
        assert_eq!(board.position(), after);
    }
}

#[test]
fn the_step_after_a_quiet_one_is_the_plain_one() {
    let table = to_bytes(&PARITY_TABLE);
    let mut board = Board::new(&table, &[600, 660]);
    assert_eq!(board.step(659, 1), Ok(0));
    assert_eq!(board.position(), position(1, 1));
    assert_eq!(board.step(660, 0), Ok(1));
    assert_eq!(board.position(), position(2, 0));
}

#[test]
fn every_minute_of_the_week_is_quiet_or_not() {
    // 32 windows that touch, the last over the week's end, and every second of them.
    let touching: Vec<u16> = (0..32)
        .flat_map(|index| [100 + 315 * index, (100 + 315 * (index + 1)) % 10_080])
        .collect();
    let every_second: Vec<u16> = touching
        .chunks(4)
        .flat_map(|two| [two[0], two[1]])
        .collect();
    let quiet_minutes: [(&[u16], usize); 14] = [
        (&[], 0),
        (&[0, 1], 1),
        (&[10_079, 0], 1),
        (&[10_078, 10_079], 1),
        (&[0, 10_079], 10_079),
        (&[1, 0], 10_079),
        (&[10_000, 50], 130),
        (&[100, 200, 200, 300], 200),
        (&[100, 200, 150, 250], 150),
        (&[100, 400, 200, 300], 300),
        (&[10_000, 50, 9_900, 10_050, 40, 60], 240),
        (&[5_040, 0, 0, 5_040], 10_080),
        (&touching, 10_080),
        (&every_second, 5_040),
    ];
    for (windows, expected) in quiet_minutes {
        let mut call = Call::parity(windows, 0);
        let mut quiet = 0;
        for minute in 0..10_080 {
            call.minute = minute;
            let ([number, place, output], after) = call.both(0);
            assert_eq!([number, place], [0, 0]);
            assert_eq!(after, position(1, 1));
            quiet += usize::from(output == 0);
        }
        assert_eq!(quiet, expected, "{windows:?}");
    }
}

#[test]
fn minutes_are_judged_at_the_ends_of_the_week() {
    // Minutes from the first on, round the week.
    let from = |first: u16, minute: u16| (minute + 10_080 - first) % 10_080;
    for first in EDGES {
        for last in EDGES {
            for minute in EDGES {
                let expected = if first > 10_079 || last > 10_079 || first == last {
                    [15, 0, 0]
                } else if minute > 10_079 {
                    [16, 0, 0]
                } else {
                    [0, 0, u64::from(from(first, minute) >= from(first, last))]
                };
                let call = Call::parity(&[first, last], minute);
                assert_eq!(call.answer(0), expected, "{call:?}");
            }
        }
    }
}

#[test]
fn up_to_32_windows_are_accepted() {
    for count in 0..=70 {
        let expected = if count > 32 { [15, 32, 0] } else { [0, 0, 1] };
        let call = Call::parity(&good_windows(count), LOUD);
        assert_eq!(call.answer(count as u64), expected, "{count}");
    }
}

#[test]
fn each_window_makes_its_minutes_quiet() {
    for count in 1..=32 {
        for index in 0..count {
            let mut windows = good_windows(count);
            windows[2 * index] = LOUD;
            let expected = [(LOUD - 1, 1), (LOUD, 0)];
            for (minute, output) in expected {
                let answer = Call::parity(&windows, minute).answer(0);
                assert_eq!(answer, [0, 0, output], "{index} of {count}");
            }
        }
    }
}

#[test]
fn the_first_bad_window_is_named_in_lists_of_any_length() {
    for count in [1, 2, 31, 32, 33, 34, 50, 200] {
        for index in 0..count {
            for bad in BAD {
                let mut call = Call::parity(&good_windows(count), LOUD);
                call.windows[2 * index..2 * index + 2].copy_from_slice(&bad);
                let expected = [15, index as u64, 0];
                assert_eq!(call.answer(0), expected, "{call:?}");
                // Others behind it do not matter, nor that the list is too long.
                call.windows.extend([9, 9, 10_080]);
                assert_eq!(call.answer(0), expected, "{call:?}");
            }
        }
    }
}

#[test]
fn a_place_takes_more_than_16_bits_in_a_long_list() {
    let windows = good_windows(100_000);
    assert_eq!(Call::parity(&windows, LOUD).answer(0), [15, 32, 0]);
    for index in [32, 32_768, 65_536, 99_999] {
        let mut call = Call::parity(&windows, LOUD);
        call.windows[2 * index + 1] = 10_080;
        assert_eq!(call.answer(0), [15, index as u64, 0]);
    }
}

#[test]
fn a_lone_number_is_a_bad_window() {
    for count in 0..=50 {
        for lone in EDGES {
            let mut call = Call::parity(&good_windows(count), LOUD);
            call.windows.push(lone);
            assert_eq!(call.answer(0), [15, count as u64, 0], "{call:?}");
        }
    }
}

#[test]
fn every_combination_of_faults_is_refused_for_the_first() {
    for minute in [600, LOUD] {
        let mut call = Call::parity(&[600, 720, 1320, 360], minute);
        call.position = position(1, 1);
        for (call, first) in with_faults(&call, &FAULTS) {
            let [number, place] = first.unwrap_or([0, 0]);
            assert_eq!(call.answer(0), [number, place, 0], "{call:?}");
        }
    }
}

/// Faults of parity's second step, in the order in which they are judged.
const FAULTS: [Fault<Call>; 18] = [
    (|call| call.file.truncate(5), |call| length(&call.file)),
    (|call| set_word(&mut call.file, 0, 9), |_| [2, 0]),
    (|call| set_word(&mut call.file, 2, 17), |_| [2, 2]),
    (|call| set_word(&mut call.file, 4, 0), |_| [2, 4]),
    (|call| call.file.truncate(15), |call| length(&call.file)),
    (|call| set_word(&mut call.file, 8, 0), |_| [2, 8]),
    (|call| set_word(&mut call.file, 14, 2), |_| [2, 14]),
    (|call| call.file.push(0), |call| length(&call.file)),
    (|call| call.windows[3] = call.windows[2], |_| [15, 1]),
    (|call| call.windows.extend([0, 1].repeat(31)), |_| [15, 32]),
    (|call| call.minute = 10_080, |_| [16, 0]),
    (|call| call.position.layer = 3, layer),
    (|call| call.position.state = 2, layer),
    (|call| call.position = position(2, 0), |_| [10, 2]),
    (|call| call.word = 2, |_| [9, 0]),
    (|call| set_word(&mut call.file, 26, 2), |_| [5, 26]),
    (set_unconnected, |_| [5, 26]),
    (|call| set_word(&mut call.file, 38, 1), |_| [5, 38]),
];

/// Nothing is connected to the output of frame 2, and the entry sets it.
fn set_unconnected(call: &mut Call) {
    set_word(&mut call.file, 14, 0);
    set_word(&mut call.file, 26, 1);
}

fn layer(call: &Call) -> [u64; 2] {
    [11, call.position.layer as u64]
}

#[test]
fn positions_of_any_size_are_judged() {
    let parts = [0, 1, 2, 3, 255, 256, 65_535, 65_536, 65_537].into_iter();
    let parts = parts.chain([32, 48].map(|bits| 1 << bits));
    let parts: Vec<usize> = parts
        .chain([(1 << 32) + 1, usize::MAX - 1, usize::MAX])
        .collect();
    for &layer in &parts {
        for &state in &parts {
            let mut call = Call::parity(&[], LOUD);
            call.position = Position { layer, state };
            let expected = match (layer, state) {
                (0, 0) | (1, 0..=1) => [0, 0],
                (2, 0) => [10, 2],
                _ => [11, layer as u64],
            };
            assert_eq!(call.answer(0)[..2], expected, "{call:?}");
        }
    }
}

#[test]
fn all_but_the_output_of_a_quiet_minute_is_the_plain_step() {
    let mut seen = Seen::default();
    for seed in seeds(200) {
        let mut table = tables::any_legal(&mut Rng::new(seed), 16, 4);
        if seed % 4 == 0 {
            table.next_states.fill(u16::MAX);
        }
        let file = table.to_bytes();
        for place in places_around(&table) {
            let [layer, state, word] = place;
            let plain = tff::step(&file, layer, state, word);
            for (minute, output) in [(599, plain.output), (600, 0), (601, plain.output)] {
                let call = Call::at(place, &file, &[600, 601], minute);
                let (answer, after) = call.both(seed);
                assert_eq!(answer, [plain.number, plain.place, u64::from(output)]);
                assert_eq!(after, position(plain.layer, plain.state));
                seen.note(answer);
            }
        }
    }
    seen.expect(&[0, 5, 9, 10, 11]);
}

#[test]
fn an_output_word_is_judged_by_the_outputs_that_its_own_frame_connects() {
    let sizes = Sizes::new(1, 3, 3);
    for connected in tables::each_frame_its_own(&sizes) {
        let table = tables::connected(&mut Rng::new(1), sizes, vec![1, 2, 2, 1]);
        let table = tables::with_connected(&table, &connected);
        for (entry, place) in places(&table).into_iter().enumerate() {
            let at = table.head.output_at(entry);
            for output in 0..=sizes.every_output() {
                let mut file = table.to_bytes();
                set_word(&mut file, at, output);
                let legal = output & !table.head.connected[usize::from(place[0])] == 0;
                for (minute, heard) in [(LOUD, output), (600, 0)] {
                    let expected = match legal {
                        true => [0, 0, u64::from(heard)],
                        false => [5, at as u64, 0],
                    };
                    let call = Call::at(place, &file, &[600, 660], minute);
                    assert_eq!(call.answer(1), expected, "{call:?}");
                }
            }
        }
    }
}

#[test]
fn whole_weeks_of_steps_move_a_board_as_the_plain_table() {
    let mut seen = Seen::default();
    for seed in seeds(20) {
        let mut rng = Rng::new(seed);
        let table = tables::any_legal(&mut rng, 16, 8);
        let (file, sizes) = (table.to_bytes(), table.head.sizes);
        let count = rng.between(0, 32);
        let windows = any_windows(&mut rng, count);
        let quiet = quiet_minutes(&windows).unwrap();
        let mut board = Board::new(&file, &windows);
        let (mut layer, mut state) = (0, 0);
        for minute in (0..WEEK).cycle().take(3 * WEEK) {
            if usize::from(layer) == sizes.frames {
                board.reset();
                (layer, state) = (0, 0);
            }
            let word = rng.below(sizes.input_words()) as u16;
            let plain = tff::step(&file, layer, state, word);
            let output = if quiet[minute] { 0 } else { plain.output };
            assert_eq!(
                board.step(minute as u16, word),
                Ok(output),
                "minute {minute}"
            );
            (layer, state) = (plain.layer, plain.state);
            assert_eq!(board.position(), position(layer, state), "minute {minute}");
            if plain.output != 0 {
                seen.note([u64::from(quiet[minute])]);
            }
        }
    }
    seen.expect(&[0, 1]);
}

#[test]
fn random_calls_are_judged() {
    let mut seen = Seen::default();
    for seed in seeds(40_000) {
        let call = any_call(&mut Rng::new(seed));
        seen.note(call.answer(seed));
    }
    seen.expect(&[0, 1, 2, 5, 9, 10, 11, 15, 16]);
}

/// A call with faults or without.
fn any_call(rng: &mut Rng) -> Call {
    let table = tables::any_legal(rng, 8, 3);
    let mut file = table.to_bytes();
    if rng.one_in(3) {
        file = damaged(rng, &file);
    }
    let count = rng.pick(&[1, 2, 3, 5, 31, 32, 33, 40]);
    let mut windows = any_windows(rng, count);
    let minute = minute_near(rng, &windows);
    if rng.one_in(4) {
        let bytes = damaged(rng, &to_bytes(&windows));
        windows = words_at(&bytes, 0, bytes.len() / 2);
    }
    let places = match rng.one_in(3) {
        true => places_around(&table),
        false => places(&table),
    };
    Call::at(rng.pick(&places), &file, &windows, minute)
}

/// Most often one at the end of a window.
fn minute_near(rng: &mut Rng, windows: &[u16]) -> u16 {
    let (end, any) = (rng.pick(windows), rng.below(WEEK) as u16);
    let beyond = rng.pick(&[10_080, u16::MAX]);
    rng.pick(&[end, end, end.saturating_sub(1), end + 1, any, beyond])
}

#[test]
fn a_short_answer_changes_nothing() {
    let mut seen = Seen::default();
    for seed in seeds(2_000) {
        let call = any_call(&mut Rng::new(seed));
        seen.note(call.plain().0);
        let named = call.named();
        short_answers_change_nothing(&call.case(seed, &named), Room::default(), 3, |_, answer| {
            assert_eq!(call.proved(answer), call.position)
        });
    }
    seen.expect(&[0, 1, 15, 16]);
}

#[test]
fn a_longer_answer_keeps_its_rest() {
    for length in 3..8 {
        let mut answer = vec![99; length];
        assert_eq!(Call::parity(&[], LOUD).proved(&mut answer), position(1, 1));
        assert_eq!(answer[..3], [0, 0, 1]);
        assert!(answer[3..].iter().all(|&number| number == 99));
    }
}

#[test]
fn empty_slices_are_ordinary() {
    let call = Call::at([3, 4, 5], &[], &[], 10_080);
    assert_eq!(call.answer(0), [1, 0, 0]);
}

#[test]
fn a_board_counts_on_through_a_quiet_night() {
    // Counts its inputs modulo 4.
    let table = folded(&circuits::few_states(1, 12, 200).to_bytes());
    // Monday 22:00 to Tuesday 5:00, Sunday 22:00 to Monday 5:00.
    let mut board = Board::new(&table, &[1_320, 1_740, 9_960, 300]);
    for evening in [20 * 60, 20 * 60 + 6 * 1_440] {
        let minutes = (0..12).map(|hour| (evening + 60 * hour) % 10_080);
        let outputs: Vec<u16> = minutes
            .map(|minute| board.step(minute, 1).expect("a legal table"))
            .collect();
        assert_eq!(outputs, [1, 2, 0, 0, 0, 0, 0, 0, 0, 2, 3, 0]);
        assert_eq!(board.position(), position(12, 0));
        board.reset();
        assert_eq!(board.position(), position(0, 0));
    }
}

#[test]
fn a_refused_step_leaves_the_board_as_it_was() {
    let table = to_bytes(&PARITY_TABLE);
    let mut board = Board::new(&table, &[]);
    assert_eq!(board.step(0, 1), Ok(1));
    for (minute, word, answer) in [(10_080, 2, refusal(16, 0)), (0, 2, refusal(9, 0))] {
        assert_eq!(board.step(minute, word), answer);
        assert_eq!(board.position(), position(1, 1));
    }
    assert_eq!(board.step(0, 0), Ok(1));
    assert_eq!(board.step(0, 0), refusal(10, 2));
    assert_eq!(board.position(), position(2, 0));
    board.reset();
    assert_eq!(board.step(0, 0), Ok(0));
    assert_eq!(Board::new(&table, &[7]).step(0, 1), refusal(15, 0));
    assert_eq!(Board::new(&table[..39], &[7]).step(0, 1), refusal(1, 39));
}
