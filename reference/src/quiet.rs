//! Stepping a table with quiet hours.

use crate::answer::{refused, Answer, MINUTE, WINDOW};
use crate::table::{Head, Position};

/// Minutes of a week, which begins on Monday at midnight.
pub const WEEK: usize = 7 * 24 * 60;
/// Most windows of quiet minutes.
pub const MOST_WINDOWS: usize = 32;

/// What a step with quiet hours answers. A refused one has output 0.
#[derive(Clone, Copy, Debug, PartialEq, Eq)]
pub struct QuietStepped {
    pub number: u64,
    pub place: u64,
    pub output: u16,
}

impl From<QuietStepped> for [u64; 3] {
    /// In the order of the C interface.
    fn from(stepped: QuietStepped) -> [u64; 3] {
        [stepped.number, stepped.place, u64::from(stepped.output)]
    }
}

/// One step from `position` on `word`, which moves the position also where `minute` is quiet.
pub fn quiet_step(
    table: &[u8],
    windows: &[u16],
    minute: u16,
    position: &mut Position,
    word: u16,
) -> QuietStepped {
    match output_and_next(table, windows, minute, *position, word) {
        Ok((output, next)) => {
            *position = next;
            QuietStepped {
                number: 0,
                place: 0,
                output,
            }
        }
        Err((number, place)) => QuietStepped {
            number,
            place,
            output: 0,
        },
    }
}

fn output_and_next(
    table: &[u8],
    windows: &[u16],
    minute: u16,
    position: Position,
    word: u16,
) -> Result<(u16, Position), Answer> {
    let head = Head::read(table)?;
    let quiet = quiet_minutes(windows)?;
    let Some(&silent) = quiet.get(usize::from(minute)) else {
        return Err(refused(MINUTE, 0));
    };
    let (output, next) = head.judge_step(table, position, word)?;
    let next = Position {
        layer: position.layer + 1,
        state: usize::from(next),
    };
    Ok((if silent { 0 } else { output }, next))
}

/// For each minute of the week whether it is quiet. Each window is walked from its first minute round
/// the week until its last is met.
pub fn quiet_minutes(windows: &[u16]) -> Result<Vec<bool>, Answer> {
    let mut quiet = vec![false; WEEK];
    for (index, window) in windows.chunks(2).enumerate() {
        let (mut minute, last) = ends(window).ok_or(refused(WINDOW, index))?;
        while minute != last {
            quiet[minute] = true;
            minute = (minute + 1) % WEEK;
        }
    }
    if windows.len() > 2 * MOST_WINDOWS {
        return Err(refused(WINDOW, MOST_WINDOWS));
    }
    Ok(quiet)
}

/// First and last minute of a window, unless it is bad.
fn ends(window: &[u16]) -> Option<(usize, usize)> {
    let &[first, last] = window else {
        return None;
    };
    let [first, last] = [first, last].map(usize::from);
    (first < WEEK && last < WEEK && first != last).then_some((first, last))
}
