//! Stepping a table with quiet hours.

use crate::{raw, Answer, Position};

/// A table at one position, which each step moves on, and its quiet hours.
#[derive(Clone, Debug)]
pub struct Board<'a> {
    table: &'a [u8],
    windows: &'a [u16],
    position: Position,
}

impl<'a> Board<'a> {
    /// A board at the start, layer 0 and state 0. `windows` has first and last minutes of the week in
    /// turn. Nothing is judged before the first step.
    pub fn new(table: &'a [u8], windows: &'a [u16]) -> Board<'a> {
        Board {
            table,
            windows,
            position: Position::default(),
        }
    }

    pub fn position(&self) -> Position {
        self.position
    }

    /// Puts the board back to the start.
    pub fn reset(&mut self) {
        self.position = Position::default();
    }

    /// The output on the input word `word`, 0 where `minute` is quiet, or the refusal, which leaves
    /// the board where it was.
    pub fn step(&mut self, minute: u16, word: u16) -> Result<u16, Answer> {
        let mut answer = [0; 3];
        // SAFETY: each pointer and length is that of one slice; the position and `answer` are exclusive.
        unsafe {
            raw::tff_quiet_step(
                self.table.as_ptr(),
                self.table.len(),
                self.windows.as_ptr(),
                self.windows.len(),
                minute,
                &mut self.position,
                word,
                answer.as_mut_ptr(),
                answer.len(),
            )
        }
        let [number, place, output] = answer;
        match number {
            0 => Ok(output as u16),
            _ => Err(Answer { number, place }),
        }
    }
}
