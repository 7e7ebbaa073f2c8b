//! The price of a table.

use crate::raw;

/// What pricing answers. A refused table costs 0 cents.
#[derive(Clone, Copy, Debug, PartialEq, Eq)]
pub struct Priced {
    pub number: u64,
    pub place: u64,
    pub cents: u64,
}

/// The price of a table in cents.
pub fn price(table: &[u8]) -> Priced {
    let mut answer = [0; 3];
    // SAFETY: each pointer and length is that of one slice; only `answer` is written to.
    unsafe {
        raw::tff_price(
            table.as_ptr(),
            table.len(),
            answer.as_mut_ptr(),
            answer.len(),
        )
    }
    let [number, place, cents] = answer;
    Priced {
        number,
        place,
        cents,
    }
}
