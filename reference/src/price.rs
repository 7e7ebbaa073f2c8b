//! The price of a table.

use crate::table::{check_table, Head};

/// What pricing answers. A refused table costs 0 cents.
#[derive(Clone, Copy, Debug, PartialEq, Eq)]
pub struct Priced {
    pub number: u64,
    pub place: u64,
    pub cents: u64,
}

impl From<Priced> for [u64; 3] {
    /// In the order of the C interface.
    fn from(priced: Priced) -> [u64; 3] {
        [priced.number, priced.place, priced.cents]
    }
}

/// The price of a table in cents, place 0 where it is accepted.
pub fn price(table: &[u8]) -> Priced {
    let (number, place) = check_table(table);
    let cents = match Head::read(table) {
        Ok(head) if number == 0 => cents(&head),
        _ => 0,
    };
    Priced {
        number,
        place,
        cents,
    }
}

/// State by state, then the rise.
fn cents(head: &Head) -> u64 {
    let frames = head.sizes.frames;
    let mut sum = 12_000;
    let mut charged = 0;
    for layer in 0..frames {
        for _ in 0..head.counts[layer] {
            charged += 1;
            sum += match charged {
                ..=32 => 1_800,
                33..=256 => 950,
                _ => 320,
            };
        }
    }
    if frames > 12 {
        sum += seven_and_a_half_percent(sum);
    }
    sum
}

/// To the cent, half a cent upward.
fn seven_and_a_half_percent(sum: u64) -> u64 {
    let (whole, thousandths) = (75 * sum / 1_000, 75 * sum % 1_000);
    if thousandths < 500 {
        whole
    } else {
        whole + 1
    }
}
