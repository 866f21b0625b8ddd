//! The program `cardcheck`.

use std::io::{self, Read};

use crate::answer::{Answer, CardSize};
use crate::card;

/// "Takes the first 65,535 bytes of standard input as a card."
pub const CARD_LIMIT: u16 = 65_535;

/// The card at the start of the input.
pub fn take_card(input: impl Read) -> io::Result<Vec<u8>> {
    let mut bytes = Vec::new();
    input.take(u64::from(CARD_LIMIT)).read_to_end(&mut bytes)?;
    Ok(bytes)
}

/// The answer to the card at the start of the input.
pub fn cardcheck(input: impl Read) -> io::Result<Answer> {
    let ledger = card::read(&take_card(input)?);
    Ok(Answer::Card(ledger.map(|ledger| CardSize::of(&ledger))))
}
