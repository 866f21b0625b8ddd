//! Cards, drafts and queries for the tests.

use checker::card;
use checker::directive::{Effect, Fields};
use checker::ledger::{Basis, Decision, Ledger};
use checker::refusal::Refusal;

pub use checker::conformance::sample::*;

/// What reading a card gives.
pub trait Readable {
    fn read(&self) -> Result<Ledger, Refusal>;

    /// The ledger of a card that is accepted.
    fn ledger(&self) -> Ledger {
        self.read().expect("the card is accepted")
    }
}

impl Readable for Card {
    fn read(&self) -> Result<Ledger, Refusal> {
        card::read(&self.bytes())
    }
}

pub fn commit(ledger: &mut Ledger, draft: Fields) -> Result<(), Refusal> {
    ledger.commit(&draft.encode())
}

/// What commit would answer; the ledger stays.
pub fn would_commit(ledger: &Ledger, draft: Fields) -> Result<(), Refusal> {
    commit(&mut ledger.clone(), draft)
}

/// The sample ledger after these commits, all accepted.
pub fn sample_after(drafts: &[Fields]) -> Ledger {
    let mut ledger = sample().ledger();
    for draft in drafts {
        assert_eq!(commit(&mut ledger, *draft), Ok(()));
    }
    ledger
}

pub fn permit(basis: Basis) -> Result<Decision, Refusal> {
    Ok(Decision {
        effect: Effect::Permit,
        basis,
    })
}

pub fn deny(basis: Basis) -> Result<Decision, Refusal> {
    Ok(Decision {
        effect: Effect::Deny,
        basis,
    })
}
