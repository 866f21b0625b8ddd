//! What a draft would change for one requester.

use std::fmt;

use crate::directive::Effect;
use crate::ledger::Decision;
use crate::register::{record_bit, RecordSet, RecordWords};

/// The decision on each record, in order, as it is and as it would be with
/// the draft.
#[derive(Clone, Debug, PartialEq, Eq)]
pub struct Preview {
    pub before: Vec<Decision>,
    pub after: Vec<Decision>,
}

/// What a preview shows. A draft has one effect, so all its changes go one
/// way.
#[derive(Clone, Copy, Debug, PartialEq, Eq, PartialOrd, Ord)]
pub enum Outcome {
    /// Every decision stays, with its basis and number.
    Same,
    /// Effects stay, and a basis or the number of a directive does not: "a new
    /// basis alone is none".
    BasisOrNumber,
    ToDeny,
    ToPermit,
}

impl Outcome {
    pub const ALL: [Outcome; 4] = [
        Outcome::Same,
        Outcome::BasisOrNumber,
        Outcome::ToDeny,
        Outcome::ToPermit,
    ];
}

impl fmt::Display for Outcome {
    fn fmt(&self, f: &mut fmt::Formatter<'_>) -> fmt::Result {
        f.write_str(match self {
            Outcome::Same => "without a change",
            Outcome::BasisOrNumber => "with a new basis or number alone",
            Outcome::ToDeny => "from permit to deny",
            Outcome::ToPermit => "from deny to permit",
        })
    }
}

impl Preview {
    /// The decisions before and after, with the numbers of their records.
    pub fn decisions(&self) -> impl Iterator<Item = (u8, Decision, Decision)> + '_ {
        let both = self.before.iter().zip(&self.after);
        (0u8..)
            .zip(both)
            .map(|(record, (before, after))| (record, *before, *after))
    }

    /// "The records whose decision at the clock would change": "a permit that
    /// becomes a deny or the reverse".
    pub fn changed(&self) -> RecordSet {
        self.records_where(|before, after| before.effect != after.effect)
    }

    /// The records whose decision keeps its effect and would have another basis
    /// or number.
    pub fn with_a_new_basis_or_number(&self) -> RecordSet {
        self.records_where(|before, after| before != after) & !self.changed()
    }

    fn records_where(&self, holds: impl Fn(Decision, Decision) -> bool) -> RecordSet {
        self.decisions()
            .filter(|(_, before, after)| holds(*before, *after))
            .fold(0, |set, (record, ..)| set | record_bit(record))
    }

    /// "As two 64-bit words and a count, laid out like a brief."
    pub fn words(&self) -> RecordWords {
        RecordWords::of(self.changed())
    }

    pub fn outcome(&self) -> Outcome {
        let mut changes = self
            .decisions()
            .filter(|(_, before, after)| before.effect != after.effect);
        match changes.next() {
            Some((_, _, after)) if after.effect == Effect::Deny => Outcome::ToDeny,
            Some(_) => Outcome::ToPermit,
            None if self.with_a_new_basis_or_number() != 0 => Outcome::BasisOrNumber,
            None => Outcome::Same,
        }
    }
}
