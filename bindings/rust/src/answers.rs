//! What the calls answer.

use crate::refusal::Refusal;

/// What an advance dropped.
#[derive(Clone, Copy, Debug, PartialEq, Eq)]
pub struct Dropped {
    /// How many directives.
    pub directives: usize,
    /// How many tokens.
    pub tokens: usize,
}

/// What a decision says.
#[derive(Clone, Copy, Debug, PartialEq, Eq)]
pub enum Effect {
    /// No access.
    Deny,
    /// Access.
    Permit,
}

/// Why it says so.
#[derive(Clone, Copy, Debug, PartialEq, Eq)]
pub enum Basis {
    /// The patient asks.
    Patient,
    /// The record's author asks.
    Author,
    /// A directive matches; the lowest number of those that do.
    Directive(u16),
    /// No directive matches: the default consent.
    Default,
}

/// A decision.
#[derive(Clone, Copy, Debug, PartialEq, Eq)]
pub struct Decision {
    /// What it says.
    pub effect: Effect,
    /// Why.
    pub basis: Basis,
}

impl Decision {
    /// Whether access is given.
    pub fn permits(self) -> bool {
        self.effect == Effect::Permit
    }
}

/// A set of records, of a brief or a preview.
#[derive(Clone, Copy, Debug, PartialEq, Eq)]
pub struct Records {
    words: [u64; 2],
    count: usize,
}

impl Records {
    /// Whether the record is in it.
    pub fn contains(&self, record: u8) -> bool {
        let word = self.words.get(usize::from(record / 64));
        word.is_some_and(|word| word >> (record % 64) & 1 == 1)
    }

    /// The records in it, in order.
    pub fn iter(&self) -> impl Iterator<Item = u8> + '_ {
        (0..128).filter(|record| self.contains(*record))
    }

    /// How many there are.
    pub fn len(&self) -> usize {
        self.count
    }

    /// Whether there is none.
    pub fn is_empty(&self) -> bool {
        self.count == 0
    }

    /// The two words: bit i of the first is record i, bit i of the second record 64 + i.
    pub fn words(&self) -> [u64; 2] {
        self.words
    }
}

/// What a ledger holds.
#[derive(Clone, Copy, Debug, PartialEq, Eq)]
pub struct Counts {
    /// The patient, a person.
    pub patient: u16,
    /// The clock, a minute.
    pub clock: u32,
    /// How many records.
    pub records: usize,
    /// How many active directives.
    pub directives: usize,
    /// How many live tokens.
    pub tokens: usize,
}

/// A live emergency token.
#[derive(Clone, Copy, Debug, PartialEq, Eq)]
pub struct Token {
    /// Its number.
    pub number: u16,
    /// For whom it is.
    pub person: u16,
    /// Its states, a set.
    pub states: u8,
    /// The minute at which it ends.
    pub until: u32,
}

/// An answer that does not have these values is not one that this crate knows.
type Values<T> = Result<T, Refusal>;

const UNKNOWN: Refusal = Refusal::Unknown(0);

fn number<T: TryFrom<u64>>(value: u64) -> Values<T> {
    T::try_from(value).map_err(|_| UNKNOWN)
}

pub(crate) fn nothing(values: &[u64]) -> Values<()> {
    match values {
        [] => Ok(()),
        _ => Err(UNKNOWN),
    }
}

pub(crate) fn dropped(values: &[u64]) -> Values<Dropped> {
    match *values {
        [directives, tokens] => Ok(Dropped {
            directives: number(directives)?,
            tokens: number(tokens)?,
        }),
        _ => Err(UNKNOWN),
    }
}

pub(crate) fn decision(values: &[u64]) -> Values<Decision> {
    let (effect, basis) = match *values {
        [effect, 1] => (effect, Basis::Patient),
        [effect, 2] => (effect, Basis::Author),
        [effect, 3, directive] => (effect, Basis::Directive(number(directive)?)),
        [effect, 4] => (effect, Basis::Default),
        _ => return Err(UNKNOWN),
    };
    let effect = match effect {
        0 => Effect::Deny,
        1 => Effect::Permit,
        _ => return Err(UNKNOWN),
    };
    Ok(Decision { effect, basis })
}

pub(crate) fn records(values: &[u64]) -> Values<Records> {
    match *values {
        [low, high, count] => Ok(Records {
            words: [low, high],
            count: number(count)?,
        }),
        _ => Err(UNKNOWN),
    }
}

pub(crate) fn length(values: &[u64]) -> Values<usize> {
    match *values {
        [length] => number(length),
        _ => Err(UNKNOWN),
    }
}

pub(crate) fn counts(values: &[u64]) -> Values<Counts> {
    match *values {
        [patient, clock, records, directives, tokens] => Ok(Counts {
            patient: number(patient)?,
            clock: number(clock)?,
            records: number(records)?,
            directives: number(directives)?,
            tokens: number(tokens)?,
        }),
        _ => Err(UNKNOWN),
    }
}

pub(crate) fn token(values: &[u64]) -> Values<Token> {
    match *values {
        [its_number, person, states, until] => Ok(Token {
            number: number(its_number)?,
            person: number(person)?,
            states: number(states)?,
            until: number(until)?,
        }),
        _ => Err(UNKNOWN),
    }
}
