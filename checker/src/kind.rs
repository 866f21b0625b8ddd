//! The kinds of lines that are printed: for the card, and for each call.

use std::fmt;

use crate::replay::{
    Call, ADVANCE, BRIEF, COMMIT, DECIDE, ISSUE, PREVIEW, REQUESTER_LENGTH, REVOKE, WRITE,
};

#[derive(Clone, Copy, Debug, PartialEq, Eq)]
pub enum Kind {
    Card,
    Commit,
    Revoke,
    Advance,
    Issue,
    Decide,
    Brief,
    Write,
    Preview,
}

impl Kind {
    /// The kind of call that has this tag.
    pub fn of_tag(tag: u8) -> Option<Kind> {
        match tag {
            COMMIT => Some(Kind::Commit),
            REVOKE => Some(Kind::Revoke),
            ADVANCE => Some(Kind::Advance),
            ISSUE => Some(Kind::Issue),
            DECIDE => Some(Kind::Decide),
            BRIEF => Some(Kind::Brief),
            WRITE => Some(Kind::Write),
            PREVIEW => Some(Kind::Preview),
            _ => None,
        }
    }

    pub fn of_call(call: &Call) -> Kind {
        match call {
            Call::Commit { .. } => Kind::Commit,
            Call::Revoke { .. } => Kind::Revoke,
            Call::Advance { .. } => Kind::Advance,
            Call::Issue { .. } => Kind::Issue,
            Call::Decide(_) => Kind::Decide,
            Call::Brief { .. } => Kind::Brief,
            Call::Write { .. } => Kind::Write,
            Call::Preview { .. } => Kind::Preview,
        }
    }

    /// The name with its article.
    pub fn phrase(self) -> &'static str {
        match self {
            Kind::Card => "a card",
            Kind::Commit => "a commit",
            Kind::Revoke => "a revoke",
            Kind::Advance => "an advance",
            Kind::Issue => "an issue",
            Kind::Decide => "a decide",
            Kind::Brief => "a brief",
            Kind::Write => "a write",
            Kind::Preview => "a preview",
        }
    }

    /// How many bytes the value of such a call has: so many, or with a draft
    /// so many at least.
    pub fn value_length(self) -> ValueLength {
        match self {
            Kind::Card | Kind::Commit => ValueLength::AtLeast(0),
            Kind::Revoke | Kind::Write => ValueLength::Just(2),
            Kind::Advance | Kind::Brief => ValueLength::Just(4),
            Kind::Issue => ValueLength::Just(9),
            Kind::Decide => ValueLength::Just(7),
            Kind::Preview => ValueLength::AtLeast(REQUESTER_LENGTH),
        }
    }

    /// Whether it can be refused by this question.
    pub fn has_question(self, number: u8) -> bool {
        match self {
            Kind::Card => matches!(number, 1..=5 | 7..=13),
            Kind::Commit => matches!(number, 6..=14),
            Kind::Revoke => number == 15,
            Kind::Advance => number == 16,
            Kind::Decide => number == 17,
            Kind::Issue => matches!(number, 18..=21),
            Kind::Brief => number == 22,
            Kind::Write => matches!(number, 23..=24),
            Kind::Preview => matches!(number, 6..=14 | 17),
        }
    }
}

/// The length of the value of a call.
#[derive(Clone, Copy, Debug, PartialEq, Eq)]
pub enum ValueLength {
    Just(usize),
    AtLeast(usize),
}

impl ValueLength {
    pub fn allows(self, length: usize) -> bool {
        match self {
            ValueLength::Just(just) => length == just,
            ValueLength::AtLeast(least) => length >= least,
        }
    }
}

impl fmt::Display for ValueLength {
    fn fmt(&self, f: &mut fmt::Formatter<'_>) -> fmt::Result {
        match self {
            ValueLength::Just(just) => write!(f, "{just} bytes"),
            ValueLength::AtLeast(least) => write!(f, "at least {least} bytes"),
        }
    }
}
