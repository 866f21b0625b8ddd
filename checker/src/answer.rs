//! Answers of the calls, and the lines that are printed for them.

use std::fmt;

use crate::bytes::hex;
use crate::directive::Effect;
use crate::ledger::{Basis, Decision, Dropped, Ledger};
use crate::preview::Preview;
use crate::refusal::Refusal;
use crate::register::RecordWords;

/// What `cardcheck` tells of an accepted card.
#[derive(Clone, Copy, Debug, PartialEq, Eq)]
pub struct CardSize {
    pub records: usize,
    pub directives: usize,
}

impl CardSize {
    pub fn of(ledger: &Ledger) -> CardSize {
        CardSize {
            records: ledger.register().records().len(),
            directives: ledger.active().len(),
        }
    }
}

/// The answer to a card or a call. `Malformed` is none of document 01's: it
/// ends a replay that breaks its format.
#[derive(Clone, Debug, PartialEq, Eq)]
pub enum Answer {
    Card(Result<CardSize, Refusal>),
    Commit(Result<(), Refusal>),
    Revoke(Result<(), Refusal>),
    Advance(Result<Dropped, Refusal>),
    Issue(Result<(), Refusal>),
    Decide(Result<Decision, Refusal>),
    Brief(Result<RecordWords, Refusal>),
    Write(Result<Vec<u8>, Refusal>),
    Preview(Result<Preview, Refusal>),
    Malformed,
}

/// The line, without its end.
impl fmt::Display for Answer {
    fn fmt(&self, f: &mut fmt::Formatter<'_>) -> fmt::Result {
        match self {
            Answer::Card(Ok(size)) => write!(f, "0 {} {}", size.records, size.directives),
            Answer::Card(Err(refusal)) => write!(f, "{} 0 0", refusal.number()),
            Answer::Commit(Ok(())) | Answer::Revoke(Ok(())) | Answer::Issue(Ok(())) => {
                write!(f, "0")
            }
            Answer::Advance(Ok(dropped)) => {
                write!(f, "0 {} {}", dropped.directives, dropped.tokens)
            }
            Answer::Decide(Ok(decision)) => decide_line(f, decision),
            Answer::Brief(Ok(brief)) => words_line(f, *brief),
            Answer::Preview(Ok(preview)) => words_line(f, preview.words()),
            Answer::Write(Ok(card)) => write!(f, "0 {} {}", card.len(), hex(card)),
            Answer::Commit(Err(refusal))
            | Answer::Revoke(Err(refusal))
            | Answer::Advance(Err(refusal))
            | Answer::Issue(Err(refusal))
            | Answer::Decide(Err(refusal))
            | Answer::Brief(Err(refusal))
            | Answer::Write(Err(refusal))
            | Answer::Preview(Err(refusal)) => write!(f, "{refusal}"),
            Answer::Malformed => write!(f, "malformed"),
        }
    }
}

fn words_line(f: &mut fmt::Formatter<'_>, records: RecordWords) -> fmt::Result {
    let RecordWords {
        words: [low, high],
        count,
    } = records;
    write!(f, "0 {low} {high} {count}")
}

fn decide_line(f: &mut fmt::Formatter<'_>, decision: &Decision) -> fmt::Result {
    let effect = match decision.effect {
        Effect::Deny => 0,
        Effect::Permit => 1,
    };
    write!(f, "0 {effect} {}", decision.basis.number())?;
    match decision.basis {
        Basis::Directive(number) => write!(f, " {number}"),
        Basis::Patient | Basis::Author | Basis::Default => Ok(()),
    }
}
