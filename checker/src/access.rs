//! The program `access`: what a requester may read, record by record, and what
//! a draft would change.

use std::fmt;
use std::io::{self, Read};

use crate::answer::Answer;
use crate::bytes::from_hex;
use crate::card;
use crate::cardcheck::take_card;
use crate::describe::effect;
use crate::ledger::{Basis, Decision, Ledger};
use crate::preview::Preview;
use crate::refusal::Refusal;
use crate::request::Requester;

/// How many hexadecimal digits of a draft are taken.
pub const MOST_DRAFT_DIGITS: usize = 1_024;

/// The arguments of the program: who asks, and the digits of a draft or what
/// stands in their place.
#[derive(Clone, Debug, PartialEq, Eq)]
pub struct AccessArguments {
    pub requester: Requester,
    pub draft: Option<String>,
}

/// A draft that is not an even number of hexadecimal digits, at most 1,024.
#[derive(Clone, Copy, Debug, PartialEq, Eq)]
pub struct UnusableDraft;

impl AccessArguments {
    /// As they stand in a command.
    pub fn words(&self) -> Vec<String> {
        let Requester {
            person,
            role,
            origin,
            purpose,
        } = self.requester;
        let mut words = vec![
            person.to_string(),
            role.to_string(),
            origin.to_string(),
            purpose.to_string(),
        ];
        words.extend(self.draft.clone());
        words
    }

    /// The bytes of the draft, if there is one; its digits are in upper or lower
    /// case.
    pub fn draft_bytes(&self) -> Result<Option<Vec<u8>>, UnusableDraft> {
        let Some(digits) = &self.draft else {
            return Ok(None);
        };
        let short = digits.len() <= MOST_DRAFT_DIGITS;
        let bytes = from_hex(digits).filter(|_| short);
        bytes.map(Some).ok_or(UnusableDraft)
    }
}

/// What `access` answers.
#[derive(Clone, Debug, PartialEq, Eq)]
pub enum Access {
    /// The arguments cannot be used, and nothing is printed.
    Unusable,
    CardRefused(Refusal),
    /// By question 6 to 14.
    DraftRefused(Refusal),
    /// By question 17, without its record.
    RequesterRefused(Refusal),
    /// A decision for each record, in order.
    Table(Vec<Decision>),
    /// The same, and with the draft; the last line counts the records that
    /// change.
    Preview(Preview),
}

/// The answer to these arguments and the card at the start of the input.
pub fn access(input: impl Read, arguments: &AccessArguments) -> io::Result<Access> {
    let Ok(draft) = arguments.draft_bytes() else {
        return Ok(Access::Unusable);
    };
    let card = take_card(input)?;
    Ok(match card::read(&card) {
        Ok(ledger) => Access::of(&ledger, arguments.requester, draft.as_deref()),
        Err(refusal) => Access::CardRefused(refusal),
    })
}

impl Access {
    /// What is decided on each record at the clock, and what it would be with
    /// the draft.
    pub fn of(ledger: &Ledger, requester: Requester, draft: Option<&[u8]>) -> Access {
        let answer = match draft {
            None => ledger.decide_every(requester).map(Access::Table),
            Some(draft) => ledger.preview(requester, draft).map(Access::Preview),
        };
        answer.unwrap_or_else(|refusal| match refusal {
            Refusal::QueryRange => Access::RequesterRefused(refusal),
            _ => Access::DraftRefused(refusal),
        })
    }

    /// The status of the program: whether something is refused, or cannot be
    /// used.
    pub fn status(&self) -> u8 {
        match self {
            Access::Table(_) | Access::Preview(_) => 0,
            Access::CardRefused(_) | Access::DraftRefused(_) | Access::RequesterRefused(_) => 1,
            Access::Unusable => 2,
        }
    }

    /// What each line answers.
    pub fn answers(&self) -> Vec<Answer> {
        match self {
            Access::Unusable => Vec::new(),
            Access::CardRefused(refusal) => vec![Answer::Card(Err(*refusal))],
            Access::DraftRefused(refusal) => vec![Answer::Preview(Err(*refusal))],
            Access::RequesterRefused(refusal) => vec![Answer::Decide(Err(*refusal))],
            Access::Table(table) => {
                let decisions = table.iter().copied();
                decisions
                    .map(|decision| Answer::Decide(Ok(decision)))
                    .collect()
            }
            Access::Preview(preview) => {
                let one = |(_, before, after)| Preview {
                    before: vec![before],
                    after: vec![after],
                };
                let records = preview.decisions().map(one);
                let lines = records.chain([preview.clone()]);
                lines.map(|line| Answer::Preview(Ok(line))).collect()
            }
        }
    }
}

/// The lines, each with its end.
impl fmt::Display for Access {
    fn fmt(&self, f: &mut fmt::Formatter<'_>) -> fmt::Result {
        match self {
            Access::Unusable => Ok(()),
            Access::CardRefused(refusal) => {
                writeln!(f, "card refused: question {}", refusal.number())
            }
            Access::DraftRefused(Refusal::Conflict(named)) => {
                writeln!(f, "draft refused: question 13, directive {named}")
            }
            Access::DraftRefused(refusal) => {
                writeln!(f, "draft refused: question {}", refusal.number())
            }
            Access::RequesterRefused(refusal) => {
                writeln!(f, "requester refused: question {}", refusal.number())
            }
            Access::Table(table) => {
                for (record, decision) in table.iter().enumerate() {
                    writeln!(f, "record {record}: {}", in_table(*decision))?;
                }
                Ok(())
            }
            Access::Preview(preview) => {
                for (record, before, after) in preview.decisions() {
                    write!(f, "record {record}: {}", in_table(before))?;
                    if before.effect != after.effect {
                        write!(f, ", changes to {}", in_table(after))?;
                    }
                    writeln!(f)?;
                }
                writeln!(f, "records that change: {}", preview.words().count)
            }
        }
    }
}

/// The decision as the table has it.
fn in_table(decision: Decision) -> String {
    let basis = match decision.basis {
        Basis::Patient => "patient".to_string(),
        Basis::Author => "author".to_string(),
        Basis::Directive(number) => format!("directive {number}"),
        Basis::Default => "default".to_string(),
    };
    let number = decision.basis.number();
    format!("{}, basis {number} ({basis})", effect(decision.effect))
}
