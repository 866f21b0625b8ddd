//! How often each answer occurred.

use std::fmt;
use std::ops::RangeInclusive;

use crate::answer::Answer;
use crate::directive::Effect;
use crate::frequencies::Frequencies;
use crate::ledger::Decision;
use crate::preview::{Outcome, Preview};
use crate::refusal::{Refusal, LAST_QUESTION};

/// The questions that a card can miss; a call can miss those from 6 on.
const CARD_QUESTIONS: [u8; 12] = [1, 2, 3, 4, 5, 7, 8, 9, 10, 11, 12, 13];
const FIRST_CALL_QUESTION: u8 = 6;

pub(crate) const BASES: [u8; 4] = [1, 2, 3, 4];
/// Bases 1 and 2 never deny.
pub(crate) const DENYING_BASES: [u8; 2] = [3, 4];

const CARD: &str = "card";
const PREVIEW: &str = "preview";
const CALLS: [&str; 9] = [
    CARD, "commit", "revoke", "advance", "issue", "decide", "brief", "write", PREVIEW,
];

/// The questions that a draft can miss, and the one that a requester can.
pub(crate) const DRAFT_QUESTIONS: RangeInclusive<u8> = 6..=14;
const REQUESTER_QUESTION: u8 = 17;

/// Which inputs are asked for.
#[derive(Clone, Copy, Debug, PartialEq, Eq)]
pub struct Asked {
    pub cards: bool,
    pub replays: bool,
}

impl Asked {
    pub const ALL: Asked = Asked {
        cards: true,
        replays: true,
    };
}

/// What is counted.
#[derive(Clone, Copy, Debug, PartialEq, Eq, PartialOrd, Ord)]
pub enum Kind {
    /// A card refused, by the question's number.
    CardRefusal(u8),
    /// A call refused, by the question's number; previews apart.
    CallRefusal(u8),
    PreviewRefusal(u8),
    Preview(Outcome),
    /// A decision, by the number of its basis.
    Permit(u8),
    Deny(u8),
    /// A card or a call by its name.
    Accepted(&'static str),
    Refused(&'static str),
    /// A replay that breaks its format.
    Malformed,
}

impl Kind {
    /// What tells most of an answer: the question that refuses, the basis of
    /// a decision, or the call.
    pub fn of(answer: &Answer) -> Kind {
        match answer {
            Answer::Card(Ok(_)) => Kind::Accepted(CARD),
            Answer::Card(Err(refusal)) => Kind::CardRefusal(refusal.number()),
            Answer::Commit(answer) => Kind::of_call("commit", answer),
            Answer::Revoke(answer) => Kind::of_call("revoke", answer),
            Answer::Advance(answer) => Kind::of_call("advance", answer),
            Answer::Issue(answer) => Kind::of_call("issue", answer),
            Answer::Decide(Ok(decision)) => Kind::of_decision(decision),
            Answer::Decide(answer) => Kind::of_call("decide", answer),
            Answer::Brief(answer) => Kind::of_call("brief", answer),
            Answer::Write(answer) => Kind::of_call("write", answer),
            Answer::Preview(answer) => Kind::of_preview(answer),
            Answer::Malformed => Kind::Malformed,
        }
    }

    fn of_call<T>(call: &'static str, answer: &Result<T, Refusal>) -> Kind {
        match answer {
            Ok(_) => Kind::Accepted(call),
            Err(refusal) => Kind::CallRefusal(refusal.number()),
        }
    }

    fn of_preview(answer: &Result<Preview, Refusal>) -> Kind {
        match answer {
            Ok(preview) => Kind::Preview(preview.outcome()),
            Err(refusal) => Kind::PreviewRefusal(refusal.number()),
        }
    }

    fn of_decision(decision: &Decision) -> Kind {
        let basis = decision.basis.number();
        match decision.effect {
            Effect::Permit => Kind::Permit(basis),
            Effect::Deny => Kind::Deny(basis),
        }
    }
}

impl fmt::Display for Kind {
    fn fmt(&self, f: &mut fmt::Formatter<'_>) -> fmt::Result {
        match self {
            Kind::CardRefusal(number) => write!(f, "refusal {number} of a card"),
            Kind::CallRefusal(number) => write!(f, "refusal {number} of a call"),
            Kind::PreviewRefusal(number) => write!(f, "refusal {number} of a preview"),
            Kind::Preview(outcome) => write!(f, "preview {outcome}"),
            Kind::Permit(basis) => write!(f, "permit with basis {basis}"),
            Kind::Deny(basis) => write!(f, "deny with basis {basis}"),
            Kind::Accepted(call) => write!(f, "accepted {call}"),
            Kind::Refused(call) => write!(f, "refused {call}"),
            Kind::Malformed => write!(f, "malformed replay"),
        }
    }
}

#[derive(Clone, Debug, PartialEq, Eq)]
pub struct Counts {
    by_kind: Frequencies<Kind>,
}

impl Default for Counts {
    fn default() -> Counts {
        Counts {
            by_kind: Frequencies::zeros([]),
        }
    }
}

impl Counts {
    pub fn of(&self, kind: Kind) -> u64 {
        self.by_kind.of(kind)
    }

    fn count(&mut self, kind: Kind) {
        self.by_kind.count(kind);
    }

    fn count_call<T>(&mut self, call: &'static str, answer: &Result<T, Refusal>) {
        match answer {
            Ok(_) => self.count(Kind::Accepted(call)),
            Err(refusal) => {
                self.count(Kind::Refused(call));
                self.count(Kind::CallRefusal(refusal.number()));
            }
        }
    }

    pub fn add(&mut self, answer: &Answer) {
        match answer {
            Answer::Card(Ok(_)) => self.count(Kind::Accepted(CARD)),
            Answer::Card(Err(refusal)) => {
                self.count(Kind::Refused(CARD));
                self.count(Kind::CardRefusal(refusal.number()));
            }
            Answer::Commit(answer) => self.count_call("commit", answer),
            Answer::Revoke(answer) => self.count_call("revoke", answer),
            Answer::Advance(answer) => self.count_call("advance", answer),
            Answer::Issue(answer) => self.count_call("issue", answer),
            Answer::Decide(answer) => {
                self.count_call("decide", answer);
                if let Ok(decision) = answer {
                    self.count(Kind::of_decision(decision));
                }
            }
            Answer::Brief(answer) => self.count_call("brief", answer),
            Answer::Write(answer) => self.count_call("write", answer),
            Answer::Preview(answer) => {
                self.count(match answer {
                    Ok(_) => Kind::Accepted(PREVIEW),
                    Err(_) => Kind::Refused(PREVIEW),
                });
                self.count(Kind::of_preview(answer));
            }
            Answer::Malformed => self.count(Kind::Malformed),
        }
    }

    /// Of the inputs asked for, every refusal that a card or a call can get,
    /// every basis with every effect that it can have, and every outcome of a
    /// preview.
    pub fn wanted(asked: Asked) -> impl Iterator<Item = Kind> {
        let cards = CARD_QUESTIONS.into_iter().map(Kind::CardRefusal);
        let calls = (FIRST_CALL_QUESTION..=LAST_QUESTION).map(Kind::CallRefusal);
        let permits = BASES.into_iter().map(Kind::Permit);
        let denies = DENYING_BASES.into_iter().map(Kind::Deny);
        let refused = DRAFT_QUESTIONS.chain([REQUESTER_QUESTION]);
        let outcomes = Outcome::ALL.into_iter().map(Kind::Preview);
        let previews = refused.map(Kind::PreviewRefusal).chain(outcomes);
        let replays = calls.chain(permits).chain(denies).chain(previews);
        let cards = cards.filter(move |_| asked.cards);
        cards.chain(replays.filter(move |_| asked.replays))
    }

    /// The wanted ones that did not occur.
    pub fn missing(&self, asked: Asked) -> Vec<Kind> {
        Counts::wanted(asked)
            .filter(|kind| self.of(*kind) == 0)
            .collect()
    }

    /// Whether a call was made, or a replay is malformed.
    fn has_calls(&self) -> bool {
        self.by_kind.iter().any(|(kind, _)| match kind {
            Kind::Accepted(call) | Kind::Refused(call) => call != CARD,
            Kind::CardRefusal(_) => false,
            _ => true,
        })
    }

    /// The count, or a dash where it can only be 0.
    fn cell(&self, kind: Kind) -> String {
        if Counts::wanted(Asked::ALL).any(|wanted| wanted == kind) {
            self.of(kind).to_string()
        } else {
            "-".to_string()
        }
    }
}

/// The table, for cards alone where no call was made.
impl fmt::Display for Counts {
    fn fmt(&self, f: &mut fmt::Formatter<'_>) -> fmt::Result {
        let calls = self.has_calls();
        let titles = ["refusal", "of cards", "of calls", "of previews"];
        let shown = if calls { titles.len() } else { 2 };
        row(f, titles.iter().take(shown))?;
        for number in 1..=LAST_QUESTION {
            let cells = [
                number.to_string(),
                self.cell(Kind::CardRefusal(number)),
                self.cell(Kind::CallRefusal(number)),
                self.cell(Kind::PreviewRefusal(number)),
            ];
            row(f, cells.iter().take(shown))?;
        }
        if calls {
            row(f, ["basis", "permit", "deny"])?;
            for basis in BASES {
                let permits = self.cell(Kind::Permit(basis));
                let denies = self.cell(Kind::Deny(basis));
                row(f, [&basis.to_string(), &permits, &denies])?;
            }
        }
        row(f, ["call", "accepted", "refused"])?;
        for call in CALLS.into_iter().filter(|call| calls || *call == CARD) {
            let accepted = self.of(Kind::Accepted(call)).to_string();
            let refused = self.of(Kind::Refused(call)).to_string();
            row(f, [call, &accepted, &refused])?;
        }
        if calls {
            for outcome in Outcome::ALL {
                let kind = Kind::Preview(outcome);
                writeln!(f, "previews {outcome} {}", self.of(kind))?;
            }
            writeln!(f, "malformed replays {}", self.of(Kind::Malformed))?;
        }
        Ok(())
    }
}

/// A row of the table: what is counted, and the counts.
pub(crate) fn row<T: fmt::Display>(
    f: &mut fmt::Formatter<'_>,
    cells: impl IntoIterator<Item = T>,
) -> fmt::Result {
    let mut cells = cells.into_iter();
    if let Some(what) = cells.next() {
        write!(f, "{what:>8}")?;
    }
    for cell in cells {
        write!(f, " {cell:>11}")?;
    }
    writeln!(f)
}
