//! How often each answer of `access` occurred, and each sort of draft.

use std::fmt;

use crate::access::{Access, AccessArguments, MOST_DRAFT_DIGITS};
use crate::answer::Answer;
use crate::counts::{row, Counts, Kind, BASES, DENYING_BASES, DRAFT_QUESTIONS};
use crate::frequencies::Frequencies;
use crate::ledger::Decision;
use crate::preview::Outcome;

/// What runs are counted by, in the order of the table.
#[derive(Clone, Copy, Debug, PartialEq, Eq, PartialOrd, Ord)]
pub enum Run {
    Table,
    CardRefused,
    RequesterRefused,
    /// A table with a draft.
    Preview(Outcome),
    /// By the question's number.
    DraftRefused(u8),
    RequesterRefusedAfterTheDraft,
    LowerCase,
    UpperCase,
    NoDigits,
    MostDigits,
    TooManyDigits,
    WithABlank,
    WithAnotherCharacter,
    OddNumberOfDigits,
}

impl Run {
    /// All that can occur.
    fn all() -> impl Iterator<Item = Run> {
        let alone = [
            Run::Table,
            Run::CardRefused,
            Run::RequesterRefused,
            Run::RequesterRefusedAfterTheDraft,
            Run::LowerCase,
            Run::UpperCase,
            Run::NoDigits,
            Run::MostDigits,
            Run::TooManyDigits,
            Run::WithABlank,
            Run::WithAnotherCharacter,
            Run::OddNumberOfDigits,
        ];
        let previews = Outcome::ALL.into_iter().map(Run::Preview);
        let refused = DRAFT_QUESTIONS.map(Run::DraftRefused);
        alone.into_iter().chain(previews).chain(refused)
    }

    /// Why a draft cannot be used.
    fn of_unusable(draft: &str) -> Run {
        if draft.contains(' ') {
            Run::WithABlank
        } else if draft.contains(|digit: char| !digit.is_ascii_hexdigit()) {
            Run::WithAnotherCharacter
        } else if draft.len() > MOST_DRAFT_DIGITS {
            Run::TooManyDigits
        } else {
            Run::OddNumberOfDigits
        }
    }
}

impl fmt::Display for Run {
    fn fmt(&self, f: &mut fmt::Formatter<'_>) -> fmt::Result {
        match self {
            Run::Table => write!(f, "tables of access"),
            Run::CardRefused => write!(f, "cards refused by access"),
            Run::RequesterRefused => write!(f, "requesters refused by access"),
            Run::Preview(outcome) => write!(f, "tables with a draft, {outcome}"),
            Run::DraftRefused(number) => write!(f, "drafts refused by access with {number}"),
            Run::RequesterRefusedAfterTheDraft => {
                write!(f, "requesters refused by access after the draft")
            }
            Run::LowerCase => write!(f, "drafts in lower case"),
            Run::UpperCase => write!(f, "drafts in upper case"),
            Run::NoDigits => write!(f, "drafts of no digits"),
            Run::MostDigits => write!(f, "drafts of {MOST_DRAFT_DIGITS} digits"),
            Run::TooManyDigits => {
                write!(f, "unusable drafts of more than {MOST_DRAFT_DIGITS} digits")
            }
            Run::WithABlank => write!(f, "unusable drafts with a blank"),
            Run::WithAnotherCharacter => write!(f, "unusable drafts with another character"),
            Run::OddNumberOfDigits => write!(f, "unusable drafts of an odd number of digits"),
        }
    }
}

#[derive(Clone, Debug, PartialEq, Eq)]
pub struct AccessCounts {
    runs: Frequencies<Run>,
    /// The lines of the tables, as it is decided now.
    decisions: Counts,
}

impl Default for AccessCounts {
    fn default() -> AccessCounts {
        AccessCounts {
            runs: Frequencies::zeros(Run::all()),
            decisions: Counts::default(),
        }
    }
}

impl AccessCounts {
    pub fn add(&mut self, arguments: &AccessArguments, access: &Access) {
        let draft = arguments.draft.as_deref();
        match (access, draft) {
            (Access::Unusable, Some(draft)) => self.runs.count(Run::of_unusable(draft)),
            (Access::Unusable, None) => {}
            (Access::CardRefused(_), _) => self.runs.count(Run::CardRefused),
            (Access::RequesterRefused(_), None) => self.runs.count(Run::RequesterRefused),
            (Access::RequesterRefused(_), Some(_)) => {
                self.runs.count(Run::RequesterRefusedAfterTheDraft);
            }
            (Access::DraftRefused(refusal), _) => {
                self.runs.count(Run::DraftRefused(refusal.number()));
            }
            (Access::Table(table), _) => {
                self.runs.count(Run::Table);
                self.count_decisions(table);
            }
            (Access::Preview(preview), _) => {
                self.runs.count(Run::Preview(preview.outcome()));
                self.count_decisions(&preview.before);
            }
        }
        if let (Some(draft), Access::DraftRefused(_) | Access::Preview(_)) = (draft, access) {
            self.count_digits(draft);
        }
    }

    fn count_decisions(&mut self, table: &[Decision]) {
        for decision in table {
            self.decisions.add(&Answer::Decide(Ok(*decision)));
        }
    }

    /// How the digits of a draft are written.
    fn count_digits(&mut self, draft: &str) {
        if draft.contains(|digit: char| digit.is_ascii_lowercase()) {
            self.runs.count(Run::LowerCase);
        }
        if draft.contains(|digit: char| digit.is_ascii_uppercase()) {
            self.runs.count(Run::UpperCase);
        }
        match draft.len() {
            0 => self.runs.count(Run::NoDigits),
            MOST_DRAFT_DIGITS => self.runs.count(Run::MostDigits),
            _ => {}
        }
    }

    /// How often each sort of run occurred.
    pub fn runs(&self) -> impl Iterator<Item = (Run, u64)> + '_ {
        self.runs.iter()
    }

    /// What did not occur: a sort of run, or a basis with an effect that it can
    /// have.
    pub fn missing(&self) -> Vec<String> {
        let runs = self.runs().filter(|(_, count)| *count == 0);
        let permits = BASES.into_iter().map(Kind::Permit);
        let denies = DENYING_BASES.into_iter().map(Kind::Deny);
        let kinds = permits
            .chain(denies)
            .filter(|kind| self.decisions.of(*kind) == 0);
        let runs = runs.map(|(run, _)| run.to_string());
        runs.chain(kinds.map(|kind| format!("{kind} by access")))
            .collect()
    }

    fn denies(&self, basis: u8) -> String {
        if DENYING_BASES.contains(&basis) {
            self.decisions.of(Kind::Deny(basis)).to_string()
        } else {
            "-".to_string()
        }
    }
}

/// The table.
impl fmt::Display for AccessCounts {
    fn fmt(&self, f: &mut fmt::Formatter<'_>) -> fmt::Result {
        row(f, ["access", "permit", "deny"])?;
        for basis in BASES {
            let permits = self.decisions.of(Kind::Permit(basis)).to_string();
            row(f, [format!("basis {basis}"), permits, self.denies(basis)])?;
        }
        for (run, count) in self.runs() {
            writeln!(f, "{run} {count}")?;
        }
        Ok(())
    }
}
