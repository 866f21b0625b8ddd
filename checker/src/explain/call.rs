//! A call in words.

use crate::describe::{counted, states, Words};
use crate::directive::{Fields, LENGTH};
use crate::ledger::Ledger;
use crate::replay::Call;

/// What the call asks of this ledger.
pub fn in_words(ledger: &Ledger, call: &Call) -> String {
    let words = Words::of(ledger);
    match call {
        Call::Commit { draft } => format!("Commit{}.", a_draft(&words, draft)),
        Call::Revoke { number } => format!("Revoke directive {number}."),
        Call::Advance { minute } => {
            let clock = ledger.clock();
            format!("Advance the clock from minute {clock} to minute {minute}.")
        }
        Call::Issue {
            number,
            person,
            states: set,
            length,
        } => {
            let length = usize::try_from(*length).unwrap_or(usize::MAX);
            format!(
                "Issue token {number} to {} for {}, for {}.",
                words.person(*person),
                states(*set),
                counted(length, "minute"),
            )
        }
        Call::Decide(query) => format!("Decide: {}.", words.query(query)),
        Call::Brief { number, person } => {
            format!("Brief on token {number} for {}.", words.person(*person))
        }
        Call::Write { buffer } => {
            let buffer = counted(usize::from(*buffer), "byte");
            format!("Write the card into a buffer of {buffer}.")
        }
        Call::Preview { requester, draft } => format!(
            "Preview{}; {}.",
            a_draft(&words, draft),
            words.requester(*requester)
        ),
    }
}

/// What stands after the name of a call with this draft.
fn a_draft(words: &Words, draft: &[u8]) -> String {
    match <&[u8; LENGTH]>::try_from(draft) {
        Ok(bytes) => format!(": {}", words.draft(&Fields::decode(bytes))),
        Err(_) => format!(" a draft of {}", counted(draft.len(), "byte")),
    }
}
