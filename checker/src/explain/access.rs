//! The lines of `access` in words.

use super::line::{decimal, question_in_words};
use super::{answer, call, card_words, Explained};
use crate::access::{Access, AccessArguments};
use crate::answer::Answer;
use crate::card::{Reading, Stage};
use crate::cardcheck::CARD_LIMIT;
use crate::describe::{counted, decision, Words};
use crate::directive::Effect;
use crate::kind::Kind;
use crate::ledger::{Basis, Decision, Ledger};
use crate::replay::Call;
use crate::request::Requester;

/// Explains the line at this place, counted from 0, that `access` prints for
/// this input and these arguments.
pub fn access_line(input: &[u8], arguments: &AccessArguments, place: usize) -> Option<Explained> {
    let card = input.get(..usize::from(CARD_LIMIT)).unwrap_or(input);
    let draft = arguments.draft_bytes().ok()?;
    let requester = arguments.requester;
    let reading = Reading::of(card);
    let (access, kind, words) = match (&reading.stage, reading.stop) {
        (Stage::Register { ledger, .. }, None) => {
            let access = Access::of(ledger, requester, draft.as_deref());
            let (kind, words) = in_words(ledger, requester, draft, &access, place)?;
            (access, kind, words)
        }
        (_, Some(stop)) => {
            let words = card_words(card, &reading);
            (Access::CardRefused(stop.refusal), Kind::Card, words)
        }
        (Stage::Start | Stage::Head(_), None) => return None,
    };
    let line = access.to_string().lines().nth(place)?.to_string();
    Some(Explained {
        kind: Some(kind),
        line,
        words: words.join("\n"),
    })
}

/// The request on the record of this place, its decision and what the draft
/// makes of it; or who asks, with what draft, and what it changes or why that is
/// refused.
fn in_words(
    ledger: &Ledger,
    requester: Requester,
    draft: Option<Vec<u8>>,
    access: &Access,
    place: usize,
) -> Option<(Kind, Vec<String>)> {
    let decide = Call::Decide(requester.query(u8::try_from(place).ok()?));
    let (call, answer, change) = match (access, draft) {
        (Access::Preview(preview), Some(draft)) => match preview.decisions().nth(place) {
            Some((_, before, after)) => {
                let change = answer::change(before, after);
                let change = change.unwrap_or_else(|| "no change.".to_string());
                let answer = Answer::Decide(Ok(before));
                (decide, answer, Some(format!("With the draft: {change}")))
            }
            None => {
                let call = Call::Preview { requester, draft };
                (call, Answer::Preview(Ok(preview.clone())), None)
            }
        },
        (Access::DraftRefused(refusal) | Access::RequesterRefused(refusal), Some(draft)) => {
            let call = Call::Preview { requester, draft };
            (call, Answer::Preview(Err(*refusal)), None)
        }
        _ => (decide, access.answers().get(place).cloned()?, None),
    };
    let asked = match access {
        Access::RequesterRefused(_) => {
            format!("Access: {}.", Words::of(ledger).requester(requester))
        }
        _ => call::in_words(ledger, &call),
    };
    let mut words = vec![asked];
    words.extend(answer::in_words(ledger, ledger, &call, &answer));
    words.extend(change);
    Some((Kind::of_call(&call), words))
}

/// What a line says that a program prints as `access`, also where it is
/// wrong.
pub fn access_in_words(line: &str) -> String {
    let words = match line.split_once(": ") {
        Some(("card refused", rest)) => refused("card", Kind::Card, rest),
        Some(("draft refused", rest)) => refused("draft", Kind::Commit, rest),
        Some(("requester refused", rest)) => refused("requester", Kind::Decide, rest),
        Some(("records that change", count)) => change_count(count),
        Some((record, rest)) => decided(record, rest),
        None => None,
    };
    words.unwrap_or_else(|| "no line that access can print".to_string())
}

fn refused(what: &str, kind: Kind, rest: &str) -> Option<String> {
    let rest = rest.strip_prefix("question ")?;
    let (number, named) = match rest.split_once(", directive ") {
        Some((number, named)) => (number, Some(decimal::<u16>(named)?)),
        None => (rest, None),
    };
    let number = decimal(number)?;
    let words = question_in_words(Some(kind), number)?;
    match (kind, number, named) {
        (Kind::Commit, 13, Some(named)) => {
            Some(format!("the {what} is {words} No, with directive {named}."))
        }
        (Kind::Commit, 13, None) | (_, _, Some(_)) => None,
        _ => Some(format!("the {what} is {words}")),
    }
}

fn change_count(count: &str) -> Option<String> {
    let records = counted(decimal(count)?, "record");
    Some(format!("the draft would change {records}"))
}

fn decided(record: &str, rest: &str) -> Option<String> {
    let record: u8 = decimal(record.strip_prefix("record ")?)?;
    let words = match rest.split_once(", changes to ") {
        Some((before, after)) => {
            let (before, after) = (decision_of(before)?, decision_of(after)?);
            format!("{}, changes to {}", decision(before), decision(after))
        }
        None => decision(decision_of(rest)?),
    };
    Some(format!("on record {record}: {words}"))
}

/// The decision as a table has it.
fn decision_of(text: &str) -> Option<Decision> {
    let (effect, basis) = text.split_once(", basis ")?;
    let effect = match effect {
        "permit" => Effect::Permit,
        "deny" => Effect::Deny,
        _ => return None,
    };
    let basis = match basis {
        "1 (patient)" => Basis::Patient,
        "2 (author)" => Basis::Author,
        "4 (default)" => Basis::Default,
        directive => {
            let number = directive.strip_prefix("3 (directive ")?;
            Basis::Directive(decimal(number.strip_suffix(')')?)?)
        }
    };
    Some(Decision { effect, basis })
}
