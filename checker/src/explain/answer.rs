//! The answer to a call in words.

use crate::answer::Answer;
use crate::card::{Edition, Reading, Stage};
use crate::describe::{basis, counted, decision, labels, members, records, refused, states, Words};
use crate::directive::Effect;
use crate::ledger::{scope, Basis, Decision, Ledger};
use crate::preview::Preview;
use crate::reason;
use crate::refusal::Refusal;
use crate::register::{set_of_words, RecordWords};
use crate::replay::Call;
use crate::request::{has_bit, Query, TREATMENT};

/// What the call told or changed, or why it is refused. The ledgers are those
/// before and after it.
pub fn in_words(before: &Ledger, after: &Ledger, call: &Call, answer: &Answer) -> Vec<String> {
    if let Some(refusal) = refusal(answer) {
        let mut lines = vec![format!("Refused by {}", refused(refusal))];
        lines.extend(reason::of_call(before, call, refusal));
        return lines;
    }
    let line = match (call, answer) {
        (Call::Commit { .. }, _) => committed(after),
        (Call::Revoke { number }, _) => revoked(before, after, *number),
        (Call::Advance { .. }, _) => advanced(before, after),
        (Call::Issue { .. }, _) => issued(after),
        (Call::Decide(query), Answer::Decide(Ok(decision))) => decided(before, query, *decision),
        (Call::Brief { number, .. }, Answer::Brief(Ok(brief))) => {
            disclosed(before, *number, *brief)
        }
        (Call::Write { .. }, Answer::Write(Ok(card))) => written(card),
        (_, Answer::Preview(Ok(preview))) => return previewed(preview),
        _ => String::new(),
    };
    vec![line]
}

fn refusal(answer: &Answer) -> Option<Refusal> {
    match answer {
        Answer::Card(result) => result.err(),
        Answer::Commit(result) | Answer::Revoke(result) | Answer::Issue(result) => result.err(),
        Answer::Advance(result) => result.err(),
        Answer::Decide(result) => result.err(),
        Answer::Brief(result) => result.err(),
        Answer::Write(result) => result.as_ref().err().copied(),
        Answer::Preview(result) => result.as_ref().err().copied(),
        Answer::Malformed => None,
    }
}

fn committed(after: &Ledger) -> String {
    let active = after.active().len();
    format!("Accepted: it is active now. Active directives: {active}.")
}

fn revoked(before: &Ledger, after: &Ledger, number: u16) -> String {
    let mut active = before.active().iter();
    let gone = active.find(|directive| directive.number == number);
    let words = gone.map(|directive| Words::of(before).numbered_directive(directive));
    let left = after.active().len();
    format!(
        "Removed: {}. Active directives: {left}.",
        words.unwrap_or_default()
    )
}

/// Which directives and tokens ran out.
fn advanced(before: &Ledger, after: &Ledger) -> String {
    let clock = after.clock();
    let over = |until: u32| until <= clock;
    let directives: Vec<u16> = before
        .active()
        .iter()
        .filter(|directive| over(directive.until))
        .map(|directive| directive.number)
        .collect();
    let tokens: Vec<u16> = before
        .tokens()
        .iter()
        .filter(|token| over(token.until))
        .map(|token| token.number)
        .collect();
    let directives = numbered("directive", &directives);
    let tokens = numbered("token", &tokens);
    format!("The clock is at minute {clock}. Ran out: {directives}, {tokens}.")
}

/// "no directive", "directive 1", "directives 1, 4".
fn numbered(name: &str, numbers: &[u16]) -> String {
    let list: Vec<String> = numbers.iter().map(u16::to_string).collect();
    match numbers.len() {
        0 => format!("no {name}"),
        1 => format!("{name} {}", list.concat()),
        _ => format!("{name}s {}", list.join(", ")),
    }
}

fn issued(after: &Ledger) -> String {
    let token = after.tokens().last();
    let words = token.map(|token| Words::of(after).token(token));
    format!("Issued: {}.", words.unwrap_or_default())
}

/// The decision with its basis, and what that is here.
fn decided(ledger: &Ledger, query: &Query, decided: Decision) -> String {
    let words = decision(decided);
    match decided.basis {
        Basis::Patient | Basis::Author => format!("Decision: {words}."),
        Basis::Directive(number) => {
            let mut active = ledger.active().iter();
            let found = active.find(|directive| directive.number == number);
            let directive = found.map(|directive| Words::of(ledger).directive(directive));
            format!(
                "Decision: {words}, which {}.",
                directive.unwrap_or_default()
            )
        }
        Basis::Default => {
            let why = default_consent(ledger, query, decided.effect);
            format!("Decision: {words}. {why}.")
        }
    }
}

/// Why the default consent gives this effect.
fn default_consent(ledger: &Ledger, query: &Query, effect: Effect) -> String {
    let record = ledger.register().record(query.record);
    let origins = record.map_or(0, |record| record.origins);
    let (origin, number) = (query.origin, query.record);
    let list = members(origins);
    let mut parts = vec!["No active directive matches".to_string()];
    if effect == Effect::Permit {
        parts.push(format!(
            "origin {origin} is among the origins of record {number} ({list})"
        ));
        parts.push("the purpose is treatment".to_string());
    }
    if effect == Effect::Deny && !has_bit(origins, origin) {
        parts.push(format!(
            "origin {origin} is not among the origins of record {number} ({list})"
        ));
    }
    if effect == Effect::Deny && query.purpose != TREATMENT {
        parts.push("the purpose is not treatment".to_string());
    }
    parts.join(", ")
}

/// The records of a brief, and the labels in its scope.
fn disclosed(ledger: &Ledger, number: u16, brief: RecordWords) -> String {
    let mut tokens = ledger.tokens().iter();
    let token = tokens.find(|token| token.number == number);
    let set = token.map_or(0, |token| token.states);
    let all = counted(ledger.register().records().len(), "record");
    format!(
        "Discloses {} of {all}, those with one of {} ({}): {}.",
        brief.count,
        labels(scope(set)),
        states(set),
        records(set_of_words(brief.words)),
    )
}

/// Which records would change, each before and after, and those that would have
/// a new basis or number alone.
fn previewed(preview: &Preview) -> Vec<String> {
    let all = counted(preview.before.len(), "record");
    let changed = preview.changed();
    let mut lines = vec![match changed {
        0 => format!("Would change no decision on {all}."),
        _ => format!(
            "Would change {} of {all}: {}.",
            changed.count_ones(),
            records(changed)
        ),
    }];
    for (record, before, after) in preview.decisions() {
        let change = change(before, after);
        lines.extend(change.map(|change| format!("- record {record}: {change}")));
    }
    lines
}

/// What becomes of a decision; nothing where it stays with its basis and number.
pub fn change(before: Decision, after: Decision) -> Option<String> {
    if before == after {
        return None;
    }
    let words = decision(before);
    Some(if before.effect == after.effect {
        let after = basis(after.basis);
        format!("{words}, gets {after}. A new basis or number alone is no change.")
    } else {
        format!("{words}, becomes {}.", decision(after))
    })
}

fn written(card: &[u8]) -> String {
    format!("Written: {}.", card_bytes(card))
}

/// A card's bytes in short.
pub fn card_bytes(card: &[u8]) -> String {
    let Reading { stage, stop } = Reading::of(card);
    match (stop, stage) {
        (None, Stage::Register { edition, ledger }) => in_short(&ledger, edition, card.len()),
        (Some(stop), _) => {
            let length = counted(card.len(), "byte");
            let number = stop.refusal.number();
            format!("{length} that are refused as a card by question {number}")
        }
        (None, Stage::Start | Stage::Head(_)) => counted(card.len(), "byte"),
    }
}

/// A card in short.
pub fn in_short(ledger: &Ledger, edition: Edition, length: usize) -> String {
    format!(
        "edition {}, patient person {}, clock at minute {}, {}, {}, {}; {}",
        edition.number(),
        ledger.patient(),
        ledger.clock(),
        counted(ledger.register().roles().len(), "role"),
        counted(ledger.register().records().len(), "record"),
        counted(ledger.active().len(), "directive"),
        counted(length, "byte"),
    )
}
