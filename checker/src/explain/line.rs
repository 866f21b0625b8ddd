//! A line of any program in words.

use super::answer::card_bytes;
use crate::bytes::{from_hex, hex};
use crate::describe::{counted, decision, question, records};
use crate::directive::Effect;
use crate::kind::Kind;
use crate::ledger::{Basis, Decision};
use crate::register::set_of_words;

/// What the line says as the answer to a card or a call of this kind, also
/// where it is wrong. Without a kind: whether it accepts or refuses.
pub fn answer_in_words(kind: Option<Kind>, line: &str) -> String {
    if line == "malformed" {
        return "the replay is malformed and ends here".to_string();
    }
    let parts: Vec<&str> = line.split(' ').collect();
    let words = match (kind, parts.as_slice()) {
        (Some(kind), ["0", results @ ..]) => accepted(kind, results),
        (Some(kind), [number, results @ ..]) => refused(kind, number, results),
        (None, ["0", ..]) => Some("accepted".to_string()),
        (None, [number, ..]) => decimal(number).and_then(|number| question_in_words(None, number)),
        (_, []) => None,
    };
    words.unwrap_or_else(|| match kind {
        Some(kind) => format!("no line that {} can get", kind.phrase()),
        None => "no line of an answer".to_string(),
    })
}

fn accepted(kind: Kind, results: &[&str]) -> Option<String> {
    match (kind, results) {
        (Kind::Card, [records, directives]) => {
            let records = counted(decimal(records)?, "record");
            let directives = counted(decimal(directives)?, "active directive");
            Some(format!("accepted: a card with {records} and {directives}"))
        }
        (Kind::Commit, []) => Some("accepted: the directive becomes active".to_string()),
        (Kind::Revoke, []) => Some("accepted: the directive is removed".to_string()),
        (Kind::Issue, []) => Some("accepted: the token becomes live".to_string()),
        (Kind::Advance, [directives, tokens]) => {
            let directives = counted(decimal(directives)?, "directive");
            let tokens = counted(decimal(tokens)?, "token");
            Some(format!("accepted: {directives} and {tokens} ran out"))
        }
        (Kind::Decide, [effect, basis, number @ ..]) => decided(effect, basis, number),
        (Kind::Brief, [low, high, count]) => {
            let records = in_words(decimal(low)?, decimal(high)?, decimal(count)?);
            Some(format!("discloses {records}"))
        }
        (Kind::Preview, [low, high, count]) => {
            let records = in_words(decimal(low)?, decimal(high)?, decimal(count)?);
            Some(format!("would change {records}"))
        }
        (Kind::Write, [length, hex]) => written(decimal(length)?, hex),
        _ => None,
    }
}

fn decided(effect: &str, basis: &str, number: &[&str]) -> Option<String> {
    let effect = match effect {
        "0" => Effect::Deny,
        "1" => Effect::Permit,
        _ => return None,
    };
    let basis = match (basis, number) {
        ("1", []) => Basis::Patient,
        ("2", []) => Basis::Author,
        ("3", [number]) => Basis::Directive(decimal(number)?),
        ("4", []) => Basis::Default,
        _ => return None,
    };
    let words = decision(Decision { effect, basis });
    Some(match (effect, basis) {
        (Effect::Deny, Basis::Patient | Basis::Author) => {
            format!("{words}, which never denies")
        }
        _ => words,
    })
}

/// The records of two words, and their count.
fn in_words(low: u64, high: u64, count: u32) -> String {
    let set = set_of_words([low, high]);
    let records = records(set);
    let ones = set.count_ones();
    if count == ones {
        format!("{records}; count {count}")
    } else {
        format!("{records}; count {count}, and {ones} bits are set")
    }
}

/// The card that is written in lowercase hexadecimal.
fn written(length: usize, text: &str) -> Option<String> {
    let card = from_hex(text).filter(|card| hex(card) == text)?;
    let bytes = card_bytes(&card);
    Some(if card.len() == length {
        format!("written: {bytes}")
    } else {
        format!("written: {bytes}, and the line says {length}")
    })
}

fn refused(kind: Kind, number: &str, results: &[&str]) -> Option<String> {
    let number = decimal(number)?;
    let words = question_in_words(Some(kind), number)?;
    match (kind, number, results) {
        (Kind::Card, _, ["0", "0"]) => Some(words),
        (Kind::Commit | Kind::Preview, 13, [named]) => {
            let named: u16 = decimal(named)?;
            Some(format!("{words} No, with directive {named}."))
        }
        (Kind::Card, _, _) | (Kind::Commit | Kind::Preview, 13, _) => None,
        (_, _, []) => Some(words),
        _ => None,
    }
}

/// The question of this number, and whether it is never put to this kind.
pub fn question_in_words(kind: Option<Kind>, number: u8) -> Option<String> {
    let text = match question(number) {
        Some(text) => text,
        None if number == 0 => return None,
        None => return Some(format!("refused by {number}, no question of document 01")),
    };
    let words = format!("refused by question {number}: {text}");
    Some(match kind.filter(|kind| !kind.has_question(number)) {
        Some(kind) => format!("{words} (never put to {})", kind.phrase()),
        None => words,
    })
}

/// A number in decimal, as lines have it: without a sign and without zeros
/// before it.
pub fn decimal<T: std::str::FromStr + ToString>(text: &str) -> Option<T> {
    let number: T = text.parse().ok()?;
    (number.to_string() == text).then_some(number)
}
