//! The calls of a replay.

use super::draft::Draft;
use super::line::{words, Word};
use super::named::Named;
use super::raw;
use super::value::{set_text, Number};
use super::words;
use super::TextError;
use crate::bytes::Bytes;
use crate::replay::{Call, REQUESTER_LENGTH};
use crate::request::{Query, Requester};

/// The bytes of a call.
pub fn read(item: Word, words: &[Word]) -> Result<Vec<u8>, TextError> {
    let call = match item.text {
        words::CALL => return raw::tagged(item, words),
        words::BYTES => return raw::bytes(words),
        words::COMMIT => Call::Commit {
            draft: read_draft(item, words)?,
        },
        words::REVOKE => Call::Revoke {
            number: only_number(item, words)?,
        },
        words::ADVANCE => Call::Advance {
            minute: only_number(item, words)?,
        },
        words::ISSUE => read_issue(item, words)?,
        words::DECIDE => read_decide(item, words)?,
        words::BRIEF => read_brief(item, words)?,
        words::WRITE => Call::Write {
            buffer: only_number(item, words)?,
        },
        words::PREVIEW => read_preview(item, words)?,
        _ => return Err(item.unexpected(words::CALL_ITEMS)),
    };
    Ok(call.encode())
}

/// The value of an item that names nothing more.
fn only_number<T: Number>(item: Word, words: &[Word]) -> Result<T, TextError> {
    Named::new(item, words, &words::NUMBER_FORM)?.number(item.text)
}

/// The draft after this word: by its names or as bytes.
fn read_draft(item: Word, words: &[Word]) -> Result<Vec<u8>, TextError> {
    match words.split_first() {
        Some((mark, words)) if mark.text == words::BYTES => raw::value(*mark, words),
        _ => Ok(Draft::read(item, words, true)?.encode()),
    }
}

/// The bytes of a draft from the words of a commit, with or without `commit`
/// before them.
pub fn draft(text: &str) -> Result<Vec<u8>, TextError> {
    let words = words(1, text);
    let words = match words.split_first() {
        Some((first, rest)) if first.text == words::COMMIT => rest,
        _ => &words,
    };
    let item = Word {
        text: words::DRAFT,
        line: 1,
        column: 1,
    };
    read_draft(item, words)
}

/// A requester and, after its own word, a draft.
fn read_preview(item: Word, words: &[Word]) -> Result<Call, TextError> {
    let mut parts = words.splitn(2, |word| word.text == words::DRAFT);
    let requester = parts.next().unwrap_or_default();
    let named = Named::new(item, requester, &words::REQUESTER_FORM)?;
    let requester = Requester {
        person: named.number(words::PERSON)?,
        role: named.number(words::ROLE)?,
        origin: named.number(words::ORIGIN)?,
        purpose: named.number(words::PURPOSE)?,
    };
    let mark = words.iter().find(|word| word.text == words::DRAFT);
    let (Some(mark), Some(draft)) = (mark, parts.next()) else {
        return Err(item.error(format!("{item} lacks {}", words::DRAFT)));
    };
    let draft = read_draft(*mark, draft)?;
    raw::short_enough(*mark, draft.len().saturating_add(REQUESTER_LENGTH))?;
    Ok(Call::Preview { requester, draft })
}

fn read_issue(item: Word, words: &[Word]) -> Result<Call, TextError> {
    let named = Named::new(item, words, &words::ISSUE_FORM)?;
    Ok(Call::Issue {
        number: named.number(words::ISSUE)?,
        person: named.number(words::PERSON)?,
        states: named.set(words::STATES, u8::MAX)?,
        length: named.number(words::LENGTH)?,
    })
}

fn read_decide(item: Word, words: &[Word]) -> Result<Call, TextError> {
    let named = Named::new(item, words, &words::DECIDE_FORM)?;
    Ok(Call::Decide(Query {
        person: named.number(words::PERSON)?,
        role: named.number(words::ROLE)?,
        origin: named.number(words::ORIGIN)?,
        record: named.number(words::RECORD)?,
        purpose: named.number(words::PURPOSE)?,
    }))
}

fn read_brief(item: Word, words: &[Word]) -> Result<Call, TextError> {
    let named = Named::new(item, words, &words::BRIEF_FORM)?;
    Ok(Call::Brief {
        number: named.number(words::BRIEF)?,
        person: named.number(words::PERSON)?,
    })
}

/// The line of a call.
fn text(call: &Call) -> String {
    match call {
        Call::Commit { draft } => draft_text(words::COMMIT, draft),
        Call::Revoke { number } => format!("{} {number}", words::REVOKE),
        Call::Advance { minute } => format!("{} {minute}", words::ADVANCE),
        Call::Issue {
            number,
            person,
            states,
            length,
        } => format!(
            "{} {number} {} {person} {} {} {} {length}",
            words::ISSUE,
            words::PERSON,
            words::STATES,
            set_text(*states, u8::MAX),
            words::LENGTH,
        ),
        Call::Decide(query) => decide_text(query),
        Call::Brief { number, person } => {
            format!("{} {number} {} {person}", words::BRIEF, words::PERSON)
        }
        Call::Write { buffer } => format!("{} {buffer}", words::WRITE),
        Call::Preview { requester, draft } => {
            let values = [
                (words::PERSON, requester.person),
                (words::ROLE, requester.role),
                (words::ORIGIN, u16::from(requester.origin)),
                (words::PURPOSE, u16::from(requester.purpose)),
            ];
            let draft = draft_text(words::DRAFT, draft);
            format!("{} {draft}", named_text(words::PREVIEW, &values))
        }
    }
}

/// The draft after this word.
fn draft_text(item: &str, draft: &[u8]) -> String {
    match Draft::decode(draft) {
        Some(draft) => draft.text(item, true),
        None => format!("{item} {}", raw::bytes_text(draft)),
    }
}

fn decide_text(query: &Query) -> String {
    let values = [
        (words::PERSON, query.person),
        (words::ROLE, query.role),
        (words::ORIGIN, u16::from(query.origin)),
        (words::RECORD, u16::from(query.record)),
        (words::PURPOSE, u16::from(query.purpose)),
    ];
    named_text(words::DECIDE, &values)
}

/// The item with these names and values.
fn named_text(item: &str, values: &[(&str, u16)]) -> String {
    let named = values
        .iter()
        .map(|(name, value)| format!(" {name} {value}"));
    format!("{item}{}", named.collect::<String>())
}

/// The lines of calls of any bytes.
pub fn lines(calls: &[u8]) -> Vec<String> {
    let mut lines = Vec::new();
    let mut bytes = Bytes::new(calls);
    while !bytes.is_empty() {
        let rest = bytes.rest();
        let Some((tag, value)) = bytes.field() else {
            lines.push(raw::bytes_text(rest));
            break;
        };
        lines.push(match Call::decode(tag, value) {
            Some(call) => text(&call),
            None => raw::tagged_text(words::CALL, tag, value),
        });
    }
    lines
}
