//! Directives and drafts.

use super::line::Word;
use super::named::Named;
use super::value::{set_text, Number};
use super::words;
use super::TextError;
use crate::directive::{Fields, ALL_PURPOSES};

/// A directive with its purposes, or one of edition 1 without them.
pub struct Draft {
    fields: Fields,
    has_purposes: bool,
}

impl Draft {
    /// Nothing where the length is neither 25 nor 23.
    pub fn decode(bytes: &[u8]) -> Option<Draft> {
        let full = bytes.try_into().map(Fields::decode);
        let short = bytes.try_into().map(Fields::decode_edition_1);
        let has_purposes = full.is_ok();
        let fields = full.or(short).ok()?;
        Some(Draft {
            fields,
            has_purposes,
        })
    }

    pub fn encode(&self) -> Vec<u8> {
        if self.has_purposes {
            self.fields.encode().to_vec()
        } else {
            self.fields.encode_edition_1()
        }
    }

    /// The draft of an item. `with_purposes` says whether there are purposes
    /// where the item does not name them.
    pub fn read(item: Word, words: &[Word], with_purposes: bool) -> Result<Draft, TextError> {
        let named = Named::new(item, words, &words::DRAFT_FORM)?;
        let number = named.number(item.text)?;
        let effect = effect(&named)?;
        let (kind, subject) = subject(&named)?;
        let absent = named.is(words::PURPOSES, words::ABSENT);
        let fields = Fields {
            number,
            effect,
            kind,
            subject,
            subject_origins: named.set_or_full(words::ORIGINS, u16::MAX)?,
            record: named.number(words::RECORD)?,
            reach: named.number(words::REACH)?,
            po: named.set_or_full(words::PO, u16::MAX)?,
            ps: named.set_or_full(words::PS, u16::MAX)?,
            pt: named.set_or_full(words::PT, u8::MAX)?,
            purposes: if absent {
                ALL_PURPOSES
            } else {
                named.set_or_full(words::PURPOSES, ALL_PURPOSES)?
            },
            from: named.number(words::FROM)?,
            until: named.number(words::UNTIL)?,
        };
        let has_purposes = if named.has(words::PURPOSES) {
            !absent
        } else {
            with_purposes
        };
        Ok(Draft {
            fields,
            has_purposes,
        })
    }

    /// The item's canonical line.
    pub fn text(&self, item: &str, with_purposes: bool) -> String {
        let fields = &self.fields;
        [
            format!("{item} {}", fields.number),
            effect_text(fields.effect),
            subject_text(fields.kind, fields.subject),
            named_set(words::ORIGINS, fields.subject_origins),
            format!(" {} {}", words::RECORD, fields.record),
            format!(" {} {}", words::REACH, fields.reach),
            named_set(words::PO, fields.po),
            named_set(words::PS, fields.ps),
            named_set(words::PT, fields.pt),
            self.purposes_text(with_purposes),
            format!(" {} {}", words::FROM, fields.from),
            format!(" {} {}", words::UNTIL, fields.until),
        ]
        .concat()
    }

    /// Nothing where the item would mean the same without it.
    fn purposes_text(&self, with_purposes: bool) -> String {
        let purposes = self.fields.purposes;
        let text = match (self.has_purposes, with_purposes) {
            (false, false) => return String::new(),
            (true, true) if purposes == ALL_PURPOSES => return String::new(),
            (false, true) => words::ABSENT.to_string(),
            (true, _) => set_text(purposes, ALL_PURPOSES),
        };
        format!(" {} {text}", words::PURPOSES)
    }
}

fn effect(named: &Named) -> Result<u8, TextError> {
    match named.one_of(&[words::DENY, words::PERMIT, words::EFFECT])? {
        words::DENY => Ok(0),
        words::PERMIT => Ok(1),
        effect => named.number(effect),
    }
}

fn effect_text(effect: u8) -> String {
    match effect {
        0 => format!(" {}", words::DENY),
        1 => format!(" {}", words::PERMIT),
        other => format!(" {} {other}", words::EFFECT),
    }
}

/// The kind and the person or role.
fn subject(named: &Named) -> Result<(u8, u16), TextError> {
    let name = named.one_of(&[words::PERSON, words::ROLE, words::KIND])?;
    if name != words::KIND && named.has(words::SUBJECT) {
        let message = format!("{} stands only beside {}", words::SUBJECT, words::KIND);
        return Err(named.error(words::SUBJECT, &message));
    }
    match name {
        words::PERSON => Ok((0, named.number(name)?)),
        words::ROLE => Ok((1, named.number(name)?)),
        kind => Ok((named.number(kind)?, named.number(words::SUBJECT)?)),
    }
}

fn subject_text(kind: u8, subject: u16) -> String {
    match kind {
        0 => format!(" {} {subject}", words::PERSON),
        1 => format!(" {} {subject}", words::ROLE),
        other => format!(" {} {other} {} {subject}", words::KIND, words::SUBJECT),
    }
}

/// Nothing for the full set.
fn named_set<T: Number>(name: &str, set: T) -> String {
    if set == T::MOST {
        return String::new();
    }
    format!(" {name} {}", set_text(set, T::MOST))
}
