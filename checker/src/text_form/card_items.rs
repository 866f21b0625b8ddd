//! The items of a card.

use super::draft::Draft;
use super::line::Word;
use super::named::Named;
use super::raw;
use super::value::{is_numeral, number, set_text};
use super::words;
use super::TextError;
use crate::bytes::{field, Bytes};
use crate::card::{head_field, DIRECTIVE, HEAD, RECORD, ROLES};
use crate::register::{Record, MAX_ROLES};

/// What the items so far say about the next ones.
#[derive(Default)]
pub struct Context {
    /// Whether the last head is one of edition 1.
    edition_1: bool,
    /// How many records there are.
    records: u32,
}

impl Context {
    /// The bytes of an item of a card.
    pub fn read(&mut self, item: Word, words: &[Word]) -> Result<Vec<u8>, TextError> {
        match item.text {
            words::EDITION => self.read_head(item, words),
            words::ROLES => read_roles(item, words),
            words::RECORD => self.read_record(item, words),
            words::DIRECTIVE => {
                let draft = Draft::read(item, words, !self.edition_1)?;
                Ok(field(DIRECTIVE, &draft.encode()))
            }
            words::FIELD => raw::tagged(item, words),
            words::BYTES => raw::bytes(words),
            _ => Err(item.unexpected(words::CARD_ITEMS)),
        }
    }

    fn read_head(&mut self, item: Word, words: &[Word]) -> Result<Vec<u8>, TextError> {
        let named = Named::new(item, words, &words::EDITION_FORM)?;
        let edition = named.number(words::EDITION)?;
        self.edition_1 = edition == 1;
        let patient = named.number(words::PATIENT)?;
        Ok(head_field(edition, patient, named.number(words::CLOCK)?))
    }

    fn read_record(&mut self, item: Word, words: &[Word]) -> Result<Vec<u8>, TextError> {
        let words = match words.split_first() {
            Some((word, after)) if is_numeral(word) => {
                self.check_number(*word)?;
                after
            }
            _ => words,
        };
        let named = Named::new(item, words, &words::RECORD_FORM)?;
        let record = Record {
            parent: named.number(words::PARENT)?,
            author: named.number(words::AUTHOR)?,
            origins: named.set(words::ORIGINS, u16::MAX)?,
            sensitivities: named.set(words::SENSITIVITIES, u16::MAX)?,
            record_type: named.number(words::TYPE)?,
            labels: named.set(words::LABELS, u16::MAX)?,
        };
        self.records = self.records.saturating_add(1);
        Ok(field(RECORD, &record.encode()))
    }

    /// A record that says its number stands in that place.
    fn check_number(&self, word: Word) -> Result<(), TextError> {
        let said: u32 = number(words::RECORD, word)?;
        if said != self.records {
            let number = self.records;
            return Err(word.error(format!("this is record {number}, not {said}")));
        }
        Ok(())
    }

    /// The line of a field.
    fn text(&mut self, tag: u8, value: &[u8]) -> String {
        let text = match tag {
            HEAD => self.head_text(value),
            ROLES => roles_text(value),
            RECORD => self.record_text(value),
            DIRECTIVE => {
                let draft = Draft::decode(value);
                draft.map(|draft| draft.text(words::DIRECTIVE, !self.edition_1))
            }
            _ => None,
        };
        text.unwrap_or_else(|| raw::tagged_text(words::FIELD, tag, value))
    }

    /// Nothing where the length is another one.
    fn head_text(&mut self, value: &[u8]) -> Option<String> {
        let [edition, p1, p0, m3, m2, m1, m0] = *value else {
            return None;
        };
        self.edition_1 = edition == 1;
        Some(format!(
            "{} {edition} {} {} {} {}",
            words::EDITION,
            words::PATIENT,
            u16::from_be_bytes([p1, p0]),
            words::CLOCK,
            u32::from_be_bytes([m3, m2, m1, m0]),
        ))
    }

    /// Nothing where the length is another one.
    fn record_text(&mut self, value: &[u8]) -> Option<String> {
        let record = Record::decode(value.try_into().ok()?);
        let number = self.records;
        self.records = number.saturating_add(1);
        Some(format!(
            "{} {number} {} {} {} {} {} {} {} {} {} {} {} {}",
            words::RECORD,
            words::PARENT,
            record.parent,
            words::AUTHOR,
            record.author,
            words::ORIGINS,
            set_text(record.origins, u16::MAX),
            words::SENSITIVITIES,
            set_text(record.sensitivities, u16::MAX),
            words::TYPE,
            record.record_type,
            words::LABELS,
            set_text(record.labels, u16::MAX),
        ))
    }
}

fn read_roles(item: Word, words: &[Word]) -> Result<Vec<u8>, TextError> {
    let parents: Result<Vec<u8>, TextError> = words
        .iter()
        .map(|word| number(words::ROLES, *word))
        .collect();
    let parents = parents?;
    raw::short_enough(item, parents.len())?;
    Ok(field(ROLES, &parents))
}

/// Nothing where the length is another one than 1..16.
fn roles_text(value: &[u8]) -> Option<String> {
    if value.is_empty() || value.len() > MAX_ROLES {
        return None;
    }
    let parents = value.iter().map(|parent| format!(" {parent}"));
    let parents: String = parents.collect();
    Some(format!("{}{parents}", words::ROLES))
}

/// The lines of a card of any bytes.
pub fn lines(card: &[u8]) -> Vec<String> {
    let mut context = Context::default();
    let mut lines = Vec::new();
    let mut bytes = Bytes::new(card);
    while !bytes.is_empty() {
        let rest = bytes.rest();
        let Some((tag, value)) = bytes.field() else {
            lines.push(raw::bytes_text(rest));
            break;
        };
        lines.push(context.text(tag, value));
    }
    lines
}
