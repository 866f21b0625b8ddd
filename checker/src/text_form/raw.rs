//! Bytes in hexadecimal, and fields of any tag and value.

use std::fmt::Write;

use super::line::Word;
use super::value::{fitting, number, range};
use super::words::BYTES;
use super::TextError;
use crate::bytes::{field, from_hex};

/// So many equal bytes or more are written as a run.
const SHORTEST_RUN: usize = 8;
/// A run has at most so many.
const LONGEST_RUN: usize = 65_535;
/// So has a value.
const LONGEST_VALUE: usize = 65_535;

/// The bytes of these words.
pub fn bytes(words: &[Word]) -> Result<Vec<u8>, TextError> {
    let mut bytes = Vec::new();
    for word in words {
        let found = match word.text.split_once('*') {
            Some((pair, count)) => run(pair, count),
            None => from_hex(word.text),
        };
        let wrong = || word.error(format!("expected bytes as 03 0A or 00*12, not {word}"));
        bytes.extend(found.ok_or_else(wrong)?);
    }
    Ok(bytes)
}

fn run(pair: &str, count: &str) -> Option<Vec<u8>> {
    let [byte] = *from_hex(pair)? else {
        return None;
    };
    let count: u16 = fitting(count)?;
    Some(vec![byte; usize::from(count)])
}

/// An error at this word where the length of a value does not fit two bytes.
pub fn short_enough(word: Word, length: usize) -> Result<(), TextError> {
    if length > LONGEST_VALUE {
        let message = format!("a value has at most {LONGEST_VALUE} bytes, not {length}");
        return Err(word.error(message));
    }
    Ok(())
}

/// The bytes of a value after its word `bytes`.
pub fn value(mark: Word, words: &[Word]) -> Result<Vec<u8>, TextError> {
    let value = bytes(words)?;
    short_enough(mark, value.len())?;
    Ok(value)
}

/// The field of an item `field N bytes ..` or `call N bytes ..`.
pub fn tagged(item: Word, words: &[Word]) -> Result<Vec<u8>, TextError> {
    let Some((tag, words)) = words.split_first() else {
        return Err(item.error(format!("{item} takes {}", range::<u8>())));
    };
    let tag_byte = number(item.text, *tag)?;
    match words.split_first() {
        Some((mark, words)) if mark.text == BYTES => Ok(field(tag_byte, &value(*mark, words)?)),
        Some((other, _)) => Err(other.unexpected(&[BYTES])),
        None => Err(tag.error(format!("expected {BYTES} after the tag"))),
    }
}

/// The words after `bytes`, each with a blank before it.
fn text(bytes: &[u8]) -> String {
    let mut text = String::new();
    for equal in bytes.chunk_by(|one, next| one == next) {
        for part in equal.chunks(LONGEST_RUN) {
            push(&mut text, part);
        }
    }
    text
}

/// Puts equal bytes last.
fn push(text: &mut String, equal: &[u8]) {
    // A string takes all that is written into it.
    match equal {
        [byte, ..] if equal.len() >= SHORTEST_RUN => {
            let _ = write!(text, " {byte:02X}*{}", equal.len());
        }
        _ => {
            for byte in equal {
                let _ = write!(text, " {byte:02X}");
            }
        }
    }
}

/// The line of a field that has no item of its own.
pub fn tagged_text(item: &str, tag: u8, value: &[u8]) -> String {
    format!("{item} 0x{tag:02X} {BYTES}{}", text(value))
}

/// The line of bytes that are no field.
pub fn bytes_text(bytes: &[u8]) -> String {
    format!("{BYTES}{}", text(bytes))
}
