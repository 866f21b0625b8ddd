//! Numbers and sets.

use std::fmt::{Display, UpperHex};

use super::line::Word;
use super::words::ALL;
use super::TextError;

/// A number of one, two or four bytes; a set has one bit a member.
pub trait Number: Copy + PartialEq + TryFrom<u64> + Display + UpperHex {
    const BITS: u32;
    const MOST: Self;
}

impl Number for u8 {
    const BITS: u32 = u8::BITS;
    const MOST: u8 = u8::MAX;
}

impl Number for u16 {
    const BITS: u32 = u16::BITS;
    const MOST: u16 = u16::MAX;
}

impl Number for u32 {
    const BITS: u32 = u32::BITS;
    const MOST: u32 = u32::MAX;
}

/// A number in decimal, or in hexadecimal after 0x.
fn numeral(text: &str) -> Option<u64> {
    let (digits, radix) = match text.strip_prefix("0x") {
        Some(digits) => (digits, 16),
        None => (text, 10),
    };
    // A sign is no digit.
    let all_digits = digits.chars().all(|digit| digit.is_digit(radix));
    u64::from_str_radix(digits, radix)
        .ok()
        .filter(|_| all_digits)
}

/// Whether the word is meant as a number.
pub fn is_numeral(word: &Word) -> bool {
    word.text.starts_with(|first: char| first.is_ascii_digit())
}

/// A number of this size.
pub fn fitting<T: Number>(text: &str) -> Option<T> {
    numeral(text).and_then(|number| T::try_from(number).ok())
}

/// What a number of this size may be.
pub fn range<T: Number>() -> String {
    format!("a number from 0 to {}", T::MOST)
}

/// The number that this word gives to the name.
pub fn number<T: Number>(name: &str, word: Word) -> Result<T, TextError> {
    let wrong = || word.error(format!("{name} takes {}, not {word}", range::<T>()));
    fitting(word.text).ok_or_else(wrong)
}

/// What a set of this size may be.
pub fn set_range<T: Number>() -> String {
    format!("all, a list such as {{0,3}} or {}", range::<T>())
}

/// The set that this word gives to the name; `all` is the full one.
pub fn set<T: Number>(name: &str, word: Word, full: T) -> Result<T, TextError> {
    let wrong = || word.error(format!("{name} takes {}, not {word}", set_range::<T>()));
    match word.text.strip_prefix('{') {
        Some(list) => {
            let Some(members) = list.strip_suffix('}') else {
                return Err(word.error("the list has no }"));
            };
            let set = list_set(name, word, members, T::BITS)?;
            T::try_from(set).map_err(|_| wrong())
        }
        None if word.text == ALL => Ok(full),
        None => fitting(word.text).ok_or_else(wrong),
    }
}

/// The set of the members between the braces of this word.
fn list_set(name: &str, word: Word, members: &str, bits: u32) -> Result<u64, TextError> {
    let mut set = 0;
    if members.trim().is_empty() {
        return Ok(set);
    }
    let mut column = word.column.saturating_add(1);
    for part in members.split(',') {
        let blanks = part.chars().take_while(|blank| blank.is_whitespace());
        let member = Word {
            text: part.trim(),
            column: column.saturating_add(blanks.count()),
            ..word
        };
        let bit = member_bit(name, member, bits)?;
        if set & bit != 0 {
            return Err(member.error(format!("{member} stands in the list twice")));
        }
        set |= bit;
        let length = part.chars().count();
        column = column.saturating_add(length).saturating_add(1);
    }
    Ok(set)
}

fn member_bit(name: &str, member: Word, bits: u32) -> Result<u64, TextError> {
    let number: Option<u32> = fitting(member.text);
    let bit = number
        .filter(|number| *number < bits)
        .and_then(|number| 1u64.checked_shl(number));
    bit.ok_or_else(|| {
        let most = bits.saturating_sub(1);
        member.error(format!("{name} has members from 0 to {most}, not {member}"))
    })
}

/// The canonical text of a set.
pub fn set_text<T: Number>(set: T, full: T) -> String {
    if set == full {
        return ALL.to_string();
    }
    match T::BITS {
        u8::BITS => format!("0x{set:02X}"),
        _ => format!("0x{set:04X}"),
    }
}
