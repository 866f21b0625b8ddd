//! Words of a command, quoted as in a shell.

use std::fmt;

/// Why a text is no list of words.
#[derive(Clone, Copy, Debug, PartialEq, Eq)]
pub enum QuotingError {
    /// This quotation mark has no second one.
    NotClosed(char),
    /// Nothing stands after the last backslash.
    NothingEscaped,
}

impl fmt::Display for QuotingError {
    fn fmt(&self, f: &mut fmt::Formatter<'_>) -> fmt::Result {
        match self {
            QuotingError::NotClosed(mark) => write!(f, "a {mark} is not closed"),
            QuotingError::NothingEscaped => write!(f, "nothing stands after the last backslash"),
        }
    }
}

/// Splits at blanks. In '..' every character stands for itself; in ".." a
/// backslash escapes ", \, $ and `; elsewhere it escapes any character.
pub fn split(text: &str) -> Result<Vec<String>, QuotingError> {
    let mut words = Vec::new();
    let mut word: Option<String> = None;
    let mut characters = text.chars();
    while let Some(character) = characters.next() {
        if character.is_whitespace() {
            words.extend(word.take());
            continue;
        }
        let word = word.get_or_insert_default();
        match character {
            '\'' => single(&mut characters, word)?,
            '"' => double(&mut characters, word)?,
            '\\' => word.push(characters.next().ok_or(QuotingError::NothingEscaped)?),
            other => word.push(other),
        }
    }
    words.extend(word);
    Ok(words)
}

fn single(
    characters: &mut impl Iterator<Item = char>,
    word: &mut String,
) -> Result<(), QuotingError> {
    loop {
        match characters.next().ok_or(QuotingError::NotClosed('\''))? {
            '\'' => return Ok(()),
            other => word.push(other),
        }
    }
}

fn double(
    characters: &mut impl Iterator<Item = char>,
    word: &mut String,
) -> Result<(), QuotingError> {
    let mut next = || characters.next().ok_or(QuotingError::NotClosed('"'));
    loop {
        match next()? {
            '"' => return Ok(()),
            '\\' => {
                let escaped = next()?;
                if !matches!(escaped, '"' | '\\' | '$' | '`') {
                    word.push('\\');
                }
                word.push(escaped);
            }
            other => word.push(other),
        }
    }
}
