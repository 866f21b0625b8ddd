//! The words of a line.

use std::fmt;

use super::TextError;

/// A word and where it begins.
#[derive(Clone, Copy, Debug)]
pub struct Word<'a> {
    pub text: &'a str,
    pub line: usize,
    pub column: usize,
}

impl Word<'_> {
    /// An error at this word.
    pub fn error(&self, message: impl Into<String>) -> TextError {
        TextError {
            line: self.line,
            column: self.column,
            message: message.into(),
        }
    }

    /// The error of a word where one of these should stand.
    pub fn unexpected(&self, expected: &[&str]) -> TextError {
        let expected = match expected {
            [] => "the end of the line".to_string(),
            words => choice(words),
        };
        self.error(format!("expected {expected}, not {self}"))
    }
}

/// One of these words, as a message says it.
pub fn choice(words: &[&str]) -> String {
    match words {
        [before @ .., other, last] => {
            let before: String = before.iter().map(|word| format!("{word}, ")).collect();
            format!("{before}{other} or {last}")
        }
        _ => words.concat(),
    }
}

/// As a message shows it.
impl fmt::Display for Word<'_> {
    fn fmt(&self, f: &mut fmt::Formatter<'_>) -> fmt::Result {
        match self.text {
            "" => write!(f, "nothing"),
            text => write!(f, "{}", text.escape_debug()),
        }
    }
}

/// The words of a line, up to a comment. A list in braces is one word.
pub fn words(line: usize, text: &str) -> Vec<Word<'_>> {
    let mut rest = text.split('#').next().unwrap_or_default();
    let mut column: usize = 1;
    let mut words = Vec::new();
    while !rest.is_empty() {
        let (part, after) = rest
            .split_at_checked(part_length(rest))
            .unwrap_or((rest, ""));
        if !part.starts_with(char::is_whitespace) {
            words.push(Word {
                text: part,
                line,
                column,
            });
        }
        column = column.saturating_add(part.chars().count());
        rest = after;
    }
    words
}

/// How many bytes the blanks, the list or the word at the start has.
fn part_length(text: &str) -> usize {
    let end = if text.starts_with('{') {
        text.find('}').map(|at| at.saturating_add(1))
    } else if text.starts_with(char::is_whitespace) {
        text.find(|character: char| !character.is_whitespace())
    } else {
        text.find(char::is_whitespace)
    };
    end.unwrap_or(text.len())
}
