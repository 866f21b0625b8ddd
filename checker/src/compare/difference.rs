//! What a program does otherwise than this implementation.

use std::fmt;

use super::process::End;
use super::{Handover, Task};
use crate::answer::Answer;
use crate::bytes::hex;
use crate::counts::Kind;
use crate::generate::Input;
use crate::parts::parts;

/// How many bytes of an input, and characters of a line, are shown.
const SHOWN: usize = 4_096;

/// An input that a program answers otherwise, or on which it does not end as
/// it should.
#[derive(Clone, Debug, PartialEq, Eq)]
pub struct Difference {
    pub task: Task,
    pub handover: Handover,
    /// How the program should end, and how it did.
    pub expected_end: End,
    pub end: End,
    /// Nothing where all lines are the same.
    pub line: Option<Line>,
    /// The start of the program's standard error, where it was kept.
    pub errors: Vec<u8>,
}

/// The first line that is not the same.
#[derive(Clone, Debug, PartialEq, Eq)]
pub struct Line {
    /// Counted from 1.
    pub number: usize,
    /// With the end of the line.
    pub checker: Option<String>,
    /// With the end of the line, if it has one.
    pub program: Option<String>,
    /// What the checker answers.
    pub outcome: Option<Kind>,
}

impl Line {
    /// Compares the texts line by line, with the ends of the lines.
    pub fn first(checker: &str, program: &str, answers: &[Answer]) -> Option<Line> {
        if checker == program {
            return None;
        }
        let mut checker = checker.split_inclusive('\n');
        let mut program = program.split_inclusive('\n');
        let mut answers = answers.iter();
        let mut number = 0usize;
        loop {
            number = number.saturating_add(1);
            let (one, other, answer) = (checker.next(), program.next(), answers.next());
            if one != other {
                return Some(Line {
                    number,
                    checker: one.map(str::to_string),
                    program: other.map(str::to_string),
                    outcome: answer.map(Kind::of),
                });
            }
            one?;
        }
    }

    /// The first word of the program's line; in a table the one after the
    /// record.
    fn first_word(&self) -> Option<&str> {
        let line = self.program.as_deref()?;
        let line = match line.split_once(": ") {
            Some((start, rest)) if start.starts_with("record ") => rest,
            _ => line,
        };
        line.split_whitespace().next()
    }
}

/// What differences are counted by.
#[derive(Clone, Copy, Debug, PartialEq, Eq, PartialOrd, Ord)]
pub enum Class {
    /// A wrong line, by what the checker answers there; nothing where it has
    /// no more lines.
    Answer(Option<Kind>),
    /// A crash, no end, or the wrong status.
    Ended(End),
}

impl fmt::Display for Class {
    fn fmt(&self, f: &mut fmt::Formatter<'_>) -> fmt::Result {
        match self {
            Class::Answer(Some(kind)) => write!(f, "{kind}"),
            Class::Answer(None) => write!(f, "a line too many"),
            Class::Ended(end) => write!(f, "{end}"),
        }
    }
}

impl Difference {
    pub fn class(&self) -> Class {
        let went_on = matches!(self.end, End::TooLong(_));
        match &self.line {
            Some(line) if went_on || self.task.has_end(self.end) => Class::Answer(line.outcome),
            _ => Class::Ended(self.end),
        }
    }

    /// Whether both are of one class, and their wrong lines begin the same.
    pub fn is_like(&self, other: &Difference) -> bool {
        let word = |difference: &Difference| match (difference.class(), &difference.line) {
            (Class::Answer(_), Some(line)) => line.first_word().map(str::to_string),
            _ => None,
        };
        self.class() == other.class() && word(self) == word(other)
    }

    fn title(&self) -> &'static str {
        match self.class() {
            Class::Answer(_) => "different",
            Class::Ended(end) if self.task.has_end(end) => "different",
            Class::Ended(End::NoEnd(_)) => "no end",
            Class::Ended(_) => "crashed",
        }
    }

    /// The title, the file's name, seed and index.
    pub fn heading(&self) -> String {
        let Input { seed, index, .. } = self.task.input;
        let name = self.task.input.file_name();
        format!("{}: {name}\nseed {seed}, index {index}", self.title())
    }
}

/// The arguments, the input, how the program ended, and the lines.
impl fmt::Display for Difference {
    fn fmt(&self, f: &mut fmt::Formatter<'_>) -> fmt::Result {
        let input = &self.task.input;
        if let Some(arguments) = &self.task.arguments {
            let words: Vec<String> = arguments.words().iter().map(|one| quoted(one)).collect();
            writeln!(f, "arguments {}", words.join(" "))?;
        }
        match input.bytes.split_at_checked(SHOWN) {
            Some((start, rest)) if !rest.is_empty() => {
                let more = rest.len();
                writeln!(f, "input {} and {more} more bytes", hex(start))?;
            }
            _ => writeln!(f, "input {}", hex(&input.bytes))?,
        }
        let parts = parts(input);
        if self.handover == Handover::Parts && parts.len() > 1 {
            let lengths: Vec<String> = parts.iter().map(|part| part.len().to_string()).collect();
            writeln!(f, "in parts of {} bytes", lengths.join(", "))?;
        }
        if self.end != self.expected_end {
            if self.task.arguments.is_some() {
                writeln!(f, "checker: {}", self.expected_end)?;
            }
            writeln!(f, "program: {}", self.end)?;
        }
        let Some(line) = &self.line else {
            return writeln!(f, "all lines agree");
        };
        writeln!(f, "line {}", line.number)?;
        writeln!(f, "checker {}", line_shown(line.checker.as_deref()))?;
        writeln!(f, "program {}", line_shown(line.program.as_deref()))
    }
}

/// An argument as a shell takes it.
fn quoted(argument: &str) -> String {
    if argument.is_empty() || argument.contains(' ') {
        format!("'{argument}'")
    } else {
        argument.to_string()
    }
}

/// A line as it is shown, without its end.
fn line_shown(line: Option<&str>) -> String {
    match line.map(|line| line.strip_suffix('\n').ok_or(line)) {
        None => "(no line)".to_string(),
        Some(Ok(line)) => shown(line),
        Some(Err(line)) => format!("{} (without an end of line)", shown(line)),
    }
}

/// The start of a text that a program printed, with what would not be seen
/// escaped.
pub fn shown(text: &str) -> String {
    let mut characters = text.chars();
    let start: String = characters.by_ref().take(SHOWN).map(escaped).collect();
    match characters.count() {
        0 => start,
        more => format!("{start} and {more} more characters"),
    }
}

fn escaped(character: char) -> String {
    if character == ' ' || character.is_ascii_graphic() {
        character.to_string()
    } else {
        character.escape_default().to_string()
    }
}
