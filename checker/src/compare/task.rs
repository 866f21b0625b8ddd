//! What is asked of a program, and what it has to do.

use std::io;

use super::process::End;
use crate::access::{access, Access, AccessArguments};
use crate::answer::Answer;
use crate::cardcheck::cardcheck;
use crate::generate::{Input, InputKind};
use crate::replay::Replay;

/// An input for `cardcheck` or `replay`, or with arguments one for `access`.
#[derive(Clone, Debug, PartialEq, Eq)]
pub struct Task {
    pub input: Input,
    pub arguments: Option<AccessArguments>,
}

/// The lines that a program has to print, what they answer, and its end.
#[derive(Clone, Debug, PartialEq, Eq)]
pub struct Expected {
    pub lines: String,
    pub answers: Vec<Answer>,
    pub end: End,
}

impl Expected {
    /// Of `cardcheck` and `replay`.
    pub fn of_answers(answers: Vec<Answer>) -> Expected {
        let lines = answers.iter().map(|answer| format!("{answer}\n"));
        Expected {
            lines: lines.collect(),
            answers,
            end: End::Normal,
        }
    }

    pub fn of_access(access: &Access) -> Expected {
        Expected {
            lines: access.to_string(),
            answers: access.answers(),
            end: End::of_status(i32::from(access.status())),
        }
    }
}

/// This implementation's answers to an input.
pub fn answers(input: &Input) -> io::Result<Vec<Answer>> {
    match input.kind {
        InputKind::Card => Ok(vec![cardcheck(input.bytes.as_slice())?]),
        InputKind::Replay => Ok(Replay::new(&input.bytes).collect()),
    }
}

impl Task {
    pub fn expected(&self) -> io::Result<Expected> {
        Ok(match &self.arguments {
            None => Expected::of_answers(answers(&self.input)?),
            Some(arguments) => {
                Expected::of_access(&access(self.input.bytes.as_slice(), arguments)?)
            }
        })
    }

    /// The same with another input in place of its own.
    pub fn with_bytes(&self, bytes: &[u8]) -> Task {
        let Input {
            kind, seed, index, ..
        } = self.input;
        Task {
            input: Input {
                kind,
                seed,
                index,
                bytes: bytes.to_vec(),
            },
            arguments: self.arguments.clone(),
        }
    }

    /// Whether a program that does this ends so, be it right here or not.
    pub fn has_end(&self, end: End) -> bool {
        match end {
            End::Normal => true,
            End::Status(status) => self.arguments.is_some() && [1, 2].contains(&status),
            End::Signal(_) | End::NoEnd(_) | End::TooLong(_) => false,
        }
    }

    /// The name of the file of a smaller input. One card can be different
    /// for two programs.
    pub fn small_name(&self) -> String {
        let name = self.input.file_name();
        let small = match self.arguments {
            None => "small",
            Some(_) => "access.small",
        };
        match name.rsplit_once('.') {
            Some((stem, extension)) => format!("{stem}.{small}.{extension}"),
            None => name,
        }
    }
}
