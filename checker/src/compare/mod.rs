//! The comparison of other programs with this implementation.

mod difference;
pub mod document;
mod investigation;
mod process;
mod program;
mod progress;
pub mod quoting;
mod report;
mod session;
pub mod shrink;
mod signal;
mod tally;
mod task;

use std::io;
use std::time::Duration;

use crate::access::AccessArguments;
use crate::counts::Asked;
use crate::generate::{access_arguments, Input, InputKind};
use crate::parts::parts;

pub use difference::{Class, Difference, Line};
pub use process::End;
pub use program::{Program, ProgramError};
pub use session::{Session, Settings};
pub use task::{answers, Expected, Task};

use process::{Errors, Limits};

/// How much more than the right answer a program may print.
const MORE_OUTPUT: usize = 65_536;

/// The programs to compare with. Without one its inputs are not asked for.
#[derive(Clone, Debug, PartialEq, Eq)]
pub struct Programs {
    pub cardcheck: Option<Program>,
    pub access: Option<Program>,
    pub replay: Option<Program>,
}

/// How an input is handed over.
#[derive(Clone, Copy, Debug, PartialEq, Eq)]
pub enum Handover {
    Whole,
    /// In the parts that its seed and index give.
    Parts,
}

/// How a program is run.
#[derive(Clone, Copy, Debug, PartialEq, Eq)]
struct Manner {
    handover: Handover,
    time: Duration,
    errors: Errors,
}

impl Programs {
    pub fn asked(&self) -> Asked {
        Asked {
            cards: self.cardcheck.is_some() || self.access.is_some(),
            replays: self.replay.is_some(),
        }
    }

    /// The arguments of `access` with this input.
    fn access_arguments(&self, input: &Input) -> Option<AccessArguments> {
        let asked = self.access.is_some() && input.kind == InputKind::Card;
        asked.then(|| access_arguments(input))
    }

    /// The program for this task, with its arguments.
    fn of(&self, task: &Task) -> Option<Program> {
        match (&task.arguments, task.input.kind) {
            (Some(arguments), _) => {
                let program = self.access.as_ref()?;
                Some(program.with_arguments(arguments.words()))
            }
            (None, InputKind::Card) => self.cardcheck.clone(),
            (None, InputKind::Replay) => self.replay.clone(),
        }
    }

    /// Runs the task's program, if it is given.
    fn compare(
        &self,
        task: &Task,
        expected: &Expected,
        manner: Manner,
    ) -> io::Result<Option<Difference>> {
        let Some(program) = self.of(task) else {
            return Ok(None);
        };
        let parts = match manner.handover {
            Handover::Whole => vec![task.input.bytes.as_slice()],
            Handover::Parts => parts(&task.input),
        };
        let limits = Limits {
            time: manner.time,
            output: expected.lines.len().saturating_add(MORE_OUTPUT),
        };
        let run = process::run(&program, &parts, limits, manner.errors)?;
        let printed = String::from_utf8_lossy(&run.output);
        let line = Line::first(&expected.lines, &printed, &expected.answers);
        let agrees = line.is_none() && run.end == expected.end;
        Ok((!agrees).then(|| Difference {
            task: task.clone(),
            handover: manner.handover,
            expected_end: expected.end,
            end: run.end,
            line,
            errors: run.errors,
        }))
    }
}
