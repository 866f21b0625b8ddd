//! The comparison of a run of generated inputs, with a report of what is
//! different.

use std::io::{self, Write};
use std::path::PathBuf;
use std::time::Duration;

use super::difference::Difference;
use super::investigation::{investigate, Investigation, Times};
use super::process::Errors;
use super::progress::Progress;
use super::report;
use super::tally::Tally;
use super::{answers, Expected, Handover, Manner, Programs, Task};
use crate::access::access;
use crate::access_counts::AccessCounts;
use crate::counts::{Counts, Kind};
use crate::extent::Extent;
use crate::files;
use crate::generate::{inputs, Input, InputKind};
use crate::parts::parts;
use crate::preview_counts::PreviewCounts;
use crate::reach_counts::ReachCounts;

/// What is compared, and how.
#[derive(Clone, Debug, PartialEq, Eq)]
pub struct Settings {
    pub seed: u64,
    pub cards: u64,
    pub replays: u64,
    /// For one run of a program.
    pub timeout: Duration,
    /// For the search for a smaller input; none where it is 0.
    pub shrink: Duration,
    /// Goes on after a difference.
    pub keep_going: bool,
    /// Where inputs are stored.
    pub directory: PathBuf,
}

/// A comparison under way.
pub struct Session<'a, W> {
    programs: &'a Programs,
    settings: &'a Settings,
    output: &'a mut W,
    progress: Progress,
    counts: Counts,
    preview_counts: PreviewCounts,
    reach_counts: ReachCounts,
    access_counts: AccessCounts,
    extent: Extent,
    tally: Tally,
}

impl<'a, W: Write> Session<'a, W> {
    pub fn new(
        programs: &'a Programs,
        settings: &'a Settings,
        output: &'a mut W,
    ) -> Session<'a, W> {
        Session {
            programs,
            settings,
            output,
            progress: Progress::new(),
            counts: Counts::default(),
            preview_counts: PreviewCounts::default(),
            reach_counts: ReachCounts::default(),
            access_counts: AccessCounts::default(),
            extent: Extent::default(),
            tally: Tally::default(),
        }
    }

    /// Compares all inputs, or those up to the first difference. Tells whether
    /// there is a difference, or something did not occur.
    pub fn run(mut self) -> io::Result<bool> {
        let Settings {
            seed,
            cards,
            replays,
            ..
        } = *self.settings;
        let total = cards.saturating_add(replays);
        for (number, input) in (1u64..).zip(inputs(seed, cards, replays)) {
            let different = self.tally.total();
            self.progress
                .update(|| format!("{number} of {total} inputs, {different} different"));
            if self.ends_with(input)? {
                return Ok(true);
            }
        }
        self.progress.clear();
        self.summary()
    }

    /// Compares an input, a card also with `access`. Tells whether the
    /// comparison ends here.
    fn ends_with(&mut self, input: Input) -> io::Result<bool> {
        self.extent.add(&input, parts(&input).len());
        let expected = Expected::of_answers(answers(&input)?);
        for answer in &expected.answers {
            self.counts.add(answer);
        }
        if input.kind == InputKind::Replay {
            self.preview_counts.add(&input.bytes, &expected.answers);
            self.reach_counts.add(&input.bytes, &expected.answers);
        }
        let mut task = Task {
            input,
            arguments: None,
        };
        if self.ends_at(&task, &expected)? {
            return Ok(true);
        }
        task.arguments = self.programs.access_arguments(&task.input);
        let Some(arguments) = &task.arguments else {
            return Ok(false);
        };
        let access = access(task.input.bytes.as_slice(), arguments)?;
        self.access_counts.add(arguments, &access);
        self.ends_at(&task, &Expected::of_access(&access))
    }

    /// Counts and reports a difference. Tells whether the comparison ends
    /// here.
    fn ends_at(&mut self, task: &Task, expected: &Expected) -> io::Result<bool> {
        let Some(difference) = self.compare(task, expected)? else {
            return Ok(false);
        };
        let first = self.tally.add(&difference);
        if first {
            self.report(&difference)?;
        }
        Ok(!self.settings.keep_going)
    }

    fn compare(&self, task: &Task, expected: &Expected) -> io::Result<Option<Difference>> {
        let handover = if parts(&task.input).len() > 1 {
            Handover::Parts
        } else {
            Handover::Whole
        };
        let manner = Manner {
            handover,
            time: self.settings.timeout,
            errors: Errors::Dropped,
        };
        self.programs.compare(task, expected, manner)
    }

    /// The tables, and what did not occur.
    fn summary(&mut self) -> io::Result<bool> {
        let Settings { cards, replays, .. } = self.settings;
        let different = self.tally.total();
        let asked = self.programs.asked();
        let extent = self.extent.table(asked);
        write!(self.output, "{}{extent}", self.counts)?;
        if asked.replays {
            write!(self.output, "{}{}", self.preview_counts, self.reach_counts)?;
        }
        if self.programs.access.is_some() {
            write!(self.output, "{}", self.access_counts)?;
        }
        write!(self.output, "{}", self.tally)?;
        writeln!(
            self.output,
            "{cards} cards and {replays} replays, {different} different"
        )?;
        let kinds = self.counts.missing(asked);
        let mut missing: Vec<String> = kinds.iter().map(Kind::to_string).collect();
        missing.extend(self.extent.missing(asked));
        missing.extend(self.preview_counts.missing());
        missing.extend(self.reach_counts.missing());
        if self.programs.access.is_some() {
            missing.extend(self.access_counts.missing());
        }
        for what in &missing {
            writeln!(self.output, "missing: {what}")?;
        }
        Ok(different > 0 || !missing.is_empty())
    }

    /// Prints the difference, stores its input and looks for a smaller one.
    fn report(&mut self, difference: &Difference) -> io::Result<()> {
        let task = &difference.task;
        self.progress.clear();
        report::print(difference, self.output)?;
        self.store(&task.input.file_name(), &task.input.bytes)?;
        self.output.flush()?;
        let times = Times {
            run: self.settings.timeout,
            search: self.settings.shrink,
        };
        let found = investigate(self.programs, difference, times, &mut self.progress)?;
        self.progress.clear();
        match found {
            Investigation::TooSlow => {
                writeln!(
                    self.output,
                    "no smaller input is looked for: one run would take all the time for it"
                )?;
            }
            Investigation::NotAsked => {}
            Investigation::NotAgain => {
                writeln!(self.output, "a second run does not show the same")?;
            }
            Investigation::Again { errors, search } => {
                report::print_errors(&errors, self.output)?;
                if let Some(search) = search {
                    report::print_search(task, &search, self.output)?;
                    if let Some(smallest) = &search.smallest {
                        self.store(&task.small_name(), &smallest.task.input.bytes)?;
                    }
                }
            }
        }
        self.output.flush()
    }

    fn store(&self, name: &str, bytes: &[u8]) -> io::Result<()> {
        let directory = &self.settings.directory;
        files::create_directory(directory)?;
        files::store(&directory.join(name), bytes)
    }
}
