//! What more runs tell of a difference: whether it comes again, and the
//! smallest input found that shows the same.

use std::io;
use std::time::{Duration, Instant};

use super::difference::{Class, Difference};
use super::process::{End, Errors};
use super::progress::Progress;
use super::shrink::{shrink, Bound, Bounds};
use super::{Handover, Manner, Programs};

/// How many smaller inputs are tried at most.
const MOST_RUNS: usize = 2_000;
/// A smaller input may take this many times as long, and this much more.
const SLOWER: u32 = 10;
const MORE_TIME: Duration = Duration::from_secs(1);

/// How long a run, and the search for a smaller input, may take.
#[derive(Clone, Copy, Debug, PartialEq, Eq)]
pub struct Times {
    pub run: Duration,
    /// No search where it is 0.
    pub search: Duration,
}

/// What more runs tell.
#[derive(Clone, Debug, PartialEq, Eq)]
pub enum Investigation {
    /// Neither a second run that does not end nor a search is asked for.
    NotAsked,
    /// One run that does not end takes the time of the whole search.
    TooSlow,
    /// A second run shows something else, or nothing.
    NotAgain,
    Again {
        /// The start of the program's standard error.
        errors: Vec<u8>,
        /// Nothing where no search was asked for.
        search: Option<Box<Search>>,
    },
}

/// The search for a smaller input.
#[derive(Clone, Debug, PartialEq, Eq)]
pub struct Search {
    /// Nothing where no smaller input shows the same.
    pub smallest: Option<Difference>,
    pub runs: usize,
    pub bound: Option<Bound>,
}

/// Runs the input again, and smaller ones.
pub fn investigate(
    programs: &Programs,
    difference: &Difference,
    times: Times,
    progress: &mut Progress,
) -> io::Result<Investigation> {
    let no_end = matches!(difference.class(), Class::Ended(End::NoEnd(_)));
    if no_end && times.search.is_zero() {
        return Ok(Investigation::NotAsked);
    }
    if no_end && times.run >= times.search {
        return Ok(Investigation::TooSlow);
    }
    let start = Instant::now();
    let Some(again) = repeat(programs, difference, times.run)? else {
        return Ok(Investigation::NotAgain);
    };
    let slower = start.elapsed().saturating_mul(SLOWER);
    let manner = Manner {
        handover: again.handover,
        time: if no_end {
            times.run
        } else {
            slower.saturating_add(MORE_TIME).min(times.run)
        },
        errors: Errors::Dropped,
    };
    let search = if times.search.is_zero() {
        None
    } else {
        let found = search(programs, &again, manner, times.search, progress)?;
        Some(Box::new(found))
    };
    Ok(Investigation::Again {
        errors: again.errors,
        search,
    })
}

/// The same again: from the input as a whole if that shows it, else in parts.
fn repeat(
    programs: &Programs,
    difference: &Difference,
    time: Duration,
) -> io::Result<Option<Difference>> {
    let expected = difference.task.expected()?;
    for handover in [Handover::Whole, Handover::Parts] {
        let manner = Manner {
            handover,
            time,
            errors: Errors::Kept,
        };
        let again = programs.compare(&difference.task, &expected, manner)?;
        let again = again.filter(|again| again.is_like(difference));
        if again.is_some() || handover == difference.handover {
            return Ok(again);
        }
    }
    Ok(None)
}

fn search(
    programs: &Programs,
    difference: &Difference,
    manner: Manner,
    time: Duration,
    progress: &mut Progress,
) -> io::Result<Search> {
    let original = &difference.task.input;
    let bounds = Bounds {
        runs: MOST_RUNS,
        time,
    };
    let mut smallest = None;
    let mut runs = 0usize;
    let mut shows = |bytes: &[u8], left: Duration| {
        runs = runs.saturating_add(1);
        progress.update(|| format!("smaller inputs: {runs} runs"));
        let task = difference.task.with_bytes(bytes);
        let time = manner.time.min(left);
        let found = programs.compare(&task, &task.expected()?, Manner { time, ..manner })?;
        let like = found.filter(|found| found.is_like(difference));
        let shows = like.is_some();
        if shows {
            smallest = like;
        }
        Ok(shows)
    };
    let shrunk = shrink(original.kind, &original.bytes, bounds, &mut shows)?;
    Ok(Search {
        smallest,
        runs: shrunk.runs,
        bound: shrunk.bound,
    })
}
