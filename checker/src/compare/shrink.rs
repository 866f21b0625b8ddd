//! Makes an input smaller and simpler, as long as it still shows the same.

use std::collections::{BTreeMap, BTreeSet, HashSet};
use std::hash::{DefaultHasher, Hash, Hasher};
use std::io;
use std::ops::Range;
use std::time::{Duration, Instant};

use super::document::{Document, Sense, Unit};
use crate::generate::InputKind;

/// Numbers that only tell one from another, and perhaps their order.
const NAMES: [Sense; 3] = [Sense::Person, Sense::Directive, Sense::Token];

/// How many candidates are tried at most, and for how long.
#[derive(Clone, Copy, Debug, PartialEq, Eq)]
pub struct Bounds {
    pub runs: usize,
    pub time: Duration,
}

/// Which bound ended the search.
#[derive(Clone, Copy, Debug, PartialEq, Eq)]
pub enum Bound {
    Runs,
    Time,
}

/// The smallest input found.
#[derive(Clone, Debug, PartialEq, Eq)]
pub struct Shrunk {
    pub bytes: Vec<u8>,
    pub runs: usize,
    /// Nothing where no candidate was left.
    pub bound: Option<Bound>,
}

/// Drops calls, fields, records, roles and bytes and lowers numbers, as long as
/// `shows` holds. It is told how much time is left.
pub fn shrink(
    kind: InputKind,
    bytes: &[u8],
    bounds: Bounds,
    shows: &mut dyn FnMut(&[u8], Duration) -> io::Result<bool>,
) -> io::Result<Shrunk> {
    let mut search = Search {
        kind,
        best: Document::parse(kind, bytes),
        tried: HashSet::from([hash(bytes)]),
        runs: 0,
        bounds,
        start: Instant::now(),
        shows,
    };
    let bound = match search.run() {
        Ok(()) => None,
        Err(Stop::Bound(bound)) => Some(bound),
        Err(Stop::Failed(error)) => return Err(error),
    };
    Ok(Shrunk {
        bytes: search.best.encode(),
        runs: search.runs,
        bound,
    })
}

fn hash(bytes: &[u8]) -> u64 {
    let mut hasher = DefaultHasher::new();
    bytes.hash(&mut hasher);
    hasher.finish()
}

/// Why the search ends before all candidates are tried.
enum Stop {
    Bound(Bound),
    Failed(io::Error),
}

struct Search<'a> {
    kind: InputKind,
    best: Document,
    tried: HashSet<u64>,
    runs: usize,
    bounds: Bounds,
    start: Instant,
    shows: &'a mut dyn FnMut(&[u8], Duration) -> io::Result<bool>,
}

impl Search<'_> {
    /// Rounds until one finds nothing.
    fn run(&mut self) -> Result<(), Stop> {
        loop {
            let before = self.best.clone();
            self.drop_parts()?;
            self.lower_together()?;
            self.lower_each()?;
            if self.best == before {
                return Ok(());
            }
        }
    }

    /// Tries a candidate that was not tried before, and keeps it if it shows
    /// the same.
    fn attempt(&mut self, candidate: &Document) -> Result<bool, Stop> {
        let left = self.bounds.time.saturating_sub(self.start.elapsed());
        if left.is_zero() {
            return Err(Stop::Bound(Bound::Time));
        }
        let bytes = candidate.encode();
        if !self.tried.insert(hash(&bytes)) {
            return Ok(false);
        }
        if self.runs >= self.bounds.runs {
            return Err(Stop::Bound(Bound::Runs));
        }
        self.runs = self.runs.saturating_add(1);
        let shows = (self.shows)(&bytes, left).map_err(Stop::Failed)?;
        if shows {
            self.best = Document::parse(self.kind, &bytes);
        }
        Ok(shows)
    }

    /// Calls, fields, records and roles, then bytes.
    fn drop_parts(&mut self) -> Result<(), Stop> {
        self.in_chunks(|document| Some(&mut document.calls), drop_chunk)?;
        self.in_chunks(|document| Some(&mut document.card), drop_chunk)?;
        for number in (0..self.best.records()).rev() {
            if let Some(candidate) = self.best.without_record(number) {
                self.attempt(&candidate)?;
            }
        }
        for number in (0..self.best.roles()).rev() {
            if let Some(candidate) = self.best.without_role(number) {
                self.attempt(&candidate)?;
            }
        }
        for place in self.best.raw_values() {
            self.in_chunks(|document| document.at(place), drop_chunk)?;
        }
        Ok(())
    }

    /// Changes ever shorter chunks of a list, from its end on.
    fn in_chunks<T>(
        &mut self,
        list: impl Fn(&mut Document) -> Option<&mut Vec<T>>,
        change: impl Fn(&mut Vec<T>, Range<usize>),
    ) -> Result<(), Stop> {
        let length = |document: &mut Document| list(document).map_or(0, |list| list.len());
        let mut size = length(&mut self.best);
        while size > 0 {
            let mut end = length(&mut self.best);
            while end > 0 {
                let start = end.saturating_sub(size);
                let mut candidate = self.best.clone();
                if let Some(list) = list(&mut candidate) {
                    change(list, start..end);
                }
                self.attempt(&candidate)?;
                end = start.min(length(&mut self.best));
            }
            size /= 2;
        }
        Ok(())
    }

    /// Numbers persons, directives and tokens anew, each apart from the
    /// others, and moves minutes to earlier ones.
    fn lower_together(&mut self) -> Result<(), Stop> {
        for sense in NAMES {
            self.number_anew(sense)?;
        }
        let minutes = self.values(Sense::Minute);
        let first = minutes.first().copied().unwrap_or(0);
        let candidate = self
            .best
            .mapped(Sense::Minute, |minute| minute.saturating_sub(first));
        self.attempt(&candidate)?;
        for minute in self.values(Sense::Minute) {
            self.lower(minute, |document, from, to| {
                document.mapped(Sense::Minute, replaced(from, to))
            })?;
        }
        Ok(())
    }

    /// Numbers from 1 on in the same order; if that does not show the same,
    /// each the lowest number that is free.
    fn number_anew(&mut self, sense: Sense) -> Result<(), Stop> {
        let values = self.values(sense);
        let ranks: BTreeMap<u32, u32> = values.iter().copied().zip(1..).collect();
        let rank = |value: u32| ranks.get(&value).copied().unwrap_or(value);
        let candidate = self.best.mapped(sense, rank);
        if self.attempt(&candidate)? {
            return Ok(());
        }
        for value in values {
            let taken = self.values(sense);
            if let Some(free) = (1..value).find(|number| !taken.contains(number)) {
                let candidate = self.best.mapped(sense, replaced(value, free));
                self.attempt(&candidate)?;
            }
        }
        Ok(())
    }

    /// The different numbers of a sense.
    fn values(&self, sense: Sense) -> BTreeSet<u32> {
        let units = self.best.units().filter(|unit| unit.sense == sense);
        units.map(|unit| unit.value).collect()
    }

    /// Finds the lowest number in place of this one, by halves.
    fn lower(
        &mut self,
        value: u32,
        candidate: impl Fn(&Document, u32, u32) -> Document,
    ) -> Result<(), Stop> {
        let mut shows = value;
        let mut next = 0;
        let mut hides = None;
        while next < shows {
            let candidate = candidate(&self.best, shows, next);
            if self.attempt(&candidate)? {
                shows = next;
            } else {
                hides = Some(next);
            }
            next = match hides {
                Some(hides) => hides.midpoint(shows).max(hides.saturating_add(1)),
                None => shows,
            };
        }
        Ok(())
    }

    /// Each number by itself, and chunks of bytes.
    fn lower_each(&mut self) -> Result<(), Stop> {
        let senses: Vec<Sense> = self.best.units().map(|unit| unit.sense).collect();
        for (place, sense) in senses.into_iter().enumerate() {
            match sense {
                Sense::Byte | Sense::Person | Sense::Directive | Sense::Token => {}
                Sense::Set(simplest) => self.simplify_set(place, simplest)?,
                _ => {
                    let value = self.value(place);
                    self.lower(value, |document, _, to| with(document, place, to))?;
                }
            }
        }
        for place in self.best.raw_values() {
            self.in_chunks(
                |document| document.at(place),
                |list, chunk| zero(list, chunk),
            )?;
        }
        Ok(())
    }

    fn value(&self, place: usize) -> u32 {
        self.best.units().nth(place).map_or(0, |unit| unit.value)
    }

    /// The simplest set, or fewer bits.
    fn simplify_set(&mut self, place: usize, simplest: u32) -> Result<(), Stop> {
        if self.value(place) == simplest {
            return Ok(());
        }
        let candidate = with(&self.best, place, simplest);
        if self.attempt(&candidate)? {
            return Ok(());
        }
        for bit in (0..u32::BITS).rev() {
            let set = self.value(place);
            let fewer = set & !1u32.wrapping_shl(bit);
            if fewer != set && fewer != 0 {
                let candidate = with(&self.best, place, fewer);
                self.attempt(&candidate)?;
            }
        }
        Ok(())
    }
}

/// One number in place of another.
fn replaced(from: u32, to: u32) -> impl Fn(u32) -> u32 {
    move |value| if value == from { to } else { value }
}

/// With another number at a place among all units.
fn with(document: &Document, place: usize, value: u32) -> Document {
    let mut document = document.clone();
    if let Some(unit) = document.units_mut().nth(place) {
        unit.value = value;
    }
    document
}

fn drop_chunk<T>(list: &mut Vec<T>, chunk: Range<usize>) {
    list.drain(chunk);
}

fn zero(list: &mut [Unit], chunk: Range<usize>) {
    for unit in list.get_mut(chunk).unwrap_or_default() {
        unit.value = 0;
    }
}
