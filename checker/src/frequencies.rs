//! How often each of several things occurred.

use std::collections::BTreeMap;

#[derive(Clone, Debug, PartialEq, Eq)]
pub struct Frequencies<T> {
    counts: BTreeMap<T, u64>,
}

impl<T: Ord + Copy> Frequencies<T> {
    /// These, none of which occurred so far.
    pub fn zeros(of: impl IntoIterator<Item = T>) -> Frequencies<T> {
        Frequencies {
            counts: of.into_iter().map(|one| (one, 0)).collect(),
        }
    }

    pub fn count(&mut self, what: T) {
        let count = self.counts.entry(what).or_insert(0);
        *count = count.saturating_add(1);
    }

    pub fn of(&self, what: T) -> u64 {
        self.counts.get(&what).copied().unwrap_or(0)
    }

    /// In their order, also those that did not occur.
    pub fn iter(&self) -> impl Iterator<Item = (T, u64)> + '_ {
        self.counts.iter().map(|(what, count)| (*what, *count))
    }
}
