//! How many differences there are of each class, and the first of each.

use std::collections::BTreeMap;
use std::fmt;

use super::difference::{Class, Difference};

struct Entry {
    count: u64,
    /// The file's name of the first input.
    first: String,
}

#[derive(Default)]
pub struct Tally {
    /// Those of `access` apart from those of the other programs.
    by_class: BTreeMap<(bool, Class), Entry>,
}

impl Tally {
    /// Counts a difference. Tells whether it is the first of its class.
    pub fn add(&mut self, difference: &Difference) -> bool {
        let class = (difference.task.arguments.is_some(), difference.class());
        let entry = self.by_class.entry(class).or_insert(Entry {
            count: 0,
            first: difference.task.input.file_name(),
        });
        entry.count = entry.count.saturating_add(1);
        entry.count == 1
    }

    pub fn total(&self) -> u64 {
        let counts = self.by_class.values().map(|entry| entry.count);
        counts.fold(0, u64::saturating_add)
    }
}

/// The table, with nothing where there is no difference.
impl fmt::Display for Tally {
    fn fmt(&self, f: &mut fmt::Formatter<'_>) -> fmt::Result {
        if self.by_class.is_empty() {
            return Ok(());
        }
        writeln!(
            f,
            "{:>10} {:>20}  the checker's answer or the program's end",
            "different", "first"
        )?;
        for ((of_access, class), Entry { count, first }) in &self.by_class {
            let program = if *of_access { "access: " } else { "" };
            writeln!(f, "{count:>10} {first:>20}  {program}{class}")?;
        }
        Ok(())
    }
}
