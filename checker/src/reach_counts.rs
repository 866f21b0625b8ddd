//! How often commits of each reach are accepted, and refused by the questions
//! that look at what a directive selects.

use std::fmt;

use crate::answer::Answer;
use crate::directive::Fields;
use crate::frequencies::Frequencies;
use crate::register::Reach;
use crate::replay::{decode, Call};

/// What becomes of a commit.
#[derive(Clone, Copy, Debug, PartialEq, Eq, PartialOrd, Ord)]
pub enum Fate {
    Accepted,
    Refused(u8),
}

impl Fate {
    pub const ALL: [Fate; 4] = [
        Fate::Accepted,
        Fate::Refused(12),
        Fate::Refused(13),
        Fate::Refused(14),
    ];
}

/// Commits of a reach, by its byte, with this fate.
#[derive(Clone, Copy, Debug, PartialEq, Eq, PartialOrd, Ord)]
pub struct Commits {
    pub reach: u8,
    pub fate: Fate,
}

impl fmt::Display for Commits {
    fn fmt(&self, f: &mut fmt::Formatter<'_>) -> fmt::Result {
        write!(f, "commits of reach {} ", self.reach)?;
        match self.fate {
            Fate::Accepted => f.write_str("accepted"),
            Fate::Refused(number) => write!(f, "refused by {number}"),
        }
    }
}

/// How many of each are wanted at least in 1,000 replays.
const IN_THOUSAND: u64 = 5;

#[derive(Clone, Debug, PartialEq, Eq)]
pub struct ReachCounts {
    replays: u64,
    commits: Frequencies<Commits>,
}

impl Default for ReachCounts {
    fn default() -> ReachCounts {
        let reaches = Reach::ALL.into_iter().map(Reach::encode);
        let wanted = reaches.flat_map(|reach| Fate::ALL.map(|fate| Commits { reach, fate }));
        ReachCounts {
            replays: 0,
            commits: Frequencies::zeros(wanted),
        }
    }
}

impl ReachCounts {
    /// Adds the commits of a replay that has these answers.
    pub fn add(&mut self, replay: &[u8], answers: &[Answer]) {
        self.replays = self.replays.saturating_add(1);
        let calls = decode(replay).map(|decoded| decoded.calls);
        let answers = answers.iter().skip(1);
        for (call, answer) in calls.iter().flatten().zip(answers) {
            let (Call::Commit { draft }, Answer::Commit(answer)) = (call, answer) else {
                continue;
            };
            let Ok(bytes) = draft.as_slice().try_into() else {
                continue;
            };
            let fate = match answer {
                Ok(()) => Fate::Accepted,
                Err(refusal) => Fate::Refused(refusal.number()),
            };
            if Fate::ALL.contains(&fate) {
                let reach = Fields::decode(bytes).reach;
                self.commits.count(Commits { reach, fate });
            }
        }
    }

    /// How often each occurred.
    pub fn commits(&self) -> impl Iterator<Item = (Commits, u64)> + '_ {
        self.commits.iter()
    }

    /// Of what there is too little.
    pub fn missing(&self) -> Vec<String> {
        let least = self.replays.saturating_mul(IN_THOUSAND) / 1_000;
        self.commits()
            .filter(|(_, count)| *count < least)
            .map(|(commits, count)| format!("{commits} ({count} of {least})"))
            .collect()
    }
}

/// A line for each.
impl fmt::Display for ReachCounts {
    fn fmt(&self, f: &mut fmt::Formatter<'_>) -> fmt::Result {
        for (commits, count) in self.commits() {
            writeln!(f, "{commits} {count}")?;
        }
        Ok(())
    }
}
