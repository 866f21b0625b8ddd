//! The conformance cases: replays for any implementation, each with the lines
//! that it must print and the reading that it tests.

use std::io::{self, Write};

use crate::bytes::hex;
use crate::json;
use crate::replay::Replay;

use scenario::Scenario;

// Cards, drafts and replays to build the cases from.

pub mod sample;

pub mod scenario;

// The cases, a file a topic.

mod bases;

mod baseline;

mod briefs;

mod calls;

mod card_fields;

mod cards;

mod conflict;

mod decide;

mod drafts;

mod examples;

mod folder;

mod format;

mod lists;

mod near_readings;

mod order;

mod previews;

mod redundancy;

mod tokens;

mod writing;

/// What a case rests on.
#[derive(Clone, Copy, Debug, PartialEq, Eq)]
pub enum Source {
    /// Numbers of docs/DECISIONS.md, one blank between.
    Decisions(&'static str),
    /// Words of document 01, of its demands, or of a request of document 02,
    /// that decide alone.
    Says(&'static str),
}

// The sentences of document 02's request #102.

const FOLDER: Source = Source::Says("Reach 3 is the record with all its descendants.");
const FOLLOWS: Source =
    Source::Says("What \"selects\" means changes, and with it conflict, baseline and superfluous.");
const ALLOWS: Source = Source::Says("Question 7 now allows 0..3.");

#[derive(Clone, Debug)]
pub struct Case {
    pub id: &'static str,
    pub topic: &'static str,
    /// What is tested, and what a wrong implementation would answer.
    pub reading: &'static str,
    pub source: Source,
    /// The replay, and each line as derived from the documents.
    pub scenario: Scenario,
}

/// The topic of a case.
#[derive(Clone, Copy)]
struct Topic(&'static str);

impl Topic {
    fn case(
        self,
        id: &'static str,
        reading: &'static str,
        source: Source,
        scenario: Scenario,
    ) -> Case {
        Case {
            id,
            topic: self.0,
            reading,
            source,
            scenario,
        }
    }
}

/// Every case.
pub fn cases() -> Vec<Case> {
    [
        card_fields::cases(),
        drafts::cases(),
        baseline::cases(),
        conflict::cases(),
        redundancy::cases(),
        calls::cases(),
        decide::cases(),
        tokens::cases(),
        writing::cases(),
        order::cases(),
        bases::cases(),
        near_readings::cases(),
        lists::cases(),
        cards::cases(),
        briefs::cases(),
        previews::cases(),
        folder::cases(),
        format::cases(),
        examples::cases(),
    ]
    .concat()
}

impl Case {
    /// The lines that this implementation prints.
    pub fn answers(&self) -> Vec<String> {
        Replay::new(&self.scenario.input)
            .map(|answer| answer.to_string())
            .collect()
    }

    /// What is wrong where this implementation does not answer as derived.
    pub fn check(&self) -> Result<(), String> {
        let answers = self.answers();
        let derived = &self.scenario.lines;
        let pairs = answers.iter().zip(derived);
        if let Some((line, (answer, stated))) = (1..).zip(pairs).find(|(_, (a, b))| a != b) {
            let id = self.id;
            return Err(format!("{id}: line {line} is {answer}, derived {stated}"));
        }
        if answers.len() != derived.len() {
            let (id, got, wanted) = (self.id, answers.len(), derived.len());
            return Err(format!("{id}: {got} lines, derived {wanted}"));
        }
        Ok(())
    }

    /// The case as a line of JSON, with what this implementation prints.
    pub fn to_json(&self) -> String {
        let (decisions, sentence) = match self.source {
            Source::Decisions(numbers) => (numbers.split(' ').collect(), ""),
            Source::Says(words) => (Vec::new(), words),
        };
        let decisions = decisions.into_iter().map(json::string);
        let answers = self.answers();
        let expected = answers.iter().map(|line| json::string(line));
        json::object([
            ("id", json::string(self.id)),
            ("topic", json::string(self.topic)),
            ("reading", json::string(self.reading)),
            ("decisions", json::array(decisions)),
            ("sentence", json::string(sentence)),
            ("input", json::string(&hex(&self.scenario.input))),
            ("expected", json::array(expected)),
        ])
    }
}

/// Writes a line for each case, if each is answered as derived.
pub fn write_cases(output: &mut impl Write) -> io::Result<()> {
    let cases = cases();
    for case in &cases {
        case.check()
            .map_err(|wrong| io::Error::new(io::ErrorKind::InvalidData, wrong))?;
    }
    for case in &cases {
        writeln!(output, "{}", case.to_json())?;
    }
    Ok(())
}
