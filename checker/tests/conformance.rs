//! The conformance cases: answered as derived, and stored as they are now.

use std::collections::BTreeSet;
use std::fs;
use std::path::Path;
use std::process::Command;

use checker::conformance::{cases, Case, Source};
use checker::counts::{Asked, Counts, Kind};
use checker::refusal::LAST_QUESTION;
use checker::replay::Replay;

fn repository(name: &str) -> String {
    let path = Path::new(env!("CARGO_MANIFEST_DIR")).join("..").join(name);
    fs::read_to_string(&path).unwrap_or_else(|error| panic!("{}: {error}", path.display()))
}

#[test]
fn each_case_is_answered_as_derived() {
    for case in cases() {
        assert_eq!(case.check(), Ok(()));
    }
}

/// A derived line that is wrong, missing or one too many is found.
#[test]
fn a_case_that_is_not_answered_as_derived_is_found() {
    let changes: [fn(&mut Vec<String>); 3] = [
        |lines| *lines.last_mut().expect("a case has a line") = "99".to_string(),
        |lines| drop(lines.pop()),
        |lines| lines.push("0".to_string()),
    ];
    for change in changes {
        let mut case: Case = cases().remove(0);
        change(&mut case.scenario.lines);
        let wrong = case.check().expect_err("the lines differ");
        assert!(wrong.starts_with(case.id), "{wrong}");
    }
}

#[test]
fn the_stored_cases_are_the_ones_printed_now() {
    let command = Command::new(env!("CARGO_BIN_EXE_checker"))
        .arg("conformance")
        .output()
        .expect("the checker starts");
    assert!(command.status.success());
    let printed = String::from_utf8(command.stdout).expect("the cases are text");
    let stored = repository("conformance/cases.jsonl");
    for (line, (now, then)) in (1..).zip(printed.lines().zip(stored.lines())) {
        assert_eq!(now, then, "line {line} of conformance/cases.jsonl");
    }
    assert_eq!(printed, stored, "conformance/cases.jsonl");
}

#[test]
fn there_are_enough_cases_and_each_is_another() {
    let cases = cases();
    assert!(cases.len() >= 300, "{} cases", cases.len());
    let ids: BTreeSet<&str> = cases.iter().map(|case| case.id).collect();
    assert_eq!(ids.len(), cases.len());
    let inputs: BTreeSet<&[u8]> = cases.iter().map(|case| &case.scenario.input[..]).collect();
    assert_eq!(inputs.len(), cases.len());
    for case in &cases {
        let plain = |text: &str| text.chars().all(|c| c.is_ascii_graphic() || c == ' ');
        assert!(case
            .id
            .chars()
            .all(|c| c.is_ascii_alphanumeric() || c == '-'));
        assert!(plain(case.topic) && plain(case.reading), "{}", case.id);
        assert!(case.reading.ends_with('.'), "{}", case.id);
    }
}

/// Among the answers are each refusal of cards and of calls, each basis with
/// each effect that it can have, and a malformed replay.
#[test]
fn every_question_and_basis_occurs() {
    let mut counts = Counts::default();
    for case in cases() {
        Replay::new(&case.scenario.input).for_each(|answer| counts.add(&answer));
    }
    assert_eq!(counts.missing(Asked::ALL), []);
    assert!(counts.of(Kind::Malformed) > 0);
    assert!(counts.of(Kind::Accepted("write")) > 0);
}

#[test]
fn every_topic_has_cases() {
    let topics: BTreeSet<&str> = cases().iter().map(|case| case.topic).collect();
    let questions = (1..=LAST_QUESTION).map(|number| format!("question {number}"));
    let bases = (1..=4).map(|number| format!("basis {number}"));
    for topic in questions.chain(bases) {
        assert!(topics.contains(topic.as_str()), "{topic}");
    }
    let near = topics
        .iter()
        .filter(|topic| topic.starts_with("near reading: "));
    // Five that document 01 names, and three near reach 3.
    assert_eq!(near.count(), 5 + 3);
}

/// A case rests on decisions that are there, or on words of documents 01 and 02
/// as docs/TRACEABILITY.md quotes them.
#[test]
fn what_the_cases_rest_on_is_there() {
    let decisions = repository("docs/DECISIONS.md");
    let headings: BTreeSet<&str> = decisions
        .lines()
        .filter_map(|line| line.strip_prefix("**"))
        .filter_map(|heading| heading.split(' ').next())
        .collect();
    let traceability = repository("docs/TRACEABILITY.md");
    let begins: Vec<String> = traceability
        .lines()
        .filter_map(|line| line.strip_prefix("| "))
        .filter_map(|row| row.split(" | ").next())
        .map(|sentence| sentence.replace('"', ""))
        .map(|sentence| unnumbered(sentence.trim_end_matches("..")).to_string())
        .filter(|begin| !begin.is_empty())
        .collect();
    for case in cases() {
        match case.source {
            Source::Decisions(numbers) => {
                for number in numbers.split(' ') {
                    assert!(headings.contains(number), "{}: {number}", case.id);
                }
            }
            Source::Says(words) => {
                let plain = words.replace('"', "");
                let quoted = begins
                    .iter()
                    .any(|begin| begin.contains(&plain) || is_begin(begin, &plain));
                assert!(!words.is_empty() && quoted, "{}: {words}", case.id);
            }
        }
    }
}

/// Without the number of a question or a demand before it.
fn unnumbered(sentence: &str) -> &str {
    let rest = sentence.trim_start_matches(|c: char| c.is_ascii_digit());
    rest.strip_prefix(". ").unwrap_or(sentence).trim()
}

/// The words begin with these, up to the end of a word.
fn is_begin(begin: &str, words: &str) -> bool {
    words
        .strip_prefix(begin)
        .is_some_and(|rest| !rest.starts_with(char::is_alphanumeric))
}
