//! The samples in text form: they give the stored bytes, and are answered as
//! they expect.

use std::collections::BTreeSet;
use std::fs;

use checker::card;
use checker::cardcheck::cardcheck;
use checker::directive::Fields;
use checker::ledger::{Basis, Ledger};
use checker::refusal::Refusal;
use checker::replay::Replay;
use checker::request::Query;
use checker::text_form::{assemble, disassemble, unmet, Assembled, Kind};

use crate::samples::{path, stored};
use crate::support::*;

fn text(name: &str) -> String {
    String::from_utf8(stored(name)).expect("the sample is text")
}

fn assembled(name: &str) -> Assembled {
    assemble(&text(name)).unwrap_or_else(|error| panic!("{name}: {error}"))
}

/// What the checker prints for it.
fn printed(sample: &Assembled) -> Vec<String> {
    match sample.kind {
        Kind::Card => {
            let answer = cardcheck(sample.bytes.as_slice()).expect("a slice can be read");
            vec![answer.to_string()]
        }
        Kind::Replay => {
            let answers = Replay::new(&sample.bytes);
            answers.map(|answer| answer.to_string()).collect()
        }
    }
}

/// Every line is expected, and printed so.
fn is_answered_as_expected(name: &str) -> Assembled {
    let sample = assembled(name);
    let lines = printed(&sample);
    assert_eq!(unmet(&sample.expected, &lines), [], "{name}");
    let expected: Vec<usize> = sample.expected.iter().map(|line| line.answer).collect();
    let all: Vec<usize> = (0..lines.len()).collect();
    assert_eq!(expected, all, "{name}");
    let canonical = disassemble(sample.kind, &sample.bytes);
    assert_eq!(
        assemble(&canonical).map(|again| again.bytes),
        Ok(sample.bytes.clone()),
        "{name}"
    );
    sample
}

/// Document 01's words on each case.
const CASES: [&str; 12] = [
    "K1 no directives, Q: permit, 4. With purpose 1: deny, 4.",
    "K2 after A, Q: deny, 3, number 1. With role 3: permit, 4.",
    "K3 after A, Q from 501: permit, 2; from 7: permit, 1.",
    "K4 after A, Q on record 0 from origin 0: permit, 4.",
    "K5 after A, permit person 600, record 1, reach 0, 1500..2500: 13 naming 1. \
     With 2000..2500: accepted.",
    "K6 after A, deny role 2, record 1, reach 1: 14.",
    "K7 A over 1000..1500 and again as number 2 over 1500..2000; number 3 over 1200..1800: 14.",
    "K8 deny person 502, record 1, reach 1: 12. Reach 0: accepted.",
    "K9 permit role 3, record 0, reach 2, ps 0x0001: selects record 1, not 2.",
    "K10 token 9 for 600, state set 0x01, length 30: words 2 and 0, count 1. \
     At 1029 live; at 1030, 22.",
    "K11 after A, advance to 2000: one directive dropped; number 1 is free.",
    "K12 permit role 3, record 2, reach 1: 14.",
];

#[test]
fn each_case_is_answered_as_its_text_expects() {
    for (number, case) in (1..).zip(CASES) {
        let name = format!("cases/K{number}.replay.txt");
        let first = text(&name).lines().next().map(str::to_string);
        assert_eq!(first, Some(format!("# {case}")));
        let sample = is_answered_as_expected(&name);
        assert_eq!(sample.kind, Kind::Replay);
        let card = sample_card();
        assert_eq!(sample.bytes[..card.len()], card);
        assert!(sample.expected.len() > 1);
    }
}

/// The card of the sample register with its length.
fn sample_card() -> Vec<u8> {
    checker::replay::encode(&sample().bytes(), &[])
}

/// The cases make the calls of the sample replay, and no others but for the
/// revokes between them.
#[test]
fn the_cases_have_the_calls_of_the_sample_replay() {
    let calls = |text: &str| {
        let kind = Kind::Replay;
        let bytes = assemble(text).expect("the sample is a text").bytes;
        let text = disassemble(kind, &bytes);
        let first = sample_card();
        let card = disassemble(kind, &first).lines().count();
        let calls = text.lines().skip(card);
        let calls = calls.filter(|call| !call.starts_with("revoke"));
        calls.map(str::to_string).collect::<BTreeSet<String>>()
    };
    let mut of_cases = BTreeSet::new();
    for number in 1..=CASES.len() {
        of_cases.extend(calls(&text(&format!("cases/K{number}.replay.txt"))));
    }
    assert_eq!(of_cases, calls(&text("sample.replay.txt")));
    assert!(of_cases.len() > 20);
}

/// A wrong line in any place of a case would be found.
#[test]
fn a_wrong_expectation_is_found() {
    for number in 1..=CASES.len() {
        let sample = assembled(&format!("cases/K{number}.replay.txt"));
        let lines = printed(&sample);
        for place in 0..lines.len() {
            let mut other = lines.clone();
            other[place].push_str(" 1");
            let unmet = unmet(&sample.expected, &other);
            assert_eq!(unmet.len(), 1);
            assert_eq!(unmet[0].expected, sample.expected[place]);
        }
    }
}

#[test]
fn every_case_has_a_file_and_every_file_a_case() {
    let files = fs::read_dir(path("cases")).expect("the cases are stored");
    let names = files.map(|file| file.expect("a file").file_name());
    let names: BTreeSet<String> = names.filter_map(|name| name.into_string().ok()).collect();
    let cases = (1..=CASES.len()).map(|number| format!("K{number}.replay.txt"));
    assert_eq!(names, cases.collect());
}

#[test]
fn the_texts_give_the_stored_bytes() {
    for name in [
        "sample.card",
        "sample.replay",
        "demo.card",
        "visit.card",
        "folder.card",
    ] {
        let sample = is_answered_as_expected(&format!("{name}.txt"));
        assert_eq!(sample.bytes, stored(name), "{name}");
    }
    let replay = assembled("sample.replay.txt");
    let expected: String = replay
        .expected
        .iter()
        .map(|line| format!("{}\n", line.text))
        .collect();
    assert_eq!(expected, text("sample.replay.expected"));
}

/// What the comment on its directive says: in place of one on the letter and one
/// on what is inside it.
#[test]
fn the_folder_of_the_sample_is_the_letter_and_all_inside_it() {
    let ledger = card::read(&stored("folder.card")).expect("the card is accepted");
    let doctor = |record, origin| ledger.decide(query((600, 1, origin), record, 0));
    assert_eq!(doctor(0, 0), permit(Basis::Default));
    assert_eq!(doctor(1, 0), deny(Basis::Directive(1)));
    assert_eq!(doctor(2, 1), deny(Basis::Directive(1)));
    for reach in [0, 2] {
        let part = draft(DENY, (ROLE, 1), 1, reach);
        assert_eq!(would_commit(&ledger, part), Err(Refusal::Redundant));
    }
}

/// Writes the bytes of the demonstration; run by name when its text changes.
#[test]
#[ignore]
fn write_demo() {
    let card = assembled("demo.card.txt").bytes;
    fs::write(path("demo.card"), card).expect("the card can be written");
}

fn demo() -> Ledger {
    card::read(&stored("demo.card")).expect("the card is accepted")
}

fn query((person, role, origin): (u16, u16, u8), record: u8, purpose: u8) -> Query {
    Query {
        person,
        role,
        origin,
        record,
        purpose,
    }
}

/// What the comments of the demonstration say, directive by directive.
#[test]
fn the_directives_of_the_demonstration_mean_what_their_comments_say() {
    let mut ledger = demo();
    // 300 is nobody named. A doctor from the pharmacy, a nurse in the
    // hospital, a pharmacist in the pharmacy and one in the laboratory.
    let (doctor, nurse) = ((300, 1, 3), (300, 3, 1));
    let (pharmacist, elsewhere) = ((300, 4, 3), (300, 4, 2));
    let (neighbour, study_nurse) = ((201, 1, 1), (202, 3, 1));
    let by = Basis::Directive;
    let at_first = [
        (query(doctor, 5, 0), permit(by(1))),
        (query((300, 2, 3), 5, 0), permit(by(1))),
        (query(doctor, 6, 0), deny(Basis::Default)),
        (query(doctor, 4, 0), deny(Basis::Default)),
        (query(doctor, 5, 2), deny(Basis::Default)),
        (query(pharmacist, 3, 0), permit(by(2))),
        (query(elsewhere, 3, 0), deny(Basis::Default)),
        (query(pharmacist, 2, 0), deny(Basis::Default)),
        (query(nurse, 9, 0), deny(by(3))),
        (query(nurse, 8, 0), permit(Basis::Default)),
        (query(neighbour, 8, 0), deny(by(4))),
        (query(neighbour, 9, 0), deny(by(4))),
        (query(neighbour, 2, 0), permit(Basis::Default)),
        (query(study_nurse, 5, 2), deny(Basis::Default)),
        (query((300, 0, 4), 11, 0), deny(by(6))),
        (query((300, 0, 4), 10, 0), permit(Basis::Default)),
        (query((104, 0, 4), 11, 0), permit(Basis::Author)),
        (query((42, 0, 0), 11, 0), permit(Basis::Patient)),
    ];
    for (query, decision) in at_first {
        assert_eq!(ledger.decide(query), decision, "{query:?}");
    }
    assert!(ledger.advance(110_000).is_ok());
    assert_eq!(ledger.decide(query(study_nurse, 5, 2)), permit(by(5)));
    assert_eq!(
        ledger.decide(query(study_nurse, 6, 2)),
        deny(Basis::Default)
    );
    assert!(ledger.advance(120_160).is_ok());
    assert_eq!(ledger.decide(query(pharmacist, 3, 0)), deny(Basis::Default));
}

/// The records of the brief for each state, as the comment on labels says.
#[test]
fn the_labels_of_the_demonstration() {
    let always = [2, 3];
    let heart = &[2, 3, 5, 6][..];
    let blood = &[2, 3, 8][..];
    let briefs = [
        heart,
        &always,
        heart,
        &always,
        blood,
        blood,
        &[2, 3, 9],
        &always,
    ];
    for (state, records) in (0..).zip(briefs) {
        let mut ledger = demo();
        assert_eq!(ledger.issue(1, 300, 1 << state, 30), Ok(()));
        let brief = ledger.brief(1, 300).expect("the token is live");
        let word = records.iter().fold(0, |word, record| word | 1 << record);
        assert_eq!(brief.words, [word, 0], "state {state}");
    }
}

/// None of the directives is redundant: each would be accepted as a draft.
#[test]
fn the_directives_of_the_demonstration_could_be_committed() {
    let directives: Vec<Fields> = demo().active().iter().map(|one| one.fields()).collect();
    let without = text("demo.card.txt");
    let lines = without
        .lines()
        .filter(|line| !line.starts_with("directive"));
    let without: Vec<&str> = lines.collect();
    let card = assemble(&without.join("\n")).expect("a card").bytes;
    let mut ledger = card::read(&card).expect("the card is accepted");
    assert_eq!(ledger.active().len(), 0);
    for directive in directives {
        assert_eq!(commit(&mut ledger, directive), Ok(()));
    }
    assert_eq!(ledger.active().len(), 6);
    let reaches: BTreeSet<u8> = ledger
        .active()
        .iter()
        .map(|one| one.fields().reach)
        .collect();
    assert_eq!(reaches, BTreeSet::from([0, 1, 2]));
}
