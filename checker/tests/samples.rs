//! The stored samples: built here, and answered as their `.expected` says.

use std::fs;
use std::path::PathBuf;

use checker::cardcheck::cardcheck;
use checker::directive::Fields;
use checker::replay::{encode, Call, Replay};
use checker::request::Query;

use crate::support::*;

pub fn path(name: &str) -> PathBuf {
    let checker = PathBuf::from(env!("CARGO_MANIFEST_DIR"));
    checker.join("../samples").join(name)
}

pub fn stored(name: &str) -> Vec<u8> {
    fs::read(path(name)).expect("the sample is stored")
}

/// The card of document 01, byte by byte.
fn sample_card() -> Vec<u8> {
    vec![
        0x01, 0x00, 0x07, 0x02, 0x00, 0x07, 0x00, 0x00, 0x03, 0xE8, 0x02, 0x00, 0x01, 0x00, 0x03,
        0x00, 0x0A, 0x00, 0x01, 0xF4, 0x00, 0x01, 0x00, 0x01, 0x00, 0x00, 0x00,
    ]
}

/// The sample register, then the calls of K1 to K9, K12, K10 and K11.
fn sample_replay() -> Vec<u8> {
    let commit = |draft: Fields| Call::Commit {
        draft: draft.encode().to_vec(),
    };
    let revoke = |number| Call::Revoke { number };
    let advance = |minute| Call::Advance { minute };
    let brief = Call::Brief {
        number: 9,
        person: 600,
    };
    let q = query_q();
    let a = directive_a();
    let permit_600 = draft(PERMIT, (PERSON, 600), 1, 0);
    let k9_query = |record| Query {
        role: 3,
        origin: 5,
        record,
        purpose: 1,
        ..q
    };
    let calls = [
        // K1
        Call::Decide(q),
        Call::Decide(Query { purpose: 1, ..q }),
        // K2
        commit(a),
        Call::Decide(q),
        Call::Decide(Query { role: 3, ..q }),
        // K3
        Call::Decide(Query { person: 501, ..q }),
        Call::Decide(Query { person: 7, ..q }),
        // K4
        Call::Decide(Query {
            record: 0,
            origin: 0,
            ..q
        }),
        // K5
        commit(over(1500, 2500, permit_600)),
        commit(over(2000, 2500, permit_600)),
        revoke(2),
        // K6
        commit(draft(DENY, (ROLE, 2), 1, 1)),
        revoke(1),
        // K7
        commit(over(1000, 1500, a)),
        commit(numbered(2, over(1500, 2000, a))),
        commit(numbered(3, over(1200, 1800, a))),
        revoke(1),
        revoke(2),
        // K8
        commit(draft(DENY, (PERSON, 502), 1, 1)),
        commit(draft(DENY, (PERSON, 502), 1, 0)),
        revoke(2),
        // K9
        commit(Fields {
            ps: 0x0001,
            ..draft(PERMIT, (ROLE, 3), 0, 2)
        }),
        Call::Decide(k9_query(1)),
        Call::Decide(k9_query(2)),
        revoke(2),
        // K12
        commit(draft(PERMIT, (ROLE, 3), 2, 1)),
        // K10
        Call::Issue {
            number: 9,
            person: 600,
            states: 0x01,
            length: 30,
        },
        brief.clone(),
        advance(1029),
        brief.clone(),
        advance(1030),
        brief,
        // K11
        commit(a),
        advance(2000),
        commit(over(2000, 3000, a)),
    ];
    encode(&sample().bytes(), &calls)
}

#[test]
fn the_stored_samples_are_the_ones_built_here() {
    assert_eq!(stored("sample.card"), sample_card());
    assert_eq!(stored("sample.replay"), sample_replay());
}

/// Writes the two binary samples; run by name when they are to change.
#[test]
#[ignore]
fn write_samples() {
    fs::write(path("sample.card"), sample_card()).expect("the card can be written");
    fs::write(path("sample.replay"), sample_replay()).expect("the replay can be written");
}

#[test]
fn the_samples_are_answered_as_expected() {
    let card = stored("sample.card");
    let line = cardcheck(card.as_slice()).expect("a slice can be read");
    assert_eq!(line.to_string(), "0 1 0");
    let replay = stored("sample.replay");
    let lines: String = Replay::new(&replay)
        .map(|answer| format!("{answer}\n"))
        .collect();
    let expected = String::from_utf8(stored("sample.replay.expected"));
    assert_eq!(lines, expected.expect("the lines are text"));
}

/// The list in the samples' README has the lines of the `.expected` file.
#[test]
fn the_readme_lists_every_line() {
    let readme = String::from_utf8(stored("README.md")).expect("the README is text");
    let rows = readme.lines().filter_map(|line| {
        let mut cells = line.split('|').map(str::trim).skip(1);
        let number: usize = cells.next()?.parse().ok()?;
        let printed = cells.next()?.trim_matches('`').to_string();
        Some((number, printed))
    });
    let rows: Vec<(usize, String)> = rows.collect();
    let expected = String::from_utf8(stored("sample.replay.expected")).expect("text");
    let lines = expected.lines().map(str::to_string);
    let lines: Vec<(usize, String)> = (1..).zip(lines).collect();
    assert_eq!(rows, lines);
}
