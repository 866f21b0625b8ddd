//! The facts of calls for a screen, derived by hand from document 01's
//! definitions, and the command that prints them.

use std::fs;
use std::path::Path;

use checker::directive::Fields;
use checker::facts::write_facts;
use checker::replay::{encode, Call};
use checker::request::Requester;

use crate::facts_of_cards::{bytes, set, HEAD, SAMPLE};
use crate::json::{self, Value};
use crate::runs::{directory, path_text, run, text};
use crate::support::*;

/// The facts of a replay, and whether it is malformed.
pub fn facts(replay: &[u8]) -> (Value, bool) {
    let mut output = Vec::new();
    let malformed = write_facts(replay, &mut output).expect("bytes can be written");
    (in_one_line(&output), malformed)
}

/// The object of one line of printable ASCII.
pub fn in_one_line(output: &[u8]) -> Value {
    let output = text(output);
    let line = output.strip_suffix('\n').expect("the end of a line");
    assert!(line.bytes().all(|byte| (b' '..=b'~').contains(&byte)));
    let value = json::read(line).expect("JSON");
    assert_eq!(value.keys(), ["calls", "card"]);
    value
}

pub fn value(json: &str) -> Value {
    json::read(json).expect("JSON")
}

/// A replay of a card without calls: its length in two bytes, and the card.
pub fn framed(card: &[u8]) -> Vec<u8> {
    let length = u16::try_from(card.len()).expect("a card of a replay");
    [&length.to_be_bytes()[..], card].concat()
}

fn commit_call(draft: Fields) -> Call {
    Call::Commit {
        draft: draft.encode().to_vec(),
    }
}

fn preview_call(draft: Fields) -> Call {
    Call::Preview {
        requester: requester_q(),
        draft: draft.encode().to_vec(),
    }
}

/// The facts of the calls on this card.
fn call_facts(card: &Card, calls: &[Call]) -> Vec<Value> {
    let (facts, malformed) = facts(&encode(&card.bytes(), calls));
    assert!(!malformed);
    facts.at("calls").list().to_vec()
}

/// A commit of the draft, and a preview of it, both get this line and these
/// facts.
fn assert_draft(card: &Card, draft: Fields, members: &str) {
    let calls = [preview_call(draft), commit_call(draft)];
    let expected = [23, 16].map(|tag| value(&format!(r#"{{"tag": {tag}, {members}}}"#)));
    assert_eq!(call_facts(card, &calls), expected, "{draft:?}");
}

/// K5, K6, K7, K8 and K12.
#[test]
fn the_examples_of_document_01() {
    let a = directive_a();
    let after_a = sample().with(&[a]);
    assert_draft(
        &after_a,
        over(1500, 2500, draft(PERMIT, (PERSON, 600), 1, 0)),
        r#""line": "13 1", "number": 1, "request": {"person": 600, "role": 1, "origin": 0,
           "record": 1, "purpose": 0, "minute": 1500, "any_person": false}"#,
    );
    assert_draft(
        &after_a,
        draft(DENY, (ROLE, 2), 1, 1),
        r#""line": "14", "cover": [1]"#,
    );
    assert_draft(
        &sample().with(&[over(1000, 1500, a), numbered(2, over(1500, 2000, a))]),
        numbered(3, over(1200, 1800, a)),
        r#""line": "14", "cover": [1, 2]"#,
    );
    assert_draft(
        &sample(),
        draft(DENY, (PERSON, 502), 1, 1),
        r#""line": "12", "patient": false, "records": [2]"#,
    );
    assert_draft(
        &sample(),
        draft(PERMIT, (ROLE, 3), 2, 1),
        r#""line": "14", "cover": []"#,
    );
    // The other halves of K5 and K8 are accepted.
    for (card, draft) in [
        (
            &after_a,
            over(2000, 2500, draft(PERMIT, (PERSON, 600), 1, 0)),
        ),
        (&sample(), draft(DENY, (PERSON, 502), 1, 0)),
    ] {
        let expected = [value(r#"{"tag": 16, "line": "0"}"#)];
        assert_eq!(call_facts(card, &[commit_call(draft)]), expected);
    }
}

/// 12: the patient on all that the draft selects, an author on what they wrote
/// of it.
#[test]
fn whose_records() {
    assert_draft(
        &sample(),
        draft(DENY, (PERSON, 7), 0, 2),
        r#""line": "12", "patient": true, "records": [1, 2]"#,
    );
    assert_draft(
        &sample(),
        draft(DENY, (PERSON, 7), 2, 0),
        r#""line": "12", "patient": true, "records": [2]"#,
    );
    // Record 2 has sensitivity 1 too, and is not selected.
    let general = Fields {
        ps: 0x0001,
        ..draft(DENY, (PERSON, 7), 0, 2)
    };
    let one = r#""line": "12", "patient": true, "records": [1]"#;
    assert_draft(&sample(), general, one);
    // The patient wrote record 1; the draft selects record 2 too.
    let card = sample().changed(1, |record| record.author = 7);
    assert_draft(
        &card,
        draft(DENY, (PERSON, 7), 0, 2),
        r#""line": "12", "patient": true, "records": [1, 2]"#,
    );
    // Person 502 wrote all three; record 0 is not among its descendants.
    let card = sample().changed(0, |record| record.author = 502);
    let card = card.changed(1, |record| record.author = 502);
    assert_draft(
        &card,
        draft(DENY, (PERSON, 502), 0, 2),
        r#""line": "12", "patient": false, "records": [1, 2]"#,
    );
    assert_draft(
        &card,
        draft(DENY, (PERSON, 502), 0, 1),
        r#""line": "12", "patient": false, "records": [1]"#,
    );
    // A long list, to the last record.
    let deny = draft(DENY, (PERSON, 7), 124, 2);
    let last = r#""line": "12", "patient": true, "records": [125, 126, 127]"#;
    assert_draft(&full(), deny, last);
}

/// 13: the lowest record, origin, purpose and minute that both have; the named
/// person; of two roles the lower one, with a person that is neither the
/// patient nor an author.
#[test]
fn requests_that_both_match() {
    let narrow = |fields: Fields| Fields {
        subject_origins: 0x0006,
        purposes: 0x0430,
        ..fields
    };
    // Two roles, either way round.
    assert_draft(
        &sample().with(&[directive_a()]),
        draft(PERMIT, (ROLE, 2), 1, 0),
        r#""line": "13 1", "number": 1, "request": {"person": 0, "role": 2, "origin": 0,
           "record": 1, "purpose": 0, "minute": 1000, "any_person": true}"#,
    );
    assert_draft(
        &sample().with(&[numbered(5, draft(PERMIT, (ROLE, 2), 2, 0))]),
        over(1200, 1300, narrow(directive_a())),
        r#""line": "13 5", "number": 5, "request": {"person": 0, "role": 2, "origin": 1,
           "record": 2, "purpose": 4, "minute": 1200, "any_person": true}"#,
    );
    // Patient 0 and the authors 1, 2 and 3: the next person is 4.
    let mut card = sample().with(&[directive_a()]);
    card.patient = 0;
    for (record, author) in card.records.iter_mut().zip([3, 1, 2]) {
        record.author = author;
    }
    assert_draft(
        &card,
        over(900, 1001, draft(PERMIT, (ROLE, 0), 1, 1)),
        r#""line": "13 1", "number": 1, "request": {"person": 4, "role": 1, "origin": 0,
           "record": 2, "purpose": 0, "minute": 1000, "any_person": true}"#,
    );
    // A role against a person, and a person against the same person.
    let permit = numbered(9, narrow(draft(PERMIT, (PERSON, 600), 1, 0)));
    assert_draft(
        &sample().with(&[permit]),
        over(1999, 3000, directive_a()),
        r#""line": "13 9", "number": 9, "request": {"person": 600, "role": 1, "origin": 1,
           "record": 1, "purpose": 4, "minute": 1999, "any_person": false}"#,
    );
    assert_draft(
        &sample().with(&[permit]),
        draft(DENY, (PERSON, 600), 0, 2),
        r#""line": "13 9", "number": 9, "request": {"person": 600, "role": 0, "origin": 1,
           "record": 1, "purpose": 4, "minute": 1000, "any_person": false}"#,
    );
    // The patient asks too, as a permit for them is no breach of the baseline.
    assert_draft(
        &sample().with(&[directive_a()]),
        draft(PERMIT, (PERSON, 7), 2, 0),
        r#""line": "13 1", "number": 1, "request": {"person": 7, "role": 1, "origin": 0,
           "record": 2, "purpose": 0, "minute": 1000, "any_person": false}"#,
    );
    // Of two that conflict the lowest number, though it is the later one.
    let later = over(1800, 1900, draft(DENY, (ROLE, 3), 2, 0));
    assert_draft(
        &sample().with(&[numbered(8, directive_a()), numbered(3, later)]),
        draft(PERMIT, (ROLE, 0), 2, 0),
        r#""line": "13 3", "number": 3, "request": {"person": 0, "role": 3, "origin": 0,
           "record": 2, "purpose": 0, "minute": 1800, "any_person": true}"#,
    );
}

/// 14: one directive where one is enough, else no needless one.
#[test]
fn what_covers_a_draft() {
    let a = directive_a();
    let halves = [
        numbered(8, over(1000, 1500, a)),
        numbered(6, over(1500, 2000, a)),
    ];
    let whole = numbered(7, a);
    let middle = numbered(2, over(1200, 1800, a));
    for (active, cover) in [
        (vec![halves[0], halves[1]], "[8, 6]"),
        (vec![halves[0], halves[1], whole], "[7]"),
        (
            vec![halves[0], numbered(5, over(1400, 1600, a)), halves[1]],
            "[8, 6]",
        ),
    ] {
        let members = format!(r#""line": "14", "cover": {cover}"#);
        assert_draft(&sample().with(&active), middle, &members);
    }
    // Nothing passes its filter: record 2 has origin 1.
    let nothing = Fields {
        po: 0x0001,
        ..draft(PERMIT, (ROLE, 3), 1, 1)
    };
    assert_draft(&sample(), nothing, r#""line": "14", "cover": []"#);
    // A deny of the patient that selects nothing.
    let of_patient = draft(DENY, (PERSON, 7), 2, 2);
    assert_draft(&sample(), of_patient, r#""line": "14", "cover": []"#);
}

/// Every other call, accepted or refused, has its tag and its line alone.
#[test]
fn other_calls_have_a_line() {
    let a = directive_a();
    let issue = |number, states, length| Call::Issue {
        number,
        person: 600,
        states,
        length,
    };
    let elsewhere = Requester {
        role: 4,
        ..requester_q()
    };
    let calls = [
        (Call::Commit { draft: vec![0; 24] }, 16, "6"),
        (commit_call(Fields { effect: 2, ..a }), 16, "7"),
        (commit_call(Fields { record: 3, ..a }), 16, "8"),
        (commit_call(over(0, 1000, a)), 16, "9"),
        (preview_call(Fields { record: 3, ..a }), 23, "8"),
        (preview_call(a), 23, "0 6 0 2"),
        (
            Call::Preview {
                requester: elsewhere,
                draft: a.encode().to_vec(),
            },
            23,
            "17",
        ),
        (commit_call(a), 16, "0"),
        (commit_call(a), 16, "10"),
        (Call::Decide(query_q()), 20, "0 0 3 1"),
        (issue(9, 1, 30), 19, "0"),
        (issue(9, 0, 30), 19, "18"),
        (
            Call::Brief {
                number: 9,
                person: 600,
            },
            21,
            "0 2 0 1",
        ),
        (
            Call::Brief {
                number: 9,
                person: 601,
            },
            21,
            "22",
        ),
        (Call::Advance { minute: 2000 }, 18, "0 1 1"),
        (Call::Advance { minute: 1999 }, 18, "16"),
        (Call::Revoke { number: 1 }, 17, "15"),
        (Call::Write { buffer: 55 }, 22, "24"),
    ];
    let expected = calls.iter().map(|(_, tag, line)| (*tag, *line));
    let expected: Vec<Value> = expected
        .map(|(tag, line)| value(&format!(r#"{{"tag": {tag}, "line": "{line}"}}"#)))
        .collect();
    let calls: Vec<Call> = calls.iter().map(|(call, ..)| call.clone()).collect();
    assert_eq!(call_facts(&sample(), &calls), expected);

    // A refused draft is told before a requester that is refused too.
    let both = Call::Preview {
        requester: elsewhere,
        draft: draft(PERMIT, (ROLE, 3), 2, 1).encode().to_vec(),
    };
    let expected = [value(r#"{"tag": 23, "line": "14", "cover": []}"#)];
    assert_eq!(call_facts(&sample(), &[both]), expected);
}

/// The ledger of each call is the one that the calls before it made; after a
/// refused card it is the empty one.
#[test]
fn the_ledger_at_the_call() {
    let a = directive_a();
    let permit = draft(PERMIT, (ROLE, 2), 1, 0);
    let calls = [
        commit_call(a),
        Call::Advance { minute: 1300 },
        commit_call(permit),
        Call::Revoke { number: 1 },
        commit_call(permit),
    ];
    let facts = call_facts(&sample(), &calls);
    let refused = value(
        r#"{"tag": 16, "line": "13 1", "number": 1, "request": {"person": 0, "role": 2,
            "origin": 0, "record": 1, "purpose": 0, "minute": 1300, "any_person": true}}"#,
    );
    assert_eq!(facts[2], refused);
    assert_eq!(facts[4], value(r#"{"tag": 16, "line": "0"}"#));

    let (facts, malformed) = self::facts(&encode(&bytes(&[HEAD]), &[commit_call(a)]));
    assert!(!malformed);
    let expected = r#"{"card": {"refusal": 5, "field": null},
                       "calls": [{"tag": 16, "line": "8"}]}"#;
    assert_eq!(facts, value(expected));
}

/// The card's facts stay, and the last call is malformed. Without a card there
/// are none of it.
#[test]
fn malformed_replays() {
    let no_card = value(r#"{"card": null, "calls": [{"line": "malformed"}]}"#);
    for replay in [&[][..], &[0], &[0, 1], &[0, 3, 1, 0]] {
        assert_eq!(facts(replay), (no_card.clone(), true));
    }
    let start = encode(&bytes(&SAMPLE), &[commit_call(directive_a())]);
    let well_formed = value(r#"{"card": {"refusal": 0}, "calls": [{"tag": 16, "line": "0"}]}"#);
    assert_eq!(facts(&start), (well_formed, false));
    let expected = value(
        r#"{"card": {"refusal": 0},
            "calls": [{"tag": 16, "line": "0"}, {"line": "malformed"}]}"#,
    );
    let after = commit_call(directive_a()).encode();
    for more in [
        // Cut in the head, an unknown tag, another length, cut in the value.
        &[0x10][..],
        &[0x10, 0],
        &[0x0F, 0, 0],
        &[0x18, 0, 0],
        &[0x11, 0, 1, 0],
        &[0x12, 0, 5, 0, 0, 7, 0xD0, 0],
        &[0x17, 0, 5, 0, 0, 0, 0, 0],
        &[0x10, 0, 25, 0, 1],
    ] {
        let replay = [&start[..], more].concat();
        assert_eq!(facts(&replay), (expected.clone(), true), "{more:?}");
        if more.len() > 2 && more[0] != 0x10 {
            let replay = [&replay[..], &after].concat();
            assert_eq!(facts(&replay), (expected.clone(), true), "{more:?}");
        }
    }
}

/// One line on standard output, of a file as of standard input; what `replay`
/// prints is in it.
#[test]
fn the_command() {
    let out = directory("facts");
    let samples = Path::new(env!("CARGO_MANIFEST_DIR")).join("../samples");
    let replay = fs::read(samples.join("sample.replay")).expect("the sample is stored");
    let conflict = encode(
        &sample().with(&[directive_a()]).bytes(),
        &[commit_call(draft(PERMIT, (ROLE, 2), 1, 0))],
    );
    let refused = framed(&set(bytes(&SAMPLE), &[(46, 5)]));
    let cut = replay[..replay.len() - 1].to_vec();
    let cases = [
        (replay, 0),
        (conflict, 0),
        (refused, 0),
        (cut, 1),
        (vec![0, 1], 1),
        (Vec::new(), 1),
    ];
    for (replay, status) in cases {
        let file = out.join("input.replay");
        fs::write(&file, &replay).expect("the replay can be written");
        let output = run(&["facts", path_text(&file)], &[]);
        assert_eq!(output.status.code(), Some(status));
        assert_eq!(text(&output.stderr), "");
        assert_eq!(run(&["facts", "-"], &replay), output);
        let printed = in_one_line(&output.stdout);
        assert_eq!((printed.clone(), status == 1), facts(&replay));

        let lines = text(&run(&["replay"], &replay).stdout);
        let calls = printed.at("calls").list();
        let calls: Vec<&str> = calls.iter().map(|call| call.at("line").text()).collect();
        let lines: Vec<&str> = lines.lines().collect();
        assert!(lines.ends_with(&calls), "{calls:?}");
        assert_eq!(
            lines.len() - calls.len(),
            usize::from(printed.at("card") != &Value::Null)
        );
    }
}

#[test]
fn the_example_of_the_readme() {
    let checker = Path::new(env!("CARGO_MANIFEST_DIR"));
    let readme = fs::read_to_string(checker.join("README.md")).expect("the page is there");
    let mut lines = readme.lines().filter_map(|line| line.strip_prefix("    "));
    let shown = lines
        .find(|line| line.starts_with("{\"card\""))
        .expect("an example");
    let k5 = checker.join("../samples/cases/K5.replay.txt");
    let replay = run(&["assemble", path_text(&k5)], &[]).stdout;
    assert_eq!(
        text(&run(&["facts", "-"], &replay).stdout),
        format!("{shown}\n")
    );
}
