//! The lines of cards and replays explained.

use std::fs;
use std::path::PathBuf;

use checker::answer::Answer;
use checker::bytes::hex;
use checker::cardcheck::cardcheck;
use checker::describe::{question, records};
use checker::directive::{Directive, Fields};
use checker::explain::{answer_in_words, card_line, explain, Explanations};
use checker::generate::{inputs, MANY_CALLS};
use checker::kind::Kind;
use checker::ledger::Basis;
use checker::refusal::Refusal;
use checker::replay::{encode, Call, Replay};
use checker::request::{Query, Request, Requester};

use crate::support::*;

fn words(replay: &[u8]) -> Vec<String> {
    let explained = explain(replay).into_iter();
    explained.map(|explained| explained.words).collect()
}

/// The words of one call on the sample ledger.
fn call_words(call: Call) -> String {
    let replay = encode(&sample().bytes(), &[call]);
    words(&replay).pop().expect("a line for the call")
}

const A: &str = "denies access by role 1 and role 2 under it to everything under record 0, \
                 without itself; from all 16 origins, for all 11 purposes, in minutes";

/// One line of each kind of answer in the stored sample.
#[test]
fn the_stored_sample() {
    let checker = PathBuf::from(env!("CARGO_MANIFEST_DIR"));
    let replay = fs::read(checker.join("../samples/sample.replay")).expect("the sample is stored");
    let words = words(&replay);
    assert_eq!(words.len(), 36);
    let q = "person 600 in role 1 asks for access to record 1 from origin 1";
    let cases = [
        (
            1,
            "Card accepted: edition 2, patient person 7, clock at minute 1000, 4 roles, \
             3 records, no directives; 56 bytes."
                .to_string(),
        ),
        (
            2,
            format!(
                "Decide: {q}, for treatment (purpose 0).\n\
                 Decision: permit, basis 4, the default consent. No active directive matches, \
                 origin 1 is among the origins of record 1 (0, 1), the purpose is treatment."
            ),
        ),
        (
            3,
            format!(
                "Decide: {q}, for purpose 1.\n\
                 Decision: deny, basis 4, the default consent. No active directive matches, \
                 the purpose is not treatment."
            ),
        ),
        (
            4,
            format!(
                "Commit: directive 1 {A} 1000 to 1999 (until 2000).\n\
                 Accepted: it is active now. Active directives: 1."
            ),
        ),
        (
            5,
            format!(
                "Decide: {q}, for treatment (purpose 0).\n\
                 Decision: deny, basis 3, directive 1, which {A} 1000 to 1999 (until 2000)."
            ),
        ),
        (
            7,
            "Decide: person 501, author of record 1, in role 1 asks for access to record 1 from \
             origin 1, for treatment (purpose 0).\n\
             Decision: permit, basis 2, the author's access to their own record."
                .to_string(),
        ),
        (
            8,
            "Decide: the patient (person 7) in role 1 asks for access to record 1 from origin 1, \
             for treatment (purpose 0).\n\
             Decision: permit, basis 1, the patient's own access."
                .to_string(),
        ),
        (
            10,
            format!(
                "Commit: directive 2 permits access by person 600 to record 1; from all 16 \
                 origins, for all 11 purposes, in minutes 1500 to 2499 (until 2500).\n\
                 Refused by question 13: Is it free of conflict with the active directives? No.\n\
                 It conflicts with directive 1, which {A} 1000 to 1999 (until 2000).\n\
                 Both match: person 600 in role 1 asks for access to record 1 from origin 0, for \
                 treatment (purpose 0), in minute 1500."
            ),
        ),
        (
            12,
            "Revoke directive 2.\n\
             Removed: directive 2 permits access by person 600 to record 1; from all 16 origins, \
             for all 11 purposes, in minutes 2000 to 2499 (until 2500). Active directives: 1."
                .to_string(),
        ),
        (
            17,
            format!(
                "Commit: directive 3 {A} 1200 to 1799 (until 1800).\n\
                 Refused by question 14: Is it not redundant: does it match a request that no \
                 active directive of its effect matches? No.\n\
                 Every request that it matches is matched already by these together:\n\
                 - directive 1 {A} 1000 to 1499 (until 1500)\n\
                 - directive 2 {A} 1500 to 1999 (until 2000)"
            ),
        ),
        (
            20,
            "Commit: directive 2 denies access by person 502 to the children of record 1; from \
             all 16 origins, for all 11 purposes, in minutes 1000 to 1999 (until 2000).\n\
             Refused by question 12: Is the baseline spared: the patient, and an author on their \
             own record? No.\n\
             Person 502 is the author of record 2, and authors' access to their own records \
             cannot be denied.\n\
             The deny matches: person 502, author of record 2, in role 0 asks for access to \
             record 2 from origin 0, for treatment (purpose 0), in minute 1000."
                .to_string(),
        ),
        (
            27,
            "Commit: directive 2 permits access by role 3 to the children of record 2; from all \
             16 origins, for all 11 purposes, in minutes 1000 to 1999 (until 2000).\n\
             Refused by question 14: Is it not redundant: does it match a request that no active \
             directive of its effect matches? No.\n\
             It matches no request at all: there is no record under record 2."
                .to_string(),
        ),
        (
            28,
            "Issue token 9 to person 600 for cardiac arrest, for 30 minutes.\n\
             Issued: token 9 of person 600 for cardiac arrest, live to minute 1029 (until 1030), \
             with labels 0 to 3 in scope."
                .to_string(),
        ),
        (
            29,
            "Brief on token 9 for person 600.\n\
             Discloses 1 of 3 records, those with one of labels 0 to 3 (cardiac arrest): record 1."
                .to_string(),
        ),
        (
            32,
            "Advance the clock from minute 1029 to minute 1030.\n\
             The clock is at minute 1030. Ran out: no directive, token 9."
                .to_string(),
        ),
        (
            33,
            "Brief on token 9 for person 600.\n\
             Refused by question 22: Is there a live token of that number for that person? No.\n\
             No token is live."
                .to_string(),
        ),
        (
            35,
            "Advance the clock from minute 1030 to minute 2000.\n\
             The clock is at minute 2000. Ran out: directive 1, no token."
                .to_string(),
        ),
    ];
    for (line, expected) in cases {
        assert_eq!(words[line - 1], expected, "line {line}");
    }
}

fn preview_by(requester: Requester, draft: &[u8]) -> Call {
    Call::Preview {
        requester,
        draft: draft.to_vec(),
    }
}

/// The requester, the draft, and each record with what becomes of it.
#[test]
fn previews() {
    let q = "person 600 in role 1 asks from origin 1, for treatment (purpose 0)";
    let words = call_words(preview_by(requester_q(), &directive_a().encode()));
    let default = "permit, basis 4, the default consent";
    assert_eq!(
        words,
        format!(
            "Preview: directive 1 {A} 1000 to 1999 (until 2000); {q}.\n\
             Would change 2 of 3 records: records 1, 2.\n\
             - record 1: {default}, becomes deny, basis 3, directive 1.\n\
             - record 2: {default}, becomes deny, basis 3, directive 1."
        )
    );
    let permit = draft(PERMIT, (PERSON, 600), 1, 0);
    let words = call_words(preview_by(requester_q(), &permit.encode()));
    let (_, shown) = words.split_once('\n').expect("an answer");
    assert_eq!(
        shown,
        format!(
            "Would change no decision on 3 records.\n\
             - record 1: {default}, gets basis 3, directive 2. A new basis or number alone is no change."
        )
    );
    let later = over(1500, 2000, directive_a());
    let words = call_words(preview_by(requester_q(), &later.encode()));
    assert!(
        words.ends_with("\nWould change no decision on 3 records."),
        "{words}"
    );
    // A refused draft is explained as in a commit.
    for draft in [
        over(0, 1, directive_a()),
        draft(DENY, (PERSON, 7), 0, 0),
        draft(PERMIT, (ROLE, 3), 2, 1),
    ] {
        let bytes = draft.encode();
        let commit = call_words(Call::Commit {
            draft: bytes.to_vec(),
        });
        let preview = call_words(preview_by(requester_q(), &bytes));
        let why = |words: &str| words.split_once('\n').map(|(_, why)| why.to_string());
        assert_eq!(why(&commit), why(&preview));
        assert!(preview.contains("\nRefused by question "), "{preview}");
    }
}

/// What is wrong with a refused call other than commit.
#[test]
fn refused_calls() {
    let issue = |number, states, length| Call::Issue {
        number,
        person: 600,
        states,
        length,
    };
    let outside = Query {
        role: 256,
        origin: 16,
        record: 3,
        purpose: 11,
        ..query_q()
    };
    let cases = [
        (
            Call::Commit { draft: vec![0; 24] },
            "The draft has 24 bytes; a draft has 25.",
        ),
        (Call::Revoke { number: 1 }, "No directive is active."),
        (
            Call::Advance { minute: 999 },
            "The clock is at minute 1000.",
        ),
        (
            Call::Decide(outside),
            "There is no role 256: the register has roles 0 to 3.\n\
             There is no record 3: the register has records 0 to 2.\n\
             There is no origin 16: origins are 0 to 15.\n\
             There is no purpose 11: purposes are 0 to 10.",
        ),
        (issue(1, 0, 30), "The set of states is empty."),
        (issue(1, 1, 0), "The length is 0; it is 1 to 240 minutes."),
        (
            issue(1, 1, 241),
            "The length is 241; it is 1 to 240 minutes.",
        ),
        (
            Call::Brief {
                number: 1,
                person: 2,
            },
            "No token is live.",
        ),
        (
            Call::Write { buffer: 55 },
            "The card has 56 bytes, and the buffer 55.",
        ),
        (
            preview_by(outside.requester(), &directive_a().encode()),
            "There is no role 256: the register has roles 0 to 3.\n\
             There is no origin 16: origins are 0 to 15.\n\
             There is no purpose 11: purposes are 0 to 10.",
        ),
        (
            preview_by(requester_q(), &[]),
            "The draft has 0 bytes; a draft has 25.",
        ),
    ];
    for (call, expected) in cases {
        let words = call_words(call);
        let reason = words.split_once(" No.\n").expect("a question").1;
        assert_eq!(reason, expected);
    }

    let mut card = sample();
    card.clock = u32::MAX - 10;
    let tokens: Vec<Call> = [4, 3, 2, 1].map(|number| issue(number, 1, 10)).to_vec();
    let more = [
        issue(2, 1, 10),
        issue(5, 1, 10),
        issue(5, 1, 11),
        Call::Brief {
            number: 4,
            person: 2,
        },
        Call::Brief {
            number: 5,
            person: 2,
        },
    ];
    let replay = encode(&card.bytes(), &[tokens, more.to_vec()].concat());
    let words = words(&replay);
    let live = "of person 600 for cardiac arrest, live to minute 4294967294 (until 4294967295), \
                with labels 0 to 3 in scope";
    let reasons = [
        format!("It is taken by token 2 {live}."),
        "4 tokens are live (4, 3, 2, 1); no more can be.".to_string(),
        "The end would be minute 4294967296; the last minute is 4294967295.".to_string(),
        format!("The live one is token 4 {live}."),
        "The live tokens are 4, 3, 2, 1.".to_string(),
    ];
    for (words, expected) in words[5..].iter().zip(reasons) {
        assert_eq!(words.split_once(" No.\n").expect("a question").1, expected);
    }
}

/// A refused card is explained, and the calls after it are on the empty
/// ledger.
#[test]
fn after_a_refused_card() {
    let card = sample().head();
    let replay = encode(
        &card,
        &[Call::Write { buffer: 100 }, Call::Decide(query_q())],
    );
    let words = words(&replay);
    assert_eq!(
        words[0],
        "Card refused at the card's end, at offset 10 (0xA).\n\
         Refused by question 5: At the card's end: were the head, the roles and a record read? No.\n\
         The card ends after its head; the roles and a record are missing.\n\
         The replay goes on with the empty ledger."
    );
    assert!(words[1].ends_with("The register has no record."));
    assert!(words[2].ends_with(
        "There is no role 1: the register has no roles.\n\
         There is no record 1: the register has no records."
    ));
}

/// What is wrong with a malformed replay, and where.
#[test]
fn malformed_replays() {
    let card = sample().bytes();
    let start = encode(&card, &[Call::Revoke { number: 1 }]);
    let after = |bytes: &[u8]| [&start[..], bytes].concat();
    let cases = [
        (
            vec![0],
            "At offset 0: a replay begins with the card's length in 2 bytes, and it has 1 byte.",
        ),
        (
            vec![0, 3, 1],
            "At offset 0: the card's length says 3 bytes, and the replay has 1 byte after it.",
        ),
        (
            after(&[0x10, 0]),
            "At offset 63 (0x3F): a call begins with a tag and a two-byte length, \
             and the replay has 2 bytes left.",
        ),
        (
            after(&[0x0F, 0, 0]),
            "At offset 63 (0x3F): no call has the tag 0x0F.",
        ),
        (
            after(&[0x12, 0, 3, 0, 0, 0]),
            "At offset 63 (0x3F): the value of an advance has 4 bytes, and the length says 3.",
        ),
        (
            after(&[0x17, 0, 5, 0, 0, 0, 0, 0]),
            "At offset 63 (0x3F): the value of a preview has at least 6 bytes, and the length \
             says 5.",
        ),
        (
            after(&[0x10, 0, 25, 1]),
            "At offset 63 (0x3F): the call's length says 25 bytes, and the replay has 1 byte \
             after it.",
        ),
    ];
    for (replay, expected) in cases {
        let last = explain(&replay).pop().expect("a line");
        assert_eq!(last.line, "malformed");
        let first = "The replay is malformed and ends here.\n";
        assert_eq!(last.words, format!("{first}{expected}"));
    }
}

/// Every generated replay: the lines that `replay` prints, with words that
/// say what the answer says.
#[test]
fn generated_replays() {
    let mut refused = [0; 25];
    let mut malformed = 0;
    for input in inputs(31, 0, 800).filter(|input| input.index != 100 && input.index != 101) {
        let answers: Vec<Answer> = Replay::new(&input.bytes).collect();
        let explained = explain(&input.bytes);
        assert_eq!(explained.len(), answers.len());
        for (answer, explained) in answers.iter().zip(&explained) {
            assert_eq!(explained.line, answer.to_string());
            check_words(answer, &explained.words);
            let other = answer_in_words(explained.kind, &explained.line);
            assert!(
                !other.contains("no line") && !other.contains("never"),
                "{other}"
            );
            match number(answer) {
                Some(number) => refused[usize::from(number)] += 1,
                None => malformed += 1,
            }
        }
    }
    for number in (0..=24).filter(|number| ![1, 2, 3, 4, 5].contains(number)) {
        assert!(refused[number] > 0, "{number}");
    }
    assert!(malformed > 10, "{malformed}");
}

/// The number that the line begins with.
fn number(answer: &Answer) -> Option<u8> {
    let line = answer.to_string();
    line.split(' ').next().and_then(|word| word.parse().ok())
}

fn check_words(answer: &Answer, words: &str) {
    assert!(
        !words.is_empty() && !words.ends_with('\n'),
        "{answer}: {words}"
    );
    assert!(!words.contains(" .") && !words.contains("  "), "{words}");
    match number(answer) {
        Some(0) => assert!(
            !words.contains("refused") && !words.contains("Refused"),
            "{words}"
        ),
        Some(number) => {
            let asked = question(number).expect("a question");
            let refused = format!("Refused by question {number}: {asked} No.\n");
            assert!(words.contains(&refused), "{words}");
        }
        None => assert!(words.contains("At offset "), "{words}"),
    }
    match answer {
        Answer::Commit(Err(Refusal::BaselineBroken)) => {
            assert!(words.contains("\nThe deny matches: "), "{words}");
        }
        Answer::Commit(Err(Refusal::Conflict(named))) => {
            let other = format!("\nIt conflicts with directive {named}, which ");
            assert!(words.contains(&other), "{words}");
            assert!(words.contains("\nBoth match: "), "{words}");
        }
        Answer::Commit(Err(Refusal::Redundant)) => {
            let covered =
                words.contains(" is matched already by ") && words.contains("\n- directive ");
            let nothing = words.contains("\nIt matches no request at all: ");
            assert!(covered != nothing, "{words}");
        }
        Answer::Decide(Ok(decision)) => {
            let basis = format!("basis {}", decision.basis.number());
            assert!(words.contains(&basis), "{words}");
            if let Basis::Directive(number) = decision.basis {
                assert!(
                    words.contains(&format!("directive {number}, which ")),
                    "{words}"
                );
            }
        }
        Answer::Brief(Ok(brief)) => {
            let [low, high] = brief.words.map(u128::from);
            let disclosed = records(high << 64 | low);
            assert!(words.ends_with(&format!(": {disclosed}.")), "{words}");
        }
        _ => {}
    }
}

/// The requests that the words name for 12 and 13, read back from the words
/// and put to the directives.
#[test]
fn named_requests_are_matched() {
    let mut found = [0; 2];
    for input in inputs(34, 0, 600).filter(|input| input.index != 100 && input.index != 101) {
        let mut replay = Replay::new(&input.bytes);
        let mut explanations = Explanations::of(&input.bytes);
        replay.next();
        explanations.next();
        while let Some(ledger) = replay.ledger().cloned() {
            let mut bytes = replay.bytes();
            let answer = replay.next();
            let words = explanations.next().map(|explained| explained.words);
            let Some(Answer::Commit(Err(refusal))) = answer else {
                continue;
            };
            let words = words.expect("words");
            let draft = bytes.field().expect("a call").1;
            let (named, sentence) = match refusal {
                Refusal::Conflict(named) => (Some(named), "Both match: "),
                Refusal::BaselineBroken => (None, "The deny matches: "),
                _ => continue,
            };
            let request = request(words.split_once(sentence).expect("a request").1);
            let register = ledger.register();
            let fields = Fields::decode(draft.try_into().expect("25 bytes"));
            let draft = Directive::from_fields(&fields).expect("in range");
            assert!(request.minute >= ledger.clock() && register.has_role(request.role));
            assert!(draft.matches(register, &request), "{words}");
            match named {
                Some(named) => {
                    let mut active = ledger.active().iter();
                    let other = active.find(|other| other.number == named).expect("active");
                    assert!(other.matches(register, &request), "{words}");
                    found[0] += 1;
                }
                None => {
                    let author = register.record(request.record).expect("a record").author;
                    assert!(request.person == ledger.patient() || request.person == author);
                    found[1] += 1;
                }
            }
        }
    }
    assert!(found.iter().all(|count| *count > 50), "{found:?}");
}

/// The request of a sentence that `Words::request` gave.
fn request(sentence: &str) -> Request {
    let after = |words: &str| -> u32 {
        let rest = sentence.split_once(words).expect("these words").1;
        let digits: String = rest.chars().take_while(char::is_ascii_digit).collect();
        digits.parse().expect("a number")
    };
    Request {
        person: after("person ") as u16,
        role: after(" in role ") as u16,
        origin: after(" from origin ") as u8,
        record: after(" access to record ") as u8,
        purpose: after("purpose ") as u8,
        minute: after(", in minute "),
    }
}

#[test]
fn generated_cards() {
    for input in inputs(32, 1500, 0) {
        let explained = card_line(&input.bytes);
        let answer = cardcheck(input.bytes.as_slice()).expect("bytes can be read");
        assert_eq!(explained.line, answer.to_string());
        assert_eq!(explained.kind, Some(Kind::Card));
        check_words(&answer, &explained.words);
    }
}

/// A replay of many calls, one line after another.
#[test]
fn many_calls() {
    let input = inputs(33, 0, 101).last().expect("an input");
    let lines = Explanations::of(&input.bytes);
    let mut answers = Replay::new(&input.bytes);
    let mut count = 0;
    for explained in lines {
        let answer = answers.next().expect("a line");
        assert_eq!(explained.line, answer.to_string());
        count += 1;
    }
    assert_eq!(answers.next(), None);
    assert!(count > MANY_CALLS, "{count}");
}

#[test]
fn lines_of_another_program() {
    let card = sample().bytes();
    let write = format!("0 56 {}", hex(&card));
    let longer = format!("0 57 {}", hex(&card));
    let cases = [
        (Kind::Card, "0 3 1", "accepted: a card with 3 records and 1 active directive"),
        (Kind::Card, "5 0 0", "refused by question 5: At the card's end: were the head, the roles and a record read?"),
        (Kind::Card, "5", "no line that a card can get"),
        (Kind::Card, "14 0 0", "refused by question 14: Is it not redundant: does it match a request that no active directive of its effect matches? (never put to a card)"),
        (Kind::Commit, "0", "accepted: the directive becomes active"),
        (Kind::Commit, "13 9", "refused by question 13: Is it free of conflict with the active directives? No, with directive 9."),
        (Kind::Commit, "13", "no line that a commit can get"),
        (Kind::Commit, "13 65536", "no line that a commit can get"),
        (Kind::Commit, "25", "refused by 25, no question of document 01"),
        (Kind::Revoke, "0", "accepted: the directive is removed"),
        (Kind::Revoke, "15 1", "no line that a revoke can get"),
        (Kind::Advance, "0 1 2", "accepted: 1 directive and 2 tokens ran out"),
        (Kind::Advance, "0", "no line that an advance can get"),
        (Kind::Issue, "0", "accepted: the token becomes live"),
        (Kind::Decide, "0 1 4", "permit, basis 4, the default consent"),
        (Kind::Decide, "0 0 3 12", "deny, basis 3, directive 12"),
        (Kind::Decide, "0 0 1", "deny, basis 1, the patient's own access, which never denies"),
        (Kind::Decide, "0 1 3", "no line that a decide can get"),
        (Kind::Decide, "0 1 5", "no line that a decide can get"),
        (Kind::Decide, "0 01 4", "no line that a decide can get"),
        (Kind::Brief, "0 2 1 2", "discloses records 1, 64; count 2"),
        (Kind::Brief, "0 2 1 3", "discloses records 1, 64; count 3, and 2 bits are set"),
        (Kind::Brief, "0 2 1", "no line that a brief can get"),
        (Kind::Preview, "0 6 1 3", "would change records 1, 2, 64; count 3"),
        (Kind::Preview, "0 6 1 2", "would change records 1, 2, 64; count 2, and 3 bits are set"),
        (Kind::Preview, "0 0 0 0", "would change no record; count 0"),
        (Kind::Preview, "13 7", "refused by question 13: Is it free of conflict with the active directives? No, with directive 7."),
        (Kind::Preview, "13", "no line that a preview can get"),
        (Kind::Preview, "0", "no line that a preview can get"),
        (Kind::Preview, "15", "refused by question 15: Is a directive of that number active? (never put to a preview)"),
        (Kind::Write, &write, "written: edition 2, patient person 7, clock at minute 1000, 4 roles, 3 records, no directives; 56 bytes"),
        (Kind::Write, &longer, "written: edition 2, patient person 7, clock at minute 1000, 4 roles, 3 records, no directives; 56 bytes, and the line says 57"),
        (Kind::Write, "0 2 0100", "written: 2 bytes that are refused as a card by question 1"),
        (Kind::Write, "0 2 01A0", "no line that a write can get"),
        (Kind::Write, "0 2 010", "no line that a write can get"),
        (Kind::Write, "malformed", "the replay is malformed and ends here"),
        (Kind::Write, "", "no line that a write can get"),
    ];
    for (kind, line, expected) in cases {
        assert_eq!(answer_in_words(Some(kind), line), expected, "{line}");
    }
    assert_eq!(answer_in_words(None, "0 1 4"), "accepted");
    assert_eq!(
        answer_in_words(None, "15"),
        "refused by question 15: Is a directive of that number active?"
    );
    assert_eq!(answer_in_words(None, "hello"), "no line of an answer");
}
