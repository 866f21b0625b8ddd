//! Replays: their lines and their ends.

use checker::bytes::{field, hex};
use checker::directive::Fields;
use checker::random::Random;
use checker::replay::{decode, encode, Call, Decoded, Replay};
use checker::request::{Query, Requester};

use crate::support::*;

fn lines(input: &[u8]) -> Vec<String> {
    Replay::new(input)
        .map(|answer| answer.to_string())
        .collect()
}

fn commit_call(draft: Fields) -> Call {
    Call::Commit {
        draft: draft.encode().to_vec(),
    }
}

#[test]
fn a_line_for_the_card_and_each_call() {
    let card = sample().bytes();
    let permit_600 = numbered(65535, draft(PERMIT, (PERSON, 600), 1, 0));
    let calls = [
        Call::Decide(query_q()),
        Call::Preview {
            requester: requester_q(),
            draft: directive_a().encode().to_vec(),
        },
        commit_call(directive_a()),
        Call::Preview {
            requester: requester_q(),
            draft: permit_600.encode().to_vec(),
        },
        commit_call(permit_600),
        Call::Decide(query_q()),
        Call::Commit { draft: vec![0; 24] },
        Call::Commit { draft: Vec::new() },
        Call::Revoke { number: 65535 },
        Call::Issue {
            number: 9,
            person: 600,
            states: 0xFF,
            length: 30,
        },
        Call::Issue {
            number: 9,
            person: 600,
            states: 0,
            length: 30,
        },
        Call::Brief {
            number: 9,
            person: 600,
        },
        Call::Brief {
            number: 9,
            person: 601,
        },
        Call::Write { buffer: 0 },
        Call::Write { buffer: 65535 },
        Call::Advance { minute: 999 },
        Call::Advance { minute: 2000 },
        Call::Decide(Query {
            origin: 16,
            ..query_q()
        }),
        Call::Decide(Query {
            person: 7,
            ..query_q()
        }),
    ];
    let with_a = sample().with(&[directive_a()]).bytes();
    let write = format!("0 {} {}", with_a.len(), hex(&with_a));
    let expected = [
        "0 3 0", "0 1 4", "0 6 0 2", "0", "13 1", "13 1", "0 0 3 1", "6", "6", "15", "0", "18",
        "0 2 0 1", "22", "24", &write, "16", "0 1 1", "17", "0 1 1",
    ];
    assert_eq!(lines(&encode(&card, &calls)), expected);
}

#[test]
fn the_digits_of_every_byte() {
    let bytes: Vec<u8> = (0..=255).collect();
    let digits: Vec<String> = bytes.iter().map(|byte| format!("{byte:02x}")).collect();
    assert_eq!(hex(&bytes), digits.concat());
    assert_eq!(hex(&[]), "");
}

#[test]
fn a_refused_card_goes_on_with_the_empty_ledger() {
    let calls = [
        commit_call(directive_a()),
        Call::Decide(query_q()),
        Call::Write { buffer: 65535 },
        Call::Issue {
            number: 1,
            person: 2,
            states: 3,
            length: 4,
        },
        Call::Brief {
            number: 1,
            person: 2,
        },
        Call::Revoke { number: 1 },
        Call::Advance { minute: 4 },
    ];
    let permit_600 = draft(PERMIT, (PERSON, 600), 1, 0);
    let conflict = sample().with(&[directive_a(), permit_600]).bytes();
    let rest = ["8", "17", "23", "0", "0 0 0 0", "15", "0 0 1"];
    for (card, first) in [(&conflict[..], "13 0 0"), (&[], "5 0 0"), (&[1], "1 0 0")] {
        let answers = lines(&encode(card, &calls));
        assert_eq!(answers[0], first);
        assert_eq!(answers[1..], rest);
    }
}

#[test]
fn the_bytes_of_the_calls() {
    let expected = [
        (
            Call::Commit {
                draft: vec![1, 2, 3],
            },
            &[0x10, 0, 3, 1, 2, 3][..],
        ),
        (Call::Revoke { number: 0x0102 }, &[0x11, 0, 2, 1, 2]),
        (
            Call::Advance {
                minute: 0x0102_0304,
            },
            &[0x12, 0, 4, 1, 2, 3, 4],
        ),
        (
            Call::Issue {
                number: 0x0102,
                person: 0x0304,
                states: 5,
                length: 0x0607_0809,
            },
            &[0x13, 0, 9, 1, 2, 3, 4, 5, 6, 7, 8, 9],
        ),
        (
            Call::Decide(Query {
                person: 0x0102,
                role: 0x0304,
                origin: 5,
                record: 6,
                purpose: 7,
            }),
            &[0x14, 0, 7, 1, 2, 3, 4, 5, 6, 7],
        ),
        (
            Call::Brief {
                number: 0x0102,
                person: 0x0304,
            },
            &[0x15, 0, 4, 1, 2, 3, 4],
        ),
        (Call::Write { buffer: 0x0102 }, &[0x16, 0, 2, 1, 2]),
        (
            Call::Preview {
                requester: Requester {
                    person: 0x0102,
                    role: 0x0304,
                    origin: 5,
                    purpose: 6,
                },
                draft: vec![7, 8],
            },
            &[0x17, 0, 8, 1, 2, 3, 4, 5, 6, 7, 8],
        ),
    ];
    for (call, bytes) in expected {
        assert_eq!(call.encode(), bytes);
        assert_eq!(Call::decode(bytes[0], &bytes[3..]), Some(call));
    }
}

#[test]
fn a_replay_in_its_parts() {
    let card = &sample().bytes()[..];
    let calls = vec![Call::Decide(query_q()), Call::Write { buffer: 0x0102 }];
    let whole = encode(card, &calls);
    let (cut, before) = (&whole[..whole.len() - 1], calls[..1].to_vec());
    let parts = |calls, rest| Some(Decoded { card, calls, rest });
    assert_eq!(decode(&whole), parts(calls, &[]));
    assert_eq!(decode(cut), parts(before, &[0x16, 0, 2, 1]));
    assert_eq!(decode(&whole[..card.len() + 1]), None);
}

#[test]
fn a_card_that_does_not_stand_whole() {
    let whole = encode(&sample().bytes(), &[]);
    assert_eq!(lines(&whole), ["0 3 0"]);
    for length in 0..whole.len() {
        assert_eq!(lines(&whole[..length]), ["malformed"], "{length} bytes");
    }
}

#[test]
fn a_call_that_does_not_stand_whole() {
    let call = Call::Decide(query_q());
    let start = encode(&sample().bytes(), std::slice::from_ref(&call));
    let whole = [start.clone(), call.encode()].concat();
    assert_eq!(lines(&whole), ["0 3 0", "0 1 4", "0 1 4"]);
    for length in start.len() + 1..whole.len() {
        let expected = ["0 3 0", "0 1 4", "malformed"];
        assert_eq!(lines(&whole[..length]), expected, "{length} bytes");
    }
}

#[test]
fn unknown_tags_and_other_lengths_end_the_replay() {
    let start = encode(&sample().bytes(), &[]);
    let after = |tag: u8, length: usize| {
        let call = field(tag, &vec![0; length]);
        let decide = Call::Decide(query_q()).encode();
        lines(&[start.clone(), call, decide].concat())
    };
    let lengths = [
        (0x11, 2),
        (0x12, 4),
        (0x13, 9),
        (0x14, 7),
        (0x15, 4),
        (0x16, 2),
    ];
    for tag in 0..=255 {
        for length in [0, 1, 2, 3, 4, 5, 6, 7, 8, 9, 10, 24, 25, 26, 27, 300] {
            let answers = after(tag, length);
            assert_eq!(answers[0], "0 3 0");
            let with_a_draft = tag == 0x10 || (tag == 0x17 && length >= 6);
            if with_a_draft || lengths.contains(&(tag, length)) {
                assert_eq!(answers.len(), 3, "tag {tag}, {length} bytes");
                assert_ne!(answers[1], "malformed");
                assert_eq!(answers[2], "0 1 4");
            } else {
                assert_eq!(answers[1..], ["malformed"], "tag {tag}, {length} bytes");
            }
        }
    }
}

#[test]
fn a_replay_of_any_length_ends() {
    let calls = vec![Call::Decide(query_q()); 20_000];
    let input = encode(&sample().bytes(), &calls);
    let mut answers = Replay::new(&input);
    assert_eq!(answers.by_ref().count(), 20_001);
    assert_eq!(answers.next(), None);
}

/// Random bytes, and random bytes with a right start, end with an answer.
#[test]
fn random_bytes_are_answered() {
    let mut random = Random::new(51);
    let start = encode(&sample().bytes(), &[]);
    let mut kinds = [0; 2];
    for case in 0..20_000 {
        let mut input = if case % 2 == 0 {
            start.clone()
        } else {
            Vec::new()
        };
        for _ in 0..random.range(0, 6) {
            let tag = 0x0F + random.up_to(8);
            let length = random.pick(&[0, 1, 2, 4, 7, 9, 25]);
            let value: Vec<u8> = (0..length).map(|_| random.u8() & random.u8()).collect();
            input.extend(field(tag, &value));
        }
        let answers = lines(&input);
        assert!(!answers.is_empty());
        let malformed = answers.iter().filter(|line| *line == "malformed").count();
        assert!(malformed < 2);
        let last = answers.last().map(String::as_str);
        assert_eq!(malformed == 1, last == Some("malformed"));
        kinds[malformed] += 1;
    }
    assert!(kinds.iter().all(|count| *count > 1000), "{kinds:?}");
}
