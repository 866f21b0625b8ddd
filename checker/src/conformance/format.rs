//! The replay itself: where it is malformed, and how numbers stand in it.

use crate::bytes::field;
use crate::replay::Call;

use super::sample::*;
use super::scenario::{on_sample, Scenario};
use super::Source::{self, Decisions};
use super::{Case, Topic};

const TOPIC: Topic = Topic("format");
const DECIDED: Source = Decisions("7.3");

pub fn cases() -> Vec<Case> {
    [cards(), headers(), tags(), lengths(), others()].concat()
}

/// Only the card, which does not stand whole.
fn malformed(input: &[u8]) -> Scenario {
    Scenario {
        input: input.to_vec(),
        lines: vec!["malformed".to_string()],
    }
}

fn cards() -> Vec<Case> {
    let card = sample().bytes();
    let length = [0x00, 0x38];
    let short: Vec<u8> = card.iter().copied().take(55).collect();
    vec![
        TOPIC.case(
            "format-empty-input",
            "No input has not even a card's length, malformed; a program that takes it for the \
             empty card prints 5 0 0.",
            DECIDED,
            malformed(&[]),
        ),
        TOPIC.case(
            "format-half-a-length",
            "One byte is no length, malformed; a program that reads 0 for the other prints 5 0 0.",
            DECIDED,
            malformed(&[0x00]),
        ),
        TOPIC.case(
            "format-card-cut",
            "A card of length 56 with 55 bytes is malformed; a program that reads the card as it \
             stands prints 1 0 0.",
            DECIDED,
            malformed(&[&length[..], &short].concat()),
        ),
        TOPIC.case(
            "format-length-low-byte-first",
            "Length 38 00 is 14,336, so the card is not whole, malformed; a program with the low \
             byte first reads the card.",
            DECIDED,
            malformed(&[&[0x38, 0x00][..], &card].concat()),
        ),
        TOPIC.case(
            "format-longest-card",
            "A card of 65,535 bytes is read to its end, where a field has no place, and the next \
             call is answered; a program with a smaller buffer stops.",
            Decisions("1.16"),
            Scenario::of_card(&[card, field(0xFF, &[0; 65_476])].concat(), "2 0 0")
                .decide(query_q(), "17"),
        ),
    ]
}

/// The first line, then `malformed`.
fn then_malformed(bytes: &[u8]) -> Scenario {
    on_sample().bytes(bytes, "malformed")
}

fn headers() -> Vec<Case> {
    let decide = Call::Decide(query_q()).encode();
    let cut: Vec<u8> = decide.iter().copied().take(9).collect();
    vec![
        TOPIC.case(
            "format-tag-alone",
            "A tag without a length is malformed; a program that stops there prints no line for \
             it.",
            DECIDED,
            then_malformed(&[0x14]),
        ),
        TOPIC.case(
            "format-half-a-header",
            "A tag and half a length are malformed; a program that reads 0 for the rest answers a \
             commit with 6.",
            DECIDED,
            then_malformed(&[0x10, 0x00]),
        ),
        TOPIC.case(
            "format-value-cut",
            "A decide without its last byte is malformed; a program that reads 0 for it answers 0 \
             1 4.",
            DECIDED,
            then_malformed(&cut),
        ),
        TOPIC.case(
            "format-commit-cut",
            "A commit of length 25 with 24 bytes left is malformed; a program that hands over \
             what is left answers 6.",
            DECIDED,
            then_malformed(&[&[0x10, 0x00, 0x19][..], &[0; 24]].concat()),
        ),
        TOPIC.case(
            "format-line-end-after-the-calls",
            "A line end after the last call is a tag alone, malformed; a program that skips \
             blanks prints nothing for it.",
            DECIDED,
            on_sample()
                .decide(query_q(), "0 1 4")
                .bytes(&[0x0A], "malformed"),
        ),
    ]
}

fn tags() -> Vec<Case> {
    let after =
        |tag: u8, value: &[u8]| then_malformed(&field(tag, value)).unread(&Call::Decide(query_q()));
    vec![
        TOPIC.case(
            "format-tag-00",
            "Tag 0x00 is unknown, and the replay ends there; a program that skips it answers the \
             decide after it.",
            DECIDED,
            after(0x00, &[]),
        ),
        TOPIC.case(
            "format-tag-ff",
            "Tag 0xFF is unknown with whatever value; a program that skips the value answers the \
             decide after it.",
            DECIDED,
            after(0xFF, &[1, 2, 3]),
        ),
        TOPIC.case(
            "format-tag-of-a-card",
            "A head field is no call, malformed; a program that reads a second card prints a line \
             for it.",
            DECIDED,
            on_sample().bytes(&sample().head(), "malformed"),
        ),
    ]
}

/// Each call with a byte less and a byte more, and a call after it.
fn lengths() -> Vec<Case> {
    let issue = Call::Issue {
        number: 9,
        person: 600,
        states: 1,
        length: 30,
    };
    let brief = Call::Brief {
        number: 9,
        person: 600,
    };
    let rows = [
        (
            ("format-revoke-of-1", "format-revoke-of-3"),
            Call::Revoke { number: 1 },
        ),
        (
            ("format-advance-of-3", "format-advance-of-5"),
            Call::Advance { minute: 1000 },
        ),
        (("format-issue-of-8", "format-issue-of-10"), issue),
        (
            ("format-decide-of-6", "format-decide-of-8"),
            Call::Decide(query_q()),
        ),
        (("format-brief-of-3", "format-brief-of-5"), brief),
        (
            ("format-write-of-1", "format-write-of-3"),
            Call::Write { buffer: 100 },
        ),
    ];
    let resized = |call: &Call, change: fn(&mut Vec<u8>)| {
        let bytes = call.encode();
        let mut value: Vec<u8> = bytes.iter().copied().skip(3).collect();
        change(&mut value);
        let tag = bytes.first().copied().unwrap_or(0);
        then_malformed(&field(tag, &value)).unread(&Call::Decide(query_q()))
    };
    let pairs = rows.iter().map(|((shorter, longer), call)| {
        [
            TOPIC.case(
                shorter,
                "A call with a byte less than its length is malformed and ends the replay; a \
                 program that fills up with 0 answers it.",
                DECIDED,
                resized(call, |value| value.truncate(value.len().saturating_sub(1))),
            ),
            TOPIC.case(
                longer,
                "A call with a byte more than its length is malformed and ends the replay; a \
                 program that takes the first bytes answers it.",
                DECIDED,
                resized(call, |value| value.push(0)),
            ),
        ]
    });
    pairs.flatten().collect()
}

fn others() -> Vec<Case> {
    let deny = |number, person| numbered(number, draft(DENY, (PERSON, person), 1, 0));
    vec![
        TOPIC.case(
            "format-numbers-high-byte-first",
            "Bytes 01 02 are number 258 and 02 01 are 513, in drafts and in calls; a program with \
             the low byte first in one of them answers 15.",
            DECIDED,
            on_sample()
                .commit(deny(0x0102, 600), "0")
                .field(0x11, &[0x02, 0x01], "15")
                .field(0x11, &[0x01, 0x02], "0"),
        ),
        TOPIC.case(
            "format-minutes-high-byte-first",
            "Bytes 00 00 03 E9 are minute 1001; a program with the low byte first takes \
             3,909,287,936 and refuses 1002.",
            DECIDED,
            on_sample()
                .field(0x12, &[0x00, 0x00, 0x03, 0xE9], "0 0 0")
                .field(0x12, &[0x00, 0x00, 0x03, 0xEA], "0 0 0"),
        ),
    ]
}
