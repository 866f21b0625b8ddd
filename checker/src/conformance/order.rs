//! The order of the questions: an input that misses two gets the first number.

use crate::bytes::field;
use crate::card::{DIRECTIVE, RECORD, ROLES};
use crate::directive::Fields;
use crate::request::Query;

use super::drafts::denies;
use super::sample::*;
use super::scenario::{on, on_empty, on_sample, Scenario};
use super::Source::{self, Decisions, Says};
use super::{Case, Topic};

const TOPIC: Topic = Topic("order of questions");
const ORDER: Source = Says(
    "Put in this order for each call; the first \"no\" gives its number and only that, except 13, \
     which adds the lowest number of an active directive that the draft conflicts with.",
);

pub fn cases() -> Vec<Case> {
    [
        fields(),
        fields_in_order(),
        drafts(),
        drafts_on_a_full_list(),
        one_after_another(),
        card_directives(),
        tokens_and_writes(),
    ]
    .concat()
}

fn card(id: &'static str, reading: &'static str, source: Source, card: &[u8], line: &str) -> Case {
    TOPIC.case(id, reading, source, Scenario::of_card(card, line))
}

/// One field that misses two questions.
fn fields() -> Vec<Case> {
    let and = |bytes: &[u8]| [&sample().bytes(), bytes].concat();
    let effect_2 = Fields {
        effect: 2,
        ..directive_a()
    };
    let short: Vec<u8> = effect_2.encode().into_iter().take(24).collect();
    vec![
        card(
            "order-1-before-2",
            "A second role field that is cut short is 1; a reader that looks at the place first \
             answers 2.",
            Decisions("1.3"),
            &and(&[ROLES, 0x00, 0x04, 0x00]),
            "1 0 0",
        ),
        card(
            "order-1-before-4",
            "A cut record whose parent is out of range is 1; a reader that looks at each byte as \
             it comes answers 4.",
            ORDER,
            &and(&[RECORD, 0x00, 0x0A, 0xFF]),
            "1 0 0",
        ),
        card(
            "order-2-before-4",
            "A second role field out of range is 2; a reader that looks at the range first \
             answers 4.",
            ORDER,
            &and(&field(ROLES, &[1, 1])),
            "2 0 0",
        ),
        card(
            "order-2-before-7",
            "A card's directive of 24 bytes with effect 2 is 2; a reader that looks at the effect \
             first answers 7.",
            ORDER,
            &and(&field(DIRECTIVE, &short)),
            "2 0 0",
        ),
        card(
            "order-4-before-5",
            "Roles out of range on a card without records are 4; a reader that counts fields \
             first answers 5.",
            ORDER,
            &[sample().head(), field(ROLES, &[1])].concat(),
            "4 0 0",
        ),
    ]
}

/// Two fields that each miss a question: the first one answers.
fn fields_in_order() -> Vec<Case> {
    let decided = Decisions("1.1");
    let type_8 = record_field(&record(0, 500, 1, 1, 8, 0));
    let and = |last: &[Vec<u8>]| [sample().bytes(), last.concat()].concat();
    let conflict = sample().with(&[directive_a(), draft(PERMIT, (PERSON, 600), 1, 0)]);
    vec![
        card(
            "order-field-4-then-2",
            "A record out of range before an unknown tag is 4; a reader that looks at all tags \
             first answers 2.",
            decided,
            &and(&[type_8.clone(), field(0xFF, &[])]),
            "4 0 0",
        ),
        card(
            "order-field-2-then-4",
            "An unknown tag before a record out of range is 2; a reader that goes by the higher \
             number answers 4.",
            decided,
            &and(&[field(0xFF, &[]), type_8]),
            "2 0 0",
        ),
        card(
            "order-field-13-then-1",
            "A directive in conflict before a byte left over is 13; a reader that splits the card \
             into fields first answers 1.",
            decided,
            &[conflict.bytes(), vec![0x04]].concat(),
            "13 0 0",
        ),
    ]
}

fn drafts() -> Vec<Case> {
    let kind_2 = draft(PERMIT, (2, 99), 1, 0);
    let effect_2 = Fields {
        effect: 2,
        ..kind_2
    };
    let short: Vec<u8> = effect_2.encode().into_iter().take(24).collect();
    let empty_set = Fields {
        ps: 0,
        ..draft(PERMIT, (PERSON, 600), 200, 0)
    };
    let unknown = over(2000, 1000, draft(PERMIT, (ROLE, 99), 1, 0));
    let a = directive_a();
    let permit_502 = numbered(1, draft(PERMIT, (PERSON, 502), 2, 0));
    let deny_502 = draft(DENY, (PERSON, 502), 2, 0);
    vec![
        TOPIC.case(
            "order-6-before-7",
            "24 bytes with effect 2 are 6; an implementation that looks at the effect first \
             answers 7.",
            ORDER,
            on_sample().commit_bytes(&short, "6"),
        ),
        TOPIC.case(
            "order-7-before-8-role",
            "Kind 2 with role 99 is 7; an implementation that looks for the role first answers 8.",
            Decisions("3.8"),
            on_sample().commit(kind_2, "7"),
        ),
        TOPIC.case(
            "order-7-before-8-record",
            "An empty set on record 200 is 7; an implementation that looks for the record first \
             answers 8.",
            Decisions("3.8"),
            on_sample().commit(empty_set, "7"),
        ),
        TOPIC.case(
            "order-8-before-9",
            "Role 99 with minutes 2000..1000 is 8; an implementation that looks at the minutes \
             first answers 9.",
            ORDER,
            on_sample().commit(unknown, "8"),
        ),
        TOPIC.case(
            "order-9-before-10",
            "A taken number with until = clock is 9; an implementation that looks at the number \
             first answers 10.",
            ORDER,
            on_sample().commit(a, "0").commit(over(900, 1000, a), "9"),
        ),
        TOPIC.case(
            "order-10-before-12-to-14",
            "A taken number is 10, though the draft also denies the patient, is in conflict or is \
             redundant; an implementation that looks at these first answers 12, 13 1 or 14.",
            ORDER,
            on_sample()
                .commit(a, "0")
                .commit(numbered(1, draft(DENY, (PERSON, 7), 1, 0)), "10")
                .commit(numbered(1, draft(PERMIT, (PERSON, 600), 1, 0)), "10")
                .commit(a, "10"),
        ),
        TOPIC.case(
            "order-12-before-13",
            "A deny of an author against a permit of the same author is 12; an implementation \
             that looks for conflicts first answers 13 1.",
            ORDER,
            on_sample().commit(permit_502, "0").commit(deny_502, "12"),
        ),
        TOPIC.case(
            "order-12-before-14",
            "A deny of an author that a deny of role 0 covers is 12; an implementation that looks \
             for redundancy first answers 14.",
            ORDER,
            on_sample()
                .commit(numbered(1, draft(DENY, (ROLE, 0), 2, 0)), "0")
                .commit(deny_502, "12"),
        ),
    ]
}

fn drafts_on_a_full_list() -> Vec<Case> {
    let decided = Decisions("3.13");
    let full_list = || on_sample().commit_all(&denies(32));
    let deny = |number, person| numbered(number, draft(DENY, (PERSON, person), 1, 0));
    vec![
        TOPIC.case(
            "order-10-before-11",
            "A taken number with 32 active is 10; an implementation that counts first answers 11.",
            decided,
            full_list().commit(deny(32, 600), "10"),
        ),
        TOPIC.case(
            "order-11-before-12-to-14",
            "With 32 active a deny of the patient, a conflict and a redundant draft are 11; an \
             implementation that counts last answers 12, 13 1 and 14.",
            decided,
            full_list()
                .commit(deny(33, 7), "11")
                .commit(numbered(33, draft(PERMIT, (PERSON, 1001), 1, 0)), "11")
                .commit(deny(33, 1001), "11"),
        ),
    ]
}

/// A draft that misses every question, mended one by one.
fn one_after_another() -> Vec<Case> {
    let permit_502 = numbered(40, draft(PERMIT, (PERSON, 502), 2, 0));
    let worst = Fields {
        effect: 2,
        ..over(900, 1000, numbered(1, draft(DENY, (ROLE, 99), 2, 0)))
    };
    let short: Vec<u8> = worst.encode().into_iter().take(24).collect();
    let effect = Fields {
        effect: DENY,
        ..worst
    };
    let subject = Fields {
        kind: PERSON,
        subject: 502,
        ..effect
    };
    let minutes = over(1000, 2000, subject);
    let number = numbered(99, minutes);
    let role = Fields {
        kind: ROLE,
        subject: 0,
        ..number
    };
    let covered = numbered(99, draft(DENY, (PERSON, 1001), 1, 0));
    let new = numbered(99, draft(DENY, (PERSON, 600), 1, 0));
    let scenario = on_sample()
        .commit_all(&denies(31))
        .commit(permit_502, "0")
        .commit_bytes(&short, "6")
        .commit(worst, "7")
        .commit(effect, "8")
        .commit(subject, "9")
        .commit(minutes, "10")
        .commit(number, "11")
        .revoke(31, "0")
        .commit(number, "12")
        .commit(role, "13 40")
        .commit(covered, "14")
        .commit(new, "0");
    vec![TOPIC.case(
        "order-6-to-14-one-after-another",
        "A draft that misses 6 to 12 is mended one fault a commit and gets 6, 7, 8 and so on to \
         12, then drafts that miss 13 and 14 alone; an implementation with another order leaves \
         this row.",
        ORDER,
        scenario,
    )]
}

fn card_directives() -> Vec<Case> {
    let decided = Decisions("1.10");
    let a = directive_a();
    let mut taken = denies(32);
    taken.push(numbered(5, draft(DENY, (PERSON, 600), 1, 0)));
    let mut of_patient = denies(32);
    of_patient.push(numbered(33, draft(DENY, (PERSON, 7), 1, 0)));
    let rows: [(_, _, &[Fields], _); 6] = [
        (
            "order-card-7-before-8",
            "A card's directive with reach 4 on record 200 is 7; a reader that looks for the \
             record first answers 8.",
            &[draft(PERMIT, (PERSON, 600), 200, 4)],
            "7 0 0",
        ),
        (
            "order-card-8-before-9",
            "A card's directive of role 99 that has run out is 8; a reader that drops what has \
             run out, or looks at minutes first, accepts or answers 9.",
            &[over(900, 1000, draft(PERMIT, (ROLE, 99), 1, 0))],
            "8 0 0",
        ),
        (
            "order-card-9-before-10",
            "A card's directive that has run out under a taken number is 9; a reader that looks \
             at the number first answers 10.",
            &[a, over(900, 1000, a)],
            "9 0 0",
        ),
        (
            "order-card-10-before-11",
            "A 33rd directive under a taken number is 10; a reader that counts first answers 11.",
            &taken,
            "10 0 0",
        ),
        (
            "order-card-11-before-12",
            "A 33rd directive that denies the patient is 11; a reader that looks at the baseline \
             first answers 12.",
            &of_patient,
            "11 0 0",
        ),
        (
            "order-card-12-before-13",
            "A card's deny of an author against its permit of the same author is 12; a reader \
             that looks for conflicts first answers 13.",
            &[
                numbered(1, draft(PERMIT, (PERSON, 502), 2, 0)),
                draft(DENY, (PERSON, 502), 2, 0),
            ],
            "12 0 0",
        ),
    ];
    rows.map(|(id, reading, directives, line)| {
        card(
            id,
            reading,
            decided,
            &sample().with(directives).bytes(),
            line,
        )
    })
    .to_vec()
}

fn tokens_and_writes() -> Vec<Case> {
    let decided = Decisions("4.12");
    let four = || {
        [1, 2, 3, 4]
            .into_iter()
            .fold(on_sample(), |scenario, number| {
                scenario.issue(number, 600, 1, 30, "0")
            })
    };
    vec![
        TOPIC.case(
            "order-18-before-19",
            "No state and length 0 are 18; an implementation that looks at the length first \
             answers 19.",
            decided,
            on_sample()
                .issue(1, 600, 0, 0, "18")
                .issue(1, 600, 0, 241, "18"),
        ),
        TOPIC.case(
            "order-19-before-20",
            "Length 0 under a taken number is 19, as is 241; an implementation that looks at the \
             number first answers 20.",
            decided,
            four().issue(1, 600, 1, 0, "19").issue(1, 600, 1, 241, "19"),
        ),
        TOPIC.case(
            "order-20-before-21",
            "A taken number with four tokens live is 20; an implementation that counts first \
             answers 21.",
            decided,
            four().issue(4, 601, 1, 30, "20").issue(5, 601, 1, 30, "21"),
        ),
        TOPIC.case(
            "order-23-before-24",
            "A write without records and with a buffer of no bytes is 23; an implementation that \
             measures first answers 24.",
            Decisions("4.18"),
            on_empty().write(0, "23"),
        ),
        TOPIC.case(
            "order-17-before-basis-3",
            "A query out of range is 17 though a directive matches its other parts; an \
             implementation that looks for directives first answers 0 0 3 1.",
            Decisions("4.1"),
            on(&sample().with(&[directive_a()]))
                .decide(
                    Query {
                        purpose: 11,
                        ..query_q()
                    },
                    "17",
                )
                .decide(query_q(), "0 0 3 1"),
        ),
    ]
}
