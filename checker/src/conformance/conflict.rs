//! Question 13: conflicts with the active.

use crate::directive::Fields;

use super::drafts::denies;
use super::sample::*;
use super::scenario::{on, on_sample, Scenario};
use super::Source::{self, Decisions, Says};
use super::{Case, Topic};

const QUESTION: Topic = Topic("question 13");
const CONFLICT: Source =
    Says("A conflict is a request matched by two directives of opposite effect.");

pub fn cases() -> Vec<Case> {
    [subjects(), dimensions(), records(), names(), others()].concat()
}

/// The active directive of most cases: number 1, deny, record 1.
fn deny(subject: (u8, u16)) -> Fields {
    numbered(1, draft(DENY, subject, 1, 0))
}

fn permit(subject: (u8, u16)) -> Fields {
    draft(PERMIT, subject, 1, 0)
}

fn subjects() -> Vec<Case> {
    let rows = [
        (
            "q13-same-person",
            "Permit and deny of one person are in conflict; an implementation that lets the later \
             one win accepts.",
            (PERSON, 600),
            (PERSON, 600),
            "13 1",
        ),
        (
            "q13-other-person",
            "Two persons share no request; an implementation that leaves out the subject answers \
             13.",
            (PERSON, 600),
            (PERSON, 601),
            "0",
        ),
        (
            "q13-person-against-role",
            "Any person may present any role, so a permit of a person meets a deny of a role; an \
             implementation that asks who has the role accepts.",
            (ROLE, 3),
            (PERSON, 600),
            "13 1",
        ),
        (
            "q13-role-against-person",
            "Any person may present any role, so a permit of a role meets a deny of a person; an \
             implementation that asks who has the role accepts.",
            (PERSON, 600),
            (ROLE, 2),
            "13 1",
        ),
        (
            "q13-role-below",
            "Role 1 covers role 2, so a permit of role 2 meets a deny of role 1; an \
             implementation that compares role numbers accepts.",
            (ROLE, 1),
            (ROLE, 2),
            "13 1",
        ),
        (
            "q13-role-above",
            "A permit of role 1 meets a deny of role 2 in role 2; an implementation that looks \
             upwards only accepts.",
            (ROLE, 2),
            (ROLE, 1),
            "13 1",
        ),
        (
            "q13-role-two-steps-below",
            "Role 0 covers role 2 by two steps; an implementation that looks at the parent alone \
             accepts.",
            (ROLE, 0),
            (ROLE, 2),
            "13 1",
        ),
        (
            "q13-roles-apart",
            "Roles 1 and 3 share no role below, although role 0 is above both; an implementation \
             that looks for a role above both answers 13.",
            (ROLE, 1),
            (ROLE, 3),
            "0",
        ),
    ];
    rows.map(|(id, reading, active, subject, line)| {
        let scenario = on_sample()
            .commit(deny(active), "0")
            .commit(permit(subject), line);
        QUESTION.case(id, reading, Decisions("2.3"), scenario)
    })
    .to_vec()
}

fn dimensions() -> Vec<Case> {
    let role = (ROLE, 1);
    let origins = |set, draft| Fields {
        subject_origins: set,
        ..draft
    };
    let purposes = |set, draft| Fields {
        purposes: set,
        ..draft
    };
    let rows = [
        (
            "q13-origins",
            "Subject origins 0x0FF0 and 0xF00F share none, and 0xF01F one; an implementation that \
             leaves origins out answers 13 twice.",
            origins(0x0FF0, deny(role)),
            origins(0xF00F, permit(role)),
            origins(0xF01F, permit(role)),
        ),
        (
            "q13-purposes",
            "Purposes 0x0555 and 0x02AA share none, and 0x06AA one; an implementation that leaves \
             purposes out answers 13 twice.",
            purposes(0x0555, deny(role)),
            purposes(0x02AA, permit(role)),
            purposes(0x06AA, permit(role)),
        ),
        (
            "q13-minutes-before",
            "1000..1200 meets 1200..1400 without sharing a minute, and 1000..1201 shares one; an \
             implementation that counts until as shared answers 13 twice.",
            over(1200, 1400, deny(role)),
            over(1000, 1200, permit(role)),
            over(1000, 1201, permit(role)),
        ),
        (
            "q13-minutes-after",
            "1400..1500 meets 1200..1400 without sharing a minute, and 1399..1500 shares one; an \
             implementation that counts until as shared answers 13 twice.",
            over(1200, 1400, deny(role)),
            over(1400, 1500, permit(role)),
            over(1399, 1500, permit(role)),
        ),
        (
            "q13-records",
            "Record 0 alone is not among its descendants, and its children are; an implementation \
             that takes reach 2 with the record itself answers 13 twice.",
            directive_a(),
            draft(PERMIT, role, 0, 0),
            draft(PERMIT, role, 0, 1),
        ),
        (
            "q13-filtered-by-ps",
            "With ps 0x0001 a permit on all descendants leaves out record 2, the only one denied, \
             and with 0x0003 not; an implementation that looks at reach alone answers 13 twice.",
            numbered(1, draft(DENY, role, 2, 0)),
            Fields {
                ps: 0x0001,
                ..draft(PERMIT, role, 0, 2)
            },
            Fields {
                ps: 0x0003,
                ..draft(PERMIT, role, 0, 2)
            },
        ),
    ];
    rows.map(|(id, reading, active, apart, shared)| {
        let scenario = on_sample()
            .commit(active, "0")
            .commit(apart, "0")
            .commit(numbered(3, shared), "13 1");
        QUESTION.case(id, reading, CONFLICT, scenario)
    })
    .to_vec()
}

/// Conflicts in one record of a full register.
fn records() -> Vec<Case> {
    let rows = [
        (
            "q13-record-64",
            "A conflict in record 64 alone is found; an implementation with one word of 64 \
             records accepts.",
            64,
        ),
        (
            "q13-record-127",
            "A conflict in record 127 alone is found; an implementation that leaves out the last \
             record accepts.",
            127,
        ),
    ];
    rows.map(|(id, reading, record)| {
        let scenario = on(&full())
            .commit(numbered(9, draft(DENY, (ROLE, 15), record, 0)), "0")
            .commit(draft(PERMIT, (PERSON, 600), 0, 2), "13 9");
        QUESTION.case(id, reading, CONFLICT, scenario)
    })
    .to_vec()
}

fn names() -> Vec<Case> {
    let decided = Decisions("3.7");
    let on_record = |number, record| numbered(number, draft(DENY, (ROLE, 1), record, 0));
    let for_purpose = |number, purposes| Fields {
        purposes,
        ..on_record(number, 2)
    };
    let children = numbered(1, draft(PERMIT, (ROLE, 1), 0, 2));
    vec![
        QUESTION.case(
            "q13-names-the-lowest",
            "Of 300, 20 and 40, which the draft conflicts with, 13 names 20, and not 5, which it \
             does not meet; an implementation that names the first or the last found names 300 \
             or 40.",
            decided,
            on_sample()
                .commit_all(&[
                    on_record(300, 1),
                    for_purpose(20, 0x0001),
                    for_purpose(40, 0x0002),
                    on_record(5, 0),
                ])
                .commit(children, "13 20"),
        ),
        QUESTION.case(
            "q13-names-by-value",
            "Of 0x0100 and 0x00FF the lower is 0x00FF, 255; an implementation that compares low \
             bytes names 256.",
            decided,
            on_sample()
                .commit_all(&[on_record(0x0100, 1), on_record(0x00FF, 2)])
                .commit(children, "13 255"),
        ),
        QUESTION.case(
            "q13-names-0-and-65535",
            "13 can name 65,535, and 0 once it is there; an implementation that takes 0 for no \
             conflict answers 65,535 or accepts.",
            decided,
            on_sample()
                .commit(on_record(65_535, 1), "0")
                .commit(children, "13 65535")
                .commit(on_record(0, 2), "0")
                .commit(children, "13 0"),
        ),
    ]
}

fn others() -> Vec<Case> {
    let baseline = Decisions("3.4");
    vec![
        QUESTION.case(
            "q13-patient-counts",
            "A permit of the patient meets a deny of a role, as baseline requests count; an \
             implementation that leaves them out accepts.",
            baseline,
            on_sample()
                .commit(directive_a(), "0")
                .commit(permit((PERSON, 7)), "13 1"),
        ),
        QUESTION.case(
            "q13-only-later-minutes",
            "A conflict in later minutes alone is refused now; an implementation that asks at the \
             clock accepts.",
            CONFLICT,
            on_sample()
                .commit(over(1900, 2000, deny((ROLE, 1))), "0")
                .commit(over(1000, 1950, permit((ROLE, 2))), "13 1"),
        ),
        QUESTION.case(
            "q13-deny-against-permit",
            "A deny against an active permit is in conflict as the other way round; an \
             implementation in which deny overrides accepts.",
            CONFLICT,
            on_sample()
                .commit(numbered(1, permit((ROLE, 1))), "0")
                .commit(numbered(2, deny((PERSON, 600))), "13 1"),
        ),
        QUESTION.case(
            "q13-with-the-last-of-31",
            "Of 31 active directives the draft meets the last alone; an implementation that stops \
             early accepts.",
            CONFLICT,
            on_sample()
                .commit_all(&denies(31))
                .commit(numbered(40, permit((PERSON, 1031))), "13 31"),
        ),
        QUESTION.case(
            "q13-card",
            "A conflict on a card is 13 with two zeros, as for any refused card; a program that \
             prints the number named prints 13 1.",
            Decisions("1.10 1.14"),
            Scenario::of_card(
                &sample()
                    .with(&[deny((ROLE, 1)), permit((PERSON, 600))])
                    .bytes(),
                "13 0 0",
            ),
        ),
        QUESTION.case(
            "q13-selects-nothing",
            "A permit that selects nothing is in no conflict and is 14; an implementation that \
             compares reaches by their record answers 13.",
            Decisions("3.1"),
            on_sample()
                .commit(numbered(1, draft(DENY, (ROLE, 0), 2, 0)), "0")
                .commit(draft(PERMIT, (ROLE, 0), 2, 1), "14"),
        ),
    ]
}
