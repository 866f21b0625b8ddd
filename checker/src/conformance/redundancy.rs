//! Question 14: redundant drafts.

use crate::directive::Fields;

use super::sample::*;
use super::scenario::{on, on_sample, Scenario};
use super::Source::{self, Decisions, Says};
use super::{Case, Topic};

const QUESTION: Topic = Topic("question 14");
const TOGETHER: Source = Says(
    "A draft is superfluous when every request it matches is matched by an active directive of \
     its own effect, several together if need be",
);

pub fn cases() -> Vec<Case> {
    [
        alone(),
        halves(),
        mixed(),
        subjects(),
        minutes(),
        records(),
        others(),
    ]
    .concat()
}

/// Several active directives that cover the draft together, numbered from 11.
/// With all of them the draft is 14; once the last is revoked it is accepted.
pub(super) fn together(start: Scenario, active: &[Fields], draft: Fields) -> Scenario {
    let numbers = 11..;
    let active: Vec<Fields> = numbers
        .zip(active)
        .map(|(number, directive)| numbered(number, *directive))
        .collect();
    let last = active.last().map_or(0, |directive| directive.number);
    start
        .commit_all(&active)
        .commit(draft, "14")
        .revoke(last, "0")
        .commit(draft, "0")
}

fn alone() -> Vec<Case> {
    let a = directive_a();
    let b = numbered(2, a);
    let filtered = Fields {
        po: 0x0003,
        ps: 0x0003,
        pt: 0x01,
        ..a
    };
    let narrower = [
        over(1200, 1300, b),
        Fields {
            subject_origins: 0x8001,
            ..b
        },
        Fields {
            purposes: 0x0400,
            ..b
        },
        Fields { subject: 2, ..b },
        Fields {
            record: 2,
            reach: 0,
            ..b
        },
        Fields { ps: 0x0001, ..b },
    ];
    let covered = |scenario: Scenario, draft: &Fields| scenario.commit(*draft, "14");
    vec![
        QUESTION.case(
            "q14-same-again",
            "A directive again under another number is 14; an implementation that compares \
             numbers accepts it.",
            TOGETHER,
            on_sample().commit(a, "0").commit(b, "14"),
        ),
        QUESTION.case(
            "q14-narrower",
            "Fewer minutes, origins, purposes, roles or records than one directive has are 14 \
             each; an implementation that looks for equal directives accepts them.",
            TOGETHER,
            narrower.iter().fold(on_sample().commit(a, "0"), covered),
        ),
        QUESTION.case(
            "q14-other-filter-same-records",
            "An active directive with narrower filters that select the same records covers the \
             draft, 14; an implementation that compares filter sets accepts it.",
            TOGETHER,
            on_sample().commit(filtered, "0").commit(b, "14"),
        ),
    ]
}

/// Two halves of a draft in each dimension of a request.
fn halves() -> Vec<Case> {
    let a = directive_a();
    let both = |one: fn(&mut Fields), other: fn(&mut Fields)| {
        let mut halves = [a, a];
        let [first, second] = &mut halves;
        one(first);
        other(second);
        halves
    };
    let rows = [
        (
            "q14-two-by-record",
            "Records 1 and 2 by two directives cover all descendants of record 0, and the first \
             alone does not; an implementation that looks at single directives accepts the draft \
             at once.",
            both(
                |first| (first.record, first.reach) = (1, 0),
                |second| (second.record, second.reach) = (2, 0),
            ),
        ),
        (
            "q14-two-by-origin",
            "Subject origins 0x00FF and 0xFF00 cover all together; an implementation that looks \
             at single directives accepts the draft at once.",
            both(
                |first| first.subject_origins = 0x00FF,
                |second| second.subject_origins = 0xFF00,
            ),
        ),
        (
            "q14-two-by-purpose",
            "Purposes 0x0555 and 0x02AA cover all together; an implementation that looks at \
             single directives accepts the draft at once.",
            both(
                |first| first.purposes = 0x0555,
                |second| second.purposes = 0x02AA,
            ),
        ),
        (
            "q14-two-by-minute",
            "1000..1500 and 1500..2000 cover 1000..2000 together; an implementation that looks at \
             single directives accepts the draft at once.",
            both(|first| first.until = 1500, |second| second.from = 1500),
        ),
    ];
    rows.map(|(id, reading, halves)| {
        QUESTION.case(id, reading, TOGETHER, together(on_sample(), &halves, a))
    })
    .to_vec()
}

/// Covers that need more than one dimension, or many directives.
fn mixed() -> Vec<Case> {
    let a = directive_a();
    let quarter = |subject_origins, purposes| Fields {
        subject_origins,
        purposes,
        ..a
    };
    let quarters = [
        quarter(0x00FF, 0x001F),
        quarter(0x00FF, 0x07E0),
        quarter(0xFF00, 0x001F),
        quarter(0xFF00, 0x07E0),
    ];
    let crossed = [
        Fields {
            record: 1,
            reach: 0,
            until: 1600,
            ..a
        },
        Fields {
            record: 1,
            reach: 0,
            from: 1400,
            ..a
        },
        Fields {
            record: 2,
            reach: 0,
            until: 1300,
            ..a
        },
        Fields {
            record: 2,
            reach: 0,
            from: 1300,
            ..a
        },
    ];
    let minutes: Vec<Fields> = (1000..2000)
        .step_by(40)
        .zip((1040..=2000).step_by(40))
        .map(|(from, until)| over(from, until, a))
        .collect();
    vec![
        QUESTION.case(
            "q14-four-quarters",
            "Four quarters of origins and purposes cover the draft, and three do not; an \
             implementation that unites each set by itself answers 14 for three.",
            TOGETHER,
            together(on_sample(), &quarters, a),
        ),
        QUESTION.case(
            "q14-each-record-by-others",
            "Each record's minutes are covered by other directives, and without the last one \
             record 2 is open from 1300; an implementation that unites minutes over all records \
             answers 14 again.",
            TOGETHER,
            together(on_sample(), &crossed, a),
        ),
        QUESTION.case(
            "q14-twenty-five-by-minute",
            "Twenty-five directives of 40 minutes each cover 1000..2000, and without the last it \
             is open from 1960; an implementation that looks at pairs accepts the draft at once.",
            TOGETHER,
            together(on_sample(), &minutes, a),
        ),
    ]
}

fn subjects() -> Vec<Case> {
    let permit = |subject| draft(PERMIT, subject, 1, 0);
    let children = Decisions("2.4");
    let any_role = Says("Any person may present any role.");
    let one_role = Card {
        roles: vec![0],
        ..sample()
    };
    let persons: Vec<Fields> = (0..31u16)
        .map(|person| numbered(person, permit((PERSON, person))))
        .collect();
    vec![
        QUESTION.case(
            "q14-children-do-not-cover-the-role",
            "Permits of roles 1, 2 and 3 leave role 0 itself open; an implementation that takes a \
             role for the roles below it answers 14.",
            children,
            on_sample()
                .commit(numbered(13, permit((ROLE, 3))), "0")
                .commit(numbered(12, permit((ROLE, 2))), "0")
                .commit(numbered(11, permit((ROLE, 1))), "0")
                .commit(permit((ROLE, 0)), "0"),
        ),
        QUESTION.case(
            "q14-one-child-does-not-cover-the-role",
            "A permit of role 2, the only role under role 1, leaves role 1 itself open; an \
             implementation that counts roles without children answers 14.",
            children,
            on_sample()
                .commit(numbered(1, permit((ROLE, 2))), "0")
                .commit(permit((ROLE, 1)), "0"),
        ),
        QUESTION.case(
            "q14-role-0-covers-a-person",
            "Role 0 covers every role that person 600 can present, 14; an implementation that \
             keeps persons and roles apart accepts the draft.",
            any_role,
            on_sample()
                .commit(numbered(1, permit((ROLE, 0))), "0")
                .commit(permit((PERSON, 600)), "14"),
        ),
        QUESTION.case(
            "q14-role-1-does-not-cover-a-person",
            "Person 600 can present role 3 too, which role 1 does not cover; an implementation \
             that asks for some role answers 14.",
            any_role,
            on_sample()
                .commit(numbered(1, permit((ROLE, 1))), "0")
                .commit(permit((PERSON, 600)), "0"),
        ),
        QUESTION.case(
            "q14-person-by-role-and-by-name",
            "Person 600 by role 0 until 1500 and by name from 1500 is covered, 14; an \
             implementation that covers a person by one kind of subject accepts the draft at \
             once.",
            TOGETHER,
            together(
                on_sample(),
                &[
                    over(1000, 1500, permit((ROLE, 0))),
                    over(1500, 2000, permit((PERSON, 600))),
                ],
                permit((PERSON, 600)),
            ),
        ),
        QUESTION.case(
            "q14-role-itself-open",
            "From 1500 on roles 1 and 3 are covered for every purpose and role 0 itself for \
             treatment alone, so a draft on role 0 is accepted; an implementation that looks at \
             the roles below answers 14.",
            TOGETHER,
            on_sample()
                .commit(numbered(11, over(1500, 2000, permit((ROLE, 1)))), "0")
                .commit(numbered(12, over(1500, 2000, permit((ROLE, 3)))), "0")
                .commit(numbered(13, over(1000, 1500, permit((ROLE, 0)))), "0")
                .commit(
                    numbered(
                        14,
                        Fields {
                            purposes: 0x0001,
                            ..over(1500, 2000, permit((ROLE, 0)))
                        },
                    ),
                    "0",
                )
                .commit(permit((ROLE, 0)), "0"),
        ),
        QUESTION.case(
            "q14-persons-do-not-cover-a-role",
            "Permits of 31 persons leave every other person of role 3 open; an implementation \
             that looks at the persons named answers 14.",
            Says(
                "\"Some request\", \"every request\" and, in demand 3, \"no request\" range over \
                 this register, all persons, and minutes from the clock on.",
            ),
            on_sample()
                .commit_all(&persons)
                .commit(numbered(40, permit((ROLE, 3))), "0"),
        ),
        QUESTION.case(
            "q14-one-role-in-the-register",
            "With one role in the register role 0 covers a person, 14, and the person does not \
             cover role 0; an implementation that treats them alike answers 14 twice.",
            any_role,
            on(&one_role)
                .commit(permit((PERSON, 600)), "0")
                .commit(numbered(3, permit((ROLE, 0))), "0")
                .commit(numbered(4, permit((PERSON, 601))), "14"),
        ),
    ]
}

fn minutes() -> Vec<Case> {
    let a = directive_a();
    let active = |pieces: &[(u32, u32)]| {
        let numbers = 11..;
        let drafts = numbers
            .zip(pieces)
            .map(|(number, (from, until))| numbered(number, over(*from, *until, a)));
        on_sample().commit_all(&drafts.collect::<Vec<Fields>>())
    };
    vec![
        QUESTION.case(
            "q14-gap-of-one-minute",
            "1000..1499 and 1500..2000 leave minute 1499 open; an implementation that joins \
             neighbours answers 14.",
            TOGETHER,
            active(&[(1000, 1499), (1500, 2000)]).commit(over(1200, 1800, a), "0"),
        ),
        QUESTION.case(
            "q14-last-minute-open",
            "1000..1999 leaves minute 1999 open; an implementation that takes until with it \
             answers 14.",
            TOGETHER,
            active(&[(1000, 1999)]).commit(a, "0"),
        ),
        QUESTION.case(
            "q14-overlapping-out-of-order",
            "1500..2000, 1300..1600 and 1000..1400, in this order, cover 1000..2000, 14; an \
             implementation that goes through the list once accepts the draft.",
            TOGETHER,
            active(&[(1500, 2000), (1300, 1600), (1000, 1400)]).commit(a, "14"),
        ),
        QUESTION.case(
            "q14-past-minutes-do-not-count",
            "Minutes before the clock are no requests, so 0..2000 is covered by 1000..2000, 14; \
             an implementation that counts them accepts the draft.",
            Says(
                "\"Some request\", \"every request\" and, in demand 3, \"no request\" range over \
                 this register, all persons, and minutes from the clock on.",
            ),
            active(&[(1000, 2000)]).commit(over(0, 2000, numbered(2, a)), "14"),
        ),
        QUESTION.case(
            "q14-past-minutes-after-advance",
            "1000..2000 adds 1000..1500 to 1500..2000 at clock 1000, and nothing at clock 1500; \
             an implementation that keeps the card's clock accepts it at 1500.",
            Says(
                "\"Some request\", \"every request\" and, in demand 3, \"no request\" range over \
                 this register, all persons, and minutes from the clock on.",
            ),
            active(&[(1500, 2000)])
                .commit(a, "0")
                .revoke(1, "0")
                .advance(1500, "0 0 0")
                .commit(a, "14"),
        ),
        QUESTION.case(
            "q14-to-the-last-minute",
            "0..4,294,967,295 is covered by itself, 14; an implementation that asks for minute \
             4,294,967,295 too accepts the draft.",
            Decisions("2.5"),
            active(&[(0, u32::MAX)]).commit(over(0, u32::MAX, a), "14"),
        ),
    ]
}

/// Drafts on a full register that are covered but for one record.
fn records() -> Vec<Case> {
    let rows = [
        (
            "q14-all-but-record-64",
            "All records but 64 are covered; an implementation with one word of 64 records \
             answers 14.",
            64,
        ),
        (
            "q14-all-but-record-127",
            "All records but 127 are covered; an implementation that leaves out the last record \
             answers 14.",
            127,
        ),
    ];
    rows.map(|(id, reading, open)| {
        let card = full().changed(open, |record| record.record_type = 6);
        let all = draft(DENY, (ROLE, 1), 0, 2);
        let scenario = on(&card)
            .commit(numbered(1, Fields { pt: 0xBF, ..all }), "0")
            .commit(numbered(2, Fields { pt: 0x3F, ..all }), "14")
            .commit(all, "0");
        QUESTION.case(id, reading, TOGETHER, scenario)
    })
    .to_vec()
}

fn others() -> Vec<Case> {
    let default = Fields {
        subject_origins: 0x0002,
        purposes: 0x0001,
        ..draft(PERMIT, (PERSON, 600), 1, 0)
    };
    let half = |number, effect, from, until| {
        numbered(number, over(from, until, draft(effect, (ROLE, 1), 1, 0)))
    };
    vec![
        QUESTION.case(
            "q14-filtered-to-nothing",
            "No record has type 7, so the draft matches no request, 14; an implementation that \
             looks at the reach alone accepts.",
            Says("one that matches no request is superfluous too"),
            on_sample().commit(
                Fields {
                    pt: 0x80,
                    ..directive_a()
                },
                "14",
            ),
        ),
        QUESTION.case(
            "q14-default-consent-covers-nothing",
            "A permit that the default consent would give anyway is accepted; an implementation \
             that compares decisions answers 14.",
            Decisions("3.5"),
            on_sample().decide(query_q(), "0 1 4").commit(default, "0"),
        ),
        QUESTION.case(
            "q14-baseline-covers-nothing",
            "Permits of the patient and of an author on their own record are accepted; an \
             implementation that compares decisions answers 14.",
            Decisions("3.4"),
            on_sample()
                .commit(draft(PERMIT, (PERSON, 7), 1, 0), "0")
                .commit(numbered(3, draft(PERMIT, (PERSON, 501), 1, 0)), "0"),
        ),
        QUESTION.case(
            "q14-own-effect-alone",
            "A deny before and a permit after do not cover together what neither covers alone, \
             and the draft meets the deny; an implementation that mixes effects answers 14.",
            Decisions("3.6"),
            on_sample()
                .commit(half(11, DENY, 1000, 1500), "0")
                .commit(half(12, PERMIT, 1500, 2000), "0")
                .commit(half(13, PERMIT, 1000, 2000), "13 11")
                .commit(half(14, PERMIT, 1500, 2001), "0"),
        ),
        QUESTION.case(
            "q14-redundant-stays-out",
            "A redundant draft leaves the list as it is; an implementation that stores it writes \
             a longer card.",
            Says("A \"no\" answers as above, and the book stays as it is."),
            on_sample()
                .commit(directive_a(), "0")
                .commit(draft(DENY, (ROLE, 2), 1, 1), "14")
                .written(&sample().with(&[directive_a()])),
        ),
    ]
}
