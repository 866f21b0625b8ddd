//! Bases 1 to 4 of a decision.

use crate::directive::Fields;
use crate::request::Query;

use super::sample::*;
use super::scenario::{on, on_sample, Scenario};
use super::Source::{self, Decisions, Says};
use super::{Case, Topic};

const MATCHES: Source = Says(
    "A directive matches it when subject, subject origins and purposes cover it, the record is \
     selected, and from <= minute < until.",
);
pub(super) const SELECTS: Source = Says(
    "It selects a record within its reach whose origins all lie in po, whose sensitivities all \
     lie in ps and whose type is in pt (001, Definition 5).",
);

pub fn cases() -> Vec<Case> {
    [
        patient(),
        author(),
        lowest_number(),
        minutes(),
        matching(),
        reach(),
        filters(),
        default_consent(),
    ]
    .concat()
}

/// Q from this person.
fn from(person: u16) -> Query {
    Query {
        person,
        ..query_q()
    }
}

/// The sample register with A active.
fn with_a() -> Scenario {
    on_sample().commit(directive_a(), "0")
}

fn patient() -> Vec<Case> {
    let topic = Topic("basis 1");
    let says = Says("the patient, permit, basis 1");
    let far = Query {
        role: 3,
        origin: 15,
        record: 2,
        purpose: 10,
        ..from(7)
    };
    vec![
        topic.case(
            "b1-against-a-deny",
            "The patient is permitted against a deny of their role; an implementation that asks \
             directives first answers 0 0 3 1.",
            says,
            with_a().decide(from(7), "0 1 1"),
        ),
        topic.case(
            "b1-before-a-permit",
            "A permit that names the patient leaves basis 1; an implementation that asks \
             directives first answers 0 1 3 2.",
            says,
            on_sample()
                .commit(draft(PERMIT, (PERSON, 7), 1, 0), "0")
                .decide(from(7), "0 1 1"),
        ),
        topic.case(
            "b1-any-request",
            "The patient is permitted from any origin, for any purpose, with any role; an \
             implementation that asks for treatment answers deny.",
            says,
            on_sample().decide(far, "0 1 1"),
        ),
        topic.case(
            "b1-patient-and-author",
            "A patient who is the record's author has basis 1; an implementation that asks for \
             the author first answers 0 1 2.",
            Decisions("4.3"),
            on(&sample().changed(1, |record| record.author = 7)).decide(from(7), "0 1 1"),
        ),
        topic.case(
            "b1-sixteen-bits",
            "Person 263, 0x0107, is not patient 7; an implementation that keeps the low byte \
             answers 0 1 1.",
            says,
            with_a().decide(from(263), "0 0 3 1"),
        ),
        topic.case(
            "b1-patient-0",
            "Patient 0 has basis 1; an implementation that takes 0 for none gives basis 4.",
            Says("All 65,536 person numbers are valid."),
            on(&Card {
                patient: 0,
                ..sample()
            })
            .decide(from(0), "0 1 1")
            .decide(from(7), "0 1 4"),
        ),
    ]
}

fn author() -> Vec<Case> {
    let topic = Topic("basis 2");
    let says = Says("else the record's author, permit, basis 2");
    let far = Query {
        origin: 15,
        purpose: 10,
        ..from(501)
    };
    vec![
        topic.case(
            "b2-against-a-deny",
            "An author is permitted on their own record against a deny of their role; an \
             implementation that asks directives first answers 0 0 3 1.",
            says,
            with_a().decide(from(501), "0 1 2"),
        ),
        topic.case(
            "b2-before-a-permit",
            "A permit that names the author leaves basis 2; an implementation that asks \
             directives first answers 0 1 3 2.",
            says,
            on_sample()
                .commit(draft(PERMIT, (PERSON, 501), 1, 0), "0")
                .decide(from(501), "0 1 2"),
        ),
        topic.case(
            "b2-any-request",
            "An author is permitted from any origin and for any purpose; an implementation that \
             asks for treatment answers deny.",
            says,
            on_sample().decide(far, "0 1 2"),
        ),
        topic.case(
            "b2-on-another-record",
            "Author 501 of record 1 is no author of its child, record 2, nor of its parent; an \
             implementation that goes along the tree answers 0 1 2.",
            says,
            with_a()
                .decide(
                    Query {
                        record: 2,
                        ..from(501)
                    },
                    "0 0 3 1",
                )
                .decide(
                    Query {
                        record: 0,
                        ..from(501)
                    },
                    "0 0 4",
                ),
        ),
        topic.case(
            "b2-last-record",
            "The author of record 127 has basis 2 there; an implementation that leaves out the \
             last record gives basis 4.",
            says,
            on(&full()).decide(
                Query {
                    record: 127,
                    ..from(627)
                },
                "0 1 2",
            ),
        ),
        topic.case(
            "b2-author-65535",
            "Author 65,535 has basis 2; an implementation that takes the last number for none \
             gives basis 4.",
            Says("All 65,536 person numbers are valid."),
            on(&sample().changed(1, |record| record.author = 65_535)).decide(from(65_535), "0 1 2"),
        ),
    ]
}

fn lowest_number() -> Vec<Case> {
    let topic = Topic("basis 3");
    let decided = Decisions("4.4");
    let number = |number, (from, until)| numbered(number, over(from, until, directive_a()));
    let deny = |number, subject| numbered(number, draft(DENY, subject, 1, 0));
    vec![
        topic.case(
            "b3-lowest-not-first",
            "Of 9 and then 4, which both match, 4 is named; an implementation that names the \
             first in the list names 9.",
            decided,
            on_sample()
                .commit_all(&[number(9, (1000, 2000)), number(4, (900, 2100))])
                .decide(query_q(), "0 0 3 4"),
        ),
        topic.case(
            "b3-lowest-of-the-matching",
            "Number 1 has not begun, so 4 is named; an implementation that looks for the lowest \
             of all names 1.",
            decided,
            on_sample()
                .commit_all(&[
                    number(9, (1000, 2000)),
                    number(4, (900, 2100)),
                    number(1, (1500, 2500)),
                ])
                .decide(query_q(), "0 0 3 4"),
        ),
        topic.case(
            "b3-next-after-revoke",
            "After a revoke of 4 number 9 is named; an implementation that keeps the last answer \
             names 4.",
            decided,
            on_sample()
                .commit_all(&[number(9, (1000, 2000)), number(4, (900, 2100))])
                .revoke(4, "0")
                .decide(query_q(), "0 0 3 9"),
        ),
        topic.case(
            "b3-role-number-before-person-number",
            "Of person 600 under 8 and role 1 under 3 the lowest, 3, is named; an implementation \
             in which the person comes first names 8.",
            decided,
            on_sample()
                .commit_all(&[deny(8, (PERSON, 600)), deny(3, (ROLE, 1))])
                .decide(query_q(), "0 0 3 3"),
        ),
        topic.case(
            "b3-first-and-last-number",
            "Numbers 65,535 and 0 are named like others; an implementation that takes 0 for none \
             names 65,535 or gives basis 4.",
            decided,
            on_sample()
                .commit(deny(65_535, (PERSON, 600)), "0")
                .decide(query_q(), "0 0 3 65535")
                .commit(deny(0, (ROLE, 1)), "0")
                .decide(query_q(), "0 0 3 0"),
        ),
        topic.case(
            "b3-of-the-card",
            "A directive of the card decides as a committed one; an implementation that looks at \
             commits alone gives basis 4.",
            Says(
                "else a matching active directive, its effect, basis 3 with the lowest such number",
            ),
            on(&sample().with(&[directive_a()])).decide(query_q(), "0 0 3 1"),
        ),
    ]
}

fn minutes() -> Vec<Case> {
    let topic = Topic("basis 3");
    let within = over(1200, 1500, directive_a());
    vec![
        topic.case(
            "b3-first-minute",
            "From 1200 on the directive matches, and at 1199 not; an implementation that asks \
             from < minute gives basis 4 at 1200.",
            MATCHES,
            on_sample()
                .commit(within, "0")
                .advance(1199, "0 0 0")
                .decide(query_q(), "0 1 4")
                .advance(1200, "0 0 0")
                .decide(query_q(), "0 0 3 1"),
        ),
        topic.case(
            "b3-last-minute",
            "At 1499 the directive matches, and at 1500 it is gone; an implementation that takes \
             until with it answers 0 0 3 1 at 1500.",
            MATCHES,
            on_sample()
                .commit(within, "0")
                .advance(1499, "0 0 0")
                .decide(query_q(), "0 0 3 1")
                .advance(1500, "0 1 0")
                .decide(query_q(), "0 1 4"),
        ),
        topic.case(
            "b3-never-at-the-last-minute",
            "A directive until 4,294,967,295 matches one minute before and never at it; an \
             implementation that takes the last minute for no end answers 0 0 3 1.",
            Decisions("2.5"),
            on_sample()
                .commit(over(0, u32::MAX, directive_a()), "0")
                .advance(4_294_967_294, "0 0 0")
                .decide(query_q(), "0 0 3 1")
                .advance(u32::MAX, "0 1 0")
                .decide(query_q(), "0 1 4"),
        ),
    ]
}

fn matching() -> Vec<Case> {
    let topic = Topic("basis 3");
    let q = query_q();
    let deny_600 = draft(DENY, (PERSON, 600), 1, 0);
    let permit = Fields {
        subject_origins: 0x0200,
        purposes: 0x0020,
        ..draft(PERMIT, (ROLE, 3), 1, 0)
    };
    let asked = Query {
        role: 3,
        origin: 9,
        purpose: 5,
        ..q
    };
    vec![
        topic.case(
            "b3-role-below",
            "A deny of role 1 covers role 2 under it; an implementation that compares role \
             numbers gives basis 4.",
            Says("The subject is either one person or one role with all roles that it covers."),
            with_a().decide(Query { role: 2, ..q }, "0 0 3 1"),
        ),
        topic.case(
            "b3-role-above",
            "A deny of role 1 does not cover role 0 above it; an implementation that looks both \
             ways answers 0 0 3 1.",
            Says("Role r covers role q when r is q or stands above q on the way to role 0."),
            with_a().decide(Query { role: 0, ..q }, "0 1 4"),
        ),
        topic.case(
            "b3-role-far-below",
            "In a chain of 16 roles role 1 covers role 15, and role 15 covers itself alone; an \
             implementation that looks at the parent alone gives basis 4.",
            Says("Role r covers role q when r is q or stands above q on the way to role 0."),
            on(&full())
                .commit(draft(DENY, (ROLE, 1), 1, 0), "0")
                .commit(numbered(3, draft(DENY, (ROLE, 15), 2, 0)), "0")
                .decide(
                    Query {
                        role: 15,
                        origin: 0,
                        ..q
                    },
                    "0 0 3 2",
                )
                .decide(
                    Query {
                        role: 14,
                        origin: 0,
                        record: 2,
                        ..q
                    },
                    "0 1 4",
                ),
        ),
        topic.case(
            "b3-permit-beyond-the-default",
            "A permit gives what the default denies, from its one origin for its one purpose and \
             no other; an implementation that leaves origins or purposes out permits three times.",
            MATCHES,
            on_sample()
                .commit(permit, "0")
                .decide(asked, "0 1 3 2")
                .decide(Query { origin: 8, ..asked }, "0 0 4")
                .decide(
                    Query {
                        purpose: 4,
                        ..asked
                    },
                    "0 0 4",
                ),
        ),
        topic.case(
            "b3-person-with-any-role",
            "A deny of person 600 matches with every role, and no other person; an implementation \
             that asks for a role gives basis 4.",
            Says("Any person may present any role."),
            on_sample()
                .commit(deny_600, "0")
                .decide(Query { role: 0, ..q }, "0 0 3 2")
                .decide(Query { role: 3, ..q }, "0 0 3 2")
                .decide(from(601), "0 1 4"),
        ),
    ]
}

fn reach() -> Vec<Case> {
    let topic = Topic("basis 3");
    let says = Says(
        "Reach 0 is the record itself, 1 its children, 2 all its descendants without itself (001, \
         Table 1).",
    );
    let q = query_q();
    let deny = |record, reach| draft(DENY, (ROLE, 1), record, reach);
    let ask = |record| Query { record, ..q };
    let below = |record, origin| Query {
        record,
        origin,
        ..q
    };
    vec![
        topic.case(
            "b3-reach-0",
            "Reach 0 of record 1 is record 1 and not its child; an implementation that takes a \
             record with what is below it answers 0 0 3 2 for record 2.",
            says,
            on_sample()
                .commit(deny(1, 0), "0")
                .decide(ask(1), "0 0 3 2")
                .decide(ask(2), "0 1 4"),
        ),
        topic.case(
            "b3-reach-1",
            "Reach 1 of record 0 is its child and not its grandchild; an implementation that goes \
             further answers 0 0 3 2 for record 2.",
            says,
            on_sample()
                .commit(deny(0, 1), "0")
                .decide(ask(1), "0 0 3 2")
                .decide(ask(2), "0 1 4"),
        ),
        topic.case(
            "b3-reach-2",
            "Reach 2 of record 0 is child and grandchild and not itself; an implementation that \
             takes the record with them answers 0 0 3 2 for record 0.",
            says,
            on_sample()
                .commit(deny(0, 2), "0")
                .decide(ask(1), "0 0 3 2")
                .decide(ask(2), "0 0 3 2")
                .decide(below(0, 0), "0 1 4"),
        ),
        topic.case(
            "b3-root-is-not-its-own-child",
            "The root's parent byte is 0, and still it is no child of record 0, so a deny of the \
             root's children leaves it; an implementation that compares parent bytes answers 0 0 \
             3 2.",
            Decisions("2.1"),
            on_sample()
                .commit(deny(0, 1), "0")
                .decide(below(0, 0), "0 1 4"),
        ),
        topic.case(
            "b3-far-descendant",
            "Record 127 is a descendant of record 0 by 127 steps, and 63 of 64 is not; an \
             implementation that climbs a few steps gives basis 4.",
            says,
            on(&full())
                .commit(deny(0, 2), "0")
                .decide(below(127, 0), "0 0 3 2")
                .revoke(2, "0")
                .commit(deny(64, 2), "0")
                .decide(below(63, 0), "0 1 4")
                .decide(below(64, 0), "0 1 4")
                .decide(below(65, 0), "0 0 3 2"),
        ),
    ]
}

fn filters() -> Vec<Case> {
    let topic = Topic("basis 3");
    let q = query_q();
    let deny = draft(DENY, (ROLE, 1), 0, 2);
    let record_2 = Query { record: 2, ..q };
    vec![
        topic.case(
            "b3-po-holds-all-origins",
            "po 0x0002 holds record 2's origins and not both of record 1's; an implementation \
             that asks for one shared origin answers 0 0 3 2 for record 1.",
            SELECTS,
            on_sample()
                .commit(Fields { po: 0x0002, ..deny }, "0")
                .decide(q, "0 1 4")
                .decide(record_2, "0 0 3 2"),
        ),
        topic.case(
            "b3-ps-holds-all-sensitivities",
            "ps 0x0001 holds record 1's sensitivities and not both of record 2's; an \
             implementation that asks for one shared one answers 0 0 3 2 for record 2.",
            SELECTS,
            on_sample()
                .commit(Fields { ps: 0x0001, ..deny }, "0")
                .decide(q, "0 0 3 2")
                .decide(record_2, "0 1 4"),
        ),
        topic.case(
            "b3-pt-holds-the-type",
            "pt 0x80 holds type 7 and not type 0; an implementation that compares pt as a number \
             leaves out record 2.",
            SELECTS,
            on(&sample().changed(2, |record| record.record_type = 7))
                .commit(Fields { pt: 0x80, ..deny }, "0")
                .decide(q, "0 1 4")
                .decide(record_2, "0 0 3 2"),
        ),
        topic.case(
            "b3-po-is-not-subject-origins",
            "po is about the record's origins and subject origins about the requester's; an \
             implementation that swaps them gives basis 4.",
            SELECTS,
            on_sample()
                .commit(
                    Fields {
                        po: 0x0003,
                        subject_origins: 0x8000,
                        ..deny
                    },
                    "0",
                )
                .decide(Query { origin: 15, ..q }, "0 0 3 2")
                .decide(q, "0 1 4"),
        ),
    ]
}

fn default_consent() -> Vec<Case> {
    let topic = Topic("basis 4");
    let says = Says(
        "else basis 4, the default consent: permit if the requester's origin is among the \
         record's origins and the purpose is 0, otherwise deny",
    );
    let q = query_q();
    vec![
        topic.case(
            "b4-origins",
            "Record 1 has origins 0 and 1: both are permitted and 2 is denied; an implementation \
             that compares with the lowest origin denies 1.",
            says,
            on_sample()
                .decide(Query { origin: 0, ..q }, "0 1 4")
                .decide(Query { origin: 1, ..q }, "0 1 4")
                .decide(Query { origin: 2, ..q }, "0 0 4"),
        ),
        topic.case(
            "b4-origin-15",
            "A record with origin 15 alone is permitted from there and from nowhere else; an \
             implementation with signed sets answers otherwise.",
            says,
            on(&sample().changed(1, |record| record.origins = 0x8000))
                .decide(Query { origin: 15, ..q }, "0 1 4")
                .decide(Query { origin: 14, ..q }, "0 0 4"),
        ),
        topic.case(
            "b4-other-purposes",
            "Purposes 1 and 10 are denied from the record's origin too; an implementation that \
             asks for the origin alone permits.",
            says,
            on_sample()
                .decide(Query { purpose: 1, ..q }, "0 0 4")
                .decide(Query { purpose: 10, ..q }, "0 0 4"),
        ),
        topic.case(
            "b4-any-person-and-role",
            "The default looks at origin and purpose alone; an implementation that asks for a \
             known person or a clinical role denies.",
            says,
            on_sample()
                .decide(
                    Query {
                        role: 0,
                        ..from(65_535)
                    },
                    "0 1 4",
                )
                .decide(Query { role: 3, ..from(0) }, "0 1 4"),
        ),
        topic.case(
            "b4-sensitivities-do-not-count",
            "Record 2's second sensitivity leaves the default as it is; an implementation that \
             closes sensitive records denies.",
            says,
            on_sample().decide(Query { record: 2, ..q }, "0 1 4"),
        ),
        topic.case(
            "b4-after-revoke",
            "After a revoke the default decides again; an implementation that keeps the last \
             answer denies.",
            says,
            with_a()
                .decide(q, "0 0 3 1")
                .revoke(1, "0")
                .decide(q, "0 1 4"),
        ),
    ]
}
