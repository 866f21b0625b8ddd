//! Question 12: the baseline of the patient and of authors.

use crate::directive::Fields;
use crate::request::Query;

use super::sample::*;
use super::scenario::{on, on_sample, Scenario};
use super::Source::{Decisions, Says};
use super::{Case, Topic};

const QUESTION: Topic = Topic("question 12");

pub fn cases() -> Vec<Case> {
    [authors(), patient(), roles(), on_cards()].concat()
}

/// A deny that names a person.
fn deny(person: u16, record: u8, reach: u8) -> Fields {
    draft(DENY, (PERSON, person), record, reach)
}

fn authors() -> Vec<Case> {
    let says = Says(
        "A deny that names a person breaks the baseline when it matches some request of that \
         person on a record they authored",
    );
    let filtered = Decisions("3.2");
    let all = deny(502, 0, 2);
    vec![
        QUESTION.case(
            "q12-author-of-the-record",
            "A deny of person 502 on record 2, their own, is 12, and on record 1 accepted; an \
             implementation without the baseline takes both.",
            says,
            on_sample()
                .commit(deny(502, 2, 0), "12")
                .commit(deny(502, 1, 0), "0"),
        ),
        QUESTION.case(
            "q12-author-of-the-named-record-only",
            "Descendants of record 0 leave out record 0, so a deny of its author 500 is accepted; \
             an implementation that looks at the record named answers 12.",
            filtered,
            on_sample().commit(deny(500, 0, 2), "0"),
        ),
        QUESTION.case(
            "q12-author-among-descendants",
            "A deny of person 502 on all descendants of record 0 selects record 2, 12; an \
             implementation that looks at the record named accepts it.",
            filtered,
            on_sample().commit(all, "12"),
        ),
        QUESTION.case(
            "q12-author-filtered-by-ps",
            "ps 0x0001 leaves out record 2, so the deny of its author is accepted; an \
             implementation that looks at the reach alone answers 12.",
            filtered,
            on_sample().commit(Fields { ps: 0x0001, ..all }, "0"),
        ),
        QUESTION.case(
            "q12-author-filtered-by-pt",
            "pt without type 5 leaves out the author's record of that type, so the draft is \
             accepted; an implementation that looks at the reach alone answers 12.",
            filtered,
            on(&sample().changed(2, |record| record.record_type = 5))
                .commit(Fields { pt: 0xDF, ..all }, "0"),
        ),
        QUESTION.case(
            "q12-author-of-the-last-record",
            "A deny of the author of record 127 on all descendants of record 0 is 12; an \
             implementation that looks at 64 or 127 records accepts it.",
            filtered,
            on(&full()).commit(deny(627, 0, 2), "12"),
        ),
        QUESTION.case(
            "q12-author-past-and-present",
            "Minutes 0..1001 at clock 1000 have one minute left, 12; an implementation that looks \
             at from alone accepts it.",
            Decisions("3.3"),
            on_sample().commit(over(0, 1001, deny(502, 2, 0)), "12"),
        ),
        QUESTION.case(
            "q12-author-in-the-future",
            "A deny of an author that begins later is 12 already; an implementation that looks at \
             the clock alone accepts it.",
            Decisions("3.3"),
            on_sample().commit(over(1999, 2000, deny(502, 2, 0)), "12"),
        ),
        QUESTION.case(
            "q12-permit-of-an-author",
            "A permit of an author on their own record breaks nothing and is accepted; an \
             implementation that looks at the subject alone answers 12.",
            says,
            on_sample().commit(draft(PERMIT, (PERSON, 502), 2, 0), "0"),
        ),
    ]
}

fn patient() -> Vec<Case> {
    let says = Says("or any request if that person is the patient");
    let narrow = Fields {
        subject_origins: 0x8000,
        purposes: 0x0400,
        ..deny(7, 2, 0)
    };
    vec![
        QUESTION.case(
            "q12-patient",
            "A deny of the patient on a record by someone else is 12; an implementation that asks \
             for authors alone accepts it.",
            says,
            on_sample().commit(deny(7, 1, 0), "12"),
        ),
        QUESTION.case(
            "q12-patient-narrow",
            "A deny of the patient from one origin for one purpose is 12, as it matches a \
             request; an implementation that asks for treatment accepts it.",
            says,
            on_sample().commit(narrow, "12"),
        ),
        QUESTION.case(
            "q12-patient-selects-nothing",
            "A deny of the patient that selects nothing breaks nothing and is 14; an \
             implementation that looks at the subject alone answers 12.",
            Decisions("3.1"),
            on_sample()
                .commit(deny(7, 2, 1), "14")
                .commit(deny(7, 1, 1), "12"),
        ),
        QUESTION.case(
            "q12-patient-0",
            "Patient 0 is a person like others, and a deny of person 0 is 12; an implementation \
             that takes 0 for none accepts it.",
            Says("All 65,536 person numbers are valid."),
            on(&Card {
                patient: 0,
                ..sample()
            })
            .commit(deny(0, 1, 0), "12")
            .commit(deny(7, 1, 0), "0"),
        ),
    ]
}

fn roles() -> Vec<Case> {
    let says = Says("A deny on a role breaks nothing, as the baseline is decided first.");
    let q = query_q();
    let of = |person| Query { person, ..q };
    let patient_3 = Card {
        patient: 3,
        ..sample()
    };
    vec![
        QUESTION.case(
            "q12-role-0-on-everything",
            "A deny of role 0 on all records is accepted, and patient and author stay permitted; \
             an implementation that asks for requests of the patient answers 12.",
            says,
            on_sample()
                .commit(draft(DENY, (ROLE, 0), 0, 2), "0")
                .decide(of(7), "0 1 1")
                .decide(of(501), "0 1 2")
                .decide(q, "0 0 3 2"),
        ),
        QUESTION.case(
            "q12-role-with-the-patients-number",
            "A deny of role 3 where the patient is person 3 is accepted, and of person 3 it is \
             12; an implementation that mixes persons and roles answers 12 for both.",
            says,
            on(&patient_3)
                .commit(draft(DENY, (ROLE, 3), 1, 0), "0")
                .commit(numbered(3, deny(3, 1, 0)), "12"),
        ),
    ]
}

fn on_cards() -> Vec<Case> {
    let says = Says("A 0x04 field goes on with 7 to 13.");
    let card = |directive| sample().with(&[directive]).bytes();
    vec![QUESTION.case(
        "q12-card-author",
        "A card that denies an author their own record is 12; a reader that trusts a card's \
             directives accepts it.",
        says,
        Scenario::of_card(&card(deny(501, 1, 0)), "12 0 0"),
    )]
}
