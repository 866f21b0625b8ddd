//! Question 17: the ranges of a decide call.

use crate::request::Query;

use super::sample::*;
use super::scenario::{on, on_empty, on_sample, Scenario};
use super::Source::{Decisions, Says};
use super::{Case, Topic};

const QUESTION: Topic = Topic("question 17");

pub fn cases() -> Vec<Case> {
    [sides(), others()].concat()
}

/// The value past the range, then the last one within it.
fn sides() -> Vec<Case> {
    let says = Says("Decide: does the register have role and record, origin < 16, purpose < 11?");
    let q = query_q();
    let rows = [
        (
            "q17-role-4-of-4",
            "Role 4 of four is 17 and role 3 decided; an implementation that counts from 1 \
             decides both.",
            on_sample(),
            Query { role: 4, ..q },
            Query { role: 3, ..q },
            "0 1 4",
        ),
        (
            "q17-role-16-of-16",
            "Role 16 of sixteen is 17 and role 15 decided; an implementation with 4 bits takes 16 \
             for 0.",
            on(&full()),
            Query { role: 16, ..q },
            Query { role: 15, ..q },
            "0 0 4",
        ),
        (
            "q17-role-256",
            "Role 256 is not role 0, 17; an implementation that keeps the low byte decides it.",
            on_sample(),
            Query { role: 256, ..q },
            Query { role: 0, ..q },
            "0 1 4",
        ),
        (
            "q17-record-3-of-3",
            "Record 3 of three is 17 and record 2 decided; an implementation that looks at the \
             register's places gives basis 4 for both.",
            on_sample(),
            Query { record: 3, ..q },
            Query { record: 2, ..q },
            "0 1 4",
        ),
        (
            "q17-record-128-of-128",
            "Record 128 of 128 is 17 and record 127 decided; an implementation with 7 bits takes \
             128 for 0.",
            on(&full()),
            Query { record: 128, ..q },
            Query {
                record: 127,
                origin: 0,
                ..q
            },
            "0 1 4",
        ),
        (
            "q17-origin-16",
            "Origin 16 is 17 and origin 15 decided; an implementation that shifts by it gives \
             basis 4 for both.",
            on_sample(),
            Query { origin: 16, ..q },
            Query { origin: 15, ..q },
            "0 0 4",
        ),
        (
            "q17-purpose-11",
            "Purpose 11 is 17 and purpose 10 decided; an implementation that denies what is not \
             treatment gives basis 4 for both.",
            on_sample(),
            Query { purpose: 11, ..q },
            Query { purpose: 10, ..q },
            "0 0 4",
        ),
        (
            "q17-highest-bytes",
            "Origin, record and purpose 255 are 17; an implementation that shifts by 255 stops or \
             decides.",
            on_sample(),
            Query {
                origin: 255,
                record: 255,
                purpose: 255,
                ..q
            },
            q,
            "0 1 4",
        ),
    ];
    rows.map(|(id, reading, start, past, last, line)| {
        let scenario = start.decide(past, "17").decide(last, line);
        QUESTION.case(id, reading, says, scenario)
    })
    .to_vec()
}

/// Queries that are each out of one range.
fn out_of_range(person: u16) -> [Query; 4] {
    let q = Query {
        person,
        ..query_q()
    };
    [
        Query { role: 4, ..q },
        Query { record: 3, ..q },
        Query { origin: 16, ..q },
        Query { purpose: 11, ..q },
    ]
}

fn all_refused(start: Scenario, queries: &[Query]) -> Scenario {
    let refused = |scenario: Scenario, query: &Query| scenario.decide(*query, "17");
    queries.iter().fold(start, refused)
}

fn others() -> Vec<Case> {
    let first = Decisions("4.1");
    vec![
        QUESTION.case(
            "q17-patient",
            "17 comes before the baseline for the patient too; an implementation that looks at \
             the patient first answers 0 1 1.",
            first,
            all_refused(on_sample(), &out_of_range(7)),
        ),
        QUESTION.case(
            "q17-author",
            "17 comes before the baseline for an author too; an implementation that looks at the \
             author first answers 0 1 2.",
            first,
            all_refused(on_sample(), &out_of_range(501)),
        ),
        QUESTION.case(
            "q17-empty-ledger",
            "On the empty ledger every decide is 17, for its patient 0 too; an implementation \
             that looks at the patient first answers 0 1 1.",
            Decisions("4.2"),
            on_empty().decide(
                Query {
                    person: 0,
                    role: 0,
                    origin: 0,
                    record: 0,
                    purpose: 0,
                },
                "17",
            ),
        ),
    ]
}
