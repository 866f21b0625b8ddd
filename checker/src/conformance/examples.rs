//! K1 to K12 of document 01.

use crate::directive::Fields;
use crate::request::Query;

use super::sample::*;
use super::scenario::{on_sample, Scenario};
use super::Source::Says;
use super::{Case, Topic};

const TOPIC: Topic = Topic("examples K1 to K12");

pub fn cases() -> Vec<Case> {
    [decisions(), drafts(), time()].concat()
}

fn after_a() -> Scenario {
    on_sample().commit(directive_a(), "0")
}

fn decisions() -> Vec<Case> {
    let q = query_q();
    let root = Query {
        record: 0,
        origin: 0,
        ..q
    };
    vec![
        TOPIC.case(
            "k01-default-consent",
            "K1: without directives Q is permitted, and for purpose 1 denied, on basis 4; an \
             implementation that denies by default denies both.",
            Says("K1 no directives, Q: permit, 4. With purpose 1: deny, 4."),
            on_sample()
                .decide(q, "0 1 4")
                .decide(Query { purpose: 1, ..q }, "0 0 4"),
        ),
        TOPIC.case(
            "k02-role",
            "K2: A denies Q under number 1 and leaves role 3 to the default; an implementation \
             that leaves out the role denies both.",
            Says("K2 after A, Q: deny, 3, number 1. With role 3: permit, 4."),
            after_a()
                .decide(q, "0 0 3 1")
                .decide(Query { role: 3, ..q }, "0 1 4"),
        ),
        TOPIC.case(
            "k03-baseline",
            "K3: author 501 has basis 2 and patient 7 basis 1 against A; an implementation \
             without the baseline denies both.",
            Says("K3 after A, Q from 501: permit, 2; from 7: permit, 1."),
            after_a()
                .decide(Query { person: 501, ..q }, "0 1 2")
                .decide(Query { person: 7, ..q }, "0 1 1"),
        ),
        TOPIC.case(
            "k04-not-the-record-itself",
            "K4: A leaves record 0 itself to the default; an implementation that takes reach 2 \
             with the record denies.",
            Says("K4 after A, Q on record 0 from origin 0: permit, 4."),
            after_a().decide(root, "0 1 4"),
        ),
    ]
}

fn drafts() -> Vec<Case> {
    let a = directive_a();
    let permit_600 = draft(PERMIT, (PERSON, 600), 1, 0);
    let nurses = Fields {
        ps: 0x0001,
        ..draft(PERMIT, (ROLE, 3), 0, 2)
    };
    let asked = Query {
        role: 3,
        origin: 5,
        purpose: 1,
        ..query_q()
    };
    vec![
        TOPIC.case(
            "k05-conflict",
            "K5: a permit over 1500..2500 meets A, 13 naming 1, and over 2000..2500 not; an \
             implementation that counts until as shared refuses both.",
            Says(
                "K5 after A, permit person 600, record 1, reach 0, 1500..2500: 13 naming 1. With \
                 2000..2500: accepted.",
            ),
            after_a()
                .commit(over(1500, 2500, permit_600), "13 1")
                .commit(over(2000, 2500, permit_600), "0"),
        ),
        TOPIC.case(
            "k06-redundant",
            "K6: a deny of role 2 on the children of record 1 adds nothing to A, 14; an \
             implementation that looks for equal directives accepts it.",
            Says("K6 after A, deny role 2, record 1, reach 1: 14."),
            after_a().commit(draft(DENY, (ROLE, 2), 1, 1), "14"),
        ),
        TOPIC.case(
            "k07-redundant-by-two",
            "K7: number 3 lies within two that meet at 1500, 14; an implementation that looks at \
             single directives accepts it.",
            Says(
                "K7 A over 1000..1500 and again as number 2 over 1500..2000; number 3 over \
                 1200..1800: 14.",
            ),
            on_sample()
                .commit(over(1000, 1500, a), "0")
                .commit(numbered(2, over(1500, 2000, a)), "0")
                .commit(numbered(3, over(1200, 1800, a)), "14"),
        ),
        TOPIC.case(
            "k08-baseline",
            "K8: a deny of author 502 on the children of record 1 is 12, and on record 1 itself \
             accepted; an implementation that looks at the record named takes both.",
            Says("K8 deny person 502, record 1, reach 1: 12. Reach 0: accepted."),
            on_sample()
                .commit(draft(DENY, (PERSON, 502), 1, 1), "12")
                .commit(draft(DENY, (PERSON, 502), 1, 0), "0"),
        ),
        TOPIC.case(
            "k09-all-sensitivities",
            "K9: ps 0x0001 selects record 1 and not record 2, which has two sensitivities; an \
             implementation that asks for one shared one permits both.",
            Says("K9 permit role 3, record 0, reach 2, ps 0x0001: selects record 1, not 2."),
            on_sample()
                .commit(nurses, "0")
                .decide(asked, "0 1 3 2")
                .decide(Query { record: 2, ..asked }, "0 0 4"),
        ),
        TOPIC.case(
            "k12-no-request",
            "K12: record 2 has no children, so the draft matches no request, 14; an \
             implementation that looks for a cover accepts it.",
            Says("K12 permit role 3, record 2, reach 1: 14."),
            on_sample().commit(draft(PERMIT, (ROLE, 3), 2, 1), "14"),
        ),
    ]
}

fn time() -> Vec<Case> {
    vec![
        TOPIC.case(
            "k10-brief",
            "K10: the brief has record 1, live at 1029 and 22 at 1030; an implementation that \
             takes the end with it answers at 1030.",
            Says(
                "K10 token 9 for 600, state set 0x01, length 30: words 2 and 0, count 1. At 1029 \
                 live; at 1030, 22.",
            ),
            on_sample()
                .issue(9, 600, 0x01, 30, "0")
                .brief(9, 600, "0 2 0 1")
                .advance(1029, "0 0 0")
                .brief(9, 600, "0 2 0 1")
                .advance(1030, "0 0 1")
                .brief(9, 600, "22"),
        ),
        TOPIC.case(
            "k11-expiry",
            "K11: an advance to 2000 drops A, and number 1 is free; an implementation that keeps \
             what has run out answers 10.",
            Says("K11 after A, advance to 2000: one directive dropped; number 1 is free."),
            after_a()
                .advance(2000, "0 1 0")
                .commit(over(2000, 3000, directive_a()), "0"),
        ),
    ]
}
