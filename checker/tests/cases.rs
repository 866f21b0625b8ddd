//! K1 to K12 of document 01, every clause of each.

use checker::directive::Fields;
use checker::ledger::{Basis, Dropped};
use checker::refusal::Refusal;
use checker::register::RecordWords;
use checker::request::Query;

use crate::support::*;

#[test]
fn k1_default_consent() {
    let ledger = sample().ledger();
    assert_eq!(ledger.decide(query_q()), permit(Basis::Default));
    let purpose_1 = Query {
        purpose: 1,
        ..query_q()
    };
    assert_eq!(ledger.decide(purpose_1), deny(Basis::Default));
}

#[test]
fn k2_a_directive_decides_for_its_roles() {
    let ledger = sample_after(&[directive_a()]);
    assert_eq!(ledger.decide(query_q()), deny(Basis::Directive(1)));
    let role_3 = Query {
        role: 3,
        ..query_q()
    };
    assert_eq!(ledger.decide(role_3), permit(Basis::Default));
}

#[test]
fn k3_author_and_patient_come_first() {
    let ledger = sample_after(&[directive_a()]);
    let from = |person| Query {
        person,
        ..query_q()
    };
    assert_eq!(ledger.decide(from(501)), permit(Basis::Author));
    assert_eq!(ledger.decide(from(7)), permit(Basis::Patient));
}

#[test]
fn k4_descendants_leave_the_record_itself_out() {
    let ledger = sample_after(&[directive_a()]);
    let root = Query {
        record: 0,
        origin: 0,
        ..query_q()
    };
    assert_eq!(ledger.decide(root), permit(Basis::Default));
}

#[test]
fn k5_conflict_only_in_shared_minutes() {
    let ledger = sample_after(&[directive_a()]);
    let permit_600 = draft(PERMIT, (PERSON, 600), 1, 0);
    let shared = over(1500, 2500, permit_600);
    assert_eq!(would_commit(&ledger, shared), Err(Refusal::Conflict(1)));
    let meeting = over(2000, 2500, permit_600);
    assert_eq!(would_commit(&ledger, meeting), Ok(()));
}

#[test]
fn k6_covered_by_a_wider_directive() {
    let ledger = sample_after(&[directive_a()]);
    let narrower = draft(DENY, (ROLE, 2), 1, 1);
    assert_eq!(would_commit(&ledger, narrower), Err(Refusal::Redundant));
}

#[test]
fn k7_covered_by_two_together() {
    let first = over(1000, 1500, directive_a());
    let second = numbered(2, over(1500, 2000, directive_a()));
    let third = numbered(3, over(1200, 1800, directive_a()));
    let ledger = sample_after(&[first, second]);
    assert_eq!(would_commit(&ledger, third), Err(Refusal::Redundant));
}

#[test]
fn k8_baseline_of_an_author() {
    let ledger = sample().ledger();
    let children = draft(DENY, (PERSON, 502), 1, 1);
    assert_eq!(
        would_commit(&ledger, children),
        Err(Refusal::BaselineBroken)
    );
    let itself = draft(DENY, (PERSON, 502), 1, 0);
    assert_eq!(would_commit(&ledger, itself), Ok(()));
}

#[test]
fn k9_all_sensitivities_must_lie_in_the_set() {
    let general_only = Fields {
        ps: 0x0001,
        ..draft(PERMIT, (ROLE, 3), 0, 2)
    };
    let ledger = sample_after(&[general_only]);
    let [directive] = ledger.active() else {
        panic!("one directive is active");
    };
    let selected: Vec<u8> = (0..=255)
        .filter(|record| directive.selects(ledger.register(), *record))
        .collect();
    assert_eq!(selected, [1]);
    let on = |record| Query {
        role: 3,
        origin: 5,
        record,
        purpose: 1,
        ..query_q()
    };
    assert_eq!(ledger.decide(on(1)), permit(Basis::Directive(2)));
    assert_eq!(ledger.decide(on(2)), deny(Basis::Default));
}

#[test]
fn k10_brief_while_the_token_is_live() {
    let mut ledger = sample().ledger();
    assert_eq!(ledger.issue(9, 600, 0x01, 30), Ok(()));
    let brief = RecordWords {
        words: [2, 0],
        count: 1,
    };
    assert_eq!(ledger.brief(9, 600), Ok(brief));
    let none_dropped = Dropped {
        directives: 0,
        tokens: 0,
    };
    assert_eq!(ledger.advance(1029), Ok(none_dropped));
    assert_eq!(ledger.brief(9, 600), Ok(brief));
    let one_token = Dropped {
        directives: 0,
        tokens: 1,
    };
    assert_eq!(ledger.advance(1030), Ok(one_token));
    assert_eq!(ledger.brief(9, 600), Err(Refusal::NoToken));
}

#[test]
fn k11_advance_drops_and_frees_the_number() {
    let mut ledger = sample_after(&[directive_a()]);
    let one_directive = Dropped {
        directives: 1,
        tokens: 0,
    };
    assert_eq!(ledger.advance(2000), Ok(one_directive));
    assert_eq!(ledger.active(), []);
    let again = over(2000, 3000, directive_a());
    assert_eq!(commit(&mut ledger, again), Ok(()));
}

#[test]
fn k12_a_draft_without_requests() {
    let ledger = sample().ledger();
    let no_children = draft(PERMIT, (ROLE, 3), 2, 1);
    assert_eq!(would_commit(&ledger, no_children), Err(Refusal::Redundant));
}
