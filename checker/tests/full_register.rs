//! Validation in a full register: 16 roles, 128 records. A request that makes
//! the difference is found wherever it is.

use checker::directive::Fields;
use checker::ledger::{Basis, Ledger};
use checker::refusal::Refusal;
use checker::request::Query;

use crate::support::*;

/// A register of 16 roles and 128 records, all below the first one. The
/// record of this number has type 7, the others 0.
fn full(type_7: usize) -> Ledger {
    let mut card = Card {
        roles: vec![0; 16],
        records: vec![record(0, 500, 1, 1, 0, 0); 128],
        ..sample()
    };
    card.records[type_7].record_type = 7;
    card.ledger()
}

/// A draft on all records but the first.
fn all_records(effect: u8) -> Fields {
    draft(effect, (ROLE, 0), 0, 1)
}

/// Commits the first and gives the answer to the second.
fn answer(mut ledger: Ledger, first: Fields, second: Fields) -> Result<(), Refusal> {
    assert_eq!(commit(&mut ledger, numbered(1, first)), Ok(()));
    commit(&mut ledger, numbered(2, second))
}

/// The draft without one step, in each dimension and at each place.
fn one_step_less(draft: Fields) -> Vec<Fields> {
    let mut less = Vec::new();
    for origin in 0..16 {
        less.push(Fields {
            subject_origins: !(1 << origin),
            ..draft
        });
    }
    for purpose in 0..11 {
        less.push(Fields {
            purposes: 0x07FF & !(1 << purpose),
            ..draft
        });
    }
    less.push(over(draft.from + 1, draft.until, draft));
    less.push(over(draft.from, draft.until - 1, draft));
    for role in 1..16 {
        less.push(Fields {
            subject: role,
            ..draft
        });
    }
    less
}

/// One step of the draft, in each dimension and at each place.
fn one_step(draft: Fields) -> Vec<Fields> {
    let mut steps = Vec::new();
    for origin in 0..16 {
        steps.push(Fields {
            subject_origins: 1 << origin,
            ..draft
        });
    }
    for purpose in 0..11 {
        steps.push(Fields {
            purposes: 1 << purpose,
            ..draft
        });
    }
    steps.push(over(draft.from, draft.from + 1, draft));
    steps.push(over(draft.until - 1, draft.until, draft));
    for role in 0..16 {
        steps.push(Fields {
            subject: role,
            ..draft
        });
    }
    for record in 1..128 {
        steps.push(Fields {
            record,
            reach: 0,
            ..draft
        });
    }
    steps
}

#[test]
fn one_uncovered_request_is_found_at_every_place() {
    let whole = all_records(PERMIT);
    assert_eq!(answer(full(1), whole, whole), Err(Refusal::Redundant));
    for less in one_step_less(whole) {
        assert_eq!(answer(full(1), less, whole), Ok(()), "{less:?}");
        assert_eq!(answer(full(1), whole, less), Err(Refusal::Redundant));
    }
    for number in 1..128 {
        let but_one = Fields { pt: 0x7F, ..whole };
        assert_eq!(answer(full(number), but_one, whole), Ok(()), "{number}");
    }
}

#[test]
fn one_shared_request_is_a_conflict_at_every_place() {
    let whole = all_records(PERMIT);
    for step in one_step(all_records(DENY)) {
        let conflict = Err(Refusal::Conflict(1));
        assert_eq!(answer(full(1), whole, step), conflict, "{step:?}");
        assert_eq!(answer(full(1), step, whole), conflict, "{step:?}");
    }
}

/// All steps of one dimension together cover the whole.
#[test]
fn steps_together_make_the_whole_redundant() {
    let whole = all_records(PERMIT);
    let origins = (0..16).map(|origin| Fields {
        subject_origins: 1 << origin,
        ..whole
    });
    let purposes = (0..11).map(|purpose| Fields {
        purposes: 1 << purpose,
        ..whole
    });
    let minutes = (0..20).map(|part| {
        let from = whole.from + 50 * part;
        over(from, from + 50, whole)
    });
    for steps in [
        origins.collect::<Vec<_>>(),
        purposes.collect(),
        minutes.collect(),
    ] {
        for missing in 0..=steps.len() {
            let mut ledger = full(1);
            for (place, step) in (0..).zip(&steps) {
                if usize::from(place) != missing {
                    assert_eq!(commit(&mut ledger, numbered(100 + place, *step)), Ok(()));
                }
            }
            let expected = if missing == steps.len() {
                Err(Refusal::Redundant)
            } else {
                Ok(())
            };
            assert_eq!(would_commit(&ledger, whole), expected, "{missing}");
        }
    }
}

/// An author's one record is found wherever it is.
#[test]
fn the_baseline_at_every_record() {
    for number in 0..128 {
        let mut card = Card {
            records: vec![record(0, 500, 1, 1, 0, 0); 128],
            ..sample()
        };
        card.records[usize::from(number)].author = 501;
        let ledger = card.ledger();
        for record in 0..128 {
            let deny = draft(DENY, (PERSON, 501), record, 0);
            let expected = if record == number {
                Err(Refusal::BaselineBroken)
            } else {
                Ok(())
            };
            assert_eq!(would_commit(&ledger, deny), expected);
        }
    }
}

/// A chain of 128 records: reaches 2 and 3 go all the way down, reach 1 one
/// step.
#[test]
fn reach_along_a_chain() {
    let mut card = sample();
    card.records = (0..128u8)
        .map(|number| record(number.saturating_sub(1), 500, 1, 1, 0, 0))
        .collect();
    let ledger = card.ledger();
    for top in 0..128 {
        for (reach, expected) in [
            (0, (top..top + 1).collect::<Vec<u8>>()),
            (1, (top + 1..128).take(1).collect()),
            (2, (top + 1..128).collect()),
            (3, (top..128).collect()),
        ] {
            let permit = draft(PERMIT, (ROLE, 0), top, reach);
            let directive = ledger.validate(&permit).expect("the draft is in range");
            let selected: Vec<u8> = (0..=255)
                .filter(|record| directive.selects(ledger.register(), *record))
                .collect();
            assert_eq!(selected, expected, "{top} {reach}");
        }
    }
}

/// Each of 31 active directives can be the one that a draft conflicts with,
/// that covers it or that matches a request.
#[test]
fn every_active_directive_counts() {
    let on = |effect, number| draft(effect, (PERSON, 1000 + number), 1, 0);
    let mut ledger = full(1);
    for number in (1..=31).rev() {
        let deny = numbered(number, on(DENY, number));
        assert_eq!(commit(&mut ledger, deny), Ok(()));
    }
    for number in 1..=31 {
        let opposite = numbered(50, on(PERMIT, number));
        let conflict = Err(Refusal::Conflict(number));
        assert_eq!(would_commit(&ledger, opposite), conflict);
        let same = numbered(50, on(DENY, number));
        assert_eq!(would_commit(&ledger, same), Err(Refusal::Redundant));
        let query = Query {
            person: 1000 + number,
            ..query_q()
        };
        assert_eq!(ledger.decide(query), deny(Basis::Directive(number)));
    }
    let all = numbered(50, draft(PERMIT, (ROLE, 0), 1, 0));
    assert_eq!(would_commit(&ledger, all), Err(Refusal::Conflict(1)));
}
