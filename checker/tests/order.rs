//! Drafts that stand beside each other, committed in two orders.

use checker::directive::Fields;
use checker::ledger::Ledger;
use checker::random::Random;
use checker::refusal::Refusal;
use checker::request::Query;

use crate::definition::Model;
use crate::small_world;
use crate::support::*;

/// "Drafts stand beside each other when each passes 6 to 13 in the ledger at
/// hand, their numbers differ, no two conflict, and with the active they are
/// at most 32." Drafts that would get 14 count too.
fn add_beside(model: &Model, ledger: &Ledger, beside: &mut Vec<Fields>, draft: Fields) {
    let passes_13 = matches!(
        would_commit(ledger, draft),
        Ok(()) | Err(Refusal::Redundant)
    );
    let requests = model.requests(&[&beside[..], &[draft]].concat());
    let fits = beside
        .iter()
        .all(|other| other.number != draft.number && !model.conflict(&requests, other, &draft));
    if passes_13 && fits && ledger.active().len() + beside.len() < 32 {
        beside.push(draft);
    }
}

/// Commits each draft once and counts those that get 14; nothing else refuses
/// them.
fn commit_all(ledger: &mut Ledger, drafts: &[Fields]) -> usize {
    let mut redundant = 0;
    for draft in drafts {
        match commit(ledger, *draft) {
            Ok(()) => {}
            Err(Refusal::Redundant) => redundant += 1,
            Err(other) => panic!("{other:?} for {draft:?} on {ledger:?}"),
        }
    }
    redundant
}

#[test]
fn two_orders_give_the_same_effects_and_bases() {
    let mut random = Random::new(31);
    let mut by_directive = 0;
    let mut different_lists = 0;
    let mut redundant = 0;
    for _ in 0..300 {
        let card = small_world::card(&mut random);
        let mut ledger = card.ledger();
        for number in 100..100 + random.range(0, 3) as u16 {
            let draft = small_world::draft(&card, card.clock, &mut random);
            let _ = commit(&mut ledger, numbered(number, draft));
        }
        let model = Model {
            clock: ledger.clock(),
            ..Model::new(&card)
        };
        let mut drafts = Vec::new();
        let first = small_world::draft(&card, card.clock, &mut random);
        for number in 1..=14 {
            let other = small_world::draft(&card, card.clock, &mut random);
            let draft = small_world::variant(&first, &other, &mut random);
            add_beside(&model, &ledger, &mut drafts, numbered(number, draft));
        }
        let mut one = ledger.clone();
        let mut other = ledger.clone();
        random.shuffle(&mut drafts);
        redundant += commit_all(&mut one, &drafts);
        random.shuffle(&mut drafts);
        redundant += commit_all(&mut other, &drafts);

        let sorted = |ledger: &Ledger| {
            let active = ledger.active().iter();
            let mut numbers: Vec<u16> = active.map(|directive| directive.number).collect();
            numbers.sort();
            numbers
        };
        different_lists += usize::from(sorted(&one) != sorted(&other));
        // All directives have run out after these advances.
        for _ in 0..12 {
            for query in small_world::queries(&card) {
                let in_one = one.decide(query).expect("the query is in range");
                let in_other = other.decide(query).expect("the query is in range");
                assert_eq!(in_one.effect, in_other.effect, "{one:?} {other:?}");
                assert_eq!(in_one.basis.number(), in_other.basis.number());
                by_directive += usize::from(in_one.basis.number() == 3);
            }
            let minute = one.clock().saturating_add(random.range(1, 3));
            one.advance(minute).expect("the minute is not before");
            other.advance(minute).expect("the minute is not before");
        }
        assert!(one.active().is_empty() && other.active().is_empty());
    }
    assert!(by_directive > 10_000, "{by_directive}");
    assert!(redundant > 500, "{redundant}");
    // Which drafts get 14 depends on the order in some of the cases.
    assert!(different_lists > 20, "{different_lists}");
}

/// "With the active they are at most 32": with one more, the order decides
/// which draft gets 11.
#[test]
fn at_most_32_with_the_active() {
    let deny = |number| numbered(number, draft(DENY, (PERSON, 1000 + number), 1, 0));
    let query = |number: u16| Query {
        person: 1000 + number,
        ..query_q()
    };
    for (active, same) in [(30, true), (31, false)] {
        let before: Vec<Fields> = (1..=active).map(deny).collect();
        let (mut one, mut other) = (sample_after(&before), sample_after(&before));
        let answers = [40, 41].map(|number| commit(&mut one, deny(number)));
        let in_other = [41, 40].map(|number| commit(&mut other, deny(number)));
        let second = if same {
            Ok(())
        } else {
            Err(Refusal::TooManyDirectives)
        };
        assert_eq!(answers, [Ok(()), second]);
        assert_eq!(in_other, answers);
        for number in [40, 41] {
            let decisions = (one.decide(query(number)), other.decide(query(number)));
            assert_eq!(decisions.0 == decisions.1, same, "{number}");
        }
    }
}
