//! The validation search against the definitions, which loop over every
//! request, in small worlds.

use checker::directive::Directive;
use checker::random::Random;
use checker::replay::Call;
use checker::validation::{breaks_baseline, lowest_conflict, redundant};

use crate::definition::Model;
use crate::small_world;
use crate::support::Readable;

#[test]
fn validation_agrees_with_the_definitions() {
    let mut random = Random::new(1);
    let mut conflicts = [0; 2];
    let mut broken = [0; 2];
    let mut redundants = [0; 2];
    let mut several_together = 0;
    let mut matching_nothing = 0;
    for case in 0..8000 {
        let card = small_world::card(&mut random);
        let draft = small_world::draft(&card, card.clock, &mut random);
        let mut model = Model::new(&card);
        // Active directives that have nothing to do with the draft, that are
        // near it with its effect or with any, and that are pieces of it.
        // They may conflict here.
        model.active = match case % 4 {
            0 => (0..random.range(0, 6))
                .map(|_| small_world::draft(&card, card.clock, &mut random))
                .collect(),
            1 | 2 => (0..random.range(0, 6))
                .map(|_| {
                    let other = small_world::draft(&card, card.clock, &mut random);
                    let mut near = small_world::variant(&draft, &other, &mut random);
                    if case % 4 == 2 {
                        near.effect ^= random.up_to(1);
                    }
                    near
                })
                .collect(),
            _ => small_world::pieces(&draft, card.clock, &mut random),
        };
        for (active, number) in model.active.iter_mut().zip([7, 3, 10, 6, 2, 9]) {
            active.number = number;
        }
        let ledger = card.ledger();
        let register = ledger.register();
        let read = |fields| Directive::from_fields(fields).expect("the ranges are kept");
        let active: Vec<Directive> = model.active.iter().map(read).collect();
        let directive = read(&draft);
        let requests = model.requests(&[&model.active[..], &[draft]].concat());

        let conflict = model.lowest_conflict(&requests, &draft);
        assert_eq!(
            lowest_conflict(register, card.clock, &directive, &active),
            conflict,
            "case {case}: {model:?} {draft:?}"
        );
        let breaks = model.breaks_baseline(&requests, &draft);
        assert_eq!(
            breaks_baseline(register, card.patient, card.clock, &directive),
            breaks,
            "case {case}: {model:?} {draft:?}"
        );
        let covered = model.redundant(&requests, &draft);
        assert_eq!(
            redundant(register, card.clock, &directive, &active),
            covered,
            "case {case}: {model:?} {draft:?}"
        );

        conflicts[usize::from(conflict.is_some())] += 1;
        broken[usize::from(breaks)] += 1;
        redundants[usize::from(covered)] += 1;
        let matches_some = requests
            .iter()
            .any(|request| model.matches(&draft, request));
        if !matches_some {
            matching_nothing += 1;
        } else if covered {
            let alone = model.active.iter().any(|active| {
                let single = Model {
                    active: vec![*active],
                    ..model.clone()
                };
                single.redundant(&requests, &draft)
            });
            several_together += usize::from(!alone);
        }
    }
    assert!(conflicts.iter().all(|count| *count > 500), "{conflicts:?}");
    assert!(broken.iter().all(|count| *count > 150), "{broken:?}");
    assert!(
        redundants.iter().all(|count| *count > 500),
        "{redundants:?}"
    );
    assert!(matching_nothing > 300, "{matching_nothing}");
    assert!(several_together > 80, "{several_together}");
}

#[test]
fn what_directives_select_and_match_agrees_with_the_definitions() {
    let mut random = Random::new(2);
    let mut selected = [0; 2];
    let mut matched = [0; 2];
    for _ in 0..600 {
        let card = small_world::card(&mut random);
        let draft = small_world::draft(&card, card.clock, &mut random);
        let model = Model::new(&card);
        let ledger = card.ledger();
        let directive = Directive::from_fields(&draft).expect("the ranges are kept");
        for record in 0..card.records.len() as u8 {
            let expected = model.selects(&draft, record);
            assert_eq!(directive.selects(ledger.register(), record), expected);
            selected[usize::from(expected)] += 1;
        }
        for request in model.requests(&[draft]) {
            let expected = model.matches(&draft, &request);
            assert_eq!(directive.matches(ledger.register(), &request), expected);
            matched[usize::from(expected)] += 1;
        }
    }
    assert!(selected.iter().all(|count| *count > 300), "{selected:?}");
    assert!(matched.iter().all(|count| *count > 10_000), "{matched:?}");
}

#[test]
fn cards_agree_with_the_definitions() {
    let mut random = Random::new(4);
    let mut refused = [0; 25];
    for _ in 0..3000 {
        let mut card = small_world::card_with_directives(&mut random);
        let mut more = small_world::draft(&card, card.clock, &mut random);
        if random.chance(10) {
            more.effect = 2;
        }
        if random.chance(10) {
            more.record = card.records.len() as u8;
        }
        card.directives.push(more);
        random.shuffle(&mut card.directives);
        match (card.read(), Model::read(&card)) {
            (Ok(ledger), Ok(model)) => {
                assert!(model.is(&ledger), "{card:?}");
                refused[0] += 1;
            }
            (Err(refusal), Err(expected)) => {
                assert_eq!(refusal, expected, "{card:?}");
                refused[usize::from(refusal.number())] += 1;
            }
            (ledger, model) => panic!("{ledger:?} {model:?} for {card:?}"),
        }
    }
    for number in [0, 7, 8, 9, 10, 12, 13] {
        assert!(refused[number] > 50, "{number}: {}", refused[number]);
    }
}

/// The claim about a card and a whole list of calls: every answer and the
/// ledger are those of the definitions.
#[test]
fn lists_of_calls_agree_with_the_definitions() {
    let mut random = Random::new(3);
    let mut refused = [0; 25];
    for _ in 0..1000 {
        let card = small_world::card_with_directives(&mut random);
        let mut model = Model::read(&card).expect("the card is accepted");
        let mut ledger = card.ledger();
        assert!(model.is(&ledger));
        for _ in 0..24 {
            let call = small_world::call(&card, model.clock, &mut random);
            let before = ledger.clone();
            let answer = call.run(&mut ledger);
            assert_eq!(answer, model.run(&call), "{call:?} on {before:?}");
            assert!(model.is(&ledger), "{call:?} on {before:?}");
            let line = answer.to_string();
            let number = line.split(' ').next().expect("a line has a word");
            let number: usize = number.parse().expect("the first word is a number");
            refused[number] += 1;
            if number != 0 {
                assert_eq!(ledger, before);
            }
        }
        for number in 1..=6 {
            for person in [0, 1, 2, 3, 4, 65535] {
                let call = Call::Brief { number, person };
                assert_eq!(call.run(&mut ledger), model.run(&call));
            }
        }
        for query in small_world::queries(&card) {
            assert_eq!(ledger.decide(query), Ok(model.decide(query)));
        }
    }
    // 11 needs 32 active directives; the other questions of these calls all
    // occur.
    for number in [0, 6, 7, 8, 9, 10, 12, 13, 14, 15, 16, 18, 19, 20, 21] {
        assert!(refused[number] > 20, "{number}: {}", refused[number]);
    }
}
