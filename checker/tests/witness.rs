//! The witnesses of refused drafts: never merely plausible.

use checker::card::{self, Reading, Stage};
use checker::directive::{Directive, Effect, Fields, Subject};
use checker::generate::{inputs, InputKind};
use checker::ledger::Ledger;
use checker::random::Random;
use checker::refusal::Refusal;
use checker::replay::{Call, Replay};
use checker::request::Request;
use checker::validation::{lowest_conflict, redundant};
use checker::witness::{baseline_request, cover, shared_request, Cover};

use crate::definition::Model;
use crate::small_world;
use crate::support::*;

/// A draft refused 12, 13 or 14, with the ledger that it was put to.
struct Refused {
    ledger: Ledger,
    draft: Directive,
    refusal: Refusal,
}

/// The refused drafts and directive fields of generated inputs.
fn refused(seed: u64) -> Vec<Refused> {
    inputs(seed, 4000, 1200)
        .filter(|input| input.index != 100 && input.index != 101)
        .flat_map(|input| match input.kind {
            InputKind::Card => on_card(&input.bytes).into_iter().collect(),
            InputKind::Replay => in_replay(&input.bytes),
        })
        .filter(|refused| (12..=14).contains(&refused.refusal.number()))
        .collect()
}

fn on_card(card: &[u8]) -> Option<Refused> {
    let reading = Reading::of(card);
    let stop = reading.stop?;
    let Stage::Register { edition, ledger } = reading.stage else {
        return None;
    };
    let value = card.get(stop.offset + 3..)?;
    let value = value.get(..edition.directive_length())?;
    let fields = card::directive_fields(edition, value).ok()?;
    let draft = Directive::from_fields(&fields).ok()?;
    Some(Refused {
        ledger,
        draft,
        refusal: stop.refusal,
    })
}

fn in_replay(bytes: &[u8]) -> Vec<Refused> {
    let mut found = Vec::new();
    let mut replay = Replay::new(bytes);
    replay.next();
    while let Some(ledger) = replay.ledger().cloned() {
        let field = replay.bytes().field();
        let call = field.and_then(|(tag, value)| Call::decode(tag, value));
        if let Some(Call::Commit { draft }) = call {
            let refusal = ledger.clone().commit(&draft).err();
            let bytes = <&[u8; 25]>::try_from(draft.as_slice()).ok();
            let draft = bytes.and_then(|bytes| Directive::from_fields(&Fields::decode(bytes)).ok());
            found.extend(draft.zip(refusal).map(|(draft, refusal)| Refused {
                ledger,
                draft,
                refusal,
            }));
        }
        replay.next();
    }
    found
}

/// A request of this register, not before the clock.
fn is_request(ledger: &Ledger, request: &Request) -> bool {
    ledger.register().has_role(request.role)
        && ledger.register().record(request.record).is_some()
        && request.origin < 16
        && request.purpose < 11
        && request.minute >= ledger.clock()
}

#[test]
fn a_witness_of_13_is_matched_by_both() {
    let mut found = 0;
    for case in refused(1) {
        let Refusal::Conflict(named) = case.refusal else {
            continue;
        };
        let register = case.ledger.register();
        let mut active = case.ledger.active().iter();
        let other = active.find(|other| other.number == named).expect("active");
        let request = shared_request(&case.ledger, &case.draft, other).expect("a witness");
        assert!(is_request(&case.ledger, &request), "{request:?}");
        assert!(case.draft.matches(register, &request), "{request:?}");
        assert!(other.matches(register, &request), "{request:?}");
        assert_ne!(case.draft.effect, other.effect);
        found += 1;
    }
    assert!(found > 300, "{found}");
}

#[test]
fn a_witness_of_12_is_of_the_patient_or_the_author() {
    let mut patients = 0;
    let mut authors = 0;
    for case in refused(2) {
        if case.refusal != Refusal::BaselineBroken {
            continue;
        }
        let register = case.ledger.register();
        let request = baseline_request(&case.ledger, &case.draft).expect("a witness");
        assert!(is_request(&case.ledger, &request), "{request:?}");
        assert!(case.draft.matches(register, &request), "{request:?}");
        assert_eq!(case.draft.effect, Effect::Deny);
        assert_eq!(case.draft.subject, Subject::Person(request.person));
        if request.person == case.ledger.patient() {
            patients += 1;
        } else {
            let record = register.record(request.record).expect("a record");
            assert_eq!(record.author, request.person);
            authors += 1;
        }
    }
    assert!(patients > 50 && authors > 50, "{patients} {authors}");
}

#[test]
fn a_cover_is_enough_and_nothing_in_it_is_needless() {
    let mut alone = 0;
    let mut together = 0;
    let mut no_request = 0;
    for case in refused(3) {
        let Refused { ledger, draft, .. } = &case;
        if case.refusal != Refusal::Redundant {
            continue;
        }
        let is_redundant =
            |active: &[Directive]| redundant(ledger.register(), ledger.clock(), draft, active);
        match cover(ledger, draft).expect("a cover") {
            Cover::NoRequest => {
                assert_eq!(draft.selected(ledger.register()), 0);
                no_request += 1;
            }
            Cover::Directives(directives) => {
                assert!(is_redundant(&directives));
                for (place, directive) in directives.iter().enumerate() {
                    assert!(ledger.active().contains(directive));
                    assert_eq!(directive.effect, draft.effect);
                    let shared = shared_request(ledger, draft, directive).expect("they meet");
                    assert!(draft.matches(ledger.register(), &shared));
                    assert!(directive.matches(ledger.register(), &shared));
                    let mut fewer = directives.clone();
                    fewer.remove(place);
                    assert!(!is_redundant(&fewer), "{directive:?} is needless");
                }
                match directives.len() {
                    1 => alone += 1,
                    _ => together += 1,
                }
            }
        }
    }
    assert!(alone > 300, "{alone}");
    assert!(together > 100, "{together}");
    assert!(no_request > 100, "{no_request}");
}

/// On small worlds, over every request: there is a witness exactly when there
/// is such a request, and a cover exactly when the draft is redundant.
#[test]
fn witnesses_agree_with_the_definitions() {
    let mut random = Random::new(11);
    let mut shared = [0; 2];
    let mut baseline = [0; 2];
    let mut covered = [0; 3];
    for _ in 0..6000 {
        let mut card = small_world::card(&mut random);
        let draft = small_world::draft(&card, card.clock, &mut random);
        add_directives(&mut card, &draft, &mut random);
        let ledger = card.ledger();
        let model = Model::read(&card).expect("the card is accepted");
        let requests = model.requests(&[&card.directives[..], &[draft]].concat());
        let directive = Directive::from_fields(&draft).expect("the ranges are kept");

        for (fields, other) in card.directives.iter().zip(ledger.active()) {
            let mut both = requests.iter();
            let both = both.any(|r| model.matches(&draft, r) && model.matches(fields, r));
            let witness = shared_request(&ledger, &directive, other);
            assert_eq!(witness.is_some(), both, "{card:?} {draft:?}");
            if let Some(request) = witness {
                assert!(model.matches(&draft, &request) && model.matches(fields, &request));
            }
            shared[usize::from(both)] += 1;
        }

        let breaks = model.breaks_baseline(&requests, &draft);
        let witness = baseline_request(&ledger, &directive);
        assert_eq!(witness.is_some(), breaks, "{card:?} {draft:?}");
        baseline[usize::from(breaks)] += 1;

        let matched: Vec<&Request> = requests
            .iter()
            .filter(|request| model.matches(&draft, request))
            .collect();
        match cover(&ledger, &directive) {
            None => {
                assert!(!model.redundant(&requests, &draft), "{card:?} {draft:?}");
                covered[0] += 1;
            }
            Some(Cover::NoRequest) => {
                assert!(matched.is_empty(), "{card:?} {draft:?}");
                covered[1] += 1;
            }
            Some(Cover::Directives(directives)) => {
                let cover: Vec<Fields> = directives.iter().map(Directive::fields).collect();
                for request in &matched {
                    let mut cover = cover.iter();
                    assert!(cover.any(|fields| model.matches(fields, request)));
                }
                for one in &cover {
                    let alone = matched.iter().any(|request| {
                        let mut others = cover.iter().filter(|other| *other != one);
                        !others.any(|other| model.matches(other, request))
                    });
                    assert!(alone, "{one:?} is needless for {draft:?}");
                }
                covered[2] += 1;
            }
        }
    }
    assert!(shared.iter().all(|count| *count > 1000), "{shared:?}");
    assert!(baseline.iter().all(|count| *count > 100), "{baseline:?}");
    assert!(covered.iter().all(|count| *count > 200), "{covered:?}");
}

/// Pieces of the draft, and others, as far as the card is accepted with them.
fn add_directives(card: &mut Card, draft: &Fields, random: &mut Random) {
    let mut more = small_world::pieces(draft, card.clock, random);
    more.push(small_world::draft(card, card.clock, random));
    more.push(small_world::variant(draft, &more[0].clone(), random));
    for (number, fields) in (20..).zip(more) {
        let model = Model::read(card).expect("the card is accepted so far");
        let fields = numbered(number, fields);
        if model.validate(&fields).is_ok() {
            card.directives.push(fields);
        }
    }
}

/// Of two directives of one effect there is no conflict, but still a request.
#[test]
fn a_shared_request_is_not_yet_a_conflict() {
    let ledger = sample_after(&[directive_a()]);
    let active = ledger.active();
    let same = Directive::from_fields(&numbered(3, directive_a())).expect("in range");
    assert!(shared_request(&ledger, &same, &active[0]).is_some());
    assert_eq!(
        lowest_conflict(ledger.register(), ledger.clock(), &same, active),
        None
    );
}

/// K7: two together, and one where one is enough.
#[test]
fn the_cover_of_k7() {
    let a = directive_a();
    let ledger = sample_after(&[over(1000, 1500, a), numbered(2, over(1500, 2000, a))]);
    let draft = Directive::from_fields(&numbered(3, over(1200, 1800, a))).expect("in range");
    let both = ledger.active().to_vec();
    assert_eq!(cover(&ledger, &draft), Some(Cover::Directives(both)));
    let later = Directive::from_fields(&numbered(3, over(1600, 1800, a))).expect("in range");
    let second = vec![ledger.active()[1]];
    assert_eq!(cover(&ledger, &later), Some(Cover::Directives(second)));
    let wider = Directive::from_fields(&numbered(3, over(1200, 2001, a))).expect("in range");
    assert_eq!(cover(&ledger, &wider), None);
}
