//! What holds after every list of calls: the balance of counts, no conflict
//! among the active, and decisions that are those of XACML 3.0.

use checker::answer::Answer;
use checker::bytes::Bytes;
use checker::card;
use checker::directive::{Directive, Effect, Fields};
use checker::generate::inputs;
use checker::ledger::{Basis, Ledger};
use checker::random::Random;
use checker::replay::Call;
use checker::request::Query;

use crate::definition::Model;
use crate::small_world;
use crate::support::{Card, Readable};

/// Counts over a list of calls.
#[derive(Default)]
struct Balance {
    read: usize,
    accepted: usize,
    revoked: usize,
    expired: usize,
}

impl Balance {
    fn add(&mut self, answer: &Answer) {
        match answer {
            Answer::Commit(Ok(())) => self.accepted += 1,
            Answer::Revoke(Ok(())) => self.revoked += 1,
            Answer::Advance(Ok(dropped)) => self.expired += dropped.directives,
            _ => {}
        }
    }

    fn active(&self) -> usize {
        self.read + self.accepted - self.revoked - self.expired
    }
}

/// The card and the calls of a replay that is not malformed.
fn parts(replay: &[u8]) -> Option<(&[u8], Vec<Call>)> {
    let mut bytes = Bytes::new(replay);
    let length = bytes.u16()?;
    let card = bytes.take(usize::from(length))?;
    let mut calls = Vec::new();
    while !bytes.is_empty() {
        let (tag, value) = bytes.field()?;
        calls.push(Call::decode(tag, value)?);
    }
    Some((card, calls))
}

#[test]
fn active_is_read_plus_accepted_minus_revoked_minus_expired() {
    let mut total = Balance::default();
    let mut lists = 0;
    for input in inputs(21, 0, 1500) {
        let Some((bytes, calls)) = parts(&input.bytes) else {
            continue;
        };
        let Ok(mut ledger) = card::read(bytes) else {
            continue;
        };
        lists += 1;
        let mut balance = Balance {
            read: ledger.active().len(),
            ..Balance::default()
        };
        for call in calls {
            balance.add(&call.run(&mut ledger));
            assert_eq!(ledger.active().len(), balance.active(), "{input:?}");
        }
        total.read += balance.read;
        total.accepted += balance.accepted;
        total.revoked += balance.revoked;
        total.expired += balance.expired;
    }
    assert!(lists > 1000, "{lists}");
    assert!(total.read > 500, "{}", total.read);
    assert!(total.accepted > 1000, "{}", total.accepted);
    assert!(total.revoked > 200, "{}", total.revoked);
    assert!(total.expired > 200, "{}", total.expired);
}

/// A small ledger after a random list of calls.
fn after_calls(random: &mut Random) -> (Card, Ledger) {
    let card = small_world::card_with_directives(random);
    let mut ledger = card.ledger();
    for _ in 0..random.range(0, 30) {
        let call = small_world::call(&card, ledger.clock(), random);
        call.run(&mut ledger);
    }
    (card, ledger)
}

/// "No request now or later is matched by both a permit and a deny among the
/// active."
#[test]
fn no_conflict_among_the_active() {
    let mut random = Random::new(22);
    let mut mixed = 0;
    for _ in 0..600 {
        let (card, ledger) = after_calls(&mut random);
        let active: Vec<Fields> = ledger.active().iter().map(Directive::fields).collect();
        let model = Model {
            clock: ledger.clock(),
            ..Model::new(&card)
        };
        let requests = model.requests(&active);
        for one in &active {
            for other in &active {
                assert!(!model.conflict(&requests, one, other), "{ledger:?}");
            }
        }
        let permits = active.iter().filter(|directive| directive.effect == 1);
        let permits = permits.count();
        mixed += usize::from(0 < permits && permits < active.len());
    }
    assert!(mixed > 150, "{mixed}");
}

/// The results that XACML 3.0 combines here.
#[derive(Clone, Copy, PartialEq, Eq)]
enum Combined {
    Permit,
    Deny,
    NotApplicable,
}

fn deny_overrides(results: &[Combined]) -> Combined {
    if results.contains(&Combined::Deny) {
        Combined::Deny
    } else if results.contains(&Combined::Permit) {
        Combined::Permit
    } else {
        Combined::NotApplicable
    }
}

fn permit_overrides(results: &[Combined]) -> Combined {
    if results.contains(&Combined::Permit) {
        Combined::Permit
    } else if results.contains(&Combined::Deny) {
        Combined::Deny
    } else {
        Combined::NotApplicable
    }
}

/// "An active directive gives its effect where it matches and NotApplicable
/// elsewhere; outside the baseline a combined NotApplicable leads to basis 4."
#[test]
fn decisions_are_those_of_both_combining_algorithms() {
    let mut random = Random::new(23);
    let mut by_basis = [0; 5];
    for _ in 0..400 {
        let (card, ledger) = after_calls(&mut random);
        let model = Model::new(&card);
        for query in small_world::queries(&card) {
            let request = query.at(ledger.clock());
            let results: Vec<Combined> = ledger
                .active()
                .iter()
                .map(|directive| match directive.effect {
                    _ if !model.matches(&directive.fields(), &request) => Combined::NotApplicable,
                    Effect::Permit => Combined::Permit,
                    Effect::Deny => Combined::Deny,
                })
                .collect();
            let decision = ledger.decide(query).expect("the query is in range");
            by_basis[usize::from(decision.basis.number())] += 1;
            for combine in [deny_overrides, permit_overrides] {
                let expected = match (in_baseline(&card, query), combine(&results)) {
                    (true, _) | (false, Combined::Permit) => Effect::Permit,
                    (false, Combined::Deny) => Effect::Deny,
                    (false, Combined::NotApplicable) => {
                        assert_eq!(decision.basis, Basis::Default);
                        continue;
                    }
                };
                assert_eq!(decision.effect, expected, "{query:?} on {ledger:?}");
                assert_ne!(decision.basis, Basis::Default);
            }
        }
    }
    assert!(
        by_basis[1..].iter().all(|count| *count > 1000),
        "{by_basis:?}"
    );
}

fn in_baseline(card: &Card, query: Query) -> bool {
    let author = card.records[usize::from(query.record)].author;
    query.person == card.patient || query.person == author
}
