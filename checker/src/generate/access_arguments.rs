//! Arguments for `access` with a card.

use super::drafts;
use super::requester::{read_so_far, requester};
use super::scene::Scene;
use super::Input;
use crate::access::{AccessArguments, MOST_DRAFT_DIGITS};
use crate::bytes::hex;
use crate::directive::{Effect, Fields};
use crate::ledger::{Basis, Ledger, MAX_ACTIVE};
use crate::random::Random;
use crate::request::{Requester, ORIGINS, PURPOSES};

/// The requester that the seed and the index of a card give, and in about half
/// of the cases a draft.
pub fn access_arguments(card: &Input) -> AccessArguments {
    let ledger = read_so_far(card);
    let requester = requester(card, &ledger);
    let mut random = Random::of_input(card.seed, 6, card.index);
    let draft = random.chance(55).then(|| {
        let draft = draft(&ledger, requester, &mut random);
        argument(&hex(&draft), &mut random)
    });
    AccessArguments { requester, draft }
}

/// A draft that covers the requester, one that says again what an active
/// directive says, a wrong one, or one of any kind.
fn draft(ledger: &Ledger, requester: Requester, random: &mut Random) -> Vec<u8> {
    let mut scene = Scene::of(ledger, random);
    let draft = match random.range(0, 99) {
        0..=44 => covering(ledger, &scene, random, requester),
        45..=54 => drafts::again(&scene, random),
        55..=69 => {
            let draft = drafts::plain(&scene, random);
            drafts::wrong(&scene, random, draft)
        }
        _ if ledger.active().len() >= MAX_ACTIVE => drafts::plain(&scene, random),
        _ => return drafts::next(&mut scene, random).pop().unwrap_or_default(),
    };
    draft.encode().to_vec()
}

/// A draft that has begun and covers what the requester presents, most often
/// against the default consent on a record.
fn covering(ledger: &Ledger, scene: &Scene, random: &mut Random, requester: Requester) -> Fields {
    let mut draft = drafts::plain(scene, random);
    let register = &scene.register;
    let decisions = ledger.decide_every(requester).unwrap_or_default();
    let by_default: Vec<(u8, u8)> = (0u8..)
        .zip(&decisions)
        .filter(|(_, decision)| decision.basis == Basis::Default)
        .map(|(record, decision)| (record, u8::from(decision.effect == Effect::Deny)))
        .collect();
    if !by_default.is_empty() && random.chance(80) {
        draft = drafts::wide(scene, random);
        let (record, effect) = random.pick(&by_default);
        draft.effect = effect;
        if random.chance(70) {
            (draft.record, draft.reach) = (record, random.pick(&[0, 3]));
        }
    }
    let above: Vec<u16> = register
        .role_numbers()
        .filter(|role| register.covers(*role, requester.role))
        .collect();
    (draft.kind, draft.subject) = if above.is_empty() || random.chance(50) {
        (0, requester.person)
    } else {
        (1, random.pick(&above))
    };
    if requester.origin < ORIGINS {
        draft.subject_origins |= 1 << requester.origin;
    }
    if requester.purpose < PURPOSES {
        draft.purposes |= 1 << requester.purpose;
    }
    draft.from = draft.from.min(scene.clock);
    draft
}

/// The digits in lower, upper or mixed case, or no digits that can be used.
fn argument(digits: &str, random: &mut Random) -> String {
    let place = random.index(digits.len());
    let (start, rest) = digits.split_at_checked(place).unwrap_or((digits, ""));
    let after = rest.get(1..).unwrap_or_default();
    let filled = |length: usize| format!("{digits:0<length$}");
    match random.range(0, 99) {
        0..=54 => digits.to_string(),
        55..=74 => digits.to_ascii_uppercase(),
        75..=79 => start.to_ascii_uppercase() + rest,
        80..=82 => format!("{start}{after}"),
        83 => format!("{digits}0"),
        84..=86 => format!("{start} {rest}"),
        87 => format!("{start} {after}"),
        88..=90 => format!("{start}{}{after}", random.pick(&['g', 'G', ':', 'x'])),
        91 => format!("0x{digits}"),
        92..=94 => filled(MOST_DRAFT_DIGITS.saturating_add(2)),
        95..=97 => filled(MOST_DRAFT_DIGITS),
        _ => String::new(),
    }
}
