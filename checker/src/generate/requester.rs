//! Requesters for cards.

use super::Input;
use crate::card::{Reading, Stage};
use crate::cardcheck::CARD_LIMIT;
use crate::directive::{Directive, Subject};
use crate::ledger::Ledger;
use crate::random::Random;
use crate::register::Record;
use crate::request::{Requester, ORIGINS, PURPOSES};

/// The requester that the seed and the index of a card give: the patient, an
/// author, a person that a directive names, or another one. Most often a
/// directive covers what they present, or the default consent permits it; at
/// times a part of it is out of its range. The ledger is what is read of the
/// card.
pub fn requester(card: &Input, ledger: &Ledger) -> Requester {
    let mut random = Random::of_input(card.seed, 5, card.index);
    let mut requester = plain(ledger, &mut random);
    let directive = random.index(ledger.active().len());
    if let (Some(directive), true) = (ledger.active().get(directive), random.chance(60)) {
        aim(ledger, directive, &mut random, &mut requester);
    }
    if random.chance(25) {
        change(ledger, &mut random, &mut requester);
    }
    requester
}

/// The ledger up to the card's end or its refusal.
pub fn read_so_far(card: &Input) -> Ledger {
    let limit = usize::from(CARD_LIMIT);
    let bytes = card.bytes.get(..limit).unwrap_or(&card.bytes);
    match Reading::of(bytes).stage {
        Stage::Register { ledger, .. } => ledger,
        Stage::Start | Stage::Head(_) => Ledger::default(),
    }
}

fn plain(ledger: &Ledger, random: &mut Random) -> Requester {
    let records = ledger.register().records();
    let record = records.get(random.index(records.len()));
    Requester {
        person: person(ledger, record, random),
        role: role(ledger, random),
        origin: match record {
            Some(record) if random.chance(60) => random.member(record.origins),
            _ => random.up_to(ORIGINS.saturating_sub(1)),
        },
        purpose: match random.range(0, 9) {
            0..=5 => 0,
            _ => random.up_to(PURPOSES.saturating_sub(1)),
        },
    }
}

fn person(ledger: &Ledger, record: Option<&Record>, random: &mut Random) -> u16 {
    match (random.range(0, 99), record) {
        (0..=14, _) => ledger.patient(),
        (15..=44, Some(record)) => record.author,
        (45..=69, _) => random.pick(&named_persons(ledger)),
        (70..=79, _) => random.pick(&[0, 255, 256, 65535]),
        (80..=89, _) => ledger.patient() ^ random.pick(&[1, 0x0100]),
        _ => random.u16(),
    }
}

/// The persons that directives name.
fn named_persons(ledger: &Ledger) -> Vec<u16> {
    let named = |directive: &Directive| match directive.subject {
        Subject::Person(person) => Some(person),
        Subject::Role(_) => None,
    };
    ledger.active().iter().filter_map(named).collect()
}

fn role(ledger: &Ledger, random: &mut Random) -> u16 {
    let roles: Vec<u16> = ledger.register().role_numbers().collect();
    random.pick(&roles)
}

/// Presents what the directive covers, for the person that it names.
fn aim(ledger: &Ledger, directive: &Directive, random: &mut Random, requester: &mut Requester) {
    let register = ledger.register();
    match directive.subject {
        Subject::Person(person) => requester.person = person,
        Subject::Role(named) => {
            let covered: Vec<u16> = register
                .role_numbers()
                .filter(|role| register.covers(named, *role))
                .collect();
            requester.role = random.pick(&covered);
        }
    }
    requester.origin = random.member(directive.subject_origins);
    requester.purpose = random.member(directive.purposes);
}

/// Changes one part, most often out of its range. In some of these numbers
/// one byte or the low bits alone are in range.
fn change(ledger: &Ledger, random: &mut Random, requester: &mut Requester) {
    let roles = u16::try_from(ledger.register().roles().len()).unwrap_or(u16::MAX);
    let Requester {
        role,
        origin,
        purpose,
        ..
    } = *requester;
    match random.range(0, 7) {
        0..=2 => requester.role = random.pick(&[roles, 255, 256, role | 0x0100, 65535]),
        3 | 4 => requester.origin = random.pick(&[ORIGINS, origin | ORIGINS, 255]),
        5 | 6 => requester.purpose = random.pick(&[PURPOSES, purpose | 0x10, 255]),
        _ => {
            requester.role = roles.saturating_sub(1);
            requester.origin = ORIGINS.saturating_sub(1);
            requester.purpose = PURPOSES.saturating_sub(1);
        }
    }
}
