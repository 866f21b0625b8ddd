//! Random small worlds, in which directives meet often and every request can
//! be looked at.

use checker::directive::Fields;
use checker::random::Random;
use checker::replay::Call;
use checker::request::Query;

use crate::definition::Model;
use crate::support::{record, Card};

/// Persons that directives, authors and the patient are taken from.
const PERSONS: &[u16] = &[0, 1, 2, 3, 4, 65535];
/// Two origins and two purposes are used, at the ends of their ranges.
const ORIGIN_SETS: &[u16] = &[0x0001, 0x8000, 0x8001, 0x8001];
const PURPOSE_SETS: &[u16] = &[0x0001, 0x0400, 0x0401, 0x0401];
const SENSITIVITY_SETS: &[u16] = &[0x0001, 0x0002, 0x0003];
const CLOCKS: &[u32] = &[0, 10, 1000, u32::MAX - 6];

/// A card without directives: 1 to 4 roles, 1 to 4 records.
pub fn card(random: &mut Random) -> Card {
    let roles = random.pick(&[1, 2, 3, 4]);
    let records = random.pick(&[1, 2, 3, 4]);
    let below = |random: &mut Random, number: u8| random.up_to(number.saturating_sub(1));
    Card {
        edition: 2,
        patient: random.pick(PERSONS),
        clock: random.pick(CLOCKS),
        roles: (0..roles).map(|role| below(random, role)).collect(),
        records: (0..records)
            .map(|number| {
                record(
                    below(random, number),
                    random.pick(PERSONS),
                    random.pick(ORIGIN_SETS),
                    random.pick(SENSITIVITY_SETS),
                    random.up_to(1),
                    random.u16() & random.u16(),
                )
            })
            .collect(),
        directives: Vec::new(),
    }
}

/// The card with up to five directives that questions 7 to 13 let pass.
pub fn card_with_directives(random: &mut Random) -> Card {
    let mut card = card(random);
    for _ in 0..random.range(0, 5) {
        let directive = draft(&card, card.clock, random);
        let model = Model::read(&card).expect("the card is accepted so far");
        if model.validate(&directive).is_ok() {
            card.directives.push(directive);
        }
    }
    card
}

/// A draft on this card, judged at this clock. It keeps questions 7 and 8 and
/// most often 9.
pub fn draft(card: &Card, clock: u32, random: &mut Random) -> Fields {
    let kind = random.up_to(1);
    let subject = match kind {
        0 => random.pick(PERSONS),
        _ => random.index(card.roles.len()) as u16,
    };
    let from = clock.saturating_sub(2).saturating_add(random.range(0, 6));
    let (record, reach) = target(card, random);
    Fields {
        number: random.range(1, 12) as u16,
        effect: random.up_to(1),
        kind,
        subject,
        subject_origins: random.pick(ORIGIN_SETS),
        record,
        reach,
        po: random.pick(&[0x0001, 0x8001, 0xFFFF, 0xFFFF]),
        ps: random.pick(&[0x0001, 0x0003, 0xFFFF, 0xFFFF]),
        pt: random.pick(&[0x01, 0x03, 0xFF, 0xFF]),
        purposes: random.pick(PURPOSE_SETS),
        from,
        until: from.saturating_add(random.range(1, 6)),
    }
}

/// A record with a reach, which in four of five cases has something in it.
fn target(card: &Card, random: &mut Random) -> (u8, u8) {
    let record = random.index(card.records.len()) as u8;
    let parent = card.records[usize::from(record)].parent;
    match random.range(0, 4) {
        0 => (record, random.up_to(3)),
        1 => (record, random.pick(&[0, 3])),
        _ if record == 0 => (record, random.pick(&[0, 3])),
        2 => (parent, 1),
        3 => (parent, 2),
        _ => (parent, 3),
    }
}

/// The draft with some parts taken from another one.
pub fn variant(of: &Fields, other: &Fields, random: &mut Random) -> Fields {
    let mut variant = *of;
    for _ in 0..random.range(1, 2) {
        match random.range(0, 5) {
            0 => (variant.kind, variant.subject) = (other.kind, other.subject),
            1 => variant.subject_origins = other.subject_origins,
            2 => (variant.record, variant.reach) = (other.record, other.reach),
            3 => (variant.po, variant.ps, variant.pt) = (other.po, other.ps, other.pt),
            4 => variant.purposes = other.purposes,
            _ => (variant.from, variant.until) = (other.from, other.until),
        }
    }
    variant
}

/// Pieces of the draft that together match what it matches, or in half of
/// the cases a little less.
pub fn pieces(draft: &Fields, clock: u32, random: &mut Random) -> Vec<Fields> {
    let mut pieces = vec![*draft];
    for _ in 0..random.range(1, 3) {
        let place = random.index(pieces.len());
        let mut one = pieces.swap_remove(place);
        let mut other = one;
        let first = one.from.max(clock);
        match random.range(0, 3) {
            0 if one.subject_origins == 0x8001 => {
                (one.subject_origins, other.subject_origins) = (0x0001, 0x8000);
            }
            1 if one.purposes == 0x0401 => (one.purposes, other.purposes) = (0x0001, 0x0400),
            2 if one.until > first + 1 => {
                let middle = random.range(first + 1, one.until - 1);
                (one.until, other.from) = (middle, middle);
            }
            3 if one.reach == 3 => (one.reach, other.reach) = (0, 2),
            _ => {}
        }
        pieces.extend([one, other]);
    }
    if random.chance(50) {
        let place = random.index(pieces.len());
        let piece = &mut pieces[place];
        match random.range(0, 5) {
            0 => piece.from += 1,
            1 => piece.until = piece.until.saturating_sub(1),
            2 => piece.subject_origins = 0x0001,
            3 => piece.purposes = 0x0400,
            4 if piece.reach == 3 => piece.reach = 2,
            _ => piece.ps = 0x0001,
        }
    }
    random.shuffle(&mut pieces);
    pieces
}

/// A commit, revoke, advance or issue at this clock.
pub fn call(card: &Card, clock: u32, random: &mut Random) -> Call {
    match random.range(0, 11) {
        0..=5 => {
            let mut bytes = draft(card, clock, random).encode().to_vec();
            // Any byte but those of the minutes, which stay near the clock.
            if random.chance(5) {
                let place = random.index(17);
                bytes[place] = random.u8();
            }
            if random.chance(2) {
                bytes.pop();
            }
            Call::Commit { draft: bytes }
        }
        6 => Call::Revoke {
            number: random.range(1, 12) as u16,
        },
        7 => Call::Advance {
            minute: clock.saturating_sub(1).saturating_add(random.range(0, 3)),
        },
        _ => Call::Issue {
            number: random.range(1, 6) as u16,
            person: random.pick(PERSONS),
            states: random.u8() & random.u8(),
            length: random.pick(&[0, 1, 2, 3, 4, 5, 20, 240, 241]),
        },
    }
}

/// Every query on the card, with the used origins and purposes, one more of
/// each, and one more person.
pub fn queries(card: &Card) -> Vec<Query> {
    let mut queries = Vec::new();
    for person in PERSONS.iter().copied().chain([40000]) {
        for role in 0..card.roles.len() as u16 {
            for origin in [0, 7, 15] {
                for record in 0..card.records.len() as u8 {
                    for purpose in [0, 5, 10] {
                        queries.push(Query {
                            person,
                            role,
                            origin,
                            record,
                            purpose,
                        });
                    }
                }
            }
        }
    }
    queries
}
