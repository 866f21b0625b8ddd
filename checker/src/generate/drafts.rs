//! Drafts: plain ones, wrong ones, pieces that cover another draft together,
//! and opposites of earlier ones.

use super::scene::{Effects, Profile, Scene};
use crate::directive::{Fields, ALL_PURPOSES};
use crate::ledger::MAX_ACTIVE;
use crate::random::Random;

/// The directives of a card.
pub fn for_card(scene: &mut Scene, random: &mut Random) -> Vec<Fields> {
    let most = u32::try_from(MAX_ACTIVE).unwrap_or(0);
    let count = match (scene.profile, scene.effects) {
        (Profile::Full, Effects::One(_)) => match random.range(0, 9) {
            0..=2 => most,
            3 => most.saturating_add(1),
            4..=7 => random.range(16, most),
            _ => random.range(0, most),
        },
        (Profile::Full, _) if scene.narrow => random.range(0, most),
        (_, Effects::One(_)) => random.range(0, 6),
        (_, _) => random.range(0, 3),
    };
    for _ in 0..count {
        let number = fresh_number(scene, random);
        let directive = plain(scene, random);
        scene.drafts.push(Fields {
            number,
            ..directive
        });
    }
    scene.drafts.clone()
}

/// Makes one of the directives a wrong one.
pub fn spoil_one(scene: &Scene, random: &mut Random, directives: &mut [Fields]) {
    let index = random.index(directives.len());
    if let Some(directive) = directives.get_mut(index) {
        *directive = wrong(scene, random, *directive);
    }
}

/// The bytes of the next draft, or of some that belong together: of every
/// kind, at times of another length.
pub fn next(scene: &mut Scene, random: &mut Random) -> Vec<Vec<u8>> {
    let drafts = match random.range(0, 99) {
        0..=44 => vec![plain(scene, random)],
        45..=59 => cover(scene, random),
        60..=74 => vec![opposite(scene, random)],
        75..=80 => vec![near_baseline(scene, random)],
        81..=86 => {
            let index = random.index(scene.drafts.len());
            scene.drafts.get(index).copied().into_iter().collect()
        }
        87..=95 => {
            let draft = plain(scene, random);
            vec![wrong(scene, random, draft)]
        }
        _ => {
            let mut draft = plain(scene, random).encode().to_vec();
            let length = random.pick(&[0, 1, 23, 24, 26, 27, 300]);
            draft.resize(length, 0xFF);
            return vec![draft];
        }
    };
    scene.drafts.extend(&drafts);
    let bytes = drafts.iter().map(|draft| draft.encode().to_vec());
    bytes.collect()
}

/// A draft that passes questions 7 to 9, but for a clock at the last minutes.
pub fn plain(scene: &Scene, random: &mut Random) -> Fields {
    let effect = match scene.effects {
        Effects::One(effect) => effect,
        _ => random.up_to(1),
    };
    let narrow = scene.narrow && random.chance(85);
    let kind = if narrow { 0 } else { random.up_to(1) };
    let subject = match kind {
        0 => person(scene, random, effect),
        _ => scene.role(random),
    };
    let (selected, record, reach) = if narrow {
        let record = scene.record(random);
        (record, record, 0)
    } else {
        target(scene, random)
    };
    let (from, until) = minutes(scene, random);
    let mut draft = Fields {
        number: number(scene, random),
        effect,
        kind,
        subject,
        subject_origins: set(random, scene.origins, 0xFFFF),
        record,
        reach,
        po: filter(random, scene.origins),
        ps: filter(random, scene.sensitivities),
        pt: types(random),
        purposes: set(random, scene.purposes, ALL_PURPOSES),
        from,
        until,
    };
    if random.chance(92) {
        keep_apart(scene, &mut draft);
    }
    if let (Some(record), true) = (scene.register.record(selected), random.chance(92)) {
        draft.po |= record.origins;
        draft.ps |= record.sensitivities;
        draft.pt |= 1 << (record.record_type & 7);
    }
    draft
}

/// A draft that has begun, over everything under the root, or the root too.
pub fn wide(scene: &Scene, random: &mut Random) -> Fields {
    Fields {
        record: 0,
        reach: random.pick(&[2, 3]),
        po: u16::MAX,
        ps: u16::MAX,
        pt: u8::MAX,
        from: scene.clock,
        until: scene.clock.saturating_add(scene.span),
        ..plain(scene, random)
    }
}

/// An earlier draft under a new number.
pub fn again(scene: &Scene, random: &mut Random) -> Fields {
    let index = random.index(scene.drafts.len());
    match scene.drafts.get(index) {
        Some(earlier) => Fields {
            number: fresh_number(scene, random),
            ..*earlier
        },
        None => plain(scene, random),
    }
}

/// Keeps permits and denies apart as the scene says, where that leaves
/// something of the draft.
fn keep_apart(scene: &Scene, draft: &mut Fields) {
    let own = |permits: u16| if draft.effect == 1 { permits } else { !permits };
    match scene.effects {
        Effects::One(_) | Effects::Mixed => {}
        Effects::ByOrigin(permits) => {
            let part = draft.subject_origins & own(permits);
            if part != 0 {
                draft.subject_origins = part;
            }
        }
        Effects::ByPurpose(permits) => {
            let part = draft.purposes & own(permits);
            if part != 0 {
                draft.purposes = part;
            }
        }
        Effects::ByMinute(minute) if draft.effect == 1 => {
            if draft.from < minute && scene.clock < minute {
                draft.until = draft.until.min(minute);
            }
        }
        Effects::ByMinute(minute) => {
            if minute < draft.until {
                draft.from = draft.from.max(minute);
            }
        }
    }
}

/// A person; for a deny most often one whom the baseline does not protect.
fn person(scene: &Scene, random: &mut Random, effect: u8) -> u16 {
    if random.chance(4) {
        return random.u16();
    }
    let strangers = scene.strangers();
    if effect == 0 && random.chance(95) && !strangers.is_empty() {
        return random.pick(&strangers);
    }
    random.pick(&scene.persons)
}

/// A number that was most often not used before.
fn number(scene: &Scene, random: &mut Random) -> u16 {
    if random.chance(4) {
        used_number(scene, random)
    } else {
        fresh_number(scene, random)
    }
}

fn used_number(scene: &Scene, random: &mut Random) -> u16 {
    let used: Vec<u16> = scene.drafts.iter().map(|draft| draft.number).collect();
    random.pick(&used)
}

fn fresh_number(scene: &Scene, random: &mut Random) -> u16 {
    fresh_numbers(scene, random).next().unwrap_or(0)
}

/// Numbers that were not used before, in order from a random one on.
fn fresh_numbers<'a>(scene: &'a Scene, random: &mut Random) -> impl Iterator<Item = u16> + 'a {
    let first = match random.range(0, 19) {
        0 => random.pick(&[0, 255, 256, 65535]),
        1 => random.u16(),
        _ => u16::from(random.up_to(60)),
    };
    (0..=u16::MAX)
        .map(move |step| first.wrapping_add(step))
        .filter(|number| scene.drafts.iter().all(|draft| draft.number != *number))
}

/// A set that matters: all bits, the scene's, some of these or one of these.
fn set(random: &mut Random, usual: u16, all: u16) -> u16 {
    match random.range(0, 9) {
        0..=4 => all,
        5 | 6 => usual,
        7 => random.subset(usual),
        8 => random.bit(usual),
        _ => random.subset(all),
    }
}

/// A filtration set: most often one that all records keep.
fn filter(random: &mut Random, usual: u16) -> u16 {
    match random.range(0, 9) {
        0..=5 => 0xFFFF,
        6 | 7 => usual,
        8 => random.subset(usual),
        _ => random.u16() | random.bit(usual),
    }
}

fn types(random: &mut Random) -> u8 {
    match random.range(0, 9) {
        0..=6 => 0xFF,
        7 => random.pick(&[0x01, 0x03, 0x80]),
        _ => random.u8() | 1,
    }
}

/// A record, and a record with a reach that most often has it within.
fn target(scene: &Scene, random: &mut Random) -> (u8, u8, u8) {
    let record = scene.record(random);
    let parent = scene
        .register
        .record(record)
        .map_or(0, |found| found.parent);
    let (top, reach) = match random.range(0, 9) {
        0 | 1 => (record, 0),
        2 => (record, 3),
        3 => (record, random.up_to(3)),
        _ if record == 0 => (0, random.pick(&[0, 3])),
        4 | 5 => (parent, 1),
        6 => (parent, 2),
        7 => (parent, 3),
        8 => (0, 2),
        _ => (0, 3),
    };
    (record, top, reach)
}

/// Minutes near the clock that are not over yet, if the clock leaves any.
/// More than half have begun.
fn minutes(scene: &Scene, random: &mut Random) -> (u32, u32) {
    let clock = scene.clock;
    let from = match random.range(0, 9) {
        0..=5 => clock.saturating_sub(random.range(0, 3)),
        6 => random.pick(&[0, clock]),
        _ => clock.saturating_add(random.range(1, scene.span)),
    };
    let width = match random.range(0, 9) {
        0..=2 => scene.span,
        3 => random.pick(&[1, u32::MAX]),
        _ => random.range(1, scene.span),
    };
    (from, from.max(clock).saturating_add(width))
}

/// The draft with one thing wrong, or just at the edge of it.
pub fn wrong(scene: &Scene, random: &mut Random, draft: Fields) -> Fields {
    let mut wrong = draft;
    let roles = u16::try_from(scene.register.roles().len()).unwrap_or(0);
    let records = u8::try_from(scene.register.records().len()).unwrap_or(0);
    match random.range(0, 24) {
        0 => wrong.effect = random.pick(&[2, 3, 255]),
        1 => wrong.kind = random.pick(&[2, 255]),
        2 => wrong.reach = random.pick(&[4, 5, 255]),
        3 => wrong.subject_origins = 0,
        4 => wrong.po = 0,
        5 => wrong.ps = 0,
        6 => wrong.pt = 0,
        7 => wrong.purposes = 0,
        8 => wrong.purposes = random.pick(&[0x0800, 0x0801, 0x8000, 0x0FFF, 0xFFFF]),
        9 | 10 => {
            wrong.kind = 1;
            wrong.subject = random.pick(&[roles, 255, 256, 65535, wrong.subject | 0x0100]);
        }
        11 | 12 => wrong.record = random.pick(&[records, 128, 255]),
        13 => wrong.from = wrong.until,
        14 => wrong.from = wrong.until.saturating_add(1),
        15 => wrong.until = scene.clock,
        16 => wrong.until = scene.clock.saturating_sub(1),
        17 => (wrong.from, wrong.until) = (0, 0),
        18 => {
            wrong.kind = 2;
            wrong.subject = 99;
        }
        19..=23 => wrong.number = used_number(scene, random),
        _ => {
            wrong.kind = 0;
            wrong.effect = 0;
            wrong.subject = scene.patient;
        }
    }
    wrong
}

/// A draft for the patient or an author, whom a deny may not name. About half
/// of the time the authored record is left out. At times it is below the record
/// of the draft.
pub fn near_baseline(scene: &Scene, random: &mut Random) -> Fields {
    let mut draft = plain(scene, random);
    let record = scene.record(random);
    let found = scene.register.record(record).copied();
    let (author, parent) = found.map_or((0, 0), |found| (found.author, found.parent));
    draft.effect = 0;
    draft.kind = 0;
    draft.subject = if random.chance(25) {
        scene.patient
    } else {
        author
    };
    (draft.record, draft.reach) = match random.range(0, 9) {
        0 | 1 => (parent, 1),
        2..=4 => (0, random.pick(&[2, 3])),
        _ => (record, random.pick(&[0, 0, 1, 2, 3])),
    };
    if let (Some(found), true) = (found, random.chance(50)) {
        match random.range(0, 2) {
            0 => draft.po = !random.bit(found.origins),
            1 => draft.ps = !random.bit(found.sensitivities),
            _ => draft.pt = 0xFE,
        }
    }
    draft
}

/// The opposite of an earlier draft: it meets it in every dimension or misses
/// it narrowly in one.
pub fn opposite(scene: &Scene, random: &mut Random) -> Fields {
    let index = random.index(scene.drafts.len());
    let Some(&earlier) = scene.drafts.get(index) else {
        return plain(scene, random);
    };
    let mut draft = earlier;
    draft.number = number(scene, random);
    draft.effect = earlier.effect ^ 1;
    if random.chance(60) {
        let other = plain(scene, random);
        (draft.kind, draft.subject) = (other.kind, other.subject);
    }
    match random.range(0, 9) {
        0..=3 => (_, draft.record, draft.reach) = target(scene, random),
        4 | 5 => draft.reach = random.up_to(3),
        _ => {}
    }
    draft.subject_origins = near_set(random, earlier.subject_origins, 0xFFFF);
    draft.purposes = near_set(random, earlier.purposes, ALL_PURPOSES);
    let width = random.range(1, scene.span);
    match random.range(0, 9) {
        0 => {
            draft.from = earlier.from.saturating_sub(width);
            draft.until = earlier.from.saturating_add(1);
        }
        1 => {
            draft.from = earlier.from.saturating_sub(width);
            draft.until = earlier.from;
        }
        2 => {
            draft.from = earlier.until.saturating_sub(1);
            draft.until = earlier.until.saturating_add(width);
        }
        3 => {
            draft.from = earlier.until;
            draft.until = earlier.until.saturating_add(width);
        }
        _ => {}
    }
    draft
}

/// The same set, one bit of it, or all the others.
fn near_set(random: &mut Random, set: u16, all: u16) -> u16 {
    match (random.range(0, 9), !set & all) {
        (0, 0) | (1..=6, _) => set,
        (0, others) => others,
        (7, others) => others | random.bit(set),
        (_, _) => random.bit(set),
    }
}

/// Pieces of a draft, then the draft: the pieces cover it together, or in
/// about half of the cases fall short of that by one step.
pub fn cover(scene: &Scene, random: &mut Random) -> Vec<Fields> {
    let whole = plain(scene, random);
    let mut pieces = vec![whole];
    for _ in 0..random.range(1, 4) {
        let index = random.index(pieces.len());
        if index < pieces.len() {
            let piece = pieces.swap_remove(index);
            pieces.extend(split(scene, random, piece));
        }
    }
    random.shuffle(&mut pieces);
    if random.chance(50) {
        let index = random.index(pieces.len());
        if let Some(piece) = pieces.get_mut(index) {
            *piece = narrowed(scene, random, *piece);
        }
    }
    pieces.push(whole);
    for (piece, number) in pieces.iter_mut().zip(fresh_numbers(scene, random)) {
        piece.number = number;
    }
    pieces
}

/// Drafts that together match what the draft matches.
fn split(scene: &Scene, random: &mut Random, draft: Fields) -> Vec<Fields> {
    let first = draft.from.max(scene.clock);
    match random.range(0, 8) {
        0 => {
            let part = random.subset(draft.subject_origins);
            let with = |subject_origins| Fields {
                subject_origins,
                ..draft
            };
            parts(part, draft.subject_origins).map(with).collect()
        }
        1 => {
            let part = random.subset(draft.purposes);
            let with = |purposes| Fields { purposes, ..draft };
            parts(part, draft.purposes).map(with).collect()
        }
        2 | 3 if draft.until.saturating_sub(first) > 1 => {
            let middle = random.range(first.saturating_add(1), draft.until.saturating_sub(1));
            let before = Fields {
                until: middle,
                ..draft
            };
            let after = Fields {
                from: middle,
                ..draft
            };
            vec![before, after]
        }
        4..=6 => split_reach(scene, random, draft),
        7 => vec![Fields { reach: 3, ..draft }],
        _ => vec![Fields {
            kind: 1,
            subject: wider_role(scene, &draft),
            po: 0xFFFF,
            ps: 0xFFFF,
            ..draft
        }],
    }
}

/// Drafts whose reaches together have what is in the draft's: a folder is the
/// record and its descendants; descendants are the folders of the children, or
/// the children and what is under each.
fn split_reach(scene: &Scene, random: &mut Random, draft: Fields) -> Vec<Fields> {
    let with = |record, reach| Fields {
        record,
        reach,
        ..draft
    };
    let record = draft.record;
    let mut children = scene.children(record);
    match draft.reach {
        3 => vec![with(record, 0), with(record, 2)],
        2 if children.len() <= 6 && random.chance(50) => {
            children.into_iter().map(|child| with(child, 3)).collect()
        }
        2 if children.len() <= 6 => {
            children.retain(|child| !scene.children(*child).is_empty());
            let below = children.into_iter().map(|child| with(child, 2));
            [with(record, 1)].into_iter().chain(below).collect()
        }
        1 if children.len() <= 6 => children.into_iter().map(|child| with(child, 0)).collect(),
        _ => vec![draft],
    }
}

/// The part and the rest of a set, without empty ones.
fn parts(part: u16, set: u16) -> impl Iterator<Item = u16> {
    [part, set & !part].into_iter().filter(|part| *part != 0)
}

/// The parent of the draft's role; the top for a person.
fn wider_role(scene: &Scene, draft: &Fields) -> u16 {
    let parent = scene.register.roles().get(usize::from(draft.subject));
    match (draft.kind, parent) {
        (1, Some(parent)) => u16::from(*parent),
        _ => 0,
    }
}

/// The draft without one step of what it matches.
fn narrowed(scene: &Scene, random: &mut Random, draft: Fields) -> Fields {
    let mut narrow = draft;
    match random.range(0, 9) {
        0 => narrow.subject_origins &= !random.bit(narrow.subject_origins),
        1 => narrow.purposes &= !random.bit(narrow.purposes),
        2 => narrow.from = narrow.from.max(scene.clock).saturating_add(1),
        3 => narrow.until = narrow.until.saturating_sub(1),
        4 => narrow.po &= !random.bit(scene.origins),
        5 => narrow.ps &= !random.bit(scene.sensitivities),
        6 => narrow.subject = narrow.subject.saturating_add(1),
        7 | 8 if narrow.reach == 3 => narrow.reach = 2,
        _ => narrow.pt = 0xFE,
    }
    narrow
}
