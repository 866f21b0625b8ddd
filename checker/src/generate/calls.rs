//! Lists of calls on a scene's ledger.

use super::drafts;
use super::previews::previews;
use super::scene::{Profile, Scene, TriedToken};
use crate::directive::{Fields, LENGTH};
use crate::ledger::{Ledger, MAX_ACTIVE, MAX_TOKENS, MAX_TOKEN_LENGTH};
use crate::random::Random;
use crate::register::Reach;
use crate::replay::Call;
use crate::request::{Query, Requester, ORIGINS, PURPOSES};

pub fn calls(scene: &mut Scene, random: &mut Random) -> Vec<Call> {
    let mut calls = Vec::new();
    if random.chance(20) {
        calls.push(write(scene, random, scene.drafts.len()));
    }
    let steps = match scene.profile {
        Profile::Small | Profile::Edge => random.range(4, 24),
        Profile::Full => random.range(4, 16),
    };
    for _ in 0..steps {
        step(scene, random, &mut calls);
    }
    end(scene, random, &mut calls);
    calls
}

/// At least so many calls on this ledger, which changes up to the end: the
/// clock goes on in short steps, and at times all directives are revoked.
pub fn many(
    scene: &mut Scene,
    ledger: &mut Ledger,
    random: &mut Random,
    count: usize,
) -> Vec<Call> {
    scene.stride = 300;
    let mut calls = Vec::new();
    while calls.len() < count {
        let made = calls.len();
        if random.chance(1) {
            let active = ledger.active().iter();
            calls.extend(active.map(|directive| Call::Revoke {
                number: directive.number,
            }));
            scene.change_effects(random);
            if random.chance(50) {
                fill(scene, random, &mut calls);
            }
        } else {
            step(scene, random, &mut calls);
        }
        for call in calls.iter().skip(made) {
            call.run(ledger);
        }
        scene.forget(ledger);
    }
    end(scene, random, &mut calls);
    calls
}

/// Permits for one person each, one more than can be active.
fn fill(scene: &Scene, random: &mut Random, calls: &mut Vec<Call>) {
    let draft = drafts::plain(scene, random);
    for (person, _) in (0..).zip(0..=MAX_ACTIVE) {
        let permit = Fields {
            number: person,
            effect: 1,
            kind: 0,
            subject: person,
            ..draft
        };
        calls.push(Call::Commit {
            draft: permit.encode().to_vec(),
        });
    }
}

/// One call, or a few that belong together.
fn step(scene: &mut Scene, random: &mut Random, calls: &mut Vec<Call>) {
    match random.range(0, 99) {
        0..=33 => {
            let drafts = drafts::next(scene, random).into_iter();
            calls.extend(drafts.map(|draft| Call::Commit { draft }));
        }
        34..=47 => previews(scene, random, calls),
        48..=66 => calls.push(Call::Decide(query(scene, random))),
        67..=73 => calls.push(revoke(scene, random)),
        74..=80 => calls.push(advance(scene, random)),
        81..=88 => issues(scene, random, calls),
        89..=94 => calls.push(brief(scene, random)),
        _ => {
            let directives = random.index(scene.drafts.len().saturating_add(1));
            calls.push(write(scene, random, directives));
        }
    }
}

/// Calls that show the ledger at the end: decisions, briefs and the card.
fn end(scene: &mut Scene, random: &mut Random, calls: &mut Vec<Call>) {
    for _ in 0..random.range(0, 8) {
        calls.push(Call::Decide(query(scene, random)));
    }
    for token in &scene.tokens {
        calls.push(Call::Brief {
            number: token.number,
            person: token.person,
        });
    }
    if random.chance(70) {
        calls.push(Call::Write { buffer: u16::MAX });
    }
}

/// Decides for this requester on every record of a small register, or on some
/// of a large one.
pub fn decide_some(
    scene: &Scene,
    random: &mut Random,
    requester: Requester,
    calls: &mut Vec<Call>,
) {
    let records: Vec<u8> = match scene.profile {
        Profile::Small | Profile::Edge => {
            let records = scene.register.numbered_records();
            records.map(|(number, _)| number).collect()
        }
        Profile::Full => (0..4).map(|_| scene.record(random)).collect(),
    };
    let queries = records.into_iter().map(|record| requester.query(record));
    calls.extend(queries.map(Call::Decide));
}

fn revoke(scene: &Scene, random: &mut Random) -> Call {
    let index = random.index(scene.drafts.len());
    let number = match scene.drafts.get(index) {
        Some(draft) if random.chance(90) => draft.number,
        _ => random.u16(),
    };
    Call::Revoke { number }
}

/// To a minute near the clock, or around the end of a directive or token.
fn advance(scene: &mut Scene, random: &mut Random) -> Call {
    let clock = scene.clock;
    let directive = random.index(scene.drafts.len());
    let token = random.index(scene.tokens.len());
    let directive_end = scene
        .drafts
        .get(directive)
        .map_or(clock, |draft| draft.until);
    let token_end = scene.tokens.get(token).map_or(clock, |token| token.until);
    let minute = match random.range(0, 99) {
        0..=9 => clock,
        10..=39 => clock.saturating_add(random.range(1, 3)),
        40..=54 => clock.saturating_add(random.range(1, scene.span)),
        55..=64 => directive_end,
        65..=69 => directive_end.saturating_sub(1),
        70..=79 => token_end,
        80..=84 => token_end.saturating_sub(1),
        85..=95 => clock.saturating_sub(random.range(1, 3)),
        96 => random.u32(),
        97 => u32::MAX,
        _ => clock.saturating_add(300),
    };
    let minute = minute.min(clock.saturating_add(scene.stride));
    scene.clock = clock.max(minute);
    Call::Advance { minute }
}

/// One token, or one more than can be live.
fn issues(scene: &mut Scene, random: &mut Random, calls: &mut Vec<Call>) {
    let count = if random.chance(15) {
        MAX_TOKENS.saturating_add(1)
    } else {
        1
    };
    for _ in 0..count {
        calls.push(issue(scene, random));
    }
}

fn issue(scene: &mut Scene, random: &mut Random) -> Call {
    let number = match random.range(0, 9) {
        0..=7 => u16::from(random.up_to(9)),
        8 => random.pick(&[0, 65535]),
        _ => random.u16(),
    };
    let person = random.pick(&scene.persons);
    let states = match random.range(0, 19) {
        0 => 0,
        1 => 0xFF,
        2..=11 => random.pick(&[0x01, 0x02, 0x04, 0x08, 0x10, 0x20, 0x40, 0x80]),
        _ => random.u8(),
    };
    let left = u32::MAX.saturating_sub(scene.clock);
    let longest = MAX_TOKEN_LENGTH.min(left);
    let length = match random.range(0, 19) {
        0 => 0,
        1 => 1,
        2 => MAX_TOKEN_LENGTH,
        3 => MAX_TOKEN_LENGTH.saturating_add(1),
        4 => random.pick(&[256, 65536, u32::MAX]),
        5 | 6 => longest,
        7 => longest.saturating_add(1),
        8..=12 => random.range(1, longest),
        _ => random.range(1, scene.span),
    };
    scene.tokens.push(TriedToken {
        number,
        person,
        until: scene.clock.saturating_add(length),
    });
    Call::Issue {
        number,
        person,
        states,
        length,
    }
}

fn brief(scene: &Scene, random: &mut Random) -> Call {
    let index = random.index(scene.tokens.len());
    let token = scene.tokens.get(index).copied().unwrap_or_default();
    let number = match random.range(0, 9) {
        0 => u16::from(random.up_to(9)),
        _ => token.number,
    };
    let person = match random.range(0, 9) {
        0 => random.pick(&scene.persons),
        _ => token.person,
    };
    Call::Brief { number, person }
}

/// A buffer near the length of a card with this many directives.
fn write(scene: &Scene, random: &mut Random, directives: usize) -> Call {
    let roles = scene.register.roles().len();
    let records = scene.register.records().len().saturating_mul(13);
    let directives = directives.saturating_mul(LENGTH.saturating_add(3));
    let length = [13, roles, records, directives]
        .into_iter()
        .fold(0, usize::saturating_add);
    let exact = u16::try_from(length).unwrap_or(u16::MAX);
    let buffer = match random.range(0, 9) {
        0..=3 => exact,
        4 | 5 => exact.saturating_sub(1),
        6 => exact.saturating_add(1),
        7 => random.pick(&[0, 1, 13]),
        _ => u16::MAX,
    };
    Call::Write { buffer }
}

/// A request of one of the scene's persons.
pub fn plain_query(scene: &Scene, random: &mut Random) -> Query {
    Query {
        person: random.pick(&scene.persons),
        role: scene.role(random),
        origin: random.member(scene.origins),
        record: scene.record(random),
        purpose: random.pick(&[0, 0, 0, 1, 10]),
    }
}

/// A request that an earlier draft most often matches, or any one.
fn query(scene: &Scene, random: &mut Random) -> Query {
    let mut query = plain_query(scene, random);
    let index = random.index(scene.drafts.len());
    if let (Some(draft), true) = (scene.drafts.get(index), random.chance(65)) {
        aim(scene, random, draft, &mut query);
    }
    if random.chance(25) {
        change(scene, random, &mut query);
    }
    query
}

/// Points the query at what the draft matches.
pub fn aim(scene: &Scene, random: &mut Random, draft: &Fields, query: &mut Query) {
    let register = &scene.register;
    if draft.kind == 0 {
        query.person = draft.subject;
    } else {
        let covered: Vec<u16> = register
            .role_numbers()
            .filter(|role| register.covers(draft.subject, *role))
            .collect();
        query.role = random.pick(&covered);
    }
    query.origin = random.member(draft.subject_origins);
    query.purpose = random.member(draft.purposes);
    if let Some(reach) = Reach::decode(draft.reach) {
        let reached: Vec<u8> = register
            .numbered_records()
            .map(|(number, _)| number)
            .filter(|number| register.reaches(draft.record, reach, *number))
            .collect();
        query.record = random.pick(&reached);
    }
}

/// Changes one part of the query, in or out of its range.
pub fn change(scene: &Scene, random: &mut Random, query: &mut Query) {
    let roles = u16::try_from(scene.register.roles().len()).unwrap_or(0);
    let records = u8::try_from(scene.register.records().len()).unwrap_or(0);
    match random.range(0, 11) {
        0 => query.person = scene.patient,
        1 => query.person = random.pick(&[0, 65535]),
        2 => query.person = random.u16(),
        3 => query.role = scene.role(random),
        4 => query.role = random.pick(&[roles, 255, 256, query.role | 0x0100, 65535]),
        5 => query.origin = random.up_to(ORIGINS),
        6 => query.origin = random.pick(&[ORIGINS, 255]),
        7 => query.record = scene.record(random),
        8 => query.record = random.pick(&[records, 128, 255]),
        9 => query.purpose = random.up_to(PURPOSES),
        10 => query.purpose = random.pick(&[PURPOSES, 255]),
        _ => query.purpose = 0,
    }
}
