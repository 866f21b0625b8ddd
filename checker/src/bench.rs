//! The inputs of the benchmark. For each operation there are two: a card with
//! a set-up, and the same with the operation a number of times. What the
//! second costs more, divided by that number, is the cost of one operation.

use std::io;
use std::path::Path;

use crate::answer::{Answer, CardSize};
use crate::bytes::field;
use crate::card;
use crate::cardcheck::cardcheck;
use crate::directive::{Effect, Fields, ALL_PURPOSES};
use crate::files;
use crate::generate::InputKind;
use crate::ledger::{Basis, Decision, Dropped, MAX_ACTIVE, MAX_TOKENS};
use crate::random::Random;
use crate::refusal::Refusal;
use crate::register::{Record, MAX_RECORDS, MAX_ROLES};
use crate::replay::{encode, Call, Replay};
use crate::request::{Query, Requester};

const DENY: u8 = 0;
const PERMIT: u8 = 1;
const PERSON: u8 = 0;
const ROLE: u8 = 1;

const PATIENT: u16 = 7;
const CLOCK: u32 = 1000;
/// The authors are persons from here on.
const FIRST_AUTHOR: u16 = 500;
/// The length of a card with 16 roles, 128 records and 32 directives.
pub const FULL_CARD: usize = 2_589;
/// Document 01's card for `cardcheck`: one role, one record, no directives.
pub const SAMPLE_CARD: [u8; 27] = [
    0x01, 0x00, 0x07, 0x02, 0x00, 0x07, 0x00, 0x00, 0x03, 0xE8, 0x02, 0x00, 0x01, 0x00, 0x03, 0x00,
    0x0A, 0x00, 0x01, 0xF4, 0x00, 0x01, 0x00, 0x01, 0x00, 0x00, 0x00,
];

/// An operation that is measured.
pub struct Measure {
    pub name: &'static str,
    pub kind: InputKind,
    /// How often the operation is in `with` and not in `base`.
    pub count: usize,
    /// How often it is in `timed`; 0 where there is no such input.
    pub timed_count: usize,
    pub base: Vec<u8>,
    pub with: Vec<u8>,
    pub timed: Vec<u8>,
    /// What the card holds.
    size: CardSize,
    /// Whether the answers to the operations are the ones meant.
    meant: fn(&[Answer]) -> bool,
}

impl Measure {
    /// What is wrong with the inputs, by this implementation.
    pub fn check(&self) -> Result<(), String> {
        let wrong = |what: &str| Err(format!("{}: {what}", self.name));
        let base = answers(self.kind, &self.base);
        let with = answers(self.kind, &self.with);
        if self.kind == InputKind::Card {
            // The card is the operation.
            let sample = CardSize {
                records: 1,
                directives: 0,
            };
            if base != [Answer::Card(Ok(sample))] {
                return wrong("the sample card is not read as meant");
            }
            if self.with.len() != FULL_CARD || with != [Answer::Card(Ok(self.size))] {
                return wrong("the card is not read as meant");
            }
            return Ok(());
        }
        if base.first() != Some(&Answer::Card(Ok(self.size))) {
            return wrong("the card is not read as meant");
        }
        if !base.iter().all(accepted) {
            return wrong("the set-up is refused");
        }
        let timed = match self.timed_count {
            0 => None,
            count => Some((answers(self.kind, &self.timed), count)),
        };
        for (all, count) in [(with, self.count)].into_iter().chain(timed) {
            let Some(operations) = all.strip_prefix(base.as_slice()) else {
                return wrong("the set-up is another one");
            };
            let whole = operations.len().checked_rem(count) == Some(0);
            if operations.is_empty() || !whole || !(self.meant)(operations) {
                return wrong("an operation is not answered as meant");
            }
        }
        Ok(())
    }

    /// The line of the list: name, kind, and how often the operation is done.
    pub fn line(&self) -> String {
        format!(
            "{} {} {} {}",
            self.name,
            self.extension(),
            self.count,
            self.timed_count
        )
    }

    fn extension(&self) -> &'static str {
        match self.kind {
            InputKind::Card => "card",
            InputKind::Replay => "replay",
        }
    }

    pub fn write_into(&self, directory: &Path) -> io::Result<()> {
        let write = |part: &str, bytes: &[u8]| {
            let name = format!("{}.{part}.{}", self.name, self.extension());
            files::store(&directory.join(name), bytes)
        };
        write("base", &self.base)?;
        write("with", &self.with)?;
        if self.timed_count > 0 {
            write("timed", &self.timed)?;
        }
        Ok(())
    }
}

fn answers(kind: InputKind, bytes: &[u8]) -> Vec<Answer> {
    match kind {
        InputKind::Card => cardcheck(bytes).into_iter().collect(),
        InputKind::Replay => Replay::new(bytes).collect(),
    }
}

fn accepted(answer: &Answer) -> bool {
    matches!(
        answer,
        Answer::Card(Ok(_))
            | Answer::Commit(Ok(()))
            | Answer::Revoke(Ok(()))
            | Answer::Issue(Ok(()))
    )
}

/// All measured operations, the same ones every time.
pub fn measures() -> Vec<Measure> {
    vec![
        decide(),
        commit_typical(),
        commit_worst(),
        commit_worst_conflict(),
        advance(),
        issue_brief(),
        write(),
        preview(),
        preview_none(),
        preview_one(),
        read(),
    ]
}

/// A card and the calls that set a ledger up.
struct Scene {
    roles: Vec<u8>,
    records: Vec<Record>,
    directives: Vec<Fields>,
    calls: Vec<Call>,
}

impl Scene {
    fn card(&self) -> Vec<u8> {
        let mut bytes = card::head_field(2, PATIENT, CLOCK);
        bytes.extend(field(card::ROLES, &self.roles));
        for record in &self.records {
            bytes.extend(field(card::RECORD, &record.encode()));
        }
        for directive in &self.directives {
            bytes.extend(field(card::DIRECTIVE, &directive.encode()));
        }
        bytes
    }

    fn size(&self) -> CardSize {
        CardSize {
            records: self.records.len(),
            directives: self.directives.len(),
        }
    }

    /// The replays with the operations in turn, so often as said.
    fn measure(
        self,
        name: &'static str,
        (count, timed_count): (usize, usize),
        operations: &[Vec<Call>],
        meant: fn(&[Answer]) -> bool,
    ) -> Measure {
        let replay = |count: usize| {
            let turns = operations.iter().cycle().take(count).flatten();
            let calls: Vec<Call> = self.calls.iter().chain(turns).cloned().collect();
            encode(&self.card(), &calls)
        };
        Measure {
            name,
            kind: InputKind::Replay,
            count,
            timed_count,
            base: replay(0),
            with: replay(count),
            timed: replay(timed_count),
            size: self.size(),
            meant,
        }
    }
}

/// Everything: role 0, all records below the first, full sets.
const ALL: Fields = Fields {
    number: 0,
    effect: PERMIT,
    kind: ROLE,
    subject: 0,
    subject_origins: 0xFFFF,
    record: 0,
    reach: 2,
    po: 0xFFFF,
    ps: 0xFFFF,
    pt: 0xFF,
    purposes: ALL_PURPOSES,
    from: CLOCK,
    until: 2000,
};

/// The directives with the numbers 1, 2, 3 and so on.
fn numbered(directives: impl IntoIterator<Item = Fields>) -> Vec<Fields> {
    (1..)
        .zip(directives)
        .map(|(number, directive)| Fields {
            number,
            ..directive
        })
        .collect()
}

fn commit(draft: Fields) -> Call {
    Call::Commit {
        draft: draft.encode().to_vec(),
    }
}

/// The set of one number, below 16.
fn bit(number: usize) -> u16 {
    u32::try_from(number)
        .ok()
        .and_then(|number| 1u16.checked_shl(number))
        .unwrap_or(0)
}

/// Sixteen roles in a chain, each below the one before it.
fn role_chain() -> Vec<u8> {
    std::iter::once(0).chain(0..).take(MAX_ROLES).collect()
}

/// A full register in a chain. Type and origins together tell any two records
/// apart; the last record alone has sensitivity 15.
fn record_chain() -> Vec<Record> {
    let parents = std::iter::once(0).chain(0..);
    let mut records: Vec<Record> = (0..MAX_RECORDS)
        .zip(parents)
        .zip(FIRST_AUTHOR..)
        .zip((0..8u8).cycle())
        .map(|(((number, parent), author), record_type)| Record {
            parent,
            author,
            origins: bit(number / 8),
            sensitivities: bit(number % 15),
            record_type,
            labels: bit(number % 12),
        })
        .collect();
    if let Some(last) = records.last_mut() {
        last.sensitivities = 0x8000;
    }
    records
}

/// A full card that is as long to read as we know: in turn a permit and a
/// deny that share all but the records, of which each selects half.
fn full_scene() -> Scene {
    let permit = Fields { pt: 0x55, ..ALL };
    let deny = Fields {
        effect: DENY,
        subject: 15,
        pt: 0xAA,
        ..ALL
    };
    let directives = [permit, deny].into_iter().cycle().zip(2000..);
    let directives = directives.map(|(directive, until)| Fields { until, ..directive });
    Scene {
        roles: role_chain(),
        records: record_chain(),
        directives: numbered(directives.take(MAX_ACTIVE)),
        calls: Vec::new(),
    }
}

/// The full card with four live tokens.
fn full_scene_with_tokens() -> Scene {
    let issues = (0..MAX_TOKENS).zip(1..).map(|(_, number)| Call::Issue {
        number,
        person: 600,
        states: 0x41,
        length: 240,
    });
    Scene {
        calls: issues.collect(),
        ..full_scene()
    }
}

/// A full register and 32 directives, of which several match many requests.
/// Permits and denies are on different types of record. One in eight requests
/// is the patient's, one in eight an author's.
fn decide() -> Measure {
    let mut random = Random::new(1);
    let records: Vec<Record> = (0..MAX_RECORDS)
        .map(|number| Record {
            parent: u8::try_from(number.saturating_sub(1) / 3).unwrap_or(0),
            author: FIRST_AUTHOR.saturating_add(u16::from(random.up_to(39))),
            origins: bit(random.index(16)) | bit(random.index(16)),
            sensitivities: bit(random.index(4)),
            record_type: random.up_to(7),
            labels: bit(random.index(12)),
        })
        .collect();
    let directives: Vec<Fields> = (0..MAX_ACTIVE)
        .map(|number| {
            let (effect, pt) = random.pick(&[(PERMIT, 0x0F), (DENY, 0xF0)]);
            let person = u16::from(random.up_to(7)).saturating_add(600);
            let (kind, subject) = match number % 4 {
                0 => (PERSON, person),
                _ => (ROLE, random.pick(&[0, 1, 2, 3, 4, 5, 6])),
            };
            Fields {
                effect,
                kind,
                subject,
                subject_origins: random.pick(&[0xFFFF, 0x0FFF, 0xFFF0]),
                record: random.pick(&[0, 0, 1, 2, 3]),
                ps: random.pick(&[0xFFFF, 0x0007]),
                pt,
                purposes: random.pick(&[ALL_PURPOSES, 0x000F, 0x0071, 0x07FE]),
                ..ALL
            }
        })
        .collect();
    let requests: Vec<Vec<Call>> = (0..800usize)
        .map(|number| {
            let record = random.up_to(127);
            let author = records.get(usize::from(record)).map(|found| found.author);
            let person = match number % 8 {
                0 => PATIENT,
                1 => author.unwrap_or(0),
                _ => u16::from(random.up_to(15)).saturating_add(600),
            };
            vec![Call::Decide(Query {
                person,
                role: u16::from(random.up_to(15)),
                origin: random.up_to(15),
                record,
                purpose: random.pick(&[0, 0, 0, 1, 2, 3, 4, 5, 9, 10]),
            })]
        })
        .collect();
    let scene = Scene {
        roles: (0..16u8).map(|role| role.saturating_sub(1) / 2).collect(),
        records,
        directives: numbered(directives),
        calls: Vec::new(),
    };
    scene.measure("decide", (1600, 80_000), &requests, |answers| {
        let has = |effect: Effect, basis: fn(Basis) -> bool| {
            answers.iter().any(|answer| {
                matches!(answer, Answer::Decide(Ok(Decision { effect: e, basis: b }))
                    if *e == effect && basis(*b))
            })
        };
        let directive = |basis| matches!(basis, Basis::Directive(_));
        let default = |basis| basis == Basis::Default;
        answers
            .iter()
            .all(|answer| matches!(answer, Answer::Decide(Ok(_))))
            && has(Effect::Permit, |basis| basis == Basis::Patient)
            && has(Effect::Permit, |basis| basis == Basis::Author)
            && [Effect::Permit, Effect::Deny]
                .into_iter()
                .all(|effect| has(effect, directive) && has(effect, default))
    })
}

/// A small practice: 20 records, 6 roles, 8 directives. The four drafts are
/// accepted, and each is revoked again.
fn commit_typical() -> Measure {
    let records = (0..20usize).map(|number| Record {
        // Four sections below the root, and the rest below the sections.
        parent: match number {
            0..=4 => 0,
            _ => u8::try_from(number % 4).unwrap_or(0).saturating_add(1),
        },
        author: bit(number % 3).saturating_add(FIRST_AUTHOR),
        origins: bit(number % 3),
        sensitivities: bit(number % 2),
        record_type: u8::try_from(number % 4).unwrap_or(0),
        labels: bit(number % 8),
    });
    // 1 doctor, 2 cardiologist under 1, 3 nurse, 4 ward nurse under 3, 5 clerk.
    let roles = vec![0, 0, 1, 0, 3, 0];
    let on = |effect, (kind, subject), (record, reach), purposes| Fields {
        effect,
        kind,
        subject,
        record,
        reach,
        purposes,
        until: 10_000,
        ..ALL
    };
    let directives = [
        on(PERMIT, (ROLE, 1), (1, 2), 0x0001),
        on(PERMIT, (ROLE, 3), (2, 2), 0x0001),
        on(DENY, (ROLE, 5), (0, 2), 0x07FE),
        on(PERMIT, (PERSON, 600), (3, 0), 0x0001),
        on(DENY, (PERSON, 601), (4, 2), 0x07FF),
        on(PERMIT, (ROLE, 2), (3, 1), 0x0003),
        on(PERMIT, (ROLE, 4), (2, 1), 0x0003),
        on(DENY, (PERSON, 602), (1, 2), 0x07FE),
    ];
    let longer = Fields {
        from: 5000,
        until: 20_000,
        ..on(PERMIT, (ROLE, 1), (1, 2), 0x0001)
    };
    let drafts = [
        on(PERMIT, (ROLE, 2), (4, 0), 0x0001),
        on(DENY, (PERSON, 603), (2, 2), 0x07FC),
        longer,
        on(PERMIT, (PERSON, 604), (3, 2), 0x0001),
    ];
    let pairs = drafts.map(|draft| {
        let number = 100;
        vec![commit(Fields { number, ..draft }), Call::Revoke { number }]
    });
    let scene = Scene {
        roles,
        records: records.collect(),
        directives: numbered(directives),
        calls: Vec::new(),
    };
    scene.measure("commit-typical", (200, 0), &pairs, |answers| {
        answers.iter().all(accepted)
    })
}

/// The members of a set of this width whose number has this binary digit.
fn with_digit(width: usize, digit: u32, value: usize) -> u16 {
    (0..width)
        .filter(|number| number.checked_shr(digit).unwrap_or(0) & 1 == value)
        .fold(0, |set, number| set | bit(number))
}

/// The halves of everything by one binary digit: of the records, the origins
/// or the purposes. Fifteen digits tell any two of each apart.
fn halves() -> Vec<[Fields; 2]> {
    let half = |digit: usize, value: usize| {
        let set = |first: usize, width: usize| {
            let digit = digit.checked_sub(first).and_then(|d| u32::try_from(d).ok());
            with_digit(width, digit.unwrap_or(0), value)
        };
        match digit {
            0..=2 => Fields {
                pt: u8::try_from(set(0, 8)).unwrap_or(0),
                ..ALL
            },
            3..=6 => Fields {
                po: set(3, 16),
                ..ALL
            },
            7..=10 => Fields {
                subject_origins: set(7, 16),
                ..ALL
            },
            _ => Fields {
                purposes: set(11, 11),
                ..ALL
            },
        }
    };
    (0..15)
        .map(|digit| [half(digit, 0), half(digit, 1)])
        .collect()
}

/// Ten minutes of each part.
const PART: usize = 10;

/// The draft over everything, from a minute after the clock to the end of the
/// sixteenth part.
fn worst_draft() -> Fields {
    Fields {
        number: 999,
        from: 1001,
        until: 1160,
        ..ALL
    }
}

/// A draft over everything that 31 directives cover only together. Its time
/// has sixteen parts. Each of fifteen parts is covered by two halves, of the
/// records, the origins or the purposes, and the last one by one directive. So
/// each record, origin and purpose has its own covering directives, each
/// request needs sixteen of them, and none of the 31 can be left out. Each
/// has its own `until`: with the clock and the draft's `from` 33 minutes.
fn worst_scene() -> Scene {
    let parts = halves().into_iter().map(Vec::from).chain([vec![ALL]]);
    let froms = (CLOCK..).step_by(PART);
    let untils = (CLOCK..).step_by(PART).skip(1);
    let directives = parts
        .zip(froms.zip(untils))
        .flat_map(|(part, (from, until))| {
            let own = (until..).zip(part);
            own.map(move |(until, half)| Fields {
                from,
                until,
                ..half
            })
        });
    Scene {
        roles: role_chain(),
        records: record_chain(),
        directives: numbered(directives),
        calls: Vec::new(),
    }
}

fn commit_worst() -> Measure {
    let operation = [vec![commit(worst_draft())]];
    worst_scene().measure("commit-worst", (3, 50), &operation, |answers| {
        let redundant = Answer::Commit(Err(Refusal::Redundant));
        answers.iter().all(|answer| *answer == redundant)
    })
}

/// The draft selects the last record alone.
fn conflict_draft() -> Fields {
    Fields {
        number: 999,
        subject: 15,
        record: 126,
        from: 1001,
        ..ALL
    }
}

/// Thirty directives of the other effect share with the draft its minutes,
/// origins, purposes and roles, and select every other record. The last one
/// selects the last record too.
fn conflict_scene() -> Scene {
    let last = Fields {
        effect: DENY,
        until: 3000,
        ..ALL
    };
    let others = (2000..2030).map(|until| Fields {
        ps: 0x7FFF,
        until,
        ..last
    });
    Scene {
        roles: role_chain(),
        records: record_chain(),
        directives: numbered(others.chain([last])),
        calls: Vec::new(),
    }
}

fn commit_worst_conflict() -> Measure {
    let operation = [vec![commit(conflict_draft())]];
    conflict_scene().measure("commit-worst-conflict", (50, 0), &operation, |answers| {
        let conflict = Answer::Commit(Err(Refusal::Conflict(31)));
        answers.iter().all(|answer| *answer == conflict)
    })
}

/// To the clock itself, so that nothing is dropped.
fn advance() -> Measure {
    let operation = [vec![Call::Advance { minute: CLOCK }]];
    full_scene_with_tokens().measure("advance", (500, 0), &operation, |answers| {
        let nothing = Dropped {
            directives: 0,
            tokens: 0,
        };
        let nothing = Answer::Advance(Ok(nothing));
        answers.iter().all(|answer| *answer == nothing)
    })
}

/// Briefs for the last of four tokens.
fn issue_brief() -> Measure {
    let operation = [vec![Call::Brief {
        number: 4,
        person: 600,
    }]];
    full_scene_with_tokens().measure("issue-brief", (500, 0), &operation, |answers| {
        answers
            .iter()
            .all(|answer| matches!(answer, Answer::Brief(Ok(brief)) if brief.count > 50))
    })
}

/// A full card, in a buffer of its length.
fn write() -> Measure {
    let buffer = u16::try_from(FULL_CARD).unwrap_or(u16::MAX);
    let operation = [vec![Call::Write { buffer }]];
    full_scene().measure("write", (50, 100), &operation, |answers| {
        let card = full_scene().card();
        answers
            .iter()
            .all(|answer| matches!(answer, Answer::Write(Ok(written)) if *written == card))
    })
}

/// A full register and 31 permits of role 0 with all its roles, in turn for all
/// purposes on the records of even type, and for all but purpose 1 on those of
/// odd type.
fn preview_scene() -> Scene {
    let even = Fields { pt: 0x55, ..ALL };
    let odd = Fields {
        pt: 0xAA,
        purposes: ALL_PURPOSES & !0x0002,
        ..ALL
    };
    let directives = [even, odd].into_iter().cycle().zip(2000..);
    let directives = directives.map(|(directive, until)| Fields { until, ..directive });
    Scene {
        roles: role_chain(),
        records: record_chain(),
        directives: numbered(directives.take(MAX_ACTIVE.saturating_sub(1))),
        calls: Vec::new(),
    }
}

/// The preview of this draft for a stranger in the last role, for purpose 1.
fn preview_of(draft: Fields) -> [Vec<Call>; 1] {
    let requester = Requester {
        person: 600,
        role: 15,
        origin: 3,
        purpose: 1,
    };
    let draft = Fields {
        number: 999,
        ..draft
    }
    .encode()
    .to_vec();
    [vec![Call::Preview { requester, draft }]]
}

/// Whether every preview shows so many changes.
fn all_change(answers: &[Answer], count: u32) -> bool {
    let shows = |answer: &Answer| matches!(answer, Answer::Preview(Ok(shown)) if shown.words().count == count);
    answers.iter().all(shows)
}

/// A permit of everything, which selects the 127 records below the root and
/// matches the requester. The default denies them the 64 records of odd type.
/// On record 1 no active directive is for purpose 1, so question 14 is soon
/// answered.
fn preview() -> Measure {
    let operation = preview_of(ALL);
    preview_scene().measure("preview", (20, 1000), &operation, |answers| {
        all_change(answers, 64)
    })
}

/// The same for another person, so that the draft matches nothing that the
/// requester asks.
fn preview_none() -> Measure {
    let operation = preview_of(Fields {
        kind: PERSON,
        subject: 601,
        ..ALL
    });
    preview_scene().measure("preview-none", (20, 0), &operation, |answers| {
        all_change(answers, 0)
    })
}

/// A preview of a draft that selects one record, the last one, which changes.
fn preview_one() -> Measure {
    let operation = preview_of(Fields {
        record: 127,
        reach: 0,
        ..ALL
    });
    preview_scene().measure("preview-one", (20, 0), &operation, |answers| {
        all_change(answers, 1)
    })
}

/// A full card, and the sample card as the base.
fn read() -> Measure {
    let scene = full_scene();
    Measure {
        name: "read",
        kind: InputKind::Card,
        count: 1,
        timed_count: 0,
        base: SAMPLE_CARD.to_vec(),
        with: scene.card(),
        timed: Vec::new(),
        size: scene.size(),
        meant: |_| true,
    }
}
