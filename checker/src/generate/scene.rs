//! A random patient with a register, and what has been tried on the ledger.

use crate::directive::{Directive, Fields, ALL_PURPOSES};
use crate::ledger::Ledger;
use crate::random::Random;
use crate::register::{Record, Register, MAX_RECORDS, MAX_ROLES};

#[derive(Clone, Copy, Debug, PartialEq, Eq)]
pub enum Profile {
    /// Few persons, roles, records and minutes, so that directives overlap.
    Small,
    /// All or nearly all places taken.
    Full,
    /// Values at the ends of their ranges.
    Edge,
}

/// How effects are spread over the directives. Directives of one effect never
/// conflict; the last three keep opposite ones apart in one dimension.
#[derive(Clone, Copy, Debug)]
pub enum Effects {
    One(u8),
    Mixed,
    ByOrigin(u16),
    ByPurpose(u16),
    ByMinute(u32),
}

/// A token that was issued or refused.
#[derive(Clone, Copy, Debug, Default)]
pub struct TriedToken {
    pub number: u16,
    pub person: u16,
    pub until: u32,
}

/// How many of the last drafts and tokens are kept.
const LAST_TRIED: usize = 8;

pub struct Scene {
    pub profile: Profile,
    pub edition: u8,
    pub patient: u16,
    pub clock: u32,
    pub register: Register,
    pub persons: Vec<u16>,
    /// The bits that most sets are made of.
    pub origins: u16,
    pub sensitivities: u16,
    pub purposes: u16,
    /// How far minutes are from the clock.
    pub span: u32,
    /// How far an advance goes at most.
    pub stride: u32,
    /// Most directives are on one record and one person.
    pub narrow: bool,
    pub effects: Effects,
    /// Directives of the card, of commits and of previews, accepted or not; a
    /// wide draft that is previewed is not among them.
    pub drafts: Vec<Fields>,
    pub tokens: Vec<TriedToken>,
}

impl Scene {
    pub fn new(profile: Profile, random: &mut Random) -> Scene {
        let persons = persons(profile, random);
        let patient = random.pick(&persons);
        let clock = clock(profile, random);
        let origins = few_bits(random);
        let sensitivities = few_bits(random);
        let purposes = few_bits(random) & ALL_PURPOSES | 1;
        let span = match profile {
            Profile::Small | Profile::Edge => random.range(2, 12),
            Profile::Full => random.range(5, 400),
        };
        let narrow = random.chance(match profile {
            Profile::Small | Profile::Edge => 15,
            Profile::Full => 50,
        });
        let effects = effects(profile, random, clock, span);
        let sizes = sizes(profile, random);
        let register = register(random, sizes, &persons, (origins, sensitivities));
        Scene {
            profile,
            edition: if random.chance(20) { 1 } else { 2 },
            patient,
            clock,
            register,
            persons,
            origins,
            sensitivities,
            purposes,
            span,
            stride: u32::MAX,
            narrow,
            effects,
            drafts: Vec::new(),
            tokens: Vec::new(),
        }
    }

    /// The scene of a ledger that a card gave.
    pub fn of(ledger: &Ledger, random: &mut Random) -> Scene {
        let records = ledger.register().records();
        let union = |set: fn(&Record) -> u16| records.iter().fold(0, |union, one| union | set(one));
        let mut persons = vec![ledger.patient()];
        persons.extend(records.iter().map(|record| record.author));
        persons.extend((0..4).map(|_| random.u16()));
        Scene {
            profile: Profile::Small,
            edition: 2,
            patient: ledger.patient(),
            clock: ledger.clock(),
            register: ledger.register().clone(),
            persons,
            origins: union(|record| record.origins),
            sensitivities: union(|record| record.sensitivities),
            purposes: ALL_PURPOSES,
            span: 20,
            stride: u32::MAX,
            narrow: false,
            effects: Effects::Mixed,
            drafts: ledger.active().iter().map(Directive::fields).collect(),
            tokens: Vec::new(),
        }
    }

    /// Spreads the effects of later drafts in another way.
    pub fn change_effects(&mut self, random: &mut Random) {
        self.effects = effects(self.profile, random, self.clock, self.span);
    }

    /// Forgets all drafts and tokens but the last ones tried, and the active
    /// directives of the ledger.
    pub fn forget(&mut self, ledger: &Ledger) {
        let old = self.drafts.len().saturating_sub(LAST_TRIED);
        let active = ledger.active().iter().map(Directive::fields);
        self.drafts.splice(..old, active);
        let old = self.tokens.len().saturating_sub(LAST_TRIED);
        self.tokens.drain(..old);
    }

    /// The persons who are neither the patient nor an author.
    pub fn strangers(&self) -> Vec<u16> {
        let records = self.register.records();
        let authored = |person: &u16| records.iter().any(|record| record.author == *person);
        let persons = self.persons.iter().copied();
        persons
            .filter(|person| *person != self.patient && !authored(person))
            .collect()
    }

    /// The number of a record.
    pub fn record(&self, random: &mut Random) -> u8 {
        number(random.index(self.register.records().len()))
    }

    /// The number of a role.
    pub fn role(&self, random: &mut Random) -> u16 {
        u16::from(number(random.index(self.register.roles().len())))
    }

    /// The numbers of the records whose parent is this one.
    pub fn children(&self, record: u8) -> Vec<u8> {
        let records = self.register.numbered_records();
        records
            .filter(|(number, child)| *number != 0 && child.parent == record)
            .map(|(number, _)| number)
            .collect()
    }
}

/// A list index as the number of a role or record.
fn number(index: usize) -> u8 {
    u8::try_from(index).unwrap_or(u8::MAX)
}

/// A set of one to three bits.
fn few_bits(random: &mut Random) -> u16 {
    random.bit(0xFFFF) | random.bit(0xFFFF) | random.bit(0xFFFF)
}

fn persons(profile: Profile, random: &mut Random) -> Vec<u16> {
    match profile {
        Profile::Edge => vec![0, 1, 255, 256, 65534, 65535],
        Profile::Small | Profile::Full => {
            let first = random.u16() & 0xFFF8;
            (0..8).map(|offset| first | offset).collect()
        }
    }
}

fn clock(profile: Profile, random: &mut Random) -> u32 {
    match profile {
        Profile::Small | Profile::Full => random.range(0, 100_000),
        Profile::Edge => match random.range(0, 19) {
            0..=2 => 0,
            3 => u32::MAX,
            4..=8 => u32::MAX.saturating_sub(random.range(1, 12)),
            9..=14 => u32::MAX.saturating_sub(random.range(200, 300)),
            _ => 0x0001_0000_u32.saturating_sub(random.range(0, 5)),
        },
    }
}

fn effects(profile: Profile, random: &mut Random, clock: u32, span: u32) -> Effects {
    let one = match profile {
        Profile::Small | Profile::Edge => 45,
        Profile::Full => 75,
    };
    if random.chance(one) {
        return Effects::One(if random.chance(60) { 1 } else { 0 });
    }
    match random.range(0, 5) {
        0 | 1 => Effects::Mixed,
        2 | 3 => Effects::ByOrigin(random.u16()),
        4 => Effects::ByPurpose(random.u16()),
        _ => Effects::ByMinute(clock.saturating_add(random.range(1, span))),
    }
}

/// How parents are chosen.
#[derive(Clone, Copy)]
enum Tree {
    Random,
    Chain,
    Star,
    Binary,
}

impl Tree {
    fn new(random: &mut Random) -> Tree {
        match random.range(0, 5) {
            0 => Tree::Chain,
            1 => Tree::Star,
            2 => Tree::Binary,
            _ => Tree::Random,
        }
    }

    fn parent(self, random: &mut Random, number: u8) -> u8 {
        let before = number.saturating_sub(1);
        match self {
            Tree::Random => random.up_to(before),
            Tree::Chain => before,
            Tree::Star => 0,
            Tree::Binary => before / 2,
        }
    }
}

/// A register with two roles and two records.
pub fn small_register(random: &mut Random, scene: &Scene) -> Register {
    let bits = (scene.origins, scene.sensitivities);
    register(random, (2, 2), &scene.persons, bits)
}

/// How many roles and records.
fn sizes(profile: Profile, random: &mut Random) -> (u8, u8) {
    let most_roles = number(MAX_ROLES);
    let most_records = number(MAX_RECORDS);
    match profile {
        Profile::Small => (
            random.pick(&[1, 2, 3, 4, 5]),
            random.pick(&[1, 2, 3, 4, 5, 6]),
        ),
        Profile::Edge => (
            random.pick(&[1, 2, 15, most_roles]),
            random.pick(&[1, 2, 3, 4]),
        ),
        Profile::Full => (
            random.pick(&[most_roles, most_roles, most_roles, 9]),
            random.pick(&[most_records, most_records, most_records, 127, 65, 64]),
        ),
    }
}

fn register(
    random: &mut Random,
    (roles, records): (u8, u8),
    persons: &[u16],
    (origins, sensitivities): (u16, u16),
) -> Register {
    let tree = Tree::new(random);
    let parents: Vec<u8> = (0..roles).map(|role| tree.parent(random, role)).collect();
    let mut register = Register::with_roles(&parents).unwrap_or_default();
    let tree = Tree::new(random);
    let types = random.pick(&[0, 1, 1, 7]);
    for record in 0..records {
        let parent = tree.parent(random, record);
        let author = random.index(persons.len().min(3));
        // Nothing is out of range, so every record is added.
        let _ = register.add_record(Record {
            parent,
            author: persons.get(author).copied().unwrap_or(0),
            origins: random.subset(origins),
            sensitivities: random.subset(sensitivities),
            record_type: random.up_to(types),
            labels: labels(random),
        });
    }
    register
}

/// No labels, one, some, or only ones that no scope has.
fn labels(random: &mut Random) -> u16 {
    match random.range(0, 9) {
        0..=2 => 0,
        3 | 4 => random.bit(0x07FF),
        5 | 6 => random.u16() & random.u16(),
        7 => random.u16() & 0xF800,
        _ => random.u16(),
    }
}
