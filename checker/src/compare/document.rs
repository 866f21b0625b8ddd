//! An input taken apart into fields and the numbers in them, so that parts of
//! it can be left out or made simpler.

use crate::bytes::{push_field, Bytes};
use crate::card::{DIRECTIVE, HEAD, RECORD, ROLES};
use crate::directive::{ALL_PURPOSES, LENGTH, LENGTH_EDITION_1};
use crate::generate::InputKind;
use crate::replay::{
    framed_card, ADVANCE, BRIEF, COMMIT, DECIDE, ISSUE, PREVIEW, REQUESTER_LENGTH, REVOKE, WRITE,
};

/// What a number stands for. Equal numbers of one sense go together.
#[derive(Clone, Copy, Debug, PartialEq, Eq, PartialOrd, Ord)]
pub enum Sense {
    /// A number that has nothing to do with another one.
    Plain,
    Person,
    Role,
    Record,
    /// The number of a directive.
    Directive,
    /// The number of a token.
    Token,
    Minute,
    /// A set of bits, with the simplest one.
    Set(u32),
    /// A byte of a value that is no known field's.
    Byte,
}

/// A number of so many bytes.
#[derive(Clone, Copy, Debug, PartialEq, Eq)]
pub struct Unit {
    pub sense: Sense,
    pub width: usize,
    pub value: u32,
}

/// A field of a card or a call.
#[derive(Clone, Debug, PartialEq, Eq)]
pub struct Field {
    pub tag: u8,
    pub units: Vec<Unit>,
}

/// Where units stand.
#[derive(Clone, Copy, Debug, PartialEq, Eq)]
pub enum Place {
    /// In this field of the card.
    Card(usize),
    /// In this call.
    Call(usize),
    CardRest,
    Rest,
}

/// An input in parts. A replay whose card does not stand whole is all `rest`.
#[derive(Clone, Debug, PartialEq, Eq)]
pub struct Document {
    kind: InputKind,
    /// A replay with its card's length and its card.
    framed: bool,
    pub card: Vec<Field>,
    /// What stands after the card's last whole field.
    pub card_rest: Vec<Unit>,
    pub calls: Vec<Field>,
    /// What stands after the last whole call.
    pub rest: Vec<Unit>,
}

impl Document {
    pub fn parse(kind: InputKind, bytes: &[u8]) -> Document {
        let mut document = Document {
            kind,
            framed: false,
            card: Vec::new(),
            card_rest: Vec::new(),
            calls: Vec::new(),
            rest: Vec::new(),
        };
        match kind {
            InputKind::Card => (document.card, document.card_rest) = fields(bytes),
            InputKind::Replay => {
                let mut replay = Bytes::new(bytes);
                match framed_card(&mut replay) {
                    Some(card) => {
                        document.framed = true;
                        (document.card, document.card_rest) = fields(card);
                        (document.calls, document.rest) = fields(replay.rest());
                    }
                    None => document.rest = raw(bytes),
                }
            }
        }
        document
    }

    pub fn encode(&self) -> Vec<u8> {
        let mut card = Vec::new();
        push_fields(&mut card, &self.card);
        push_units(&mut card, &self.card_rest);
        let mut bytes = Vec::new();
        if self.framed {
            let length = u16::try_from(card.len()).unwrap_or(u16::MAX);
            bytes.extend(length.to_be_bytes());
        }
        bytes.extend(card);
        push_fields(&mut bytes, &self.calls);
        push_units(&mut bytes, &self.rest);
        bytes
    }

    pub fn units(&self) -> impl Iterator<Item = &Unit> {
        let fields = self.card.iter().chain(&self.calls);
        fields
            .flat_map(|field| &field.units)
            .chain(&self.card_rest)
            .chain(&self.rest)
    }

    /// The units of values that are no known field's.
    pub fn raw_values(&self) -> Vec<Place> {
        let is_raw =
            |(_, field): &(usize, &Field)| field.units.iter().any(|unit| unit.sense == Sense::Byte);
        let card = self.card.iter().enumerate().filter(is_raw);
        let calls = self.calls.iter().enumerate().filter(is_raw);
        card.map(|(number, _)| Place::Card(number))
            .chain(calls.map(|(number, _)| Place::Call(number)))
            .chain([Place::CardRest, Place::Rest])
            .collect()
    }

    /// The units at a place.
    pub fn at(&mut self, place: Place) -> Option<&mut Vec<Unit>> {
        match place {
            Place::Card(number) => self.card.get_mut(number).map(|field| &mut field.units),
            Place::Call(number) => self.calls.get_mut(number).map(|field| &mut field.units),
            Place::CardRest => Some(&mut self.card_rest),
            Place::Rest => Some(&mut self.rest),
        }
    }

    pub fn units_mut(&mut self) -> impl Iterator<Item = &mut Unit> {
        let fields = self.card.iter_mut().chain(&mut self.calls);
        fields
            .flat_map(|field| &mut field.units)
            .chain(&mut self.card_rest)
            .chain(&mut self.rest)
    }

    /// With each number of this sense mapped.
    pub fn mapped(&self, sense: Sense, map: impl Fn(u32) -> u32) -> Document {
        let mut document = self.clone();
        for unit in document.units_mut().filter(|unit| unit.sense == sense) {
            unit.value = map(unit.value);
        }
        document
    }

    /// How many records there are.
    pub fn records(&self) -> u32 {
        let records = self.card.iter().filter(|field| field.tag == RECORD);
        u32::try_from(records.count()).unwrap_or(u32::MAX)
    }

    /// Without this record: later ones move up, and what named it names its
    /// parent.
    pub fn without_record(&self, number: u32) -> Option<Document> {
        let records = self.card.iter().enumerate();
        let mut records = records.filter(|(_, field)| field.tag == RECORD);
        let (place, field) = records.nth(usize::try_from(number).ok()?)?;
        let parent = field.units.first()?.value;
        let mut document = self.clone();
        document.card.remove(place);
        Some(document.mapped(Sense::Record, closed_gap(number, parent)))
    }

    /// How many roles there are.
    pub fn roles(&self) -> u32 {
        let roles = self.card.iter().find(|field| field.tag == ROLES);
        let roles = roles.map_or(0, |field| field.units.len());
        u32::try_from(roles).unwrap_or(u32::MAX)
    }

    /// Without this role: later ones move up, and what named it names its
    /// parent.
    pub fn without_role(&self, number: u32) -> Option<Document> {
        let mut document = self.clone();
        let place = usize::try_from(number).ok()?;
        let mut fields = document.card.iter_mut();
        let roles = fields.find(|field| field.tag == ROLES)?;
        let parent = roles.units.get(place)?.value;
        roles.units.remove(place);
        Some(document.mapped(Sense::Role, closed_gap(number, parent)))
    }
}

/// The new number of each once this one is gone.
fn closed_gap(gone: u32, parent: u32) -> impl Fn(u32) -> u32 {
    move |number| match number.cmp(&gone) {
        std::cmp::Ordering::Less => number,
        std::cmp::Ordering::Equal => parent,
        std::cmp::Ordering::Greater => number.saturating_sub(1),
    }
}

/// The whole fields at the start, and what stands after them.
fn fields(bytes: &[u8]) -> (Vec<Field>, Vec<Unit>) {
    let mut fields = Vec::new();
    let mut bytes = Bytes::new(bytes);
    let mut rest = bytes.rest();
    while let Some((tag, value)) = bytes.field() {
        let units = units(tag, value).unwrap_or_else(|| raw(value));
        fields.push(Field { tag, units });
        rest = bytes.rest();
    }
    (fields, raw(rest))
}

fn raw(bytes: &[u8]) -> Vec<Unit> {
    let unit = |byte: &u8| Unit {
        sense: Sense::Byte,
        width: 1,
        value: u32::from(*byte),
    };
    bytes.iter().map(unit).collect()
}

fn push_units(bytes: &mut Vec<u8>, units: &[Unit]) {
    for unit in units {
        let all = unit.value.to_be_bytes();
        let skipped = all.len().saturating_sub(unit.width);
        bytes.extend(all.iter().skip(skipped));
    }
}

fn push_fields(bytes: &mut Vec<u8>, fields: &[Field]) {
    let mut value = Vec::new();
    for field in fields {
        value.clear();
        push_units(&mut value, &field.units);
        push_field(bytes, field.tag, &value);
    }
}

const NO_BIT: Sense = Sense::Set(0);
const ONE_BIT: Sense = Sense::Set(1);
const FULL_8: Sense = Sense::Set(0xFF);
const FULL_16: Sense = Sense::Set(0xFFFF);
const PURPOSES: Sense = Sense::Set(ALL_PURPOSES as u32);

/// The numbers of a known field of a known length.
fn units(tag: u8, value: &[u8]) -> Option<Vec<Unit>> {
    match tag {
        HEAD => cut(
            value,
            &[(Sense::Plain, 1), (Sense::Person, 2), (Sense::Minute, 4)],
        ),
        ROLES => Some(roles(value)),
        RECORD => cut(
            value,
            &[
                (Sense::Record, 1),
                (Sense::Person, 2),
                (ONE_BIT, 2),
                (ONE_BIT, 2),
                (Sense::Plain, 1),
                (NO_BIT, 2),
            ],
        ),
        DIRECTIVE | COMMIT if value.len() == LENGTH => directive(value, &[(PURPOSES, 2)]),
        DIRECTIVE if value.len() == LENGTH_EDITION_1 => directive(value, &[]),
        REVOKE => cut(value, &[(Sense::Directive, 2)]),
        ADVANCE => cut(value, &[(Sense::Minute, 4)]),
        ISSUE => cut(
            value,
            &[
                (Sense::Token, 2),
                (Sense::Person, 2),
                (FULL_8, 1),
                (Sense::Plain, 4),
            ],
        ),
        DECIDE => cut(
            value,
            &[
                (Sense::Person, 2),
                (Sense::Role, 2),
                (Sense::Plain, 1),
                (Sense::Record, 1),
                (Sense::Plain, 1),
            ],
        ),
        BRIEF => cut(value, &[(Sense::Token, 2), (Sense::Person, 2)]),
        WRITE => cut(value, &[(Sense::Plain, 2)]),
        PREVIEW => preview(value),
        _ => None,
    }
}

/// The requester, and the draft in its numbers or its bytes.
fn preview(value: &[u8]) -> Option<Vec<Unit>> {
    let (requester, draft) = value.split_at_checked(REQUESTER_LENGTH)?;
    let mut units = cut(
        requester,
        &[
            (Sense::Person, 2),
            (Sense::Role, 2),
            (Sense::Plain, 1),
            (Sense::Plain, 1),
        ],
    )?;
    units.extend(self::units(COMMIT, draft).unwrap_or_else(|| raw(draft)));
    Some(units)
}

fn roles(value: &[u8]) -> Vec<Unit> {
    let mut units = raw(value);
    for unit in &mut units {
        unit.sense = Sense::Role;
    }
    units
}

/// The kind says whether the subject is a role.
fn directive(value: &[u8], purposes: &[(Sense, usize)]) -> Option<Vec<Unit>> {
    let subject = match value.get(3)? {
        1 => Sense::Role,
        _ => Sense::Person,
    };
    let mut layout = vec![
        (Sense::Directive, 2),
        (Sense::Plain, 1),
        (Sense::Plain, 1),
        (subject, 2),
        (FULL_16, 2),
        (Sense::Record, 1),
        (Sense::Plain, 1),
        (FULL_16, 2),
        (FULL_16, 2),
        (FULL_8, 1),
    ];
    layout.extend(purposes);
    layout.extend([(Sense::Minute, 4), (Sense::Minute, 4)]);
    cut(value, &layout)
}

/// The value in numbers of these widths; nothing where it has another length.
fn cut(value: &[u8], layout: &[(Sense, usize)]) -> Option<Vec<Unit>> {
    let mut bytes = Bytes::new(value);
    let mut units = Vec::new();
    for (sense, width) in layout {
        let number = bytes.take(*width)?.iter();
        let number = number.fold(0u32, |high, byte| high.wrapping_shl(8) | u32::from(*byte));
        units.push(Unit {
            sense: *sense,
            width: *width,
            value: number,
        });
    }
    bytes.is_empty().then_some(units)
}
