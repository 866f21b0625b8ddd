//! The card: reading it into a ledger and writing it from one.

use crate::bytes::{field, push_field, Bytes};
use crate::directive::{Fields, LENGTH, LENGTH_EDITION_1};
use crate::ledger::Ledger;
use crate::refusal::Refusal;
use crate::register::{Record, Register, MAX_RECORDS, MAX_ROLES};

pub const HEAD: u8 = 0x01;
pub const ROLES: u8 = 0x02;
pub const RECORD: u8 = 0x03;
pub const DIRECTIVE: u8 = 0x04;

/// The length of the value of a head field, and of a record field.
pub const HEAD_LENGTH: usize = 7;
pub const RECORD_LENGTH: usize = 10;

#[derive(Clone, Copy, Debug, PartialEq, Eq)]
pub enum Edition {
    One,
    Two,
}

impl Edition {
    pub fn number(self) -> u8 {
        match self {
            Edition::One => 1,
            Edition::Two => 2,
        }
    }

    /// The length of a directive field.
    pub fn directive_length(self) -> usize {
        match self {
            Edition::One => LENGTH_EDITION_1,
            Edition::Two => LENGTH,
        }
    }
}

#[derive(Clone, Copy, Debug, PartialEq, Eq)]
pub struct Head {
    pub edition: Edition,
    pub patient: u16,
    pub clock: u32,
}

/// How far a card has been read. A ledger with a directive is past the
/// records.
#[derive(Clone, Debug, PartialEq, Eq)]
pub enum Stage {
    Start,
    Head(Head),
    Register { edition: Edition, ledger: Ledger },
}

/// The first "no": the offset of its field, or of the card's end.
#[derive(Clone, Copy, Debug, PartialEq, Eq)]
pub struct Stop {
    pub offset: usize,
    pub refusal: Refusal,
}

/// A card as far as it can be read.
#[derive(Clone, Debug, PartialEq, Eq)]
pub struct Reading {
    pub stage: Stage,
    /// Nothing if the card is accepted.
    pub stop: Option<Stop>,
}

impl Reading {
    /// Reads a card of any length.
    pub fn of(card: &[u8]) -> Reading {
        let mut stage = Stage::Start;
        let mut bytes = Bytes::new(card);
        while !bytes.is_empty() {
            let offset = card.len().saturating_sub(bytes.left());
            let field = bytes.field().ok_or(Refusal::FieldNotWhole);
            let read = field.and_then(|(tag, value)| stage.read_field(tag, value));
            if let Err(refusal) = read {
                let stop = Some(Stop { offset, refusal });
                return Reading { stage, stop };
            }
        }
        let stop = (!stage.is_complete()).then_some(Stop {
            offset: card.len(),
            refusal: Refusal::CardIncomplete,
        });
        Reading { stage, stop }
    }
}

/// Reads a card of any length. On a refusal the ledger is the empty one.
pub fn read(card: &[u8]) -> Result<Ledger, Refusal> {
    let Reading { stage, stop } = Reading::of(card);
    match (stage, stop) {
        (_, Some(stop)) => Err(stop.refusal),
        (Stage::Register { ledger, .. }, None) => Ok(ledger),
        (Stage::Start | Stage::Head(_), None) => Err(Refusal::CardIncomplete),
    }
}

impl Stage {
    /// How many fields have been read.
    pub fn fields(&self) -> usize {
        match self {
            Stage::Start => 0,
            Stage::Head(_) => 1,
            Stage::Register { ledger, .. } => {
                let records = ledger.register().records().len();
                let directives = ledger.active().len();
                records.saturating_add(directives).saturating_add(2)
            }
        }
    }

    /// "Were head, roles and a record read?"
    fn is_complete(&self) -> bool {
        match self {
            Stage::Start | Stage::Head(_) => false,
            Stage::Register { ledger, .. } => !ledger.register().records().is_empty(),
        }
    }

    /// Questions 2 to 4 and 7 to 13 for one field. "Any other tag has no
    /// place." A refused field changes nothing.
    fn read_field(&mut self, tag: u8, value: &[u8]) -> Result<(), Refusal> {
        match (&mut *self, tag) {
            (Stage::Start, HEAD) => *self = Stage::Head(read_head(value)?),
            (Stage::Head(head), ROLES) => {
                let register = read_roles(value)?;
                *self = Stage::Register {
                    edition: head.edition,
                    ledger: Ledger::new(head.patient, head.clock, register),
                };
            }
            (Stage::Register { ledger, .. }, RECORD) if ledger.active().is_empty() => {
                read_record(ledger.register_mut(), value)?;
            }
            (Stage::Register { edition, ledger }, DIRECTIVE)
                if !ledger.register().records().is_empty() =>
            {
                ledger.read_directive(&directive_fields(*edition, value)?)?;
            }
            _ => return Err(Refusal::FieldPlaceOrLength),
        }
        Ok(())
    }
}

/// "0x01, first, once: edition (1 or 2), patient 2, minute 4 (sets the
/// clock)."
fn read_head(value: &[u8]) -> Result<Head, Refusal> {
    let head = <[u8; HEAD_LENGTH]>::try_from(value).map_err(|_| Refusal::FieldPlaceOrLength)?;
    let [edition, p1, p0, m3, m2, m1, m0] = head;
    let edition = match edition {
        1 => Edition::One,
        2 => Edition::Two,
        _ => return Err(Refusal::FieldRange),
    };
    Ok(Head {
        edition,
        patient: u16::from_be_bytes([p1, p0]),
        clock: u32::from_be_bytes([m3, m2, m1, m0]),
    })
}

/// "0x02, second, once: one byte a role, its parent; role 0 has 0. Length
/// 1..16."
fn read_roles(value: &[u8]) -> Result<Register, Refusal> {
    if value.is_empty() || value.len() > MAX_ROLES {
        return Err(Refusal::FieldPlaceOrLength);
    }
    Register::with_roles(value).ok_or(Refusal::FieldRange)
}

/// "0x03, one a record, in order, after 0x02 and before any 0x04."
fn read_record(register: &mut Register, value: &[u8]) -> Result<(), Refusal> {
    let bytes = <&[u8; RECORD_LENGTH]>::try_from(value).map_err(|_| Refusal::FieldPlaceOrLength)?;
    if register.records().len() >= MAX_RECORDS {
        return Err(Refusal::TooManyRecords);
    }
    register
        .add_record(Record::decode(bytes))
        .ok_or(Refusal::FieldRange)
}

/// "0x04, after the records (at least one), one a directive"; 25 bytes, and
/// in edition 1 23.
pub fn directive_fields(edition: Edition, value: &[u8]) -> Result<Fields, Refusal> {
    let fields = match edition {
        Edition::One => <&[u8; LENGTH_EDITION_1]>::try_from(value).map(Fields::decode_edition_1),
        Edition::Two => <&[u8; LENGTH]>::try_from(value).map(Fields::decode),
    };
    fields.map_err(|_| Refusal::FieldPlaceOrLength)
}

/// The head field of a card.
pub fn head_field(edition: u8, patient: u16, clock: u32) -> Vec<u8> {
    let mut value = vec![edition];
    value.extend(patient.to_be_bytes());
    value.extend(clock.to_be_bytes());
    field(HEAD, &value)
}

/// "The writer gives edition 2: patient, clock, register, active directives
/// in order, no tokens. It reports the length; bytes after it keep their
/// content." A refused write changes nothing.
pub fn write(ledger: &Ledger, buffer: &mut [u8]) -> Result<usize, Refusal> {
    if ledger.register().records().is_empty() {
        return Err(Refusal::NoRecord);
    }
    let mut card = head_field(2, ledger.patient(), ledger.clock());
    push_field(&mut card, ROLES, ledger.register().roles());
    for record in ledger.register().records() {
        push_field(&mut card, RECORD, &record.encode());
    }
    for directive in ledger.active() {
        push_field(&mut card, DIRECTIVE, &directive.fields().encode());
    }
    let target = buffer
        .get_mut(..card.len())
        .ok_or(Refusal::BufferTooShort)?;
    target.copy_from_slice(&card);
    Ok(card.len())
}
