//! Directives: their fields in bytes, what they select and what they match.

use crate::refusal::Refusal;
use crate::register::{Reach, RecordSet, Register};
use crate::request::{has_bit, Request};

/// The length of a directive in an edition 2 card and in a draft.
pub const LENGTH: usize = 25;
/// "Edition 1 leaves out purposes (23 bytes) and means 0x07FF."
pub const LENGTH_EDITION_1: usize = 23;
/// "Purposes (bits 0..10)."
pub const ALL_PURPOSES: u16 = 0x07FF;

/// Where purposes stand in the 25 bytes.
const PURPOSES_AT: usize = 15;

#[derive(Clone, Copy, Debug, PartialEq, Eq)]
pub enum Effect {
    Deny,
    Permit,
}

/// "The subject is either one person or one role with all roles that it
/// covers."
#[derive(Clone, Copy, Debug, PartialEq, Eq)]
pub enum Subject {
    Person(u16),
    Role(u16),
}

impl Subject {
    /// Whether the subject covers this person presenting this role. Without
    /// a person: one that no directive names.
    pub fn covers(self, register: &Register, person: Option<u16>, role: u16) -> bool {
        match self {
            Subject::Person(named) => person == Some(named),
            Subject::Role(named) => register.covers(named, role),
        }
    }
}

/// The fields of a directive as its bytes have them, of any value.
#[derive(Clone, Copy, Debug, PartialEq, Eq)]
pub struct Fields {
    pub number: u16,
    pub effect: u8,
    pub kind: u8,
    pub subject: u16,
    pub subject_origins: u16,
    pub record: u8,
    pub reach: u8,
    pub po: u16,
    pub ps: u16,
    pub pt: u8,
    pub purposes: u16,
    pub from: u32,
    pub until: u32,
}

impl Fields {
    /// "Number 2, effect 1 (0 deny, 1 permit), subject kind 1 (0 person,
    /// 1 role), subject 2, subject origins 2, record 1, reach 1, po 2, ps 2,
    /// pt 1, purposes 2, from 4, until 4."
    pub fn decode(bytes: &[u8; LENGTH]) -> Fields {
        let [n1, n0, effect, kind, s1, s0, g1, g0, record, reach, o1, o0, rest @ ..] = *bytes;
        let [v1, v0, pt, p1, p0, f3, f2, f1, f0, u3, u2, u1, u0] = rest;
        Fields {
            number: u16::from_be_bytes([n1, n0]),
            effect,
            kind,
            subject: u16::from_be_bytes([s1, s0]),
            subject_origins: u16::from_be_bytes([g1, g0]),
            record,
            reach,
            po: u16::from_be_bytes([o1, o0]),
            ps: u16::from_be_bytes([v1, v0]),
            pt,
            purposes: u16::from_be_bytes([p1, p0]),
            from: u32::from_be_bytes([f3, f2, f1, f0]),
            until: u32::from_be_bytes([u3, u2, u1, u0]),
        }
    }

    pub fn encode(&self) -> [u8; LENGTH] {
        let [n1, n0] = self.number.to_be_bytes();
        let [s1, s0] = self.subject.to_be_bytes();
        let [g1, g0] = self.subject_origins.to_be_bytes();
        let [o1, o0] = self.po.to_be_bytes();
        let [v1, v0] = self.ps.to_be_bytes();
        let [p1, p0] = self.purposes.to_be_bytes();
        let [f3, f2, f1, f0] = self.from.to_be_bytes();
        let [u3, u2, u1, u0] = self.until.to_be_bytes();
        let (effect, kind, record) = (self.effect, self.kind, self.record);
        let (reach, pt) = (self.reach, self.pt);
        [
            n1, n0, effect, kind, s1, s0, g1, g0, record, reach, o1, o0, v1, v0, pt, p1, p0, f3,
            f2, f1, f0, u3, u2, u1, u0,
        ]
    }

    /// The fields of the 23 bytes of edition 1.
    pub fn decode_edition_1(bytes: &[u8; LENGTH_EDITION_1]) -> Fields {
        let mut full = [0; LENGTH];
        let before = bytes.iter().copied().take(PURPOSES_AT);
        let after = bytes.iter().copied().skip(PURPOSES_AT);
        let all = before.chain(ALL_PURPOSES.to_be_bytes()).chain(after);
        for (to, byte) in full.iter_mut().zip(all) {
            *to = byte;
        }
        Fields::decode(&full)
    }

    /// The bytes without purposes, as edition 1 has them.
    pub fn encode_edition_1(&self) -> Vec<u8> {
        let full = self.encode();
        let before = full.iter().take(PURPOSES_AT);
        let after = full.iter().skip(PURPOSES_AT).skip(2);
        before.chain(after).copied().collect()
    }
}

/// "A directive has a number (16 bits), an effect, a subject, subject origins
/// (16-bit set), a record with a reach, filtration sets po (origins, 16
/// bits), ps (sensitivities, 16 bits), pt (types, 8 bits), purposes (bits
/// 0..10; 0 is treatment) and minutes from..until."
#[derive(Clone, Copy, Debug, PartialEq, Eq)]
pub struct Directive {
    pub number: u16,
    pub effect: Effect,
    pub subject: Subject,
    pub subject_origins: u16,
    pub record: u8,
    pub reach: Reach,
    pub po: u16,
    pub ps: u16,
    pub pt: u8,
    pub purposes: u16,
    pub from: u32,
    pub until: u32,
}

impl Directive {
    /// Question 7: "Effect and kind 0 or 1, .. every set non-empty, purposes
    /// within 0x07FF?", which for the reach "allows 0..3".
    pub fn from_fields(fields: &Fields) -> Result<Directive, Refusal> {
        let effect = match fields.effect {
            0 => Effect::Deny,
            1 => Effect::Permit,
            _ => return Err(Refusal::DraftRange),
        };
        let subject = match fields.kind {
            0 => Subject::Person(fields.subject),
            1 => Subject::Role(fields.subject),
            _ => return Err(Refusal::DraftRange),
        };
        let reach = Reach::decode(fields.reach).ok_or(Refusal::DraftRange)?;
        let sets = [
            fields.subject_origins,
            fields.po,
            fields.ps,
            u16::from(fields.pt),
            fields.purposes,
        ];
        if sets.contains(&0) || fields.purposes & !ALL_PURPOSES != 0 {
            return Err(Refusal::DraftRange);
        }
        Ok(Directive {
            number: fields.number,
            effect,
            subject,
            subject_origins: fields.subject_origins,
            record: fields.record,
            reach,
            po: fields.po,
            ps: fields.ps,
            pt: fields.pt,
            purposes: fields.purposes,
            from: fields.from,
            until: fields.until,
        })
    }

    pub fn fields(&self) -> Fields {
        let effect = match self.effect {
            Effect::Deny => 0,
            Effect::Permit => 1,
        };
        let (kind, subject) = match self.subject {
            Subject::Person(person) => (0, person),
            Subject::Role(role) => (1, role),
        };
        Fields {
            number: self.number,
            effect,
            kind,
            subject,
            subject_origins: self.subject_origins,
            record: self.record,
            reach: self.reach.encode(),
            po: self.po,
            ps: self.ps,
            pt: self.pt,
            purposes: self.purposes,
            from: self.from,
            until: self.until,
        }
    }

    /// "It selects a record within its reach whose origins all lie in po,
    /// whose sensitivities all lie in ps and whose type is in pt."
    #[inline]
    pub fn selects(&self, register: &Register, record: u8) -> bool {
        let Some(found) = register.record(record) else {
            return false;
        };
        found.origins & !self.po == 0
            && found.sensitivities & !self.ps == 0
            && has_bit(u16::from(self.pt), found.record_type)
            && register.reaches(self.record, self.reach, record)
    }

    /// All records that it selects.
    pub fn selected(&self, register: &Register) -> RecordSet {
        register.records_where(|number, _| self.selects(register, number))
    }

    /// "A directive matches it when subject, subject origins and purposes
    /// cover it, the record is selected, and from <= minute < until."
    pub fn matches(&self, register: &Register, request: &Request) -> bool {
        self.from <= request.minute
            && request.minute < self.until
            && has_bit(self.subject_origins, request.origin)
            && has_bit(self.purposes, request.purpose)
            && self
                .subject
                .covers(register, Some(request.person), request.role)
            && self.selects(register, request.record)
    }

    /// The first minute from the clock on that it matches, if there is one.
    pub fn first_minute(&self, clock: u32) -> Option<u32> {
        let first = self.from.max(clock);
        (first < self.until).then_some(first)
    }
}
