//! Cards, drafts and queries of any value, and document 01's sample register.

use crate::bytes::field;
use crate::card;
use crate::directive::Fields;
use crate::register::Record;
use crate::request::{Query, Requester};

pub const DENY: u8 = 0;
pub const PERMIT: u8 = 1;
pub const PERSON: u8 = 0;
pub const ROLE: u8 = 1;

/// The parts of a card, of any value.
#[derive(Clone, Debug)]
pub struct Card {
    pub edition: u8,
    pub patient: u16,
    pub clock: u32,
    pub roles: Vec<u8>,
    pub records: Vec<Record>,
    pub directives: Vec<Fields>,
}

impl Card {
    pub fn head(&self) -> Vec<u8> {
        card::head_field(self.edition, self.patient, self.clock)
    }

    pub fn role_field(&self) -> Vec<u8> {
        field(card::ROLES, &self.roles)
    }

    pub fn fields(&self) -> Vec<Vec<u8>> {
        let mut fields = vec![self.head(), self.role_field()];
        fields.extend(self.records.iter().map(record_field));
        for directive in &self.directives {
            fields.push(match self.edition {
                1 => field(card::DIRECTIVE, &directive.encode_edition_1()),
                _ => field(card::DIRECTIVE, &directive.encode()),
            });
        }
        fields
    }

    pub fn bytes(&self) -> Vec<u8> {
        self.fields().concat()
    }

    pub fn with(mut self, directives: &[Fields]) -> Card {
        self.directives.extend(directives);
        self
    }

    /// With a change of one record.
    pub fn changed(mut self, number: usize, change: impl Fn(&mut Record)) -> Card {
        if let Some(record) = self.records.get_mut(number) {
            change(record);
        }
        self
    }
}

pub fn record_field(record: &Record) -> Vec<u8> {
    field(card::RECORD, &record.encode())
}

pub fn record(
    parent: u8,
    author: u16,
    origins: u16,
    sensitivities: u16,
    record_type: u8,
    labels: u16,
) -> Record {
    Record {
        parent,
        author,
        origins,
        sensitivities,
        record_type,
        labels,
    }
}

/// Document 01's sample register: patient 7, clock 1000, no directives.
pub fn sample() -> Card {
    Card {
        edition: 2,
        patient: 7,
        clock: 1000,
        roles: vec![0, 0, 1, 0],
        records: vec![
            record(0, 500, 0x0001, 0x0001, 0, 0),
            record(0, 501, 0x0003, 0x0001, 0, 0x0004),
            record(1, 502, 0x0002, 0x0003, 0, 0x0800),
        ],
        directives: Vec::new(),
    }
}

/// A full register: 16 roles and 128 records, each under the one before it.
/// Record 0 is by author 500, record 1 by 501 and so on.
pub fn full() -> Card {
    let records = (0u8..128).zip(500..);
    Card {
        roles: [0].into_iter().chain(0..15).collect(),
        records: records
            .map(|(number, author)| record(number.saturating_sub(1), author, 1, 1, 0, 0))
            .collect(),
        ..sample()
    }
}

/// "Unless named, a directive has number 2, sets are full (purposes 0x07FF)
/// and minutes are 1000..2000."
pub fn draft(effect: u8, (kind, subject): (u8, u16), record: u8, reach: u8) -> Fields {
    Fields {
        number: 2,
        effect,
        kind,
        subject,
        subject_origins: 0xFFFF,
        record,
        reach,
        po: 0xFFFF,
        ps: 0xFFFF,
        pt: 0xFF,
        purposes: 0x07FF,
        from: 1000,
        until: 2000,
    }
}

pub fn numbered(number: u16, draft: Fields) -> Fields {
    Fields { number, ..draft }
}

pub fn over(from: u32, until: u32, draft: Fields) -> Fields {
    Fields {
        from,
        until,
        ..draft
    }
}

/// "A: number 1, deny, role 1, record 0, reach 2."
pub fn directive_a() -> Fields {
    numbered(1, draft(DENY, (ROLE, 1), 0, 2))
}

/// Who asks in Q.
pub fn requester_q() -> Requester {
    query_q().requester()
}

/// "Q: person 600, role 1, origin 1, record 1, purpose 0."
pub fn query_q() -> Query {
    Query {
        person: 600,
        role: 1,
        origin: 1,
        record: 1,
        purpose: 0,
    }
}
