//! Requests.

/// "One origin 0..15."
pub const ORIGINS: u8 = 16;
/// "One purpose 0..10"; "0 is treatment".
pub const PURPOSES: u8 = 11;
pub const TREATMENT: u8 = 0;

/// "A request is a person, a role, one origin 0..15, a record, one purpose
/// 0..10 and a minute."
#[derive(Clone, Copy, Debug, PartialEq, Eq)]
pub struct Request {
    pub person: u16,
    pub role: u16,
    pub origin: u8,
    pub record: u8,
    pub purpose: u8,
    pub minute: u32,
}

/// "Decide takes a request without its minute."
#[derive(Clone, Copy, Debug, PartialEq, Eq)]
pub struct Query {
    pub person: u16,
    pub role: u16,
    pub origin: u8,
    pub record: u8,
    pub purpose: u8,
}

impl Query {
    pub fn requester(self) -> Requester {
        Requester {
            person: self.person,
            role: self.role,
            origin: self.origin,
            purpose: self.purpose,
        }
    }

    /// The request at this minute.
    pub fn at(self, minute: u32) -> Request {
        Request {
            person: self.person,
            role: self.role,
            origin: self.origin,
            record: self.record,
            purpose: self.purpose,
            minute,
        }
    }
}

/// "One requester (person, role, origin, purpose)": a request without its
/// record and its minute.
#[derive(Clone, Copy, Debug, PartialEq, Eq)]
pub struct Requester {
    pub person: u16,
    pub role: u16,
    pub origin: u8,
    pub purpose: u8,
}

impl Requester {
    /// What they ask on this record.
    pub fn query(self, record: u8) -> Query {
        Query {
            person: self.person,
            role: self.role,
            origin: self.origin,
            record,
            purpose: self.purpose,
        }
    }
}

/// Whether a 16-bit set has this bit; "bit 0 is the lowest".
pub fn has_bit(set: u16, bit: u8) -> bool {
    set.checked_shr(u32::from(bit)).unwrap_or(0) & 1 == 1
}
