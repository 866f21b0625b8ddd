//! The register: roles and records, each with its parent.

/// "Up to 16 roles."
pub const MAX_ROLES: usize = 16;
/// "A register has a place for 128 records."
pub const MAX_RECORDS: usize = 128;
/// "A type 0..7."
pub const MAX_TYPE: u8 = 7;

/// A set of records: bit i stands for record i.
pub type RecordSet = u128;

/// The set of one record; empty for a number that no register has.
pub fn record_bit(record: u8) -> RecordSet {
    1u128.checked_shl(u32::from(record)).unwrap_or(0)
}

/// "Two 64-bit words, bit i for record i (word i / 64, bit i mod 64), .. and
/// the count of set bits."
#[derive(Clone, Copy, Debug, PartialEq, Eq)]
pub struct RecordWords {
    pub words: [u64; 2],
    pub count: u32,
}

impl RecordWords {
    pub fn of(records: RecordSet) -> RecordWords {
        let high = records.checked_shr(u64::BITS).unwrap_or(0);
        let word = |half: u128| u64::try_from(half & u128::from(u64::MAX)).unwrap_or(0);
        RecordWords {
            words: [word(records), word(high)],
            count: records.count_ones(),
        }
    }
}

/// The records of two such words.
pub fn set_of_words([low, high]: [u64; 2]) -> RecordSet {
    let high = u128::from(high).checked_shl(u64::BITS).unwrap_or(0);
    high | u128::from(low)
}

/// "A record has an author (person, 16 bits), origins (16-bit set, not
/// empty), sensitivities (16-bit set, not empty), a type 0..7 and labels
/// (16-bit set, may be empty)."
#[derive(Clone, Copy, Debug, PartialEq, Eq)]
pub struct Record {
    pub parent: u8,
    pub author: u16,
    pub origins: u16,
    pub sensitivities: u16,
    pub record_type: u8,
    pub labels: u16,
}

impl Record {
    /// "Parent 1 (record 0 has 0), author 2, origins 2, sensitivities 2,
    /// type 1, labels 2."
    pub fn decode(bytes: &[u8; 10]) -> Record {
        let [parent, a1, a0, o1, o0, s1, s0, record_type, l1, l0] = *bytes;
        Record {
            parent,
            author: u16::from_be_bytes([a1, a0]),
            origins: u16::from_be_bytes([o1, o0]),
            sensitivities: u16::from_be_bytes([s1, s0]),
            record_type,
            labels: u16::from_be_bytes([l1, l0]),
        }
    }

    pub fn encode(&self) -> [u8; 10] {
        let [a1, a0] = self.author.to_be_bytes();
        let [o1, o0] = self.origins.to_be_bytes();
        let [s1, s0] = self.sensitivities.to_be_bytes();
        let [l1, l0] = self.labels.to_be_bytes();
        let parent = self.parent;
        let record_type = self.record_type;
        [parent, a1, a0, o1, o0, s1, s0, record_type, l1, l0]
    }
}

/// What a reach can take, seen from a record: one mark each for the record
/// itself, its children, and all its descendants without itself.
const ITSELF: u8 = 1;
const CHILDREN: u8 = 2;
const DESCENDANTS: u8 = 4;

/// "Reach 0 is the record itself, 1 its children, 2 all its descendants
/// without itself", and "reach 3 is the record with all its descendants".
#[derive(Clone, Copy, Debug, PartialEq, Eq)]
pub enum Reach {
    Itself = 0,
    Children = 1,
    Descendants = 2,
    Folder = 3,
}

impl Reach {
    pub const ALL: [Reach; 4] = [
        Reach::Itself,
        Reach::Children,
        Reach::Descendants,
        Reach::Folder,
    ];

    pub fn decode(byte: u8) -> Option<Reach> {
        Reach::ALL.into_iter().find(|reach| reach.encode() == byte)
    }

    pub fn encode(self) -> u8 {
        self as u8
    }

    /// The one description of a reach, by its marks: what is within it follows
    /// from them.
    const fn marks(self) -> u8 {
        match self {
            Reach::Itself => ITSELF,
            Reach::Children => CHILDREN,
            Reach::Descendants => DESCENDANTS,
            Reach::Folder => ITSELF | DESCENDANTS,
        }
    }

    #[inline]
    const fn takes(self, mark: u8) -> bool {
        self.marks() & mark != 0
    }
}

/// Roles and records in order. `ancestors` has, for each record, the records
/// above it on the way to record 0.
#[derive(Clone, Debug, Default, PartialEq, Eq)]
pub struct Register {
    roles: Vec<u8>,
    records: Vec<Record>,
    ancestors: Vec<RecordSet>,
}

impl Register {
    /// A register with these roles and no records. "Role 0 is the top; every
    /// other role has a parent of lower number", and "role 0 has 0". Nothing
    /// where a parent breaks that, or the roles are not 1 to 16.
    pub fn with_roles(parents: &[u8]) -> Option<Register> {
        if parents.is_empty() || parents.len() > MAX_ROLES {
            return None;
        }
        let in_range = parents.iter().enumerate().all(keeps_parent_range);
        in_range.then(|| Register {
            roles: parents.to_vec(),
            ..Register::default()
        })
    }

    /// Puts a record last. Nothing, and no change, where it breaks a range or
    /// all places are taken. "Record 0 is the root; every other record has a
    /// parent of lower number."
    pub fn add_record(&mut self, record: Record) -> Option<()> {
        let number = self.records.len();
        let in_range = number < MAX_RECORDS
            && keeps_parent_range((number, &record.parent))
            && record.origins != 0
            && record.sensitivities != 0
            && record.record_type <= MAX_TYPE;
        if !in_range {
            return None;
        }
        let above = match self.ancestors.get(usize::from(record.parent)) {
            Some(ancestors) => ancestors | record_bit(record.parent),
            None => 0,
        };
        self.records.push(record);
        self.ancestors.push(above);
        Some(())
    }

    /// The parent of each role, in order.
    pub fn roles(&self) -> &[u8] {
        &self.roles
    }

    pub fn records(&self) -> &[Record] {
        &self.records
    }

    pub fn has_role(&self, role: u16) -> bool {
        usize::from(role) < self.roles.len()
    }

    pub fn record(&self, record: u8) -> Option<&Record> {
        self.records.get(usize::from(record))
    }

    /// The records with their numbers.
    pub fn numbered_records(&self) -> impl Iterator<Item = (u8, &Record)> {
        (0u8..).zip(&self.records)
    }

    /// The records of which this holds.
    pub fn records_where(&self, holds: impl Fn(u8, &Record) -> bool) -> RecordSet {
        self.numbered_records()
            .filter(|(number, record)| holds(*number, record))
            .fold(0, |set, (number, _)| set | record_bit(number))
    }

    /// The numbers of the roles.
    pub fn role_numbers(&self) -> impl Iterator<Item = u16> + '_ {
        (0u16..).zip(&self.roles).map(|(number, _)| number)
    }

    /// "Role r covers role q when r is q or stands above q on the way to
    /// role 0." Role 0 ends the way, although its parent byte is 0.
    pub fn covers(&self, r: u16, q: u16) -> bool {
        match self.roles.get(usize::from(q)) {
            None => false,
            Some(_) if r == q => true,
            Some(_) if q == 0 => false,
            Some(parent) => self.covers(r, u16::from(*parent)),
        }
    }

    /// Whether `record` is within the reach from `top`. A parent has a lower
    /// number, so only a record of a higher number than `top` is under it. The
    /// root is thus no child and no descendant of itself, although its parent
    /// byte is 0. Children are descendants too.
    #[inline]
    pub fn reaches(&self, top: u8, reach: Reach, record: u8) -> bool {
        let number = usize::from(record);
        if record <= top {
            record == top && reach.takes(ITSELF) && number < self.records.len()
        } else if reach.takes(DESCENDANTS) {
            let ancestors = self.ancestors.get(number);
            ancestors.is_some_and(|above| above & record_bit(top) != 0)
        } else {
            let found = self.records.get(number);
            reach.takes(CHILDREN) && found.is_some_and(|found| found.parent == top)
        }
    }
}

/// Number 0 has parent 0, every other number a lower one.
fn keeps_parent_range((number, parent): (usize, &u8)) -> bool {
    let parent = usize::from(*parent);
    parent < number || (number == 0 && parent == 0)
}
