//! Why a card or a call is refused.

use std::error::Error;
use std::fmt;

/// Why a card or a call is refused. `docs/FORMATS.md` has the questions, and what to do about each.
#[derive(Clone, Copy, Debug, PartialEq, Eq, Hash)]
#[non_exhaustive]
pub enum Refusal {
    /// 1: a field of the card does not stand whole.
    FieldNotWhole,
    /// 2: a field of the card is misplaced, or has another length.
    FieldMisplaced,
    /// 3: the card has more than 128 records.
    TooManyRecords,
    /// 4: edition, roles or a record of the card are out of range.
    OutOfRange,
    /// 5: the card ends before a head, roles and a record.
    Incomplete,
    /// 6: the draft has not 25 bytes.
    DraftLength,
    /// 7: a part of the draft is out of range.
    DraftOutOfRange,
    /// 8: the register does not have the role or the record.
    NotInRegister,
    /// 9: the minutes are none, or are over.
    NoMinutes,
    /// 10: an active directive has the number.
    NumberTaken,
    /// 11: 32 directives are active.
    ListFull,
    /// 12: it would break the baseline.
    BreaksBaseline,
    /// 13: it conflicts with an active directive; the lowest number of such a directive.
    Conflict(u16),
    /// 14: it adds nothing to what is active.
    Redundant,
    /// 15: no such directive is active.
    NotActive,
    /// 16: the minute is before the clock.
    BeforeClock,
    /// 17: the register does not have the role or the record, or origin or purpose is out of range.
    RequestOutOfRange,
    /// 18: the token has no state.
    NoState,
    /// 19: the token's length is not 1 to 240 minutes, or it would end after the last minute.
    WrongMinutes,
    /// 20: a live token has the number.
    TokenTaken,
    /// 21: 4 tokens are live.
    TokensFull,
    /// 22: there is no such live token for that person, or no token in that place.
    NoToken,
    /// 23: the ledger has no record to write.
    NoRecord,
    /// 24: the buffer is too short for the card.
    BufferTooShort,
    /// 102: the saved ledger has another length than a ledger of this library.
    WrongSize,
    /// 103: the bytes do not begin as a ledger of this version does.
    NotALedger,
    /// The library answered what this crate does not know: another status, or for 0 other values
    /// than the call has.
    Unknown(u64),
}

const MEMORY_TOO_SHORT: u64 = 102;
const NOT_A_LEDGER: u64 = 103;

impl Refusal {
    /// The refusal with this status, which is not 0, and these values.
    pub(crate) fn of(status: u64, values: &[u64]) -> Refusal {
        match status {
            1 => Refusal::FieldNotWhole,
            2 => Refusal::FieldMisplaced,
            3 => Refusal::TooManyRecords,
            4 => Refusal::OutOfRange,
            5 => Refusal::Incomplete,
            6 => Refusal::DraftLength,
            7 => Refusal::DraftOutOfRange,
            8 => Refusal::NotInRegister,
            9 => Refusal::NoMinutes,
            10 => Refusal::NumberTaken,
            11 => Refusal::ListFull,
            12 => Refusal::BreaksBaseline,
            13 => match values.first().map(|number| u16::try_from(*number)) {
                Some(Ok(number)) => Refusal::Conflict(number),
                _ => Refusal::Unknown(status),
            },
            14 => Refusal::Redundant,
            15 => Refusal::NotActive,
            16 => Refusal::BeforeClock,
            17 => Refusal::RequestOutOfRange,
            18 => Refusal::NoState,
            19 => Refusal::WrongMinutes,
            20 => Refusal::TokenTaken,
            21 => Refusal::TokensFull,
            22 => Refusal::NoToken,
            23 => Refusal::NoRecord,
            24 => Refusal::BufferTooShort,
            MEMORY_TOO_SHORT => Refusal::WrongSize,
            NOT_A_LEDGER => Refusal::NotALedger,
            _ => Refusal::Unknown(status),
        }
    }

    /// The status in the library's numbers.
    pub fn status(self) -> u64 {
        match self {
            Refusal::FieldNotWhole => 1,
            Refusal::FieldMisplaced => 2,
            Refusal::TooManyRecords => 3,
            Refusal::OutOfRange => 4,
            Refusal::Incomplete => 5,
            Refusal::DraftLength => 6,
            Refusal::DraftOutOfRange => 7,
            Refusal::NotInRegister => 8,
            Refusal::NoMinutes => 9,
            Refusal::NumberTaken => 10,
            Refusal::ListFull => 11,
            Refusal::BreaksBaseline => 12,
            Refusal::Conflict(_) => 13,
            Refusal::Redundant => 14,
            Refusal::NotActive => 15,
            Refusal::BeforeClock => 16,
            Refusal::RequestOutOfRange => 17,
            Refusal::NoState => 18,
            Refusal::WrongMinutes => 19,
            Refusal::TokenTaken => 20,
            Refusal::TokensFull => 21,
            Refusal::NoToken => 22,
            Refusal::NoRecord => 23,
            Refusal::BufferTooShort => 24,
            Refusal::WrongSize => MEMORY_TOO_SHORT,
            Refusal::NotALedger => NOT_A_LEDGER,
            Refusal::Unknown(status) => status,
        }
    }
}

impl fmt::Display for Refusal {
    fn fmt(&self, f: &mut fmt::Formatter<'_>) -> fmt::Result {
        match self {
            Refusal::Conflict(number) => write!(f, "refused: question 13, directive {number}"),
            Refusal::WrongSize => f.write_str("the saved ledger has not the length of a ledger"),
            Refusal::NotALedger => f.write_str("the bytes are no ledger of this version"),
            Refusal::Unknown(status) => write!(
                f,
                "the library answered {status}, which this crate does not know"
            ),
            question => write!(f, "refused: question {}", question.status()),
        }
    }
}

impl Error for Refusal {}
