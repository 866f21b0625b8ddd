//! The refusals: the 24 questions, each by the "no" it gives.

use std::fmt;

/// The first question that an input misses.
#[derive(Clone, Copy, Debug, PartialEq, Eq)]
pub enum Refusal {
    /// 1. Each card field: does it stand whole in the card?
    FieldNotWhole,
    /// 2. Has it its place and length?
    FieldPlaceOrLength,
    /// 3. Is it at most the 128th record?
    TooManyRecords,
    /// 4. Do edition, roles or record keep the ranges above?
    FieldRange,
    /// 5. At the card's end: were head, roles and a record read?
    CardIncomplete,
    /// 6. Draft: is it 25 bytes?
    DraftLength,
    /// 7. Effect and kind 0 or 1, reach 0..3, every set non-empty, purposes
    ///    within 0x07FF?
    DraftRange,
    /// 8. Does the register have its role (if one is named) and record?
    UnknownRoleOrRecord,
    /// 9. Is from < until and clock < until?
    DraftMinutes,
    /// 10. Is its number free among the active?
    NumberTaken,
    /// 11. Are fewer than 32 active?
    TooManyDirectives,
    /// 12. Is the baseline spared?
    BaselineBroken,
    /// 13. Is it free of conflict with the active? With the lowest number of
    ///     an active directive that the draft conflicts with.
    Conflict(u16),
    /// 14. Is it not superfluous?
    Redundant,
    /// 15. Revoke: is that number active?
    NotActive,
    /// 16. Advance: is the minute not before the clock?
    MinuteBeforeClock,
    /// 17. Decide: does the register have role and record, origin < 16,
    ///     purpose < 11?
    QueryRange,
    /// 18. Issue: any state?
    NoState,
    /// 19. Length 1..240 and the end at most 4,294,967,295?
    TokenLength,
    /// 20. Number free among live tokens?
    TokenNumberTaken,
    /// 21. Fewer than 4 live?
    TooManyTokens,
    /// 22. Brief: is there a live token of that number for that person?
    NoToken,
    /// 23. Write: has the register a record?
    NoRecord,
    /// 24. Is the buffer long enough?
    BufferTooShort,
}

/// The number of the last question.
pub const LAST_QUESTION: u8 = 24;

impl Refusal {
    /// The number of the question.
    pub fn number(self) -> u8 {
        match self {
            Refusal::FieldNotWhole => 1,
            Refusal::FieldPlaceOrLength => 2,
            Refusal::TooManyRecords => 3,
            Refusal::FieldRange => 4,
            Refusal::CardIncomplete => 5,
            Refusal::DraftLength => 6,
            Refusal::DraftRange => 7,
            Refusal::UnknownRoleOrRecord => 8,
            Refusal::DraftMinutes => 9,
            Refusal::NumberTaken => 10,
            Refusal::TooManyDirectives => 11,
            Refusal::BaselineBroken => 12,
            Refusal::Conflict(_) => 13,
            Refusal::Redundant => 14,
            Refusal::NotActive => 15,
            Refusal::MinuteBeforeClock => 16,
            Refusal::QueryRange => 17,
            Refusal::NoState => 18,
            Refusal::TokenLength => 19,
            Refusal::TokenNumberTaken => 20,
            Refusal::TooManyTokens => 21,
            Refusal::NoToken => 22,
            Refusal::NoRecord => 23,
            Refusal::BufferTooShort => 24,
        }
    }
}

/// "The first 'no' gives its number and only that, except 13, which adds the
/// lowest number of an active directive that the draft conflicts with."
impl fmt::Display for Refusal {
    fn fmt(&self, f: &mut fmt::Formatter<'_>) -> fmt::Result {
        match self {
            Refusal::Conflict(named) => write!(f, "13 {named}"),
            other => write!(f, "{}", other.number()),
        }
    }
}
