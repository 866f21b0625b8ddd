//! The ledger of one patient and its calls.

use crate::directive::{Directive, Effect, Fields, Subject, LENGTH};
use crate::preview::Preview;
use crate::refusal::Refusal;
use crate::register::{RecordWords, Register};
use crate::request::{has_bit, Query, Requester, ORIGINS, PURPOSES, TREATMENT};
use crate::validation;

/// "Are fewer than 32 active?"
pub const MAX_ACTIVE: usize = 32;
/// "Fewer than 4 live?"
pub const MAX_TOKENS: usize = 4;
/// "Length 1..240."
pub const MAX_TOKEN_LENGTH: u32 = 240;

/// The scope of each state: cardiac arrest, respiratory failure, stroke
/// signs, low blood sugar, haemorrhage, major injury, sepsis, anaphylaxis.
const SCOPES: [u16; 8] = [
    0x000F, 0x000B, 0x0017, 0x0023, 0x00C3, 0x01C3, 0x0603, 0x000B,
];

/// "The token's scope is the union over its states of this table."
pub fn scope(states: u8) -> u16 {
    (0u8..)
        .zip(SCOPES)
        .filter(|(state, _)| has_bit(u16::from(states), *state))
        .fold(0, |union, (_, scope)| union | scope)
}

/// "Issue takes a number (16 bits), person, state set (8 bits) and length";
/// the token "is live until clock + length".
#[derive(Clone, Copy, Debug, PartialEq, Eq)]
pub struct Token {
    pub number: u16,
    pub person: u16,
    pub states: u8,
    pub until: u32,
}

/// What an advance dropped: "reports both counts of dropped ones".
#[derive(Clone, Copy, Debug, PartialEq, Eq)]
pub struct Dropped {
    pub directives: usize,
    pub tokens: usize,
}

/// Why a decision is what it is; a directive by the lowest matching number.
#[derive(Clone, Copy, Debug, PartialEq, Eq)]
pub enum Basis {
    Patient,
    Author,
    Directive(u16),
    Default,
}

impl Basis {
    pub fn number(self) -> u8 {
        match self {
            Basis::Patient => 1,
            Basis::Author => 2,
            Basis::Directive(_) => 3,
            Basis::Default => 4,
        }
    }
}

#[derive(Clone, Copy, Debug, PartialEq, Eq)]
pub struct Decision {
    pub effect: Effect,
    pub basis: Basis,
}

/// "One ledger serves one patient: a register (roles, records), a clock,
/// active directives and live emergency tokens." The default is the empty
/// ledger, with "patient 0, clock 0 and nothing else".
#[derive(Clone, Debug, Default, PartialEq, Eq)]
pub struct Ledger {
    patient: u16,
    clock: u32,
    register: Register,
    active: Vec<Directive>,
    tokens: Vec<Token>,
}

impl Ledger {
    pub(crate) fn new(patient: u16, clock: u32, register: Register) -> Ledger {
        Ledger {
            patient,
            clock,
            register,
            ..Ledger::default()
        }
    }

    pub fn patient(&self) -> u16 {
        self.patient
    }

    pub fn clock(&self) -> u32 {
        self.clock
    }

    pub fn register(&self) -> &Register {
        &self.register
    }

    /// The card reader adds records here, before any directive.
    pub(crate) fn register_mut(&mut self) -> &mut Register {
        &mut self.register
    }

    pub fn active(&self) -> &[Directive] {
        &self.active
    }

    pub fn tokens(&self) -> &[Token] {
        &self.tokens
    }

    /// Questions 7 to 13, put to a draft and to a directive on a card.
    pub fn validate(&self, fields: &Fields) -> Result<Directive, Refusal> {
        let draft = Directive::from_fields(fields)?;
        let has_role = match draft.subject {
            Subject::Person(_) => true,
            Subject::Role(role) => self.register.has_role(role),
        };
        if !has_role || self.register.record(draft.record).is_none() {
            return Err(Refusal::UnknownRoleOrRecord);
        }
        if draft.from >= draft.until || self.clock >= draft.until {
            return Err(Refusal::DraftMinutes);
        }
        if self.active.iter().any(|other| other.number == draft.number) {
            return Err(Refusal::NumberTaken);
        }
        if self.active.len() >= MAX_ACTIVE {
            return Err(Refusal::TooManyDirectives);
        }
        if validation::breaks_baseline(&self.register, self.patient, self.clock, &draft) {
            return Err(Refusal::BaselineBroken);
        }
        match validation::lowest_conflict(&self.register, self.clock, &draft, &self.active) {
            Some(named) => Err(Refusal::Conflict(named)),
            None => Ok(draft),
        }
    }

    /// A directive of a card. "Reading never puts question 14."
    pub(crate) fn read_directive(&mut self, fields: &Fields) -> Result<(), Refusal> {
        let directive = self.validate(fields)?;
        self.active.push(directive);
        Ok(())
    }

    /// "Commit takes the 25 bytes of a directive and, on success, puts it
    /// last in the active list."
    pub fn commit(&mut self, draft: &[u8]) -> Result<(), Refusal> {
        let bytes = <&[u8; LENGTH]>::try_from(draft).map_err(|_| Refusal::DraftLength)?;
        let directive = self.validate(&Fields::decode(bytes))?;
        if validation::redundant(&self.register, self.clock, &directive, &self.active) {
            return Err(Refusal::Redundant);
        }
        self.active.push(directive);
        Ok(())
    }

    /// "Revoke removes by number and closes the gap."
    pub fn revoke(&mut self, number: u16) -> Result<(), Refusal> {
        let before = self.active.len();
        self.active.retain(|directive| directive.number != number);
        if self.active.len() == before {
            return Err(Refusal::NotActive);
        }
        Ok(())
    }

    /// "Advance sets the clock, drops directives with until <= clock and
    /// tokens likewise, and reports both counts of dropped ones."
    pub fn advance(&mut self, minute: u32) -> Result<Dropped, Refusal> {
        if minute < self.clock {
            return Err(Refusal::MinuteBeforeClock);
        }
        self.clock = minute;
        let directives = self.active.len();
        self.active.retain(|directive| directive.until > minute);
        let tokens = self.tokens.len();
        self.tokens.retain(|token| token.until > minute);
        Ok(Dropped {
            directives: directives.saturating_sub(self.active.len()),
            tokens: tokens.saturating_sub(self.tokens.len()),
        })
    }

    /// "Issue takes a number (16 bits), person, state set (8 bits) and length
    /// (minutes, 32 bits); tokens stand in order of issue."
    pub fn issue(
        &mut self,
        number: u16,
        person: u16,
        states: u8,
        length: u32,
    ) -> Result<(), Refusal> {
        if states == 0 {
            return Err(Refusal::NoState);
        }
        if length == 0 || length > MAX_TOKEN_LENGTH {
            return Err(Refusal::TokenLength);
        }
        let until = self.clock.checked_add(length).ok_or(Refusal::TokenLength)?;
        if self.tokens.iter().any(|token| token.number == number) {
            return Err(Refusal::TokenNumberTaken);
        }
        if self.tokens.len() >= MAX_TOKENS {
            return Err(Refusal::TooManyTokens);
        }
        self.tokens.push(Token {
            number,
            person,
            states,
            until,
        });
        Ok(())
    }

    /// The brief for "a live token of that number for that person": bit i is
    /// "set when labels and scope share a bit".
    pub fn brief(&self, number: u16, person: u16) -> Result<RecordWords, Refusal> {
        let token = self
            .tokens
            .iter()
            .find(|token| token.number == number && token.person == person)
            .ok_or(Refusal::NoToken)?;
        let scope = scope(token.states);
        let disclosed = self
            .register
            .records_where(|_, record| record.labels & scope != 0);
        Ok(RecordWords::of(disclosed))
    }

    /// "The patient, permit, basis 1; else the record's author, permit, basis
    /// 2; else a matching active directive, its effect, basis 3 with the
    /// lowest such number; else basis 4, the default consent: permit if the
    /// requester's origin is among the record's origins and the purpose is 0,
    /// otherwise deny."
    pub fn decide(&self, query: Query) -> Result<Decision, Refusal> {
        self.question_17(query.requester())?;
        let record = self.register.record(query.record);
        let record = record.ok_or(Refusal::QueryRange)?;
        let (effect, basis) = if query.person == self.patient {
            (Effect::Permit, Basis::Patient)
        } else if query.person == record.author {
            (Effect::Permit, Basis::Author)
        } else if let Some(directive) = self.lowest_match(query) {
            (directive.effect, Basis::Directive(directive.number))
        } else if has_bit(record.origins, query.origin) && query.purpose == TREATMENT {
            (Effect::Permit, Basis::Default)
        } else {
            (Effect::Deny, Basis::Default)
        };
        Ok(Decision { effect, basis })
    }

    /// "Decide: does the register have role .., origin < 16, purpose < 11?",
    /// the "record part left out".
    fn question_17(&self, requester: Requester) -> Result<(), Refusal> {
        let in_range = self.register.has_role(requester.role)
            && requester.origin < ORIGINS
            && requester.purpose < PURPOSES;
        in_range.then_some(()).ok_or(Refusal::QueryRange)
    }

    /// The decision for this requester on every record, in order.
    pub fn decide_every(&self, requester: Requester) -> Result<Vec<Decision>, Refusal> {
        self.question_17(requester)?;
        let records = self.register.numbered_records();
        records
            .map(|(record, _)| self.decide(requester.query(record)))
            .collect()
    }

    /// "This equals committing on a copy of the ledger and deciding every
    /// record before and after. A draft that would be refused gives that
    /// refusal; otherwise the requester is put to question 17, its record
    /// part left out. The ledger handed in comes back equal."
    pub fn preview(&self, requester: Requester, draft: &[u8]) -> Result<Preview, Refusal> {
        let mut copy = self.clone();
        copy.commit(draft)?;
        Ok(Preview {
            before: self.decide_every(requester)?,
            after: copy.decide_every(requester)?,
        })
    }

    /// The matching active directive of the lowest number at the clock.
    fn lowest_match(&self, query: Query) -> Option<&Directive> {
        let request = query.at(self.clock);
        self.active
            .iter()
            .filter(|directive| directive.matches(&self.register, &request))
            .min_by_key(|directive| directive.number)
    }
}
