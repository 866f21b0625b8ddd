//! The ledger and its calls.

use std::fmt;

use crate::answers::{self, Counts, Decision, Dropped, Records, Token};
use crate::raw::{Answer, Memory};
use crate::refusal::Refusal;

/// The length of the longest card: 16 roles, 128 records, 32 directives.
pub const LONGEST_CARD: usize = 2_589;

const COUNTS: u8 = 0x00;
const TOKEN: u8 = 0x01;
const COMMIT: u8 = 0x10;
const REVOKE: u8 = 0x11;
const ADVANCE: u8 = 0x12;
const ISSUE: u8 = 0x13;
const DECIDE: u8 = 0x14;
const BRIEF: u8 = 0x15;
const WRITE: u8 = 0x16;
const PREVIEW: u8 = 0x17;

/// Who asks for which record, and what for.
#[derive(Clone, Copy, Debug, PartialEq, Eq)]
pub struct Request {
    /// The person who asks.
    pub person: u16,
    /// The role that they present.
    pub role: u16,
    /// From where they ask, 0 to 15.
    pub origin: u8,
    /// The record.
    pub record: u8,
    /// What for, 0 to 10; 0 is treatment.
    pub purpose: u8,
}

/// Who asks, and what for.
#[derive(Clone, Copy, Debug, PartialEq, Eq)]
pub struct Requester {
    /// The person who asks.
    pub person: u16,
    /// The role that they present.
    pub role: u16,
    /// From where they ask, 0 to 15.
    pub origin: u8,
    /// What for, 0 to 10; 0 is treatment.
    pub purpose: u8,
}

/// The ledger of one patient. Equal ledgers that were made by the same calls are `==`.
#[derive(Clone, PartialEq, Eq)]
pub struct Ledger(Memory);

impl Ledger {
    /// The empty ledger: patient 0, clock 0 and nothing else.
    pub fn empty() -> Result<Ledger, Refusal> {
        let mut memory = Memory::new();
        match memory.empty() {
            0 => Ok(Ledger(memory)),
            status => Err(Refusal::of(status, &[])),
        }
    }

    /// The ledger of the card.
    pub fn read(card: &[u8]) -> Result<Ledger, Refusal> {
        let mut memory = Memory::new();
        accepted(memory.read(card))?;
        Ok(Ledger(memory))
    }

    /// A ledger that [`Ledger::to_bytes`] saved. The library tests that the bytes begin as a ledger
    /// of its version does; it cannot tell a forged one.
    pub fn from_bytes(bytes: &[u8]) -> Result<Ledger, Refusal> {
        if bytes.len() != crate::ledger_size() {
            return Err(Refusal::WrongSize);
        }
        let ledger = Memory::of_bytes(bytes)
            .map(Ledger)
            .ok_or(Refusal::WrongSize)?;
        ledger.counts()?;
        Ok(ledger)
    }

    /// All of the ledger, with its tokens, which a card does not have. It is as confidential as the
    /// card.
    pub fn to_bytes(&self) -> Vec<u8> {
        self.0.bytes()
    }

    /// Commits a draft, the 25 bytes of a directive.
    pub fn commit(&mut self, draft: &[u8]) -> Result<(), Refusal> {
        answers::nothing(&self.call(COMMIT, draft)?)
    }

    /// Revokes the directive of this number.
    pub fn revoke(&mut self, number: u16) -> Result<(), Refusal> {
        answers::nothing(&self.call(REVOKE, &number.to_be_bytes())?)
    }

    /// Sets the clock, and drops what ends.
    pub fn advance(&mut self, minute: u32) -> Result<Dropped, Refusal> {
        answers::dropped(&self.call(ADVANCE, &minute.to_be_bytes())?)
    }

    /// Issues an emergency token of this number for the person, for a set of states and so many
    /// minutes.
    pub fn issue(
        &mut self,
        number: u16,
        person: u16,
        states: u8,
        minutes: u32,
    ) -> Result<(), Refusal> {
        let value = [
            &number.to_be_bytes()[..],
            &person.to_be_bytes(),
            &[states],
            &minutes.to_be_bytes(),
        ]
        .concat();
        answers::nothing(&self.call(ISSUE, &value)?)
    }

    /// Decides a request at the clock.
    pub fn decide(&self, request: Request) -> Result<Decision, Refusal> {
        let Request {
            person,
            role,
            origin,
            record,
            purpose,
        } = request;
        let value = [
            &person.to_be_bytes()[..],
            &role.to_be_bytes(),
            &[origin, record, purpose],
        ]
        .concat();
        answers::decision(&self.ask(DECIDE, &value)?)
    }

    /// The emergency brief of the token of this number, for this person.
    pub fn brief(&self, number: u16, person: u16) -> Result<Records, Refusal> {
        let value = [number.to_be_bytes(), person.to_be_bytes()].concat();
        answers::records(&self.ask(BRIEF, &value)?)
    }

    /// The records whose decision for this requester a commit of the draft would turn from permit to
    /// deny or the reverse.
    pub fn preview(&self, requester: Requester, draft: &[u8]) -> Result<Records, Refusal> {
        let Requester {
            person,
            role,
            origin,
            purpose,
        } = requester;
        let value = [
            &person.to_be_bytes()[..],
            &role.to_be_bytes(),
            &[origin, purpose],
            draft,
        ]
        .concat();
        answers::records(&self.ask(PREVIEW, &value)?)
    }

    /// The card of the ledger. Keep its length beside it: a card that is cut between two directives
    /// reads as a card.
    pub fn write(&self) -> Result<Vec<u8>, Refusal> {
        let mut card = vec![0; LONGEST_CARD];
        let length = self.write_into(&mut card)?;
        card.truncate(length);
        Ok(card)
    }

    /// Writes the card into the buffer, and answers its length. What stands behind it keeps its
    /// content; so does the whole buffer where the write is refused.
    pub fn write_into(&self, buffer: &mut [u8]) -> Result<usize, Refusal> {
        let lent = u16::try_from(buffer.len()).unwrap_or(u16::MAX);
        let length = answers::length(&accepted(self.0.ask(WRITE, &lent.to_be_bytes(), buffer))?)?;
        if length > buffer.len() {
            return Err(Refusal::Unknown(0));
        }
        Ok(length)
    }

    /// What the ledger holds.
    pub fn counts(&self) -> Result<Counts, Refusal> {
        answers::counts(&self.ask(COUNTS, &[])?)
    }

    /// The live tokens, in order of issue.
    pub fn tokens(&self) -> Result<Vec<Token>, Refusal> {
        let mut tokens = Vec::new();
        for place in 0..=u8::MAX {
            match self.ask(TOKEN, &[place]) {
                Ok(values) => tokens.push(answers::token(&values)?),
                Err(Refusal::NoToken) => break,
                Err(refusal) => return Err(refusal),
            }
        }
        Ok(tokens)
    }

    fn call(&mut self, tag: u8, value: &[u8]) -> Result<Vec<u64>, Refusal> {
        accepted(self.0.call(tag, value))
    }

    fn ask(&self, tag: u8, value: &[u8]) -> Result<Vec<u64>, Refusal> {
        accepted(self.0.ask(tag, value, &mut []))
    }
}

/// The values of an accepted call.
fn accepted(answer: Answer) -> Result<Vec<u64>, Refusal> {
    match answer.status {
        0 => Ok(answer.values),
        status => Err(Refusal::of(status, &answer.values)),
    }
}

/// The counts alone: what a ledger holds is confidential, and a message is easily kept.
impl fmt::Debug for Ledger {
    fn fmt(&self, f: &mut fmt::Formatter<'_>) -> fmt::Result {
        f.debug_tuple("Ledger").field(&self.counts()).finish()
    }
}
