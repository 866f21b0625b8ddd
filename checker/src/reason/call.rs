//! Why a call is refused, and why a replay is malformed.

use super::draft::{self, records_of, roles_of};
use crate::card;
use crate::describe::{counted, hex_byte, Words};
use crate::kind::Kind;
use crate::ledger::{Ledger, MAX_TOKENS, MAX_TOKEN_LENGTH};
use crate::refusal::Refusal;
use crate::replay::Call;
use crate::request::{Requester, ORIGINS, PURPOSES};

/// What is wrong with the call on this ledger.
pub fn reason(ledger: &Ledger, call: &Call, refusal: Refusal) -> Vec<String> {
    match call {
        Call::Commit { draft } => draft::bytes(ledger, draft, refusal),
        Call::Revoke { .. } => vec![not_active(ledger)],
        Call::Advance { .. } => vec![format!("The clock is at minute {}.", ledger.clock())],
        Call::Issue { number, length, .. } => vec![issue(ledger, *number, *length, refusal)],
        Call::Decide(query) => outside(ledger, query.requester(), Some(query.record)),
        Call::Brief { number, .. } => vec![no_token(ledger, *number)],
        Call::Write { buffer } => vec![write(ledger, *buffer, refusal)],
        Call::Preview { requester, .. } if refusal == Refusal::QueryRange => {
            outside(ledger, *requester, None)
        }
        Call::Preview { draft, .. } => draft::bytes(ledger, draft, refusal),
    }
}

/// Question 15.
fn not_active(ledger: &Ledger) -> String {
    let numbers: Vec<String> = ledger
        .active()
        .iter()
        .map(|directive| directive.number.to_string())
        .collect();
    match numbers.as_slice() {
        [] => "No directive is active.".to_string(),
        [number] => format!("Only directive {number} is active."),
        _ => format!("The active directives are {}.", numbers.join(", ")),
    }
}

/// Question 17; its record part only where a record is given.
fn outside(ledger: &Ledger, requester: Requester, record: Option<u8>) -> Vec<String> {
    let register = ledger.register();
    let Requester {
        role,
        origin,
        purpose,
        ..
    } = requester;
    let mut wrong = Vec::new();
    if !register.has_role(role) {
        wrong.push(format!("There is no role {role}: {}.", roles_of(register)));
    }
    if let Some(record) = record.filter(|record| register.record(*record).is_none()) {
        let records = records_of(register);
        wrong.push(format!("There is no record {record}: {records}."));
    }
    if origin >= ORIGINS {
        let last = ORIGINS.saturating_sub(1);
        wrong.push(format!(
            "There is no origin {origin}: origins are 0 to {last}."
        ));
    }
    if purpose >= PURPOSES {
        let last = PURPOSES.saturating_sub(1);
        wrong.push(format!(
            "There is no purpose {purpose}: purposes are 0 to {last}."
        ));
    }
    wrong
}

/// Questions 18 to 21.
fn issue(ledger: &Ledger, number: u16, length: u32, refusal: Refusal) -> String {
    match refusal {
        Refusal::TokenLength => token_length(ledger.clock(), length),
        Refusal::TokenNumberTaken => {
            let mut live = ledger.tokens().iter();
            let holder = live.find(|token| token.number == number);
            let words = holder.map(|token| Words::of(ledger).token(token));
            format!("It is taken by {}.", words.unwrap_or_default())
        }
        Refusal::TooManyTokens => {
            format!(
                "{MAX_TOKENS} tokens are live ({}); no more can be.",
                live(ledger)
            )
        }
        _ => "The set of states is empty.".to_string(),
    }
}

/// Question 19.
fn token_length(clock: u32, length: u32) -> String {
    if (1..=MAX_TOKEN_LENGTH).contains(&length) {
        let end = u64::from(clock).saturating_add(u64::from(length));
        format!(
            "The end would be minute {end}; the last minute is {}.",
            u32::MAX
        )
    } else {
        format!("The length is {length}; it is 1 to {MAX_TOKEN_LENGTH} minutes.")
    }
}

/// The numbers of the live tokens.
fn live(ledger: &Ledger) -> String {
    let numbers = ledger.tokens().iter().map(|token| token.number.to_string());
    numbers.collect::<Vec<String>>().join(", ")
}

/// Question 22.
fn no_token(ledger: &Ledger, number: u16) -> String {
    let mut tokens = ledger.tokens().iter();
    match tokens.find(|token| token.number == number) {
        Some(token) => format!("The live one is {}.", Words::of(ledger).token(token)),
        None if ledger.tokens().is_empty() => "No token is live.".to_string(),
        None => format!("The live tokens are {}.", live(ledger)),
    }
}

/// Questions 23 and 24.
fn write(ledger: &Ledger, buffer: u16, refusal: Refusal) -> String {
    let mut longest = vec![0; usize::from(u16::MAX)];
    match card::write(ledger, &mut longest) {
        Ok(length) if refusal == Refusal::BufferTooShort => {
            format!("The card has {length} bytes, and the buffer {buffer}.")
        }
        _ => "The register has no record.".to_string(),
    }
}

/// Why the card of a replay does not stand whole.
pub fn malformed_card(replay: &[u8]) -> String {
    match replay {
        [high, low, rest @ ..] => {
            let length = u16::from_be_bytes([*high, *low]);
            let left = counted(rest.len(), "byte");
            format!("At offset 0: the card's length says {length} bytes, and the replay has {left} after it.")
        }
        _ => format!(
            "At offset 0: a replay begins with the card's length in 2 bytes, and it has {}.",
            counted(replay.len(), "byte")
        ),
    }
}

/// Why the call at the start of these bytes is none; they stand at this
/// offset.
pub fn malformed_call(rest: &[u8], offset: usize) -> Vec<String> {
    let at = format!("At offset {offset} (0x{offset:X})");
    let [tag, high, low, value @ ..] = rest else {
        let left = counted(rest.len(), "byte");
        return vec![format!(
            "{at}: a call begins with a tag and a two-byte length, and the replay has {left} left."
        )];
    };
    let length = usize::from(u16::from_be_bytes([*high, *low]));
    let mut wrong = Vec::new();
    match Kind::of_tag(*tag) {
        None => wrong.push(format!("{at}: no call has the tag {}.", hex_byte(*tag))),
        Some(kind) if !kind.value_length().allows(length) => {
            let (call, wanted) = (kind.phrase(), kind.value_length());
            wrong.push(format!(
                "{at}: the value of {call} has {wanted}, and the length says {length}."
            ));
        }
        Some(_) => {}
    }
    if value.len() < length {
        let left = counted(value.len(), "byte");
        wrong.push(format!(
            "{at}: the call's length says {length} bytes, and the replay has {left} after it."
        ));
    }
    wrong
}
