//! Why a card is refused: the field, and what in it is wrong.

use super::draft;
use crate::bytes::Bytes;
use crate::card::{
    directive_fields, Stage, Stop, DIRECTIVE, HEAD, HEAD_LENGTH, RECORD, RECORD_LENGTH, ROLES,
};
use crate::describe::{counted, hex_byte, Words};
use crate::ledger::Ledger;
use crate::refusal::Refusal;
use crate::register::{Record, MAX_RECORDS, MAX_ROLES, MAX_TYPE};

/// Where the reading stopped: the field by its tag and number, and its offset.
pub fn place(card: &[u8], stage: &Stage, stop: &Stop) -> String {
    let offset = stop.offset;
    let field = match card.get(offset) {
        Some(tag) => field_name(stage, *tag),
        None => "the card's end".to_string(),
    };
    format!("{field}, at offset {offset} (0x{offset:X})")
}

/// Which field it is: "directive field 3 (tag 0x04)". A field without a known
/// tag is counted among all fields of the card.
fn field_name(stage: &Stage, tag: u8) -> String {
    let (heads, roles, records, directives) = match stage {
        Stage::Start => (0, 0, 0, 0),
        Stage::Head(_) => (1, 0, 0, 0),
        Stage::Register { ledger, .. } => {
            let records = ledger.register().records().len();
            (1, 1, records, ledger.active().len())
        }
    };
    let (name, before) = match tag {
        HEAD => ("head field", heads),
        ROLES => ("roles field", roles),
        RECORD => ("record field", records),
        DIRECTIVE => ("directive field", directives),
        _ => ("field", stage.fields()),
    };
    let number = before.saturating_add(1);
    format!("{name} {number} (tag {})", hex_byte(tag))
}

/// What is wrong there.
pub fn reason(card: &[u8], stage: &Stage, stop: &Stop) -> Vec<String> {
    let rest = card.get(stop.offset..).unwrap_or_default();
    match Bytes::new(rest).field() {
        _ if rest.is_empty() => vec![missing(stage)],
        None => vec![not_whole(rest)],
        Some((tag, value)) => in_field(stage, tag, value, stop.refusal),
    }
}

/// Question 5.
fn missing(stage: &Stage) -> String {
    match stage {
        Stage::Start => "The card is empty.",
        Stage::Head(_) => "The card ends after its head; the roles and a record are missing.",
        Stage::Register { .. } => "The card ends after its roles; a record is missing.",
    }
    .to_string()
}

/// Question 1.
fn not_whole(rest: &[u8]) -> String {
    match rest {
        [_, high, low, value @ ..] => {
            let length = u16::from_be_bytes([*high, *low]);
            let left = value.len();
            format!("Its length says {length} bytes, and the card has {left} more.")
        }
        _ => format!(
            "A field begins with a tag and a two-byte length; the card ends after {} of these 3 \
             bytes.",
            rest.len()
        ),
    }
}

fn in_field(stage: &Stage, tag: u8, value: &[u8], refusal: Refusal) -> Vec<String> {
    match refusal {
        Refusal::FieldPlaceOrLength => vec![place_or_length(stage, tag, value.len())],
        Refusal::TooManyRecords => {
            vec![format!("A register has a place for {MAX_RECORDS} records.")]
        }
        Refusal::FieldRange => match (stage, tag) {
            (_, HEAD) => edition(value),
            (_, ROLES) => roles(value),
            (Stage::Register { ledger, .. }, RECORD) => record(ledger, value),
            _ => Vec::new(),
        },
        _ => directive(stage, value, refusal),
    }
}

/// Question 2.
fn place_or_length(stage: &Stage, tag: u8, length: usize) -> String {
    let has = counted(length, "byte");
    match (stage, tag) {
        (_, tag) if !(HEAD..=DIRECTIVE).contains(&tag) => {
            "A card has no field of this tag; its tags are 0x01 to 0x04.".to_string()
        }
        (Stage::Start, HEAD) => format!("It has {has}; a head has {HEAD_LENGTH}."),
        (Stage::Start, _) => "A card begins with its head (tag 0x01).".to_string(),
        (_, HEAD) => "The head stands first and only once.".to_string(),
        (Stage::Head(_), ROLES) => {
            format!("It has {has}, one a role; there are 1 to {MAX_ROLES} roles.")
        }
        (Stage::Head(_), _) => "After the head come the roles (tag 0x02).".to_string(),
        (_, ROLES) => "The roles stand second and only once.".to_string(),
        (Stage::Register { ledger, .. }, RECORD) if !ledger.active().is_empty() => {
            "No record can come after a directive.".to_string()
        }
        (_, RECORD) => format!("It has {has}; a record has {RECORD_LENGTH}."),
        (Stage::Register { ledger, .. }, _) if ledger.register().records().is_empty() => {
            "A directive can come only after a record.".to_string()
        }
        (Stage::Register { edition, .. }, _) => {
            let (edition, length) = (edition.number(), edition.directive_length());
            format!("It has {has}; in edition {edition} a directive has {length}.")
        }
    }
}

/// Question 4 for the head.
fn edition(value: &[u8]) -> Vec<String> {
    let sentence = |edition: &u8| format!("The edition is {edition}; it is 1 or 2.");
    value.first().map(sentence).into_iter().collect()
}

/// Question 4 for the roles.
fn roles(parents: &[u8]) -> Vec<String> {
    let numbered = parents.iter().enumerate();
    numbered
        .filter_map(|(number, parent)| wrong_parent("role", number, *parent))
        .collect()
}

/// Question 4 for a record: what the field says, and what is wrong with it.
fn record(ledger: &Ledger, value: &[u8]) -> Vec<String> {
    let Ok(bytes) = <&[u8; RECORD_LENGTH]>::try_from(value) else {
        return Vec::new();
    };
    let record = Record::decode(bytes);
    let number = ledger.register().records().len();
    let words = Words::of(ledger).whole_record(number, &record);
    let mut wrong = vec![format!("It reads: {words}.")];
    wrong.extend(wrong_parent("record", number, record.parent));
    if record.origins == 0 {
        wrong.push("Its set of origins is empty.".to_string());
    }
    if record.sensitivities == 0 {
        wrong.push("Its set of sensitivities is empty.".to_string());
    }
    if record.record_type > MAX_TYPE {
        let found = record.record_type;
        wrong.push(format!("Its type is {found}; types are 0 to {MAX_TYPE}."));
    }
    wrong
}

/// What is wrong with a parent, if anything is.
fn wrong_parent(name: &str, number: usize, parent: u8) -> Option<String> {
    match number {
        0 if parent == 0 => None,
        0 => Some(format!(
            "The parent byte of {name} 0 is {parent}; {name} 0 has none above it, and 0 there."
        )),
        _ if usize::from(parent) < number => None,
        _ => Some(format!(
            "The parent of {name} {number} is {parent}; a parent has a lower number."
        )),
    }
}

/// Questions 7 to 13: what the field says, and what is wrong with it.
fn directive(stage: &Stage, value: &[u8], refusal: Refusal) -> Vec<String> {
    let Stage::Register { edition, ledger } = stage else {
        return Vec::new();
    };
    let Ok(fields) = directive_fields(*edition, value) else {
        return Vec::new();
    };
    let mut lines = vec![format!("It reads: {}.", Words::of(ledger).draft(&fields))];
    lines.extend(draft::reason(ledger, &fields, refusal));
    lines
}
