//! The field that a card is refused at: where it stands, its wrong byte, and
//! what is wrong in plain words.

use crate::bytes::{Bytes, VALUE};
use crate::card::{
    directive_fields, Edition, Stage, Stop, DIRECTIVE, HEAD, HEAD_LENGTH, RECORD, RECORD_LENGTH,
    ROLES,
};
use crate::describe::{counted, hex_byte, verb};
use crate::directive::{Directive, Effect, Fields, Subject, ALL_PURPOSES};
use crate::json;
use crate::ledger::{Ledger, MAX_ACTIVE};
use crate::refusal::Refusal;
use crate::register::{Reach, Record, Register, MAX_RECORDS, MAX_ROLES, MAX_TYPE};
use crate::witness::baseline_records;

/// Where a field has its tag and its length.
const TAG_AT: usize = 0;
const LENGTH_AT: usize = 1;

/// Where the value of a record field has its parts.
const PARENT: usize = 0;
const ORIGINS: usize = 3;
const SENSITIVITIES: usize = 5;
const TYPE: usize = 7;

/// Where the value of a directive field has its parts. `until` is the last of
/// them in both editions.
const NUMBER: usize = 0;
const EFFECT: usize = 2;
const KIND: usize = 3;
const SUBJECT: usize = 4;
const SUBJECT_ORIGINS: usize = 6;
const RECORD_NUMBER: usize = 8;
const REACH: usize = 9;
const PO: usize = 10;
const PS: usize = 12;
const PT: usize = 14;
const PURPOSES: usize = 15;
const UNTIL_LENGTH: usize = 4;

/// The field that a card is refused at.
pub struct Fault {
    /// Its place among the fields, counted from 0.
    index: usize,
    tag: u8,
    /// Where it begins in the card.
    offset: usize,
    /// Where it ends; where it does not stand whole, the end of the card.
    end: usize,
    /// Where its wrong byte stands in the card, if one can be named: the first
    /// one of a wrong number or set.
    byte: Option<usize>,
    words: String,
}

impl Fault {
    pub fn to_json(&self) -> String {
        json::object([
            ("index", self.index.to_string()),
            ("tag", self.tag.to_string()),
            ("offset", self.offset.to_string()),
            ("end", self.end.to_string()),
            ("byte", json::or_null(self.byte)),
            ("words", json::string(&self.words)),
        ])
    }
}

/// The fault of a refused card; nothing at the card's end, where it is refused
/// for what is missing.
pub fn in_card(card: &[u8], stage: &Stage, stop: &Stop) -> Option<Fault> {
    let offset = stop.offset;
    let rest = card.get(offset..)?;
    let tag = *rest.first()?;
    let (length, wrong) = match Bytes::new(rest).field() {
        Some((_, value)) => (
            VALUE.saturating_add(value.len()),
            in_field(stage, tag, value, stop.refusal)?,
        ),
        None => (rest.len(), not_whole(rest)),
    };
    Some(Fault {
        index: stage.fields(),
        tag,
        offset,
        end: offset.saturating_add(length),
        byte: wrong.byte.map(|byte| offset.saturating_add(byte)),
        words: wrong.words,
    })
}

/// What is wrong with a field. The byte is counted from its start.
struct Wrong {
    byte: Option<usize>,
    words: String,
}

fn wrong_at(byte: usize, words: impl Into<String>) -> Wrong {
    Wrong {
        byte: Some(byte),
        words: words.into(),
    }
}

/// With a byte counted from the start of the value.
fn wrong_in_value(byte: usize, words: impl Into<String>) -> Wrong {
    wrong_at(VALUE.saturating_add(byte), words)
}

fn wrong_as_a_whole(words: impl Into<String>) -> Wrong {
    Wrong {
        byte: None,
        words: words.into(),
    }
}

/// Question 1.
fn not_whole(rest: &[u8]) -> Wrong {
    wrong_as_a_whole(match rest {
        [_, high, low, value @ ..] => {
            let length = usize::from(u16::from_be_bytes([*high, *low]));
            let (wanted, found) = (counted(length, "byte"), value.len());
            format!(
                "The card ends inside this field. Its value should have {wanted} and has {found}."
            )
        }
        _ => "The card ends inside this field, before its length is complete.".to_string(),
    })
}

fn in_field(stage: &Stage, tag: u8, value: &[u8], refusal: Refusal) -> Option<Wrong> {
    match (refusal, stage, tag) {
        (Refusal::FieldPlaceOrLength, _, _) => Some(place_or_length(stage, tag, value.len())),
        (Refusal::TooManyRecords, _, _) => Some(wrong_as_a_whole(format!(
            "This record is one too many. A card has at most {MAX_RECORDS}."
        ))),
        (Refusal::FieldRange, _, HEAD) => edition(value),
        (Refusal::FieldRange, _, ROLES) => roles(value),
        (Refusal::FieldRange, Stage::Register { ledger, .. }, RECORD) => {
            record(ledger.register().records().len(), value)
        }
        (_, Stage::Register { edition, ledger }, DIRECTIVE) => {
            directive(*edition, ledger, value, refusal)
        }
        _ => None,
    }
}

/// Question 2.
fn place_or_length(stage: &Stage, tag: u8, length: usize) -> Wrong {
    let has = counted(length, "byte");
    match (stage, tag) {
        (_, tag) if !(HEAD..=DIRECTIVE).contains(&tag) => {
            let tag = hex_byte(tag);
            wrong_at(TAG_AT, format!("A card has no field with the tag {tag}."))
        }
        (Stage::Start, HEAD) => wrong_at(
            LENGTH_AT,
            format!("The head has {has}. A head has {HEAD_LENGTH}."),
        ),
        (Stage::Start, _) => wrong_at(TAG_AT, "The card does not begin with its head."),
        (_, HEAD) => wrong_at(TAG_AT, "The card has a second head."),
        (Stage::Head(_), ROLES) => {
            let roles = counted(length, "role");
            wrong_at(
                LENGTH_AT,
                format!("The card has {roles}. It can have 1 to {MAX_ROLES}."),
            )
        }
        (Stage::Head(_), _) => wrong_at(
            TAG_AT,
            "The roles are missing. They come right after the head.",
        ),
        (_, ROLES) => wrong_at(TAG_AT, "The card lists its roles twice."),
        (Stage::Register { ledger, .. }, RECORD) if ledger.active().is_empty() => {
            let number = ledger.register().records().len();
            wrong_at(
                LENGTH_AT,
                format!("Record {number} has {has}. A record has {RECORD_LENGTH}."),
            )
        }
        (_, RECORD) => wrong_at(
            TAG_AT,
            "A record comes after a directive. Records come before all directives.",
        ),
        (Stage::Register { ledger, .. }, _) if ledger.register().records().is_empty() => wrong_at(
            TAG_AT,
            "A directive comes before the first record. Directives come after all records.",
        ),
        (Stage::Register { edition, .. }, _) => {
            let (edition, wanted) = (edition.number(), edition.directive_length());
            wrong_at(
                LENGTH_AT,
                format!("The directive has {has}. In edition {edition} a directive has {wanted}."),
            )
        }
    }
}

/// Question 4 for the head.
fn edition(value: &[u8]) -> Option<Wrong> {
    let found = value.first()?;
    Some(wrong_in_value(
        0,
        format!("The card says it is edition {found}. There are editions 1 and 2."),
    ))
}

/// Question 4 for the roles: the first that is wrong.
fn roles(parents: &[u8]) -> Option<Wrong> {
    parents.iter().enumerate().find_map(|(number, parent)| {
        let words = parent_words(["Role", "role", "under"], number, *parent)?;
        Some(wrong_in_value(number, words))
    })
}

/// What is wrong with a parent, if anything is.
fn parent_words([name, one, inside]: [&str; 3], number: usize, parent: u8) -> Option<String> {
    let says = format!("{name} {number} says it is {inside} {one} {parent}.");
    match number {
        0 if parent == 0 => None,
        0 => Some(format!("{says} {name} 0 is {inside} no other.")),
        _ if usize::from(parent) < number => None,
        _ => Some(format!(
            "{says} A {one} can only be {inside} one that comes before it."
        )),
    }
}

/// Question 4 for the record of this number: the first part that is wrong.
fn record(number: usize, value: &[u8]) -> Option<Wrong> {
    let record = Record::decode(value.try_into().ok()?);
    let parent = parent_words(["Record", "record", "inside"], number, record.parent);
    let found = record.record_type;
    first_wrong([
        (PARENT, parent.is_some(), parent.unwrap_or_default()),
        (
            ORIGINS,
            record.origins == 0,
            format!("Record {number} has no origin. It needs at least one."),
        ),
        (
            SENSITIVITIES,
            record.sensitivities == 0,
            format!("Record {number} has no sensitivity. It needs at least one."),
        ),
        (
            TYPE,
            found > MAX_TYPE,
            format!("Record {number} has type {found}. Types are 0 to {MAX_TYPE}."),
        ),
    ])
}

/// Of the parts of a value, with their places in it, the first that is wrong.
fn first_wrong<const N: usize>(parts: [(usize, bool, String); N]) -> Option<Wrong> {
    let mut wrong = parts.into_iter().filter(|(_, is_wrong, _)| *is_wrong);
    wrong
        .next()
        .map(|(place, _, words)| wrong_in_value(place, words))
}

/// Questions 7 to 13.
fn directive(edition: Edition, ledger: &Ledger, value: &[u8], refusal: Refusal) -> Option<Wrong> {
    let fields = directive_fields(edition, value).ok()?;
    let Ok(draft) = Directive::from_fields(&fields) else {
        return ranges(&fields);
    };
    match refusal {
        Refusal::UnknownRoleOrRecord => unknown(ledger.register(), &draft),
        Refusal::DraftMinutes => {
            let until = value.len().saturating_sub(UNTIL_LENGTH);
            Some(wrong_in_value(until, minutes(ledger.clock(), &draft)))
        }
        Refusal::NumberTaken => Some(wrong_in_value(
            NUMBER,
            format!(
                "Two directives have the number {}. Each needs its own.",
                draft.number
            ),
        )),
        Refusal::TooManyDirectives => Some(wrong_as_a_whole(format!(
            "This directive is one too many. A card has at most {MAX_ACTIVE}."
        ))),
        Refusal::BaselineBroken => baseline(ledger, &draft),
        Refusal::Conflict(named) => Some(wrong_as_a_whole(conflict(&draft, named))),
        _ => None,
    }
}

/// Question 7: the first part that is out of range.
fn ranges(fields: &Fields) -> Option<Wrong> {
    let Fields {
        number,
        effect,
        kind,
        reach,
        purposes,
        ..
    } = *fields;
    let empty = |what: &str| format!("Directive {number} {what}. It needs at least one.");
    first_wrong([
        (
            EFFECT,
            effect > 1,
            format!("Directive {number} has effect {effect}. Effects are 0 (deny) and 1 (permit)."),
        ),
        (
            KIND,
            kind > 1,
            format!(
                "Directive {number} has subject kind {kind}. Kinds are 0 (a person) and 1 (a role)."
            ),
        ),
        (
            SUBJECT_ORIGINS,
            fields.subject_origins == 0,
            empty("is for requests from no origin"),
        ),
        (
            REACH,
            Reach::decode(reach).is_none(),
            format!("Directive {number} has reach {reach}. Reaches are 0 to 3."),
        ),
        (PO, fields.po == 0, empty("selects records of no origin")),
        (
            PS,
            fields.ps == 0,
            empty("selects records of no sensitivity"),
        ),
        (PT, fields.pt == 0, empty("selects records of no type")),
        (PURPOSES, purposes == 0, empty("is for no purpose")),
        (
            PURPOSES,
            purposes & !ALL_PURPOSES != 0,
            format!("Directive {number} is for a purpose above 10. Purposes are 0 to 10."),
        ),
    ])
}

/// Question 8: the role, or the record.
fn unknown(register: &Register, draft: &Directive) -> Option<Wrong> {
    let number = draft.number;
    let role = match draft.subject {
        Subject::Role(role) if !register.has_role(role) => Some(role),
        Subject::Role(_) | Subject::Person(_) => None,
    };
    let record = draft.record;
    first_wrong([
        (
            SUBJECT,
            role.is_some(),
            format!(
                "Directive {number} is for role {}, which the card does not have.",
                role.unwrap_or_default()
            ),
        ),
        (
            RECORD_NUMBER,
            register.record(record).is_none(),
            format!("Directive {number} is on record {record}, which the card does not have."),
        ),
    ])
}

/// Question 9.
fn minutes(clock: u32, draft: &Directive) -> String {
    let Directive {
        number,
        from,
        until,
        ..
    } = *draft;
    if from >= until {
        format!(
            "Directive {number} begins at minute {from} and ends at minute {until}. \
             It must end after it begins."
        )
    } else {
        format!(
            "Directive {number} has run out. \
             It ended at minute {until}, and the card's clock is at minute {clock}."
        )
    }
}

/// Question 12, with the first of the records.
fn baseline(ledger: &Ledger, draft: &Directive) -> Option<Wrong> {
    let record = *baseline_records(ledger, draft).first()?;
    let number = draft.number;
    let words = match draft.subject {
        Subject::Person(person) if person != ledger.patient() => format!(
            "Directive {number} denies person {person} access to record {record}, which they wrote. \
             Authors can always read what they wrote."
        ),
        Subject::Person(_) | Subject::Role(_) => format!(
            "Directive {number} denies the patient access to record {record}. \
             Patients can always read their own records."
        ),
    };
    Some(wrong_as_a_whole(words))
}

/// Question 13.
fn conflict(draft: &Directive, named: u16) -> String {
    let opposite = match draft.effect {
        Effect::Deny => Effect::Permit,
        Effect::Permit => Effect::Deny,
    };
    format!(
        "Directive {} conflicts with directive {named}. It {} a request that the other {}.",
        draft.number,
        verb(draft.effect),
        verb(opposite),
    )
}
