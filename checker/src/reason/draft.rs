//! Why a draft, or a directive field of a card, is refused.

use crate::describe::{records, Words};
use crate::directive::{Directive, Fields, Subject, ALL_PURPOSES, LENGTH};
use crate::ledger::{Ledger, MAX_ACTIVE};
use crate::refusal::Refusal;
use crate::register::{Reach, Register};
use crate::witness::{baseline_request, cover, shared_request, Cover};

/// What is wrong with the bytes of a draft.
pub fn bytes(ledger: &Ledger, draft: &[u8], refusal: Refusal) -> Vec<String> {
    match <&[u8; LENGTH]>::try_from(draft) {
        Ok(bytes) => reason(ledger, &Fields::decode(bytes), refusal),
        Err(_) => vec![format!(
            "The draft has {} bytes; a draft has {LENGTH}.",
            draft.len()
        )],
    }
}

/// What is wrong with a draft: questions 7 to 14.
pub fn reason(ledger: &Ledger, fields: &Fields, refusal: Refusal) -> Vec<String> {
    let Ok(draft) = Directive::from_fields(fields) else {
        return ranges(fields);
    };
    match refusal {
        Refusal::UnknownRoleOrRecord => unknown(ledger.register(), &draft),
        Refusal::DraftMinutes => minutes(ledger.clock(), &draft),
        Refusal::NumberTaken => taken(ledger, &draft),
        Refusal::TooManyDirectives => {
            vec![format!(
                "{MAX_ACTIVE} directives are active; no more can be."
            )]
        }
        Refusal::BaselineBroken => baseline(ledger, &draft),
        Refusal::Conflict(named) => conflict(ledger, &draft, named),
        Refusal::Redundant => redundant(ledger, &draft),
        _ => Vec::new(),
    }
}

/// Question 7.
fn ranges(fields: &Fields) -> Vec<String> {
    let mut wrong = Vec::new();
    if fields.effect > 1 {
        wrong.push(format!(
            "The effect is {}; it is 0 (deny) or 1 (permit).",
            fields.effect
        ));
    }
    if fields.kind > 1 {
        wrong.push(format!(
            "The subject's kind is {}; it is 0 (person) or 1 (role).",
            fields.kind
        ));
    }
    if Reach::decode(fields.reach).is_none() {
        wrong.push(format!(
            "The reach is {}; it is 0 (the record), 1 (its children), 2 (its descendants) or 3 \
             (the record with its descendants).",
            fields.reach
        ));
    }
    let sets = [
        ("of subject origins", fields.subject_origins),
        ("po (origins)", fields.po),
        ("ps (sensitivities)", fields.ps),
        ("pt (types)", u16::from(fields.pt)),
        ("of purposes", fields.purposes),
    ];
    for (name, _) in sets.iter().filter(|(_, set)| *set == 0) {
        wrong.push(format!("The set {name} is empty."));
    }
    if fields.purposes & !ALL_PURPOSES != 0 {
        wrong.push(format!(
            "The purposes are 0x{:04X}; only bits 0 to 10 (0x07FF) are purposes.",
            fields.purposes
        ));
    }
    wrong
}

/// Question 8.
fn unknown(register: &Register, draft: &Directive) -> Vec<String> {
    let mut wrong = Vec::new();
    if let Subject::Role(role) = draft.subject {
        if !register.has_role(role) {
            wrong.push(format!("There is no role {role}: {}.", roles_of(register)));
        }
    }
    if register.record(draft.record).is_none() {
        let record = draft.record;
        let records = records_of(register);
        wrong.push(format!("There is no record {record}: {records}."));
    }
    wrong
}

/// Which roles a register has.
pub(super) fn roles_of(register: &Register) -> String {
    range_of("role", register.roles().len())
}

/// Which records a register has.
pub(super) fn records_of(register: &Register) -> String {
    range_of("record", register.records().len())
}

fn range_of(one: &str, count: usize) -> String {
    match count.checked_sub(1) {
        None => format!("the register has no {one}s"),
        Some(0) => format!("the register has {one} 0 alone"),
        Some(last) => format!("the register has {one}s 0 to {last}"),
    }
}

/// Question 9.
fn minutes(clock: u32, draft: &Directive) -> Vec<String> {
    let (from, until) = (draft.from, draft.until);
    let mut wrong = Vec::new();
    if from >= until {
        wrong.push(format!(
            "It begins in minute {from}, which is not before minute {until}, its until."
        ));
    }
    if clock >= until {
        wrong.push(format!(
            "It has run out: its until is minute {until}, and the clock is at minute {clock}."
        ));
    }
    wrong
}

/// Question 10.
fn taken(ledger: &Ledger, draft: &Directive) -> Vec<String> {
    let holder = ledger
        .active()
        .iter()
        .find(|other| other.number == draft.number);
    let sentence = |holder| {
        let words = Words::of(ledger).directive(holder);
        let number = draft.number;
        format!("Number {number} is taken: the active directive {number} {words}.")
    };
    holder.map(sentence).into_iter().collect()
}

/// Question 12.
fn baseline(ledger: &Ledger, draft: &Directive) -> Vec<String> {
    let Some(request) = baseline_request(ledger, draft) else {
        return Vec::new();
    };
    let words = Words::of(ledger);
    let rule = if request.person == ledger.patient() {
        "The patient's own access cannot be denied".to_string()
    } else {
        format!(
            "Person {} is the author of record {}, and authors' access to their own records \
             cannot be denied",
            request.person, request.record
        )
    };
    vec![
        format!("{rule}."),
        format!("The deny matches: {}.", words.request(&request)),
    ]
}

/// Question 13.
fn conflict(ledger: &Ledger, draft: &Directive, named: u16) -> Vec<String> {
    let words = Words::of(ledger);
    let Some(other) = ledger.active().iter().find(|other| other.number == named) else {
        return Vec::new();
    };
    let mut lines = vec![format!(
        "It conflicts with directive {named}, which {}.",
        words.directive(other)
    )];
    if let Some(request) = shared_request(ledger, draft, other) {
        lines.push(format!("Both match: {}.", words.request(&request)));
    }
    lines
}

/// Question 14.
fn redundant(ledger: &Ledger, draft: &Directive) -> Vec<String> {
    let words = Words::of(ledger);
    match cover(ledger, draft) {
        None => Vec::new(),
        Some(Cover::NoRequest) => vec![format!(
            "It matches no request at all: {}.",
            selects_nothing(ledger.register(), draft)
        )],
        Some(Cover::Directives(directives)) => {
            let how = match directives.len() {
                1 => "Every request that it matches is matched already by one directive:",
                _ => "Every request that it matches is matched already by these together:",
            };
            let mut lines = vec![how.to_string()];
            for directive in &directives {
                lines.push(format!("- {}", words.numbered_directive(directive)));
            }
            lines
        }
    }
}

/// Why the draft selects no record.
fn selects_nothing(register: &Register, draft: &Directive) -> String {
    let reached =
        register.records_where(|number, _| register.reaches(draft.record, draft.reach, number));
    match reached {
        0 => format!("there is no record under record {}", draft.record),
        _ => format!(
            "its filter lets none of its records pass ({})",
            records(reached)
        ),
    }
}
