//! Sets of bits in words: "origins 0, 3, 5", "all 16 origins".

use crate::directive::ALL_PURPOSES;
use crate::register::{RecordSet, MAX_TYPE};
use crate::request::{ORIGINS, PURPOSES, TREATMENT};

/// What the bits of a set stand for, and how many there are.
struct Kind {
    one: &'static str,
    many: &'static str,
    count: u8,
}

const ORIGIN: Kind = Kind {
    one: "origin",
    many: "origins",
    count: ORIGINS,
};
const SENSITIVITY: Kind = Kind {
    one: "sensitivity",
    many: "sensitivities",
    count: 16,
};
const TYPE: Kind = Kind {
    one: "type",
    many: "types",
    count: MAX_TYPE.saturating_add(1),
};
const PURPOSE: Kind = Kind {
    one: "purpose",
    many: "purposes",
    count: PURPOSES,
};
const LABEL: Kind = Kind {
    one: "label",
    many: "labels",
    count: 16,
};
const STATES: [&str; 8] = [
    "cardiac arrest",
    "respiratory failure",
    "stroke signs",
    "low blood sugar",
    "haemorrhage",
    "major injury",
    "sepsis",
    "anaphylaxis",
];
/// Of a set that lacks at most so many, those that it lacks are named.
const FEW: usize = 2;

pub fn origins(set: u16) -> String {
    of_kind(set, &ORIGIN)
}

pub fn sensitivities(set: u16) -> String {
    of_kind(set, &SENSITIVITY)
}

pub fn types(set: u8) -> String {
    of_kind(u16::from(set), &TYPE)
}

pub fn labels(set: u16) -> String {
    of_kind(set, &LABEL)
}

/// The purposes with the one that has a name.
pub fn purposes(set: u16) -> String {
    let treatment = 1 << TREATMENT;
    let words = of_kind(set, &PURPOSE);
    if set == treatment {
        purpose(TREATMENT)
    } else if set & treatment != 0 && set & ALL_PURPOSES != ALL_PURPOSES {
        format!("{words} ({TREATMENT} is treatment)")
    } else {
        words
    }
}

pub fn purpose(purpose: u8) -> String {
    match purpose {
        TREATMENT => format!("treatment (purpose {TREATMENT})"),
        _ => format!("purpose {purpose}"),
    }
}

/// The emergency states by their names.
pub fn states(set: u8) -> String {
    let numbers = numbers(u128::from(set));
    let names: Vec<&str> = numbers
        .iter()
        .filter_map(|number| STATES.get(usize::from(*number)))
        .copied()
        .collect();
    match names.len() {
        0 => "no state".to_string(),
        length if length == STATES.len() => format!("all {length} states"),
        _ => names.join(", "),
    }
}

pub fn records(set: RecordSet) -> String {
    numbered("record", "records", &numbers(set))
}

pub fn roles(set: u16) -> String {
    numbered("role", "roles", &numbers(u128::from(set)))
}

/// The members of a 16-bit set for a column that names their kind.
pub fn members(set: u16) -> String {
    match set {
        0 => "none".to_string(),
        u16::MAX => "all 16".to_string(),
        _ => runs(&numbers(u128::from(set))),
    }
}

fn of_kind(set: u16, kind: &Kind) -> String {
    let members = numbers(u128::from(set));
    let lacking: Vec<u8> = (0..kind.count)
        .filter(|number| !members.contains(number))
        .collect();
    let beyond = members.iter().any(|number| *number >= kind.count);
    match lacking.len() {
        0 if !beyond => format!("all {} {}", kind.count, kind.many),
        1..=FEW if !beyond => format!("all {} except {}", kind.many, runs(&lacking)),
        _ => numbered(kind.one, kind.many, &members),
    }
}

fn numbered(one: &str, many: &str, numbers: &[u8]) -> String {
    match numbers {
        [] => format!("no {one}"),
        [number] => format!("{one} {number}"),
        _ => format!("{many} {}", runs(numbers)),
    }
}

/// The numbers of the set's bits, in order.
fn numbers(set: u128) -> Vec<u8> {
    (0u8..128)
        .filter(|number| set.checked_shr(u32::from(*number)).unwrap_or(0) & 1 == 1)
        .collect()
}

/// The numbers in order, three or more in a row as "3 to 5".
fn runs(numbers: &[u8]) -> String {
    let rows = numbers.chunk_by(|one, next| one.checked_add(1) == Some(*next));
    let mut parts: Vec<String> = Vec::new();
    for row in rows {
        match row {
            [first, _, .., last] => parts.push(format!("{first} to {last}")),
            few => parts.extend(few.iter().map(u8::to_string)),
        }
    }
    parts.join(", ")
}
