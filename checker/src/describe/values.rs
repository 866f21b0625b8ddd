//! Effects, bases, reaches, minutes and counts in words.

use crate::directive::Effect;
use crate::ledger::{Basis, Decision};
use crate::register::Reach;

pub fn effect(effect: Effect) -> &'static str {
    match effect {
        Effect::Deny => "deny",
        Effect::Permit => "permit",
    }
}

/// What a directive of this effect does.
pub fn verb(effect: Effect) -> &'static str {
    match effect {
        Effect::Deny => "denies",
        Effect::Permit => "permits",
    }
}

pub fn basis(basis: Basis) -> String {
    match basis {
        Basis::Patient => "basis 1, the patient's own access".to_string(),
        Basis::Author => "basis 2, the author's access to their own record".to_string(),
        Basis::Directive(number) => format!("basis 3, directive {number}"),
        Basis::Default => "basis 4, the default consent".to_string(),
    }
}

/// The effect and its basis.
pub fn decision(decision: Decision) -> String {
    format!("{}, {}", effect(decision.effect), basis(decision.basis))
}

/// The records in this reach from the record.
pub fn reach(reach: Reach, record: u8) -> String {
    match reach {
        Reach::Itself => format!("record {record}"),
        Reach::Children => format!("the children of record {record}"),
        Reach::Descendants => format!("everything under record {record}, without itself"),
        Reach::Folder => format!("record {record} and everything under it"),
    }
}

/// The minutes from..until, in which `until` is not.
pub fn minutes(from: u32, until: u32) -> String {
    match until.checked_sub(1) {
        Some(last) if last == from => format!("minute {from} only (until {until})"),
        Some(last) if last > from => format!("minutes {from} to {last} (until {until})"),
        _ => format!("no minute (from {from}, until {until})"),
    }
}

/// The last minute of what ends at `until`.
pub fn until(until: u32) -> String {
    match until.checked_sub(1) {
        Some(last) => format!("to minute {last} (until {until})"),
        None => "until minute 0".to_string(),
    }
}

/// "no records", "1 record", "3 records".
pub fn counted(count: usize, one: &str) -> String {
    match count {
        0 => format!("no {one}s"),
        1 => format!("1 {one}"),
        _ => format!("{count} {one}s"),
    }
}

pub fn hex_byte(byte: u8) -> String {
    format!("0x{byte:02X}")
}
