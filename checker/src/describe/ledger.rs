//! Persons, roles, records, directives, requests and tokens in the words of
//! the ledger that they belong to.

use super::sets;
use super::values::{self, counted};
use crate::directive::{Directive, Effect, Fields, Subject};
use crate::layout;
use crate::ledger::{scope, Ledger, Token};
use crate::register::Record;
use crate::request::{Query, Request, Requester};

/// The words of one ledger.
#[derive(Clone, Copy)]
pub struct Words<'a> {
    ledger: &'a Ledger,
}

impl<'a> Words<'a> {
    pub fn of(ledger: &'a Ledger) -> Words<'a> {
        Words { ledger }
    }

    pub fn person(&self, person: u16) -> String {
        if person == self.ledger.patient() {
            format!("the patient (person {person})")
        } else {
            format!("person {person}")
        }
    }

    /// The person, and whether they are the author of this record.
    fn person_on(&self, person: u16, record: u8) -> String {
        let found = self.ledger.register().record(record);
        let words = self.person(person);
        match found {
            Some(found) if found.author == person => format!("{words}, author of record {record},"),
            _ => words,
        }
    }

    /// "role 2", and of an unknown one that it is.
    pub fn role(&self, role: u16) -> String {
        if self.ledger.register().has_role(role) {
            format!("role {role}")
        } else {
            format!("role {role} (not in the register)")
        }
    }

    /// "record 2", and of an unknown one that it is.
    pub fn record(&self, record: u8) -> String {
        match self.ledger.register().record(record) {
            Some(_) => format!("record {record}"),
            None => format!("record {record} (not in the register)"),
        }
    }

    /// A record of any value with its fields.
    pub fn whole_record(&self, number: usize, record: &Record) -> String {
        let place = match (number, record.parent) {
            (0, 0) => "the root".to_string(),
            (_, parent) => format!("under record {parent}"),
        };
        format!(
            "record {number}, {place}, by {}, of type {}, with {}, {} and {}",
            self.person(record.author),
            record.record_type,
            sets::origins(record.origins),
            sets::sensitivities(record.sensitivities),
            sets::labels(record.labels),
        )
    }

    /// The person, or the role with the roles that it covers.
    pub fn subject(&self, subject: Subject) -> String {
        match subject {
            Subject::Person(person) => self.person(person),
            Subject::Role(0) if self.ledger.register().has_role(0) => {
                "every role (role 0)".to_string()
            }
            Subject::Role(role) => match self.roles_under(role) {
                0 => self.role(role),
                under => format!("role {role} and {} under it", sets::roles(under)),
            },
        }
    }

    /// The roles that it covers, without itself.
    fn roles_under(&self, role: u16) -> u16 {
        let register = self.ledger.register();
        register
            .role_numbers()
            .filter(|other| *other != role && register.covers(role, *other))
            .fold(0, |set, other| {
                set | 1u16.checked_shl(u32::from(other)).unwrap_or(0)
            })
    }

    /// A directive in one line, without its number.
    pub fn directive(&self, directive: &Directive) -> String {
        let only = match filter(directive) {
            Some(filter) => format!(", only {filter}"),
            None => String::new(),
        };
        format!(
            "{} access by {} to {}{only}; from {}, for {}, in {}",
            values::verb(directive.effect),
            self.subject(directive.subject),
            self.reached(directive),
            sets::origins(directive.subject_origins),
            sets::purposes(directive.purposes),
            values::minutes(directive.from, directive.until),
        )
    }

    /// A draft in one line: as a directive, or field by field where it breaks
    /// a range.
    pub fn draft(&self, fields: &Fields) -> String {
        match Directive::from_fields(fields) {
            Ok(directive) => self.numbered_directive(&directive),
            Err(_) => raw(fields),
        }
    }

    /// A directive in one line, with its number.
    pub fn numbered_directive(&self, directive: &Directive) -> String {
        format!(
            "directive {} {}",
            directive.number,
            self.directive(directive)
        )
    }

    fn reached(&self, directive: &Directive) -> String {
        let words = values::reach(directive.reach, directive.record);
        match self.ledger.register().record(directive.record) {
            Some(_) => words,
            None => format!("{words} (not in the register)"),
        }
    }

    /// A directive in rows below a line with its number and effect.
    pub fn directive_rows(&self, directive: &Directive) -> Vec<String> {
        let effect = match directive.effect {
            Effect::Deny => "DENIES",
            Effect::Permit => "PERMITS",
        };
        let mut rows = vec![
            ("by", self.subject(directive.subject)),
            ("to", self.reached(directive)),
        ];
        if let Some(filter) = filter(directive) {
            rows.push(("only", filter));
        }
        let selected = directive.selected(self.ledger.register());
        rows.extend([
            ("selects", sets::records(selected)),
            ("from", sets::origins(directive.subject_origins)),
            ("for", sets::purposes(directive.purposes)),
            ("in", self.minutes_at_the_clock(directive)),
        ]);
        let mut lines = vec![format!("directive {} {effect} access", directive.number)];
        lines.extend(layout::indented(layout::rows(&rows)));
        lines
    }

    /// The minutes, and whether they have begun.
    fn minutes_at_the_clock(&self, directive: &Directive) -> String {
        let minutes = values::minutes(directive.from, directive.until);
        let clock = self.ledger.clock();
        match directive.from.checked_sub(clock) {
            Some(wait) if wait > 0 => {
                let wait = usize::try_from(wait).unwrap_or(usize::MAX);
                format!("{minutes}, begins in {}", counted(wait, "minute"))
            }
            _ => format!("{minutes}, has begun"),
        }
    }

    pub fn request(&self, request: &Request) -> String {
        let query = Query {
            person: request.person,
            role: request.role,
            origin: request.origin,
            record: request.record,
            purpose: request.purpose,
        };
        format!("{}, in minute {}", self.query(&query), request.minute)
    }

    /// A request without its minute.
    pub fn query(&self, query: &Query) -> String {
        format!(
            "{} in {} asks for access to {} from origin {}, for {}",
            self.person_on(query.person, query.record),
            self.role(query.role),
            self.record(query.record),
            query.origin,
            sets::purpose(query.purpose),
        )
    }

    /// A request without its record and its minute.
    pub fn requester(&self, requester: Requester) -> String {
        format!(
            "{} in {} asks from origin {}, for {}",
            self.person(requester.person),
            self.role(requester.role),
            requester.origin,
            sets::purpose(requester.purpose),
        )
    }

    pub fn token(&self, token: &Token) -> String {
        format!(
            "token {} of {} for {}, live {}, with {} in scope",
            token.number,
            self.person(token.person),
            sets::states(token.states),
            values::until(token.until),
            sets::labels(scope(token.states)),
        )
    }
}

/// The fields of a draft as they stand.
fn raw(fields: &Fields) -> String {
    format!(
        "directive {} with effect {}, subject kind {}, subject {}, subject origins 0x{:04X}, \
         record {}, reach {}, po 0x{:04X}, ps 0x{:04X}, pt 0x{:02X}, purposes 0x{:04X}, \
         from {}, until {}",
        fields.number,
        fields.effect,
        fields.kind,
        fields.subject,
        fields.subject_origins,
        fields.record,
        fields.reach,
        fields.po,
        fields.ps,
        fields.pt,
        fields.purposes,
        fields.from,
        fields.until,
    )
}

/// Which records pass the filtration sets; nothing where all do.
fn filter(directive: &Directive) -> Option<String> {
    let mut parts = Vec::new();
    if directive.po != u16::MAX {
        parts.push(format!("within {}", sets::origins(directive.po)));
    }
    if directive.ps != u16::MAX {
        parts.push(format!("within {}", sets::sensitivities(directive.ps)));
    }
    if directive.pt != u8::MAX {
        parts.push(format!("of {}", sets::types(directive.pt)));
    }
    (!parts.is_empty()).then(|| format!("records {}", parts.join(", ")))
}
