//! Witnesses of a refused draft: for 12 its records and a request, for 13 a
//! request, for 14 the directives that cover the draft. The drafts here have
//! passed the questions before.

use crate::directive::{Directive, Effect, Subject};
use crate::ledger::Ledger;
use crate::register::Register;
use crate::request::Request;
use crate::validation;

/// For 13: a request that both directives match, from the clock on. The one
/// of the lowest record, origin, purpose and minute.
pub fn shared_request(ledger: &Ledger, one: &Directive, other: &Directive) -> Option<Request> {
    let register = ledger.register();
    let minute = one
        .first_minute(ledger.clock())?
        .max(other.first_minute(ledger.clock())?);
    if minute >= one.until.min(other.until) {
        return None;
    }
    let (person, role) = shared_subject(ledger, one.subject, other.subject)?;
    let (record, _) = register
        .numbered_records()
        .find(|(number, _)| one.selects(register, *number) && other.selects(register, *number))?;
    Some(Request {
        person,
        role,
        origin: lowest_bit(one.subject_origins & other.subject_origins)?,
        record,
        purpose: lowest_bit(one.purposes & other.purposes)?,
        minute,
    })
}

/// A person and a role that both subjects cover.
fn shared_subject(ledger: &Ledger, one: Subject, other: Subject) -> Option<(u16, u16)> {
    let register = ledger.register();
    match (one, other) {
        (Subject::Person(p), Subject::Person(q)) => (p == q).then_some((p, 0)),
        (Subject::Person(person), Subject::Role(role))
        | (Subject::Role(role), Subject::Person(person)) => Some((person, role)),
        (Subject::Role(r), Subject::Role(q)) => {
            let role = lower_role(register, r, q)?;
            Some((stranger(ledger), role))
        }
    }
}

/// The one that the other covers.
fn lower_role(register: &Register, r: u16, q: u16) -> Option<u16> {
    if register.covers(r, q) {
        Some(q)
    } else {
        register.covers(q, r).then_some(r)
    }
}

/// The lowest person who is neither the patient nor an author. With at most
/// 128 records there is one.
fn stranger(ledger: &Ledger) -> u16 {
    let records = ledger.register().records();
    let is_author = |person: u16| records.iter().any(|record| record.author == person);
    (0..=u16::MAX)
        .find(|person| *person != ledger.patient() && !is_author(*person))
        .unwrap_or(0)
}

/// The number of the lowest bit of a set.
fn lowest_bit(set: u16) -> Option<u8> {
    let bit = u8::try_from(set.trailing_zeros()).ok();
    bit.filter(|_| set != 0)
}

/// For 12: the records on which this deny breaks the baseline. If it names the
/// patient, all that it selects; otherwise those of them that the person wrote.
pub fn baseline_records(ledger: &Ledger, draft: &Directive) -> Vec<u8> {
    let register = ledger.register();
    let (Effect::Deny, Subject::Person(person)) = (draft.effect, draft.subject) else {
        return Vec::new();
    };
    register
        .numbered_records()
        .filter(|(number, record)| {
            (person == ledger.patient() || person == record.author)
                && draft.selects(register, *number)
        })
        .map(|(number, _)| number)
        .collect()
}

/// For 12: a request of the patient, or of an author on their own record, that
/// this deny matches.
pub fn baseline_request(ledger: &Ledger, draft: &Directive) -> Option<Request> {
    let Subject::Person(person) = draft.subject else {
        return None;
    };
    Some(Request {
        person,
        role: 0,
        origin: lowest_bit(draft.subject_origins)?,
        record: *baseline_records(ledger, draft).first()?,
        purpose: lowest_bit(draft.purposes)?,
        minute: draft.first_minute(ledger.clock())?,
    })
}

/// Why a draft is redundant.
#[derive(Clone, Debug, PartialEq, Eq)]
pub enum Cover {
    /// It matches no request.
    NoRequest,
    /// These directives, of its effect, match every request that it matches.
    /// None of them can be left out.
    Directives(Vec<Directive>),
}

/// For 14: what makes the draft redundant, if it is. One directive where one
/// is enough.
pub fn cover(ledger: &Ledger, draft: &Directive) -> Option<Cover> {
    let redundant = |active: &[Directive]| {
        validation::redundant(ledger.register(), ledger.clock(), draft, active)
    };
    if redundant(&[]) {
        return Some(Cover::NoRequest);
    }
    let meeting: Vec<Directive> = ledger
        .active()
        .iter()
        .filter(|other| other.effect == draft.effect)
        .filter(|other| shared_request(ledger, draft, other).is_some())
        .copied()
        .collect();
    if !redundant(&meeting) {
        return None;
    }
    let alone = meeting.iter().find(|other| redundant(&[**other]));
    Some(Cover::Directives(match alone {
        Some(directive) => vec![*directive],
        None => without_the_needless(meeting, redundant),
    }))
}

/// Leaves out one directive after another, the last one first, as long as the
/// others are enough.
fn without_the_needless(
    mut directives: Vec<Directive>,
    enough: impl Fn(&[Directive]) -> bool,
) -> Vec<Directive> {
    for place in (0..directives.len()).rev() {
        let mut fewer = directives.clone();
        fewer.remove(place);
        if enough(&fewer) {
            directives = fewer;
        }
    }
    directives
}
