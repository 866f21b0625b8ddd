//! Validation before commit: conflict, baseline and redundancy.
//!
//! "Some request" and "every request" range over the register, all persons,
//! and minutes from the clock on. The directives here have passed questions 7
//! and 8, so their sets are not empty and their roles are in the register.

use crate::directive::{Directive, Effect, Subject};
use crate::register::{record_bit, RecordSet, Register};
use crate::request::{has_bit, ORIGINS, PURPOSES};

/// Some person with some role is covered by both subjects. Any person may
/// present any role, so a person and a role always meet.
fn subjects_meet(register: &Register, one: Subject, other: Subject) -> bool {
    match (one, other) {
        (Subject::Person(p), Subject::Person(q)) => p == q,
        (Subject::Role(r), Subject::Role(q)) => register.covers(r, q) || register.covers(q, r),
        (Subject::Person(_), Subject::Role(_)) | (Subject::Role(_), Subject::Person(_)) => true,
    }
}

/// "A conflict is a request matched by two directives of opposite effect."
/// `selected` is what `one` selects.
fn conflict(
    register: &Register,
    clock: u32,
    one: &Directive,
    selected: RecordSet,
    other: &Directive,
) -> bool {
    one.effect != other.effect
        && one.from.max(other.from).max(clock) < one.until.min(other.until)
        && one.subject_origins & other.subject_origins != 0
        && one.purposes & other.purposes != 0
        && subjects_meet(register, one.subject, other.subject)
        && selected & other.selected(register) != 0
}

/// "The lowest number of an active directive that the draft conflicts with."
pub fn lowest_conflict(
    register: &Register,
    clock: u32,
    draft: &Directive,
    active: &[Directive],
) -> Option<u16> {
    let selected = draft.selected(register);
    active
        .iter()
        .filter(|other| conflict(register, clock, draft, selected, other))
        .map(|other| other.number)
        .min()
}

/// "A deny that names a person breaks the baseline when it matches some
/// request of that person on a record they authored, or any request if that
/// person is the patient. A deny on a role breaks nothing."
pub fn breaks_baseline(register: &Register, patient: u16, clock: u32, draft: &Directive) -> bool {
    let person = match (draft.effect, draft.subject) {
        (Effect::Deny, Subject::Person(person)) => person,
        (Effect::Deny, Subject::Role(_)) | (Effect::Permit, _) => return false,
    };
    draft.first_minute(clock).is_some()
        && register.numbered_records().any(|(number, record)| {
            (person == patient || person == record.author) && draft.selects(register, number)
        })
}

/// An active directive that may cover a draft, with the records it selects.
struct Candidate<'a> {
    directive: &'a Directive,
    selected: RecordSet,
}

/// A set of candidates: bit i stands for candidate i, of at most 32.
type CandidateSet = u32;

fn candidates_where(candidates: &[Candidate], covers: impl Fn(&Candidate) -> bool) -> CandidateSet {
    candidates
        .iter()
        .zip(0u32..)
        .filter(|(candidate, _)| covers(candidate))
        .fold(0, |set, (_, number)| set | candidate_bit(number))
}

fn candidate_bit(number: u32) -> CandidateSet {
    1u32.checked_shl(number).unwrap_or(0)
}

/// Whether each minute first..until is matched by a candidate of the set. The
/// minutes looked at are the first one and the `until`s met on the way: the
/// first minute that no candidate matches is one of these.
fn minutes_covered(candidates: &[Candidate], set: CandidateSet, first: u32, until: u32) -> bool {
    let mut minute = first;
    while minute < until {
        let next = candidates
            .iter()
            .zip(0u32..)
            .filter(|(_, number)| set & candidate_bit(*number) != 0)
            .map(|(candidate, _)| candidate.directive)
            .filter(|directive| directive.from <= minute && minute < directive.until)
            .map(|directive| directive.until)
            .max();
        match next {
            Some(end) => minute = end,
            None => return false,
        }
    }
    true
}

/// "A draft is superfluous when every request it matches is matched by an
/// active directive of its own effect, several together if need be; one that
/// matches no request is superfluous too."
///
/// The search ends at the first request that no active directive matches. It
/// looks at one person: the one the draft names, or for a role one that no
/// active directive names. With at most 32 active there is such a person, and
/// what covers them covers every other.
pub fn redundant(register: &Register, clock: u32, draft: &Directive, active: &[Directive]) -> bool {
    let Some(first) = draft.first_minute(clock) else {
        return true;
    };
    let selected = draft.selected(register);
    let candidates: Vec<Candidate> = active
        .iter()
        .filter(|directive| directive.effect == draft.effect)
        .map(|directive| Candidate {
            directive,
            selected: directive.selected(register),
        })
        .collect();

    let records: Vec<CandidateSet> = register
        .numbered_records()
        .map(|(number, _)| record_bit(number))
        .filter(|bit| selected & bit != 0)
        .map(|bit| candidates_where(&candidates, |candidate| candidate.selected & bit != 0))
        .collect();
    let origins: Vec<CandidateSet> = (0..ORIGINS)
        .filter(|origin| has_bit(draft.subject_origins, *origin))
        .map(|origin| {
            candidates_where(&candidates, |candidate| {
                has_bit(candidate.directive.subject_origins, origin)
            })
        })
        .collect();
    let purposes: Vec<CandidateSet> = (0..PURPOSES)
        .filter(|purpose| has_bit(draft.purposes, *purpose))
        .map(|purpose| {
            candidates_where(&candidates, |candidate| {
                has_bit(candidate.directive.purposes, purpose)
            })
        })
        .collect();
    let person = match draft.subject {
        Subject::Person(person) => Some(person),
        Subject::Role(_) => None,
    };
    let roles: Vec<CandidateSet> = register
        .role_numbers()
        .filter(|role| draft.subject.covers(register, person, *role))
        .map(|role| {
            candidates_where(&candidates, |candidate| {
                candidate.directive.subject.covers(register, person, role)
            })
        })
        .collect();

    // The last set found to match all the draft's minutes; so does every
    // larger one.
    let mut enough: Option<CandidateSet> = None;
    for by_record in &records {
        for by_origin in &origins {
            let by_origin = by_record & by_origin;
            for by_purpose in &purposes {
                let by_purpose = by_origin & by_purpose;
                for by_role in &roles {
                    let set = by_purpose & by_role;
                    if enough.is_some_and(|enough| set & enough == enough) {
                        continue;
                    }
                    if !minutes_covered(&candidates, set, first, draft.until) {
                        return false;
                    }
                    enough = Some(set);
                }
            }
        }
    }
    true
}
