//! What a refused draft, or directive of a card, runs into.

use crate::directive::{Directive, Subject};
use crate::json::{self, Member};
use crate::ledger::Ledger;
use crate::refusal::Refusal;
use crate::request::Request;
use crate::witness::{baseline_records, cover, shared_request, Cover};

/// The facts of 12, 13 and 14. The other questions have none.
pub fn facts(ledger: &Ledger, draft: &Directive, refusal: Refusal) -> Vec<Member> {
    match refusal {
        Refusal::BaselineBroken => baseline(ledger, draft),
        Refusal::Conflict(named) => conflict(ledger, draft, named),
        Refusal::Redundant => vec![redundant(ledger, draft)],
        _ => Vec::new(),
    }
}

/// Whether it is the patient who is denied, and on which records.
fn baseline(ledger: &Ledger, draft: &Directive) -> Vec<Member> {
    let is_patient = draft.subject == Subject::Person(ledger.patient());
    let records = baseline_records(ledger, draft);
    vec![
        ("patient", is_patient.to_string()),
        ("records", json::array(records)),
    ]
}

/// The directive that is named, and a request that both match.
fn conflict(ledger: &Ledger, draft: &Directive, named: u16) -> Vec<Member> {
    let mut active = ledger.active().iter();
    let other = active.find(|other| other.number == named);
    let request = other.and_then(|other| {
        let request = shared_request(ledger, draft, other)?;
        let any_person = ![draft, other].into_iter().any(names_a_person);
        Some(of_request(&request, any_person))
    });
    vec![
        ("number", named.to_string()),
        ("request", json::or_null(request)),
    ]
}

fn names_a_person(directive: &Directive) -> bool {
    matches!(directive.subject, Subject::Person(_))
}

/// A request, and whether any other person would do as well.
fn of_request(request: &Request, any_person: bool) -> String {
    json::object([
        ("person", request.person.to_string()),
        ("role", request.role.to_string()),
        ("origin", request.origin.to_string()),
        ("record", request.record.to_string()),
        ("purpose", request.purpose.to_string()),
        ("minute", request.minute.to_string()),
        ("any_person", any_person.to_string()),
    ])
}

/// The directives that cover it; an empty list where it matches no request.
fn redundant(ledger: &Ledger, draft: &Directive) -> Member {
    let numbers = cover(ledger, draft).map(|cover| match cover {
        Cover::NoRequest => Vec::new(),
        Cover::Directives(directives) => directives.iter().map(|one| one.number).collect(),
    });
    ("cover", json::or_null(numbers.map(json::array)))
}
