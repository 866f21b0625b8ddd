//! Document 01's examples and what a caller relies on, through the library.

use std::thread;

use crate::{
    ledger_size, version, Basis, Counts, Decision, Dropped, Effect, Ledger, Refusal, Request,
    Requester, Token,
};

/// Document 01's sample register: patient 7, clock 1000, four roles, three records.
const REGISTER: [u8; 56] = [
    0x01, 0, 7, 2, 0, 7, 0, 0, 0x03, 0xE8, // head
    0x02, 0, 4, 0, 0, 1, 0, // roles
    0x03, 0, 10, 0, 0x01, 0xF4, 0, 1, 0, 1, 0, 0, 0, // record 0
    0x03, 0, 10, 0, 0x01, 0xF5, 0, 3, 0, 1, 0, 0, 4, // record 1
    0x03, 0, 10, 1, 0x01, 0xF6, 0, 2, 0, 3, 0, 8, 0, // record 2
];

/// Document 01's Q.
const Q: Request = Request {
    person: 600,
    role: 1,
    origin: 1,
    record: 1,
    purpose: 0,
};

const REQUESTER: Requester = Requester {
    person: 600,
    role: 1,
    origin: 1,
    purpose: 0,
};

enum Subject {
    Person(u16),
    Role(u16),
}

/// A draft with full sets: number and effect, subject, record and reach, from and until.
fn draft(
    (number, effect): (u16, Effect),
    subject: Subject,
    (record, reach): (u8, u8),
    (from, until): (u32, u32),
) -> Vec<u8> {
    let (kind, subject) = match subject {
        Subject::Person(person) => (0, person),
        Subject::Role(role) => (1, role),
    };
    let mut bytes = number.to_be_bytes().to_vec();
    bytes.extend([u8::from(effect == Effect::Permit), kind]);
    bytes.extend(subject.to_be_bytes());
    bytes.extend([0xFF, 0xFF, record, reach, 0xFF, 0xFF, 0xFF, 0xFF, 0xFF]);
    bytes.extend([0x07, 0xFF]);
    bytes.extend(from.to_be_bytes());
    bytes.extend(until.to_be_bytes());
    bytes
}

/// Document 01's A.
fn a() -> Vec<u8> {
    draft((1, Effect::Deny), Subject::Role(1), (0, 2), (1000, 2000))
}

/// K5's permit.
fn for_600(from: u32) -> Vec<u8> {
    let subject = Subject::Person(600);
    draft((2, Effect::Permit), subject, (1, 0), (from, 2500))
}

fn sample() -> Ledger {
    Ledger::read(&REGISTER).unwrap()
}

fn sample_with_a() -> Ledger {
    let mut ledger = sample();
    ledger.commit(&a()).unwrap();
    ledger
}

fn decided(effect: Effect, basis: Basis) -> Result<Decision, Refusal> {
    Ok(Decision { effect, basis })
}

#[test]
fn the_version_is_the_one_of_this_crate() {
    assert_eq!(version(), 1);
    assert_eq!(ledger_size() % 8, 0);
}

#[test]
fn k1_the_default_consent() {
    let ledger = sample();
    assert_eq!(ledger.decide(Q), decided(Effect::Permit, Basis::Default));
    let other = Request { purpose: 1, ..Q };
    assert_eq!(ledger.decide(other), decided(Effect::Deny, Basis::Default));
}

#[test]
fn k2_a_directive() {
    let ledger = sample_with_a();
    let decision = ledger.decide(Q).unwrap();
    assert_eq!(decision.basis, Basis::Directive(1));
    assert!(!decision.permits());
    assert!(ledger.decide(Request { role: 3, ..Q }).unwrap().permits());
}

#[test]
fn k3_author_and_patient() {
    let ledger = sample_with_a();
    let by = |person| ledger.decide(Request { person, ..Q });
    assert_eq!(by(501), decided(Effect::Permit, Basis::Author));
    assert_eq!(by(7), decided(Effect::Permit, Basis::Patient));
}

#[test]
fn k5_a_conflict() {
    let mut ledger = sample_with_a();
    assert_eq!(ledger.commit(&for_600(1500)), Err(Refusal::Conflict(1)));
    assert_eq!(ledger.commit(&for_600(2000)), Ok(()));
}

#[test]
fn k10_an_emergency() {
    let mut ledger = sample();
    ledger.issue(9, 600, 0x01, 30).unwrap();
    let token = Token {
        number: 9,
        person: 600,
        states: 1,
        until: 1030,
    };
    assert_eq!(ledger.tokens(), Ok(vec![token]));
    let brief = ledger.brief(9, 600).unwrap();
    assert_eq!((brief.words(), brief.len()), ([2, 0], 1));
    assert_eq!(brief.iter().collect::<Vec<u8>>(), [1]);
    assert!(brief.contains(1) && !brief.contains(0) && !brief.contains(128));
    assert!(!brief.is_empty());
    ledger.advance(1029).unwrap();
    assert_eq!(ledger.brief(9, 600), Ok(brief));
    let dropped = Dropped {
        directives: 0,
        tokens: 1,
    };
    assert_eq!(ledger.advance(1030), Ok(dropped));
    assert_eq!(ledger.brief(9, 600), Err(Refusal::NoToken));
    assert_eq!(ledger.tokens(), Ok(vec![]));
}

#[test]
fn the_empty_ledger_holds_nothing() {
    let ledger = Ledger::empty().unwrap();
    let nothing = Counts {
        patient: 0,
        clock: 0,
        records: 0,
        directives: 0,
        tokens: 0,
    };
    assert_eq!(ledger.counts(), Ok(nothing));
    assert_eq!(ledger.decide(Q), Err(Refusal::RequestOutOfRange));
    assert_eq!(ledger.write(), Err(Refusal::NoRecord));
}

#[test]
fn counts_are_those_of_the_calls() {
    let mut ledger = sample_with_a();
    ledger.issue(9, 600, 0x01, 30).unwrap();
    let counts = Counts {
        patient: 7,
        clock: 1000,
        records: 3,
        directives: 1,
        tokens: 1,
    };
    assert_eq!(ledger.counts(), Ok(counts));
    assert_eq!(format!("{ledger:?}"), format!("Ledger(Ok({counts:?}))"));
}

#[test]
fn a_refused_card_gives_no_ledger() {
    assert_eq!(Ledger::read(&[]), Err(Refusal::Incomplete));
    assert_eq!(Ledger::read(&[1]), Err(Refusal::FieldNotWhole));
    let permit = draft((2, Effect::Permit), Subject::Role(2), (0, 2), (1000, 2000));
    let field = [0x04, 0, 25];
    let card = [&REGISTER[..], &field, &a(), &field, &permit].concat();
    assert_eq!(Ledger::read(&card), Err(Refusal::Conflict(1)));
}

#[test]
fn a_refused_call_changes_nothing() {
    let mut ledger = sample_with_a();
    let before = ledger.clone();
    assert_eq!(ledger.commit(&[]), Err(Refusal::DraftLength));
    assert_eq!(ledger.commit(&a()), Err(Refusal::NumberTaken));
    assert_eq!(ledger.revoke(2), Err(Refusal::NotActive));
    assert_eq!(ledger.advance(999), Err(Refusal::BeforeClock));
    assert_eq!(ledger.issue(9, 600, 0, 30), Err(Refusal::NoState));
    assert_eq!(ledger.issue(9, 600, 1, 241), Err(Refusal::WrongMinutes));
    assert_eq!(ledger, before);
}

#[test]
fn a_clone_goes_its_own_way() {
    let mut ledger = sample_with_a();
    let before = ledger.clone();
    ledger.revoke(1).unwrap();
    assert_ne!(ledger, before);
    assert!(ledger.decide(Q).unwrap().permits());
    assert!(!before.decide(Q).unwrap().permits());
}

#[test]
fn a_preview_shows_what_would_change() {
    let ledger = sample();
    let changes = ledger.preview(REQUESTER, &a()).unwrap();
    assert_eq!(changes.iter().collect::<Vec<u8>>(), [1, 2]);
    let nurse = Requester {
        role: 3,
        ..REQUESTER
    };
    assert!(ledger.preview(nurse, &a()).unwrap().is_empty());
    let nobody = Requester {
        role: 4,
        ..REQUESTER
    };
    let refused = ledger.preview(nobody, &a());
    assert_eq!(refused, Err(Refusal::RequestOutOfRange));
    assert_eq!(ledger, sample());
}

#[test]
fn a_card_is_written_as_it_was_read() {
    let ledger = sample();
    assert_eq!(ledger.write(), Ok(REGISTER.to_vec()));
    let mut buffer = [0xEE; 60];
    assert_eq!(ledger.write_into(&mut buffer), Ok(56));
    assert_eq!(buffer[..56], REGISTER);
    assert_eq!(buffer[56..], [0xEE; 4]);
    let mut short = [0xEE; 55];
    let refused = ledger.write_into(&mut short);
    assert_eq!(refused, Err(Refusal::BufferTooShort));
    assert_eq!(short, [0xEE; 55]);
    let mut long = vec![0xEE; 100_000];
    assert_eq!(ledger.write_into(&mut long), Ok(56));
}

#[test]
fn a_ledger_is_saved_and_brought_back_in_an_emergency() {
    let mut ledger = sample_with_a();
    ledger.issue(9, 600, 0x01, 30).unwrap();
    let saved = ledger.to_bytes();
    assert_eq!(saved.len(), ledger_size());
    let mut back = Ledger::from_bytes(&saved).unwrap();
    assert_eq!(back, ledger);
    back.advance(1029).unwrap();
    assert_eq!(back.brief(9, 600).unwrap().len(), 1);
    back.advance(1030).unwrap();
    assert_eq!(back.brief(9, 600), Err(Refusal::NoToken));
    assert_eq!(ledger.brief(9, 600).unwrap().len(), 1);
}

#[test]
fn bytes_that_are_no_ledger_are_refused() {
    let saved = sample().to_bytes();
    let wrong_size = Err(Refusal::WrongSize);
    assert_eq!(Ledger::from_bytes(&[]), wrong_size);
    assert_eq!(Ledger::from_bytes(&saved[1..]), wrong_size);
    assert_eq!(Ledger::from_bytes(&saved[8..]), wrong_size);
    assert_eq!(
        Ledger::from_bytes(&[&saved[..], &[0; 8]].concat()),
        wrong_size
    );
    let no_ledger = Err(Refusal::NotALedger);
    assert_eq!(Ledger::from_bytes(&vec![0; saved.len()]), no_ledger);
    for place in 0..8 {
        let mut damaged = saved.clone();
        damaged[place] ^= 1;
        assert_eq!(Ledger::from_bytes(&damaged), no_ledger);
    }
    assert_eq!(Ledger::from_bytes(&saved), Ok(sample()));
}

#[test]
fn several_threads_ask_one_ledger_and_change_their_own() {
    let shared = sample_with_a();
    thread::scope(|scope| {
        for _ in 0..4 {
            scope.spawn(|| {
                let mut own = shared.clone();
                for _ in 0..200 {
                    assert!(!shared.decide(Q).unwrap().permits());
                    own.revoke(1).unwrap();
                    assert!(own.decide(Q).unwrap().permits());
                    own.commit(&a()).unwrap();
                    assert_eq!(own.write(), shared.write());
                }
            });
        }
    });
}

#[test]
fn a_status_and_its_refusal_are_one() {
    for status in (1..=24).chain([102, 103, 999]) {
        assert_eq!(Refusal::of(status, &[5]).status(), status);
    }
    assert_eq!(Refusal::of(13, &[5]), Refusal::Conflict(5));
    assert_eq!(Refusal::of(13, &[]), Refusal::Unknown(13));
    let said = Refusal::Conflict(5).to_string();
    assert_eq!(said, "refused: question 13, directive 5");
    assert_eq!(Refusal::NotActive.to_string(), "refused: question 15");
}
