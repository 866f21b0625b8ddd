//! Values and questions in words.

use checker::describe::{
    basis, counted, effect, labels, members, minutes, origins, purposes, question, reach, records,
    sensitivities, states, types, until, Words,
};
use checker::directive::{Directive, Effect, Subject};
use checker::ledger::{Basis, Token};
use checker::refusal::LAST_QUESTION;
use checker::register::Reach;
use checker::request::Request;

use crate::support::*;

#[test]
fn sets_name_their_members() {
    assert_eq!(origins(0x0029), "origins 0, 3, 5");
    assert_eq!(origins(0x0008), "origin 3");
    assert_eq!(origins(0x0000), "no origin");
    assert_eq!(origins(0xFFFF), "all 16 origins");
    assert_eq!(origins(0xFFEF), "all origins except 4");
    assert_eq!(origins(0x7FFE), "all origins except 0, 15");
    assert_eq!(origins(0x7FFC), "origins 2 to 14");
    assert_eq!(origins(0x801B), "origins 0, 1, 3, 4, 15");
    assert_eq!(origins(0x8007), "origins 0 to 2, 15");
    assert_eq!(sensitivities(0x0001), "sensitivity 0");
    assert_eq!(sensitivities(0x0003), "sensitivities 0, 1");
    assert_eq!(types(0xFF), "all 8 types");
    assert_eq!(types(0x80), "type 7");
    assert_eq!(types(0x0F), "types 0 to 3");
    assert_eq!(labels(0x0000), "no label");
    assert_eq!(labels(0x000B), "labels 0, 1, 3");
    assert_eq!(members(0x0000), "none");
    assert_eq!(members(0xFFFF), "all 16");
    assert_eq!(members(0x0013), "0, 1, 4");
}

/// Purpose 0 has a name, and only 0 to 10 are purposes.
#[test]
fn purposes_name_treatment() {
    assert_eq!(purposes(0x0001), "treatment (purpose 0)");
    assert_eq!(purposes(0x0009), "purposes 0, 3 (0 is treatment)");
    assert_eq!(purposes(0x0008), "purpose 3");
    assert_eq!(purposes(0x07FF), "all 11 purposes");
    assert_eq!(purposes(0x07FE), "all purposes except 0");
    assert_eq!(purposes(0x0800), "purpose 11");
    assert_eq!(purposes(0x0FFE), "purposes 1 to 11");
}

#[test]
fn emergency_states_have_names() {
    assert_eq!(states(0x00), "no state");
    assert_eq!(states(0x01), "cardiac arrest");
    assert_eq!(states(0xC0), "sepsis, anaphylaxis");
    assert_eq!(states(0xFF), "all 8 states");
    let each: Vec<String> = (0..8).map(|state| states(1 << state)).collect();
    let table = "cardiac arrest, respiratory failure, stroke signs, low blood sugar, \
                 haemorrhage, major injury, sepsis, anaphylaxis";
    assert_eq!(each.join(", "), table);
}

#[test]
fn records_of_both_words() {
    assert_eq!(records(0), "no record");
    assert_eq!(records(1 << 127), "record 127");
    assert_eq!(records(0xF << 62), "records 62 to 65");
    assert_eq!(records(u128::MAX), "records 0 to 127");
}

#[test]
fn small_values() {
    assert_eq!(effect(Effect::Deny), "deny");
    assert_eq!(effect(Effect::Permit), "permit");
    assert_eq!(basis(Basis::Patient), "basis 1, the patient's own access");
    assert_eq!(
        basis(Basis::Author),
        "basis 2, the author's access to their own record"
    );
    assert_eq!(basis(Basis::Directive(9)), "basis 3, directive 9");
    assert_eq!(basis(Basis::Default), "basis 4, the default consent");
    assert_eq!(reach(Reach::Itself, 4), "record 4");
    assert_eq!(reach(Reach::Children, 4), "the children of record 4");
    assert_eq!(
        reach(Reach::Descendants, 4),
        "everything under record 4, without itself"
    );
    assert_eq!(reach(Reach::Folder, 4), "record 4 and everything under it");
    assert_eq!(counted(0, "record"), "no records");
    assert_eq!(counted(1, "record"), "1 record");
    assert_eq!(counted(2, "record"), "2 records");
}

/// `until` is not in the range.
#[test]
fn minutes_leave_out_their_end() {
    assert_eq!(minutes(1000, 2000), "minutes 1000 to 1999 (until 2000)");
    assert_eq!(minutes(1000, 1001), "minute 1000 only (until 1001)");
    assert_eq!(minutes(1000, 1000), "no minute (from 1000, until 1000)");
    assert_eq!(minutes(0, 0), "no minute (from 0, until 0)");
    assert_eq!(
        minutes(0, u32::MAX),
        "minutes 0 to 4294967294 (until 4294967295)"
    );
    assert_eq!(until(1030), "to minute 1029 (until 1030)");
}

#[test]
fn each_question_has_its_own_text() {
    let texts: Vec<&str> = (1..=LAST_QUESTION).filter_map(question).collect();
    assert_eq!(texts.len(), 24);
    assert!(texts.iter().all(|text| text.ends_with('?')), "{texts:?}");
    let mut distinct = texts.clone();
    distinct.sort_unstable();
    distinct.dedup();
    assert_eq!(distinct.len(), texts.len());
    assert_eq!(question(0), None);
    assert_eq!(question(LAST_QUESTION + 1), None);
}

#[test]
fn persons_roles_and_records_of_the_sample() {
    let ledger = sample().ledger();
    let words = Words::of(&ledger);
    assert_eq!(words.person(600), "person 600");
    assert_eq!(words.person(7), "the patient (person 7)");
    assert_eq!(words.role(3), "role 3");
    assert_eq!(words.role(4), "role 4 (not in the register)");
    assert_eq!(words.record(2), "record 2");
    assert_eq!(words.record(3), "record 3 (not in the register)");
    let records = ledger.register().records();
    assert_eq!(
        words.whole_record(0, &records[0]),
        "record 0, the root, by person 500, of type 0, with origin 0, sensitivity 0 and no label"
    );
    assert_eq!(
        words.whole_record(2, &records[2]),
        "record 2, under record 1, by person 502, of type 0, with origin 1, sensitivities 0, 1 \
         and label 11"
    );
    assert_eq!(words.subject(Subject::Person(600)), "person 600");
    assert_eq!(words.subject(Subject::Role(0)), "every role (role 0)");
    assert_eq!(
        words.subject(Subject::Role(1)),
        "role 1 and role 2 under it"
    );
    assert_eq!(words.subject(Subject::Role(2)), "role 2");
    assert_eq!(
        words.subject(Subject::Role(256)),
        "role 256 (not in the register)"
    );
}

#[test]
fn directives_in_a_line_and_in_rows() {
    let ledger = sample().ledger();
    let words = Words::of(&ledger);
    let a = Directive::from_fields(&directive_a()).expect("in range");
    assert_eq!(
        words.numbered_directive(&a),
        "directive 1 denies access by role 1 and role 2 under it to everything under record 0, \
         without itself; from all 16 origins, for all 11 purposes, \
         in minutes 1000 to 1999 (until 2000)"
    );
    let filtered = Directive {
        effect: Effect::Permit,
        subject: Subject::Person(7),
        subject_origins: 0x0002,
        po: 0x0003,
        ps: 0x0001,
        pt: 0x01,
        purposes: 0x0001,
        from: 1002,
        ..a
    };
    let rows = [
        "directive 1 PERMITS access",
        "  by       the patient (person 7)",
        "  to       everything under record 0, without itself",
        "  only     records within origins 0, 1, within sensitivity 0, of type 0",
        "  selects  record 1",
        "  from     origin 1",
        "  for      treatment (purpose 0)",
        "  in       minutes 1002 to 1999 (until 2000), begins in 2 minutes",
    ];
    assert_eq!(words.directive_rows(&filtered), rows);
}

/// A draft that breaks a range is told field by field.
#[test]
fn drafts_of_any_value() {
    let ledger = sample().ledger();
    let mut draft = directive_a();
    draft.effect = 9;
    assert_eq!(
        Words::of(&ledger).draft(&draft),
        "directive 1 with effect 9, subject kind 1, subject 1, subject origins 0xFFFF, record 0, \
         reach 2, po 0xFFFF, ps 0xFFFF, pt 0xFF, purposes 0x07FF, from 1000, until 2000"
    );
}

#[test]
fn requests_and_tokens() {
    let ledger = sample().ledger();
    let words = Words::of(&ledger);
    let request = Request {
        person: 501,
        role: 1,
        origin: 1,
        record: 1,
        purpose: 0,
        minute: 1500,
    };
    assert_eq!(
        words.request(&request),
        "person 501, author of record 1, in role 1 asks for access to record 1 from origin 1, \
         for treatment (purpose 0), in minute 1500"
    );
    let token = Token {
        number: 9,
        person: 600,
        states: 0x01,
        until: 1030,
    };
    assert_eq!(
        words.token(&token),
        "token 9 of person 600 for cardiac arrest, live to minute 1029 (until 1030), \
         with labels 0 to 3 in scope"
    );
}
