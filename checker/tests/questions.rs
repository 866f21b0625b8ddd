//! Questions 7 and 8 value by value.

use checker::directive::{Directive, Effect, Fields, Subject};
use checker::refusal::Refusal;
use checker::register::Reach;

use crate::support::*;

/// The 25 bytes by their places in document 01's list.
#[test]
fn the_fields_of_25_bytes() {
    let bytes: [u8; 25] = [
        0x01, 0x02, // number
        0x00, // effect
        0x01, // subject kind
        0x03, 0x04, // subject
        0x05, 0x06, // subject origins
        0x07, // record
        0x02, // reach
        0x08, 0x09, // po
        0x0A, 0x0B, // ps
        0x0C, // pt
        0x05, 0x0E, // purposes
        0x0F, 0x10, 0x11, 0x12, // from
        0x13, 0x14, 0x15, 0x16, // until
    ];
    let fields = Fields {
        number: 0x0102,
        effect: 0,
        kind: 1,
        subject: 0x0304,
        subject_origins: 0x0506,
        record: 7,
        reach: 2,
        po: 0x0809,
        ps: 0x0A0B,
        pt: 0x0C,
        purposes: 0x050E,
        from: 0x0F10_1112,
        until: 0x1314_1516,
    };
    assert_eq!(Fields::decode(&bytes), fields);
    assert_eq!(fields.encode(), bytes);
    let directive = Directive {
        number: 0x0102,
        effect: Effect::Deny,
        subject: Subject::Role(0x0304),
        subject_origins: 0x0506,
        record: 7,
        reach: Reach::Descendants,
        po: 0x0809,
        ps: 0x0A0B,
        pt: 0x0C,
        purposes: 0x050E,
        from: 0x0F10_1112,
        until: 0x1314_1516,
    };
    assert_eq!(Directive::from_fields(&fields), Ok(directive));
    assert_eq!(directive.fields(), fields);
    // Edition 1 leaves out purposes and means 0x07FF.
    let without: Vec<u8> = [&bytes[..15], &bytes[17..]].concat();
    assert_eq!(fields.encode_edition_1(), without);
    let edition_1: &[u8; 23] = without[..].try_into().expect("23 bytes");
    let all_purposes = Fields {
        purposes: 0x07FF,
        ..fields
    };
    assert_eq!(Fields::decode_edition_1(edition_1), all_purposes);
}

#[test]
fn question_7_byte_by_byte() {
    let ledger = sample().ledger();
    let base = draft(PERMIT, (ROLE, 0), 1, 0);
    let expect = |fields: Fields, right: bool| {
        let expected = if right {
            Ok(())
        } else {
            Err(Refusal::DraftRange)
        };
        assert_eq!(would_commit(&ledger, fields), expected, "{fields:?}");
    };
    for value in 0..=255 {
        let effect = Fields {
            effect: value,
            ..base
        };
        expect(effect, value < 2);
        let kind = Fields {
            kind: value,
            ..base
        };
        expect(kind, value < 2);
        // Every reach from record 0 selects a record.
        let reach = Fields {
            reach: value,
            record: 0,
            ..base
        };
        expect(reach, value <= 3);
    }
    expect(
        Fields {
            subject_origins: 0,
            ..base
        },
        false,
    );
    expect(Fields { po: 0, ..base }, false);
    expect(Fields { ps: 0, ..base }, false);
    expect(Fields { pt: 0, ..base }, false);
    for purposes in 0..=u16::MAX {
        let in_range = (1..=0x07FF).contains(&purposes);
        let fields = Fields { purposes, ..base };
        let expected = if in_range {
            Ok(())
        } else {
            Err(Refusal::DraftRange)
        };
        assert_eq!(Directive::from_fields(&fields).map(|_| ()), expected);
    }
}

#[test]
fn question_8_for_every_record_and_role() {
    let ledger = sample().ledger();
    for record in 0..=255 {
        let answer = would_commit(&ledger, draft(PERMIT, (PERSON, 600), record, 0));
        let expected = if record < 3 {
            Ok(())
        } else {
            Err(Refusal::UnknownRoleOrRecord)
        };
        assert_eq!(answer, expected, "record {record}");
    }
    for role in 0..=u16::MAX {
        let answer = ledger.validate(&draft(PERMIT, (ROLE, role), 1, 0));
        let expected = if role < 4 {
            Ok(())
        } else {
            Err(Refusal::UnknownRoleOrRecord)
        };
        assert_eq!(answer.map(|_| ()), expected, "role {role}");
    }
}

#[test]
fn order_of_8_to_10() {
    let ledger = sample_after(&[directive_a()]);
    // Each misses the later questions too.
    let unknown = over(2000, 1000, numbered(1, draft(PERMIT, (ROLE, 9), 1, 0)));
    let refusal = Err(Refusal::UnknownRoleOrRecord);
    assert_eq!(would_commit(&ledger, unknown), refusal);
    let minutes = over(2000, 1000, directive_a());
    assert_eq!(would_commit(&ledger, minutes), Err(Refusal::DraftMinutes));
    let taken = numbered(1, draft(DENY, (PERSON, 7), 1, 0));
    assert_eq!(would_commit(&ledger, taken), Err(Refusal::NumberTaken));
}
