//! Where and why a card is refused, derived by hand from document 01's layout.

use checker::bytes::from_hex;

use crate::facts::{facts, framed, value};
use crate::json::Value;

pub fn card_facts(card: &[u8]) -> Value {
    let (facts, malformed) = facts(&framed(card));
    assert!(!malformed);
    assert_eq!(facts.at("calls").list(), []);
    facts.at("card").clone()
}

/// Document 01's sample register: 10 bytes, 7 bytes and three times 13, at the
/// offsets 0, 10, 17, 30 and 43.
pub const SAMPLE: [&str; 5] = [
    "01 0007 02 0007 000003E8",
    "02 0004 00 00 01 00",
    "03 000A 00 01F4 0001 0001 00 0000",
    "03 000A 00 01F5 0003 0001 00 0004",
    "03 000A 01 01F6 0002 0003 00 0800",
];
pub const HEAD: &str = SAMPLE[0];
const ROLES: &str = SAMPLE[1];
const RECORD: &str = SAMPLE[2];

/// Directive A, 28 bytes. After the sample register it stands at offset 56,
/// and its value at 59: number 59, effect 61, kind 62, subject 63, subject
/// origins 65, record 67, reach 68, po 69, ps 71, pt 73, purposes 74, from 76,
/// until 80.
const A: &str = "04 0019 0001 00 01 0001 FFFF 00 02 FFFF FFFF FF 07FF 000003E8 000007D0";
/// The same in edition 1, 26 bytes: from 74, until 78.
const A_OF_EDITION_1: &str = "04 0017 0001 00 01 0001 FFFF 00 02 FFFF FFFF FF 000003E8 000007D0";

/// The bytes of these fields, one after another.
pub fn bytes(fields: &[&str]) -> Vec<u8> {
    from_hex(&fields.concat().replace(' ', "")).expect("hexadecimal digits")
}

/// The sample register, and more fields.
fn sample_and(more: &[&str]) -> Vec<u8> {
    bytes(&[&SAMPLE[..], more].concat())
}

/// An offset and the byte that is put there.
type Change = (usize, u8);

/// The bytes with these changes.
pub fn set(mut bytes: Vec<u8>, changes: &[Change]) -> Vec<u8> {
    for (offset, byte) in changes {
        bytes[*offset] = *byte;
    }
    bytes
}

/// The sample register with directive A, changed.
fn with_a(changes: &[Change]) -> Vec<u8> {
    set(sample_and(&[A]), changes)
}

/// The same in edition 1.
fn with_a_of_edition_1(changes: &[Change]) -> Vec<u8> {
    set(
        sample_and(&[A_OF_EDITION_1]),
        &[&[(3, 1)][..], changes].concat(),
    )
}

/// A refused card: index, tag, offset and end of its field, the wrong byte, and
/// the words.
type Refused<'a> = (Vec<u8>, [u64; 4], Option<u64>, &'a str);

fn field_of([index, tag, offset, end]: [u64; 4], byte: Option<u64>, words: &str) -> String {
    let byte = byte.map_or("null".to_string(), |byte| byte.to_string());
    format!(
        r#"{{"index": {index}, "tag": {tag}, "offset": {offset}, "end": {end}, "byte": {byte},
            "words": "{words}"}}"#
    )
}

/// Each card is refused by this question, at this field, and that is all.
fn assert_refused<'a>(question: u8, refused: impl IntoIterator<Item = Refused<'a>>) {
    for (card, place, byte, words) in refused {
        let field = field_of(place, byte, words);
        let expected = format!(r#"{{"refusal": {question}, "field": {field}}}"#);
        assert_eq!(card_facts(&card), value(&expected));
    }
}

#[test]
fn an_accepted_card() {
    let accepted = value(r#"{"refusal": 0}"#);
    assert_eq!(card_facts(&bytes(&SAMPLE)), accepted);
    assert_eq!(card_facts(&with_a(&[])), accepted);
    assert_eq!(card_facts(&with_a_of_edition_1(&[])), accepted);
}

/// Question 1: cut after the tag, in the length, after it, and in the value. No
/// byte that is there is wrong.
#[test]
fn a_field_that_is_not_whole() {
    let no_length = "The card ends inside this field, before its length is complete.";
    let no_value = "The card ends inside this field. Its value should have";
    assert_refused(
        1,
        [
            (bytes(&["01"]), [0, 1, 0, 1], None, no_length),
            (bytes(&["FF"]), [0, 255, 0, 1], None, no_length),
            (bytes(&[HEAD, "02 00"]), [1, 2, 10, 12], None, no_length),
            (sample_and(&["04"]), [5, 4, 56, 57], None, no_length),
            (sample_and(&["04 00"]), [5, 4, 56, 58], None, no_length),
            (
                bytes(&["01 0007 02 0007 0000"]),
                [0, 1, 0, 8],
                None,
                &format!("{no_value} 7 bytes and has 5."),
            ),
            (
                bytes(&[HEAD, ROLES, "03 000A"]),
                [2, 3, 17, 20],
                None,
                &format!("{no_value} 10 bytes and has 0."),
            ),
            (
                with_a(&[])[..83].to_vec(),
                [5, 4, 56, 83],
                None,
                &format!("{no_value} 25 bytes and has 24."),
            ),
            // Whatever the tag and the place.
            (
                bytes(&["FF 0001"]),
                [0, 255, 0, 3],
                None,
                &format!("{no_value} 1 byte and has 0."),
            ),
            (
                sample_and(&[A, "03 FFFF 00"]),
                [6, 3, 84, 88],
                None,
                &format!("{no_value} 65535 bytes and has 1."),
            ),
        ],
    );
}

/// Question 2, the place: the wrong byte is the tag.
#[test]
fn a_field_that_is_out_of_its_place() {
    let no_head = "The card does not begin with its head.";
    let no_roles = "The roles are missing. They come right after the head.";
    let unknown = |tag: &str| format!("A card has no field with the tag {tag}.");
    assert_refused(
        2,
        [
            (
                bytes(&["FF 0000"]),
                [0, 255, 0, 3],
                Some(0),
                &*unknown("0xFF"),
            ),
            (
                bytes(&[HEAD, "00 0001 00"]),
                [1, 0, 10, 14],
                Some(10),
                &*unknown("0x00"),
            ),
            (
                sample_and(&["05 0002 0000"]),
                [5, 5, 56, 61],
                Some(56),
                &*unknown("0x05"),
            ),
            (
                sample_and(&[A, "09 0000"]),
                [6, 9, 84, 87],
                Some(84),
                &*unknown("0x09"),
            ),
            (bytes(&[ROLES]), [0, 2, 0, 7], Some(0), no_head),
            (bytes(&[RECORD]), [0, 3, 0, 13], Some(0), no_head),
            (bytes(&[A]), [0, 4, 0, 28], Some(0), no_head),
            (bytes(&[HEAD, RECORD]), [1, 3, 10, 23], Some(10), no_roles),
            (bytes(&[HEAD, A]), [1, 4, 10, 38], Some(10), no_roles),
            (
                bytes(&[HEAD, HEAD]),
                [1, 1, 10, 20],
                Some(10),
                "The card has a second head.",
            ),
            (
                sample_and(&[HEAD]),
                [5, 1, 56, 66],
                Some(56),
                "The card has a second head.",
            ),
            (
                sample_and(&[ROLES]),
                [5, 2, 56, 63],
                Some(56),
                "The card lists its roles twice.",
            ),
            (
                sample_and(&[A, RECORD]),
                [6, 3, 84, 97],
                Some(84),
                "A record comes after a directive. Records come before all directives.",
            ),
            (
                sample_and(&[A, "03 0000"]),
                [6, 3, 84, 87],
                Some(84),
                "A record comes after a directive. Records come before all directives.",
            ),
            (
                bytes(&[HEAD, ROLES, A]),
                [2, 4, 17, 45],
                Some(17),
                "A directive comes before the first record. Directives come after all records.",
            ),
        ],
    );
}

/// Question 2, the length: the wrong byte is the first of the length.
#[test]
fn a_field_of_another_length() {
    let in_edition_1 = with_a(&[(3, 1)]);
    let seventeen = format!("02 0011 {}", "00".repeat(17));
    assert_refused(
        2,
        [
            (
                bytes(&["01 0006 02 0007 000003"]),
                [0, 1, 0, 9],
                Some(1),
                "The head has 6 bytes. A head has 7.",
            ),
            (
                bytes(&["01 0000"]),
                [0, 1, 0, 3],
                Some(1),
                "The head has no bytes. A head has 7.",
            ),
            (
                bytes(&[HEAD, "02 0000"]),
                [1, 2, 10, 13],
                Some(11),
                "The card has no roles. It can have 1 to 16.",
            ),
            (
                bytes(&[HEAD, &seventeen]),
                [1, 2, 10, 30],
                Some(11),
                "The card has 17 roles. It can have 1 to 16.",
            ),
            (
                sample_and(&["03 0009 00 01F4 0001 0001 00 00"]),
                [5, 3, 56, 68],
                Some(57),
                "Record 3 has 9 bytes. A record has 10.",
            ),
            (
                sample_and(&[A_OF_EDITION_1]),
                [5, 4, 56, 82],
                Some(57),
                "The directive has 23 bytes. In edition 2 a directive has 25.",
            ),
            (
                in_edition_1,
                [5, 4, 56, 84],
                Some(57),
                "The directive has 25 bytes. In edition 1 a directive has 23.",
            ),
        ],
    );
}

/// The head, the roles and 128 records end at 17 + 128 * 13 = 1681.
fn with_128_records(more: &str) -> Vec<u8> {
    bytes(&[&[HEAD, ROLES][..], &[RECORD; 128], &[more]].concat())
}

/// Question 3: a 129th record of the right length, whatever its content. Of
/// another length it is question 2.
#[test]
fn the_129th_record() {
    let words = "This record is one too many. A card has at most 128.";
    let wrong_in_itself = "03 000A FF 0000 0000 0000 FF 0000";
    assert_refused(
        3,
        [
            (with_128_records(RECORD), [130, 3, 1681, 1694], None, words),
            (
                with_128_records(wrong_in_itself),
                [130, 3, 1681, 1694],
                None,
                words,
            ),
        ],
    );
    let words = "Record 128 has 1 byte. A record has 10.";
    let short = with_128_records("03 0001 00");
    assert_refused(2, [(short, [130, 3, 1681, 1685], Some(1682), words)]);
}

/// Question 4 for the head, whose edition stands at offset 3.
#[test]
fn another_edition() {
    for (edition, words) in [
        (
            0,
            "The card says it is edition 0. There are editions 1 and 2.",
        ),
        (
            3,
            "The card says it is edition 3. There are editions 1 and 2.",
        ),
    ] {
        let card = set(bytes(&SAMPLE), &[(3, edition)]);
        assert_refused(4, [(card, [0, 1, 0, 10], Some(3), words)]);
    }
}

/// Question 4 for the roles, whose parents stand at the offsets 13 to 16.
#[test]
fn a_role_whose_parent_is_not_lower() {
    let roles = |changes: &[Change]| set(bytes(&SAMPLE), changes);
    let field = [1, 2, 10, 17];
    let rule = "A role can only be under one that comes before it.";
    assert_refused(
        4,
        [
            (
                roles(&[(13, 1)]),
                field,
                Some(13),
                "Role 0 says it is under role 1. Role 0 is under no other.",
            ),
            (
                roles(&[(14, 1)]),
                field,
                Some(14),
                &format!("Role 1 says it is under role 1. {rule}"),
            ),
            (
                roles(&[(16, 255)]),
                field,
                Some(16),
                &format!("Role 3 says it is under role 255. {rule}"),
            ),
            // The first of two.
            (
                roles(&[(15, 7), (16, 3)]),
                field,
                Some(15),
                &format!("Role 2 says it is under role 7. {rule}"),
            ),
        ],
    );
}

/// Question 4 for record 0 at offset 17, record 1 at 30, with its value at 33,
/// and record 2 at 43.
#[test]
fn a_record_out_of_its_ranges() {
    let records = |changes: &[Change]| set(bytes(&SAMPLE), changes);
    let rule = "A record can only be inside one that comes before it.";
    assert_refused(
        4,
        [
            (
                records(&[(20, 1)]),
                [2, 3, 17, 30],
                Some(20),
                "Record 0 says it is inside record 1. Record 0 is inside no other.",
            ),
            (
                records(&[(33, 1)]),
                [3, 3, 30, 43],
                Some(33),
                &*format!("Record 1 says it is inside record 1. {rule}"),
            ),
            (
                records(&[(46, 5)]),
                [4, 3, 43, 56],
                Some(46),
                &*format!("Record 2 says it is inside record 5. {rule}"),
            ),
            (
                records(&[(37, 0)]),
                [3, 3, 30, 43],
                Some(36),
                "Record 1 has no origin. It needs at least one.",
            ),
            (
                records(&[(39, 0)]),
                [3, 3, 30, 43],
                Some(38),
                "Record 1 has no sensitivity. It needs at least one.",
            ),
            (
                records(&[(40, 8)]),
                [3, 3, 30, 43],
                Some(40),
                "Record 1 has type 8. Types are 0 to 7.",
            ),
            // The first of several.
            (
                records(&[(46, 2), (50, 0), (52, 0), (53, 255)]),
                [4, 3, 43, 56],
                Some(46),
                &*format!("Record 2 says it is inside record 2. {rule}"),
            ),
            (
                records(&[(52, 0), (53, 255)]),
                [4, 3, 43, 56],
                Some(51),
                "Record 2 has no sensitivity. It needs at least one.",
            ),
        ],
    );
}

/// Question 5 is put at the card's end, and no field is wrong.
#[test]
fn a_card_that_ends_too_early() {
    for fields in [&[][..], &[HEAD], &[HEAD, ROLES]] {
        let expected = value(r#"{"refusal": 5, "field": null}"#);
        assert_eq!(card_facts(&bytes(fields)), expected);
    }
}

/// Question 7, part by part.
#[test]
fn a_directive_out_of_its_ranges() {
    let field = [5, 4, 56, 84];
    let cases: [(&[Change], u64, &str); 15] = [
        (
            &[(61, 2)],
            61,
            "has effect 2. Effects are 0 (deny) and 1 (permit).",
        ),
        (
            &[(62, 2)],
            62,
            "has subject kind 2. Kinds are 0 (a person) and 1 (a role).",
        ),
        (
            &[(65, 0), (66, 0)],
            65,
            "is for requests from no origin. It needs at least one.",
        ),
        (&[(68, 4)], 68, "has reach 4. Reaches are 0 to 3."),
        (&[(68, 255)], 68, "has reach 255. Reaches are 0 to 3."),
        (
            &[(69, 0), (70, 0)],
            69,
            "selects records of no origin. It needs at least one.",
        ),
        (
            &[(71, 0), (72, 0)],
            71,
            "selects records of no sensitivity. It needs at least one.",
        ),
        (
            &[(73, 0)],
            73,
            "selects records of no type. It needs at least one.",
        ),
        (
            &[(74, 0), (75, 0)],
            74,
            "is for no purpose. It needs at least one.",
        ),
        (
            &[(74, 8), (75, 0)],
            74,
            "is for a purpose above 10. Purposes are 0 to 10.",
        ),
        (
            &[(74, 0xFF)],
            74,
            "is for a purpose above 10. Purposes are 0 to 10.",
        ),
        // The first of several, by its place.
        (
            &[(62, 9), (68, 9), (73, 0)],
            62,
            "has subject kind 9. Kinds are 0 (a person) and 1 (a role).",
        ),
        (
            &[(68, 5), (73, 0), (74, 8)],
            68,
            "has reach 5. Reaches are 0 to 3.",
        ),
        // Before questions 8 and 9.
        (
            &[(67, 9), (74, 0x80)],
            74,
            "is for a purpose above 10. Purposes are 0 to 10.",
        ),
        (
            &[(73, 0), (80, 0), (82, 0), (83, 0)],
            73,
            "selects records of no type. It needs at least one.",
        ),
    ];
    for (changes, byte, words) in cases {
        let words = format!("Directive 1 {words}");
        assert_refused(7, [(with_a(changes), field, Some(byte), &*words)]);
    }
    let card = with_a_of_edition_1(&[(60, 9), (73, 0)]);
    let words = "Directive 9 selects records of no type. It needs at least one.";
    assert_refused(7, [(card, [5, 4, 56, 82], Some(73), words)]);
}

/// Question 8: the subject at 63 if the role is not there, else the record at
/// 67.
#[test]
fn a_role_or_record_that_is_not_there() {
    let field = [5, 4, 56, 84];
    let not_there = "which the card does not have.";
    assert_refused(
        8,
        [
            (
                with_a(&[(67, 3)]),
                field,
                Some(67),
                &*format!("Directive 1 is on record 3, {not_there}"),
            ),
            (
                with_a(&[(64, 4)]),
                field,
                Some(63),
                &*format!("Directive 1 is for role 4, {not_there}"),
            ),
            (
                with_a(&[(63, 1), (64, 0)]),
                field,
                Some(63),
                &*format!("Directive 1 is for role 256, {not_there}"),
            ),
            (
                with_a(&[(64, 4), (67, 255)]),
                field,
                Some(63),
                &*format!("Directive 1 is for role 4, {not_there}"),
            ),
            // A person of that number is none of the register's.
            (
                with_a(&[(62, 0), (64, 4), (67, 255)]),
                field,
                Some(67),
                &*format!("Directive 1 is on record 255, {not_there}"),
            ),
        ],
    );
}

/// Question 9: until at 80, in edition 1 at 78. From 500 is 0x01F4, until 1000
/// is 0x03E8.
#[test]
fn minutes_that_are_over() {
    let over = "Directive 1 has run out. \
                It ended at minute 1000, and the card's clock is at minute 1000.";
    let backwards = "Directive 1 begins at minute 2000 and ends at minute 2000. \
                     It must end after it begins.";
    let both = "Directive 1 begins at minute 1000 and ends at minute 0. \
                It must end after it begins.";
    let until_1000 = [(78, 0x01), (79, 0xF4), (82, 0x03), (83, 0xE8)];
    let field = [5, 4, 56, 84];
    assert_refused(
        9,
        [
            (with_a(&until_1000), field, Some(80), over),
            (
                with_a(&[(78, 0x07), (79, 0xD0)]),
                field,
                Some(80),
                backwards,
            ),
            (with_a(&[(82, 0), (83, 0)]), field, Some(80), both),
            (
                with_a_of_edition_1(&until_1000.map(|(offset, byte)| (offset - 2, byte))),
                [5, 4, 56, 82],
                Some(78),
                over,
            ),
        ],
    );
}

/// Question 10: the number of the second directive, at 84 with its value at 87.
#[test]
fn a_number_that_is_taken() {
    let words = "Two directives have the number 1. Each needs its own.";
    let card = sample_and(&[A, A]);
    assert_refused(10, [(card, [6, 4, 84, 112], Some(87), words)]);
}

/// Question 11: 32 directives end at 56 + 32 * 28 = 952.
#[test]
fn the_33rd_directive() {
    let rest = "FFFF 00 00 FFFF FFFF FF 07FF 000003E8 000007D0";
    let permits =
        (1000..1033).map(|person: u16| format!("04 0019 {person:04X} 01 00 {person:04X} {rest}"));
    let card = sample_and(&[&permits.collect::<String>()]);
    let words = "This directive is one too many. A card has at most 32.";
    assert_refused(11, [(card, [37, 4, 952, 980], None, words)]);
}

/// Questions 12 and 13 on a card have the facts of a draft too.
#[test]
fn a_directive_that_breaks_the_baseline_or_conflicts() {
    let rest = "FFFF FFFF FF 07FF 000003E8 000007D0";
    // Deny person 502 the children of record 1; deny the patient everything
    // under record 0.
    let author = format!("04 0019 0004 00 00 01F6 FFFF 01 01 {rest}");
    let patient = format!("04 0019 0004 00 00 0007 FFFF 00 02 {rest}");
    // Permit person 600 record 1, 1500..2500, as in K5. Permit role 2 record 2,
    // and deny it role 0 from origin 15 for purpose 10, 0..1001.
    let permit = "04 0019 0004 01 00 0258 FFFF 01 00 FFFF FFFF FF 07FF 000005DC 000009C4";
    let permit_role_2 = format!("04 0019 0001 01 01 0002 FFFF 02 00 {rest}");
    let deny_role_0 = "04 0019 0004 00 01 0000 8000 02 00 FFFF FFFF FF 0400 00000000 000003E9";
    let cases = [
        (
            sample_and(&[&author]),
            12,
            r#""patient": false, "records": [2]"#,
            [5, 4, 56, 84],
            "Directive 4 denies person 502 access to record 2, which they wrote. \
             Authors can always read what they wrote.",
        ),
        (
            sample_and(&[A, &patient]),
            12,
            r#""patient": true, "records": [1, 2]"#,
            [6, 4, 84, 112],
            "Directive 4 denies the patient access to record 1. \
             Patients can always read their own records.",
        ),
        (
            sample_and(&[A, permit]),
            13,
            r#""number": 1, "request": {"person": 600, "role": 1, "origin": 0, "record": 1,
               "purpose": 0, "minute": 1500, "any_person": false}"#,
            [6, 4, 84, 112],
            "Directive 4 conflicts with directive 1. It permits a request that the other denies.",
        ),
        (
            sample_and(&[&permit_role_2, deny_role_0]),
            13,
            r#""number": 1, "request": {"person": 0, "role": 2, "origin": 15, "record": 2,
               "purpose": 10, "minute": 1000, "any_person": true}"#,
            [6, 4, 84, 112],
            "Directive 4 conflicts with directive 1. It denies a request that the other permits.",
        ),
    ];
    for (card, question, members, place, words) in cases {
        let field = field_of(place, None, words);
        let expected = format!(r#"{{"refusal": {question}, {members}, "field": {field}}}"#);
        assert_eq!(card_facts(&card), value(&expected));
    }
    // In edition 1, where a directive has 23 bytes.
    let author = "04 0017 0004 00 00 01F6 FFFF 01 01 FFFF FFFF FF 000003E8 000007D0";
    let card = set(sample_and(&[A_OF_EDITION_1, author]), &[(3, 1)]);
    let facts = card_facts(&card);
    assert_eq!(facts.at("records"), &value("[2]"));
    let place = ["index", "offset", "end"].map(|key| facts.at("field").at(key).number::<u8>());
    assert_eq!(place, [6, 82, 108]);
}

/// The fields of the sample register and directive A, with a byte of the
/// edition, the roles, a record or the directive damaged: what is named is the
/// part that has this byte.
#[test]
fn the_damaged_part_is_named() {
    let whole = with_a(&[]);
    let values = [3..4, 13..17, 20..30, 33..43, 46..56, 59..84];
    let mut named = [0; 10];
    for offset in values.into_iter().flatten() {
        for byte in [0x00, 0x02, 0x08, 0x80, 0xFF] {
            let facts = card_facts(&set(whole.clone(), &[(offset, byte)]));
            let question: u8 = facts.at("refusal").number();
            if question != 0 {
                let byte: usize = facts.at("field").at("byte").number();
                assert_eq!(byte, named_for(offset), "{facts:?}");
                named[usize::from(question)] += 1;
            }
        }
    }
    for question in [4, 7, 8, 9] {
        assert!(named[question] > 2, "{question}: {named:?}");
    }
}

/// The first byte of the part that has a byte at this offset; of the minutes,
/// until.
fn named_for(offset: usize) -> usize {
    match offset {
        // The second bytes of origins and sensitivities, subject, subject
        // origins, po, ps and purposes.
        24 | 26 | 37 | 39 | 50 | 52 | 64 | 66 | 70 | 72 | 75 => offset - 1,
        76..84 => 80,
        _ => offset,
    }
}
