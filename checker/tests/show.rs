//! Cards shown in words.

use std::fs;
use std::path::PathBuf;

use checker::bytes::field;
use checker::card;
use checker::describe::question;
use checker::directive::Fields;
use checker::generate::inputs;
use checker::refusal::Refusal;
use checker::register::Record;
use checker::show::show;

use crate::support::*;

/// What the card is refused for: the lines from "Refused at" on.
fn reason(card: &[u8]) -> String {
    let shown = show(card);
    assert!(!shown.accepted);
    let start = shown.text.find("Refused at").expect("a place");
    shown.text[start..].trim_end().to_string()
}

fn lines(lines: &[&str]) -> String {
    lines.join("\n")
}

#[test]
fn the_stored_sample() {
    let checker = PathBuf::from(env!("CARGO_MANIFEST_DIR"));
    let card = fs::read(checker.join("../samples/sample.card")).expect("the sample is stored");
    let shown = show(&card);
    assert!(shown.accepted);
    let expected = "\
Consent card: accepted

Patient  person 7
Clock    minute 1000
Edition  2
Length   27 bytes

Roles
  role 0

Records
            author      type  origins  sensitivities  labels
  record 0  person 500  0     0        0              none

Directives in order
  none
";
    assert_eq!(shown.text, expected);
}

/// The sample register with a record of the patient and two directives.
fn rich() -> Card {
    let mut card = sample();
    card.records.push(record(0, 7, 0xFFFF, 0x8000, 7, 0x0005));
    let permit = Fields {
        subject_origins: 0x0006,
        po: 0x0003,
        purposes: 0x0011,
        ..over(1500, 2500, draft(PERMIT, (PERSON, 600), 0, 1))
    };
    card.with(&[over(500, 1500, directive_a()), permit])
}

#[test]
fn a_card_with_directives() {
    let shown = show(&rich().bytes());
    assert!(shown.accepted);
    let expected = "\
Consent card: accepted

Patient  person 7
Clock    minute 1000
Edition  2
Length   125 bytes

Roles
  role 0
  ├─ role 1
  │  └─ role 2
  └─ role 3

Records
                  author                  type  origins  sensitivities  labels
  record 0        person 500              0     0        0              none
  ├─ record 1     person 501              0     0, 1     0              2
  │  └─ record 2  person 502              0     1        0, 1           11
  └─ record 3     the patient (person 7)  7     all 16   15             0, 2

Directives in order
  directive 1 DENIES access
    by       role 1 and role 2 under it
    to       everything under record 0, without itself
    selects  records 1 to 3
    from     all 16 origins
    for      all 11 purposes
    in       minutes 500 to 1499 (until 1500), has begun

  directive 2 PERMITS access
    by       person 600
    to       the children of record 0
    only     records within origins 0, 1
    selects  record 1
    from     origins 1, 2
    for      purposes 0, 4 (0 is treatment)
    in       minutes 1500 to 2499 (until 2500), begins in 500 minutes
";
    assert_eq!(shown.text, expected);
}

#[test]
fn a_card_refused_for_a_conflict() {
    let card = sample().with(&[directive_a(), draft(PERMIT, (PERSON, 600), 1, 0)]);
    let shown = show(&card.bytes());
    assert!(!shown.accepted);
    let expected = "\
Consent card: REFUSED by question 13. Nothing on it is in force.

The part before the refusal, NOT in force

  Patient  person 7
  Clock    minute 1000
  Edition  2
  Length   112 bytes

  Roles
    role 0
    ├─ role 1
    │  └─ role 2
    └─ role 3

  Records
                    author      type  origins  sensitivities  labels
    record 0        person 500  0     0        0              none
    └─ record 1     person 501  0     0, 1     0              2
       └─ record 2  person 502  0     1        0, 1           11

  Directives in order
    directive 1 DENIES access
      by       role 1 and role 2 under it
      to       everything under record 0, without itself
      selects  records 1, 2
      from     all 16 origins
      for      all 11 purposes
      in       minutes 1000 to 1999 (until 2000), has begun

Refused at directive field 2 (tag 0x04), at offset 84 (0x54)
  By question 13: Is it free of conflict with the active directives? No.
  It reads: directive 2 permits access by person 600 to record 1; from all 16 origins, for all
    11 purposes, in minutes 1000 to 1999 (until 2000).
  It conflicts with directive 1, which denies access by role 1 and role 2 under it to
    everything under record 0, without itself; from all 16 origins, for all 11 purposes, in
    minutes 1000 to 1999 (until 2000).
  Both match: person 600 in role 1 asks for access to record 1 from origin 0, for treatment
    (purpose 0), in minute 1000.
";
    assert_eq!(shown.text, expected);
}

#[test]
fn a_card_refused_for_the_baseline() {
    let card = sample().with(&[draft(DENY, (PERSON, 7), 2, 0)]);
    let expected = [
        "Refused at directive field 1 (tag 0x04), at offset 56 (0x38)",
        "  By question 12: Is the baseline spared: the patient, and an author on their own record? No.",
        "  It reads: directive 2 denies access by the patient (person 7) to record 2; from all 16",
        "    origins, for all 11 purposes, in minutes 1000 to 1999 (until 2000).",
        "  The patient's own access cannot be denied.",
        "  The deny matches: the patient (person 7) in role 0 asks for access to record 2 from origin",
        "    0, for treatment (purpose 0), in minute 1000.",
    ];
    assert_eq!(reason(&card.bytes()), lines(&expected));
}

/// The sentences of the refusal, without the place and the question.
fn wrong(card: &[u8]) -> String {
    let reason = reason(card);
    let sentences = reason.split_once(" No.\n").expect("a question").1;
    let words: Vec<&str> = sentences.split_whitespace().collect();
    words.join(" ")
}

#[test]
fn what_is_wrong_with_a_field() {
    let card = sample();
    let head = card.head();
    let with = |fields: &[Vec<u8>]| [card.bytes(), fields.concat()].concat();
    let after_head = |field: Vec<u8>| [head.clone(), field].concat();
    let with_record = |record: Record| {
        let mut card = sample();
        card.records.push(record);
        card.bytes()
    };
    let with_draft = |draft: Fields| sample().with(&[draft]).bytes();
    let good = draft(PERMIT, (ROLE, 3), 0, 2);
    let cases = [
        (Vec::new(), "The card is empty."),
        (head.clone(), "The card ends after its head; the roles and a record are missing."),
        (
            after_head(card.role_field()),
            "The card ends after its roles; a record is missing.",
        ),
        (
            vec![0x01, 0x00],
            "A field begins with a tag and a two-byte length; the card ends after 2 of these 3 bytes.",
        ),
        (
            with(&[vec![0x04, 0x00, 0x19, 0x00]]),
            "Its length says 25 bytes, and the card has 1 more.",
        ),
        (field(0x01, &[2]), "It has 1 byte; a head has 7."),
        (card.role_field(), "A card begins with its head (tag 0x01)."),
        (
            field(0x09, &[]),
            "A card has no field of this tag; its tags are 0x01 to 0x04.",
        ),
        (after_head(head.clone()), "The head stands first and only once."),
        (
            after_head(field(0x02, &[])),
            "It has no bytes, one a role; there are 1 to 16 roles.",
        ),
        (
            after_head(field(0x03, &[0; 10])),
            "After the head come the roles (tag 0x02).",
        ),
        (
            with(&[card.role_field()]),
            "The roles stand second and only once.",
        ),
        (
            [head.clone(), card.role_field(), field(0x04, &[0; 25])].concat(),
            "A directive can come only after a record.",
        ),
        (
            with(&[field(0x03, &[0; 11])]),
            "It has 11 bytes; a record has 10.",
        ),
        (
            with(&[field(0x04, &good.encode()), record_field(&card.records[0])]),
            "No record can come after a directive.",
        ),
        (
            with(&[field(0x04, &good.encode_edition_1())]),
            "It has 23 bytes; in edition 2 a directive has 25.",
        ),
        (
            with(&vec![record_field(&card.records[1]); 126]),
            "A register has a place for 128 records.",
        ),
        (field(0x01, &[3, 0, 0, 0, 0, 0, 0]), "The edition is 3; it is 1 or 2."),
        (
            after_head(field(0x02, &[1, 0, 2])),
            "The parent byte of role 0 is 1; role 0 has none above it, and 0 there. \
             The parent of role 2 is 2; a parent has a lower number.",
        ),
        (
            with_record(record(3, 500, 0, 0, 8, 0)),
            "It reads: record 3, under record 3, by person 500, of type 8, with no origin, \
             no sensitivity and no label. The parent of record 3 is 3; a parent has a lower number. \
             Its set of origins is empty. Its set of sensitivities is empty. \
             Its type is 8; types are 0 to 7.",
        ),
        (
            with_draft(Fields { effect: 2, kind: 3, reach: 4, purposes: 0x0800, ..good }),
            "It reads: directive 2 with effect 2, subject kind 3, subject 3, subject origins \
             0xFFFF, record 0, reach 4, po 0xFFFF, ps 0xFFFF, pt 0xFF, purposes 0x0800, from 1000, \
             until 2000. The effect is 2; it is 0 (deny) or 1 (permit). The subject's kind is 3; \
             it is 0 (person) or 1 (role). The reach is 4; it is 0 (the record), 1 (its children), \
             2 (its descendants) or 3 (the record with its descendants). The purposes are 0x0800; \
             only bits 0 to 10 (0x07FF) are purposes.",
        ),
        (
            with_draft(Fields { subject_origins: 0, po: 0, ps: 0, pt: 0, purposes: 0, ..good }),
            "It reads: directive 2 with effect 1, subject kind 1, subject 3, subject origins \
             0x0000, record 0, reach 2, po 0x0000, ps 0x0000, pt 0x00, purposes 0x0000, from 1000, \
             until 2000. The set of subject origins is empty. The set po (origins) is empty. The \
             set ps (sensitivities) is empty. The set pt (types) is empty. The set of purposes is \
             empty.",
        ),
        (
            with_draft(Fields { subject: 4, record: 3, ..good }),
            "It reads: directive 2 permits access by role 4 (not in the register) to everything \
             under record 3, without itself (not in the register); from all 16 origins, for all 11 \
             purposes, in minutes 1000 to 1999 (until 2000). There is no role 4: the register has \
             roles 0 to 3. There is no record 3: the register has records 0 to 2.",
        ),
        (
            with_draft(over(900, 800, good)),
            "It reads: directive 2 permits access by role 3 to everything under record 0, without \
             itself; from all 16 origins, for all 11 purposes, in no minute (from 900, until 800). \
             It begins in minute 900, which is not before minute 800, its until. It has run out: \
             its until is minute 800, and the clock is at minute 1000.",
        ),
        (
            sample().with(&[good, over(1000, 1001, good)]).bytes(),
            "It reads: directive 2 permits access by role 3 to everything under record 0, without \
             itself; from all 16 origins, for all 11 purposes, in minute 1000 only (until 1001). \
             Number 2 is taken: the active directive 2 permits access by role 3 to everything under \
             record 0, without itself; from all 16 origins, for all 11 purposes, in minutes 1000 to \
             1999 (until 2000).",
        ),
    ];
    for (bytes, expected) in cases {
        assert_eq!(wrong(&bytes), expected);
    }
}

#[test]
fn the_33rd_directive() {
    let permit = |number| numbered(number, draft(PERMIT, (PERSON, number), 0, 0));
    let directives: Vec<Fields> = (1000..1033).map(permit).collect();
    let reason = reason(&sample().with(&directives).bytes());
    assert!(reason.starts_with("Refused at directive field 33 (tag 0x04), at offset 952 (0x3B8)"));
    assert!(reason.ends_with("32 directives are active; no more can be."));
}

/// An edition 1 card, and bytes after the first 65,535.
#[test]
fn editions_and_the_cut() {
    let mut card = sample().with(&[directive_a()]);
    card.edition = 1;
    let text = show(&card.bytes()).text;
    assert!(text.contains("Edition  1 (directives without purposes: they are for all 11)\n"));
    assert!(text.contains("    for      all 11 purposes\n"));

    let mut long = sample().bytes();
    long.resize(65_536, 0);
    let shown = show(&long);
    let cut = "Only the first 65535 bytes are the card; the input has 65536.\n";
    assert!(shown.text.contains(cut));
    assert!(!show(&long[..65_535]).text.contains(cut));
}

/// A deep tree is a list, in which each record names its parent.
#[test]
fn deep_trees_are_lists() {
    let mut card = sample();
    card.records = (0..12)
        .map(|number: u8| record(number.saturating_sub(1), 1, 1, 1, 0, 0))
        .collect();
    assert!(show(&card.bytes())
        .text
        .contains("\n  record 11, under record 10  person 1 "));
    card.records.pop();
    let text = show(&card.bytes()).text;
    assert!(text.contains("└─ record 10  person 1 "), "{text}");
    assert!(!text.contains("under record 9"));
}

/// Every generated card: accepted and refused as it is read, with the number
/// and text of the question, at a field before which nothing is refused.
#[test]
fn generated_cards() {
    let mut refused = [0; 25];
    for input in inputs(21, 3000, 0) {
        let card = &input.bytes[..input.bytes.len().min(65_535)];
        let shown = show(&input.bytes);
        check_lines(&shown.text);
        match card::read(card) {
            Ok(ledger) => {
                assert!(shown.accepted);
                assert!(shown.text.starts_with("Consent card: accepted\n"));
                for directive in ledger.active() {
                    let heading = format!("\n  directive {} ", directive.number);
                    assert!(shown.text.contains(&heading));
                }
                refused[0] += 1;
            }
            Err(refusal) => {
                assert!(!shown.accepted);
                assert!(shown.text.contains("NOT in force"));
                check_refusal(card, &shown.text, refusal);
                refused[usize::from(refusal.number())] += 1;
            }
        }
    }
    for number in [0, 1, 2, 3, 4, 5, 7, 8, 9, 10, 11, 12, 13] {
        assert!(refused[number] > 0, "{number}");
    }
}

fn check_lines(text: &str) {
    assert!(text.ends_with('\n') && !text.ends_with("\n\n"));
    for line in text.lines() {
        assert_eq!(line, line.trim_end(), "a blank at the end");
        assert!(!line.contains('\t'));
    }
}

fn check_refusal(card: &[u8], text: &str, refusal: Refusal) {
    let number = refusal.number();
    let (before, after) = text.split_once("\nRefused at ").expect("a place");
    let first = format!("Consent card: REFUSED by question {number}. ");
    assert!(before.starts_with(&first));
    let words: Vec<&str> = after.split_whitespace().collect();
    let words = words.join(" ");
    let asked = question(number).expect("a question");
    assert!(
        words.contains(&format!("By question {number}: {asked} No. ")),
        "{words}"
    );

    let offset = words.split_once("at offset ").expect("an offset").1;
    let offset = offset.split(' ').next().expect("a number");
    let offset: usize = offset.parse().expect("a number");
    let so_far = card::read(&card[..offset]);
    assert!(
        matches!(so_far, Ok(_) | Err(Refusal::CardIncomplete)),
        "{so_far:?}"
    );
    let rest = &card[offset..];
    if number == 5 {
        assert!(rest.is_empty());
    } else if number > 1 {
        let length = usize::from(u16::from_be_bytes([rest[1], rest[2]]));
        let field_end = offset + 3 + length;
        assert_eq!(card::read(&card[..field_end]), Err(refusal));
    }
    if let Refusal::Conflict(named) = refusal {
        assert!(words.contains(&format!("conflicts with directive {named}, which ")));
        assert!(words.contains("Both match: "));
    }
    if refusal == Refusal::BaselineBroken {
        assert!(words.contains("The deny matches: "));
    }
}
