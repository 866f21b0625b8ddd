//! Questions 1 to 5: the fields of a card.

use crate::bytes::field;
use crate::card::{DIRECTIVE, HEAD, RECORD};
use crate::register::Record;

use super::sample::*;
use super::scenario::{on, Scenario};
use super::Source::{self, Decisions, Says};
use super::{Case, Topic};

/// A case of a card alone: id, reading, source, the card's bytes, its line.
type Row = (&'static str, &'static str, Source, Vec<u8>, &'static str);

fn rows(topic: &'static str, rows: Vec<Row>) -> Vec<Case> {
    rows.into_iter()
        .map(|(id, reading, source, card, line)| {
            Topic(topic).case(id, reading, source, Scenario::of_card(&card, line))
        })
        .collect()
}

pub fn cases() -> Vec<Case> {
    [
        whole(),
        lengths(),
        places(),
        other_tags(),
        most_records(),
        ranges_of_head_and_roles(),
        ranges_of_records(),
        end(),
    ]
    .concat()
}

fn head() -> Vec<u8> {
    sample().head()
}

fn roles() -> Vec<u8> {
    sample().role_field()
}

/// A record that can stand anywhere: its parent is record 0.
fn root() -> Vec<u8> {
    record_field(&record(0, 500, 1, 1, 0, 0))
}

fn directive() -> Vec<u8> {
    field(DIRECTIVE, &directive_a().encode())
}

/// The sample card and these bytes after it.
fn and(bytes: &[u8]) -> Vec<u8> {
    [&sample().bytes(), bytes].concat()
}

fn without_last(mut bytes: Vec<u8>) -> Vec<u8> {
    bytes.pop();
    bytes
}

fn whole() -> Vec<Case> {
    let asks = Says("Each card field: does it stand whole in the card?");
    let first =
        Says("A field is a tag byte, a two-byte length and the value; high byte first throughout.");
    rows(
        "question 1",
        vec![
            (
                "q01-sample-is-whole",
                "The sample register's card ends with its last field whole and is accepted; a \
                 reader that wants bytes after it answers 1.",
                asks,
                sample().bytes(),
                "0 3 0",
            ),
            (
                "q01-one-byte-left",
                "One byte left over is a field that is not whole, 1; a reader that drops it \
                 accepts the card.",
                Decisions("1.2"),
                and(&[RECORD]),
                "1 0 0",
            ),
            (
                "q01-two-bytes-left",
                "A tag and half a length are a field that is not whole, 1; a reader that takes \
                 the length as 0 answers 2.",
                Decisions("1.2"),
                and(&[DIRECTIVE, 0x00]),
                "1 0 0",
            ),
            (
                "q01-tag-alone",
                "A card of one byte is a field that is not whole, 1; a reader that looks at the \
                 end first answers 5.",
                Decisions("1.2"),
                vec![HEAD],
                "1 0 0",
            ),
            (
                "q01-head-cut",
                "A head that lacks its last byte is 1; a reader that asks for the length first \
                 answers 2, one that asks for the end 5.",
                asks,
                without_last(head()),
                "1 0 0",
            ),
            (
                "q01-record-cut",
                "A last record that lacks its last byte is 1; a reader that stops before it \
                 accepts a card of two records.",
                asks,
                without_last(sample().bytes()),
                "1 0 0",
            ),
            (
                "q01-directive-cut",
                "A directive of length 25 with 24 bytes left is 1; a reader that measures what is \
                 left answers 2.",
                asks,
                without_last(and(&directive())),
                "1 0 0",
            ),
            (
                "q01-length-65535",
                "A length of 65,535 with one byte left is 1; a reader that adds it in 16 bits \
                 wraps and goes on.",
                asks,
                and(&[RECORD, 0xFF, 0xFF, 0x00]),
                "1 0 0",
            ),
            (
                "q01-low-byte-first",
                "Length bytes 07 00 are 1,792 and not 7, so the field is not whole, 1; a reader \
                 with the low byte first accepts the head.",
                first,
                [
                    &[HEAD, 0x07, 0x00, 2, 0, 7, 0, 0, 3, 0xE8],
                    &*roles(),
                    &*root(),
                ]
                .concat(),
                "1 0 0",
            ),
            (
                "q01-unknown-tag-cut",
                "FF 00 01 is not whole, and 1 comes before 2 whatever the tag; a reader that \
                 looks at the tag first answers 2.",
                Decisions("1.3"),
                vec![0xFF, 0x00, 0x01],
                "1 0 0",
            ),
        ],
    )
}

/// The first fields of the sample card, and a last one.
fn lengths() -> Vec<Case> {
    let decided = Decisions("1.5");
    let head_of = |length: usize| {
        let value = [2, 0, 7, 0, 0, 3, 0xE8, 0];
        let value: Vec<u8> = value.into_iter().take(length).collect();
        [field(HEAD, &value), roles(), root()].concat()
    };
    let roles_of = |count: usize| {
        let card = Card {
            roles: vec![0; count],
            ..sample()
        };
        card.bytes()
    };
    let record_of = |length: usize| {
        let value = [0, 1, 0xF5, 0, 1, 0, 1, 0, 0, 0, 0];
        let value: Vec<u8> = value.into_iter().take(length).collect();
        and(&field(RECORD, &value))
    };
    let directive_of = |edition: u8, value: Vec<u8>| {
        let card = Card {
            edition,
            ..sample()
        };
        [card.bytes(), field(DIRECTIVE, &value)].concat()
    };
    let a = directive_a();
    rows(
        "question 2",
        vec![
            (
                "q02-head-of-6",
                "A head of 6 bytes is 2; a reader that takes the clock from what is left accepts \
                 it or answers 1.",
                decided,
                head_of(6),
                "2 0 0",
            ),
            (
                "q02-head-of-8",
                "A head of 8 bytes is 2; a reader that takes its first 7 accepts the card.",
                decided,
                head_of(8),
                "2 0 0",
            ),
            (
                "q02-no-roles",
                "A role field of length 0 is 2; a reader that counts roles at the end answers 5, \
                 one that lets them be none accepts.",
                decided,
                roles_of(0),
                "2 0 0",
            ),
            (
                "q02-1-role",
                "One role is a register; a reader that wants two answers 2.",
                decided,
                roles_of(1),
                "0 3 0",
            ),
            (
                "q02-16-roles",
                "16 roles are accepted; a reader that allows fewer than 16 answers 2.",
                decided,
                roles_of(16),
                "0 3 0",
            ),
            (
                "q02-17-roles",
                "17 roles are a wrong length, 2; a reader that takes it for a range answers 4.",
                decided,
                roles_of(17),
                "2 0 0",
            ),
            (
                "q02-record-of-9",
                "A record of 9 bytes is 2; a reader that lets labels be short accepts it.",
                decided,
                record_of(9),
                "2 0 0",
            ),
            (
                "q02-record-of-11",
                "A record of 11 bytes is 2; a reader that takes its first 10 accepts it.",
                decided,
                record_of(11),
                "2 0 0",
            ),
            (
                "q02-directive-of-24",
                "A directive of 24 bytes on an edition 2 card is 2; a reader that puts the \
                 draft's question 6 answers 6.",
                decided,
                directive_of(2, without_last(a.encode().to_vec())),
                "2 0 0",
            ),
            (
                "q02-directive-of-26",
                "A directive of 26 bytes on an edition 2 card is 2; a reader that takes its first \
                 25 accepts it.",
                decided,
                directive_of(2, [&a.encode()[..], &[0]].concat()),
                "2 0 0",
            ),
            (
                "q02-directive-of-23-edition-2",
                "23 bytes are the other edition's length, 2; a reader that goes by the length and \
                 not by the edition accepts them.",
                decided,
                directive_of(2, a.encode_edition_1()),
                "2 0 0",
            ),
            (
                "q02-directive-of-23-edition-1",
                "23 bytes are a directive of an edition 1 card; a reader that always wants 25 \
                 answers 2.",
                decided,
                directive_of(1, a.encode_edition_1()),
                "0 3 1",
            ),
            (
                "q02-directive-of-25-edition-1",
                "25 bytes are the other edition's length, 2; a reader that goes by the length and \
                 not by the edition accepts them.",
                decided,
                directive_of(1, a.encode().to_vec()),
                "2 0 0",
            ),
        ],
    )
}

fn places() -> Vec<Case> {
    let decided = Decisions("1.4");
    let cards: [(&str, &str, &[Vec<u8>]); 9] = [
        (
            "q02-head-twice",
            "A second head is 2; a reader that takes the last one accepts the card.",
            &[head(), head(), roles(), root()],
        ),
        (
            "q02-head-after-records",
            "A head after the records is 2; a reader that sets the clock again accepts it.",
            &[head(), roles(), root(), head()],
        ),
        (
            "q02-roles-first",
            "Roles before the head are 2; a reader that only counts fields accepts the card.",
            &[roles(), head(), root()],
        ),
        (
            "q02-roles-twice",
            "A second role field is 2; a reader that takes the last one accepts the card.",
            &[head(), roles(), roles(), root()],
        ),
        (
            "q02-roles-after-records",
            "Roles after a record are 2, although they are there once; a reader that only asks \
             for each field accepts the card.",
            &[head(), root(), roles()],
        ),
        (
            "q02-record-first",
            "A record without head and roles is 2 at once; a reader that waits for the end \
             answers 5.",
            &[root()],
        ),
        (
            "q02-directive-after-head",
            "A directive before roles and records is 2; a reader that goes on to its role answers \
             8.",
            &[head(), directive()],
        ),
        (
            "q02-directive-before-records",
            "A directive before the first record is 2; a reader that goes on to its record \
             answers 8.",
            &[head(), roles(), directive(), root()],
        ),
        (
            "q02-record-after-directive",
            "A record after a directive is 2; a reader that takes records anywhere accepts it.",
            &[head(), roles(), root(), directive(), root()],
        ),
    ];
    let cards = cards.map(|(id, reading, fields)| (id, reading, decided, fields.concat(), "2 0 0"));
    rows("question 2", cards.to_vec())
}

fn other_tags() -> Vec<Case> {
    let tags = [
        (
            "q02-tag-00",
            "Tag 0x00 has no place, 2; a reader that takes it for padding accepts the card.",
            0x00,
        ),
        (
            "q02-tag-05",
            "Tag 0x05 has no place, 2; a reader that skips fields it does not know accepts the \
             card.",
            0x05,
        ),
        (
            "q02-tag-10",
            "The tag of a commit has no place on a card, 2; a reader that shares its table of \
             tags with replays goes on.",
            0x10,
        ),
        (
            "q02-tag-84",
            "Tag 0x84 is not 0x04, 2; a reader that looks at the low bits goes on to the \
             directive.",
            0x84,
        ),
    ];
    let tags = tags.map(|(id, reading, tag)| {
        (
            id,
            reading,
            Decisions("1.6"),
            and(&field(tag, &[])),
            "2 0 0",
        )
    });
    let alone = (
        "q02-tag-ff-alone",
        "FF 00 00 is whole and has no place, 2; a reader that looks at the end first answers 5.",
        Decisions("1.3"),
        vec![0xFF, 0x00, 0x00],
        "2 0 0",
    );
    rows("question 2", [&tags[..], &[alone]].concat())
}

fn most_records() -> Vec<Case> {
    let decided = Decisions("1.7");
    let and_last = |last: Vec<u8>| [full().bytes(), last].concat();
    let fits = record_field(&record(0, 500, 1, 1, 0, 0));
    let value: Vec<u8> = fits.iter().copied().skip(3).take(9).collect();
    rows(
        "question 3",
        vec![
            (
                "q03-128-records",
                "128 records fill the register and are accepted; a reader with a place too few \
                 answers 3.",
                Says("A register has a place for 128 records."),
                full().bytes(),
                "0 128 0",
            ),
            (
                "q03-129-records",
                "The 129th record is 3; a reader with a place more accepts it.",
                decided,
                and_last(fits.clone()),
                "3 0 0",
            ),
            (
                "q03-129th-out-of-range",
                "The 129th record is 3 whatever its content; a reader that looks at the ranges \
                 first answers 4.",
                decided,
                and_last(field(RECORD, &[0xFF; 10])),
                "3 0 0",
            ),
            (
                "q03-129th-of-9-bytes",
                "A 129th record of another length is 2; a reader that counts first answers 3.",
                decided,
                and_last(field(RECORD, &value)),
                "2 0 0",
            ),
            (
                "q03-129th-after-directive",
                "A 129th record after a directive has no place, 2; a reader that counts first \
                 answers 3.",
                decided,
                [full().with(&[directive_a()]).bytes(), fits].concat(),
                "2 0 0",
            ),
            (
                "q03-128th-out-of-range",
                "The 128th record has a place, so its type 8 is 4; a reader with a place too few \
                 answers 3.",
                decided,
                full().changed(127, |record| record.record_type = 8).bytes(),
                "4 0 0",
            ),
        ],
    )
}

fn ranges_of_head_and_roles() -> Vec<Case> {
    let decided = Decisions("1.8");
    let edition = |edition| {
        Card {
            edition,
            ..sample()
        }
        .bytes()
    };
    let roles = |roles: &[u8]| {
        let roles = roles.to_vec();
        Card { roles, ..sample() }.bytes()
    };
    let chain = |last: u8| {
        let mut card = full();
        card.roles.pop();
        card.roles.push(last);
        card.bytes()
    };
    let widest = Card {
        patient: 65_535,
        clock: u32::MAX,
        ..sample()
    };
    let widest = widest.changed(1, |record| {
        *record = Record {
            author: 65_535,
            origins: 0x8000,
            sensitivities: 0x8000,
            record_type: 7,
            labels: 0xFFFF,
            ..*record
        }
    });
    rows(
        "question 4",
        vec![
            (
                "q04-edition-0",
                "Edition 0 is 4; a reader that takes all but 2 for edition 1 accepts the card.",
                decided,
                edition(0),
                "4 0 0",
            ),
            (
                "q04-edition-1",
                "Edition 1 is accepted; a reader of edition 2 alone answers 4.",
                decided,
                edition(1),
                "0 3 0",
            ),
            (
                "q04-edition-3",
                "Edition 3 is 4; a reader that takes all but 1 for edition 2 accepts the card.",
                decided,
                edition(3),
                "4 0 0",
            ),
            (
                "q04-role-0-under-1",
                "Role 0 has the byte 0, so 1 is 4; a reader that ignores role 0's byte accepts it.",
                decided,
                roles(&[1, 0]),
                "4 0 0",
            ),
            (
                "q04-role-under-itself",
                "A role under itself is 4; a reader that asks for a number not above its own \
                 accepts it, and may climb forever.",
                decided,
                roles(&[0, 1]),
                "4 0 0",
            ),
            (
                "q04-role-under-a-later-one",
                "Role 1 under role 2 is 4 although role 2 is there; a reader that only asks for a \
                 role of the register accepts it.",
                decided,
                roles(&[0, 2, 0]),
                "4 0 0",
            ),
            (
                "q04-role-15-under-15",
                "Role 15 under itself is 4; a reader that leaves out the last role accepts it.",
                decided,
                chain(15),
                "4 0 0",
            ),
            (
                "q04-widest-values",
                "Patient and author 65,535, clock 4,294,967,295, the highest origin and \
                 sensitivity, type 7 and all labels keep the ranges; a narrower reader answers 4.",
                decided,
                widest.bytes(),
                "0 3 0",
            ),
        ],
    )
}

fn ranges_of_records() -> Vec<Case> {
    let changed = |number, change: fn(&mut Record)| sample().changed(number, change).bytes();
    let cards = [
        (
            "q04-root-under-1",
            "Record 0 has the parent 0, so 1 is 4; a reader that ignores the root's parent \
             accepts it.",
            changed(0, |record| record.parent = 1),
            "4 0 0",
        ),
        (
            "q04-record-under-itself",
            "Record 1 under itself is 4; a reader that asks for a number not above its own \
             accepts it.",
            changed(1, |record| record.parent = 1),
            "4 0 0",
        ),
        (
            "q04-record-under-a-later-one",
            "Record 1 under record 2 is 4 although record 2 follows; a reader that asks at the \
             end accepts it.",
            changed(1, |record| record.parent = 2),
            "4 0 0",
        ),
        (
            "q04-record-127-under-127",
            "Record 127 under itself is 4; a reader that leaves out the last record accepts it.",
            full().changed(127, |record| record.parent = 127).bytes(),
            "4 0 0",
        ),
        (
            "q04-no-origins",
            "A record without origins is 4; a reader that lets the set be empty accepts it.",
            changed(1, |record| record.origins = 0),
            "4 0 0",
        ),
        (
            "q04-no-sensitivities",
            "A record without sensitivities is 4; a reader that lets the set be empty accepts it.",
            changed(2, |record| record.sensitivities = 0),
            "4 0 0",
        ),
        (
            "q04-type-8",
            "Type 8 is 4; a reader that allows 0..8 accepts it.",
            changed(0, |record| record.record_type = 8),
            "4 0 0",
        ),
    ];
    let cards = cards.map(|(id, reading, card, line)| (id, reading, Decisions("1.8"), card, line));
    rows("question 4", cards.to_vec())
}

fn end() -> Vec<Case> {
    let decided = Decisions("1.13");
    let least = Card {
        roles: vec![0],
        records: vec![record(0, 500, 1, 1, 0, 0)],
        ..sample()
    };
    let mut cases = rows(
        "question 5",
        vec![
            (
                "q05-empty-card",
                "The empty card is 5; a reader that looks for its first field answers 1.",
                decided,
                Vec::new(),
                "5 0 0",
            ),
            (
                "q05-head-alone",
                "A head alone is 5; a reader that wants the next field answers 1 or 2.",
                decided,
                head(),
                "5 0 0",
            ),
            (
                "q05-head-and-roles",
                "Head and roles without a record are 5; a reader that lets a register be without \
                 records accepts the card.",
                decided,
                [head(), roles()].concat(),
                "5 0 0",
            ),
        ],
    );
    cases.push(Topic("question 5").case(
        "q05-one-record",
        "Document 01's card of one role and one record is accepted as 0 1 0; a reader that wants \
         a directive too answers 5.",
        Says("prints `0 1 0`"),
        on(&least),
    ));
    cases
}
