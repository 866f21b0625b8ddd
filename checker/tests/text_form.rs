//! The text form of cards and replays.

use std::fs;

use checker::bytes::field;
use checker::directive::Fields;
use checker::generate::{inputs, InputKind};
use checker::random::Random;
use checker::replay::{encode, Call, Replay};
use checker::text_form::{
    assemble, disassemble, draft as draft_of_words, unmet, Assembled, Expected, Kind, TextError,
};

use crate::support::*;

fn kind(kind: InputKind) -> Kind {
    match kind {
        InputKind::Card => Kind::Card,
        InputKind::Replay => Kind::Replay,
    }
}

fn assembled(text: &str) -> Assembled {
    assemble(text).unwrap_or_else(|error| panic!("{error} in\n{text}"))
}

fn bytes(text: &str) -> Vec<u8> {
    assembled(text).bytes
}

fn error(text: &str) -> TextError {
    assemble(text).expect_err(text)
}

/// Both round trips; the text.
fn round_trips(kind: Kind, bytes: &[u8]) -> String {
    let text = disassemble(kind, bytes);
    let again = assembled(&text);
    assert_eq!(again.kind, kind);
    assert_eq!(again.bytes, bytes, "{text}");
    assert_eq!(again.expected, []);
    assert_eq!(disassemble(kind, &again.bytes), text);
    text
}

/// How many lines of the text begin with the word.
fn count(text: &str, word: &str) -> usize {
    let first = |line: &&str| line.split(' ').next() == Some(word);
    text.lines().filter(first).count()
}

#[test]
fn generated_inputs_round_trip() {
    let words = [
        "edition",
        "roles",
        "record",
        "directive",
        "field",
        "bytes",
        "length",
        "calls",
        "commit",
        "revoke",
        "advance",
        "issue",
        "decide",
        "brief",
        "write",
        "preview",
        "call",
    ];
    let mut counts = [0; 17];
    for input in inputs(61, 2000, 1500) {
        let text = round_trips(kind(input.kind), &input.bytes);
        for (count_of_word, word) in counts.iter_mut().zip(words) {
            *count_of_word += count(&text, word);
        }
    }
    for (count, word) in counts.iter().zip(words) {
        let wanted = if word == "calls" { 1 } else { 20 };
        assert!(*count >= wanted, "{word}: {count}");
    }
}

/// What is a card is disassembled as a replay too, and the reverse.
#[test]
fn generated_inputs_round_trip_as_the_other_kind() {
    for input in inputs(62, 300, 90) {
        let other = match input.kind {
            InputKind::Card => Kind::Replay,
            InputKind::Replay => Kind::Card,
        };
        round_trips(other, &input.bytes);
    }
}

#[test]
fn short_byte_strings_round_trip() {
    for kind in [Kind::Card, Kind::Replay] {
        round_trips(kind, &[]);
        for one in 0..=255 {
            round_trips(kind, &[one]);
            for two in 0..=255 {
                round_trips(kind, &[one, two]);
            }
        }
    }
}

#[test]
fn random_bytes_round_trip() {
    let mut random = Random::new(63);
    for case in 0..20_000 {
        let length = random.index(80);
        let most = random.pick(&[1, 4, 0x16, 255]);
        let mut bytes: Vec<u8> = (0..length).map(|_| random.up_to(most)).collect();
        if case % 3 == 0 {
            bytes.splice(0..0, encode(&sample().bytes(), &[]));
        }
        round_trips(Kind::Card, &bytes);
        round_trips(Kind::Replay, &bytes);
    }
}

/// Of every tag and every length around the ones that items have.
#[test]
fn fields_of_every_tag_and_length_round_trip() {
    let mut random = Random::new(64);
    let start = encode(&[], &[]);
    for tag in 0..=255 {
        for length in 0..40 {
            let value: Vec<u8> = (0..length).map(|_| random.u8()).collect();
            let field = field(tag, &value);
            round_trips(Kind::Card, &field);
            round_trips(Kind::Replay, &[start.clone(), field].concat());
        }
    }
}

/// The most bytes that do not stand whole, all equal, are more than a run has.
#[test]
fn the_longest_items_round_trip() {
    let text = round_trips(Kind::Card, &[0xFF; 65_537]);
    assert_eq!(text, "card\nbytes FF*65535 FF FF\n");
    let text = round_trips(Kind::Card, &field(0x04, &[0; 65_535]));
    assert_eq!(text, "card\nfield 0x04 bytes 00*65535\n");
    round_trips(Kind::Replay, &[0xFF; 65_536]);
    round_trips(Kind::Replay, &[0xFF; 65_537]);
    round_trips(Kind::Replay, &[0xFF; 140_000]);
    let commit = Call::Commit {
        draft: vec![7; 65_535],
    };
    let text = round_trips(Kind::Replay, &encode(&[], &[commit]));
    assert_eq!(text, "replay\ncommit bytes 07*65535\n");
    let preview = Call::Preview {
        requester: requester_q(),
        draft: vec![7; 65_529],
    };
    let text = round_trips(Kind::Replay, &encode(&[], &[preview]));
    assert!(text.ends_with(" draft bytes 07*65529\n"), "{text}");
}

/// A replay with every call, and its canonical text.
#[test]
fn the_text_of_a_replay() {
    let text = "replay
edition 2 patient 7 clock 1000
roles 0 0 1 0
record 0 parent 0 author 500 origins 0x0001 sensitivities 0x0001 type 0 labels 0x0000
record 1 parent 0 author 501 origins 0x0003 sensitivities 0x0001 type 0 labels 0x0004
record 2 parent 1 author 502 origins 0x0002 sensitivities 0x0003 type 0 labels 0x0800
directive 1 deny role 1 record 0 reach 2 from 1000 until 2000
commit 2 permit person 600 origins 0x0002 record 1 reach 0 po 0x000F ps 0x0001 pt 0x01 \
purposes 0x0001 from 1500 until 4294967295
commit bytes 00 01 02
revoke 2
advance 2000
issue 9 person 600 states 0x01 length 30
decide person 600 role 1 origin 1 record 1 purpose 0
brief 9 person 600
write 4096
preview person 600 role 1 origin 1 purpose 0 draft 2 permit person 600 origins 0x0002 record 1 \
reach 0 po 0x000F ps 0x0001 pt 0x01 purposes 0x0001 from 1500 until 4294967295
preview person 600 role 1 origin 1 purpose 0 draft 1 deny role 1 record 0 reach 2 purposes absent \
from 1000 until 2000
preview person 600 role 1 origin 1 purpose 0 draft bytes 00 01 02
preview person 600 role 1 origin 1 purpose 0 draft bytes
call 0x17 bytes 02 58 00 01 01
";
    let permit = Fields {
        subject_origins: 0x0002,
        po: 0x000F,
        ps: 0x0001,
        pt: 0x01,
        purposes: 0x0001,
        ..over(1500, u32::MAX, draft(PERMIT, (PERSON, 600), 1, 0))
    };
    let commit = |draft: &[u8]| Call::Commit {
        draft: draft.to_vec(),
    };
    let preview = |draft: &[u8]| Call::Preview {
        requester: requester_q(),
        draft: draft.to_vec(),
    };
    let calls = [
        commit(&permit.encode()),
        commit(&[0, 1, 2]),
        Call::Revoke { number: 2 },
        Call::Advance { minute: 2000 },
        Call::Issue {
            number: 9,
            person: 600,
            states: 0x01,
            length: 30,
        },
        Call::Decide(query_q()),
        Call::Brief {
            number: 9,
            person: 600,
        },
        Call::Write { buffer: 4096 },
        preview(&permit.encode()),
        preview(&directive_a().encode_edition_1()),
        preview(&[0, 1, 2]),
        preview(&[]),
    ];
    let mut replay = encode(&sample().with(&[directive_a()]).bytes(), &calls);
    replay.extend(field(0x17, &[0x02, 0x58, 0x00, 0x01, 0x01]));
    assert_eq!(bytes(text), replay);
    assert_eq!(disassemble(Kind::Replay, &replay), text);
}

/// Every value of a draft stands in its place, whatever it is.
#[test]
fn a_draft_out_of_all_ranges() {
    let fields = Fields {
        number: 0x0102,
        effect: 3,
        kind: 4,
        subject: 0x0506,
        subject_origins: 0x0708,
        record: 9,
        reach: 10,
        po: 0x0B0C,
        ps: 0x0D0E,
        pt: 0x0F,
        purposes: 0x1011,
        from: 0x1213_1415,
        until: 0x1617_1819,
    };
    let text = "card\ndirective 258 effect 3 kind 4 subject 1286 origins 0x0708 record 9 reach 10 \
         po 0x0B0C ps 0x0D0E pt 0x0F purposes 0x1011 from 303240213 until 370612249\n";
    let card = field(0x04, &fields.encode());
    assert_eq!(disassemble(Kind::Card, &card), text);
    assert_eq!(bytes(text), card);
    let empty = Fields {
        subject_origins: 0,
        po: 0,
        ps: 0,
        pt: 0,
        purposes: 0,
        ..directive_a()
    };
    let text = "card\ndirective 1 deny role 1 origins 0x0000 record 0 reach 2 \
         po 0x0000 ps 0x0000 pt 0x00 purposes 0x0000 from 1000 until 2000\n";
    let card = field(0x04, &empty.encode());
    assert_eq!(disassemble(Kind::Card, &card), text);
    assert_eq!(bytes(text), card);
}

/// The words of a commit give the draft that the commit has.
#[test]
fn the_words_of_a_draft() {
    for words in [
        "2 deny role 1 record 0 reach 2 from 1000 until 2000",
        "commit 2 deny role 1 record 0 reach 2 from 1000 until 2000",
        "7 effect 3 kind 9 subject 1 origins {} record 255 reach 9 purposes absent from 1 until 0",
        "bytes 00 0102",
        "commit bytes",
    ] {
        let words_of_commit = words.strip_prefix("commit ").unwrap_or(words);
        let replay = bytes(&format!("replay\ncommit {words_of_commit}"));
        let draft = draft_of_words(words).expect("there is a draft");
        assert_eq!(replay, encode(&[], &[Call::Commit { draft }]));
    }
    for (words, message) in [
        ("", "draft takes a number from 0 to 65535"),
        ("2 deny role 1", "draft lacks record"),
        ("x deny", "draft takes a number from 0 to 65535, not x"),
        ("2 deny role 1 recrd 0", "expected deny, permit, effect"),
    ] {
        let error = draft_of_words(words).expect_err("there is no draft");
        assert!(error.message.starts_with(message), "{error}");
    }
}

#[test]
fn values_out_of_range_stay_readable() {
    let texts = [
        "card\nedition 255 patient 65535 clock 4294967295\n",
        "card\nroles 255 7 16\n",
        "card\nrecord 0 parent 255 author 65535 origins 0x0000 sensitivities 0x0000 type 255 labels all\n",
        "replay\nissue 65535 person 65535 states 0x00 length 4294967295\n",
        "replay\nissue 0 person 0 states all length 0\n",
        "replay\ndecide person 65535 role 65535 origin 255 record 255 purpose 255\n",
        "replay\npreview person 65535 role 65535 origin 255 purpose 255 draft bytes\n",
    ];
    for text in texts {
        let found = assembled(text);
        assert_eq!(disassemble(found.kind, &found.bytes), text);
    }
}

#[test]
fn the_text_of_damaged_bytes() {
    let cards: [(&[u8], &str); 6] = [
        (&[], ""),
        (&[0x01], "bytes 01\n"),
        (&[0x05, 0, 0], "field 0x05 bytes\n"),
        (&[0x02, 0, 0], "field 0x02 bytes\n"),
        (
            &[0x01, 0, 6, 2, 0, 7, 0, 0, 3],
            "field 0x01 bytes 02 00 07 00 00 03\n",
        ),
        (
            &[0x02, 0, 2, 0, 0, 0x03, 0, 10, 0, 0],
            "roles 0 0\nbytes 03 00 0A 00 00\n",
        ),
    ];
    for (card, lines) in cards {
        assert_eq!(disassemble(Kind::Card, card), format!("card\n{lines}"));
    }
    let replays: [(&[u8], &str); 8] = [
        (&[], "length absent\n"),
        (&[0x01], "length absent\nbytes 01\n"),
        (&[0, 0], ""),
        (&[0, 5, 0x02, 0, 1, 0], "length 5\nroles 0\n"),
        (&[0, 0, 0x11], "calls\nbytes 11\n"),
        (
            &[0, 4, 0x02, 0, 1, 0, 0x10, 0, 0],
            "roles 0\ncommit bytes\n",
        ),
        (
            &[0, 1, 0x02, 0x11, 0, 1, 5, 0x17, 0, 0],
            "bytes 02\ncall 0x11 bytes 05\ncall 0x17 bytes\n",
        ),
        (
            &[0, 0, 0x12, 0, 4, 0, 0, 0, 1, 0x12, 0],
            "advance 1\nbytes 12 00\n",
        ),
    ];
    for (replay, lines) in replays {
        assert_eq!(
            disassemble(Kind::Replay, replay),
            format!("replay\n{lines}")
        );
    }
}

/// The 23 and the 25 bytes in cards of both editions, and in commits.
#[test]
fn purposes_in_both_editions() {
    let a = directive_a();
    let short = field(0x04, &a.encode_edition_1());
    let full = field(0x04, &a.encode());
    let draft = "1 deny role 1 record 0 reach 2";
    let minutes = "from 1000 until 2000";
    let cases = [
        ("edition 1", "", &short),
        ("edition 1", "purposes all ", &full),
        ("edition 2", "", &full),
        ("edition 2", "purposes absent ", &short),
        ("edition 3", "", &full),
        ("edition 3", "purposes absent ", &short),
    ];
    for (edition, purposes, directive) in cases {
        let text = format!(
            "card\n{edition} patient 7 clock 1000\ndirective {draft} {purposes}{minutes}\n"
        );
        let card = bytes(&text);
        assert_eq!(card[10..], directive[..], "{text}");
        assert_eq!(disassemble(Kind::Card, &card), text);
    }
    // The last head counts, and without one the directive is full.
    let heads = "edition 2 patient 7 clock 0\nedition 1 patient 7 clock 0\n";
    let text = format!("card\n{heads}directive {draft} {minutes}\n");
    assert_eq!(bytes(&text)[20..], short[..]);
    let text = format!("card\ndirective {draft} {minutes}\n");
    assert_eq!(bytes(&text), full);
    // A commit has 25 bytes after any card.
    let text = format!(
        "replay\nedition 1 patient 7 clock 0\ncommit {draft} {minutes}\ncommit {draft} purposes absent {minutes}\n"
    );
    let replay = bytes(&text);
    let [commit, short_commit] =
        [&a.encode()[..], &a.encode_edition_1()].map(|draft| field(0x10, draft));
    assert_eq!(replay[12..], [commit, short_commit].concat());
    assert_eq!(disassemble(Kind::Replay, &replay), text);
}

#[test]
fn an_accepted_card_of_each_edition() {
    for edition in [1, 2] {
        let mut card = sample().with(&[directive_a()]);
        card.edition = edition;
        let text = disassemble(Kind::Card, &card.bytes());
        assert_eq!(count(&text, "directive"), 1);
        assert!(!text.contains("purposes"));
        assert_eq!(checker::card::read(&bytes(&text)), card.read());
        assert!(card.read().is_ok());
    }
}

/// What people may write in several ways.
#[test]
fn ways_to_write_the_same() {
    let canonical = "replay
edition 2 patient 7 clock 1000
roles 0 0
record 0 parent 0 author 500 origins 0x0009 sensitivities all type 0 labels 0x0000
directive 1 deny role 1 record 0 reach 2 pt 0x81 purposes 0x0401 from 1000 until 2000
commit bytes 0A 0B 00*8
";
    let others = [
        "\u{FEFF}# A comment.\n\n  replay # and another\r\nedition 0x2 patient 0x7 clock 0x3e8\r\n\troles 0 0x0\n\
         record author 500 parent 0 labels {} type 0 sensitivities 65535 origins {3, 0}\n\
         directive 0001 until 2000 from 1000 pt {0,7} purposes { 10 ,0 } reach 2 record 0 role 1 deny\n\
         commit bytes 0a0b 00 00*7",
        "replay\nedition 2 clock 1000 patient 7\nfield 2 bytes 0000\n\
         record parent 0 author 500 origins 0x09 sensitivities all type 0 labels 0\n\
         directive 1 effect 0 kind 1 subject 1 origins all record 0 reach 2 po all ps all \
         pt 129 purposes 1025 from 1000 until 2000\n\
         calls\ncall 0x10 bytes 0A 0B 00 00 00 00 00 00 00 00\n",
    ];
    let expected = bytes(canonical);
    assert_eq!(disassemble(Kind::Replay, &expected), canonical);
    for other in others {
        assert_eq!(bytes(other), expected, "{other}");
    }
}

#[test]
fn the_length_of_a_replays_card() {
    assert_eq!(bytes("replay"), [0, 0]);
    assert_eq!(bytes("replay\nroles 0"), [0, 4, 2, 0, 1, 0]);
    assert_eq!(bytes("replay\nlength 2\nroles 0"), [0, 2, 2, 0, 1, 0]);
    assert_eq!(bytes("replay\nlength 4\nroles 0"), [0, 4, 2, 0, 1, 0]);
    assert_eq!(bytes("replay\nlength absent\nroles 0"), [2, 0, 1, 0]);
    assert_eq!(
        bytes("replay\nbytes 01\nrevoke 2"),
        [0, 1, 1, 0x11, 0, 2, 0, 2]
    );
    assert_eq!(bytes("replay\nbytes 01\ncalls\nbytes 02"), [0, 1, 1, 2]);
}

#[test]
fn errors_name_the_word_and_what_was_expected() {
    let draft = "directive 1 deny role 1 record 0";
    let cases = [
        ("", 1, 1, "a text begins with card or replay"),
        ("# nothing\n\n", 1, 1, "a text begins with card or replay"),
        ("\n roles 0", 2, 2, "expected card or replay, not roles"),
        ("card 2", 1, 6, "expected the end of the line, not 2"),
        (
            "card\ncommit bytes",
            2,
            1,
            "expected edition, roles, record, directive, field, bytes or expect, not commit",
        ),
        (
            "replay\nreplay",
            2,
            1,
            "expected edition, roles, record, directive, field, bytes, commit, revoke, advance, \
             issue, decide, brief, write, preview, call or expect, not replay",
        ),
        (
            "replay\nrevoke 1\nroles 0",
            3,
            1,
            "expected commit, revoke, advance, issue, decide, brief, write, preview, call, bytes or expect, \
             not roles",
        ),
        (
            "card\nedition 256 patient 7 clock 0",
            2,
            9,
            "edition takes a number from 0 to 255, not 256",
        ),
        (
            "card\nedition",
            2,
            1,
            "edition takes a number from 0 to 255",
        ),
        (
            "card\nedition 2 patient 65536 clock 0",
            2,
            19,
            "patient takes a number from 0 to 65535, not 65536",
        ),
        (
            "card\nedition 2 patient 7 clock 4294967296",
            2,
            27,
            "clock takes a number from 0 to 4294967295, not 4294967296",
        ),
        ("card\nedition 2 clock 0", 2, 1, "edition lacks patient"),
        (
            "card\nedition 2 patient 7 clock",
            2,
            21,
            "clock takes a number from 0 to 4294967295",
        ),
        (
            "card\nroles 0 -1",
            2,
            9,
            "roles takes a number from 0 to 255, not -1",
        ),
        (
            "card\nroles 0 +1",
            2,
            9,
            "roles takes a number from 0 to 255, not +1",
        ),
        (
            "card\nroles 0 0x",
            2,
            9,
            "roles takes a number from 0 to 255, not 0x",
        ),
        (
            "card\nroles 99999999999999999999",
            2,
            7,
            "roles takes a number from 0 to 255, not 99999999999999999999",
        ),
        ("card\nrecord 1 parent 0", 2, 8, "this is record 0, not 1"),
        (
            "card\nrecord autor 1",
            2,
            8,
            "expected parent, author, origins, sensitivities, type or labels, not autor",
        ),
        (
            "card\nrecord parent 0 author 1 parent 0",
            2,
            26,
            "parent stands on the line twice",
        ),
        (
            "card\nrecord parent author 1 origins 1 sensitivities 1 type 0 labels 0",
            2,
            15,
            "parent takes a number from 0 to 255, not author",
        ),
        (
            "card\nrecord parent 0 author 1 origins {0,16} sensitivities 1 type 0 labels 0",
            2,
            37,
            "origins has members from 0 to 15, not 16",
        ),
        (
            "card\nrecord parent 0 author 1 origins {2, 1, 2} sensitivities 1 type 0 labels 0",
            2,
            41,
            "2 stands in the list twice",
        ),
        (
            "card\nrecord parent 0 author 1 origins {2,} sensitivities 1 type 0 labels 0",
            2,
            37,
            "origins has members from 0 to 15, not nothing",
        ),
        (
            "card\nrecord parent 0 author 1 sensitivities 1 type 0 labels 0 origins {2, 1",
            2,
            66,
            "the list has no }",
        ),
        (
            "card\nrecord parent 0 author 1 origins some sensitivities 1 type 0 labels 0",
            2,
            34,
            "origins takes all, a list such as {0,3} or a number from 0 to 65535, not some",
        ),
        (
            &format!("card\n{draft} reach 300 from 1 until 2"),
            2,
            40,
            "reach takes a number from 0 to 255, not 300",
        ),
        (
            &format!("card\n{draft} reach 2 from 1"),
            2,
            1,
            "directive lacks until",
        ),
        (
            &format!("card\n{draft} pt {{8}} reach 2 from 1 until 2"),
            2,
            38,
            "pt has members from 0 to 7, not 8",
        ),
        (
            &format!("card\n{draft} po absent reach 2 from 1 until 2"),
            2,
            37,
            "po takes all, a list such as {0,3} or a number from 0 to 65535, not absent",
        ),
        (
            &format!("card\n{draft} permit"),
            2,
            34,
            "permit stands beside deny",
        ),
        (
            &format!("card\n{draft} person 1"),
            2,
            34,
            "person stands beside role",
        ),
        (
            &format!("card\n{draft} subject 1"),
            2,
            34,
            "subject stands only beside kind",
        ),
        (
            "card\ndirective 1 deny kind 2 record 0 reach 2 from 1 until 2",
            2,
            1,
            "directive lacks subject",
        ),
        (
            "card\ndirective 1 role 1 record 0 reach 2 from 1 until 2",
            2,
            1,
            "directive lacks deny, permit or effect",
        ),
        (
            "replay\ncommit deny role 1",
            2,
            8,
            "commit takes a number from 0 to 65535, not deny",
        ),
        (
            "replay\ncommit 1 deny role record 0 reach 2 from 1 until 2",
            2,
            20,
            "role takes a number from 0 to 65535, not record",
        ),
        (
            "replay\ncommit 1 deny",
            2,
            1,
            "commit lacks person, role or kind",
        ),
        (
            "replay\ncommit 1 deny everyone",
            2,
            15,
            "expected deny, permit, effect, person, role, kind, subject, origins, record, reach, \
             po, ps, pt, purposes, from or until, not everyone",
        ),
        (
            "replay\nrevoke 1 2",
            2,
            10,
            "expected the end of the line, not 2",
        ),
        (
            "replay\nrevoke",
            2,
            1,
            "revoke takes a number from 0 to 65535",
        ),
        (
            "replay\ndecide 1 person 2",
            2,
            8,
            "expected person, role, origin, record or purpose, not 1",
        ),
        (
            "replay\nissue 1 person 1 length 1 states 256",
            2,
            34,
            "states takes all, a list such as {0,3} or a number from 0 to 255, not 256",
        ),
        (
            "card\nbytes 0 1",
            2,
            7,
            "expected bytes as 03 0A or 00*12, not 0",
        ),
        (
            "card\nbytes 00 0G",
            2,
            10,
            "expected bytes as 03 0A or 00*12, not 0G",
        ),
        (
            "card\nbytes 0000*2",
            2,
            7,
            "expected bytes as 03 0A or 00*12, not 0000*2",
        ),
        (
            "card\nbytes 00*65536",
            2,
            7,
            "expected bytes as 03 0A or 00*12, not 00*65536",
        ),
        ("card\nfield", 2, 1, "field takes a number from 0 to 255"),
        ("card\nfield 3", 2, 7, "expected bytes after the tag"),
        ("card\nfield 3 00", 2, 9, "expected bytes, not 00"),
        (
            "card\nfield 3 bytes 00*65535 01",
            2,
            9,
            "a value has at most 65535 bytes, not 65536",
        ),
        (
            "replay\ncommit bytes 00*65535 01",
            2,
            8,
            "a value has at most 65535 bytes, not 65536",
        ),
        (
            "replay\npreview person 1 role 2 origin 3 purpose 4 draft bytes 00*65530",
            2,
            44,
            "a value has at most 65535 bytes, not 65536",
        ),
        (
            "replay\npreview person 1 role 2 origin 3 draft bytes",
            2,
            1,
            "preview lacks purpose",
        ),
        (
            "replay\npreview person 1 role 2 origin 3 purpose 4",
            2,
            1,
            "preview lacks draft",
        ),
        (
            "replay\npreview person 1 role 2 origin 3 purpose 4 draft 1 deny role 1",
            2,
            44,
            "draft lacks record",
        ),
        (
            "replay\npreview person 1 role 2 origin 3 purpose 4 record 1 draft bytes",
            2,
            44,
            "expected person, role, origin or purpose, not record",
        ),
        (
            "replay\nbytes 00*65535\nbytes 00",
            3,
            1,
            "the card of a replay has at most 65535 bytes",
        ),
        (
            "replay\nroles 0\nlength 4",
            3,
            1,
            "length stands once, before the card",
        ),
        (
            "replay\nlength 4\nlength 4",
            3,
            1,
            "length stands once, before the card",
        ),
        (
            "replay\ncalls\nlength 4",
            3,
            1,
            "length stands once, before the card",
        ),
        (
            "replay\nlength four",
            2,
            8,
            "length takes a number from 0 to 65535, not four",
        ),
        (
            "card\nlength 4",
            2,
            1,
            "expected edition, roles, record, directive, field, bytes or expect, not length",
        ),
        (
            "replay\ncalls\ncalls",
            3,
            1,
            "calls stands once, before the calls",
        ),
        ("card\nexpect", 2, 1, "expect takes a line"),
        (
            "card\nexpect 0 1 0\nexpect 0 1 0",
            3,
            1,
            "the line is expected already",
        ),
        // Columns count characters, and control characters are not printed.
        (
            "card\nröles\u{1B}[1m 0",
            2,
            1,
            "expected edition, roles, record, directive, field, bytes or expect, \
             not röles\\u{1b}[1m",
        ),
        (
            "card\n\u{A0}roles ä ö",
            2,
            8,
            "roles takes a number from 0 to 255, not ä",
        ),
    ];
    for (text, line, column, message) in cases {
        let found = error(text);
        assert_eq!(
            (found.line, found.column, found.message.as_str()),
            (line, column, message),
            "{text}"
        );
    }
    let found = error("card\n\nroles 0 0 256");
    assert_eq!(
        found.to_string(),
        "line 3, column 11: roles takes a number from 0 to 255, not 256"
    );
}

#[test]
fn roles_that_are_too_many_for_a_field() {
    let text = format!("card\nroles{}", " 0".repeat(65_535));
    assert_eq!(bytes(&text), field(0x02, &[0; 65_535]));
    let found = error(&format!("{text} 0"));
    let message = "a value has at most 65535 bytes, not 65536";
    assert_eq!((found.line, found.column), (2, 1));
    assert_eq!(found.message, message);
}

/// Texts with a damaged word give bytes whose text is a fixed point, or an
/// error at a place in the text.
#[test]
fn damaged_texts_end_with_bytes_or_an_error() {
    let mut random = Random::new(65);
    let words = [
        "card",
        "replay",
        "length",
        "absent",
        "calls",
        "bytes",
        "record",
        "deny",
        "kind",
        "all",
        "{}",
        "{0,3}",
        "{",
        "9",
        "0x1F",
        "99999999999",
        "0A*3",
        "#",
        "\n",
        "expect",
        "ä",
    ];
    let mut ends = [0; 2];
    for input in inputs(66, 600, 600).filter(|input| input.bytes.len() < 500) {
        let text = disassemble(kind(input.kind), &input.bytes);
        let mut parts: Vec<&str> = text.split_inclusive([' ', '\n']).collect();
        let place = random.index(parts.len());
        match random.range(0, 3) {
            0 => drop(parts.remove(place)),
            1 => parts.insert(place, " "),
            2 => parts.insert(place, parts[random.index(parts.len())]),
            _ => parts.insert(place, words[random.index(words.len())]),
        }
        let damaged = parts.concat();
        match assemble(&damaged) {
            Ok(found) => {
                round_trips(found.kind, &found.bytes);
                ends[0] += 1;
            }
            Err(error) => {
                let line = damaged.lines().nth(error.line - 1).unwrap_or_default();
                let length = line.chars().count().max(1);
                assert!((1..=length).contains(&error.column), "{error} in {damaged}");
                ends[1] += 1;
            }
        }
    }
    assert!(ends.iter().all(|count| *count > 100), "{ends:?}");
}

#[test]
fn expected_lines() {
    let text = "replay
roles 0
expect 5 0 0   # The card has no head.
revoke 2
advance 10
expect  0  0 0
bytes 11
expect malformed
";
    let found = assembled(text);
    let expected = |line, answer, text: &str| Expected {
        line,
        answer,
        text: text.to_string(),
    };
    assert_eq!(
        found.expected,
        [
            expected(3, 0, "5 0 0"),
            expected(6, 2, "0 0 0"),
            expected(8, 3, "malformed")
        ]
    );
    let without: Vec<&str> = text
        .lines()
        .filter(|line| !line.starts_with("expect"))
        .collect();
    assert_eq!(bytes(&without.join("\n")), found.bytes);
    assert_eq!(
        unmet(&found.expected, &["5 0 0", "15", "0 0 0", "malformed"]),
        []
    );
    let unmet = unmet(&found.expected, &["0 1 0", "15", "0 0 0"]);
    let lines: Vec<String> = unmet.iter().map(ToString::to_string).collect();
    assert_eq!(
        lines,
        [
            "line 3: expected 5 0 0, printed 0 1 0",
            "line 8: expected malformed, printed nothing"
        ]
    );
}

fn document() -> String {
    let path = concat!(env!("CARGO_MANIFEST_DIR"), "/TEXT_FORM.md");
    fs::read_to_string(path).expect("the document is there")
}

/// The lines between the fences of a document.
fn blocks(document: &str) -> Vec<String> {
    let parts = document.split("```").skip(1).step_by(2);
    parts.map(str::to_string).collect()
}

#[test]
fn the_document_has_the_grammar_of_the_module() {
    let path = concat!(env!("CARGO_MANIFEST_DIR"), "/src/text_form/mod.rs");
    let module = fs::read_to_string(path).expect("the module is there");
    let comment = module.lines().filter_map(|line| line.strip_prefix("//!"));
    let comment = comment.map(|line| line.strip_prefix(' ').unwrap_or(line));
    let comment: Vec<&str> = comment.collect();
    let grammar = blocks(&comment.join("\n")).swap_remove(0);
    assert!(grammar.lines().count() > 30);
    assert_eq!(blocks(&document())[0], grammar);
}

#[test]
fn the_example_of_the_document_is_answered_as_it_expects() {
    let blocks = blocks(&document());
    let example = blocks[1].strip_prefix("text\n").expect("a text");
    let found = assembled(example);
    let lines: Vec<String> = Replay::new(&found.bytes)
        .map(|answer| answer.to_string())
        .collect();
    assert_eq!(unmet(&found.expected, &lines), []);
    assert_eq!(found.expected.len(), lines.len());
    // Two of its lines in their canonical form.
    let canonical = disassemble(found.kind, &found.bytes);
    let directive = "\ndirective 1 deny role 1 record 0 reach 2 from 1000 until 2000\n";
    let record =
        "record 1 parent 0 author 501 origins 0x0003 sensitivities 0x0001 type 0 labels 0x0004";
    assert!(example.contains(directive) && canonical.contains(directive));
    assert!(document().contains(&format!("`{record}`")));
    assert!(canonical.contains(&format!("\n{record}\n")));
}

#[test]
fn the_errors_of_the_document_are_the_ones_given() {
    let document = document();
    let rows = document.lines().filter(|line| line.starts_with("| `"));
    let mut count = 0;
    for row in rows {
        let cells: Vec<&str> = row.split('`').collect();
        let found = error(&format!("replay\n{}", cells[1]));
        assert_eq!(found.to_string(), cells[3]);
        count += 1;
    }
    assert_eq!(count, 8);
}
