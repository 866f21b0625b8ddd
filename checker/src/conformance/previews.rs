//! Previews: what a draft would change for one requester.

use crate::directive::Fields;
use crate::replay::{Call, PREVIEW};
use crate::request::Requester;

use super::drafts::denies;
use super::sample::*;
use super::scenario::{on, on_empty, on_sample};
use super::Source::{self, Decisions, Says};
use super::{Case, Topic};

const TOPIC: Topic = Topic("previews");

// The sentences of document 02's request #101.

const GIVES: Source = Says(
    "For a draft and one requester (person, role, origin, purpose) the gateway gives the records \
     whose decision at the clock would change, as two 64-bit words and a count, laid out like a \
     brief.",
);
const CHANGE: Source =
    Says("A change is a permit that becomes a deny or the reverse; a new basis alone is none.");
const EQUALS: Source = Says(
    "This equals committing on a copy of the ledger and deciding every record before and after.",
);
const REFUSED: Source = Says(
    "A draft that would be refused gives that refusal; otherwise the requester is put to question \
     17, its record part left out.",
);
const EQUAL: Source = Says("The ledger handed in comes back equal.");

pub fn cases() -> Vec<Case> {
    [
        changes(),
        requesters(),
        at_the_clock(),
        refused_drafts(),
        refused_requesters(),
        the_ledger_stays(),
        full_register(),
        the_empty_ledger(),
        lengths(),
    ]
    .concat()
}

/// Q for purpose 1, for which the default consent denies everything.
fn for_purpose_1() -> Requester {
    Requester {
        purpose: 1,
        ..requester_q()
    }
}

/// Q from origin 0, which record 2 does not have.
fn from_origin_0() -> Requester {
    Requester {
        origin: 0,
        ..requester_q()
    }
}

/// The default consent permits Q records 1 and 2 and denies record 0.
fn changes() -> Vec<Case> {
    let a = directive_a();
    let q = requester_q();
    let permit_all = draft(PERMIT, (ROLE, 1), 0, 2);
    vec![
        TOPIC.case(
            "preview-permit-to-deny",
            "A deny of records 1 and 2 changes both for Q, bits 1 and 2; an implementation that \
             shows what is permitted after it gives 0 0 0 0, and one that shows what is denied \
             0 7 0 3.",
            GIVES,
            on_sample().preview(q, a, "0 6 0 2"),
        ),
        TOPIC.case(
            "preview-deny-to-permit",
            "A permit of record 1 changes it for purpose 1, which the default denies; an \
             implementation that shows what becomes a deny gives 0 0 0 0.",
            CHANGE,
            on_sample().preview(
                for_purpose_1(),
                draft(PERMIT, (PERSON, 600), 1, 0),
                "0 2 0 1",
            ),
        ),
        TOPIC.case(
            "preview-new-basis-of-a-permit",
            "A permit of what the default permits is no change; an implementation that compares \
             the bases gives 0 6 0 2.",
            CHANGE,
            on_sample().preview(q, permit_all, "0 0 0 0"),
        ),
        TOPIC.case(
            "preview-new-basis-of-a-deny",
            "A deny of what the default denies is no change; an implementation that compares the \
             bases gives 0 6 0 2.",
            CHANGE,
            on_sample().preview(for_purpose_1(), a, "0 0 0 0"),
        ),
        TOPIC.case(
            "preview-new-lowest-number",
            "A second deny with a lower number is no change, as basis 3 with another number is \
             not; an implementation that compares whole decisions gives 0 6 0 2.",
            Decisions("9.2"),
            on_sample().commit(numbered(5, a), "0").preview(
                q,
                numbered(3, draft(DENY, (ROLE, 0), 0, 2)),
                "0 0 0 0",
            ),
        ),
        TOPIC.case(
            "preview-not-what-the-draft-selects",
            "A deny selects records 1 and 2, and from origin 0 only record 1 was permitted; an \
             implementation that shows the selected records gives 0 6 0 2.",
            Decisions("9.4"),
            on_sample().preview(from_origin_0(), a, "0 2 0 1"),
        ),
        TOPIC.case(
            "preview-one-direction",
            "A draft has one effect, so its changes go one way: of records 1 and 2 a deny changes \
             the permitted one and a permit the denied one; an implementation that shows both \
             gives 0 6 0 2 twice.",
            CHANGE,
            on_sample().preview(from_origin_0(), a, "0 2 0 1").preview(
                from_origin_0(),
                permit_all,
                "0 4 0 1",
            ),
        ),
        TOPIC.case(
            "preview-filtered",
            "A deny with ps 0x0001 selects record 1 and not record 2, which has sensitivity 1 \
             too; an implementation that goes by the reach gives 0 6 0 2.",
            EQUALS,
            on_sample().preview(q, Fields { ps: 0x0001, ..a }, "0 2 0 1"),
        ),
        TOPIC.case(
            "preview-beside-active-directives",
            "What active directives decide stays, and what the default decides changes; an \
             implementation that decides by the draft alone gives 0 6 0 2.",
            EQUALS,
            on_sample()
                .commit(numbered(1, draft(DENY, (PERSON, 600), 2, 0)), "0")
                .preview(q, draft(DENY, (ROLE, 1), 0, 2), "0 2 0 1"),
        ),
    ]
}

/// The requester is decided for as in decide.
fn requesters() -> Vec<Case> {
    let a = directive_a();
    let q = requester_q();
    let in_role = |role| Requester { role, ..q };
    let by = |person| Requester { person, ..q };
    vec![
        TOPIC.case(
            "preview-for-the-patient",
            "A deny of role 1 changes nothing for the patient in role 1; an implementation that \
             looks at directives alone gives 0 6 0 2.",
            EQUALS,
            on_sample().preview(by(7), a, "0 0 0 0"),
        ),
        TOPIC.case(
            "preview-for-an-author",
            "A deny of role 1 changes nothing for the author of record 1 there, and record 2 for \
             the same person; an implementation without basis 2 gives 0 6 0 2.",
            EQUALS,
            on_sample().preview(by(501), a, "0 4 0 1"),
        ),
        TOPIC.case(
            "preview-for-a-covered-role",
            "A deny of role 1 covers role 2 under it and not role 3; an implementation that \
             compares roles gives 0 0 0 0 for role 2.",
            EQUALS,
            on_sample()
                .preview(in_role(2), a, "0 6 0 2")
                .preview(in_role(3), a, "0 0 0 0")
                .preview(in_role(0), a, "0 0 0 0"),
        ),
        TOPIC.case(
            "preview-for-another-person",
            "A deny of person 600 changes nothing for person 601; an implementation that shows \
             the draft for its own subject gives 0 6 0 2 twice.",
            GIVES,
            on_sample()
                .preview(q, draft(DENY, (PERSON, 600), 0, 2), "0 6 0 2")
                .preview(by(601), draft(DENY, (PERSON, 600), 0, 2), "0 0 0 0"),
        ),
        TOPIC.case(
            "preview-for-another-origin",
            "A deny for origin 0 alone changes nothing from origin 1; an implementation that \
             leaves out the requester's origin gives 0 6 0 2.",
            GIVES,
            on_sample()
                .preview(
                    q,
                    Fields {
                        subject_origins: 0x0001,
                        ..a
                    },
                    "0 0 0 0",
                )
                .preview(
                    q,
                    Fields {
                        subject_origins: 0x0002,
                        ..a
                    },
                    "0 6 0 2",
                ),
        ),
        TOPIC.case(
            "preview-for-another-purpose",
            "A deny for purpose 1 alone changes nothing for treatment; an implementation that \
             leaves out the requester's purpose gives 0 6 0 2.",
            GIVES,
            on_sample()
                .preview(
                    q,
                    Fields {
                        purposes: 0x0002,
                        ..a
                    },
                    "0 0 0 0",
                )
                .preview(
                    q,
                    Fields {
                        purposes: 0x0001,
                        ..a
                    },
                    "0 6 0 2",
                ),
        ),
    ]
}

fn at_the_clock() -> Vec<Case> {
    let a = directive_a();
    let q = requester_q();
    vec![
        TOPIC.case(
            "preview-of-a-draft-that-begins-later",
            "A deny from minute 1001 on changes nothing at 1000, and everything it selects at \
             1001; an implementation that shows what it will change gives 0 6 0 2 both times.",
            Decisions("9.2"),
            on_sample()
                .preview(q, over(1001, 2000, a), "0 0 0 0")
                .advance(1001, "0 0 0")
                .preview(q, over(1001, 2000, a), "0 6 0 2"),
        ),
        TOPIC.case(
            "preview-of-a-draft-that-ends-next",
            "A deny until 1001 matches at 1000, its last minute; an implementation that asks for \
             a minute after the clock gives 0 0 0 0.",
            GIVES,
            on_sample().preview(q, over(0, 1001, a), "0 6 0 2"),
        ),
        TOPIC.case(
            "preview-after-an-advance",
            "The active deny ends at 2000 and is dropped, so that the same deny from then on \
             changes both records again; an implementation that keeps what decide gave before \
             the advance gives 0 0 0 0.",
            EQUALS,
            on_sample()
                .commit(a, "0")
                .preview(q, numbered(2, over(2000, 3000, a)), "0 0 0 0")
                .advance(2000, "0 1 0")
                .preview(q, numbered(2, over(2000, 3000, a)), "0 6 0 2"),
        ),
        TOPIC.case(
            "preview-after-a-revoke",
            "A deny that is revoked no longer decides, and the same draft changes what it \
             changed before; an implementation where revoked ones still decide gives 0 0 0 0.",
            EQUALS,
            on_sample()
                .commit(a, "0")
                .preview(q, a, "10")
                .revoke(1, "0")
                .preview(q, a, "0 6 0 2"),
        ),
    ]
}

/// Each question 6 to 14, put to the draft as commit does.
fn refused_drafts() -> Vec<Case> {
    let a = directive_a();
    let q = requester_q();
    let patient = Requester { person: 7, ..q };
    let short: Vec<u8> = a.encode().into_iter().take(24).collect();
    vec![
        TOPIC.case(
            "preview-6",
            "Drafts of 24, 26 and 0 bytes are 6; an implementation that pads or cuts them shows \
             their changes.",
            REFUSED,
            on_sample()
                .preview_bytes(q, &short, "6")
                .preview_bytes(q, &[&a.encode()[..], &[0]].concat(), "6")
                .preview_bytes(q, &[], "6"),
        ),
        TOPIC.case(
            "preview-7",
            "A draft with effect 2 is 7; an implementation that takes it for a permit gives \
             0 0 0 0.",
            REFUSED,
            on_sample().preview(q, Fields { effect: 2, ..a }, "7"),
        ),
        TOPIC.case(
            "preview-8",
            "A draft of record 3 or of role 4, which the register lacks, is 8; an implementation \
             that finds no record changed gives 0 0 0 0.",
            REFUSED,
            on_sample()
                .preview(q, draft(DENY, (ROLE, 1), 3, 0), "8")
                .preview(q, draft(DENY, (ROLE, 4), 1, 0), "8"),
        ),
        TOPIC.case(
            "preview-9",
            "A draft until the clock is 9; an implementation that finds nothing matched at the \
             clock gives 0 0 0 0.",
            REFUSED,
            on_sample()
                .preview(q, over(0, 1000, a), "9")
                .preview(q, over(1500, 1500, a), "9"),
        ),
        TOPIC.case(
            "preview-10",
            "A draft whose number is active is 10; an implementation that does not commit it \
             gives 0 0 0 0.",
            REFUSED,
            on_sample().commit(a, "0").preview(q, a, "10"),
        ),
        TOPIC.case(
            "preview-11",
            "With 32 active a draft is 11; an implementation that needs no place for a preview \
             gives 0 6 0 2.",
            REFUSED,
            on(&sample().with(&denies(32))).preview(q, numbered(99, a), "11"),
        ),
        TOPIC.case(
            "preview-12",
            "A deny of the patient, and of an author on their own record, are 12, whoever asks; \
             an implementation that decides for the requester alone gives 0 0 0 0.",
            REFUSED,
            on_sample()
                .preview(q, draft(DENY, (PERSON, 7), 0, 0), "12")
                .preview(patient, draft(DENY, (PERSON, 502), 1, 1), "12"),
        ),
        TOPIC.case(
            "preview-13",
            "A permit that conflicts with directives 9 and 1 is 13 with the lowest number, \
             although the conflict is in a later minute; an implementation that looks at the \
             clock, or gives the number of the question alone, answers otherwise.",
            REFUSED,
            on_sample()
                .commit(numbered(9, over(1000, 1600, a)), "0")
                .commit(a, "0")
                .preview(
                    q,
                    over(1500, 2500, draft(PERMIT, (PERSON, 600), 1, 0)),
                    "13 1",
                )
                .preview(
                    patient,
                    over(1500, 2500, draft(PERMIT, (PERSON, 600), 1, 0)),
                    "13 1",
                ),
        ),
        TOPIC.case(
            "preview-14",
            "A deny that an active one includes, and a permit that selects no record, are 14; an \
             implementation that puts 6 to 13 alone gives 0 0 0 0.",
            REFUSED,
            on_sample()
                .commit(a, "0")
                .preview(q, draft(DENY, (ROLE, 2), 1, 1), "14")
                .preview(q, draft(PERMIT, (ROLE, 3), 2, 1), "14"),
        ),
        TOPIC.case(
            "preview-14-by-several-together",
            "Two directives cover the draft together, one after the other: 14; an implementation \
             that judges by single directives gives 0 0 0 0.",
            REFUSED,
            on_sample()
                .commit(over(1000, 1500, a), "0")
                .commit(numbered(2, over(1500, 2000, a)), "0")
                .preview(q, numbered(3, over(1200, 1800, a)), "14"),
        ),
    ]
}

/// Question 17 after the draft's, without a record.
fn refused_requesters() -> Vec<Case> {
    let a = directive_a();
    let q = requester_q();
    let outside = Requester {
        role: 4,
        origin: 16,
        purpose: 11,
        ..q
    };
    vec![
        TOPIC.case(
            "preview-17-role",
            "Roles 4 and 257, which the register lacks, are 17 and role 3 is not; an \
             implementation that reads the low byte alone gives 0 6 0 2 for 257.",
            REFUSED,
            on_sample()
                .preview(Requester { role: 4, ..q }, a, "17")
                .preview(Requester { role: 257, ..q }, a, "17")
                .preview(Requester { role: 3, ..q }, a, "0 0 0 0"),
        ),
        TOPIC.case(
            "preview-17-origin",
            "Origin 16 is 17 and origin 15 is not; an implementation that finds no change for it \
             gives 0 0 0 0.",
            REFUSED,
            on_sample()
                .preview(Requester { origin: 16, ..q }, a, "17")
                .preview(Requester { origin: 255, ..q }, a, "17")
                .preview(Requester { origin: 15, ..q }, a, "0 0 0 0"),
        ),
        TOPIC.case(
            "preview-17-purpose",
            "Purpose 11 is 17 and purpose 10 is not; an implementation that finds no change for \
             it gives 0 0 0 0.",
            REFUSED,
            on_sample()
                .preview(Requester { purpose: 11, ..q }, a, "17")
                .preview(Requester { purpose: 255, ..q }, a, "17")
                .preview(Requester { purpose: 10, ..q }, a, "0 0 0 0"),
        ),
        TOPIC.case(
            "preview-17-patient",
            "The patient in role 4 is 17 as anybody; an implementation that lets the patient \
             pass gives 0 0 0 0.",
            Decisions("4.1 9.1"),
            on_sample().preview(
                Requester {
                    person: 7,
                    role: 4,
                    ..q
                },
                a,
                "17",
            ),
        ),
        TOPIC.case(
            "preview-17-draft-that-begins-later",
            "A draft that changes nothing yet is accepted, and then the requester is put to 17; \
             an implementation that skips them gives 0 0 0 0.",
            Decisions("9.1"),
            on_sample().preview(outside, over(1500, 2000, a), "17"),
        ),
        TOPIC.case(
            "preview-14-before-17",
            "A redundant draft is 14 for a requester out of every range; an implementation that \
             puts 17 first, or 14 last, answers 17.",
            Decisions("9.1"),
            on_sample()
                .commit(a, "0")
                .preview(outside, draft(DENY, (ROLE, 2), 1, 1), "14"),
        ),
        TOPIC.case(
            "preview-13-before-17",
            "A conflict is 13 with its number for a requester out of every range; an \
             implementation that puts 17 first answers 17.",
            REFUSED,
            on_sample()
                .commit(a, "0")
                .preview(outside, draft(PERMIT, (PERSON, 600), 1, 0), "13 1"),
        ),
        TOPIC.case(
            "preview-6-before-17",
            "No draft is 6 for a requester out of every range; an implementation that looks at \
             the requester as it comes answers 17.",
            REFUSED,
            on_sample().preview_bytes(outside, &[], "6"),
        ),
    ]
}

/// Before, after and in between.
fn the_ledger_stays() -> Vec<Case> {
    let a = directive_a();
    let q = requester_q();
    let full_but_one = sample().with(&denies(31));
    vec![
        TOPIC.case(
            "preview-writes-nothing",
            "The card written after a preview is the one written before; an implementation that \
             keeps the draft writes a directive.",
            EQUAL,
            on_sample()
                .written(&sample())
                .preview(q, a, "0 6 0 2")
                .written(&sample()),
        ),
        TOPIC.case(
            "preview-leaves-its-number-free",
            "After a preview of directive 1 a revoke of it is 15 and its commit is accepted; an \
             implementation that keeps the draft answers 0 to the revoke.",
            EQUAL,
            on_sample()
                .preview(q, a, "0 6 0 2")
                .revoke(1, "15")
                .commit(a, "0")
                .revoke(1, "0"),
        ),
        TOPIC.case(
            "preview-twice",
            "The same preview twice gives the same; an implementation that keeps the draft \
             answers 10 the second time.",
            EQUAL,
            on_sample()
                .preview(q, a, "0 6 0 2")
                .preview(q, a, "0 6 0 2"),
        ),
        TOPIC.case(
            "preview-and-the-commit",
            "Decides before the commit and after it differ on the records of the preview and on \
             no other; an implementation that decides by the copy denies before it.",
            EQUALS,
            on_sample()
                .preview(q, a, "0 6 0 2")
                .decide(q.query(0), "0 0 4")
                .decide(q.query(1), "0 1 4")
                .decide(q.query(2), "0 1 4")
                .commit(a, "0")
                .decide(q.query(0), "0 0 4")
                .decide(q.query(1), "0 0 3 1")
                .decide(q.query(2), "0 0 3 1"),
        ),
        TOPIC.case(
            "preview-takes-no-place",
            "With 31 active a preview takes the last place of a copy alone, so that a commit of \
             another number is the 32nd and a next preview 11; an implementation that keeps the \
             draft answers 11 to the commit.",
            EQUAL,
            on(&full_but_one)
                .preview(q, numbered(99, a), "0 6 0 2")
                .commit(numbered(100, a), "0")
                .preview(q, numbered(101, a), "11"),
        ),
        TOPIC.case(
            "preview-refused-leaves-the-ledger",
            "Refused previews leave the card as it was; an implementation that commits before it \
             looks at the requester writes a directive.",
            EQUAL,
            on_sample()
                .preview(Requester { role: 4, ..q }, a, "17")
                .preview(q, Fields { effect: 2, ..a }, "7")
                .written(&sample()),
        ),
        TOPIC.case(
            "preview-leaves-tokens",
            "A live token has the same brief before and after a preview; an implementation that \
             gives a copy without tokens back answers 22.",
            EQUAL,
            on_sample()
                .issue(9, 600, 0x01, 30, "0")
                .preview(q, a, "0 6 0 2")
                .brief(9, 600, "0 2 0 1"),
        ),
    ]
}

/// All origins are origin 0, from which a stranger is permitted all 128
/// records.
fn full_register() -> Vec<Case> {
    let stranger = Requester {
        person: 400,
        role: 0,
        origin: 0,
        purpose: 0,
    };
    let deny = |record, reach| draft(DENY, (ROLE, 0), record, reach);
    let mut sixty_five = full();
    sixty_five.records.truncate(65);
    vec![
        TOPIC.case(
            "preview-all-but-the-root",
            "A deny of all descendants of record 0 changes 127 records, all but bit 0; an \
             implementation that takes reach 2 with the record itself gives 0 \
             18446744073709551615 18446744073709551615 128.",
            GIVES,
            on(&full()).preview(
                stranger,
                deny(0, 2),
                "0 18446744073709551614 18446744073709551615 127",
            ),
        ),
        TOPIC.case(
            "preview-records-63-64-127",
            "Record 63 is bit 63 of the first word, 64 bit 0 and 127 bit 63 of the second; an \
             implementation that shifts in one word, or leaves out the last record, gives other \
             words.",
            GIVES,
            on(&full())
                .preview(stranger, deny(63, 0), "0 9223372036854775808 0 1")
                .preview(stranger, deny(64, 0), "0 0 1 1")
                .preview(stranger, deny(127, 0), "0 0 9223372036854775808 1"),
        ),
        TOPIC.case(
            "preview-past-the-last-record",
            "Of 65 records the second word has bit 0 alone; an implementation that goes through \
             128 places sets the rest or stops.",
            Decisions("9.2"),
            on(&sixty_five).preview(stranger, deny(0, 2), "0 18446744073709551614 1 64"),
        ),
    ]
}

/// No draft gets past 8 there, so no requester is asked for.
fn the_empty_ledger() -> Vec<Case> {
    let q = requester_q();
    vec![TOPIC.case(
        "preview-on-the-empty-ledger",
        "On the empty ledger a draft is 6, 7 or 8, for a person and for a role; an \
         implementation that finds no record to change gives 0 0 0 0, and one that looks at the \
         requester first 17.",
        REFUSED,
        on_empty()
            .preview_bytes(q, &[], "6")
            .preview(
                q,
                Fields {
                    effect: 2,
                    ..directive_a()
                },
                "7",
            )
            .preview(q, directive_a(), "8")
            .preview(q, draft(PERMIT, (PERSON, 600), 0, 0), "8"),
    )]
}

/// A value begins with the six bytes of a requester.
fn lengths() -> Vec<Case> {
    let source = Decisions("7.3");
    let short = [
        (
            "preview-value-of-0-bytes",
            "A preview without a value is malformed; a program that takes it for no draft \
             prints 6.",
        ),
        (
            "preview-value-of-1-byte",
            "A preview of one byte is malformed; a program that reads 0 for the rest prints 6.",
        ),
        (
            "preview-value-of-2-bytes",
            "A preview of a person alone is malformed; a program that reads 0 for the rest \
             prints 6.",
        ),
        (
            "preview-value-of-3-bytes",
            "A preview of half a role is malformed; a program that reads 0 for the rest prints 6.",
        ),
        (
            "preview-value-of-4-bytes",
            "A preview without origin and purpose is malformed; a program that reads 0 for them \
             prints 6.",
        ),
        (
            "preview-value-of-5-bytes",
            "A preview without a purpose is malformed, and the replay ends; a program that reads \
             0 for it prints 6 and goes on.",
        ),
    ];
    let requester = [0x02, 0x58, 0x00, 0x01, 0x01, 0x00];
    let decide = Call::Decide(query_q());
    let mut cases = Vec::new();
    for ((id, reading), length) in short.into_iter().zip(0..) {
        let value: Vec<u8> = requester.into_iter().take(length).collect();
        let scenario = on_sample().field(PREVIEW, &value, "malformed");
        cases.push(TOPIC.case(id, reading, source, scenario.unread(&decide)));
    }
    let whole = [&requester[..], &directive_a().encode()].concat();
    cases.push(TOPIC.case(
        "preview-value-of-6-bytes",
        "Six bytes are a requester and no draft, 6, and 31 a whole preview: person 600, role 1, \
         origin 1, purpose 0; a program that takes the purpose before the origin gives 0 0 0 0 \
         for these, and one that takes the role before the person 17.",
        source,
        on_sample()
            .field(PREVIEW, &requester, "6")
            .field(PREVIEW, &whole, "0 6 0 2")
            .decide(query_q(), "0 1 4"),
    ));
    cases
}
