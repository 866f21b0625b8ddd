//! Questions 6 to 11: a draft's bytes, ranges, register, minutes, number and place.

use crate::bytes::field;
use crate::card::DIRECTIVE;
use crate::directive::Fields;

use super::sample::*;
use super::scenario::{on, on_empty, on_sample, Scenario};
use super::Source::{Decisions, Says};
use super::{Case, Topic, ALLOWS};

const LAST_MINUTE: u32 = u32::MAX;

pub fn cases() -> Vec<Case> {
    [
        length(),
        ranges(),
        ranges_on_a_card(),
        register(),
        minutes(),
        minutes_at_other_clocks(),
        numbers(),
        places(),
    ]
    .concat()
}

/// A draft that nothing speaks against: permit, role 3, record 1.
fn fits() -> Fields {
    draft(PERMIT, (ROLE, 3), 1, 0)
}

fn length() -> Vec<Case> {
    let topic = Topic("question 6");
    let says = Says("Draft: is it 25 bytes?");
    let bytes = fits().encode();
    let long = [bytes, bytes].concat();
    let first = |length: usize| -> Vec<u8> { long.iter().copied().take(length).collect() };
    let edition_1 = Card {
        edition: 1,
        ..sample()
    };
    vec![
        topic.case(
            "q06-no-bytes",
            "A commit of no bytes is 6, an answer of document 01; a program that takes it for a \
             broken replay prints malformed.",
            says,
            on_sample()
                .commit_bytes(&[], "6")
                .decide(query_q(), "0 1 4"),
        ),
        topic.case(
            "q06-24-bytes",
            "24 bytes are 6, and the ledger stays; an implementation that fills up with zeros \
             accepts the draft.",
            says,
            on_sample().commit_bytes(&first(24), "6").written(&sample()),
        ),
        topic.case(
            "q06-26-bytes",
            "26 bytes are 6; an implementation that takes the first 25 accepts the draft.",
            says,
            on_sample().commit_bytes(&first(26), "6"),
        ),
        topic.case(
            "q06-two-drafts-in-one",
            "Two drafts in one commit are 6; an implementation that commits the first, or both, \
             answers 0.",
            says,
            on_sample().commit_bytes(&long, "6").revoke(2, "15"),
        ),
        topic.case(
            "q06-edition-1",
            "After an edition 1 card too a draft has 25 bytes, and 23 are 6; an implementation \
             that keeps the card's edition answers 0, then 6.",
            Decisions("3.14"),
            on(&edition_1)
                .commit_bytes(&fits().encode_edition_1(), "6")
                .commit(fits(), "0"),
        ),
        topic.case(
            "q06-65535-bytes",
            "A draft of 65,535 bytes is 6 and the next call is answered; a program with a smaller \
             buffer stops or prints malformed.",
            says,
            on_sample()
                .commit_bytes(&[0; 65_535], "6")
                .decide(query_q(), "0 1 4"),
        ),
    ]
}

fn ranges() -> Vec<Case> {
    let topic = Topic("question 7");
    let says = Says("Effect and kind 0 or 1");
    let bounded = Decisions("2.2");
    let fits = fits();
    let refused = |draft: Fields| on_sample().commit(draft, "7");
    let accepted = |draft: Fields| on_sample().commit(draft, "0");
    vec![
        topic.case(
            "q07-effect-2",
            "Effect 2 is 7; an implementation that takes all but 0 for permit accepts it.",
            says,
            refused(Fields { effect: 2, ..fits }),
        ),
        topic.case(
            "q07-kind-2",
            "Subject kind 2 is 7; an implementation that takes all but 0 for a role accepts it.",
            says,
            refused(Fields { kind: 2, ..fits }),
        ),
        topic.case(
            "q07-reach-3",
            "Reach 3 is in range; an implementation of document 01 alone answers 7, one that lets \
             it reach nothing 14.",
            ALLOWS,
            accepted(Fields {
                record: 0,
                reach: 3,
                ..fits
            }),
        ),
        topic.case(
            "q07-reach-4",
            "Reach 4 is 7; an implementation that takes all above 2 for the folder accepts it, one \
             that lets it reach nothing answers 14.",
            ALLOWS,
            refused(Fields {
                record: 0,
                reach: 4,
                ..fits
            }),
        ),
        topic.case(
            "q07-reach-by-its-low-bits",
            "Reaches 7 and 255 are 7; an implementation that keeps the two low bits takes them for \
             3 and accepts the first.",
            ALLOWS,
            refused(Fields { reach: 7, ..fits }).commit(Fields { reach: 255, ..fits }, "7"),
        ),
        topic.case(
            "q07-no-subject-origins",
            "Empty subject origins are 7; an implementation that lets them be empty finds no \
             request and answers 14.",
            Decisions("3.11"),
            refused(Fields {
                subject_origins: 0,
                ..fits
            }),
        ),
        topic.case(
            "q07-no-po",
            "An empty po is 7; an implementation that takes it for no filter accepts the draft.",
            Decisions("3.11"),
            refused(Fields { po: 0, ..fits }),
        ),
        topic.case(
            "q07-no-ps",
            "An empty ps is 7; an implementation that takes it for no filter accepts the draft.",
            Decisions("3.11"),
            refused(Fields { ps: 0, ..fits }),
        ),
        topic.case(
            "q07-no-pt",
            "An empty pt is 7; an implementation that takes it for no filter accepts the draft.",
            Decisions("3.11"),
            refused(Fields { pt: 0, ..fits }),
        ),
        topic.case(
            "q07-no-purposes",
            "Empty purposes are 7; an implementation that takes them for all purposes, as edition \
             1 has them, accepts the draft.",
            Decisions("3.11"),
            refused(Fields {
                purposes: 0,
                ..fits
            }),
        ),
        topic.case(
            "q07-purpose-10",
            "Purpose 10 alone, 0x0400, is in range; an implementation with ten purposes answers 7.",
            bounded,
            accepted(Fields {
                purposes: 0x0400,
                ..fits
            }),
        ),
        topic.case(
            "q07-purpose-11",
            "Purpose 11 alone, 0x0800, is 7; an implementation that masks it away finds no \
             request and answers 14.",
            bounded,
            refused(Fields {
                purposes: 0x0800,
                ..fits
            }),
        ),
        topic.case(
            "q07-purposes-past-the-range",
            "0x8001 has a purpose within the range and one beyond it, 7; an implementation that \
             masks the rest away accepts it.",
            bounded,
            refused(Fields {
                purposes: 0x8001,
                ..fits
            }),
        ),
        topic.case(
            "q07-unused-bits",
            "Sets may have bits that no record uses; an implementation that bounds them by the \
             register answers 7.",
            Decisions("2.2"),
            accepted(Fields {
                subject_origins: 0x8000,
                po: 0x8003,
                ps: 0x8003,
                pt: 0x81,
                ..fits
            }),
        ),
    ]
}

/// The sample card with this directive last, by its bytes.
fn card_with(directive: Fields) -> Vec<u8> {
    [sample().bytes(), field(DIRECTIVE, &directive.encode())].concat()
}

fn ranges_on_a_card() -> Vec<Case> {
    let topic = Topic("question 7");
    let says = Says("A 0x04 field goes on with 7 to 13.");
    vec![
        topic.case(
            "q07-card-effect-2",
            "Effect 2 on a card is 7; a reader that puts question 4 to directives answers 4.",
            says,
            Scenario::of_card(
                &card_with(Fields {
                    effect: 2,
                    ..fits()
                }),
                "7 0 0",
            ),
        ),
        topic.case(
            "q07-card-reach-4",
            "Reach 4 on a card is 7; a reader that takes all above 2 for the folder accepts the \
             card.",
            ALLOWS,
            Scenario::of_card(&card_with(Fields { reach: 4, ..fits() }), "7 0 0"),
        ),
    ]
}

fn register() -> Vec<Case> {
    let topic = Topic("question 8");
    let says = Says("Does the register have its role (if one is named) and record?");
    let role = |role| draft(PERMIT, (ROLE, role), 1, 0);
    let record = |record| draft(PERMIT, (PERSON, 600), record, 0);
    let person = |number, person| numbered(number, draft(DENY, (PERSON, person), 1, 0));
    vec![
        topic.case(
            "q08-role-4-of-4",
            "Of four roles the last is 3, so role 4 is 8 and role 3 accepted; an implementation \
             that counts from 1 takes both.",
            says,
            on_sample().commit(role(4), "8").commit(role(3), "0"),
        ),
        topic.case(
            "q08-role-16-of-16",
            "Of sixteen roles the last is 15, so role 16 is 8 and role 15 accepted; an \
             implementation with 4 bits takes 16 for 0.",
            says,
            on(&full()).commit(role(16), "8").commit(role(15), "0"),
        ),
        topic.case(
            "q08-role-256",
            "Role 256 is not role 0, 8; an implementation that keeps the low byte accepts it.",
            Decisions("3.9"),
            on_sample().commit(role(256), "8").commit(role(65_535), "8"),
        ),
        topic.case(
            "q08-record-3-of-3",
            "Of three records the last is 2, so record 3 is 8 and record 2 accepted; an \
             implementation that looks at the register's places answers 14 for 3.",
            says,
            on_sample().commit(record(3), "8").commit(record(2), "0"),
        ),
        topic.case(
            "q08-record-128-of-128",
            "Of 128 records the last is 127, so record 128 is 8 and record 127 accepted; an \
             implementation with 7 bits takes 128 for 0.",
            says,
            on(&full())
                .commit(record(128), "8")
                .commit(record(127), "0"),
        ),
        topic.case(
            "q08-persons",
            "Persons 0, 4, 256 and 65,535 are valid; an implementation that looks for persons in \
             the register answers 8.",
            Decisions("3.10"),
            on_sample().commit_all(&[
                person(1, 0),
                person(2, 4),
                person(3, 256),
                person(4, 65_535),
            ]),
        ),
        topic.case(
            "q08-empty-ledger",
            "The empty ledger has no record, so a draft is 8; an implementation that keeps the \
             refused card's register accepts it.",
            Decisions("1.15"),
            on_empty().commit(record(0), "8").commit(role(0), "8"),
        ),
        topic.case(
            "q08-card-record-3",
            "A record that the register lacks is 8 on a card too; a reader that takes it for a \
             range answers 4.",
            Decisions("1.9"),
            Scenario::of_card(&card_with(record(3)), "8 0 0"),
        ),
        topic.case(
            "q08-card-role-4",
            "A role that the register lacks is 8 on a card too; a reader that takes it for a \
             range answers 4.",
            says,
            Scenario::of_card(&card_with(role(4)), "8 0 0"),
        ),
    ]
}

/// from and until of a draft, and its line.
type Row = ((u32, u32), &'static str);

fn minutes() -> Vec<Case> {
    let topic = Topic("question 9");
    let decided = Decisions("3.12");
    let rows: [(_, _, &[Row]); 5] = [
        (
            "q09-until-equals-clock",
            "until 1000 at clock 1000 is 9 and until 1001 accepted; an implementation that asks \
             clock <= until takes both.",
            &[((900, 1000), "9"), ((900, 1001), "0")],
        ),
        (
            "q09-from-equals-until",
            "from 1500 until 1500 is 9 and until 1501 accepted; an implementation that asks from \
             <= until answers 14 for the first.",
            &[((1500, 1500), "9"), ((1500, 1501), "0")],
        ),
        (
            "q09-from-after-until",
            "from 1501 until 1500 is 9; an implementation that only asks clock < until answers 14.",
            &[((1501, 1500), "9")],
        ),
        (
            "q09-from-in-the-past",
            "A from before the clock is fine; an implementation that asks clock <= from answers 9.",
            &[((0, 2000), "0")],
        ),
        (
            "q09-last-minutes",
            "4,294,967,294..4,294,967,295 is accepted and 4,294,967,295 twice is 9; an \
             implementation with signed minutes turns them round.",
            &[
                ((LAST_MINUTE, LAST_MINUTE), "9"),
                ((4_294_967_294, LAST_MINUTE), "0"),
            ],
        ),
    ];
    rows.into_iter()
        .map(|(id, reading, drafts)| {
            let commit = |scenario: Scenario, ((from, until), line): &Row| {
                scenario.commit(over(*from, *until, fits()), line)
            };
            topic.case(
                id,
                reading,
                decided,
                drafts.iter().fold(on_sample(), commit),
            )
        })
        .collect()
}

fn minutes_at_other_clocks() -> Vec<Case> {
    let topic = Topic("question 9");
    let at = |clock| Card { clock, ..sample() };
    let until = |until| over(0, until, fits());
    vec![
        topic.case(
            "q09-clock-0",
            "At clock 0 until 0 is 9 and 0..1 accepted; an implementation that takes 0 for no end \
             accepts both.",
            Decisions("3.12"),
            on(&at(0)).commit(until(0), "9").commit(until(1), "0"),
        ),
        topic.case(
            "q09-clock-at-the-end",
            "At clock 4,294,967,295 every draft is 9; an implementation whose clock wraps accepts \
             some.",
            Decisions("2.5 3.12"),
            on(&at(LAST_MINUTE)).commit(until(LAST_MINUTE), "9"),
        ),
        topic.case(
            "q09-after-advance",
            "After an advance to 1500 until 1500 is 9 and 1501 accepted; an implementation that \
             keeps the card's clock takes both.",
            Says(
                "Advance sets the clock, drops directives with until <= clock and tokens \
                 likewise, and reports both counts of dropped ones.",
            ),
            on_sample()
                .advance(1500, "0 0 0")
                .commit(until(1500), "9")
                .commit(until(1501), "0"),
        ),
        topic.case(
            "q09-card-run-out",
            "A directive with until = clock refuses the card, 9; a reader that drops it accepts \
             the card with none.",
            Decisions("1.11"),
            Scenario::of_card(&card_with(until(1000)), "9 0 0"),
        ),
        topic.case(
            "q09-card-last-minute",
            "A directive with until = clock + 1 is read; a reader that asks clock + 1 < until \
             answers 9.",
            Decisions("1.11"),
            Scenario::of_card(&card_with(until(1001)), "0 3 1"),
        ),
    ]
}

fn numbers() -> Vec<Case> {
    let topic = Topic("question 10");
    let says = Says("Is its number free among the active?");
    let deny = |number, person| numbered(number, draft(DENY, (PERSON, person), 1, 0));
    vec![
        topic.case(
            "q10-taken",
            "A number that is active is 10, whatever the draft says; an implementation that \
             replaces the directive answers 0.",
            says,
            on_sample()
                .commit(deny(1, 600), "0")
                .commit(deny(1, 601), "10"),
        ),
        topic.case(
            "q10-first-and-last-number",
            "Numbers 0 and 65,535 are numbers like others and are taken once used; an \
             implementation that takes 0 for none accepts it twice.",
            says,
            on_sample()
                .commit_all(&[deny(0, 600), deny(65_535, 601)])
                .commit(deny(0, 602), "10")
                .commit(deny(65_535, 602), "10"),
        ),
        topic.case(
            "q10-sixteen-bits",
            "Numbers 1 and 257 differ; an implementation that keeps the low byte answers 10.",
            says,
            on_sample().commit_all(&[deny(1, 600), deny(257, 601)]),
        ),
        topic.case(
            "q10-taken-before-it-begins",
            "A directive whose minutes have not begun is active and holds its number, 10; an \
             implementation that looks at matching ones accepts.",
            Decisions("2.6"),
            on_sample()
                .commit(over(1500, 2000, deny(1, 600)), "0")
                .commit(deny(1, 601), "10"),
        ),
        topic.case(
            "q10-free-after-revoke",
            "A revoked number is free; an implementation that remembers numbers answers 10.",
            Decisions("4.10"),
            on_sample()
                .commit(deny(1, 600), "0")
                .revoke(1, "0")
                .commit(deny(1, 601), "0"),
        ),
        topic.case(
            "q10-free-after-advance",
            "The number of a directive that has run out is free; an implementation that only \
             stops matching it answers 10.",
            Decisions("4.10"),
            on_sample()
                .commit(over(1000, 1100, deny(1, 600)), "0")
                .advance(1100, "0 1 0")
                .commit(over(1000, 2000, deny(1, 601)), "0"),
        ),
        topic.case(
            "q10-free-after-a-refusal",
            "A refused draft takes no number; an implementation that books the number first \
             answers 10.",
            Says("A \"no\" answers as above, and the book stays as it is."),
            on_sample()
                .commit(deny(1, 7), "12")
                .commit(deny(1, 600), "0"),
        ),
        topic.case(
            "q10-token-numbers-are-others",
            "A live token's number is free among the active; an implementation with one table of \
             numbers answers 10.",
            says,
            on_sample()
                .issue(1, 600, 1, 30, "0")
                .commit(deny(1, 600), "0"),
        ),
        topic.case(
            "q10-card",
            "A number twice on a card is 10; a reader that takes the last one accepts the card.",
            Decisions("1.10"),
            Scenario::of_card(
                &sample().with(&[deny(1, 600), deny(1, 601)]).bytes(),
                "10 0 0",
            ),
        ),
    ]
}

/// Denies of so many persons on record 1, numbered from 1.
pub fn denies(count: u16) -> Vec<Fields> {
    (1..=count)
        .zip(1001..)
        .map(|(number, person)| numbered(number, draft(DENY, (PERSON, person), 1, 0)))
        .collect()
}

fn places() -> Vec<Case> {
    let topic = Topic("question 11");
    let says = Says("Are fewer than 32 active?");
    let new = |number| numbered(number, draft(DENY, (PERSON, 600), 1, 0));
    let short = || {
        let mut drafts = denies(32);
        drafts.iter_mut().for_each(|draft| draft.until = 1500);
        drafts
    };
    vec![
        topic.case(
            "q11-the-32nd",
            "The 32nd directive is accepted and the 33rd is 11; an implementation with a place \
             less or more answers otherwise.",
            says,
            on_sample().commit_all(&denies(32)).commit(new(33), "11"),
        ),
        topic.case(
            "q11-freed-by-revoke",
            "A revoke frees one place and no more; an implementation that counts commits answers \
             11.",
            Says("A place freed by revoke or advance counts as free."),
            on_sample()
                .commit_all(&denies(32))
                .revoke(17, "0")
                .commit(new(33), "0")
                .commit(numbered(34, draft(DENY, (PERSON, 601), 1, 0)), "11"),
        ),
        topic.case(
            "q11-freed-by-advance",
            "An advance that drops 32 directives frees 32 places; an implementation that drops \
             one a call answers 11.",
            Says("A place freed by revoke or advance counts as free."),
            on_sample()
                .commit_all(&short())
                .advance(1500, "0 32 0")
                .commit_all(&denies(32))
                .commit(new(33), "11"),
        ),
        topic.case(
            "q11-not-begun-count",
            "Directives whose minutes have not begun take places; an implementation that counts \
             matching ones accepts the 33rd.",
            Decisions("2.6"),
            on_sample()
                .commit_all(
                    &denies(32)
                        .into_iter()
                        .map(|draft| over(1999, 2000, draft))
                        .collect::<Vec<Fields>>(),
                )
                .commit(new(33), "11"),
        ),
        topic.case(
            "q11-card-of-32",
            "A card has up to 32 directives, redundant ones included, and then a draft is 11; a \
             reader that leaves out redundant ones counts fewer.",
            Decisions("1.10 1.12"),
            on(&sample().with(&same(32))).commit(numbered(99, fits()), "11"),
        ),
        topic.case(
            "q11-card-of-33",
            "The 33rd directive of a card is 11; a reader that leaves out redundant ones accepts \
             it.",
            Decisions("1.10 1.12"),
            Scenario::of_card(&sample().with(&same(33)).bytes(), "11 0 0"),
        ),
    ]
}

/// A so many times, numbered from 1.
fn same(count: u16) -> Vec<Fields> {
    (1..=count)
        .map(|number| numbered(number, directive_a()))
        .collect()
}
