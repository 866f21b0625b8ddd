//! Emergency briefs: scopes, words and counts.

use super::sample::*;
use super::scenario::{on, on_sample};
use super::Source::{Decisions, Says};
use super::{Case, Topic};

const TOPIC: Topic = Topic("briefs");

pub fn cases() -> Vec<Case> {
    [scopes(), words(), others()].concat()
}

/// 16 records, record i with label i alone, so that the first word is the
/// scope.
fn labelled() -> Card {
    let mut card = full();
    card.records.truncate(16);
    for (record, label) in card.records.iter_mut().zip(0u32..) {
        record.labels = 1u16.checked_shl(label).unwrap_or(0);
    }
    card
}

fn scopes() -> Vec<Case> {
    let says = Says("The token's scope is the union over its states of this table");
    // The words are the scopes in decimal.
    let rows = [
        (
            "brief-cardiac-arrest",
            "State 0, cardiac arrest, has the scope 0x000F; an implementation with another table \
             gives another word.",
            0x01,
            "0 15 0 4",
        ),
        (
            "brief-respiratory-failure",
            "State 1, respiratory failure, has the scope 0x000B; an implementation with another \
             table gives another word.",
            0x02,
            "0 11 0 3",
        ),
        (
            "brief-stroke-signs",
            "State 2, stroke signs, has the scope 0x0017; an implementation with another table \
             gives another word.",
            0x04,
            "0 23 0 4",
        ),
        (
            "brief-low-blood-sugar",
            "State 3, low blood sugar, has the scope 0x0023; an implementation with another table \
             gives another word.",
            0x08,
            "0 35 0 3",
        ),
        (
            "brief-haemorrhage",
            "State 4, haemorrhage, has the scope 0x00C3; an implementation with another table \
             gives another word.",
            0x10,
            "0 195 0 4",
        ),
        (
            "brief-major-injury",
            "State 5, major injury, has the scope 0x01C3; an implementation with another table \
             gives another word.",
            0x20,
            "0 451 0 5",
        ),
        (
            "brief-sepsis",
            "State 6, sepsis, has the scope 0x0603; an implementation with another table gives \
             another word.",
            0x40,
            "0 1539 0 4",
        ),
        (
            "brief-anaphylaxis",
            "State 7, anaphylaxis, has the scope 0x000B; an implementation with another table \
             gives another word.",
            0x80,
            "0 11 0 3",
        ),
        (
            "brief-two-states",
            "States 3 and 6 together have the union 0x0623; an implementation that takes the \
             first, the last or what both share gives another word.",
            0x48,
            "0 1571 0 5",
        ),
        (
            "brief-all-states",
            "All states together have the scope 0x07FF, so labels 11 to 15 are in no brief; an \
             implementation that takes them for everything gives 65535.",
            0xFF,
            "0 2047 0 11",
        ),
    ];
    rows.map(|(id, reading, states, line)| {
        let scenario = on(&labelled())
            .issue(9, 600, states, 30, "0")
            .brief(9, 600, line);
        TOPIC.case(id, reading, says, scenario)
    })
    .to_vec()
}

fn words() -> Vec<Case> {
    let says = Says(
        "The brief is two 64-bit words, bit i for record i (word i / 64, bit i mod 64), set when \
         labels and scope share a bit",
    );
    let only = |records: &'static [usize]| {
        let label = |card: Card, number: &usize| card.changed(*number, |record| record.labels = 1);
        records.iter().fold(full(), label)
    };
    let everything = || {
        let mut card = full();
        card.records.iter_mut().for_each(|record| record.labels = 1);
        card
    };
    let mut sixty_five = everything();
    sixty_five.records.truncate(65);
    let rows = [
        (
            "brief-record-0",
            "Record 0 is bit 0 of the first word; an implementation that counts from the highest \
             bit gives 9223372036854775808.",
            only(&[0]),
            "0 1 0 1",
        ),
        (
            "brief-labels-beyond-the-scope",
            "One label that scope and record share is enough, whatever other labels the record \
             has; an implementation that asks for all of them gives no record.",
            full().changed(2, |record| record.labels = 0xF800 | 1),
            "0 4 0 1",
        ),
        (
            "brief-record-63",
            "Record 63 is bit 63 of the first word; an implementation with signed words prints a \
             negative number.",
            only(&[63]),
            "0 9223372036854775808 0 1",
        ),
        (
            "brief-record-64",
            "Record 64 is bit 0 of the second word; an implementation that shifts by 64 in one \
             word gives bit 0 of the first.",
            only(&[64]),
            "0 0 1 1",
        ),
        (
            "brief-record-127",
            "Record 127 is bit 63 of the second word; an implementation that leaves out the last \
             record gives 0 0 0 0.",
            only(&[127]),
            "0 0 9223372036854775808 1",
        ),
        (
            "brief-both-words",
            "Records 63 and 64 are in one word each, the count is of both; an implementation that \
             counts the first word says 1.",
            only(&[63, 64]),
            "0 9223372036854775808 1 2",
        ),
        (
            "brief-all-records",
            "All 128 records fill both words, count 128; an implementation that counts in 7 bits \
             says 0.",
            everything(),
            "0 18446744073709551615 18446744073709551615 128",
        ),
        (
            "brief-past-the-last-record",
            "Of 65 records the second word has bit 0 alone; an implementation that goes through \
             128 places sets the rest or stops.",
            sixty_five,
            "0 18446744073709551615 1 65",
        ),
    ];
    rows.map(|(id, reading, card, line)| {
        let scenario = on(&card).issue(9, 600, 0xFF, 30, "0").brief(9, 600, line);
        TOPIC.case(id, reading, says, scenario)
    })
    .to_vec()
}

fn others() -> Vec<Case> {
    let deny_600 = numbered(3, draft(DENY, (PERSON, 600), 0, 2));
    vec![
        TOPIC.case(
            "brief-not-touched-by-directives",
            "A deny of the token's holder leaves the brief as it is; an implementation that \
             filters by consent gives no record.",
            Says("Directives don't touch it (000, section 5)."),
            on_sample()
                .issue(9, 600, 1, 30, "0")
                .commit(deny_600, "0")
                .brief(9, 600, "0 2 0 1"),
        ),
        TOPIC.case(
            "brief-not-for-decide",
            "A token does not bear on decide; an implementation that lets its holder in answers \
             permit.",
            Decisions("4.6"),
            on_sample()
                .commit(directive_a(), "0")
                .issue(9, 600, 0xFF, 240, "0")
                .decide(query_q(), "0 0 3 1"),
        ),
        TOPIC.case(
            "brief-of-its-own-token",
            "Two tokens of one person have a scope each; an implementation that takes the first \
             token of the person, or the union, answers 0 2 0 1 twice.",
            Says("Brief: is there a live token of that number for that person?"),
            on_sample()
                .issue(8, 600, 0x01, 30, "0")
                .issue(9, 600, 0x40, 30, "0")
                .brief(8, 600, "0 2 0 1")
                .brief(9, 600, "0 0 0 0"),
        ),
    ]
}
