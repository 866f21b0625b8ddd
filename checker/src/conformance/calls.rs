//! Questions 15 and 16: revoke and advance.

use super::sample::*;
use super::scenario::{on, on_sample, Scenario};
use super::Source::{Decisions, Says};
use super::{Case, Topic};

pub fn cases() -> Vec<Case> {
    [revoke(), advance()].concat()
}

fn revoke() -> Vec<Case> {
    let topic = Topic("question 15");
    let says = Says("Revoke: is that number active?");
    let deny = |number, person| numbered(number, draft(DENY, (PERSON, person), 1, 0));
    vec![
        topic.case(
            "q15-not-active",
            "A number that was never active is 15; an implementation for which nothing to do is \
             success answers 0.",
            says,
            on_sample()
                .commit(deny(1, 600), "0")
                .revoke(2, "15")
                .revoke(1, "0"),
        ),
        topic.case(
            "q15-twice",
            "The second revoke of a number is 15; an implementation that only marks a directive \
             answers 0.",
            says,
            on_sample()
                .commit(deny(1, 600), "0")
                .revoke(1, "0")
                .revoke(1, "15"),
        ),
        topic.case(
            "q15-sixteen-bits",
            "257 is not 1, 15; an implementation that keeps the low byte revokes number 1.",
            says,
            on_sample()
                .commit(deny(1, 600), "0")
                .revoke(257, "15")
                .written(&sample().with(&[deny(1, 600)])),
        ),
        topic.case(
            "q15-run-out",
            "A directive that an advance dropped is not active, 15; an implementation that keeps \
             it in its list answers 0.",
            says,
            on_sample()
                .commit(over(1000, 1100, deny(1, 600)), "0")
                .advance(1100, "0 1 0")
                .revoke(1, "15"),
        ),
        topic.case(
            "q15-not-begun",
            "A directive whose minutes have not begun is active and can be revoked; an \
             implementation that looks at matching ones answers 15.",
            Decisions("2.6"),
            on_sample()
                .commit(over(1500, 2000, deny(1, 600)), "0")
                .revoke(1, "0"),
        ),
        topic.case(
            "q15-token",
            "Revoke looks at directives alone, so a token's number is 15 and the token stays; an \
             implementation with one table of numbers takes it away.",
            says,
            on_sample()
                .issue(9, 600, 1, 30, "0")
                .revoke(9, "15")
                .brief(9, 600, "0 2 0 1"),
        ),
        topic.case(
            "q15-read-from-the-card",
            "A directive of the card can be revoked, the first and the last number too; an \
             implementation that revokes only what was committed answers 15.",
            says,
            on(&sample().with(&[deny(65_535, 600), deny(0, 601)]))
                .revoke(0, "0")
                .revoke(65_535, "0")
                .revoke(0, "15"),
        ),
    ]
}

fn advance() -> Vec<Case> {
    let topic = Topic("question 16");
    let itself = Decisions("4.8");
    let at = |clock| Card { clock, ..sample() };
    vec![
        topic.case(
            "q16-one-before",
            "A minute before the clock is 16, and the clock itself is allowed; an implementation \
             that wants a later minute answers 16 for both.",
            itself,
            on_sample().advance(999, "16").advance(1000, "0 0 0"),
        ),
        topic.case(
            "q16-refused-leaves-the-clock",
            "A refused advance leaves the clock at 1000; an implementation that sets it first \
             writes 999.",
            Says("A \"no\" answers as above, and the book stays as it is."),
            on_sample().advance(999, "16").written(&sample()),
        ),
        topic.case(
            "q16-back-after-advance",
            "After an advance to 1500 minute 1499 is 16; an implementation that compares with the \
             card's clock accepts it.",
            Says("Advance: is the minute not before the clock?"),
            on_sample()
                .advance(1500, "0 0 0")
                .advance(1499, "16")
                .advance(1500, "0 0 0"),
        ),
        topic.case(
            "q16-to-the-last-minute",
            "The clock goes to 4,294,967,295 and stays there; an implementation with signed \
             minutes answers 16.",
            Says("A minute is a 32-bit unsigned number."),
            on_sample()
                .advance(u32::MAX, "0 0 0")
                .advance(u32::MAX, "0 0 0")
                .advance(u32::MAX.saturating_sub(1), "16")
                .written(&at(u32::MAX)),
        ),
        topic.case(
            "q16-past-the-middle",
            "2,147,483,648 comes after 2,147,483,647; an implementation with signed minutes \
             answers 16.",
            Says("A minute is a 32-bit unsigned number."),
            on(&at(2_147_483_647))
                .advance(2_147_483_648, "0 0 0")
                .advance(2_147_483_647, "16"),
        ),
        topic.case(
            "q16-empty-ledger",
            "After a refused card the clock is 0, so minute 5 is allowed, and 4 after it is 16; \
             an implementation that keeps the refused card's clock answers 16 for both.",
            Says("The empty ledger has patient 0, clock 0 and nothing else."),
            Scenario::of_card(&at(1000).head(), "5 0 0")
                .advance(5, "0 0 0")
                .advance(4, "16"),
        ),
    ]
}
