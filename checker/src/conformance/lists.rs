//! Lists of calls: what each leaves for the next.

use crate::directive::Fields;
use crate::request::Query;

use super::sample::*;
use super::scenario::{on, on_sample, Scenario};
use super::Source::{Decisions, Says};
use super::{Case, Topic};

const TOPIC: Topic = Topic("calls and order");

pub fn cases() -> Vec<Case> {
    [
        places_in_the_list(),
        advances(),
        two_orders(),
        refusals(),
        whole_lists(),
    ]
    .concat()
}

/// A deny of one person of its own, so that directives do not bear on each
/// other.
fn deny(number: u16, until: u32) -> Fields {
    let person = number.saturating_add(2000);
    numbered(
        number,
        over(1000, until, draft(DENY, (PERSON, person), 1, 0)),
    )
}

fn places_in_the_list() -> Vec<Case> {
    let decided = Decisions("4.10");
    let [eight, three, five, one] = [8, 3, 5, 1].map(|number| deny(number, 2000));
    let four = || on_sample().commit_all(&[eight, three, five, one]);
    let left = |directives: &[Fields]| sample().with(directives);
    vec![
        TOPIC.case(
            "calls-revoke-closes-the-gap",
            "After a revoke of the second of 8, 3, 5, 1 the list is 8, 5, 1; an implementation \
             that moves the last into the gap writes 8, 1, 5.",
            decided,
            four().revoke(3, "0").written(&left(&[eight, five, one])),
        ),
        TOPIC.case(
            "calls-revoke-first-and-last",
            "After revokes of the first and the last of 8, 3, 5, 1 the list is 3, 5; an \
             implementation that closes gaps in the middle alone writes others.",
            decided,
            four()
                .revoke(8, "0")
                .revoke(1, "0")
                .written(&left(&[three, five])),
        ),
        TOPIC.case(
            "calls-commit-stands-last",
            "A commit after a revoke stands last; an implementation that fills the gap writes it \
             second.",
            Says("Otherwise commit puts its directive last"),
            four()
                .revoke(3, "0")
                .commit(deny(4, 2000), "0")
                .written(&left(&[eight, five, one, deny(4, 2000)])),
        ),
        TOPIC.case(
            "calls-number-again-stands-last",
            "A number that is revoked and committed again stands last; an implementation that \
             keeps its old place writes 8, 3, 5, 1.",
            Says("Otherwise commit puts its directive last"),
            four()
                .revoke(8, "0")
                .commit(eight, "0")
                .written(&left(&[three, five, one, eight])),
        ),
        TOPIC.case(
            "calls-forty-times",
            "Forty commits and revokes of one number leave the list empty with all places free; \
             an implementation that uses places up refuses after 32.",
            decided,
            (0..40)
                .fold(on_sample(), |scenario, _| {
                    scenario.commit(eight, "0").revoke(8, "0")
                })
                .written(&sample()),
        ),
    ]
}

fn advances() -> Vec<Case> {
    let says = Says(
        "Advance sets the clock, drops directives with until <= clock and tokens likewise, and \
         reports both counts of dropped ones.",
    );
    let [eight, nine] = [deny(8, 2000), deny(9, 1501)];
    let mixed = || {
        on_sample()
            .commit_all(&[eight, deny(3, 1500), deny(5, 1499), deny(1, 1500), nine])
            .issue(7, 70, 1, 200, "0")
            .issue(2, 20, 1, 100, "0")
            .issue(4, 40, 1, 200, "0")
    };
    let at = |clock: u32, directives: &[Fields]| {
        let card = Card { clock, ..sample() };
        card.with(directives)
    };
    vec![
        TOPIC.case(
            "calls-advance-at-until",
            "An advance to 1499 leaves a directive until 1500, and to 1500 drops it; an \
             implementation that asks until < clock keeps it.",
            says,
            on_sample()
                .commit(deny(1, 1500), "0")
                .advance(1499, "0 0 0")
                .advance(1500, "0 1 0")
                .advance(1500, "0 0 0"),
        ),
        TOPIC.case(
            "calls-advance-keeps-the-order",
            "An advance to 1500 drops three of 8, 3, 5, 1, 9 and the three tokens, and leaves 8, \
             9 in order; an implementation that moves the last into a gap writes 9, 8.",
            Decisions("4.9 4.10"),
            mixed()
                .advance(1500, "0 3 3")
                .written(&at(1500, &[eight, nine])),
        ),
        TOPIC.case(
            "calls-advance-tokens-alone",
            "An advance to 1100 drops the token in the middle and no directive; an implementation \
             that gives one sum prints 0 1 0 or 0 1 1.",
            Decisions("4.9"),
            mixed()
                .advance(1100, "0 0 1")
                .brief(7, 70, "0 2 0 1")
                .brief(2, 20, "22")
                .brief(4, 40, "0 2 0 1"),
        ),
        TOPIC.case(
            "calls-advance-both-at-once",
            "A directive and a token that end in one minute are both dropped and counted apart; \
             an implementation that stops at the first kind leaves one.",
            Decisions("4.9"),
            on_sample()
                .commit(deny(1, 1030), "0")
                .issue(9, 600, 1, 30, "0")
                .advance(1030, "0 1 1"),
        ),
        TOPIC.case(
            "calls-advance-past-everything",
            "One advance past several ends drops them all, also those that never began; an \
             implementation that drops what is running leaves one.",
            says,
            on_sample()
                .commit_all(&[deny(1, 1200), over(1500, 1600, deny(2, 1600))])
                .advance(4_000_000_000, "0 2 0")
                .revoke(2, "15"),
        ),
    ]
}

fn two_orders() -> Vec<Case> {
    let says = Says(
        "Two orders of committing each once, both from that ledger, agree in the effect and basis \
         of every decide, at the clock and after any list of advances, the same for both",
    );
    let wide = numbered(5, draft(DENY, (ROLE, 1), 0, 2));
    let narrow = numbered(3, draft(DENY, (ROLE, 2), 1, 0));
    let long = numbered(4, over(1500, 3000, draft(DENY, (ROLE, 2), 1, 0)));
    let cardiologist = Query {
        role: 2,
        ..query_q()
    };
    vec![
        TOPIC.case(
            "calls-order-wide-first",
            "After the wide deny the narrow one is 14 and basis 3 names 5; the other order is \
             another case with the same effects and bases.",
            says,
            on_sample()
                .commit(wide, "0")
                .commit(narrow, "14")
                .commit(long, "0")
                .decide(cardiologist, "0 0 3 5")
                .decide(query_q(), "0 0 3 5")
                .advance(2000, "0 1 0")
                .decide(cardiologist, "0 0 3 4")
                .decide(query_q(), "0 1 4"),
        ),
        TOPIC.case(
            "calls-order-narrow-first",
            "After the narrow deny the wide one is accepted and basis 3 names 3: effects and \
             bases are those of the other order; an implementation that answers by the list's \
             order names 4 or 5.",
            says,
            on_sample()
                .commit(long, "0")
                .commit(narrow, "0")
                .commit(wide, "0")
                .decide(cardiologist, "0 0 3 3")
                .decide(query_q(), "0 0 3 5")
                .advance(2000, "0 2 0")
                .decide(cardiologist, "0 0 3 4")
                .decide(query_q(), "0 1 4"),
        ),
        TOPIC.case(
            "calls-revoke-parts-the-orders",
            "With the narrow deny first a revoke of the wide one leaves the narrow one; an \
             implementation that drops redundant directives when the wide one comes gives basis \
             4.",
            Says(
                "which drafts get 14 and the number named with basis 3 may differ, and a later \
                 revoke may part them",
            ),
            on_sample()
                .commit_all(&[narrow, wide])
                .revoke(5, "0")
                .decide(cardiologist, "0 0 3 3")
                .decide(query_q(), "0 1 4"),
        ),
    ]
}

fn refusals() -> Vec<Case> {
    let says = Says("A \"no\" answers as above, and the book stays as it is.");
    let a = directive_a();
    let card = sample().with(&[a]);
    let q = query_q();
    vec![
        TOPIC.case(
            "calls-refused-leave-everything",
            "Refused calls of every kind leave directives, clock and tokens; an implementation \
             that changes something before it refuses writes another card.",
            says,
            on(&card)
                .issue(9, 600, 1, 30, "0")
                .commit_bytes(&[], "6")
                .commit(Fields { effect: 2, ..a }, "7")
                .commit(draft(DENY, (ROLE, 99), 1, 0), "8")
                .commit(over(900, 1000, numbered(2, a)), "9")
                .commit(a, "10")
                .commit(draft(DENY, (PERSON, 7), 1, 0), "12")
                .commit(draft(PERMIT, (PERSON, 600), 1, 0), "13 1")
                .commit(numbered(2, a), "14")
                .revoke(2, "15")
                .advance(999, "16")
                .decide(Query { role: 99, ..q }, "17")
                .issue(8, 600, 0, 30, "18")
                .issue(8, 600, 1, 241, "19")
                .issue(9, 600, 2, 30, "20")
                .brief(9, 601, "22")
                .write(10, "24")
                .written(&card)
                .brief(9, 600, "0 2 0 1"),
        ),
        TOPIC.case(
            "calls-on-the-empty-ledger",
            "After a refused card each call is answered on the empty ledger: 8, 15, 17 and 23, \
             and advance, issue and brief work; a program that stops prints no more lines.",
            Decisions("1.15 4.2 4.15"),
            Scenario::of_card(&[0xFF], "1 0 0")
                .commit(a, "8")
                .revoke(1, "15")
                .advance(4, "0 0 0")
                .issue(1, 2, 3, 4, "0")
                .brief(1, 2, "0 0 0 0")
                .decide(q, "17")
                .write(65_535, "23")
                .advance(8, "0 0 1"),
        ),
    ]
}

fn whole_lists() -> Vec<Case> {
    let balance = Says("and active = read + accepted - revoked - expired");
    let a = directive_a();
    let read = [deny(1, 1100), deny(2, 2000)];
    let left = Card {
        clock: 1100,
        ..sample().with(&[deny(2, 2000), deny(5, 2000)])
    };
    let permit_600 = draft(PERMIT, (PERSON, 600), 1, 0);
    vec![
        TOPIC.case(
            "calls-balance",
            "2 read + 3 accepted - 1 revoked - 2 expired are 2 active; an implementation that \
             miscounts one of them writes another list.",
            balance,
            on(&sample().with(&read))
                .commit(deny(3, 1100), "0")
                .commit(deny(4, 2000), "0")
                .commit(deny(3, 2000), "10")
                .commit(deny(5, 2000), "0")
                .revoke(4, "0")
                .revoke(4, "15")
                .advance(1100, "0 2 0")
                .written(&left),
        ),
        TOPIC.case(
            "calls-decisions-follow",
            "Decisions follow each commit, revoke and advance; an implementation that remembers \
             an answer gives an old one.",
            Says(
                "Every decide call that passes question 17 gives document 01's decision on that \
                 ledger",
            ),
            on_sample()
                .decide(query_q(), "0 1 4")
                .commit(a, "0")
                .decide(query_q(), "0 0 3 1")
                .revoke(1, "0")
                .decide(query_q(), "0 1 4")
                .commit(permit_600, "0")
                .decide(query_q(), "0 1 3 2")
                .advance(2000, "0 1 0")
                .decide(query_q(), "0 1 4"),
        ),
        TOPIC.case(
            "calls-conflict-ends-with-time",
            "A permit until 2000 meets a deny until 1500, and after an advance to 1500 it is \
             accepted; an implementation that keeps the deny answers 13 1.",
            Says("A place freed by revoke or advance counts as free."),
            on_sample()
                .commit(over(1000, 1500, a), "0")
                .commit(permit_600, "13 1")
                .advance(1499, "0 0 0")
                .commit(permit_600, "13 1")
                .advance(1500, "0 1 0")
                .commit(permit_600, "0"),
        ),
        TOPIC.case(
            "calls-redundancy-ends-with-revoke",
            "A narrow deny is 14 while a wide one is active, and accepted after its revoke; an \
             implementation that keeps the wide one answers 14.",
            Says("Revoke removes by number and closes the gap."),
            on_sample()
                .commit(a, "0")
                .commit(draft(DENY, (ROLE, 2), 1, 1), "14")
                .revoke(1, "0")
                .commit(draft(DENY, (ROLE, 2), 1, 1), "0"),
        ),
        TOPIC.case(
            "calls-three-hundred-decides",
            "Three hundred decides get three hundred lines; a program with room for fewer calls \
             stops.",
            Says(
                "Each call gets the ledger that read or the call before it gave; nobody else \
                 changes it.",
            ),
            (0..300).fold(on_sample(), |scenario, _| {
                scenario.decide(query_q(), "0 1 4")
            }),
        ),
    ]
}
