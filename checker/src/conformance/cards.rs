//! Cards that are read and written: what is restored.

use crate::directive::Fields;
use crate::request::Query;

use super::sample::*;
use super::scenario::{on, on_sample, Scenario};
use super::Source::{self, Decisions, Says};
use super::{Case, Topic};

const TOPIC: Topic = Topic("cards read and written");
const RESTORED: Source = Says("writing an accepted edition 2 card restores its bytes");

pub fn cases() -> Vec<Case> {
    [restored(), changed()].concat()
}

fn edition_1() -> Card {
    Card {
        edition: 1,
        ..sample().with(&[directive_a()])
    }
}

fn restored() -> Vec<Case> {
    let a = directive_a();
    let narrow = Fields {
        number: 0xABCD,
        subject_origins: 0x1234,
        po: 0x5673,
        ps: 0x9ABF,
        pt: 0xDF,
        purposes: 0x0123,
        from: 0x0001_0203,
        until: 0xF4F5_F6F7,
        ..a
    };
    let unordered = [
        numbered(30, draft(DENY, (PERSON, 600), 1, 0)),
        numbered(4, draft(DENY, (PERSON, 601), 1, 0)),
        numbered(17, draft(DENY, (PERSON, 602), 1, 0)),
    ];
    let redundant = sample().with(&[
        a,
        numbered(2, a),
        numbered(3, draft(PERMIT, (ROLE, 3), 2, 1)),
    ]);
    vec![
        TOPIC.case(
            "card-every-byte",
            "Each byte of a directive is written as it was read; an implementation that \
             normalizes sets, numbers or minutes writes others.",
            RESTORED,
            on(&sample().with(&[narrow])).written(&sample().with(&[narrow])),
        ),
        TOPIC.case(
            "card-order-of-directives",
            "Directives are written in the order of the list and not by number; an implementation \
             that sorts them writes 4 first.",
            RESTORED,
            on(&sample().with(&unordered)).written(&sample().with(&unordered)),
        ),
        TOPIC.case(
            "card-redundant-directives",
            "Redundant directives on a card stay, count and are written; an implementation that \
             leaves them out prints 0 3 1.",
            Decisions("1.12"),
            on(&redundant).written(&redundant),
        ),
        TOPIC.case(
            "card-edition-1",
            "An edition 1 card is written as edition 2 with purposes 0x07FF; an implementation \
             that keeps the edition writes 23 bytes a directive.",
            Decisions("1.20"),
            on(&edition_1()).written(&sample().with(&[a])),
        ),
        TOPIC.case(
            "card-edition-1-purposes",
            "A directive of an edition 1 card matches every purpose 0 to 10; an implementation \
             that reads the missing purposes as treatment gives basis 4 for purpose 10.",
            Says("Edition 1 leaves out purposes (23 bytes) and means 0x07FF."),
            on(&edition_1()).decide(query_q(), "0 0 3 1").decide(
                Query {
                    purpose: 10,
                    ..query_q()
                },
                "0 0 3 1",
            ),
        ),
    ]
}

fn changed() -> Vec<Case> {
    let a = directive_a();
    let later = Card {
        clock: 1500,
        ..sample().with(&[a])
    };
    // From 1100 on number 2 adds nothing to number 1.
    let first = over(1100, 2000, a);
    let second = numbered(2, over(1000, 1900, a));
    let aged = Card {
        clock: 1100,
        ..sample().with(&[first, second])
    };
    vec![
        TOPIC.case(
            "card-clock-after-advance",
            "The head has the clock after an advance; an implementation that keeps the card's \
             head writes 1000.",
            Says(
                "The writer gives edition 2: patient, clock, register, active directives in \
                 order, no tokens.",
            ),
            on_sample()
                .commit(a, "0")
                .advance(1500, "0 0 0")
                .written(&later),
        ),
        TOPIC.case(
            "card-no-tokens",
            "Tokens are not written; an implementation that adds a field for them writes a longer \
             card.",
            Says(
                "The writer gives edition 2: patient, clock, register, active directives in \
                 order, no tokens.",
            ),
            on_sample().issue(9, 600, 1, 30, "0").written(&sample()),
        ),
        TOPIC.case(
            "card-write-changes-nothing",
            "Two writes give the same, and the token is there after them; an implementation that \
             hands the ledger over loses it.",
            Decisions("5.9"),
            on_sample()
                .issue(9, 600, 1, 30, "0")
                .written(&sample())
                .written(&sample())
                .brief(9, 600, "0 2 0 1"),
        ),
        TOPIC.case(
            "card-written-when-redundant",
            "An advance makes number 2 redundant, and it is written all the same; an \
             implementation that leaves it out writes one directive.",
            Says(
                "Reading never puts question 14: time passing can make an active directive \
                 superfluous.",
            ),
            on_sample()
                .commit_all(&[first, second])
                .advance(1100, "0 0 0")
                .written(&aged),
        ),
        TOPIC.case(
            "card-read-when-redundant",
            "The card written with a redundant directive reads again with both; a reader that \
             puts question 14 answers 14 0 0.",
            Says(
                "Reading never puts question 14: time passing can make an active directive \
                 superfluous.",
            ),
            on(&aged).written(&aged).revoke(2, "0").commit(second, "14"),
        ),
        TOPIC.case(
            "card-read-again-without-tokens",
            "The card written while a token is live reads again without it; an implementation \
             that keeps tokens elsewhere answers the brief.",
            Says(
                "It starts with the card's patient, register, clock and directives in order, and \
                 no tokens.",
            ),
            on(&later).brief(9, 600, "22").decide(query_q(), "0 0 3 1"),
        ),
        TOPIC.case(
            "card-refused-gives-the-empty-ledger",
            "A card whose last directive conflicts gives the empty ledger: nothing to decide, \
             revoke or write; an implementation that keeps what it had read answers 0.",
            Decisions("1.15"),
            Scenario::of_card(
                &sample()
                    .with(&[a, draft(PERMIT, (PERSON, 600), 1, 0)])
                    .bytes(),
                "13 0 0",
            )
            .decide(query_q(), "17")
            .revoke(1, "15")
            .write(65_535, "23"),
        ),
    ]
}
