//! Questions 23 and 24: writing a card.

use crate::bytes::hex;

use super::drafts::denies;
use super::sample::*;
use super::scenario::{on, on_empty, on_sample, Scenario};
use super::Source::{Decisions, Says};
use super::{Case, Topic};

pub fn cases() -> Vec<Case> {
    [records(), buffers()].concat()
}

fn records() -> Vec<Case> {
    let topic = Topic("question 23");
    vec![
        topic.case(
            "q23-empty-ledger",
            "The empty ledger has no record, so a write is 23; an implementation that writes head \
             and roles answers 0.",
            Says("Write: has the register a record?"),
            on_empty().write(65_535, "23"),
        ),
        topic.case(
            "q23-refused-card",
            "After a card that is refused at its last field a write is 23; an implementation that \
             keeps what was read before writes three records.",
            Decisions("1.15"),
            Scenario::of_card(&[sample().bytes(), vec![0xFF]].concat(), "1 0 0")
                .write(65_535, "23"),
        ),
    ]
}

fn buffers() -> Vec<Case> {
    let topic = Topic("question 24");
    let decided = Decisions("4.19");
    let a = directive_a();
    let with_a = sample().with(&[a]);
    let line = |card: &Card| {
        let bytes = card.bytes();
        format!("0 {} {}", bytes.len(), hex(&bytes))
    };
    vec![
        topic.case(
            "q24-exact",
            "The sample card has 56 bytes: a buffer of 55 is 24 and one of 56 will do; an \
             implementation that wants a byte more refuses both.",
            decided,
            on_sample().write(55, "24").write(56, &line(&sample())),
        ),
        topic.case(
            "q24-no-buffer",
            "A buffer of no bytes is 24; an implementation that takes 0 for no limit writes.",
            decided,
            on_sample().write(0, "24"),
        ),
        topic.case(
            "q24-larger",
            "A buffer of 65,535 bytes gives the 56 bytes of the card and no more; an \
             implementation that prints the whole buffer prints 65,535.",
            Says("It reports the length; bytes after it keep their content."),
            on_sample().write(65_535, &line(&sample())),
        ),
        topic.case(
            "q24-grows-with-a-directive",
            "A directive adds 28 bytes: 56 and 83 are 24 and 84 will do; an implementation that \
             measures the card it read writes too early.",
            decided,
            on_sample()
                .commit(a, "0")
                .write(56, "24")
                .write(83, "24")
                .write(84, &line(&with_a)),
        ),
        topic.case(
            "q24-shrinks-with-a-revoke",
            "After a revoke 56 bytes will do again; an implementation that measures the longest \
             card refuses.",
            decided,
            on(&with_a)
                .write(83, "24")
                .revoke(1, "0")
                .write(56, &line(&sample())),
        ),
        topic.case(
            "q24-longest-card",
            "The longest card has 2,589 bytes: 2,588 are 24 and 2,589 will do; an implementation \
             with a smaller buffer of its own refuses.",
            Decisions("1.17"),
            on(&longest())
                .write(2588, "24")
                .write(2589, &line(&longest())),
        ),
    ]
}

/// 16 roles, 128 records and 32 directives.
fn longest() -> Card {
    full().with(&denies(32))
}
