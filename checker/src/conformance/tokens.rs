//! Questions 18 to 22: emergency tokens.

use super::sample::*;
use super::scenario::{on, on_empty, on_sample, Scenario};
use super::Source::{Decisions, Says};
use super::{Case, Topic};

pub fn cases() -> Vec<Case> {
    [states(), lengths(), ends(), numbers(), places(), holders()].concat()
}

fn at(clock: u32) -> Scenario {
    on(&Card { clock, ..sample() })
}

fn states() -> Vec<Case> {
    let topic = Topic("question 18");
    let says = Says("Issue: any state?");
    vec![
        topic.case(
            "q18-no-state",
            "An empty state set is 18, and no token is there; an implementation that gives an \
             empty scope accepts it.",
            says,
            on_sample()
                .issue(9, 600, 0x00, 30, "18")
                .brief(9, 600, "22"),
        ),
        topic.case(
            "q18-first-and-last-state",
            "States 0x01 and 0x80 alone are accepted; an implementation that counts states from 1 \
             answers 18.",
            says,
            on_sample()
                .issue(8, 600, 0x01, 30, "0")
                .issue(9, 600, 0x80, 30, "0"),
        ),
        topic.case(
            "q18-empty-ledger",
            "Issue works on the empty ledger, and the brief has no record; an implementation that \
             wants a register refuses.",
            Decisions("4.15"),
            on_empty()
                .issue(9, 600, 0x00, 30, "18")
                .issue(9, 600, 0xFF, 30, "0")
                .brief(9, 600, "0 0 0 0"),
        ),
    ]
}

fn lengths() -> Vec<Case> {
    let topic = Topic("question 19");
    let says = Says("Length 1..240 and the end at most 4,294,967,295?");
    vec![
        topic.case(
            "q19-length-0-and-1",
            "Length 0 is 19 and 1 accepted; an implementation that issues a token that has run \
             out accepts both.",
            says,
            on_sample()
                .issue(9, 600, 1, 0, "19")
                .issue(9, 600, 1, 1, "0"),
        ),
        topic.case(
            "q19-length-240-and-241",
            "Length 241 is 19 and 240 accepted; an implementation that allows a byte's worth \
             accepts both.",
            says,
            on_sample()
                .issue(9, 600, 1, 241, "19")
                .issue(9, 600, 1, 240, "0"),
        ),
        topic.case(
            "q19-length-of-32-bits",
            "At clock 0 lengths 257, 65,537 and 4,294,967,295 are 19; an implementation that keeps 8 \
             or 16 bits, or a sign, takes them for 1 or -1.",
            says,
            at(0)
                .issue(9, 600, 1, 257, "19")
                .issue(9, 600, 1, 65_537, "19")
                .issue(9, 600, 1, u32::MAX, "19"),
        ),
    ]
}

fn ends() -> Vec<Case> {
    let topic = Topic("question 19");
    let decided = Decisions("4.11");
    vec![
        topic.case(
            "q19-end-at-the-last-minute",
            "At clock 4,294,967,055 a token of 240 minutes ends at 4,294,967,295 and is accepted; \
             an implementation that asks for an end before it answers 19.",
            decided,
            at(4_294_967_055)
                .issue(9, 600, 1, 240, "0")
                .brief(9, 600, "0 2 0 1"),
        ),
        topic.case(
            "q19-end-past-the-last-minute",
            "At clock 4,294,967,056 a token of 240 minutes ends past the last minute, 19, and one \
             of 239 does not; an implementation whose end wraps accepts both.",
            decided,
            at(4_294_967_056)
                .issue(9, 600, 1, 240, "19")
                .issue(9, 600, 1, 239, "0"),
        ),
        topic.case(
            "q19-clock-at-the-end",
            "At clock 4,294,967,295 no length is left, 19; an implementation whose end wraps to 0 \
             accepts.",
            decided,
            at(u32::MAX).issue(9, 600, 1, 1, "19"),
        ),
        topic.case(
            "q19-runs-out-at-the-last-minute",
            "A token of one minute at 4,294,967,294 is live there and dropped at 4,294,967,295; \
             an implementation that takes the last minute for no end keeps it.",
            decided,
            at(4_294_967_294)
                .issue(9, 600, 1, 1, "0")
                .brief(9, 600, "0 2 0 1")
                .advance(u32::MAX, "0 0 1")
                .brief(9, 600, "22"),
        ),
    ]
}

fn numbers() -> Vec<Case> {
    let topic = Topic("question 20");
    let says = Says("Number free among live tokens?");
    vec![
        topic.case(
            "q20-taken",
            "A live token's number is 20 for the same person; an implementation that renews the \
             token answers 0.",
            says,
            on_sample()
                .issue(9, 600, 1, 30, "0")
                .issue(9, 600, 2, 60, "20"),
        ),
        topic.case(
            "q20-other-person",
            "A live token's number is 20 for another person too; an implementation that numbers \
             tokens by person answers 0.",
            Decisions("4.13"),
            on_sample()
                .issue(9, 600, 1, 30, "0")
                .issue(9, 601, 1, 30, "20")
                .brief(9, 601, "22"),
        ),
        topic.case(
            "q20-free-at-the-end",
            "At its end a token's number is free, and one minute before it is not; an \
             implementation that takes until with it answers 20 twice.",
            Says(
                "Advance sets the clock, drops directives with until <= clock and tokens likewise",
            ),
            on_sample()
                .issue(9, 600, 1, 30, "0")
                .advance(1029, "0 0 0")
                .issue(9, 601, 1, 30, "20")
                .advance(1030, "0 0 1")
                .issue(9, 601, 1, 30, "0"),
        ),
        topic.case(
            "q20-sixteen-bits",
            "Token numbers 0, 256 and 65,535 differ; an implementation that keeps the low byte \
             answers 20.",
            says,
            on_sample()
                .issue(0, 600, 1, 30, "0")
                .issue(256, 600, 1, 30, "0")
                .issue(65_535, 600, 1, 30, "0")
                .issue(0, 600, 1, 30, "20"),
        ),
        topic.case(
            "q20-directive-numbers-are-others",
            "A directive's number is free among tokens; an implementation with one table of \
             numbers answers 20.",
            says,
            on_sample()
                .commit(directive_a(), "0")
                .issue(1, 600, 1, 30, "0"),
        ),
    ]
}

fn places() -> Vec<Case> {
    let topic = Topic("question 21");
    let says = Says("Fewer than 4 live?");
    let four = || {
        on_sample()
            .issue(1, 600, 1, 10, "0")
            .issue(2, 600, 1, 20, "0")
            .issue(3, 601, 1, 30, "0")
            .issue(4, 602, 1, 40, "0")
    };
    vec![
        topic.case(
            "q21-the-fifth",
            "The fourth token is accepted, also two for one person, and the fifth is 21; an \
             implementation that counts by person accepts it.",
            says,
            four().issue(5, 603, 1, 30, "21"),
        ),
        topic.case(
            "q21-freed-by-advance",
            "An advance to 1010 drops one token of four and frees one place; an implementation \
             that counts issues answers 21.",
            Says("A place freed by revoke or advance counts as free."),
            four()
                .advance(1010, "0 0 1")
                .issue(5, 603, 1, 30, "0")
                .issue(6, 603, 1, 30, "21"),
        ),
        topic.case(
            "q21-refused-takes-no-place",
            "Refused issues take no place; an implementation that counts calls answers 21 for the \
             fourth token.",
            Says("A \"no\" answers as above, and the book stays as it is."),
            on_sample()
                .issue(1, 600, 1, 10, "0")
                .issue(1, 600, 1, 10, "20")
                .issue(2, 600, 0, 10, "18")
                .issue(2, 600, 1, 0, "19")
                .issue(2, 600, 1, 10, "0")
                .issue(3, 600, 1, 10, "0")
                .issue(4, 600, 1, 10, "0"),
        ),
    ]
}

fn holders() -> Vec<Case> {
    let topic = Topic("question 22");
    let says = Says("Brief: is there a live token of that number for that person?");
    vec![
        topic.case(
            "q22-no-token",
            "A brief without any token is 22, for the patient too; an implementation that shows \
             patients their records answers.",
            says,
            on_sample().brief(9, 600, "22").brief(0, 7, "22"),
        ),
        topic.case(
            "q22-other-person",
            "A brief for a person who does not hold the token is 22; an implementation that looks \
             at the number alone answers.",
            Decisions("4.14"),
            on_sample()
                .issue(9, 600, 1, 30, "0")
                .brief(9, 601, "22")
                .brief(9, 600, "0 2 0 1"),
        ),
        topic.case(
            "q22-other-number",
            "A brief for another number of the same person is 22; an implementation that looks at \
             the person alone answers.",
            says,
            on_sample()
                .issue(9, 600, 1, 30, "0")
                .brief(8, 600, "22")
                .brief(265, 600, "22"),
        ),
        topic.case(
            "q22-numbers-of-two-holders",
            "With tokens 8 for 600 and 9 for 601, 8 for 601 and 9 for 600 are 22; an \
             implementation that looks for number and person apart answers.",
            says,
            on_sample()
                .issue(8, 600, 1, 30, "0")
                .issue(9, 601, 1, 30, "0")
                .brief(8, 601, "22")
                .brief(9, 600, "22"),
        ),
        topic.case(
            "q22-length-from-the-clock",
            "A token issued at 1500 for 30 minutes is live at 1529; an implementation that counts \
             from the card's minute has dropped it.",
            Says("issue puts its token last, until clock + length"),
            on_sample()
                .advance(1500, "0 0 0")
                .issue(9, 600, 1, 30, "0")
                .advance(1529, "0 0 0")
                .brief(9, 600, "0 2 0 1"),
        ),
        topic.case(
            "q22-token-on-no-card",
            "A card has no tokens, so after reading a brief is 22; an implementation that makes \
             one for the patient answers.",
            Says(
                "It starts with the card's patient, register, clock and directives in order, and \
                 no tokens.",
            ),
            on(&sample().with(&[numbered(9, directive_a())])).brief(9, 600, "22"),
        ),
    ]
}
