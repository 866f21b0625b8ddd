//! The readings that document 01 rules out by name, and those that are near
//! reach 3.

use crate::directive::Fields;
use crate::request::Query;

use super::bases::SELECTS;
use super::sample::*;
use super::scenario::{on, on_sample, Scenario};
use super::Source::Says;
use super::{Case, Topic, FOLDER};

pub fn cases() -> Vec<Case> {
    [
        single_directives(),
        the_record_itself(),
        persons_seen(),
        meeting_at_until(),
        fourteen_while_reading(),
        folder_without_itself(),
        folder_of_children(),
        folder_not_filtered_itself(),
    ]
    .concat()
}

fn single_directives() -> Vec<Case> {
    let topic = Topic("near reading: superfluous judged against single directives");
    let says = Says("Superfluous judged against single directives only (K7 slips through).");
    let a = directive_a();
    vec![
        topic.case(
            "near-single-across-two-seams",
            "1100..1900 lies across 1000..1400, 1400..1700 and 1700..2000, 14; under the near \
             reading it is accepted.",
            says,
            on_sample()
                .commit(over(1000, 1400, a), "0")
                .commit(numbered(2, over(1400, 1700, a)), "0")
                .commit(numbered(3, over(1700, 2000, a)), "0")
                .commit(numbered(4, over(1100, 1900, a)), "14"),
        ),
        topic.case(
            "near-single-three-kinds",
            "A person by role 0, by their name and by role 0 for other purposes is covered, 14; \
             under the near reading the draft is accepted.",
            says,
            on_sample()
                .commit(
                    numbered(11, over(1000, 1300, draft(PERMIT, (ROLE, 0), 1, 0))),
                    "0",
                )
                .commit(
                    numbered(
                        12,
                        Fields {
                            purposes: 0x0007,
                            ..over(1300, 2000, draft(PERMIT, (PERSON, 600), 1, 0))
                        },
                    ),
                    "0",
                )
                .commit(
                    numbered(
                        13,
                        Fields {
                            purposes: 0x07F8,
                            ..over(1200, 2000, draft(PERMIT, (ROLE, 0), 1, 0))
                        },
                    ),
                    "0",
                )
                .commit(draft(PERMIT, (PERSON, 600), 1, 0), "14"),
        ),
    ]
}

fn the_record_itself() -> Vec<Case> {
    let topic = Topic("near reading: reach 2 with the record itself");
    let says = Says("Reach 2 taken with the record itself (K4).");
    let a = directive_a();
    vec![
        topic.case(
            "near-itself-decides",
            "A deny of record 1's descendants denies record 2 and leaves record 1 to the default; \
             under the near reading both are denied.",
            says,
            on_sample()
                .commit(draft(DENY, (ROLE, 1), 1, 2), "0")
                .decide(query_q(), "0 1 4")
                .decide(
                    Query {
                        record: 2,
                        ..query_q()
                    },
                    "0 0 3 2",
                ),
        ),
        topic.case(
            "near-itself-no-conflict",
            "A permit on record 0 itself stands beside a deny of its descendants; under the near \
             reading it is 13 1.",
            says,
            on_sample()
                .commit(a, "0")
                .commit(draft(PERMIT, (ROLE, 1), 0, 0), "0"),
        ),
        topic.case(
            "near-itself-not-redundant",
            "A deny on record 0 itself adds to a deny of its descendants; under the near reading \
             it is 14.",
            says,
            on_sample()
                .commit(a, "0")
                .commit(draft(DENY, (ROLE, 1), 0, 0), "0"),
        ),
        topic.case(
            "near-itself-without-descendants",
            "Record 2 has no descendants, so reach 2 of it selects nothing, 14; under the near \
             reading the draft is accepted.",
            says,
            on_sample().commit(draft(DENY, (ROLE, 1), 2, 2), "14"),
        ),
        topic.case(
            "near-itself-baseline",
            "A deny of author 501 on the descendants of their record 1 is accepted; under the \
             near reading it is 12.",
            says,
            on_sample().commit(draft(DENY, (PERSON, 501), 1, 2), "0"),
        ),
    ]
}

fn persons_seen() -> Vec<Case> {
    let topic = Topic("near reading: conflict only among persons already seen");
    let says = Says("A conflict looked for only among persons already seen.");
    let a = directive_a();
    let named = numbered(5, draft(DENY, (PERSON, 600), 2, 0));
    vec![
        topic.case(
            "near-seen-role-and-role",
            "Two roles meet in persons whom nothing names, 13; an implementation that goes \
             through patient, authors and subjects finds none.",
            says,
            on_sample()
                .commit(a, "0")
                .commit(draft(PERMIT, (ROLE, 2), 1, 0), "13 1"),
        ),
        topic.case(
            "near-seen-new-person",
            "A permit of person 43,210, whom nothing named before, meets a deny of a role, 13; \
             under the near reading it is accepted.",
            says,
            on_sample()
                .commit(a, "0")
                .commit(draft(PERMIT, (PERSON, 43_210), 1, 0), "13 1"),
        ),
        topic.case(
            "near-seen-person-of-another-directive",
            "The only person named so far is denied elsewhere, and the roles meet in all others, \
             13 1; under the near reading the draft is accepted or the wrong number named.",
            says,
            on_sample()
                .commit_all(&[named, numbered(1, draft(DENY, (ROLE, 1), 1, 0))])
                .commit(draft(PERMIT, (ROLE, 1), 1, 0), "13 1"),
        ),
        topic.case(
            "near-seen-card",
            "A card whose roles meet in persons whom nothing names is 13; under the near reading \
             it is accepted.",
            says,
            Scenario::of_card(
                &sample().with(&[a, draft(PERMIT, (ROLE, 2), 1, 0)]).bytes(),
                "13 0 0",
            ),
        ),
    ]
}

fn meeting_at_until() -> Vec<Case> {
    let topic = Topic("near reading: minutes meeting at until counted as shared");
    let says = Says("Minutes meeting at until counted as shared (K5).");
    let a = directive_a();
    let permit_600 = draft(PERMIT, (PERSON, 600), 1, 0);
    vec![
        topic.case(
            "near-until-after",
            "A permit from 2000 on stands beside a deny until 2000, and from 1999 on does not; \
             under the near reading both are 13 1.",
            says,
            on_sample()
                .commit(a, "0")
                .commit(over(1999, 2500, permit_600), "13 1")
                .commit(over(2000, 2500, permit_600), "0"),
        ),
        topic.case(
            "near-until-before",
            "A permit until 1500 stands beside a deny from 1500 on, and until 1501 does not; \
             under the near reading both are 13 1.",
            says,
            on_sample()
                .commit(over(1500, 2000, a), "0")
                .commit(over(1000, 1501, permit_600), "13 1")
                .commit(over(1000, 1500, permit_600), "0"),
        ),
        topic.case(
            "near-until-on-a-card",
            "A card whose permit begins when its deny ends is accepted, and each decides in its \
             minutes; under the near reading it is 13.",
            says,
            on(&sample().with(&[a, over(2000, 2500, permit_600)]))
                .advance(1999, "0 0 0")
                .decide(query_q(), "0 0 3 1")
                .advance(2000, "0 1 0")
                .decide(query_q(), "0 1 3 2"),
        ),
    ]
}

fn fourteen_while_reading() -> Vec<Case> {
    let topic = Topic("near reading: question 14 put while reading");
    let says = Says("Question 14 put while reading, so a written card no longer reads.");
    let a = directive_a();
    let single = sample().with(&[a, numbered(2, over(1200, 1300, a))]);
    let nothing = sample().with(&[draft(PERMIT, (ROLE, 3), 2, 1)]);
    let halves = sample().with(&[
        numbered(1, over(1000, 1500, a)),
        numbered(2, over(1500, 2000, a)),
        numbered(3, over(1200, 1800, a)),
    ]);
    vec![
        topic.case(
            "near-fourteen-covered",
            "A card with a directive that another covers is read with both; under the near \
             reading it is 14.",
            says,
            on(&single),
        ),
        topic.case(
            "near-fourteen-selects-nothing",
            "A card with a directive that selects nothing is read with it, and it holds its \
             number; under the near reading it is 14.",
            says,
            on(&nothing)
                .commit(a, "0")
                .commit(draft(DENY, (ROLE, 3), 1, 0), "10"),
        ),
        topic.case(
            "near-fourteen-several-together",
            "A card with a directive that two others cover together is read with all three; under \
             the near reading it is 14.",
            says,
            on(&halves).written(&halves),
        ),
    ]
}

fn folder_without_itself() -> Vec<Case> {
    let topic = Topic("near reading: the folder without the record itself");
    let permit = |record, reach| draft(PERMIT, (ROLE, 3), record, reach);
    let nurse = |record| Query {
        role: 3,
        origin: 5,
        record,
        ..query_q()
    };
    vec![
        topic.case(
            "near-folder-itself-decides",
            "A permit on the folder of record 1 permits record 1; under the near reading it is \
             denied by default.",
            FOLDER,
            on_sample()
                .decide(nurse(1), "0 0 4")
                .commit(permit(1, 3), "0")
                .decide(nurse(1), "0 1 3 2"),
        ),
        topic.case(
            "near-folder-itself-adds",
            "A permit on the folder of record 1 adds record 1 to one on its descendants, and both \
             decide there and below; under the near reading it is 14.",
            FOLDER,
            on_sample()
                .commit(permit(1, 2), "0")
                .commit(numbered(1, permit(1, 3)), "0")
                .decide(nurse(1), "0 1 3 1")
                .decide(nurse(2), "0 1 3 1"),
        ),
        topic.case(
            "near-folder-itself-on-a-card",
            "A card with a permit on the folder of record 2, a leaf, and a deny on record 2 is 13; \
             under the near reading the folder is empty and the card accepted.",
            FOLDER,
            Scenario::of_card(
                &sample()
                    .with(&[permit(2, 3), numbered(3, draft(DENY, (ROLE, 3), 2, 0))])
                    .bytes(),
                "13 0 0",
            ),
        ),
    ]
}

fn folder_of_children() -> Vec<Case> {
    let topic = Topic("near reading: the folder with its children alone");
    let deny = |record, reach| draft(DENY, (ROLE, 1), record, reach);
    let grandchild = Query {
        record: 2,
        ..query_q()
    };
    vec![
        topic.case(
            "near-folder-children-decides",
            "A deny on the folder of record 0 denies its grandchild; under the near reading it \
             is left to the default.",
            FOLDER,
            on_sample()
                .commit(numbered(7, deny(0, 3)), "0")
                .decide(grandchild, "0 0 3 7"),
        ),
        topic.case(
            "near-folder-children-covers",
            "A deny on the grandchild is within one on the folder of record 0, 14; under the near \
             reading it is accepted.",
            FOLDER,
            on_sample()
                .commit(numbered(7, deny(0, 3)), "0")
                .commit(deny(2, 0), "14"),
        ),
        topic.case(
            "near-folder-children-baseline",
            "A deny of the author of the grandchild on the folder of record 0 is 12, and on its \
             children accepted; under the near reading both are accepted.",
            FOLDER,
            on_sample()
                .commit(draft(DENY, (PERSON, 502), 0, 3), "12")
                .commit(draft(DENY, (PERSON, 502), 0, 1), "0"),
        ),
    ]
}

fn folder_not_filtered_itself() -> Vec<Case> {
    let topic = Topic("near reading: the folder's own record not filtered");
    // po leaves out record 0, which has origin 0 alone, and has record 2.
    let of_2 = Fields {
        po: 0x0002,
        ..draft(DENY, (ROLE, 1), 0, 3)
    };
    let root = Query {
        record: 0,
        origin: 0,
        ..query_q()
    };
    vec![
        topic.case(
            "near-folder-filter-decides",
            "po 0x0002 leaves record 0 out of its folder, so it stays with the default; under the \
             near reading it is denied.",
            SELECTS,
            on_sample().commit(of_2, "0").decide(root, "0 1 4"),
        ),
        topic.case(
            "near-folder-filter-selects-nothing",
            "With a po that no record keeps the folder is empty, 14; under the near reading it has \
             record 0 and the draft is accepted.",
            SELECTS,
            on_sample().commit(Fields { po: 0x8000, ..of_2 }, "14"),
        ),
        topic.case(
            "near-folder-filter-baseline",
            "A deny of author 500 on the folder of record 0 is accepted where po leaves record 0 \
             out; under the near reading it is 12.",
            SELECTS,
            on_sample().commit(
                Fields {
                    po: 0x0002,
                    ..draft(DENY, (PERSON, 500), 0, 3)
                },
                "0",
            ),
        ),
    ]
}
