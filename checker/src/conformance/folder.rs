//! Reach 3, the folder and all in it, in every question and call that it bears
//! on.

use crate::directive::Fields;
use crate::request::{Query, Requester};

use super::bases::SELECTS;
use super::redundancy::together;
use super::sample::*;
use super::scenario::{on, on_sample, Scenario};
use super::Source::{Decisions, Says};
use super::{Case, Topic, FOLDER, FOLLOWS};

pub fn cases() -> Vec<Case> {
    [
        register(),
        decisions(),
        filters(),
        baseline(),
        conflicts(),
        redundancy(),
        cards(),
        previews(),
        others(),
    ]
    .concat()
}

fn deny(record: u8, reach: u8) -> Fields {
    draft(DENY, (ROLE, 1), record, reach)
}

fn permit(record: u8, reach: u8) -> Fields {
    draft(PERMIT, (ROLE, 1), record, reach)
}

fn deny_person(person: u16, record: u8, reach: u8) -> Fields {
    draft(DENY, (PERSON, person), record, reach)
}

/// A folder that leaves out record 1, of which po holds one origin of two, and
/// has record 2.
fn without_record_1(folder: Fields) -> Fields {
    Fields {
        po: 0x0002,
        ..folder
    }
}

fn ask(record: u8) -> Query {
    Query {
        record,
        ..query_q()
    }
}

/// From origin 0, from which the default consent permits record 0.
fn ask_from_0(record: u8) -> Query {
    Query {
        origin: 0,
        ..ask(record)
    }
}

/// The sample register with records 1 and 2 both under record 0.
fn siblings() -> Card {
    sample().changed(2, |record| record.parent = 0)
}

fn register() -> Vec<Case> {
    vec![Topic("question 8").case(
        "q08-reach-3",
        "Reach 3 on a record that the register lacks is 8; an implementation of document 01 \
         alone answers 7.",
        Says("Does the register have its role (if one is named) and record?"),
        on_sample().commit(deny(3, 3), "8"),
    )]
}

fn decisions() -> Vec<Case> {
    let topic = Topic("basis 3");
    vec![
        topic.case(
            "b3-reach-3",
            "Reach 3 of record 0 is itself, its child and its grandchild; an implementation that \
             leaves one of them out answers 0 1 4 for it.",
            FOLDER,
            on_sample()
                .commit(deny(0, 3), "0")
                .decide(ask_from_0(0), "0 0 3 2")
                .decide(ask(1), "0 0 3 2")
                .decide(ask(2), "0 0 3 2"),
        ),
        topic.case(
            "b3-reach-3-not-above",
            "Reach 3 of record 1 leaves out record 0 above it; an implementation that takes all \
             records for the folder answers 0 0 3 2.",
            FOLDER,
            on_sample()
                .commit(deny(1, 3), "0")
                .decide(ask_from_0(0), "0 1 4")
                .decide(ask(1), "0 0 3 2")
                .decide(ask(2), "0 0 3 2"),
        ),
        topic.case(
            "b3-reach-3-not-beside",
            "Reach 3 of record 1 leaves out record 2 beside it; an implementation that takes all \
             higher numbers answers 0 0 3 2.",
            FOLDER,
            on(&siblings())
                .commit(deny(1, 3), "0")
                .decide(ask(1), "0 0 3 2")
                .decide(ask(2), "0 1 4"),
        ),
        topic.case(
            "b3-reach-3-of-a-leaf",
            "Record 2 has no descendants, and reach 3 of it is record 2; an implementation that \
             looks for descendants answers 14.",
            FOLDER,
            on_sample()
                .commit(deny(2, 3), "0")
                .decide(ask(1), "0 1 4")
                .decide(ask(2), "0 0 3 2"),
        ),
        topic.case(
            "b3-reach-3-of-a-root-alone",
            "In a register of record 0 alone its folder is record 0; an implementation that leaves \
             the record itself out answers 14.",
            FOLDER,
            on(&Card {
                records: vec![record(0, 500, 0x0001, 0x0001, 0, 0)],
                ..sample()
            })
            .commit(deny(0, 3), "0")
            .decide(ask_from_0(0), "0 0 3 2"),
        ),
        topic.case(
            "b3-reach-3-any-depth",
            "Record 127 is in the folder of record 0 by 127 steps, and 64 and 65 are in that of \
             64, 63 not; an implementation that climbs a few steps gives basis 4.",
            FOLDER,
            on(&full())
                .commit(deny(0, 3), "0")
                .decide(ask_from_0(0), "0 0 3 2")
                .decide(ask_from_0(127), "0 0 3 2")
                .revoke(2, "0")
                .commit(deny(64, 3), "0")
                .decide(ask_from_0(63), "0 1 4")
                .decide(ask_from_0(64), "0 0 3 2")
                .decide(ask_from_0(65), "0 0 3 2")
                .decide(ask_from_0(127), "0 0 3 2"),
        ),
    ]
}

/// The record itself passes po, ps and pt, or is left out.
fn filters() -> Vec<Case> {
    let topic = Topic("basis 3");
    let of_type_5 = sample().changed(1, |record| record.record_type = 5);
    vec![
        topic.case(
            "b3-reach-3-filtered-by-po",
            "po 0x0002 leaves out record 1, whose folder it is, and holds record 2; an \
             implementation that filters the descendants alone answers 0 0 3 2 for record 1.",
            SELECTS,
            on_sample()
                .commit(without_record_1(deny(1, 3)), "0")
                .decide(ask(1), "0 1 4")
                .decide(ask(2), "0 0 3 2"),
        ),
        topic.case(
            "b3-reach-3-filtered-by-ps",
            "ps 0x0002 leaves out record 1, whose folder it is, and with it record 2, which has \
             more, 14; an implementation that filters the descendants alone accepts.",
            SELECTS,
            on_sample().commit(
                Fields {
                    ps: 0x0002,
                    ..deny(1, 3)
                },
                "14",
            ),
        ),
        topic.case(
            "b3-reach-3-filtered-by-pt",
            "pt without type 5 leaves out record 1, whose folder it is, and holds record 2; an \
             implementation that filters the descendants alone answers 0 0 3 2 for record 1.",
            SELECTS,
            on(&of_type_5)
                .commit(
                    Fields {
                        pt: 0xDF,
                        ..deny(1, 3)
                    },
                    "0",
                )
                .decide(ask(1), "0 1 4")
                .decide(ask(2), "0 0 3 2"),
        ),
    ]
}

fn baseline() -> Vec<Case> {
    let topic = Topic("question 12");
    vec![
        topic.case(
            "q12-folder-of-the-author",
            "The folder of record 1 has record 1, so a deny of its author 501 is 12, and without \
             the record accepted; an implementation that looks at descendants accepts both.",
            FOLLOWS,
            on_sample()
                .commit(deny_person(501, 1, 3), "12")
                .commit(deny_person(501, 1, 2), "0"),
        ),
        topic.case(
            "q12-folder-author-below",
            "The folder of record 0 has record 2, so a deny of its author 502 is 12; an \
             implementation that looks at the record named, or at children, accepts it.",
            FOLLOWS,
            on_sample().commit(deny_person(502, 0, 3), "12"),
        ),
        topic.case(
            "q12-folder-author-far-below",
            "The folder of record 0 has record 127 by 127 steps, so a deny of its author is 12; \
             an implementation that climbs a few steps accepts it.",
            FOLLOWS,
            on(&full()).commit(deny_person(627, 0, 3), "12"),
        ),
        topic.case(
            "q12-folder-author-above",
            "The folder of record 1 leaves out record 0, so a deny of its author 500 is accepted; \
             an implementation that takes all records for the folder answers 12.",
            FOLLOWS,
            on_sample().commit(deny_person(500, 1, 3), "0"),
        ),
        topic.case(
            "q12-folder-author-filtered",
            "po 0x0002 leaves record 1 out of its folder, so a deny of its author is accepted; an \
             implementation that does not filter the record itself answers 12.",
            Decisions("3.2"),
            on_sample().commit(without_record_1(deny_person(501, 1, 3)), "0"),
        ),
        topic.case(
            "q12-folder-of-a-leaf-for-the-patient",
            "The folder of record 2 is record 2, so a deny of the patient is 12; an \
             implementation that finds no descendants answers 14.",
            FOLLOWS,
            on_sample().commit(deny_person(7, 2, 3), "12"),
        ),
        topic.case(
            "q12-folder-of-a-role",
            "A deny of role 0 on the folder of record 0 is accepted, and patient and authors stay \
             permitted; an implementation that asks for requests of the patient answers 12.",
            Says("A deny on a role breaks nothing, as the baseline is decided first."),
            on_sample()
                .commit(draft(DENY, (ROLE, 0), 0, 3), "0")
                .decide(
                    Query {
                        person: 7,
                        ..ask(0)
                    },
                    "0 1 1",
                )
                .decide(
                    Query {
                        person: 500,
                        ..ask(0)
                    },
                    "0 1 2",
                )
                .decide(ask_from_0(0), "0 0 3 2"),
        ),
        topic.case(
            "q12-card-folder",
            "A card that denies author 501 the folder of record 1 is 12; a reader that looks at \
             descendants accepts it.",
            FOLLOWS,
            Scenario::of_card(&sample().with(&[deny_person(501, 1, 3)]).bytes(), "12 0 0"),
        ),
    ]
}

fn conflicts() -> Vec<Case> {
    let topic = Topic("question 13");
    let active = |record, reach| on_sample().commit(numbered(1, deny(record, reach)), "0");
    vec![
        topic.case(
            "q13-folder-at-the-record-itself",
            "A permit on the folder of record 0 meets a deny on record 0 in record 0, and without \
             the record it does not; an implementation that looks at descendants accepts both.",
            FOLLOWS,
            active(0, 0)
                .commit(permit(0, 3), "13 1")
                .commit(permit(0, 2), "0"),
        ),
        topic.case(
            "q13-record-itself-against-a-folder",
            "A permit on record 0 meets a deny on its folder; an implementation that takes reach 3 \
             for reach 2 accepts.",
            FOLLOWS,
            active(0, 3).commit(permit(0, 0), "13 1"),
        ),
        topic.case(
            "q13-folder-at-a-descendant",
            "A permit on the folder of record 0 meets a deny on its grandchild; an implementation \
             that looks at children accepts.",
            FOLLOWS,
            active(2, 0).commit(permit(0, 3), "13 1"),
        ),
        topic.case(
            "q13-folder-in-a-folder",
            "The folder of record 2 lies in that of record 0, and permit and deny meet in record \
             2; an implementation that compares the records named accepts.",
            FOLLOWS,
            active(0, 3).commit(permit(2, 3), "13 1"),
        ),
        topic.case(
            "q13-folders-beside-each-other",
            "The folders of records 1 and 2, both under record 0, share no record; an \
             implementation that looks for a record above both answers 13.",
            FOLLOWS,
            on(&siblings())
                .commit(numbered(1, deny(1, 3)), "0")
                .commit(permit(2, 3), "0"),
        ),
        topic.case(
            "q13-folder-below-the-record",
            "A permit on the folder of record 1 stands beside a deny on record 0 alone; an \
             implementation that takes all records for the folder answers 13.",
            FOLLOWS,
            active(0, 0).commit(permit(1, 3), "0"),
        ),
        topic.case(
            "q13-folder-filtered-at-the-record",
            "po 0x0002 leaves record 1 out of its folder, so the permit stands beside a deny on \
             record 1; an implementation that does not filter the record itself answers 13.",
            SELECTS,
            active(1, 0).commit(without_record_1(permit(1, 3)), "0"),
        ),
        topic.case(
            "q13-card-folder",
            "A card with a deny on the folder of record 0 and a permit on record 0 is 13; a reader \
             that takes reach 3 for reach 2 accepts it.",
            FOLLOWS,
            Scenario::of_card(
                &sample()
                    .with(&[numbered(1, deny(0, 3)), permit(0, 0)])
                    .bytes(),
                "13 0 0",
            ),
        ),
    ]
}

fn redundancy() -> Vec<Case> {
    let topic = Topic("question 14");
    let covered = |scenario: Scenario, draft: &Fields| scenario.commit(*draft, "14");
    let parts = [
        deny(0, 3),
        deny(0, 0),
        deny(0, 1),
        deny(0, 2),
        deny(1, 3),
        deny(1, 2),
        deny(2, 3),
        deny(2, 0),
    ];
    let folder = numbered(1, deny(0, 3));
    vec![
        topic.case(
            "q14-parts-of-a-folder",
            "Every reach within the folder of record 0 is 14; an implementation that leaves the \
             record itself or the grandchild out accepts one of them.",
            FOLLOWS,
            parts.iter().fold(on_sample().commit(folder, "0"), covered),
        ),
        topic.case(
            "q14-folder-by-record-and-descendants",
            "Reach 0 and reach 2 of record 0 cover its folder together, and reach 0 alone does \
             not; an implementation that looks at single directives accepts the draft at once.",
            FOLLOWS,
            together(on_sample(), &[deny(0, 0), deny(0, 2)], deny(0, 3)),
        ),
        topic.case(
            "q14-folder-by-descendants-and-record",
            "Reach 2 and reach 0 of record 0 cover its folder together, and reach 2 alone does \
             not; an implementation that takes reach 3 for reach 2 answers 14 after the revoke \
             too.",
            FOLLOWS,
            together(on_sample(), &[deny(0, 2), deny(0, 0)], deny(0, 3)),
        ),
        topic.case(
            "q14-folder-by-record-and-folders",
            "Record 0 with the folders of its two children is its folder, and without the last of \
             them not; an implementation that looks at single directives accepts the draft at once.",
            FOLLOWS,
            together(
                on(&siblings()),
                &[deny(0, 0), deny(1, 3), deny(2, 3)],
                deny(0, 3),
            ),
        ),
        topic.case(
            "q14-folder-not-by-record-and-children",
            "Record 0 and its children leave out record 2 of its folder, so the draft is accepted; \
             an implementation that takes the folder for record and children answers 14.",
            FOLLOWS,
            on_sample()
                .commit_all(&[numbered(11, deny(0, 0)), numbered(12, deny(0, 1))])
                .commit(deny(0, 3), "0"),
        ),
        topic.case(
            "q14-folder-of-a-leaf",
            "The folder of record 2 and record 2 itself are the same, so either makes the other \
             14; an implementation that looks for descendants accepts one of them.",
            FOLLOWS,
            on_sample()
                .commit(numbered(1, deny(2, 0)), "0")
                .commit(deny(2, 3), "14")
                .revoke(1, "0")
                .commit(deny(2, 3), "0")
                .commit(numbered(1, deny(2, 0)), "14"),
        ),
        topic.case(
            "q14-folder-filtered-at-the-record",
            "po 0x0002 leaves record 1 out of its folder, so its descendants cover the draft, 14; \
             an implementation that does not filter the record itself accepts it.",
            SELECTS,
            on_sample()
                .commit(numbered(1, deny(1, 2)), "0")
                .commit(without_record_1(deny(1, 3)), "14"),
        ),
        topic.case(
            "q14-folder-filtered-covers-less",
            "A folder that po 0x0002 leaves without record 1 does not cover record 1, so a deny \
             there is accepted; an implementation that does not filter the record itself answers \
             14.",
            SELECTS,
            on_sample()
                .commit(numbered(1, without_record_1(deny(1, 3))), "0")
                .commit(deny(1, 0), "0"),
        ),
    ]
}

/// Cards of both editions may carry reach 3.
fn cards() -> Vec<Case> {
    let topic = Topic("cards read and written");
    let folder = deny(1, 3);
    let edition_2 = sample().with(&[folder]);
    let edition_1 = Card {
        edition: 1,
        ..edition_2.clone()
    };
    vec![
        topic.case(
            "card-folder-edition-2",
            "An edition 2 card with reach 3 is read, decides, and is written with reach 3; a \
             reader of document 01 alone answers 7, and a writer that splits the folder writes \
             two directives.",
            FOLDER,
            on(&edition_2)
                .decide(ask(1), "0 0 3 2")
                .decide(ask(2), "0 0 3 2")
                .written(&edition_2),
        ),
        topic.case(
            "card-folder-edition-1",
            "An edition 1 card may carry reach 3 too, and is written as edition 2 with it; a \
             reader that keeps 0..2 for the old edition answers 7.",
            Decisions("9.7"),
            on(&edition_1)
                .decide(ask(1), "0 0 3 2")
                .decide(ask(2), "0 0 3 2")
                .written(&edition_2),
        ),
        topic.case(
            "card-folder-beside-its-parts",
            "A card with reach 0, reach 2 and the folder that they cover is read with all three \
             and written as it is; a reader that puts question 14 answers 14 0 0.",
            Decisions("1.12"),
            on(&sample().with(&[deny(0, 0), numbered(3, deny(0, 2)), numbered(4, deny(0, 3))]))
                .written(&sample().with(&[
                    deny(0, 0),
                    numbered(3, deny(0, 2)),
                    numbered(4, deny(0, 3)),
                ])),
        ),
    ]
}

fn previews() -> Vec<Case> {
    let topic = Topic("previews");
    let stranger = Requester {
        person: 400,
        role: 0,
        origin: 0,
        purpose: 0,
    };
    let from_0 = ask_from_0(0).requester();
    let q = requester_q();
    vec![
        topic.case(
            "preview-folder",
            "From origin 0 a deny on the folder of record 0 changes records 0 and 1, which are \
             permitted, and on its descendants record 1; an implementation that leaves the record \
             itself out gives 0 2 0 1 twice.",
            FOLDER,
            on_sample().preview(from_0, deny(0, 3), "0 3 0 2").preview(
                from_0,
                deny(0, 2),
                "0 2 0 1",
            ),
        ),
        topic.case(
            "preview-folder-of-a-leaf",
            "A deny on the folder of record 2 changes record 2; an implementation that looks for \
             descendants gives 14.",
            FOLDER,
            on_sample().preview(q, deny(2, 3), "0 4 0 1"),
        ),
        topic.case(
            "preview-folder-filtered",
            "po 0x0002 leaves record 1 out of its folder, so record 2 alone changes; an \
             implementation that does not filter the record itself gives 0 6 0 2.",
            SELECTS,
            on_sample().preview(q, without_record_1(deny(1, 3)), "0 4 0 1"),
        ),
        topic.case(
            "preview-folder-of-everything",
            "A deny on the folder of record 0 changes all 128 records; an implementation that \
             leaves the record itself out gives 0 18446744073709551614 18446744073709551615 127.",
            FOLDER,
            on(&full()).preview(
                stranger,
                draft(DENY, (ROLE, 0), 0, 3),
                "0 18446744073709551615 18446744073709551615 128",
            ),
        ),
        topic.case(
            "preview-folder-refused",
            "A preview of a folder is refused as its commit is, 12, 13 with its number and 14; an \
             implementation that leaves the record itself out gives words for the first two.",
            FOLLOWS,
            on_sample()
                .preview(q, deny_person(501, 1, 3), "12")
                .commit(numbered(1, deny(0, 0)), "0")
                .preview(q, permit(0, 3), "13 1")
                .commit(numbered(3, deny(0, 2)), "0")
                .preview(q, deny(0, 3), "14"),
        ),
        topic.case(
            "preview-of-reach-4",
            "A preview of reach 4 is 7; an implementation that takes all above 2 for the folder \
             gives words.",
            Says("A draft that would be refused gives that refusal;"),
            on_sample().preview(q, deny(0, 4), "7"),
        ),
    ]
}

fn others() -> Vec<Case> {
    let (itself, below) = (numbered(11, deny(0, 0)), numbered(12, deny(0, 2)));
    let folder = numbered(13, deny(0, 3));
    vec![
        Topic("briefs").case(
            "brief-not-touched-by-a-folder",
            "A deny on the folder of record 0 leaves the brief as it is; an implementation that \
             filters by consent gives no record.",
            Says("Directives don't touch it (000, section 5)."),
            on_sample()
                .issue(9, 600, 1, 30, "0")
                .commit(draft(DENY, (ROLE, 0), 0, 3), "0")
                .brief(9, 600, "0 2 0 1"),
        ),
        Topic("calls and order").case(
            "calls-order-folder-last",
            "After reach 0 and reach 2 the folder is 14, and basis 3 names them; the other order \
             is another case with the same effects and bases.",
            Says("The exactness and order claims hold for drafts of every reach."),
            on_sample()
                .commit_all(&[itself, below])
                .commit(folder, "14")
                .decide(ask_from_0(0), "0 0 3 11")
                .decide(ask(1), "0 0 3 12")
                .decide(ask(2), "0 0 3 12"),
        ),
        Topic("calls and order").case(
            "calls-order-folder-first",
            "After the folder reach 0 and reach 2 are 14, and basis 3 names the folder on every \
             record: effects and bases are those of the other order; an implementation that \
             leaves the record itself out accepts reach 0.",
            Says("The exactness and order claims hold for drafts of every reach."),
            on_sample()
                .commit(folder, "0")
                .commit(itself, "14")
                .commit(below, "14")
                .decide(ask_from_0(0), "0 0 3 13")
                .decide(ask(1), "0 0 3 13")
                .decide(ask(2), "0 0 3 13"),
        ),
    ]
}
