//! Reach 3, "the record with all its descendants", against the other reaches.

use checker::card;
use checker::directive::{Directive, Fields};
use checker::explain::explain;
use checker::ledger::Basis;
use checker::random::Random;
use checker::refusal::Refusal;
use checker::register::Reach;
use checker::replay::{encode, Call};
use checker::request::Query;
use checker::show::show;
use checker::validation::{breaks_baseline, lowest_conflict, redundant};

use crate::definition::Model;
use crate::facts::{facts, value};
use crate::small_world;
use crate::support::*;

fn deny_role(record: u8, reach: u8) -> Fields {
    draft(DENY, (ROLE, 1), record, reach)
}

fn permit_role(record: u8, reach: u8) -> Fields {
    draft(PERMIT, (ROLE, 1), record, reach)
}

fn deny_person(person: u16, record: u8, reach: u8) -> Fields {
    draft(DENY, (PERSON, person), record, reach)
}

/// The records that the draft selects on the sample register.
fn selected(draft: Fields) -> Vec<u8> {
    let ledger = sample().ledger();
    let directive = Directive::from_fields(&draft).expect("the ranges are kept");
    (0..=255)
        .filter(|record| directive.selects(ledger.register(), *record))
        .collect()
}

#[test]
fn a_reach_is_its_byte() {
    for (byte, reach) in (0..).zip(Reach::ALL) {
        assert_eq!(Reach::decode(byte), Some(reach));
        assert_eq!(reach.encode(), byte);
    }
    assert_eq!(Reach::ALL.len(), 4);
    assert!((4..=255).all(|byte| Reach::decode(byte).is_none()));
}

/// In every tree of up to five records the folder is the record with its
/// descendants, and the children are among these.
#[test]
fn the_folder_is_the_record_with_its_descendants() {
    for parents in trees(5) {
        let mut card = sample();
        card.records = parents
            .iter()
            .map(|parent| record(*parent, 500, 1, 1, 0, 0))
            .collect();
        let ledger = card.ledger();
        let count = parents.len() as u8;
        for top in 0..count {
            for record in 0..=count {
                let within = Reach::ALL.map(|reach| ledger.register().reaches(top, reach, record));
                let [itself, child, descendant, folder] = within;
                assert_eq!(folder, itself || descendant, "{parents:?} {top} {record}");
                assert!(!(itself && descendant), "{parents:?} {top} {record}");
                assert!(!child || descendant, "{parents:?} {top} {record}");
            }
        }
    }
}

/// The parents of all trees of one to so many records.
fn trees(most: usize) -> Vec<Vec<u8>> {
    let mut trees = vec![vec![0]];
    let mut last = trees.clone();
    for count in 1..most {
        let longer = |tree: &Vec<u8>| -> Vec<Vec<u8>> {
            let with = |parent| [&tree[..], &[parent]].concat();
            (0..count as u8).map(with).collect()
        };
        last = last.iter().flat_map(longer).collect();
        trees.extend(last.clone());
    }
    trees
}

#[test]
fn the_folder_of_a_leaf_is_the_leaf() {
    assert_eq!(selected(deny_role(2, 3)), [2]);
    assert_eq!(selected(deny_role(1, 3)), [1, 2]);
    assert_eq!(selected(deny_role(0, 3)), [0, 1, 2]);
}

/// The record itself is filtered as the others are.
#[test]
fn the_record_itself_passes_the_filters_or_is_left_out() {
    // Record 1 has origins 0 and 1, record 2 origin 1.
    let po = |po| {
        selected(Fields {
            po,
            ..deny_role(1, 3)
        })
    };
    assert_eq!(po(0x0002), [2]);
    assert_eq!(po(0x0003), [1, 2]);
    // Record 0 and 1 have sensitivity 0, record 2 also 1.
    let ps = |ps| {
        selected(Fields {
            ps,
            ..deny_role(2, 3)
        })
    };
    assert_eq!(ps(0x0001), [] as [u8; 0]);
    assert_eq!(ps(0x0003), [2]);
    // All are of type 0.
    let pt = |pt| {
        selected(Fields {
            pt,
            ..deny_role(0, 3)
        })
    };
    assert_eq!(pt(0xFE), [] as [u8; 0]);
    assert_eq!(pt(0x01), [0, 1, 2]);
}

#[test]
fn the_record_and_its_descendants_make_a_folder_redundant() {
    let parts = [numbered(11, deny_role(0, 0)), numbered(12, deny_role(0, 2))];
    let folder = deny_role(0, 3);
    let redundant = Err(Refusal::Redundant);
    assert_eq!(would_commit(&sample_after(&parts), folder), redundant);
    for part in parts {
        assert_eq!(would_commit(&sample_after(&[part]), folder), Ok(()));
        assert_eq!(would_commit(&sample_after(&[folder]), part), redundant);
    }
    // The record with its children is less than the folder.
    let less = [numbered(11, deny_role(0, 0)), numbered(12, deny_role(0, 1))];
    assert_eq!(would_commit(&sample_after(&less), folder), Ok(()));
    // The folder of a child lies in the folder, and not the reverse.
    let child = numbered(11, deny_role(1, 3));
    assert_eq!(would_commit(&sample_after(&[folder]), child), redundant);
    assert_eq!(would_commit(&sample_after(&[child]), folder), Ok(()));
}

#[test]
fn a_folder_conflicts_at_the_record_itself() {
    let root = sample_after(&[numbered(1, deny_role(0, 0))]);
    let conflict = Err(Refusal::Conflict(1));
    assert_eq!(would_commit(&root, permit_role(0, 3)), conflict);
    assert_eq!(would_commit(&root, permit_role(0, 2)), Ok(()));
    assert_eq!(would_commit(&root, permit_role(1, 3)), Ok(()));
    let folder = sample_after(&[numbered(1, deny_role(0, 3))]);
    for (record, reach) in [(0, 0), (0, 1), (0, 2), (0, 3), (1, 3), (2, 0), (2, 3)] {
        assert_eq!(would_commit(&folder, permit_role(record, reach)), conflict);
    }
    // Filters leave the record itself out.
    let child = sample_after(&[numbered(1, deny_role(1, 0))]);
    let without = Fields {
        po: 0x0002,
        ..permit_role(1, 3)
    };
    assert_eq!(would_commit(&child, without), Ok(()));
    assert_eq!(would_commit(&child, permit_role(1, 3)), conflict);
}

/// A deny that names the author of the record itself or of a deep descendant
/// is 12.
#[test]
fn a_folder_breaks_the_baseline_at_every_depth() {
    let ledger = sample().ledger();
    let broken = Err(Refusal::BaselineBroken);
    for (record, reach, breaks) in [
        (0, 3, [true, true, true]),
        (1, 3, [false, true, true]),
        (2, 3, [false, false, true]),
        (0, 2, [false, true, true]),
    ] {
        for (person, breaks) in (500..).zip(breaks) {
            let expected = if breaks { broken } else { Ok(()) };
            let draft = deny_person(person, record, reach);
            assert_eq!(would_commit(&ledger, draft), expected, "{draft:?}");
        }
        assert_eq!(would_commit(&ledger, deny_person(7, record, reach)), broken);
    }
    let deep = full().ledger();
    for (number, person) in (0..128).zip(500..) {
        assert_eq!(would_commit(&deep, deny_person(person, 0, 3)), broken);
        let expected = if number < 64 { Ok(()) } else { broken };
        assert_eq!(would_commit(&deep, deny_person(person, 64, 3)), expected);
    }
    // Filters leave out what the author wrote.
    let without = Fields {
        po: 0x0002,
        ..deny_person(501, 1, 3)
    };
    assert_eq!(would_commit(&ledger, without), Ok(()));
}

/// Cards of editions 1 and 2 may carry reach 3, and the writer gives it back.
#[test]
fn cards_of_both_editions_carry_a_folder() {
    for edition in [1, 2] {
        let card = Card {
            edition,
            ..sample().with(&[deny_role(1, 3)])
        };
        let ledger = card.ledger();
        assert_eq!(ledger.active()[0].reach, Reach::Folder);
        let mut buffer = [0; 200];
        let length = card::write(&ledger, &mut buffer).expect("200 bytes are enough");
        assert_eq!(
            buffer[..length],
            sample().with(&[deny_role(1, 3)]).bytes()[..]
        );
        assert_eq!(card::read(&buffer[..length]), Ok(ledger));
        let wrong = Card {
            edition,
            ..sample().with(&[deny_role(1, 4)])
        };
        assert_eq!(wrong.read(), Err(Refusal::DraftRange));
    }
}

#[test]
fn a_folder_decides_at_every_depth_and_leaves_briefs() {
    let mut ledger = sample().ledger();
    ledger.issue(9, 600, 0x01, 30).expect("the token is issued");
    let brief = ledger.brief(9, 600).expect("the token is live");
    assert_eq!(commit(&mut ledger, deny_role(1, 3)), Ok(()));
    let decide = |record, origin| {
        ledger.decide(Query {
            record,
            origin,
            ..query_q()
        })
    };
    assert_eq!(decide(0, 0), permit(Basis::Default));
    assert_eq!(decide(1, 1), deny(Basis::Directive(2)));
    assert_eq!(decide(2, 1), deny(Basis::Directive(2)));
    assert_eq!(ledger.brief(9, 600), Ok(brief));
}

#[test]
fn a_preview_of_a_folder_shows_the_record_itself() {
    let ledger = sample().ledger();
    let shown = |draft: Fields| {
        let preview = ledger.preview(requester_q(), &draft.encode());
        preview.map(|preview| preview.words().words[0])
    };
    assert_eq!(shown(deny_role(1, 3)), Ok(0b110));
    assert_eq!(shown(deny_role(1, 2)), Ok(0b100));
    assert_eq!(shown(deny_role(2, 3)), Ok(0b100));
    assert_eq!(shown(deny_role(2, 2)), Err(Refusal::Redundant));
    assert_eq!(shown(deny_role(1, 4)), Err(Refusal::DraftRange));
}

/// The card in words, a refused draft explained, and its facts.
#[test]
fn a_folder_in_words() {
    let card = sample().with(&[numbered(1, deny_role(1, 3))]).bytes();
    let shown = show(&card).text;
    for row in [
        "    to       record 1 and everything under it\n",
        "    selects  records 1, 2\n",
    ] {
        assert!(shown.contains(row), "{shown}");
    }
    let commit = |draft: Fields| Call::Commit {
        draft: draft.encode().to_vec(),
    };
    // Record 0 is permitted beside the folder of record 1; its own folder then
    // meets the permit there.
    let drafts = [
        deny_role(1, 2),
        permit_role(0, 0),
        numbered(3, deny_role(0, 3)),
        numbered(3, deny_person(502, 1, 3)),
    ];
    let replay = encode(&card, &drafts.map(commit));
    let explained = explain(&replay);
    let words = |line: usize| explained[line].words.as_str();
    assert!(words(1).contains("to everything under record 1, without itself"));
    assert!(words(1).contains("to record 1 and everything under it"));
    assert!(words(3).contains("to record 0 and everything under it"));
    assert!(words(3).contains("asks for access to record 0"));
    let (facts, _) = facts(&replay);
    let expected = value(
        r#"{"card": {"refusal": 0}, "calls": [
            {"tag": 16, "line": "14", "cover": [1]},
            {"tag": 16, "line": "0"},
            {"tag": 16, "line": "13 2", "number": 2, "request": {"person": 0, "role": 1,
                "origin": 0, "record": 0, "purpose": 0, "minute": 1000, "any_person": true}},
            {"tag": 16, "line": "12", "patient": false, "records": [2]}]}"#,
    );
    assert_eq!(facts, expected);
}

/// On random small cards, a draft of every record and reach against every
/// active one, and against two together: conflict, baseline and redundancy
/// are those of the definitions.
#[test]
fn every_reach_against_every_other() {
    let mut random = Random::new(51);
    // By the reaches of the draft and of the active one: how many conflict, and
    // how many are redundant.
    let mut conflicts = [[0; 4]; 4];
    let mut redundants = [[0; 4]; 4];
    let mut together = [0; 4];
    let mut broken = [0; 4];
    for _ in 0..80 {
        let card = small_world::card(&mut random);
        let ledger = card.ledger();
        let register = ledger.register();
        let clock = card.clock;
        let some = small_world::draft(&card, clock, &mut random);
        let person = card.records[random.index(card.records.len())].author;
        let count = card.records.len() as u8;
        let everywhere: Vec<Fields> = (0..count)
            .flat_map(|record| (0..=3).map(move |reach| (record, reach)))
            .map(|(record, reach)| Fields {
                effect: DENY,
                kind: PERSON,
                subject: person,
                subject_origins: 1,
                purposes: 1,
                record,
                reach,
                from: clock,
                until: clock.saturating_add(1),
                ..some
            })
            .collect();
        let mut model = Model::new(&card);
        let requests = model.requests(&everywhere[..1]);
        let read = |fields: &Fields| Directive::from_fields(fields).expect("the ranges are kept");
        for draft in &everywhere {
            let directive = read(draft);
            let row = usize::from(draft.reach);
            let breaks = model.breaks_baseline(&requests, draft);
            let found = breaks_baseline(register, card.patient, clock, &directive);
            assert_eq!(found, breaks, "{draft:?} on {card:?}");
            broken[row] += usize::from(breaks);
            for one in &everywhere {
                let column = usize::from(one.reach);
                let opposite = Fields {
                    effect: PERMIT,
                    ..*one
                };
                let conflict = model.conflict(&requests, draft, &opposite);
                let found = lowest_conflict(register, clock, &directive, &[read(&opposite)]);
                assert_eq!(found.is_some(), conflict, "{draft:?} {one:?} on {card:?}");
                conflicts[row][column] += usize::from(conflict);
                model.active = vec![*one];
                let covered = model.redundant(&requests, draft);
                let found = redundant(register, clock, &directive, &[read(one)]);
                assert_eq!(found, covered, "{draft:?} {one:?} on {card:?}");
                let selects = directive.selected(register) != 0;
                redundants[row][column] += usize::from(covered && selects);
                let other = everywhere[random.index(everywhere.len())];
                model.active = vec![*one, other];
                let by_both = model.redundant(&requests, draft);
                let found = redundant(register, clock, &directive, &[read(one), read(&other)]);
                assert_eq!(found, by_both, "{draft:?} {one:?} {other:?} on {card:?}");
                model.active = vec![other];
                let by_other = model.redundant(&requests, draft);
                together[row] += usize::from(by_both && !covered && !by_other);
            }
        }
    }
    let often = |counts: &[usize]| counts.iter().all(|count| *count >= 20);
    assert!(often(conflicts.as_flattened()), "{conflicts:?}");
    assert!(often(redundants.as_flattened()), "{redundants:?}");
    assert!(often(&broken), "{broken:?}");
    // One record takes one directive to cover it.
    assert_eq!(together[0], 0);
    assert!(
        together[1..].iter().all(|count| *count >= 5),
        "{together:?}"
    );
}
