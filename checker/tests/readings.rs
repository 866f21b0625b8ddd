//! The settled readings of document 01, sentence by sentence.

use checker::bytes::field;
use checker::card;
use checker::cardcheck::cardcheck;
use checker::directive::Fields;
use checker::ledger::{Basis, Dropped, Ledger};
use checker::refusal::Refusal;
use checker::register::{Reach, Record, RecordWords};
use checker::request::Query;

use crate::support::*;

fn refusal_of(card: &[u8]) -> u8 {
    match card::read(card) {
        Ok(_) => 0,
        Err(refusal) => refusal.number(),
    }
}

fn refusal_of_fields(fields: &[Vec<u8>]) -> u8 {
    refusal_of(&fields.concat())
}

fn line(card: &[u8]) -> String {
    let answer = cardcheck(card).expect("a slice can be read");
    answer.to_string()
}

/// Records of a full register, all children of record 0.
fn many_records(count: usize) -> Vec<Record> {
    vec![record(0, 500, 1, 1, 0, 0); count]
}

// Card

#[test]
fn the_first_field_with_a_no_answers() {
    let mut bad_record = sample().records[1];
    bad_record.record_type = 8;
    let good = sample().fields();
    let unknown = field(0xFF, &[]);
    let first_range = [
        &good[..3],
        &[record_field(&bad_record)],
        std::slice::from_ref(&unknown),
    ];
    assert_eq!(refusal_of_fields(&first_range.concat()), 4);
    let first_place = [&good[..3], &[unknown], &[record_field(&bad_record)]];
    assert_eq!(refusal_of_fields(&first_place.concat()), 2);
}

#[test]
fn bytes_left_over_are_a_field_that_is_not_whole() {
    let whole = sample().bytes();
    assert_eq!(refusal_of(&whole), 0);
    for left_over in [&[0x03][..], &[0x04, 0x00], &[0xFF], &[0xFF, 0x00]] {
        assert_eq!(refusal_of(&[&whole, left_over].concat()), 1);
        assert_eq!(refusal_of(left_over), 1);
    }
}

#[test]
fn whole_comes_before_place_whatever_the_tag() {
    assert_eq!(refusal_of(&[0xFF, 0x00, 0x01]), 1);
    assert_eq!(refusal_of(&[0xFF, 0x00, 0x00]), 2);
    let whole = sample().bytes();
    for tag in 0..=255 {
        let short = [&whole[..], &[tag, 0x00, 0x01]].concat();
        assert_eq!(refusal_of(&short), 1, "tag {tag}");
        let empty = [&whole[..], &[tag, 0x00, 0x00]].concat();
        assert_eq!(refusal_of(&empty), 2, "tag {tag}");
    }
}

#[test]
fn each_cut_of_a_card_has_its_refusal() {
    let card = sample().with(&[directive_a()]);
    let fields = card.fields();
    let mut ends = vec![0];
    for field in &fields {
        ends.push(ends[ends.len() - 1] + field.len());
    }
    let bytes = card.bytes();
    for length in 0..=bytes.len() {
        let expected = match ends.iter().position(|end| *end == length) {
            None => 1,
            Some(0..=2) => 5,
            Some(_) => 0,
        };
        assert_eq!(refusal_of(&bytes[..length]), expected, "{length} bytes");
    }
}

#[test]
fn role_bytes_are_1_to_16() {
    for (count, expected) in [(0, 2), (1, 0), (16, 0), (17, 2), (255, 2)] {
        let card = Card {
            roles: vec![0; count],
            ..sample()
        };
        assert_eq!(refusal_of(&card.bytes()), expected, "{count} roles");
    }
}

#[test]
fn the_other_editions_directive_length_has_no_place() {
    let a = directive_a();
    let card = |edition| Card {
        edition,
        ..sample()
    };
    let with = |edition, value: &[u8]| [card(edition).bytes(), field(0x04, value)].concat();
    assert_eq!(refusal_of(&with(2, &a.encode())), 0);
    assert_eq!(refusal_of(&with(2, &a.encode_edition_1())), 2);
    assert_eq!(refusal_of(&with(1, &a.encode())), 2);
    assert_eq!(refusal_of(&with(1, &a.encode_edition_1())), 0);
    for edition in [1, 2] {
        for length in [0, 22, 24, 26] {
            assert_eq!(refusal_of(&with(edition, &vec![0; length])), 2);
        }
    }
}

#[test]
fn repeated_and_misplaced_tags_have_no_place() {
    let card = sample().with(&[directive_a()]);
    let fields = card.fields();
    let [head, roles, first, second, third, directive] = &fields[..] else {
        panic!("six fields");
    };
    let wrong: &[&[&Vec<u8>]] = &[
        &[head, head, roles, first],
        &[head, roles, roles, first],
        &[head, roles, first, head],
        &[head, roles, first, roles],
        &[roles, head, first],
        &[head, first, roles],
        &[roles],
        &[first],
        &[directive],
        &[head, directive],
        &[head, roles, directive, first],
        &[head, roles, first, second, directive, third],
        &[head, roles, first, second, third, directive, head],
        &[head, roles, first, second, third, directive, roles],
    ];
    for fields in wrong {
        let bytes: Vec<u8> = fields.iter().copied().flatten().copied().collect();
        assert_eq!(refusal_of(&bytes), 2, "{fields:02x?}");
    }
    for tag in [0x00, 0x05, 0x06, 0x10, 0x84, 0xFF] {
        let other = field(tag, &[]);
        for place in 0..=fields.len() {
            let mut with_other = fields.clone();
            with_other.insert(place, other.clone());
            assert_eq!(refusal_of_fields(&with_other), 2, "tag {tag} at {place}");
        }
    }
}

#[test]
fn lengths_of_head_and_record() {
    let fields = sample().fields();
    for (index, right) in [(0, 7), (2, 10)] {
        for length in 0..=40 {
            let mut changed = fields.clone();
            let mut value = changed[index][3..].to_vec();
            value.resize(length, 1);
            changed[index] = field(changed[index][0], &value);
            let expected = if length == right { 0 } else { 2 };
            assert_eq!(refusal_of_fields(&changed), expected, "{index} {length}");
        }
    }
}

#[test]
fn the_129th_record() {
    let full = Card {
        records: many_records(128),
        ..sample()
    };
    assert_eq!(line(&full.bytes()), "0 128 0");
    let good = record_field(&full.records[1]);
    let out_of_range = field(0x03, &[0xFF; 10]);
    let after = |last: &[u8]| refusal_of(&[&full.bytes(), last].concat());
    assert_eq!(after(&good), 3);
    assert_eq!(after(&out_of_range), 3);
    assert_eq!(after(&field(0x03, &[0; 9])), 2);
    assert_eq!(after(&field(0x03, &[0; 11])), 2);
    assert_eq!(after(&field(0x03, &[])), 2);
    let with_directive = full.with(&[directive_a()]).bytes();
    assert_eq!(refusal_of(&[with_directive, good].concat()), 2);
}

#[test]
fn the_edition_is_1_or_2() {
    for edition in 0..=255 {
        let card = Card {
            edition,
            ..sample()
        };
        let expected = if edition == 1 || edition == 2 { 0 } else { 4 };
        assert_eq!(refusal_of(&card.bytes()), expected, "edition {edition}");
    }
}

#[test]
fn a_role_is_below_its_own_number() {
    for role in 0..16 {
        for parent in 0..=20 {
            let mut card = Card {
                roles: vec![0; 16],
                ..sample()
            };
            card.roles[role] = parent;
            let keeps = usize::from(parent) < role || (role == 0 && parent == 0);
            let expected = if keeps { 0 } else { 4 };
            assert_eq!(refusal_of(&card.bytes()), expected, "{role} under {parent}");
        }
    }
}

#[test]
fn a_record_keeps_its_ranges() {
    let with = |number: usize, change: &dyn Fn(&mut Record)| {
        let mut card = sample();
        change(&mut card.records[number]);
        refusal_of(&card.bytes())
    };
    for number in 0..3 {
        for parent in 0..=255 {
            let keeps = usize::from(parent) < number || (number == 0 && parent == 0);
            let expected = if keeps { 0 } else { 4 };
            assert_eq!(with(number, &|record| record.parent = parent), expected);
        }
        assert_eq!(with(number, &|record| record.origins = 0), 4);
        assert_eq!(with(number, &|record| record.origins = 0x8000), 0);
        assert_eq!(with(number, &|record| record.sensitivities = 0), 4);
        assert_eq!(with(number, &|record| record.sensitivities = 0x8000), 0);
        assert_eq!(with(number, &|record| record.labels = 0), 0);
        assert_eq!(with(number, &|record| record.author = 65535), 0);
        for record_type in 0..=255 {
            let expected = if record_type < 8 { 0 } else { 4 };
            let refusal = with(number, &|record| record.record_type = record_type);
            assert_eq!(refusal, expected, "type {record_type}");
        }
    }
}

#[test]
fn a_directives_record_out_of_range_is_8() {
    for (record, expected) in [(2, 0), (3, 8), (128, 8), (255, 8)] {
        let card = sample().with(&[Fields {
            record,
            reach: 0,
            ..directive_a()
        }]);
        assert_eq!(refusal_of(&card.bytes()), expected, "record {record}");
    }
}

#[test]
fn card_directives_are_put_to_7_to_13_in_their_order() {
    let a = directive_a();
    let wrong_effect = Fields { effect: 2, ..a };
    let card = |directives: &[Fields]| sample().with(directives).read();
    assert_eq!(card(&[wrong_effect]), Err(Refusal::DraftRange));
    let unknown_role = Fields { subject: 4, ..a };
    assert_eq!(card(&[unknown_role]), Err(Refusal::UnknownRoleOrRecord));
    // 10 to 13 look at what has been read so far.
    assert_eq!(card(&[a, a]), Err(Refusal::NumberTaken));
    let of_patient = numbered(5, draft(DENY, (PERSON, 7), 1, 0));
    assert_eq!(card(&[a, of_patient]), Err(Refusal::BaselineBroken));
    let permit_600 = numbered(5, draft(PERMIT, (PERSON, 600), 1, 0));
    assert_eq!(card(&[a, permit_600]), Err(Refusal::Conflict(1)));
    assert_eq!(card(&[permit_600, a]), Err(Refusal::Conflict(5)));
}

#[test]
fn card_directives_are_judged_at_the_cards_clock() {
    // They share the minutes before 1500.
    let a = over(0, 2000, directive_a());
    let permit_600 = over(0, 1500, draft(PERMIT, (PERSON, 600), 1, 0));
    let at = |clock| {
        let card = Card { clock, ..sample() };
        card.with(&[permit_600, a]).read().err()
    };
    assert_eq!(at(1499), Some(Refusal::Conflict(2)));
    assert_eq!(at(1500), Some(Refusal::DraftMinutes));
}

#[test]
fn a_run_out_directive_refuses_the_card() {
    for (until, expected) in [(1001, 0), (1000, 9), (999, 9)] {
        let card = sample().with(&[over(0, until, directive_a())]);
        assert_eq!(refusal_of(&card.bytes()), expected, "until {until}");
    }
}

#[test]
fn a_card_has_at_most_32_directives() {
    let different = |count: u16| -> Vec<Fields> {
        (1..=count)
            .map(|number| numbered(number, directive_a()))
            .collect()
    };
    // 32 directives that say the same are read and count.
    assert_eq!(line(&sample().with(&different(32)).bytes()), "0 3 32");
    let card = sample().with(&different(33)).read();
    assert_eq!(card, Err(Refusal::TooManyDirectives));
    // 10 before 11; 11 before 12 and 13.
    let mut taken = different(32);
    taken.push(numbered(5, directive_a()));
    assert_eq!(sample().with(&taken).read(), Err(Refusal::NumberTaken));
    let mut against = different(32);
    against.push(numbered(40, draft(DENY, (PERSON, 7), 1, 0)));
    let card = sample().with(&against).read();
    assert_eq!(card, Err(Refusal::TooManyDirectives));
}

#[test]
fn redundant_directives_on_a_card_stay_and_count() {
    let same = numbered(2, directive_a());
    let selects_nothing = numbered(3, draft(PERMIT, (ROLE, 3), 2, 1));
    let card = sample().with(&[directive_a(), same, selects_nothing]);
    assert_eq!(line(&card.bytes()), "0 3 3");
}

#[test]
fn a_card_that_ends_early() {
    let card = sample();
    assert_eq!(refusal_of(&[]), 5);
    assert_eq!(refusal_of(&card.head()), 5);
    assert_eq!(refusal_of(&[card.head(), card.role_field()].concat()), 5);
}

#[test]
fn a_refused_read_carries_its_number_and_cardcheck_two_zeros() {
    let permit_600 = numbered(65535, draft(PERMIT, (PERSON, 600), 1, 0));
    let card = sample().with(&[permit_600, directive_a()]);
    assert_eq!(card.read(), Err(Refusal::Conflict(65535)));
    assert_eq!(line(&card.bytes()), "13 0 0");
    assert_eq!(line(&[]), "5 0 0");
    assert_eq!(line(&[0xFF]), "1 0 0");
}

#[test]
fn the_sample_card_of_document_01() {
    let sample = [
        0x01, 0x00, 0x07, 0x02, 0x00, 0x07, 0x00, 0x00, 0x03, 0xE8, 0x02, 0x00, 0x01, 0x00, 0x03,
        0x00, 0x0A, 0x00, 0x01, 0xF4, 0x00, 0x01, 0x00, 0x01, 0x00, 0x00, 0x00,
    ];
    assert_eq!(line(&sample), "0 1 0");
    let ledger = card::read(&sample).expect("the card is accepted");
    assert_eq!((ledger.patient(), ledger.clock()), (7, 1000));
    assert_eq!(ledger.register().roles(), [0]);
    assert_eq!(ledger.register().records(), [record(0, 500, 1, 1, 0, 0)]);
}

#[test]
fn only_cardcheck_cuts_the_card() {
    // A last field without a place, whole in the card.
    let start = sample().bytes();
    let long = |total: usize| {
        [
            start.clone(),
            field(0xFF, &vec![0; total - start.len() - 3]),
        ]
    };
    for (total, of_cardcheck) in [(65_535, "2 0 0"), (65_536, "1 0 0")] {
        let card = long(total).concat();
        assert_eq!(card.len(), total);
        assert_eq!(refusal_of(&card), 2);
        assert_eq!(line(&card), of_cardcheck);
    }
}

#[test]
fn the_longest_card_has_2589_bytes() {
    let directives: Vec<Fields> = (1..=32)
        .map(|number| numbered(number, directive_a()))
        .collect();
    let card = Card {
        roles: vec![0; 16],
        records: many_records(128),
        ..sample()
    };
    let bytes = card.with(&directives).bytes();
    assert_eq!(bytes.len(), 2589);
    assert_eq!(line(&bytes), "0 128 32");
}

// Register and matching

#[test]
fn the_root_is_not_its_own_child() {
    let ledger = sample().ledger();
    let register = ledger.register();
    let reached = |top: u8, reach: Reach| -> Vec<u8> {
        (0..=255)
            .filter(|record| register.reaches(top, reach, *record))
            .collect()
    };
    assert_eq!(reached(0, Reach::Itself), [0]);
    assert_eq!(reached(0, Reach::Children), [1]);
    assert_eq!(reached(0, Reach::Descendants), [1, 2]);
    assert_eq!(reached(0, Reach::Folder), [0, 1, 2]);
    assert_eq!(reached(1, Reach::Itself), [1]);
    assert_eq!(reached(1, Reach::Children), [2]);
    assert_eq!(reached(1, Reach::Descendants), [2]);
    assert_eq!(reached(1, Reach::Folder), [1, 2]);
    assert_eq!(reached(2, Reach::Itself), [2]);
    assert_eq!(reached(2, Reach::Children), [] as [u8; 0]);
    for reach in Reach::ALL {
        for top in 3..=255 {
            assert_eq!(reached(top, reach), [] as [u8; 0]);
        }
    }
}

#[test]
fn a_role_covers_itself_and_those_below_it() {
    let ledger = sample().ledger();
    let covered = |role: u16| -> Vec<u16> {
        (0..300)
            .filter(|other| ledger.register().covers(role, *other))
            .collect()
    };
    assert_eq!(covered(0), [0, 1, 2, 3]);
    assert_eq!(covered(1), [1, 2]);
    assert_eq!(covered(2), [2]);
    assert_eq!(covered(3), [3]);
    assert_eq!(covered(4), [] as [u16; 0]);
    assert_eq!(covered(256), [] as [u16; 0]);
}

#[test]
fn sets_may_have_bits_that_the_register_does_not_use() {
    let ledger = sample().ledger();
    let unused = Fields {
        subject_origins: 0x8000,
        po: 0x8003,
        ps: 0x8003,
        pt: 0x81,
        ..draft(PERMIT, (ROLE, 3), 0, 2)
    };
    assert_eq!(would_commit(&ledger, unused), Ok(()));
    for purposes in [0x0800, 0x8001, 0xFFFF] {
        let beyond = Fields { purposes, ..unused };
        assert_eq!(would_commit(&ledger, beyond), Err(Refusal::DraftRange));
    }
    let last = Fields {
        purposes: 0x0400,
        ..unused
    };
    assert_eq!(would_commit(&ledger, last), Ok(()));
}

#[test]
fn which_subjects_meet() {
    let deny = |subject| numbered(1, draft(DENY, subject, 1, 0));
    let permit = |subject| draft(PERMIT, subject, 1, 0);
    let expected = [
        ((PERSON, 600), (PERSON, 600), true),
        ((PERSON, 600), (PERSON, 601), false),
        ((PERSON, 600), (ROLE, 3), true),
        ((ROLE, 3), (PERSON, 600), true),
        ((PERSON, 3), (ROLE, 3), true),
        ((ROLE, 1), (ROLE, 2), true),
        ((ROLE, 2), (ROLE, 1), true),
        ((ROLE, 0), (ROLE, 3), true),
        ((ROLE, 2), (ROLE, 2), true),
        ((ROLE, 1), (ROLE, 3), false),
        ((ROLE, 3), (ROLE, 2), false),
    ];
    for (one, other, meet) in expected {
        let ledger = sample_after(&[deny(one)]);
        let answer = would_commit(&ledger, permit(other));
        let conflict = if meet {
            Err(Refusal::Conflict(1))
        } else {
            Ok(())
        };
        assert_eq!(answer, conflict, "{one:?} {other:?}");
    }
}

#[test]
fn directives_on_all_children_do_not_cover_the_role() {
    let on = |role| draft(PERMIT, (ROLE, role), 1, 0);
    let children = [numbered(1, on(1)), numbered(3, on(3))];
    assert_eq!(would_commit(&sample_after(&children), on(0)), Ok(()));
    let one_child = [numbered(1, on(2))];
    assert_eq!(would_commit(&sample_after(&one_child), on(1)), Ok(()));
    // A person presents any role, so only the top covers one.
    let person = draft(PERMIT, (PERSON, 600), 1, 0);
    assert_eq!(would_commit(&sample_after(&children), person), Ok(()));
    let top = [numbered(1, on(0))];
    let covered = would_commit(&sample_after(&top), person);
    assert_eq!(covered, Err(Refusal::Redundant));
}

#[test]
fn directives_on_persons_do_not_cover_a_role() {
    let persons: Vec<Fields> = (1..=31)
        .map(|number| numbered(number, draft(PERMIT, (PERSON, number), 1, 0)))
        .collect();
    let role = numbered(40, draft(PERMIT, (ROLE, 3), 1, 0));
    assert_eq!(would_commit(&sample_after(&persons), role), Ok(()));
}

#[test]
fn no_directive_matches_the_last_minute() {
    let last = u32::MAX;
    let card = Card {
        clock: last - 1,
        ..sample()
    };
    let mut ledger = card.ledger();
    let a = over(0, last, directive_a());
    assert_eq!(commit(&mut ledger, a), Ok(()));
    assert_eq!(ledger.decide(query_q()), deny(Basis::Directive(1)));
    let dropped = Dropped {
        directives: 1,
        tokens: 0,
    };
    assert_eq!(ledger.advance(last), Ok(dropped));
    assert_eq!(ledger.decide(query_q()), permit(Basis::Default));
    assert_eq!(would_commit(&ledger, a), Err(Refusal::DraftMinutes));
}

// Validation

#[test]
fn a_deny_of_the_patient_that_selects_nothing_breaks_nothing() {
    let ledger = sample().ledger();
    let nothing = draft(DENY, (PERSON, 7), 2, 1);
    assert_eq!(would_commit(&ledger, nothing), Err(Refusal::Redundant));
    let something = draft(DENY, (PERSON, 7), 1, 1);
    assert_eq!(
        would_commit(&ledger, something),
        Err(Refusal::BaselineBroken)
    );
}

#[test]
fn the_baseline_looks_at_the_records_selected() {
    let ledger = sample().ledger();
    let all = draft(DENY, (PERSON, 502), 0, 2);
    assert_eq!(would_commit(&ledger, all), Err(Refusal::BaselineBroken));
    // Record 2, their own, is filtered out by one of its sensitivities.
    let filtered = Fields { ps: 0x0001, ..all };
    assert_eq!(would_commit(&ledger, filtered), Ok(()));
    // A permit and a deny on a role break nothing.
    let permit = draft(PERMIT, (PERSON, 502), 0, 2);
    assert_eq!(would_commit(&ledger, permit), Ok(()));
    let role = draft(DENY, (ROLE, 0), 0, 2);
    assert_eq!(would_commit(&ledger, role), Ok(()));
}

#[test]
fn the_baseline_is_judged_from_the_clock_on() {
    // The minutes before the clock are over, those after are not.
    let ledger = sample().ledger();
    let of_author = over(0, 1001, draft(DENY, (PERSON, 502), 1, 1));
    assert_eq!(
        would_commit(&ledger, of_author),
        Err(Refusal::BaselineBroken)
    );
}

#[test]
fn requests_of_patient_and_authors_count_in_13_and_14() {
    let ledger = sample_after(&[directive_a()]);
    for person in [7, 501] {
        let permit = draft(PERMIT, (PERSON, person), 1, 0);
        assert_eq!(would_commit(&ledger, permit), Err(Refusal::Conflict(1)));
        // The baseline permits them already, and the draft is accepted.
        assert_eq!(would_commit(&sample().ledger(), permit), Ok(()));
    }
}

#[test]
fn the_default_consent_does_not_make_a_draft_redundant() {
    let ledger = sample().ledger();
    assert_eq!(ledger.decide(query_q()), permit(Basis::Default));
    let same = Fields {
        subject_origins: 0x0002,
        purposes: 0x0001,
        ..draft(PERMIT, (PERSON, 600), 1, 0)
    };
    assert_eq!(would_commit(&ledger, same), Ok(()));
}

#[test]
fn a_conflict_names_the_lowest_number_by_value() {
    let on = |number, record| numbered(number, draft(DENY, (ROLE, 1), record, 0));
    let ledger = sample_after(&[on(300, 1), on(20, 2), on(5, 0)]);
    let permit = numbered(1, draft(PERMIT, (ROLE, 1), 0, 2));
    assert_eq!(would_commit(&ledger, permit), Err(Refusal::Conflict(20)));
}

#[test]
fn ranges_come_before_the_register() {
    let ledger = sample().ledger();
    let kind_2 = draft(PERMIT, (2, 99), 1, 0);
    assert_eq!(would_commit(&ledger, kind_2), Err(Refusal::DraftRange));
    let no_set = Fields {
        ps: 0,
        ..draft(PERMIT, (ROLE, 99), 200, 0)
    };
    assert_eq!(would_commit(&ledger, no_set), Err(Refusal::DraftRange));
}

#[test]
fn a_role_is_16_bits() {
    let ledger = sample().ledger();
    for (role, answer) in [
        (3, Ok(())),
        (4, Err(Refusal::UnknownRoleOrRecord)),
        (255, Err(Refusal::UnknownRoleOrRecord)),
        (256, Err(Refusal::UnknownRoleOrRecord)),
        (257, Err(Refusal::UnknownRoleOrRecord)),
        (65535, Err(Refusal::UnknownRoleOrRecord)),
    ] {
        let draft = draft(PERMIT, (ROLE, role), 1, 0);
        assert_eq!(would_commit(&ledger, draft), answer, "role {role}");
    }
    for role in [4, 256, 257, 65535] {
        let query = Query { role, ..query_q() };
        assert_eq!(ledger.decide(query), Err(Refusal::QueryRange));
    }
}

#[test]
fn persons_never_get_8() {
    let ledger = sample().ledger();
    for person in [0, 4, 255, 256, 65535] {
        let draft = draft(DENY, (PERSON, person), 1, 0);
        assert_eq!(would_commit(&ledger, draft), Ok(()), "person {person}");
    }
}

#[test]
fn minutes_of_a_draft() {
    let ledger = sample().ledger();
    for ((from, until), answer) in [
        ((1500, 1500), Err(Refusal::DraftMinutes)),
        ((1501, 1500), Err(Refusal::DraftMinutes)),
        ((900, 1000), Err(Refusal::DraftMinutes)),
        ((900, 999), Err(Refusal::DraftMinutes)),
        ((0, 0), Err(Refusal::DraftMinutes)),
        ((u32::MAX, u32::MAX), Err(Refusal::DraftMinutes)),
        ((900, 1001), Ok(())),
        ((0, u32::MAX), Ok(())),
        ((u32::MAX - 1, u32::MAX), Ok(())),
        ((1000, 1001), Ok(())),
    ] {
        let draft = over(from, until, directive_a());
        assert_eq!(would_commit(&ledger, draft), answer, "{from}..{until}");
    }
}

#[test]
fn order_of_10_to_14_with_32_active() {
    let mut ledger = sample().ledger();
    for number in 1..=32 {
        let deny = draft(DENY, (PERSON, 1000 + number), 1, 0);
        assert_eq!(commit(&mut ledger, numbered(number, deny)), Ok(()));
    }
    let full = ledger.clone();
    let taken = numbered(32, draft(DENY, (PERSON, 7), 1, 0));
    assert_eq!(commit(&mut ledger, taken), Err(Refusal::NumberTaken));
    // Each of these would miss 12, 13 or 14.
    for draft in [
        draft(DENY, (PERSON, 7), 1, 0),
        draft(PERMIT, (PERSON, 1001), 1, 0),
        draft(DENY, (PERSON, 1001), 1, 0),
    ] {
        let other = numbered(33, draft);
        assert_eq!(commit(&mut ledger, other), Err(Refusal::TooManyDirectives));
    }
    assert_eq!(ledger, full);
    assert_eq!(ledger.revoke(32), Ok(()));
    let of_patient = numbered(33, draft(DENY, (PERSON, 7), 1, 0));
    let refusal = Err(Refusal::BaselineBroken);
    assert_eq!(would_commit(&ledger, of_patient), refusal);
    let opposite = numbered(33, draft(PERMIT, (PERSON, 1001), 1, 0));
    let refusal = Err(Refusal::Conflict(1));
    assert_eq!(would_commit(&ledger, opposite), refusal);
    let same = numbered(33, draft(DENY, (PERSON, 1001), 1, 0));
    assert_eq!(would_commit(&ledger, same), Err(Refusal::Redundant));
    let new = numbered(32, draft(DENY, (PERSON, 2000), 1, 0));
    assert_eq!(would_commit(&ledger, new), Ok(()));
}

#[test]
fn baseline_before_conflict_before_redundancy() {
    let permit_502 = numbered(1, draft(PERMIT, (PERSON, 502), 1, 1));
    let ledger = sample_after(&[permit_502]);
    let deny_502 = draft(DENY, (PERSON, 502), 1, 1);
    assert_eq!(
        would_commit(&ledger, deny_502),
        Err(Refusal::BaselineBroken)
    );
    let deny_role = draft(DENY, (ROLE, 0), 1, 1);
    assert_eq!(would_commit(&ledger, deny_role), Err(Refusal::Conflict(1)));
}

#[test]
fn commit_takes_25_bytes_after_any_card() {
    for edition in [1, 2] {
        let card = Card {
            edition,
            ..sample()
        };
        let ledger = card.ledger();
        let bytes = [directive_a().encode(), directive_a().encode()].concat();
        for length in 0..=50 {
            let answer = ledger.clone().commit(&bytes[..length]);
            let expected = if length == 25 {
                Ok(())
            } else {
                Err(Refusal::DraftLength)
            };
            assert_eq!(answer, expected, "{length} bytes");
        }
    }
}

// Calls

#[test]
fn question_17_comes_before_the_baseline() {
    let ledger = sample().ledger();
    let of_patient = Query {
        person: 7,
        ..query_q()
    };
    assert_eq!(ledger.decide(of_patient), permit(Basis::Patient));
    let wrong = [
        Query {
            role: 4,
            ..of_patient
        },
        Query {
            origin: 16,
            ..of_patient
        },
        Query {
            origin: 255,
            ..of_patient
        },
        Query {
            record: 3,
            ..of_patient
        },
        Query {
            record: 255,
            ..of_patient
        },
        Query {
            purpose: 11,
            ..of_patient
        },
        Query {
            purpose: 255,
            ..of_patient
        },
    ];
    for query in wrong {
        assert_eq!(ledger.decide(query), Err(Refusal::QueryRange), "{query:?}");
    }
    let at_the_edge = Query {
        role: 3,
        origin: 15,
        record: 2,
        purpose: 10,
        ..of_patient
    };
    assert_eq!(ledger.decide(at_the_edge), permit(Basis::Patient));
    let of_empty = Query {
        person: 0,
        role: 0,
        origin: 0,
        record: 0,
        purpose: 0,
    };
    assert_eq!(Ledger::default().decide(of_empty), Err(Refusal::QueryRange));
}

#[test]
fn patient_and_author_in_one_person() {
    let mut card = sample();
    card.records[1].author = 7;
    let query = Query {
        person: 7,
        ..query_q()
    };
    assert_eq!(card.ledger().decide(query), permit(Basis::Patient));
}

#[test]
fn basis_3_names_the_lowest_matching_number() {
    let on = |number, (from, until)| numbered(number, over(from, until, directive_a()));
    let not_yet = on(1, (1500, 2500));
    let ledger = sample_after(&[on(9, (1000, 2000)), on(4, (900, 2100)), not_yet]);
    assert_eq!(ledger.decide(query_q()), deny(Basis::Directive(4)));
}

#[test]
fn the_default_consent_needs_the_origin_and_treatment() {
    let ledger = sample().ledger();
    for origin in 0..16 {
        for purpose in 0..11 {
            let query = Query {
                origin,
                purpose,
                ..query_q()
            };
            let expected = if origin < 2 && purpose == 0 {
                permit(Basis::Default)
            } else {
                deny(Basis::Default)
            };
            assert_eq!(ledger.decide(query), expected, "{query:?}");
        }
    }
}

#[test]
fn tokens_do_not_bear_on_decide() {
    let mut ledger = sample_after(&[directive_a()]);
    let before = ledger.decide(query_q());
    assert_eq!(ledger.issue(1, 600, 0xFF, 240), Ok(()));
    assert_eq!(ledger.decide(query_q()), before);
    assert_eq!(before, deny(Basis::Directive(1)));
}

#[test]
fn advance_to_the_clock_itself() {
    let mut ledger = sample_after(&[directive_a()]);
    let before = ledger.clone();
    let dropped = Dropped {
        directives: 0,
        tokens: 0,
    };
    assert_eq!(ledger.advance(1000), Ok(dropped));
    assert_eq!(ledger.advance(999), Err(Refusal::MinuteBeforeClock));
    assert_eq!(ledger.advance(0), Err(Refusal::MinuteBeforeClock));
    assert_eq!(ledger, before);
}

#[test]
fn revoke_and_advance_keep_the_order_of_the_rest() {
    let on = |number: u16, until| {
        let deny = draft(DENY, (PERSON, 1000 + number), 1, 0);
        numbered(number, over(1000, until, deny))
    };
    let drafts = [
        on(8, 2000),
        on(3, 1500),
        on(5, 2000),
        on(1, 1500),
        on(9, 1501),
    ];
    let mut ledger = sample_after(&drafts);
    for (number, person) in [(7, 70), (2, 20), (4, 40)] {
        let length = if number == 2 { 100 } else { 200 };
        assert_eq!(ledger.issue(number, person, 1, length), Ok(()));
    }
    let numbers = |ledger: &Ledger| -> Vec<u16> {
        let active = ledger.active().iter();
        active.map(|directive| directive.number).collect()
    };
    assert_eq!(numbers(&ledger), [8, 3, 5, 1, 9]);
    assert_eq!(ledger.revoke(8), Ok(()));
    assert_eq!(numbers(&ledger), [3, 5, 1, 9]);
    assert_eq!(ledger.revoke(8), Err(Refusal::NotActive));
    let dropped = Dropped {
        directives: 0,
        tokens: 1,
    };
    assert_eq!(ledger.advance(1100), Ok(dropped));
    let tokens: Vec<u16> = ledger.tokens().iter().map(|token| token.number).collect();
    assert_eq!(tokens, [7, 4]);
    let dropped = Dropped {
        directives: 2,
        tokens: 2,
    };
    assert_eq!(ledger.advance(1500), Ok(dropped));
    assert_eq!(numbers(&ledger), [5, 9]);
    // Numbers and places come free, and a new one stands last.
    assert_eq!(commit(&mut ledger, on(3, 2000)), Ok(()));
    assert_eq!(numbers(&ledger), [5, 9, 3]);
    assert_eq!(ledger.issue(7, 70, 1, 1), Ok(()));
}

#[test]
fn a_tokens_end_may_be_the_last_minute() {
    let at = |clock| Card { clock, ..sample() }.ledger();
    let refused = Err(Refusal::TokenLength);
    assert_eq!(at(u32::MAX - 240).issue(1, 1, 1, 240), Ok(()));
    assert_eq!(at(u32::MAX - 239).issue(1, 1, 1, 240), refused);
    assert_eq!(at(u32::MAX - 1).issue(1, 1, 1, 1), Ok(()));
    assert_eq!(at(u32::MAX - 1).issue(1, 1, 1, 2), refused);
    assert_eq!(at(u32::MAX).issue(1, 1, 1, 1), refused);
    let mut ledger = at(u32::MAX - 1);
    assert_eq!(ledger.issue(1, 1, 1, 1), Ok(()));
    assert_eq!(ledger.tokens()[0].until, u32::MAX);
    assert!(ledger.brief(1, 1).is_ok());
    let dropped = Dropped {
        directives: 0,
        tokens: 1,
    };
    assert_eq!(ledger.advance(u32::MAX), Ok(dropped));
}

#[test]
fn token_lengths() {
    for (length, answer) in [
        (0, Err(Refusal::TokenLength)),
        (1, Ok(())),
        (240, Ok(())),
        (241, Err(Refusal::TokenLength)),
        (256, Err(Refusal::TokenLength)),
        (u32::MAX, Err(Refusal::TokenLength)),
    ] {
        let mut ledger = sample().ledger();
        assert_eq!(ledger.issue(1, 1, 1, length), answer, "length {length}");
    }
}

#[test]
fn order_of_18_to_21() {
    let mut ledger = sample().ledger();
    for number in 1..=4 {
        assert_eq!(ledger.issue(number, 600, 1, 10), Ok(()));
    }
    assert_eq!(ledger.issue(1, 600, 0, 0), Err(Refusal::NoState));
    assert_eq!(ledger.issue(1, 600, 1, 0), Err(Refusal::TokenLength));
    assert_eq!(ledger.issue(1, 600, 1, 10), Err(Refusal::TokenNumberTaken));
    // The number alone counts, not the person.
    assert_eq!(ledger.issue(1, 601, 1, 10), Err(Refusal::TokenNumberTaken));
    assert_eq!(ledger.issue(5, 600, 1, 10), Err(Refusal::TooManyTokens));
    assert_eq!(ledger.advance(1010).map(|dropped| dropped.tokens), Ok(4));
    assert_eq!(ledger.issue(1, 601, 1, 10), Ok(()));
}

#[test]
fn a_brief_for_another_person_or_number() {
    let mut ledger = sample().ledger();
    assert_eq!(ledger.issue(9, 600, 1, 30), Ok(()));
    assert!(ledger.brief(9, 600).is_ok());
    assert_eq!(ledger.brief(9, 601), Err(Refusal::NoToken));
    assert_eq!(ledger.brief(8, 600), Err(Refusal::NoToken));
}

#[test]
fn issue_and_brief_on_the_empty_ledger() {
    let mut ledger = Ledger::default();
    assert_eq!(ledger.issue(0, 0, 0xFF, 240), Ok(()));
    let nothing = RecordWords {
        words: [0, 0],
        count: 0,
    };
    assert_eq!(ledger.brief(0, 0), Ok(nothing));
    assert_eq!(ledger.advance(240).map(|dropped| dropped.tokens), Ok(1));
    assert_eq!(ledger.brief(0, 0), Err(Refusal::NoToken));
}

#[test]
fn a_brief_has_a_bit_for_each_record() {
    // Record i has label bit i mod 16.
    let mut card = Card {
        records: many_records(128),
        ..sample()
    };
    for (number, record) in card.records.iter_mut().enumerate() {
        record.labels = 1 << (number % 16);
    }
    let scopes = [
        0x000F, 0x000B, 0x0017, 0x0023, 0x00C3, 0x01C3, 0x0603, 0x000Bu64,
    ];
    for states in 1..=255u8 {
        let mut ledger = card.ledger();
        assert_eq!(ledger.issue(9, 600, states, 30), Ok(()));
        let scope = (0..8)
            .filter(|state| states >> state & 1 == 1)
            .fold(0, |union, state| union | scopes[state]);
        let word = scope | scope << 16 | scope << 32 | scope << 48;
        let brief = RecordWords {
            words: [word, word],
            count: 8 * scope.count_ones(),
        };
        assert_eq!(ledger.brief(9, 600), Ok(brief), "states {states}");
    }
}

#[test]
fn directives_do_not_touch_the_brief() {
    let mut ledger = sample().ledger();
    assert_eq!(ledger.issue(9, 600, 0x01, 30), Ok(()));
    let before = ledger.brief(9, 600);
    let deny_600 = numbered(3, draft(DENY, (PERSON, 600), 0, 2));
    assert_eq!(commit(&mut ledger, deny_600), Ok(()));
    assert_eq!(ledger.brief(9, 600), before);
}

#[test]
fn write_without_records_and_with_a_short_buffer() {
    for length in [0, 1, 100, 3000] {
        let mut buffer = vec![0xA5; length];
        let answer = card::write(&Ledger::default(), &mut buffer);
        assert_eq!(answer, Err(Refusal::NoRecord));
        assert!(buffer.iter().all(|byte| *byte == 0xA5));
    }
    let ledger = sample_after(&[directive_a()]);
    let exact = sample().with(&[directive_a()]).bytes();
    for length in 0..exact.len() + 20 {
        let mut buffer = vec![0xA5; length];
        let answer = card::write(&ledger, &mut buffer);
        if length < exact.len() {
            assert_eq!(answer, Err(Refusal::BufferTooShort), "{length}");
            assert!(buffer.iter().all(|byte| *byte == 0xA5));
        } else {
            assert_eq!(answer, Ok(exact.len()), "{length}");
            assert_eq!(buffer[..exact.len()], exact);
            assert!(buffer[exact.len()..].iter().all(|byte| *byte == 0xA5));
        }
    }
}

#[test]
fn the_empty_ledger() {
    let mut ledger = Ledger::default();
    assert_eq!((ledger.patient(), ledger.clock()), (0, 0));
    assert_eq!(ledger.register().roles(), [] as [u8; 0]);
    assert_eq!(ledger.register().records(), []);
    assert_eq!(ledger.active(), []);
    assert_eq!(ledger.tokens(), []);
    let person = draft(PERMIT, (PERSON, 0), 0, 0);
    let refusal = Err(Refusal::UnknownRoleOrRecord);
    assert_eq!(commit(&mut ledger, person), refusal);
    assert_eq!(ledger.revoke(0), Err(Refusal::NotActive));
    assert_eq!(ledger, Ledger::default());
}
