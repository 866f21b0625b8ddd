//! The inputs of the benchmark: each gives what is meant, and the worst cases
//! are as bad as said.

use std::collections::BTreeSet;

use checker::answer::Answer;
use checker::bench::{measures, Measure, FULL_CARD, SAMPLE_CARD};
use checker::card;
use checker::directive::{Directive, Fields};
use checker::ledger::{Basis, Ledger};
use checker::refusal::Refusal;
use checker::replay::{Call, Replay};

use crate::support::would_commit;

fn measure(name: &str) -> Measure {
    let mut all = measures().into_iter();
    all.find(|measure| measure.name == name)
        .expect("the operation is measured")
}

/// The ledger that the card of a replay gives.
fn ledger(measure: &Measure) -> Ledger {
    let length = usize::from(u16::from_be_bytes([measure.base[0], measure.base[1]]));
    card::read(&measure.base[2..2 + length]).expect("the card is accepted")
}

/// The calls that are in the second input and not in the first.
fn calls(measure: &Measure) -> Vec<Call> {
    let mut rest = &measure.with[measure.base.len()..];
    let mut calls = Vec::new();
    while let [tag, high, low, value @ ..] = rest {
        let length = usize::from(u16::from_be_bytes([*high, *low]));
        calls.push(Call::decode(*tag, &value[..length]).expect("the call is whole"));
        rest = &value[length..];
    }
    calls
}

/// The draft of the first call.
fn draft(measure: &Measure) -> Fields {
    match &calls(measure)[0] {
        Call::Commit { draft } => Fields::decode(draft[..].try_into().expect("25 bytes")),
        other => panic!("{other:?}"),
    }
}

#[test]
fn every_input_gives_what_is_meant() {
    let names: Vec<&str> = measures().iter().map(|measure| measure.name).collect();
    assert_eq!(
        names,
        [
            "decide",
            "commit-typical",
            "commit-worst",
            "commit-worst-conflict",
            "advance",
            "issue-brief",
            "write",
            "preview",
            "preview-none",
            "preview-one",
            "read"
        ]
    );
    for measure in measures() {
        assert_eq!(measure.check(), Ok(()));
    }
}

#[test]
fn the_inputs_are_the_same_every_time() {
    for (one, other) in measures().iter().zip(measures()) {
        assert_eq!(one.base, other.base);
        assert_eq!(one.with, other.with);
        assert_eq!(one.timed, other.timed);
        assert_eq!(one.line(), other.line());
    }
}

/// The second input has the operation so many times, the third likewise.
#[test]
fn the_operation_is_there_as_often_as_said() {
    for measure in measures() {
        let bytes = measure.with.len() - measure.base.len();
        if measure.name == "read" {
            assert_eq!(measure.count, 1);
            continue;
        }
        assert_eq!(bytes % measure.count, 0, "{}", measure.name);
        if measure.timed_count > 0 {
            let timed = measure.timed.len() - measure.base.len();
            assert_eq!(timed * measure.count, bytes * measure.timed_count);
        }
    }
}

/// Another input than the one meant is found.
#[test]
fn a_wrong_input_is_found() {
    for mut measure in measures() {
        measure.timed_count = 0;
        let with = std::mem::take(&mut measure.with);
        measure.with = measure.base.clone();
        assert!(measure.check().is_err(), "{}", measure.name);
        measure.with = with[..with.len() - 1].to_vec();
        assert!(measure.check().is_err(), "{}", measure.name);
        measure.with = with;
        assert_eq!(measure.check(), Ok(()));
        measure.base.pop();
        assert!(measure.check().is_err(), "{}", measure.name);
    }
}

#[test]
fn the_full_card_is_full() {
    let read = measure("read");
    assert_eq!(read.with.len(), FULL_CARD);
    assert_eq!(read.base, SAMPLE_CARD);
    let ledger = card::read(&read.with).expect("the card is accepted");
    assert_eq!(ledger.register().roles().len(), 16);
    assert_eq!(ledger.register().records().len(), 128);
    assert_eq!(ledger.active().len(), 32);
}

/// Each two neighbours have other effects and share all but the records.
#[test]
fn the_full_card_is_long_to_read() {
    let read = measure("read");
    let ledger = card::read(&read.with).expect("the card is accepted");
    for pair in ledger.active().windows(2) {
        let [one, other] = pair else { continue };
        assert_ne!(one.effect, other.effect);
        let widened = Fields {
            number: 999,
            pt: 0xFF,
            ..one.fields()
        };
        let mut alone = ledger.clone();
        for directive in ledger.active() {
            if directive.number != other.number {
                assert_eq!(alone.revoke(directive.number), Ok(()));
            }
        }
        let conflict = Err(Refusal::Conflict(other.number));
        assert_eq!(would_commit(&alone, widened), conflict);
    }
}

/// All four bases, and for basis 3 mostly several directives.
#[test]
fn decisions_are_mixed() {
    let decide = measure("decide");
    let ledger = ledger(&decide);
    assert_eq!(ledger.register().roles().len(), 16);
    assert_eq!(ledger.register().records().len(), 128);
    assert_eq!(ledger.active().len(), 32);
    let mut bases = [0; 5];
    let mut several = 0;
    for call in calls(&decide) {
        let Call::Decide(query) = call else {
            panic!("{call:?}");
        };
        let decision = ledger.decide(query).expect("the query is in range");
        bases[usize::from(decision.basis.number())] += 1;
        let request = query.at(ledger.clock());
        let matching = |directive: &&Directive| directive.matches(ledger.register(), &request);
        let matching = ledger.active().iter().filter(matching).count();
        if matches!(decision.basis, Basis::Directive(_)) && matching > 1 {
            several += 1;
        }
    }
    assert_eq!(bases.iter().sum::<usize>(), decide.count);
    assert!(bases[1..].iter().all(|count| count * 10 >= decide.count));
    assert!(several * 2 >= bases[3], "{several} of {bases:?}");
}

#[test]
fn the_typical_ledger_is_small() {
    let typical = measure("commit-typical");
    let ledger = ledger(&typical);
    assert_eq!(ledger.register().roles().len(), 6);
    assert_eq!(ledger.register().records().len(), 20);
    assert_eq!(ledger.active().len(), 8);
    assert_eq!(calls(&typical).len(), 2 * typical.count);
}

/// None of the 31 can be left out, and 33 minutes are in play.
#[test]
fn the_worst_draft_needs_every_directive() {
    let worst = measure("commit-worst");
    let (ledger, draft) = (ledger(&worst), draft(&worst));
    assert_eq!(ledger.register().roles().len(), 16);
    assert_eq!(ledger.register().records().len(), 128);
    assert_eq!(ledger.active().len(), 31);
    assert_eq!(would_commit(&ledger, draft), Err(Refusal::Redundant));
    for directive in ledger.active() {
        let mut less = ledger.clone();
        assert_eq!(less.revoke(directive.number), Ok(()));
        assert_eq!(would_commit(&less, draft), Ok(()), "{directive:?}");
    }
    let mut minutes: BTreeSet<u32> = ledger.active().iter().map(|d| d.until).collect();
    minutes.extend([ledger.clock(), draft.from]);
    assert_eq!(minutes.len(), 33);
}

/// The draft matches all that a draft can, and each two records, origins and
/// purposes are covered by other directives.
#[test]
fn the_worst_draft_is_over_everything() {
    let worst = measure("commit-worst");
    let (ledger, draft) = (ledger(&worst), draft(&worst));
    assert_eq!((draft.kind, draft.subject), (1, 0));
    assert_eq!((draft.subject_origins, draft.purposes), (0xFFFF, 0x07FF));
    let active = ledger.active();
    let directive = Directive::from_fields(&draft).expect("the draft is in range");
    let register = ledger.register();
    let selected: Vec<u8> = (0..128)
        .filter(|record| directive.selects(register, *record))
        .collect();
    assert_eq!(selected, (1..128).collect::<Vec<u8>>());
    let covering = |covers: &dyn Fn(&Directive) -> bool| -> Vec<u16> {
        let covering = active.iter().filter(|directive| covers(directive));
        covering.map(|directive| directive.number).collect()
    };
    let records: BTreeSet<Vec<u16>> = selected
        .iter()
        .map(|record| covering(&|directive| directive.selects(register, *record)))
        .collect();
    let origins: BTreeSet<Vec<u16>> = (0..16)
        .map(|origin| covering(&|directive| directive.subject_origins >> origin & 1 == 1))
        .collect();
    let purposes: BTreeSet<Vec<u16>> = (0..11)
        .map(|purpose| covering(&|directive| directive.purposes >> purpose & 1 == 1))
        .collect();
    assert_eq!(
        (records.len(), origins.len(), purposes.len()),
        (127, 16, 11)
    );
}

/// Thirty directives differ from the draft in the records alone.
#[test]
fn the_conflict_is_with_the_last_directive_alone() {
    let conflict = measure("commit-worst-conflict");
    let (ledger, draft) = (ledger(&conflict), draft(&conflict));
    assert_eq!(ledger.active().len(), 31);
    assert_eq!(would_commit(&ledger, draft), Err(Refusal::Conflict(31)));
    let mut less = ledger.clone();
    assert_eq!(less.revoke(31), Ok(()));
    assert_eq!(would_commit(&less, draft), Ok(()));
    let widened = Fields { record: 0, ..draft };
    for number in 1..=30 {
        assert_eq!(would_commit(&less, widened), Err(Refusal::Conflict(number)));
        assert_eq!(less.revoke(number), Ok(()));
    }
}

/// The draft selects all records that it can, or the last one alone, and is
/// accepted. In one input it does not match the requester.
#[test]
fn previews_are_of_drafts_over_everything_and_over_one_record() {
    for (name, selected, changes) in [
        ("preview", 127, 64),
        ("preview-none", 127, 0),
        ("preview-one", 1, 1),
    ] {
        let measure = measure(name);
        let ledger = ledger(&measure);
        assert_eq!(ledger.register().roles().len(), 16);
        assert_eq!(ledger.register().records().len(), 128);
        assert_eq!(ledger.active().len(), 31);
        let calls = calls(&measure);
        assert_eq!(calls.len(), measure.count);
        let Call::Preview { requester, draft } = &calls[0] else {
            panic!("{:?}", calls[0]);
        };
        let fields = Fields::decode(draft[..].try_into().expect("25 bytes"));
        assert_eq!(would_commit(&ledger, fields), Ok(()));
        let directive = Directive::from_fields(&fields).expect("the draft is in range");
        assert_eq!(directive.selected(ledger.register()).count_ones(), selected);
        let request = requester.query(127).at(ledger.clock());
        assert_eq!(directive.matches(ledger.register(), &request), changes > 0);
        let preview = ledger.preview(*requester, draft).expect("it is shown");
        assert_eq!(preview.words().count, changes);
    }
}

#[test]
fn tokens_are_four() {
    for name in ["advance", "issue-brief"] {
        let measure = measure(name);
        let answers: Vec<Answer> = Replay::new(&measure.base).collect();
        assert_eq!(answers[1..], vec![Answer::Issue(Ok(())); 4], "{name}");
        assert_eq!(ledger(&measure).active().len(), 32);
    }
}
