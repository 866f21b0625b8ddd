//! The generator: what it reaches, and that a seed fixes it.

use std::collections::BTreeSet;

use checker::answer::Answer;
use checker::card;
use checker::compare::answers;
use checker::counts::{Asked, Counts, Kind};
use checker::generate::{inputs, Input, InputKind};
use checker::preview_counts::PreviewCounts;
use checker::reach_counts::ReachCounts;
use checker::refusal::Refusal;

const CALLS: [&str; 8] = [
    "commit", "revoke", "advance", "issue", "decide", "brief", "write", "preview",
];

fn answered(input: &Input) -> Vec<Answer> {
    answers(input).expect("a slice can be read")
}

fn count(answers: &[Answer]) -> Counts {
    let mut counts = Counts::default();
    for answer in answers {
        counts.add(answer);
    }
    counts
}

fn counts(inputs: impl Iterator<Item = Input>) -> Counts {
    let answers: Vec<Answer> = inputs.flat_map(|input| answered(&input)).collect();
    count(&answers)
}

/// The card or replay of this seed and index.
fn input(kind: InputKind, seed: u64, index: u64) -> Input {
    let mut all = match kind {
        InputKind::Card => inputs(seed, index + 1, 0),
        InputKind::Replay => inputs(seed, 0, index + 1),
    };
    all.find(|input| input.index == index)
        .expect("there is such an input")
}

/// The long ones are left out.
#[test]
fn every_refusal_and_basis_occurs_often() {
    for seed in [1, 2, 3] {
        let short = inputs(seed, 2000, 2000).filter(|input| input.bytes.len() < 60_000);
        let counts = counts(short);
        assert_eq!(counts.missing(Asked::ALL), []);
        for kind in Counts::wanted(Asked::ALL) {
            assert!(
                counts.of(kind) >= 15,
                "seed {seed}, {kind}: {}",
                counts.of(kind)
            );
        }
        for call in ["card"].into_iter().chain(CALLS) {
            let accepted = counts.of(Kind::Accepted(call));
            let refused = counts.of(Kind::Refused(call));
            assert!(accepted >= 500, "seed {seed}, {call}: {accepted}");
            assert!(refused >= 100, "seed {seed}, {call}: {refused}");
            assert!(accepted * 4 >= refused, "seed {seed}, {call}: {accepted}");
        }
        assert!(counts.of(Kind::Malformed) >= 50);
    }
}

/// Of 20,000 replays, without the long ones.
#[test]
fn every_refusal_and_outcome_of_a_preview_occurs_often() {
    let short = || inputs(1, 0, 20_000).filter(|input| input.bytes.len() < 60_000);
    let counts = counts(short());
    for kind in Counts::wanted(Asked::ALL) {
        if let Kind::PreviewRefusal(_) | Kind::Preview(_) = kind {
            assert!(counts.of(kind) >= 500, "{kind}: {}", counts.of(kind));
        }
    }
    let mut previews = PreviewCounts::default();
    for input in short() {
        previews.add(&input.bytes, &answered(&input));
    }
    assert_eq!(previews.missing(), [""; 0]);
    for (feature, count) in previews.features() {
        assert!(count >= 100, "{feature}: {count}");
    }
}

/// Of 10,000 replays, without the long ones.
#[test]
fn every_reach_is_accepted_and_refused_often() {
    let short = inputs(1, 0, 10_000).filter(|input| input.bytes.len() < 60_000);
    let mut counts = ReachCounts::default();
    for input in short {
        counts.add(&input.bytes, &answered(&input));
    }
    assert_eq!(counts.missing(), [""; 0]);
    for (commits, count) in counts.commits() {
        assert!(count >= 150, "{commits}: {count}");
    }
}

/// Accepted cards of both editions carry every reach.
#[test]
fn every_reach_is_on_cards_of_both_editions() {
    let mut found = [[0; 4]; 2];
    for input in inputs(1, 2000, 0) {
        let Ok(ledger) = card::read(&input.bytes) else {
            continue;
        };
        let edition = usize::from(input.bytes[3]) - 1;
        for directive in ledger.active() {
            found[edition][usize::from(directive.reach.encode())] += 1;
        }
    }
    assert!(
        found.iter().flatten().all(|count| *count >= 40),
        "{found:?}"
    );
}

/// 1,000 replays without a commit miss each of them, and no replays none.
#[test]
fn missing_reaches_are_named() {
    let mut counts = ReachCounts::default();
    assert_eq!(counts.missing(), [""; 0]);
    for _ in 0..1000 {
        counts.add(&[0, 0], &[Answer::Card(Err(Refusal::CardIncomplete))]);
    }
    let missing = counts.missing();
    assert_eq!(missing.len(), 16);
    for folder in [
        "commits of reach 3 accepted (0 of 5)",
        "commits of reach 3 refused by 12 (0 of 5)",
    ] {
        assert!(missing.contains(&folder.to_string()), "{missing:?}");
    }
}

/// 1,000 replays without a preview miss each of them, and no replays none.
#[test]
fn missing_features_of_previews_are_named() {
    let mut previews = PreviewCounts::default();
    assert_eq!(previews.missing(), [""; 0]);
    for _ in 0..1000 {
        previews.add(&[0, 0], &[Answer::Card(Err(Refusal::CardIncomplete))]);
    }
    let missing = previews.missing();
    assert_eq!(missing.len(), previews.features().count());
    let both = "previews with changes in both words (0 of ";
    assert!(missing.iter().any(|what| what.starts_with(both)));
}

#[test]
fn missing_kinds_are_named() {
    let none = Counts::default();
    let wanted: Vec<Kind> = Counts::wanted(Asked::ALL).collect();
    assert_eq!(none.missing(Asked::ALL), wanted);
    // 12 refusals of cards, 19 of calls, 4 bases that permit and 2 that deny,
    // 10 refusals and 4 outcomes of previews.
    assert_eq!(wanted.len(), 12 + 19 + 4 + 2 + 10 + 4);
    let few = counts(inputs(1, 20, 0));
    let missing = few.missing(Asked::ALL);
    assert!(missing.contains(&Kind::CallRefusal(6)));
    assert!(missing.len() < wanted.len());
}

#[test]
fn the_same_seed_gives_the_same_bytes() {
    let one: Vec<Input> = inputs(7, 100, 100).collect();
    let again: Vec<Input> = inputs(7, 100, 100).collect();
    assert_eq!(one, again);
    // An input does not depend on how many are made.
    let fewer: Vec<Input> = inputs(7, 50, 0).collect();
    assert_eq!(one[..50], fewer);
    let other: Vec<Input> = inputs(8, 100, 100).collect();
    let same = one.iter().zip(&other);
    let same = same.filter(|(one, other)| one.bytes == other.bytes).count();
    assert!(same < 10, "{same}");
}

#[test]
fn indices_give_different_bytes() {
    for kind in [InputKind::Card, InputKind::Replay] {
        let all = inputs(9, 300, 300).filter(|input| input.kind == kind);
        let different: BTreeSet<Vec<u8>> = all.map(|input| input.bytes).collect();
        assert!(different.len() > 280, "{}", different.len());
    }
}

#[test]
fn files_are_named_by_seed_and_index() {
    let names: Vec<String> = inputs(5, 2, 2).map(|input| input.file_name()).collect();
    assert_eq!(names, ["5-0.card", "5-1.card", "5-0.replay", "5-1.replay"]);
}

/// In the last 20,000 of many calls every refusal still occurs, but for 23.
#[test]
fn many_calls_are_mixed_to_their_end() {
    for seed in [1, 2, 3] {
        let answers = answered(&input(InputKind::Replay, seed, 100));
        assert!(matches!(answers[0], Answer::Card(Ok(_))));
        assert!(answers.len() > 70_000);
        let counts = count(&answers[50_000..]);
        for number in (6..=22).chain([24]) {
            let kind = Kind::CallRefusal(number);
            assert!(counts.of(kind) >= 50, "seed {seed}, {kind}");
        }
        for call in CALLS {
            let accepted = counts.of(Kind::Accepted(call));
            assert!(accepted >= 50, "seed {seed}, {call}: {accepted}");
        }
    }
}

/// Every refusal that the empty ledger can give, and every call that it can
/// accept.
#[test]
fn many_calls_on_the_empty_ledger() {
    for seed in [1, 2, 3] {
        let answers = answered(&input(InputKind::Replay, seed, 101));
        assert_eq!(answers[0], Answer::Card(Err(Refusal::CardIncomplete)));
        assert!(answers.len() > 70_000);
        let counts = count(&answers[50_000..]);
        for number in (6..=8).chain(15..=23) {
            let kind = Kind::CallRefusal(number);
            assert!(counts.of(kind) >= 50, "seed {seed}, {kind}");
        }
        for number in 6..=8 {
            let kind = Kind::PreviewRefusal(number);
            assert!(counts.of(kind) >= 50, "seed {seed}, {kind}");
        }
        for call in ["advance", "issue", "brief"] {
            assert!(counts.of(Kind::Accepted(call)) >= 50, "{call}");
        }
    }
}

#[test]
fn a_value_of_65535_bytes() {
    let head = [0x10, 0xFF, 0xFF];
    let refused = Answer::Commit(Err(Refusal::DraftLength));
    for seed in [1, 2, 3] {
        let whole = input(InputKind::Replay, seed, 102);
        assert!(whole.bytes.windows(3).any(|bytes| bytes == head));
        let answers = answered(&whole);
        assert!(matches!(answers[0], Answer::Card(Ok(_))));
        assert!(answers.contains(&refused));
        assert!(!answers.contains(&Answer::Malformed));
        let cut = input(InputKind::Replay, seed, 103);
        let start = cut.bytes.len() - 65_534 - 3;
        assert_eq!(cut.bytes[start..start + 3], head);
        assert_eq!(answered(&cut).last(), Some(&Answer::Malformed));
    }
}

#[test]
fn a_card_of_65535_bytes_in_a_replay() {
    for seed in [1, 2, 3] {
        for (index, refusal) in [
            (104, Refusal::FieldPlaceOrLength),
            (105, Refusal::FieldNotWhole),
        ] {
            let input = input(InputKind::Replay, seed, index);
            assert_eq!(input.bytes[..2], [0xFF, 0xFF]);
            let answers = answered(&input);
            assert_eq!(answers[0], Answer::Card(Err(refusal)));
            assert!(answers.len() > 1);
            assert!(!answers.contains(&Answer::Malformed));
        }
    }
}

/// A field without a place gives 2 where it stands whole in what is read, and
/// 1 where it does not.
#[test]
fn cards_longer_than_what_cardcheck_takes() {
    let place = Err(Refusal::FieldPlaceOrLength);
    let whole = Err(Refusal::FieldNotWhole);
    for seed in [1, 2, 3] {
        let ends_at_the_cut = input(InputKind::Card, seed, 100);
        assert!(ends_at_the_cut.bytes.len() > 65_536);
        assert_eq!(
            answered(&ends_at_the_cut),
            [Answer::Card(Err(Refusal::FieldPlaceOrLength))]
        );
        assert_eq!(card::read(&ends_at_the_cut.bytes[..65_534]), whole);
        let ends_after_the_cut = input(InputKind::Card, seed, 101);
        assert!(ends_after_the_cut.bytes.len() > 65_536);
        assert_eq!(
            answered(&ends_after_the_cut),
            [Answer::Card(Err(Refusal::FieldNotWhole))]
        );
        assert_eq!(card::read(&ends_after_the_cut.bytes), place);
    }
}
