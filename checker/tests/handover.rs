//! Which inputs go in parts, and what is measured of the inputs.

use checker::counts::Asked;
use checker::extent::Extent;
use checker::generate::{inputs, Input, InputKind};
use checker::parts::parts;
use checker::replay::{encode, Call};

use crate::support::*;

/// Where the parts end, but for the last one.
fn cuts(input: &Input) -> Vec<usize> {
    let mut cuts = Vec::new();
    let mut end = 0;
    for part in parts(input) {
        end += part.len();
        cuts.push(end);
    }
    cuts.pop();
    cuts
}

#[test]
fn the_parts_are_the_input() {
    for input in inputs(1, 1000, 1000) {
        let parts = parts(&input);
        assert_eq!(parts.concat(), input.bytes);
        assert!(parts.iter().all(|part| !part.is_empty()));
    }
}

/// One in 64, unless it is too short. The seed and the index fix which one,
/// and where it is cut.
#[test]
fn a_share_of_the_inputs_goes_in_parts() {
    for kind in [InputKind::Card, InputKind::Replay] {
        let chosen = |seed, count| -> Vec<(u64, Vec<usize>)> {
            inputs(seed, count, count)
                .filter(|input| input.kind == kind && parts(input).len() > 1)
                .map(|input| (input.index, cuts(&input)))
                .collect()
        };
        let some = chosen(1, 3200);
        assert!((40..=50).contains(&some.len()), "{}", some.len());
        for pair in some.windows(2) {
            assert!(pair[0].0 / 64 < pair[1].0 / 64, "{pair:?}");
        }
        let fewer = chosen(1, 1600);
        assert_eq!(some[..fewer.len()], fewer);
        assert_ne!(chosen(2, 1600), fewer);
    }
}

/// The starts and ends of the whole fields or calls from this place on.
fn fields(bytes: &[u8], mut start: usize) -> Vec<(usize, usize)> {
    let mut fields = Vec::new();
    while let Some([_, high, low]) = bytes.get(start..start + 3) {
        let end = start + 3 + usize::from(u16::from_be_bytes([*high, *low]));
        fields.push((start, end));
        start = end;
    }
    fields
}

#[test]
fn cuts_fall_in_heads_and_in_values() {
    for kind in [InputKind::Card, InputKind::Replay] {
        let mut in_heads = 0;
        let mut in_values = 0;
        for input in inputs(1, 6400, 6400).filter(|input| input.kind == kind) {
            let start = match (kind, &input.bytes[..]) {
                (InputKind::Replay, [high, low, ..]) => {
                    2 + usize::from(u16::from_be_bytes([*high, *low]))
                }
                _ => 0,
            };
            let fields = fields(&input.bytes, start);
            for cut in cuts(&input) {
                let inside = |from, to| from < cut && cut < to;
                let in_head = |(start, _): &(usize, usize)| inside(*start, start + 3);
                let in_value = |(start, end): &(usize, usize)| inside(start + 3, *end);
                in_heads += fields.iter().filter(|field| in_head(field)).count();
                in_values += fields.iter().filter(|field| in_value(field)).count();
            }
        }
        assert!(in_heads >= 10, "{in_heads}");
        assert!(in_values >= 10, "{in_values}");
    }
}

fn extent(inputs: impl Iterator<Item = Input>) -> Extent {
    let mut extent = Extent::default();
    for input in inputs {
        extent.add(&input, parts(&input).len());
    }
    extent
}

#[test]
fn what_is_missing_is_named() {
    assert_eq!(extent(inputs(11, 128, 128)).missing(Asked::ALL), [""; 0]);
    let few = extent(inputs(11, 0, 100));
    let missing = few.missing(Asked::ALL);
    assert_eq!(missing[0], "cards in parts (0 of 1)");
    assert_eq!(missing[1], "cards that byte 65535 decides (0 of 1)");
    assert_eq!(missing[2], "cards that byte 65536 would decide (0 of 1)");
    let calls = format!("calls of the longest replay ({} of 70000)", few.calls);
    assert_eq!(missing[3], calls);
    assert_eq!(missing.len(), 6);
    assert_eq!(Extent::default().missing(Asked::ALL).len(), 7);
}

/// The last value of a replay does not count: nothing comes after it.
#[test]
fn the_longest_value_before_a_call() {
    let card = sample().bytes();
    let commit = |length| Call::Commit {
        draft: vec![0; length],
    };
    let of = |calls: &[Call]| {
        let input = Input {
            kind: InputKind::Replay,
            seed: 0,
            index: 0,
            bytes: encode(&card, calls),
        };
        let extent = extent([input].into_iter());
        (extent.calls, extent.card, extent.value)
    };
    assert_eq!(of(&[]), (0, 0, 0));
    assert_eq!(of(&[commit(30)]), (1, card.len(), 0));
    assert_eq!(of(&[commit(30), commit(40)]), (2, card.len(), 30));
    assert_eq!(
        of(&[commit(30), commit(40), commit(1)]),
        (3, card.len(), 40)
    );
}
