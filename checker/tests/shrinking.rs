//! The search for a smaller input.

use std::fs;
use std::path::Path;
use std::time::{Duration, Instant};

use checker::answer::Answer;
use checker::compare::document::Document;
use checker::compare::shrink::{shrink, Bound, Bounds, Shrunk};
use checker::generate::{inputs, InputKind};
use checker::refusal::Refusal;
use checker::replay::{encode, Call, Replay};
use checker::text_form::{assemble, disassemble, Kind};

use crate::runs::{
    after, changed, compare, compare_replays, directory, fed, files, run, script, text, CHECKER,
};
use crate::support::*;

#[test]
fn a_document_gives_back_its_bytes() {
    for input in inputs(31, 600, 600) {
        let document = Document::parse(input.kind, &input.bytes);
        assert!(document.encode() == input.bytes, "{}", input.file_name());
    }
}

const BOUNDS: Bounds = Bounds {
    runs: 2_000,
    time: Duration::from_secs(60),
};

fn shrunk(replay: &[u8], bounds: Bounds, mut shows: impl FnMut(&[u8]) -> bool) -> Shrunk {
    let mut shows = |bytes: &[u8], _: Duration| Ok(shows(bytes));
    shrink(InputKind::Replay, replay, bounds, &mut shows).expect("no run fails")
}

fn refusals(replay: &[u8]) -> Vec<Refusal> {
    let commit = |answer| match answer {
        Answer::Commit(Err(refusal)) => Some(refusal),
        _ => None,
    };
    Replay::new(replay).filter_map(commit).collect()
}

fn commit_call(draft: checker::directive::Fields) -> Call {
    Call::Commit {
        draft: draft.encode().to_vec(),
    }
}

/// A preview with a change among calls that have nothing to do with it.
#[test]
fn a_change_is_left_with_its_preview() {
    let preview = Call::Preview {
        requester: requester_q(),
        draft: directive_a().encode().to_vec(),
    };
    let calls = [
        Call::Decide(query_q()),
        commit_call(numbered(77, draft(DENY, (PERSON, 900), 2, 0))),
        preview,
        Call::Write { buffer: 500 },
    ];
    let replay = encode(&sample().bytes(), &calls);
    let changes = |bytes: &[u8]| {
        Replay::new(bytes)
            .any(|answer| matches!(answer, Answer::Preview(Ok(shown)) if shown.changed() != 0))
    };
    assert!(changes(&replay));
    let Shrunk { bytes, bound, .. } = shrunk(&replay, BOUNDS, changes);
    assert_eq!(bound, None);
    let text = disassemble(Kind::Replay, &bytes);
    let calls: Vec<&str> = text
        .lines()
        .skip_while(|line| !line.starts_with("preview "))
        .collect();
    assert_eq!(calls.len(), 1, "{text}");
    assert!(
        text.contains("\nroles 0\n") && text.contains(" clock 0\n"),
        "{text}"
    );
    // A draft of another length is dropped byte by byte.
    let short = Call::Preview {
        requester: requester_q(),
        draft: vec![7; 40],
    };
    let refused = |bytes: &[u8]| {
        Replay::new(bytes).any(|answer| answer == Answer::Preview(Err(Refusal::DraftLength)))
    };
    let Shrunk { bytes, .. } = shrunk(&encode(&sample().bytes(), &[short]), BOUNDS, refused);
    let text = disassemble(Kind::Replay, &bytes);
    let expected = "replay\npreview person 1 role 0 origin 0 purpose 0 draft bytes\n";
    assert_eq!(text, expected);
}

/// K5 among calls that have nothing to do with it.
#[test]
fn a_conflict_is_left_with_its_two_directives() {
    let permit = draft(PERMIT, (PERSON, 600), 1, 0);
    let other = numbered(77, draft(DENY, (PERSON, 900), 2, 0));
    let calls = [
        Call::Decide(query_q()),
        commit_call(directive_a()),
        commit_call(other),
        Call::Advance { minute: 1100 },
        commit_call(over(1500, 2500, permit)),
        Call::Write { buffer: 500 },
    ];
    let replay = encode(&sample().bytes(), &calls);
    assert_eq!(refusals(&replay), [Refusal::Conflict(1)]);
    let conflict = |bytes: &[u8]| matches!(refusals(bytes)[..], [Refusal::Conflict(_)]);
    let Shrunk { bytes, bound, .. } = shrunk(&replay, BOUNDS, conflict);
    assert_eq!(bound, None);
    let text = disassemble(Kind::Replay, &bytes);
    let starts = |start: &str| text.lines().filter(|line| line.starts_with(start)).count();
    assert_eq!((starts("commit "), starts("record ")), (2, 2), "{text}");
    assert!(
        text.contains("\nroles 0\n") && text.contains(" clock 0\n"),
        "{text}"
    );
    assert_eq!(text.lines().count(), 7, "{text}");
}

#[test]
fn no_call_can_be_dropped_from_what_is_left() {
    let mut looked = 0;
    for input in inputs(32, 0, 40) {
        let shows = |bytes: &[u8]| refusals(bytes).contains(&Refusal::Redundant);
        if !shows(&input.bytes) {
            continue;
        }
        looked += 1;
        let shrunk = shrunk(&input.bytes, BOUNDS, shows);
        assert!(shrunk.bytes.len() < input.bytes.len() && shows(&shrunk.bytes));
        let document = Document::parse(InputKind::Replay, &shrunk.bytes);
        for place in 0..document.calls.len() {
            let mut fewer = document.clone();
            fewer.calls.remove(place);
            assert!(!shows(&fewer.encode()), "{}", input.file_name());
        }
    }
    assert!(looked > 5, "{looked}");
}

/// Bytes of no known field are dropped or made 0.
#[test]
fn bytes_are_dropped_and_lowered() {
    let mut replay = encode(&sample().bytes(), &[]);
    replay.extend([0x77, 0x00, 0x05, 0x01, 0x02, 0x03, 0x04, 0x05, 0x99]);
    let shows = |bytes: &[u8]| bytes.contains(&0x77) && bytes.ends_with(&[0x99]);
    let shrunk = shrunk(&replay, BOUNDS, shows);
    assert_eq!(shrunk.bytes, [0x00, 0x00, 0x77, 0x00, 0x00, 0x99]);
}

#[test]
fn the_search_keeps_its_bounds() {
    let input = inputs(32, 0, 1).next().expect("there is an input");
    let few = Bounds { runs: 7, ..BOUNDS };
    let mut runs = 0;
    let result = shrunk(&input.bytes, few, |_| {
        runs += 1;
        false
    });
    assert_eq!((result.runs, runs), (7, 7));
    assert_eq!(result.bound, Some(Bound::Runs));
    assert_eq!(result.bytes, input.bytes);
    let short = Bounds {
        time: Duration::from_millis(50),
        ..BOUNDS
    };
    let result = shrunk(&input.bytes, short, |_| {
        std::thread::sleep(Duration::from_millis(20));
        false
    });
    assert_eq!(result.bound, Some(Bound::Time));
    assert!(result.runs < 10);
}

/// The two inputs that are stored.
fn stored(out: &Path, name: &str, small: &str) -> (Vec<u8>, Vec<u8>) {
    assert_eq!(files(out), [name, small]);
    let read = |name: &str| fs::read(out.join(name)).expect("the input is stored");
    (read(name), read(small))
}

#[test]
fn a_smaller_input_still_differs() {
    let out = directory("smaller");
    let folder = directory("smaller-scripts");
    let wrong = changed(&folder, "replay", "sed 's/^14$/0/'");
    let output = compare_replays(20, &wrong, &[], &out);
    assert_eq!(output.status.code(), Some(1));
    let (name, small_name) = (after(&output, "different: "), after(&output, "smaller: "));
    let (large, small) = stored(&out, &name, &small_name);
    assert!(small.len() * 4 < large.len());
    assert!(text(&run(&["replay"], &small).stdout).contains("\n14\n"));
    let sizes = format!("\n{} of {} bytes, found in ", small.len(), large.len());
    let stdout = text(&output.stdout);
    assert!(stdout.contains(&sizes), "{stdout}");
    let (_, text) = stdout.split_once("\nas text\n").expect("there is a text");
    assert_eq!(assemble(text).expect("the text is right").bytes, small);
}

#[test]
fn a_smaller_card_still_differs() {
    let out = directory("smaller-card");
    let folder = directory("smaller-card-scripts");
    let wrong = changed(&folder, "cardcheck", "sed 's/^13 /12 /'");
    let output = compare(&["--cardcheck", &wrong, "--cards", "300"], &out);
    let (name, small_name) = (after(&output, "different: "), after(&output, "smaller: "));
    let (large, small) = stored(&out, &name, &small_name);
    assert!(small.len() < large.len());
    assert_eq!(text(&run(&["cardcheck"], &small).stdout), "13 0 0\n");
    let text = disassemble(Kind::Card, &small);
    let directives = text.lines().filter(|line| line.starts_with("directive "));
    assert_eq!(directives.count(), 2, "{text}");
}

/// The end of the run stays the same too.
#[test]
fn a_smaller_input_still_crashes() {
    let out = directory("smaller-crash");
    let folder = directory("smaller-crash-scripts");
    let text_of =
        format!("{CHECKER} replay > $0.out; grep -q '^13 ' $0.out && kill -SEGV $$; cat $0.out\n");
    let program = script(&folder, &text_of);
    let output = compare_replays(40, &program, &[], &out);
    let small_name = after(&output, "smaller: ");
    let (large, small) = stored(&out, &after(&output, "crashed: "), &small_name);
    assert!(small.len() < large.len());
    assert!(text(&run(&["replay"], &small).stdout).contains("\n13 "));
    let stdout = text(&output.stdout);
    assert_eq!(
        stdout
            .matches("program: ended by signal 11 (SIGSEGV)\n")
            .count(),
        2
    );
}

/// A program that reads once is right with the whole input. On a busy machine
/// it may get two parts at once, so it is tried some times.
#[test]
fn a_difference_of_parts_stays_in_parts() {
    let folder = directory("smaller-parts-scripts");
    let wrong = fed(&folder, "cardcheck", "dd bs=65535 count=1 2>/dev/null");
    let arguments = ["--cardcheck", &wrong, "--cards", "100", "--shrink", "2"];
    let stays = |_| {
        let output = compare(&arguments, &directory("smaller-parts"));
        let stdout = text(&output.stdout);
        stdout.matches("\nin parts of ").count() == 2 && stdout.contains("\nsmaller: 11-")
    };
    assert!((0..8).any(stays));
}

#[test]
fn the_time_for_smaller_inputs_is_kept() {
    let out = directory("shrink-time");
    let folder = directory("shrink-time-scripts");
    let program = script(&folder, "sleep 0.2; echo malformed\n");
    let start = Instant::now();
    let output = compare_replays(5, &program, &["--shrink", "1"], &out);
    assert!(start.elapsed() < Duration::from_secs(20));
    let stdout = text(&output.stdout);
    assert!(
        stdout.contains(" runs, stopped as the time is up\n"),
        "{stdout}"
    );
    // No run that does not end fits into the time.
    let hanging = script(&folder, "sleep 1000\n");
    let arguments = ["--timeout", "1", "--shrink", "1"];
    let out = directory("shrink-time-hanging");
    let output = compare_replays(5, &hanging, &arguments, &out);
    let last = "\nno smaller input is looked for: one run would take all the time for it\n";
    assert!(text(&output.stdout).ends_with(last));
    assert_eq!(files(&out), ["11-0.replay"]);
}
