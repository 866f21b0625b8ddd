//! The program `checker` as it is run.

use std::fs;
use std::path::Path;
use std::process::Output;

use checker::bench::measures;
use checker::bytes::{field, hex};
use checker::generate::{inputs, Input};
use checker::parts::parts;
use checker::replay::encode;

use crate::runs::{
    changed, compare_both, different, directory, fed, files, own, path_text, run, script, text,
    CHECKER,
};
use crate::support::sample;

#[test]
fn cardcheck_prints_one_line() {
    let output = run(&["cardcheck"], &sample().bytes());
    assert_eq!(text(&output.stdout), "0 3 0\n");
    assert!(output.status.success());
    let output = run(&["cardcheck"], &[]);
    assert_eq!(text(&output.stdout), "5 0 0\n");
    assert!(output.status.success());
}

#[test]
fn cardcheck_cuts_its_input() {
    let start = sample().bytes();
    let length = 65_536 - start.len() - 3;
    let long = [start, field(0xFF, &vec![0; length])].concat();
    assert_eq!(text(&run(&["cardcheck"], &long).stdout), "1 0 0\n");
    let short = &long[..65_535];
    assert_eq!(text(&run(&["cardcheck"], short).stdout), "1 0 0\n");
}

#[test]
fn replay_prints_its_lines() {
    let replay = encode(&sample().bytes(), &[]);
    let output = run(&["replay"], &replay);
    assert_eq!(text(&output.stdout), "0 3 0\n");
    assert!(output.status.success());
    let output = run(&["replay"], &[]);
    assert_eq!(text(&output.stdout), "malformed\n");
}

#[test]
fn the_samples_as_they_are_run() {
    let samples = Path::new(env!("CARGO_MANIFEST_DIR")).join("../samples");
    let stored = |name: &str| fs::read(samples.join(name)).expect("the sample is stored");
    let output = run(&["cardcheck"], &stored("sample.card"));
    assert_eq!(text(&output.stdout), "0 1 0\n");
    let output = run(&["replay"], &stored("sample.replay"));
    assert_eq!(output.stdout, stored("sample.replay.expected"));
}

#[test]
fn generate_prints_the_table_and_writes_the_inputs() {
    let out = directory("generate");
    let out_text = path_text(&out);
    let all = [
        "generate",
        "--seed",
        "1",
        "--cards",
        "1500",
        "--replays",
        "1500",
    ];
    let output = run(&all, &[]);
    assert!(output.status.success(), "{}", text(&output.stdout));
    assert!(text(&output.stdout).contains("malformed replays"));
    let few = [
        "generate",
        "--seed",
        "6",
        "--cards",
        "3",
        "--replays",
        "2",
        "--out",
        out_text,
    ];
    let output = run(&few, &[]);
    assert_eq!(output.status.code(), Some(1));
    assert!(text(&output.stdout).contains("missing: refusal 3 of a card\n"));
    for input in inputs(6, 3, 2) {
        let stored = fs::read(out.join(input.file_name())).expect("the input is stored");
        assert_eq!(stored, input.bytes);
    }
    assert_eq!(files(&out).len(), 5);
}

#[test]
fn the_checker_does_not_differ_from_itself() {
    let out = directory("same");
    let output = compare_both((300, 150), &own("cardcheck"), &own("replay"), &out);
    let stdout = text(&output.stdout);
    assert!(output.status.success(), "{stdout}");
    assert!(stdout.contains("\ncards in parts "));
    assert!(stdout.ends_with("\n300 cards and 150 replays, 0 different\n"));
    assert_eq!(files(&out), [""; 0]);
}

#[test]
fn compare_names_what_did_not_occur() {
    let out = directory("missing");
    let output = compare_both((20, 20), &own("cardcheck"), &own("replay"), &out);
    assert_eq!(output.status.code(), Some(1));
    let stdout = text(&output.stdout);
    let (_, missing) = stdout
        .split_once("20 cards and 20 replays, 0 different\n")
        .expect("nothing is different");
    assert!(
        missing.contains("missing: refusal 11 of a card\n"),
        "{missing}"
    );
    assert!(
        missing.contains("missing: calls of the longest replay ("),
        "{missing}"
    );
}

#[test]
fn a_wrong_cardcheck_is_found() {
    let out = directory("wrong-cardcheck");
    let scripts = directory("wrong-cardcheck-scripts");
    let wrong = changed(&scripts, "cardcheck", "sed 's/^9 /8 /'");
    let output = compare_both((150, 150), &wrong, &own("replay"), &out);
    assert_eq!(output.status.code(), Some(1));
    let first = inputs(11, 150, 0)
        .find(|input| text(&run(&["cardcheck"], &input.bytes).stdout) == "9 0 0\n")
        .expect("some card is refused by 9");
    let expected = format!(
        "different: {}\nseed 11, index {}\ninput {}\nline 1\nchecker 9 0 0\nprogram 8 0 0\n",
        first.file_name(),
        first.index,
        hex(&first.bytes)
    );
    let stdout = text(&output.stdout);
    assert!(stdout.starts_with(&expected), "{stdout}");
    let stored = fs::read(out.join(first.file_name())).expect("the input is stored");
    assert_eq!(stored, first.bytes);
}

/// A program that makes one read call.
const READS_ONCE: &str = "dd bs=65535 count=1 2>/dev/null";

/// The input that is different goes in parts, or is more than a pipe takes at
/// once.
fn assert_in_pieces(output: &Output, mut inputs: impl Iterator<Item = Input>) {
    let (name, _) = different(output);
    let found = inputs.find(|input| input.file_name() == name);
    let found = found.expect("the input is one of these");
    let in_parts = parts(&found).len() > 1;
    assert!(in_parts || found.bytes.len() > 4096, "{name}");
    assert_eq!(text(&output.stdout).contains("\nin parts of "), in_parts);
}

#[test]
fn a_cardcheck_that_reads_once_is_found() {
    let out = directory("cardcheck-reads-once");
    let scripts = directory("cardcheck-reads-once-scripts");
    let wrong = fed(&scripts, "cardcheck", READS_ONCE);
    let output = compare_both((3000, 0), &wrong, &own("replay"), &out);
    assert_in_pieces(&output, inputs(11, 3000, 0));
}

#[test]
fn a_cardcheck_that_cuts_elsewhere_is_found() {
    let scripts = directory("cut-elsewhere-scripts");
    let out = directory("cut-elsewhere");
    let early = fed(&scripts, "cardcheck", "head -c 65534");
    let output = compare_both((102, 0), &early, &own("replay"), &out);
    assert_eq!(
        different(&output),
        ("11-100.card".to_string(), "1".to_string())
    );
    // With a byte more, the field at the cut of card 101 stands whole.
    let late = "head -c 65536 > $0.in; if [ $(wc -c < $0.in) = 65536 ]; then echo 2 0 0; else";
    let late = format!("{late} {CHECKER} cardcheck < $0.in; fi\n");
    let output = compare_both((102, 0), &script(&scripts, &late), &own("replay"), &out);
    assert_eq!(
        different(&output),
        ("11-101.card".to_string(), "1".to_string())
    );
}

#[test]
fn a_wrong_replay_is_found() {
    let scripts = directory("wrong-replay-scripts");
    // A changed line, a line less, a line more, no end of the last line.
    for (name, change) in [
        ("14", "sed 's/^14$/0/'"),
        ("less", "sed '$d'"),
        ("more", "sed '$p'"),
        ("end", "tr -d '\\n'"),
    ] {
        let out = directory(&format!("wrong-replay-{name}"));
        let wrong = changed(&scripts, "replay", change);
        let output = compare_both((0, 150), &own("cardcheck"), &wrong, &out);
        assert!(different(&output).0.starts_with("11-"), "{name}");
        assert_eq!(files(&out), [different(&output).0]);
    }
}

#[test]
fn a_replay_that_reads_once_is_found() {
    let out = directory("replay-reads-once");
    let scripts = directory("replay-reads-once-scripts");
    let wrong = fed(&scripts, "replay", READS_ONCE);
    let output = compare_both((0, 101), &own("cardcheck"), &wrong, &out);
    assert_in_pieces(&output, inputs(11, 0, 101));
}

/// The card's line and those of 256 calls.
#[test]
fn a_replay_that_stops_after_256_calls_is_found() {
    let out = directory("256-calls");
    let scripts = directory("256-calls-scripts");
    let wrong = changed(&scripts, "replay", "head -n 257");
    let output = compare_both((0, 101), &own("cardcheck"), &wrong, &out);
    assert_eq!(
        different(&output),
        ("11-100.replay".to_string(), "258".to_string())
    );
    assert!(text(&output.stdout).contains(" more bytes\n"));
}

#[test]
fn a_program_that_prints_something_else_is_found() {
    let out = directory("something-else");
    let output = compare_both((150, 150), "echo 0 0 0", "echo malformed", &out);
    assert_eq!(output.status.code(), Some(1));
    assert!(text(&output.stdout).contains("\nprogram 0 0 0\n"));
    let output = compare_both((150, 150), &own("cardcheck"), "echo malformed", &out);
    assert_eq!(output.status.code(), Some(1));
    assert!(text(&output.stdout).contains("\nprogram malformed\n"));
}

#[test]
fn bench_stores_its_inputs() {
    let path = directory("bench");
    let output = run(&["bench", path_text(&path)], &[]);
    assert!(output.status.success());
    let list = text(&output.stdout);
    assert_eq!(list.lines().count(), measures().len());
    for line in list.lines() {
        let words: Vec<&str> = line.split(' ').collect();
        let [name, kind, count, timed] = words[..] else {
            panic!("{line}");
        };
        assert_ne!(count, "0");
        for (part, there) in [("base", true), ("with", true), ("timed", timed != "0")] {
            let file = path.join(format!("{name}.{part}.{kind}"));
            assert_eq!(file.exists(), there, "{}", file.display());
        }
    }
}
