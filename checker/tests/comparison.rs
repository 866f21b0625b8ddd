//! What `checker compare` tells of programs that crash, do not end or are not
//! there, and of several differences.

use std::collections::BTreeMap;
use std::fs;
use std::path::Path;
use std::process::Command;
use std::thread;
use std::time::{Duration, Instant};

use checker::answer::Answer;
use checker::compare::answers;
use checker::compare::quoting::{split, QuotingError};
use checker::counts::Kind;
use checker::generate::inputs;

use crate::runs::{
    after, changed, compare, compare_replays, directory, executable, files, own, path_text, run,
    script, text, CHECKER,
};

#[test]
fn one_program_alone() {
    let out = directory("one-program");
    let cards = compare(&["--cardcheck", &own("cardcheck"), "--cards", "300"], &out);
    assert!(cards.status.success(), "{}", text(&cards.stdout));
    let stdout = text(&cards.stdout);
    assert!(stdout.ends_with("\n300 cards and 0 replays, 0 different\n"));
    assert!(!stdout.contains("of calls"), "{stdout}");
    let replays = compare(&["--replay", &own("replay"), "--replays", "150"], &out);
    assert!(replays.status.success(), "{}", text(&replays.stdout));
    let stdout = text(&replays.stdout);
    assert!(stdout.ends_with("\n0 cards and 150 replays, 0 different\n"));
    for output in [cards, replays] {
        assert_eq!(text(&output.stderr), "");
    }
    assert_eq!(files(&out), [""; 0]);
}

/// A path with blanks and quotation marks is run as it stands.
#[test]
fn a_program_with_blanks_in_its_path() {
    let out = directory("blanks");
    let folder = directory("blanks 'and' \"quotes\"");
    let program = folder.join("card check");
    executable(&program, &format!("#!/bin/sh\nexec {CHECKER} cardcheck\n"));
    let same = ["--cards", "110", "--cardcheck"];
    let output = compare(&[same.as_slice(), &[path_text(&program)]].concat(), &out);
    assert!(text(&output.stdout).contains("\n110 cards and 0 replays, 0 different\n"));
    // With an argument it has to be quoted.
    executable(&program, &format!("#!/bin/sh\nexec {CHECKER} \"$@\"\n"));
    let quoted = path_text(&program).replace('"', "\\\"");
    let quoted = format!("\"{quoted}\" 'cardcheck'");
    let output = compare(&[same.as_slice(), &[&quoted]].concat(), &out);
    assert!(text(&output.stdout).contains("\n110 cards and 0 replays, 0 different\n"));
}

/// A file in the current directory comes before PATH.
#[test]
fn a_program_in_the_current_directory() {
    let folder = directory("current");
    executable(
        &folder.join("echo"),
        &format!("#!/bin/sh\nexec {CHECKER} replay\n"),
    );
    let output = Command::new(CHECKER)
        .args(["compare", "--replay", "echo", "--replays", "30"])
        .current_dir(&folder)
        .output()
        .expect("the checker ends");
    assert!(text(&output.stdout).contains("\n0 cards and 30 replays, 0 different\n"));
}

#[test]
fn words_are_quoted_as_in_a_shell() {
    let words = |text| split(text).expect("the text is quoted well");
    assert_eq!(words(""), [""; 0]);
    assert_eq!(words("  a\tb \n"), ["a", "b"]);
    assert_eq!(words("'a b' \"c d\" e\\ f"), ["a b", "c d", "e f"]);
    assert_eq!(words("a'b'\"c\"\\d"), ["abcd"]);
    assert_eq!(words("'' \"\""), ["", ""]);
    assert_eq!(words("'\\' \"\\\\\\\"\\$\\`\\a'\""), ["\\", "\\\"$`\\a'"]);
    assert_eq!(split("a 'b"), Err(QuotingError::NotClosed('\'')));
    assert_eq!(split("a \"b"), Err(QuotingError::NotClosed('"')));
    assert_eq!(split("\"a\\"), Err(QuotingError::NotClosed('"')));
    assert_eq!(split("a\\"), Err(QuotingError::NothingEscaped));
}

#[test]
fn programs_that_cannot_be_run() {
    let out = directory("cannot-run");
    let folder = directory("cannot-run-programs");
    let at = |name: &str| path_text(&folder.join(name)).to_string();
    fs::write(at("text"), "echo 0 0 0\n").expect("the file can be written");
    let name = "no-such-program-anywhere";
    for (program, message) in [
        (at("missing"), format!("no program '{}'", at("missing"))),
        (
            format!("{} x", at("missing")),
            format!("no program '{}'", at("missing")),
        ),
        (name.to_string(), format!("no program '{name}'")),
        (at("text"), format!("'{}' is not executable", at("text"))),
        (at("."), format!("'{}' is not executable", at("."))),
        (" ".to_string(), "no program is named".to_string()),
        ("'x".to_string(), "a ' is not closed".to_string()),
    ] {
        let output = compare(&["--cardcheck", "true", "--replay", &program], &out);
        assert_eq!(output.status.code(), Some(2), "{program}");
        assert_eq!(text(&output.stdout), "");
        let message =
            format!("checker compare: --replay: {message}\nTry 'checker compare --help'.\n");
        assert_eq!(text(&output.stderr), message);
    }
    executable(&folder.join("no-interpreter"), "#!/no/such/interpreter\n");
    let output = compare(&["--replay", &at("no-interpreter")], &out);
    assert_eq!(output.status.code(), Some(2));
    assert_eq!(text(&output.stdout), "");
    assert!(text(&output.stderr).starts_with("checker compare: cannot run '"));
    assert_eq!(files(&out), [""; 0]);
}

/// All lines are right, and the status is not 0.
#[test]
fn a_status_is_told_from_a_wrong_answer() {
    let out = directory("status");
    let folder = directory("status-scripts");
    let program = script(&folder, &format!("{CHECKER} replay; exit 3\n"));
    let output = compare_replays(5, &program, &["--shrink", "0"], &out);
    assert_eq!(output.status.code(), Some(1));
    assert_eq!(after(&output, "crashed: "), "11-0.replay");
    let stdout = text(&output.stdout);
    assert!(stdout.contains("\nprogram: ended with status 3\nall lines agree\n"));
    assert!(!stdout.contains("different"), "{stdout}");
    assert_eq!(files(&out), ["11-0.replay"]);
    let program = script(&folder, "exit 127\n");
    let output = compare_replays(5, &program, &["--shrink", "0"], &out);
    let program = after(&output, "program: ");
    assert_eq!(
        program,
        "ended with status 127 (from a shell: no such program)"
    );
}

/// The program stops within its lines, and tells why.
#[test]
fn a_signal_is_told_by_name_and_number() {
    let out = directory("signal");
    let text_of = format!("{CHECKER} replay | head -n 1; echo no more >&2; kill -ABRT $$\n");
    let program = script(&directory("signal-scripts"), &text_of);
    let output = compare_replays(5, &program, &["--shrink", "0"], &out);
    assert_eq!(output.status.code(), Some(1));
    assert_eq!(after(&output, "crashed: "), "11-0.replay");
    assert_eq!(after(&output, "program: "), "ended by signal 6 (SIGABRT)");
    assert_eq!(after(&output, "line "), "2");
    assert_eq!(after(&output, "program "), "(no line)");
    let stdout = text(&output.stdout);
    assert!(stdout.contains("\nstandard error of the program\n    no more\n"));
}

/// Both the program and what it has started are killed.
#[test]
fn a_program_that_does_not_end_is_killed() {
    let out = directory("no-end");
    let folder = directory("no-end-scripts");
    let text_of = "sleep 1000 & echo $! > $0.first; sleep 1000 & echo $! > $0.second; wait\n";
    let program = script(&folder, text_of);
    let start = Instant::now();
    let output = compare_replays(5, &program, &["--timeout", "1", "--shrink", "0"], &out);
    assert!(start.elapsed() < Duration::from_secs(30));
    assert_eq!(output.status.code(), Some(1));
    assert_eq!(after(&output, "no end: "), "11-0.replay");
    assert_eq!(after(&output, "program: "), "no end within 1 s");
    for name in ["program.sh.first", "program.sh.second"] {
        let number = fs::read_to_string(folder.join(name)).expect("it was started");
        let process = Path::new("/proc").join(number.trim()).join("stat");
        let runs = || fs::read_to_string(&process).is_ok_and(|state| !state.contains(") Z "));
        while runs() && start.elapsed() < Duration::from_secs(30) {
            thread::sleep(Duration::from_millis(10));
        }
        assert!(!runs(), "{number}");
    }
}

/// The lines are right and the output is closed, but the program goes on.
#[test]
fn a_program_that_goes_on_after_its_lines_is_killed() {
    let out = directory("goes-on");
    let text_of = format!("{CHECKER} replay; exec >&- 2>&-; sleep 1000\n");
    let program = script(&directory("goes-on-scripts"), &text_of);
    let arguments = ["--timeout", "0.5", "--shrink", "0"];
    let output = compare_replays(5, &program, &arguments, &out);
    assert_eq!(output.status.code(), Some(1));
    let stdout = text(&output.stdout);
    assert!(stdout.contains("\nprogram: no end within 0.5 s\nall lines agree\n"));
}

#[test]
fn a_program_that_prints_without_end_is_killed() {
    let out = directory("prints-on");
    let output = compare_replays(5, "yes", &["--shrink", "0"], &out);
    assert_eq!(output.status.code(), Some(1));
    assert_eq!(after(&output, "different: "), "11-0.replay");
    assert!(after(&output, "program: ").starts_with("no end within "));
    assert_eq!(after(&output, "program "), "y");
}

#[test]
fn what_a_line_hides_is_shown() {
    let out = directory("hidden");
    let folder = directory("hidden-scripts");
    let program = changed(&folder, "cardcheck", "sed 's/$/\\r/'");
    let arguments = ["--cardcheck", &program, "--cards", "5", "--shrink", "0"];
    let output = compare(&arguments, &out);
    let checker = after(&output, "checker ");
    assert_eq!(after(&output, "program "), format!("{checker}\\r"));
    let program = changed(&folder, "cardcheck", "tr -d '\\n'");
    let arguments = ["--cardcheck", &program, "--cards", "5", "--shrink", "0"];
    let output = compare(&arguments, &out);
    let expected = format!("{checker} (without an end of line)");
    assert_eq!(after(&output, "program "), expected);
}

/// A program that is wrong in its first run alone.
#[test]
fn a_difference_that_does_not_come_again() {
    let out = directory("once");
    let text_of = format!("test -e $0.ran && exec {CHECKER} replay; touch $0.ran; echo wrong\n");
    let program = script(&directory("once-scripts"), &text_of);
    let output = compare_replays(5, &program, &[], &out);
    assert_eq!(output.status.code(), Some(1));
    assert!(text(&output.stdout).ends_with("\na second run does not show the same\n"));
    assert_eq!(files(&out), ["11-0.replay"]);
}

/// What an answer whose line is changed is counted by.
fn counted(answer: &Answer) -> Option<&'static str> {
    match (answer.to_string().as_str(), answer) {
        ("14", Answer::Preview(_)) => Some("refusal 14 of a preview"),
        ("14", _) => Some("refusal 14 of a call"),
        ("15", _) => Some("refusal 15 of a call"),
        ("0 0 4", _) => Some("deny with basis 4"),
        _ => None,
    }
}

#[test]
fn keep_going_counts_the_differences() {
    let out = directory("keep-going");
    let folder = directory("keep-going-scripts");
    let change = "sed 's/^14$/0/; s/^15$/0/; s/^0 0 4$/0 1 4/'";
    let program = changed(&folder, "replay", change);
    let output = compare_replays(60, &program, &["--keep-going", "--shrink", "0"], &out);
    assert_eq!(output.status.code(), Some(1));
    let mut expected: BTreeMap<&str, (u64, String)> = BTreeMap::new();
    for input in inputs(11, 0, 60) {
        let answers = answers(&input).expect("the input is answered");
        if let Some(class) = answers.iter().find_map(counted) {
            let entry = expected.entry(class).or_insert((0, input.file_name()));
            entry.0 += 1;
        }
    }
    assert_eq!(expected.len(), 4);
    let stdout = text(&output.stdout);
    for (class, (count, first)) in &expected {
        let row = format!("\n{count:>10} {first:>20}  {class}\n");
        assert!(stdout.contains(&row), "{row}{stdout}");
    }
    let total: u64 = expected.values().map(|(count, _)| count).sum();
    assert!(total > 3);
    assert!(stdout.contains(&format!("\n0 cards and 60 replays, {total} different\n")));
    // The first of each is reported and stored.
    let mut firsts: Vec<String> = expected.into_values().map(|(_, first)| first).collect();
    firsts.sort();
    assert_eq!(files(&out), firsts);
    assert_eq!(stdout.matches("different: ").count(), 4);
}

#[test]
fn keep_going_counts_ends_of_runs() {
    let out = directory("keep-going-ends");
    let folder = directory("keep-going-ends-scripts");
    let text_of =
        format!("{CHECKER} cardcheck > $0.out; cat $0.out; read n rest < $0.out; exit $n\n");
    let program = script(&folder, &text_of);
    let arguments = [
        "--cardcheck",
        &program,
        "--cards",
        "40",
        "--keep-going",
        "--shrink",
        "0",
    ];
    let output = compare(&arguments, &out);
    let refused = |number: u8| {
        inputs(11, 40, 0)
            .flat_map(|input| answers(&input).expect("the input is answered"))
            .filter(|answer| Kind::of(answer) == Kind::CardRefusal(number))
            .count()
    };
    let stdout = text(&output.stdout);
    let mut numbers = 0;
    for number in 1..=13 {
        let row = format!("  ended with status {number}\n");
        let found = stdout
            .lines()
            .find(|line| format!("{line}\n").ends_with(&row));
        let found = found.and_then(|line| line.split_whitespace().next());
        let count = refused(number);
        assert_eq!(found.unwrap_or("0"), count.to_string(), "{number}");
        numbers += usize::from(count > 0);
    }
    assert!(numbers >= 3, "{numbers}");
}

/// The call, the checker's answer and why, and the program's answer.
#[test]
fn a_difference_is_explained() {
    let out = directory("explained");
    let folder = directory("explained-scripts");
    let program = changed(&folder, "replay", "sed 's/^14$/0/'");
    let output = compare_replays(60, &program, &[], &out);
    let stdout = text(&output.stdout);
    let (original, small) = stdout
        .split_once("\nsmaller: ")
        .expect("there is a small input");
    for part in [original, small] {
        let (_, words) = part
            .split_once("\nthe checker in words\n")
            .expect("there are words");
        let (checker, program) = words.split_once("\nthe program in words\n").expect("both");
        assert!(checker.starts_with("    Commit: directive "), "{checker}");
        assert!(
            checker.contains("\n    Refused by question 14: "),
            "{checker}"
        );
        assert!(checker.lines().count() >= 3, "{checker}");
        assert!(
            program.starts_with("    accepted: the directive becomes active"),
            "{program}"
        );
    }
    let program = changed(&folder, "cardcheck", "sed 's/^9 /8 /'");
    let output = compare(&["--cardcheck", &program, "--cards", "150"], &out);
    let stdout = text(&output.stdout);
    assert!(stdout.contains("\n    Refused by question 9: "), "{stdout}");
    assert!(stdout.contains("\n    refused by question 8: "), "{stdout}");
    assert_eq!(
        stdout
            .matches("the checker in words\n    Card refused at ")
            .count(),
        2
    );
}

#[test]
fn a_line_too_many_is_told() {
    let out = directory("too-many");
    let folder = directory("too-many-scripts");
    let program = script(&folder, &format!("{CHECKER} replay; echo 0\n"));
    let output = compare_replays(5, &program, &["--shrink", "0"], &out);
    assert_eq!(after(&output, "checker "), "(no line)");
    assert!(
        text(&output.stdout).ends_with("\nthe program prints more lines than there are answers\n")
    );
    let unused = run(
        &["replay"],
        &fs::read(out.join("11-0.replay")).expect("it is stored"),
    );
    let lines = text(&unused.stdout).lines().count();
    assert_eq!(after(&output, "line "), (lines + 1).to_string());
}
