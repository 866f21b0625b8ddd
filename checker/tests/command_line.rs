//! Help, wrong arguments, and errors of input and output: a message, status 2,
//! and nothing that looks like an answer.

use std::fs::{self, File, OpenOptions};
use std::io::{self, Read, Write};
use std::os::fd::OwnedFd;
use std::os::unix::net::UnixStream;
use std::path::Path;
use std::process::{Command, Output, Stdio};

use checker::cardcheck::cardcheck;
use checker::replay::encode;

use crate::runs::{directory, files, path_text, run, text, CHECKER};
use crate::support::sample;

const COMMANDS: [&str; 13] = [
    "cardcheck",
    "replay",
    "access",
    "show",
    "explain",
    "facts",
    "assemble",
    "disassemble",
    "draft",
    "generate",
    "compare",
    "conformance",
    "bench",
];

#[test]
fn help_and_version() {
    let version = run(&["--version"], &[]);
    assert!(version.status.success());
    let expected = concat!("checker ", env!("CARGO_PKG_VERSION"), "\n");
    assert_eq!(text(&version.stdout), expected);
    let help = run(&["--help"], &[]);
    assert!(help.status.success());
    assert_eq!(run(&["-h"], &[]).stdout, help.stdout);
    assert_eq!(text(&help.stderr), "");
    for command in COMMANDS {
        let line = format!("\n  {command} ");
        assert!(text(&help.stdout).contains(&line), "{command}");
        let output = run(&[command, "--help"], &[]);
        assert!(output.status.success(), "{command}");
        let start = format!("usage: checker {command}");
        assert!(text(&output.stdout).starts_with(&start), "{command}");
        assert_eq!(text(&output.stderr), "");
    }
}

#[test]
fn the_help_of_compare_has_its_options() {
    let help = text(&run(&["compare", "--help"], &[]).stdout);
    for option in [
        "--cardcheck PROGRAM",
        "--access PROGRAM",
        "--replay PROGRAM",
        "--seed S",
        "--cards N",
        "--replays N",
        "--timeout SECONDS",
        "--shrink SECONDS",
        "--keep-going",
        "--out DIR",
    ] {
        assert!(help.contains(&format!("\n  {option} ")), "{option}");
    }
}

#[test]
fn without_a_command_the_help_is_an_error() {
    let output = run::<&str>(&[], &[]);
    assert_eq!(output.status.code(), Some(2));
    assert_eq!(text(&output.stdout), "");
    assert_eq!(output.stderr, run(&["--help"], &[]).stdout);
}

/// The message names the command and what is wrong, and points to the help.
fn assert_wrong(arguments: &[&str], command: &str, message: &str) {
    let output = run(arguments, &[]);
    assert_eq!(output.status.code(), Some(2), "{arguments:?}");
    assert_eq!(text(&output.stdout), "");
    let expected = format!("{command}: {message}\nTry '{command} --help'.\n");
    assert_eq!(text(&output.stderr), expected);
}

#[test]
fn wrong_arguments_are_named() {
    assert_wrong(&["other"], "checker", "no command 'other'");
    assert_wrong(&["--other"], "checker", "no option '--other'");
    let more = "'more' is one argument too many";
    assert_wrong(&["--version", "more"], "checker", more);
    for command in ["cardcheck", "replay"] {
        assert_wrong(&[command, "more"], &format!("checker {command}"), more);
    }
    for (command, operand) in [
        ("bench", "DIR"),
        ("show", "CARD"),
        ("explain", "REPLAY"),
        ("facts", "REPLAY"),
        ("assemble", "TEXT"),
        ("disassemble", "FILE"),
    ] {
        let name = format!("checker {command}");
        assert_wrong(&[command], &name, &format!("{operand} is missing"));
        assert_wrong(&[command, "one", "more"], &name, more);
        assert_wrong(&[command, "--bad", "x"], &name, "no option '--bad'");
    }
}

/// Wrong arguments of `access` are told before its input is read.
#[test]
fn wrong_requesters_are_named() {
    let names = ["PERSON", "ROLE", "ORIGIN", "PURPOSE"];
    for given in 0..4 {
        let arguments = [&["access"], &["1"; 4][..given]].concat();
        let message = format!("{} is missing", names[given]);
        assert_wrong(&arguments, "checker access", &message);
    }
    let more = "'more' is one argument too many";
    let arguments = ["access", "1", "1", "1", "1", "", "more"];
    assert_wrong(&arguments, "checker access", more);
    for (place, most, above) in [
        (0, 65535, "65536"),
        (1, 65535, "65536"),
        (2, 255, "256"),
        (3, 255, "256"),
    ] {
        for value in [above, "99999", "000001", "", "x", "+1", "1 ", "1.", "0x1"] {
            let mut arguments = ["access", "1", "1", "1", "1"];
            arguments[place + 1] = value;
            let name = names[place];
            let range = format!("is not a number from 0 to {most} in at most 5 digits");
            let message = format!("{name}: '{value}' {range}");
            assert_wrong(&arguments, "checker access", &message);
        }
        let mut arguments = ["access", "1", "1", "1", "1"];
        arguments[place + 1] = "-1";
        assert_wrong(&arguments, "checker access", "no option '-1'");
    }
}

/// As one argument or as several, and what `access` makes of it.
#[test]
fn the_digits_of_a_draft_from_its_words() {
    let words = "2 deny role 1 record 0 reach 2 from 1000 until 2000";
    let digits = "000200010001ffff0002ffffffffff07ff000003e8000007d0\n";
    let split: Vec<&str> = words.split(' ').collect();
    for words in [&split[..], &[words], &["commit", words]] {
        let output = run(&[&["draft"], words].concat(), &[]);
        assert_eq!(text(&output.stdout), digits);
        assert_eq!(output.status.code(), Some(0));
        assert_eq!(text(&output.stderr), "");
    }
    let arguments = ["access", "600", "1", "1", "0", digits.trim_end()];
    let table = text(&run(&arguments, &sample().bytes()).stdout);
    assert!(
        table.contains(", changes to deny, basis 3 (directive 2)\n"),
        "{table}"
    );
    assert_wrong(&["draft"], "checker draft", "WORDS.. is missing");
    let lacks = "draft lacks record";
    assert_wrong(&["draft", "2", "deny", "role", "1"], "checker draft", lacks);
}

#[test]
fn wrong_options_are_named() {
    let not_a_number =
        |name, value| format!("{name}: '{value}' is not a number from 0 to 18446744073709551615");
    let generate = |arguments: &[&str], message: &str| {
        let all = [&["generate"], arguments].concat();
        assert_wrong(&all, "checker generate", message);
    };
    generate(&["--other", "1"], "no option '--other'");
    generate(&["--seed"], "--seed: its value S is missing");
    generate(&["--seed", "--cards"], "--seed: its value S is missing");
    generate(&["--cards", "x"], &not_a_number("--cards", "x"));
    generate(&["--cards=-1"], &not_a_number("--cards", "-1"));
    generate(&["--cards", "+1"], &not_a_number("--cards", "+1"));
    generate(&["--replays="], &not_a_number("--replays", ""));
    let large = "18446744073709551616";
    generate(&["--seed", large], &not_a_number("--seed", large));
    generate(&["--cards", "1", "--cards=1"], "--cards is given twice");
    generate(&["--", "--cards"], "'--cards' is one argument too many");
    let compare = |arguments: &[&str], message: &str| {
        let all = [&["compare"], arguments].concat();
        assert_wrong(&all, "checker compare", message);
    };
    compare(
        &["--seed", "1"],
        "no program to compare with: --cardcheck, --access or --replay PROGRAM",
    );
    compare(&["--keep-going=yes"], "--keep-going takes no value");
    for (program, count, other) in [
        ("--replay", "--cards", "--cardcheck or --access"),
        ("--cardcheck", "--replays", "--replay"),
        ("--access", "--replays", "--replay"),
    ] {
        let message = format!("{count} is given without {other} PROGRAM");
        compare(&[program, "true", count, "5"], &message);
    }
    for value in ["x", "-1", "1000001", "nan", "inf"] {
        let range = "is not a number of seconds from 0 to 1000000";
        let message = format!("--timeout: '{value}' {range}");
        let option = format!("--timeout={value}");
        compare(&["--replay", "true", &option], &message);
    }
    compare(
        &["--replay", "true", "--timeout", "0"],
        "--timeout: a run takes more than 0 seconds",
    );
}

#[test]
fn values_after_an_equals_sign_and_defaults() {
    let one = run(
        &["generate", "--seed", "6", "--cards", "3", "--replays", "2"],
        &[],
    );
    let other = run(&["generate", "--replays=2", "--seed=6", "--cards=3"], &[]);
    assert_eq!(one, other);
    let few = ["generate", "--cards=300", "--replays=300"];
    let one = run(&few, &[]);
    let other = run(&[few.as_slice(), &["--seed", "1"]].concat(), &[]);
    assert_eq!(one, other);
    let all = run(&["generate"], &[]);
    assert!(all.status.success());
    let named = run(&["generate", "--cards", "2000", "--replays", "2000"], &[]);
    assert_eq!(all, named);
}

/// Runs the checker with this input.
fn run_from(arguments: &[&str], input: Stdio) -> Output {
    let mut command = Command::new(CHECKER);
    command.args(arguments).stdin(input);
    command.output().expect("the checker ends")
}

fn assert_failed(output: &Output, start: &str) {
    assert_eq!(output.status.code(), Some(2), "{output:?}");
    assert_eq!(text(&output.stdout), "");
    let stderr = text(&output.stderr);
    assert!(stderr.starts_with(start), "{stderr}");
    assert!(
        stderr.ends_with('\n') && stderr.lines().count() == 1,
        "{stderr}"
    );
}

const ACCESS: [&str; 5] = ["access", "1", "0", "0", "0"];

const READING: [&[&str]; 8] = [
    &["cardcheck"],
    &ACCESS,
    &["replay"],
    &["show", "-"],
    &["explain", "-"],
    &["facts", "-"],
    &["assemble", "-"],
    &["disassemble", "--card", "-"],
];

#[test]
fn an_input_that_cannot_be_read_is_no_answer() {
    let out = directory("unreadable");
    let written = out.join("written");
    for arguments in READING {
        let start = format!("checker {}: standard input: ", arguments[0]);
        let folder = File::open(&out).expect("the directory can be opened");
        assert_failed(&run_from(arguments, Stdio::from(folder)), &start);
        let written = File::create(&written).expect("the file can be made");
        assert_failed(&run_from(arguments, Stdio::from(written)), &start);
    }
}

/// The card is read, and then there is an error in place of the end.
#[test]
fn an_error_in_the_middle_of_the_input_is_no_answer() {
    for arguments in READING {
        let (theirs, mut ours) = UnixStream::pair().expect("a pair of sockets");
        theirs.set_nonblocking(true).expect("a read can fail");
        ours.write_all(&sample().bytes())
            .expect("the card is written");
        let output = run_from(arguments, Stdio::from(OwnedFd::from(theirs)));
        let start = format!("checker {}: standard input: ", arguments[0]);
        assert_failed(&output, &start);
    }
}

/// Gives a few bytes, then an error.
struct Broken(usize);

impl Read for Broken {
    fn read(&mut self, buffer: &mut [u8]) -> io::Result<usize> {
        if self.0 == 0 {
            return Err(io::Error::other("broken"));
        }
        let length = self.0.min(buffer.len());
        buffer[..length].fill(0);
        self.0 -= length;
        Ok(length)
    }
}

#[test]
fn cardcheck_hands_on_an_error_before_its_cut() {
    assert!(cardcheck(Broken(0)).is_err());
    assert!(cardcheck(Broken(65_534)).is_err());
    assert!(cardcheck(Broken(65_535)).is_ok());
}

#[test]
fn a_full_device_is_no_answer() {
    let replay = directory("full-device").join("sample.replay");
    fs::write(&replay, encode(&sample().bytes(), &[])).expect("the replay can be written");
    let replay = path_text(&replay);
    let commands: &[&[&str]] = &[
        &["--help"],
        &["--version"],
        &["compare", "--help"],
        &["cardcheck"],
        &ACCESS,
        &["replay"],
        &["generate", "--cards", "200", "--replays", "200"],
        &["show", replay],
        &["explain", replay],
        &["facts", replay],
        &["disassemble", replay],
        &[
            "compare",
            "--replay",
            "echo malformed",
            "--shrink",
            "0",
            "--replays",
            "5",
        ],
    ];
    let out = directory("full-device-out");
    for arguments in commands {
        let full = OpenOptions::new().write(true).open("/dev/full");
        let output = Command::new(CHECKER)
            .args(*arguments)
            .current_dir(&out)
            .stdin(Stdio::null())
            .stdout(full.expect("there is a full device"))
            .output()
            .expect("the checker ends");
        let command = if arguments[0].starts_with('-') {
            ""
        } else {
            arguments[0]
        };
        let name = format!("checker {command}");
        let start = format!("{}: standard output: No space left", name.trim_end());
        assert_failed(&output, &start);
    }
}

#[test]
fn a_closed_pipe_is_no_answer() {
    let mut child = Command::new(CHECKER)
        .arg("cardcheck")
        .stdin(Stdio::piped())
        .stdout(Stdio::piped())
        .stderr(Stdio::piped())
        .spawn()
        .expect("the checker starts");
    drop(child.stdout.take());
    let mut stdin = child.stdin.take().expect("the input is a pipe");
    stdin
        .write_all(&sample().bytes())
        .expect("the card is read");
    drop(stdin);
    let output = child.wait_with_output().expect("the checker ends");
    assert_failed(&output, "checker cardcheck: standard output: Broken pipe");
}

#[test]
fn files_that_cannot_be_used_are_named() {
    let out = directory("no-files");
    let missing = out.join("missing.card");
    for command in ["show", "explain", "facts", "assemble", "disassemble"] {
        let output = run(&[command, path_text(&missing)], &[]);
        let start = format!("checker {command}: {}: No such file", missing.display());
        assert_failed(&output, &start);
    }
    let file = out.join("file");
    fs::write(&file, []).expect("the file can be written");
    for command in ["generate", "bench"] {
        let inside = file.join("directory");
        let arguments: &[&str] = match command {
            "bench" => &["bench", path_text(&inside)],
            _ => &[
                "generate",
                "--cards=1",
                "--replays=1",
                "--out",
                path_text(&inside),
            ],
        };
        let start = format!("checker {command}: {}: Not a directory", inside.display());
        assert_failed(&run(arguments, &[]), &start);
    }
    assert_eq!(files(&out), ["file"]);
}

#[test]
fn show_tells_whether_a_card_is_accepted() {
    let out = directory("show");
    let card = out.join("sample.card");
    fs::write(&card, sample().bytes()).expect("the card can be written");
    let output = run(&["show", path_text(&card)], &[]);
    assert!(output.status.success());
    assert!(text(&output.stdout).starts_with("Consent card: accepted\n"));
    assert_eq!(run(&["show", "-"], &sample().bytes()).stdout, output.stdout);
    let refused = run(&["show", "-"], &sample().bytes()[..10]);
    assert_eq!(refused.status.code(), Some(1));
    assert!(text(&refused.stdout).contains("REFUSED by question 5"));
}

/// A number and a line, as `replay` prints it, and below it words.
#[test]
fn explain_has_each_line_with_its_number() {
    let samples = Path::new(env!("CARGO_MANIFEST_DIR")).join("../samples");
    let stored = |name: &str| fs::read(samples.join(name)).expect("the sample is stored");
    let replay = stored("sample.replay");
    let output = run(&["explain", path_text(&samples.join("sample.replay"))], &[]);
    assert!(output.status.success());
    assert_eq!(run(&["explain", "-"], &replay).stdout, output.stdout);
    let stdout = text(&output.stdout);
    let numbered = stdout.lines().filter(|line| !line.starts_with("    "));
    let numbered: Vec<&str> = numbered.collect();
    let expected = text(&stored("sample.replay.expected"));
    let expected = expected.lines().zip(1..);
    let expected: Vec<String> = expected
        .map(|(line, number)| format!("{number}: {line}"))
        .collect();
    assert_eq!(numbered, expected);
    assert!(stdout.lines().count() >= 2 * numbered.len());
    let malformed = run(&["explain", "-"], &replay[..replay.len() - 1]);
    assert_eq!(malformed.status.code(), Some(1));
    assert!(text(&malformed.stdout).contains("malformed\n"));
}

#[test]
fn assemble_gives_back_what_was_disassembled() {
    let out = directory("assemble");
    let card = sample().bytes();
    let replay = encode(&card, &[]);
    for (name, bytes, option) in [
        ("sample.card", &card, "--card"),
        ("sample.replay", &replay, "--replay"),
    ] {
        let path = out.join(name);
        fs::write(&path, bytes).expect("the input can be written");
        let by_extension = run(&["disassemble", path_text(&path)], &[]);
        assert!(by_extension.status.success());
        let by_option = run(&["disassemble", option, "-"], bytes);
        assert_eq!(by_option.stdout, by_extension.stdout);
        let assembled = run(&["assemble", "-"], &by_extension.stdout);
        assert!(assembled.status.success());
        assert_eq!(&assembled.stdout, bytes);
        let (source, target) = (out.join("text"), out.join("bytes"));
        fs::write(&source, &by_extension.stdout).expect("the text can be written");
        let arguments = ["assemble", path_text(&source), "-o", path_text(&target)];
        let assembled = run(&arguments, &[]);
        assert!(assembled.status.success());
        assert_eq!(text(&assembled.stdout), "");
        assert_eq!(&fs::read(&target).expect("the bytes are there"), bytes);
    }
}

#[test]
fn what_cannot_be_assembled_or_disassembled() {
    assert_wrong(
        &["disassemble", "x.txt"],
        "checker disassemble",
        "'x.txt' ends neither in .card nor in .replay: --card or --replay says what it is",
    );
    assert_wrong(
        &["disassemble", "--card", "--replay", "x"],
        "checker disassemble",
        "--card and --replay are both given",
    );
    let output = run(&["assemble", "-"], b"card\nedition x\n");
    assert_failed(&output, "checker assemble: -: line 2, column ");
    let output = run(&["assemble", "-"], b"card\n\xFF\n");
    assert_failed(&output, "checker assemble: -: not UTF-8");
    let output = run(&["assemble", "-", "-o", "/dev/full"], b"card\nroles 0\n");
    assert_failed(&output, "checker assemble: /dev/full: No space left");
    assert!(Path::new("/dev/full").exists());
}

/// The bytes are made; a line that is answered otherwise is named.
#[test]
fn assemble_puts_the_expected_lines_to_the_checker() {
    let unmet = run(&["assemble", "-"], b"card\nroles 0\n\nexpect 5 0 0\n");
    assert_eq!(unmet.status.code(), Some(1));
    assert_eq!(unmet.stdout, [2, 0, 1, 0]);
    let stderr = text(&unmet.stderr);
    assert_eq!(stderr, "-: line 4: expected 5 0 0, printed 2 0 0\n");
    let met = run(&["assemble", "-"], b"card\nroles 0\nexpect 2 0 0\n");
    assert!(met.status.success());
    assert_eq!(text(&met.stderr), "");
}
