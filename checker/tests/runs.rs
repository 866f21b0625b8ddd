//! Runs of the checker, and programs for it to compare with.

use std::ffi::OsStr;
use std::fs;
use std::io::Write;
use std::os::unix::fs::PermissionsExt;
use std::path::{Path, PathBuf};
use std::process::{Command, Output, Stdio};

pub const CHECKER: &str = env!("CARGO_BIN_EXE_checker");

pub fn run<Argument: AsRef<OsStr>>(arguments: &[Argument], input: &[u8]) -> Output {
    let mut child = Command::new(CHECKER)
        .args(arguments)
        .stdin(Stdio::piped())
        .stdout(Stdio::piped())
        .stderr(Stdio::piped())
        .spawn()
        .expect("the checker starts");
    let mut stdin = child.stdin.take().expect("the input is a pipe");
    // A program that does not read its input closes the pipe.
    let _ = stdin.write_all(input);
    drop(stdin);
    child.wait_with_output().expect("the checker ends")
}

pub fn text(bytes: &[u8]) -> String {
    String::from_utf8(bytes.to_vec()).expect("the output is text")
}

pub fn path_text(path: &Path) -> &str {
    path.to_str().expect("the path is text")
}

/// An empty directory for one test.
pub fn directory(name: &str) -> PathBuf {
    let path = Path::new(env!("CARGO_TARGET_TMPDIR")).join(name);
    if path.exists() {
        fs::remove_dir_all(&path).expect("the old directory can be removed");
    }
    fs::create_dir_all(&path).expect("the directory can be made");
    path
}

/// The names of the files in a directory, in order.
pub fn files(directory: &Path) -> Vec<String> {
    let entries = fs::read_dir(directory).expect("a directory");
    let name = |entry: std::io::Result<fs::DirEntry>| {
        let name = entry.expect("an entry").file_name();
        name.into_string().expect("the name is text")
    };
    let mut names: Vec<String> = entries.map(name).collect();
    names.sort();
    names
}

/// Compares with these arguments and seed 11.
pub fn compare(arguments: &[&str], out: &Path) -> Output {
    let all = ["compare", "--seed", "11", "--out", path_text(out)];
    run(&[all.as_slice(), arguments].concat(), &[])
}

/// Compares this many cards and replays, without a search for smaller inputs.
pub fn compare_both(counts: (u64, u64), cardcheck: &str, replay: &str, out: &Path) -> Output {
    let (cards, replays) = (counts.0.to_string(), counts.1.to_string());
    let programs = ["--cardcheck", cardcheck, "--replay", replay];
    let counts = ["--cards", &cards, "--replays", &replays, "--shrink", "0"];
    compare(&[programs.as_slice(), &counts].concat(), out)
}

/// Compares this many replays.
pub fn compare_replays(count: u64, program: &str, more: &[&str], out: &Path) -> Output {
    let count = count.to_string();
    let arguments = ["--replay", program, "--replays", &count];
    compare(&[arguments.as_slice(), more].concat(), out)
}

pub fn own(command: &str) -> String {
    format!("{CHECKER} {command}")
}

/// A shell script, as a program.
pub fn script(directory: &Path, text: &str) -> String {
    let script = directory.join("program.sh");
    fs::write(&script, text).expect("the script can be written");
    format!("sh {}", path_text(&script))
}

/// An executable file with this text.
pub fn executable(path: &Path, text: &str) {
    fs::write(path, text).expect("the program can be written");
    let permissions = fs::Permissions::from_mode(0o755);
    fs::set_permissions(path, permissions).expect("the program can be made executable");
}

/// Runs the checker and changes its output.
pub fn changed(directory: &Path, command: &str, change: &str) -> String {
    script(directory, &format!("{CHECKER} {command} | {change}\n"))
}

/// Changes the input and runs the checker.
pub fn fed(directory: &Path, command: &str, change: &str) -> String {
    script(directory, &format!("{change} | {CHECKER} {command}\n"))
}

/// What stands after the start of the first line that begins so.
pub fn after(output: &Output, start: &str) -> String {
    let stdout = text(&output.stdout);
    let mut found = stdout.lines().filter_map(|line| line.strip_prefix(start));
    let found = found.next().map(str::to_string);
    found.unwrap_or_else(|| panic!("no line begins with {start}: {stdout}"))
}

/// The input that is named as different, and its line.
pub fn different(output: &Output) -> (String, String) {
    assert_eq!(output.status.code(), Some(1));
    (after(output, "different: "), after(output, "line "))
}
