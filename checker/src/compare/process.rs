//! Running a program on an input, within limits.

use std::fmt;
use std::io::{self, Read, Write};
use std::os::unix::process::{CommandExt, ExitStatusExt};
use std::process::{Child, ChildStdin, Command, ExitStatus, Stdio};
use std::sync::mpsc::{self, Receiver, RecvTimeoutError};
use std::thread;
use std::time::{Duration, Instant};

use super::program::Program;
use super::signal;

/// Between two parts of an input.
const PAUSE: Duration = Duration::from_millis(5);
/// An empty pipe takes at least so many bytes at once.
const PIPE: usize = 4_096;
/// How many bytes of standard error are kept.
const ERRORS: u64 = 2_000;
/// How long the output of a killed program is waited for.
const GRACE: Duration = Duration::from_secs(1);
/// The first and the longest pause between two looks for a program's end.
const FIRST_LOOK: Duration = Duration::from_micros(50);
const LONGEST_LOOK: Duration = Duration::from_millis(10);

/// How long a run may take, and how many bytes it may print.
#[derive(Clone, Copy, Debug, PartialEq, Eq)]
pub struct Limits {
    pub time: Duration,
    pub output: usize,
}

/// How a run ended.
#[derive(Clone, Copy, Debug, PartialEq, Eq, PartialOrd, Ord)]
pub enum End {
    /// With status 0.
    Normal,
    Status(i32),
    Signal(i32),
    /// Killed after this time.
    NoEnd(Duration),
    /// Killed after this many bytes of output.
    TooLong(usize),
}

impl End {
    fn of(status: ExitStatus) -> End {
        match (status.code(), status.signal()) {
            (Some(code), _) => End::of_status(code),
            (None, Some(signal)) => End::Signal(signal),
            (None, None) => End::Status(status.into_raw()),
        }
    }

    pub fn of_status(status: i32) -> End {
        match status {
            0 => End::Normal,
            other => End::Status(other),
        }
    }
}

impl fmt::Display for End {
    fn fmt(&self, f: &mut fmt::Formatter<'_>) -> fmt::Result {
        match self {
            End::Normal => write!(f, "ended with status 0"),
            End::Status(status) => {
                write!(f, "ended with status {status}")?;
                match status_of_a_shell(*status) {
                    Some(meaning) => write!(f, " (from a shell: {meaning})"),
                    None => Ok(()),
                }
            }
            End::Signal(number) => write!(f, "ended by {}", signal_text(*number)),
            End::NoEnd(time) => write!(f, "no end within {} s", time.as_secs_f64()),
            End::TooLong(bytes) => write!(f, "no end within {bytes} bytes of output"),
        }
    }
}

fn signal_text(number: i32) -> String {
    match signal::name(number) {
        Some(name) => format!("signal {number} ({name})"),
        None => format!("signal {number}"),
    }
}

/// What a status means where a shell ran the program.
fn status_of_a_shell(status: i32) -> Option<String> {
    match status {
        126 => Some("not executable".to_string()),
        127 => Some("no such program".to_string()),
        129..=159 => Some(signal_text(status.saturating_sub(128))),
        _ => None,
    }
}

/// What a run gave.
#[derive(Clone, Debug, PartialEq, Eq)]
pub struct Run {
    pub end: End,
    pub output: Vec<u8>,
    /// The start of standard error, where it was asked for.
    pub errors: Vec<u8>,
}

/// What becomes of standard error.
#[derive(Clone, Copy, Debug, PartialEq, Eq)]
pub enum Errors {
    Dropped,
    Kept,
}

/// Runs the program on the input in these parts. It need not read all of it.
pub fn run(program: &Program, parts: &[&[u8]], limits: Limits, errors: Errors) -> io::Result<Run> {
    let deadline = Instant::now().checked_add(limits.time);
    let mut child = start(program, errors)?;
    let run = follow(&mut child, parts, limits, deadline);
    if run.is_err() {
        kill(&mut child);
    }
    run
}

/// Starts the program in a process group of its own.
fn start(program: &Program, errors: Errors) -> io::Result<Child> {
    let stderr = match errors {
        Errors::Dropped => Stdio::null(),
        Errors::Kept => Stdio::piped(),
    };
    Command::new(&program.path)
        .args(&program.arguments)
        .stdin(Stdio::piped())
        .stdout(Stdio::piped())
        .stderr(stderr)
        .process_group(0)
        .spawn()
        .map_err(|error| {
            let text = format!("cannot run '{}': {error}", program.path.display());
            io::Error::new(error.kind(), text)
        })
}

/// Hands over the input and waits for the end.
fn follow(
    child: &mut Child,
    parts: &[&[u8]],
    limits: Limits,
    deadline: Option<Instant>,
) -> io::Result<Run> {
    let (stdin, stdout) = (child.stdin.take(), child.stdout.take());
    let errors = match child.stderr.take() {
        Some(stderr) => Some(collect(stderr, ERRORS)?),
        None => None,
    };
    let (Some(stdin), Some(stdout)) = (stdin, stdout) else {
        return Err(io::Error::other("a program without pipes"));
    };
    let most = u64::try_from(limits.output).unwrap_or(u64::MAX);
    let output = collect(stdout, most.saturating_add(1))?;
    hand_over(stdin, parts)?;
    let (end, output) = match output.recv_timeout(limits.time) {
        Ok(read) => {
            let read = read?;
            let end = if read.len() > limits.output {
                kill(child);
                End::TooLong(limits.output)
            } else {
                wait_until(child, deadline, limits.time)?
            };
            (end, read)
        }
        Err(RecvTimeoutError::Timeout) => {
            kill(child);
            (End::NoEnd(limits.time), rest(&output)?)
        }
        Err(RecvTimeoutError::Disconnected) => {
            return Err(io::Error::other("the output of a program was lost"));
        }
    };
    let errors = match errors {
        Some(errors) => rest(&errors)?,
        None => Vec::new(),
    };
    Ok(Run {
        end,
        output,
        errors,
    })
}

type Collected = Receiver<io::Result<Vec<u8>>>;

/// Reads so many bytes in another thread and drops what comes after them.
fn collect(mut pipe: impl Read + Send + 'static, most: u64) -> io::Result<Collected> {
    let (sender, receiver) = mpsc::channel();
    thread::Builder::new().spawn(move || {
        let mut bytes = Vec::new();
        let read = pipe.by_ref().take(most).read_to_end(&mut bytes);
        let received = sender.send(read.map(|_| bytes));
        received.is_ok() && io::copy(&mut pipe, &mut io::sink()).is_ok()
    })?;
    Ok(receiver)
}

/// What was read of a program that has ended; nothing where another process
/// keeps the pipe open.
fn rest(collected: &Collected) -> io::Result<Vec<u8>> {
    collected.recv_timeout(GRACE).unwrap_or(Ok(Vec::new()))
}

/// Writes the parts with a pause between them, and ends the input. What an
/// empty pipe may not take at once is written by another thread.
fn hand_over(mut stdin: ChildStdin, parts: &[&[u8]]) -> io::Result<()> {
    match parts {
        [] => Ok(()),
        [whole] if whole.len() <= PIPE => or_closed(stdin.write_all(whole)),
        _ => {
            let parts: Vec<Vec<u8>> = parts.iter().map(|part| part.to_vec()).collect();
            let write = move || write_parts(stdin, &parts);
            thread::Builder::new().spawn(write).map(drop)
        }
    }
}

fn write_parts(mut stdin: ChildStdin, parts: &[Vec<u8>]) -> io::Result<()> {
    for (number, part) in parts.iter().enumerate() {
        if number > 0 {
            thread::sleep(PAUSE);
        }
        stdin.write_all(part)?;
    }
    Ok(())
}

/// A program that does not read all of its input closes the pipe.
fn or_closed(written: io::Result<()>) -> io::Result<()> {
    match written {
        Err(error) if error.kind() == io::ErrorKind::BrokenPipe => Ok(()),
        other => other,
    }
}

/// Looks for the end of a program that has closed its output.
fn wait_until(child: &mut Child, deadline: Option<Instant>, time: Duration) -> io::Result<End> {
    let mut pause = FIRST_LOOK;
    loop {
        if let Some(status) = child.try_wait()? {
            return Ok(End::of(status));
        }
        if deadline.is_some_and(|deadline| Instant::now() >= deadline) {
            kill(child);
            return Ok(End::NoEnd(time));
        }
        thread::sleep(pause);
        pause = pause.saturating_mul(2).min(LONGEST_LOOK);
    }
}

/// Kills the process group, and the program if it has left it. The standard
/// library has no call for a group, so a shell does it.
fn kill(child: &mut Child) {
    let group = format!("-{}", child.id());
    let _ = Command::new("sh")
        .args(["-c", "kill -s KILL -- \"$0\"", &group])
        .stdin(Stdio::null())
        .stdout(Stdio::null())
        .stderr(Stdio::null())
        .status();
    let _ = child.kill();
    let _ = child.wait();
}
