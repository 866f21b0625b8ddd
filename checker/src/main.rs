//! The program `checker`.

#![forbid(unsafe_code)]
#![deny(
    clippy::arithmetic_side_effects,
    clippy::expect_used,
    clippy::indexing_slicing,
    clippy::panic,
    clippy::unwrap_used
)]

mod arguments;
mod commands;
mod help;

use std::env;
use std::ffi::{OsStr, OsString};
use std::io::{self, Write};
use std::process::ExitCode;

use checker::files;

use arguments::{parse, Failure, Parsed};
use commands::{Command, COMMANDS};

/// The arguments or a file could not be used.
const FAILED: u8 = 2;

fn main() -> ExitCode {
    let arguments: Vec<OsString> = env::args_os().skip(1).collect();
    let (command, ended) = match arguments.split_first() {
        None => return complain(&help::of_all()),
        Some((name, rest)) => match COMMANDS.iter().find(|command| name == command.name) {
            Some(command) => (command.name, run(command, rest)),
            None => ("", run_without_command(name, rest)),
        },
    };
    let checker = format!("checker {command}").trim_end().to_string();
    match ended {
        Ok(code) => code,
        Err(Failure::Arguments(wrong)) => {
            complain(&format!("{checker}: {wrong}\nTry '{checker} --help'.\n"))
        }
        Err(Failure::Other(error)) => complain(&format!("{checker}: {error}\n")),
    }
}

/// Says it on standard error. There is nobody to tell where that fails.
fn complain(text: &str) -> ExitCode {
    let _ = io::stderr().write_all(text.as_bytes());
    ExitCode::from(FAILED)
}

fn run(command: &Command, rest: &[OsString]) -> Result<ExitCode, Failure> {
    match parse(rest, command.choices, command.operands)? {
        Parsed::Help => print(&help::of(command)),
        Parsed::Arguments(arguments) => {
            let mut output = files::standard_output()?;
            let code = (command.run)(&arguments, &mut output)?;
            output.flush()?;
            Ok(code)
        }
    }
}

/// `--help` and `--version`.
fn run_without_command(name: &OsStr, rest: &[OsString]) -> Result<ExitCode, Failure> {
    let text = match name.to_str() {
        Some("--help" | "-h") => help::of_all(),
        Some("--version" | "-V") => format!("checker {}\n", env!("CARGO_PKG_VERSION")),
        _ => {
            let what = if name.as_encoded_bytes().starts_with(b"-") {
                "option"
            } else {
                "command"
            };
            return Err(arguments::wrong(format!("no {what} '{}'", name.display())));
        }
    };
    parse(rest, &[], &[])?;
    print(&text)
}

fn print(text: &str) -> Result<ExitCode, Failure> {
    let mut output = files::standard_output()?;
    output.write_all(text.as_bytes())?;
    output.flush()?;
    Ok(ExitCode::SUCCESS)
}
