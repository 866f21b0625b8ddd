//! The arguments of a command: options with their values, and operands.

use std::collections::BTreeMap;
use std::ffi::{OsStr, OsString};
use std::fmt::Display;
use std::io;
use std::os::unix::ffi::OsStrExt;
use std::path::Path;
use std::str::FromStr;
use std::time::Duration;

/// The longest time that an option takes.
const MOST_SECONDS: f64 = 1_000_000.0;
/// How many digits a number has at most that is an operand.
const MOST_DIGITS: usize = 5;

/// Why a command cannot do its work.
pub enum Failure {
    /// What is wrong with the arguments.
    Arguments(String),
    /// What could not be read, written or run.
    Other(String),
}

impl From<io::Error> for Failure {
    fn from(error: io::Error) -> Failure {
        Failure::Other(error.to_string())
    }
}

/// An option of a command.
pub struct Choice {
    pub name: &'static str,
    /// The name of its value; nothing for an option without one.
    pub value: Option<&'static str>,
    pub help: &'static str,
}

/// What follows the name of a command.
#[derive(Default)]
pub struct Arguments {
    values: BTreeMap<&'static str, OsString>,
    operands: Vec<OsString>,
}

/// Arguments, or the wish for help.
pub enum Parsed {
    Arguments(Arguments),
    Help,
}

/// Reads the arguments: each option at most once, its value after it or after
/// an equals sign, and these operands. One in brackets may be left out, one
/// that ends in dots repeats. After `--` come operands alone.
pub fn parse(
    arguments: &[OsString],
    choices: &'static [Choice],
    operands: &[&str],
) -> Result<Parsed, Failure> {
    let mut parsed = Arguments::default();
    let mut rest = arguments.iter();
    let mut options = true;
    while let Some(argument) = rest.next() {
        if !options || argument == "-" || !argument.as_bytes().starts_with(b"-") {
            parsed.operands.push(argument.clone());
        } else if argument == "--" {
            options = false;
        } else if argument == "--help" || argument == "-h" {
            return Ok(Parsed::Help);
        } else if parsed.add(argument, rest.as_slice().first(), choices)? {
            rest.next();
        }
    }
    let most = match operands.last() {
        Some(last) if last.ends_with("..") => usize::MAX,
        _ => operands.len(),
    };
    let missing = operands.get(parsed.operands.len());
    let missing = missing.filter(|name| !name.starts_with('['));
    match (parsed.operands.get(most), missing) {
        (Some(more), _) => Err(wrong(format!(
            "'{}' is one argument too many",
            more.display()
        ))),
        (None, Some(missing)) => Err(wrong(format!("{missing} is missing"))),
        (None, None) => Ok(Parsed::Arguments(parsed)),
    }
}

/// What is wrong with the arguments.
pub fn wrong(text: impl Into<String>) -> Failure {
    Failure::Arguments(text.into())
}

/// The name of an option, and its value if an equals sign follows.
fn split(argument: &OsStr) -> (&OsStr, Option<&OsStr>) {
    let mut parts = argument.as_bytes().splitn(2, |byte| *byte == b'=');
    let name = parts.next().unwrap_or_default();
    (OsStr::from_bytes(name), parts.next().map(OsStr::from_bytes))
}

impl Arguments {
    /// Adds an option. Tells whether the next argument is its value.
    fn add(
        &mut self,
        argument: &OsStr,
        next: Option<&OsString>,
        choices: &'static [Choice],
    ) -> Result<bool, Failure> {
        let (name, attached) = split(argument);
        let choice = choices.iter().find(|choice| name == choice.name);
        let choice = choice.ok_or_else(|| wrong(format!("no option '{}'", name.display())))?;
        let name = choice.name;
        let next = next.filter(|next| !next.as_bytes().starts_with(b"--"));
        let (value, takes_next) = match (choice.value, attached, next) {
            (None, None, _) => (OsStr::new(""), false),
            (None, Some(_), _) => return Err(wrong(format!("{name} takes no value"))),
            (Some(_), Some(value), _) => (value, false),
            (Some(_), None, Some(value)) => (value.as_os_str(), true),
            (Some(what), None, None) => {
                return Err(wrong(format!("{name}: its value {what} is missing")));
            }
        };
        match self.values.insert(name, value.to_os_string()) {
            Some(_) => Err(wrong(format!("{name} is given twice"))),
            None => Ok(takes_next),
        }
    }

    /// Whether the option is given.
    pub fn has(&self, name: &str) -> bool {
        self.values.contains_key(name)
    }

    pub fn value(&self, name: &str) -> Option<&OsStr> {
        self.values.get(name).map(OsString::as_os_str)
    }

    pub fn path(&self, name: &str) -> Option<&Path> {
        self.value(name).map(Path::new)
    }

    /// The operand at this place, counted from 0.
    pub fn operand(&self, place: usize) -> &Path {
        Path::new(
            self.operands
                .get(place)
                .map_or("".as_ref(), OsString::as_os_str),
        )
    }

    pub fn operands(&self) -> &[OsString] {
        &self.operands
    }

    /// The operand at this place that may be left out.
    pub fn optional_operand(&self, place: usize) -> Option<&OsStr> {
        self.operands.get(place).map(OsString::as_os_str)
    }

    /// The operand at this place, a number from 0 to this one.
    pub fn operand_number<T: FromStr + Display + PartialOrd>(
        &self,
        place: usize,
        name: &str,
        most: T,
    ) -> Result<T, Failure> {
        let operand = self.operand(place);
        let text = operand.to_str().unwrap_or_default();
        let digits = text.bytes().all(|byte| byte.is_ascii_digit()) && text.len() <= MOST_DIGITS;
        match text.parse() {
            Ok(number) if digits && number <= most => Ok(number),
            _ => Err(wrong(format!(
                "{name}: '{}' is not a number from 0 to {most} in at most {MOST_DIGITS} digits",
                operand.display()
            ))),
        }
    }

    pub fn number(&self, name: &str) -> Result<Option<u64>, Failure> {
        let Some(value) = self.value(name) else {
            return Ok(None);
        };
        let text = value.to_str().unwrap_or_default();
        let digits = text.bytes().all(|byte| byte.is_ascii_digit());
        match text.parse() {
            Ok(number) if digits => Ok(Some(number)),
            _ => Err(wrong(format!(
                "{name}: '{}' is not a number from 0 to {}",
                value.display(),
                u64::MAX
            ))),
        }
    }

    /// A time in seconds, decimals allowed.
    pub fn seconds(&self, name: &str) -> Result<Option<Duration>, Failure> {
        let Some(value) = self.value(name) else {
            return Ok(None);
        };
        let seconds: Option<f64> = value.to_str().and_then(|text| text.parse().ok());
        let seconds = seconds.filter(|seconds| (0.0..=MOST_SECONDS).contains(seconds));
        match seconds.map(Duration::try_from_secs_f64) {
            Some(Ok(time)) => Ok(Some(time)),
            _ => Err(wrong(format!(
                "{name}: '{}' is not a number of seconds from 0 to {MOST_SECONDS}",
                value.display()
            ))),
        }
    }
}
