//! The commands, with their options and help.

use std::ffi::OsStr;
use std::fmt::Display;
use std::io::{self, BufWriter, IsTerminal, Write};
use std::path::Path;
use std::process::ExitCode;
use std::time::Duration;

use checker::access::{access, AccessArguments, UnusableDraft, MOST_DRAFT_DIGITS};
use checker::answer::Answer;
use checker::bench::measures;
use checker::bytes::hex;
use checker::cardcheck::cardcheck;
use checker::compare::{answers, Program, Programs, Session, Settings};
use checker::conformance::write_cases;
use checker::counts::{Asked, Counts};
use checker::explain::Explanations;
use checker::facts::write_facts;
use checker::files::{self, Stream};
use checker::generate::inputs;
use checker::replay::Replay;
use checker::request::Requester;
use checker::show::show;
use checker::text_form::{assemble, disassemble, draft, unmet, Assembled, Kind};

use crate::arguments::{wrong, Arguments, Choice, Failure};

/// Something is refused, missing or different.
const FOUND: u8 = 1;

/// What is generated where nothing is said.
const SEED: u64 = 1;
const INPUTS: u64 = 2_000;
/// How long a run of a program, and the search for a smaller input, may take.
const TIMEOUT: Duration = Duration::from_secs(60);
const SHRINK: Duration = Duration::from_secs(20);

pub type Output = BufWriter<Stream>;

/// A command of the program.
pub struct Command {
    pub name: &'static str,
    /// What follows the name in its usage.
    pub usage: &'static str,
    /// In a line.
    pub summary: &'static str,
    /// In more lines.
    pub help: &'static str,
    pub operands: &'static [&'static str],
    pub choices: &'static [Choice],
    pub run: fn(&Arguments, &mut Output) -> Result<ExitCode, Failure>,
}

const fn choice(name: &'static str, value: &'static str, help: &'static str) -> Choice {
    Choice {
        name,
        value: Some(value),
        help,
    }
}

const fn flag(name: &'static str, help: &'static str) -> Choice {
    Choice {
        name,
        value: None,
        help,
    }
}

const SEED_CHOICE: Choice = choice("--seed", "S", "the seed of the generator; 1 if not given");
const CARDS_CHOICE: Choice = choice("--cards", "N", "how many cards; 2000 if not given");
const REPLAYS_CHOICE: Choice = choice("--replays", "N", "how many replays; 2000 if not given");

pub const COMMANDS: &[Command] = &[
    Command {
        name: "cardcheck",
        usage: "< CARD",
        summary: "answer a card",
        help: "Takes the first 65,535 bytes of standard input as a card and prints one line:
refusal (0 for none), records, active directives.",
        operands: &[],
        choices: &[],
        run: run_cardcheck,
    },
    Command {
        name: "replay",
        usage: "< REPLAY",
        summary: "answer a card and a list of calls",
        help: "Reads a replay from standard input and prints a line for its card and one for each
call, or 'malformed' where it breaks its format.",
        operands: &[],
        choices: &[],
        run: run_replay,
    },
    Command {
        name: "access",
        usage: "PERSON ROLE ORIGIN PURPOSE [DRAFT] < CARD",
        summary: "tell what a requester may read, and what a draft would change",
        help: "Takes the first 65,535 bytes of standard input as a card and prints a line for each
of its records: what is decided there for this requester at the card's clock, and on
which basis. With DRAFT, the line of a record whose decision the draft would change
says to what, and a last line how many change. The status is 1, with the question that
refuses in one line, if the card is refused, if a commit of the draft would be, or if
the register does not have the role, the origin is above 15 or the purpose above 10.
PERSON and ROLE are at most 65535, ORIGIN and PURPOSE at most 255; each has at most five
digits. DRAFT is the bytes of the draft in hexadecimal, at most 1024 digits;
'checker draft' makes them.",
        operands: &["PERSON", "ROLE", "ORIGIN", "PURPOSE", "[DRAFT]"],
        choices: &[],
        run: run_access,
    },
    Command {
        name: "show",
        usage: "CARD",
        summary: "show a card in words",
        help: "Prints what a card says, or why it is refused and what stands before that. CARD is a
file, or - for standard input. The status is 1 if the card is refused.",
        operands: &["CARD"],
        choices: &[],
        run: run_show,
    },
    Command {
        name: "explain",
        usage: "REPLAY",
        summary: "explain each line of a replay in words",
        help:
            "Prints each line that 'checker replay' prints, with its number, and below it the call
and its answer in words. REPLAY is a file, or - for standard input. The status is 1
if the replay is malformed.",
        operands: &["REPLAY"],
        choices: &[],
        run: run_explain,
    },
    Command {
        name: "facts",
        usage: "REPLAY",
        summary: "tell a screen why a card or a draft is refused, as JSON",
        help: "Prints one line of JSON: where and why the card is refused, the line of each call,
and why a draft is refused by question 12, 13 or 14. README.md describes it. REPLAY
is a file, or - for standard input. The status is 1 if the replay is malformed.",
        operands: &["REPLAY"],
        choices: &[],
        run: run_facts,
    },
    Command {
        name: "assemble",
        usage: "TEXT [-o OUT]",
        summary: "make the bytes of a card or a replay from its text form",
        help: "TEXT is a file, or - for standard input; TEXT_FORM.md describes it. The bytes go to
standard output, unless that is a terminal. Lines that the text expects are put to
this implementation: the status is 1 if one is answered otherwise.",
        operands: &["TEXT"],
        choices: &[choice("-o", "OUT", "write the bytes to this file")],
        run: run_assemble,
    },
    Command {
        name: "disassemble",
        usage: "[--card | --replay] FILE",
        summary: "print the text form of a card or a replay",
        help: "FILE is of any bytes, or - for standard input. Without an option its extension says
what it is, .card or .replay.",
        operands: &["FILE"],
        choices: &[
            flag("--card", "it is a card"),
            flag("--replay", "it is a replay"),
        ],
        run: run_disassemble,
    },
    Command {
        name: "draft",
        usage: "WORDS..",
        summary: "make the hexadecimal digits of a draft",
        help: "WORDS are those of a commit in the text form that TEXT_FORM.md describes, such as
2 deny role 1 record 0 reach 2 from 1000 until 2000. Prints the bytes of the draft in
lowercase hexadecimal, as 'checker access' takes them.",
        operands: &["WORDS.."],
        choices: &[],
        run: run_draft,
    },
    Command {
        name: "generate",
        usage: "[--seed S] [--cards N] [--replays N] [--out DIR]",
        summary: "make random cards and replays and count their answers",
        help: "Makes inputs from a seed, answers them and prints how often each answer occurred.
The status is 1 if an answer that can occur did not.",
        operands: &[],
        choices: &[
            SEED_CHOICE,
            CARDS_CHOICE,
            REPLAYS_CHOICE,
            choice(
                "--out",
                "DIR",
                "store the inputs there as S-INDEX.card and S-INDEX.replay",
            ),
        ],
        run: run_generate,
    },
    Command {
        name: "compare",
        usage: "[--cardcheck PROGRAM] [--access PROGRAM] [--replay PROGRAM] [OPTION ..]",
        summary: "compare other programs with this implementation",
        help: "Runs generated inputs through the programs and compares every line and the end of
each run. At a difference it prints the input and the lines, explains them, looks
for a smaller input that shows the same, stores both, and ends with status 1.

With --access each card is also asked about for a requester, who depends on the seed,
the index and the card, and in about half of the runs with a draft. These arguments come
after those of PROGRAM; the report has them. The status is compared too. In a smaller
card the arguments are the same.

A PROGRAM is run as it stands if there is such a file. Otherwise it is split at
blanks into a program and its arguments, where '..', \"..\" and \\ quote as in a
shell, and a name without a slash is looked up in PATH. No shell is run.",
        operands: &[],
        choices: &[
            choice("--cardcheck", "PROGRAM", "reads a card and prints its line"),
            choice(
                "--access",
                "PROGRAM",
                "takes a requester, reads a card and prints its lines",
            ),
            choice("--replay", "PROGRAM", "reads a replay and prints its lines"),
            SEED_CHOICE,
            CARDS_CHOICE,
            REPLAYS_CHOICE,
            choice(
                "--timeout",
                "SECONDS",
                "for each run of a program; 60 if not given",
            ),
            choice(
                "--shrink",
                "SECONDS",
                "for the search for a smaller input; 20 if not given, 0 for none",
            ),
            flag(
                "--keep-going",
                "go on after a difference, and count the differences by their answer",
            ),
            choice(
                "--out",
                "DIR",
                "store different inputs there; in the current directory if not given",
            ),
        ],
        run: run_compare,
    },
    Command {
        name: "conformance",
        usage: "",
        summary: "print the conformance cases",
        help: "Prints the conformance cases, a line of JSON each. The status is 1, and no case is
printed, if one is not answered as its author derived it.",
        operands: &[],
        choices: &[],
        run: run_conformance,
    },
    Command {
        name: "bench",
        usage: "DIR",
        summary: "store the inputs of the benchmark",
        help: "Stores the inputs in DIR and prints a line for each operation: its name, its kind of
input, how often it is counted and timed.",
        operands: &["DIR"],
        choices: &[],
        run: run_bench,
    },
];

fn run_cardcheck(_: &Arguments, output: &mut Output) -> Result<ExitCode, Failure> {
    writeln!(output, "{}", cardcheck(files::standard_input()?)?)?;
    Ok(ExitCode::SUCCESS)
}

fn run_replay(_: &Arguments, output: &mut Output) -> Result<ExitCode, Failure> {
    let input = files::read(Path::new("-"))?;
    for answer in Replay::new(&input) {
        writeln!(output, "{answer}")?;
    }
    Ok(ExitCode::SUCCESS)
}

fn run_access(arguments: &Arguments, output: &mut Output) -> Result<ExitCode, Failure> {
    let requester = Requester {
        person: arguments.operand_number(0, "PERSON", u16::MAX)?,
        role: arguments.operand_number(1, "ROLE", u16::MAX)?,
        origin: arguments.operand_number(2, "ORIGIN", u8::MAX)?,
        purpose: arguments.operand_number(3, "PURPOSE", u8::MAX)?,
    };
    let draft = arguments.optional_operand(4);
    let taken = AccessArguments {
        requester,
        draft: draft.map(|draft| draft.to_string_lossy().into_owned()),
    };
    if let (Some(draft), Err(UnusableDraft)) = (draft, taken.draft_bytes()) {
        return Err(wrong(format!(
            "DRAFT: '{}' is not an even number of hexadecimal digits, at most {MOST_DRAFT_DIGITS}",
            draft.display()
        )));
    }
    let access = access(files::standard_input()?, &taken)?;
    write!(output, "{access}")?;
    Ok(ExitCode::from(access.status()))
}

fn run_show(arguments: &Arguments, output: &mut Output) -> Result<ExitCode, Failure> {
    let shown = show(&files::read(arguments.operand(0))?);
    write!(output, "{}", shown.text)?;
    Ok(found(!shown.accepted))
}

fn run_explain(arguments: &Arguments, output: &mut Output) -> Result<ExitCode, Failure> {
    let input = files::read(arguments.operand(0))?;
    let mut malformed = false;
    for (number, explained) in (1u64..).zip(Explanations::of(&input)) {
        writeln!(output, "{number}: {}", explained.line)?;
        for line in explained.words.lines() {
            writeln!(output, "    {line}")?;
        }
        malformed = explained.line == Answer::Malformed.to_string();
    }
    Ok(found(malformed))
}

fn run_facts(arguments: &Arguments, output: &mut Output) -> Result<ExitCode, Failure> {
    let input = files::read(arguments.operand(0))?;
    Ok(found(write_facts(&input, output)?))
}

fn run_assemble(arguments: &Arguments, output: &mut Output) -> Result<ExitCode, Failure> {
    let source = arguments.operand(0);
    let text = String::from_utf8(files::read(source)?)
        .map_err(|_| Failure::Other(format!("{}: not UTF-8", source.display())))?;
    let assembled = assemble(&text)
        .map_err(|error| Failure::Other(format!("{}: {error}", source.display())))?;
    match arguments.path("-o") {
        Some(path) => files::store(path, &assembled.bytes)?,
        None if io::stdout().is_terminal() => {
            return Err(wrong("standard output is a terminal: -o OUT names a file"));
        }
        None => output.write_all(&assembled.bytes)?,
    }
    let unmet = unmet(&assembled.expected, &printed(&assembled)?);
    for unmet in &unmet {
        let _ = writeln!(io::stderr(), "{}: {unmet}", source.display());
    }
    Ok(found(!unmet.is_empty()))
}

/// The lines that this implementation prints.
fn printed(assembled: &Assembled) -> Result<Vec<String>, Failure> {
    let bytes = assembled.bytes.as_slice();
    Ok(match assembled.kind {
        Kind::Card => vec![cardcheck(bytes)?.to_string()],
        Kind::Replay => Replay::new(bytes)
            .map(|answer| answer.to_string())
            .collect(),
    })
}

fn run_disassemble(arguments: &Arguments, output: &mut Output) -> Result<ExitCode, Failure> {
    let path = arguments.operand(0);
    let extension = path.extension().and_then(OsStr::to_str);
    let kind = match (
        arguments.has("--card"),
        arguments.has("--replay"),
        extension,
    ) {
        (true, true, _) => return Err(wrong("--card and --replay are both given")),
        (true, false, _) | (false, false, Some("card")) => Kind::Card,
        (false, true, _) | (false, false, Some("replay")) => Kind::Replay,
        (false, false, _) => {
            return Err(wrong(format!(
                "'{}' ends neither in .card nor in .replay: --card or --replay says what it is",
                path.display()
            )));
        }
    };
    write!(output, "{}", disassemble(kind, &files::read(path)?))?;
    Ok(ExitCode::SUCCESS)
}

fn run_draft(arguments: &Arguments, output: &mut Output) -> Result<ExitCode, Failure> {
    let words = arguments.operands().join(OsStr::new(" "));
    let words = words
        .to_str()
        .ok_or_else(|| wrong("the words are not UTF-8"))?;
    let draft = draft(words).map_err(|error| wrong(error.message))?;
    writeln!(output, "{}", hex(&draft))?;
    Ok(ExitCode::SUCCESS)
}

/// Runs the generated inputs through this implementation and prints the
/// table of answers.
fn run_generate(arguments: &Arguments, output: &mut Output) -> Result<ExitCode, Failure> {
    let seed = arguments.number("--seed")?.unwrap_or(SEED);
    let cards = arguments.number("--cards")?.unwrap_or(INPUTS);
    let replays = arguments.number("--replays")?.unwrap_or(INPUTS);
    let directory = arguments.path("--out");
    if let Some(directory) = directory {
        files::create_directory(directory)?;
    }
    let mut counts = Counts::default();
    for input in inputs(seed, cards, replays) {
        if let Some(directory) = directory {
            files::store(&directory.join(input.file_name()), &input.bytes)?;
        }
        for answer in answers(&input)? {
            counts.add(&answer);
        }
    }
    write!(output, "{counts}")?;
    print_missing(&counts.missing(Asked::ALL), output)
}

/// Names what did not occur.
fn print_missing(missing: &[impl Display], output: &mut Output) -> Result<ExitCode, Failure> {
    for what in missing {
        writeln!(output, "missing: {what}")?;
    }
    Ok(found(!missing.is_empty()))
}

/// The status that tells whether something was found.
fn found(found: bool) -> ExitCode {
    ExitCode::from(if found { FOUND } else { 0 })
}

fn run_compare(arguments: &Arguments, output: &mut Output) -> Result<ExitCode, Failure> {
    let programs = Programs {
        cardcheck: program(arguments, "--cardcheck")?,
        access: program(arguments, "--access")?,
        replay: program(arguments, "--replay")?,
    };
    let asked = programs.asked();
    if !asked.cards && !asked.replays {
        return Err(wrong(
            "no program to compare with: --cardcheck, --access or --replay PROGRAM",
        ));
    }
    let timeout = arguments.seconds("--timeout")?.unwrap_or(TIMEOUT);
    if timeout.is_zero() {
        return Err(wrong("--timeout: a run takes more than 0 seconds"));
    }
    let settings = Settings {
        seed: arguments.number("--seed")?.unwrap_or(SEED),
        cards: count(arguments, "--cards", asked.cards, "--cardcheck or --access")?,
        replays: count(arguments, "--replays", asked.replays, "--replay")?,
        timeout,
        shrink: arguments.seconds("--shrink")?.unwrap_or(SHRINK),
        keep_going: arguments.has("--keep-going"),
        directory: arguments
            .path("--out")
            .unwrap_or(Path::new("."))
            .to_path_buf(),
    };
    Ok(found(Session::new(&programs, &settings, output).run()?))
}

fn program(arguments: &Arguments, name: &str) -> Result<Option<Program>, Failure> {
    let Some(text) = arguments.value(name) else {
        return Ok(None);
    };
    let program = Program::find(text);
    program
        .map(Some)
        .map_err(|error| wrong(format!("{name}: {error}")))
}

/// How many inputs there are; none where no program for them is given.
fn count(arguments: &Arguments, name: &str, asked: bool, programs: &str) -> Result<u64, Failure> {
    match (arguments.number(name)?, asked) {
        (number, true) => Ok(number.unwrap_or(INPUTS)),
        (None | Some(0), false) => Ok(0),
        (Some(_), false) => Err(wrong(format!("{name} is given without {programs} PROGRAM"))),
    }
}

/// The conformance cases.
fn run_conformance(_: &Arguments, output: &mut Output) -> Result<ExitCode, Failure> {
    match write_cases(output) {
        Err(wrong) if wrong.kind() == io::ErrorKind::InvalidData => {
            let _ = writeln!(io::stderr(), "checker conformance: {wrong}");
            Ok(found(true))
        }
        written => {
            written?;
            Ok(ExitCode::SUCCESS)
        }
    }
}

/// Stores the inputs of the benchmark and prints a line for each operation.
fn run_bench(arguments: &Arguments, output: &mut Output) -> Result<ExitCode, Failure> {
    let directory = arguments.operand(0);
    files::create_directory(directory)?;
    for measure in measures() {
        if let Err(wrong) = measure.check() {
            let _ = writeln!(io::stderr(), "checker bench: {wrong}");
            return Ok(found(true));
        }
        measure.write_into(directory)?;
        writeln!(output, "{}", measure.line())?;
    }
    Ok(ExitCode::SUCCESS)
}
