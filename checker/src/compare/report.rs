//! What is printed of a difference.

use std::io::{self, Write};

use super::difference::{shown, Difference, Line};
use super::investigation::Search;
use super::shrink::Bound;
use super::Task;
use crate::explain::{
    access_in_words, access_line, answer_in_words, card_line, Explained, Explanations,
};
use crate::generate::{Input, InputKind};
use crate::text_form::{self, disassemble};

/// How many lines of a text form are printed.
const TEXT_LINES: usize = 200;

/// The title, the input, the lines, and what they say.
pub fn print(difference: &Difference, output: &mut impl Write) -> io::Result<()> {
    writeln!(output, "{}", difference.heading())?;
    print_body(difference, output)
}

fn print_body(difference: &Difference, output: &mut impl Write) -> io::Result<()> {
    write!(output, "{difference}")?;
    match &difference.line {
        Some(line) => print_words(&difference.task, line, output),
        None => Ok(()),
    }
}

/// What the two lines say. Where the checker has no more lines, it is said
/// that the program has one.
fn print_words(task: &Task, line: &Line, output: &mut impl Write) -> io::Result<()> {
    let explained = explained(task, line.number);
    let kind = explained.as_ref().and_then(|explained| explained.kind);
    match explained {
        Some(explained) => {
            writeln!(output, "the checker in words")?;
            print_indented(&explained.words, output)?;
        }
        None => {
            return writeln!(
                output,
                "the program prints more lines than there are answers"
            )
        }
    }
    if let Some(program) = &line.program {
        let program = program.strip_suffix('\n').unwrap_or(program);
        writeln!(output, "the program in words")?;
        let words = match task.arguments {
            None => answer_in_words(kind, program),
            Some(_) => access_in_words(program),
        };
        print_indented(&shown(&words), output)?;
    }
    Ok(())
}

/// What the checker's line of this number says.
fn explained(task: &Task, number: usize) -> Option<Explained> {
    let place = number.checked_sub(1)?;
    let Task { input, arguments } = task;
    match (arguments, input.kind) {
        (Some(arguments), _) => access_line(&input.bytes, arguments, place),
        (None, InputKind::Card) => (place == 0).then(|| card_line(&input.bytes)),
        (None, InputKind::Replay) => Explanations::of(&input.bytes).nth(place),
    }
}

fn print_indented(text: &str, output: &mut impl Write) -> io::Result<()> {
    for line in text.lines() {
        writeln!(output, "    {line}")?;
    }
    Ok(())
}

/// What the program wrote to standard error.
pub fn print_errors(errors: &[u8], output: &mut impl Write) -> io::Result<()> {
    if errors.is_empty() {
        return Ok(());
    }
    writeln!(output, "standard error of the program")?;
    for line in String::from_utf8_lossy(errors).lines() {
        print_indented(&shown(line), output)?;
    }
    Ok(())
}

/// The smallest input found, the name that it is stored under, and what it
/// shows.
pub fn print_search(original: &Task, search: &Search, output: &mut impl Write) -> io::Result<()> {
    let stopped = match search.bound {
        None => "",
        Some(Bound::Runs) => ", the most that are made",
        Some(Bound::Time) => ", stopped as the time is up",
    };
    let runs = search.runs;
    let Some(smallest) = &search.smallest else {
        return writeln!(output, "no smaller input found in {runs} runs{stopped}");
    };
    let (small, large) = (smallest.task.input.bytes.len(), original.input.bytes.len());
    writeln!(output, "smaller: {}", original.small_name())?;
    writeln!(
        output,
        "{small} of {large} bytes, found in {runs} runs{stopped}"
    )?;
    print_body(smallest, output)?;
    print_text_form(&smallest.task.input, output)
}

fn print_text_form(input: &Input, output: &mut impl Write) -> io::Result<()> {
    let kind = match input.kind {
        InputKind::Card => text_form::Kind::Card,
        InputKind::Replay => text_form::Kind::Replay,
    };
    let text = disassemble(kind, &input.bytes);
    writeln!(output, "as text")?;
    let mut lines = text.lines();
    for line in lines.by_ref().take(TEXT_LINES) {
        print_indented(line, output)?;
    }
    match lines.count() {
        0 => Ok(()),
        more => writeln!(output, "    and {more} more lines"),
    }
}
