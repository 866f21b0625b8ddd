//! A card in words for a screen.

use crate::card::{Edition, Reading, Stage, Stop};
use crate::cardcheck::CARD_LIMIT;
use crate::describe::{counted, members, refused, Words};
use crate::layout::{indented, rows, sentence, table, tree};
use crate::ledger::Ledger;
use crate::reason;

/// What a card says, and whether it is accepted.
#[derive(Clone, Debug, PartialEq, Eq)]
pub struct Shown {
    /// Lines, each with its end.
    pub text: String,
    pub accepted: bool,
}

/// Shows the card that `cardcheck` takes: the first 65,535 bytes.
pub fn show(input: &[u8]) -> Shown {
    let card = input.get(..usize::from(CARD_LIMIT)).unwrap_or(input);
    let Reading { stage, stop } = Reading::of(card);
    let mut lines = match &stop {
        None => vec!["Consent card: accepted".to_string()],
        Some(stop) => vec![format!(
            "Consent card: REFUSED by question {}. Nothing on it is in force.",
            stop.refusal.number()
        )],
    };
    if card.len() < input.len() {
        let length = input.len();
        lines.push(format!(
            "Only the first {CARD_LIMIT} bytes are the card; the input has {length}."
        ));
    }
    lines.push(String::new());
    match &stop {
        None => lines.extend(contents(&stage, card.len())),
        Some(stop) => {
            lines.push("The part before the refusal, NOT in force".to_string());
            lines.push(String::new());
            lines.extend(indented(contents(&stage, card.len())));
            lines.push(String::new());
            lines.extend(refusal(card, &stage, stop));
        }
    }
    lines.push(String::new());
    Shown {
        text: lines.join("\n"),
        accepted: stop.is_none(),
    }
}

/// What was read, and the card's length.
fn contents(stage: &Stage, length: usize) -> Vec<String> {
    let length = counted(length, "byte");
    match stage {
        Stage::Start => rows(&[("Length", length), ("Read", "nothing".to_string())]),
        Stage::Head(head) => summary(head.edition, head.patient, head.clock, length),
        Stage::Register { edition, ledger } => {
            let mut lines = summary(*edition, ledger.patient(), ledger.clock(), length);
            lines.extend(section("Roles", roles(ledger)));
            lines.extend(section("Records", records(ledger)));
            lines.extend(section("Directives in order", directives(ledger)));
            lines
        }
    }
}

fn summary(edition: Edition, patient: u16, clock: u32, length: String) -> Vec<String> {
    let edition = match edition {
        Edition::One => "1 (directives without purposes: they are for all 11)",
        Edition::Two => "2",
    };
    rows(&[
        ("Patient", format!("person {patient}")),
        ("Clock", format!("minute {clock}")),
        ("Edition", edition.to_string()),
        ("Length", length),
    ])
}

fn section(title: &str, lines: Vec<String>) -> Vec<String> {
    let lines = if lines.is_empty() {
        vec!["none".to_string()]
    } else {
        lines
    };
    let mut section = vec![String::new(), title.to_string()];
    section.extend(indented(lines));
    section
}

fn roles(ledger: &Ledger) -> Vec<String> {
    let tree = tree("role", ledger.register().roles());
    tree.into_iter().map(|(_, line)| line).collect()
}

/// The records as a tree, with their fields in columns.
fn records(ledger: &Ledger) -> Vec<String> {
    let records = ledger.register().records();
    let parents: Vec<u8> = records.iter().map(|record| record.parent).collect();
    let heading = ["", "author", "type", "origins", "sensitivities", "labels"];
    let mut lines = vec![heading.map(str::to_string).to_vec()];
    for (number, branch) in tree("record", &parents) {
        let Some(record) = records.get(number) else {
            continue;
        };
        lines.push(vec![
            branch,
            Words::of(ledger).person(record.author),
            record.record_type.to_string(),
            members(record.origins),
            members(record.sensitivities),
            members(record.labels),
        ]);
    }
    match records {
        [] => Vec::new(),
        _ => table(&lines),
    }
}

fn directives(ledger: &Ledger) -> Vec<String> {
    let mut lines = Vec::new();
    for directive in ledger.active() {
        if !lines.is_empty() {
            lines.push(String::new());
        }
        lines.extend(Words::of(ledger).directive_rows(directive));
    }
    lines
}

/// Where and why the card is refused.
fn refusal(card: &[u8], stage: &Stage, stop: &Stop) -> Vec<String> {
    let mut lines = vec![format!("Refused at {}", reason::place(card, stage, stop))];
    let mut sentences = vec![format!("By {}", refused(stop.refusal))];
    sentences.extend(reason::of_card(card, stage, stop));
    for text in sentences {
        lines.extend(indented(sentence(&text)));
    }
    lines
}
