//! The lines of `cardcheck`, `replay` and `access`, each with what it means in
//! words.

mod access;
mod answer;
mod call;
mod line;

pub use access::{access_in_words, access_line};
pub use line::answer_in_words;

use crate::answer::{Answer, CardSize};
use crate::bytes::Bytes;
use crate::card::{Reading, Stage};
use crate::cardcheck::CARD_LIMIT;
use crate::describe::refused;
use crate::kind::Kind;
use crate::ledger::Ledger;
use crate::reason;
use crate::replay::{take_call, Replay};

/// A line with its words.
#[derive(Clone, Debug, PartialEq, Eq)]
pub struct Explained {
    /// What the line answers; nothing for a call of an unknown tag.
    pub kind: Option<Kind>,
    /// The line as it is printed.
    pub line: String,
    /// The call and its answer: lines without an end after the last.
    pub words: String,
}

/// Explains the line that `cardcheck` prints for this input.
pub fn card_line(input: &[u8]) -> Explained {
    let card = input.get(..usize::from(CARD_LIMIT)).unwrap_or(input);
    let reading = Reading::of(card);
    Explained {
        kind: Some(Kind::Card),
        line: card_answer(&reading).to_string(),
        words: card_words(card, &reading).join("\n"),
    }
}

fn card_answer(reading: &Reading) -> Answer {
    let size = match &reading.stage {
        Stage::Register { ledger, .. } => CardSize::of(ledger),
        Stage::Start | Stage::Head(_) => CardSize {
            records: 0,
            directives: 0,
        },
    };
    Answer::Card(match reading.stop {
        Some(stop) => Err(stop.refusal),
        None => Ok(size),
    })
}

/// The card in short, or where and why it is refused.
fn card_words(card: &[u8], reading: &Reading) -> Vec<String> {
    match (&reading.stop, &reading.stage) {
        (None, Stage::Register { edition, ledger }) => {
            let card = answer::in_short(ledger, *edition, card.len());
            vec![format!("Card accepted: {card}.")]
        }
        (Some(stop), stage) => {
            let place = reason::place(card, stage, stop);
            let mut lines = vec![
                format!("Card refused at {place}."),
                format!("Refused by {}", refused(stop.refusal)),
            ];
            lines.extend(reason::of_card(card, stage, stop));
            lines
        }
        (None, Stage::Start | Stage::Head(_)) => Vec::new(),
    }
}

/// Explains the lines that `replay` prints for this input.
pub fn explain(replay: &[u8]) -> Vec<Explained> {
    Explanations::of(replay).collect()
}

/// The lines of a replay with their words, one after another.
pub struct Explanations<'a> {
    input: &'a [u8],
    replay: Replay<'a>,
}

impl<'a> Explanations<'a> {
    pub fn of(input: &'a [u8]) -> Explanations<'a> {
        Explanations {
            input,
            replay: Replay::new(input),
        }
    }

    /// The kind and the words of the card's line.
    fn card(&self, answer: &Answer) -> (Option<Kind>, Vec<String>) {
        let words = match (self.input, answer) {
            ([_, _, rest @ ..], Answer::Card(result)) => {
                let left = self.replay.bytes().left();
                let length = rest.len().saturating_sub(left);
                let card = rest.get(..length).unwrap_or(rest);
                let mut words = card_words(card, &Reading::of(card));
                if result.is_err() {
                    words.push("The replay goes on with the empty ledger.".to_string());
                }
                words
            }
            _ => vec![reason::malformed_card(self.input)],
        };
        (Some(Kind::Card), words)
    }

    /// The kind and the words of the line of a call that was made on the
    /// ledger `before` and begins where so many bytes were left.
    fn call(&self, before: &Ledger, left: usize, answer: &Answer) -> (Option<Kind>, Vec<String>) {
        let offset = self.input.len().saturating_sub(left);
        let rest = self.input.get(offset..).unwrap_or_default();
        match take_call(&mut Bytes::new(rest)) {
            Some(call) => {
                let after = self.replay.ledger().unwrap_or(before);
                let mut words = vec![call::in_words(before, &call)];
                words.extend(answer::in_words(before, after, &call, answer));
                (Some(Kind::of_call(&call)), words)
            }
            None => {
                let kind = rest.first().and_then(|tag| Kind::of_tag(*tag));
                (kind, reason::malformed_call(rest, offset))
            }
        }
    }
}

impl Iterator for Explanations<'_> {
    type Item = Explained;

    fn next(&mut self) -> Option<Explained> {
        let before = self.replay.ledger().cloned();
        let left = self.replay.bytes().left();
        let answer = self.replay.next()?;
        let (kind, mut words) = match before {
            None => self.card(&answer),
            Some(ledger) => self.call(&ledger, left, &answer),
        };
        if answer == Answer::Malformed {
            words.insert(0, "The replay is malformed and ends here.".to_string());
        }
        Some(Explained {
            kind,
            line: answer.to_string(),
            words: words.join("\n"),
        })
    }
}
