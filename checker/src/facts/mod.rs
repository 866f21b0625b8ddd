//! The facts of a replay for a screen, as JSON: where and why its card is
//! refused, the line of each call, and what a draft that is refused by 12, 13
//! or 14 runs into.

mod draft;
mod fault;

use std::io::{self, Write};

use crate::answer::Answer;
use crate::bytes::Bytes;
use crate::card::{directive_fields, Reading, Stage, Stop};
use crate::directive::{Directive, Fields, LENGTH};
use crate::json::{self, Member};
use crate::ledger::Ledger;
use crate::replay::{framed_card, Call, Replay};

/// Writes the facts in one line, and tells whether the replay is malformed. A
/// card that does not stand whole in it has none.
pub fn write_facts(replay: &[u8], output: &mut impl Write) -> io::Result<bool> {
    let card = framed_card(&mut Bytes::new(replay)).map(of_card);
    write!(output, "{{\"card\": {}, \"calls\": [", json::or_null(card))?;
    let mut answers = Replay::new(replay);
    let mut rest = answers.bytes();
    let mut separator = "";
    let mut malformed = false;
    while let Some(answer) = answers.next() {
        if !matches!(answer, Answer::Card(_)) {
            let call = of_call(rest, &answer, answers.ledger());
            write!(output, "{separator}{call}")?;
            separator = ", ";
        }
        malformed = answer == Answer::Malformed;
        rest = answers.bytes();
    }
    writeln!(output, "]}}")?;
    Ok(malformed)
}

fn of_card(card: &[u8]) -> String {
    let Reading { stage, stop } = Reading::of(card);
    let Some(stop) = stop else {
        return json::object([("refusal", "0".to_string())]);
    };
    let mut members = vec![("refusal", stop.refusal.number().to_string())];
    members.extend(of_directive_field(card, &stage, &stop));
    let field = fault::in_card(card, &stage, &stop);
    members.push(("field", json::or_null(field.map(|fault| fault.to_json()))));
    json::object(members)
}

/// What the directive field that a card is refused at runs into.
fn of_directive_field(card: &[u8], stage: &Stage, stop: &Stop) -> Vec<Member> {
    let rest = card.get(stop.offset..).unwrap_or_default();
    match (stage, Bytes::new(rest).field()) {
        (Stage::Register { edition, ledger }, Some((_, value))) => {
            let fields = directive_fields(*edition, value);
            let directive = fields.and_then(|fields| Directive::from_fields(&fields));
            directive.map_or(Vec::new(), |directive| {
                draft::facts(ledger, &directive, stop.refusal)
            })
        }
        _ => Vec::new(),
    }
}

/// The call at the start of these bytes, with its answer. The ledger is the one
/// after it, which for a refused call is the one before it too; none where the
/// replay is malformed.
fn of_call(mut rest: Bytes, answer: &Answer, ledger: Option<&Ledger>) -> String {
    let line = ("line", json::string(&answer.to_string()));
    let (Some((tag, value)), Some(ledger)) = (rest.field(), ledger) else {
        return json::object([line]);
    };
    let mut members = vec![("tag", tag.to_string()), line];
    if let Answer::Commit(Err(refusal)) | Answer::Preview(Err(refusal)) = answer {
        let draft = Call::decode(tag, value).and_then(|call| draft_of(&call));
        members.extend(draft.map_or(Vec::new(), |draft| draft::facts(ledger, &draft, *refusal)));
    }
    json::object(members)
}

/// The draft of a call, if it has one of 25 bytes that keep their ranges.
fn draft_of(call: &Call) -> Option<Directive> {
    let (Call::Commit { draft } | Call::Preview { draft, .. }) = call else {
        return None;
    };
    let bytes = <&[u8; LENGTH]>::try_from(draft.as_slice()).ok()?;
    Directive::from_fields(&Fields::decode(bytes)).ok()
}
