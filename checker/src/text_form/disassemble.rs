//! From the bytes to the text.

use super::words;
use super::{calls, card_items, Kind};
use crate::bytes::Bytes;

/// The canonical text of a card or replay, whatever its bytes are.
pub fn disassemble(kind: Kind, bytes: &[u8]) -> String {
    let (first, lines) = match kind {
        Kind::Card => (words::CARD, card_items::lines(bytes)),
        Kind::Replay => (words::REPLAY, replay_lines(bytes)),
    };
    let mut text = format!("{first}\n");
    for line in lines {
        text.push_str(&line);
        text.push('\n');
    }
    text
}

fn replay_lines(replay: &[u8]) -> Vec<String> {
    let mut bytes = Bytes::new(replay);
    let Some(length) = bytes.u16() else {
        return after(words::ABSENT, replay);
    };
    let Some(card) = bytes.take(usize::from(length)) else {
        return after(&length.to_string(), bytes.rest());
    };
    let mut lines = card_items::lines(card);
    let calls = calls::lines(bytes.rest());
    if calls.first().is_some_and(|call| is_bytes(call)) {
        lines.push(words::CALLS.to_string());
    }
    lines.extend(calls);
    lines
}

/// A card that does not stand whole, after its length.
fn after(length: &str, card: &[u8]) -> Vec<String> {
    let mut lines = vec![format!("{} {length}", words::LENGTH)];
    lines.extend(card_items::lines(card));
    lines
}

fn is_bytes(line: &str) -> bool {
    line.split(' ').next() == Some(words::BYTES)
}
