//! From the text to the bytes.

use super::calls;
use super::card_items::Context;
use super::expected::Expected;
use super::line::{words, Word};
use super::named::Named;
use super::words;
use super::{Assembled, Kind, TextError};

/// Some editors put it first.
const BYTE_ORDER_MARK: char = '\u{FEFF}';
/// The card of a replay has at most so many bytes.
const LONGEST_CARD: usize = 65_535;

/// The bytes of a text, and the lines that it expects.
pub fn assemble(text: &str) -> Result<Assembled, TextError> {
    let text = text.strip_prefix(BYTE_ORDER_MARK).unwrap_or(text);
    let lines = (1..).zip(text.lines());
    let mut assembly: Option<Assembly> = None;
    for (number, line) in lines {
        let words = words(number, line);
        let Some((item, rest)) = words.split_first() else {
            continue;
        };
        match &mut assembly {
            None => assembly = Some(Assembly::new(kind(*item, rest)?)),
            Some(assembly) => assembly.add(*item, rest)?,
        }
    }
    match assembly {
        Some(assembly) => Ok(assembly.assembled()),
        None => Err(TextError {
            line: 1,
            column: 1,
            message: format!("a text begins with {} or {}", words::CARD, words::REPLAY),
        }),
    }
}

/// What the first item says.
fn kind(item: Word, rest: &[Word]) -> Result<Kind, TextError> {
    let kind = match item.text {
        words::CARD => Kind::Card,
        words::REPLAY => Kind::Replay,
        _ => return Err(item.unexpected(&[words::CARD, words::REPLAY])),
    };
    Named::new(item, rest, &words::BARE_FORM)?;
    Ok(kind)
}

/// The two-byte length before the card of a replay.
enum CardLength {
    Right,
    Named(u16),
    Absent,
}

/// The bytes of the items so far.
struct Assembly {
    kind: Kind,
    length: CardLength,
    card: Vec<u8>,
    context: Context,
    calls: Vec<u8>,
    /// Whether the card has ended.
    in_calls: bool,
    /// Which answer is the last one: 0 for the card, then one a call.
    answer: usize,
    expected: Vec<Expected>,
}

impl Assembly {
    fn new(kind: Kind) -> Assembly {
        Assembly {
            kind,
            length: CardLength::Right,
            card: Vec::new(),
            context: Context::default(),
            calls: Vec::new(),
            in_calls: false,
            answer: 0,
            expected: Vec::new(),
        }
    }

    fn add(&mut self, item: Word, rest: &[Word]) -> Result<(), TextError> {
        let is_replay = self.kind == Kind::Replay;
        match item.text {
            words::EXPECT => self.add_expected(item, rest),
            words::LENGTH if is_replay => self.add_length(item, rest),
            words::CALLS if is_replay => self.end_card(item, rest),
            word if !self.in_calls && words::CARD_ITEMS.contains(&word) => {
                self.add_card_item(item, rest)
            }
            word if is_replay && words::CALL_ITEMS.contains(&word) => self.add_call(item, rest),
            _ => Err(self.unexpected(item)),
        }
    }

    /// An item that has no place here.
    fn unexpected(&self, item: Word) -> TextError {
        let (card, calls) = match (self.kind, self.in_calls) {
            (Kind::Card, _) => (words::CARD_ITEMS, &[][..]),
            (Kind::Replay, false) => (words::CARD_ITEMS, words::CALL_ITEMS),
            (Kind::Replay, true) => (&[][..], words::CALL_ITEMS),
        };
        let mut items = card.to_vec();
        items.extend(calls.iter().filter(|call| !card.contains(call)));
        items.push(words::EXPECT);
        item.unexpected(&items)
    }

    fn add_card_item(&mut self, item: Word, rest: &[Word]) -> Result<(), TextError> {
        let bytes = self.context.read(item, rest)?;
        self.card.extend(bytes);
        let has_length = self.kind == Kind::Replay && matches!(self.length, CardLength::Right);
        if has_length && self.card.len() > LONGEST_CARD {
            let message = format!("the card of a replay has at most {LONGEST_CARD} bytes");
            return Err(item.error(message));
        }
        Ok(())
    }

    fn add_call(&mut self, item: Word, rest: &[Word]) -> Result<(), TextError> {
        self.calls.extend(calls::read(item, rest)?);
        self.in_calls = true;
        self.answer = self.answer.saturating_add(1);
        Ok(())
    }

    fn add_length(&mut self, item: Word, rest: &[Word]) -> Result<(), TextError> {
        let is_first = matches!(self.length, CardLength::Right) && self.card.is_empty();
        if !is_first || self.in_calls {
            let message = format!("{item} stands once, before the card");
            return Err(item.error(message));
        }
        let named = Named::new(item, rest, &words::NUMBER_FORM)?;
        self.length = if named.is(words::LENGTH, words::ABSENT) {
            CardLength::Absent
        } else {
            CardLength::Named(named.number(words::LENGTH)?)
        };
        Ok(())
    }

    fn end_card(&mut self, item: Word, rest: &[Word]) -> Result<(), TextError> {
        if self.in_calls {
            return Err(item.error(format!("{item} stands once, before the calls")));
        }
        self.in_calls = true;
        Named::new(item, rest, &words::BARE_FORM).map(|_| ())
    }

    fn add_expected(&mut self, item: Word, rest: &[Word]) -> Result<(), TextError> {
        if rest.is_empty() {
            return Err(item.error(format!("{item} takes a line")));
        }
        let answer = self.answer;
        if self
            .expected
            .last()
            .is_some_and(|last| last.answer == answer)
        {
            return Err(item.error("the line is expected already"));
        }
        let words: Vec<&str> = rest.iter().map(|word| word.text).collect();
        self.expected.push(Expected {
            line: item.line,
            answer,
            text: words.join(" "),
        });
        Ok(())
    }

    fn assembled(self) -> Assembled {
        let bytes = match self.kind {
            Kind::Card => self.card,
            Kind::Replay => [self.length_bytes(), self.card, self.calls].concat(),
        };
        Assembled {
            kind: self.kind,
            bytes,
            expected: self.expected,
        }
    }

    fn length_bytes(&self) -> Vec<u8> {
        let length = match self.length {
            CardLength::Right => u16::try_from(self.card.len()).unwrap_or(u16::MAX),
            CardLength::Named(length) => length,
            CardLength::Absent => return Vec::new(),
        };
        length.to_be_bytes().to_vec()
    }
}
