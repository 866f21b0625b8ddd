//! Cards and replays as text, one line an item, for people to write and read.
//!
//! [`assemble`] makes the bytes of a text, [`disassemble`] the text of any
//! bytes, damaged ones too. What a text can say is not held to document 01's
//! ranges: a value must fit its bytes, and no more.
//!
//! The grammar. `[ ]` may be left out, `..` repeats, `|` is a choice. Words
//! are separated by blanks; `#` starts a comment; empty lines are free.
//!
//! ```text
//! card text    card
//!              CARD ITEM ..
//! replay text  replay
//!              [length N | length absent]
//!              CARD ITEM ..
//!              [calls]
//!              CALL ..
//!
//! CARD ITEM    edition N patient N clock N
//!              roles [N ..]
//!              record [N] parent N author N origins SET sensitivities SET type N labels SET
//!              directive DRAFT
//!              field N bytes [BYTES ..]
//!              bytes [BYTES ..]
//!              expect LINE
//! CALL         commit DRAFT
//!              commit bytes [BYTES ..]
//!              revoke N
//!              advance N
//!              issue N person N states SET length N
//!              decide person N role N origin N record N purpose N
//!              brief N person N
//!              write N
//!              preview person N role N origin N purpose N draft DRAFT
//!              preview person N role N origin N purpose N draft bytes [BYTES ..]
//!              call N bytes [BYTES ..]
//!              bytes [BYTES ..]
//!              expect LINE
//!
//! DRAFT        N EFFECT SUBJECT [origins SET] record N reach N [po SET] [ps SET] [pt SET]
//!              [purposes SET | purposes absent] from N until N
//! EFFECT       deny | permit | effect N
//! SUBJECT      person N | role N | kind N subject N
//! SET          all | {} | {N,..} | N
//! N            decimal digits | 0x and hexadecimal digits
//! BYTES        pairs of hexadecimal digits | a pair, * and how often
//! LINE         the words of a printed line
//! ```
//!
//! After the first value of an item, the named ones stand in any order, each
//! once.
//!
//! - A set that a draft does not name is full: purposes 0x07FF, as `all` says
//!   too. Nothing else has a default.
//! - `purposes absent` gives the 23 bytes without purposes, `purposes SET`
//!   the 25. Where purposes are not named, a directive after an `edition 1`
//!   item has 23 bytes, any other directive, a commit and a preview's draft
//!   25.
//! - A list has the bits of a set, `{0,3}` is 0x0009; a number is the set
//!   itself.
//! - A record may say its number, counted from 0 over the `record` items.
//! - `field` and `call` are a tag and a value, with the length between them;
//!   `bytes` puts in bytes as they are.
//! - In a replay the card ends before the first call. `calls` ends it where
//!   `bytes` come next. `length` is for a card whose two-byte length is wrong
//!   or absent.
//! - `expect` gives no bytes. It says which line is printed: before the first
//!   call for the card, else for the call before it. A `bytes` item among the
//!   calls counts as one call.
//!
//! The canonical text is what [`disassemble`] gives: named values in the
//! order above, full sets of a draft left out, other sets as `all` or in
//! hexadecimal, numbers in decimal, each record with its number. A field or
//! call of another tag or length than the items have stands as `field`,
//! `call`, `commit bytes` or `draft bytes`, what does not stand whole as
//! `bytes`, with eight or more equal bytes as a pair, `*` and how often.
//!
//! [`draft`] makes the bytes of a draft from the words of a commit.

mod assemble;
mod calls;
mod card_items;
mod disassemble;
mod draft;
mod expected;
mod line;
mod named;
mod raw;
mod value;
mod words;

use std::error::Error;
use std::fmt;

pub use assemble::assemble;
pub use calls::draft;
pub use disassemble::disassemble;
pub use expected::{unmet, Expected, Unmet};

/// What a text or its bytes are.
#[derive(Clone, Copy, Debug, PartialEq, Eq)]
pub enum Kind {
    Card,
    Replay,
}

/// What a text gives.
#[derive(Clone, Debug, PartialEq, Eq)]
pub struct Assembled {
    pub kind: Kind,
    pub bytes: Vec<u8>,
    /// The lines that the text expects, in its order.
    pub expected: Vec<Expected>,
}

/// What is wrong with a text, and where; lines and columns count from 1,
/// columns in characters.
#[derive(Clone, Debug, PartialEq, Eq)]
pub struct TextError {
    pub line: usize,
    pub column: usize,
    pub message: String,
}

impl fmt::Display for TextError {
    fn fmt(&self, f: &mut fmt::Formatter<'_>) -> fmt::Result {
        let (line, column) = (self.line, self.column);
        write!(f, "line {line}, column {column}: {}", self.message)
    }
}

impl Error for TextError {}
