//! Plain English for the values of a ledger and for the questions.

mod ledger;
mod questions;
mod sets;
mod values;

pub use ledger::Words;
pub use questions::{question, refused};
pub use sets::{
    labels, members, origins, purpose, purposes, records, roles, sensitivities, states, types,
};
pub use values::{basis, counted, decision, effect, hex_byte, minutes, reach, until, verb};
