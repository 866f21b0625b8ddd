//! The consent gateway for Rust: a safe wrapper of `libnewelsage`.
//!
//! A [`Ledger`] serves one patient. It is read from a card, changed by [`Ledger::commit`],
//! [`Ledger::revoke`], [`Ledger::advance`] and [`Ledger::issue`], and asked by the methods that take
//! `&self`. A refused call leaves it as it was and answers a [`Refusal`]; a refusal is never a
//! permit.
//!
//! ```
//! use newelsage::{Basis, Ledger, Request};
//!
//! let card = [
//!     0x01, 0, 7, 2, 0, 7, 0, 0, 0x03, 0xE8, // head: edition 2, patient 7, minute 1000
//!     0x02, 0, 1, 0, // one role
//!     0x03, 0, 10, 0, 0x01, 0xF4, 0, 1, 0, 1, 0, 0, 0, // one record, written by person 500
//! ];
//! let ledger = Ledger::read(&card)?;
//! let request = Request { person: 600, role: 0, origin: 0, record: 0, purpose: 0 };
//! let decision = ledger.decide(request)?;
//! assert!(decision.permits());
//! assert_eq!(decision.basis, Basis::Default);
//! # Ok::<(), newelsage::Refusal>(())
//! ```
//!
//! `docs/FORMATS.md` has the bytes of cards and drafts, `docs/LIBRARY.md` the library.

#![deny(warnings)]
#![deny(missing_docs)]
#![deny(unsafe_code)]

mod answers;
mod ledger;
#[allow(unsafe_code)]
mod raw;
mod refusal;

pub use answers::{Basis, Counts, Decision, Dropped, Effect, Records, Token};
pub use ledger::{Ledger, Request, Requester, LONGEST_CARD};
pub use raw::{ledger_size, version};
pub use refusal::Refusal;

#[cfg(test)]
mod tests;
