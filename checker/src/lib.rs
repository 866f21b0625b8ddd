//! An implementation of document 01 and of what document 02 adds, written from
//! the documents alone: card, ledger, decisions, emergency briefs and previews,
//! with a seeded generator of inputs and a comparison with other
//! implementations.

#![forbid(unsafe_code)]
#![deny(
    clippy::arithmetic_side_effects,
    clippy::expect_used,
    clippy::indexing_slicing,
    clippy::panic,
    clippy::unwrap_used
)]

// Document 01, in its order.

pub mod register;

pub mod directive;

pub mod request;

pub mod validation;

pub mod ledger;

pub mod preview;

pub mod card;

pub mod refusal;

// The programs: cards, replays and tables of access, the comparison on
// generated inputs, the conformance cases, and the inputs of the benchmark.

pub mod cardcheck;

pub mod replay;

pub mod access;

pub mod answer;

pub mod generate;

pub mod compare;

pub mod parts;

pub mod counts;

pub mod preview_counts;

pub mod reach_counts;

pub mod access_counts;

pub mod extent;

pub mod conformance;

pub mod bench;

// Words instead of numbers: a card shown, the lines of a card or a replay
// explained, and the facts behind refusals for a screen.

pub mod show;

pub mod explain;

pub mod facts;

pub mod reason;

pub mod witness;

pub mod describe;

pub mod kind;

// Cards and replays as people write them.

pub mod text_form;

// What they share.

pub mod files;

pub mod bytes;

pub mod frequencies;

pub mod json;

pub mod layout;

pub mod random;
