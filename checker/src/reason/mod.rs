//! Why a card, a draft or a call is refused, and why a replay is malformed:
//! what is wrong, in sentences.

mod call;
mod card;
mod draft;

pub use call::{malformed_call, malformed_card, reason as of_call};
pub use card::{place, reason as of_card};
