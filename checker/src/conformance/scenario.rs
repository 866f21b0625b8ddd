//! A replay together with the lines that it must get, each as its author
//! derives it from the documents.

use crate::bytes::{field, hex};
use crate::directive::Fields;
use crate::replay::{self, Call};
use crate::request::{Query, Requester};

use super::sample::{sample, Card};

#[derive(Clone, Debug)]
pub struct Scenario {
    pub input: Vec<u8>,
    pub lines: Vec<String>,
}

/// After a card that is accepted.
pub fn on(card: &Card) -> Scenario {
    let (records, directives) = (card.records.len(), card.directives.len());
    Scenario::of_card(&card.bytes(), &format!("0 {records} {directives}"))
}

/// After document 01's sample register.
pub fn on_sample() -> Scenario {
    on(&sample())
}

/// On the empty ledger, which the empty card leaves.
pub fn on_empty() -> Scenario {
    Scenario::of_card(&[], "5 0 0")
}

impl Scenario {
    /// A card of any bytes.
    pub fn of_card(card: &[u8], line: &str) -> Scenario {
        Scenario {
            input: replay::encode(card, &[]),
            lines: vec![line.to_string()],
        }
    }

    /// Any bytes, which get this line.
    pub fn bytes(mut self, bytes: &[u8], line: &str) -> Scenario {
        self.input.extend(bytes);
        self.lines.push(line.to_string());
        self
    }

    /// A tag and a value of any kind.
    pub fn field(self, tag: u8, value: &[u8], line: &str) -> Scenario {
        self.bytes(&field(tag, value), line)
    }

    /// Bytes that get no line, as the replay has ended before them.
    pub fn unread(mut self, call: &Call) -> Scenario {
        self.input.extend(call.encode());
        self
    }

    pub fn call(self, call: &Call, line: &str) -> Scenario {
        self.bytes(&call.encode(), line)
    }

    pub fn commit(self, draft: Fields, line: &str) -> Scenario {
        self.commit_bytes(&draft.encode(), line)
    }

    pub fn commit_bytes(self, draft: &[u8], line: &str) -> Scenario {
        let draft = draft.to_vec();
        self.call(&Call::Commit { draft }, line)
    }

    /// Commits that are all accepted.
    pub fn commit_all(self, drafts: &[Fields]) -> Scenario {
        let commit = |scenario: Scenario, draft: &Fields| scenario.commit(*draft, "0");
        drafts.iter().fold(self, commit)
    }

    pub fn revoke(self, number: u16, line: &str) -> Scenario {
        self.call(&Call::Revoke { number }, line)
    }

    pub fn advance(self, minute: u32, line: &str) -> Scenario {
        self.call(&Call::Advance { minute }, line)
    }

    pub fn issue(self, number: u16, person: u16, states: u8, length: u32, line: &str) -> Scenario {
        let call = Call::Issue {
            number,
            person,
            states,
            length,
        };
        self.call(&call, line)
    }

    pub fn decide(self, query: Query, line: &str) -> Scenario {
        self.call(&Call::Decide(query), line)
    }

    pub fn brief(self, number: u16, person: u16, line: &str) -> Scenario {
        self.call(&Call::Brief { number, person }, line)
    }

    pub fn write(self, buffer: u16, line: &str) -> Scenario {
        self.call(&Call::Write { buffer }, line)
    }

    pub fn preview(self, requester: Requester, draft: Fields, line: &str) -> Scenario {
        self.preview_bytes(requester, &draft.encode(), line)
    }

    pub fn preview_bytes(self, requester: Requester, draft: &[u8], line: &str) -> Scenario {
        let draft = draft.to_vec();
        self.call(&Call::Preview { requester, draft }, line)
    }

    /// A write with a buffer that is long enough, and the card it must give.
    pub fn written(self, card: &Card) -> Scenario {
        let bytes = card.bytes();
        self.write(u16::MAX, &format!("0 {} {}", bytes.len(), hex(&bytes)))
    }
}
