//! The replay: a card and a list of calls on the ledger that it gives.

use crate::answer::{Answer, CardSize};
use crate::bytes::{field, Bytes};
use crate::card;
use crate::ledger::Ledger;
use crate::request::{Query, Requester};

pub const COMMIT: u8 = 0x10;
pub const REVOKE: u8 = 0x11;
pub const ADVANCE: u8 = 0x12;
pub const ISSUE: u8 = 0x13;
pub const DECIDE: u8 = 0x14;
pub const BRIEF: u8 = 0x15;
pub const WRITE: u8 = 0x16;
pub const PREVIEW: u8 = 0x17;

/// How many bytes of a preview's value stand before the draft.
pub const REQUESTER_LENGTH: usize = 6;

/// A call with its arguments.
#[derive(Clone, Debug, PartialEq, Eq)]
pub enum Call {
    Commit {
        draft: Vec<u8>,
    },
    Revoke {
        number: u16,
    },
    Advance {
        minute: u32,
    },
    Issue {
        number: u16,
        person: u16,
        states: u8,
        length: u32,
    },
    Decide(Query),
    Brief {
        number: u16,
        person: u16,
    },
    /// With the length of the lent buffer.
    Write {
        buffer: u16,
    },
    Preview {
        requester: Requester,
        draft: Vec<u8>,
    },
}

impl Call {
    /// Nothing where the tag is unknown or the length is another one.
    pub fn decode(tag: u8, value: &[u8]) -> Option<Call> {
        let mut bytes = Bytes::new(value);
        let call = match tag {
            COMMIT => Call::Commit {
                draft: bytes.take_rest().to_vec(),
            },
            REVOKE => Call::Revoke {
                number: bytes.u16()?,
            },
            ADVANCE => Call::Advance {
                minute: bytes.u32()?,
            },
            ISSUE => Call::Issue {
                number: bytes.u16()?,
                person: bytes.u16()?,
                states: bytes.u8()?,
                length: bytes.u32()?,
            },
            DECIDE => Call::Decide(Query {
                person: bytes.u16()?,
                role: bytes.u16()?,
                origin: bytes.u8()?,
                record: bytes.u8()?,
                purpose: bytes.u8()?,
            }),
            BRIEF => Call::Brief {
                number: bytes.u16()?,
                person: bytes.u16()?,
            },
            WRITE => Call::Write {
                buffer: bytes.u16()?,
            },
            PREVIEW => Call::Preview {
                requester: Requester {
                    person: bytes.u16()?,
                    role: bytes.u16()?,
                    origin: bytes.u8()?,
                    purpose: bytes.u8()?,
                },
                draft: bytes.take_rest().to_vec(),
            },
            _ => return None,
        };
        bytes.is_empty().then_some(call)
    }

    pub fn encode(&self) -> Vec<u8> {
        match self {
            Call::Commit { draft } => field(COMMIT, draft),
            Call::Revoke { number } => field(REVOKE, &number.to_be_bytes()),
            Call::Advance { minute } => field(ADVANCE, &minute.to_be_bytes()),
            Call::Issue {
                number,
                person,
                states,
                length,
            } => {
                let mut value = number.to_be_bytes().to_vec();
                value.extend(person.to_be_bytes());
                value.push(*states);
                value.extend(length.to_be_bytes());
                field(ISSUE, &value)
            }
            Call::Decide(query) => {
                let mut value = query.person.to_be_bytes().to_vec();
                value.extend(query.role.to_be_bytes());
                value.extend([query.origin, query.record, query.purpose]);
                field(DECIDE, &value)
            }
            Call::Brief { number, person } => {
                let mut value = number.to_be_bytes().to_vec();
                value.extend(person.to_be_bytes());
                field(BRIEF, &value)
            }
            Call::Write { buffer } => field(WRITE, &buffer.to_be_bytes()),
            Call::Preview { requester, draft } => {
                let mut value = requester.person.to_be_bytes().to_vec();
                value.extend(requester.role.to_be_bytes());
                value.extend([requester.origin, requester.purpose]);
                value.extend(draft);
                field(PREVIEW, &value)
            }
        }
    }

    /// Makes the call.
    pub fn run(&self, ledger: &mut Ledger) -> Answer {
        match self {
            Call::Commit { draft } => Answer::Commit(ledger.commit(draft)),
            Call::Revoke { number } => Answer::Revoke(ledger.revoke(*number)),
            Call::Advance { minute } => Answer::Advance(ledger.advance(*minute)),
            Call::Issue {
                number,
                person,
                states,
                length,
            } => Answer::Issue(ledger.issue(*number, *person, *states, *length)),
            Call::Decide(query) => Answer::Decide(ledger.decide(*query)),
            Call::Brief { number, person } => Answer::Brief(ledger.brief(*number, *person)),
            Call::Write { buffer } => {
                let mut lent = vec![0; usize::from(*buffer)];
                let length = card::write(ledger, &mut lent);
                Answer::Write(length.map(|length| {
                    lent.truncate(length);
                    lent
                }))
            }
            Call::Preview { requester, draft } => {
                Answer::Preview(ledger.preview(*requester, draft))
            }
        }
    }
}

/// The bytes of a replay. A card is at most 65,535 bytes; more are left out.
pub fn encode(card: &[u8], calls: &[Call]) -> Vec<u8> {
    let length = u16::try_from(card.len()).unwrap_or(u16::MAX);
    let mut bytes = length.to_be_bytes().to_vec();
    bytes.extend(card.iter().take(usize::from(length)));
    for call in calls {
        bytes.extend(call.encode());
    }
    bytes
}

/// The card at the start of a replay; nothing where it does not stand whole.
pub fn framed_card<'a>(replay: &mut Bytes<'a>) -> Option<&'a [u8]> {
    let length = replay.u16()?;
    replay.take(usize::from(length))
}

/// A replay whose card stands whole.
#[derive(Clone, Debug, PartialEq, Eq)]
pub struct Decoded<'a> {
    pub card: &'a [u8],
    /// The calls up to the end, or to the first that is malformed.
    pub calls: Vec<Call>,
    /// The bytes from the first malformed call on.
    pub rest: &'a [u8],
}

/// Nothing where the card does not stand whole.
pub fn decode(replay: &[u8]) -> Option<Decoded<'_>> {
    let mut bytes = Bytes::new(replay);
    let card = framed_card(&mut bytes)?;
    let mut calls = Vec::new();
    let mut rest = bytes.rest();
    while let Some(call) = take_call(&mut bytes) {
        calls.push(call);
        rest = bytes.rest();
    }
    Some(Decoded { card, calls, rest })
}

/// The next call; nothing where it does not stand whole, its tag is unknown or
/// its length is another one.
pub fn take_call(replay: &mut Bytes) -> Option<Call> {
    let (tag, value) = replay.field()?;
    Call::decode(tag, value)
}

/// The answers of a replay, one after another.
pub struct Replay<'a> {
    bytes: Bytes<'a>,
    stage: Stage,
}

enum Stage {
    Card,
    Calls(Ledger),
    Ended,
}

impl<'a> Replay<'a> {
    pub fn new(input: &'a [u8]) -> Replay<'a> {
        Replay {
            bytes: Bytes::new(input),
            stage: Stage::Card,
        }
    }

    /// The bytes that are still to be read.
    pub fn bytes(&self) -> Bytes<'a> {
        self.bytes
    }

    /// The ledger between the card and the end.
    pub fn ledger(&self) -> Option<&Ledger> {
        match &self.stage {
            Stage::Calls(ledger) => Some(ledger),
            Stage::Card | Stage::Ended => None,
        }
    }

    /// The card's answer; nothing where it does not stand whole. After a
    /// refused card "the replay goes on with the empty ledger".
    fn card(&mut self) -> Option<(Ledger, Answer)> {
        let card = framed_card(&mut self.bytes)?;
        Some(match card::read(card) {
            Ok(ledger) => {
                let size = CardSize::of(&ledger);
                (ledger, Answer::Card(Ok(size)))
            }
            Err(refusal) => (Ledger::default(), Answer::Card(Err(refusal))),
        })
    }
}

impl Iterator for Replay<'_> {
    type Item = Answer;

    fn next(&mut self) -> Option<Answer> {
        match std::mem::replace(&mut self.stage, Stage::Ended) {
            Stage::Card => {
                let Some((ledger, answer)) = self.card() else {
                    return Some(Answer::Malformed);
                };
                self.stage = Stage::Calls(ledger);
                Some(answer)
            }
            Stage::Calls(mut ledger) => {
                if self.bytes.is_empty() {
                    return None;
                }
                let Some(call) = take_call(&mut self.bytes) else {
                    return Some(Answer::Malformed);
                };
                let answer = call.run(&mut ledger);
                self.stage = Stage::Calls(ledger);
                Some(answer)
            }
            Stage::Ended => None,
        }
    }
}
