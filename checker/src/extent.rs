//! How many inputs go in parts, how many cards the cut of `cardcheck` decides,
//! and how long the replays are.

use crate::bytes::VALUE;
use crate::card;
use crate::cardcheck::CARD_LIMIT;
use crate::counts::Asked;
use crate::generate::{Input, InputKind, LONGEST, MANY_CALLS};
use crate::replay::{decode, Decoded};

#[derive(Clone, Debug, Default, PartialEq, Eq)]
pub struct Extent {
    pub cards_in_parts: usize,
    pub replays_in_parts: usize,
    /// Cards of more than 65,535 bytes that are answered otherwise without
    /// byte 65,535, and with byte 65,536.
    pub without_the_last: usize,
    pub with_the_next: usize,
    /// Calls of the longest replay.
    pub calls: usize,
    /// Bytes of the longest card and of the longest value that stand before a
    /// call.
    pub card: usize,
    pub value: usize,
}

impl Extent {
    /// Adds an input that is handed over in so many parts.
    pub fn add(&mut self, input: &Input, parts: usize) {
        match input.kind {
            InputKind::Card => {
                count(&mut self.cards_in_parts, parts > 1);
                self.add_card(&input.bytes);
            }
            InputKind::Replay => {
                count(&mut self.replays_in_parts, parts > 1);
                self.add_replay(&input.bytes);
            }
        }
    }

    fn add_card(&mut self, bytes: &[u8]) {
        let limit = usize::from(CARD_LIMIT);
        if bytes.len() > limit {
            let read = |length: usize| bytes.get(..length).map(card::read);
            let answer = read(limit);
            let less = read(limit.saturating_sub(1));
            let more = read(limit.saturating_add(1));
            count(&mut self.without_the_last, less != answer);
            count(&mut self.with_the_next, more != answer);
        }
    }

    fn add_replay(&mut self, bytes: &[u8]) {
        let Some(Decoded { card, calls, .. }) = decode(bytes) else {
            return;
        };
        self.calls = self.calls.max(calls.len());
        if let Some((_, before)) = calls.split_last() {
            self.card = self.card.max(card.len());
            let values = before.iter().map(|call| call.encode().len());
            let longest = values.max().unwrap_or(0).saturating_sub(VALUE);
            self.value = self.value.max(longest);
        }
    }

    /// Of which inputs, what is measured, how much it is, and the least that
    /// is wanted.
    fn rows(&self) -> [(InputKind, &'static str, usize, usize); 7] {
        let (card, replay) = (InputKind::Card, InputKind::Replay);
        [
            (card, "cards in parts", self.cards_in_parts, 1),
            (replay, "replays in parts", self.replays_in_parts, 1),
            (
                card,
                "cards that byte 65535 decides",
                self.without_the_last,
                1,
            ),
            (
                card,
                "cards that byte 65536 would decide",
                self.with_the_next,
                1,
            ),
            (
                replay,
                "calls of the longest replay",
                self.calls,
                MANY_CALLS,
            ),
            (
                replay,
                "bytes of the longest card before a call",
                self.card,
                LONGEST,
            ),
            (
                replay,
                "bytes of the longest value before a call",
                self.value,
                LONGEST,
            ),
        ]
    }

    /// The rows of the inputs asked for.
    fn asked_rows(
        &self,
        asked: Asked,
    ) -> impl Iterator<Item = (InputKind, &'static str, usize, usize)> {
        let rows = self.rows().into_iter();
        rows.filter(move |(kind, ..)| match kind {
            InputKind::Card => asked.cards,
            InputKind::Replay => asked.replays,
        })
    }

    /// The lines below the table of answers.
    pub fn table(&self, asked: Asked) -> String {
        let rows = self.asked_rows(asked);
        rows.map(|(_, what, measured, _)| format!("{what} {measured}\n"))
            .collect()
    }

    /// Of what there is too little among the inputs asked for.
    pub fn missing(&self, asked: Asked) -> Vec<String> {
        let rows = self.asked_rows(asked);
        rows.filter(|(_, _, measured, least)| measured < least)
            .map(|(_, what, measured, least)| format!("{what} ({measured} of {least})"))
            .collect()
    }
}

fn count(number: &mut usize, one_more: bool) {
    *number = number.saturating_add(usize::from(one_more));
}
