//! How often each feature of previews occurred that the kind of their answer
//! does not tell.

use std::fmt;

use crate::answer::Answer;
use crate::bytes::Bytes;
use crate::card;
use crate::directive::Fields;
use crate::frequencies::Frequencies;
use crate::ledger::{Basis, Decision};
use crate::preview::Preview;
use crate::refusal::Refusal;
use crate::replay::{decode, Call, Decoded, PREVIEW};

/// What is wanted of previews.
#[derive(Clone, Copy, Debug, PartialEq, Eq, PartialOrd, Ord)]
pub enum Feature {
    AfterARefusedCard,
    NoDraft,
    DraftOf24Bytes,
    DraftOf26Bytes,
    /// From here up to the changes in both words: of an accepted preview.
    DraftThatBeginsLater,
    ForThePatient,
    ForAnAuthor,
    OneChange,
    SeveralChanges,
    ChangesAbove63,
    ChangesInBothWords,
    BeforeTheCommit,
    LessThanARequester,
}

impl fmt::Display for Feature {
    fn fmt(&self, f: &mut fmt::Formatter<'_>) -> fmt::Result {
        f.write_str(match self {
            Feature::AfterARefusedCard => "after a refused card",
            Feature::NoDraft => "of no draft",
            Feature::DraftOf24Bytes => "of a draft of 24 bytes",
            Feature::DraftOf26Bytes => "of a draft of 26 bytes",
            Feature::DraftThatBeginsLater => "of a draft that begins later",
            Feature::ForThePatient => "for the patient",
            Feature::ForAnAuthor => "for an author",
            Feature::OneChange => "with one change",
            Feature::SeveralChanges => "with several changes",
            Feature::ChangesAbove63 => "with changes above record 63",
            Feature::ChangesInBothWords => "with changes in both words",
            Feature::BeforeTheCommit => "before the commit of their draft",
            Feature::LessThanARequester => "of less than a requester",
        })
    }
}

/// The features, each with how many previews are wanted at least in 1,000
/// replays.
const WANTED: [(Feature, u64); 13] = [
    (Feature::AfterARefusedCard, 50),
    (Feature::NoDraft, 2),
    (Feature::DraftOf24Bytes, 2),
    (Feature::DraftOf26Bytes, 2),
    (Feature::DraftThatBeginsLater, 50),
    (Feature::ForThePatient, 20),
    (Feature::ForAnAuthor, 20),
    (Feature::OneChange, 30),
    (Feature::SeveralChanges, 20),
    (Feature::ChangesAbove63, 2),
    (Feature::ChangesInBothWords, 1),
    (Feature::BeforeTheCommit, 100),
    (Feature::LessThanARequester, 1),
];

#[derive(Clone, Debug, PartialEq, Eq)]
pub struct PreviewCounts {
    replays: u64,
    features: Frequencies<Feature>,
}

impl Default for PreviewCounts {
    fn default() -> PreviewCounts {
        PreviewCounts {
            replays: 0,
            features: Frequencies::zeros(WANTED.map(|(feature, _)| feature)),
        }
    }
}

impl PreviewCounts {
    /// Adds the previews of a replay that has these answers.
    pub fn add(&mut self, replay: &[u8], answers: &[Answer]) {
        self.replays = self.replays.saturating_add(1);
        let Some(Decoded { card, calls, rest }) = decode(replay) else {
            return;
        };
        let ledger = card::read(card);
        let refused = ledger.is_err();
        let mut clock = ledger.unwrap_or_default().clock();
        let mut previewed = None;
        for (call, answer) in calls.iter().zip(answers.iter().skip(1)) {
            match (call, answer) {
                (Call::Preview { draft, .. }, Answer::Preview(shown)) => {
                    self.count_if(Feature::AfterARefusedCard, refused);
                    self.count_draft(draft);
                    self.count_shown(draft, clock, shown);
                }
                (Call::Commit { draft }, _) => {
                    self.count_if(Feature::BeforeTheCommit, previewed == Some(draft));
                }
                (Call::Advance { minute }, Answer::Advance(Ok(_))) => clock = *minute,
                _ => {}
            }
            previewed = match call {
                Call::Preview { draft, .. } => Some(draft),
                _ => None,
            };
        }
        let malformed = Bytes::new(rest).field();
        let short = malformed.is_some_and(|(tag, _)| tag == PREVIEW);
        self.count_if(Feature::LessThanARequester, short);
    }

    fn count_if(&mut self, feature: Feature, holds: bool) {
        if holds {
            self.features.count(feature);
        }
    }

    fn count_draft(&mut self, draft: &[u8]) {
        self.count_if(Feature::NoDraft, draft.is_empty());
        self.count_if(Feature::DraftOf24Bytes, draft.len() == 24);
        self.count_if(Feature::DraftOf26Bytes, draft.len() == 26);
    }

    fn count_shown(&mut self, draft: &[u8], clock: u32, shown: &Result<Preview, Refusal>) {
        let Ok(preview) = shown else {
            return;
        };
        let later = |draft| Fields::decode(draft).from > clock;
        let later = draft.try_into().is_ok_and(later);
        self.count_if(Feature::DraftThatBeginsLater, later);
        let some = |basis| {
            let is = |decision: &Decision| decision.basis == basis;
            preview.before.iter().any(is)
        };
        self.count_if(Feature::ForThePatient, some(Basis::Patient));
        self.count_if(Feature::ForAnAuthor, some(Basis::Author));
        let changed = preview.words();
        let [low, high] = changed.words;
        self.count_if(Feature::OneChange, changed.count == 1);
        self.count_if(Feature::SeveralChanges, changed.count > 1);
        self.count_if(Feature::ChangesAbove63, high != 0);
        self.count_if(Feature::ChangesInBothWords, low != 0 && high != 0);
    }

    /// How often each feature occurred.
    pub fn features(&self) -> impl Iterator<Item = (Feature, u64)> + '_ {
        self.features.iter()
    }

    /// Of what there is too little.
    pub fn missing(&self) -> Vec<String> {
        let mut missing = Vec::new();
        for (feature, in_thousand) in WANTED {
            let count = self.features.of(feature);
            let least = self.replays.saturating_mul(in_thousand) / 1_000;
            if count < least {
                missing.push(format!("previews {feature} ({count} of {least})"));
            }
        }
        missing
    }
}

/// A line for each feature.
impl fmt::Display for PreviewCounts {
    fn fmt(&self, f: &mut fmt::Formatter<'_>) -> fmt::Result {
        for (feature, count) in self.features() {
            writeln!(f, "previews {feature} {count}")?;
        }
        Ok(())
    }
}
