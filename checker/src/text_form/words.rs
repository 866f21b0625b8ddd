//! The words of the text form.

pub const CARD: &str = "card";
pub const REPLAY: &str = "replay";

// The items of a card.

pub const EDITION: &str = "edition";
pub const ROLES: &str = "roles";
pub const RECORD: &str = "record";
pub const DIRECTIVE: &str = "directive";
pub const FIELD: &str = "field";
pub const BYTES: &str = "bytes";

pub const CARD_ITEMS: &[&str] = &[EDITION, ROLES, RECORD, DIRECTIVE, FIELD, BYTES];

// The calls of a replay.

pub const COMMIT: &str = "commit";
pub const REVOKE: &str = "revoke";
pub const ADVANCE: &str = "advance";
pub const ISSUE: &str = "issue";
pub const DECIDE: &str = "decide";
pub const BRIEF: &str = "brief";
pub const WRITE: &str = "write";
pub const PREVIEW: &str = "preview";
pub const CALL: &str = "call";

pub const CALL_ITEMS: &[&str] = &[
    COMMIT, REVOKE, ADVANCE, ISSUE, DECIDE, BRIEF, WRITE, PREVIEW, CALL, BYTES,
];

// What gives no bytes, or the length of a replay's card.

pub const LENGTH: &str = "length";
pub const CALLS: &str = "calls";
pub const EXPECT: &str = "expect";

// The names of values.

pub const PATIENT: &str = "patient";
pub const CLOCK: &str = "clock";
pub const PARENT: &str = "parent";
pub const AUTHOR: &str = "author";
pub const ORIGINS: &str = "origins";
pub const SENSITIVITIES: &str = "sensitivities";
pub const TYPE: &str = "type";
pub const LABELS: &str = "labels";
pub const DENY: &str = "deny";
pub const PERMIT: &str = "permit";
pub const EFFECT: &str = "effect";
pub const PERSON: &str = "person";
pub const ROLE: &str = "role";
pub const KIND: &str = "kind";
pub const SUBJECT: &str = "subject";
pub const REACH: &str = "reach";
pub const PO: &str = "po";
pub const PS: &str = "ps";
pub const PT: &str = "pt";
pub const PURPOSES: &str = "purposes";
pub const FROM: &str = "from";
pub const UNTIL: &str = "until";
pub const STATES: &str = "states";
pub const ORIGIN: &str = "origin";
pub const PURPOSE: &str = "purpose";
pub const DRAFT: &str = "draft";

// Values that are words.

pub const ALL: &str = "all";
pub const ABSENT: &str = "absent";

/// What an item may name, in the canonical order.
pub struct Form {
    /// Whether the item's own word has a value.
    pub numbered: bool,
    /// Words with a value.
    pub names: &'static [&'static str],
    /// Words without one.
    pub marks: &'static [&'static str],
}

impl Form {
    pub fn has(&self, word: &str) -> bool {
        self.names.contains(&word) || self.marks.contains(&word)
    }
}

/// An item that names these values.
const fn naming(numbered: bool, names: &'static [&'static str]) -> Form {
    Form {
        numbered,
        names,
        marks: &[],
    }
}

pub const NUMBER_FORM: Form = naming(true, &[]);
pub const BARE_FORM: Form = naming(false, &[]);
pub const EDITION_FORM: Form = naming(true, &[PATIENT, CLOCK]);
pub const RECORD_FORM: Form = naming(
    false,
    &[PARENT, AUTHOR, ORIGINS, SENSITIVITIES, TYPE, LABELS],
);
pub const ISSUE_FORM: Form = naming(true, &[PERSON, STATES, LENGTH]);
pub const DECIDE_FORM: Form = naming(false, &[PERSON, ROLE, ORIGIN, RECORD, PURPOSE]);
pub const REQUESTER_FORM: Form = naming(false, &[PERSON, ROLE, ORIGIN, PURPOSE]);
pub const BRIEF_FORM: Form = naming(true, &[PERSON]);
pub const DRAFT_FORM: Form = Form {
    numbered: true,
    names: &[
        EFFECT, PERSON, ROLE, KIND, SUBJECT, ORIGINS, RECORD, REACH, PO, PS, PT, PURPOSES, FROM,
        UNTIL,
    ],
    marks: &[DENY, PERMIT],
};
