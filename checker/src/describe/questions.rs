//! The 24 questions in short words.

use crate::refusal::Refusal;

/// The text of the question of this number.
pub fn question(number: u8) -> Option<&'static str> {
    Some(match number {
        1 => "Does the field stand whole in the card?",
        2 => "Has the field its place and its length?",
        3 => "Is it at most the 128th record?",
        4 => "Do the edition, the roles or the record keep their ranges?",
        5 => "At the card's end: were the head, the roles and a record read?",
        6 => "Is the draft 25 bytes long?",
        7 => {
            "Are effect and kind 0 or 1, is the reach 0 to 3, is every set non-empty, \
             and are the purposes within 0 to 10?"
        }
        8 => "Does the register have the role (if one is named) and the record?",
        9 => "Is from before until, and the clock before until?",
        10 => "Is the number free among the active directives?",
        11 => "Are fewer than 32 directives active?",
        12 => "Is the baseline spared: the patient, and an author on their own record?",
        13 => "Is it free of conflict with the active directives?",
        14 => "Is it not redundant: does it match a request that no active directive of its effect matches?",
        15 => "Is a directive of that number active?",
        16 => "Is the minute not before the clock?",
        17 => "Does the register have the role and the record, is the origin below 16 and the purpose below 11?",
        18 => "Is there any emergency state?",
        19 => "Is the length 1 to 240 minutes, and the end at most minute 4294967295?",
        20 => "Is the number free among the live tokens?",
        21 => "Are fewer than 4 tokens live?",
        22 => "Is there a live token of that number for that person?",
        23 => "Has the register a record to write?",
        24 => "Is the buffer long enough?",
        _ => return None,
    })
}

/// The question that gets the "no", with its number.
pub fn refused(refusal: Refusal) -> String {
    let number = refusal.number();
    let text = question(number).unwrap_or_default();
    format!("question {number}: {text} No.")
}
