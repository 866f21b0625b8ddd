//! Damage to cards and replays.

use crate::bytes::{field, push_field, VALUE};
use crate::card::{DIRECTIVE, HEAD, RECORD, ROLES};
use crate::cardcheck::CARD_LIMIT;
use crate::random::Random;
use crate::register::MAX_RECORDS;
use crate::replay::{
    ADVANCE, BRIEF, COMMIT, DECIDE, ISSUE, PREVIEW, REQUESTER_LENGTH, REVOKE, WRITE,
};

/// The fields of a card with one or two things damaged.
pub fn card(mut fields: Vec<Vec<u8>>, random: &mut Random) -> Vec<u8> {
    if random.chance(40) {
        damage_fields(&mut fields, random);
        return fields.concat();
    }
    if random.chance(50) {
        damage_value(&mut fields, random);
        return fields.concat();
    }
    let mut bytes = fields.concat();
    damage_bytes(&mut bytes, random);
    bytes
}

/// Every cut of the card, every field with another tag, left out and put in
/// again at every place.
pub fn every(fields: &[Vec<u8>]) -> Vec<Vec<u8>> {
    let whole = fields.concat();
    let mut cards: Vec<Vec<u8>> = (0..whole.len())
        .map(|length| whole.iter().copied().take(length).collect())
        .collect();
    for index in 0..fields.len() {
        for tag in [0x00, 0x01, 0x02, 0x03, 0x04, 0x05, 0x06, 0xFF] {
            let mut other = fields.to_vec();
            set_byte(&mut other, index, 0, tag);
            cards.push(other.concat());
        }
        let mut fewer = fields.to_vec();
        let left_out = fewer.remove(index);
        for place in 0..=fields.len() {
            let mut more = fields.to_vec();
            more.insert(place, left_out.clone());
            cards.push(more.concat());
        }
        cards.push(fewer.concat());
    }
    cards
}

/// Damage to the bytes, wherever they stand.
fn damage_bytes(bytes: &mut Vec<u8>, random: &mut Random) {
    match random.range(0, 9) {
        0..=4 => bytes.truncate(random.index(bytes.len())),
        5 => {
            for _ in 0..random.range(1, 3) {
                bytes.push(random.u8());
            }
        }
        6 => {
            let length = random.index(60);
            *bytes = (0..length).map(|_| random.up_to(4)).collect();
        }
        7 => {
            let index = random.index(bytes.len());
            if index < bytes.len() {
                bytes.remove(index);
            }
        }
        _ => {
            for _ in 0..random.range(1, 3) {
                let index = random.index(bytes.len());
                if let Some(byte) = bytes.get_mut(index) {
                    *byte ^= 1 << random.up_to(7);
                }
            }
        }
    }
}

/// Damage to the order, number, tags and lengths of fields.
fn damage_fields(fields: &mut Vec<Vec<u8>>, random: &mut Random) {
    let index = field_index(fields, random);
    let other = random.index(fields.len());
    let records = fields.iter().filter(|field| tag(field) == RECORD).count();
    let first_directive = records.saturating_add(2).min(fields.len());
    match random.range(0, 18) {
        0 | 1 => {
            let again = fields.get(index).cloned();
            let place = if random.chance(50) { index } else { other };
            fields.splice(place..place, again);
        }
        2 if index < fields.len() && other < fields.len() => fields.swap(index, other),
        3 if index < fields.len() => {
            fields.remove(index);
        }
        4 => fields.truncate(random.index(4)),
        5 => {
            let tag = random.pick(&[0x00, 0x01, 0x02, 0x03, 0x04, 0x05, 0x84, 0xFF]);
            set_byte(fields, index, 0, tag);
        }
        6 => {
            let length = random.pick(&[0x00, 0x01, 0xFF]);
            set_byte(fields, index, random.index(VALUE).max(1), length);
        }
        7 => {
            let tag = random.pick(&[0x00, 0x03, 0x05, 0xFF]);
            let length = random.index(3);
            fields.insert(random.index(fields.len()), field(tag, &vec![0; length]));
        }
        8 => {
            let count = random.pick(&[0, 17, 18]);
            replace(fields, 1, field(ROLES, &vec![0; count]));
        }
        // One record too many; in some cases with a broken range or length.
        9..=11 => {
            let missing = MAX_RECORDS.saturating_sub(records);
            let record = fields.get(2).cloned().unwrap_or_default();
            let mut more = vec![record; missing];
            more.push(match random.range(0, 4) {
                0 => field(RECORD, &[0xFF; 10]),
                1 => field(RECORD, &[0; 9]),
                _ => field(RECORD, &[0, 0, 1, 0, 1, 0, 1, 0, 0, 0]),
            });
            fields.splice(first_directive..first_directive, more);
        }
        // No records, with or without directives.
        12 => fields.retain(|field| tag(field) != RECORD),
        13 => fields.truncate(2),
        // A directive before the records, a record after the directives.
        14 | 15 => {
            let last = fields.last().filter(|field| tag(field) == DIRECTIVE);
            let directive = last.cloned().unwrap_or(field(DIRECTIVE, &[1; 25]));
            let place = random.pick(&[1, 2]).min(fields.len());
            fields.insert(place, directive);
        }
        16 => {
            let record = fields.get(2).cloned();
            fields.extend(record);
        }
        // A value one byte longer or shorter, with its length.
        _ => {
            if let Some(found) = fields.get_mut(index) {
                let mut value: Vec<u8> = found.iter().copied().skip(VALUE).collect();
                if random.chance(50) {
                    value.pop();
                } else {
                    value.push(0);
                }
                *found = field(tag(found), &value);
            }
        }
    }
}

/// Damage to a value: a range that is broken, or a directive of the other
/// edition's length.
fn damage_value(fields: &mut [Vec<u8>], random: &mut Random) {
    let index = field_index(fields, random);
    let Some(found) = fields.get(index) else {
        return;
    };
    let value = |offset: usize| VALUE.saturating_add(offset);
    match tag(found) {
        HEAD => {
            let edition = random.pick(&[0, 1, 2, 3, 255]);
            set_byte(fields, index, value(0), edition);
        }
        ROLES => {
            let role = random.index(found.len().saturating_sub(VALUE));
            let parent = u8::try_from(role).unwrap_or(0);
            let parent = random.pick(&[parent, parent.saturating_add(1), 255]);
            set_byte(fields, index, value(role), parent);
        }
        RECORD => {
            let record = u8::try_from(index.saturating_sub(2)).unwrap_or(0);
            match random.range(0, 4) {
                0 => set_byte(fields, index, value(0), record),
                1 => set_byte(fields, index, value(0), record.saturating_add(1)),
                2 => {
                    set_byte(fields, index, value(3), 0);
                    set_byte(fields, index, value(4), 0);
                }
                3 => {
                    set_byte(fields, index, value(5), 0);
                    set_byte(fields, index, value(6), 0);
                }
                _ => set_byte(fields, index, value(7), random.pick(&[7, 8, 128, 255])),
            }
        }
        _ => {
            let length = random.pick(&[23, 25]);
            let mut bytes: Vec<u8> = found.iter().copied().skip(VALUE).collect();
            bytes.resize(length, 0);
            replace(fields, index, field(DIRECTIVE, &bytes));
        }
    }
}

/// A card around the length where `cardcheck` cuts: a field without a place
/// or length that stands whole before the cut or is cut. In some cases the
/// card stands behind it once more.
pub fn long_card(fields: &[Vec<u8>], random: &mut Random) -> Vec<u8> {
    let more = random.pick(&[0, 0, 1, 2, 100]);
    let tag = random.pick(&[HEAD, ROLES, RECORD, DIRECTIVE, 0xFF]);
    let mut bytes = with_long_field(fields, tag, more);
    if random.chance(50) {
        bytes.extend(fields.concat());
    }
    bytes
}

/// The fields and one more, which ends so many bytes behind the first 65,535.
pub fn with_long_field(fields: &[Vec<u8>], tag: u8, more: usize) -> Vec<u8> {
    let mut bytes = fields.concat();
    let start = bytes.len().saturating_add(VALUE);
    let left = usize::from(CARD_LIMIT).saturating_sub(start);
    push_field(&mut bytes, tag, &vec![0; left.saturating_add(more)]);
    bytes
}

/// A replay that is cut, has an unknown or wrong call, a preview of less than
/// a requester, or flipped bits.
pub fn replay(mut bytes: Vec<u8>, random: &mut Random) -> Vec<u8> {
    match random.range(0, 10) {
        0 => bytes.truncate(random.index(4)),
        1 => {
            let tag = random.pick(&[0x00, 0x01, 0x0F, 0x18, 0x90, 0xFF]);
            bytes.extend(field(tag, &[0, 0]));
        }
        2..=4 => {
            let tag = random.pick(&[REVOKE, ADVANCE, ISSUE, DECIDE, BRIEF, WRITE, PREVIEW]);
            let length = random.pick(&[0, 1, 2, 3, 4, 5, 6, 7, 8, 9, 10]);
            bytes.extend(field(tag, &vec![0; length]));
            bytes.extend(field(COMMIT, &[]));
        }
        5 => {
            let length = random.pick(&[0x00, 0x01, 0xFF]);
            if let Some(byte) = bytes.first_mut() {
                *byte = length;
            }
        }
        6 => {
            let length = random.index(REQUESTER_LENGTH);
            bytes.extend(field(PREVIEW, &vec![0; length]));
        }
        _ => damage_bytes(&mut bytes, random),
    }
    bytes
}

/// One of the first fields in half of the cases, else any one.
fn field_index(fields: &[Vec<u8>], random: &mut Random) -> usize {
    let among = if random.chance(50) { 3 } else { usize::MAX };
    random.index(fields.len().min(among))
}

fn tag(field: &[u8]) -> u8 {
    field.first().copied().unwrap_or(0)
}

fn set_byte(fields: &mut [Vec<u8>], index: usize, offset: usize, byte: u8) {
    let place = fields
        .get_mut(index)
        .and_then(|found| found.get_mut(offset));
    if let Some(place) = place {
        *place = byte;
    }
}

fn replace(fields: &mut [Vec<u8>], index: usize, field: Vec<u8>) {
    if let Some(place) = fields.get_mut(index) {
        *place = field;
    }
}
