//! Long inputs: replays of many calls, parts as long as a two-byte length
//! allows, and cards longer than what `cardcheck` takes.

use super::scene::{Profile, Scene};
use super::{calls, card_fields, damage, drafts};
use crate::card;
use crate::random::Random;
use crate::replay::{encode, Call, REQUESTER_LENGTH};

/// How many calls a replay of many has at least.
pub const MANY_CALLS: usize = 70_000;

/// How many bytes a two-byte length allows.
pub const LONGEST: usize = 65_535;

/// Many calls of every kind on a card that is accepted.
pub fn many_calls(random: &mut Random) -> Vec<u8> {
    let mut scene = Scene::new(Profile::Small, random);
    let card = card_fields(&scene, &[]).concat();
    on_card(&card, &mut scene, random)
}

/// Many calls of every kind after a card without records.
pub fn many_calls_on_the_empty_ledger(random: &mut Random) -> Vec<u8> {
    let mut scene = Scene::new(Profile::Small, random);
    let mut fields = card_fields(&scene, &[]);
    fields.truncate(2);
    on_card(&fields.concat(), &mut scene, random)
}

fn on_card(card: &[u8], scene: &mut Scene, random: &mut Random) -> Vec<u8> {
    let mut ledger = card::read(card).unwrap_or_default();
    let calls = calls::many(scene, &mut ledger, random, MANY_CALLS);
    encode(card, &calls)
}

/// A commit and a preview of the longest value between other calls.
pub fn value(random: &mut Random) -> Vec<u8> {
    let mut scene = Scene::new(Profile::Small, random);
    let card = card_fields(&scene, &[]).concat();
    let mut calls = calls::calls(&mut scene, random);
    calls.push(long_commit(&scene, random));
    calls.push(Call::Preview {
        requester: calls::plain_query(&scene, random).requester(),
        draft: long_draft(&scene, random, LONGEST.saturating_sub(REQUESTER_LENGTH)),
    });
    calls.extend(calls::calls(&mut scene, random));
    encode(&card, &calls)
}

/// A commit of the longest value at the end, without its last byte.
pub fn value_not_whole(random: &mut Random) -> Vec<u8> {
    let mut scene = Scene::new(Profile::Small, random);
    let card = card_fields(&scene, &[]).concat();
    let mut calls = calls::calls(&mut scene, random);
    calls.push(long_commit(&scene, random));
    let mut bytes = encode(&card, &calls);
    bytes.pop();
    bytes
}

fn long_commit(scene: &Scene, random: &mut Random) -> Call {
    Call::Commit {
        draft: long_draft(scene, random, LONGEST),
    }
}

/// A draft, and zeros up to this length.
fn long_draft(scene: &Scene, random: &mut Random, length: usize) -> Vec<u8> {
    let mut draft = drafts::plain(scene, random).encode().to_vec();
    draft.resize(length, 0);
    draft
}

/// Calls after a card of the longest length. It ends with a field without a
/// place.
pub fn card_part(random: &mut Random) -> Vec<u8> {
    after_card_part(random, 0)
}

/// The same, but one byte of the field is left out.
pub fn card_part_not_whole(random: &mut Random) -> Vec<u8> {
    after_card_part(random, 1)
}

fn after_card_part(random: &mut Random, more: usize) -> Vec<u8> {
    let mut scene = Scene::new(Profile::Small, random);
    let card = damage::with_long_field(&card_fields(&scene, &[]), 0xFF, more);
    let calls = calls::calls(&mut scene, random);
    encode(&card, &calls)
}

/// A card for `cardcheck`: a field without a place ends at the cut, and more
/// follows.
pub fn card_whole_at_the_cut(random: &mut Random) -> Vec<u8> {
    around_the_cut(random, 0)
}

/// The same, but the field ends one byte after the cut.
pub fn card_not_whole_at_the_cut(random: &mut Random) -> Vec<u8> {
    around_the_cut(random, 1)
}

fn around_the_cut(random: &mut Random, more: usize) -> Vec<u8> {
    let scene = Scene::new(Profile::Small, random);
    let fields = card_fields(&scene, &[]);
    let mut bytes = damage::with_long_field(&fields, 0xFF, more);
    bytes.extend(fields.concat());
    bytes
}
