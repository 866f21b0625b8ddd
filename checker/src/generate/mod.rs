//! The seeded generator of cards and replays, and of arguments for `access`
//! with a card. An input depends on the seed and its index alone.

mod access_arguments;
mod calls;
mod damage;
mod drafts;
mod long;
mod previews;
mod requester;
mod scene;

use crate::bytes::field;
use crate::card;
use crate::directive::Fields;
use crate::random::Random;
use crate::replay;
pub use access_arguments::access_arguments;
pub use long::{LONGEST, MANY_CALLS};
use scene::{Profile, Scene};

/// Which of the two kinds of input.
#[derive(Clone, Copy, Debug, PartialEq, Eq)]
pub enum InputKind {
    Card,
    Replay,
}

/// A generated input.
#[derive(Clone, Debug, PartialEq, Eq)]
pub struct Input {
    pub kind: InputKind,
    pub seed: u64,
    pub index: u64,
    pub bytes: Vec<u8>,
}

impl Input {
    /// The name of its file: the seed, the index and the kind.
    pub fn file_name(&self) -> String {
        let extension = match self.kind {
            InputKind::Card => "card",
            InputKind::Replay => "replay",
        };
        format!("{}-{}.{extension}", self.seed, self.index)
    }
}

/// The cards, then the replays.
pub fn inputs(seed: u64, cards: u64, replays: u64) -> impl Iterator<Item = Input> {
    let cards = (0..cards).map(move |index| Input {
        kind: InputKind::Card,
        seed,
        index,
        bytes: card(seed, index),
    });
    let replays = (0..replays).map(move |index| Input {
        kind: InputKind::Replay,
        seed,
        index,
        bytes: replay(seed, index),
    });
    cards.chain(replays)
}

fn profile(random: &mut Random) -> Profile {
    match random.range(0, 99) {
        0..=64 => Profile::Small,
        65..=79 => Profile::Full,
        _ => Profile::Edge,
    }
}

/// The card with this index: two are longer than what `cardcheck` takes, every
/// eighth is one of a list of all damages of a kind, the others are random.
fn card(seed: u64, index: u64) -> Vec<u8> {
    let mut random = Random::of_input(seed, 0, index);
    match (index, index % 8) {
        (100, _) => long::card_whole_at_the_cut(&mut random),
        (101, _) => long::card_not_whole_at_the_cut(&mut random),
        (_, 7) => listed_damage(seed, index / 8),
        _ => random_card(&mut random),
    }
}

/// The damage of this number to a small card of fixed shape. After the last
/// one the list begins again with another card.
fn listed_damage(seed: u64, number: u64) -> Vec<u8> {
    let number = usize::try_from(number).unwrap_or(0);
    let length = damage::every(&small_card(seed, 0)).len();
    let round = number.checked_div(length).unwrap_or(0);
    let round = u64::try_from(round).unwrap_or(0);
    let cards = damage::every(&small_card(seed, round));
    let place = number.checked_rem(length).unwrap_or(0);
    cards.get(place).cloned().unwrap_or_default()
}

/// A card with two roles, two records and a directive.
fn small_card(seed: u64, round: u64) -> Vec<Vec<u8>> {
    let mut random = Random::of_input(seed, 2, round);
    let mut scene = Scene::new(Profile::Small, &mut random);
    scene.edition = 2;
    scene.register = scene::small_register(&mut random, &scene);
    let directive = drafts::plain(&scene, &mut random);
    card_fields(&scene, &[directive])
}

fn random_card(random: &mut Random) -> Vec<u8> {
    let profile = profile(random);
    let mut scene = Scene::new(profile, random);
    let mut directives = drafts::for_card(&mut scene, random);
    match random.range(0, 99) {
        0..=49 => card_fields(&scene, &directives).concat(),
        50..=64 => {
            drafts::spoil_one(&scene, random, &mut directives);
            card_fields(&scene, &directives).concat()
        }
        65..=97 => damage::card(card_fields(&scene, &directives), random),
        _ => damage::long_card(&card_fields(&scene, &directives), random),
    }
}

/// The replay with this index: a few are long, the others are random.
fn replay(seed: u64, index: u64) -> Vec<u8> {
    let mut random = Random::of_input(seed, 1, index);
    match index {
        100 => long::many_calls(&mut random),
        101 => long::many_calls_on_the_empty_ledger(&mut random),
        102 => long::value(&mut random),
        103 => long::value_not_whole(&mut random),
        104 => long::card_part(&mut random),
        105 => long::card_part_not_whole(&mut random),
        _ => random_replay(&mut random),
    }
}

fn random_replay(random: &mut Random) -> Vec<u8> {
    let profile = profile(random);
    let mut scene = Scene::new(profile, random);
    let directives = drafts::for_card(&mut scene, random);
    let fields = card_fields(&scene, &directives);
    let card = if random.chance(5) {
        damage::card(fields, random)
    } else {
        fields.concat()
    };
    let calls = calls::calls(&mut scene, random);
    let bytes = replay::encode(&card, &calls);
    if random.chance(8) {
        damage::replay(bytes, random)
    } else {
        bytes
    }
}

/// The fields of the scene's card with these directives.
fn card_fields(scene: &Scene, directives: &[Fields]) -> Vec<Vec<u8>> {
    let mut fields = vec![card::head_field(scene.edition, scene.patient, scene.clock)];
    fields.push(field(card::ROLES, scene.register.roles()));
    for record in scene.register.records() {
        fields.push(field(card::RECORD, &record.encode()));
    }
    for directive in directives {
        let bytes = match scene.edition {
            1 => directive.encode_edition_1(),
            _ => directive.encode().to_vec(),
        };
        fields.push(field(card::DIRECTIVE, &bytes));
    }
    fields
}
