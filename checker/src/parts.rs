//! Inputs that are handed over in parts.

use crate::generate::{Input, InputKind};
use crate::random::Random;

/// One input of so many goes in parts.
const SHARE: u64 = 64;
const MOST_CUTS: u32 = 4;

/// The input as a whole, or cut at random places. Which input is cut, and
/// where, depends on the seed and the index alone.
pub fn parts(input: &Input) -> Vec<&[u8]> {
    let stream = match input.kind {
        InputKind::Card => 3,
        InputKind::Replay => 4,
    };
    let mut random = Random::of_input(input.seed, stream, input.index / SHARE);
    let chosen = random.u64() % SHARE == input.index % SHARE;
    let cuts = if chosen {
        random.range(1, MOST_CUTS)
    } else {
        0
    };
    let length = input.bytes.len();
    let mut ends = vec![0, length];
    ends.extend((0..cuts).map(|_| random.index(length)));
    ends.sort_unstable();
    ends.dedup();
    let part = |ends: &[usize]| match ends {
        [from, to] => input.bytes.get(*from..*to),
        _ => None,
    };
    ends.windows(2).filter_map(part).collect()
}
