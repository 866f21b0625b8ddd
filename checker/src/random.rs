//! A small random generator: the same seed gives the same numbers.

/// SplitMix64.
#[derive(Clone, Debug)]
pub struct Random {
    state: u64,
}

impl Random {
    pub fn new(seed: u64) -> Random {
        Random { state: seed }
    }

    /// The generator of one numbered input.
    pub fn of_input(seed: u64, stream: u64, index: u64) -> Random {
        let mut random = Random::new(seed);
        for part in [stream, index] {
            random.state = random.u64() ^ part;
        }
        random
    }

    pub fn u64(&mut self) -> u64 {
        self.state = self.state.wrapping_add(0x9E37_79B9_7F4A_7C15);
        let mut mixed = self.state;
        mixed = (mixed ^ (mixed >> 30)).wrapping_mul(0xBF58_476D_1CE4_E5B9);
        mixed = (mixed ^ (mixed >> 27)).wrapping_mul(0x94D0_49BB_1331_11EB);
        mixed ^ (mixed >> 31)
    }

    pub fn u32(&mut self) -> u32 {
        let [_, _, _, _, a, b, c, d] = self.u64().to_be_bytes();
        u32::from_be_bytes([a, b, c, d])
    }

    pub fn u16(&mut self) -> u16 {
        let [_, _, _, _, _, _, a, b] = self.u64().to_be_bytes();
        u16::from_be_bytes([a, b])
    }

    pub fn u8(&mut self) -> u8 {
        let [_, _, _, _, _, _, _, a] = self.u64().to_be_bytes();
        a
    }

    /// A number low..=high, and `low` where `high` is lower.
    pub fn range(&mut self, low: u32, high: u32) -> u32 {
        let width = u64::from(high.saturating_sub(low)).saturating_add(1);
        let offset = self.u64().checked_rem(width).unwrap_or(0);
        low.saturating_add(u32::try_from(offset).unwrap_or(0))
    }

    /// A number 0..=high.
    pub fn up_to(&mut self, high: u8) -> u8 {
        u8::try_from(self.range(0, u32::from(high))).unwrap_or(high)
    }

    /// A place in a list of this length; 0 for an empty one.
    pub fn index(&mut self, length: usize) -> usize {
        let length = u32::try_from(length).unwrap_or(u32::MAX);
        let index = self.range(0, length.saturating_sub(1));
        usize::try_from(index).unwrap_or(0)
    }

    /// True in this many of a hundred.
    pub fn chance(&mut self, percent: u32) -> bool {
        self.range(0, 99) < percent
    }

    /// An item of the list; the default value of an empty one.
    pub fn pick<T: Copy + Default>(&mut self, list: &[T]) -> T {
        let index = self.index(list.len());
        list.get(index).copied().unwrap_or_default()
    }

    /// One of the set's bits, or none of an empty set.
    pub fn bit(&mut self, set: u16) -> u16 {
        let bits: Vec<u16> = (0..16)
            .map(|bit| 1 << bit)
            .filter(|bit| set & bit != 0)
            .collect();
        self.pick(&bits)
    }

    /// The number of one of the set's bits, or 0.
    pub fn member(&mut self, set: u16) -> u8 {
        let bit = self.bit(set).max(1);
        u8::try_from(bit.trailing_zeros()).unwrap_or(0)
    }

    /// A part of the set, not empty unless the set is.
    pub fn subset(&mut self, set: u16) -> u16 {
        match self.u16() & set {
            0 => self.bit(set),
            part => part,
        }
    }

    pub fn shuffle<T>(&mut self, list: &mut [T]) {
        for last in (1..list.len()).rev() {
            let other = self.index(last.saturating_add(1));
            list.swap(last, other);
        }
    }
}
