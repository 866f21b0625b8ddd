//! Numbers and fields in a byte string, "high byte first throughout".

/// Where the value of a field starts: after its tag and its length.
pub const VALUE: usize = 3;

/// The bytes that are still to be read.
#[derive(Clone, Copy, Debug)]
pub struct Bytes<'a> {
    rest: &'a [u8],
}

impl<'a> Bytes<'a> {
    pub fn new(bytes: &'a [u8]) -> Self {
        Bytes { rest: bytes }
    }

    pub fn is_empty(&self) -> bool {
        self.rest.is_empty()
    }

    /// How many bytes are left.
    pub fn left(&self) -> usize {
        self.rest.len()
    }

    /// All that is left.
    pub fn rest(&self) -> &'a [u8] {
        self.rest
    }

    /// The next `length` bytes, if that many are left.
    pub fn take(&mut self, length: usize) -> Option<&'a [u8]> {
        let (taken, rest) = self.rest.split_at_checked(length)?;
        self.rest = rest;
        Some(taken)
    }

    /// All that is left, which then is nothing.
    pub fn take_rest(&mut self) -> &'a [u8] {
        std::mem::take(&mut self.rest)
    }

    fn array<const N: usize>(&mut self) -> Option<[u8; N]> {
        let (taken, rest) = self.rest.split_first_chunk::<N>()?;
        self.rest = rest;
        Some(*taken)
    }

    pub fn u8(&mut self) -> Option<u8> {
        self.array().map(u8::from_be_bytes)
    }

    pub fn u16(&mut self) -> Option<u16> {
        self.array().map(u16::from_be_bytes)
    }

    pub fn u32(&mut self) -> Option<u32> {
        self.array().map(u32::from_be_bytes)
    }

    /// "A field is a tag byte, a two-byte length and the value."
    /// Nothing where the field does not stand whole.
    pub fn field(&mut self) -> Option<(u8, &'a [u8])> {
        let tag = self.u8()?;
        let length = self.u16()?;
        let value = self.take(usize::from(length))?;
        Some((tag, value))
    }
}

/// Puts a field last. A value is at most 65,535 bytes; more are left out.
pub fn push_field(bytes: &mut Vec<u8>, tag: u8, value: &[u8]) {
    let value = value.get(..usize::from(u16::MAX)).unwrap_or(value);
    let length = u16::try_from(value.len()).unwrap_or(u16::MAX);
    bytes.push(tag);
    bytes.extend_from_slice(&length.to_be_bytes());
    bytes.extend_from_slice(value);
}

/// The bytes of a field.
pub fn field(tag: u8, value: &[u8]) -> Vec<u8> {
    let mut bytes = Vec::new();
    push_field(&mut bytes, tag, value);
    bytes
}

/// The two lowercase hexadecimal digits of each byte. An index out of range
/// would not compile here.
#[allow(clippy::indexing_slicing)]
const HEX: [[u8; 2]; 256] = {
    let digits = *b"0123456789abcdef";
    let mut pairs = [[0; 2]; 256];
    let mut byte = 0;
    while byte < pairs.len() {
        pairs[byte] = [digits[byte / 16], digits[byte % 16]];
        byte += 1;
    }
    pairs
};

/// The bytes of an even number of hexadecimal digits, upper or lower case.
pub fn from_hex(text: &str) -> Option<Vec<u8>> {
    let digits: Option<Vec<u32>> = text.chars().map(|digit| digit.to_digit(16)).collect();
    let pair = |pair: &[u32]| match pair {
        [high, low] => u8::try_from(high << 4 | low).ok(),
        _ => None,
    };
    digits?.chunks(2).map(pair).collect()
}

/// The bytes in lowercase hexadecimal.
pub fn hex(bytes: &[u8]) -> String {
    let mut text = vec![0; bytes.len().saturating_mul(2)];
    for (pair, byte) in text.chunks_exact_mut(2).zip(bytes) {
        if let Some(digits) = HEX.get(usize::from(*byte)) {
            pair.copy_from_slice(digits);
        }
    }
    String::from_utf8(text).unwrap_or_default()
}
