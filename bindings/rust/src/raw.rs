//! The functions of `include/newelsage.h`, and the memory of a ledger. All `unsafe` code of the crate
//! stands here.
//!
//! Why the calls are sound:
//! - The ledger's memory is a box of `u64`, so it is aligned as the library wants it, and the size
//!   that is handed over is its own.
//! - The other pointers come from slices and references. So they are not null, also where the length
//!   is 0, and as many bytes may be read or written as are handed over.
//! - What the library writes (ledger, buffer, answer) is behind `&mut`, so it overlaps nothing else.
//! - Every bit pattern is a `u64` or a `u8`, so whatever the library writes is a value.
//! - Nothing of the library is global. A call that takes `&Memory` does not write to it, so several
//!   threads may make such calls at once.

use std::mem::{size_of, size_of_val};

/// `newelsage_answer`: the status, and the first `count` of `values`.
#[repr(C)]
#[derive(Default)]
struct RawAnswer {
    status: u64,
    count: u64,
    values: [u64; 6],
}

extern "C" {
    fn newelsage_size() -> usize;
    fn newelsage_version() -> u64;
    fn newelsage_empty(ledger: *mut u64, size: usize) -> u64;
    fn newelsage_read(
        ledger: *mut u64,
        size: usize,
        card: *const u8,
        card_length: usize,
        answer: *mut RawAnswer,
    ) -> u64;
    fn newelsage_call(
        ledger: *mut u64,
        size: usize,
        tag: u8,
        value: *const u8,
        value_length: usize,
        answer: *mut RawAnswer,
    ) -> u64;
    fn newelsage_ask(
        ledger: *const u64,
        size: usize,
        tag: u8,
        value: *const u8,
        value_length: usize,
        lent: *mut u8,
        lent_length: usize,
        answer: *mut RawAnswer,
    ) -> u64;
}

/// How many bytes a ledger has, and a saved one.
pub fn ledger_size() -> usize {
    // SAFETY: it takes nothing and reads nothing.
    unsafe { newelsage_size() }
}

/// The version of a ledger's bytes. Saved ledgers of another version are refused.
pub fn version() -> u64 {
    // SAFETY: it takes nothing and reads nothing.
    unsafe { newelsage_version() }
}

/// The status of a call, and its values.
pub struct Answer {
    pub status: u64,
    pub values: Vec<u64>,
}

impl RawAnswer {
    fn answer(self) -> Answer {
        let values = self
            .values
            .into_iter()
            .zip(0..self.count)
            .map(|(value, _)| value)
            .collect();
        Answer {
            status: self.status,
            values,
        }
    }
}

/// Memory for a ledger.
#[derive(Clone, PartialEq, Eq)]
pub struct Memory(Box<[u64]>);

const WORD: usize = size_of::<u64>();

impl Memory {
    /// Memory of the right size, in which no ledger stands.
    pub fn new() -> Memory {
        Memory(vec![0; ledger_size().div_ceil(WORD)].into())
    }

    /// The bytes in the memory's order, or none where they do not fill whole words.
    pub fn of_bytes(bytes: &[u8]) -> Option<Memory> {
        let words = bytes
            .chunks(WORD)
            .map(|word| word.try_into().map(u64::from_ne_bytes).ok());
        words.collect::<Option<_>>().map(Memory)
    }

    pub fn bytes(&self) -> Vec<u8> {
        self.0.iter().flat_map(|word| word.to_ne_bytes()).collect()
    }

    fn size(&self) -> usize {
        size_of_val(&*self.0)
    }

    pub fn empty(&mut self) -> u64 {
        // SAFETY: the module's reasons.
        unsafe { newelsage_empty(self.0.as_mut_ptr(), self.size()) }
    }

    pub fn read(&mut self, card: &[u8]) -> Answer {
        let mut answer = RawAnswer::default();
        // SAFETY: the module's reasons.
        unsafe {
            newelsage_read(
                self.0.as_mut_ptr(),
                self.size(),
                card.as_ptr(),
                card.len(),
                &mut answer,
            )
        };
        answer.answer()
    }

    pub fn call(&mut self, tag: u8, value: &[u8]) -> Answer {
        let mut answer = RawAnswer::default();
        // SAFETY: the module's reasons.
        unsafe {
            newelsage_call(
                self.0.as_mut_ptr(),
                self.size(),
                tag,
                value.as_ptr(),
                value.len(),
                &mut answer,
            )
        };
        answer.answer()
    }

    pub fn ask(&self, tag: u8, value: &[u8], lent: &mut [u8]) -> Answer {
        let mut answer = RawAnswer::default();
        // SAFETY: the module's reasons.
        unsafe {
            newelsage_ask(
                self.0.as_ptr(),
                self.size(),
                tag,
                value.as_ptr(),
                value.len(),
                lent.as_mut_ptr(),
                lent.len(),
                &mut answer,
            )
        };
        answer.answer()
    }
}
