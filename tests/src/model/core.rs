//! The core's registers, requests and ranges, and the host's record of them.

use super::image::word;

/// The length of the record in bytes.
pub const RECORD: usize = 616;
const WORDS: usize = RECORD / 4;
/// The words before the ranges.
const RANGES: usize = 58;

/// The names of the ten words after D0 to A15, in the record's order.
pub const NAMES: [&str; 10] = ["PC", "PSW", "PCXI", "FCX", "LCX", "ICR", "ISP", "BIV", "BTV", "SYSCON"];

#[derive(Debug, Clone, Copy, PartialEq, Eq, Default)]
#[repr(C)]
pub struct Range {
    pub lower: u32,
    pub upper: u32,
    pub mode: u32,
}

/// In the record's order, so that the record is one copy of it.
#[derive(Debug, Clone, PartialEq, Eq, Default)]
#[repr(C)]
pub struct Core {
    pub d: [u32; 16],
    pub a: [u32; 16],
    pub pc: u32,
    pub psw: u32,
    pub pcxi: u32,
    pub fcx: u32,
    pub lcx: u32,
    pub icr: u32,
    pub isp: u32,
    pub biv: u32,
    pub btv: u32,
    pub syscon: u32,
    pub requests: [u32; 16],
    /// For each set its four data ranges, then its four code ranges.
    pub ranges: [Range; 32],
}

impl Core {
    pub fn from_record(record: &[u8; RECORD]) -> Core {
        let mut words = [0; WORDS];
        for (word, bytes) in words.iter_mut().zip(record.as_chunks().0) {
            *word = u32::from_le_bytes(*bytes);
        }
        // SAFETY: the core is 154 words in this order, and every word is a value of its field
        unsafe { std::mem::transmute(words) }
    }

    /// PC alone, for the rules that are tried before anything else is read.
    pub fn pc_of(record: &[u8; RECORD]) -> u32 {
        word(record, 4 * 32)
    }

    fn words(&self) -> &[u32; WORDS] {
        // SAFETY: as above
        unsafe { &*(self as *const Core).cast() }
    }

    /// Writes what a step can change: the ranges stay as they are.
    pub fn update_record(&self, record: &mut [u8; RECORD]) {
        for (word, bytes) in self.words()[..RANGES].iter().zip(record.as_chunks_mut().0) {
            *bytes = word.to_le_bytes();
        }
    }

    pub fn to_record(&self) -> [u8; RECORD] {
        let mut record = [0; RECORD];
        for (word, bytes) in self.words().iter().zip(record.as_chunks_mut().0) {
            *bytes = word.to_le_bytes();
        }
        record
    }
}
