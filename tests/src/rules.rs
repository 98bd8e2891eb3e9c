//! What the cases of the rules share.

use crate::model::checks::Refusal;
use crate::model::image::{build, Body, Record};

pub fn refused(number: u32, place: u32) -> Result<(), Refusal> {
    Err(Refusal { number, place })
}

/// So many NOPs.
pub fn body(load: u32, n: usize) -> Body {
    Body { load, records: vec![Record::NOP; n] }
}

/// An image of two records at 80000000.
pub fn small() -> Vec<u8> {
    build(&[body(0x8000_0000, 2)])
}

pub fn put(bytes: &mut [u8], at: usize, word: u32) {
    bytes[at..at + 4].copy_from_slice(&word.to_le_bytes());
}

/// The bytes of n areas at D0000000, linked from the first to the last, which ends the list.
pub fn linked(n: usize) -> Vec<u8> {
    let mut window = vec![0; 64 * n];
    for k in 0..n - 1 {
        put(&mut window, 64 * k, 0xD_0000 + k as u32 + 1);
    }
    window
}
