//! Where the two windows of a series lie.

use crate::model::fields::LINK;
use crate::model::windows::{address_of, Windows};

/// In place of a window's number.
pub const NEITHER: usize = 2;

pub const LAYOUTS: [&str; 9] = [
    "second empty",
    "empty at an odd base",
    "empty at a base in E or F",
    "empty within the first",
    "one segment",
    "two segments",
    "second after first",
    "first after second",
    "adjacent in two segments",
];

/// What rules 1 and 13 find.
pub const FAULTS: [&str; 5] =
    ["1 of the first", "1 of the second alone", "13, equal", "13, one area", "13, more areas"];

/// Of each window its first address, and the one past its last.
#[derive(Clone, Copy, Default)]
pub struct Extents([(u64, u64); 2]);

impl Extents {
    pub fn of(Windows { first, second }: &Windows<Vec<u8>>) -> Extents {
        Extents([first, second].map(|w| (w.base as u64, w.base as u64 + w.bytes.len() as u64)))
    }

    pub fn of_window(&self, window: usize) -> (u64, u64) {
        self.0[window]
    }

    /// The window that has an address.
    pub fn holder(&self, address: u32) -> usize {
        self.0.iter().position(|(from, to)| (*from..*to).contains(&(address as u64))).unwrap_or(NEITHER)
    }

    /// Whether a word's link names an area of a window.
    pub fn has_area(&self, word: u32) -> bool {
        word & LINK != 0 && self.holder(address_of(word & LINK)) != NEITHER
    }

    /// Whether the second window has bytes too.
    pub fn both(&self) -> bool {
        self.0[1].0 < self.0[1].1
    }

    fn sound(&self, window: usize) -> bool {
        let (from, to) = self.0[window];
        (64..=65_536).contains(&(to - from))
            && from % 64 == 0
            && to % 64 == 0
            && from >> 28 == (to - 1) >> 28
            && to <= 0xE000_0000
    }

    /// Which of `FAULTS` refused windows have.
    pub fn fault(&self) -> usize {
        let [(from, to), (second_from, second_to)] = self.0;
        if !self.sound(0) {
            return 0;
        }
        if !self.sound(1) {
            return 1;
        }
        match to.min(second_to) - from.max(second_from) {
            _ if self.0[0] == self.0[1] => 2,
            64 => 3,
            _ => 4,
        }
    }

    /// Which of `LAYOUTS` accepted windows have.
    pub fn layouts(&self) -> [bool; LAYOUTS.len()] {
        let [(from, to), (second_from, second_to)] = self.0;
        let (empty, both) = (!self.both(), self.both());
        let one_segment = from >> 28 == second_from >> 28;
        let (after, before) = (both && to == second_from, both && second_to == from);
        [
            empty,
            empty && second_from % 64 != 0,
            empty && second_from >= 0xE000_0000,
            empty && (from..to).contains(&second_from),
            both && one_segment,
            both && !one_segment,
            after,
            before,
            (after || before) && !one_segment,
        ]
    }
}
