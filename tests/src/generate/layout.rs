//! Where the two windows of a series lie.

use super::draw::Draw;
use crate::model::windows::{Window, Windows};

#[derive(Debug, Clone, Copy)]
pub struct Extent {
    pub base: u32,
    pub areas: u32,
}

impl Extent {
    pub fn length(self) -> u32 {
        64 * self.areas
    }

    /// The address past the last byte.
    pub fn end(self) -> u32 {
        self.base.wrapping_add(self.length())
    }

    pub fn addresses(self) -> impl Iterator<Item = u32> {
        (0..self.areas).map(move |k| self.base + 64 * k)
    }
}

/// Whether a link names the area at an address.
pub fn nameable(address: u32) -> bool {
    address != 0 && address & 0x0FC0_0000 == 0
}

fn count(draw: &mut Draw) -> u32 {
    match draw.below(100) {
        0..6 => draw.within(1, 3),
        6..30 => draw.within(4, 9),
        30..98 => draw.within(10, 40),
        98 => 200,
        _ => 1024,
    }
}

/// The areas of two windows, of which no one has more than 1,024.
fn two_counts(draw: &mut Draw) -> (u32, u32) {
    match count(draw) {
        1024 => (1024, 1024),
        most => (draw.within(1, most), draw.within(most.div_ceil(2), most)),
    }
}

/// A base in one segment for so many areas, the gaps counted.
fn base(draw: &mut Draw, areas: u32, tame: bool) -> u32 {
    match draw.below(20) {
        0..14 => 0xD000_0000,
        14 => 0xD000_0000 + 64 * draw.below(0x1_0000 - areas + 1),
        15 => 0xA000_0000,
        16 => 0,
        17 => 64,
        // no link names an area with any of bits 27 to 22 set
        18 if !tame => draw.pick(&[0xD040_0000, 0xDFFC_0000, 0xE000_0000 - 64 * areas]),
        _ => draw.below(14) << 28,
    }
}

/// A second window of length 0 passes at any base.
fn empty(draw: &mut Draw, first: Extent) -> Extent {
    let word = draw.word();
    let within = first.base + draw.below(first.length());
    let near = [0, 1, first.base, first.end(), within, within & !63];
    let far = [word, word | 1, word | 0xE000_0000, 0xE000_0000, 0xF000_0000, 0xFFFF_FFFF];
    let base = if draw.percent(50) { draw.pick(&near) } else { draw.pick(&far) };
    Extent { base, areas: 0 }
}

/// Two windows of a segment, so many areas apart.
fn one_segment(draw: &mut Draw, gap: u32, tame: bool) -> [Extent; 2] {
    let (lower, upper) = two_counts(draw);
    let base = base(draw, lower + gap + upper, tame);
    [Extent { base, areas: lower }, Extent { base: base + 64 * (lower + gap), areas: upper }]
}

/// Two windows of two segments, with the same bits 27 to 0 for the most part.
fn two_segments(draw: &mut Draw) -> [Extent; 2] {
    let (lower, upper) = two_counts(draw);
    let segment = draw.pick(&[0xD, 0xD, 0xA, 0]);
    let other = (segment + draw.within(1, 13)) % 14;
    let offset = if draw.percent(70) { 0 } else { 64 * draw.below(0x1_0000 - 1024) };
    let other_offset = if draw.percent(80) { offset } else { 64 * draw.below(0x1_0000 - 1024) };
    [
        Extent { base: (segment << 28) + offset, areas: lower },
        Extent { base: (other << 28) + other_offset, areas: upper },
    ]
}

/// Adjacent windows with a segment's border between them.
fn across_a_border(draw: &mut Draw) -> [Extent; 2] {
    let (lower, upper) = two_counts(draw);
    let border = draw.within(1, 13) << 28;
    [Extent { base: border - 64 * lower, areas: lower }, Extent { base: border, areas: upper }]
}

/// The extents of the first window and of the second.
pub fn layout(draw: &mut Draw, tame: bool) -> [Extent; 2] {
    let [lower, upper] = match draw.below(20) {
        0..4 => {
            let areas = count(draw);
            let first = Extent { base: base(draw, areas, tame), areas };
            return [first, empty(draw, first)];
        }
        4..12 => one_segment(draw, 0, tame),
        12..15 => {
            let gap = draw.within(1, 40);
            one_segment(draw, gap, tame)
        }
        15..19 => two_segments(draw),
        _ => across_a_border(draw),
    };
    draw.pick(&[[lower, upper], [upper, lower]])
}

/// Makes a window break rule 1; one of length 0 only where that breaks it.
fn break_rule_1(draw: &mut Draw, window: &mut Window<Vec<u8>>, empty_passes: bool) {
    if empty_passes && window.bytes.is_empty() {
        window.bytes.resize(draw.pick(&[1, 62, 65]), 0);
    }
    match draw.below(6) {
        0 => window.base = window.base.wrapping_add(draw.within(1, 63)),
        1 => window.base = draw.pick(&[0xE000_0000, 0xF000_0000, 0xFFFF_FFC0]),
        2 if !empty_passes => window.bytes.clear(),
        3 => window.bytes = vec![0; 65_600],
        4 => {
            window.base = (draw.within(1, 14) << 28) - 64;
            window.bytes.resize(128, 0);
        }
        _ => window.bytes.push(0),
    }
}

/// Lets the second window overlap the first: by an area at either end, with the same base, within it, around it or as it.
fn overlap(draw: &mut Draw, Windows { first, second }: &mut Windows<Vec<u8>>) {
    let length = first.bytes.len() as u32;
    let own = (second.bytes.len() as u32).clamp(64, 65_536);
    let (base, length) = match draw.below(7) {
        0 => (first.base + length - 64, own),
        1 => (first.base.wrapping_sub(own - 64), own),
        2 => (first.base, own),
        3 => (first.base + 64 * draw.below(length / 64), 64),
        4 => (first.base.wrapping_sub(64), (length + 128).min(65_536)),
        _ => (first.base, length),
    };
    second.base = base;
    second.bytes.resize(length as usize, 0);
}

/// Windows that rule 1 or 13 refuses.
pub fn refused(draw: &mut Draw, windows: &mut Windows<Vec<u8>>) {
    match draw.below(8) {
        0..3 => break_rule_1(draw, &mut windows.first, false),
        3..5 => break_rule_1(draw, &mut windows.second, true),
        _ => overlap(draw, windows),
    }
}
