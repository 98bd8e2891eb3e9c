//! The windows of a start, with their lists in order or damaged.

use super::draw::Draw;
use super::plan::Plan;
use super::state::{address_register, data_register, psw};
use crate::model::core::Core;
use crate::model::fields::pcxi::UL;
use crate::model::fields::LINK;
use crate::model::windows::{link_of, Windows};

fn pcxi_word(draw: &mut Draw, link: u32) -> u32 {
    let low = draw.word() & if draw.percent(10) { 0x00F0_0000 } else { 0x00C0_0000 };
    draw.pick(&[0, 1, 3, 255]) << 24 | low | link
}

fn put(windows: &mut Windows<Vec<u8>>, address: u32, word: u32) {
    *windows.part_mut(address).expect("in a window") = word.to_le_bytes();
}

/// The bytes of a window of so many areas: as saves leave them, or 0.
fn bytes(draw: &mut Draw, plan: &Plan, areas: u32) -> Vec<u8> {
    if areas > 64 && draw.percent(80) {
        return vec![0; 64 * areas as usize];
    }
    let words = (0..16 * areas).map(|k| match k % 16 {
        1 => psw(draw),
        n @ 2..8 => address_register(draw, plan, n as usize + 8),
        _ => data_register(draw, plan),
    });
    words.flat_map(u32::to_le_bytes).collect()
}

/// The windows with their lists, and the heads FCX and PCXI.
pub fn windows(draw: &mut Draw, plan: &Plan) -> (Windows<Vec<u8>>, u32, u32) {
    let [first, second] = plan.windows;
    let [window, other] = [first, second].map(|w| bytes(draw, plan, w.areas));
    let mut windows = Windows::new(first.base, window, second.base, other);
    let mut head = 0;
    for area in plan.free.iter().rev() {
        put(&mut windows, *area, head);
        head = link_of(*area) | if draw.percent(5) { draw.word() & !LINK } else { 0 };
    }
    let fcx = head;
    head = pcxi_word(draw, 0);
    for area in plan.used.iter().rev() {
        put(&mut windows, *area, head);
        head = pcxi_word(draw, link_of(*area));
        if head & UL == 0 {
            for n in 2..8 {
                let word = address_register(draw, plan, n);
                put(&mut windows, area + 4 * n as u32, word);
            }
        }
    }
    (windows, fcx, head)
}

/// Links that make cycles, run into the other list or lead outside.
pub fn damage(draw: &mut Draw, plan: &Plan, windows: &mut Windows<Vec<u8>>, core: &mut Core) {
    for _ in 0..draw.within(1, 3) {
        let stray = plan.stray_link(draw);
        match draw.below(10) {
            0 => core.fcx = stray,
            1..4 => core.pcxi = core.pcxi & !LINK | stray & LINK,
            4 => core.fcx = 0,
            5 => core.lcx = stray,
            _ => {
                let window = plan.window(draw);
                put(windows, window.base + 64 * draw.below(window.areas), stray);
            }
        }
    }
}
