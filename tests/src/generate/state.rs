//! Registers, requests and ranges of a start.

use super::draw::Draw;
use super::plan::Plan;
use crate::model::core::{Core, Range};
use crate::model::fields::LINK;
use crate::model::windows::link_of;

pub fn psw(draw: &mut Draw) -> u32 {
    let flags = draw.word() & 0xF800_0000;
    let unnamed = if draw.percent(10) { draw.word() & 0x07FF_C000 } else { 0 };
    let prs = draw.below(4) << 12;
    let io = draw.pick(&[0, 0, 1, 2, 2, 2, 3]) << 10;
    let is_gw = draw.pick(&[0, 1, 1, 2, 3, 3]) << 8;
    let cde = draw.pick(&[0, 1, 1]) << 7;
    let cdc = match draw.below(4) {
        0 => draw.pick(&[0, 1, 0x3E, 0x3F, 0x40, 0x5F, 0x60, 0x7A, 0x7B, 0x7C, 0x7D, 0x7E]),
        1 => draw.below(128),
        2 => 0,
        _ => 0x7F,
    };
    flags | unnamed | prs | io | is_gw | cde | cdc
}

pub fn request(draw: &mut Draw) -> u32 {
    let priority = match draw.below(10) {
        0 => draw.below(256),
        1 => draw.pick(&[0, 255]),
        _ => draw.within(1, 7),
    };
    let bits = draw.pick(&[0x600, 0x600, 0x200, 0x400, 0]);
    let unnamed = if draw.percent(10) { draw.word() & 0xFFFF_F900 } else { 0 };
    priority | bits | unnamed
}

/// A range: for data around a window, for code around the bodies.
pub fn range(draw: &mut Draw, plan: &Plan, code: bool) -> Range {
    let window = plan.window(draw);
    let code_range = (plan.code.load(), plan.code.end() - plan.code.load());
    let (from, length) = if code { code_range } else { (window.base, window.length()) };
    let near = |draw: &mut Draw| match draw.below(4) {
        0 => from.wrapping_add(draw.below(length + 16)).wrapping_sub(8),
        _ if code => plan.code_address(draw),
        _ => plan.data_address(draw).wrapping_add(4 * draw.below(13)),
    };
    let (lower, upper) = match draw.below(10) {
        0..4 => (from, from + length),
        4..7 => (near(draw), near(draw)),
        7 => (0, 0xFFFF_FFFF),
        8 => (near(draw), draw.edge()),
        _ => (draw.edge(), draw.edge()),
    };
    let mode = match draw.below(10) {
        0 => 0,
        1 => draw.word(),
        2 => 0x40,
        3 => 0x80,
        _ => 0xC0,
    };
    Range { lower, upper, mode }
}

pub fn data_register(draw: &mut Draw, plan: &Plan) -> u32 {
    match draw.below(12) {
        0 => plan.code_address(draw),
        1 => plan.data_address(draw),
        2 => psw(draw),
        3 => plan.stray_link(draw),
        _ => draw.edge(),
    }
}

/// A2 to A10 point at data, A11 to A15 at code, for the most part.
pub fn address_register(draw: &mut Draw, plan: &Plan, n: usize) -> u32 {
    match draw.below(16) {
        0 => draw.edge(),
        1 => draw.below(5),
        _ if n > 10 => plan.code_address(draw),
        _ => plan.data_address(draw),
    }
}

fn lcx(draw: &mut Draw, plan: &Plan) -> u32 {
    let n = plan.free.len();
    let link = match draw.below(20) {
        _ if n == 0 => 0,
        0..3 => link_of(plan.free[0]),
        3..12 => link_of(plan.free[draw.below(n.min(5) as u32) as usize]),
        12..15 => link_of(plan.free[n - 1]),
        15..18 => 0,
        _ => plan.stray_link(draw),
    };
    link | if draw.percent(10) { draw.word() & !LINK } else { 0 }
}

pub fn core(draw: &mut Draw, plan: &Plan, fcx: u32, pcxi: u32) -> Core {
    let vectors = plan.code.vectors.load();
    let mut core = Core {
        pc: match draw.below(50) {
            0 => draw.word(),
            1 => plan.code.load() + 1,
            2..6 => plan.code_address(draw) & !1,
            _ => plan.code.main[0].start(draw, 8),
        },
        psw: psw(draw),
        pcxi,
        fcx,
        lcx: lcx(draw, plan),
        icr: draw.below(2) << 8 | draw.pick(&[0, 0, 1, 3, 5, 6, 255]),
        isp: plan.data_address(draw),
        biv: vectors,
        btv: vectors,
        syscon: draw.pick(&[0, 0, 2, 2, 2]),
        ..Core::default()
    };
    if draw.percent(10) {
        core.icr |= draw.word() & 0xFFFF_FE00;
        core.syscon |= draw.word() & !2;
    }
    if draw.percent(8) {
        let edge = draw.edge();
        let [main, routines] = [plan.code.load(), plan.code.routines.load()];
        core.btv = draw.pick(&[edge, main | 1, routines]);
        core.biv = draw.pick(&[edge, main | 1, routines]);
    }
    for n in 0..16 {
        core.d[n] = data_register(draw, plan);
        core.a[n] = address_register(draw, plan, n);
        if draw.percent(40) {
            core.requests[n] = request(draw);
        }
    }
    for (k, slot) in core.ranges.iter_mut().enumerate() {
        *slot = range(draw, plan, k % 8 >= 4);
        // a set that permits no fetch at all traps at every step
        if k % 8 == 4 && draw.percent(85) {
            *slot = Range { lower: plan.code.load(), upper: plan.code.end(), mode: 0x80 };
        }
    }
    core
}
