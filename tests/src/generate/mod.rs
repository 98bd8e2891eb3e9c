//! Series of calls, each made from a seed.

pub mod code;
pub mod damage;
pub mod draw;
pub mod layout;
pub mod plan;
pub mod sketch;
pub mod state;
pub mod window;

use crate::model::core::{Range, RECORD};
use crate::model::image::build;
use crate::model::windows::Windows;
use draw::Draw;
use plan::Plan;

/// What the host sets before a call.
#[derive(Debug, Clone, Copy)]
pub enum Change {
    Request(usize, u32),
    Range(usize, Range),
}

#[derive(Debug, Clone, Copy)]
pub enum Kind {
    Step,
    Run(u32),
}

#[derive(Debug, Clone)]
pub struct Call {
    pub changes: Vec<Change>,
    /// Index of the image.
    pub image: usize,
    pub kind: Kind,
    /// Bytes of the core's record that are handed over.
    pub length: usize,
}

pub struct Series {
    pub windows: Windows<Vec<u8>>,
    pub core: [u8; RECORD],
    pub images: Vec<Vec<u8>>,
    pub calls: Vec<Call>,
}

fn change(draw: &mut Draw, plan: &Plan) -> Change {
    if draw.percent(75) {
        Change::Request(draw.below(16) as usize, state::request(draw))
    } else {
        let place = draw.below(32) as usize;
        Change::Range(place, state::range(draw, plan, place % 8 >= 4))
    }
}

/// Steps for the most part, and runs; few of these are long, but of long code more.
fn kind(draw: &mut Draw, long_code: bool) -> Kind {
    match draw.below(100) {
        0 => Kind::Run(many_steps(draw)),
        1..10 if long_code => Kind::Run(many_steps(draw)),
        1..5 => Kind::Run(draw.within(0, 100)),
        5..24 => Kind::Run(draw.pick(&[0, 1, 2, 3, 5, 9, 17, 40, 90])),
        _ => Kind::Step,
    }
}

/// 300 to 1,500, the shorter runs more often.
fn many_steps(draw: &mut Draw) -> u32 {
    let most = draw.within(300, 1500);
    draw.within(300, most)
}

fn call(draw: &mut Draw, plan: &Plan) -> Call {
    let changes = if draw.percent(25) { draw.within(1, 4) } else { 0 };
    Call {
        changes: (0..changes).map(|_| change(draw, plan)).collect(),
        image: draw.pick(&[0, 0, 0, 0, 0, 0, 0, 0, 0, 0, 0, 0, 0, 1, 1, 2]),
        kind: kind(draw, plan.code.long),
        length: if draw.percent(1) { draw.pick(&[0, 1, 612, 615, 617, 620]) } else { RECORD },
    }
}

pub fn series(seed: u64) -> Series {
    let draw = &mut Draw::new(seed);
    let plan = Plan::new(draw);
    let (mut windows, fcx, pcxi) = window::windows(draw, &plan);
    let mut core = state::core(draw, &plan, fcx, pcxi);
    if !plan.tame && draw.percent(60) {
        window::damage(draw, &plan, &mut windows, &mut core);
    }
    let first = build(&code::bodies(draw, &plan, &plan.code));
    let images = vec![first, code::image(draw, &plan), damage::damaged(draw, &plan)];
    let calls = (0..draw.within(3, 30)).map(|_| call(draw, &plan)).collect();
    if draw.percent(4) {
        layout::refused(draw, &mut windows);
    }
    Series { windows, core: core.to_record(), images, calls }
}
