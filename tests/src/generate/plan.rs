//! Where things lie in a series: windows, lists and code.

use super::draw::Draw;
use super::layout::{layout, nameable, Extent};
use super::sketch::Sketch;
use crate::model::windows::link_of;

pub struct Plan {
    /// Whether the code keeps away from the lists, so that the conditions of demand 3 mostly hold.
    pub tame: bool,
    pub windows: [Extent; 2],
    /// Addresses of the areas on the free list, on the used one, and on neither.
    pub free: Vec<u32>,
    pub used: Vec<u32>,
    pub scratch: Vec<u32>,
    pub code: Sketch,
    /// Whether the code ends at segment E.
    pub at_the_top: bool,
}

/// Areas left off the lists, for stores.
const SPARE: u32 = 3;

/// The areas that may be listed, in the order of the lists, and the others.
fn areas(draw: &mut Draw, windows: [Extent; 2], tame: bool) -> (Vec<u32>, Vec<u32>) {
    let strict = tame || draw.percent(80);
    let all = windows.into_iter().flat_map(Extent::addresses);
    let (mut areas, mut others): (Vec<u32>, Vec<u32>) =
        all.partition(|a| link_of(*a) != 0 && (!strict || nameable(*a)));
    if draw.percent(60) {
        draw.shuffle(&mut areas);
    } else if draw.percent(50) {
        areas.reverse();
    }
    // the windows' last areas, so that accesses there leave the lists alone
    if draw.percent(50) {
        let last = |a: &u32| windows.iter().any(|w| [w.base, w.end().wrapping_sub(64)].contains(a));
        let (ends, listed) = areas.into_iter().partition(last);
        (others, areas) = ([others, ends].concat(), listed);
    }
    (areas, others)
}

impl Plan {
    pub fn new(draw: &mut Draw) -> Plan {
        let tame = draw.percent(60);
        let windows = layout(draw, tame);
        let (mut free, mut scratch) = areas(draw, windows, tame);
        let all = free.len() as u32;
        let listed = if all > SPARE { all - SPARE } else { all };
        let on_free = draw.below(listed + 1).max(listed / 3);
        let on_used = draw.below((listed - on_free).min(12) + 1);
        scratch.extend(free.split_off((on_free + on_used) as usize));
        let used = free.split_off(on_free as usize);
        let sketch = {
            let long = draw.percent(4);
            Sketch::new(draw, long)
        };
        let at_the_top = draw.percent(25);
        let base = draw.pick(&[0x8000_0000, 0x8000_0000, 0x8000_0000, 0xA000_0000, 0, 0x7FFF_FE00]);
        let code = if at_the_top { sketch.at_the_top(draw) } else { sketch.moved(base) };
        Plan { tame, windows, free, used, scratch, code, at_the_top }
    }

    pub fn code_address(&self, draw: &mut Draw) -> u32 {
        self.code.address(draw)
    }

    /// One of the windows that are not empty.
    pub fn window(&self, draw: &mut Draw) -> Extent {
        let [first, second] = self.windows;
        if second.areas > 0 && draw.percent(50) {
            second
        } else {
            first
        }
    }

    /// An address at an end of a window: where an access may be in one window, in the other, in neither or across.
    pub fn border(&self, draw: &mut Draw) -> u32 {
        let window = self.window(draw);
        let border = draw.pick(&[window.base, window.end()]);
        border.wrapping_sub(draw.pick(&[0, 1, 2, 2, 2, 2, 4, 8]))
    }

    /// An address for data: mostly in an area on no list.
    pub fn data_address(&self, draw: &mut Draw) -> u32 {
        let window = self.window(draw);
        match draw.below(20) {
            0 if !self.tame => window.base + draw.below(window.length() + 8),
            1 => self.border(draw),
            2 => draw.edge(),
            _ if self.scratch.is_empty() => draw.word(),
            _ => draw.pick(&self.scratch) + draw.pick(&[0, 0, 0, 4, 8, 2, 1]),
        }
    }

    /// A link as it comes up in a damaged list: of any area, or of the one past a window's end.
    pub fn stray_link(&self, draw: &mut Draw) -> u32 {
        let window = self.window(draw);
        match draw.below(6) {
            0 => 0,
            1 => draw.word(),
            _ => link_of(window.base.wrapping_add(64 * draw.below(window.areas + 1))),
        }
    }
}
