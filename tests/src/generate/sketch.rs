//! The code of a series before its operands are drawn: its bodies, and where each of their records begins.

use super::draw::Draw;
use crate::model::image::{Body, Record};
use crate::model::operations::Operation::{self, *};

/// What is to stand at a place.
#[derive(Debug, Clone, Copy)]
pub enum Part {
    Any,
    /// An integer operation, which never traps.
    Calm,
    Given(Record),
    /// A jump to any record of the body, and a call.
    Far,
    FarCall,
    /// A jump to the first record of all.
    Back,
    /// A return address there.
    Home,
}

/// A body: its parts, each short or long, and where they begin; the last address is the end.
#[derive(Debug, Clone)]
pub struct Outline {
    pub parts: Vec<(Part, bool)>,
    pub starts: Vec<u32>,
}

impl Outline {
    fn new(load: u32, parts: Vec<(Part, bool)>) -> Outline {
        let nop = |(_, short): &(Part, bool)| if *short { Record::NOP.short() } else { Record::NOP };
        let starts = Body { load, records: parts.iter().map(nop).collect() }.addresses();
        Outline { parts, starts }
    }

    pub fn load(&self) -> u32 {
        self.starts[0]
    }

    pub fn end(&self) -> u32 {
        self.starts[self.parts.len()]
    }

    fn move_by(&mut self, distance: u32) {
        for start in &mut self.starts {
            *start = start.wrapping_add(distance);
        }
    }

    /// Lets it end at segment E, or by an odd number of short records two addresses before.
    fn move_to_the_top(&mut self) {
        self.move_by((0xE000_0000 - self.end()) & !3);
    }

    /// Where one of the first records begins.
    pub fn start(&self, draw: &mut Draw, first: usize) -> u32 {
        self.starts[draw.below(self.parts.len().min(first) as u32) as usize]
    }
}

/// How many records of a hundred are short.
#[derive(Debug, Clone, Copy)]
struct Share(u32);

impl Share {
    fn new(draw: &mut Draw) -> Share {
        Share(draw.pick(&[0, 100, 10, 25, 50, 50, 50, 75, 90, 95]))
    }

    fn short(self, draw: &mut Draw) -> bool {
        draw.percent(self.0)
    }

    /// Some parts, so that the next body can begin where this one ends, for the most part.
    fn outline(self, draw: &mut Draw, load: u32, parts: Vec<Part>) -> Outline {
        let mut parts: Vec<(Part, bool)> = parts.into_iter().map(|part| (part, self.short(draw))).collect();
        let odd = parts.iter().filter(|(_, short)| *short).count() % 2 == 1;
        let mixed = (1..100).contains(&self.0);
        if odd && mixed && draw.percent(80) {
            let last = parts.len() - 1;
            parts[last].1 ^= true;
        }
        Outline::new(load, parts)
    }

    /// Passes over an instruction that trapped, of the commoner length.
    fn skip(self, draw: &mut Draw) -> Part {
        let imm = if self.short(draw) { 2 } else { 4 };
        Part::Given(Record { op: AddA as u8, c: 11, a: 11, b: 16, imm })
    }
}

fn plain(op: Operation) -> Part {
    Part::Given(Record { op: op as u8, ..Record::NOP })
}

/// A place in main code; in long code jumps go far, and where it is calm little else happens.
fn main_part(draw: &mut Draw, long: bool, calm: bool) -> Part {
    match draw.below(100) {
        0..12 if long => Part::Far,
        12..14 if long && !calm => Part::FarCall,
        _ if calm => Part::Calm,
        _ => Part::Any,
    }
}

/// The main code: a body, or some of which each begins where the one before ends.
fn main_code(draw: &mut Draw, share: Share, long: bool) -> Vec<Outline> {
    let count = if long { draw.within(200, 700) } else { draw.within(8, 40) };
    let bodies = if long { draw.pick(&[1, 1, 1, 2]) } else { draw.pick(&[1, 1, 1, 2, 2, 3, 4, 12]).min(count / 4) };
    let calm = long && draw.percent(60);
    let mut outlines: Vec<Outline> = Vec::new();
    for k in 0..bodies {
        let own = count * (k + 1) / bodies - count * k / bodies;
        let mut parts: Vec<Part> = (0..own).map(|_| main_part(draw, long, calm)).collect();
        if k + 1 == bodies {
            *parts.last_mut().unwrap() = Part::Back;
        }
        let load = outlines.last().map_or(0, |outline| outline.end().next_multiple_of(4));
        outlines.push(share.outline(draw, load, parts));
    }
    outlines
}

/// A handler for each class and each priority number up to 7, each of 32 addresses.
fn vectors(draw: &mut Draw, share: Share, load: u32) -> Outline {
    let mut parts: Vec<(Part, bool)> = Vec::new();
    for slot in 0..8 {
        let mut handler = vec![Part::Any; draw.below(4) as usize];
        // after 4/1 the next address has no record either
        match slot {
            4 if draw.percent(90) => handler.push(Part::Home),
            _ if draw.percent(75) => handler.push(share.skip(draw)),
            _ => {}
        }
        handler.push(plain(if draw.percent(90) { Rfe } else { Ret }));
        let mut left = 32;
        for part in handler.into_iter().chain(std::iter::repeat(Part::Given(Record::NOP))) {
            let short = left == 2 || share.short(draw);
            parts.push((part, short));
            left -= if short { 2 } else { 4 };
            if left == 0 {
                break;
            }
        }
    }
    Outline::new(load, parts)
}

/// Short routines that end in RET, some with the lower half saved around them.
fn routines(draw: &mut Draw, share: Share, load: u32) -> Outline {
    let mut parts = Vec::new();
    for _ in 0..6 {
        let lower = draw.percent(40);
        if lower {
            parts.push(plain(Svlcx));
        }
        parts.extend(vec![Part::Any; draw.below(5) as usize]);
        if lower {
            parts.push(plain(Rslcx));
        }
        parts.push(plain(Ret));
    }
    if draw.percent(10) {
        parts.resize(64, Part::Given(Record::NOP));
    }
    share.outline(draw, load, parts)
}

#[derive(Debug, Clone)]
pub struct Sketch {
    /// Whether the main code has several hundred records.
    pub long: bool,
    pub main: Vec<Outline>,
    pub vectors: Outline,
    pub routines: Outline,
    pub extra: Option<Outline>,
}

impl Sketch {
    /// Bodies from address 0 on.
    pub fn new(draw: &mut Draw, long: bool) -> Sketch {
        let share = Share::new(draw);
        let main = main_code(draw, share, long);
        let vectors = vectors(draw, share, main.last().unwrap().end().next_multiple_of(0x100));
        let routines = routines(draw, share, vectors.end());
        let gap = draw.pick(&[0, 0, 4, 0x100]);
        let parts = vec![Part::Any; draw.within(1, 40) as usize];
        let extra = Some(share.outline(draw, (routines.end() + gap).next_multiple_of(4), parts));
        Sketch { long, main, vectors, routines, extra }
    }

    pub fn bodies(&self) -> impl Iterator<Item = &Outline> {
        self.main.iter().chain([&self.vectors, &self.routines]).chain(&self.extra)
    }

    fn bodies_mut(&mut self) -> impl Iterator<Item = &mut Outline> {
        self.main.iter_mut().chain([&mut self.vectors, &mut self.routines]).chain(&mut self.extra)
    }

    /// The same at another address; it is a multiple of 256, so that the vectors' stay one.
    pub fn moved(mut self, base: u32) -> Sketch {
        self.bodies_mut().for_each(|outline| outline.move_by(base));
        self
    }

    /// The same below segment E, its last body at the very top.
    pub fn at_the_top(mut self, draw: &mut Draw) -> Sketch {
        if draw.percent(50) {
            self.extra = None;
        }
        let base = (0xE000_0000 - self.end()) & !0xFF;
        let mut moved = self.moved(base);
        moved.bodies_mut().last().unwrap().move_to_the_top();
        moved
    }

    pub fn load(&self) -> u32 {
        self.main[0].load()
    }

    pub fn end(&self) -> u32 {
        self.bodies().last().unwrap().end()
    }

    /// An address for a jump: mostly of a record, sometimes within a long one or past a body.
    pub fn address(&self, draw: &mut Draw) -> u32 {
        let outline = match (draw.below(9), &self.extra) {
            (0..4, _) => &self.main[draw.below(self.main.len() as u32) as usize],
            (4..6, _) => &self.vectors,
            (8, Some(extra)) => extra,
            _ => &self.routines,
        };
        let start = outline.start(draw, usize::MAX);
        match draw.below(40) {
            0 => start + draw.below(4),
            1 => draw.edge(),
            2 => draw.word() | 0xE000_0000,
            3 => outline.end(),
            4 | 5 => start + 2,
            _ => start,
        }
    }

    /// Where a call goes: mostly to a routine, from long code also within it.
    pub fn routine(&self, draw: &mut Draw) -> u32 {
        match draw.below(20) {
            0..3 => self.address(draw),
            3..10 if self.long => self.main[0].start(draw, usize::MAX),
            _ => self.routines.start(draw, 24),
        }
    }
}
