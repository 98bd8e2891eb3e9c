//! Images: the operands of a sketch.

use super::draw::Draw;
use super::plan::Plan;
use super::sketch::{Outline, Part, Sketch};
use crate::lengths::is_relative;
use crate::model::image::{build, Body, Record, SHORT};
use crate::model::operations::Operation::{self, *};
use crate::model::system::offset;

const SATURATING: [Operation; 4] = [Adds, AddsU, Subs, SubsU];
const MEMORY: [Operation; 10] = [LdB, LdBu, LdH, LdHu, LdW, LdA, StB, StH, StW, StA];
const CONTEXTS: [Operation; 10] = [Call, Calli, Call, Ret, Rfe, Svlcx, Rslcx, Bisr, Syscall, Call];
const JUMPS: [Operation; 10] = [J, Jl, Ji, Jeq, Jne, Jlt, JltU, Jge, JgeU, Loop];
const SYSTEM: [Operation; 7] = [Enable, Disable, Mfcr, Mtcr, Trapv, Trapsv, Rstv];

fn operation(draw: &mut Draw) -> Operation {
    match draw.below(20) {
        0..7 => draw.pick(&Operation::ALL),
        7 => draw.pick(&SATURATING),
        8..11 => Operation::ALL[draw.within(1, 43) as usize],
        11..14 => draw.pick(&MEMORY),
        14..17 => draw.pick(&CONTEXTS),
        17..19 => draw.pick(&JUMPS),
        _ => draw.pick(&SYSTEM),
    }
}

fn displacement(draw: &mut Draw, plan: &Plan) -> u32 {
    match draw.below(24) {
        0 => draw.edge(),
        1 => draw.pick(&[0x1000_0000, 0x2000_0000, 0x3000_0000]),
        2 if !plan.tame => draw.below(8).wrapping_neg(),
        3 => draw.below(56),
        _ => 4 * draw.below(13),
    }
}

fn core_register(draw: &mut Draw, plan: &Plan, write: bool) -> u32 {
    let offset = match draw.below(20) {
        0 => draw.edge(),
        1 => 0xFE00 + 4 * draw.below(16),
        2 => draw.pick(&offset::ALL) ^ draw.pick(&[1, 0x1_0000, 0x8000_0000]),
        _ => draw.pick(&offset::ALL),
    };
    // a random PSW, vector or priority ends most series early
    let heads = [offset::FCX, offset::PCXI].contains(&offset);
    if write && (plan.tame && heads || draw.percent(60)) {
        offset::LCX
    } else {
        offset
    }
}

/// Where the operands are drawn from.
struct Pen<'a> {
    plan: &'a Plan,
    sketch: &'a Sketch,
}

impl Pen<'_> {
    /// A record of an operation at an address.
    fn record(&self, draw: &mut Draw, op: Operation, at: u32) -> Record {
        let Pen { plan, sketch } = self;
        let [c, mut a] = [draw.below(16) as u8, draw.below(16) as u8];
        let mut b = draw.below(17) as u8;
        let mut imm = draw.edge();
        match op {
            _ if MEMORY.contains(&op) => {
                imm = displacement(draw, plan);
                if draw.percent(85) {
                    a = draw.within(2, 10) as u8;
                }
            }
            Ji | Calli if draw.percent(85) => a = draw.within(11, 15) as u8,
            _ if is_relative(op) => {
                b = b.min(15);
                let target = if op == Call { sketch.routine(draw) } else { sketch.address(draw) };
                imm = target.wrapping_sub(at);
            }
            AddA | SubA if draw.percent(70) => {
                b = 16;
                imm = draw.pick(&[0, 2, 4, 4, 8]);
            }
            Adds | AddsU | Subs | SubsU if draw.percent(50) => {
                b = 16;
                imm = draw.pick(&[0x4000_0001, 0x7FFF_FFFF, 0x8000_0000, 0xC000_0000]);
            }
            Mfcr | Mtcr => imm = core_register(draw, plan, op == Mtcr),
            Bisr if draw.percent(80) => imm = draw.below(8),
            _ => {}
        }
        Record { op: op as u8, c, a, b, imm }
    }

    fn part(&self, draw: &mut Draw, outline: &Outline, part: Part, at: u32) -> Record {
        let main = self.sketch.load();
        let op = match part {
            Part::Any => operation(draw),
            Part::Calm => draw.pick(&Operation::ALL[Add as usize..=Mov as usize]),
            Part::Far => draw.pick(&[J, Jl, Jne, Jge, JltU, Loop]),
            Part::FarCall => Call,
            Part::Given(record) => return record,
            Part::Back => return Record { op: J as u8, imm: main.wrapping_sub(at), ..Record::NOP },
            Part::Home => return Record { op: MovA as u8, c: 11, a: 0, b: 16, imm: main },
        };
        let record = self.record(draw, op, at);
        match part {
            Part::Far | Part::FarCall => Record { imm: outline.start(draw, usize::MAX).wrapping_sub(at), ..record },
            _ => record,
        }
    }

    fn body(&self, draw: &mut Draw, outline: &Outline) -> Body {
        let mut records = Vec::new();
        for ((part, short), at) in outline.parts.iter().zip(&outline.starts) {
            let record = self.part(draw, outline, *part, *at);
            records.push(if *short { record.short() } else { record });
        }
        Body { load: outline.load(), records }
    }
}

/// A pointer to an end of a window, and an access through it.
fn border_access(draw: &mut Draw, plan: &Plan) -> [Record; 2] {
    let pointer = draw.within(2, 7) as u8;
    let op = draw.pick(&[LdB, LdBu, LdH, LdHu, LdW, LdW, LdA, StB, StH, StW, StW, StA]);
    let c = draw.below(16) as u8;
    [
        Record { op: MovA as u8, c: pointer, a: 0, b: 16, imm: plan.border(draw) },
        Record { op: op as u8, c, a: pointer, b: 0, imm: 0 },
    ]
}

/// Puts an access at an end of a window into a body, in the lengths that are there.
fn put_border_access(draw: &mut Draw, plan: &Plan, body: &mut Body) {
    if body.records.len() > 2 {
        let at = draw.below(body.records.len() as u32 - 2) as usize;
        for (place, record) in body.records[at..].iter_mut().zip(border_access(draw, plan)) {
            *place = Record { op: record.op | place.op & SHORT, ..record };
        }
    }
}

/// The bodies of a sketch, or the first of them.
pub fn bodies(draw: &mut Draw, plan: &Plan, sketch: &Sketch) -> Vec<Body> {
    let most = sketch.main.len() + draw.pick(&[0, 1, 2, 2, 2, 2, 2, 2, 3, 3]);
    let pen = Pen { plan, sketch };
    let mut bodies: Vec<Body> = sketch.bodies().take(most).map(|outline| pen.body(draw, outline)).collect();
    if draw.percent(40) {
        put_border_access(draw, plan, &mut bodies[0]);
    }
    bodies
}

/// An image of the plan's sketch, or of another one in its place.
pub fn image(draw: &mut Draw, plan: &Plan) -> Vec<u8> {
    if !plan.at_the_top && draw.percent(40) {
        let other = Sketch::new(draw, plan.code.long).moved(plan.code.load());
        return build(&bodies(draw, plan, &other));
    }
    build(&bodies(draw, plan, &plan.code))
}
