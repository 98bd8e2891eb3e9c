//! What the benchmark runs: images that never trap or stop, each with its registers.

use crate::generate::draw::Draw;
use crate::lengths;
use crate::model::core::{Core, Range};
use crate::model::image::{bodies, build, Record};
use crate::model::operations::Operation::{self, *};
use crate::model::windows::Window;
use crate::worked::{areas, record, Worked, BASE, LOAD};

const INTEGERS: [Operation; 20] =
    [Add, Sub, Rsub, Addx, Addc, Subc, Adds, SubsU, Mul, And, Xor, Andn, Sh, Sha, Min, MaxU, Absdif, Lt, Clz, Mov];
const ACCESSES: [Operation; 10] = [LdB, LdBu, LdH, LdHu, LdW, LdA, StB, StH, StW, StA];

/// Where the second window lies, in the rows that have one.
const SECOND: u32 = 0xC000_0000;

/// Data is reached through A2, which points past the areas that calls use.
fn worked(records: &[Record]) -> Worked {
    let mut w = Worked::new(records);
    for n in 0..16 {
        w.core.d[n] = 0x9E37_79B9u32.wrapping_mul(n as u32 + 1);
    }
    w.core.a[2] = BASE + 2048;
    w
}

/// A jump from the last record to the first.
fn endless(mut records: Vec<Record>) -> Vec<Record> {
    records.push(record(J, 0, 0, 0, (4 * records.len() as u32).wrapping_neg()));
    records
}

pub fn integer() -> Worked {
    integer_after(0)
}

/// The integer loop after so many records that are passed over.
pub fn integer_after(before: usize) -> Worked {
    let mut records = vec![Record::NOP; before];
    records.extend([
        record(Add, 1, 1, 2, 0),
        record(Xor, 3, 1, 16, 0x5A5A_A5A5),
        record(Sha, 4, 3, 16, 0xFFFF_FFFD),
        record(Mul, 5, 4, 1, 0),
        record(Subs, 6, 5, 2, 0),
        record(Max, 7, 6, 3, 0),
        record(Addc, 2, 7, 4, 0),
        record(Loop, 0, 3, 0, 28u32.wrapping_neg()),
        record(J, 0, 0, 0, 32u32.wrapping_neg()),
    ]);
    let mut w = worked(&records);
    w.core.a[3] = 0xFFFF_FFFF;
    w.core.pc += 4 * before as u32;
    w
}

pub fn loads_and_stores() -> Worked {
    worked(&endless(vec![
        record(LdW, 1, 2, 0, 0),
        record(Add, 1, 1, 16, 1),
        record(StW, 1, 2, 0, 4),
        record(LdBu, 3, 2, 0, 5),
        record(StB, 3, 2, 0, 9),
        record(LdH, 4, 2, 0, 4),
        record(StH, 4, 2, 0, 14),
        record(StA, 2, 2, 0, 16),
        record(LdA, 4, 2, 0, 16),
    ]))
}

pub fn calls() -> Worked {
    worked(&[
        record(Call, 0, 0, 0, 12),
        record(Add, 1, 1, 16, 1),
        record(J, 0, 0, 0, 8u32.wrapping_neg()),
        record(Svlcx, 0, 0, 0, 0),
        record(Add, 8, 8, 16, 1),
        record(Rslcx, 0, 0, 0, 0),
        record(Ret, 0, 0, 0, 0),
    ])
}

/// A workload with a second window, which has its data and its areas.
pub fn in_second_window(mut w: Worked) -> Worked {
    w.windows.second = Window { base: SECOND, bytes: vec![0; 4096] };
    w.core.a[2] = SECOND + 2048;
    w.core.fcx = w.chain(&areas(SECOND, 32));
    w
}

/// Integer operations, accesses, short jumps and calls of a routine at the end.
pub fn mix(seed: u64) -> Worked {
    const LENGTH: u32 = 200;
    let draw = &mut Draw::new(seed);
    let mut records: Vec<Record> = (0..LENGTH)
        .map(|k| {
            let [c, a, b] = [15, 15, 16].map(|most| draw.within(0, most) as u8);
            match draw.below(20) {
                0..10 => record(draw.pick(&INTEGERS), c, a, b, draw.edge()),
                10..14 => record(draw.pick(&ACCESSES), c.clamp(3, 10), 2, 0, 4 * draw.below(64)),
                14..18 => record(draw.pick(&[Jeq, Jne, Jlt, JgeU]), 0, a, b.min(15), 4 * draw.within(1, 3)),
                _ => record(Call, 0, 0, 0, 4 * (LENGTH + 3 - k)),
            }
        })
        .collect();
    records.extend([record(Nop, 0, 0, 0, 0); 2]);
    let mut records = endless(records);
    records.extend([record(Add, 9, 8, 9, 0), record(Ret, 0, 0, 0, 0)]);
    worked(&records)
}

/// So many integer operations, a few of them in turn, then the first one again: what is measured is how they are come by.
pub fn straight(count: usize) -> Worked {
    let turn = [record(Add, 1, 1, 16, 1), record(Xor, 3, 1, 4, 0), record(Or, 5, 3, 6, 0), record(Mov, 7, 0, 5, 0)];
    worked(&endless(turn.into_iter().cycle().take(count).collect()))
}

/// A displacement over so many records.
fn over(records: usize) -> u32 {
    4 * records as u32
}

/// Two instructions and a jump over so many records, and from there the same back.
pub fn jumps(apart: usize) -> Worked {
    let way = [record(Add, 1, 1, 16, 1), record(Xor, 3, 1, 4, 0)];
    let mut records = way.to_vec();
    records.push(record(J, 0, 0, 0, over(1 + apart)));
    records.resize(3 + apart, Record::NOP);
    records.extend(way);
    worked(&endless(records))
}

/// Calls of a routine so many records away.
pub fn far_calls(apart: usize) -> Worked {
    let mut records = endless(vec![record(Call, 0, 0, 0, over(3 + apart)), record(Add, 1, 1, 16, 1)]);
    records.resize(3 + apart, Record::NOP);
    records.extend([record(Add, 8, 8, 16, 1), record(Ret, 0, 0, 0, 0)]);
    worked(&records)
}

/// The same with half of its records short, PC at the record that it was at.
pub fn half_short(mut w: Worked) -> Worked {
    let before = &bodies(&w.image)[0];
    let after = lengths::half_short(before);
    let place = before.addresses().binary_search(&w.core.pc).expect("PC at a record");
    w.core.pc = after.addresses()[place];
    w.image = build(&[after]);
    w
}

/// The same with protection on, in the last range of each kind.
pub fn protected(mut w: Worked) -> Worked {
    let Core { syscon, ranges, .. } = &mut w.core;
    *syscon = 2;
    ranges[3] = Range { lower: BASE, upper: BASE + 4096, mode: 0xC0 };
    ranges[7] = Range { lower: LOAD, upper: LOAD + 4096, mode: 0x80 };
    w
}
