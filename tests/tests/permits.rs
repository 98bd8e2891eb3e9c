//! The permitting ranges in a step's answer: the lowest of set PRS, 4 + k in bits 26:24 for the fetch and in 29:27 for the data access.

use deqbaryn_tests::model::core::Range;
use deqbaryn_tests::model::image::SHORT;
use deqbaryn_tests::model::operations::Operation::{self, *};
use deqbaryn_tests::worked::{record, Worked, BASE, LOAD};

const READ: u32 = 0x40;
const WRITE: u32 = 0x80;
const EXECUTE: u32 = 0x80;

/// Everything, with the mode.
fn all(mode: u32) -> Range {
    Range { lower: 0, upper: 0xFFFF_FFFF, mode }
}

/// An access at BASE + 0x100 with protection on, in a set of which these data and code ranges permit everything; those of the other sets all do.
fn chosen(op: Operation, set: usize, data: u32, code: u32) -> Worked {
    let mut w = Worked::new(&[record(op, 2, 3, 0, 0x100)]);
    w.core.a[3] = BASE;
    w.core.syscon = 2;
    w.core.psw = 0xB80 | (set as u32) << 12;
    w.core.ranges = [all(READ | WRITE); 32];
    for k in 0..4 {
        let right = if op == StW { WRITE } else { READ };
        w.core.ranges[8 * set + k].mode = if data >> k & 1 != 0 { right } else { right ^ (READ | WRITE) };
        w.core.ranges[8 * set + 4 + k].mode = if code >> k & 1 != 0 { EXECUTE } else { READ };
    }
    w
}

/// The same in the short form.
fn short(mut w: Worked) -> Worked {
    w.image[16] |= SHORT;
    w
}

/// The number that the answer has for a choice of ranges.
fn lowest(choice: u32) -> u64 {
    if choice == 0 {
        0
    } else {
        4 + choice.trailing_zeros() as u64
    }
}

/// The answer's kind, and the fetch's and the data access's ranges. Bits 31:30 are 0.
fn named(w: &mut Worked) -> (u8, u64, u64) {
    let answer = w.step();
    assert_eq!(answer >> 30 & 3, 0);
    (answer as u8, answer >> 24 & 7, answer >> 27 & 7)
}

#[test]
fn of_every_choice_the_lowest() {
    for op in [LdW, StW] {
        for set in 0..4 {
            for choice in 0..256 {
                let (data, code) = (choice & 15, choice >> 4);
                let long = chosen(op, set, data, code);
                for mut w in [short(long.clone()), long] {
                    let (kind, fetch, access) = named(&mut w);
                    assert_eq!(kind, if data == 0 || code == 0 { 2 } else { 0 });
                    assert_eq!(fetch, lowest(code));
                    // where the fetch traps there is no access
                    assert_eq!(access, if code == 0 { 0 } else { lowest(data) });
                }
            }
        }
    }
}

#[test]
fn a_range_that_ends_before_the_access_does_not_permit_it() {
    let mut w = chosen(LdW, 0, 15, 15);
    w.core.ranges[0] = Range { lower: BASE, upper: BASE + 0x100, mode: READ };
    w.core.ranges[1] = Range { lower: BASE + 0x101, upper: BASE + 0x200, mode: READ };
    w.core.ranges[2] = Range { lower: BASE + 0x100, upper: BASE + 0x101, mode: READ };
    w.core.ranges[4] = Range { lower: LOAD + 1, upper: LOAD + 4, mode: EXECUTE };
    assert_eq!(named(&mut w), (0, 5, 6));
}

#[test]
fn none_where_none_is_asked() {
    // protection off
    let mut w = chosen(LdW, 0, 15, 15);
    w.core.syscon = 0;
    assert_eq!(named(&mut w), (0, 0, 0));
    // segments E and F skip the ranges
    let mut w = chosen(LdW, 0, 15, 15);
    w.core.a[3] = 0xE000_0000;
    assert_eq!(named(&mut w), (2, 4, 0));
    w.core.pc = 0xE000_0000;
    assert_eq!(named(&mut w), (2, 0, 0));
    // no access, and an interrupt in place of the instruction
    let mut w = chosen(Nop, 0, 15, 15);
    assert_eq!(named(&mut w.clone()), (0, 4, 0));
    w.core.icr = 0x100;
    w.core.requests[3] = 0x601;
    assert_eq!(named(&mut w), (1, 0, 0));
}

#[test]
fn told_of_traps_that_follow() {
    // no record at PC
    let mut w = chosen(LdW, 0, 12, 8);
    w.core.pc = LOAD + 4;
    assert_eq!(named(&mut w), (2, 7, 0));
    // alignment, and no window
    for address in [BASE + 1, 0x1000_0000] {
        let mut w = chosen(LdW, 0, 12, 8);
        w.core.a[3] = address;
        assert_eq!(named(&mut w), (2, 7, 6));
    }
    // a global address register
    let mut w = Worked::new(&[record(LdA, 0, 3, 0, 0)]);
    w.core = chosen(LdA, 0, 12, 8).core;
    w.core.psw &= !0x100;
    assert_eq!(named(&mut w), (2, 7, 6));
}

#[test]
fn told_of_a_step_that_stops() {
    for (op, number, fcx) in [(Svlcx, 11, 0), (Call, 11, 0), (Svlcx, 12, 0xE_0000), (Bisr, 12, 0xD_1000)] {
        for mut w in [chosen(op, 0, 15, 12), short(chosen(op, 0, 15, 12))] {
            w.core.fcx = fcx;
            assert_eq!(w.step(), 3 | number << 8 | 6 << 24);
        }
    }
    // an interrupt that stops was asked no range
    let mut w = chosen(Nop, 0, 15, 12);
    w.core.icr = 0x100;
    w.core.requests[3] = 0x601;
    w.core.fcx = 0;
    assert_eq!(w.step(), 3 | 11 << 8);
}

#[test]
fn a_refusal_and_a_run_name_none() {
    let mut w = chosen(LdW, 0, 15, 15);
    assert_eq!(w.clone().run(1), 1 << 32);
    w.core.pc += 1;
    assert_eq!(w.step(), 4 | 4 << 8);
}
