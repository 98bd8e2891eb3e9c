//! The traps of class 1, and the order among several.

use deqbaryn_tests::model::core::Range;
use deqbaryn_tests::model::operations::Operation::{self, *};
use deqbaryn_tests::model::system::offset;
use deqbaryn_tests::worked::{plain, record, Worked, BASE, LOAD};

const USER_0: u32 = 0x380;
const USER_1: u32 = 0x780;

fn one(op: Operation, c: u8, a: u8, b: u8, imm: u32) -> Worked {
    Worked::new(&[record(op, c, a, b, imm)])
}

fn as_user(op: Operation, psw: u32) -> Worked {
    let mut w = one(op, 0, 0, 0, offset::ISP);
    w.core.psw = psw;
    w
}

/// Protection on, set 0: everything may be fetched, and the first data range is given.
fn protected(mut w: Worked, lower: u32, upper: u32, mode: u32) -> Worked {
    w.core.syscon = 2;
    w.core.ranges[4] = Range { lower: LOAD, upper: LOAD + 4, mode: 0x80 };
    w.core.ranges[0] = Range { lower, upper, mode };
    w
}

fn plain_nop() -> Worked {
    Worked::new(&[plain(Nop)])
}

#[test]
fn privilege() {
    for (op, psw, trapped) in [
        (Mtcr, USER_0, true),
        (Mtcr, USER_1, true),
        (Mtcr, 0xB80, false),
        (Mtcr, 0xF80, false),
        (Bisr, USER_0, true),
        (Bisr, USER_1, true),
        (Bisr, 0xB80, false),
        (Enable, USER_0, true),
        (Enable, USER_1, false),
        (Disable, USER_0, true),
        (Disable, USER_1, false),
        (Mfcr, USER_0, false),
    ] {
        let mut w = as_user(op, psw);
        if trapped {
            w.trapped(1, 1);
        } else {
            w.done();
        }
    }
}

#[test]
fn reads_and_writes_in_no_permitting_range() {
    for (op, mode, tin) in [(LdW, 0x80, 2), (LdA, 0x80, 2), (StW, 0x40, 3), (StA, 0x40, 3), (LdB, 0, 2), (StB, 0, 3)] {
        let mut w = protected(one(op, 2, 3, 0, 0x100), BASE, BASE + 4096, mode);
        w.core.a[3] = BASE;
        let mut permitted = w.clone();
        w.trapped(1, tin);
        permitted.core.ranges[3] = Range { lower: BASE + 0x100, upper: BASE + 0x101, mode: 0xC0 };
        permitted.done();
    }
}

#[test]
fn the_first_byte_alone_is_checked() {
    let mut w = protected(one(LdW, 2, 3, 0, 0), BASE + 0x100, BASE + 0x200, 0x40);
    for (address, trapped) in [(0xFE, true), (0x100, false), (0x1FE, false), (0x200, true)] {
        let mut w = w.clone();
        w.core.a[3] = BASE + address;
        if trapped {
            w.trapped(1, 2);
        } else {
            w.done();
        }
    }
    // another set's ranges permit nothing
    w.core.a[3] = BASE + 0x100;
    w.core.psw |= 1 << 12;
    w.core.ranges[12] = w.core.ranges[4];
    w.trapped(1, 2);
}

#[test]
fn fetches_in_no_permitting_range() {
    for psw in [USER_0, USER_1, 0xB80, 0xF80] {
        let mut w = protected(plain_nop(), 0, 0, 0);
        w.core.psw = psw;
        w.clone().done();
        w.core.ranges[4].mode = 0x7F;
        w.trapped(1, 4);
    }
}

#[test]
fn segments_e_and_f() {
    for syscon in [0, 2] {
        for segment in [0xE000_0000u32, 0xF000_0000] {
            let mut w = protected(one(LdW, 2, 3, 0, 0), 0, 0xFFFF_FFFF, 0xC0);
            w.core.syscon = syscon;
            w.core.a[3] = segment;
            let mut user = w.clone();
            user.core.psw = USER_0;
            user.trapped(1, 5);
            // past the ranges, and in no window
            w.core.ranges[0].mode = 0;
            w.trapped(4, 2);

            let mut w = plain_nop();
            w.core.syscon = syscon;
            w.core.pc = segment;
            w.clone().trapped(4, 1);
            w.core.psw = USER_0;
            w.trapped(1, 5);
        }
    }
}

#[test]
fn global_address_registers() {
    for n in 0..16u8 {
        for op in [MovA, MovAa, AddA, SubA, LdA, Loop] {
            let (c, a) = if op == Loop { (0, n) } else { (n, 3) };
            let mut w = one(op, c, a, 3, 0);
            w.core.a[3] = BASE;
            let mut owner = w.clone();
            owner.done();
            w.core.psw &= !0x100;
            if [0, 1, 8, 9].contains(&n) {
                w.trapped(1, 7);
            } else {
                w.done();
            }
        }
    }
}

#[test]
fn lowest_first() {
    // 1/2 before 1/7, 1/7 before 2/4, 2/4 before 4/2
    let mut w = protected(one(LdA, 0, 3, 0, 1), 0, 0, 0);
    w.core.psw &= !0x100;
    w.clone().trapped(1, 2);
    w.core.syscon = 0;
    w.clone().trapped(1, 7);
    w.core.psw |= 0x100;
    w.clone().trapped(2, 4);
    w.core.a[3] = 3;
    w.trapped(4, 2);
    // 1/5 before 1/7
    let mut w = one(LdA, 0, 3, 0, 0xF000_0001);
    w.core.psw = 0;
    w.trapped(1, 5);
    // the fetch's before the instruction's own
    let mut w = protected(one(Enable, 0, 0, 0, 0), 0, 0, 0);
    w.core.psw = 0;
    w.core.ranges[4].mode = 0;
    w.trapped(1, 4);
}
