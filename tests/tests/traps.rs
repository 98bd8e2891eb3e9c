//! The traps of classes 2 to 6.

use deqbaryn_tests::model::image::{build, Body};
use deqbaryn_tests::model::operations::Operation::{self, *};
use deqbaryn_tests::worked::{plain, record, Worked, BASE, LOAD};

fn one(op: Operation, c: u8, a: u8, b: u8, imm: u32) -> Worked {
    Worked::new(&[record(op, c, a, b, imm)])
}

fn plain_nop() -> Worked {
    Worked::new(&[plain(Nop)])
}

#[test]
fn alignment() {
    for (op, align) in
        [(LdB, 1), (LdBu, 1), (LdH, 2), (LdHu, 2), (LdW, 2), (LdA, 4), (StB, 1), (StH, 2), (StW, 2), (StA, 4)]
    {
        for low in 0..4 {
            let mut w = one(op, 2, 3, 0, low);
            w.core.a[3] = BASE + 0x100;
            if low % align == 0 {
                w.done();
            } else {
                w.trapped(2, 4);
            }
        }
    }
}

#[test]
fn free_list_depleted() {
    let mut w = one(Svlcx, 0, 0, 0, 0);
    w.core.lcx = 0xABCD_0000;
    w.trapped_with(3, 1, LOAD + 4);
}

#[test]
fn call_depth() {
    let calls = |op, psw: u32| {
        let mut w = one(op, 0, 3, 0, 8);
        w.core.psw = 0xB00 | psw;
        w
    };
    for op in [Call, Calli] {
        for full in [0xBF, 0xDF, 0xEF, 0xF7, 0xFB, 0xFD, 0xFE] {
            calls(op, full).trapped(3, 2);
        }
        for room in [0x80, 0xBE, 0xC0, 0xFC, 0xFF, 0x3F, 0x7E, 0x7F] {
            calls(op, room).done();
        }
    }
    let returns = |op, psw: u32| {
        let mut w = one(op, 0, 0, 0, 0);
        w.core.psw = 0xB00 | psw;
        w.core.pcxi = 0x004D_0020;
        w
    };
    for empty in [0x80, 0xC0, 0xE0, 0xF0, 0xF8, 0xFC, 0xFE] {
        returns(Ret, empty).trapped(3, 3);
        returns(Rfe, empty).done();
    }
    for counted in [0x81, 0xBF, 0xC1, 0xFD] {
        returns(Ret, counted).done();
        returns(Rfe, counted).trapped(3, 7);
    }
    for off in [0x00, 0x01, 0x3F, 0x7E, 0x7F, 0xFF] {
        returns(Ret, off).done();
        returns(Rfe, off).done();
    }
}

#[test]
fn returns_without_an_area_or_of_the_other_half() {
    for (op, right, wrong) in [(Ret, 1 << 22, 0), (Rfe, 1 << 22, 0), (Rslcx, 0, 1 << 22)] {
        let mut w = one(op, 0, 0, 0, 0);
        w.core.psw = 0xBFF;
        w.core.pcxi = 0xFFB0_0000 | wrong;
        w.clone().trapped(3, 5);
        w.core.pcxi = 0xD_0020 | wrong;
        w.clone().trapped(3, 6);
        w.core.pcxi = 0xD_0020 | right;
        w.done();
    }
    // RET: 3/3 first; RFE: 3/7 last
    let mut w = one(Ret, 0, 0, 0, 0);
    w.trapped(3, 3);
    let mut w = one(Rfe, 0, 0, 0, 0);
    w.core.psw = 0xB81;
    w.clone().trapped(3, 5);
    w.core.pcxi = 0xD_0020;
    w.trapped(3, 6);
}

#[test]
fn no_record_at_pc() {
    for pc in [LOAD - 4, LOAD + 2, LOAD + 4, 0, 0xFFFF_FFFE] {
        let mut w = plain_nop();
        w.core.pc = pc;
        w.trapped(4, 1);
    }
}

#[test]
fn data_not_wholly_in_the_window() {
    for (address, done) in
        [(BASE - 2, false), (BASE, true), (BASE + 4092, true), (BASE + 4094, false), (BASE + 4096, false), (0, false)]
    {
        for op in [LdW, StW] {
            let mut w = one(op, 2, 3, 0, 0);
            w.core.a[3] = address;
            if done {
                w.done();
            } else {
                w.trapped(4, 2);
            }
        }
    }
}

#[test]
fn assertions_and_system_calls() {
    for (op, bit, tin) in [(Trapv, 30, 1), (Trapsv, 29, 2)] {
        let mut w = one(op, 0, 0, 0, 0);
        w.core.psw |= !(1 << bit) & 0xF800_0000;
        w.clone().done();
        w.core.psw |= 1 << bit;
        w.trapped_with(5, tin, LOAD + 4);
    }
    for tin in [0, 1, 127, 255] {
        one(Syscall, 0, 0, 0, 0xABCD_EF00 | tin).trapped_with(6, tin as u8, LOAD + 4);
    }
}

#[test]
fn next_addresses_are_modulo_2_to_the_32() {
    let mut w = plain_nop();
    w.image = build(&[Body { load: 0, records: vec![record(J, 0, 0, 0, 0xFFFF_FFFD)] }]);
    w.core.pc = 0;
    w.done();
    assert_eq!(w.core.pc, 0xFFFF_FFFC);
    w.trapped(4, 1);
}
