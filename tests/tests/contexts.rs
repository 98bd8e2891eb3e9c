//! Saves and returns: the points that are easily got wrong.

use deqbaryn_tests::model::operations::Operation::{self, *};
use deqbaryn_tests::worked::{plain, record, Worked, BASE, LOAD};

const FREE_0: u32 = BASE;
const FREE_1: u32 = BASE + 64;

fn one(op: Operation, imm: u32) -> Worked {
    Worked::numbered(&[record(op, 0, 0, 0, imm)])
}

#[test]
fn a_call_saves_what_was_before() {
    let mut w = one(Call, 0x101);
    let before = w.upper();
    w.done();
    assert_eq!(w.area(FREE_0), before);
    assert_eq!((w.core.psw, w.core.a[11], w.core.pc), (0xB86, LOAD + 4, LOAD + 0x100));
    assert_eq!((w.core.fcx, w.core.pcxi), (0xD_0001, 0x07CD_0000));
    assert_eq!(w.core.icr, 0x107);
}

#[test]
fn a_call_through_a11_goes_where_it_pointed_before() {
    let mut w = Worked::numbered(&[record(Calli, 0, 11, 0, 0)]);
    w.done();
    assert_eq!((w.core.pc, w.core.a[11]), (0xAA0A, LOAD + 4));
}

#[test]
fn a_call_without_cde_counts_nothing_and_sets_it() {
    let mut w = one(Call, 8);
    w.core.psw = 0xB05;
    w.done();
    assert_eq!((w.word(FREE_0 + 4), w.core.psw), (0xB05, 0xB85));
}

#[test]
fn lower_saves_hold_the_next_address() {
    let mut w = one(Svlcx, 0);
    let before = w.lower();
    w.done();
    assert_eq!(w.area(FREE_0), before);
    assert_eq!((w.core.pcxi, w.core.pc, w.core.icr), (0x078D_0000, LOAD + 4, 0x107));
    let mut w = one(Bisr, 0xABCD_EF09);
    w.core.icr = 0xFEDC_0007;
    let before = w.lower();
    w.done();
    assert_eq!(w.area(FREE_0), before);
    assert_eq!((w.core.pcxi, w.core.icr), (0x070D_0000, 0xFEDC_0109));
}

#[test]
fn returns_undo_saves() {
    let mut w = Worked::numbered(&[record(Call, 0, 0, 0, 8), plain(Rslcx), plain(Svlcx), plain(Ret)]);
    let before = w.clone();
    w.done();
    w.done();
    w.core.d = [9; 16];
    w.core.a[2..8].fill(9);
    w.core.pc = LOAD + 4;
    // an odd word in FCX's upper bits comes back in the area's first word
    w.core.fcx |= 0x1230_0000;
    w.done();
    assert_eq!((w.core.fcx, w.word(FREE_1), w.core.pcxi), (0xD_0001, 0x123D_0002, 0x07CD_0000));
    assert_eq!((w.core.pc, &w.core.d[..8]), (LOAD + 8, &before.core.d[..8]));
    w.core.pc = LOAD + 12;
    w.core.a[11] = LOAD + 5;
    w.core.icr = 0x55;
    w.done();
    assert_eq!((w.core.pc, w.core.icr), (LOAD + 4, 0x55));
    assert_eq!(w.upper(), before.upper());
}

#[test]
fn rfe_takes_ie_and_ccpn_from_before_the_load() {
    for (pie, ie) in [(0, 0), (1 << 23, 0x100)] {
        let mut w = one(Rfe, 0);
        w.core.psw = 0xBFF;
        w.core.icr = 0xABCD_0122;
        w.core.pcxi = 0x334D_0020 | pie;
        w.put(BASE + 64 * 0x20, 0x44CD_0021);
        w.done();
        assert_eq!((w.core.icr, w.core.pcxi), (0xABCD_0033 | ie, 0x44CD_0021));
    }
}

#[test]
fn returns_from_outside_stop() {
    for (op, ul) in [(Ret, 1 << 22), (Rfe, 1 << 22), (Rslcx, 0)] {
        let mut w = one(op, 0);
        w.core.psw = 0xBFF;
        w.core.pcxi = 0xD_0040 | ul;
        w.stopped(12);
    }
}

#[test]
fn saves_and_returns_are_not_checked_by_ranges() {
    let mut w = Worked::numbered(&[record(Call, 0, 0, 0, 4), plain(Ret)]);
    w.core.syscon = 2;
    w.core.ranges[4].lower = LOAD;
    w.core.ranges[4].upper = LOAD + 8;
    w.core.ranges[4].mode = 0x80;
    w.done();
    w.done();
}
