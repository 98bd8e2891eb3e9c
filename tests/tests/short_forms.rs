//! Steps and runs of short forms: the same as the long ones, but for the addresses after them.

use deqbaryn_tests::model::core::{Core, Range};
use deqbaryn_tests::model::image::Record;
use deqbaryn_tests::model::operations::Operation::{self, *};
use deqbaryn_tests::worked::{plain, record, Worked, BASE, BTV, LOAD};

/// Both forms of a record, with their lengths.
fn forms(record: Record) -> [(Record, u32); 2] {
    [(record, 4), (record.short(), 2)]
}

/// A record at LOAD in both forms, with another number in every register.
fn both(record: Record) -> [(Worked, u32); 2] {
    forms(record).map(|(record, length)| (Worked::numbered(&[record]), length))
}

/// Registers with which no operation traps but SYSCALL.
fn quiet(record: Record) -> Worked {
    let mut w = Worked::numbered(&[record]);
    w.core.psw = 0xBFF;
    w.core.a[3] = BASE + 0x800;
    w.core.pcxi = 0xD_0030 | if record.op & 127 == Rslcx as u8 { 0 } else { 1 << 22 };
    w
}

/// What each operation does does not depend on its length; a next address lies after it.
#[test]
fn every_operation_in_both_forms() {
    for op in Operation::ALL.into_iter().filter(|op| *op != Syscall) {
        for b in [4, if (Jeq as u8..=JgeU as u8).contains(&(op as u8)) { 5 } else { 16 }] {
            let one = record(op, 2, 3, b, 0x40);
            let [long, short] = [one, one.short()].map(|record| {
                let mut w = quiet(record);
                w.done();
                w
            });
            // what comes after the long form is two addresses further on
            let nearer = |address: u32| if address == LOAD + 4 { LOAD + 2 } else { address };
            let Core { pc, a, .. } = long.core;
            assert_eq!(short.core, Core { pc: nearer(pc), a: a.map(nearer), ..long.core }, "{op:?}");
            // the saved PC apart
            let mut windows = long.windows.clone();
            if matches!(op, Svlcx | Bisr) {
                windows.first.bytes[4] = 2;
            }
            assert!(windows == short.windows, "{op:?}");
        }
    }
}

#[test]
fn calls_hand_the_next_address_on_in_a11() {
    for op in [Call, Calli, Jl] {
        for (mut w, length) in both(record(op, 0, 7, 0, 0x41)) {
            w.core.a[7] = LOAD + 0x40;
            w.done();
            assert_eq!((w.core.pc, w.core.a[11]), (LOAD + 0x40, LOAD + length), "{op:?}");
        }
    }
    // CALLI through A11
    for (mut w, length) in both(record(Calli, 0, 11, 0, 0)) {
        w.done();
        assert_eq!((w.core.pc, w.core.a[11]), (0xAA0A, LOAD + length));
    }
}

#[test]
fn lower_saves_hold_the_next_address() {
    for op in [Svlcx, Bisr] {
        for (mut w, length) in both(plain(op)) {
            let before = w.lower();
            assert_eq!(before[1], LOAD + length);
            w.done();
            assert_eq!((w.area(BASE), w.core.pc), (before, LOAD + length), "{op:?}");
        }
    }
    // RSLCX passes the saved PC over
    for (mut w, length) in both(plain(Rslcx)) {
        w.core.pcxi = 0xD_0030;
        w.done();
        assert_eq!(w.core.pc, LOAD + length);
    }
}

#[test]
fn traps_that_go_on_have_the_next_address_in_a11() {
    for (op, class, tin) in [(Syscall, 6, 0x2A), (Trapv, 5, 1), (Trapsv, 5, 2)] {
        for (mut w, length) in both(record(op, 0, 0, 0, 0x12A)) {
            w.core.psw |= 0x6000_0000;
            w.trapped_with(class, tin, LOAD + length);
        }
    }
    // without V and SV they are passed over
    for (mut w, length) in [Trapv, Trapsv].into_iter().flat_map(|op| both(plain(op))) {
        w.done();
        assert_eq!(w.core.pc, LOAD + length);
    }
}

#[test]
fn other_traps_have_the_instruction_in_a11() {
    for (one, class, tin) in [
        (plain(Bisr), 1, 1),
        (plain(Enable), 1, 1),
        (record(MovA, 0, 0, 0, 0), 1, 7),
        (record(LdW, 1, 2, 0, 1), 2, 4),
        (plain(Ret), 3, 3),
        (plain(Rfe), 3, 5),
        (record(StW, 1, 2, 0, 0x1000), 4, 2),
    ] {
        for (mut w, _) in both(one) {
            (w.core.psw, w.core.pcxi, w.core.a[2]) = (0x280, 0, BASE);
            w.trapped(class, tin);
        }
    }
    for (mut w, _) in both(plain(Nop)) {
        w.core.requests[4] = 0x6FF;
        assert_eq!(w.step(), 0x0401);
        assert_eq!(w.core.a[11], LOAD);
    }
}

/// In a run, before the instruction after the one that lets it.
#[test]
fn an_interrupt_has_the_instruction_in_a11() {
    for (enable, length) in forms(plain(Enable)) {
        for (add, before) in forms(record(Add, 1, 1, 16, 1)) {
            let mut w = Worked::new(&[add, enable, add, add]);
            w.core.requests[4] = 0x6FF;
            w.core.biv = BTV;
            assert_eq!(w.run(3), 3 << 32 | 0x0401);
            assert_eq!((w.core.a[11], w.core.d[1]), (LOAD + before + length, 1));
        }
    }
}

#[test]
fn an_fcd_entry_finds_the_next_address() {
    for (mut w, length) in both(plain(Svlcx)) {
        w.core.lcx = 0xD_0000;
        w.trapped_with(3, 1, LOAD + length);
        assert_eq!(w.word(BASE + 4), LOAD + length);
    }
    for (mut w, length) in both(record(Call, 0, 0, 0, 0x40)) {
        w.core.lcx = 0xD_0000;
        w.trapped_with(3, 1, LOAD + 0x40);
        assert_eq!(w.word(BASE + 64 + 12), LOAD + length);
    }
    for (mut w, length) in both(record(Syscall, 0, 0, 0, 9)) {
        w.core.lcx = 0xD_0000;
        w.trapped_with(3, 1, BTV + 0xC0);
        assert_eq!(w.word(BASE + 64 + 12), LOAD + length);
    }
}

#[test]
fn jumps_that_are_not_taken_and_loops_that_end() {
    let [less, equal, more] = [(0, 1), (1, 1), (1, 0)];
    for (op, passes, goes) in [
        (Jeq, less, equal),
        (Jne, equal, less),
        (Jlt, more, less),
        (JltU, equal, less),
        (Jge, less, more),
        (JgeU, less, equal),
    ] {
        for (mut w, length) in both(record(op, 0, 1, 2, 0x40)) {
            for ((x, y), next) in [(passes, LOAD + length), (goes, LOAD + 0x40)] {
                (w.core.pc, w.core.d[1], w.core.d[2]) = (LOAD, x, y);
                w.done();
                assert_eq!(w.core.pc, next, "{op:?} {x} {y}");
            }
        }
    }
    for (mut w, length) in both(record(Loop, 0, 3, 0, 0x40)) {
        w.core.a[3] = 1;
        w.done();
        assert_eq!((w.core.a[3], w.core.pc), (0, LOAD + 0x40));
        w.core.pc = LOAD;
        w.done();
        assert_eq!((w.core.a[3], w.core.pc), (0xFFFF_FFFF, LOAD + length));
    }
}

/// 4, 2, 4, 2, 2, 4: where the records begin.
const MIXED: [u32; 6] = [0, 4, 6, 10, 12, 14];

fn mixed() -> Worked {
    let add = record(Add, 1, 1, 16, 1);
    Worked::new(&[add, add.short(), add, add.short(), add.short(), add])
}

#[test]
fn no_record_begins_within_a_long_one() {
    for distance in (0..24).step_by(2) {
        let mut w = mixed();
        w.core.pc = LOAD + distance;
        let place = MIXED.iter().position(|at| *at == distance);
        for run in [false, true] {
            let mut w = w.clone();
            match place {
                Some(_) if run => assert_eq!(w.run(1), 1 << 32),
                Some(_) => w.done(),
                None if run => assert_eq!(w.run(1), 1 << 32 | 0x1_0402),
                None => w.trapped(4, 1),
            }
            let next = |k: usize| LOAD + MIXED.get(k + 1).copied().unwrap_or(18);
            assert_eq!(w.core.pc, place.map_or(BTV + 0x80, next), "{distance}");
            assert_eq!(w.core.a[11], if place.is_some() { 0 } else { LOAD + distance });
        }
    }
}

#[test]
fn a_jump_into_a_long_record() {
    // within the jump's own record, forward and back; bit 0 of the target is cleared
    for (at, imm, target) in [(0, 2, 2), (4, 4, 8), (4, 0xFFFF_FFFE, 2), (4, 0xFFFF_FFFF, 2), (10, 7, 16)] {
        let mut w = mixed();
        let k = MIXED.iter().position(|begins| *begins == at).unwrap();
        let op = w.image[16 + 8 * k] & 128 | J as u8;
        w.image[16 + 8 * k..24 + 8 * k].copy_from_slice(&Record { op, ..record(J, 0, 0, 0, imm) }.bytes());
        w.core.pc = LOAD + at;
        let mut run = w.clone();
        w.done();
        assert_eq!(w.core.pc, LOAD + target);
        w.trapped_with(4, 1, LOAD + target);
        assert_eq!(run.run(2), 2 << 32 | 0x1_0402);
        assert!(run.core == w.core && run.windows == w.windows);
    }
}

#[test]
fn a_code_range_permits_by_the_first_address() {
    for (lower, upper, ok) in [(4, 6, true), (4, 5, true), (5, 8, false), (0, 4, false), (6, 8, false)] {
        let mut w = mixed();
        w.core.pc = LOAD + 4;
        w.core.syscon = 2;
        w.core.ranges[5] = Range { lower: LOAD + lower, upper: LOAD + upper, mode: 0x80 };
        if ok {
            assert_eq!(w.step(), 5 << 24);
        } else {
            w.trapped(1, 4);
        }
    }
}
