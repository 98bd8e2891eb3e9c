//! The remaining points of the step, the run, and the bench values.

use deqbaryn_tests::host;
use deqbaryn_tests::model::core::RECORD;
use deqbaryn_tests::model::operations::Operation::{self, *};
use deqbaryn_tests::model::system::offset;
use deqbaryn_tests::model::windows::Windows;
use deqbaryn_tests::model::{integer, machine};
use deqbaryn_tests::worked::{plain, record, Worked, BASE, LOAD};

#[test]
fn bench_values() {
    let psw = 0;
    let word = |op, x, y| integer::compute(op, x, y, psw).0;
    let flags = |op, x, y| integer::compute(op, x, y, psw).1 >> 27;
    assert_eq!((word(Add, 0x7FFF_FFFF, 1), flags(Add, 0x7FFF_FFFF, 1)), (0x8000_0000, 0b01111));
    assert_eq!((word(Adds, 1 << 31, 1 << 31), flags(Adds, 1 << 31, 1 << 31)), (1 << 31, 0b01100));
    assert_eq!((word(Sha, 1 << 31, 33), flags(Sha, 1 << 31, 33)), (0xFFFF_FFFF, 0));
    assert_eq!(word(Sh, 0xFFFF_FFFF, 32), 0);
    assert_eq!((word(Abs, 1 << 31, 0), flags(Abs, 1 << 31, 0)), (1 << 31, 0b01111));
    assert_eq!((word(Mul, 0x1_0000, 0x1_0000), flags(Mul, 0x1_0000, 0x1_0000)), (0, 0b01100));
    assert_eq!((word(Cls, 0, 0), word(Clz, 0, 0)), (31, 32));
    assert_eq!((word(Lt, 0xFFFF_FFFF, 0), word(LtU, 0xFFFF_FFFF, 0)), (1, 0));
}

#[test]
fn core_registers() {
    for (k, at) in offset::ALL.into_iter().enumerate() {
        let mut w = Worked::new(&[record(Mtcr, 0, 5, 0, at), record(Mfcr, 6, 0, 0, at)]);
        // with Supervisor in PSW, and protection off in SYSCON
        w.core.d[5] = 0xFFFF_FB00 + 4 * k as u32;
        w.done();
        w.done();
        assert_eq!(w.core.d[6], if at == offset::PC { LOAD + 4 } else { w.core.d[5] }, "{at:X}");
        assert_eq!(w.core.pc, LOAD + 8);
    }
    for at in [0, 0xFE0C, 0xFE10, 0xFE30, 0xFE40, 0xFE01, 0x1_FE00, 0xFFFF_FE04] {
        let mut w = Worked::new(&[record(Mtcr, 0, 5, 0, at), record(Mfcr, 6, 0, 0, at)]);
        (w.core.d[5], w.core.d[6]) = (7, 8);
        let mut before = w.core.clone();
        w.done();
        w.done();
        (before.d[6], before.pc) = (0, LOAD + 8);
        assert!(w.core == before, "{at:X}");
    }
}

#[test]
fn enable_and_disable_leave_the_rest_of_icr() {
    let mut w = Worked::new(&[plain(Enable), plain(Disable)]);
    w.core.icr = 0xFFFF_FEFF;
    w.done();
    assert_eq!(w.core.icr, 0xFFFF_FFFF);
    w.done();
    assert_eq!(w.core.icr, 0xFFFF_FEFF);
}

#[test]
fn rstv_clears_all_four() {
    let mut w = Worked::new(&[plain(Rstv)]);
    w.core.psw = 0xFFFF_FFFF;
    w.done();
    assert_eq!(w.core.psw, 0x87FF_FFFF);
}

#[test]
fn jumps() {
    let jumps = |op: Operation, x: u32, y: u32| {
        let mut w = Worked::new(&[record(op, 0, 1, 2, 0x21)]);
        (w.core.d[1], w.core.d[2]) = (x, y);
        w.done();
        w.core.pc == LOAD + 0x20
    };
    for (x, y) in [(1, 1), (1, 2), (2, 1), (0xFFFF_FFFF, 0), (0, 0xFFFF_FFFF), (1 << 31, 0x7FFF_FFFF)] {
        let (sx, sy) = (x as i32, y as i32);
        let tests = [(Jeq, x == y), (Jne, x != y), (Jlt, sx < sy), (JltU, x < y), (Jge, sx >= sy), (JgeU, x >= y)];
        for (op, taken) in tests {
            assert_eq!(jumps(op, x, y), taken, "{op:?} {x:X} {y:X}");
        }
    }
    let mut w = Worked::new(&[record(Jl, 0, 0, 0, 0x21)]);
    w.done();
    assert_eq!((w.core.pc, w.core.a[11]), (LOAD + 0x20, LOAD + 4));
    let mut w = Worked::new(&[record(Ji, 0, 7, 0, 0)]);
    w.core.a[7] = 0x1235;
    w.done();
    assert_eq!(w.core.pc, 0x1234);
}

#[test]
fn loops() {
    for (count, after, pc) in [(2, 1, LOAD + 8), (1, 0, LOAD + 8), (0, 0xFFFF_FFFF, LOAD + 4)] {
        let mut w = Worked::new(&[record(Loop, 0, 7, 0, 8)]);
        w.core.a[7] = count;
        w.done();
        assert_eq!((w.core.a[7], w.core.pc), (after, pc));
    }
}

#[test]
fn moves_and_pointers() {
    let mut w = Worked::new(&[
        record(MovA, 4, 1, 5, 9),
        record(MovA, 5, 1, 16, 9),
        record(MovD, 6, 4, 1, 9),
        record(MovAa, 7, 4, 1, 9),
        record(AddA, 2, 4, 5, 0x100),
        record(SubA, 3, 4, 16, 0x100),
    ]);
    w.core.d[5] = 0x50;
    assert_eq!(w.run(6), 6 << 32);
    assert_eq!(w.core.a[2..8], [0x59, 0xFFFF_FF50, 0x50, 9, 0, 0x50]);
    assert_eq!(w.core.d[6], 0x50);
}

#[test]
fn loads_and_stores() {
    let at = |op, c| record(op, c, 3, 0, 0xFFFF_FFFE);
    let mut w = Worked::new(&[at(LdB, 1), at(LdBu, 2), at(LdH, 4), at(LdHu, 5), at(LdW, 6), at(StB, 7), at(StH, 8)]);
    w.core.a[3] = BASE + 0x102;
    w.put(BASE + 0x100, 0x8765_F4F3);
    (w.core.d[7], w.core.d[8]) = (0x1111_1122, 0x3333_4455);
    assert_eq!(w.run(5), 5 << 32);
    assert_eq!([1, 2, 4, 5, 6].map(|n| w.core.d[n]), [0xFFFF_FFF3, 0xF3, 0xFFFF_F4F3, 0xF4F3, 0x8765_F4F3]);
    w.done();
    assert_eq!(w.word(BASE + 0x100), 0x8765_F422);
    w.done();
    assert_eq!(w.word(BASE + 0x100), 0x8765_4455);
}

#[test]
fn runs() {
    let mut w = Worked::new(&[record(Call, 0, 0, 0, 0)]);
    w.core.psw = 0xBFF;
    let step = |w: &Worked| {
        let mut w = w.clone();
        w.step();
        w
    };
    assert_eq!(w.clone().run(0), 0);
    let mut single = w.clone();
    for _ in 0..64 {
        single = step(&single);
    }
    assert_eq!(w.run(100), 64 << 32 | 0x0B03);
    assert!(w.core == single.core && w.windows == single.windows);
    assert_eq!(w.run(3), 0x0B03);
    w.core.pc = 1;
    for n in [0, 1] {
        assert_eq!(w.run(n), 0x0404);
    }
    w.image[16] = 79;
    assert_eq!(w.run(0), 0x0304);
}

#[test]
fn the_version_of_the_interface() {
    assert_eq!(host::version(), 3);
}

#[test]
fn starts_and_records_of_a_wrong_length() {
    let mut w = Worked::new(&[plain(Nop)]);
    assert_eq!(w.start(), 6);
    w.core.pcxi = 0xD_0001;
    assert_eq!(w.start(), 0x0604);
    w.core.pcxi = 0xD_0040;
    assert_eq!(w.start(), 0x0504);
    // windows that rule 1 or 13 refuses too: the record's length is tried first
    let sound = Windows::new(BASE, vec![1; 128], BASE + 128, vec![2; 64]);
    let overlapping = Windows::new(BASE, vec![1; 128], BASE + 64, vec![2; 64]);
    let odd = Windows::new(BASE + 1, vec![1; 128], BASE + 128, vec![2; 64]);
    for length in [0, 1, RECORD - 1, RECORD + 1, 2 * RECORD] {
        for mut windows in [w.windows.clone(), sound.clone(), overlapping.clone(), odd.clone()] {
            let mut core = vec![3; length];
            let (before, lent) = (core.clone(), windows.clone());
            for start in [machine::start, host::start] {
                assert_eq!(windows.start(start, &core, &w.image), 5);
            }
            for step in [machine::step, host::step] {
                assert_eq!(windows.step(step, &mut core, &w.image), 5);
            }
            for run in [machine::run, host::run] {
                assert_eq!(windows.run(run, &mut core, &w.image, 2), 5);
            }
            assert!(core == before && windows == lent);
        }
    }
}
