//! The entries of interrupts and traps, the FCD entry, and stops.

use deqbaryn_tests::model::operations::Operation::{self, *};
use deqbaryn_tests::worked::{record, Worked, BASE, BTV, LOAD};

const FREE_0: u32 = BASE;
const FREE_1: u32 = BASE + 64;

fn one(op: Operation, imm: u32) -> Worked {
    Worked::numbered(&[record(op, 0, 0, 0, imm)])
}

#[test]
fn a_trap_entry() {
    let mut w = one(Syscall, 0x2A);
    w.core.isp = 0x1234;
    let before = w.upper();
    w.trapped_with(6, 0x2A, LOAD + 4);
    assert_eq!(w.area(FREE_0), before);
    // IS was 1: A10 stays; CCPN stays, IE goes
    assert_eq!((w.core.a[10], w.core.icr, w.core.pcxi), (0xAA0A, 0x007, 0x07CD_0000));
    let mut w = one(Syscall, 0x2A);
    w.core.isp = 0x1234;
    w.core.psw &= !0x200;
    w.core.btv = BTV | 1;
    assert_eq!(w.step(), 0x2A_0602);
    assert_eq!((w.core.a[10], w.core.pc), (0x1234, BTV + 0xC0));
}

/// An enabled request, every other bit set.
fn asks(w: &mut Worked, source: usize, priority: u32) {
    w.core.requests[source] = 0xFFFF_F900 | 0x600 | priority;
}

#[test]
fn the_foremost_request() {
    let mut w = one(Nop, 0);
    w.core.icr = 0x105;
    asks(&mut w, 3, 5);
    w.clone().done();
    w.core.requests[2] = 0x200 | 200;
    w.core.requests[1] = 0x400 | 200;
    asks(&mut w, 9, 6);
    asks(&mut w, 12, 6);
    w.core.biv = 0x8002_0001;
    w.core.isp = 0x77;
    w.core.psw &= !0x200;
    let before = w.upper();
    assert_eq!(w.step(), 0x0C01);
    assert_eq!(w.area(FREE_0), before);
    assert_eq!((w.core.pc, w.core.a[11], w.core.a[10]), (0x8002_00C0, LOAD, 0x77));
    assert_eq!((w.core.psw, w.core.icr, w.core.pcxi), (0xA80, 0x006, 0x05CD_0000));
    assert_eq!((w.core.requests[9], w.core.requests[12]), (0xFFFF_FF06, 0xFFFF_FB06));
    assert_eq!(w.core.d[15], 0xDD0F);
}

/// Sources that ask with one priority number, at CCPN 5.
fn tie(sources: &[usize], priority: u32) -> Worked {
    let mut w = one(Nop, 0);
    w.core.icr = 0x105;
    for source in sources {
        asks(&mut w, *source, priority);
    }
    w
}

#[test]
fn of_one_priority_number_the_highest_source() {
    // each is taken before the lower ones, and its own request alone goes
    let all: [usize; 16] = std::array::from_fn(|source| source);
    for sources in [&[3, 15][..], &[14, 15], &[0, 1], &[0, 7, 12], &[4, 5, 6], &all] {
        let start = tie(sources, 6);
        let mut requests = start.core.requests;
        for source in sources.iter().rev() {
            let mut w = start.clone();
            w.core.requests = requests;
            assert_eq!(w.step(), 1 | (*source as u64) << 8);
            requests[*source] = 0xFFFF_FB06;
            assert_eq!((w.core.requests, w.core.icr), (requests, 0x006));
        }
    }
    // a source that is not enabled or does not ask is in no tie, and a higher number is before every tie
    let mut w = tie(&[3, 9], 6);
    w.core.requests[12] = 0x400 | 6;
    w.core.requests[15] = 0x200 | 6;
    assert_eq!(w.clone().step(), 0x0901);
    asks(&mut w, 0, 7);
    asks(&mut w, 1, 7);
    assert_eq!(w.step(), 0x0101);
}

#[test]
fn a_tie_that_waits() {
    for priority in [0, 4, 5] {
        tie(&[3, 15], priority).done();
        tie(&[0, 7, 12], priority).done();
    }
    // number 0 stands above no CCPN
    let mut w = tie(&[0, 3, 15], 0);
    w.core.icr = 0x100;
    w.done();
    // what is above CCPN does not wait for it
    let mut w = tie(&[3, 15], 5);
    asks(&mut w, 2, 6);
    assert_eq!(w.step(), 0x0201);
    let mut w = tie(&[3, 15], 6);
    w.core.icr = 0x005;
    w.done();
}

#[test]
fn requests_that_wait() {
    for (icr, word) in [(0x005, 0x6FF), (0x1FF, 0x6FF), (0x106, 0x606), (0x100, 0x600), (0x100, 0x405), (0x100, 0x205)]
    {
        let mut w = one(Nop, 0);
        w.core.icr = icr;
        w.core.requests[0] = word;
        w.done();
    }
    // tried before the fetch's traps
    let mut w = one(Nop, 0);
    w.core.pc = 0;
    w.core.requests[4] = 0x6FF;
    assert_eq!(w.step(), 0x0401);
}

#[test]
fn an_interrupt_that_cannot_save() {
    let mut w = one(Nop, 0);
    w.core.requests[4] = 0x6FF;
    w.core.fcx = 0x7770_0000;
    w.stopped(11);
    w.core.fcx = 0xD_0040;
    w.stopped(12);
    // at a tie both requests stay
    let mut w = tie(&[3, 15], 6);
    w.core.fcx = 0;
    w.stopped(11);
    w.core.fcx = 0xD_0040;
    w.stopped(12);
}

#[test]
fn an_fcd_entry_finds_the_state_that_the_step_reached() {
    let mut w = one(Bisr, 0x33);
    w.core.lcx = 0xD_0000;
    w.trapped_with(3, 1, LOAD + 4);
    assert_eq!((w.word(FREE_1), w.word(FREE_1 + 4), w.word(FREE_1 + 12)), (0x078D_0000, 0xB85, 0xAA0B));
    assert_eq!((w.core.pcxi, w.core.fcx, w.core.icr), (0x33CD_0001, 0xD_0002, 0x033));

    let mut w = one(Call, 0x41);
    w.core.lcx = 0xFFFD_0000;
    w.trapped_with(3, 1, LOAD + 0x40);
    assert_eq!((w.word(FREE_0 + 4), w.word(FREE_1 + 4), w.word(FREE_1 + 12)), (0xB85, 0xB86, LOAD + 4));

    // a trap's own entry is found too: PSW, A11, D15
    let mut w = one(Syscall, 9);
    w.core.lcx = 0xD_0000;
    w.trapped_with(3, 1, BTV + 0xC0);
    assert_eq!((w.word(FREE_1 + 4), w.word(FREE_1 + 12), w.word(FREE_1 + 60)), (0xA80, LOAD + 4, 9));

    // an interrupt's request is cleared
    let mut w = one(Nop, 0);
    w.core.lcx = 0xD_0000;
    w.core.biv = 0x8003_0000;
    w.core.requests[7] = 0x609;
    w.trapped_with(3, 1, 0x8003_0120);
    assert_eq!((w.core.requests[7], w.core.icr, w.core.pcxi), (0x209, 0x009, 0x094D_0001));
}

#[test]
fn an_fcd_entry_raises_no_second_one() {
    let mut w = one(Svlcx, 0);
    w.core.lcx = 0xD_0000;
    // the second area is the first again: its first word is by then the PCXI of the first save
    w.put(FREE_0, 0xD_0000);
    w.core.pcxi = 0x00CD_0005;
    w.trapped_with(3, 1, LOAD + 4);
    assert_eq!((w.core.fcx, w.word(FREE_0)), (0xD_0005, 0x078D_0000));
}

#[test]
fn nothing_is_written_before_a_stop() {
    for op in [Call, Calli, Svlcx, Bisr, Syscall] {
        for (fcx, next, lcx, number) in [
            (0, 0, 1, 11),
            (0xFFF0_0000, 0, 1, 11),
            (0xD_0040, 0, 1, 12),
            (0xC_0000, 0, 1, 12),
            (0xD_0000, 0, 0xD_0000, 11),
            (0xD_0000, 0xFFF0_0000, 0xD_0000, 11),
            (0xD_0000, 0xD_0040, 0xD_0000, 12),
        ] {
            let mut w = one(op, 0);
            w.put(FREE_0, next);
            (w.core.fcx, w.core.lcx) = (fcx, lcx);
            w.stopped(number);
        }
        // without the FCD entry the last area may go
        let mut w = one(op, 0);
        w.put(FREE_0, 0);
        assert_ne!(w.step() as u8, 3);
        assert_eq!(w.core.fcx, 0);
    }
}

#[test]
fn only_an_instruction_without_a_trap_stops_in_its_own_save() {
    let mut w = one(Call, 0);
    w.core.psw = 0xBBF;
    w.trapped(3, 2);
    // User-0 may not, so BISR's own save is not tried; the trap's is
    let mut w = one(Bisr, 0);
    w.core.psw = 0x380;
    w.core.fcx = 0;
    w.stopped(11);
}
