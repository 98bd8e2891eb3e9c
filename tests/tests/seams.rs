//! Loads and stores in two windows, and at their ends: an access is in the window that has it wholly, or it is trap 4/2.

use deqbaryn_tests::generate::layout::nameable;
use deqbaryn_tests::model::core::Range;
use deqbaryn_tests::model::operations::Operation::{self, *};
use deqbaryn_tests::worked::{areas, plain, record, Worked, BASE, LOAD};

const SEGMENT_C: u32 = 0xC000_0000;

/// Each with its bytes and its alignment.
const LOADS: [(Operation, u32, u32); 6] =
    [(LdB, 1, 1), (LdBu, 1, 1), (LdH, 2, 2), (LdHu, 2, 2), (LdW, 4, 2), (LdA, 4, 4)];
const STORES: [(Operation, u32, u32); 4] = [(StB, 1, 1), (StH, 2, 2), (StW, 4, 2), (StA, 4, 4)];

/// Bases and areas: adjacent, adjacent across a segment's border, apart, in two segments, and at both ends of the address space.
const LAYOUTS: [(u32, usize, u32, usize); 5] = [
    (BASE, 4, BASE + 0x100, 4),
    (BASE - 0x100, 4, BASE, 4),
    (BASE, 4, BASE + 0x200, 4),
    (BASE, 4, SEGMENT_C, 4),
    (0, 4, 0xDFFF_FF00, 4),
];

/// The byte at an address before the access.
fn byte(address: u32) -> u8 {
    (address.wrapping_mul(0x9E37_79B9) >> 24) as u8
}

/// One access through A2, the bytes of both windows numbered.
fn machine(op: Operation, base: u32, count: usize, second_base: u32, second_count: usize) -> Worked {
    let mut w = Worked::numbered(&[record(op, 4, 2, 0, 0)]).lent(base, count, second_base, second_count);
    for window in [&mut w.windows.first, &mut w.windows.second] {
        for (k, b) in window.bytes.iter_mut().enumerate() {
            *b = byte(window.base + k as u32);
        }
    }
    w
}

/// What a load gives, of the bytes at its address.
fn loaded(op: Operation, address: u32) -> u32 {
    let word = u32::from_le_bytes([0, 1, 2, 3].map(|k| byte(address.wrapping_add(k))));
    match op {
        LdB => word as i8 as u32,
        LdBu => word as u8 as u32,
        LdH => word as i16 as u32,
        LdHu => word as u16 as u32,
        _ => word,
    }
}

/// Whether a window has all bytes of an access.
fn has(base: u32, count: usize, address: u32, size: u32) -> bool {
    (0..size as u64).all(|k| (base as u64..base as u64 + 64 * count as u64).contains(&(address as u64 + k)))
}

/// An area for the entry of a trap, away from the windows' ends: of the first one that links can name.
fn free_area(base: u32, second: u32) -> u32 {
    [base + 0x80, second + 0x80].into_iter().find(|area| nameable(*area)).unwrap()
}

/// An access at an address, and all that it has to change.
fn access(
    (op, size, align): (Operation, u32, u32),
    address: u32,
    (base, count, second, more): (u32, usize, u32, usize),
) {
    let mut w = machine(op, base, count, second, more);
    let area = free_area(base, second);
    w.core.a[2] = address;
    w.core.fcx = w.chain(&[area]);
    let mut after = w.clone();
    let inside = has(base, count, address, size) || has(second, more, address, size);
    if address % align != 0 || !inside {
        // the entry's area alone changes
        for (k, word) in w.upper().into_iter().enumerate() {
            after.put(area + 4 * k as u32, word);
        }
        let (class, tin) = if address % align != 0 { (2, 4) } else { (4, 2) };
        w.trapped(class, tin);
        assert!(w.windows == after.windows, "{op:?} at {address:X}");
        return;
    }
    after.core.pc = LOAD + 4;
    match op {
        LdA => after.core.a[4] = loaded(op, address),
        LdB | LdBu | LdH | LdHu | LdW => after.core.d[4] = loaded(op, address),
        StA => store(&mut after, address, size, 0xAA04),
        _ => store(&mut after, address, size, 0xDD04),
    }
    w.done();
    assert!(w.core == after.core && w.windows == after.windows, "{op:?} at {address:X}");
}

/// Byte by byte.
fn store(w: &mut Worked, address: u32, size: u32, word: u32) {
    for k in 0..size {
        *w.windows.part_mut(address + k).unwrap() = [(word >> (8 * k)) as u8];
    }
}

#[test]
fn accesses_around_every_end() {
    for (base, count, second, more) in LAYOUTS {
        for layout in [(base, count, second, more), (second, more, base, count)] {
            for end in [base, base + 64 * count as u32, second, second + 64 * more as u32] {
                for address in (0..16).map(|k| end.wrapping_add(k).wrapping_sub(8)) {
                    for op in LOADS.into_iter().chain(STORES) {
                        access(op, address, layout);
                    }
                }
            }
        }
    }
}

#[test]
fn a_word_across_the_seam_of_adjacent_windows() {
    for seam in [BASE + 0x100, BASE] {
        for (first, second) in [(seam - 0x100, seam), (seam, seam - 0x100)] {
            for op in [LdW, StW] {
                let at = |address| {
                    let mut w = machine(op, first, 4, second, 4);
                    w.core.a[2] = address;
                    w.core.fcx = w.chain(&areas(BASE + 0x40, 1));
                    w
                };
                at(seam - 2).trapped(4, 2);
                at(seam - 4).done();
                at(seam).done();
            }
        }
    }
}

#[test]
fn one_window_would_have_it() {
    // the same bytes lent as one window
    for op in [LdW, StW] {
        let mut w = machine(op, BASE, 8, 0, 0);
        w.core.a[2] = BASE + 0xFE;
        w.done();
    }
}

#[test]
fn a_run_goes_from_window_to_window() {
    let (x, y) = (BASE + 0x3C, SEGMENT_C + 0x3C);
    let mut w = Worked::new(&[
        record(LdW, 1, 2, 0, 0),
        record(StW, 1, 3, 0, 0),
        record(LdHu, 4, 3, 0, 2),
        record(StB, 4, 2, 0, 0),
        record(StA, 3, 3, 0, 0xFFFF_FFFC),
        record(LdA, 5, 3, 0, 0xFFFF_FFFC),
    ])
    .lent(BASE, 1, SEGMENT_C, 1);
    (w.core.a[2], w.core.a[3]) = (x, y);
    w.put(x, 0x8765_4321);
    assert_eq!(w.run(6), 6 << 32);
    assert_eq!((w.word(x), w.word(y), w.word(y - 4)), (0x8765_4365, 0x8765_4321, y));
    assert_eq!((w.core.d[1], w.core.d[4], w.core.a[5]), (0x8765_4321, 0x8765, y));
}

#[test]
fn protection_is_asked_before_the_windows() {
    let protected = |lower, upper| {
        let mut w = machine(LdW, BASE, 4, BASE + 0x100, 4);
        w.core.fcx = w.chain(&[BASE + 0x40]);
        w.core.syscon = 2;
        w.core.ranges[4] = Range { lower: LOAD, upper: LOAD + 4, mode: 0x80 };
        w.core.ranges[0] = Range { lower, upper, mode: 0x40 };
        w
    };
    for (address, trap) in [(0xFC, 0), (0xFE, 0x402), (0x100, 0x102), (0x1FC, 0x102)] {
        // the first window's range: the first byte alone is asked
        let mut w = protected(BASE, BASE + 0x100);
        w.core.a[2] = BASE + address;
        match trap {
            0 => w.done(),
            _ => w.trapped((trap >> 8) as u8, trap as u8),
        }
        // the second one's
        let mut w = protected(BASE + 0x100, BASE + 0x200);
        w.core.a[2] = BASE + address;
        if address < 0x100 {
            w.trapped(1, 2);
        } else {
            w.done();
        }
    }
}

#[test]
fn code_is_in_neither_window() {
    // a window at the code's address holds no code
    let mut w = Worked::new(&[plain(Nop)]).lent(LOAD, 4, LOAD + 0x100, 4);
    w.core.fcx = w.chain(&areas(LOAD + 0x100, 4));
    w.done();
    w.trapped(4, 1);
}
