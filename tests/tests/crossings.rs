//! Saves, returns, entries and lists in two windows: the area that a link names is a part of whichever window has it.

use deqbaryn_tests::model::image::Record;
use deqbaryn_tests::model::operations::Operation::{self, *};
use deqbaryn_tests::model::windows::{link_of, Windows};
use deqbaryn_tests::worked::{plain, record, Worked, BASE, BTV, LOAD};

const SEGMENT_C: u32 = 0xC000_0000;
const UL: u32 = 1 << 22;

/// The windows' bases: adjacent either way, apart, and in two segments. Each has four areas.
const LAYOUTS: [(u32, u32); 5] =
    [(BASE, BASE + 0x100), (BASE + 0x100, BASE), (BASE + 0x1000, BASE), (BASE, SEGMENT_C), (SEGMENT_C, BASE)];

/// Records with windows of four areas at these bases, of other bytes than 0, and both lists empty.
fn machine(records: &[Record], (base, second): (u32, u32)) -> Worked {
    let mut w = Worked::numbered(records).lent(base, 4, second, 4);
    w.windows.first.bytes.fill(0x11);
    w.windows.second.bytes.fill(0x22);
    w
}

fn one(op: Operation, layout: (u32, u32)) -> Worked {
    machine(&[record(op, 0, 0, 0, 8)], layout)
}

/// The windows with these words at the areas.
fn with(windows: &Windows<Vec<u8>>, written: &[(u32, [u32; 16])]) -> Windows<Vec<u8>> {
    let mut windows = windows.clone();
    for (area, words) in written {
        for (k, word) in words.iter().enumerate() {
            *windows.part_mut(area + 4 * k as u32).unwrap() = word.to_le_bytes();
        }
    }
    windows
}

/// The same with one first word.
fn linked(windows: &Windows<Vec<u8>>, area: u32, word: u32) -> Windows<Vec<u8>> {
    let mut windows = windows.clone();
    *windows.part_mut(area).unwrap() = word.to_le_bytes();
    windows
}

#[test]
fn a_call_into_the_second_window_and_its_return() {
    for layout in LAYOUTS {
        let second = layout.1;
        let mut w = machine(&[record(Call, 0, 0, 0, 8), plain(Nop), plain(Ret)], layout);
        w.core.fcx = w.chain(&[second + 0x40, second + 0xC0]);
        let before = w.clone();
        w.done();
        assert!(w.windows == with(&before.windows, &[(second + 0x40, before.upper())]));
        assert_eq!(w.core.fcx, link_of(second + 0xC0));
        assert_eq!(w.core.pcxi, 0x0780_0000 | UL | link_of(second + 0x40));
        let called = w.clone();
        w.done();
        assert!(w.windows == linked(&called.windows, second + 0x40, link_of(second + 0xC0)));
        assert_eq!((w.core.fcx, w.core.pcxi, w.core.psw), (link_of(second + 0x40), 0, before.core.psw));
        assert_eq!((w.upper(), w.core.pc), (before.upper(), LOAD + 4));
    }
}

#[test]
fn calls_that_cross_both_ways_and_their_returns() {
    for layout in LAYOUTS {
        for (x, y) in [layout, (layout.1, layout.0)] {
            // a call of itself, then returns
            let mut w = machine(&[record(Call, 0, 0, 0, 0), plain(Ret)], layout);
            let free = [x, y + 0x80, x + 0xC0, y];
            w.core.fcx = w.chain(&free);
            assert_eq!(w.start(), 6);
            let mut states = vec![w.clone()];
            for area in free {
                let before = w.clone();
                w.core.d[9] += 1;
                let saved = w.upper();
                w.done();
                assert!(w.windows == with(&before.windows, &[(area, saved)]));
                assert_eq!(w.core.pcxi & 0xF_FFFF, link_of(area));
                // both lists, of which each crosses
                assert_eq!(w.start(), 6);
                states.push(w.clone());
            }
            w.clone().stopped(11);
            for (k, area) in free.into_iter().enumerate().rev() {
                let before = w.clone();
                w.core.pc = LOAD + 4;
                w.done();
                assert!(w.windows == linked(&before.windows, area, before.core.fcx));
                assert_eq!((w.core.fcx, w.core.pcxi), (link_of(area), states[k].core.pcxi));
                assert_eq!(w.core.psw, states[k].core.psw);
                assert_eq!(w.start(), 6);
            }
            // the first words are the free list again
            let mut again = w.clone();
            assert_eq!((w.core.fcx, again.chain(&free)), (link_of(x), link_of(x)));
            assert!(w.windows == again.windows);
        }
    }
}

#[test]
fn a_run_of_calls_and_returns_that_cross() {
    for (base, second) in LAYOUTS {
        // a call, a lower save within it, both returned from, for ever
        let mut w = machine(
            &[record(Call, 0, 0, 0, 8), record(J, 0, 0, 0, 0xFFFF_FFFC), plain(Svlcx), plain(Rslcx), plain(Ret)],
            (base, second),
        );
        w.core.fcx = w.chain(&[second + 0x40, base + 0x40]);
        let before = w.clone();
        assert_eq!(w.run(5000), 5000 << 32);
        assert_eq!((w.core.pc, w.core.fcx, w.core.pcxi, w.core.psw), (LOAD, before.core.fcx, 0, before.core.psw));
        assert_eq!((w.word(second + 0x40), w.word(base + 0x40)), (link_of(base + 0x40), 0));
        // what the latest saves wrote
        let mut called = before.clone();
        called.core.pc = LOAD + 8;
        assert_eq!(w.area(second + 0x40)[1..], before.upper()[1..]);
        assert_eq!(w.area(base + 0x40)[1..], called.lower()[1..]);
    }
}

#[test]
fn lower_saves_and_returns_in_each_window() {
    for layout in LAYOUTS {
        for area in [layout.0 + 0x40, layout.1 + 0x40] {
            let mut w = machine(&[plain(Svlcx), plain(Rslcx)], layout);
            w.core.fcx = w.chain(&[area]);
            let before = w.clone();
            w.done();
            assert!(w.windows == with(&before.windows, &[(area, before.lower())]));
            assert_eq!((w.core.fcx, w.core.pcxi), (0, 0x0780_0000 | link_of(area)));
            let saved = w.clone();
            w.core.d[..8].fill(9);
            w.core.a[2..8].fill(9);
            w.done();
            assert!(w.windows == linked(&saved.windows, area, 0));
            assert_eq!((w.core.d, w.core.a), (before.core.d, before.core.a));
            assert_eq!((w.core.fcx, w.core.pcxi), (link_of(area), 0));
        }
    }
}

#[test]
fn entries_into_each_window() {
    for layout in LAYOUTS {
        for area in [layout.0 + 0x80, layout.1 + 0x80] {
            let mut w = one(Nop, layout);
            w.core.fcx = w.chain(&[area]);
            let mut asked = w.clone();
            asked.core.requests[5] = 0x609;
            let expected = with(&asked.windows, &[(area, asked.upper())]);
            assert_eq!(asked.step(), 0x0501);
            assert!(asked.windows == expected);
            assert_eq!((asked.core.fcx, asked.core.pcxi), (0, 0x0780_0000 | UL | link_of(area)));
            // 4/1, and RFE in the handler's place
            w.core.pc = LOAD + 4;
            let before = w.clone();
            w.trapped(4, 1);
            assert!(w.windows == with(&before.windows, &[(area, before.upper())]));
            w.image[16] = Rfe as u8;
            w.core.pc = LOAD;
            w.done();
            assert_eq!((w.upper(), w.core.icr), (before.upper(), before.core.icr));
            assert!(w.windows == linked(&with(&before.windows, &[(area, before.upper())]), area, 0));
        }
    }
}

#[test]
fn an_fcd_entry_in_the_other_window() {
    for layout in LAYOUTS {
        for (x, y) in [layout, (layout.1, layout.0)] {
            let free = [x + 0x40, y + 0x40, x + 0x80];
            for op in [Call, Svlcx, Bisr, Syscall] {
                let mut w = one(op, layout);
                w.core.fcx = w.chain(&free);
                w.core.lcx = link_of(free[0]);
                let before = w.clone();
                let own = if matches!(op, Svlcx | Bisr) { w.lower() } else { w.upper() };
                let target = [(Call, LOAD + 8), (Syscall, BTV + 0xC0)].into_iter().find(|(call, _)| *call == op);
                w.trapped_with(3, 1, target.map_or(LOAD + 4, |(_, pc)| pc));
                let words = w.area(free[1]);
                assert!(w.windows == with(&before.windows, &[(free[0], own), (free[1], words)]));
                assert_eq!(words[0] & 0xF_FFFF, link_of(free[0]));
                assert_eq!((w.core.pcxi & 0xF_FFFF, w.core.fcx), (link_of(free[1]), link_of(free[2])));
            }
            // an interrupt's too
            let mut w = one(Nop, layout);
            w.core.fcx = w.chain(&free);
            w.core.lcx = link_of(free[0]);
            w.core.requests[7] = 0x609;
            w.core.biv = 0x8003_0000;
            let before = w.clone();
            w.trapped_with(3, 1, 0x8003_0120);
            let words = w.area(free[1]);
            assert!(w.windows == with(&before.windows, &[(free[0], before.upper()), (free[1], words)]));
            assert_eq!((words[1], words[3]), (0xA80, LOAD));
        }
    }
}

/// Links to areas in neither window: past an end, before a start, in another segment, in the gap.
fn strays((base, second): (u32, u32)) -> Vec<u32> {
    let ends = [base + 0x100, second + 0x100].into_iter().filter(|a| ![base, second].contains(a)).map(link_of);
    let far = [base ^ 0x2000_0000, second ^ 0x4000_0000, base + 0x2_0000].map(link_of);
    ends.chain(far).chain([0xE_0000, 0xF_0000, 0xF_FFFF, 0x8_0000]).collect()
}

#[test]
fn an_area_in_neither_window_stops_the_step() {
    for layout in LAYOUTS {
        for stray in strays(layout) {
            for op in [Call, Svlcx, Bisr, Syscall] {
                let mut w = one(op, layout);
                w.core.fcx = stray;
                w.stopped(12);
                // the FCD entry's
                for area in [layout.0 + 0xC0, layout.1 + 0xC0] {
                    let mut w = one(op, layout);
                    (w.core.fcx, w.core.lcx) = (link_of(area), link_of(area));
                    w.put(area, stray);
                    w.stopped(12);
                    w.put(area, 0);
                    w.stopped(11);
                    w.core.lcx = 0;
                    assert_ne!(w.step() as u8, 3);
                }
            }
            let mut w = one(Nop, layout);
            w.core.requests[4] = 0x6FF;
            w.core.fcx = stray;
            w.stopped(12);
            for (op, ul) in [(Ret, UL), (Rfe, UL), (Rslcx, 0)] {
                let mut w = one(op, layout);
                w.core.psw = 0xBFF;
                w.core.pcxi = stray | ul;
                w.stopped(12);
            }
        }
    }
}

#[test]
fn a_run_stops_at_an_area_in_neither_window() {
    // the third area of the list is in neither: two calls are made
    let mut w = machine(&[record(Call, 0, 0, 0, 0)], (BASE, SEGMENT_C));
    w.core.fcx = w.chain(&[SEGMENT_C, BASE]);
    w.put(BASE, 0xC_0004);
    let mut single = w.clone();
    single.done();
    single.done();
    assert_eq!(w.run(10), 2 << 32 | 0x0C03);
    assert!(w.core == single.core && w.windows == single.windows);
    assert_eq!((w.core.fcx, w.core.pcxi & 0xF_FFFF), (0xC_0004, 0xD_0000));
}

#[test]
fn starts_with_lists_that_cross() {
    for layout in LAYOUTS {
        for (x, y) in [layout, (layout.1, layout.0)] {
            let mut w = one(Nop, layout);
            w.core.fcx = w.chain(&[x, y, x + 0x40, y + 0x40]);
            w.core.pcxi = UL | w.chain(&[y + 0x80, x + 0x80, y + 0xC0, x + 0xC0]);
            assert_eq!(w.start(), 6);
            // the last area of either list leads back: to the first, to itself, to the other list
            for last in [y + 0x40, x + 0xC0] {
                for back in [x, y, x + 0x40, y + 0x80, x + 0x80, last] {
                    let mut w = w.clone();
                    w.put(last, link_of(back));
                    assert_eq!(w.start(), 0x0604);
                }
                for stray in strays(layout) {
                    let mut w = w.clone();
                    w.put(last, stray);
                    assert_eq!(w.start(), 0x0504);
                }
            }
        }
    }
}
