//! Two windows and the rules of their lending, 1 and 13, at starts, steps and runs.

use deqbaryn_tests::model::operations::Operation::*;
use deqbaryn_tests::model::windows::link_of;
use deqbaryn_tests::worked::{areas, plain, record, Worked, BASE, LOAD};

const SEGMENT_C: u32 = 0xC000_0000;

/// A NOP with two windows of so many areas, both lists empty.
fn lent(base: u32, areas: usize, second_base: u32, second_areas: usize) -> Worked {
    Worked::new(&[plain(Nop)]).lent(base, areas, second_base, second_areas)
}

/// Accepted at a start, at a step and at runs.
fn accepted(w: &Worked) {
    assert_eq!(w.start(), 6);
    w.clone().done();
    assert_eq!((w.clone().run(0), w.clone().run(1)), (0, 1 << 32));
}

#[test]
fn windows_apart() {
    for (base, areas, second_base, second_areas) in [
        // adjacent, and an area apart
        (BASE, 4, BASE + 0x100, 4),
        (BASE, 4, BASE + 0x140, 4),
        // as long as may be, at both ends of a segment
        (BASE, 1024, BASE + 0x1_0000, 1024),
        (BASE, 1024, 0xDFFF_0000, 1024),
        // in two segments: with the same bits 27 to 0, and adjacent
        (BASE, 4, SEGMENT_C, 4),
        (BASE, 4, BASE - 0x100, 4),
        (0, 1, 0xDFFF_FFC0, 1),
    ] {
        accepted(&lent(base, areas, second_base, second_areas));
        accepted(&lent(second_base, second_areas, base, areas));
    }
}

#[test]
fn windows_that_overlap() {
    for (base, areas, second_base, second_areas) in [
        // by one area at an end
        (BASE, 4, BASE + 0xC0, 4),
        (BASE, 1024, BASE + 0xFFC0, 1024),
        // equal
        (BASE, 4, BASE, 4),
        (BASE, 1, BASE, 1),
        (BASE, 1024, BASE, 1024),
        // one within the other: in the midst, at its start, at its end
        (BASE, 4, BASE + 0x40, 2),
        (BASE, 4, BASE, 1),
        (BASE, 4, BASE + 0xC0, 1),
    ] {
        lent(base, areas, second_base, second_areas).refused(13);
        lent(second_base, second_areas, base, areas).refused(13);
    }
}

/// The first area and the number of areas of every part of so many.
fn parts(all: usize) -> impl Iterator<Item = (usize, usize)> {
    (0..all).flat_map(move |from| (1..=all - from).map(move |count| (from, count)))
}

#[test]
fn every_pair_of_windows_among_six_areas() {
    for (first, count) in parts(6) {
        for (second, second_count) in parts(6) {
            let at = |area: usize| BASE + 64 * area as u32;
            let w = lent(at(first), count, at(second), second_count);
            let shared =
                (0..6).any(|k| (first..first + count).contains(&k) && (second..second + second_count).contains(&k));
            if shared {
                w.refused(13);
            } else {
                accepted(&w);
            }
        }
    }
}

/// Bases and lengths that break rule 1.
const UNSOUND: [(u32, usize); 13] = [
    (SEGMENT_C + 1, 64),
    (SEGMENT_C + 32, 64),
    (SEGMENT_C + 63, 128),
    (SEGMENT_C, 1),
    (SEGMENT_C, 63),
    (SEGMENT_C, 65),
    (SEGMENT_C, 65_537),
    (SEGMENT_C, 65_600),
    (0xCFFF_FFC0, 128),
    (0xDFFF_FFC0, 128),
    (0xE000_0000, 64),
    (0xF000_0000, 64),
    (0xFFFF_FFC0, 128),
];

#[test]
fn rule_1_on_each_window() {
    for (base, length) in UNSOUND {
        let mut w = lent(BASE, 4, base, 0);
        w.windows.second.bytes.resize(length, 0);
        w.refused(1);
        let mut w = lent(base, 0, BASE, 4);
        w.windows.first.bytes.resize(length, 0);
        w.refused(1);
    }
}

#[test]
fn rule_1_on_each_window_before_13() {
    for (base, length) in [(BASE + 1, 64), (BASE, 63), (BASE, 65), (BASE, 65_600), (BASE + 0x20, 65_536)] {
        let mut w = lent(BASE, 4, base, 0);
        w.windows.second.bytes.resize(length, 0);
        w.refused(1);
        let mut w = lent(base, 0, BASE, 4);
        w.windows.first.bytes.resize(length, 0);
        w.refused(1);
    }
    // past its segment's end, where it shares the last area
    lent(0xDFFF_FFC0, 1, 0xDFFF_FFC0, 2).refused(1);
    lent(0xDFFF_FFC0, 2, 0xDFFF_FFC0, 1).refused(1);
    lent(0xE000_0000, 1, 0xE000_0000, 1).refused(1);
}

#[test]
fn rule_13_before_the_image_pc_and_the_lists() {
    let apart = Worked::numbered(&[plain(Nop)]).lent(BASE, 4, BASE + 0x100, 4);
    let mut shared = apart.clone();
    shared.windows.second.base = BASE + 0xC0;
    let table = |w: &mut Worked| w.image[0] = 17;
    let cut = |w: &mut Worked| w.image.truncate(2);
    let operation = |w: &mut Worked| w.image[16] = 79;
    let pc = |w: &mut Worked| w.core.pc += 1;
    let faults: [(&dyn Fn(&mut Worked), u8); 4] = [(&table, 2), (&cut, 2), (&operation, 3), (&pc, 4)];
    for (fault, number) in faults {
        let [mut apart, mut shared] = [apart.clone(), shared.clone()];
        fault(&mut apart);
        fault(&mut shared);
        apart.refused(number);
        shared.refused(13);
    }
    // 5 and 6 are a start's alone
    for (fcx, number) in [(0xB_0000, 5), (0xD_0000, 6)] {
        let [mut apart, mut shared] = [apart.clone(), shared.clone()];
        for w in [&mut apart, &mut shared] {
            w.put(BASE, 0xD_0000);
            w.core.fcx = fcx;
        }
        assert_eq!(apart.start(), 4 | number << 8);
        apart.done();
        shared.refused(13);
    }
}

#[test]
fn a_second_window_of_length_0() {
    let bases = [0, 1, 63, BASE, BASE + 1, BASE + 0x40, BASE + 0x100, BASE + 0xFFF, BASE + 0x1000, 0xDFFF_FFFF];
    let above = [0xE000_0000, 0xE000_0001, 0xEFFF_FFFF, 0xF000_0000, 0xFFFF_FFC0, 0xFFFF_FFFF];
    for base in bases.into_iter().chain(above) {
        let mut w = Worked::new(&[record(LdB, 1, 2, 0, 0)]);
        w.windows.second.base = base;
        assert_eq!((w.start(), w.clone().run(0)), (6, 0));
        // it has no byte, and takes none from the first
        w.core.a[2] = base;
        if (BASE..BASE + 4096).contains(&base) {
            w.done();
        } else {
            w.trapped(4, 2);
        }
    }
    // a link to its base is one to neither
    let mut w = lent(BASE, 1, BASE + 0x40, 0);
    w.core.fcx = 0xD_0001;
    assert_eq!(w.start(), 0x0504);
    w.image[16] = Svlcx as u8;
    w.stopped(12);
}

#[test]
fn a_first_window_of_length_0() {
    for base in [BASE, BASE + 1, BASE + 0x100, SEGMENT_C, 0, 0xE000_0000, 0xFFFF_FFFF] {
        lent(base, 0, BASE, 4).refused(1);
        lent(base, 0, base, 0).refused(1);
    }
}

#[test]
fn a_run_is_refused_before_its_first_step() {
    // a store that a step would make
    let mut w = Worked::new(&[record(StW, 1, 2, 0, 0)]).lent(BASE, 4, BASE + 0xC0, 4);
    w.core.a[2] = BASE;
    w.core.d[1] = 0x1234_5678;
    w.refused(13);
    w.windows.second.base = BASE + 0x100;
    assert_eq!(w.run(1), 1 << 32);
    assert_eq!((w.word(BASE), w.core.pc), (0x1234_5678, LOAD + 4));
}

/// Two full windows, and all their areas in turns.
fn full(second_base: u32) -> (Worked, Vec<u32>) {
    let turns = areas(BASE, 1024).into_iter().zip(areas(second_base, 1024)).flat_map(|(a, b)| [a, b]).collect();
    (lent(BASE, 1024, second_base, 1024), turns)
}

#[test]
fn lists_of_2048_areas() {
    for second_base in [BASE + 0x1_0000, SEGMENT_C] {
        let (mut w, all) = full(second_base);
        let head = w.chain(&all);
        for (fcx, pcxi) in [(head, 0), (0, head)] {
            (w.core.fcx, w.core.pcxi) = (fcx, pcxi);
            assert_eq!(w.start(), 6);
            // in a circle
            let mut circle = w.clone();
            circle.put(all[2047], head);
            assert_eq!(circle.start(), 0x0604);
            circle.put(all[2047], 0xB_0000);
            assert_eq!(circle.start(), 0x0504);
        }
        // half on each list, and the used one leads into the free one
        let (free, used) = all.split_at(1024);
        (w.core.fcx, w.core.pcxi) = (w.chain(free), w.chain(used));
        assert_eq!(w.start(), 6);
        w.put(all[2047], link_of(all[1023]));
        assert_eq!(w.start(), 0x0604);
    }
}

#[test]
fn saves_into_2048_areas_and_their_returns() {
    for second_base in [BASE + 0x1_0000, SEGMENT_C] {
        let (mut w, all) = full(second_base);
        w.core.fcx = w.chain(&all);
        w.image = Worked::new(&[
            plain(Svlcx),
            record(J, 0, 0, 0, 0xFFFF_FFFC),
            plain(Rslcx),
            record(J, 0, 0, 0, 0xFFFF_FFFC),
        ])
        .image;
        let before = w.clone();
        // a save and a jump each; then none is free
        assert_eq!(w.run(10_000), 4096 << 32 | 0x0B03);
        assert_eq!((w.core.fcx, w.core.pcxi), (0, link_of(all[2047])));
        assert_eq!((w.start(), w.core.pc), (6, LOAD));
        for (k, area) in all.iter().enumerate().skip(1) {
            assert_eq!((w.word(*area), w.word(*area + 4)), (link_of(all[k - 1]), LOAD + 4));
        }
        w.core.pc = LOAD + 8;
        assert_eq!(w.run(4096), 4096 << 32);
        assert_eq!((w.core.fcx, w.core.pcxi, w.start()), (before.core.fcx, 0, 6));
        // the free list is as it was; the next return has no area
        assert!(all.iter().all(|area| w.word(*area) == before.word(*area)));
        w.trapped(3, 5);
    }
}

#[test]
fn a_pool_of_the_second_window_alone() {
    for second_base in [BASE + 0x1000, SEGMENT_C, 0x1_0000] {
        let mut w = Worked::numbered(&[record(Call, 0, 0, 0, 0)]).lent(BASE, 64, second_base, 2);
        w.windows.first.bytes.fill(0xA5);
        w.core.fcx = w.chain(&[second_base + 0x40, second_base]);
        assert_eq!(w.start(), 6);
        let (first, saved) = (w.windows.first.clone(), w.upper());
        assert_eq!(w.run(5), 2 << 32 | 0x0B03);
        assert_eq!((w.area(second_base + 0x40), w.core.pcxi & 0xF_FFFF), (saved, link_of(second_base)));
        assert!(w.windows.first == first);
    }
}

#[test]
fn a_window_that_no_link_names() {
    // past the first 4 MB of its segment: the link of the same low bits names an area of the first window, or of neither
    for (second_base, named) in [(BASE - 0x40, false), (BASE + 0x40_0000, true), (0xDFFF_FFC0, false)] {
        let mut w = Worked::numbered(&[plain(Svlcx), record(StW, 1, 2, 0, 0)]).lent(BASE, 64, second_base, 1);
        w.core.fcx = link_of(second_base);
        let (second, saved) = (w.windows.second.clone(), w.lower());
        assert_eq!(w.start(), if named { 6 } else { 0x0504 });
        if named {
            w.done();
            assert_eq!(w.area(BASE), saved);
        } else {
            w.stopped(12);
        }
        assert!(w.windows.second == second);
        // it holds data
        (w.core.pc, w.core.a[2]) = (LOAD + 4, second_base + 0x3C);
        w.done();
        assert_eq!(w.word(second_base + 0x3C), 0xDD01);
    }
}
