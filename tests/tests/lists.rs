//! Rules 5 and 6: each with good lists and the nearest bad ones, against the proved checks and the second model, in one window
//! and in two.

use deqbaryn_tests::inputs;
use deqbaryn_tests::model::checks::{self, Refusal};
use deqbaryn_tests::model::windows::{link_of, Windows};
use deqbaryn_tests::rules::{linked, put, refused, small};
use deqbaryn_tests::worked::{areas, BASE};

fn lists_of(windows: &Windows<&[u8]>, fcx: u32, pcxi: u32, expected: Result<(), Refusal>) {
    assert_eq!(inputs::check_lists(windows, fcx, pcxi), expected);
    assert_eq!(checks::lists(windows, fcx, pcxi), expected);
    assert_eq!(inputs::try_start(windows, &small(), 0x8000_0000, fcx, pcxi), expected);
}

/// Both answer alike, and as expected: with the memory as one window, and as two, parted after any area, in either order.
fn lists(base: u32, memory: &[u8], fcx: u32, pcxi: u32, expected: Result<(), Refusal>) {
    lists_of(&Windows::one(base, memory), fcx, pcxi, expected);
    let areas = memory.len() / 64;
    for k in (1..areas).filter(|k| areas <= 8 || [1, areas / 2, areas - 1].contains(k)) {
        let (lower, upper) = memory.split_at(64 * k);
        let border = base + lower.len() as u32;
        lists_of(&Windows::new(base, lower, border, upper), fcx, pcxi, expected);
        lists_of(&Windows::new(border, upper, base, lower), fcx, pcxi, expected);
    }
}

#[test]
fn lists_that_end() {
    let w = linked(8);
    lists(BASE, &w, 0, 0, Ok(()));
    lists(BASE, &w, 0xD_0000, 0, Ok(()));
    lists(BASE, &w, 0, 0xD_0000, Ok(()));
    lists(BASE, &w, 0xD_0007, 0, Ok(()));
    // the high bits of a head are no part of the link
    lists(BASE, &w, 0xFFFD_0000, 0xFFF0_0000, Ok(()));
    let mut two = linked(8);
    put(&mut two, 64 * 3, 0xFFF0_0000);
    lists(BASE, &two, 0xD_0000, 0x004D_0004, Ok(()));
}

#[test]
fn links_outside_the_window() {
    let w = linked(8);
    for link in [0xD_0008, 0xC_0000, 0xE_0000, 1, 0xD_FFFF, 0xF_FFFF] {
        lists(BASE, &w, link, 0, refused(5, 0));
        lists(BASE, &w, 0, link, refused(5, 0));
        let mut last = linked(8);
        put(&mut last, 64 * 7, link);
        lists(BASE, &last, 0xD_0000, 0, refused(5, 0));
        lists(BASE, &last, 0, 0xD_0000, refused(5, 0));
    }
    // a window that begins after the first area of its segment
    let w = linked(2);
    lists(BASE + 64, &w[..64], 0xD_0000, 0, refused(5, 0));
    lists(BASE + 64, &[0; 64], 0xD_0001, 0, Ok(()));
    lists(BASE + 64, &[0; 64], 0xD_0002, 0, refused(5, 0));
}

#[test]
fn areas_met_again() {
    // an area that links to itself, a cycle, a cycle after a tail
    for (at, back) in [(0usize, 0u32), (7, 0), (7, 3), (7, 7)] {
        let mut w = linked(8);
        put(&mut w, 64 * at, 0xD_0000 + back);
        lists(BASE, &w, 0xD_0000, 0, refused(6, 0));
        lists(BASE, &w, 0, 0xD_0000, refused(6, 0));
    }
    // the lists meet: at the head, in the middle, at the end
    let w = linked(8);
    for head in [0xD_0000, 0xD_0004, 0xD_0007] {
        lists(BASE, &w, 0xD_0000, head, refused(6, 0));
        lists(BASE, &w, head, 0xD_0000, refused(6, 0));
    }
}

#[test]
fn five_is_tried_before_six() {
    // the used list: an area that was met, then one outside; and the other way round
    let mut w = linked(8);
    put(&mut w, 64 * 7, 0xD_0008);
    lists(BASE, &w, 0xD_0004, 0xD_0000, refused(5, 0));
    let mut w = linked(8);
    put(&mut w, 64 * 3, 0);
    put(&mut w, 64 * 5, 0xD_0000);
    put(&mut w, 64, 0xD_0000);
    lists(BASE, &w, 0xD_0000, 0xE_0000, refused(6, 0));
    let mut w = linked(8);
    put(&mut w, 64, 0);
    lists(BASE, &w, 0xD_0000, 0xE_0000, refused(5, 0));
    put(&mut w, 64 * 4, 0xD_0001);
    lists(BASE, &w, 0xD_0000, 0xD_0004, refused(6, 0));
}

#[test]
fn a_list_of_all_areas() {
    let w = linked(1024);
    lists(BASE, &w, 0xD_0000, 0, Ok(()));
    lists(BASE, &w, 0, 0xD_0000, Ok(()));
    let mut cycle = linked(1024);
    put(&mut cycle, 64 * 1023, 0xD_0000);
    lists(BASE, &cycle, 0xD_0000, 0, refused(6, 0));
    put(&mut cycle, 64 * 1023, 0xD_0400);
    lists(BASE, &cycle, 0xD_0000, 0, refused(5, 0));
    let mut halves = linked(1024);
    put(&mut halves, 64 * 511, 0);
    lists(BASE, &halves, 0xD_0000, 0xD_0200, Ok(()));
}

/// Two full windows, apart or adjacent.
fn full(second_base: u32) -> Windows<Vec<u8>> {
    Windows::new(BASE, vec![0; 65_536], second_base, vec![0; 65_536])
}

/// Links areas in a row, the last one to `end`: the first link.
fn link(windows: &mut Windows<Vec<u8>>, areas: &[u32], end: u32) -> u32 {
    let links: Vec<u32> = areas.iter().map(|area| link_of(*area)).chain([end]).collect();
    for (area, next) in areas.iter().zip(&links[1..]) {
        *windows.part_mut(*area).unwrap() = next.to_le_bytes();
    }
    links[0]
}

fn lent(windows: &Windows<Vec<u8>>) -> Windows<&[u8]> {
    Windows::new(windows.first.base, &windows.first.bytes, windows.second.base, &windows.second.bytes)
}

#[test]
fn lists_of_2048_areas() {
    for second_base in [BASE + 65_536, BASE - 0x1000_0000, BASE + 0x3F_0000] {
        let (first, second) = (areas(BASE, 1024), areas(second_base, 1024));
        let one_by_one: Vec<u32> = first.iter().zip(&second).flat_map(|(a, b)| [*a, *b]).collect();
        let other_first: Vec<u32> = second.iter().zip(&first).flat_map(|(a, b)| [*a, *b]).collect();
        let back: Vec<u32> = one_by_one.iter().rev().copied().collect();
        for order in [[&first[..], &second[..]].concat(), one_by_one, other_first, back] {
            let mut windows = full(second_base);
            let head = link(&mut windows, &order, 0);
            lists_of(&lent(&windows), head, 0, Ok(()));
            lists_of(&lent(&windows), 0, head, Ok(()));
            lists_of(&lent(&windows), head, head, refused(6, 0));
            // in a circle, back to the last area's own, and outside
            for (end, number) in [(head, 6), (link_of(order[1024]), 6), (link_of(order[2047]), 6), (0xB_0000, 5)] {
                link(&mut windows, &order, end);
                lists_of(&lent(&windows), head, 0, refused(number, 0));
                lists_of(&lent(&windows), 0, head, refused(number, 0));
            }
            // on two lists
            let (free, used) = order.split_at(700);
            let (fcx, pcxi) = (link(&mut windows, free, 0), link(&mut windows, used, 0));
            lists_of(&lent(&windows), fcx, pcxi, Ok(()));
            link(&mut windows, used, fcx);
            lists_of(&lent(&windows), fcx, pcxi, refused(6, 0));
        }
    }
}

#[test]
fn links_of_two_segments_are_apart() {
    // C0001 and D0001 name areas with the same bits 27 to 0
    let segment_c = BASE - 0x1000_0000;
    let mut windows = Windows::new(BASE, vec![0; 128], segment_c, vec![0; 128]);
    let order = [BASE + 64, segment_c + 64, BASE, segment_c];
    let head = link(&mut windows, &order, 0);
    lists_of(&lent(&windows), head, 0, Ok(()));
    for (end, number) in
        [(0xD_0001, 6), (0xC_0001, 6), (0xB_0001, 5), (0xE_0001, 5), (1, 5), (0xC_0002, 5), (0xD_0002, 5)]
    {
        link(&mut windows, &order, end);
        lists_of(&lent(&windows), head, 0, refused(number, 0));
    }
}

#[test]
fn five_is_tried_before_six_across_windows() {
    // the free list is in the second window; the used one comes to it, or to an area in neither first
    let second = BASE + 0x1000;
    let mut windows = Windows::new(BASE, vec![0; 192], second, vec![0; 192]);
    let fcx = link(&mut windows, &areas(second, 3), 0);
    for (end, number) in [(link_of(second + 128), 6), (link_of(second + 192), 5), (link_of(second) - 1, 5)] {
        let pcxi = link(&mut windows, &areas(BASE, 3), end);
        lists_of(&lent(&windows), fcx, pcxi, refused(number, 0));
    }
    // the free list's fault is found first
    let pcxi = link(&mut windows, &areas(BASE, 3), 0xB_0000);
    link(&mut windows, &areas(second, 3), fcx);
    lists_of(&lent(&windows), fcx, pcxi, refused(6, 0));
}

#[test]
fn lists_of_refused_windows() {
    let check = |base, len, second_base, second_len| {
        let bytes = [0; 65_600];
        let windows = Windows::new(base, &bytes[..len], second_base, &bytes[..second_len]);
        inputs::check_lists(&windows, 0xD_0000, 0)
    };
    assert_eq!(check(BASE + 1, 64, 0, 0), refused(1, 0));
    assert_eq!(check(BASE, 65_600, 0, 0), refused(1, 0));
    assert_eq!(check(BASE, 64, BASE + 65, 64), refused(1, 0));
    assert_eq!(check(BASE, 64, BASE + 64, 65_600), refused(1, 0));
    assert_eq!(check(BASE, 128, BASE + 64, 64), refused(13, 0));
    assert_eq!(check(BASE, 128, BASE + 128, 64), Ok(()));
    // its base is no matter
    assert_eq!(check(BASE, 128, 0xFFFF_FFFF, 0), Ok(()));
}
