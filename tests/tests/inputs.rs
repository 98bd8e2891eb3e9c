//! Rules 1, 13 and 4, and the order of all: each with a good input and the nearest bad ones, against the proved checks and the
//! second model.

use deqbaryn_tests::inputs;
use deqbaryn_tests::model::checks::{self, Refusal};
use deqbaryn_tests::model::image::{build, Body};
use deqbaryn_tests::model::windows::Windows;
use deqbaryn_tests::rules::{body, linked, put, refused, small};
use deqbaryn_tests::worked::BASE;

const PC: u32 = 0x8000_0000;

/// Both answer alike, and as expected.
fn step(windows: &Windows<&[u8]>, image: &[u8], pc: u32, expected: Result<(), Refusal>) {
    assert_eq!(inputs::try_step(windows, image, pc), expected);
    assert_eq!(checks::step(windows, image, pc), expected);
    // 5 and 6 come last
    if expected.is_err() {
        assert_eq!(inputs::try_start(windows, image, pc, 0xB_0000, 0), expected);
    }
}

/// A window alone, and as the second one after a window in another segment.
fn window_case(base: u32, len: usize, ok: bool) {
    let bytes = vec![0; len];
    let expected = if ok { Ok(()) } else { refused(1, 0) };
    step(&Windows::one(base, &bytes), &small(), PC, expected);
    let second = if len == 0 { Ok(()) } else { expected };
    step(&Windows::new(0x7000_0000, &[0; 64], base, &bytes), &small(), PC, second);
    step(&Windows::new(base, &bytes, 0x7000_0000, &[0; 64]), &small(), PC, expected);
}

#[test]
fn window_lengths() {
    for (len, ok) in [
        (0, false),
        (63, false),
        (64, true),
        (65, false),
        (128, true),
        (65_472, true),
        (65_536, true),
        (65_537, false),
        (65_600, false),
    ] {
        window_case(BASE, len, ok);
    }
}

#[test]
fn window_bases() {
    for (base, ok) in
        [(BASE + 63, false), (BASE + 64, true), (BASE + 65, false), (0, true), (1, false), (0x4000_0040, true)]
    {
        window_case(base, 64, ok);
    }
}

#[test]
fn window_segments() {
    window_case(0xDFFF_FFC0, 64, true);
    window_case(0xDFFF_FFC0, 128, false);
    window_case(0xDFFF_0000, 65_536, true);
    window_case(0xDFFF_0040, 65_536, false);
    window_case(0x0FFF_FFC0, 64, true);
    window_case(0x0FFF_FFC0, 128, false);
    window_case(0xE000_0000, 64, false);
    window_case(0xFFFF_FFC0, 64, false);
}

#[test]
fn lengths_past_32_bits() {
    // never touched, so no memory is taken
    let bytes = vec![0; (1 << 32) + 64];
    for len in [1 << 32, (1 << 32) + 64] {
        step(&Windows::one(BASE, &bytes[..len]), &small(), PC, refused(1, 0));
        step(&Windows::new(BASE, &bytes[..64], BASE + 64, &bytes[..len]), &small(), PC, refused(1, 0));
    }
}

/// Ends of segments and of the windows that may be lent, and their neighbours.
const BASES: [u32; 20] = [
    0,
    1,
    64,
    0x0FFF_FFC0,
    0x1000_0000,
    0xCFFF_FFC0,
    0xD000_0000,
    0xD000_0001,
    0xD000_003F,
    0xD000_0040,
    0xD000_0080,
    0xD000_FFC0,
    0xD001_0000,
    0xD001_0040,
    0xDFFF_0000,
    0xDFFF_FFC0,
    0xE000_0000,
    0xF000_0000,
    0xFFFF_FFC0,
    0xFFFF_FFFF,
];
const LENGTHS: [usize; 12] = [0, 1, 63, 64, 65, 128, 192, 65_472, 65_535, 65_536, 65_537, 65_600];

/// Every base with every length.
fn extents() -> impl Iterator<Item = (u32, usize)> {
    BASES.into_iter().flat_map(|base| LENGTHS.map(|len| (base, len)))
}

/// Rule 1 in plain words: whole areas, 1 to 1,024 of them, all in one segment below E.
fn sound((base, len): (u32, usize)) -> bool {
    let (first, end) = (base as u64, base as u64 + len as u64);
    first % 64 == 0
        && end % 64 == 0
        && first < end
        && len <= 65_536
        && first >> 28 == (end - 1) >> 28
        && first >> 28 < 14
}

/// Rule 13 in plain words: the later of the first bytes is before the earlier of the ends.
fn overlap(a: (u32, usize), b: (u32, usize)) -> bool {
    let end = |(base, len): (u32, usize)| base as u64 + len as u64;
    (a.0.max(b.0) as u64) < end(a).min(end(b))
}

#[test]
fn every_pair_of_windows_at_borders() {
    let bytes = vec![0; 65_600];
    let mut met = [0; 3];
    for first in extents() {
        for second in extents() {
            let windows = Windows::new(first.0, &bytes[..first.1], second.0, &bytes[..second.1]);
            let (kind, expected) = match second.1 {
                _ if !sound(first) => (1, refused(1, 0)),
                0 => (0, Ok(())),
                _ if !sound(second) => (1, refused(1, 0)),
                _ if overlap(first, second) => (2, refused(13, 0)),
                _ => (0, Ok(())),
            };
            met[kind] += 1;
            assert_eq!(checks::windows(&windows), expected, "{first:X?} {second:X?}");
            step(&windows, &small(), PC, expected);
        }
    }
    println!("accepted, refused with 1, with 13: {met:?}");
    assert!(met.iter().all(|n| *n > 500), "{met:?}");
}

#[test]
fn the_order_of_the_rules() {
    let (one, area) = ([0; 64], |base| Windows::new(BASE, &[0; 64][..], base, &[0; 64][..]));
    let mut bad = small();
    bad[16] = 79;
    for (image, pc, after) in [(&[][..], 1, refused(2, 0)), (&bad, 1, refused(3, 0)), (&small(), 1, refused(4, 0))] {
        step(&Windows::one(BASE + 1, &one), image, pc, refused(1, 0));
        step(&area(BASE + 1), image, pc, refused(1, 0));
        step(&area(BASE), image, pc, refused(13, 0));
        step(&area(BASE + 64), image, pc, after);
        step(&Windows::one(BASE, &one), image, pc, after);
    }
    for (pc, expected) in [(1, refused(4, 0)), (0, refused(5, 0))] {
        assert_eq!(inputs::try_start(&area(BASE + 64), &small(), pc, 0xD_0002, 0), expected);
    }
}

#[test]
fn odd_starting_addresses() {
    for (pc, ok) in [(0u32, true), (1, false), (2, true), (0x8000_0001, false), (u32::MAX, false), (u32::MAX - 1, true)]
    {
        step(&Windows::one(BASE, &[0; 64]), &small(), pc, if ok { Ok(()) } else { refused(4, 0) });
    }
}

/// So many bodies of both lengths: apart, or where the one before ends, or at the last load address before that.
fn drawn_bodies(draw: &mut impl FnMut() -> u32, n: u32) -> Vec<Body> {
    let mut bodies: Vec<Body> = (0..n).map(|i| body(PC + 64 * i, (draw() % 4 + 1) as usize)).collect();
    for record in bodies.iter_mut().flat_map(|body| &mut body.records).filter(|_| draw() % 2 == 0) {
        *record = record.short();
    }
    for k in 1..bodies.len() {
        let end = bodies[k - 1].end();
        bodies[k].load = match draw() % 4 {
            0 | 1 => end.next_multiple_of(4),
            2 => end & !3,
            _ => bodies[k].load,
        };
    }
    bodies
}

/// Damaged images and windows, made from a seed.
#[test]
fn the_second_model_agrees_on_damaged_inputs() {
    let mut seed = 0x2545_F491u32;
    let mut draw = move || {
        seed ^= seed << 13;
        seed ^= seed >> 17;
        seed ^= seed << 5;
        seed
    };
    let (mut accepted, mut by_number) = (0, [0u32; 14]);
    for _ in 0..200_000 {
        let n = draw() % 3 + 1;
        let bodies = drawn_bodies(&mut draw, n);
        let mut bytes = build(&bodies);
        let mut memory = linked(8);
        if draw() % 2 == 0 {
            let at = draw() as usize % bytes.len();
            bytes[at] = if draw() % 2 == 0 { draw() as u8 } else { bytes[at].wrapping_add(1) };
        }
        for _ in 0..draw() % 3 {
            put(&mut memory, 64 * (draw() as usize % 8), 0xD_0000 + draw() % 10);
        }
        // the memory as two windows in either order, sometimes as one; one of them is sometimes moved
        let (lower, upper) = memory.split_at(64 * (draw() % 8 + 1) as usize);
        let mut bases = [BASE, BASE + lower.len() as u32];
        match draw() % 20 {
            0 => bases[0] += draw() % 128,
            1 => bases[1] += draw() % 128,
            2 => bases[1] -= 64 * (draw() % 4),
            _ => {}
        }
        let windows = match draw() % 2 {
            0 => Windows::new(bases[0], lower, bases[1], upper),
            _ if upper.is_empty() => Windows::new(bases[0], lower, draw(), upper),
            _ => Windows::new(bases[1], upper, bases[0], lower),
        };
        let pc = if draw() % 20 == 0 { draw() } else { PC };
        let head = |d: u32| if d % 4 == 0 { 0 } else { 0xD_0000 + d / 4 % 9 };
        let (fcx, pcxi) = (head(draw()), head(draw()));
        let expected = checks::start(&windows, &bytes, pc, fcx, pcxi);
        assert_eq!(inputs::try_start(&windows, &bytes, pc, fcx, pcxi), expected);
        assert_eq!(inputs::try_step(&windows, &bytes, pc), checks::step(&windows, &bytes, pc));
        match expected {
            Ok(()) => accepted += 1,
            Err(r) => by_number[r.number as usize] += 1,
        }
    }
    println!("accepted {accepted}, refused by number {by_number:?}");
    let met = [1, 2, 3, 4, 5, 6, 13].iter().all(|number| by_number[*number] > 1000);
    assert!(accepted > 1000 && met, "{accepted} {by_number:?}");
}
