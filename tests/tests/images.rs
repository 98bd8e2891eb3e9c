//! Rules 2 and 3: each with a good image and the nearest bad ones, against the proved checks and the second model; and the
//! records of a good one.

use deqbaryn_tests::inputs;
use deqbaryn_tests::model::checks::{self, Refusal};
use deqbaryn_tests::model::image::{build, record_at, Body, Record};
use deqbaryn_tests::rules::{body, put, refused, small};

/// Both answer alike, and as expected.
fn image(bytes: &[u8], expected: Result<(), Refusal>) {
    assert_eq!(inputs::check_image(bytes), expected);
    assert_eq!(checks::image(bytes), expected);
}

#[test]
fn entries_are_one_to_sixteen() {
    for n in [0usize, 1, 2, 15, 16, 17] {
        let bodies: Vec<Body> = (0..n).map(|i| body(0x8000_0000 + 64 * i as u32, 2)).collect();
        image(&build(&bodies), if (1..=16).contains(&n) { Ok(()) } else { refused(2, 0) });
    }
    for count in [0u32, 17, 18, 1 << 31, u32::MAX] {
        let mut bytes = small();
        put(&mut bytes, 0, count);
        image(&bytes, refused(2, 0));
    }
}

#[test]
fn tables_cut_short() {
    let whole = build(&[body(0x8000_0000, 2), body(0x8000_0100, 1)]);
    image(&whole, Ok(()));
    for len in 0..28 {
        image(&whole[..len], refused(2, 0));
    }
    // the table is whole, and the first body runs past the end; then the second one
    for len in 28..44 {
        image(&whole[..len], refused(2, 1));
    }
    for len in 44..52 {
        image(&whole[..len], refused(2, 2));
    }
}

#[test]
fn bytes_left_over() {
    for extra in [1, 7, 8, 9] {
        let mut bytes = build(&[body(0x8000_0000, 2), body(0x8000_0100, 1)]);
        bytes.extend(vec![0; extra]);
        image(&bytes, refused(2, 2));
    }
}

#[test]
fn record_counts() {
    image(&build(&[body(0x8000_0000, 0)]), refused(2, 1));
    image(&build(&[body(0x8000_0000, 1)]), Ok(()));
    image(&build(&[body(0x8000_0000, 65_536)]), Ok(()));
    image(&build(&[body(0x8000_0000, 65_537)]), refused(2, 1));
    image(&build(&[body(0x8000_0000, 1), body(0x8000_0004, 0)]), refused(2, 2));
}

#[test]
fn load_addresses() {
    for (load, ok) in [(0u32, true), (1, false), (2, false), (3, false), (4, true), (0x8000_0002, false)] {
        image(&build(&[body(load, 1)]), if ok { Ok(()) } else { refused(2, 1) });
    }
}

#[test]
fn ranges_touch_overlap_and_ascend() {
    image(&build(&[body(0x8000_0000, 4), body(0x8000_0010, 1)]), Ok(()));
    image(&build(&[body(0x8000_0000, 4), body(0x8000_000C, 1)]), refused(2, 2));
    image(&build(&[body(0x8000_0010, 1), body(0x8000_0000, 1)]), refused(2, 2));
    image(&build(&[body(0x8000_0000, 1), body(0x8000_0000, 1)]), refused(2, 2));
    image(&build(&[body(0, 1), body(8, 1), body(4, 1)]), refused(2, 3));
}

#[test]
fn ranges_stay_below_segment_e() {
    image(&build(&[body(0xDFFF_FFFC, 1)]), Ok(()));
    image(&build(&[body(0xDFFF_FFFC, 2)]), refused(2, 1));
    image(&build(&[body(0xDFFF_FFF8, 2)]), Ok(()));
    image(&build(&[body(0xE000_0000, 1)]), refused(2, 1));
    image(&build(&[body(0xFFFF_FFFC, 1)]), refused(2, 1));
}

#[test]
fn bodies_without_gaps() {
    let whole = build(&[body(0x8000_0000, 2), body(0x8000_0100, 1)]);
    for (entry, right) in [(1u32, 28u32), (2, 44)] {
        for offset in [0, right - 8, right - 1, right + 1, right + 8, u32::MAX] {
            let mut bytes = whole.clone();
            put(&mut bytes, 4 + 12 * (entry as usize - 1) + 8, offset);
            image(&bytes, refused(2, entry));
        }
    }
}

#[test]
fn record_fields() {
    let fields = [(0usize, 79u8), (1, 16), (2, 16), (3, 17)];
    for index in [0usize, 1, 2, 4] {
        for (field, bound) in fields {
            for value in [bound - 1, bound, 255] {
                let mut bytes = build(&[body(0x8000_0000, 3), body(0x8000_0100, 2)]);
                bytes[28 + 8 * index + field] = value;
                image(&bytes, if value < bound { Ok(()) } else { refused(3, index as u32) });
            }
        }
    }
}

#[test]
fn compared_registers_take_no_immediate() {
    for byte in (0..=78u8).chain(128..=206) {
        let mut bytes = small();
        bytes[16] = byte;
        bytes[19] = 16;
        image(&bytes, if (57..=62).contains(&(byte % 128)) { refused(3, 0) } else { Ok(()) });
        bytes[19] = 15;
        image(&bytes, Ok(()));
    }
}

#[test]
fn the_first_record_at_fault() {
    let mut bytes = build(&[body(0x8000_0000, 65_536), body(0x9000_0000, 65_536)]);
    image(&bytes, Ok(()));
    let last = bytes.len() - 8;
    bytes[last] = 79;
    image(&bytes, refused(3, 131_071));
    bytes[28 + 8 * 70_000 + 1] = 16;
    image(&bytes, refused(3, 70_000));
}

#[test]
fn the_largest_image() {
    let bodies: Vec<Body> = (0..16).map(|i| body(i << 24, 65_536)).collect();
    let bytes = build(&bodies);
    assert_eq!(bytes.len(), 4 + 12 * 16 + 8 * 16 * 65_536);
    image(&bytes, Ok(()));
}

#[test]
fn records_are_found_where_they_begin() {
    let record = |k: u32| Record {
        op: (k % 79) as u8,
        c: (k % 16) as u8,
        a: (k / 3 % 16) as u8,
        b: (k / 5 % 16) as u8,
        imm: k.wrapping_mul(0x9E37_79B9),
    };
    let bodies = [
        Body { load: 0x100, records: (0..3).map(record).collect() },
        Body { load: 0x10C, records: (3..5).map(record).collect() },
        Body { load: 0xDFFF_FFF0, records: (5..9).map(record).collect() },
    ];
    let bytes = build(&bodies);
    for pc in (0xF8..0x130).chain(0xDFFF_FFE8..0xE000_0008).chain([0, u32::MAX]) {
        let fields = |r: Record| inputs::Fields { length: r.length() as u8, c: r.c, a: r.a, b: r.b, imm: r.imm };
        let expected = record_at(&bytes, pc).map(fields);
        assert_eq!(inputs::fetch(&bytes, pc), expected, "{pc:X}");
        let inside = (0x100..0x114).contains(&pc) || (0xDFFF_FFF0..0xE000_0000).contains(&pc);
        assert_eq!(expected.is_some(), inside && pc % 4 == 0, "{pc:X}");
    }
    assert_eq!(inputs::fetch(&bytes[..bytes.len() - 1], 0x100), None);
}
