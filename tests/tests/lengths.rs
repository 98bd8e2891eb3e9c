//! Records of two lengths: rules 2 and 3 by the operation byte, and where records begin, against the proved checks and the second
//! model.

use deqbaryn_tests::generate::series;
use deqbaryn_tests::inputs::{self, Fields};
use deqbaryn_tests::model::checks::{self, Refusal};
use deqbaryn_tests::model::code::{Code, Instruction, Long, Mixed};
use deqbaryn_tests::model::image::{bodies, build, record_at, Body, Record};
use deqbaryn_tests::rules::{put, refused};

const LOAD: u32 = 0x8000_0000;

/// Both answer alike, and as expected.
fn image(bytes: &[u8], expected: Result<(), Refusal>) {
    assert_eq!(inputs::check_image(bytes), expected);
    assert_eq!(checks::image(bytes), expected);
}

/// NOPs, each of this length.
fn body(load: u32, lengths: &[u32]) -> Body {
    let record = |length: &u32| if *length == 2 { Record::NOP.short() } else { Record::NOP };
    Body { load, records: lengths.iter().map(record).collect() }
}

fn is_operation(byte: u8) -> bool {
    matches!(byte, 0..=78 | 128..=206)
}

#[test]
fn every_operation_byte() {
    for byte in 0..=255u8 {
        for index in 0..4 {
            let mut bytes = build(&[body(LOAD, &[4, 2, 4]), body(LOAD + 0x100, &[2])]);
            bytes[28 + 8 * index as usize] = byte;
            image(&bytes, if is_operation(byte) { Ok(()) } else { refused(3, index) });
        }
    }
}

#[test]
fn the_other_fields_of_short_forms() {
    for byte in 128..=206u8 {
        for (field, most) in [(1, 15), (2, 15), (3, if (185..=190).contains(&byte) { 15 } else { 16 })] {
            for value in [0, 15, 16, 17, 128, 255] {
                let mut bytes = build(&[body(LOAD, &[4, 2, 4])]);
                bytes[24] = byte;
                bytes[24 + field] = value;
                image(&bytes, if value <= most { Ok(()) } else { refused(3, 1) });
            }
        }
    }
}

/// Two records with the byte, and a body where they end if they are short.
#[test]
fn a_length_is_told_by_bit_7_alone() {
    for byte in 0..=255u8 {
        let mut bytes = build(&[body(LOAD, &[4, 4]), body(LOAD + 4, &[4])]);
        (bytes[28], bytes[36]) = (byte, byte);
        let expected = match byte {
            0..=127 => refused(2, 2),
            _ if is_operation(byte) => Ok(()),
            _ => refused(3, 0),
        };
        image(&bytes, expected);
        put(&mut bytes, 16, LOAD + 8);
        image(&bytes, if is_operation(byte) { Ok(()) } else { refused(3, 0) });
        // at the end of what may be code
        let mut bytes = build(&[body(0xDFFF_FFFC, &[4, 4])]);
        (bytes[16], bytes[24]) = (byte, byte);
        image(&bytes, if expected == refused(2, 2) { refused(2, 1) } else { expected });
    }
}

#[test]
fn ranges_touch_and_overlap_by_their_true_ends() {
    for (lengths, end) in
        [(&[2][..], 2), (&[2, 2], 4), (&[2, 2, 2], 6), (&[4, 2], 6), (&[2, 4], 6), (&[2, 4, 2], 8), (&[2; 7], 14)]
    {
        for load in (0..=4 * lengths.len() as u32 + 4).step_by(2) {
            let right = load % 4 == 0 && load >= end;
            let expected = if right { Ok(()) } else { refused(2, 2) };
            image(&build(&[body(LOAD, lengths), body(LOAD + load, &[4])]), expected);
            image(&build(&[body(LOAD, lengths), body(LOAD + load, &[2])]), expected);
        }
    }
}

#[test]
fn the_entry_at_fault_is_the_later_one() {
    let third = |load| [body(LOAD, &[2, 2]), body(LOAD + 4, &[2, 4, 2]), body(load, &[2]), body(load + 4, &[2, 2])];
    image(&build(&third(LOAD + 12)), Ok(()));
    image(&build(&third(LOAD + 8)), refused(2, 3));
    // a long record in the first body, and the second overlaps it
    let mut bytes = build(&third(LOAD + 12));
    bytes[52] = 0;
    image(&bytes, refused(2, 2));
    // in the second one: the third does
    let mut bytes = build(&third(LOAD + 12));
    bytes[68] = 0;
    image(&bytes, refused(2, 3));
    // rule 2 comes first
    bytes[52] = 207;
    image(&bytes, refused(2, 3));
    bytes[68] = 128;
    image(&bytes, refused(3, 0));
}

#[test]
fn true_ends_stay_below_segment_e() {
    for (load, lengths, ok) in [
        (0xDFFF_FFFC, &[4][..], true),
        (0xDFFF_FFFC, &[2], true),
        (0xDFFF_FFFC, &[2, 2], true),
        (0xDFFF_FFFC, &[2, 4], false),
        (0xDFFF_FFFC, &[4, 2], false),
        (0xDFFF_FFFC, &[2, 2, 2], false),
        (0xDFFF_FFF8, &[2, 4, 2], true),
        (0xDFFF_FFF8, &[4, 4, 2], false),
        (0xE000_0000, &[2], false),
        (0xFFFF_FFFC, &[2, 2], false),
        (0xFFFF_FFFC, &[2], false),
    ] {
        image(&build(&[body(load, lengths)]), if ok { Ok(()) } else { refused(2, 1) });
        image(&build(&[body(LOAD, &[2]), body(load, lengths)]), if ok { Ok(()) } else { refused(2, 2) });
    }
}

#[test]
fn full_bodies_of_both_lengths() {
    let mixed: Vec<u32> = (0..65_536).map(|k| if k % 3 == 0 { 4 } else { 2 }).collect();
    for lengths in [&[2; 65_536][..], &mixed] {
        let length: u32 = lengths.iter().sum();
        let load = (0xE000_0000 - length) & !3;
        image(&build(&[body(load, lengths)]), Ok(()));
        image(&build(&[body(load + 4, lengths)]), refused(2, 1));
        let next = (LOAD + length).next_multiple_of(4);
        image(&build(&[body(LOAD, lengths), body(next, lengths)]), Ok(()));
        image(&build(&[body(LOAD, lengths), body(next - 4, lengths)]), refused(2, 2));
    }
    // sixteen of them, each where the one before ends
    let length: u32 = mixed.iter().sum();
    let stride = length.next_multiple_of(4);
    let mut bytes = build(&(0..16).map(|k| body(stride * k, &mixed)).collect::<Vec<_>>());
    image(&bytes, Ok(()));
    put(&mut bytes, 4 + 12 * 15, stride * 15 - 4);
    image(&bytes, refused(2, 16));
}

fn fields(r: Record) -> Fields {
    Fields { length: r.length() as u8, c: r.c, a: r.a, b: r.b, imm: r.imm }
}

fn instruction_fields(i: Instruction) -> Fields {
    Fields { length: i.length as u8, c: i.c as u8, a: i.a as u8, b: i.b, imm: i.immediate }
}

/// The proved fetch, the walk and the second model's fetch, by a walk and by its table, agree.
fn found(bytes: &[u8], code: &mut impl Code, pc: u32) -> Option<Record> {
    let record = record_at(bytes, pc);
    let expected = record.map(fields);
    assert_eq!(inputs::fetch(bytes, pc), expected, "{pc:X}");
    assert_eq!(Mixed::new(bytes).fetch(pc).map(instruction_fields), expected, "{pc:X}");
    assert_eq!(code.fetch(pc).map(instruction_fields), expected, "{pc:X}");
    record
}

#[test]
fn records_are_found_where_they_begin() {
    let record = |k: u32| Record {
        op: [0, 128, 206, 78, 129, 185, 57][k as usize % 7],
        c: (k % 16) as u8,
        a: (k / 3 % 16) as u8,
        b: (k / 5 % 16) as u8,
        imm: k.wrapping_mul(0x9E37_79B9),
    };
    // the second body begins where the first one ends, the third one two addresses after the second
    let bytes = build(&[
        Body { load: 0x100, records: (0..3).map(record).collect() },
        Body { load: 0x108, records: [3, 4, 5, 6, 8].map(record).to_vec() },
        Body { load: 0x118, records: (7..10).map(record).collect() },
        Body { load: 0xDFFF_FFF8, records: (7..10).map(record).collect() },
    ]);
    let begins: [(u32, u32); 14] = [
        (0x100, 0),
        (0x104, 1),
        (0x106, 2),
        (0x108, 3),
        (0x10C, 4),
        (0x10E, 5),
        (0x110, 6),
        (0x114, 8),
        (0x118, 7),
        (0x11C, 8),
        (0x11E, 9),
        (0xDFFF_FFF8, 7),
        (0xDFFF_FFFC, 8),
        (0xDFFF_FFFE, 9),
    ];
    let code = &mut Mixed::new(&bytes);
    for pc in (0xF0..0x140).chain(0xDFFF_FFE8..0xE000_0010).chain([0, 2, 0xFFFF_FFFE, u32::MAX]) {
        let expected = begins.iter().find(|(at, _)| *at == pc).map(|(_, k)| record(*k));
        assert_eq!(found(&bytes, code, pc), expected, "{pc:X}");
    }
    assert_eq!(inputs::fetch(&bytes[..bytes.len() - 1], 0x100), None);
}

#[test]
fn records_of_drawn_images_are_found() {
    let (mut met, mut mixed) = (0, 0);
    for seed in 1..=150 {
        for bytes in series(seed).images.iter().filter(|bytes| checks::image(bytes).is_ok()) {
            let all = bodies(bytes);
            let long = all.iter().flat_map(|b| &b.records).all(|r| r.length() == 4);
            let (table, indexed) = (&mut Mixed::new(bytes), &mut Long::new(bytes));
            for body in all {
                for pc in body.load.saturating_sub(6)..=body.end() + 6 {
                    met += found(bytes, table, pc).is_some() as u32;
                    if long {
                        found(bytes, indexed, pc);
                    }
                }
            }
            mixed += !long as u32;
        }
    }
    assert!(met > 20_000 && mixed > 200, "{met} {mixed}");
}
