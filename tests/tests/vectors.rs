//! The outcomes of an independent emulator, every line, against the proved integer operations.

use deqbaryn_tests::integer::{answer, compute, NAMES};
use deqbaryn_tests::model::fields::psw::AV;
use deqbaryn_tests::model::integer::{self, advanced};
use deqbaryn_tests::model::operations;

struct Line {
    name: String,
    a: u32,
    b: u32,
    before: u32,
    result: u32,
    after: u32,
}

fn lines() -> Vec<Line> {
    let text = include_str!("../vectors/integer.txt");
    text.lines()
        .map(|line| {
            let mut parts = line.split(' ');
            let name = parts.next().unwrap().to_string();
            let words: Vec<u32> = parts.map(|p| u32::from_str_radix(p, 16).unwrap()).collect();
            assert_eq!(words.len(), 5, "{line}");
            Line { name, a: words[0], b: words[1], before: words[2], result: words[3], after: words[4] }
        })
        .collect()
}

#[test]
fn every_line_agrees() {
    let lines = lines();
    assert_eq!(lines.len(), 3600);
    for l in &lines {
        let answer = compute(&l.name, l.a, l.b, l.before);
        assert_eq!(answer, (l.result, l.after), "{} {:08X} {:08X} {:08X}", l.name, l.a, l.b, l.before);
    }
}

/// Of each saturating operation some lines tell AV before saturation from AV of the word written.
#[test]
fn lines_tell_where_av_is_taken() {
    let lines = lines();
    for (name, count) in [("ADDS", 4), ("ADDS.U", 10), ("SUBS", 2), ("SUBS.U", 15)] {
        let apart = lines.iter().filter(|l| l.name == name && advanced(l.result) != (l.after & AV != 0));
        assert_eq!(apart.count(), count, "{name}");
    }
}

/// RSUB has no line of its own: it is SUB with the operands exchanged.
#[test]
fn rsub_is_sub_reversed() {
    let lines = lines();
    let subs: Vec<&Line> = lines.iter().filter(|l| l.name == "SUB").collect();
    assert_eq!(subs.len(), 100);
    for l in subs {
        assert_eq!(compute("RSUB", l.b, l.a, l.before), (l.result, l.after));
    }
}

#[test]
fn the_second_model_agrees_on_every_line() {
    for l in lines() {
        let place = operations::NAMES.iter().position(|n| *n == l.name).unwrap();
        let answer = integer::compute(operations::Operation::ALL[place], l.a, l.b, l.before);
        assert_eq!(answer, (l.result, l.after), "{} {:08X} {:08X} {:08X}", l.name, l.a, l.b, l.before);
    }
}

#[test]
fn each_operation_with_lines_is_named() {
    for line in lines() {
        assert!(NAMES.contains(&line.name.as_str()), "{}", line.name);
    }
}

#[test]
fn a_short_form_is_answered_as_the_long_record() {
    for number in 1..=38 {
        let long = answer(number, 0x8000_0005, 7, 0xB80);
        assert_ne!(long, 0, "{number}");
        assert_eq!(answer(number + 128, 0x8000_0005, 7, 0xB80), long, "{number}");
    }
    assert_eq!(answer(38, 5, 7, 0xB80), 0xB80_0000_0007);
}

#[test]
fn other_bytes_are_answered_by_zero() {
    for number in (0..128).filter(|number| !(1..=38).contains(number)) {
        for byte in [number, number + 128] {
            assert_eq!(answer(byte, 5, 7, 0xB80), 0, "{byte}");
        }
    }
}
