//! A readable account of two sides that differ.

use crate::model::checks;
use crate::model::core::{NAMES, RECORD};
use crate::model::image::{record_at, word, SHORT};
use crate::model::operations;
use crate::model::windows::{Window, Windows};
use std::fmt::Write;

/// The name of a word of the core's record.
fn name(k: usize) -> String {
    match k {
        0..16 => format!("D{k}"),
        16..32 => format!("A{}", k - 16),
        32..42 => NAMES[k - 32].into(),
        42..58 => format!("request {}", k - 42),
        _ => format!("range {} {}", (k - 58) / 3, ["lower", "upper", "mode"][(k - 58) % 3]),
    }
}

fn describe(answer: u64) -> String {
    let [kind, number, tin] = [answer, answer >> 8, answer >> 16].map(|b| b as u8);
    let kind = match kind {
        0 => "instruction".into(),
        1 => format!("interrupt of source {number}"),
        2 => format!("trap {number}/{tin}"),
        3 => format!("stop {number}"),
        4 => format!("refused {number}"),
        5 => "record of a wrong length".into(),
        6 => "accepted".into(),
        _ => "no kind".into(),
    };
    let (fetch, data) = (answer >> 24 & 7, answer >> 27 & 7);
    format!("{answer:016X} ({kind}, ranges {fetch} and {data}, high word {})", answer >> 32)
}

/// The words that differ between two sides of the same length.
fn words(text: &mut String, proved: &[u8], model: &[u8], name: impl Fn(usize) -> String) {
    for k in 0..proved.len() / 4 {
        let (p, m) = (word(proved, 4 * k), word(model, 4 * k));
        if p != m {
            writeln!(text, "  {}: proved {p:08X}, model {m:08X}", name(k)).unwrap();
        }
    }
}

/// A side after a call: answer, core's record, windows.
pub type Side<'a> = (u64, &'a [u8], &'a Windows<Vec<u8>>);

pub fn difference(proved: Side, model: Side) -> String {
    let mut text = String::new();
    if proved.0 != model.0 {
        writeln!(text, "  answer: proved {}, model {}", describe(proved.0), describe(model.0)).unwrap();
    }
    words(&mut text, proved.1, model.1, name);
    let mut window = |p: &Window<Vec<u8>>, m: &Window<Vec<u8>>| {
        words(&mut text, &p.bytes, &m.bytes, |k| format!("[{:08X}]", p.base.wrapping_add(4 * k as u32)));
    };
    window(&proved.2.first, &model.2.first);
    window(&proved.2.second, &model.2.second);
    text
}

/// The windows' bases and lengths.
pub fn extents(Windows { first, second }: &Windows<Vec<u8>>) -> String {
    let [first, second] = [first, second].map(|w| format!("{} bytes at {:08X}", w.bytes.len(), w.base));
    format!("  windows: {first}; {second}")
}

/// The record that a core is at, and the registers that decide most of a step.
pub fn place(core: &[u8], image: &[u8]) -> String {
    if core.len() < RECORD {
        return format!("  a record of {} bytes", core.len());
    }
    let at = |name: &str| word(core, 4 * (32 + NAMES.iter().position(|n| *n == name).unwrap()));
    let mut text = String::from(" ");
    for name in NAMES {
        write!(text, " {name} {:08X}", at(name)).unwrap();
    }
    let record = if checks::image(image).is_ok() { record_at(image, at("PC")) } else { None };
    match record {
        Some(r) => {
            let operation = operations::NAMES[(r.op & !SHORT) as usize];
            let fields = format!("c {} a {} b {} immediate {:08X}", r.c, r.a, r.b, r.imm);
            write!(text, "\n  at {operation}, {} addresses, {fields}", r.length()).unwrap();
        }
        None => text.push_str("\n  at no record"),
    }
    text
}
