//! The header and the reference page name every number, as documents 01 and 02 have it, and no other; the order of the rules, the
//! version, the page's results and its image hold.

use deqbaryn_tests::host::{run, start, step, version};
use deqbaryn_tests::integer::compute;
use deqbaryn_tests::model::core::{NAMES as CORE, RECORD};
use deqbaryn_tests::model::event::{answer, SYS_CLASS, TRAPS, TRAP_NAMES};
use deqbaryn_tests::model::fields::psw;
use deqbaryn_tests::model::image::{build, Body, Record, SHORT};
use deqbaryn_tests::model::operations::NAMES;
use deqbaryn_tests::model::system::offset;
use std::collections::{BTreeMap, BTreeSet};

const HEADER: &str = include_str!("../../include/deqbaryn.h");
const PAGE: &str = include_str!("../../docs/REFERENCE.md");

type Numbers = BTreeMap<String, u32>;

fn number(text: &str) -> u32 {
    match text.strip_prefix("0x") {
        Some(hex) => u32::from_str_radix(hex, 16).unwrap(),
        None => text.parse().unwrap(),
    }
}

/// The text after `from`, up to `to`.
fn between(text: &'static str, from: &str, to: &str) -> &'static str {
    let (_, rest) = text.split_once(from).unwrap_or_else(|| panic!("{from}"));
    rest.split_once(to).unwrap_or_else(|| panic!("{to}")).0
}

/// The members of an enum of the header, as they stand in it.
fn listed(name: &str) -> impl Iterator<Item = (&'static str, u32)> {
    between(HEADER, &format!("enum deqbaryn_{name} {{"), "};").split("DEQBARYN_").skip(1).map(|part| {
        let (name, rest) = part.split_once(" = ").unwrap();
        let digits: String = rest.chars().take_while(|c| c.is_ascii_alphanumeric()).collect();
        (name, number(&digits))
    })
}

/// The same by name, without the prefix.
fn members(name: &str, prefix: &str) -> Numbers {
    let mut found = Numbers::new();
    for (name, n) in listed(name) {
        let short = name.strip_prefix(prefix).unwrap_or_else(|| panic!("{name}"));
        assert_eq!(found.insert(short.to_string(), n), None, "{name} twice");
    }
    found
}

/// The rules in the order of the header: the first one is tried on each window.
fn order() -> Vec<u32> {
    let rules: Vec<u32> = listed("refusal").map(|(_, n)| n).collect();
    [&rules[..1], &rules].concat()
}

/// The decimal numbers of a text.
fn numbers(text: &str) -> Vec<u32> {
    text.split(|c: char| !c.is_ascii_digit()).filter(|part| !part.is_empty()).map(number).collect()
}

fn table<'a>(rows: impl Iterator<Item = (&'a str, u32)>) -> Numbers {
    rows.map(|(name, n)| (name.replace('.', "_"), n)).collect()
}

fn trap_table() -> Numbers {
    let fixed = TRAP_NAMES.iter().zip(TRAPS).map(|(name, t)| (*name, 256 * t.class as u32 + t.tin as u32));
    table(fixed.chain([("SYS", 256 * SYS_CLASS as u32)]))
}

fn cells(line: &str) -> Vec<&str> {
    line[1..line.len() - 1].split('|').map(str::trim).collect()
}

/// The cells of the page's table rows.
fn rows() -> impl Iterator<Item = Vec<&'static str>> {
    PAGE.lines().filter(|line| line.starts_with("| ")).map(cells)
}

/// The rows of the page's table with that head.
fn rows_under(head: &str) -> impl Iterator<Item = Vec<&'static str>> + use<'_> {
    PAGE.lines().skip_while(move |line| *line != head).skip(2).take_while(|line| !line.is_empty()).map(cells)
}

/// An operation's name and operands: a shift's second one is a decimal count.
fn operands(cell: &str) -> (&str, u32, u32) {
    let (name, rest) = cell.split_once(' ').unwrap();
    let hex = |text| u32::from_str_radix(text, 16).unwrap();
    match (rest.split_once(", "), rest.split_once(" by ")) {
        (Some((a, b)), _) => (name, hex(a), hex(b)),
        (_, Some((a, count))) => (name, hex(a), count.replace('−', "-").parse::<i32>().unwrap() as u32),
        _ => (name, hex(rest), 0),
    }
}

#[test]
fn the_header_has_the_operations() {
    assert_eq!(members("operation", "OP_"), table(NAMES.into_iter().zip(0..)));
}

#[test]
fn the_header_has_the_traps() {
    assert_eq!(members("trap", "TRAP_"), trap_table());
}

#[test]
fn the_header_has_the_core_record_and_the_offsets() {
    let mut at = members("at", "AT_");
    for (name, byte) in [("D", 0), ("A", 64), ("REQUESTS", 168), ("RANGES", 232)] {
        assert_eq!(at.remove(name), Some(byte), "{name}");
    }
    assert_eq!(at, table(CORE.into_iter().zip((128..).step_by(4))));
    let offsets = members("offset", "OFFSET_");
    assert_eq!(offsets.len(), offset::ALL.len());
    let names = ["PCXI", "PSW", "PC", "SYSCON", "BIV", "BTV", "ISP", "ICR", "FCX", "LCX"];
    assert_eq!(offsets, table(names.into_iter().zip(offset::ALL)));
}

#[test]
fn the_header_has_the_refusals_and_the_stops() {
    let numbers = |name| members(name, "").into_values().collect::<BTreeSet<_>>();
    assert_eq!(numbers("refusal"), (1..=6).chain([13]).collect());
    assert_eq!(numbers("stop"), (11..=12).collect());
    assert_eq!(numbers("kind"), (0..=6).collect());
}

#[test]
fn the_header_has_the_short_forms() {
    let line = between(HEADER, "#define DEQBARYN_SHORT ", "\n");
    assert_eq!(number(line.split_whitespace().next().unwrap()), SHORT as u32);
}

#[test]
fn the_version_is_the_library_s() {
    let [header, page] = [(HEADER, "#define DEQBARYN_VERSION ", "\n"), (PAGE, "`DEQBARYN_VERSION` is ", ". ")]
        .map(|(text, from, to)| number(between(text, from, to)));
    assert_eq!([header, page], [version(); 2]);
}

/// What a call is lent.
struct Lent {
    core: [u8; RECORD],
    base: u32,
    window: [u8; 64],
    second_base: u32,
    second: [u8; 64],
    image: Vec<u8>,
}

/// Inputs that hold the first `held` rules of `order` and break the others.
fn holding(held: usize) -> Lent {
    let holds = |n: usize| held > n;
    let mut lent = Lent {
        core: [0; RECORD],
        base: if holds(0) { 0xD000_0000 } else { 0xD000_0001 },
        window: [0; 64],
        second_base: match held {
            0 | 1 => 0xD000_0001,
            2 => 0xD000_0000,
            _ => 0xD000_0040,
        },
        second: [0; 64],
        image: Vec::new(),
    };
    if holds(3) {
        let record = Record { op: if holds(4) { 0 } else { 79 }, ..Record::NOP };
        lent.image = build(&[Body { load: 0x8000_0000, records: vec![record] }]);
    }
    // the free list leads past both windows, the used one in a circle
    lent.window[..4].copy_from_slice(&0xD_0000u32.to_le_bytes());
    let pc = if holds(5) { 0x8000_0000 } else { 0x8000_0001 };
    let fcx = if holds(6) { 0 } else { 0xD_0002 };
    let pcxi = if holds(7) { 0 } else { 0xD_0000 };
    for (at, word) in [(128, pc), (136, pcxi), (140, fcx)] {
        lent.core[at..at + 4].copy_from_slice(&u32::to_le_bytes(word));
    }
    lent
}

#[test]
fn the_rules_are_tried_in_the_header_s_order() {
    let order = order();
    assert_eq!(order.len(), 8);
    // of a step and a run: 1 on both windows and the next four
    let of_a_step = 6;
    for held in 0..=order.len() {
        let Lent { mut core, base, mut window, second_base, mut second, image } = holding(held);
        let refused = order.get(held).map(|n| 4 | (*n as u64) << 8);
        let answer = start(&core, base, &window, second_base, &second, &image);
        assert_eq!(answer, refused.unwrap_or(answer::ACCEPTED), "a start with {held} held");
        let refused = refused.filter(|_| held < of_a_step);
        let answer = step(&mut core, base, &mut window, second_base, &mut second, &image);
        assert_eq!(answer, refused.unwrap_or(0), "a step with {held} held");
        let answer = run(&mut core, base, &mut window, second_base, &mut second, &image, 0);
        assert_eq!(answer, refused.unwrap_or(0), "a run with {held} held");
    }
}

#[test]
fn the_order_is_told_as_it_is() {
    assert_eq!(numbers(between(HEADER, "order in which they are tried: ", " on each link")), order());
    assert_eq!(numbers(between(PAGE, "**Order of the rules.** ", " at each link")), order());
    let rows = rows().filter(|cells| cells.len() == 5 && cells[0] == "4");
    assert_eq!(rows.map(|cells| number(cells[1])).collect::<Vec<_>>(), order()[1..]);
}

#[test]
fn the_page_has_the_places_of_every_refusal() {
    let found: BTreeSet<u32> = rows_under("| refusal | bits 63:32 |").flat_map(|cells| numbers(cells[0])).collect();
    assert_eq!(found, order().into_iter().collect());
}

#[test]
fn the_page_has_the_operations() {
    let found: Numbers = rows()
        .filter(|cells| cells.len() >= 6 && cells[0].parse::<u8>().is_ok() && cells[1].len() == 2)
        .map(|cells| {
            let n: u32 = cells[0].parse().unwrap();
            assert_eq!(u32::from_str_radix(cells[1], 16), Ok(n), "{cells:?}");
            (cells[2].replace('.', "_"), n)
        })
        .collect();
    assert_eq!(found, table(NAMES.into_iter().zip(0..)));
}

#[test]
fn the_page_has_every_number_of_the_header() {
    let mut found: BTreeMap<String, (u32, u32, u32)> = BTreeMap::new();
    for cells in rows().filter(|cells| cells.len() == 5 && cells[3].starts_with('`')) {
        // a row of several numbers is known by the first
        let first = |cell: &str| cell.split(' ').next().unwrap().parse().unwrap();
        let name = cells[3].trim_matches('`').to_string();
        assert_eq!(found.insert(name, (first(cells[0]), first(cells[1]), first(cells[2]))), None, "{cells:?}");
    }
    let mut expected = BTreeMap::new();
    for (name, n) in members("trap", "") {
        expected.insert(name, (2, n / 256, n % 256));
    }
    for (kind, of) in [(3, "stop"), (4, "refusal")] {
        for (name, n) in members(of, "") {
            expected.insert(name, (kind, n, 0));
        }
    }
    for (name, kind) in members("kind", "") {
        if !(2..=4).contains(&kind) {
            expected.insert(name, (kind, 0, 0));
        }
    }
    assert_eq!(found, expected);
}

#[test]
fn the_page_s_results_hold() {
    let mut count = 0;
    for row in rows_under("| operation | result | flags |") {
        let (name, a, b) = operands(row[0]);
        for before in [0, psw::C | psw::V | psw::SV | psw::AV | psw::SAV] {
            let (word, after) = compute(name, a, b, before);
            assert_eq!(format!("{word:08X}"), row[1], "{row:?}");
            for flag in row[2].split(", ").filter(|flag| !flag.is_empty()) {
                let (name, value) = flag.split_once(' ').unwrap();
                let bit = [("C", psw::C), ("V", psw::V), ("AV", psw::AV)].into_iter().find(|b| b.0 == name).unwrap().1;
                assert_eq!((after & bit != 0) as u32, number(value), "{row:?}: {name}");
            }
            assert!(!row[2].is_empty() || after == before, "{row:?}");
        }
        count += 1;
    }
    assert_eq!(count, 17);
}

#[test]
fn the_page_s_worked_image_is_accepted() {
    let mut image: Vec<u8> = Vec::new();
    for cells in rows().filter(|cells| cells.len() == 3 && cells[1].starts_with('`')) {
        assert_eq!(cells[0].parse(), Ok(image.len()), "{cells:?}");
        image.extend(cells[1].trim_matches('`').split(' ').map(|b| u8::from_str_radix(b, 16).unwrap()));
    }
    assert_eq!(image.len(), 92);
    let mut core = [0; RECORD];
    core[128..132].copy_from_slice(&0x8000_0000u32.to_le_bytes());
    assert_eq!(start(&core, 0xD000_0000, &[0; 64], 0, &[], &image), answer::ACCEPTED);
}
