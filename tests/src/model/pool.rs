//! The pool walk: its whole output for an image.

use super::checks;
use super::code::Mixed;
use super::core::Core;
use super::event::Event;
use super::image::word;
use super::machine::Machine;
use super::windows::Windows;
use std::fmt::Write;

const BASE: u32 = 0xD000_0000;
const AREAS: u32 = 64;
const MOST_STEPS: u32 = 100_000;

fn linked() -> Vec<u8> {
    (1..=AREAS)
        .flat_map(|k| {
            let mut area = [0; 64];
            let next = if k < AREAS { 0xD_0000 + k } else { 0u32 };
            area[..4].copy_from_slice(&next.to_le_bytes());
            area
        })
        .collect()
}

pub fn walk(image: &[u8]) -> String {
    if image.len() > 65_536 {
        return "long\n".into();
    }
    let mut windows = Windows::one(BASE, linked());
    let mut core = Core { psw: 0x0000_0B80, btv: 0x8001_0000, fcx: 0xD_0000, ..Core::default() };
    // rule 2 makes the first load address even
    if let Err(refusal) = checks::start(&windows, image, 0, core.fcx, core.pcxi) {
        return format!("refused {} {}\n", refusal.number, refusal.place);
    }
    core.pc = word(image, 4);
    let mut machine = Machine::new(core, windows.lent(), Mixed::new(image), ());
    let mut text = String::from("event pc next fcx pcxi\n");
    let mut made = 0;
    while made < MOST_STEPS {
        let pc = machine.core.pc;
        let event = match machine.step() {
            Ok(event) => event,
            Err(stop) => {
                writeln!(text, "stop {}", stop.number()).unwrap();
                break;
            }
        };
        made += 1;
        let name = match event {
            Event::Instruction => "ins",
            Event::Interrupt { .. } => "int",
            Event::Trap(_) => "trap",
        };
        let core = &machine.core;
        writeln!(text, "{name} {pc:08X} {:08X} {:08X} {:08X}", core.pc, core.fcx, core.pcxi).unwrap();
        if name == "trap" {
            break;
        }
    }
    writeln!(text, "end {made}").unwrap();
    text
}
