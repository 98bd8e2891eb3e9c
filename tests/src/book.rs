//! The book of demand 3: a row of free links and a pile of entries, fed with each step's saves and return.

use crate::model::core::Core;
use crate::model::event::Stop;
use crate::model::fields::{pcxi::UL, LINK};
use crate::model::image::word;
use crate::model::observer::Half;
use crate::model::windows::{address_of, Windows};
use std::collections::{BTreeSet, VecDeque};

/// The registers of a half by name. PSW is in the upper one alone; the saved PC is in neither.
#[derive(Debug, Clone, Copy, PartialEq, Eq)]
pub struct Registers {
    pub pcxi: u32,
    pub psw: Option<u32>,
    /// A10 to A15, or A2 to A7.
    pub a: [u32; 6],
    /// D8 to D15, or D0 to D7.
    pub d: [u32; 8],
}

impl Registers {
    pub fn of(core: &Core, half: Half) -> Registers {
        let (psw, a, d) = match half {
            Half::Upper => (Some(core.psw), &core.a[10..16], &core.d[8..16]),
            Half::Lower => (None, &core.a[2..8], &core.d[0..8]),
        };
        Registers { pcxi: core.pcxi, psw, a: a.try_into().unwrap(), d: d.try_into().unwrap() }
    }

    fn of_area(area: &[u8; 64], half: Half) -> Registers {
        let at = |k: usize| word(area, 4 * k);
        Registers {
            pcxi: at(0),
            psw: (half == Half::Upper).then(|| at(1)),
            a: std::array::from_fn(|k| at(2 + k)),
            d: std::array::from_fn(|k| at(8 + k)),
        }
    }
}

#[derive(Debug, Clone, Copy, PartialEq, Eq)]
pub struct Entry {
    pub link: u32,
    pub half: Half,
    pub registers: Registers,
}

/// Both windows can hold no more areas.
const MOST_AREAS: usize = 2048;

/// The links met from a head; none where the walk leaves both windows or does not end.
fn met(windows: &Windows<Vec<u8>>, head: u32) -> Option<Vec<u32>> {
    let mut links = Vec::new();
    let mut link = head & LINK;
    while link != 0 {
        let area: &[u8; 64] = windows.part(address_of(link))?;
        if links.len() == MOST_AREAS {
            return None;
        }
        links.push(link);
        link = word(area, 0) & LINK;
    }
    Some(links)
}

pub struct Book {
    row: VecDeque<u32>,
    /// The last one is on top.
    pile: Vec<Entry>,
    /// The addresses of the areas on a list at the start.
    listed: BTreeSet<u32>,
    /// How many entries at the pile's bottom were read at the start.
    pub from_start: usize,
}

impl Book {
    /// The book of an accepted start.
    pub fn begin(core: &Core, windows: &Windows<Vec<u8>>) -> Book {
        let row: VecDeque<u32> = met(windows, core.fcx).expect("accepted").into();
        let mut pile = Vec::new();
        let mut head = core.pcxi;
        while head & LINK != 0 {
            let link = head & LINK;
            let half = if head & UL != 0 { Half::Upper } else { Half::Lower };
            let registers = Registers::of_area(windows.part(address_of(link)).expect("accepted"), half);
            pile.push(Entry { link, half, registers });
            head = registers.pcxi;
        }
        pile.reverse();
        let listed = row.iter().copied().chain(pile.iter().map(|e| e.link)).map(address_of).collect();
        let from_start = pile.len();
        Book { row, pile, listed, from_start }
    }

    /// The links of the row, and those of the pile from the top down.
    pub fn lists(&self) -> [Vec<u32>; 2] {
        [self.row.iter().copied().collect(), self.pile.iter().rev().map(|entry| entry.link).collect()]
    }

    /// Whether a store of so many bytes from an address on reaches a listed area.
    pub fn reached(&self, address: u32, size: usize) -> bool {
        [address, address + size as u32 - 1].iter().any(|byte| self.listed.contains(&(byte & !63)))
    }

    /// A step's saves, each with the registers that it finds, in their order; LCX tells whether an FCD entry is due.
    pub fn saves(&mut self, saves: &[(Half, Registers)], lcx: u32) -> Result<(), String> {
        for (k, (half, registers)) in saves.iter().enumerate() {
            let link = *self.row.front().ok_or("a save was made with the row empty")?;
            let due = if k == 0 && link == lcx & LINK { 2 } else { 1 };
            if k == 0 && saves.len() != due {
                return Err(format!("{} saves where the book has {due}", saves.len()));
            }
            self.row.pop_front();
            self.pile.push(Entry { link, half: *half, registers: *registers });
        }
        Ok(())
    }

    /// A return without a trap: the top entry comes off.
    pub fn comes_off(&mut self, half: Half, after: &Core) -> Result<(), String> {
        let entry = self.pile.pop().ok_or("a return was made with the pile empty")?;
        self.row.push_front(entry.link);
        self.from_start = self.from_start.min(self.pile.len());
        let found = Registers::of(after, half);
        if entry.half != half || entry.registers != found {
            return Err(format!("a return gave {half:X?} {found:X?}, the entry is {entry:X?}"));
        }
        Ok(())
    }

    /// A stop is due only where the row has too few links for the step.
    pub fn stopped(&self, stop: Stop, lcx: u32) -> Result<(), String> {
        let depleted = self.row.len() == 1 && self.row[0] == lcx & LINK;
        if stop != Stop::NoArea || !(self.row.is_empty() || depleted) {
            return Err(format!("stop {} with {} links in the row", stop.number(), self.row.len()));
        }
        Ok(())
    }

    /// The lists in memory against the row and the pile.
    pub fn compare(&self, core: &Core, windows: &Windows<Vec<u8>>) -> Result<(), String> {
        let [row, pile] = self.lists();
        for (name, head, expected) in [("free", core.fcx, row), ("used", core.pcxi, pile)] {
            let links = met(windows, head);
            if links.as_ref() != Some(&expected) {
                return Err(format!("the {name} list is {links:X?}, the book's {expected:X?}"));
            }
        }
        Ok(())
    }
}
