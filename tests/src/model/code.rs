//! The records of an accepted image, found by address.

use super::image::{length, word};
use super::operations::Operation;
use std::mem::take;

#[derive(Debug, Clone, Copy)]
pub struct Instruction {
    pub operation: Operation,
    pub c: usize,
    pub a: usize,
    pub b: u8,
    pub immediate: u32,
    /// How many addresses it covers.
    pub length: u32,
}

impl Instruction {
    #[inline(always)]
    fn new(record: [u8; 8], length: u32) -> Instruction {
        let word = u64::from_le_bytes(record);
        Instruction {
            operation: Operation::ALL[(word & 127) as usize],
            c: (word >> 8 & 15) as usize,
            a: (word >> 16 & 15) as usize,
            b: (word >> 24) as u8,
            immediate: (word >> 32) as u32,
            length,
        }
    }
}

pub trait Code {
    /// The instruction whose record begins at PC.
    fn fetch(&mut self, pc: u32) -> Option<Instruction>;
}

struct Entry<'a> {
    load: u32,
    body: &'a [[u8; 8]],
}

impl<'a> Entry<'a> {
    fn new(image: &'a [u8], k: usize) -> Entry<'a> {
        let [load, records, offset] = [4, 8, 12].map(|at| word(image, 12 * k + at));
        let body = &image[offset as usize..offset as usize + 8 * records as usize];
        Entry { load, body: body.as_chunks().0 }
    }

    /// Where all records are long.
    #[inline]
    fn at(&self, pc: u32) -> Option<[u8; 8]> {
        let distance = pc.wrapping_sub(self.load);
        // the low two bits are turned to the top, so that a PC within a record is past every body
        self.body.get(distance.rotate_right(2) as usize).copied()
    }
}

/// The code of an image without short forms.
pub struct Long<'a> {
    image: &'a [u8],
    /// The entry of the latest fetch: the next one is mostly in it.
    latest: Entry<'a>,
}

impl<'a> Long<'a> {
    pub fn new(image: &'a [u8]) -> Long<'a> {
        Long { image, latest: Entry::new(image, 0) }
    }

    #[cold]
    fn search(&mut self, pc: u32) -> Option<[u8; 8]> {
        for k in 0..word(self.image, 0) as usize {
            let entry = Entry::new(self.image, k);
            if let Some(record) = entry.at(pc) {
                self.latest = entry;
                return Some(record);
            }
        }
        None
    }
}

impl Code for Long<'_> {
    #[inline]
    fn fetch(&mut self, pc: u32) -> Option<Instruction> {
        let record = match self.latest.at(pc) {
            Some(record) => record,
            None => self.search(pc)?,
        };
        Some(Instruction::new(record, 4))
    }
}

/// An entry with its table: for each halfword of the code range eight times the number of the record that begins there, and
/// its length; 0 where none does.
struct Listed<'a> {
    entry: Entry<'a>,
    table: Vec<u32>,
}

impl Listed<'_> {
    #[inline]
    fn at(&self, pc: u32) -> Option<Instruction> {
        let distance = pc.wrapping_sub(self.entry.load);
        // an odd distance is past every table
        let listed = *self.table.get(distance.rotate_right(1) as usize)?;
        // the next address waits for the table alone
        (listed != 0).then(|| Instruction::new(self.entry.body[listed as usize / 8], listed % 8))
    }
}

impl Entry<'_> {
    /// Whether the code range could have PC, however long its records are.
    fn may_have(&self, pc: u32) -> bool {
        (pc.wrapping_sub(self.load) as usize) < 4 * self.body.len()
    }

    /// By a walk.
    fn walked_to(&self, pc: u32) -> Option<Instruction> {
        let distance = pc.wrapping_sub(self.load);
        let mut begins = 0;
        for record in self.body {
            let length = length(record[0]);
            if begins >= distance {
                return (begins == distance).then(|| Instruction::new(*record, length));
            }
            begins += length;
        }
        None
    }

    fn table(&self) -> Vec<u32> {
        let mut table = vec![0; 2 * self.body.len()];
        let mut at = 0;
        for (record, number) in self.body.iter().zip(0..) {
            let length = length(record[0]);
            table[at] = 8 * number + length;
            at += length as usize / 2;
        }
        table.truncate(at);
        table
    }
}

/// The code of any image.
pub struct Mixed<'a> {
    image: &'a [u8],
    /// The entry of the latest fetch by a table, and its number.
    latest: Listed<'a>,
    number: usize,
    /// The entries that were walked, a bit each, and the tables of those that were left.
    walked: u32,
    tables: Vec<Vec<u32>>,
}

impl<'a> Mixed<'a> {
    pub fn new(image: &'a [u8]) -> Mixed<'a> {
        let latest = Listed { entry: Entry::new(image, 0), table: Vec::new() };
        Mixed { image, latest, number: 0, walked: 0, tables: Vec::new() }
    }

    /// The first fetch in a body walks, as that of a single step does; the second one makes the table.
    #[cold]
    fn search(&mut self, pc: u32) -> Option<Instruction> {
        let entries = word(self.image, 0) as usize;
        for k in 0..entries {
            let entry = Entry::new(self.image, k);
            if !entry.may_have(pc) {
                continue;
            }
            let found = if self.walked & 1 << k == 0 {
                self.walked |= 1 << k;
                entry.walked_to(pc)
            } else {
                self.tables.resize(entries, Vec::new());
                self.turn_to(k, entry);
                self.latest.at(pc)
            };
            if found.is_some() {
                return found;
            }
        }
        None
    }

    /// Makes an entry the latest.
    fn turn_to(&mut self, k: usize, entry: Entry<'a>) {
        self.tables[self.number] = take(&mut self.latest.table);
        let mut table = take(&mut self.tables[k]);
        if table.is_empty() {
            table = entry.table();
        }
        self.latest = Listed { entry, table };
        self.number = k;
    }
}

impl Code for Mixed<'_> {
    #[inline]
    fn fetch(&mut self, pc: u32) -> Option<Instruction> {
        match self.latest.at(pc) {
            None => self.search(pc),
            found => found,
        }
    }
}
