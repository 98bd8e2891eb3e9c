//! A small machine for worked cases: the pool walk's state and windows, held by the proved machine and by the second model.

use crate::host;
use crate::model::core::Core;
use crate::model::event::answer;
use crate::model::image::{build, record_at, Body, Record};
use crate::model::machine;
use crate::model::operations::Operation;
use crate::model::windows::{link_of, Windows};
use crate::report::difference;

pub const BASE: u32 = 0xD000_0000;
pub const LOAD: u32 = 0x8000_0000;
pub const BTV: u32 = 0x8001_0000;

/// So many areas from an address on.
pub fn areas(base: u32, count: u32) -> Vec<u32> {
    (0..count).map(|k| base + 64 * k).collect()
}

#[derive(Clone)]
pub struct Worked {
    pub core: Core,
    pub windows: Windows<Vec<u8>>,
    pub image: Vec<u8>,
}

pub fn record(op: Operation, c: u8, a: u8, b: u8, imm: u32) -> Record {
    Record { op: op as u8, c, a, b, imm }
}

/// A record without operands.
pub fn plain(op: Operation) -> Record {
    record(op, 0, 0, 0, 0)
}

impl Worked {
    /// One window of 64 areas, all free and linked ascending, and a second one of length 0.
    pub fn new(records: &[Record]) -> Worked {
        let core = Core { pc: LOAD, psw: 0xB80, btv: BTV, ..Core::default() };
        let image = build(&[Body { load: LOAD, records: records.to_vec() }]);
        let mut w = Worked { core, windows: Windows::one(BASE, vec![0; 4096]), image };
        w.core.fcx = w.chain(&areas(BASE, 64));
        w
    }

    /// The same with another number in every register, and PSW, ICR and PCXI with every field set.
    pub fn numbered(records: &[Record]) -> Worked {
        let mut w = Worked::new(records);
        for n in 0..16 {
            w.core.d[n] = 0xDD00 + n as u32;
            w.core.a[n] = 0xAA00 + n as u32;
        }
        w.core.psw = 0x0000_0B85;
        w.core.icr = 0x107;
        w.core.pcxi = 0xFF7D_0030;
        w
    }

    /// The same with two other windows, of so many areas, their bytes 0 and both lists empty.
    pub fn lent(mut self, base: u32, count: usize, second_base: u32, second_count: usize) -> Worked {
        self.windows = Windows::new(base, vec![0; 64 * count], second_base, vec![0; 64 * second_count]);
        (self.core.fcx, self.core.pcxi) = (0, 0);
        self
    }

    /// Links areas in this order, the last one to none: the link of the first.
    pub fn chain(&mut self, areas: &[u32]) -> u32 {
        let mut link = 0;
        for area in areas.iter().rev() {
            self.put(*area, link);
            link = link_of(*area);
        }
        link
    }

    fn both(
        &mut self,
        proved: impl Fn(&mut Windows<Vec<u8>>, &mut [u8], &[u8]) -> u64,
        model: impl Fn(&mut Windows<Vec<u8>>, &mut [u8], &[u8]) -> u64,
    ) -> u64 {
        let mut record = self.core.to_record();
        let (mut record_p, mut windows_p) = (record, self.windows.clone());
        let p = proved(&mut windows_p, &mut record_p, &self.image);
        let m = model(&mut self.windows, &mut record, &self.image);
        if p != m || record_p != record || windows_p != self.windows {
            panic!("the two sides differ\n{}", difference((p, &record_p, &windows_p), (m, &record, &self.windows)));
        }
        self.core = Core::from_record(&record);
        m
    }

    /// A step on both sides, which must agree: the answer.
    pub fn step(&mut self) -> u64 {
        self.both(|w, c, i| w.step(host::step, c, i), |w, c, i| w.step(machine::step, c, i))
    }

    /// A run on both sides.
    pub fn run(&mut self, n: u32) -> u64 {
        self.both(|w, c, i| w.run(host::run, c, i, n), |w, c, i| w.run(machine::run, c, i, n))
    }

    /// A start on both sides, which leaves everything as it was.
    pub fn start(&self) -> u64 {
        let start = |by| move |w: &mut Windows<Vec<u8>>, c: &mut [u8], i: &[u8]| w.start(by, c, i);
        let mut w = self.clone();
        let answer = w.both(start(host::start), start(machine::start));
        assert!(w.core == self.core && w.windows == self.windows, "a start changed something");
        answer
    }

    /// A start, a step and runs, all of which must be refused with place 0 and leave everything as it was.
    pub fn refused(&self, number: u8) {
        let mut w = self.clone();
        let answers = [w.start(), w.step(), w.run(0), w.run(1), w.run(1000)];
        assert_eq!(answers, [4 | (number as u64) << 8; 5], "another answer");
        assert!(w.core == self.core && w.windows == self.windows, "a refusal changed something");
    }

    /// A step's answer without its permitting ranges.
    fn event(&mut self) -> u64 {
        self.step() & !answer::PERMITS
    }

    /// A step that must be done.
    pub fn done(&mut self) {
        assert_eq!(self.event(), 0, "not done");
    }

    /// A step that must end in a trap, with its entry.
    pub fn trapped(&mut self, class: u8, tin: u8) {
        let a11 = self.core.pc;
        self.trapped_with(class, tin, a11);
    }

    /// The same, with A11 given.
    pub fn trapped_with(&mut self, class: u8, tin: u8, a11: u32) {
        assert_eq!(self.event(), 2 | (class as u64) << 8 | (tin as u64) << 16, "another event");
        assert_eq!(self.core.a[11], a11, "A11");
        assert_eq!(self.core.d[15], tin as u32, "D15");
        assert_eq!(self.core.pc, self.core.btv | (32 * class as u32), "PC");
        assert_eq!(self.core.psw, 0xA80, "PSW");
    }

    /// A step that must stop, and leaves everything as it was.
    pub fn stopped(&mut self, number: u8) {
        let before = self.clone();
        assert_eq!(self.event(), 3 | (number as u64) << 8, "another event");
        assert!(self.core == before.core && self.windows == before.windows, "a stop changed something");
    }

    /// The sixteen words of an area.
    pub fn area(&self, address: u32) -> [u32; 16] {
        std::array::from_fn(|k| self.word(address + 4 * k as u32))
    }

    /// What an upper save finds.
    pub fn upper(&self) -> [u32; 16] {
        let mut words = [self.core.pcxi; 16];
        words[1] = self.core.psw;
        words[2..8].copy_from_slice(&self.core.a[10..]);
        words[8..].copy_from_slice(&self.core.d[8..]);
        words
    }

    /// The address after the instruction at PC.
    pub fn next(&self) -> u32 {
        self.core.pc + record_at(&self.image, self.core.pc).expect("a record at PC").length()
    }

    /// What a lower save of the instruction at PC finds.
    pub fn lower(&self) -> [u32; 16] {
        let mut words = [self.core.pcxi; 16];
        words[1] = self.next();
        words[2..8].copy_from_slice(&self.core.a[2..8]);
        words[8..].copy_from_slice(&self.core.d[..8]);
        words
    }

    pub fn word(&self, address: u32) -> u32 {
        u32::from_le_bytes(*self.windows.part(address).expect("in a window"))
    }

    pub fn put(&mut self, address: u32, word: u32) {
        *self.windows.part_mut(address).expect("in a window") = word.to_le_bytes();
    }
}
