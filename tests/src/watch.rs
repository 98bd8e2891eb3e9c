//! The watcher of a series: it counts what is met, and keeps the book as long as the conditions of demand 3 hold.

use crate::book::{Book, Registers};
use crate::coverage::extents::Extents;
use crate::coverage::lengths::Step;
use crate::coverage::places::Places;
use crate::coverage::windows::Called;
use crate::coverage::Coverage;
use crate::model::code::Instruction;
use crate::model::core::Core;
use crate::model::event::answer::{ACCEPTED, PERMITS};
use crate::model::event::{Event, Stop, DATA};
use crate::model::fields::LINK;
use crate::model::observer::{Half, Observer};
use crate::model::operations::Operation::*;
use crate::model::protection::Access;
use crate::model::windows::{address_of, Windows};

/// What came up while a book was kept.
#[derive(Debug, Default)]
pub struct Kept {
    pub saves: u64,
    pub returns: u64,
    /// Returns of entries that were read at the start.
    pub returns_from_start: u64,
    pub interrupts: u64,
    pub fcd_entries: u64,
    pub stops: u64,
    pub refused: u64,
    /// Saves and returns right after one in the other window.
    pub saves_after_other: u64,
    pub returns_after_other: u64,
}

#[derive(Default)]
pub struct Watcher {
    pub coverage: Coverage,
    pub book: Option<Book>,
    pub kept: Kept,
    /// The first thing at which the machine and the book differ.
    pub fault: Option<String>,
    extents: Extents,
    /// Where the records of the series' images lie, of those that are in order; which one is lent, and whether to a run.
    places: Vec<Option<Places>>,
    lent: usize,
    in_run: bool,
    /// The windows of the series' latest save and return.
    saved_in: Option<usize>,
    returned_from: Option<usize>,
    /// Of the latest step: what it began with, and what it fetched.
    requests: [u32; 16],
    pc: u32,
    lcx: u32,
    psw: u32,
    instruction: Option<Instruction>,
    /// The latest step's load or store.
    data: Option<(Access, u32)>,
    /// The latest step's accesses, each with the numbers of the ranges that permit it.
    permitted: Vec<(Access, Vec<usize>)>,
    saves: Vec<(Half, Registers)>,
    entries: Vec<Event>,
}

/// How many bytes a load or store has.
fn size(instruction: Instruction) -> u32 {
    match instruction.operation {
        LdB | LdBu | StB => 1,
        LdH | LdHu | StH => 2,
        _ => 4,
    }
}

impl Watcher {
    fn note(&mut self, result: Result<(), String>) {
        if let Err(fault) = result {
            self.fault.get_or_insert(fault);
        }
    }

    /// A step's answer, with its permitting ranges.
    pub fn told(&mut self, answer: u64) {
        if answer & PERMITS == 0 {
            return;
        }
        self.coverage.told(answer);
        let short = self.instruction.is_some_and(|instruction| instruction.length == 2);
        for (access, ranges) in &self.permitted {
            self.coverage.permitted(*access, ranges);
            if short {
                self.coverage.lengths.told(*access);
            }
        }
    }

    /// A series begins, with these windows and images.
    pub fn begins_series(&mut self, windows: &Windows<Vec<u8>>, images: &[Vec<u8>]) {
        self.book = None;
        self.places = images.iter().map(|image| Places::of(image)).collect();
        self.extents = Extents::of(windows);
        (self.saved_in, self.returned_from) = (None, None);
    }

    /// A call is about to get an image.
    pub fn lends(&mut self, image: usize, called: Called) {
        self.lent = image;
        self.in_run = matches!(called, Called::Run);
    }

    /// The answer of a start; the book begins where it is accepted.
    pub fn started(&mut self, answer: u64, core: &Core, windows: &Windows<Vec<u8>>) {
        self.coverage.answer(answer);
        self.coverage.lengths.started(answer, self.places[self.lent].as_ref());
        self.coverage.windows.answer(Called::Start, &self.extents, answer);
        if answer == ACCEPTED && self.book.is_none() {
            let book = Book::begin(core, windows);
            self.coverage.windows.lists(&self.extents, book.lists());
            self.book = Some(book);
        }
    }

    /// The answer and the lists that a step or a run left.
    pub fn called(&mut self, called: Called, answer: u64, core: &Core, windows: &Windows<Vec<u8>>) {
        self.coverage.answer(answer);
        self.coverage.windows.answer(called, &self.extents, answer);
        if let (0..4, Some(places)) = (answer as u8, &self.places[self.lent]) {
            self.coverage.lengths.called(places, self.in_run.then_some((answer >> 32) as u32));
        }
        if let Some(book) = &self.book {
            let result = book.compare(core, windows);
            self.kept.refused += (answer as u8 == 4) as u64;
            self.note(result);
        }
    }

    /// The latest step's load or store.
    fn accessed(&mut self, outcome: Result<Event, Stop>) {
        let (Some(instruction), Some((access, address))) = (self.instruction, self.data) else {
            return;
        };
        if outcome == Ok(Event::Instruction) {
            self.coverage.windows.accessed(&self.extents, access, address, size(instruction));
        } else if self.entries.first() == Some(&Event::Trap(DATA)) {
            self.coverage.windows.outside(&self.extents, access, address, size(instruction));
        }
    }

    /// The latest step stopped at an area in neither window. Of a return whose entry could stop there too nothing is said.
    fn stopped_outside(&mut self, core: &Core) {
        let returns = self.instruction.is_some_and(|i| matches!(i.operation, Ret | Rfe | Rslcx));
        let of_a_return = returns && self.extents.has_area(core.fcx) && !self.extents.has_area(core.pcxi);
        if of_a_return || !returns {
            self.coverage.windows.stopped(&self.extents, of_a_return);
        }
    }

    fn enter_in_book(&mut self, outcome: Result<Event, Stop>) {
        let Some(book) = &mut self.book else {
            return;
        };
        self.kept.saves += self.saves.len() as u64;
        self.kept.interrupts += matches!(self.entries[..], [Event::Interrupt { .. }, ..]) as u64;
        self.kept.fcd_entries += (self.saves.len() == 2) as u64;
        self.kept.stops += outcome.is_err() as u64;
        let result = match outcome {
            Err(stop) => book.stopped(stop, self.lcx),
            Ok(_) => book.saves(&self.saves, self.lcx),
        };
        self.note(result);
    }
}

impl Observer for &mut Watcher {
    fn begins(&mut self, core: &Core) {
        self.coverage.begins(core);
        self.requests = core.requests;
        self.pc = core.pc;
        self.lcx = core.lcx;
        self.psw = core.psw;
        self.instruction = None;
        self.data = None;
        self.permitted.clear();
        self.entries.clear();
        self.saves.clear();
    }

    fn permitted(&mut self, core: &Core, access: Access, address: u32, by: Option<usize>) {
        if !matches!(access, Access::Fetch) {
            self.data = Some((access, address));
        }
        if by.is_some() {
            self.permitted.push((access, core.permitting(access, address)));
        }
    }

    fn fetched(&mut self, instruction: Instruction) {
        self.instruction = Some(instruction);
        self.coverage.fetched[instruction.operation as usize] += 1;
    }

    fn saves(&mut self, half: Half, core: &Core) {
        let window = self.extents.holder(address_of(core.fcx & LINK));
        let before = self.saved_in.replace(window);
        self.coverage.windows.saved(window, before, !self.saves.is_empty());
        self.kept.saves_after_other += (self.book.is_some() && before == Some(1 - window)) as u64;
        self.saves.push((half, Registers::of(core, half)));
    }

    fn enters(&mut self, event: Event) {
        if let Event::Interrupt { source } = event {
            self.coverage.interrupt(source as usize, &self.requests);
        }
        self.entries.push(event);
    }

    fn returned(&mut self, half: Half, core: &Core) {
        // the area is now the first of the free list
        let window = self.extents.holder(address_of(core.fcx));
        let before = self.returned_from.replace(window);
        self.coverage.windows.returned(window, before);
        self.kept.returns_after_other += (self.book.is_some() && before == Some(1 - window)) as u64;
        if let Some(book) = &mut self.book {
            let before = book.from_start;
            let result = book.comes_off(half, core);
            self.kept.returns += 1;
            self.kept.returns_from_start += (book.from_start < before) as u64;
            self.note(result);
        }
    }

    fn stored(&mut self, address: u32, size: usize) {
        if self.book.as_ref().is_some_and(|book| book.reached(address, size)) {
            self.book = None;
        }
    }

    fn wrote_head(&mut self) {
        self.book = None;
    }

    fn ends(&mut self, outcome: Result<Event, Stop>, core: &Core) {
        self.coverage.outcome(outcome);
        self.coverage.entries(&self.entries);
        if let (Some(instruction), Ok(Event::Instruction)) = (self.instruction, outcome) {
            self.coverage.done(instruction, self.psw, core);
        }
        let places = self.places[self.lent].as_ref().expect("in order");
        let &mut &mut Watcher { pc, instruction, in_run, ref entries, .. } = self;
        self.coverage.lengths.ends(&Step { places, pc, instruction, entries, outcome, in_run }, core);
        self.accessed(outcome);
        if outcome == Err(Stop::Outside) {
            self.stopped_outside(core);
        }
        self.enter_in_book(outcome);
    }
}
