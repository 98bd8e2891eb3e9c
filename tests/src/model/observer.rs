//! What a watcher is told of the steps as they are made. Without a watcher it costs nothing.

use super::code::Instruction;
use super::core::Core;
use super::event::{Event, Stop};
use super::protection::Access;

#[derive(Debug, Clone, Copy, PartialEq, Eq)]
pub enum Half {
    Lower,
    Upper,
}

pub trait Observer {
    /// A step begins with these registers.
    fn begins(&mut self, _core: &Core) {}
    /// An access was permitted; the range that did, where protection asked for one.
    fn permitted(&mut self, _core: &Core, _access: Access, _address: u32, _by: Option<usize>) {}
    /// A record was fetched.
    fn fetched(&mut self, _instruction: Instruction) {}
    /// A save is about to be made, and finds these registers.
    fn saves(&mut self, _half: Half, _core: &Core) {}
    /// An interrupt's or a trap's entry was made, FCD's too.
    fn enters(&mut self, _event: Event) {}
    /// A return was made, and left these registers.
    fn returned(&mut self, _half: Half, _core: &Core) {}
    /// A store reached so many bytes from an address on.
    fn stored(&mut self, _address: u32, _size: usize) {}
    /// MTCR wrote FCX or PCXI.
    fn wrote_head(&mut self) {}
    /// How the step ended, and with which registers.
    fn ends(&mut self, _outcome: Result<Event, Stop>, _core: &Core) {}
}

impl Observer for () {}

/// Both are told.
impl<A: Observer, B: Observer> Observer for (A, B) {
    fn begins(&mut self, core: &Core) {
        self.0.begins(core);
        self.1.begins(core);
    }

    fn permitted(&mut self, core: &Core, access: Access, address: u32, by: Option<usize>) {
        self.0.permitted(core, access, address, by);
        self.1.permitted(core, access, address, by);
    }

    fn fetched(&mut self, instruction: Instruction) {
        self.0.fetched(instruction);
        self.1.fetched(instruction);
    }

    fn saves(&mut self, half: Half, core: &Core) {
        self.0.saves(half, core);
        self.1.saves(half, core);
    }

    fn enters(&mut self, event: Event) {
        self.0.enters(event);
        self.1.enters(event);
    }

    fn returned(&mut self, half: Half, core: &Core) {
        self.0.returned(half, core);
        self.1.returned(half, core);
    }

    fn stored(&mut self, address: u32, size: usize) {
        self.0.stored(address, size);
        self.1.stored(address, size);
    }

    fn wrote_head(&mut self) {
        self.0.wrote_head();
        self.1.wrote_head();
    }

    fn ends(&mut self, outcome: Result<Event, Stop>, core: &Core) {
        self.0.ends(outcome, core);
        self.1.ends(outcome, core);
    }
}
