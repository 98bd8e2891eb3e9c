//! What a step ends in, and the host's answer word for it.

use super::checks::Refusal;
use super::protection::Permits;

#[derive(Debug, Clone, Copy, PartialEq, Eq)]
pub struct Trap {
    pub class: u8,
    pub tin: u8,
}

macro_rules! traps {
    ($($name:ident $class:literal / $tin:literal)*) => {
        $(pub const $name: Trap = Trap { class: $class, tin: $tin };)*
        /// The traps of document 01 whose TIN is fixed.
        pub const TRAPS: [Trap; 17] = [$($name),*];
        pub const TRAP_NAMES: [&str; 17] = [$(stringify!($name)),*];
    };
}

// the manual's names; it has none for 4/1 and 4/2 as document 01 has them
traps! {
    PRIV 1/1 MPR 1/2 MPW 1/3 MPX 1/4 MPP 1/5 GRWP 1/7
    ALN 2/4
    FCD 3/1 CDO 3/2 CDU 3/3 CSU 3/5 CTYP 3/6 NEST 3/7
    CODE 4/1 DATA 4/2
    OVF 5/1 SOVF 5/2
}

pub const SYS_CLASS: u8 = 6;

#[derive(Debug, Clone, Copy, PartialEq, Eq)]
pub enum Event {
    Instruction,
    Interrupt { source: u8 },
    Trap(Trap),
}

#[derive(Debug, Clone, Copy, PartialEq, Eq)]
pub enum Stop {
    /// 11: a save with FCX link 0.
    NoArea,
    /// 12: a save or return whose area lies in neither window.
    Outside,
}

impl Stop {
    pub fn number(self) -> u8 {
        match self {
            Stop::NoArea => 11,
            Stop::Outside => 12,
        }
    }
}

/// Why an instruction was not done.
pub enum Undone {
    Trap(Trap),
    Stop(Stop),
}

impl From<Trap> for Undone {
    fn from(trap: Trap) -> Undone {
        Undone::Trap(trap)
    }
}

impl From<Stop> for Undone {
    fn from(stop: Stop) -> Undone {
        Undone::Stop(stop)
    }
}

/// The answer word: kind, number, TIN, a step's permitting ranges, and in the high half a place or the steps made.
pub mod answer {
    use super::{Event, Permits, Refusal, Stop};

    pub const WRONG_LENGTH: u64 = 5;
    pub const ACCEPTED: u64 = 6;
    /// The bits of the permitting ranges.
    pub const PERMITS: u64 = 0xFF00_0000;

    pub fn event(event: Event) -> u64 {
        match event {
            Event::Instruction => 0,
            Event::Interrupt { source } => 1 | (source as u64) << 8,
            Event::Trap(trap) => 2 | (trap.class as u64) << 8 | (trap.tin as u64) << 16,
        }
    }

    pub fn stop(stop: Stop) -> u64 {
        3 | (stop.number() as u64) << 8
    }

    pub fn permits(permits: Permits) -> u64 {
        let [fetch, data] = [permits.fetch, permits.data].map(|by| by.map_or(0, |k| 4 + k as u64));
        fetch << 24 | data << 27
    }

    pub fn refused(refusal: Refusal) -> u64 {
        4 | (refusal.number as u64) << 8 | (refusal.place as u64) << 32
    }
}
