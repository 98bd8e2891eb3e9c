//! What a series of steps has met.

pub mod extents;
pub mod lengths;
pub mod places;
mod refused;
pub mod windows;

use crate::model::code::Instruction;
use crate::model::core::Core;
use crate::model::event::{Event, Stop, FCD, SYS_CLASS, TRAPS};
use crate::model::fields::psw::{AV, SAV};
use crate::model::fields::request::{ENABLED, PRIORITY, REQUESTED};
use crate::model::fields::PROTECTION_ON;
use crate::model::integer::advanced;
use crate::model::operations::Operation::{self, Adds, AddsU, Subs, SubsU};
use crate::model::operations::NAMES;
use crate::model::protection::Access;
use lengths::LengthCounts;
use std::fmt;
use windows::WindowCounts;

/// Numbers of stops that exist, and of refusals.
const STOPS: [u8; 2] = [11, 12];
const REFUSALS: [u8; 7] = [1, 13, 2, 3, 4, 5, 6];
/// The operations with saturation.
const SATURATING: [Operation; 4] = [Adds, AddsU, Subs, SubsU];

pub struct Coverage {
    pub steps: u64,
    pub fetched: [u64; 79],
    /// Executed without a trap of its own.
    done: [u64; 79],
    instructions: u64,
    interrupts: [u64; 16],
    /// FCD entries after an instruction's own save, after an interrupt's and after another trap's.
    fcd_after: [u64; 3],
    traps: [[u64; 256]; 7],
    stops: [u64; 256],
    refusals: [u64; 256],
    accepted: u64,
    wrong_length: u64,
    runs: u64,
    empty_runs: u64,
    runs_stopped_midway: u64,
    steps_with_protection: u64,
    /// Interrupts of a source with others of its priority number: with any, with two or more, with none next to it.
    ties: [u64; 3],
    /// Steps that told a permitting range, by the answer's kind.
    told: [u64; 4],
    /// Of the accesses whose permitting range a step told, as reads, writes and fetches: by the range.
    named: [[u64; 4]; 3],
    /// Of them those that a later range permits too, and those of which this one is not the set's first.
    overlaps: [[u64; 2]; 3],
    /// Results of the saturating operations whose AV is not the one of the word written, and of them those that SAV shows.
    saturated: [[u64; 2]; 4],
    /// By PRS, IO, IS, GW, CDE, and by CDC.
    psw: [u64; 128],
    cdc: [u64; 128],
    pub windows: WindowCounts,
    pub lengths: LengthCounts,
}

impl Default for Coverage {
    fn default() -> Coverage {
        Coverage {
            steps: 0,
            fetched: [0; 79],
            done: [0; 79],
            instructions: 0,
            interrupts: [0; 16],
            fcd_after: [0; 3],
            traps: [[0; 256]; 7],
            stops: [0; 256],
            refusals: [0; 256],
            accepted: 0,
            wrong_length: 0,
            runs: 0,
            empty_runs: 0,
            runs_stopped_midway: 0,
            steps_with_protection: 0,
            ties: [0; 3],
            told: [0; 4],
            named: [[0; 4]; 3],
            overlaps: [[0; 2]; 3],
            saturated: [[0; 2]; 4],
            psw: [0; 128],
            cdc: [0; 128],
            windows: WindowCounts::default(),
            lengths: LengthCounts::default(),
        }
    }
}

impl Coverage {
    pub fn begins(&mut self, core: &Core) {
        self.psw[(core.psw >> 7 & 0x7F) as usize] += 1;
        self.cdc[(core.psw & 0x7F) as usize] += 1;
        self.steps_with_protection += (core.syscon & PROTECTION_ON != 0) as u64;
    }

    pub fn outcome(&mut self, outcome: Result<Event, Stop>) {
        let counter = match outcome {
            Ok(Event::Instruction) => &mut self.instructions,
            Ok(Event::Interrupt { source }) => &mut self.interrupts[source as usize],
            Ok(Event::Trap(trap)) => &mut self.traps[trap.class as usize][trap.tin as usize],
            Err(stop) => &mut self.stops[stop.number() as usize],
        };
        *counter += 1;
        self.steps += outcome.is_ok() as u64;
    }

    /// The entries of one step.
    pub fn entries(&mut self, entries: &[Event]) {
        let counter = match entries {
            [Event::Trap(FCD)] => 0,
            [Event::Interrupt { .. }, Event::Trap(FCD)] => 1,
            [Event::Trap(_), Event::Trap(FCD)] => 2,
            _ => return,
        };
        self.fcd_after[counter] += 1;
    }

    /// An interrupt of that source, taken with these request words.
    pub fn interrupt(&mut self, source: usize, requests: &[u32; 16]) {
        let alike = |k: &usize| (requests[*k] ^ requests[source]) & (ENABLED | REQUESTED | PRIORITY) == 0;
        let others: Vec<usize> = (0..16).filter(|k| *k != source).filter(alike).collect();
        self.ties[0] += !others.is_empty() as u64;
        self.ties[1] += (others.len() > 1) as u64;
        self.ties[2] += (!others.is_empty() && others.iter().all(|k| k.abs_diff(source) > 1)) as u64;
    }

    /// The answer of a step that told a permitting range.
    pub fn told(&mut self, answer: u64) {
        self.told[answer as u8 as usize] += 1;
    }

    /// An access of a step that told its permitting range, with all ranges of the set that permit it.
    pub fn permitted(&mut self, access: Access, ranges: &[usize]) {
        let access = access as usize;
        self.named[access][ranges[0]] += 1;
        if ranges.len() > 1 {
            self.overlaps[access][0] += 1;
            self.overlaps[access][1] += (ranges[0] > 0) as u64;
        }
    }

    /// The fewest told of a kind of access that several ranges permit, with and without the set's first.
    pub fn fewest_overlaps(&self) -> u64 {
        self.overlaps.iter().map(|[all, past]| (*past).min(all - past)).min().unwrap()
    }

    /// An instruction without a trap of its own, with PSW before it and the registers after it.
    pub fn done(&mut self, instruction: Instruction, before: u32, core: &Core) {
        self.done[instruction.operation as usize] += 1;
        let Some(k) = SATURATING.iter().position(|operation| *operation == instruction.operation) else {
            return;
        };
        if advanced(core.d[instruction.c]) != (core.psw & AV != 0) {
            self.saturated[k][0] += 1;
            self.saturated[k][1] += (before & SAV == 0) as u64;
        }
    }

    /// The fewest results of a saturating operation that show AV, and SAV, to be taken before saturation.
    pub fn fewest_saturated(&self) -> u64 {
        *self.saturated.as_flattened().iter().min().unwrap()
    }

    /// A call's answer, as far as no step tells it.
    pub fn answer(&mut self, answer: u64) {
        match answer as u8 {
            4 => self.refusals[(answer >> 8) as u8 as usize] += 1,
            5 => self.wrong_length += 1,
            6 => self.accepted += 1,
            _ => {}
        }
    }

    pub fn run(&mut self, n: u32, answer: u64) {
        let made = (answer >> 32) as u32;
        self.runs += 1;
        self.empty_runs += (n == 0) as u64;
        self.runs_stopped_midway += (answer as u8 == 3 && made > 0) as u64;
    }

    /// Every count with its name.
    fn counts(&self) -> Vec<(String, u64)> {
        let mut counts = vec![
            ("instruction".into(), self.instructions),
            ("FCD after own save".into(), self.fcd_after[0]),
            ("FCD after interrupt".into(), self.fcd_after[1]),
            ("FCD after trap".into(), self.fcd_after[2]),
            ("start accepted".into(), self.accepted),
            ("record of a wrong length".into(), self.wrong_length),
            ("run".into(), self.runs),
            ("run of 0 steps".into(), self.empty_runs),
            ("run stopped after a step".into(), self.runs_stopped_midway),
            ("step with protection on".into(), self.steps_with_protection),
            ("instruction with a range".into(), self.told[0]),
            ("trap with a range".into(), self.told[2]),
            ("stop with a range".into(), self.told[3]),
            ("interrupt at a tie".into(), self.ties[0]),
            ("interrupt at a tie of 3".into(), self.ties[1]),
            ("interrupt at a tie apart".into(), self.ties[2]),
        ];
        for (k, access) in ["read", "write", "fetch"].into_iter().enumerate() {
            counts.extend((0..4).map(|n| (format!("{access} by range {n}"), self.named[k][n])));
            counts.push((format!("{access} in several ranges"), self.overlaps[k][0]));
            counts.push((format!("{access} past the first"), self.overlaps[k][1]));
        }
        for (operation, [av, sav]) in SATURATING.into_iter().zip(self.saturated) {
            let name = NAMES[operation as usize];
            counts.push((format!("{name}, AV not the word's"), av));
            counts.push((format!("{name}, SAV not the word's"), sav));
        }
        counts.extend((0..16).map(|k| (format!("interrupt of source {k}"), self.interrupts[k])));
        for trap in TRAPS {
            let n = self.traps[trap.class as usize][trap.tin as usize];
            counts.push((format!("trap {}/{}", trap.class, trap.tin), n));
        }
        counts.push((format!("trap {SYS_CLASS}"), self.traps[SYS_CLASS as usize].iter().sum()));
        counts.extend(STOPS.map(|n| (format!("stop {n}"), self.stops[n as usize])));
        counts.extend(REFUSALS.map(|n| (format!("refusal {n}"), self.refusals[n as usize])));
        for (k, name) in NAMES.iter().enumerate() {
            counts.push(((*name).into(), self.fetched[k]));
            // SYSCALL does nothing but trap
            if *name != "SYSCALL" {
                counts.push((format!("{name} without a trap"), self.done[k]));
            }
        }
        counts
    }

    /// Every pattern of PSW's fields, too many to be printed.
    fn patterns(&self) -> Vec<(String, u64)> {
        let fields = self.psw.iter().enumerate().map(|(k, n)| (format!("PSW bits 13 to 7 {k:07b}"), *n));
        fields.chain(self.cdc.iter().enumerate().map(|(k, n)| (format!("CDC {k:07b}"), *n))).collect()
    }

    /// What of the windows was met least.
    pub fn fewest_of_windows(&self) -> (String, u64) {
        self.windows.counts().into_iter().min_by_key(|(_, n)| *n).unwrap()
    }

    /// What of the lengths was met least.
    pub fn fewest_of_lengths(&self) -> (String, u64) {
        self.lengths.counts().into_iter().min_by_key(|(_, n)| *n).unwrap()
    }

    /// What was never met.
    pub fn missing(&self) -> Vec<String> {
        let others = self.windows.counts().into_iter().chain(self.lengths.counts());
        let all = self.counts().into_iter().chain(self.patterns()).chain(others);
        all.filter(|(_, n)| *n == 0).map(|(name, _)| name).collect()
    }
}

impl fmt::Display for Coverage {
    fn fmt(&self, f: &mut fmt::Formatter) -> fmt::Result {
        writeln!(f, "{:<26}{:>9}", "step", self.steps)?;
        let rarest = self.patterns().into_iter().min_by_key(|(_, n)| *n).unwrap();
        writeln!(f, "the rarest of PSW's patterns is {}, before {} steps", rarest.0, rarest.1)?;
        for row in self.counts().chunks(4) {
            for (name, n) in row {
                write!(f, "{name:<26}{n:>9}   ")?;
            }
            writeln!(f)?;
        }
        for counts in [self.windows.counts(), self.lengths.counts()] {
            for row in counts.chunks(3) {
                for (name, n) in row {
                    write!(f, "{name:<41}{n:>9}   ")?;
                }
                writeln!(f)?;
            }
        }
        Ok(())
    }
}
