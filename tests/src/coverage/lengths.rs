//! What a series of steps has met of short and long records.

use super::places::{Mix, Place, Places};
use super::refused::{reason, REFUSED};
use crate::model::code::Instruction;
use crate::model::core::Core;
use crate::model::event::{Event, Stop, Trap, CODE, FCD, MPX, SYS_CLASS, TRAPS};
use crate::model::operations::Operation::{self, *};
use crate::model::operations::NAMES;
use crate::model::protection::Access;

/// The operations that hand the next address on: in A11, in the area's second word, in A11 of their trap.
const HANDING_ON: [Operation; 8] = [Call, Calli, Jl, Svlcx, Bisr, Syscall, Trapv, Trapsv];
const MIXES: [&str; 3] = ["long records", "short records", "both lengths"];
const ACCESSES: [&str; 3] = ["read", "write", "fetch"];
/// Records between a jump and its target in one body.
const WAYS: [usize; 2] = [50, 300];
const DIRECTIONS: [&str; 2] = ["back", "forward"];
/// The fewest steps of a run that counts as a long one.
const LONG_RUN: u32 = 300;

/// A step as it is told at its end.
pub struct Step<'a> {
    pub places: &'a Places,
    /// PC before, and the instruction if one was fetched.
    pub pc: u32,
    pub instruction: Option<Instruction>,
    pub entries: &'a [Event],
    pub outcome: Result<Event, Stop>,
    pub in_run: bool,
}

/// A count for each operation.
struct ByOperation([u64; 79]);

impl Default for ByOperation {
    fn default() -> ByOperation {
        ByOperation([0; 79])
    }
}

#[derive(Default)]
pub struct LengthCounts {
    /// Accepted starts by the image's lengths; those whose bodies touch, or stay below segment E, by short records alone.
    images: [u64; 3],
    touching_by_short: u64,
    below_e_by_short: u64,
    refused: [u64; REFUSED.len()],
    /// Short forms fetched and executed without a trap of their own, by operation.
    fetched: ByOperation,
    done: ByOperation,
    /// Short forms that handed the next address on.
    handed_on: [u64; HANDING_ON.len()],
    /// Traps of short forms by class and TIN, those of SYSCALL with TIN 0.
    traps: [[u64; 8]; 7],
    /// Interrupts before a short form; FCD entries after a short form's save, after such an interrupt and after such a trap.
    interrupts: u64,
    fcd_after: [u64; 3],
    /// Traps 4/1 within a long record, and past a body's end.
    within: u64,
    past_end: u64,
    /// Steps from one body into the next, and those where the two touch by short records alone.
    falls: u64,
    falls_by_short: u64,
    /// Jumps of a run within a body of both lengths, by their ways and directions.
    ways: [[u64; 2]; 2],
    /// Accesses of a short form whose permitting range a step told: reads, writes, fetches.
    told: [u64; 3],
    /// Of images with short forms: steps, runs, and runs of many steps.
    steps: u64,
    runs: u64,
    long_runs: u64,
}

impl LengthCounts {
    /// The answer of a start.
    pub fn started(&mut self, answer: u64, places: Option<&Places>) {
        if let (6, Some(places)) = (answer as u8, places) {
            self.images[places.mix as usize] += 1;
            self.touching_by_short += places.touching_by_short() as u64;
            self.below_e_by_short += places.below_e_by_short as u64;
        }
    }

    /// Any call's answer.
    pub fn answer(&mut self, answer: u64, image: &[u8]) {
        if let Some(reason) = reason(answer, image) {
            self.refused[reason] += 1;
        }
    }

    /// A step's answer, or a run's with the steps made.
    pub fn called(&mut self, places: &Places, made: Option<u32>) {
        if places.mix == Mix::Long {
            return;
        }
        match made {
            None => self.steps += 1,
            Some(made) => {
                self.runs += 1;
                self.long_runs += (made >= LONG_RUN) as u64;
            }
        }
    }

    /// An access of a short form, whose permitting range a step told.
    pub fn told(&mut self, access: Access) {
        self.told[access as usize] += 1;
    }

    /// A step's end.
    pub fn ends(&mut self, step: &Step, core: &Core) {
        if let Some(instruction) = step.instruction.filter(|instruction| instruction.length == 2) {
            self.fetched.0[instruction.operation as usize] += 1;
            self.of_short(instruction, step, core);
        }
        self.entries(step);
        if step.outcome == Ok(Event::Instruction) {
            self.went(step, core.pc);
        }
    }

    fn of_short(&mut self, instruction: Instruction, step: &Step, core: &Core) {
        let done = step.outcome == Ok(Event::Instruction);
        self.done.0[instruction.operation as usize] += done as u64;
        let own_trap = match step.entries {
            [Event::Trap(trap)] if *trap != FCD => Some(*trap),
            _ => None,
        };
        if let Some(Trap { class, tin }) = own_trap {
            let tin = if class == SYS_CLASS { 0 } else { tin };
            self.traps[class as usize][tin as usize] += 1;
        }
        let Some(k) = HANDING_ON.iter().position(|operation| *operation == instruction.operation) else {
            return;
        };
        let handed_on = match instruction.operation {
            Syscall | Trapv | Trapsv => own_trap.is_some(),
            _ => done,
        };
        let in_a11 = !matches!(instruction.operation, Svlcx | Bisr);
        assert!(!handed_on || !in_a11 || core.a[11] == step.pc + 2, "A11 after {instruction:?}");
        self.handed_on[k] += handed_on as u64;
    }

    fn entries(&mut self, step: &Step) {
        let short = step.instruction.is_some_and(|instruction| instruction.length == 2);
        match step.entries {
            [Event::Interrupt { .. }, rest @ ..] if step.places.length(step.pc) == Some(2) => {
                self.interrupts += 1;
                self.fcd_after[1] += (!rest.is_empty()) as u64;
            }
            [Event::Trap(CODE), ..] => {
                let place = step.places.find(step.pc);
                self.within += (place == Place::Within) as u64;
                self.past_end += (place == Place::End) as u64;
            }
            [Event::Trap(FCD)] if short => self.fcd_after[0] += 1,
            [Event::Trap(_), Event::Trap(FCD)] if short => self.fcd_after[2] += 1,
            _ => {}
        }
    }

    /// An instruction led from one address to another.
    fn went(&mut self, step: &Step, to: u32) {
        let Some(instruction) = step.instruction else {
            return;
        };
        if to == step.pc.wrapping_add(instruction.length) {
            let touches = step.places.touches(to);
            self.falls += touches.is_some() as u64;
            self.falls_by_short += (touches == Some(true)) as u64;
        } else if let (true, Some((records, forward))) = (step.in_run, step.places.way(step.pc, to)) {
            for (count, least) in self.ways.iter_mut().zip(WAYS) {
                count[forward as usize] += (records >= least) as u64;
            }
        }
    }

    /// Every count with its name.
    pub fn counts(&self) -> Vec<(String, u64)> {
        let mut counts = vec![
            ("bodies touch by short records".to_string(), self.touching_by_short),
            ("bodies below E by short records".into(), self.below_e_by_short),
            ("interrupt before a short form".into(), self.interrupts),
            ("FCD after a short form's save".into(), self.fcd_after[0]),
            ("FCD after interrupt, short form".into(), self.fcd_after[1]),
            ("FCD after a short form's trap".into(), self.fcd_after[2]),
            ("4/1 within a long record".into(), self.within),
            ("4/1 past a body's end".into(), self.past_end),
            ("step into the next body".into(), self.falls),
            ("step into a body by short records".into(), self.falls_by_short),
            ("step with short forms".into(), self.steps),
            ("run with short forms".into(), self.runs),
            (format!("run with short forms, {LONG_RUN} steps"), self.long_runs),
        ];
        counts.extend(MIXES.iter().zip(self.images).map(|(mix, n)| (format!("start accepted, {mix}"), n)));
        counts.extend(REFUSED.iter().zip(self.refused).map(|(fault, n)| (format!("refused with {fault}"), n)));
        counts.extend(ACCESSES.iter().zip(self.told).map(|(access, n)| (format!("{access} of a short form told"), n)));
        for (least, ways) in WAYS.iter().zip(self.ways) {
            counts.extend(DIRECTIONS.iter().zip(ways).map(|(way, n)| (format!("jump {way} over {least} records"), n)));
        }
        for (operation, n) in HANDING_ON.into_iter().zip(self.handed_on) {
            counts.push((format!("next address of short {}", NAMES[operation as usize]), n));
        }
        // no instruction is fetched where the fetch traps; FCD is counted above
        for Trap { class, tin } in TRAPS.into_iter().filter(|trap| ![MPX, CODE, FCD].contains(trap)) {
            counts.push((format!("{class}/{tin} of a short form"), self.traps[class as usize][tin as usize]));
        }
        counts.push((format!("{SYS_CLASS} of a short form"), self.traps[SYS_CLASS as usize][0]));
        for (k, name) in NAMES.iter().enumerate() {
            counts.push((format!("short {name}"), self.fetched.0[k]));
            // SYSCALL does nothing but trap
            if *name != "SYSCALL" {
                counts.push((format!("short {name} without a trap"), self.done.0[k]));
            }
        }
        counts
    }
}
