//! The step, the run, and the host's three functions.

use super::checks::{self, Lengths};
use super::code::{Code, Long, Mixed};
use super::core::{Core, RECORD};
use super::event::{answer, Event, Stop, Undone, CODE};
use super::fields::{icr, request};
use super::observer::Observer;
use super::operations::Operation::{Syscall, Trapsv, Trapv};
use super::protection::{Access, Permits};
use super::windows::Windows;

/// A machine whose inputs were accepted. The registers come first and at the start of a cache line, so that the speed does not
/// depend on where the stack is.
#[repr(C, align(64))]
pub struct Machine<'a, O, C> {
    pub core: Core,
    pub windows: Windows<&'a mut [u8]>,
    pub observer: O,
    code: C,
    /// Priority number and source of the foremost request, or `UNKNOWN`.
    foremost: (u32, usize),
}

/// Above every CCPN: the requests are looked through once IE is 1.
const UNKNOWN: (u32, usize) = (256, 0);

/// The foremost of the enabled requests, whatever CCPN is: of the highest priority number, and of equal ones of the highest
/// source number. Priority number 0 where there is none.
#[cold]
fn foremost(requests: &[u32; 16]) -> (u32, usize) {
    let asks = request::ENABLED | request::REQUESTED;
    let asking = requests.iter().enumerate().filter(|(_, word)| *word & asks == asks);
    asking.map(|(source, word)| (word & request::PRIORITY, source)).max().unwrap_or((0, 0))
}

impl<'a, O: Observer, C: Code> Machine<'a, O, C> {
    pub fn new(core: Core, windows: Windows<&'a mut [u8]>, code: C, observer: O) -> Self {
        Machine { core, windows, observer, code, foremost: UNKNOWN }
    }

    #[inline(always)]
    pub fn step(&mut self) -> Result<Event, Stop> {
        self.observer.begins(&self.core);
        let outcome = self.step_unobserved();
        self.observer.ends(outcome, &self.core);
        outcome
    }

    #[inline(always)]
    fn step_unobserved(&mut self) -> Result<Event, Stop> {
        if self.core.icr & icr::IE != 0 && self.foremost.0 > self.core.icr & icr::CCPN {
            self.foremost = foremost(&self.core.requests);
            let (priority, source) = self.foremost;
            if priority > self.core.icr & icr::CCPN {
                let event = self.interrupt(source, priority)?;
                self.foremost = UNKNOWN;
                return Ok(event);
            }
        }
        let pc = self.core.pc;
        match self.core.permit(Access::Fetch, pc) {
            Ok(by) => self.observer.permitted(&self.core, Access::Fetch, pc, by),
            Err(trap) => return self.trap(trap, pc),
        }
        let Some(instruction) = self.code.fetch(pc) else {
            return self.trap(CODE, pc);
        };
        self.observer.fetched(instruction);
        match self.execute(instruction) {
            Ok(event) => Ok(event),
            Err(Undone::Stop(stop)) => Err(stop),
            Err(Undone::Trap(trap)) => {
                let goes_on = matches!(instruction.operation, Syscall | Trapv | Trapsv);
                self.trap(trap, if goes_on { pc.wrapping_add(instruction.length) } else { pc })
            }
        }
    }

    /// Steps made, and how the last one tried ended.
    pub fn run(&mut self, n: u32) -> (u32, Result<Event, Stop>) {
        let mut last = Event::Instruction;
        for made in 0..n {
            match self.step() {
                Ok(event) => last = event,
                Err(stop) => return (made, Err(stop)),
            }
        }
        (n, Ok(last))
    }
}

fn word_of(outcome: Result<Event, Stop>) -> u64 {
    outcome.map_or_else(answer::stop, answer::event)
}

pub fn start(record: &[u8], base: u32, window: &[u8], second_base: u32, second: &[u8], image: &[u8]) -> u64 {
    let Ok(record) = record.try_into() else {
        return answer::WRONG_LENGTH;
    };
    let core = Core::from_record(record);
    let windows = Windows::new(base, window, second_base, second);
    match checks::start(&windows, image, core.pc, core.fcx, core.pcxi) {
        Ok(()) => answer::ACCEPTED,
        Err(refusal) => answer::refused(refusal),
    }
}

/// What is done with a machine whose inputs were accepted: the answer.
trait Work<O> {
    fn of<C: Code>(self, machine: &mut Machine<O, C>) -> u64;
}

struct Step;
struct Run(u32);

impl<O: Observer> Work<(O, Permits)> for Step {
    fn of<C: Code>(self, machine: &mut Machine<(O, Permits), C>) -> u64 {
        word_of(machine.step()) | answer::permits(machine.observer.1)
    }
}

impl<O: Observer> Work<O> for Run {
    fn of<C: Code>(self, machine: &mut Machine<O, C>) -> u64 {
        let (made, outcome) = machine.run(self.0);
        word_of(outcome) | (made as u64) << 32
    }
}

fn worked<O: Observer>(
    record: &mut [u8; RECORD],
    windows: Windows<&mut [u8]>,
    code: impl Code,
    observer: O,
    work: impl Work<O>,
) -> u64 {
    let mut machine = Machine::new(Core::from_record(record), windows, code, observer);
    let answer = work.of(&mut machine);
    machine.core.update_record(record);
    answer
}

/// Steps with a watcher: the answer of `work` on the machine, where the inputs are accepted.
fn attempt<O: Observer>(
    record: &mut [u8],
    windows: Windows<&mut [u8]>,
    image: &[u8],
    observer: O,
    work: impl Work<O>,
) -> u64 {
    let Ok(record): Result<&mut [u8; RECORD], _> = record.try_into() else {
        return answer::WRONG_LENGTH;
    };
    match checks::accept(&windows, image, Core::pc_of(record)) {
        Ok(Lengths::Long) => worked(record, windows, Long::new(image), observer, work),
        Ok(Lengths::Mixed) => worked(record, windows, Mixed::new(image), observer, work),
        Err(refusal) => answer::refused(refusal),
    }
}

pub fn step_observed(record: &mut [u8], windows: Windows<&mut [u8]>, image: &[u8], observer: impl Observer) -> u64 {
    attempt(record, windows, image, (observer, Permits::default()), Step)
}

pub fn run_observed(
    record: &mut [u8],
    windows: Windows<&mut [u8]>,
    image: &[u8],
    n: u32,
    observer: impl Observer,
) -> u64 {
    attempt(record, windows, image, observer, Run(n))
}

pub fn step(record: &mut [u8], base: u32, window: &mut [u8], second_base: u32, second: &mut [u8], image: &[u8]) -> u64 {
    step_observed(record, Windows::new(base, window, second_base, second), image, ())
}

pub fn run(
    record: &mut [u8],
    base: u32,
    window: &mut [u8],
    second_base: u32,
    second: &mut [u8],
    image: &[u8],
    n: u32,
) -> u64 {
    run_observed(record, Windows::new(base, window, second_base, second), image, n, ())
}
