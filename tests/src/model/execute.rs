//! One instruction.

use super::code::{Code, Instruction};
use super::depth;
use super::event::{Event, Trap, Undone, OVF, PRIV, SOVF, SYS_CLASS};
use super::fields::psw::{AV, SAV, SV, V};
use super::fields::{icr, pcxi, psw};
use super::integer;
use super::machine::Machine;
use super::observer::{Half, Observer};
use super::operations::Operation::*;
use super::system::offset;

/// A match with an arm of its own for each integer operation, so that one dispatch serves all 79.
macro_rules! dispatch {
    ($operation:expr, $($integer:ident)|* => $compute:expr, $($others:tt)*) => {
        match $operation {
            $($integer => $compute($integer),)*
            $($others)*
        }
    };
}

impl<O: Observer, C: Code> Machine<'_, O, C> {
    #[inline]
    fn second(&self, i: Instruction) -> u32 {
        if i.b == 16 {
            i.immediate
        } else {
            self.core.d[i.b as usize & 15]
        }
    }

    #[inline]
    fn second_pointer(&self, i: Instruction) -> u32 {
        if i.b == 16 {
            i.immediate
        } else {
            self.core.a[i.b as usize & 15]
        }
    }

    #[inline]
    fn set_pointer(&mut self, n: usize, word: u32) -> Result<(), Trap> {
        self.core.guard(n)?;
        self.core.a[n] = word;
        Ok(())
    }

    fn require_io(&self, least: u32) -> Result<(), Trap> {
        if psw::io(self.core.psw) < least {
            return Err(PRIV);
        }
        Ok(())
    }

    #[inline(always)]
    pub fn execute(&mut self, i: Instruction) -> Result<Event, Undone> {
        let pc = self.core.pc;
        let next = pc.wrapping_add(i.length);
        let relative = pc.wrapping_add(i.immediate) & !1;
        let (x, y) = (self.core.d[i.a], self.second(i));
        let psw = self.core.psw;
        let mut target = next;
        dispatch! { i.operation,
            Add | Sub | Rsub | Addx | Addc | Subx | Subc | Adds | AddsU | Subs | SubsU | Mul | And | Or | Xor
            | Nand | Nor | Xnor | Andn | Orn | Sh | Sha | Min | MinU | Max | MaxU | Abs | Absdif | Eq | Ne | Lt
            | LtU | Ge | GeU | Clz | Clo | Cls | Mov =>
                |operation| (self.core.d[i.c], self.core.psw) = integer::compute(operation, x, y, psw),
            Nop => {}
            MovA => self.set_pointer(i.c, y)?,
            MovD => self.core.d[i.c] = self.core.a[i.a],
            MovAa => self.set_pointer(i.c, self.core.a[i.a])?,
            AddA => self.set_pointer(i.c, self.core.a[i.a].wrapping_add(self.second_pointer(i)))?,
            SubA => self.set_pointer(i.c, self.core.a[i.a].wrapping_sub(self.second_pointer(i)))?,
            LdB => self.core.d[i.c] = self.load_byte(i)? as i8 as u32,
            LdBu => self.core.d[i.c] = self.load_byte(i)? as u32,
            LdH => self.core.d[i.c] = self.load_half(i)? as i16 as u32,
            LdHu => self.core.d[i.c] = self.load_half(i)? as u32,
            LdW => self.core.d[i.c] = self.load_word(i)?,
            LdA => self.core.a[i.c] = self.load_pointer(i)?,
            StB => self.store(i, (self.core.d[i.c] as u8).to_le_bytes(), 1)?,
            StH => self.store(i, (self.core.d[i.c] as u16).to_le_bytes(), 2)?,
            StW => self.store(i, self.core.d[i.c].to_le_bytes(), 2)?,
            StA => self.store(i, self.core.a[i.c].to_le_bytes(), 4)?,
            J => target = relative,
            Jl => {
                self.core.a[11] = next;
                target = relative;
            }
            Ji => target = self.core.a[i.a] & !1,
            Jeq if x == y => target = relative,
            Jne if x != y => target = relative,
            Jlt if (x as i32) < y as i32 => target = relative,
            JltU if x < y => target = relative,
            Jge if x as i32 >= y as i32 => target = relative,
            JgeU if x >= y => target = relative,
            Jeq | Jne | Jlt | JltU | Jge | JgeU => {}
            Loop => {
                let count = self.core.a[i.a];
                self.set_pointer(i.a, count.wrapping_sub(1))?;
                if count != 0 {
                    target = relative;
                }
            }
            Call => return self.call(relative, next),
            Calli => return self.call(self.core.a[i.a], next),
            Ret => {
                depth::down(self.core.psw)?;
                self.returnable(Half::Upper)?;
                return self.return_upper();
            }
            Rfe => {
                self.returnable(Half::Upper)?;
                depth::nested(self.core.psw)?;
                let pcxi = self.core.pcxi;
                let event = self.return_upper()?;
                self.core.icr = self.core.icr & !icr::CCPN | pcxi::pcpn(pcxi);
                self.enable(pcxi & pcxi::PIE != 0);
                return Ok(event);
            }
            Svlcx => {
                let found = self.find()?;
                self.save_lower(next, found);
                self.core.pc = next;
                return Ok(self.after_save(Event::Instruction, found));
            }
            Rslcx => {
                self.returnable(Half::Lower)?;
                return self.return_lower(next);
            }
            Bisr => {
                self.require_io(2)?;
                let found = self.find()?;
                self.save_lower(next, found);
                self.core.icr = self.core.icr & !icr::CCPN | icr::IE | i.immediate & icr::CCPN;
                self.core.pc = next;
                return Ok(self.after_save(Event::Instruction, found));
            }
            Syscall => return Err(Trap { class: SYS_CLASS, tin: i.immediate as u8 }.into()),
            Enable | Disable => {
                self.require_io(1)?;
                self.enable(i.operation == Enable);
            }
            Mfcr => self.core.d[i.c] = self.core.read_register(i.immediate),
            Mtcr => {
                self.require_io(2)?;
                self.core.write_register(i.immediate, x);
                if matches!(i.immediate, offset::FCX | offset::PCXI) {
                    self.observer.wrote_head();
                }
            }
            Trapv if self.core.psw & V != 0 => return Err(OVF.into()),
            Trapsv if self.core.psw & SV != 0 => return Err(SOVF.into()),
            Trapv | Trapsv => {}
            Rstv => self.core.psw &= !(V | SV | AV | SAV),
        }
        self.core.pc = target;
        Ok(Event::Instruction)
    }

    fn enable(&mut self, on: bool) {
        self.core.icr = if on { self.core.icr | icr::IE } else { self.core.icr & !icr::IE };
    }
}
