//! Loads and stores.

use super::code::{Code, Instruction};
use super::event::{Trap, ALN, DATA};
use super::machine::Machine;
use super::observer::Observer;
use super::protection::Access;

impl<O: Observer, C: Code> Machine<'_, O, C> {
    /// The address of an access. `pointer` is A[c] for LD.A: its guard comes before the alignment.
    #[inline(always)]
    fn reach(&mut self, i: Instruction, access: Access, align: u32, pointer: Option<usize>) -> Result<u32, Trap> {
        let address = self.core.a[i.a].wrapping_add(i.immediate);
        let by = self.core.permit(access, address)?;
        self.observer.permitted(&self.core, access, address, by);
        if let Some(n) = pointer {
            self.core.guard(n)?;
        }
        if !address.is_multiple_of(align) {
            return Err(ALN);
        }
        Ok(address)
    }

    #[inline(always)]
    fn read<const N: usize>(&mut self, i: Instruction, align: u32, pointer: Option<usize>) -> Result<[u8; N], Trap> {
        let address = self.reach(i, Access::Read, align, pointer)?;
        self.windows.part(address).copied().ok_or(DATA)
    }

    #[inline(always)]
    pub fn load_byte(&mut self, i: Instruction) -> Result<u8, Trap> {
        Ok(u8::from_le_bytes(self.read(i, 1, None)?))
    }

    #[inline(always)]
    pub fn load_half(&mut self, i: Instruction) -> Result<u16, Trap> {
        Ok(u16::from_le_bytes(self.read(i, 2, None)?))
    }

    #[inline(always)]
    pub fn load_word(&mut self, i: Instruction) -> Result<u32, Trap> {
        Ok(u32::from_le_bytes(self.read(i, 2, None)?))
    }

    #[inline(always)]
    pub fn load_pointer(&mut self, i: Instruction) -> Result<u32, Trap> {
        Ok(u32::from_le_bytes(self.read(i, 4, Some(i.c))?))
    }

    #[inline(always)]
    pub fn store<const N: usize>(&mut self, i: Instruction, bytes: [u8; N], align: u32) -> Result<(), Trap> {
        let address = self.reach(i, Access::Write, align, None)?;
        *self.windows.part_mut(address).ok_or(DATA)? = bytes;
        self.observer.stored(address, N);
        Ok(())
    }
}
