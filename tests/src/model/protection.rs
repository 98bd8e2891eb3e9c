//! Protection of fetches, reads, writes and of the global address registers.

use super::core::{Core, Range};
use super::event::{Trap, GRWP, MPP, MPR, MPW, MPX};
use super::fields::{mode, psw, PROTECTION_ON};
use super::observer::Observer;

#[derive(Clone, Copy)]
pub enum Access {
    Read,
    Write,
    Fetch,
}

/// The ranges that permitted a step's fetch and its data access, by their numbers among the four of the set. A step tells
/// them; a run does not, so they are noted by a watcher.
#[derive(Clone, Copy, Default)]
pub struct Permits {
    pub fetch: Option<usize>,
    pub data: Option<usize>,
}

impl Observer for Permits {
    fn permitted(&mut self, _core: &Core, access: Access, _address: u32, by: Option<usize>) {
        match access {
            Access::Fetch => self.fetch = by,
            Access::Read | Access::Write => self.data = by,
        }
    }
}

#[inline]
fn permits(range: &Range, bit: u32, address: u32) -> bool {
    range.mode & bit != 0 && range.lower <= address && address < range.upper
}

impl Core {
    /// The number of set PRS's first range for an access, the bit of a mode that it needs, and the trap without one.
    #[inline]
    fn held_to(&self, access: Access) -> (usize, u32, Trap) {
        let (first, bit, trap) = match access {
            Access::Read => (0, mode::READ, MPR),
            Access::Write => (0, mode::WRITE, MPW),
            Access::Fetch => (4, mode::EXECUTE, MPX),
        };
        (8 * psw::prs(self.psw) + first, bit, trap)
    }

    /// The lowest range that permits an access, where one has to, by its number among the four of the set.
    #[inline]
    pub fn permit(&self, access: Access, address: u32) -> Result<Option<usize>, Trap> {
        if address >= 0xE000_0000 {
            return if psw::io(self.psw) == 0 { Err(MPP) } else { Ok(None) };
        }
        if self.syscon & PROTECTION_ON == 0 {
            return Ok(None);
        }
        let (first, bit, trap) = self.held_to(access);
        let permits = |range: &Range| permits(range, bit, address);
        self.ranges[first..first + 4].iter().position(permits).map(Some).ok_or(trap)
    }

    /// All ranges of the set that permit an access.
    pub fn permitting(&self, access: Access, address: u32) -> Vec<usize> {
        let (first, bit, _) = self.held_to(access);
        (0..4).filter(|k| permits(&self.ranges[first + k], bit, address)).collect()
    }

    /// Whether A[n] may be written.
    #[inline]
    pub fn guard(&self, n: usize) -> Result<(), Trap> {
        if self.psw & psw::GW == 0 && matches!(n, 0 | 1 | 8 | 9) {
            return Err(GRWP);
        }
        Ok(())
    }
}
