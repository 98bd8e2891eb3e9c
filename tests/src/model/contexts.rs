//! Saves, returns, and the entries of interrupts and traps.

use super::code::Code;
use super::depth;
use super::event::{Event, Stop, Trap, Undone, CSU, CTYP, FCD};
use super::fields::{icr, pcxi, psw, request, LINK};
use super::image::word;
use super::machine::Machine;
use super::observer::{Half, Observer};
use super::windows::address_of;

/// An area found for a save, with all that could stop the step already tried.
#[derive(Clone, Copy)]
pub struct Found {
    link: u32,
    depletes: bool,
}

impl<O: Observer, C: Code> Machine<'_, O, C> {
    /// The first word of the area that a link names.
    #[inline(always)]
    fn first_word(&self, link: u32) -> Result<u32, Stop> {
        let area: &[u8; 64] = self.windows.part(address_of(link)).ok_or(Stop::Outside)?;
        Ok(word(area, 0))
    }

    fn free_area(&self, fcx: u32) -> Result<u32, Stop> {
        match fcx & LINK {
            0 => Err(Stop::NoArea),
            link => self.first_word(link),
        }
    }

    /// The area of this step's save; where it depletes the list, the FCD entry's area is known to be there too.
    #[inline(always)]
    pub fn find(&self) -> Result<Found, Stop> {
        let link = self.core.fcx & LINK;
        let next = self.free_area(link)?;
        let depletes = link == self.core.lcx & LINK;
        if depletes {
            self.free_area(next)?;
        }
        Ok(Found { link, depletes })
    }

    #[inline(always)]
    fn save(&mut self, half: Half, second: u32, found: Found) {
        self.observer.saves(half, &self.core);
        let core = &mut self.core;
        let area: &mut [u8; 64] = self.windows.part_mut(address_of(found.link)).expect("found");
        core.fcx = word(area, 0) & LINK;
        let (a, d, ul) = match half {
            Half::Upper => (&core.a[10..16], &core.d[8..16], pcxi::UL),
            Half::Lower => (&core.a[2..8], &core.d[0..8], 0),
        };
        let words = [core.pcxi, second].into_iter().chain(a.iter().copied()).chain(d.iter().copied());
        for (bytes, word) in area.as_chunks_mut().0.iter_mut().zip(words) {
            *bytes = word.to_le_bytes();
        }
        let pie = if core.icr & icr::IE != 0 { pcxi::PIE } else { 0 };
        core.pcxi = (core.icr & icr::CCPN) << 24 | pie | ul | found.link;
    }

    pub fn save_upper(&mut self, found: Found) {
        self.save(Half::Upper, self.core.psw, found);
    }

    pub fn save_lower(&mut self, next: u32, found: Found) {
        self.save(Half::Lower, next, found);
    }

    fn enter(&mut self, a11: u32, vector: u32, found: Found) {
        self.save_upper(found);
        let core = &mut self.core;
        core.a[11] = a11;
        if core.psw & psw::IS == 0 {
            core.a[10] = core.isp;
        }
        core.psw = psw::ENTRY;
        core.icr &= !icr::IE;
        core.pc = vector & !1;
    }

    fn enter_trap(&mut self, trap: Trap, a11: u32, found: Found) {
        self.enter(a11, self.core.btv | (32 * trap.class as u32), found);
        self.core.d[15] = trap.tin as u32;
        self.observer.enters(Event::Trap(trap));
    }

    /// The event of a step that made a save, with the FCD entry where one follows.
    pub fn after_save(&mut self, event: Event, found: Found) -> Event {
        if !found.depletes {
            return event;
        }
        let link = self.core.fcx & LINK;
        self.enter_trap(FCD, self.core.pc, Found { link, depletes: false });
        Event::Trap(FCD)
    }

    #[cold]
    pub fn trap(&mut self, trap: Trap, a11: u32) -> Result<Event, Stop> {
        let found = self.find()?;
        self.enter_trap(trap, a11, found);
        Ok(self.after_save(Event::Trap(trap), found))
    }

    #[cold]
    pub fn interrupt(&mut self, source: usize, priority: u32) -> Result<Event, Stop> {
        let found = self.find()?;
        self.core.requests[source] &= !request::REQUESTED;
        self.enter(self.core.pc, self.core.biv | (32 * priority), found);
        self.core.icr = self.core.icr & !icr::CCPN | priority;
        let event = Event::Interrupt { source: source as u8 };
        self.observer.enters(event);
        Ok(self.after_save(event, found))
    }

    pub fn call(&mut self, target: u32, next: u32) -> Result<Event, Undone> {
        let counted = depth::up(self.core.psw)?;
        let found = self.find()?;
        self.save_upper(found);
        self.core.psw = counted;
        self.core.a[11] = next;
        self.core.pc = target & !1;
        Ok(self.after_save(Event::Instruction, found))
    }

    /// The tests of PCXI before a return.
    pub fn returnable(&self, half: Half) -> Result<(), Trap> {
        if self.core.pcxi & LINK == 0 {
            return Err(CSU);
        }
        if (self.core.pcxi & pcxi::UL != 0) != (half == Half::Upper) {
            return Err(CTYP);
        }
        Ok(())
    }

    /// Loads the area at PCXI, and answers its second word.
    fn load(&mut self, half: Half) -> Result<u32, Stop> {
        let link = self.core.pcxi & LINK;
        let area: &mut [u8; 64] = self.windows.part_mut(address_of(link)).ok_or(Stop::Outside)?;
        let mut words = [0; 16];
        for (word, bytes) in words.iter_mut().zip(area.as_chunks().0) {
            *word = u32::from_le_bytes(*bytes);
        }
        area[..4].copy_from_slice(&self.core.fcx.to_le_bytes());
        let core = &mut self.core;
        core.fcx = link;
        core.pcxi = words[0];
        let (a, d) = match half {
            Half::Upper => (&mut core.a[10..16], &mut core.d[8..16]),
            Half::Lower => (&mut core.a[2..8], &mut core.d[0..8]),
        };
        a.copy_from_slice(&words[2..8]);
        d.copy_from_slice(&words[8..16]);
        Ok(words[1])
    }

    pub fn return_upper(&mut self) -> Result<Event, Undone> {
        let target = self.core.a[11];
        self.core.psw = self.load(Half::Upper)?;
        self.core.pc = target & !1;
        self.observer.returned(Half::Upper, &self.core);
        Ok(Event::Instruction)
    }

    pub fn return_lower(&mut self, next: u32) -> Result<Event, Undone> {
        self.load(Half::Lower)?;
        self.core.pc = next;
        self.observer.returned(Half::Lower, &self.core);
        Ok(Event::Instruction)
    }
}
