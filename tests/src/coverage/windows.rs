//! What a series of steps has met of the two windows.

use super::extents::{Extents, FAULTS, LAYOUTS, NEITHER};
use crate::model::protection::Access;
use crate::model::windows::address_of;

/// The calls by their kind, as refusals are counted.
#[derive(Clone, Copy)]
pub enum Called {
    Start,
    Step,
    Run,
}

const CALLED: [&str; 3] = ["start", "step", "run"];
const WINDOWS: [&str; 2] = ["first", "second"];

/// Counts by window have the first one first; those of a way have the window that it leads to.
#[derive(Default)]
pub struct WindowCounts {
    /// Accepted starts, and steps and runs that were not refused.
    starts: [u64; LAYOUTS.len()],
    calls: [u64; LAYOUTS.len()],
    /// By the kind of the call and the fault.
    refusals: [[u64; FAULTS.len()]; 3],
    /// Starts with two windows refused with 5 and with 6.
    refused_lists: [u64; 2],
    /// Stops with two windows for an area in neither, of a save and of a return.
    stops: [u64; 2],
    saves: [u64; 2],
    returns: [u64; 2],
    /// Right after a save, or a return, in the other window.
    saves_after_other: [u64; 2],
    returns_after_other: [u64; 2],
    /// FCD entries in the other window than the save before.
    fcd_after_other: [u64; 2],
    /// Accepted starts by the list that crosses, free or used, and the way.
    crossings: [[u64; 2]; 2],
    loads: [u64; 2],
    stores: [u64; 2],
    /// Accesses of a window's first byte, and of its last.
    ends: [[u64; 2]; 2],
    /// Traps 4/2 by the window of the access's first byte and of its last; and those of stores alone.
    outside: [[u64; 3]; 3],
    stores_outside: [[u64; 3]; 3],
}

impl WindowCounts {
    /// A call's answer: it was refused for its windows or lists, or it was not.
    pub fn answer(&mut self, called: Called, extents: &Extents, answer: u64) {
        let number = (answer >> 8) as u8;
        match (answer as u8, number) {
            (4, 1 | 13) => self.refusals[called as usize][extents.fault()] += 1,
            (4, 5 | 6) if extents.both() => self.refused_lists[number as usize - 5] += 1,
            (4 | 5, _) => {}
            _ => {
                let counts = if matches!(called, Called::Start) { &mut self.starts } else { &mut self.calls };
                for (count, is) in counts.iter_mut().zip(extents.layouts()) {
                    *count += is as u64;
                }
            }
        }
    }

    /// The links of the free list and of the used one at an accepted start.
    pub fn lists(&mut self, extents: &Extents, lists: [Vec<u32>; 2]) {
        for (links, counts) in lists.iter().zip(&mut self.crossings) {
            let windows: Vec<usize> = links.iter().map(|link| extents.holder(address_of(*link))).collect();
            for (to, count) in counts.iter_mut().enumerate() {
                *count += windows.windows(2).any(|pair| pair == [1 - to, to]) as u64;
            }
        }
    }

    /// A save into a window, and the one of the save before it; whether it is an FCD entry's, and so the step's second.
    pub fn saved(&mut self, window: usize, before: Option<usize>, fcd: bool) {
        let after_other = before == Some(1 - window);
        self.saves[window] += 1;
        self.saves_after_other[window] += after_other as u64;
        self.fcd_after_other[window] += (fcd && after_other) as u64;
    }

    /// The same of a return.
    pub fn returned(&mut self, window: usize, before: Option<usize>) {
        self.returns[window] += 1;
        self.returns_after_other[window] += (before == Some(1 - window)) as u64;
    }

    /// A stop with 12.
    pub fn stopped(&mut self, extents: &Extents, of_a_return: bool) {
        self.stops[of_a_return as usize] += extents.both() as u64;
    }

    /// A load or store without a trap.
    pub fn accessed(&mut self, extents: &Extents, access: Access, address: u32, size: u32) {
        let window = extents.holder(address);
        assert!(
            extents.holder(address + size - 1) == window,
            "an access of {size} bytes at {address:X} is in no window"
        );
        match access {
            Access::Write => self.stores[window] += 1,
            _ => self.loads[window] += 1,
        }
        let (from, to) = extents.of_window(window);
        self.ends[window][0] += (address as u64 == from) as u64;
        self.ends[window][1] += ((address + size) as u64 == to) as u64;
    }

    /// A load or store with trap 4/2.
    pub fn outside(&mut self, extents: &Extents, access: Access, address: u32, size: u32) {
        let (from, to) = (extents.holder(address), extents.holder(address.wrapping_add(size - 1)));
        assert!(from != to || from == NEITHER, "4/2 of {size} bytes at {address:X}, which are in a window");
        self.outside[from][to] += 1;
        self.stores_outside[from][to] += matches!(access, Access::Write) as u64;
    }

    /// Every count with its name.
    pub fn counts(&self) -> Vec<(String, u64)> {
        let mut counts = Vec::new();
        for (k, layout) in LAYOUTS.iter().enumerate() {
            counts.push((format!("start accepted, {layout}"), self.starts[k]));
            counts.push((format!("step or run, {layout}"), self.calls[k]));
        }
        for (called, refusals) in CALLED.iter().zip(self.refusals) {
            counts.extend(FAULTS.iter().zip(refusals).map(|(fault, n)| (format!("{called} refused, {fault}"), n)));
        }
        counts.extend([
            ("5 with two windows".into(), self.refused_lists[0]),
            ("6 with two windows".into(), self.refused_lists[1]),
            ("12 with two windows, save".into(), self.stops[0]),
            ("12 with two windows, return".into(), self.stops[1]),
        ]);
        for (k, window) in WINDOWS.iter().enumerate() {
            let other = WINDOWS[1 - k];
            counts.extend([
                (format!("save, {window} window"), self.saves[k]),
                (format!("return, {window} window"), self.returns[k]),
                (format!("save, {window} after {other}"), self.saves_after_other[k]),
                (format!("return, {window} after {other}"), self.returns_after_other[k]),
                (format!("FCD entry, {window} after {other}"), self.fcd_after_other[k]),
                (format!("free list, {other} to {window}"), self.crossings[0][k]),
                (format!("used list, {other} to {window}"), self.crossings[1][k]),
                (format!("load, {window} window"), self.loads[k]),
                (format!("store, {window} window"), self.stores[k]),
                (format!("access of the {window}'s first byte"), self.ends[k][0]),
                (format!("access of the {window}'s last byte"), self.ends[k][1]),
                (format!("4/2, load, {window} into {other}"), self.outside[k][1 - k] - self.stores_outside[k][1 - k]),
                (format!("4/2, store, {window} into {other}"), self.stores_outside[k][1 - k]),
                (format!("4/2, {window} into neither"), self.outside[k][NEITHER]),
                (format!("4/2, neither into {window}"), self.outside[NEITHER][k]),
            ]);
        }
        counts.push(("4/2 in neither".into(), self.outside[NEITHER][NEITHER]));
        counts
    }
}
