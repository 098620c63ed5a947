//! Cells and their access log: who read, who wrote and who added to each cell
//! since the last counted barrier, what was stored first, and whether all
//! stores were equal ("The lock-step run", and items 1 and 6). A group's own
//! cells and the global ones are kept alike; what other groups did to a global
//! cell is in `groups`.

use crate::groups::Groups;
use crate::registers::{Bits, Enabled, Registers};
use crate::table::Reg;
use crate::verdict::AccessKind;

/// Whom a racing access conflicts with.
#[derive(Clone, Copy)]
pub(crate) enum Met {
    /// A thread of the own group, by its number there.
    Thread(u32),
    /// Another group.
    Group(u32),
}

/// An access that conflicts: the lowest it conflicts with, and how.
pub(crate) type Conflict = (Met, AccessKind);

/// A row's access that stops the run. The threads below `thread` have acted.
pub(crate) struct Stop {
    pub thread: u32,
    pub at: u32,
    /// None where the number is no cell's here: outside, or a common cell's.
    pub conflict: Option<Conflict>,
}

/// Kinds of words in a group's log of some cells.
pub(crate) const GROUP_KINDS: usize = 5;

/// Some cells and a group's log of them: reader masks, writer masks, adder
/// masks, first values and marks. A kernel without ATOMIC ADD has `ADDS` false
/// for its own cells: their adder masks stay 0, and loads, stores and barriers
/// are spared them.
///
/// First value and mark of a cell without a writer decide nothing. They may be
/// anything until the run's end, so that a barrier is spared them.
pub(crate) struct Memory<'a, const ADDS: bool, G> {
    cells: &'a mut [u32],
    readers: &'a mut [u32],
    writers: &'a mut [u32],
    adders: &'a mut [u32],
    firsts: &'a mut [u32],
    marks: &'a mut [u32],
    groups: G,
}

impl<'a, const ADDS: bool, G: Groups> Memory<'a, ADDS, G> {
    /// Takes as many words of each kind as there are cells.
    pub(crate) fn new(cells: &'a mut [u32], log: [&'a mut [u32]; GROUP_KINDS], groups: G) -> Self {
        let [readers, writers, adders, firsts, marks] = log;
        Self {
            cells,
            readers,
            writers,
            adders,
            firsts,
            marks,
            groups,
        }
    }

    pub(crate) fn cells(&self) -> &[u32] {
        self.cells
    }

    /// What other groups did stays.
    #[inline(always)]
    pub(crate) fn clear_log(&mut self) {
        self.readers.fill(0);
        self.writers.fill(0);
        if ADDS {
            self.adders.fill(0);
        }
    }

    /// LOAD Rd = cell numbered Ra, by the threads of a mask, lowest first.
    #[inline(always)]
    pub(crate) fn load(
        &mut self,
        registers: &mut Registers,
        mask: u32,
        d: Reg,
        a: Reg,
    ) -> Result<(), Stop> {
        // Equal lengths let one bounds check serve all slices.
        let count = self.cells.len();
        let cells = &self.cells[..count];
        let readers = &mut self.readers[..count];
        let writers = &self.writers[..count];
        let adders = if ADDS { &self.adders[..count] } else { &[] };
        for (thread, me) in Bits(mask) {
            let at = registers.get(a, thread);
            let cell = at as usize;
            if cell >= count {
                return Err(outside(thread, at));
            }
            let added = if ADDS { adders[cell] } else { 0 };
            if writers[cell] | added | me != me {
                return Err(self.load_race(thread, at));
            }
            let let_through = self.groups.load(cell);
            let_through.map_err(|conflict| race(thread, at, conflict))?;
            readers[cell] |= me;
            registers.put(d, thread, cells[cell]);
        }
        Ok(())
    }

    /// STORE cell numbered Rd = Ra, lowest thread first. Beside another's store
    /// it is let through if all stores to the cell, its own too, are equal.
    #[inline(always)]
    pub(crate) fn store(
        &mut self,
        registers: &Registers,
        enabled: &Enabled,
        d: Reg,
        a: Reg,
    ) -> Result<(), Stop> {
        let count = self.cells.len();
        let cells = &mut self.cells[..count];
        let readers = &self.readers[..count];
        let writers = &mut self.writers[..count];
        let adders = if ADDS { &self.adders[..count] } else { &[] };
        let firsts = &mut self.firsts[..count];
        let marks = &mut self.marks[..count];
        for (thread, me) in Bits(enabled.mask()) {
            let at = registers.get(d, thread);
            let cell = at as usize;
            if cell >= count {
                return Err(outside(thread, at));
            }
            let value = registers.get(a, thread);
            let added = if ADDS { adders[cell] } else { 0 };
            let (met, stored) = (readers[cell] | added, writers[cell]);
            let beside_groups = |groups: &mut G| {
                let let_through = groups.store(cell);
                let_through.map_err(|conflict| race(thread, at, conflict))
            };
            // Mostly nobody else was here. Then few words are looked at.
            if met | stored | me != me {
                let equal = firsts[cell] == value && marks[cell] == 0;
                if met | me != me || !equal {
                    let unequal = if equal { 0 } else { stored };
                    return Err(self.store_race(thread, at, unequal));
                }
                beside_groups(&mut self.groups)?;
                writers[cell] = stored | me;
            } else {
                beside_groups(&mut self.groups)?;
                if stored == 0 {
                    (writers[cell], firsts[cell], marks[cell]) = (me, value, 0);
                } else if firsts[cell] != value {
                    marks[cell] = 1;
                }
            }
            cells[cell] = value;
        }
        Ok(())
    }

    /// ATOMIC ADD: the cell numbered Rd grows by Ra, lowest thread first.
    #[inline(always)]
    pub(crate) fn atomic_add(
        &mut self,
        registers: &Registers,
        enabled: &Enabled,
        d: Reg,
        a: Reg,
    ) -> Result<(), Stop> {
        if !ADDS {
            return Ok(()); // never met: said so that no code is made for it
        }
        let count = self.cells.len();
        let cells = &mut self.cells[..count];
        let readers = &self.readers[..count];
        let writers = &self.writers[..count];
        let adders = &mut self.adders[..count];
        for (thread, me) in Bits(enabled.mask()) {
            let at = registers.get(d, thread);
            let cell = at as usize;
            if cell >= count {
                return Err(outside(thread, at));
            }
            if readers[cell] | writers[cell] | me != me {
                return Err(self.add_race(thread, at));
            }
            let let_through = self.groups.add(cell);
            let_through.map_err(|conflict| race(thread, at, conflict))?;
            adders[cell] |= me;
            cells[cell] = cells[cell].wrapping_add(registers.get(a, thread));
        }
        Ok(())
    }

    #[cold]
    fn load_race(&self, thread: u32, at: u32) -> Stop {
        let cell = at as usize;
        let written = (self.writers[cell], AccessKind::Wr);
        let added = (self.adders[cell], AccessKind::Ar);
        thread_race(thread, at, &[written, added])
    }

    /// `unequal` are the writers, unless all stores are equal.
    #[cold]
    fn store_race(&self, thread: u32, at: u32, unequal: u32) -> Stop {
        let cell = at as usize;
        let written = (unequal, AccessKind::Ww);
        let added = (self.adders[cell], AccessKind::Aw);
        let read = (self.readers[cell], AccessKind::Rw);
        thread_race(thread, at, &[written, added, read])
    }

    #[cold]
    fn add_race(&self, thread: u32, at: u32) -> Stop {
        let cell = at as usize;
        let written = (self.writers[cell], AccessKind::Wa);
        let read = (self.readers[cell], AccessKind::Ra);
        thread_race(thread, at, &[written, read])
    }
}

/// The lowest of all numbers in the masks but for the acting one's own, and how
/// it conflicts. The masks are those of the accesses that conflict, in the
/// order in which they are shown.
pub(crate) fn lowest_met(own: u32, masks: &[(u32, AccessKind)]) -> Option<(u32, AccessKind)> {
    let others = !(1 << own);
    let all = masks.iter().fold(0, |all, (mask, _)| all | mask & others);
    let lowest = all & all.wrapping_neg();
    let shown = masks.iter().find(|(mask, _)| mask & lowest != 0);
    shown.map(|&(_, kind)| (lowest.trailing_zeros(), kind))
}

fn thread_race(thread: u32, at: u32, masks: &[(u32, AccessKind)]) -> Stop {
    let conflict = lowest_met(thread, masks).map(|(other, kind)| (Met::Thread(other), kind));
    Stop {
        thread,
        at,
        conflict,
    }
}

#[cold]
fn race(thread: u32, at: u32, conflict: Conflict) -> Stop {
    Stop {
        thread,
        at,
        conflict: Some(conflict),
    }
}

#[cold]
fn outside(thread: u32, at: u32) -> Stop {
    let conflict = None;
    Stop {
        thread,
        at,
        conflict,
    }
}
