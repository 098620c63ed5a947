//! What groups did to global cells, from the launch's start to its end (item
//! 7). Accesses of two groups conflict, unless both are loads or both adds.

use crate::memory::{lowest_met, Conflict, Met};
use crate::verdict::AccessKind;

/// Lets an access of the running group through beside those of other groups,
/// and enters it; else gives what it conflicts with.
pub(crate) trait Groups {
    fn load(&mut self, cell: usize) -> Result<(), Conflict>;
    fn store(&mut self, cell: usize) -> Result<(), Conflict>;
    fn add(&mut self, cell: usize) -> Result<(), Conflict>;
}

/// A group's own cells: no other group comes to them.
pub(crate) struct Alone;

impl Groups for Alone {
    #[inline(always)]
    fn load(&mut self, _: usize) -> Result<(), Conflict> {
        Ok(())
    }

    #[inline(always)]
    fn store(&mut self, _: usize) -> Result<(), Conflict> {
        Ok(())
    }

    #[inline(always)]
    fn add(&mut self, _: usize) -> Result<(), Conflict> {
        Ok(())
    }
}

/// The group masks of the global cells: bit g is for group g.
pub(crate) struct GroupMasks<'a> {
    /// The running group.
    group: u32,
    readers: &'a mut [u32],
    writers: &'a mut [u32],
    adders: &'a mut [u32],
}

impl<'a> GroupMasks<'a> {
    /// Takes as many words of each kind as there are global cells.
    pub(crate) fn new(group: u32, masks: [&'a mut [u32]; 3]) -> Self {
        let [readers, writers, adders] = masks;
        Self {
            group,
            readers,
            writers,
            adders,
        }
    }

    /// `Err` of the lowest other group in the masks, which are in the order in
    /// which their kinds are shown.
    fn let_through(&self, masks: &[(u32, AccessKind)]) -> Result<(), Conflict> {
        match lowest_met(self.group, masks) {
            None => Ok(()),
            Some((other, kind)) => Err((Met::Group(other), kind)),
        }
    }
}

impl Groups for GroupMasks<'_> {
    fn load(&mut self, cell: usize) -> Result<(), Conflict> {
        let written = (self.writers[cell], AccessKind::Wr);
        let added = (self.adders[cell], AccessKind::Ar);
        self.let_through(&[written, added])?;
        self.readers[cell] |= 1 << self.group;
        Ok(())
    }

    /// Equal stores of two groups conflict too.
    fn store(&mut self, cell: usize) -> Result<(), Conflict> {
        let written = (self.writers[cell], AccessKind::Ww);
        let added = (self.adders[cell], AccessKind::Aw);
        let read = (self.readers[cell], AccessKind::Rw);
        self.let_through(&[written, added, read])?;
        self.writers[cell] |= 1 << self.group;
        Ok(())
    }

    fn add(&mut self, cell: usize) -> Result<(), Conflict> {
        let written = (self.writers[cell], AccessKind::Wa);
        let read = (self.readers[cell], AccessKind::Ra);
        self.let_through(&[written, read])?;
        self.adders[cell] |= 1 << self.group;
        Ok(())
    }
}
