//! The lent log: of each kind of words one for each own cell, group 0's first,
//! and then one for each global cell.

use crate::groups::{Alone, GroupMasks};
use crate::limits::LOG_KINDS;
use crate::memory::Memory;

/// A group's own cells.
pub(crate) type OwnMemory<'a, const ADDS: bool> = Memory<'a, ADDS, Alone>;
/// The global cells, as the running group has them.
pub(crate) type GlobalMemory<'a> = Memory<'a, true, GroupMasks<'a>>;

/// The words of each kind: reader, writer and adder masks, first values, marks,
/// group readers, group writers and group adders.
pub(crate) struct Log<'a> {
    kinds: [&'a mut [u32]; LOG_KINDS],
    /// Own cells of all groups.
    own: usize,
}

impl<'a> Log<'a> {
    /// Takes a log at least eight times as long as all cells, and clears its
    /// masks.
    pub(crate) fn new(log: &'a mut [u32], own: usize, global: usize) -> Self {
        let mut parts = log.chunks_exact_mut(own + global);
        let mut kinds = [(); LOG_KINDS].map(|()| parts.next().unwrap_or_default());
        let [readers, writers, adders, _, _, group_masks @ ..] = &mut kinds;
        for masks in [readers, writers, adders].into_iter().chain(group_masks) {
            masks.fill(0);
        }
        Self { kinds, own }
    }

    /// A group's own cells and the global ones, each with its part of the log.
    pub(crate) fn memories<'s, const ADDS: bool>(
        &'s mut self,
        group: u32,
        own_cells: &'s mut [u32],
        global_cells: &'s mut [u32],
    ) -> (OwnMemory<'s, ADDS>, GlobalMemory<'s>) {
        let start = group as usize * own_cells.len();
        let ours = start..start + own_cells.len();
        let kinds = self
            .kinds
            .each_mut()
            .map(|kind| kind.split_at_mut(self.own));
        let [r, w, a, first, mark, group_r, group_w, group_a] = kinds;
        let own_log = [r.0, w.0, a.0, first.0, mark.0].map(|kind| &mut kind[ours.clone()]);
        let global_log = [r.1, w.1, a.1, first.1, mark.1];
        let groups = GroupMasks::new(group, [group_r.1, group_w.1, group_a.1]);
        (
            Memory::new(own_cells, own_log, Alone),
            Memory::new(global_cells, global_log, groups),
        )
    }

    /// Clears first values and marks where nobody has stored since the last
    /// counted barrier. The log is then as the run leaves it.
    pub(crate) fn finish(self) {
        let [_, writers, _, firsts, marks, ..] = self.kinds;
        for (&writers, (first, mark)) in writers.iter().zip(firsts.iter_mut().zip(marks)) {
            let kept = if writers == 0 { 0 } else { u32::MAX };
            *first &= kept;
            *mark &= kept;
        }
    }
}
