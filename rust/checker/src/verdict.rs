//! What a launch came to.

/// How two accesses to one cell conflict: the other's first, then the
/// acting thread's. Where the other conflicts by several, a write is shown
/// before an add, and an add before a read. Equal stores are no conflict.
#[derive(Clone, Copy, Debug, PartialEq, Eq, Hash, PartialOrd, Ord)]
pub enum AccessKind {
    /// The other read and didn't add, the thread stores. If the other wrote,
    /// all stores are equal.
    Rw,
    /// The other wrote, the thread loads.
    Wr,
    /// The other wrote, the thread stores, and the stores are not all equal.
    Ww,
    /// The other read and didn't write, the thread adds.
    Ra,
    /// The other added and didn't write, the thread loads.
    Ar,
    /// The other wrote, the thread adds.
    Wa,
    /// The other added, the thread stores. If the other wrote, all stores are
    /// equal.
    Aw,
}

/// How the run ended. Threads go by their numbers in their group.
#[derive(Clone, Copy, Debug, PartialEq, Eq, Hash)]
pub enum Verdict {
    /// Every group reached the table's end.
    Passed,
    /// Two threads of a group met at a cell, or two groups at a global one.
    Race {
        /// Where the run stopped.
        row: u32,
        /// The acting thread's own group, or else the lowest conflicting one.
        other_group: u32,
        /// The acting thread.
        thread: u32,
        /// The lowest conflicting thread; none where it is of another group.
        other: Option<u32>,
        /// How they conflict.
        kind: AccessKind,
        /// The cell.
        at: u32,
    },
    /// An access outside the group's own cells and the common ones, or outside
    /// the global ones.
    Outside {
        /// Where the run stopped.
        row: u32,
        /// The acting thread.
        thread: u32,
        /// The number used.
        at: u32,
    },
    /// A STORE or an ATOMIC ADD to a common cell.
    Common {
        /// Where the run stopped.
        row: u32,
        /// The acting thread.
        thread: u32,
        /// The number used.
        at: u32,
    },
    /// A barrier that some, but not all, threads of the group reached.
    Diverged {
        /// Where the run stopped.
        row: u32,
        /// The lowest enabled thread.
        thread: u32,
        /// The lowest thread not enabled.
        other: u32,
    },
    /// As many rows run as the limit allows.
    Spent {
        /// The row due.
        row: u32,
    },
}

/// A verdict with the counts of its run, but for the steps of each thread.
#[derive(Clone, Copy, Debug, PartialEq, Eq, Hash)]
pub struct Outcome {
    /// How the run ended.
    pub verdict: Verdict,
    /// The group in which it ended; of a launch that passed the last one.
    pub group: u32,
    /// Rows finished, by all groups.
    pub rows: u32,
    /// Barriers that all threads of a group passed, in all groups.
    pub barriers: u32,
    /// Costs of all rows for bank conflicts.
    pub conflicts: u32,
}
