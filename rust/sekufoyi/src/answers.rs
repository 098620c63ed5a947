//! The answers' types, and how the library writes them as words.

use crate::raw::{OutcomeWords, RefusalWords};

/// An input or a buffer that is turned back, and where.
#[derive(Clone, Copy, Debug, PartialEq, Eq, Hash, PartialOrd, Ord)]
pub struct Refusal {
    /// Which refusal.
    pub number: u32,
    /// The line from 1, the row from 0, the length needed, or 0.
    pub place: u32,
}

/// How two accesses to one cell conflict: what the other did, then what the acting thread does. Where the other conflicts in
/// several ways, a write is shown before an add, and an add before a read.
#[derive(Clone, Copy, Debug, PartialEq, Eq, Hash, PartialOrd, Ord)]
pub enum AccessKind {
    /// The other read, the thread stores.
    Rw,
    /// The other wrote, the thread loads.
    Wr,
    /// The other wrote, the thread stores.
    Ww,
    /// The other read, the thread adds.
    Ra,
    /// The other added, the thread loads.
    Ar,
    /// The other wrote, the thread adds.
    Wa,
    /// The other added, the thread stores.
    Aw,
}

/// How a run ended. Threads go by their numbers in their group.
#[derive(Clone, Copy, Debug, PartialEq, Eq, Hash)]
pub enum Verdict {
    /// Every group reached the table's end; so it does in every run of the threads.
    Passed,
    /// Two threads of one group met at a cell, one of the group's own or a global one.
    Race {
        /// Where the run stopped.
        row: u32,
        /// The group of both threads.
        group: u32,
        /// The acting thread.
        thread: u32,
        /// The lowest thread that it conflicts with.
        other: u32,
        /// How they conflict.
        kind: AccessKind,
        /// The cell.
        at: u32,
    },
    /// Two groups met at a global cell. A report says `race` of them too, and gives no other thread.
    GroupRace {
        /// Where the run stopped.
        row: u32,
        /// The acting thread's group.
        group: u32,
        /// The lowest group that it conflicts with.
        other_group: u32,
        /// The acting thread.
        thread: u32,
        /// How they conflict.
        kind: AccessKind,
        /// The global cell.
        at: u32,
    },
    /// An access outside the group's own cells and the common ones, or outside the global ones.
    Outside {
        /// Where the run stopped.
        row: u32,
        /// The acting thread's group.
        group: u32,
        /// The acting thread.
        thread: u32,
        /// The number that was used.
        at: u32,
    },
    /// A store or an add to a common cell. Only a pair's kernels have these, so that no launch alone comes to it.
    Common {
        /// Where the run stopped.
        row: u32,
        /// The acting thread's group.
        group: u32,
        /// The acting thread.
        thread: u32,
        /// The number that was used.
        at: u32,
    },
    /// A barrier that some threads of the group came to, but not all.
    Diverged {
        /// Where the run stopped.
        row: u32,
        /// The group.
        group: u32,
        /// The lowest thread at the barrier.
        thread: u32,
        /// The lowest thread that is missing.
        other: u32,
    },
    /// As many rows run as the limit allows.
    Spent {
        /// The row that was due.
        row: u32,
        /// The group whose row it is.
        group: u32,
    },
}

/// A verdict with the counts of its run, but for the steps, which are each thread's own.
#[derive(Clone, Copy, Debug, PartialEq, Eq, Hash)]
pub struct Outcome {
    /// How the run ended.
    pub verdict: Verdict,
    /// Rows run, by all groups.
    pub rows: u32,
    /// Barriers that all threads of a group came to, in all groups.
    pub barriers: u32,
    /// What bank conflicts cost in all rows together.
    pub conflicts: u32,
}

/// What a report is about.
#[derive(Clone, Copy, Debug, PartialEq, Eq)]
pub enum Subject {
    /// A launch that ran.
    Ran(Outcome),
    /// A launch that was turned back.
    Refused(Refusal),
}

impl Refusal {
    pub(crate) fn from_words([number, place]: RefusalWords) -> Self {
        Self { number, place }
    }
}

impl AccessKind {
    /// The library proves that it answers no other code.
    fn from_code(code: u32) -> Self {
        match code {
            1 => Self::Rw,
            2 => Self::Wr,
            3 => Self::Ww,
            4 => Self::Ra,
            5 => Self::Ar,
            6 => Self::Wa,
            7 => Self::Aw,
            _ => panic!("the library answered kind {code}"),
        }
    }

    fn code(self) -> u32 {
        match self {
            Self::Rw => 1,
            Self::Wr => 2,
            Self::Ww => 3,
            Self::Ra => 4,
            Self::Ar => 5,
            Self::Wa => 6,
            Self::Aw => 7,
        }
    }
}

impl Verdict {
    /// The library proves that it answers no other code.
    fn from_words(words: OutcomeWords) -> Self {
        let [code, row, group, other_group, thread, other, kind, at, ..] = words;
        match code {
            1 => Self::Passed,
            2 => Self::Race {
                row,
                group,
                thread,
                other,
                kind: AccessKind::from_code(kind),
                at,
            },
            3 => Self::Outside {
                row,
                group,
                thread,
                at,
            },
            4 => Self::Diverged {
                row,
                group,
                thread,
                other,
            },
            5 => Self::Spent { row, group },
            6 => Self::GroupRace {
                row,
                group,
                other_group,
                thread,
                kind: AccessKind::from_code(kind),
                at,
            },
            7 => Self::Common {
                row,
                group,
                thread,
                at,
            },
            _ => panic!("the library answered verdict {code}"),
        }
    }

    /// Verdict, row, group, othergroup, thread, other, kind, at; 0 where a word has no meaning.
    fn words(self) -> [u32; 8] {
        match self {
            Self::Passed => [1, 0, 0, 0, 0, 0, 0, 0],
            Self::Race {
                row,
                group,
                thread,
                other,
                kind,
                at,
            } => [2, row, group, group, thread, other, kind.code(), at],
            Self::Outside {
                row,
                group,
                thread,
                at,
            } => [3, row, group, 0, thread, 0, 0, at],
            Self::Diverged {
                row,
                group,
                thread,
                other,
            } => [4, row, group, 0, thread, other, 0, 0],
            Self::Spent { row, group } => [5, row, group, 0, 0, 0, 0, 0],
            Self::GroupRace {
                row,
                group,
                other_group,
                thread,
                kind,
                at,
            } => [6, row, group, other_group, thread, 0, kind.code(), at],
            Self::Common {
                row,
                group,
                thread,
                at,
            } => [7, row, group, 0, thread, 0, 0, at],
        }
    }
}

impl Outcome {
    pub(crate) fn from_words(words: OutcomeWords) -> Self {
        let [.., rows, barriers, conflicts] = words;
        Self {
            verdict: Verdict::from_words(words),
            rows,
            barriers,
            conflicts,
        }
    }

    pub(crate) fn words(self) -> OutcomeWords {
        let [verdict, row, group, other_group, thread, other, kind, at] = self.verdict.words();
        let Self {
            rows,
            barriers,
            conflicts,
            ..
        } = self;
        [
            verdict,
            row,
            group,
            other_group,
            thread,
            other,
            kind,
            at,
            rows,
            barriers,
            conflicts,
        ]
    }
}
