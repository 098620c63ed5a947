//! The common cells (item 12): words that nobody writes, numbered from 65,536 on
//! for LOAD, STORE and ATOMIC ADD. Own cells have lower numbers, so a number is
//! looked up here only where it is no own cell's.

use crate::limits::COMMON_FROM;

/// A launch's common cells.
#[derive(Clone, Copy)]
pub(crate) struct Common<'a>(pub &'a [u32]);

impl Common<'_> {
    /// What global accesses reach, and launches without common cells.
    pub(crate) const NONE: Common<'static> = Common(&[]);

    pub(crate) fn is_empty(self) -> bool {
        self.0.is_empty()
    }

    /// The word of a number, if it is a common cell's.
    pub(crate) fn word(self, at: u32) -> Option<u32> {
        let cell = at.checked_sub(COMMON_FROM)?;
        self.0.get(cell as usize).copied()
    }
}

#[cfg(test)]
mod tests {
    use super::*;

    #[test]
    fn numbers_from_65536_on() {
        let common = Common(&[7, 8]);
        assert_eq!(
            [65_536, 65_537].map(|at| common.word(at)),
            [Some(7), Some(8)]
        );
        for at in [0, 1, 1_023, 65_535, 65_538, 65_536 + 256, 131_072, u32::MAX] {
            assert_eq!(common.word(at), None, "{at}");
        }
        assert_eq!(Common::NONE.word(65_536), None);
    }
}
