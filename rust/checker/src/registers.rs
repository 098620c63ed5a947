//! Registers of all threads, laid out by register: 16 arrays of 32 lanes. Where
//! all threads are enabled they are worked on in vectors of 8 lanes, so that
//! the loops need no remainder; otherwise lane by lane.

use crate::table::{Dab, Reg};

pub(crate) const LANES: usize = 32;
const WIDTH: usize = 8;

type Vector = [u32; WIDTH];

/// The threads of a mask, lowest first.
pub(crate) struct Threads(pub u32);

impl Iterator for Threads {
    type Item = u32;

    #[inline(always)]
    fn next(&mut self) -> Option<u32> {
        if self.0 == 0 {
            return None;
        }
        let thread = self.0.trailing_zeros();
        self.0 &= self.0 - 1;
        Some(thread)
    }
}

/// The threads of a mask, lowest first, each with its bit.
pub(crate) struct Bits(pub u32);

impl Iterator for Bits {
    type Item = (u32, u32);

    #[inline(always)]
    fn next(&mut self) -> Option<(u32, u32)> {
        if self.0 == 0 {
            return None;
        }
        let thread = self.0.trailing_zeros();
        let bit = self.0 & self.0.wrapping_neg();
        self.0 ^= bit;
        Some((thread, bit))
    }
}

/// Which threads there are, and which of them are enabled.
pub(crate) struct Enabled {
    all: u32,
    mask: u32,
}

impl Enabled {
    /// All of 1 to 32 threads enabled.
    pub(crate) fn all(threads: u32) -> Self {
        let all = u32::MAX.checked_shr(32 - threads).unwrap_or(0);
        Self { all, mask: all }
    }

    #[inline(always)]
    pub(crate) fn set(&mut self, mask: u32) {
        self.mask = mask;
    }

    #[inline(always)]
    pub(crate) fn mask(&self) -> u32 {
        self.mask
    }

    #[inline(always)]
    pub(crate) fn is_all(&self) -> bool {
        self.mask == self.all
    }

    pub(crate) fn disabled(&self) -> u32 {
        self.all & !self.mask
    }
}

/// Registers 0 to 15 of each thread. Lanes past the last thread may hold
/// anything: no mask ever selects them.
pub(crate) struct Registers {
    file: [[u32; LANES]; 16],
    /// Vectors in use, so that a small group pays for its own lanes only.
    used: usize,
}

impl Registers {
    pub(crate) fn new(threads: u32) -> Self {
        Self {
            file: [[0; LANES]; 16],
            used: (threads as usize).div_ceil(WIDTH),
        }
    }

    #[inline(always)]
    pub(crate) fn get(&self, reg: Reg, thread: u32) -> u32 {
        self.file[reg.index()][thread as usize % LANES]
    }

    #[inline(always)]
    pub(crate) fn put(&mut self, reg: Reg, thread: u32, word: u32) {
        self.file[reg.index()][thread as usize % LANES] = word;
    }

    /// A register of all threads, and of lanes without one.
    #[inline(always)]
    pub(crate) fn lanes(&self, reg: Reg) -> &[u32; LANES] {
        &self.file[reg.index()]
    }

    #[inline(always)]
    fn vectors(&self) -> std::ops::Range<usize> {
        0..self.used.min(LANES / WIDTH)
    }

    #[inline(always)]
    fn vector(&self, reg: Reg, v: usize) -> Vector {
        self.file[reg.index()].as_chunks().0[v]
    }

    #[inline(always)]
    fn put_vector(&mut self, reg: Reg, v: usize, words: Vector) {
        self.file[reg.index()].as_chunks_mut().0[v] = words;
    }

    /// Rd = `word` of the thread's number, for the enabled threads.
    #[inline(always)]
    pub(crate) fn fill(&mut self, enabled: &Enabled, d: Reg, word: impl Fn(u32) -> u32) {
        if enabled.is_all() {
            for v in self.vectors() {
                let first = (v * WIDTH) as u32;
                self.put_vector(d, v, std::array::from_fn(|i| word(first + i as u32)));
            }
        } else {
            for thread in Threads(enabled.mask()) {
                self.put(d, thread, word(thread));
            }
        }
    }

    /// Rd = `word` of Ra and Rb, for the enabled threads.
    #[inline(always)]
    pub(crate) fn binary(&mut self, enabled: &Enabled, row: Dab, word: impl Fn(u32, u32) -> u32) {
        let Dab { d, a, b } = row;
        if enabled.is_all() {
            for v in self.vectors() {
                let (left, right) = (self.vector(a, v), self.vector(b, v));
                self.put_vector(d, v, std::array::from_fn(|i| word(left[i], right[i])));
            }
        } else {
            for thread in Threads(enabled.mask()) {
                let result = word(self.get(a, thread), self.get(b, thread));
                self.put(d, thread, result);
            }
        }
    }

    /// The enabled threads with Ra nonzero.
    #[inline(always)]
    pub(crate) fn truth(&self, enabled: &Enabled, a: Reg) -> u32 {
        if enabled.is_all() {
            let mut mask = 0;
            for v in self.vectors() {
                let words = self.vector(a, v);
                let bits = (0..WIDTH).fold(0, |bits, i| bits | (u32::from(words[i] != 0) << i));
                mask |= bits << (v * WIDTH);
            }
            mask & enabled.mask()
        } else {
            Threads(enabled.mask())
                .filter(|&thread| self.get(a, thread) != 0)
                .fold(0, |mask, thread| mask | (1 << thread))
        }
    }
}
