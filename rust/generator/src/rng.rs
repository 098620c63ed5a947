//! A small deterministic generator of numbers: splitmix64.

/// Gives the same numbers for the same seed, everywhere.
#[derive(Clone, Debug)]
pub struct Rng(u64);

/// Words at which arithmetic, comparisons and shifts have their edges.
const EDGES: [u32; 12] = [
    0,
    1,
    2,
    31,
    32,
    33,
    255,
    256,
    (1 << 31) - 1,
    1 << 31,
    u32::MAX - 1,
    u32::MAX,
];

impl Rng {
    /// Numbers from a seed; `stream` keeps the uses of one seed apart.
    pub fn new(seed: u64, stream: u64) -> Self {
        let mut rng = Self(seed ^ stream.wrapping_mul(0xd134_2543_de82_ef95));
        rng.next();
        rng
    }

    fn next(&mut self) -> u64 {
        self.0 = self.0.wrapping_add(0x9e37_79b9_7f4a_7c15);
        let mut z = self.0;
        z = (z ^ (z >> 30)).wrapping_mul(0xbf58_476d_1ce4_e5b9);
        z = (z ^ (z >> 27)).wrapping_mul(0x94d0_49bb_1331_11eb);
        z ^ (z >> 31)
    }

    /// A number below `bound`; 0 where the bound is 0.
    pub fn below(&mut self, bound: u32) -> u32 {
        let scaled = (self.next() >> 32) * u64::from(bound);
        (scaled >> 32) as u32
    }

    /// A place in a list of `len`; 0 where it is empty.
    pub fn index(&mut self, len: usize) -> usize {
        self.below(len as u32) as usize
    }

    /// A number from `low` to `high`, both included.
    pub fn range(&mut self, low: u32, high: u32) -> u32 {
        low + self.below(high - low + 1)
    }

    /// True about once in `times`.
    pub fn one_in(&mut self, times: u32) -> bool {
        self.below(times) == 0
    }

    /// True in about `percent` of a hundred.
    pub fn percent(&mut self, percent: u32) -> bool {
        self.below(100) < percent
    }

    /// One of the choices, which are never empty.
    pub fn pick<T: Copy>(&mut self, choices: &[T]) -> T {
        choices[self.index(choices.len())]
    }

    /// Any byte.
    pub fn byte(&mut self) -> u8 {
        self.below(256) as u8
    }

    /// A word, often one with an edge, often a small one.
    pub fn word(&mut self) -> u32 {
        match self.below(4) {
            0 => self.pick(&EDGES),
            1 => self.below(16),
            2 => self.below(1_000),
            _ => self.next() as u32,
        }
    }

    /// A word with an edge.
    pub fn edge(&mut self) -> u32 {
        self.pick(&EDGES)
    }

    /// Threads from 1 to 32, the edges favoured.
    pub fn threads(&mut self) -> u32 {
        match self.below(3) {
            0 => self.pick(&[1, 2, 31, 32]),
            1 => self.range(1, 8),
            _ => self.range(1, 32),
        }
    }
}
