//! Compares two checkers launch by launch, and pair by pair: every answer, and every word and byte of every lent buffer. Besides, what the
//! records of a launch that ran must come to, and that a pair has two reports.

mod bare;
mod checkers;
mod difference;
mod files;
mod junk;
mod pairs;
mod records;
mod reports;
mod tally;

pub use checkers::{Checker, Independent, Numbers, PairChecker, Steps, Verified};
pub use difference::Difference;
pub use pairs::PairAnswer;
pub use tally::{Kind, PairTally, Tally};

/// The first seed where none is given.
pub const DEFAULT_SEED: u64 = 0;
/// How many launches where no number is given: 72,000 files, 18,000 bare launches and 6,000 reports.
pub const DEFAULT_COUNT: u64 = 96_000;
/// How many pairs where no number is given. Their seeds are a sweep of their own, so that a launch keeps its seed.
pub const DEFAULT_PAIRS: u64 = 8_000;

impl Kind {
    /// What a seed stands for: of every 16, twelve are files, three are bare launches, one is a report. So one seed repeats
    /// one launch.
    pub fn of(seed: u64) -> Self {
        match seed % 16 {
            0..=11 => Kind::File,
            12..=14 => Kind::Bare,
            _ => Kind::Report,
        }
    }
}

/// Compares the two checkers on one seed's launch and says what both answered.
pub fn compare_seed(
    seed: u64,
    ours: &impl Checker,
    theirs: &impl Checker,
) -> Result<String, Box<Difference>> {
    match Kind::of(seed) {
        Kind::File => files::compare(seed, ours, theirs),
        Kind::Bare => bare::compare(seed, ours, theirs),
        Kind::Report => reports::compare(seed, ours, theirs),
    }
}

/// Compares the two checkers on one seed's pair and says what both answered.
pub fn compare_pair(
    seed: u64,
    ours: &impl PairChecker,
    theirs: &impl PairChecker,
) -> Result<PairAnswer, Box<Difference>> {
    pairs::compare(seed, ours, theirs)
}

/// Compares the verified library with the independent checker on `count` seeds from `seed` on, up to the first difference.
/// `progress` is told how many are done.
pub fn compare_all(
    seed: u64,
    count: u64,
    mut progress: impl FnMut(u64),
) -> Result<Tally, Box<Difference>> {
    let mut tally = Tally::default();
    for done in 0..count {
        let seed = seed.wrapping_add(done);
        let answer = compare_seed(seed, &Verified, &Independent)?;
        tally.add(Kind::of(seed), answer);
        progress(done + 1);
    }
    Ok(tally)
}

/// The same on pairs.
pub fn compare_pairs(
    seed: u64,
    count: u64,
    mut progress: impl FnMut(u64),
) -> Result<PairTally, Box<Difference>> {
    let mut tally = PairTally::default();
    for done in 0..count {
        let answer = compare_pair(seed.wrapping_add(done), &Verified, &Independent)?;
        tally.add(answer);
        progress(done + 1);
    }
    Ok(tally)
}
