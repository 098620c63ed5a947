//! Launches from seeds: sound ones of many kinds, and damaged ones. The same
//! seed gives the same launch everywhere.

mod asm;
mod banks;
mod bare;
mod coefficients;
mod common_files;
mod counts;
mod damage;
mod extremes;
mod groups;
mod headers;
mod intervals;
mod meetings;
mod pairs;
mod patterns;
mod plan;
mod random;
mod reports;
mod rng;
mod shifts;
mod slips;
mod small;
mod small_counts;
mod small_groups;
mod small_pairs;
mod small_shifts;
mod small_stores;
mod spelling;
mod stores;
mod tables;
mod words;

pub use bare::BareLaunch;
pub use pairs::PairFiles;
pub use plan::Plan;
pub use reports::{report_cells, report_steps};
pub use rng::Rng;
pub use small::SmallLaunch;
pub use small_pairs::SmallPair;

/// The bytes of one launch file: a structured kernel, a random one, one at the
/// edges, a damaged file, a small one with a slip or two, or noise.
pub fn launch(seed: u64) -> Vec<u8> {
    let mut rng = Rng::new(seed, 1);
    match rng.below(100) {
        0..=1 => damage::noise(&mut rng),
        2..=13 => {
            let plan = any_plan(&mut rng);
            damage::damaged(&mut rng, plan)
        }
        14..=28 => slips::misspelt(&mut rng),
        29..=31 => slips::hurt_bytes(&mut rng),
        32..=39 => slips::headers(&mut rng),
        40..=53 => slips::faulty_table(&mut rng),
        _ => any_plan(&mut rng).file(),
    }
}

/// A sound launch of any kind; a few of them are nested too deep.
pub fn plan(seed: u64) -> Plan {
    any_plan(&mut Rng::new(seed, 2))
}

/// One bare launch, with right and wrong buffers.
pub fn bare(seed: u64) -> BareLaunch {
    bare::bare(&mut Rng::new(seed, 3), any_plan)
}

/// One small launch for the explorer.
pub fn small(seed: u64) -> SmallLaunch {
    small::small_launch(&mut Rng::new(seed, 4))
}

/// One pair of small launches over common cells, for the explorer.
pub fn small_pair(seed: u64) -> SmallPair {
    small_pairs::pair(&mut Rng::new(seed, 13))
}

/// The files of two kernels over one set of common cells.
pub fn pair(seed: u64) -> PairFiles {
    pairs::pair(&mut Rng::new(seed, 12))
}

/// About a third for several groups or with global cells.
fn any_plan(rng: &mut Rng) -> Plan {
    if rng.one_in(3) {
        groups::grouped(rng, of_one_group)
    } else {
        of_one_group(rng)
    }
}

fn of_one_group(rng: &mut Rng) -> Plan {
    match rng.below(118) {
        0..=38 => patterns::pattern(rng),
        39..=48 => banks::banks(rng),
        49..=62 => counts::counts(rng),
        63..=74 => intervals::intervals(rng),
        75..=81 => random::random(rng),
        82..=89 => extremes::extreme(rng),
        90..=99 => stores::stores(rng),
        _ => words::words(rng),
    }
}
