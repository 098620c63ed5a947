//! Two kernels over one set of common cells, as files (item 12).

use crate::any_plan;
use crate::coefficients::over_common;
use crate::common_files::{bad_common_file, common_cells, common_file};
use crate::damage::{damaged, noise};
use crate::plan::Plan;
use crate::rng::Rng;
use crate::slips;

/// The three files of a pair.
#[derive(Clone, Debug, PartialEq, Eq)]
pub struct PairFiles {
    /// The first kernel's launch file.
    pub filter: Vec<u8>,
    /// The second kernel's launch file.
    pub trigger: Vec<u8>,
    /// The common cells.
    pub common: Vec<u8>,
}

/// Two thirds of the pairs are sound; of the others one kernel, both or the
/// common file have faults, or one of them and the common file.
pub fn pair(rng: &mut Rng) -> PairFiles {
    let cells = common_cells(rng);
    let (filter, trigger) = (kernel(rng, &cells), kernel(rng, &cells));
    let mut files = PairFiles {
        filter: filter.file(),
        trigger: match rng.below(16) {
            0 => filter.file(),
            _ => trigger.file(),
        },
        common: common_file(&cells),
    };
    let fault = rng.below(30);
    if matches!(fault, 0 | 1 | 3 | 8) {
        files.filter = faulty(rng, filter);
    }
    if matches!(fault, 1 | 2 | 4 | 9) {
        files.trigger = faulty(rng, trigger);
    }
    if matches!(fault, 3..=9) {
        files.common = bad_common_file(rng, &cells, &files.filter);
    }
    files
}

/// Mostly a kernel that uses common cells, or any other.
fn kernel(rng: &mut Rng, common: &[u32]) -> Plan {
    if !rng.one_in(9) {
        return over_common(rng, common);
    }
    let mut plan = any_plan(rng);
    // Two kernels are run: neither may take long.
    plan.limit = plan.limit.min(rng.range(2_000, 4_000));
    plan
}

/// A launch file that is turned back, but for a few.
fn faulty(rng: &mut Rng, plan: Plan) -> Vec<u8> {
    match rng.below(12) {
        0..=5 => damaged(rng, plan),
        6 | 7 => slips::misspelt(rng),
        8 => slips::headers(rng),
        9 => slips::faulty_table(rng),
        10 => slips::hurt_bytes(rng),
        _ => noise(rng),
    }
}
