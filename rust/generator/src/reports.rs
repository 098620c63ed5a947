//! What the report writer alone is handed: counts of steps, own and global
//! cells.

use checker::MAX_LAUNCH_THREADS;

use crate::rng::Rng;

/// Counts of steps as a report may be handed them: none, one, up to 256, one too
/// many or far too many, with 1 to 10 digits each.
pub fn report_steps(rng: &mut Rng) -> Vec<u32> {
    let most = MAX_LAUNCH_THREADS as u32;
    let (some, few) = (rng.range(2, most - 1), rng.range(2, 40));
    let many = rng.range(most + 2, 600);
    let lengths = [
        0, 1, 1, few, few, some, some, 32, 33, 255, 256, 256, 257, 257, 512, 1_024, many,
    ];
    let len = rng.pick(&lengths);
    numbers(rng, len)
}

/// Own and global cells as a report may be handed them: together none, one, up
/// to 1,024, one too many or far too many, each of the two now and then with all
/// of them or with none.
pub fn report_cells(rng: &mut Rng) -> (Vec<u32>, Vec<u32>) {
    let (few, some) = (rng.range(2, 20), rng.range(21, 1_023));
    let sums = [
        0, 1, 1, few, few, few, some, some, 1_023, 1_024, 1_024, 1_025, 1_025, 1_026, 2_048,
    ];
    let sum = rng.pick(&sums);
    let own = match rng.below(4) {
        0 => sum,
        1 => 0,
        // Both slices alone would be in range.
        2 if sum > 1_024 => rng.range(sum - 1_024, 1_024),
        _ => rng.below(sum + 1),
    };
    (numbers(rng, own), numbers(rng, sum - own))
}

fn numbers(rng: &mut Rng, len: u32) -> Vec<u32> {
    (0..len).map(|_| any_digits(rng)).collect()
}

/// A word of any number of digits.
fn any_digits(rng: &mut Rng) -> u32 {
    let places = rng.below(10);
    let most = 10_u64.pow(places + 1) - 1;
    rng.below(u32::try_from(most).unwrap_or(u32::MAX))
}
