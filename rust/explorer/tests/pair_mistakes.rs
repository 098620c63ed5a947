//! A machine that is wrong about common cells, or about two kernels resident
//! together, is found out by the claim.

use explorer::machine::{Kernel, Mistake};
use explorer::pair::PairMistake;
use explorer::pair_claim::check_machines;
use generator::SmallPair;

/// Among the pairs of so many seeds each mistake must show.
const SEEDS: u64 = 600;
/// In so many of them at least.
const LEAST: usize = 5;

const ABOUT_COMMON_CELLS: [Mistake; 8] = [
    Mistake::CommonLoadRecorded,
    Mistake::CommonStoreIgnored,
    Mistake::CommonStoreMade,
    Mistake::CommonAddMade,
    Mistake::CommonStoreMadeAtTheEnd,
    Mistake::PastCommonIsCommon,
    Mistake::GlobalReachesCommon,
    Mistake::CommonIsOwn,
];

const ABOUT_PAIRS: [PairMistake; 7] = [
    PairMistake::StopsWithOne,
    PairMistake::StopsWithBad,
    PairMistake::CountsForFilter,
    PairMistake::TriggerOnFiltersCells,
    PairMistake::OneAfterTheOther,
    PairMistake::ReleaseWaitsForBoth,
    PairMistake::KernelsRace,
];

fn fails(pair: &SmallPair, common: Option<Mistake>, together: Option<PairMistake>) -> bool {
    let kernels = pair.launches().map(|launch| {
        let kernel = Kernel::new(&launch.table);
        match common {
            Some(mistake) => kernel.mistaken(mistake),
            None => kernel,
        }
    });
    check_machines(pair, kernels, together).is_err()
}

/// How many pairs it takes until a mistake has shown often enough.
fn pairs_needed(fails: impl Fn(&SmallPair) -> bool) -> Option<u64> {
    let mut shown = (0..SEEDS).filter(|&seed| fails(&generator::small_pair(seed)));
    shown.nth(LEAST - 1)
}

#[test]
fn the_claim_fails_for_each_mistake_about_common_cells() {
    for mistake in ABOUT_COMMON_CELLS {
        let needed = pairs_needed(|pair| fails(pair, Some(mistake), None));
        println!("{mistake:?}: {needed:?}");
        assert!(needed.is_some(), "{mistake:?}");
    }
}

#[test]
fn the_claim_fails_for_each_mistake_about_pairs() {
    for mistake in ABOUT_PAIRS {
        let needed = pairs_needed(|pair| fails(pair, None, Some(mistake)));
        println!("{mistake:?}: {needed:?}");
        assert!(needed.is_some(), "{mistake:?}");
    }
}
