//! A machine that is wrong about groups is found out by the claim.

use explorer::claim::check_kernel;
use explorer::machine::{Kernel, Mistake};

/// Among the launches of so many seeds each mistake must show.
const SEEDS: u64 = 1_000;
/// In so many of them at least.
const LEAST: usize = 5;

const MISTAKES: [Mistake; 14] = [
    Mistake::TidIsLaunchNumber,
    Mistake::CountIsOfLaunch,
    Mistake::LaunchNumberIsTid,
    Mistake::OwnCellsOfGroup0,
    Mistake::ReleaseWaitsForAll,
    Mistake::ReleaseForgetsAll,
    Mistake::ReleaseForgetsOthers,
    Mistake::ReleaseForgetsGlobal,
    Mistake::ReleaseKeepsGlobal,
    Mistake::EqualStoresAcrossAgree,
    Mistake::AddsAcrossRace,
    Mistake::LoadsAcrossRace,
    Mistake::GroupsNeverRace,
    Mistake::EqualGlobalStoresRace,
];

#[test]
fn the_claim_fails_for_each_mistake_of_the_machine() {
    let launches: Vec<_> = (0..SEEDS)
        .map(generator::small)
        .filter(|launch| launch.groups > 1 || !launch.global.is_empty())
        .collect();
    for mistake in MISTAKES {
        let fails = |launch: &&generator::SmallLaunch| {
            let kernel = Kernel::new(&launch.table).mistaken(mistake);
            check_kernel(launch, &kernel).is_err()
        };
        let found = launches.iter().filter(fails).take(LEAST).count();
        assert_eq!(found, LEAST, "{mistake:?}");
    }
}
