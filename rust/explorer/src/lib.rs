//! Plays every run of "The threads' own machine" for small launches, and for
//! pairs of them over common cells, and checks the claim that ties all runs to
//! the lock-step verdicts.

pub mod claim;
pub mod machine;
pub mod pair;
pub mod pair_claim;
pub mod pair_search;
pub mod search;

use std::collections::BTreeMap;

use claim::Confirmed;
use generator::SmallLaunch;
use pair_claim::{Ending, PairConfirmed};

/// What a launch has besides one group with its own cells.
#[derive(Clone, Copy, Debug, PartialEq, Eq, PartialOrd, Ord)]
pub enum Extent {
    /// Nothing.
    OneGroup,
    /// Global cells, for one group.
    GlobalCells,
    /// Other groups, without global cells.
    Groups,
    /// Other groups and global cells.
    GroupsAndGlobalCells,
}

impl Extent {
    /// That of a launch.
    pub fn of(launch: &SmallLaunch) -> Self {
        match (launch.groups > 1, !launch.global.is_empty()) {
            (false, false) => Self::OneGroup,
            (false, true) => Self::GlobalCells,
            (true, false) => Self::Groups,
            (true, true) => Self::GroupsAndGlobalCells,
        }
    }
}

/// How many launches were confirmed in which way.
pub type Tally = BTreeMap<(Confirmed, Extent), usize>;

/// Checks the small launch of a seed and counts it.
pub fn check_seed(seed: u64, tally: &mut Tally) -> Result<(), String> {
    let launch = generator::small(seed);
    let confirmed = claim::check(&launch)
        .map_err(|fault| format!("seed {seed}: {fault}\n{}", describe(&launch)))?;
    let counted = (confirmed, Extent::of(&launch));
    *tally.entry(counted).or_default() += 1;
    Ok(())
}

/// How many pairs were confirmed in which way.
#[derive(Clone, Debug, Default, PartialEq, Eq)]
pub struct PairTally {
    /// By the verdicts of both kernels, in either order.
    pub pairs: BTreeMap<(PairConfirmed, [Ending; 2]), usize>,
    /// Their kernels, each by itself over the common cells.
    pub alone: BTreeMap<Confirmed, usize>,
    /// States of all pairs.
    pub states: usize,
}

impl PairTally {
    /// Pairs that were confirmed in this way.
    pub fn of(&self, confirmed: PairConfirmed) -> usize {
        let same = self.pairs.iter().filter(|((way, _), _)| *way == confirmed);
        same.map(|(_, pairs)| pairs).sum()
    }
}

/// Checks the small pair of a seed, and each of its kernels, and counts them.
pub fn check_pair_seed(seed: u64, tally: &mut PairTally) -> Result<(), String> {
    let pair = generator::small_pair(seed);
    let checked = pair_claim::check_pair(&pair).map_err(|fault| {
        let launches = pair.launches().map(describe).join("\n");
        format!("seed {seed}: {fault}\n{launches}\ncommon {:?}", pair.common)
    })?;
    let mut endings = checked.endings;
    endings.sort_unstable();
    let way = (checked.confirmed, endings);
    *tally.pairs.entry(way).or_default() += 1;
    for confirmed in checked.alone {
        *tally.alone.entry(confirmed).or_default() += 1;
    }
    tally.states += checked.states;
    Ok(())
}

/// A launch in readable form.
fn describe(launch: &SmallLaunch) -> String {
    let rows: Vec<&[u8]> = launch.table.chunks(4).collect();
    format!(
        "groups {}, threads {}, cells {:?}, global {:?}, rows {rows:?}",
        launch.groups, launch.threads, launch.cells, launch.global
    )
}
