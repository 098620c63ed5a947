//! The claim that ties the lock-step verdict to all runs of the threads' own
//! machine, checked from outside.

use checker::{common_launch, Outcome, Verdict, INTERVAL_WORDS, MAX_LAUNCH_THREADS};
use generator::SmallLaunch;

use crate::machine::{Kernel, Standing, State};
use crate::search::{explore, replay, End, Findings, Made, Order, Releases, Replay, Run};

/// Rows that the lock-step run may take: big enough for every small launch
/// that ends.
const LIMIT: u32 = 100_000;
/// States after which a launch is given up.
pub const MOST_STATES: usize = 60_000;
/// Words of log for each cell.
const LOG_WORDS: usize = 8;

/// What was confirmed of a launch.
#[derive(Clone, Copy, Debug, PartialEq, Eq, PartialOrd, Ord)]
pub enum Confirmed {
    /// Passed, and every run comes to the same end as the lock-step run.
    Passed,
    /// Race, outside or common, and a run ends badly.
    EndsBadly,
    /// Diverged, and a run is stuck.
    Stuck,
    /// Diverged, and a run ends badly.
    DivergedEndsBadly,
    /// Diverged, and a run goes on for ever.
    DivergedEndless,
    /// Spent, and a run goes on for ever.
    Endless,
    /// Spent, and a run ends badly or is stuck.
    SpentBadOrStuck,
    /// More states than are looked at, so nothing is confirmed.
    Unknown,
}

/// The lock-step run, as the claim needs it.
pub(crate) struct LockStep {
    pub(crate) outcome: Outcome,
    /// Of each thread, by launch number.
    pub(crate) steps: Vec<u32>,
    /// Own cells, group 0 first, and then the global ones.
    pub(crate) cells: Vec<u32>,
    /// Of each group, its own cells just before each of its counted barriers.
    pub(crate) barriers: Vec<Vec<Vec<u32>>>,
}

/// Checks the claim for one launch. `Err` says in what it fails.
pub fn check(launch: &SmallLaunch) -> Result<Confirmed, String> {
    check_kernel(launch, &Kernel::new(&launch.table))
}

/// As [`check`], for a kernel of that launch whose machine may make a mistake.
pub fn check_kernel(launch: &SmallLaunch, kernel: &Kernel) -> Result<Confirmed, String> {
    check_over(launch, &[], kernel)
}

/// As [`check_kernel`], over common cells.
pub fn check_over(
    launch: &SmallLaunch,
    common: &[u32],
    kernel: &Kernel,
) -> Result<Confirmed, String> {
    let lock_step = run_lock_step(launch, common)?;
    check_runs(launch, common, kernel, &lock_step).map(|(confirmed, _)| confirmed)
}

/// The start of a launch over common cells.
pub(crate) fn start_of(launch: &SmallLaunch, common: &[u32]) -> State {
    State::start(launch.groups, launch.threads, &launch.cells, &launch.global).with_common(common)
}

/// Checks the claim of a launch whose lock-step run is known, and gives what all
/// its runs have shown as well.
pub(crate) fn check_runs(
    launch: &SmallLaunch,
    common: &[u32],
    kernel: &Kernel,
    lock_step: &LockStep,
) -> Result<(Confirmed, Findings), String> {
    let start = start_of(launch, common);
    let play = |order| {
        let findings = explore(kernel, start.clone(), order, MOST_STATES);
        confirm_witnesses(kernel, &start, order, &findings).map(|()| findings)
    };
    if launch.groups > 1 {
        // The lock-step run takes the groups one after the other. So what it
        // met in a group, runs that do the same meet in that group.
        let by_group = play(Order::GroupByGroup)?;
        confirm(lock_step, kernel, &by_group)
            .and_then(|_| same_group(lock_step, kernel, &start, &by_group))
            .map_err(|fault| format!("group by group: {fault}"))?;
    }
    let findings = play(Order::Any)?;
    confirm(lock_step, kernel, &findings).map(|confirmed| (confirmed, findings))
}

/// What the runs that were played make of the lock-step verdict.
fn confirm(
    lock_step: &LockStep,
    kernel: &Kernel,
    findings: &Findings,
) -> Result<Confirmed, String> {
    match lock_step.outcome.verdict {
        Verdict::Passed => passed(lock_step, findings),
        Verdict::Race { .. } | Verdict::Outside { .. } | Verdict::Common { .. } => {
            ends_badly(findings)
        }
        Verdict::Diverged { .. } => diverged(findings),
        Verdict::Spent { .. } => spent(kernel, findings),
    }
}

/// The lock-step run of a launch over common cells.
pub(crate) fn run_lock_step(launch: &SmallLaunch, common: &[u32]) -> Result<LockStep, String> {
    let (mut own, mut global) = (launch.cells.clone(), launch.global.clone());
    let mut log = vec![0; LOG_WORDS * (own.len() + global.len())];
    let mut steps = [0; MAX_LAUNCH_THREADS];
    let mut barriers = vec![vec![]; launch.groups as usize];
    let outcome = common_launch(
        common,
        &launch.table,
        launch.threads,
        own.len() as u32 / launch.groups,
        launch.groups,
        global.len() as u32,
        LIMIT,
        &mut own,
        &mut global,
        &mut log,
        &mut [0; INTERVAL_WORDS],
        &mut steps,
        |group, cells| barriers[group as usize].push(cells.to_vec()),
    );
    match outcome {
        Ok(outcome) => Ok(LockStep {
            outcome,
            steps: steps[..(launch.groups * launch.threads) as usize].to_vec(),
            cells: [own, global].concat(),
            barriers,
        }),
        Err(refusal) => Err(format!("refused: {refusal:?}")),
    }
}

/// Every exhibited run must be one, and come to what was said of it.
fn confirm_witnesses(
    kernel: &Kernel,
    start: &State,
    order: Order,
    findings: &Findings,
) -> Result<(), String> {
    let again = |run: &Run| replay(kernel, start.clone(), order, run);
    if let Some((run, end)) = &findings.bad {
        expect(again(run) == Replay::Bad(*end), "the bad run")?;
    }
    if let Some(run) = &findings.stuck {
        let stuck = Replay::Stands(Standing::Stuck);
        expect(again(run) == stuck, "the stuck run")?;
    }
    if let Some(run) = &findings.endless {
        let open = matches!(again(run), Replay::Stands(Standing::Open(_)));
        expect(open, "the endless run")?;
    }
    for (end, run) in &findings.ends {
        let ended = Replay::Stands(Standing::Ended);
        expect(again(run) == ended, "the run that ends")?;
        let made = Made::of(run, start.shape());
        expect(made == end.made, "the moves of the run that ends")?;
    }
    Ok(())
}

/// Where groups move one after the other, no run without a proper end gets past
/// the group in which the lock-step run stopped, nor stops before it.
fn same_group(
    lock_step: &LockStep,
    kernel: &Kernel,
    start: &State,
    by_group: &Findings,
) -> Result<(), String> {
    // A bad end is met in the turn that the move before it has left.
    let bad = by_group.bad.iter().map(|(run, _)| &run[..run.len() - 1]);
    let others = [&by_group.stuck, &by_group.endless].into_iter().flatten();
    for run in bad.chain(others.map(|run| &run[..])) {
        let mut state = start.clone();
        let played = run.iter().try_for_each(|&next| state.make(kernel, next));
        let group = state.first_unended_group(kernel);
        let same = played.is_ok() && group == Some(lock_step.outcome.group as usize);
        expect(same, "a run stops in another group")?;
    }
    Ok(())
}

pub(crate) fn expect(fine: bool, what: &str) -> Result<(), String> {
    if fine {
        Ok(())
    } else {
        Err(what.to_string())
    }
}

/// Every run comes to its end, each thread by its own number of moves, with the
/// same cells at each release and at the end.
fn passed(lock_step: &LockStep, findings: &Findings) -> Result<Confirmed, String> {
    expect(findings.bad.is_none(), "passed, but a run ends badly")?;
    expect(findings.stuck.is_none(), "passed, but a run is stuck")?;
    expect(findings.endless.is_none(), "passed, but a run is endless")?;
    expect(findings.uneven.is_none(), "passed, but runs are uneven")?;
    for end in findings.ends.keys() {
        same_end(lock_step, end)?;
    }
    same_releases(lock_step, &findings.releases)?;
    if !findings.complete {
        return Ok(Confirmed::Unknown);
    }
    expect(findings.ends.len() == 1, "passed, but no run ends")?;
    as_many_releases(lock_step, &findings.releases)?;
    Ok(Confirmed::Passed)
}

/// At a group's k-th release its own cells are those at its k-th counted
/// barrier.
pub(crate) fn same_releases(lock_step: &LockStep, releases: &[Releases]) -> Result<(), String> {
    for (releases, barriers) in releases.iter().zip(&lock_step.barriers) {
        let same_cells = (releases.iter().zip(barriers))
            .all(|(found, cells)| found.iter().all(|found| found == cells));
        expect(same_cells, "passed, but own cells differ at a release")?;
    }
    Ok(())
}

/// No run has more releases of a group than it has counted barriers, and some
/// run has as many.
pub(crate) fn as_many_releases(lock_step: &LockStep, releases: &[Releases]) -> Result<(), String> {
    let found = releases.iter().map(Vec::len);
    let same_count = found.eq(lock_step.barriers.iter().map(Vec::len));
    expect(same_count, "passed, but releases are not as many")
}

/// Each thread makes as many moves as it has steps, each group's releases are as
/// many as its own counted barriers, all of them are `barriers`, and all moves
/// are the steps of all threads and the barriers.
pub(crate) fn same_end(lock_step: &LockStep, end: &End) -> Result<(), String> {
    let (made, barriers) = (&end.made, lock_step.outcome.barriers);
    let same = made.by_thread == lock_step.steps;
    expect(same, "passed, but a thread moves otherwise than it steps")?;
    let by_group = lock_step.barriers.iter().map(|own| own.len() as u32);
    let same = made.releases.iter().copied().eq(by_group);
    expect(same, "passed, but a group's releases are not its barriers")?;
    let same = made.releases.iter().sum::<u32>() == barriers;
    expect(same, "passed, but releases are not the barriers")?;
    let all = lock_step.steps.iter().sum::<u32>() + barriers;
    expect(made.all == all, "passed, but all moves are not the sum")?;
    let same = end.cells == lock_step.cells;
    expect(same, "passed, but a run ends with other cells")
}

/// The search doesn't follow an endless run for ever, so only without one is
/// every bad end sure to be found.
fn ends_badly(findings: &Findings) -> Result<Confirmed, String> {
    let all_played = findings.complete && findings.endless.is_none();
    match findings.bad {
        Some(_) => Ok(Confirmed::EndsBadly),
        None if all_played => Err("race, outside or common, but no run ends badly".into()),
        None => Ok(Confirmed::Unknown),
    }
}

/// A thread that is not enabled at the barrier may be stuck, or end badly, or
/// run for ever in a loop of its own: in each case a run has no proper end.
fn diverged(findings: &Findings) -> Result<Confirmed, String> {
    if findings.stuck.is_some() {
        Ok(Confirmed::Stuck)
    } else if findings.bad.is_some() {
        Ok(Confirmed::DivergedEndsBadly)
    } else if findings.endless.is_some() {
        Ok(Confirmed::DivergedEndless)
    } else if findings.complete {
        Err("diverged, but every run comes to its end".into())
    } else {
        Ok(Confirmed::Unknown)
    }
}

/// The claim is for a limit big enough. It was, if every run ends after few
/// moves: between two rows of a group with somebody enabled, the lock-step run
/// has at most one way through the table with nobody enabled.
fn spent(kernel: &Kernel, findings: &Findings) -> Result<Confirmed, String> {
    if findings.endless.is_some() {
        return Ok(Confirmed::Endless);
    }
    if findings.bad.is_some() || findings.stuck.is_some() {
        return Ok(Confirmed::SpentBadOrStuck);
    }
    if !findings.always_ends() {
        return Ok(Confirmed::Unknown);
    }
    let moves = |end: &End| u64::from(end.made.all);
    let most = findings.ends.keys().map(moves).max().unwrap_or(0);
    let groups = findings.releases.len() as u64;
    let rows = (most + groups) * (kernel.len() as u64 + 1);
    expect(rows > u64::from(LIMIT), "spent, but every run is short")?;
    Ok(Confirmed::Unknown)
}

#[cfg(test)]
mod tests {
    use super::*;

    /// Passed, with so many counted barriers of each group.
    fn lock_step(steps: &[u32], barriers: &[usize]) -> LockStep {
        LockStep {
            outcome: Outcome {
                verdict: Verdict::Passed,
                group: 0,
                rows: 9,
                barriers: barriers.iter().sum::<usize>() as u32,
                conflicts: 0,
            },
            steps: steps.to_vec(),
            cells: vec![7],
            barriers: barriers.iter().map(|&own| vec![vec![7]; own]).collect(),
        }
    }

    fn end(by_thread: &[u32], releases: &[u32], all: u32) -> End {
        let made = Made {
            by_thread: by_thread.to_vec(),
            releases: releases.to_vec(),
            all,
        };
        End {
            made,
            cells: vec![7],
        }
    }

    #[test]
    fn each_thread_moves_as_often_as_it_steps() {
        let right = end(&[3, 5], &[2], 10);
        assert_eq!(same_end(&lock_step(&[3, 5], &[2]), &right), Ok(()));
        // As many in all, but not thread by thread.
        for wrong in [[5, 3], [4, 4], [2, 6], [8, 0]] {
            assert!(
                same_end(&lock_step(&wrong, &[2]), &right).is_err(),
                "{wrong:?}"
            );
        }
        assert!(same_end(&lock_step(&[3], &[2]), &right).is_err());
        assert!(same_end(&lock_step(&[3, 5, 0], &[2]), &right).is_err());
    }

    #[test]
    fn releases_are_barriers_and_all_moves_are_the_sum() {
        let run = lock_step(&[3, 5], &[2]);
        assert!(same_end(&run, &end(&[3, 5], &[1], 10)).is_err());
        assert!(same_end(&run, &end(&[3, 5], &[2], 9)).is_err());
        assert!(same_end(&run, &end(&[3, 5], &[2], 11)).is_err());
        let mut other_cells = end(&[3, 5], &[2], 10);
        other_cells.cells = vec![8];
        assert!(same_end(&run, &other_cells).is_err());
    }

    #[test]
    fn releases_are_counted_for_each_group() {
        let run = lock_step(&[3, 5], &[2, 1]);
        assert_eq!(same_end(&run, &end(&[3, 5], &[2, 1], 11)), Ok(()));
        for wrong in [vec![1, 2], vec![3, 0], vec![3], vec![2, 1, 0]] {
            let found = same_end(&run, &end(&[3, 5], &wrong, 11));
            assert!(found.is_err(), "{wrong:?}");
        }
        // The barriers in all are counted apart from those of each group.
        let mut fewer = lock_step(&[3, 5], &[2, 1]);
        fewer.outcome.barriers = 2;
        assert!(same_end(&fewer, &end(&[3, 5], &[2, 1], 10)).is_err());
    }

    /// Two groups of one thread: the second goes outside, or loops for ever.
    #[test]
    fn runs_stop_in_the_group_of_the_lock_step_run() {
        let role = [16, 2, 15, 0];
        let in_group_1 = |rows: &[[u8; 4]]| {
            let arm = [&[role, [32, 0, 2, 0]], rows, &[[34, 0, 0, 0]]].concat();
            Kernel::new(&arm.concat())
        };
        for kernel in [
            in_group_1(&[[20, 3, 15, 0]]),
            in_group_1(&[[35, 0, 2, 0], [36, 0, 0, 0]]),
        ] {
            let start = State::start(2, 1, &[0, 1], &[]);
            let findings = explore(&kernel, start.clone(), Order::GroupByGroup, 999);
            let same = |group| {
                let mut lock_step = lock_step(&[], &[]);
                lock_step.outcome.group = group;
                same_group(&lock_step, &kernel, &start, &findings).is_ok()
            };
            assert_eq!([0, 1, 2].map(same), [false, true, false]);
        }
    }
}
