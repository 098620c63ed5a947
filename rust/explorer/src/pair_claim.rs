//! The claim about two kernels resident together, checked from outside.

use std::collections::HashSet;
use std::rc::Rc;

use checker::Verdict;
use generator::SmallPair;

use crate::claim::{
    as_many_releases, check_runs, expect, run_lock_step, same_end, same_releases, start_of,
    Confirmed, LockStep,
};
use crate::machine::{BadEnd, Kernel, Standing, State};
use crate::pair::{
    part, replay_pair, Pair, PairMade, PairMistake, PairMove, PairReplay, PairStanding, Side, Sides,
};
use crate::pair_search::{explore_pair, PairEnd, PairFindings, SideFindings};
use crate::search::{replay, End, Findings, Made, Order, Replay};

/// States of a pair after which it is given up.
pub const MOST_PAIR_STATES: usize = 40_000;

/// What was confirmed of a pair.
#[derive(Clone, Copy, Debug, PartialEq, Eq, PartialOrd, Ord)]
pub enum PairConfirmed {
    /// Both passed, and every run of the pair comes to the end reported of both.
    Passed,
    /// Neither is spent, and a run of the pair ends badly.
    EndsBadly,
    /// Neither is spent, no run ends badly, and a run of the pair is stuck.
    Stuck,
    /// Neither is spent, no run ends badly or is stuck, and a run of the pair
    /// goes on for ever.
    Endless,
    /// One is spent, and the other's own promise holds in every run of the pair.
    OneSpent,
    /// Both are spent, so that nothing is claimed of the pair's verdicts.
    BothSpent,
    /// More states than are looked at, so nothing is confirmed.
    Unknown,
}

/// The verdict of a kernel's lock-step run, without its places.
#[derive(Clone, Copy, Debug, PartialEq, Eq, PartialOrd, Ord)]
pub enum Ending {
    /// Passed.
    Passed,
    /// A race.
    Race,
    /// An access outside.
    Outside,
    /// A store or an add to a common cell.
    Common,
    /// A barrier that not all threads reached.
    Diverged,
    /// The limit was reached.
    Spent,
}

impl Ending {
    fn of(lock_step: &LockStep) -> Self {
        match lock_step.outcome.verdict {
            Verdict::Passed => Self::Passed,
            Verdict::Race { .. } => Self::Race,
            Verdict::Outside { .. } => Self::Outside,
            Verdict::Common { .. } => Self::Common,
            Verdict::Diverged { .. } => Self::Diverged,
            Verdict::Spent { .. } => Self::Spent,
        }
    }
}

/// What a check of a pair has come to.
#[derive(Clone, Copy, Debug, PartialEq, Eq)]
pub struct Checked {
    /// Of the pair.
    pub confirmed: PairConfirmed,
    /// Of each kernel alone, over the common cells.
    pub alone: [Confirmed; 2],
    /// The verdicts of both.
    pub endings: [Ending; 2],
    /// States of the pair seen.
    pub states: usize,
}

/// Checks the claim for one pair, and for each of its kernels alone. `Err` says
/// in what it fails.
pub fn check_pair(pair: &SmallPair) -> Result<Checked, String> {
    let kernels = pair.launches().map(|launch| Kernel::new(&launch.table));
    check_machines(pair, kernels, None)
}

/// As [`check_pair`], for kernels of these launches whose machines may make a
/// mistake, and played together with a mistake or without.
pub fn check_machines(
    pair: &SmallPair,
    kernels: [Kernel; 2],
    mistake: Option<PairMistake>,
) -> Result<Checked, String> {
    let launches = pair.launches();
    let alone = |side: Side| {
        let (launch, kernel) = (launches[side.index()], &kernels[side.index()]);
        let lock_step = run_lock_step(launch, &pair.common)?;
        check_runs(launch, &pair.common, kernel, &lock_step)
            .map(|(confirmed, findings)| (lock_step, confirmed, findings))
            .map_err(|fault| format!("{side:?} alone: {fault}"))
    };
    let (filter, trigger) = (alone(Side::Filter)?, alone(Side::Trigger)?);
    let starts = launches.map(|launch| start_of(launch, &pair.common));
    let mut machine = Pair::new(kernels, starts);
    if let Some(mistake) = mistake {
        machine = machine.mistaken(mistake);
    }
    let found = explore_pair(&machine, MOST_PAIR_STATES);
    confirm_witnesses(&machine, &found)?;
    interleavings([&filter.2, &trigger.2], &found)?;
    let lock_steps = [&filter.0, &trigger.0];
    Ok(Checked {
        confirmed: confirm(lock_steps, &pair.common, &found)?,
        alone: [filter.1, trigger.1],
        endings: lock_steps.map(Ending::of),
        states: found.states,
    })
}

/// Every exhibited run must be one of the pair and come to what was said of it;
/// and what each kernel does in it must be a run of that kernel alone, which
/// comes to the same.
fn confirm_witnesses(pair: &Pair, found: &PairFindings) -> Result<(), String> {
    for (end, run) in &found.ends {
        let (ends, standing) = play(pair, run)?;
        let ended = ends == [None; 2] && standing == PairStanding::Ended;
        expect(ended, "the pair's run that ends")?;
        for side in Side::BOTH {
            let alone = play_alone(pair, run, side);
            let same = alone == Replay::Stands(Standing::Ended);
            expect(same, "a kernel's part of the run that ends")?;
        }
        let made = PairMade {
            sides: Side::BOTH.map(|side| Made::of(&part(run, side), pair.start(side).shape())),
            all: run.len() as u32,
        };
        expect(made == end.made, "the moves of the pair's run that ends")?;
    }
    if let Some(run) = &found.stuck {
        let stuck = play(pair, run)? == ([None; 2], PairStanding::Stuck);
        expect(stuck, "the pair's stuck run")?;
    }
    if let Some(run) = &found.endless {
        let open = matches!(play(pair, run)?, (_, PairStanding::Open(_)));
        expect(open, "the pair's endless run")?;
    }
    for side in Side::BOTH {
        let of_side = &found.sides[side.index()];
        for (end, run) in &of_side.bad {
            let (ends, _) = play(pair, run)?;
            expect(ends[side.index()] == Some(*end), "the pair's bad run")?;
        }
        if let Some(run) = &of_side.stuck {
            play(pair, run)?;
            let stuck = play_alone(pair, run, side) == Replay::Stands(Standing::Stuck);
            expect(stuck, "a run that leaves a kernel stuck")?;
        }
    }
    Ok(())
}

/// Plays a run of the pair, and each kernel's part of it by itself: what both
/// come to must be the same.
fn play(pair: &Pair, run: &[PairMove]) -> Result<(Sides<BadEnd>, PairStanding), String> {
    let PairReplay::Stands(ends, standing) = replay_pair(pair, run) else {
        return Err("a run of the pair has an impossible move".into());
    };
    for side in Side::BOTH {
        let same = match (play_alone(pair, run, side), ends[side.index()]) {
            (Replay::Bad(alone), Some(end)) => alone == end,
            (Replay::Stands(_), None) => true,
            _ => false,
        };
        expect(same, "a run of the pair is no interleaving of two runs")?;
    }
    Ok((ends, standing))
}

fn play_alone(pair: &Pair, run: &[PairMove], side: Side) -> Replay {
    let start = pair.start(side).clone();
    replay(pair.kernel(side), start, Order::Any, &part(run, side))
}

/// Runs of the pair are the interleavings of runs of both: each kernel comes to
/// states to which it comes alone, and every two states of both are met, a bad
/// end being one. And every run of the pair ends well exactly when every run of
/// each does. Where a run is endless, not all of its states are played.
fn interleavings(alone: [&Findings; 2], found: &PairFindings) -> Result<(), String> {
    let all_played = |alone: &Findings| alone.complete && alone.endless.is_none();
    for (alone, side) in alone.into_iter().zip(&found.sides) {
        let own: HashSet<&Rc<State>> = alone.reached.iter().collect();
        let known = side.reached.iter().all(|state| own.contains(state));
        let what = "a kernel of the pair comes to a state to which it doesn't come alone";
        expect(known || !all_played(alone), what)?;
    }
    if !found.complete || alone.iter().any(|alone| !alone.complete) {
        return Ok(());
    }
    let each = alone.iter().all(|alone| alone.always_ends());
    let what = "every run of the pair ends well, or of each kernel, and not both";
    expect(found.always_ends() == each, what)?;
    if alone.into_iter().all(all_played) {
        let states = alone.map(|alone| alone.reached.len() + usize::from(alone.bad.is_some()));
        let what = "the pair's runs are not all interleavings";
        expect(found.states == states[0] * states[1], what)?;
    }
    Ok(())
}

/// What the runs of the pair make of both lock-step verdicts.
fn confirm(
    lock_steps: [&LockStep; 2],
    common: &[u32],
    found: &PairFindings,
) -> Result<PairConfirmed, String> {
    for side in Side::BOTH {
        let (lock_step, own) = (lock_steps[side.index()], &found.sides[side.index()]);
        own_promise(lock_step, own, found.complete)
            .map_err(|fault| format!("{side:?} in the pair: {fault}"))?;
    }
    let endings = lock_steps.map(Ending::of);
    let spent = endings.iter().filter(|&&one| one == Ending::Spent).count();
    let both_passed = endings == [Ending::Passed; 2];
    if both_passed {
        passed(lock_steps, common, found)?;
    }
    if !found.complete {
        return Ok(PairConfirmed::Unknown);
    }
    match spent {
        1 => return Ok(PairConfirmed::OneSpent),
        2 => return Ok(PairConfirmed::BothSpent),
        _ => {}
    }
    let what = "both passed, or every run of the pair ends well, and not both";
    expect(both_passed == found.always_ends(), what)?;
    Ok(if both_passed {
        PairConfirmed::Passed
    } else if found.sides.iter().any(|side| !side.bad.is_empty()) {
        PairConfirmed::EndsBadly
    } else if found.stuck.is_some() {
        PairConfirmed::Stuck
    } else {
        PairConfirmed::Endless
    })
}

/// What a kernel's verdict promises of its part in every run of the pair,
/// whatever the other does.
fn own_promise(lock_step: &LockStep, own: &SideFindings, complete: bool) -> Result<(), String> {
    // A kernel's endless run is not followed for ever, so only without one is
    // every bad end of it sure to be found.
    let all_played = complete && own.endless.is_none();
    let met = |end: BadEnd| {
        let found = own.bad.contains_key(&end) || !all_played;
        expect(found, "no run ends as badly as in lock step")
    };
    match Ending::of(lock_step) {
        Ending::Passed => {
            expect(own.bad.is_empty(), "passed, but it ends badly")?;
            expect(own.stuck.is_none(), "passed, but it is left behind")?;
            expect(own.endless.is_none(), "passed, but it is endless")?;
            for end in &own.ends {
                same_end(lock_step, end)?;
            }
            same_releases(lock_step, &own.releases)?;
            if complete {
                expect(own.ends.len() == 1, "passed, but it doesn't end")?;
                as_many_releases(lock_step, &own.releases)?;
            }
            Ok(())
        }
        Ending::Race => met(BadEnd::Race),
        Ending::Outside => met(BadEnd::Outside),
        Ending::Common => met(BadEnd::Common),
        Ending::Diverged => {
            let found = own.stuck.is_some() || !own.bad.is_empty() || own.endless.is_some();
            expect(found || !complete, "diverged, but it always ends")
        }
        Ending::Spent => Ok(()),
    }
}

/// Both passed: every run of the pair comes to the end reported of both, by as
/// many moves as both have steps and barriers.
fn passed(lock_steps: [&LockStep; 2], common: &[u32], found: &PairFindings) -> Result<(), String> {
    expect(found.stuck.is_none(), "both passed, but a run is stuck")?;
    expect(found.endless.is_none(), "both passed, but a run is endless")?;
    expect(found.uneven.is_none(), "both passed, but runs are uneven")?;
    for end in found.ends.keys() {
        same_pair_end(lock_steps, common, end)?;
    }
    let ends = found.ends.len();
    expect(ends == 1 || !found.complete, "both passed, but no run ends")
}

fn same_pair_end(lock_steps: [&LockStep; 2], common: &[u32], end: &PairEnd) -> Result<(), String> {
    for side in Side::BOTH {
        let own = End {
            made: end.made.sides[side.index()].clone(),
            cells: end.cells[side.index()].clone(),
        };
        same_end(lock_steps[side.index()], &own)
            .map_err(|fault| format!("{side:?} in the pair: {fault}"))?;
        let same = end.common[side.index()] == common;
        expect(same, "both passed, but a common cell has changed")?;
    }
    let own = lock_steps.map(|one| one.steps.iter().sum::<u32>() + one.outcome.barriers);
    let what = "both passed, but all moves are not the steps and barriers of both";
    expect(end.made.all == own[0] + own[1], what)
}

#[cfg(test)]
mod tests {
    use super::*;
    use crate::search::Releases;
    use checker::Outcome;
    use std::collections::{BTreeMap, BTreeSet};

    /// Of one group, passed, with its cell at each counted barrier and at the end.
    fn lock_step(steps: &[u32], barriers: &[u32], cell: u32) -> LockStep {
        LockStep {
            outcome: Outcome {
                verdict: Verdict::Passed,
                group: 0,
                rows: 9,
                barriers: barriers.len() as u32,
                conflicts: 0,
            },
            steps: steps.to_vec(),
            cells: vec![cell],
            barriers: vec![barriers.iter().map(|&cell| vec![cell]).collect()],
        }
    }

    fn made(by_thread: &[u32], releases: u32) -> Made {
        Made {
            by_thread: by_thread.to_vec(),
            releases: vec![releases],
            all: by_thread.iter().sum::<u32>() + releases,
        }
    }

    /// Two threads of 3 and 5 steps and a barrier, and one thread of 4.
    fn both() -> [LockStep; 2] {
        [lock_step(&[3, 5], &[6], 7), lock_step(&[4], &[], 8)]
    }

    fn right_end() -> PairEnd {
        PairEnd {
            made: PairMade {
                sides: [made(&[3, 5], 1), made(&[4], 0)],
                all: 13,
            },
            cells: [vec![7], vec![8]],
            common: [vec![1], vec![1]],
        }
    }

    #[test]
    fn a_pairs_end_is_the_one_reported_of_both() {
        let [filter, trigger] = both();
        let same = |end: &PairEnd| same_pair_end([&filter, &trigger], &[1], end).is_ok();
        assert!(same(&right_end()));
        let wrong = |change: fn(&mut PairEnd)| {
            let mut end = right_end();
            change(&mut end);
            !same(&end)
        };
        assert!(wrong(|end| end.made.all = 12));
        assert!(wrong(|end| end.made.sides.swap(0, 1)));
        // A move of the trigger counted for the filter.
        assert!(wrong(
            |end| end.made.sides = [made(&[4, 5], 1), made(&[3], 0)]
        ));
        // A release of the filter counted for the trigger.
        assert!(wrong(
            |end| end.made.sides = [made(&[3, 5], 0), made(&[4], 1)]
        ));
        assert!(wrong(|end| end.made.sides[0] = made(&[5, 3], 1)));
        assert!(wrong(|end| end.cells.swap(0, 1)));
        assert!(wrong(|end| end.cells[1] = vec![7]));
        assert!(wrong(|end| end.common[0] = vec![2]));
        assert!(wrong(|end| end.common[1] = vec![]));
    }

    /// A kernel of a pair that has passed: one end, and one release with cell 6.
    fn right_side() -> SideFindings {
        let release: Releases = vec![BTreeSet::from([vec![6]])];
        SideFindings {
            ends: BTreeSet::from([End {
                made: made(&[3, 5], 1),
                cells: vec![7],
            }]),
            releases: vec![release],
            ..SideFindings::default()
        }
    }

    #[test]
    fn a_passed_kernel_keeps_its_promise_in_the_pair() {
        let [filter, _] = both();
        let kept = |side: &SideFindings, complete| own_promise(&filter, side, complete).is_ok();
        assert!(kept(&right_side(), true) && kept(&right_side(), false));
        let broken = |change: fn(&mut SideFindings)| {
            let mut side = right_side();
            change(&mut side);
            assert!(!kept(&side, true));
            !kept(&side, false)
        };
        assert!(broken(|side| side.stuck = Some(vec![])));
        assert!(broken(|side| side.endless = Some(vec![])));
        assert!(broken(
            |side| side.bad = BTreeMap::from([(BadEnd::Common, vec![])])
        ));
        assert!(broken(
            |side| side.releases[0][0] = BTreeSet::from([vec![6], vec![7]])
        ));
        let other_end = |side: &mut SideFindings| {
            side.ends.insert(End {
                made: made(&[3, 5], 1),
                cells: vec![8],
            });
        };
        assert!(broken(other_end));
        // What isn't there may come later, if not all has been played.
        for missing in [
            (|side| side.ends.clear()) as fn(&mut SideFindings),
            |side| side.releases[0].clear(),
        ] {
            let mut side = right_side();
            missing(&mut side);
            assert!(!kept(&side, true) && kept(&side, false));
        }
    }

    /// What the lock-step run met is met in the pair, and not another bad end.
    #[test]
    fn a_bad_end_is_met_as_in_lock_step() {
        let [row, thread, at] = [0, 0, 65_536];
        for (verdict, end) in [
            (Verdict::Common { row, thread, at }, BadEnd::Common),
            (Verdict::Outside { row, thread, at }, BadEnd::Outside),
        ] {
            let [mut filter, _] = both();
            filter.outcome.verdict = verdict;
            for found in [BadEnd::Common, BadEnd::Outside, BadEnd::Race] {
                let mut side = SideFindings::default();
                side.bad.insert(found, vec![]);
                let kept = own_promise(&filter, &side, true).is_ok();
                assert_eq!(kept, found == end, "{verdict:?}, {found:?}");
                assert!(own_promise(&filter, &side, false).is_ok());
            }
        }
    }

    #[test]
    fn both_pass_exactly_when_the_pair_ends_well() {
        let passing = || PairFindings {
            complete: true,
            ends: BTreeMap::from([(right_end(), vec![])]),
            sides: [
                right_side(),
                SideFindings {
                    ends: BTreeSet::from([End {
                        made: made(&[4], 0),
                        cells: vec![8],
                    }]),
                    releases: vec![vec![]],
                    ..SideFindings::default()
                },
            ],
            ..PairFindings::default()
        };
        let [filter, mut trigger] = both();
        let found = confirm([&filter, &trigger], &[1], &passing());
        assert_eq!(found, Ok(PairConfirmed::Passed));
        let wrong = |change: fn(&mut PairFindings)| {
            let mut found = passing();
            change(&mut found);
            confirm([&filter, &trigger], &[1], &found).is_err()
        };
        assert!(wrong(|found| found.stuck = Some(vec![])));
        assert!(wrong(|found| found.endless = Some(vec![])));
        assert!(wrong(|found| found.uneven = Some(vec![])));
        assert!(wrong(|found| found.ends.clear()));
        trigger.outcome.verdict = Verdict::Diverged {
            row: 0,
            thread: 0,
            other: 1,
        };
        assert!(confirm([&filter, &trigger], &[1], &passing()).is_err());
        trigger.outcome.verdict = Verdict::Spent { row: 0 };
        let found = confirm([&filter, &trigger], &[1], &passing());
        assert_eq!(found, Ok(PairConfirmed::OneSpent));
    }

    /// Two states of the filter by two of the trigger, with a bad end or without.
    #[test]
    fn every_two_states_are_met() {
        let state = |cell| Rc::new(State::start(1, 1, &[cell], &[]));
        let findings = |cells: [u32; 2], bad: bool| Findings {
            complete: true,
            reached: cells.map(state).to_vec(),
            bad: bad.then(|| (vec![], BadEnd::Common)),
            ..Findings::default()
        };
        let pair = |states, filter: [u32; 2], bad: bool| {
            let mut found = PairFindings {
                states,
                complete: true,
                ..PairFindings::default()
            };
            for (side, cells) in found.sides.iter_mut().zip([filter, [3, 4]]) {
                side.reached = cells.map(state).to_vec();
            }
            if bad {
                found.sides[0].bad.insert(BadEnd::Common, vec![]);
            }
            found
        };
        let (filter, trigger) = (findings([1, 2], false), findings([3, 4], false));
        let met = |found: &PairFindings| interleavings([&filter, &trigger], found).is_ok();
        assert!(met(&pair(4, [1, 2], false)));
        assert!(!met(&pair(3, [1, 2], false)));
        assert!(!met(&pair(4, [1, 5], false)));
        assert!(!met(&pair(4, [1, 2], true)));
        let bad = findings([1, 2], true);
        let met = |found: &PairFindings| interleavings([&bad, &trigger], found).is_ok();
        assert!(met(&pair(6, [1, 2], true)));
        assert!(!met(&pair(4, [1, 2], true)));
        assert!(!met(&pair(6, [1, 2], false)));
    }
}
