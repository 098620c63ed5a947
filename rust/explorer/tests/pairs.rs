//! Common cells, and two kernels over them, by hand and over a fixed number of
//! seeds.
//!
//! R0 is the thread's number, R1 is 1, R8 the number of common cell 0, R3 what is
//! loaded from there. R15 stays 0 and means own cell 0.

mod common;

use common::*;
use explorer::claim::{check_over, Confirmed, MOST_STATES};
use explorer::machine::{BadEnd, Kernel, Mistake, Move, Standing, State};
use explorer::pair::{replay_pair, Pair, PairMistake, PairMove, PairReplay, PairStanding, Side};
use explorer::pair_claim::{check_machines, check_pair, Ending, PairConfirmed};
use explorer::pair_search::{explore_pair, PairFindings};
use explorer::search::{explore, replay, Order, Replay};
use explorer::{check_pair_seed, PairTally};
use generator::{SmallLaunch, SmallPair};

type Row = [u8; 4];

const SEEDS: u64 = 350;

#[test]
fn the_claim_holds_for_every_pair() {
    let mut tally = PairTally::default();
    for seed in 0..SEEDS {
        check_pair_seed(seed, &mut tally).unwrap();
    }
    println!("{tally:#?}");
    for (confirmed, least) in [
        (PairConfirmed::Passed, 100),
        (PairConfirmed::EndsBadly, 100),
        (PairConfirmed::Stuck, 5),
        (PairConfirmed::OneSpent, 5),
    ] {
        let found = tally.of(confirmed);
        assert!(found >= least, "{confirmed:?}: {found}");
    }
    assert!(tally.of(PairConfirmed::Unknown) <= SEEDS as usize / 50);
    use Ending::{Common, Diverged, Outside, Passed, Race, Spent};
    for (endings, least) in [
        ([Passed, Race], 10),
        ([Passed, Outside], 30),
        ([Passed, Common], 30),
        ([Passed, Diverged], 5),
        ([Passed, Spent], 3),
        ([Outside, Common], 5),
        ([Common, Common], 3),
    ] {
        let same = tally
            .pairs
            .iter()
            .filter(|((_, found), _)| *found == endings);
        let found: usize = same.map(|(_, pairs)| pairs).sum();
        assert!(found >= least, "{endings:?}: {found}");
    }
}

/// One more thread in the place of a pair's second kernel: the filters by
/// themselves.
#[test]
fn the_claim_holds_for_three_threads() {
    let mut passed = 0;
    for seed in 0..100 {
        let pair = generator::small_pair(seed);
        let launch = SmallLaunch {
            threads: 3,
            ..pair.filter
        };
        if launch.groups == 1 {
            let kernel = Kernel::new(&launch.table);
            let found = check_over(&launch, &pair.common, &kernel).unwrap();
            passed += usize::from(found == Confirmed::Passed);
        }
    }
    assert!(passed >= 15, "{passed}");
}

/// R0 the thread's number, R1 = 1, R8 = 65,536.
const HEAD: [Row; 4] = [TID, ONE, [1, 8, 0, 1], [6, 8, 8, 8]];
/// R3 = common cell 0.
const LOAD: Row = [16, 3, 8, 0];
/// R9 = R8 + R0, and R3 = the common cell of the thread's number.
const LOAD_OWN: [Row; 2] = [[4, 9, 8, 0], [16, 3, 9, 0]];
/// Common cell 0 = 1, and grows by 0.
const STORE: Row = [17, 8, 1, 0];
const ADD: Row = [18, 8, 15, 0];
/// Own cell R0 = R3.
const KEEP: Row = [17, 0, 3, 0];

fn rows(rows: &[Row]) -> Vec<Row> {
    [&HEAD[..], rows].concat()
}

/// Groups of so many threads, with two own cells each that hold 7.
fn over(common: &[u32], size: (u32, u32), after_head: &[Row]) -> Confirmed {
    let cells = vec![7; 2 * size.0 as usize];
    let launch = launch_of(size, &rows(after_head), &cells, &[7]);
    check_over(&launch, common, &Kernel::new(&launch.table)).unwrap()
}

/// The words at the end of every run, of a launch of two threads that passes.
fn cells_at_the_end(common: &[u32], after_head: &[Row]) -> Vec<u32> {
    let start = State::start(1, 2, &[7, 7], &[]).with_common(common);
    let kernel = Kernel::new(&rows(after_head).concat());
    let found = explore(&kernel, start, Order::Any, MOST_STATES);
    assert!(found.always_ends() && found.ends.len() == 1);
    found.ends.into_keys().next().unwrap().cells
}

#[test]
fn all_threads_load_common_cells() {
    assert_eq!(cells_at_the_end(&[5], &[LOAD, KEEP]), [5, 5]);
    let own = [&LOAD_OWN[..], &[KEEP]].concat();
    assert_eq!(cells_at_the_end(&[5, 6], &own), [5, 6]);
    let late = [LOAD, BARRIER, LOAD, KEEP, BARRIER, LOAD];
    assert_eq!(cells_at_the_end(&[9], &late), [9, 9]);
    for size in [(1, 1), (1, 2), (1, 3), (2, 1), (2, 2)] {
        assert_eq!(over(&[5], size, &[LOAD]), Confirmed::Passed, "{size:?}");
        assert_eq!(over(&[5], size, &late[..3]), Confirmed::Passed, "{size:?}");
    }
}

/// By all, by one of two threads, behind a barrier, and with the word that the
/// cell holds already.
#[test]
fn a_store_or_an_add_there_ends_badly() {
    for put in [STORE, ADD, [17, 8, 3, 0], [18, 8, 1, 0]] {
        for after in [
            vec![put],
            vec![LOAD, put],
            vec![LOAD, BARRIER, put, BARRIER],
            vec![begin_if(0), put, ENDIF],
            vec![begin_if(0), LOAD, ELSE, put, ENDIF],
        ] {
            assert_eq!(over(&[1], (1, 2), &after), Confirmed::EndsBadly);
        }
        let skipped = [begin_if(15), put, ENDIF];
        assert_eq!(over(&[1], (1, 2), &skipped), Confirmed::Passed);
        // One thread alone is thread 0.
        let by_others = [begin_if(0), put, ENDIF];
        assert_eq!(over(&[1], (2, 1), &by_others), Confirmed::Passed);
    }
}

/// Plays the only thread of a launch to its end, with cells 7 and these common
/// words.
fn alone(common: &[u32], table: &[Row], mistake: Option<Mistake>) -> Replay {
    let mut kernel = Kernel::new(&table.concat());
    if let Some(mistake) = mistake {
        kernel = kernel.mistaken(mistake);
    }
    let start = State::start(1, 1, &[7], &[7]).with_common(common);
    let mut run = vec![];
    loop {
        match replay(&kernel, start.clone(), Order::Any, &run) {
            Replay::Stands(Standing::Open(moves)) => run.push(moves[0]),
            end => return end,
        }
    }
}

const ENDED: Replay = Replay::Stands(Standing::Ended);
const OUTSIDE: Replay = Replay::Bad(BadEnd::Outside);
const COMMON: Replay = Replay::Bad(BadEnd::Common);

/// An access at 65,536 - 1 + R7, where R7 is `offset`.
fn at(offset: u16, access: Row) -> Vec<Row> {
    let number = [[5, 8, 8, 1], set(7, offset), [4, 8, 8, 7]];
    [rows(&number), vec![access]].concat()
}

#[test]
fn common_cells_have_two_ends() {
    let words = [5; 256];
    for count in [1, 2, 255, 256u16] {
        let words = &words[..usize::from(count)];
        for access in [LOAD, STORE, ADD] {
            let inside = if access == LOAD { ENDED } else { COMMON };
            assert_eq!(alone(words, &at(0, access), None), OUTSIDE);
            assert_eq!(alone(words, &at(1, access), None), inside);
            assert_eq!(alone(words, &at(count, access), None), inside);
            assert_eq!(alone(words, &at(count + 1, access), None), OUTSIDE);
            assert_eq!(alone(words, &at(257, access), None), OUTSIDE);
        }
    }
    for access in [LOAD, STORE, ADD] {
        assert_eq!(alone(&[], &at(1, access), None), OUTSIDE);
        // 2^17 and 2^32 - 1.
        let twice = rows(&[[4, 8, 8, 8], access]);
        assert_eq!(alone(&words, &twice, None), OUTSIDE);
        let most = rows(&[[5, 8, 15, 1], access]);
        assert_eq!(alone(&words, &most, None), OUTSIDE);
    }
    // Thread 1 is past the only cell.
    assert_eq!(over(&[5], (1, 2), &LOAD_OWN), Confirmed::EndsBadly);
    assert_eq!(over(&[5], (2, 1), &LOAD_OWN), Confirmed::Passed);
}

#[test]
fn global_ops_never_reach_common_cells() {
    for op in [20, 21, 22] {
        let access = [op, 8, 8, 0];
        assert_eq!(alone(&[5], &rows(&[access]), None), OUTSIDE);
        assert_eq!(alone(&[5], &[[op, 15, 15, 0]], None), ENDED);
    }
}

/// Each machine that is wrong about a single access.
#[test]
fn mistakes_about_common_cells_show_when_played() {
    let played = |offset, access, mistake| alone(&[5], &at(offset, access), Some(mistake));
    for put in [STORE, ADD] {
        assert_eq!(played(1, put, Mistake::CommonStoreIgnored), ENDED);
        assert_eq!(played(1, put, Mistake::CommonStoreMade), ENDED);
        assert_eq!(played(1, put, Mistake::CommonStoreMadeAtTheEnd), COMMON);
        assert_eq!(played(2, put, Mistake::PastCommonIsCommon), COMMON);
        assert_eq!(played(1, put, Mistake::CommonIsOwn), ENDED);
    }
    assert_eq!(played(1, STORE, Mistake::CommonAddMade), COMMON);
    assert_eq!(played(1, ADD, Mistake::CommonAddMade), ENDED);
    assert_eq!(played(2, LOAD, Mistake::PastCommonIsCommon), ENDED);
    let global = [20, 3, 8, 0];
    assert_eq!(played(1, global, Mistake::GlobalReachesCommon), ENDED);
}

/// A load there is a move, takes the word, and leaves cells and record as they
/// were.
#[test]
fn a_common_load_is_not_recorded() {
    let play = |kernel: &Kernel| {
        let mut state = State::start(1, 1, &[7], &[]).with_common(&[5]);
        for _ in 0..5 {
            assert_eq!(state.make(kernel, Move::Row(0)), Ok(()));
        }
        assert_eq!((state.cells(), state.common()), (&[7][..], &[5][..]));
        let before = state.recorded();
        assert_eq!(state.make(kernel, Move::Row(0)), Ok(()));
        (before, state.recorded(), state.cells()[0])
    };
    let kernel = Kernel::new(&rows(&[LOAD, KEEP]).concat());
    assert_eq!(play(&kernel), (0, 1, 5));
    let (recorded, ..) = play(&kernel.mistaken(Mistake::CommonLoadRecorded));
    assert_eq!(recorded, 1);
}

/// A thread has own cell 0 to itself while the other loads common cell 0.
#[test]
fn a_common_load_races_with_nobody() {
    for put in [[17, 15, 1, 0], [18, 15, 1, 0], [16, 4, 15, 0]] {
        for arms in [[put, LOAD], [LOAD, put]] {
            let after = [begin_if(0), arms[0], ELSE, arms[1], ENDIF];
            assert_eq!(over(&[5], (1, 2), &after), Confirmed::Passed);
        }
        let after = [LOAD, begin_if(0), put, ENDIF, LOAD];
        assert_eq!(over(&[5], (1, 2), &after), Confirmed::Passed);
    }
}

/// R9 = R0 × R8: thread 0 means own cell 0, thread 1 common cell 0.
#[test]
fn one_row_has_own_and_common_cells() {
    let number = [6, 9, 0, 8];
    let load = [number, [16, 3, 9, 0], BARRIER, KEEP];
    assert_eq!(cells_at_the_end(&[5], &load), [7, 5]);
    for put in [[17, 9, 1, 0], [18, 9, 1, 0]] {
        assert_eq!(over(&[5], (1, 2), &[number, put]), Confirmed::EndsBadly);
        assert_eq!(over(&[5], (2, 1), &[number, put]), Confirmed::Passed);
    }
    // The word loaded is the number of the cell: an own one, or the common one
    // itself.
    let by_word = [&LOAD_OWN[..], &[[16, 4, 3, 0]]].concat();
    assert_eq!(over(&[1, 65_536], (1, 2), &by_word), Confirmed::Passed);
    assert_eq!(over(&[1, 65_538], (1, 2), &by_word), Confirmed::EndsBadly);
    assert_eq!(over(&[2, 65_536], (1, 2), &by_word), Confirmed::EndsBadly);
}

#[test]
fn coefficients_decide() {
    let arm = [&LOAD_OWN[..], &[begin_if(3), BARRIER, ENDIF]].concat();
    let round = [begin_while(3), BARRIER, [5, 3, 3, 1], ENDWHILE];
    let trips = [&LOAD_OWN[..], &round].concat();
    for after in [&arm, &trips] {
        for words in [[0, 0], [1, 1], [2, 2]] {
            assert_eq!(over(&words, (1, 2), after), Confirmed::Passed);
        }
        for words in [[0, 1], [2, 0]] {
            assert_eq!(over(&words, (1, 2), after), Confirmed::Stuck);
        }
    }
    assert_eq!(over(&[1, 2], (1, 2), &trips), Confirmed::Stuck);
    assert_eq!(over(&[1, 2], (1, 2), &arm), Confirmed::Passed);
    let flag = [&LOAD_OWN[..], &[[17, 15, 3, 0]]].concat();
    assert_eq!(over(&[4, 4], (1, 2), &flag), Confirmed::Passed);
    assert_eq!(over(&[4, 5], (1, 2), &flag), Confirmed::EndsBadly);
    let endless = [LOAD, begin_while(3), LOAD, ENDWHILE];
    assert_eq!(over(&[0], (1, 2), &endless), Confirmed::Passed);
    assert_eq!(over(&[1], (1, 2), &endless), Confirmed::Endless);
}

/// A launch of one group, with one own cell.
fn resident(threads: u32, table: &[Row], cell: u32) -> SmallLaunch {
    launch_of((1, threads), table, &[cell], &[])
}

fn together(filter: SmallLaunch, trigger: SmallLaunch, common: &[u32]) -> SmallPair {
    SmallPair {
        filter,
        trigger,
        common: common.to_vec(),
    }
}

fn machine(pair: &SmallPair) -> Pair {
    let kernels = pair.launches().map(|launch| Kernel::new(&launch.table));
    let starts = pair.launches().map(|launch| {
        State::start(launch.groups, launch.threads, &launch.cells, &launch.global)
            .with_common(&pair.common)
    });
    Pair::new(kernels, starts)
}

fn all_runs(pair: &SmallPair) -> PairFindings {
    explore_pair(&machine(pair), 9_999)
}

/// The pair in this order and in the other.
fn both_ways(one: &SmallLaunch, other: &SmallLaunch, common: &[u32]) -> PairConfirmed {
    let [first, second] = [(one, other), (other, one)].map(|(filter, trigger)| {
        let pair = together(filter.clone(), trigger.clone(), common);
        check_pair(&pair).unwrap().confirmed
    });
    assert_eq!(first, second);
    first
}

fn filter(made: Move) -> PairMove {
    PairMove {
        side: Side::Filter,
        made,
    }
}

fn trigger(made: Move) -> PairMove {
    PairMove {
        side: Side::Trigger,
        made,
    }
}

const F: fn() -> PairMove = || filter(Move::Row(0));
const T: fn() -> PairMove = || trigger(Move::Row(0));

/// What a run comes to: bad ends of both kernels, and where the pair stands.
fn played(pair: &SmallPair, run: &[PairMove]) -> PairReplay {
    replay_pair(&machine(pair), run)
}

fn open(found: &PairReplay) -> bool {
    matches!(found, PairReplay::Stands(_, PairStanding::Open(_)))
}

const BOTH_ENDED: PairReplay = PairReplay::Stands([None; 2], PairStanding::Ended);

#[test]
fn moves_of_both_alternate_in_any_order() {
    let pair = together(resident(1, &[TID, ONE], 7), resident(1, &[TID], 7), &[]);
    for run in [[F(), F(), T()], [F(), T(), F()], [T(), F(), F()]] {
        assert_eq!(played(&pair, &run), BOTH_ENDED);
        assert!(open(&played(&pair, &run[..2])));
        let more = [&run[..], &[T()]].concat();
        assert_eq!(played(&pair, &more), PairReplay::Impossible);
    }
    // One kernel has come to its end, and the other has not.
    assert!(open(&played(&pair, &[T()])));
    assert!(open(&played(&pair, &[F(), F()])));
    assert_eq!(played(&pair, &[T(), T()]), PairReplay::Impossible);
    // 3 states by 2.
    assert_eq!(all_runs(&pair).states, 6);
}

/// Every move of each thread and each release, counted by hand.
#[test]
fn moves_are_the_steps_and_barriers_of_both() {
    // Twice 7 moves and 2 releases, and 7 moves and 1 release.
    let one = rows(&[LOAD, BARRIER, begin_if(0), ENDIF, BARRIER]);
    let other = rows(&[LOAD, BARRIER, KEEP, ONE]);
    let pair = together(resident(2, &one, 7), resident(1, &other, 7), &[5]);
    let found = all_runs(&pair);
    let (end, _) = found.ends.first_key_value().unwrap();
    assert!(found.always_ends() && found.ends.len() == 1);
    let [of_filter, of_trigger] = &end.made.sides;
    assert_eq!(of_filter.by_thread, [7, 7]);
    assert_eq!((&of_filter.releases[..], of_filter.all), (&[2][..], 16));
    assert_eq!(of_trigger.by_thread, [7]);
    assert_eq!((&of_trigger.releases[..], of_trigger.all), (&[1][..], 8));
    assert_eq!(end.made.all, 24);
    assert_eq!(end.cells, [vec![7], vec![5]]);
    assert_eq!(end.common, [vec![5], vec![5]]);
    assert_eq!(check_pair(&pair).unwrap().confirmed, PairConfirmed::Passed);
}

/// Cells of one number, records and barriers are each kernel's own.
#[test]
fn kernels_have_nothing_else_in_common() {
    let flag = |value| resident(2, &[set(2, value), [17, 15, 2, 0]], 7);
    let adds = resident(2, &[ONE, [18, 15, 1, 0]], 3);
    let loads = resident(2, &[[16, 3, 15, 0]], 9);
    let waits = resident(2, &[BARRIER, BARRIER], 1);
    let kernels = [flag(4), flag(5), adds, loads, waits];
    for one in &kernels {
        for other in &kernels {
            assert_eq!(both_ways(one, other, &[]), PairConfirmed::Passed);
        }
    }
    let [one, other, adds, ..] = kernels;
    let found = all_runs(&together(one.clone(), other, &[]));
    let (end, _) = found.ends.first_key_value().unwrap();
    assert_eq!(end.cells, [[4], [5]]);
    let found = all_runs(&together(adds, one, &[]));
    let (end, _) = found.ends.first_key_value().unwrap();
    assert_eq!(end.cells, [[5], [4]]);
}

/// The trigger is released between two accesses of the filter's threads.
#[test]
fn a_release_forgets_nothing_of_the_other_kernel() {
    let accesses = [
        TID,
        begin_if(0),
        [16, 3, 15, 0],
        ELSE,
        [17, 15, 1, 0],
        ENDIF,
    ];
    let barrier = resident(1, &[BARRIER], 7);
    let pair = together(resident(2, &accesses, 7), barrier, &[]);
    let released = trigger(Move::Release(0));
    let stores = [F(), F(), F(), released];
    let loads = [filter(Move::Row(1)); 3];
    let run = [&stores[..], &loads].concat();
    let raced = [Some(BadEnd::Race), None];
    let end = PairReplay::Stands(raced, PairStanding::EndedBadly);
    assert_eq!(played(&pair, &run), end);
    assert!(open(&played(&pair, &run[..6])));
    // Nor does the filter wait for the trigger's barrier, or at it.
    let other_way = together(pair.trigger.clone(), pair.filter.clone(), &[]);
    assert!(open(&played(&other_way, &[filter(Move::Release(0))])));
}

/// The filter stores to a common cell and makes no more moves; the trigger loads
/// the word that was there before, and comes to its end.
#[test]
fn a_kernel_goes_on_when_the_other_has_ended_badly() {
    let stores = resident(2, &rows(&[STORE]), 7);
    let loads = resident(1, &rows(&[LOAD, KEEP]), 7);
    let pair = together(stores, loads, &[5]);
    let bad = [F(); 5];
    let common = [Some(BadEnd::Common), None];
    assert!(open(&played(&pair, &bad)));
    for more in [F(), filter(Move::Row(1))] {
        let run = [&bad[..], &[more]].concat();
        assert_eq!(played(&pair, &run), PairReplay::Impossible);
    }
    for alternating in [
        [bad.to_vec(), [T(); 6].to_vec()].concat(),
        [[T(); 6].to_vec(), bad.to_vec()].concat(),
        [[T(); 2].to_vec(), bad.to_vec(), [T(); 4].to_vec()].concat(),
    ] {
        let end = PairReplay::Stands(common, PairStanding::EndedBadly);
        assert_eq!(played(&pair, &alternating), end);
    }
    let found = all_runs(&pair);
    let ends: Vec<&[u32]> = found.sides[1]
        .ends
        .iter()
        .map(|end| &end.cells[..])
        .collect();
    assert_eq!((ends, found.ends.len()), (vec![&[5][..]], 0));
    assert!(found.stuck.is_none() && !found.always_ends());
    assert_eq!(
        check_pair(&pair).unwrap().confirmed,
        PairConfirmed::EndsBadly
    );
    // Wrongly made before the bad end, the store would be the trigger's word.
    let kernels = pair
        .launches()
        .map(|launch| Kernel::new(&launch.table).mistaken(Mistake::CommonStoreMadeAtTheEnd));
    assert!(check_machines(&pair, kernels, None).is_err());
}

#[test]
fn a_pair_ends_well_exactly_when_both_do() {
    use PairConfirmed::{BothSpent, Endless, EndsBadly, OneSpent, Passed, Stuck};
    let sound = resident(2, &rows(&[LOAD, BARRIER]), 7);
    let stores = resident(2, &rows(&[STORE]), 7);
    let outside = resident(1, &[ONE, [16, 3, 1, 0]], 7);
    let races = resident(2, &[TID, [17, 15, 0, 0]], 7);
    let stuck = resident(2, &[TID, begin_if(0), BARRIER, ENDIF], 7);
    let endless = resident(1, &[ONE, begin_while(1), ENDWHILE], 7);
    let meets = resident(2, &[ONE, begin_while(1), BARRIER, ENDWHILE], 7);
    let of = |one, other| both_ways(one, other, &[5]);
    assert_eq!(of(&sound, &sound), Passed);
    for bad in [&stores, &outside, &races] {
        for other in [&sound, &stores, &outside, &races, &stuck] {
            assert_eq!(of(bad, other), EndsBadly);
        }
    }
    assert_eq!(of(&stuck, &sound), Stuck);
    assert_eq!(of(&stuck, &stuck), Stuck);
    // Thread 1 waits, thread 0 loops for ever: diverged, and no run is stuck.
    let arms = [begin_if(0), BARRIER, ELSE, begin_while(1), ENDWHILE, ENDIF];
    let loops = resident(2, &[&[TID, ONE][..], &arms].concat(), 7);
    assert_eq!(of(&loops, &sound), Endless);
    assert_eq!(of(&loops, &stores), EndsBadly);
    for forever in [&endless, &meets] {
        for other in [&sound, &stores, &outside, &races, &stuck] {
            assert_eq!(of(forever, other), OneSpent);
        }
        assert_eq!(of(forever, &endless), BothSpent);
    }
}

/// A kernel that is stuck holds the pair only when the other has come to its
/// end; a bad end of the other is one of the pair.
#[test]
fn a_stuck_kernel_beside_another() {
    let lost = resident(2, &[TID, begin_if(0), BARRIER, ENDIF], 7);
    // Thread 0 goes by, thread 1 waits.
    let mut run: Vec<PairMove> = [0, 0, 0, 1, 1].map(Move::Row).map(filter).to_vec();
    let beside = |table: &[Row]| together(lost.clone(), resident(1, table, 7), &[]);
    let stuck = PairReplay::Stands([None; 2], PairStanding::Stuck);
    assert!(open(&played(&beside(&[TID]), &run)));
    assert_eq!(played(&beside(&[]), &run), stuck);
    run.push(T());
    assert_eq!(played(&beside(&[TID]), &run), stuck);
    let outside = PairReplay::Stands([None, Some(BadEnd::Outside)], PairStanding::EndedBadly);
    assert_eq!(played(&beside(&[[16, 3, 15, 0], TID]), &run), {
        let left = PairStanding::Open(vec![T()]);
        PairReplay::Stands([None; 2], left)
    });
    assert_eq!(played(&beside(&[[20, 3, 15, 0]]), &run), outside);
}

/// Each way of playing a pair wrongly, on a pair that shows it.
#[test]
fn mistakes_about_pairs_show() {
    let sound = resident(2, &rows(&[LOAD, BARRIER]), 7);
    let short = resident(1, &[ONE, [17, 15, 1, 0]], 3);
    let bad = resident(1, &[[20, 3, 15, 0]], 7);
    let passes = together(sound.clone(), short.clone(), &[5]);
    let ends_badly = together(sound, bad, &[5]);
    let stores = together(short.clone(), resident(1, &[[17, 15, 15, 0]], 7), &[]);
    for (pair, mistake) in [
        (&passes, PairMistake::StopsWithOne),
        (&ends_badly, PairMistake::StopsWithBad),
        (&passes, PairMistake::CountsForFilter),
        (&stores, PairMistake::TriggerOnFiltersCells),
        (&passes, PairMistake::OneAfterTheOther),
        (&passes, PairMistake::ReleaseWaitsForBoth),
        (&stores, PairMistake::KernelsRace),
    ] {
        let kernels = || pair.launches().map(|launch| Kernel::new(&launch.table));
        assert!(check_machines(pair, kernels(), None).is_ok());
        let fault = check_machines(pair, kernels(), Some(mistake)).unwrap_err();
        println!("{mistake:?}: {fault}");
    }
}

#[test]
fn many_states_are_given_up() {
    // Each counts through all words.
    let counts = resident(1, &[ONE, begin_while(1), [4, 2, 2, 1], ENDWHILE], 7);
    let pair = together(counts, resident(1, &[TID], 7), &[]);
    let found = explore_pair(&machine(&pair), 500);
    assert!(!found.complete && !found.always_ends());
    assert_eq!(found.states, 500);
}
