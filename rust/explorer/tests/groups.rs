//! Launches of several groups and with global cells, by hand.
//!
//! R0 is the thread's number in its group, R1 is 1, R2 the role: what the
//! group's own cell 0 holds. R15 stays 0 and means cell 0.

mod common;

use common::*;
use explorer::claim::{check, Confirmed};
use explorer::machine::{BadEnd, Kernel, Move, Standing, State};
use explorer::search::{replay, Order, Replay};
use Confirmed::{Endless, EndsBadly, Passed, Stuck};

type Row = [u8; 4];

const COUNT: Row = [3, 0, 0, 0];
const LAUNCH_NUMBER: Row = [19, 0, 0, 0];
const ROLE: Row = [16, 2, 15, 0];
const GLOBAL_LOAD: Row = [20, 3, 15, 0];
const GLOBAL_STORE: Row = [21, 15, 1, 0];
const GLOBAL_ADD: Row = [22, 15, 1, 0];

/// A row that stores 2 instead of 1 to global cell 0, with R4 = 2.
const OTHER_STORE: Row = [21, 15, 4, 0];
const ACCESSES: [Row; 4] = [GLOBAL_LOAD, GLOBAL_STORE, OTHER_STORE, GLOBAL_ADD];

/// Groups of so many threads with their number in own cell 0, and one global
/// cell that holds 1 already.
fn claimed(size: (u32, u32), rows: &[Row]) -> Confirmed {
    let numbers: Vec<u32> = (0..size.0).collect();
    check(&launch_of(size, rows, &numbers, &[1])).unwrap()
}

fn if_role(others: &[Row], group_0: &[Row]) -> Vec<Row> {
    let head = [ONE, set(4, 2), ROLE, begin_if(2)];
    [&head[..], others, &[ELSE], group_0, &[ENDIF]].concat()
}

fn passed_if(fine: bool) -> Confirmed {
    if fine {
        Passed
    } else {
        EndsBadly
    }
}

/// Only loads with loads and adds with adds, wherever barriers are.
#[test]
fn two_groups_conflict_anywhere_in_the_launch() {
    for one in ACCESSES {
        for other in ACCESSES {
            let fine = one == other && [GLOBAL_LOAD, GLOBAL_ADD].contains(&one);
            for (first, second) in [
                (vec![one], vec![other]),
                (vec![one, BARRIER], vec![other]),
                (vec![one, BARRIER, BARRIER], vec![BARRIER, other]),
                (vec![BARRIER, one], vec![other, BARRIER]),
            ] {
                let rows = if_role(&first, &second);
                let found = claimed((2, 1), &rows);
                assert_eq!(found, passed_if(fine), "{first:?}, {second:?}");
            }
        }
    }
}

/// The same between groups 0 and 2, and by one thread of each of two groups.
#[test]
fn any_two_groups_conflict() {
    let late = [
        ONE,
        ROLE,
        [12, 2, 2, 1],
        begin_if(2),
        ELSE,
        GLOBAL_STORE,
        ENDIF,
    ];
    assert_eq!(claimed((1, 1), &late), Passed);
    assert_eq!(claimed((2, 1), &late), Passed);
    assert_eq!(claimed((3, 1), &late), EndsBadly);
    let thread_1 = [TID, begin_if(0), GLOBAL_STORE, ENDIF, BARRIER];
    assert_eq!(claimed((1, 2), &thread_1), Passed);
    assert_eq!(claimed((2, 2), &thread_1), EndsBadly);
    assert_eq!(claimed((3, 1), &thread_1), Passed);
}

/// Inside a group items 1 and 6 hold, and a barrier parts the accesses.
#[test]
fn a_group_conflicts_at_global_cells_as_at_own_ones() {
    for one in ACCESSES {
        for other in ACCESSES {
            let arms = [TID, ONE, set(4, 2), begin_if(0), one, ELSE, other, ENDIF];
            let found = claimed((1, 2), &arms);
            assert_eq!(found, passed_if(one == other), "{one:?}, {other:?}");
            let first = [TID, ONE, set(4, 2), begin_if(0), one, ENDIF];
            let second = [BARRIER, begin_if(0), ELSE, other, ENDIF];
            let parted = [&first[..], &second].concat();
            assert_eq!(claimed((1, 2), &parted), Passed, "{one:?}, {other:?}");
        }
    }
}

/// A thread of a group alone may do anything in turn.
#[test]
fn own_accesses_of_a_thread_never_conflict() {
    let rows = [&[ONE, set(4, 2)][..], &ACCESSES, &ACCESSES].concat();
    assert_eq!(claimed((1, 1), &rows), Passed);
    assert_eq!(claimed((2, 1), &rows), EndsBadly);
}

#[test]
fn what_is_fine_in_one_group_races_in_two() {
    for rows in [
        vec![ONE, GLOBAL_STORE],
        vec![TID, begin_if(0), ELSE, GLOBAL_STORE, ENDIF],
        vec![GLOBAL_LOAD, BARRIER, GLOBAL_STORE],
        vec![ONE, GLOBAL_STORE, BARRIER, GLOBAL_LOAD],
        vec![ONE, GLOBAL_ADD, BARRIER, GLOBAL_LOAD],
        vec![GLOBAL_LOAD, BARRIER, GLOBAL_ADD],
        vec![ONE, GLOBAL_ADD, BARRIER, GLOBAL_STORE],
    ] {
        assert_eq!(claimed((1, 2), &rows), Passed, "{rows:?}");
        assert_eq!(claimed((2, 2), &rows), EndsBadly, "{rows:?}");
        assert_eq!(claimed((2, 1), &rows), EndsBadly, "{rows:?}");
    }
}

#[test]
fn adds_of_all_groups_pass_in_every_order() {
    for size in [(2, 1), (2, 2), (3, 1), (3, 2), (2, 3)] {
        let rows = [LAUNCH_NUMBER, [22, 15, 0, 0]];
        assert_eq!(claimed(size, &rows), Passed, "{size:?}");
        let twice = [COUNT, [22, 15, 0, 0], BARRIER, [22, 15, 0, 0]];
        assert_eq!(claimed(size, &twice), Passed, "{size:?}");
    }
    let loads = [GLOBAL_LOAD, BARRIER, GLOBAL_LOAD, [17, 15, 3, 0]];
    assert_eq!(claimed((2, 2), &loads), Passed);
    assert_eq!(claimed((3, 1), &loads), Passed);
}

/// Each group stores to its own cell what no other group does.
#[test]
fn own_cells_of_groups_are_apart() {
    let rows = [LAUNCH_NUMBER, [17, 15, 0, 0]];
    for groups in [2, 3] {
        assert_eq!(claimed((groups, 1), &rows), Passed);
        assert_eq!(claimed((groups, 2), &rows), EndsBadly);
    }
    // Loads, stores and adds of different groups at cells of one number.
    let each = [
        ROLE,
        begin_if(2),
        [18, 15, 2, 0],
        ELSE,
        [17, 15, 2, 0],
        ENDIF,
    ];
    assert_eq!(claimed((3, 1), &each), Passed);
    // Each group goes by its own cell 1.
    let trips = [
        ONE,
        [16, 2, 1, 0],
        begin_while(2),
        BARRIER,
        [5, 2, 2, 1],
        ENDWHILE,
    ];
    let cells = [[7, 2], [7, 0], [7, 3]].concat();
    let launch = launch_of((3, 1), &trips, &cells, &[]);
    assert_eq!(check(&launch), Ok(Passed));
}

/// One own cell for each number in the group, one global cell for each launch
/// number.
#[test]
fn numbers_in_the_group_and_in_the_launch_name_cells() {
    let store = |number: Row, op: u8| [number, [op, 0, 0, 0]];
    for (groups, threads) in [(1, 3), (2, 1), (2, 2), (3, 1), (3, 2), (2, 3)] {
        let size = (groups, threads);
        let all = (groups * threads) as usize;
        let of = |rows: &[Row], own: u32, global: usize| {
            let own = vec![9; (groups * own) as usize];
            check(&launch_of(size, rows, &own, &vec![9; global])).unwrap()
        };
        assert_eq!(of(&store(TID, 17), threads, 0), Passed);
        let by_launch = of(&store(LAUNCH_NUMBER, 17), threads, 0);
        assert_eq!(by_launch, passed_if(groups == 1));
        assert_eq!(of(&store(LAUNCH_NUMBER, 17), groups * threads, 0), Passed);
        assert_eq!(of(&store(LAUNCH_NUMBER, 21), 1, all), Passed);
        assert_eq!(of(&store(LAUNCH_NUMBER, 21), 1, all - 1), EndsBadly);
        assert_eq!(of(&store(TID, 21), 1, all), passed_if(groups == 1));
        // COUNT is the cell behind the group's.
        assert_eq!(of(&[COUNT, [16, 3, 0, 0]], threads, 9), EndsBadly);
        assert_eq!(of(&[COUNT, [16, 3, 0, 0]], threads + 1, 0), Passed);
    }
}

#[test]
fn cells_are_outside_by_their_own_count() {
    let of = |op: u8, number: u16, own: &[u32], global: &[u32]| {
        let rows = [set(5, number), [op, 5, 5, 0]];
        check(&launch_of((2, 1), &rows, own, global)).unwrap()
    };
    for (own_op, global_op) in [(16, 20), (18, 22)] {
        // One own cell for each group and two global ones, or the other way.
        assert_eq!(of(own_op, 1, &[0; 2], &[0; 2]), EndsBadly);
        assert_eq!(of(global_op, 1, &[0; 2], &[0; 2]), Passed);
        assert_eq!(of(own_op, 1, &[0; 4], &[0; 1]), Passed);
        assert_eq!(of(global_op, 1, &[0; 4], &[0; 1]), EndsBadly);
        assert_eq!(of(own_op, 2, &[0; 4], &[0; 3]), EndsBadly);
        assert_eq!(of(global_op, 0, &[0; 2], &[]), EndsBadly);
    }
}

/// Barriers that only one group comes to, or comes to more often.
#[test]
fn a_barrier_holds_its_own_group_only() {
    for size in [(2, 1), (2, 2), (3, 1)] {
        for rows in [
            if_role(&[BARRIER], &[]),
            if_role(&[], &[BARRIER, BARRIER]),
            if_role(&[BARRIER], &[BARRIER, BARRIER]),
            vec![ONE, ROLE, begin_while(2), BARRIER, [5, 2, 2, 1], ENDWHILE],
            vec![ROLE, BARRIER, begin_if(2), BARRIER, ENDIF],
        ] {
            assert_eq!(claimed(size, &rows), Passed, "{size:?}, {rows:?}");
        }
    }
}

/// Group 1 alone, or group 0 alone, loses a thread at a barrier or never ends.
#[test]
fn a_group_with_a_fault_among_sound_ones() {
    let lost = [TID, begin_if(0), BARRIER, ENDIF];
    let own_loop = [begin_while(1), ENDWHILE];
    let meeting_loop = [begin_while(1), BARRIER, ENDWHILE];
    for (rows, fault) in [
        (&lost[..], Stuck),
        (&own_loop[..], Endless),
        (&meeting_loop[..], Endless),
    ] {
        for sound in [vec![], vec![BARRIER], vec![GLOBAL_ADD, BARRIER]] {
            assert_eq!(claimed((2, 2), &if_role(rows, &sound)), fault);
            assert_eq!(claimed((2, 2), &if_role(&sound, rows)), fault);
        }
    }
    // Group 0 never ends, so that in lock step nothing of group 1 is met.
    let outside = [[20, 3, 1, 0]];
    assert_eq!(claimed((2, 2), &if_role(&outside, &own_loop)), Endless);
    assert_eq!(claimed((2, 2), &if_role(&own_loop, &outside)), EndsBadly);
    // Group 0 is left at its barrier while group 1 goes on for ever.
    let diverged = claimed((2, 2), &if_role(&own_loop, &lost));
    assert_eq!(diverged, Confirmed::DivergedEndless);
}

/// Rows of these launch numbers and releases of groups, in two groups of two
/// threads.
fn play(rows: &[Row], run: &[Move]) -> Replay {
    let start = State::start(2, 2, &[7, 7], &[7]);
    replay(&Kernel::new(&rows.concat()), start, Order::Any, run)
}

const RACED: Replay = Replay::Bad(BadEnd::Race);

fn goes_on(found: &Replay) -> bool {
    matches!(found, Replay::Stands(Standing::Open(_)))
}

/// What a release forgets inside its group and keeps against the other.
#[test]
fn a_release_forgets_its_own_groups_accesses_only() {
    use Move::{Release, Row};
    let [own_load, own_store] = [[16, 3, 15, 0], [17, 15, 15, 0]];
    let run = [Row(0), Row(1), Release(0), Row(0), Row(1)];
    for (access, late) in [(own_store, own_load), (GLOBAL_STORE, GLOBAL_LOAD)] {
        assert!(goes_on(&play(&[access, BARRIER, late], &run)));
    }
    // Behind group 0's release its global store counts against group 1.
    let rows = [GLOBAL_STORE, BARRIER];
    assert_eq!(play(&rows, &[Row(0), Row(1), Release(0), Row(2)]), RACED);
    assert_eq!(play(&rows, &[Row(0), Row(2)]), RACED);
    // And behind a release of group 1 the other way round.
    assert_eq!(play(&rows, &[Row(2), Row(3), Release(1), Row(0)]), RACED);
}

/// Group 1 passes a barrier between two accesses of group 0: its thread 1 meets
/// what its thread 0 has done, and group 1 too.
#[test]
fn another_groups_release_forgets_nothing() {
    use Move::{Release, Row};
    let [own_load, own_store] = [[16, 3, 15, 0], [17, 15, 1, 0]];
    for (store, load) in [(own_store, own_load), (GLOBAL_STORE, GLOBAL_LOAD)] {
        // Of group 0 thread 0 stores and thread 1 loads; group 1 has a barrier.
        let arms = [TID, begin_if(0), load, ELSE, store, ENDIF];
        let rows = [
            &[LAUNCH_NUMBER, set(4, 2), [13, 5, 0, 4], begin_if(5)][..],
            &arms,
            &[ELSE, BARRIER, load, ENDIF],
        ]
        .concat();
        let prelude = |thread| [Row(thread); 4];
        let waits = [&prelude(2)[..], &prelude(3)].concat();
        let stored = [&prelude(0)[..], &[Row(0); 3]].concat();
        let before = [
            &waits[..],
            &stored,
            &[Release(1)],
            &prelude(1),
            &[Row(1); 2],
        ]
        .concat();
        assert!(goes_on(&play(&rows, &before)));
        assert_eq!(play(&rows, &[&before[..], &[Row(1)]].concat()), RACED);
        let by_group_1 = play(&rows, &[&before[..], &[Row(2)]].concat());
        if load == GLOBAL_LOAD {
            assert_eq!(by_group_1, RACED);
        } else {
            assert!(goes_on(&by_group_1));
        }
    }
}

#[test]
fn groups_move_and_are_released_in_any_order() {
    use Move::{Release, Row};
    let rows = [TID, BARRIER];
    let [first, second] = [[Row(0), Row(1), Release(0)], [Row(2), Row(3), Release(1)]];
    let ended = Replay::Stands(Standing::Ended);
    assert_eq!(play(&rows, &[first, second].concat()), ended);
    assert_eq!(play(&rows, &[second, first].concat()), ended);
    let mixed = [Row(3), Row(0), Row(2), Release(1), Row(1), Release(0)];
    assert_eq!(play(&rows, &mixed), ended);
    assert!(goes_on(&play(&rows, &first)));
    // Not before all threads of the group wait, nor twice.
    let early = [Row(0), Row(2), Row(3), Release(0)];
    assert_eq!(play(&rows, &early), Replay::Impossible);
    let twice = [&first[..], &[Release(0)]].concat();
    assert_eq!(play(&rows, &twice), Replay::Impossible);
}

/// One after the other, group 1 may not move before group 0 has ended.
#[test]
fn groups_one_after_the_other() {
    use Move::{Release, Row};
    let kernel = Kernel::new(&[TID, BARRIER].concat());
    let play = |run: &[Move]| {
        let start = State::start(2, 2, &[7, 7], &[]);
        replay(&kernel, start, Order::GroupByGroup, run)
    };
    let [first, second] = [[Row(1), Row(0), Release(0)], [Row(2), Row(3), Release(1)]];
    let all = play(&[first, second].concat());
    assert_eq!(all, Replay::Stands(Standing::Ended));
    assert_eq!(play(&[Row(2)]), Replay::Impossible);
    assert_eq!(play(&[Row(0), Row(1), Row(2)]), Replay::Impossible);
    let open = Replay::Stands(Standing::Open(vec![Row(2), Row(3)]));
    assert_eq!(play(&first), open);
}
