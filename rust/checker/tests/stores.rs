//! Item 6 and its readings, 17 and 18: equal stores let through, what the log
//! keeps of stores, and how a store that is refused is shown.

mod common;

use checker::{log_words, AccessKind, Verdict, INTERVAL_WORDS, LENT_CELLS, LENT_LOG, REPORT_ROOM};
use common::*;

/// Rows for one thread alone; R0 is then the thread's number.
fn only(thread: u16, rows: &[Row]) -> Vec<Row> {
    let mine = [tid(0), set(9, thread), [12, 9, 0, 9], if_(9)];
    [mine.as_slice(), rows, &[ENDIF]].concat()
}

/// Accesses to cell 0, whose number is in R15: R15 is never set.
const LOAD: Row = [16, 1, 15, 0];
const ADD: Row = [18, 15, 14, 0]; // of 0

/// Stores this value in cell 0, in two rows.
fn put(value: u16) -> Vec<Row> {
    vec![set(2, value), store(15, 2)]
}

fn puts(values: &[u16]) -> Vec<Row> {
    values.iter().flat_map(|&value| put(value)).collect()
}

/// What threads do to cell 0 one after the other, each in an arm of its own; the
/// verdict, the cell and its log: readers, writers, adders, first value, mark.
fn in_turn(turns: &[(u16, Vec<Row>)]) -> (Verdict, u32, [u32; 5]) {
    let rows: Vec<Row> = (turns.iter())
        .flat_map(|(thread, rows)| only(*thread, rows))
        .collect();
    let (found, cells, log) = run_logged(&rows, 4, &[77], 999);
    (found.verdict, cells[0], log.try_into().unwrap())
}

/// The verdict without its row, of a launch stopped at cell 0.
fn race(verdict: Verdict) -> (u32, u32, AccessKind) {
    match verdict {
        Verdict::Race {
            other_group: 0,
            thread,
            other: Some(other),
            kind,
            at: 0,
            ..
        } => (thread, other, kind),
        _ => panic!("{verdict:?}"),
    }
}

#[test]
fn the_log_has_five_words_a_cell() {
    assert_eq!((LENT_LOG, log_words(1), log_words(3)), (8_192, 8, 24));
}

#[test]
fn a_flag_set_by_all_threads_passes() {
    for threads in [1, 2, 3, 31, 32] {
        let all = u32::MAX >> (32 - threads);
        let (found, cells, log) = run_logged(&put(1), threads, &[0], 9);
        let steps = vec![2; threads as usize];
        assert_eq!(found, outcome(Verdict::Passed, 2, &steps, 0));
        assert_eq!((cells, log), (vec![1], vec![0, all, 0, 1, 0]));
        // Behind a barrier all may read it, and nothing is left of the stores.
        let rows = [put(1), vec![BARRIER, load(3, 15)]].concat();
        let (found, cells, log) = run_logged(&rows, threads, &[0], 9);
        let steps = vec![3; threads as usize];
        assert_eq!(found, outcome(Verdict::Passed, 4, &steps, 1));
        assert_eq!((cells, log), (vec![1], vec![all, 0, 0, 0, 0]));
    }
}

#[test]
fn equal_stores_one_after_the_other_pass() {
    let turns = [(2, put(5)), (0, put(5)), (3, puts(&[5, 5])), (2, put(5))];
    let (verdict, cell, log) = in_turn(&turns);
    assert_eq!((verdict, cell), (Verdict::Passed, 5));
    assert_eq!(log, [0, 0b1101, 0, 5, 0]);
}

#[test]
fn the_first_unequal_store_races_with_the_lowest_that_stored() {
    let (verdict, cell, log) = in_turn(&[(2, put(5)), (1, put(5)), (0, put(6))]);
    assert_eq!(race(verdict), (0, 1, AccessKind::Ww));
    // Neither made nor logged: no mark, and the first value stays.
    assert_eq!((cell, log), (5, [0, 0b110, 0, 5, 0]));
    // One of them, a second time: it meets the other.
    let (verdict, cell, log) = in_turn(&[(1, put(5)), (3, put(5)), (1, put(6))]);
    assert_eq!(race(verdict), (1, 3, AccessKind::Ww));
    assert_eq!((cell, log), (5, [0, 0b1010, 0, 5, 0]));
}

#[test]
fn own_earlier_stores_count() {
    // Reading 17: 5 then 6 by thread 0, then 5 by thread 1. So with 6.
    for last in [5, 6, 7, 0] {
        let (verdict, cell, log) = in_turn(&[(0, puts(&[5, 6])), (1, put(last))]);
        assert_eq!(race(verdict), (1, 0, AccessKind::Ww), "{last}");
        assert_eq!((cell, log), (6, [0, 1, 0, 5, 1]));
    }
    // The mark stays when the first value is stored again.
    for last in [5, 6] {
        let (verdict, cell, log) = in_turn(&[(3, puts(&[5, 6, 5])), (1, put(last))]);
        assert_eq!(race(verdict), (1, 3, AccessKind::Ww), "{last}");
        assert_eq!((cell, log), (5, [0, 8, 0, 5, 1]));
    }
    // The other way round: 5 by thread 1, then 5 and 6 by thread 0.
    let (verdict, cell, log) = in_turn(&[(1, put(5)), (0, puts(&[5, 6]))]);
    assert_eq!(race(verdict), (0, 1, AccessKind::Ww));
    assert_eq!((cell, log), (5, [0, 0b11, 0, 5, 0]));
}

#[test]
fn one_thread_alone_may_store_what_it_likes() {
    for (values, mark) in [
        (&[5][..], 0),
        (&[5, 5, 5], 0),
        (&[5, 6], 1),
        (&[5, 5, 6], 1),
        (&[5, 6, 5], 1),
        (&[5, 6, 7, 8, 5, 5], 1),
    ] {
        let (verdict, cell, log) = in_turn(&[(2, puts(values))]);
        assert_eq!(verdict, Verdict::Passed);
        assert_eq!(cell, u32::from(*values.last().unwrap()));
        // The first value stays.
        assert_eq!(log, [0, 4, 0, 5, mark], "{values:?}");
    }
}

#[test]
fn a_first_value_of_0_is_a_value() {
    let (verdict, cell, log) = in_turn(&[(0, put(0)), (1, put(0))]);
    assert_eq!((verdict, cell, log), (Verdict::Passed, 0, [0, 3, 0, 0, 0]));
    let (verdict, cell, log) = in_turn(&[(0, put(0)), (1, put(5))]);
    assert_eq!(race(verdict), (1, 0, AccessKind::Ww));
    assert_eq!((cell, log), (0, [0, 1, 0, 0, 0]));
    // By one thread: the first value stays 0.
    let (verdict, cell, log) = in_turn(&[(0, puts(&[0, 5]))]);
    assert_eq!((verdict, cell, log), (Verdict::Passed, 5, [0, 1, 0, 0, 1]));
    for last in [0, 5] {
        let (verdict, _, log) = in_turn(&[(0, puts(&[0, 5])), (1, put(last))]);
        assert_eq!(race(verdict), (1, 0, AccessKind::Ww));
        assert_eq!(log, [0, 1, 0, 0, 1]);
    }
    // And 0 behind another value.
    let (verdict, _, log) = in_turn(&[(0, put(5)), (1, put(0))]);
    assert_eq!(race(verdict), (1, 0, AccessKind::Ww));
    assert_eq!(log, [0, 1, 0, 5, 0]);
}

#[test]
fn all_32_bits_are_compared() {
    // The words of cells 1 and 2 are loaded; R4 is thread 0's, R5 thread 1's.
    let rows = [
        vec![set(6, 1), load(4, 6), set(6, 2), load(5, 6)],
        only(0, &[store(15, 4)]),
        only(1, &[store(15, 5)]),
    ]
    .concat();
    for bit in 0..32 {
        for word in [0, 1, 0x5555_5555, u32::MAX] {
            let other = word ^ (1 << bit);
            let (found, cells, log) = run_logged(&rows, 2, &[9, word, other], 99);
            assert_eq!(race(found.verdict), (1, 0, AccessKind::Ww), "bit {bit}");
            assert_eq!((cells[0], log[9], log[12]), (word, word, 0));
            let (found, cells, log) = run_logged(&rows, 2, &[9, word, word], 99);
            assert_eq!(found.verdict, Verdict::Passed);
            assert_eq!((cells[0], log[9], log[12]), (word, word, 0));
        }
    }
}

#[test]
fn what_is_stored_counts_and_not_what_the_cell_holds() {
    // The cell holds 77 at the start: storing 77 is a store like any other.
    let (verdict, _, log) = in_turn(&[(0, put(77)), (1, put(5))]);
    assert_eq!(race(verdict), (1, 0, AccessKind::Ww));
    assert_eq!(log, [0, 1, 0, 77, 0]);
    let (verdict, _, log) = in_turn(&[(0, put(5)), (1, put(77))]);
    assert_eq!(race(verdict), (1, 0, AccessKind::Ww));
    assert_eq!(log, [0, 1, 0, 5, 0]);
    // Thread 0 stores 5 and adds 1: the cell holds 6, but 5 was stored.
    let turn = [put(5), vec![set(3, 1), atomic_add(15, 3)]].concat();
    let (verdict, cell, log) = in_turn(&[(0, turn.clone()), (1, put(5))]);
    assert_eq!(race(verdict), (1, 0, AccessKind::Aw));
    assert_eq!((cell, log), (6, [0, 1, 1, 5, 0]));
    let (verdict, cell, log) = in_turn(&[(0, turn), (1, put(6))]);
    assert_eq!(race(verdict), (1, 0, AccessKind::Ww));
    assert_eq!((cell, log), (6, [0, 1, 1, 5, 0]));
    // It adds first: the cell holds 78 and then 5.
    let turn = [vec![set(3, 1), atomic_add(15, 3)], puts(&[5, 6])].concat();
    let (verdict, cell, log) = in_turn(&[(0, turn)]);
    assert_eq!((verdict, cell, log), (Verdict::Passed, 6, [0, 1, 1, 5, 1]));
}

#[test]
fn loads_and_adds_beside_equal_stores_stay_races() {
    for (last, kind) in [(LOAD, AccessKind::Wr), (ADD, AccessKind::Wa)] {
        let stores = [(1, put(5)), (2, put(5))];
        // By one that stored nothing, and by each that did.
        for (thread, other) in [(0, 1), (3, 1), (1, 2), (2, 1)] {
            let turns = [&stores[..], &[(thread, vec![last])]].concat();
            let (verdict, cell, log) = in_turn(&turns);
            assert_eq!(race(verdict), (u32::from(thread), other, kind));
            assert_eq!((cell, log), (5, [0, 0b110, 0, 5, 0]));
        }
    }
}

#[test]
fn a_store_beside_anothers_load_or_add_stays_a_race() {
    for (first, kind, masks) in [
        (LOAD, AccessKind::Rw, [2, 0, 0]),
        (ADD, AccessKind::Aw, [0, 0, 2]),
    ] {
        for thread in [0, 3] {
            // 77 is what the cell holds: nothing would change.
            let (verdict, cell, log) = in_turn(&[(1, vec![first]), (thread, put(77))]);
            assert_eq!(race(verdict), (u32::from(thread), 1, kind));
            // A store that is refused sets neither value nor mark.
            let [readers, writers, adders] = masks;
            assert_eq!((cell, log), (77, [readers, writers, adders, 0, 0]));
        }
    }
}

/// Reading 18. The other has stored 5 and done this besides.
#[test]
fn beside_an_equal_store_only_the_other_kinds_are_shown() {
    use AccessKind::{Aw, Rw, Ww};
    for (besides, equal, masks) in [
        (vec![LOAD], Rw, [1, 1, 0]),
        (vec![ADD], Aw, [0, 1, 1]),
        (vec![LOAD, ADD], Aw, [1, 1, 1]),
        (vec![ADD, LOAD], Aw, [1, 1, 1]),
    ] {
        for turn in [
            [put(5), besides.clone()].concat(),
            [besides.clone(), put(5)].concat(),
            [put(5), besides.clone(), put(5)].concat(),
        ] {
            let [readers, writers, adders] = masks;
            let kept = [readers, writers, adders, 5, 0];
            let (verdict, _, log) = in_turn(&[(0, turn.clone()), (2, put(5))]);
            assert_eq!((race(verdict), log), ((2, 0, equal), kept));
            let (verdict, _, log) = in_turn(&[(0, turn.clone()), (2, put(6))]);
            assert_eq!((race(verdict), log), ((2, 0, Ww), kept));
        }
        // Its own stores are unequal: they conflict whatever is stored.
        let turn = [put(5), besides, put(6)].concat();
        for last in [5, 6] {
            let (verdict, cell, log) = in_turn(&[(0, turn.clone()), (2, put(last))]);
            assert_eq!((race(verdict), cell), ((2, 0, Ww), 6));
            assert_eq!(log[3..], [5, 1]);
        }
    }
}

#[test]
fn own_loads_and_adds_are_no_conflict() {
    let turn = [put(5), vec![LOAD, ADD], put(5), vec![ADD, LOAD]].concat();
    let (verdict, cell, log) = in_turn(&[(1, turn)]);
    assert_eq!((verdict, cell, log), (Verdict::Passed, 5, [2, 2, 2, 5, 0]));
}

#[test]
fn lower_threads_of_the_row_have_stored() {
    // Threads 0 to 2 store 0, thread 3 stores 1, by one row.
    let rows = [tid(0), set(1, 3), [12, 2, 0, 1], store(15, 2)];
    let (found, cells, log) = run_logged(&rows, 4, &[9], 99);
    assert_eq!(race(found.verdict), (3, 0, AccessKind::Ww));
    assert_eq!((found.rows, found.steps), (3, vec![4, 4, 4, 3]));
    assert_eq!((cells, log), (vec![0], vec![0, 0b111, 0, 0, 0]));
    // Thread 1 is the first to differ.
    let rows = [tid(0), store(15, 0)];
    let (found, cells, log) = run_logged(&rows, 4, &[9], 99);
    assert_eq!(race(found.verdict), (1, 0, AccessKind::Ww));
    assert_eq!((found.rows, found.steps), (1, vec![2, 1, 1, 1]));
    assert_eq!((cells, log), (vec![0], vec![0, 1, 0, 0, 0]));
}

#[test]
fn both_arms_may_set_the_flag() {
    // Thread 0 takes the ELSE, behind the others.
    let arms = |other| {
        let head = [vec![tid(0), if_(0)], put(7)].concat();
        [head, vec![ELSE], put(other), vec![ENDIF]].concat()
    };
    let (found, cells, log) = run_logged(&arms(7), 3, &[9], 99);
    assert_eq!(found, outcome(Verdict::Passed, 8, &[5, 6, 6], 0));
    assert_eq!((cells, log), (vec![7], vec![0, 0b111, 0, 7, 0]));
    let (found, cells, log) = run_logged(&arms(8), 3, &[9], 99);
    assert_eq!(race(found.verdict), (0, 1, AccessKind::Ww));
    assert_eq!(found.steps, [3, 5, 5]);
    assert_eq!((cells, log), (vec![7], vec![0, 0b110, 0, 7, 0]));
}

#[test]
fn loops_may_set_the_flag_again_and_again() {
    // As many trips as the thread's number says; R2 = 3 is stored in each.
    let rows = |value: Row| {
        [
            tid(0),
            set(1, 1),
            set(2, 3),
            while_(0),
            value,
            store(15, 2),
            sub(0, 0, 1),
            ENDWHILE,
        ]
    };
    let (found, cells, log) = run_logged(&rows(set(2, 3)), 4, &[9], 99);
    let steps = [0, 1, 2, 3].map(|trips| 3 + 5 * trips + 1);
    assert_eq!(found, outcome(Verdict::Passed, 19, &steps, 0));
    assert_eq!((cells, log), (vec![3], vec![0, 0b1110, 0, 3, 0]));
    // R2 grows from trip to trip: 4 by all three, then 5 by thread 2.
    let (found, cells, log) = run_logged(&rows(add(2, 2, 1)), 4, &[9], 99);
    assert_eq!(race(found.verdict), (2, 1, AccessKind::Ww));
    assert_eq!((cells, log), (vec![4], vec![0, 0b1110, 0, 4, 0]));
    // For one thread alone that is its own affair.
    let (found, cells, log) = run_logged(&rows(add(2, 2, 1)), 2, &[9], 99);
    assert_eq!(found.verdict, Verdict::Passed);
    assert_eq!((cells, log), (vec![4], vec![0, 0b10, 0, 4, 0]));
}

#[test]
fn each_interval_has_values_of_its_own() {
    // R1 from 5 down to 1: all threads store it, then a barrier.
    let rows = [
        set(1, 5),
        set(2, 1),
        while_(1),
        store(15, 1),
        BARRIER,
        sub(1, 1, 2),
        ENDWHILE,
    ];
    let (found, cells, log) = run_logged(&rows, 3, &[9], 99);
    // Each trip is WHILE, STORE, SUB and ENDWHILE; WHILE is stepped once more.
    let steps = [2 + 4 * 5 + 1; 3];
    assert_eq!(found, outcome(Verdict::Passed, 28, &steps, 5));
    assert_eq!((cells, log), (vec![1], vec![0; 5]));
    // Without the barrier, 4 behind 5 is a race.
    let rows = [&rows[..4], &rows[5..]].concat();
    let (found, cells, log) = run_logged(&rows, 3, &[9], 99);
    assert_eq!(race(found.verdict), (0, 1, AccessKind::Ww));
    assert_eq!((cells, log), (vec![5], vec![0, 0b111, 0, 5, 0]));
}

/// What cell 0 and its log are after two turns with a barrier between.
fn parted(first: (u16, &[u16]), later: &[(u16, &[u16])]) -> (Verdict, [u32; 5]) {
    let turn = |&(thread, values): &(u16, &[u16])| only(thread, &puts(values));
    let later: Vec<Row> = later.iter().flat_map(turn).collect();
    let rows = [turn(&first), vec![BARRIER], later].concat();
    let (found, _, log) = run_logged(&rows, 4, &[77], 999);
    (found.verdict, log.try_into().unwrap())
}

#[test]
fn a_barrier_clears_values_and_marks() {
    let passed = |log| (Verdict::Passed, log);
    assert_eq!(parted((0, &[5]), &[]), passed([0; 5]));
    assert_eq!(parted((0, &[5, 6]), &[]), passed([0; 5]));
    assert_eq!(parted((0, &[5]), &[(1, &[6])]), passed([0, 2, 0, 6, 0]));
    assert_eq!(parted((0, &[5]), &[(1, &[0])]), passed([0, 2, 0, 0, 0]));
    // A mark from before the barrier counts no longer.
    let flag: &[(u16, &[u16])] = &[(0, &[5]), (1, &[5]), (2, &[5])];
    assert_eq!(parted((0, &[5, 6]), flag), passed([0, 7, 0, 5, 0]));
    // Nor does a value: 5 and 6 by one thread are unequal among themselves.
    assert_eq!(parted((0, &[6]), &[(1, &[5, 6])]), passed([0, 2, 0, 5, 1]));
    let (verdict, log) = parted((0, &[6]), &[(1, &[5]), (2, &[6])]);
    assert_eq!(race(verdict), (2, 1, AccessKind::Ww));
    assert_eq!(log, [0, 2, 0, 5, 0]);
}

#[test]
fn a_skipped_barrier_clears_neither() {
    let skipped = [if_(15), BARRIER, ENDIF];
    let rows = |values: &[u16], last| {
        let first = only(0, &puts(values));
        [first, skipped.to_vec(), only(1, &put(last))].concat()
    };
    let (found, _, log) = run_logged(&rows(&[5], 5), 2, &[77], 99);
    assert_eq!(found.verdict, Verdict::Passed);
    assert_eq!(log, [0, 3, 0, 5, 0]);
    let (found, _, log) = run_logged(&rows(&[5], 6), 2, &[77], 99);
    assert_eq!(race(found.verdict), (1, 0, AccessKind::Ww));
    assert_eq!(log, [0, 1, 0, 5, 0]);
    let (found, _, log) = run_logged(&rows(&[6, 5], 5), 2, &[77], 99);
    assert_eq!(race(found.verdict), (1, 0, AccessKind::Ww));
    assert_eq!(log, [0, 1, 0, 6, 1]);
}

#[test]
fn a_barrier_that_stops_the_run_leaves_both() {
    // Thread 1 stores 5 and 6 and comes to the barrier alone.
    let rows = only(1, &[puts(&[5, 6]), vec![BARRIER]].concat());
    let (found, cells, log) = run_logged(&rows, 2, &[77], 99);
    assert!(matches!(found.verdict, Verdict::Diverged { row: 8, .. }));
    assert_eq!((cells, log), (vec![6], vec![0, 2, 0, 5, 1]));
}

#[test]
fn a_limit_leaves_both() {
    let rows = only(1, &puts(&[5, 6, 7]));
    for (limit, cell, log) in [
        (5, 77, [0, 0, 0, 0, 0]),
        (6, 5, [0, 2, 0, 5, 0]),
        (7, 5, [0, 2, 0, 5, 0]),
        (8, 6, [0, 2, 0, 5, 1]),
        (10, 7, [0, 2, 0, 5, 1]),
    ] {
        let (_, cells, found) = run_logged(&rows, 2, &[77], limit);
        assert_eq!((cells[0], &found[..]), (cell, &log[..]), "limit {limit}");
    }
}

#[test]
fn values_come_before_marks_and_both_behind_the_adders() {
    // Cell t = 10 + t by thread t; then thread 1 stores 1 in cell 1, thread 3
    // adds to cell 3, and thread 0 loads cell 0.
    let rows = [
        vec![tid(0), set(1, 10), add(2, 0, 1), store(0, 2)],
        only(1, &[store(0, 0)]),
        only(3, &[atomic_add(0, 1)]),
        only(0, &[load(3, 0)]),
    ]
    .concat();
    let (found, cells, log) = run_logged(&rows, 4, &[7; 5], 99);
    assert_eq!(found.verdict, Verdict::Passed);
    assert_eq!(cells, [10, 1, 12, 23, 7]);
    assert_eq!(log[..5], [1, 0, 0, 0, 0]); // readers
    assert_eq!(log[5..10], [1, 2, 4, 8, 0]); // writers
    assert_eq!(log[10..15], [0, 0, 0, 8, 0]); // adders
    assert_eq!(log[15..20], [10, 11, 12, 13, 0]); // first values
    assert_eq!(log[20..], [0, 1, 0, 0, 0]); // marks
}

#[test]
fn each_cell_has_a_value_and_a_mark_of_its_own() {
    // All threads store the cell's number plus 1 in each of 64 cells, from the
    // last to the first; then thread 2 stores 9 in cell 40 of its own interval.
    let sweep = |value: Row| {
        vec![
            set(1, 1),
            set(2, 64),
            while_(2),
            sub(3, 2, 1),
            value,
            store(3, 4),
            sub(2, 2, 1),
            ENDWHILE,
        ]
    };
    let (found, cells, log) = run_logged(&sweep(add(4, 2, 15)), 3, &[7; 64], 999);
    assert_eq!(found.verdict, Verdict::Passed);
    let numbers: Vec<u32> = (1..=64).collect();
    assert_eq!((&cells, &log[192..256]), (&numbers, &numbers[..]));
    assert_eq!(log[64..128], [7; 64]);
    assert!(log[256..].iter().all(|&mark| mark == 0));
    let alone = only(2, &[set(5, 40), set(6, 9), store(5, 6), store(5, 5)]);
    let rows = [sweep(add(4, 2, 15)), vec![BARRIER], alone].concat();
    let (found, cells, log) = run_logged(&rows, 3, &[7; 64], 999);
    assert_eq!(found.verdict, Verdict::Passed);
    assert_eq!((cells[39], cells[40], cells[41]), (40, 40, 42));
    let used: Vec<(usize, u32)> = (log.iter().copied().enumerate())
        .filter(|&(_, word)| word != 0)
        .collect();
    assert_eq!(used, [(64 + 40, 4), (192 + 40, 9), (256 + 40, 1)]);
}

#[test]
fn outside_comes_before_all() {
    // Thread 0 stores 5 and 6 in cell 0; thread 1 stores 5 in cell 0 or 1.
    let rows = |at| [only(0, &puts(&[5, 6])), only(1, &[set(3, at), store(3, 2)])].concat();
    let (found, _, log) = run_logged(&rows(1), 2, &[77], 99);
    let outside = Verdict::Outside {
        row: 14,
        thread: 1,
        at: 1,
    };
    assert_eq!(found.verdict, outside);
    assert_eq!(log, [0, 1, 0, 5, 1]);
    let (found, _, log) = run_logged(&rows(0), 2, &[77], 99);
    assert_eq!(race(found.verdict), (1, 0, AccessKind::Ww));
    assert_eq!(log, [0, 1, 0, 5, 1]);
}

/// The report of a file of these rows, with two threads and a cell of 0, and
/// the first words of the log.
fn reported(rows: &[Row]) -> (String, Vec<u32>) {
    let (mut cells, mut log) = (vec![5; LENT_CELLS], vec![6; LENT_LOG]);
    let (mut list, mut out) = (vec![JUNK; INTERVAL_WORDS], vec![b'?'; REPORT_ROOM]);
    let text = file(rows);
    let len =
        check_without_global(text.as_bytes(), &mut cells, &mut log, &mut list, &mut out).unwrap();
    assert_eq!(log[5..8], [0; 3]);
    assert!(log[8..].iter().all(|&word| word == 6));
    let report = String::from_utf8(out[..len].to_vec()).unwrap();
    (report, log[..5].to_vec())
}

#[test]
fn files_print_the_flag_and_pack_the_log() {
    let (report, log) = reported(&put(3));
    let expected =
        "verdict=passed\nrow=-\ngroup=-\nothergroup=-\nthread=-\nother=-\nkind=-\nat=-\n\
        rows=2\nsteps=2\nsteps=2\nbarriers=0\nconflicts=0\ncell=3\nend=report\n";
    assert_eq!((report.as_str(), log), (expected, vec![0, 3, 0, 3, 0]));
}

#[test]
fn files_print_the_kind() {
    // Thread 1 in the arm, then both, thread 0 first: 1 is stored by each.
    for (besides, other, kind, log) in [
        (LOAD, 1, "rw", [2, 2, 0, 1, 0]),
        (ADD, 1, "aw", [0, 2, 2, 1, 0]),
        (store(15, 4), 1, "ww", [0, 2, 0, 1, 1]),
    ] {
        let rows = [
            tid(0),
            set(2, 1),
            if_(0),
            store(15, 2),
            besides,
            ENDIF,
            store(15, 2),
        ];
        let (report, found) = reported(&rows);
        let cell = u32::from(besides != store(15, 4));
        let expected = format!(
            "verdict=race\nrow=6\ngroup=0\nothergroup=0\nthread=0\nother={other}\nkind={kind}\nat=0\n\
             rows=6\nsteps=4\nsteps=6\nbarriers=0\nconflicts=0\ncell={cell}\nend=report\n"
        );
        assert_eq!((report, &found[..]), (expected, &log[..]));
    }
}
