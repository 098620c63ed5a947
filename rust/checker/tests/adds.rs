//! Item 1, ATOMIC ADD: what it does, what it conflicts with, and its log.

mod common;

use checker::{AccessKind, Verdict, INTERVAL_WORDS, LENT_CELLS, LENT_LOG, REPORT_ROOM};
use common::*;

/// Rows for one thread alone; R0 is then the thread's number.
fn only(thread: u16, rows: &[Row]) -> Vec<Row> {
    let mine = [tid(0), set(9, thread), [12, 9, 0, 9], if_(9)];
    [mine.as_slice(), rows, &[ENDIF]].concat()
}

/// Accesses to cell 0, whose number is in R15: R15 is never set.
const LOAD: Row = [16, 1, 15, 0];
const STORE: Row = [17, 15, 0, 0];
const ADD: Row = [18, 15, 0, 0];

/// How `last`, done by thread 1 alone, meets what thread 0 has done before.
fn meets(earlier: &[Row], last: Row) -> Verdict {
    let rows = [only(0, earlier), only(1, &[last])].concat();
    run(&rows, 2, &[7], 99).0.verdict
}

/// Thread 1 meets thread 0 at cell 0 by this kind.
fn race(earlier: &[Row], kind: AccessKind) -> Verdict {
    Verdict::Race {
        row: earlier.len() as u32 + 9,
        other_group: 0,
        thread: 1,
        other: Some(0),
        kind,
        at: 0,
    }
}

fn assert_race(earlier: &[Row], last: Row, kind: AccessKind) {
    assert_eq!(meets(earlier, last), race(earlier, kind), "{earlier:?}");
}

#[test]
fn adds_of_all_threads_to_one_cell_pass() {
    // Cell 1 grows by 0 + 1 + .. + 31 = 496.
    let rows = [tid(0), set(1, 1), atomic_add(1, 0)];
    let (found, cells, log) = run_logged(&rows, 32, &[5, 6, 7], 9);
    assert_eq!(found, outcome(Verdict::Passed, 3, &[3; 32], 0));
    assert_eq!(cells, [5, 502, 7]);
    assert_eq!(log[..9], [0, 0, 0, 0, 0, 0, 0, u32::MAX, 0]);
    // An add is no store: no first values, no marks.
    assert_eq!(log[9..], [0; 6]);
}

#[test]
fn adds_to_own_cells_pass() {
    // Cell[thread] grows by thread + 1.
    let rows = [tid(0), set(1, 1), add(2, 0, 1), atomic_add(0, 2)];
    let (found, cells, log) = run_logged(&rows, 3, &[10, 20, 30, 40], 9);
    assert_eq!(found, outcome(Verdict::Passed, 4, &[4; 3], 0));
    assert_eq!(cells, [11, 22, 33, 40]);
    assert_eq!(log[..12], [0, 0, 0, 0, 0, 0, 0, 0, 1, 2, 4, 0]);
    assert_eq!(log[12..], [0; 8]);
}

#[test]
fn an_add_wraps_at_2_32() {
    // R2 = 2^32 - 1, by way of 0 - 1.
    let most = [set(1, 1), sub(2, 15, 1)];
    for (start, end) in [
        (0, u32::MAX),
        (1, 0),
        (u32::MAX, u32::MAX - 1),
        (1 << 31, (1 << 31) - 1),
    ] {
        let rows = [most.as_slice(), &[atomic_add(15, 2)]].concat();
        assert_eq!(run(&rows, 1, &[start], 9).1, [end]);
    }
    // Three adds of 2^32 - 1 take 3 away.
    let rows = [most.as_slice(), &[atomic_add(15, 2)]].concat();
    assert_eq!(run(&rows, 3, &[1], 9).1, [u32::MAX - 1]);
}

#[test]
fn an_add_of_0_is_an_add() {
    let (found, cells, log) = run_logged(&[atomic_add(15, 14)], 2, &[9], 9);
    assert_eq!(found.verdict, Verdict::Passed);
    assert_eq!((cells, log), (vec![9], vec![0, 0, 3, 0, 0]));
    assert_race(&[[18, 15, 14, 0]], LOAD, AccessKind::Ar);
}

#[test]
fn an_add_changes_no_register() {
    // Both registers are kept in cells of their own after the add.
    let rows = [
        set(1, 2),
        set(2, 5),
        atomic_add(1, 2),
        store(15, 1),
        set(3, 1),
        store(3, 2),
    ];
    let (found, cells) = run(&rows, 1, &[0, 0, 100], 9);
    assert_eq!(found, outcome(Verdict::Passed, 6, &[6], 0));
    assert_eq!(cells, [2, 5, 105]);
}

#[test]
fn one_register_may_be_number_and_amount() {
    let rows = [set(4, 1), atomic_add(4, 4)];
    assert_eq!(run(&rows, 2, &[7, 7], 9).1, [7, 9]);
}

#[test]
fn each_of_the_seven_kinds() {
    for (earlier, last, kind) in [
        (LOAD, STORE, AccessKind::Rw),
        (STORE, LOAD, AccessKind::Wr),
        (STORE, STORE, AccessKind::Ww),
        (LOAD, ADD, AccessKind::Ra),
        (ADD, LOAD, AccessKind::Ar),
        (STORE, ADD, AccessKind::Wa),
        (ADD, STORE, AccessKind::Aw),
    ] {
        assert_race(&[earlier], last, kind);
    }
    assert_eq!(meets(&[ADD], ADD), Verdict::Passed);
    assert_eq!(meets(&[LOAD], LOAD), Verdict::Passed);
}

#[test]
fn a_store_shows_a_write_before_an_add_before_a_read() {
    assert_race(&[ADD, LOAD], STORE, AccessKind::Aw);
    assert_race(&[LOAD, ADD], STORE, AccessKind::Aw);
    assert_race(&[STORE, ADD], STORE, AccessKind::Ww);
    assert_race(&[ADD, STORE], STORE, AccessKind::Ww);
    assert_race(&[STORE, LOAD], STORE, AccessKind::Ww);
    assert_race(&[ADD, LOAD, STORE], STORE, AccessKind::Ww);
}

#[test]
fn a_load_shows_a_write_before_an_add() {
    assert_race(&[STORE, ADD], LOAD, AccessKind::Wr);
    assert_race(&[ADD, STORE], LOAD, AccessKind::Wr);
    assert_race(&[STORE, LOAD], LOAD, AccessKind::Wr);
    assert_race(&[ADD, LOAD], LOAD, AccessKind::Ar);
    assert_race(&[LOAD, ADD, STORE], LOAD, AccessKind::Wr);
}

#[test]
fn an_add_shows_a_write_before_a_read_and_never_an_add() {
    assert_race(&[STORE, ADD, LOAD], ADD, AccessKind::Wa);
    assert_race(&[STORE, LOAD], ADD, AccessKind::Wa);
    assert_race(&[LOAD, STORE], ADD, AccessKind::Wa);
    assert_race(&[STORE, ADD], ADD, AccessKind::Wa);
    assert_race(&[ADD, LOAD], ADD, AccessKind::Ra);
    assert_race(&[LOAD, ADD], ADD, AccessKind::Ra);
}

#[test]
fn the_lowest_conflicting_thread_is_named() {
    for (earlier, last, kind) in [
        (LOAD, ADD, AccessKind::Ra),
        (LOAD, STORE, AccessKind::Rw),
        (ADD, LOAD, AccessKind::Ar),
        (ADD, STORE, AccessKind::Aw),
    ] {
        // Threads 1, 2 and 4 of five were there before.
        let before = [1, 2, 4].map(|thread| only(thread, &[earlier])).concat();
        for (thread, other) in [(0, 1), (1, 2), (2, 1), (3, 1), (4, 1)] {
            let rows = [before.clone(), only(thread, &[last])].concat();
            let race = Verdict::Race {
                row: 22,
                other_group: 0,
                thread: u32::from(thread),
                other: Some(other),
                kind,
                at: 0,
            };
            assert_eq!(run(&rows, 5, &[7], 99).0.verdict, race);
        }
    }
}

#[test]
fn each_cell_has_masks_of_its_own() {
    // Thread 1 loads cell 1; then all add to cell 0.
    let rows = [only(1, &[load(1, 0)]), vec![ADD]].concat();
    let (found, cells, log) = run_logged(&rows, 2, &[7, 8], 99);
    assert_eq!((found.verdict, cells), (Verdict::Passed, vec![8, 8]));
    assert_eq!(log, [0, 2, 0, 0, 3, 0, 0, 0, 0, 0]);
}

#[test]
fn own_earlier_accesses_are_no_conflict() {
    for earlier in [LOAD, STORE, ADD] {
        for last in [LOAD, STORE, ADD] {
            let rows = only(1, &[earlier, last]);
            let (found, _, log) = run_logged(&rows, 2, &[7], 99);
            assert_eq!(found.verdict, Verdict::Passed);
            let mask = |access: Row| 2 * u32::from(earlier == access || last == access);
            assert_eq!(log[..3], [LOAD, STORE, ADD].map(mask));
            // Thread 1 stores 1, once or twice.
            let stored = u32::from(earlier == STORE || last == STORE);
            assert_eq!(log[3..], [stored, 0]);
        }
    }
}

#[test]
fn an_own_access_beside_anothers_is_still_a_conflict() {
    // Both threads add; then thread 1, which added as well, loads or stores.
    let rows = [vec![tid(0), ADD], only(1, &[LOAD])].concat();
    let by = |kind| Verdict::Race {
        row: 6,
        other_group: 0,
        thread: 1,
        other: Some(0),
        kind,
        at: 0,
    };
    assert_eq!(run(&rows, 2, &[7], 99).0.verdict, by(AccessKind::Ar));
    let rows = [vec![tid(0), ADD], only(1, &[STORE])].concat();
    assert_eq!(run(&rows, 2, &[7], 99).0.verdict, by(AccessKind::Aw));
}

#[test]
fn a_barrier_clears_the_adders() {
    for last in [LOAD, STORE, ADD] {
        let rows = [only(0, &[ADD]), vec![BARRIER], only(1, &[last])].concat();
        let (found, _, log) = run_logged(&rows, 2, &[7], 99);
        assert_eq!((found.verdict, found.barriers), (Verdict::Passed, 1));
        let mask = |access: Row| 2 * u32::from(last == access);
        assert_eq!(log[..3], [LOAD, STORE, ADD].map(mask));
        assert_eq!(log[3..], [u32::from(last == STORE), 0]);
    }
    let rows = [only(0, &[LOAD, STORE, ADD]), vec![BARRIER]].concat();
    assert_eq!(run_logged(&rows, 2, &[7], 99).2, [0; 5]);
}

#[test]
fn a_skipped_barrier_leaves_the_adders() {
    let skipped = vec![if_(15), BARRIER, ENDIF];
    let rows = [only(0, &[ADD]), skipped, only(1, &[LOAD])].concat();
    let race = Verdict::Race {
        row: 13,
        other_group: 0,
        thread: 1,
        other: Some(0),
        kind: AccessKind::Ar,
        at: 0,
    };
    assert_eq!(run(&rows, 2, &[7], 99).0.verdict, race);
}

#[test]
fn outside_is_told_by_rd() {
    // Rd is a cell's number and Ra is far off: inside.
    let rows = [set(1, 1), set(2, 999), atomic_add(1, 2)];
    let (found, cells) = run(&rows, 1, &[1, 2], 9);
    assert_eq!((found.verdict, cells), (Verdict::Passed, vec![1, 1_001]));
    // The other way round: outside, and nothing is added or logged.
    let rows = [set(1, 1), set(2, 999), atomic_add(2, 1)];
    let outside = Verdict::Outside {
        row: 2,
        thread: 0,
        at: 999,
    };
    let (found, cells, log) = run_logged(&rows, 1, &[1, 2], 9);
    assert_eq!((found, cells), (outcome(outside, 2, &[2], 0), vec![1, 2]));
    assert_eq!(log, [0; 10]);
}

#[test]
fn the_first_number_behind_the_cells_is_outside() {
    let rows = [tid(0), set(1, 1), atomic_add(0, 1)];
    let passed = outcome(Verdict::Passed, 3, &[3; 3], 0);
    assert_eq!(run(&rows, 3, &[0; 3], 9), (passed, vec![1; 3]));
    let outside = Verdict::Outside {
        row: 2,
        thread: 2,
        at: 2,
    };
    // The lower threads have added, stepped and entered their masks.
    let (found, cells, log) = run_logged(&rows, 3, &[0; 2], 9);
    assert_eq!(
        (found, cells),
        (outcome(outside, 2, &[3, 3, 2], 0), vec![1, 1])
    );
    assert_eq!(log, [0, 0, 0, 0, 1, 2, 0, 0, 0, 0]);
}

#[test]
fn outside_comes_before_a_race() {
    // Thread 1 adds to a cell 0 that thread 0 has loaded, or outside.
    let rows = |number: u16| [only(0, &[LOAD]), only(1, &[set(2, number), [18, 2, 0, 0]])].concat();
    let race = Verdict::Race {
        row: 11,
        other_group: 0,
        thread: 1,
        other: Some(0),
        kind: AccessKind::Ra,
        at: 0,
    };
    assert_eq!(run(&rows(0), 2, &[7], 99).0.verdict, race);
    let outside = Verdict::Outside {
        row: 11,
        thread: 1,
        at: 1,
    };
    assert_eq!(run(&rows(1), 2, &[7], 99).0.verdict, outside);
}

#[test]
fn a_racing_add_is_neither_made_nor_logged() {
    // Thread 1 has loaded cell 0; all three then add, thread 0 first.
    let rows = [only(1, &[LOAD]), vec![set(2, 5), atomic_add(15, 2)]].concat();
    let race = Verdict::Race {
        row: 7,
        other_group: 0,
        thread: 0,
        other: Some(1),
        kind: AccessKind::Ra,
        at: 0,
    };
    let (found, cells, log) = run_logged(&rows, 3, &[10], 99);
    // TID, SET, EQ, IF and ENDIF and SET by all three, LOAD by one.
    assert_eq!(found, outcome(race, 7, &[6, 7, 6], 0));
    assert_eq!((cells, log), (vec![10], vec![2, 0, 0, 0, 0]));
    // If thread 0 has loaded it, its own add is made, thread 1's is not.
    let rows = [only(0, &[LOAD]), vec![set(2, 5), atomic_add(15, 2)]].concat();
    let race = Verdict::Race {
        row: 7,
        other_group: 0,
        thread: 1,
        other: Some(0),
        kind: AccessKind::Ra,
        at: 0,
    };
    let (found, cells, log) = run_logged(&rows, 3, &[10], 99);
    assert_eq!(found, outcome(race, 7, &[8, 6, 6], 0));
    assert_eq!((cells, log), (vec![15], vec![1, 0, 1, 0, 0]));
}

#[test]
fn some_threads_add_and_the_others_do_not() {
    // Threads 1 and 3 of four add their number to cell 2.
    let rows = [
        tid(0),
        set(1, 1),
        [7, 2, 0, 1],
        set(3, 2),
        if_(2),
        atomic_add(3, 0),
        ENDIF,
    ];
    let (found, cells, log) = run_logged(&rows, 4, &[1; 3], 9);
    assert_eq!(found, outcome(Verdict::Passed, 7, &[6, 7, 6, 7], 0));
    assert_eq!((cells, &log[6..9]), (vec![1, 1, 5], &[0, 0, 0b1010][..]));
    assert_eq!(log[9..], [0; 6]);
}

#[test]
fn an_add_with_nobody_enabled_is_a_row_only() {
    let rows = [if_(15), ADD, ENDIF];
    let (found, cells, log) = run_logged(&rows, 2, &[7], 9);
    assert_eq!(found, outcome(Verdict::Passed, 3, &[2, 2], 0));
    assert_eq!((cells, log), (vec![7], vec![0; 5]));
}

/// The report of a file of these rows, with two threads and a cell of 0, and
/// the first words of cells and log.
fn reported(rows: &[Row]) -> (String, Vec<u32>, Vec<u32>) {
    let (mut cells, mut log) = (vec![5; LENT_CELLS], vec![6; LENT_LOG]);
    let (mut list, mut out) = (vec![JUNK; INTERVAL_WORDS], vec![b'?'; REPORT_ROOM]);
    let text = file(rows);
    let len =
        check_without_global(text.as_bytes(), &mut cells, &mut log, &mut list, &mut out).unwrap();
    let report = String::from_utf8(out[..len].to_vec()).unwrap();
    (report, cells[..2].to_vec(), log[..9].to_vec())
}

#[test]
fn files_print_the_sum_and_pack_the_log() {
    let (report, cells, log) = reported(&[set(1, 3), atomic_add(15, 1)]);
    let expected =
        "verdict=passed\nrow=-\ngroup=-\nothergroup=-\nthread=-\nother=-\nkind=-\nat=-\n\
        rows=2\nsteps=2\nsteps=2\nbarriers=0\nconflicts=0\ncell=6\nend=report\n";
    assert_eq!(report, expected);
    // One reader mask, one writer mask, one adder mask, a value and a mark, and
    // the rest is kept.
    assert_eq!((cells, log), (vec![6, 5], vec![0, 0, 3, 0, 0, 0, 0, 0, 6]));
}

#[test]
fn files_print_the_kind() {
    // Both threads add, and both then load or store: thread 0 is first.
    for (row, kind) in [(LOAD, "ar"), (STORE, "aw")] {
        let (report, cells, log) = reported(&[tid(0), ADD, row]);
        let expected = format!(
            "verdict=race\nrow=2\ngroup=0\nothergroup=0\nthread=0\nother=1\nkind={kind}\nat=0\n\
             rows=2\nsteps=2\nsteps=2\nbarriers=0\nconflicts=0\ncell=1\nend=report\n"
        );
        assert_eq!(report, expected);
        assert_eq!((cells, log), (vec![1, 5], vec![0, 0, 3, 0, 0, 0, 0, 0, 6]));
    }
    let (report, _, log) = reported(&[LOAD, ADD]);
    assert!(report.starts_with(
        "verdict=race\nrow=1\ngroup=0\nothergroup=0\nthread=0\nother=1\nkind=ra\nat=0\n"
    ));
    assert_eq!(log, [3, 0, 0, 0, 0, 0, 0, 0, 6]);
    let alone = [tid(0), if_(0), STORE, ENDIF, ADD];
    let (report, _, log) = reported(&alone);
    assert!(report.starts_with(
        "verdict=race\nrow=4\ngroup=0\nothergroup=0\nthread=0\nother=1\nkind=wa\nat=0\n"
    ));
    assert_eq!(log, [0, 2, 0, 1, 0, 0, 0, 0, 6]);
}
