//! Item 7: groups, launch numbers and global cells.

mod common;

use checker::{
    bare_launch, check_file, observed_launch, parse_file, write_report, AccessKind, Outcome,
    Refusal, Subject, Verdict, INTERVAL_WORDS, LENT_CELLS, LENT_GLOBAL, LENT_LOG,
    MAX_LAUNCH_THREADS, REPORT_ROOM,
};
use common::*;

/// What a launch of several groups came to, and what it left.
struct Left {
    outcome: Outcome,
    steps: Vec<u32>,
    cells: Vec<u32>,
    global: Vec<u32>,
    /// One list of words for each of the eight kinds.
    log: Vec<Vec<u32>>,
    records: Vec<[u32; 3]>,
}

/// Runs a launch with buffers that fit; of the list all words behind the records
/// must be kept, and of the steps all behind the last launch number be 0.
fn launch(
    rows: &[Row],
    (groups, threads): (u32, u32),
    cells: &[u32],
    global: &[u32],
    limit: u32,
) -> Left {
    let (mut own, mut shared) = (cells.to_vec(), global.to_vec());
    let all = own.len() + shared.len();
    let (mut log, mut list) = (vec![JUNK; 8 * all], vec![JUNK; INTERVAL_WORDS + 3]);
    let mut steps = [JUNK; MAX_LAUNCH_THREADS];
    let ran = bare_launch(
        &rows.concat(),
        threads,
        cells.len() as u32 / groups,
        groups,
        global.len() as u32,
        limit,
        &mut own,
        &mut shared,
        &mut log,
        &mut list,
        &mut steps,
    );
    let outcome = ran.expect("a launch that isn't refused");
    let (steps, behind) = steps.split_at((groups * threads) as usize);
    assert!(behind.iter().all(|&word| word == 0));
    let used = 1_025.min((outcome.group + 1 + outcome.barriers) as usize);
    let (records, kept) = list.split_at(3 * used);
    assert!(kept.iter().all(|&word| word == JUNK));
    Left {
        outcome,
        steps: steps.to_vec(),
        cells: own,
        global: shared,
        log: log.chunks(all).map(<[u32]>::to_vec).collect(),
        records: records.as_chunks().0.to_vec(),
    }
}

/// Rows by one thread of the launch, whose number is in R2.
fn by(thread: u16, rows: &[Row]) -> Vec<Row> {
    let condition = [set(14, thread), [12, 13, 2, 14], if_(13)];
    [&condition, rows, &[ENDIF]].concat()
}

/// R2 is the launch number; then each of these by one thread, at global cell 0.
fn in_turn(turns: &[(u16, Row)]) -> Vec<Row> {
    let mut rows = vec![launch_number(2), set(1, 1)];
    for &(thread, row) in turns {
        rows.extend(by(thread, &[row]));
    }
    rows
}

const LOAD: Row = [20, 3, 0, 0];
/// Stores 1.
const STORE: Row = [21, 0, 1, 0];
/// Stores the launch number.
const STORE_NUMBER: Row = [21, 0, 2, 0];
const ADD: Row = [22, 0, 1, 0];

#[test]
fn numbers_in_the_group_and_in_the_launch() {
    let rows = [
        tid(0),
        launch_number(2),
        [3, 4, 0, 0],
        store(0, 2),
        add(5, 0, 4),
        store(5, 4),
        global_store(2, 0),
    ];
    let left = launch(&rows, (3, 2), &[9; 12], &[9; 6], 99);
    assert_eq!(left.outcome.verdict, Verdict::Passed);
    assert_eq!((left.outcome.group, left.outcome.rows), (2, 21));
    assert_eq!(left.cells, [0, 1, 2, 2, 2, 3, 2, 2, 4, 5, 2, 2]);
    assert_eq!(left.global, [0, 1, 0, 1, 0, 1]);
    assert_eq!(left.steps, [7; 6]);
    assert_eq!(left.records, [[0, 7, 0]; 3]);
}

#[test]
fn eight_groups_of_32_threads() {
    let rows = [
        launch_number(2),
        set(3, 1),
        global_add(15, 2),
        [3, 4, 0, 0],
        if_(2),
        ENDIF,
    ];
    let left = launch(&rows, (8, 32), &[0; 8], &[0], 99);
    assert_eq!(left.outcome.verdict, Verdict::Passed);
    assert_eq!(left.global, [255 * 256 / 2]);
    assert_eq!(left.steps, [6; 256]);
    assert_eq!((left.log[2][8], left.log[7][8]), (u32::MAX, 0xff));
}

#[test]
fn own_cells_are_the_groups_own() {
    let rows = [tid(0), load(1, 0), add(1, 1, 1), store(0, 1)];
    let left = launch(&rows, (2, 2), &[1, 2, 30, 40], &[], 99);
    assert_eq!(left.cells, [2, 4, 60, 80]);
    assert_eq!(left.log[0], [1, 2, 1, 2]);
    assert_eq!(left.log[1], [1, 2, 1, 2]);
    assert_eq!(left.log[3], [2, 4, 60, 80]);
    for kind in [2, 4, 5, 6, 7] {
        assert_eq!(left.log[kind], [0; 4]);
    }
}

#[test]
fn registers_start_anew() {
    let rows = [set(1, 7), add(2, 2, 1), store(15, 2)];
    let left = launch(&rows, (3, 1), &[0; 3], &[], 99);
    assert_eq!(left.cells, [7; 3]);
}

/// The race of a launch of 3 groups of 2 threads, with one own cell each and one
/// global cell; none where it passes.
fn met(rows: &[Row]) -> Option<(u32, u32, u32, Option<u32>, AccessKind)> {
    match launch(rows, (3, 2), &[0; 3], &[5], 999).outcome {
        Outcome {
            verdict:
                Verdict::Race {
                    other_group,
                    thread,
                    other,
                    kind,
                    at: 0,
                    ..
                },
            group,
            ..
        } => Some((group, other_group, thread, other, kind)),
        outcome => {
            assert_eq!(outcome.verdict, Verdict::Passed);
            None
        }
    }
}

#[test]
fn two_groups_conflict_unless_both_load_or_both_add() {
    use AccessKind::*;
    for (first, second, kind) in [
        (LOAD, LOAD, None),
        (ADD, ADD, None),
        (LOAD, STORE, Some(Rw)),
        (LOAD, ADD, Some(Ra)),
        (STORE, LOAD, Some(Wr)),
        (STORE, STORE, Some(Ww)), // though they are equal
        (STORE, ADD, Some(Wa)),
        (ADD, LOAD, Some(Ar)),
        (ADD, STORE, Some(Aw)),
    ] {
        let rows = in_turn(&[(1, first), (4, second)]);
        let expected = kind.map(|kind| (2, 0, 0, None, kind));
        assert_eq!(met(&rows), expected);
        // No barrier parts them, before, between or behind.
        for at in [2, 7, 12] {
            let mut parted = rows.clone();
            parted.insert(at, BARRIER);
            assert_eq!(met(&parted), expected);
        }
        // Where the table has them the other way round, group 0 is still first.
        assert_eq!(met(&in_turn(&[(4, second), (1, first)])), expected);
    }
}

#[test]
fn the_letter_is_w_before_a_before_r() {
    use AccessKind::*;
    let barrier = |turns: &[(u16, Row)]| {
        let mut rows = vec![launch_number(2), set(1, 1)];
        for &(thread, row) in turns {
            rows.extend(by(thread, &[row]));
            rows.push(BARRIER);
        }
        met(&rows).map(|(.., kind)| kind)
    };
    let all = [(0, LOAD), (1, ADD), (0, STORE)];
    assert_eq!(barrier(&[&all[..], &[(2, STORE)]].concat()), Some(Ww));
    assert_eq!(barrier(&[&all[..], &[(2, LOAD)]].concat()), Some(Wr));
    assert_eq!(barrier(&[&all[..], &[(2, ADD)]].concat()), Some(Wa));
    assert_eq!(barrier(&[&all[..2], &[(2, STORE)]].concat()), Some(Aw));
    // Only what conflicts is shown.
    assert_eq!(barrier(&[&all[..2], &[(2, LOAD)]].concat()), Some(Ar));
    assert_eq!(barrier(&[&all[..2], &[(2, ADD)]].concat()), Some(Ra));
}

#[test]
fn the_lowest_group_is_named_without_a_thread() {
    let rows = in_turn(&[(3, LOAD), (0, LOAD), (5, LOAD), (4, STORE)]);
    // The own group's conflict, with thread 1, comes first.
    assert_eq!(met(&rows), Some((2, 2, 0, Some(1), AccessKind::Rw)));
    let rows = in_turn(&[(3, LOAD), (0, LOAD), (4, LOAD), (4, STORE)]);
    assert_eq!(met(&rows), Some((2, 0, 0, None, AccessKind::Rw)));
    let rows = in_turn(&[(3, LOAD), (4, STORE)]);
    assert_eq!(met(&rows), Some((2, 1, 0, None, AccessKind::Rw)));
    // Behind a barrier only the other group is met.
    let mut rows = in_turn(&[(3, LOAD), (5, LOAD)]);
    rows.push(BARRIER);
    rows.extend(by(4, &[STORE]));
    assert_eq!(met(&rows), Some((2, 1, 0, None, AccessKind::Rw)));
}

#[test]
fn in_a_group_equal_stores_are_let_through() {
    assert_eq!(met(&in_turn(&[(2, STORE), (3, STORE)])), None);
    let unequal = Some((1, 1, 1, Some(0), AccessKind::Ww));
    assert_eq!(met(&in_turn(&[(2, STORE), (3, STORE_NUMBER)])), unequal);
    let marked = [(2, STORE), (2, STORE_NUMBER), (3, STORE)];
    assert_eq!(met(&in_turn(&marked)), unequal);
    let mut parted = in_turn(&marked[..2]);
    parted.push(BARRIER);
    parted.extend([by(3, &[STORE]), by(2, &[STORE])].concat());
    assert_eq!(met(&parted), None);
}

#[test]
fn a_refused_access_enters_nothing() {
    let rows = in_turn(&[(1, LOAD), (2, LOAD), (2, STORE_NUMBER)]);
    let left = launch(&rows, (3, 2), &[0; 3], &[5], 999);
    assert_eq!(left.global, [5]);
    // Words of the three own cells, then of the global one.
    let global: Vec<u32> = left.log.iter().map(|words| words[3]).collect();
    assert_eq!(global, [1, 0, 0, 0, 0, 0b11, 0, 0]);
    // Both threads of group 1 have stepped all rows before the store.
    assert_eq!(left.steps, [14, 15, 14, 13, 0, 0]);
    assert_eq!(left.outcome.group, 1);
}

#[test]
fn a_start_clears_the_global_log_and_leaves_own_logs() {
    let rows = [
        launch_number(2),
        store(15, 2),
        if_(2),
        ELSE,
        global_store(15, 2),
        ENDIF,
    ];
    let left = launch(&rows, (2, 1), &[8, 8], &[7], 99);
    assert_eq!(left.outcome.verdict, Verdict::Passed);
    assert_eq!(left.log[1], [1, 1, 0]);
    assert_eq!(left.log[3], [0, 1, 0]);
    assert_eq!(left.log[6], [0, 0, 1]);
    assert_eq!((left.cells, left.global), (vec![0, 1], vec![0]));
}

#[test]
fn a_barrier_clears_its_own_groups_cells_and_the_global_ones() {
    let mut rows = vec![launch_number(2), store(15, 2), global_add(15, 2)];
    rows.extend([if_(2), ENDIF]);
    let left = launch(&rows, (2, 1), &[8, 8], &[7], 99);
    assert_eq!((&left.log[1][..], left.log[2][2]), (&[1, 1, 0][..], 1));
    // A barrier of all groups; then one that only group 1 comes to.
    rows.push(BARRIER);
    let left = launch(&rows, (2, 1), &[8, 8], &[7], 99);
    assert_eq!((&left.log[1][..], left.log[2][2]), (&[0, 0, 0][..], 0));
    assert_eq!(left.log[7], [0, 0, 0b11]);
    rows.splice(3..6, [if_(2), BARRIER, ENDIF]);
    let left = launch(&rows, (2, 1), &[8, 8], &[7], 99);
    assert_eq!((&left.log[1][..], left.log[2][2]), (&[1, 0, 0][..], 0));
    assert_eq!((left.log[7][2], left.outcome.barriers), (0b11, 1));
}

#[test]
fn barriers_are_a_groups_own() {
    let rows = [launch_number(2), store(15, 2), BARRIER];
    let (mut cells, mut log) = ([9; 3], [0; 24]);
    let (mut list, mut steps) = ([0; INTERVAL_WORDS], [0; MAX_LAUNCH_THREADS]);
    let mut seen = vec![];
    let ran = observed_launch(
        &rows.concat(),
        1,
        1,
        3,
        0,
        99,
        &mut cells,
        &mut [],
        &mut log,
        &mut list,
        &mut steps,
        |group, cells| seen.push((group, cells.to_vec())),
    );
    assert_eq!(ran.unwrap().barriers, 3);
    assert_eq!(seen, [(0, vec![0]), (1, vec![1]), (2, vec![2])]);
    assert_eq!(list[..18], [0, 3, 0, 3, 0, 0].repeat(3));
}

#[test]
fn outside_goes_by_the_cells_that_are_used() {
    let outside = |row: Row, at: u32| {
        let rows = [set(4, at as u16), row];
        let left = launch(&rows, (2, 1), &[0; 6], &[0; 5], 99);
        match left.outcome.verdict {
            Verdict::Outside {
                row: 1,
                thread: 0,
                at: found,
            } => {
                assert_eq!((left.outcome.group, found), (0, at));
                true
            }
            verdict => {
                assert!(verdict == Verdict::Passed || row[0] == 21, "{verdict:?}");
                false
            }
        }
    };
    for own in [load(3, 4), store(4, 15), atomic_add(4, 15)] {
        assert_eq!(
            [2, 3, 4, 5].map(|at| outside(own, at)),
            [false, true, true, true]
        );
    }
    for global in [global_load(3, 4), global_store(4, 15), global_add(4, 15)] {
        assert_eq!(
            [2, 3, 4, 5].map(|at| outside(global, at)),
            [false, false, false, true]
        );
    }
    // Without global cells every global access is outside; and it comes first.
    let left = launch(&[global_add(15, 15)], (8, 32), &[0; 8], &[], 99);
    let verdict = Verdict::Outside {
        row: 0,
        thread: 0,
        at: 0,
    };
    assert_eq!((left.outcome.verdict, left.outcome.group), (verdict, 0));
}

#[test]
fn one_limit_for_all_groups() {
    let rows = [tid(0), tid(0), BARRIER];
    for limit in 0..=9 {
        let left = launch(&rows, (3, 2), &[0; 3], &[0], limit);
        assert_eq!(left.outcome.rows, limit.min(9));
        let (group, row) = (limit / 3, limit % 3);
        let verdict = match limit {
            9 => Verdict::Passed,
            _ => Verdict::Spent { row },
        };
        assert_eq!(left.outcome.verdict, verdict);
        assert_eq!(left.outcome.group, group.min(2));
        // The next group has started, and its interval too.
        let started = left.records.len() as u32;
        assert_eq!(started, (group + 1).min(3) + left.outcome.barriers);
        assert_eq!(left.outcome.barriers, group);
    }
    // The table's end comes before the limit, in each group.
    let left = launch(&[], (3, 2), &[0; 3], &[], 0);
    assert_eq!(
        (left.outcome.verdict, left.outcome.group),
        (Verdict::Passed, 2)
    );
    assert_eq!(left.records, [[0, 0, 0]; 3]);
}

#[test]
fn a_start_under_a_full_limit_still_clears() {
    let rows = [global_add(15, 1), atomic_add(15, 1)];
    let left = launch(&rows, (2, 1), &[0; 2], &[0], 2);
    assert_eq!(left.outcome.verdict, Verdict::Spent { row: 0 });
    assert_eq!((left.log[2][0], left.log[2][2], left.log[7][2]), (1, 0, 1));
    assert_eq!(left.records, [[0, 2, 0], [0, 0, 0]]);
}

#[test]
fn starts_open_intervals_up_to_the_last_record() {
    for releases in [1_022, 1_023, 1_024, 1_025] {
        let rows = [
            set(3, releases),
            set(1, 1),
            while_(3),
            BARRIER,
            sub(3, 3, 1),
            ENDWHILE,
        ];
        let left = launch(&rows, (2, 1), &[0; 2], &[], 1_000_000);
        let releases = u32::from(releases);
        let of_each = 3 + 4 * releases;
        assert_eq!(left.outcome.rows, 2 * of_each);
        assert_eq!(left.records.len(), 1_025);
        let last = left.records[1_024];
        let sum: u32 = left.records.iter().map(|record| record[1]).sum();
        assert_eq!(sum, 2 * of_each);
        // The second group's start is the last record, or just before it, or
        // there is none left for it.
        match releases {
            1_022 => assert_eq!((left.records[1_023], last[0]), ([0, 4, 0], 4)),
            1_023 => assert_eq!(last, [0, of_each, 0]),
            1_024 => assert_eq!(last, [4, 3 + of_each, 0]),
            _ => assert_eq!(last, [4, 7 + of_each, 0]),
        }
    }
}

#[test]
fn global_accesses_cost_nothing() {
    let rows = [
        tid(0),
        set(1, 16),
        [6, 3, 0, 1],
        global_load(4, 3),
        load(4, 3),
    ];
    let left = launch(&rows, (2, 4), &[0; 128], &[0; 64], 99);
    assert_eq!(left.outcome.conflicts, 6);
    assert_eq!(left.records, [[0, 5, 3], [0, 5, 3]]);
}

#[test]
fn a_global_load_may_go_where_its_number_was() {
    let rows = [tid(3), global_load(3, 3), store(15, 3)];
    let left = launch(&rows, (2, 1), &[0; 2], &[77, 5], 99);
    assert_eq!(left.cells, [77, 77]);
}

/// A bare launch of one row with lent buffers of these lengths; its refusal.
fn refused(numbers: [u32; 5], lent: [usize; 4]) -> Option<Refusal> {
    let [threads, cells, groups, global, limit] = numbers;
    let mut lent = lent.map(|words| vec![JUNK; words]);
    let mut steps = [JUNK; MAX_LAUNCH_THREADS];
    let [own, shared, log, list] = &mut lent;
    let table = &tid(0);
    let found = bare_launch(
        table, threads, cells, groups, global, limit, own, shared, log, list, &mut steps,
    );
    if found.is_err() {
        assert!(lent
            .iter()
            .flatten()
            .chain(&steps)
            .all(|&word| word == JUNK));
    }
    found.err()
}

#[test]
fn numbers_are_refused_in_order() {
    let number = |numbers| refused(numbers, [0; 4]).map(|refusal| (refusal.number, refusal.place));
    assert_eq!(number([0, 0, 0, 2_000, u32::MAX]), Some((8, 0)));
    assert_eq!(number([1, 0, 0, 2_000, u32::MAX]), Some((9, 0)));
    for groups in [0, 9, 16, 256, 257, u32::MAX] {
        assert_eq!(number([1, 1, groups, 2_000, u32::MAX]), Some((32, 0)));
    }
    for (cells, groups, global) in [
        (1_024, 2, 0),
        (1_024, 1, 1),
        (128, 8, 1),
        (129, 8, 0),
        (1, 8, 1_017),
        (1, 1, u32::MAX),     // the sum is 2^32
        (1_024, 8, u32::MAX), // and more
        (512, 1, u32::MAX - 511),
        (1, 1, 1 << 31),
        (1, 1, 65_535),
    ] {
        assert_eq!(number([1, cells, groups, global, u32::MAX]), Some((33, 0)));
    }
    for (cells, groups, global) in [(1_024, 1, 0), (128, 8, 0), (1, 8, 1_016), (1, 1, 1_023)] {
        assert_eq!(number([1, cells, groups, global, 1_000_001]), Some((10, 0)));
        assert_eq!(number([1, cells, groups, global, 1]), Some((20, 0)));
    }
}

#[test]
fn lent_buffers_fit_exactly() {
    let numbers = [2, 3, 2, 4, 9];
    let refused = |lent| refused(numbers, lent).map(|refusal| refusal.number);
    assert_eq!(refused([6, 4, 80, INTERVAL_WORDS]), None);
    for lent in [
        [3, 4, 80, 0],
        [6, 3, 80, 0],
        [6, 5, 80, 0],
        [4, 6, 80, 0],
        [10, 0, 80, 0],
    ] {
        assert_eq!(refused(lent), Some(20));
    }
    for log in [0, 10, 48, 50, 56, 70, 79, 81, 90] {
        assert_eq!(refused([6, 4, log, 0]), Some(21));
    }
    assert_eq!(refused([6, 4, 80, INTERVAL_WORDS - 1]), Some(30));
}

const FILE: &str = "kernel=1\nthreads=1\ncells=2\ngroups=2\nglobal=1\nlimit=99\nrows=3\n\
    row=19,2,0,0\nrow=17,15,2,0\nrow=22,15,2,0\n\
    cell=1\ncell=2\ncell=3\ncell=4\ngcell=5\nend=kernel\n";

#[test]
fn files_have_groups_and_global_cells() {
    let launch = parse_file(FILE.as_bytes()).unwrap();
    assert_eq!(
        (launch.threads, launch.groups, launch.cells_each),
        (1, 2, 2)
    );
    assert_eq!((launch.cells, launch.global), (vec![1, 2, 3, 4], vec![5]));
    let report = "verdict=passed\nrow=-\ngroup=-\nothergroup=-\nthread=-\nother=-\nkind=-\nat=-\n\
        rows=6\nsteps=3\nsteps=3\nbarriers=0\nconflicts=0\n\
        cell=0\ncell=2\ncell=1\ncell=4\ngcell=6\nend=report\n";
    assert_eq!(check(FILE.as_bytes()).unwrap(), report);
    // A store in the add's place: equal or not, of two groups they conflict.
    let racing = FILE.replace("row=22,15,2,0", "row=21,15,14,0");
    let report = check(racing.as_bytes()).unwrap();
    let head = "verdict=race\nrow=2\ngroup=1\nothergroup=0\nthread=0\nother=-\nkind=ww\nat=0\n\
        rows=5\nsteps=3\nsteps=2\nbarriers=0\nconflicts=0\n";
    assert!(report.starts_with(head), "{report}");
}

#[test]
fn the_lent_buffers_of_a_file() {
    let (mut cells, mut global) = ([5; LENT_CELLS], [6; LENT_GLOBAL]);
    let (mut log, mut list) = ([7; LENT_LOG], [8; INTERVAL_WORDS]);
    let mut out = [b'?'; REPORT_ROOM];
    let len = check_file(
        FILE.as_bytes(),
        &mut cells,
        &mut global,
        &mut log,
        &mut list,
        &mut out,
    );
    assert!(len.is_ok());
    assert_eq!(
        (&cells[..5], &global[..2]),
        (&[0, 2, 1, 4, 5][..], &[6, 6][..])
    );
    // Five words of each kind; the writers and first values of each group's
    // first cell, the adder of the global one, and the groups that added.
    assert_eq!(log[5..10], [1, 0, 1, 0, 0]);
    assert_eq!(log[10..15], [0, 0, 0, 0, 1]);
    assert_eq!(log[15..20], [0, 0, 1, 0, 0]);
    assert_eq!(log[35..42], [0, 0, 0, 0, 0b11, 7, 7]);
    assert_eq!(list[..7], [0, 3, 0, 0, 3, 0, 8]);
    for (own, shared) in [(1_024, 1_023), (1_024, 1_025), (1_024, 0), (1_023, 1_024)] {
        let (mut cells, mut global) = (vec![5; own], vec![6; shared]);
        let found = check_file(
            FILE.as_bytes(),
            &mut cells,
            &mut global,
            &mut log,
            &mut list,
            &mut out,
        );
        assert_eq!(found.unwrap_err().number, 20);
        assert!(global.iter().all(|&word| word == 6) && cells.iter().all(|&word| word == 5));
    }
}

#[test]
fn lines_missing_exchanged_and_out_of_range() {
    let turned = |from: &str, to: &str| turned_back(&FILE.replacen(from, to, 1));
    assert_eq!(turned("groups=2\n", ""), (11, 4));
    assert_eq!(turned("global=1\n", ""), (11, 5));
    assert_eq!(
        turned("groups=2\nglobal=1\n", "global=1\ngroups=2\n"),
        (11, 4)
    );
    assert_eq!(turned("cell=4\ngcell=5\n", "gcell=5\ncell=4\n"), (11, 14));
    assert_eq!(turned("gcell=5\n", ""), (11, 15));
    assert_eq!(turned("gcell=5", "cell=5"), (11, 15));
    assert_eq!(turned("cell=1", "gcell=1"), (11, 11));
    assert_eq!(turned("groups=2", "groups=1"), (11, 13));
    assert_eq!(turned("groups=2", "groups=3"), (11, 15));
    assert_eq!(turned("global=1", "global=0"), (11, 15));
    assert_eq!(turned("global=1", "global=2"), (11, 16));
    for number in ["0", "9", "256", "258", "4294967295"] {
        assert_eq!(
            turned("groups=2\nglobal=1", &format!("groups={number}\nx")),
            (32, 4)
        );
    }
    for number in ["1021", "4294967292", "4294967295", "65532"] {
        assert_eq!(
            turned("global=1\nlimit", &format!("global={number}\nx")),
            (33, 5)
        );
    }
    assert_eq!(turned("groups=2", "groups=4294967296"), (11, 4));
}

#[test]
fn r23_sums_both_slices() {
    let subject = Subject::Ran(Outcome {
        verdict: Verdict::Passed,
        group: 1,
        rows: 0,
        barriers: 0,
        conflicts: 0,
    });
    let number = |steps: usize, own: usize, global: usize| {
        let (steps, own, global) = (vec![1; steps], vec![2; own], vec![3; global]);
        let mut out = vec![b'?'; 30_000];
        let written = write_report(subject, &steps, &own, &global, &mut out);
        written.map_err(|refusal| refusal.number)
    };
    for (own, global) in [
        (1, 0),
        (0, 1),
        (1_024, 0),
        (0, 1_024),
        (512, 512),
        (1, 1_023),
    ] {
        assert!(number(1, own, global).is_ok() && number(256, own, global).is_ok());
        assert_eq!(number(0, own, global), Err(23));
        assert_eq!(number(257, own, global), Err(23));
    }
    for (own, global) in [
        (0, 0),
        (1_025, 0),
        (0, 1_025),
        (1, 1_024),
        (513, 512),
        (1_024, 1_024),
    ] {
        assert_eq!(number(1, own, global), Err(23));
    }
}
