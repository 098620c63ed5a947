//! Item 5 and its readings, 15 and 16: bank conflicts by barrier interval, each
//! sentence by launches worked out by hand.

mod common;

use checker::{
    number, observed_launch, Outcome, Refusal, Verdict, INTERVAL_RECORDS, INTERVAL_WORDS,
    LENT_CELLS, LENT_LOG, MAX_LAUNCH_THREADS, REPORT_ROOM,
};
use common::*;

fn mul(d: u8, a: u8, b: u8) -> Row {
    [6, d, a, b]
}
fn and(d: u8, a: u8, b: u8) -> Row {
    [7, d, a, b]
}
fn shr(d: u8, a: u8, b: u8) -> Row {
    [10, d, a, b]
}
fn lt(d: u8, a: u8, b: u8) -> Row {
    [13, d, a, b]
}

type Record = [u32; 3];

/// The outcome of a launch and the records used.
/// All words behind the records must be kept.
fn recorded(rows: &[Row], threads: u32, cells: &[u32], limit: u32) -> (Outcome, Vec<Record>) {
    let (mut after, mut log) = (cells.to_vec(), vec![7; 8 * cells.len()]);
    let (mut list, mut steps) = (vec![JUNK; INTERVAL_WORDS + 7], [JUNK; MAX_LAUNCH_THREADS]);
    let (table, said) = (rows.concat(), cells.len() as u32);
    let ran = one_group(
        &table, threads, said, limit, &mut after, &mut log, &mut list, &mut steps,
    );
    let ran = ran.expect("a launch that isn't refused");
    let used = INTERVAL_RECORDS.min(ran.barriers as usize + 1);
    let (records, behind) = list.split_at(3 * used);
    assert!(behind.iter().all(|&word| word == JUNK), "words kept");
    let records = records.as_chunks().0.to_vec();
    let sum = |word: usize| {
        records
            .iter()
            .map(|record: &Record| record[word])
            .sum::<u32>()
    };
    assert_eq!((sum(1), sum(2)), (ran.rows, ran.conflicts));
    (ran, records)
}

fn records(rows: &[Row], threads: u32) -> Vec<Record> {
    recorded(rows, threads, &[0; 1_024], 1_000_000).1
}

/// What one access of these cells costs, a cell for each thread.
fn cost_of(used: &[u32], access: Row) -> u32 {
    let mut cells = vec![0; 1_024];
    let from = 1_024 - used.len();
    cells[from..].copy_from_slice(used);
    // The numbers are loaded, one each, before a barrier.
    let rows = [
        tid(0),
        set(1, from as u16),
        add(1, 1, 0),
        load(3, 1),
        BARRIER,
        access,
    ];
    let found = recorded(&rows, used.len() as u32, &cells, 99).1;
    assert_eq!((found.len(), found[1][0], found[1][1]), (2, 5, 1));
    found[1][2]
}

/// R3 = thread's number times `distance`, in three rows.
fn at_distance(distance: u16) -> Vec<Row> {
    vec![tid(0), set(5, distance), mul(3, 0, 5)]
}

#[test]
fn numbers_equal_modulo_16_are_in_one_bank() {
    for (other, cost) in [
        (1, 0),
        (8, 0),
        (15, 0),
        (16, 1),
        (17, 0),
        (24, 0),
        (31, 0),
        (32, 1),
        (33, 0),
        (256, 1),
        (1_007, 0),
        (1_008, 1),
    ] {
        assert_eq!(cost_of(&[0, other], load(4, 3)), cost, "{other}");
        assert_eq!(cost_of(&[other, 0], load(4, 3)), cost, "{other}");
        assert_eq!(cost_of(&[15, other + 15], load(4, 3)), cost, "{other}");
    }
}

#[test]
fn each_kind_of_access_row_costs_n_less_1() {
    for access in [load(4, 3), store(3, 0), atomic_add(3, 0)] {
        for threads in 1..=32 {
            let rows = [at_distance(32), vec![access]].concat();
            assert_eq!(records(&rows, threads), [[0, 4, threads - 1]]);
            let rows = [at_distance(16), vec![access]].concat();
            assert_eq!(records(&rows, threads), [[0, 4, threads - 1]]);
            // 16 banks, the first of them twice from thread 16 on.
            for distance in [1, 15, 17] {
                let rows = [at_distance(distance), vec![access]].concat();
                assert_eq!(records(&rows, threads), [[0, 4, (threads - 1) / 16]]);
            }
            let rows = [at_distance(8), vec![access]].concat();
            assert_eq!(records(&rows, threads), [[0, 4, (threads - 1) / 2]]);
            let rows = [at_distance(12), vec![access]].concat();
            assert_eq!(records(&rows, threads), [[0, 4, (threads - 1) / 4]]);
        }
    }
}

#[test]
fn rows_that_access_nothing_cost_nothing() {
    let rows = [at_distance(16), vec![add(3, 3, 3), mul(4, 3, 3)]].concat();
    assert_eq!(records(&rows, 32), [[0, 5, 0]]);
}

#[test]
fn many_threads_at_one_cell_count_once() {
    for access in [load(4, 3), atomic_add(3, 0)] {
        assert_eq!(cost_of(&[7; 32], access), 0);
        assert_eq!(cost_of(&[7, 7, 23, 23, 7, 23], access), 1);
        // Neighbours or not.
        assert_eq!(cost_of(&[0, 0, 16, 16, 32, 32, 48, 48], access), 3);
        assert_eq!(cost_of(&[0, 16, 32, 48, 0, 16, 32, 48], access), 3);
        // Four cells of two threads each in bank 0 cost less than five in 1.
        assert_eq!(
            cost_of(&[0, 0, 16, 16, 32, 32, 48, 48, 1, 17, 33, 49, 65], access),
            4
        );
    }
}

#[test]
fn the_largest_number_counts_and_not_the_sum() {
    assert_eq!(cost_of(&[0, 16, 1, 17, 2, 18], load(4, 3)), 1);
    assert_eq!(cost_of(&[0, 16, 1, 17, 33, 2, 18], load(4, 3)), 2);
    assert_eq!(cost_of(&[15, 31, 47, 63, 0, 1, 2], load(4, 3)), 3);
    assert_eq!(cost_of(&[0, 1, 2, 3, 15, 31, 47, 63], load(4, 3)), 3);
}

#[test]
fn only_enabled_threads_use_cells() {
    // Threads 0 to n - 1, each in the same bank.
    for n in 0..=32 {
        let test = vec![set(6, n), lt(2, 0, 6), if_(2), load(4, 3), ENDIF];
        let rows = [at_distance(16), test].concat();
        let cost = u32::from(n).saturating_sub(1);
        assert_eq!(records(&rows, 32), [[0, 8, cost]]);
    }
    // Odd threads, then the even ones.
    let arms = vec![
        set(6, 1),
        and(2, 0, 6),
        if_(2),
        load(4, 3),
        ELSE,
        load(4, 0),
        ENDIF,
    ];
    let rows = [at_distance(16), arms].concat();
    // Cells 0, 2, .. 30: eight banks twice.
    assert_eq!(records(&rows, 32), [[0, 10, 15 + 1]]);
}

#[test]
fn a_row_with_nobody_enabled_is_run_and_costs_nothing() {
    let arm = vec![if_(15), load(4, 3), atomic_add(3, 0), BARRIER, ENDIF];
    let rows = [at_distance(16), arm].concat();
    assert_eq!(records(&rows, 32), [[0, 8, 0]]);
}

#[test]
fn a_load_into_the_register_of_its_number_costs_by_the_number() {
    // Cell 16 t holds t, and cell t holds 16 t.
    let mut cells = vec![0; 1_024];
    for t in 0..32 {
        cells[16 * t] = t as u32;
    }
    let rows = [at_distance(16), vec![load(3, 3), load(4, 3)]].concat();
    assert_eq!(recorded(&rows, 16, &cells, 99).1, [[0, 5, 15]]);
    let (last, rows) = (BARRIER, [tid(3), load(3, 3), BARRIER, load(3, 3)]);
    let cells: Vec<u32> = (0..1_024).map(|cell| 16 * cell % 1_024).collect();
    assert_eq!(recorded(&rows, 16, &cells, 99).1, [[0, 3, 0], [3, 1, 15]]);
    let rows = [rows.as_slice(), &[last]].concat();
    let expected = [[0, 3, 0], [3, 2, 15], [5, 0, 0]];
    assert_eq!(recorded(&rows, 16, &cells, 99).1, expected);
}

#[test]
fn the_cost_is_taken_each_time_a_row_is_run() {
    let trips = vec![
        set(1, 1),
        set(2, 5),
        while_(2),
        load(4, 3),
        load(4, 3),
        sub(2, 2, 1),
        ENDWHILE,
    ];
    let rows = [at_distance(16), trips].concat();
    assert_eq!(records(&rows, 32), [[0, 5 + 5 * 5 + 1, 5 * 2 * 31]]);
    // Fewer threads from trip to trip: 3, 2, 1 of 4.
    let rows = [
        tid(0),
        set(5, 16),
        mul(3, 0, 5),
        set(1, 1),
        while_(0),
        load(4, 3),
        sub(0, 0, 1),
        ENDWHILE,
    ];
    assert_eq!(records(&rows, 4), [[0, 4 + 3 * 4 + 1, 2 + 1]]);
}

#[test]
fn cells_are_seen_anew_in_each_row() {
    let again = vec![load(4, 3), load(4, 3), store(3, 0), atomic_add(3, 0)];
    let rows = [at_distance(16), again].concat();
    assert_eq!(records(&rows, 5), [[0, 7, 16]]);
    // Far apart, by a number of rows that fits 8 or 16 bits.
    for apart in [256, 65_536] {
        let trips = (apart - 4) / 4;
        let between = vec![
            set(1, 1),
            set(2, trips as u16),
            while_(2),
            tid(8),
            sub(2, 2, 1),
            ENDWHILE,
        ];
        let rows = [at_distance(16), vec![load(4, 3)], between, vec![load(4, 3)]].concat();
        assert_eq!(records(&rows, 3), [[0, 4 + apart, 4]]);
    }
}

#[test]
fn a_releasing_barrier_is_in_the_interval_it_ends() {
    let rows = [tid(0), BARRIER, tid(0), tid(0), BARRIER, tid(0)];
    assert_eq!(records(&rows, 2), [[0, 2, 0], [2, 3, 0], [5, 1, 0]]);
    let rows = [BARRIER, BARRIER, tid(0)];
    assert_eq!(records(&rows, 2), [[0, 1, 0], [1, 1, 0], [2, 1, 0]]);
}

#[test]
fn costs_go_to_the_interval_of_their_row() {
    let first = [at_distance(16), vec![load(4, 3), BARRIER]].concat();
    let rest = [load(4, 0), BARRIER, BARRIER, load(4, 3), load(4, 0)];
    let rows = [first.as_slice(), &rest].concat();
    let expected = [[0, 5, 31], [5, 2, 1], [7, 1, 0], [8, 2, 32]];
    assert_eq!(records(&rows, 32), expected);
}

#[test]
fn there_is_always_a_first_record() {
    assert_eq!(records(&[], 3), [[0, 0, 0]]);
    let (ran, found) = recorded(&[tid(0)], 3, &[0], 0);
    assert_eq!(
        (ran.verdict, found),
        (Verdict::Spent { row: 0 }, vec![[0, 0, 0]])
    );
    // Its first row is run, equal stores of both; or its second stops.
    assert_eq!(recorded(&[store(0, 0)], 2, &[0], 9).1, [[0, 1, 0]]);
    let rows = [tid(0), store(1, 0)];
    assert_eq!(recorded(&rows, 2, &[0], 9).1, [[0, 1, 0]]);
}

#[test]
fn a_barrier_in_the_last_row_opens_one_that_starts_at_the_number_of_rows() {
    assert_eq!(records(&[BARRIER], 2), [[0, 1, 0], [1, 0, 0]]);
    let rows = [at_distance(16), vec![load(4, 3), BARRIER]].concat();
    assert_eq!(records(&rows, 2), [[0, 5, 1], [5, 0, 0]]);
    let mut rows = vec![tid(0); 255];
    rows.push(BARRIER);
    assert_eq!(records(&rows, 2), [[0, 256, 0], [256, 0, 0]]);
}

#[test]
fn an_interval_that_starts_in_a_loop_starts_behind_its_barrier() {
    let rows = [
        set(1, 1),
        set(2, 3),
        while_(2),
        BARRIER,
        sub(2, 2, 1),
        ENDWHILE,
        tid(0),
    ];
    let expected = [[0, 4, 0], [4, 4, 0], [4, 4, 0], [4, 4, 0]];
    assert_eq!(records(&rows, 2), expected);
    // The row due is the ENDWHILE.
    let rows = [
        set(1, 1),
        set(2, 1),
        while_(2),
        sub(2, 2, 1),
        BARRIER,
        ENDWHILE,
    ];
    assert_eq!(records(&rows, 2), [[0, 5, 0], [5, 2, 0]]);
}

#[test]
fn a_skipped_barrier_is_a_row_and_starts_nothing() {
    let rows = [
        tid(0),
        if_(15),
        BARRIER,
        ENDIF,
        BARRIER,
        while_(15),
        BARRIER,
        ENDWHILE,
    ];
    assert_eq!(records(&rows, 2), [[0, 5, 0], [5, 1, 0]]);
}

#[test]
fn a_diverged_barrier_starts_nothing_and_is_no_row() {
    let arm = vec![if_(0), load(4, 3), BARRIER, ENDIF];
    let rows = [at_distance(16), vec![load(4, 3), BARRIER], arm].concat();
    let (ran, found) = recorded(&rows, 4, &[0; 64], 99);
    let diverged = Verdict::Diverged {
        row: 7,
        thread: 1,
        other: 0,
    };
    assert_eq!((ran.verdict, ran.conflicts), (diverged, 5));
    assert_eq!(found, [[0, 5, 3], [5, 2, 2]]);
}

#[test]
fn a_stopped_row_costs_nothing_and_is_no_row() {
    // The last thread is outside, the others meet in bank 0.
    let far = vec![set(8, 31), [12, 9, 0, 8], set(8, 1_024), mul(9, 9, 8)];
    let finished = vec![load(4, 3), BARRIER, load(4, 3), add(3, 3, 9)];
    let rows = [at_distance(16), far, finished].concat();
    for access in [load(4, 3), load(3, 3), store(3, 0), atomic_add(3, 0)] {
        let rows = [rows.as_slice(), &[access, tid(8)]].concat();
        let (ran, found) = recorded(&rows, 32, &[0; 512], 99);
        let outside = Verdict::Outside {
            row: 11,
            thread: 31,
            at: 496 + 1_024,
        };
        assert_eq!((ran.verdict, ran.conflicts), (outside, 62));
        assert_eq!(found, [[0, 9, 31], [9, 2, 31]]);
    }
    // The last two threads meet at a cell, behind others of its bank.
    let low = [
        tid(0),
        set(1, 30),
        lt(2, 0, 1),
        mul(3, 0, 2),
        set(5, 16),
        mul(3, 3, 5),
    ];
    let rows = [low.as_slice(), &[load(4, 3), BARRIER, store(3, 0)]].concat();
    let (ran, found) = recorded(&rows, 31, &[0; 1_024], 99);
    assert!(matches!(
        ran.verdict,
        Verdict::Race {
            row: 8,
            other_group: 0,
            thread: 30,
            other: Some(0),
            ..
        }
    ));
    assert_eq!(found, [[0, 8, 29], [8, 0, 0]]);
}

#[test]
fn a_spent_run_has_the_rows_and_costs_up_to_its_limit() {
    let rows = [
        at_distance(16),
        vec![load(4, 3), BARRIER, load(4, 3), load(4, 3), BARRIER],
    ]
    .concat();
    let expected: [&[Record]; 9] = [
        &[[0, 0, 0]],
        &[[0, 1, 0]],
        &[[0, 2, 0]],
        &[[0, 3, 0]],
        &[[0, 4, 7]],
        &[[0, 5, 7], [5, 0, 0]],
        &[[0, 5, 7], [5, 1, 7]],
        &[[0, 5, 7], [5, 2, 14]],
        &[[0, 5, 7], [5, 3, 14], [8, 0, 0]],
    ];
    for (limit, expected) in expected.iter().enumerate() {
        let (ran, found) = recorded(&rows, 8, &[0; 1_024], limit as u32);
        assert_eq!(
            (ran.verdict == Verdict::Passed, found),
            (limit == 8, expected.to_vec())
        );
    }
}

/// A loop of so many releases, each behind one access that costs 1.
fn many(releases: u16) -> Vec<Row> {
    let head = [
        tid(0),
        set(5, 16),
        mul(3, 0, 5),
        set(1, 1),
        set(2, releases),
        while_(2),
    ];
    [&head[..], &[load(4, 3), BARRIER, sub(2, 2, 1), ENDWHILE]].concat()
}

#[test]
fn up_to_1_024_releases_each_start_a_record() {
    for releases in [1_022, 1_023, 1_024] {
        let found = records(&many(releases), 2);
        let mut expected = vec![[8, 5, 1]; usize::from(releases) + 1];
        expected[0] = [0, 8, 1];
        expected[usize::from(releases)] = [8, 3, 0];
        assert_eq!(found, expected);
    }
}

#[test]
fn from_the_1_025th_on_the_last_record_keeps_its_start_and_grows() {
    for releases in [1_025, 1_026, 1_500, 3_000] {
        // A row and two releases elsewhere behind the loop.
        let behind = [load(4, 3), BARRIER, tid(8), BARRIER, load(4, 3)];
        let rows = [many(releases), behind.to_vec()].concat();
        let found = records(&rows, 2);
        let mut expected = vec![[8, 5, 1]; 1_025];
        expected[0] = [0, 8, 1];
        let more = u32::from(releases) - 1_024;
        expected[1_024] = [8, 5 * more + 3 + 5, more + 2];
        assert_eq!(found, expected);
    }
}

#[test]
fn the_last_of_all_records_starts_where_its_own_release_was() {
    // 1,023 releases in the loop, the 1,024th behind it.
    let behind = [
        BARRIER,
        tid(8),
        BARRIER,
        load(4, 3),
        BARRIER,
        tid(8),
        tid(8),
    ];
    let rows = [many(1_023), behind.to_vec()].concat();
    let found = records(&rows, 2);
    assert_eq!(found.len(), 1_025);
    assert_eq!(found[1_022..], [[8, 5, 1], [8, 4, 0], [11, 6, 1]]);
}

#[test]
fn runs_are_stopped_and_spent_behind_the_last_record() {
    let (rows, far) = (many(1_030), [set(6, 1_023), add(3, 3, 6), load(4, 3)]);
    let (ran, found) = recorded(&[&rows[..], &far].concat(), 2, &[0; 1_024], 1_000_000);
    assert!(matches!(
        ran.verdict,
        Verdict::Outside {
            row: 12,
            thread: 1,
            at: 1_039
        }
    ));
    assert_eq!(
        (ran.conflicts, found[1_024]),
        (1_030, [8, 5 * 6 + 3 + 2, 6])
    );
    let (ran, found) = recorded(&rows, 2, &[0; 1_024], 5_148);
    // 8 rows, 1,027 times 5, and 5 more: the 1,029th release is the last row.
    assert_eq!(
        (ran.verdict, ran.barriers),
        (Verdict::Spent { row: 8 }, 1_029)
    );
    assert_eq!((ran.conflicts, found[1_024]), (1_029, [8, 25, 5]));
}

#[test]
fn costs_go_past_8_16_and_24_bits() {
    let loads = [load(4, 3); 60];
    let rows = [
        at_distance(16),
        vec![set(1, 1), while_(1)],
        loads.to_vec(),
        vec![ENDWHILE],
    ]
    .concat();
    for (limit, cost) in [
        (5 + 9, 31 * 9),
        (5 + 62 * 100, 31 * 6_000),
        (5 + 62 * 10_000, 31 * 600_000), // past 2^24
    ] {
        let (ran, found) = recorded(&rows, 32, &[0; 1_024], limit);
        assert_eq!((ran.conflicts, found), (cost, vec![[0, limit, cost]]));
    }
}

fn lines(report: &str) -> Vec<&str> {
    report.lines().collect()
}

#[test]
fn reports_print_conflicts_behind_barriers_under_every_verdict() {
    let head = [at_distance(16), vec![load(4, 3), BARRIER, load(4, 3)]].concat();
    let tails: [(&str, Vec<Row>); 4] = [
        ("passed", vec![BARRIER]),
        ("outside", vec![add(3, 3, 5), load(4, 3)]),
        ("race", vec![store(15, 0)]),
        ("diverged", vec![if_(0), BARRIER, ENDIF]),
    ];
    for (verdict, tail) in tails {
        let rows = [head.clone(), tail].concat();
        let text = file(&rows)
            .replace("cells=1", "cells=64")
            .replace("limit=9", "limit=99")
            .replace("threads=2", "threads=4")
            .replace("cell=0\n", &"cell=0\n".repeat(64));
        let report = check(text.as_bytes()).unwrap();
        let found = lines(&report);
        assert_eq!(found[0], format!("verdict={verdict}"));
        let barriers = found
            .iter()
            .position(|line| line.starts_with("barriers="))
            .unwrap();
        assert_eq!(
            found[barriers + 1..barriers + 3],
            ["conflicts=6", "cell=0"],
            "{report}"
        );
        let spent = check(text.replace("limit=99", "limit=4").as_bytes()).unwrap();
        assert!(spent.starts_with("verdict=spent\nrow=4\n"));
        assert!(spent.contains("\nbarriers=0\nconflicts=3\ncell=0\n"));
    }
}

#[test]
fn observed_launches_have_the_same_records() {
    let rows = [at_distance(16), vec![load(4, 3), BARRIER, load(4, 0)]]
        .concat()
        .concat();
    let (mut cells, mut log, mut seen) = (vec![0; 64], vec![0; 512], 0);
    let (mut list, mut steps) = (vec![JUNK; INTERVAL_WORDS], [JUNK; MAX_LAUNCH_THREADS]);
    let ran = observed_launch(
        &rows,
        4,
        64,
        1,
        0,
        99,
        &mut cells,
        &mut [],
        &mut log,
        &mut list,
        &mut steps,
        |_, _| seen += 1,
    );
    assert_eq!((ran.unwrap().conflicts, seen), (3, 1));
    assert_eq!(list[..7], [0, 5, 3, 5, 1, 0, JUNK]);
    list.pop();
    let refused = observed_launch(
        &rows,
        4,
        64,
        1,
        0,
        99,
        &mut cells,
        &mut [],
        &mut log,
        &mut list,
        &mut steps,
        |_, _| seen += 1,
    );
    assert_eq!((refused.unwrap_err().number, seen), (30, 1));
}

const LENT: Refusal = Refusal {
    number: number::LENT_INTERVALS,
    place: 0,
};

#[test]
fn r30_where_fewer_than_3_075_words_are_lent() {
    assert_eq!(
        (LENT.number, INTERVAL_RECORDS, INTERVAL_WORDS),
        (30, 1_025, 3_075)
    );
    for words in [
        0, 1, 2, 3, 6, 1_024, 1_025, 2_050, 3_071, 3_072, 3_073, 3_074,
    ] {
        let (mut cells, mut log, mut steps) = ([5; 2], [6; 16], [JUNK; MAX_LAUNCH_THREADS]);
        let mut list = vec![JUNK; words];
        let found = one_group(
            &BARRIER, 1, 2, 9, &mut cells, &mut log, &mut list, &mut steps,
        );
        assert_eq!(found, Err(LENT), "{words}");
        assert_eq!(
            (cells, log, steps),
            ([5; 2], [6; 16], [JUNK; MAX_LAUNCH_THREADS])
        );
        assert!(list.iter().all(|&word| word == JUNK));
    }
    for words in [3_075, 3_076, 3_077, 3_078, 6_150] {
        let mut list = vec![JUNK; words];
        let found = one_group(
            &BARRIER,
            1,
            2,
            9,
            &mut [5; 2],
            &mut [6; 16],
            &mut list,
            &mut [JUNK; MAX_LAUNCH_THREADS],
        );
        assert!(found.is_ok());
        assert_eq!(list[..7], [0, 1, 0, 1, 0, 0, JUNK]);
        assert!(list[6..].iter().all(|&word| word == JUNK));
    }
}

#[test]
fn r30_comes_behind_the_rows_and_20_and_21() {
    let bare = |table: &[u8], cells: usize, log: usize, words: usize| {
        let (mut cells, mut log) = (vec![5; cells], vec![6; log]);
        let (mut list, mut steps) = (vec![JUNK; words], [JUNK; MAX_LAUNCH_THREADS]);
        let found = one_group(table, 1, 2, 9, &mut cells, &mut log, &mut list, &mut steps);
        assert!(list.iter().all(|&word| word == JUNK));
        found.unwrap_err().number
    };
    assert_eq!(bare(&[99, 0, 0, 0], 2, 16, 0), 3);
    assert_eq!(bare(&[], 1, 16, 3_074), 20);
    assert_eq!(bare(&[], 2, 15, 3_074), 21);
    assert_eq!(bare(&[], 2, 17, 0), 21);
    assert_eq!(bare(&[], 2, 10, 0), 21);
    assert_eq!(bare(&[], 2, 16, 3_074), 30);
}

#[test]
fn r30_of_whole_files_comes_behind_21_and_before_24() {
    for (cells, log, words, room, expected) in [
        (1_023, 8_192, 3_074, REPORT_ROOM, 20),
        (LENT_CELLS, 8_191, 3_074, 0, 21),
        (LENT_CELLS, 5_120, 3_074, 0, 21),
        (LENT_CELLS, LENT_LOG, 3_074, REPORT_ROOM, 30),
        (LENT_CELLS, LENT_LOG, 3_074, REPORT_ROOM - 1, 30),
        (LENT_CELLS, LENT_LOG, 0, 0, 30),
        (LENT_CELLS, LENT_LOG, 6, REPORT_ROOM, 30), // two records
        (LENT_CELLS, LENT_LOG, 1_025, REPORT_ROOM, 30),
        (LENT_CELLS, LENT_LOG, 3_075, REPORT_ROOM - 1, 24),
        (LENT_CELLS, LENT_LOG, 3_076, 0, 24),
    ] {
        let (mut cells, mut log) = (vec![5; cells], vec![6; log]);
        let (mut list, mut out) = (vec![JUNK; words], vec![b'?'; room]);
        let found = check_without_global(P1.as_bytes(), &mut cells, &mut log, &mut list, &mut out);
        let refusal = found.unwrap_err();
        assert_eq!((refusal.number, refusal.place), (expected, 0));
        assert!(cells.iter().all(|&word| word == 5) && log.iter().all(|&word| word == 6));
        assert!(list.iter().all(|&word| word == JUNK) && out.iter().all(|&byte| byte == b'?'));
        // The input's own faults come first.
        let input = check_without_global(b"", &mut cells, &mut log, &mut list, &mut out);
        assert_eq!(input.unwrap_err().number, 11);
    }
}

#[test]
fn whole_files_write_the_records_and_keep_the_rest() {
    let text = P1
        .replace("rows=7", "rows=8")
        .replace("row=16,4,0,0", "row=37,0,0,0\nrow=16,4,0,0");
    for words in [3_075, 3_080] {
        let (mut cells, mut log) = (vec![5; LENT_CELLS], vec![6; LENT_LOG]);
        let (mut list, mut out) = (vec![JUNK; words], vec![b'?'; REPORT_ROOM]);
        let found =
            check_without_global(text.as_bytes(), &mut cells, &mut log, &mut list, &mut out);
        assert!(found.is_ok());
        assert_eq!(list[..6], [0, 5, 0, 5, 3, 0]);
        assert!(list[6..].iter().all(|&word| word == JUNK));
    }
}

#[test]
fn shared_cells_of_many_threads_meet_other_cells() {
    // Pairs share a cell: 16 cells in one bank.
    let rows = [
        tid(0),
        set(1, 1),
        shr(3, 0, 1),
        set(5, 16),
        mul(3, 3, 5),
        load(4, 3),
    ];
    assert_eq!(records(&rows, 32), [[0, 6, 15]]);
    assert_eq!(records(&rows, 31), [[0, 6, 15]]);
    assert_eq!(records(&rows, 30), [[0, 6, 14]]);
}

#[test]
fn the_widest_report_with_conflicts_fits_the_room() {
    let widest = Outcome {
        verdict: Verdict::Diverged {
            row: 255,
            thread: 10,
            other: 31,
        },
        group: 7,
        rows: 1_000_000,
        barriers: 1_000_000,
        conflicts: u32::MAX,
    };
    let mut out = vec![b'?'; REPORT_ROOM];
    let subject = checker::Subject::Ran(widest);
    let (steps, words) = ([u32::MAX; 256], [u32::MAX; 1_024]);
    // A global cell's line is longer than that of an own one.
    for global in [0, 1, 512, 1_023, 1_024] {
        let (global, own) = words.split_at(global);
        let len = checker::write_report(subject, &steps, own, global, &mut out);
        assert!(len.unwrap() < REPORT_ROOM);
    }
}
