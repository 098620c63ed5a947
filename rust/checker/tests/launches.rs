//! Document 01's "Launches to try", and the lock-step rules one by one.

mod common;

use checker::{observed_launch, AccessKind, Verdict, INTERVAL_WORDS, MAX_LAUNCH_THREADS};
use common::*;

fn p1_rows() -> Vec<Row> {
    vec![
        tid(0),
        set(1, 1),
        add(2, 0, 1),
        load(3, 2),
        load(4, 0),
        add(3, 3, 4),
        store(0, 3),
    ]
}

#[test]
fn p1_races() {
    let race = Verdict::Race {
        row: 6,
        other_group: 0,
        thread: 1,
        other: Some(0),
        kind: AccessKind::Rw,
        at: 1,
    };
    let (found, cells) = run(&p1_rows(), 2, &[1, 1, 1], 100);
    assert_eq!(found, outcome(race, 6, &[7, 6], 0));
    assert_eq!(cells, [2, 1, 1]);
}

#[test]
fn p2_a_barrier_between_the_loads_parts_them() {
    let mut rows = p1_rows();
    rows.insert(4, BARRIER);
    let (found, cells) = run(&rows, 2, &[1, 1, 1], 100);
    assert_eq!(found, outcome(Verdict::Passed, 8, &[7, 7], 1));
    assert_eq!(cells, [2, 2, 1]);
}

#[test]
fn p3_an_empty_table_passes_under_limit_0() {
    let (found, cells) = run(&[], 3, &[9], 0);
    assert_eq!(found, outcome(Verdict::Passed, 0, &[0, 0, 0], 0));
    assert_eq!(cells, [9]);
}

#[test]
fn p4_one_tid_under_limits_0_and_1() {
    let spent = Verdict::Spent { row: 0 };
    assert_eq!(run(&[tid(0)], 2, &[0], 0).0, outcome(spent, 0, &[0, 0], 0));
    let passed = outcome(Verdict::Passed, 1, &[1, 1], 0);
    assert_eq!(run(&[tid(0)], 2, &[0], 1).0, passed);
}

#[test]
fn p5_barriers_in_both_arms_diverge() {
    let rows = [tid(0), if_(0), BARRIER, ELSE, BARRIER, ENDIF];
    let diverged = Verdict::Diverged {
        row: 2,
        thread: 1,
        other: 0,
    };
    assert_eq!(run(&rows, 2, &[0], 100).0, outcome(diverged, 2, &[2, 2], 0));
}

#[test]
fn p6_a_skipped_barrier_counts_as_a_row_only() {
    let rows = [if_(0), BARRIER, ENDIF];
    let passed = outcome(Verdict::Passed, 3, &[2], 0);
    assert_eq!(run(&rows, 1, &[0], 100).0, passed);
}

#[test]
fn p7_an_endless_loop_is_spent() {
    let rows = [set(0, 1), while_(0), ENDWHILE];
    let spent = Verdict::Spent { row: 2 };
    assert_eq!(run(&rows, 1, &[0], 10).0, outcome(spent, 10, &[10], 0));
}

#[test]
fn p8_slt_is_signed_and_lt_is_not() {
    let rows = [
        set(0, 1 << 15),
        set(1, 1 << 15),
        add(1, 1, 1),
        [6, 0, 0, 1], // 2^15 * 2^16
        [14, 2, 0, 5],
        [13, 3, 0, 5],
        store(5, 2),
        set(6, 1),
        store(6, 3),
        set(6, 2),
        store(6, 0),
    ];
    let (found, cells) = run(&rows, 1, &[7, 7, 7], 100);
    assert_eq!(found.verdict, Verdict::Passed);
    assert_eq!(cells, [1, 0, 1 << 31]);
}

#[test]
fn nesting_8_passes() {
    let mut rows = [if_(0), while_(0)].repeat(4);
    rows.extend([ENDWHILE, ENDIF].repeat(4));
    assert_eq!(run(&rows, 32, &[0], 100).0.verdict, Verdict::Passed);
}

#[test]
fn addresses_reach_the_last_cell_and_no_further() {
    let rows = [tid(0), load(1, 0)];
    let passed = run(&rows, 3, &[0; 3], 9).0;
    assert_eq!(passed, outcome(Verdict::Passed, 2, &[2, 2, 2], 0));
    let outside = Verdict::Outside {
        row: 1,
        thread: 2,
        at: 2,
    };
    assert_eq!(
        run(&rows, 3, &[0; 2], 9).0,
        outcome(outside, 1, &[2, 2, 1], 0)
    );
    let far = [sub(0, 1, 2), set(1, 1), sub(0, 0, 1), store(0, 1)];
    let outside = Verdict::Outside {
        row: 3,
        thread: 0,
        at: u32::MAX,
    };
    assert_eq!(
        run(&far, 3, &[0; 2], 9).0,
        outcome(outside, 3, &[3, 3, 3], 0)
    );
}

/// Thread 0 goes 4 by 1 times to the barrier, thread 1 goes 1 by 4 times:
/// equally often, with unequal loop counts.
#[test]
fn the_two_loop_barrier_diverges() {
    let rows = [
        set(1, 1),
        tid(0),
        if_(0),
        set(2, 1),
        set(3, 4),
        ELSE,
        set(2, 4),
        set(3, 1),
        ENDIF,
        while_(2),
        add(4, 3, 15),
        while_(4),
        BARRIER,
        sub(4, 4, 1),
        ENDWHILE,
        sub(2, 2, 1),
        ENDWHILE,
    ];
    let found = run(&rows, 2, &[0], 1_000).0;
    let diverged = Verdict::Diverged {
        row: 12,
        thread: 1,
        other: 0,
    };
    assert_eq!((found.verdict, found.barriers), (diverged, 1));
}

#[test]
fn every_reader_of_a_cell_is_kept() {
    // All three threads load cell 0; then thread 0 alone stores there.
    let rows = [
        load(1, 2),
        tid(0),
        [12, 3, 0, 2],
        if_(3),
        store(2, 0),
        ENDIF,
    ];
    let race = Verdict::Race {
        row: 4,
        other_group: 0,
        thread: 0,
        other: Some(1),
        kind: AccessKind::Rw,
        at: 0,
    };
    assert_eq!(run(&rows, 3, &[0], 99).0, outcome(race, 4, &[4, 4, 4], 0));
}

#[test]
fn equal_stores_are_let_through_and_unequal_ones_race() {
    assert_eq!(
        run(&[store(0, 0)], 2, &[0], 9).0,
        outcome(Verdict::Passed, 1, &[1, 1], 0)
    );
    let race = Verdict::Race {
        row: 1,
        other_group: 0,
        thread: 1,
        other: Some(0),
        kind: AccessKind::Ww,
        at: 0,
    };
    assert_eq!(
        run(&[tid(1), store(0, 1)], 2, &[0], 9).0,
        outcome(race, 1, &[2, 1], 0)
    );
}

#[test]
fn a_load_of_anothers_store_races() {
    // Thread 1 stores cell 0; thread 0 loads it afterwards.
    let rows = [tid(0), if_(0), store(1, 0), ELSE, load(2, 1), ENDIF];
    let race = Verdict::Race {
        row: 4,
        other_group: 0,
        thread: 0,
        other: Some(1),
        kind: AccessKind::Wr,
        at: 0,
    };
    let (found, cells) = run(&rows, 2, &[5], 9);
    assert_eq!(found, outcome(race, 4, &[2, 4], 0));
    assert_eq!(cells, [1]);
}

#[test]
fn a_skipped_barrier_clears_no_log() {
    let rows = [
        tid(0),
        if_(0),
        store(1, 0),
        ENDIF,
        if_(1),
        BARRIER,
        ENDIF,
        load(2, 1),
    ];
    let found = run(&rows, 2, &[5], 99).0;
    let race = Verdict::Race {
        row: 7,
        other_group: 0,
        thread: 0,
        other: Some(1),
        kind: AccessKind::Wr,
        at: 0,
    };
    assert_eq!(found, outcome(race, 7, &[5, 6], 0));
}

#[test]
fn else_takes_the_others_even_where_the_register_has_changed() {
    // Thread 0 adds 1 in the IF to what it tests; ELSE is for thread 1 only.
    let rows = [
        tid(0),
        [12, 1, 0, 9], // R1 = thread is 0
        if_(1),
        set(1, 0),
        ELSE,
        store(9, 0),
        ENDIF,
    ];
    let (found, cells) = run(&rows, 2, &[5], 99);
    assert_eq!(found, outcome(Verdict::Passed, 7, &[6, 5], 0));
    assert_eq!(cells, [1]);
}

#[test]
fn loops_end_thread_by_thread() {
    // R0 = thread; while R0 { R0 -= 1; R2 += 1 }; cell[thread] = R2.
    let rows = [
        tid(0),
        tid(3),
        set(1, 1),
        while_(0),
        sub(0, 0, 1),
        add(2, 2, 1),
        ENDWHILE,
        store(3, 2),
    ];
    let (found, cells) = run(&rows, 4, &[9; 4], 99);
    // Each trip is WHILE and three rows; WHILE is stepped once more.
    let steps = [0, 1, 2, 3].map(|trips| 3 + 4 * trips + 1 + 1);
    assert_eq!(found, outcome(Verdict::Passed, 17, &steps, 0));
    assert_eq!(cells, [0, 1, 2, 3]);
}

#[test]
fn a_while_with_nobody_enabled_is_one_row() {
    let rows = [set(1, 1), if_(0), while_(1), BARRIER, ENDWHILE, ENDIF];
    let passed = outcome(Verdict::Passed, 4, &[3, 3], 0);
    assert_eq!(run(&rows, 2, &[0], 99).0, passed);
}

#[test]
fn a_loop_in_a_loop_saves_its_mask_anew() {
    // For R0 in thread..0: for R2 in R0..0: R4 += 1. Then cell[thread] = R4.
    let rows = [
        tid(0),
        set(1, 1),
        while_(0),
        add(2, 0, 9),
        while_(2),
        add(4, 4, 1),
        sub(2, 2, 1),
        ENDWHILE,
        sub(0, 0, 1),
        ENDWHILE,
        tid(0),
        store(0, 4),
    ];
    let (found, cells) = run(&rows, 5, &[9; 5], 9_999);
    assert_eq!(found.verdict, Verdict::Passed);
    assert_eq!(cells, [0, 1, 3, 6, 10]);
}

#[test]
fn barriers_are_observed_before_the_row_is_counted() {
    let rows = [tid(0), store(0, 0), BARRIER, BARRIER, store(0, 1)];
    let (mut cells, mut log) = ([7, 7], [0; 16]);
    let mut seen = Vec::new();
    let (table, mut steps) = (rows.concat(), [JUNK; MAX_LAUNCH_THREADS]);
    let (lent, log_lent) = (&mut cells, &mut log);
    let (mut list, observe) = ([JUNK; INTERVAL_WORDS], |group: u32, cells: &[u32]| {
        assert_eq!(group, 0);
        seen.push(cells.to_vec());
    });
    let ran = observed_launch(
        &table,
        2,
        2,
        1,
        0,
        9,
        lent,
        &mut [],
        log_lent,
        &mut list,
        &mut steps,
        observe,
    );
    let passed = outcome(Verdict::Passed, 5, &[3, 3], 2);
    assert_eq!(found(ran.unwrap(), 2, &steps), passed);
    assert_eq!(seen, [[0, 1], [0, 1]]);
    assert_eq!(cells, [0, 0]);
    assert_eq!(log[..4], [0, 0, 1, 2]);
    assert_eq!(log[4..], [0; 12]);
}

#[test]
fn all_ops_on_all_lanes_and_on_some() {
    // Every binary op over the same words, once with all threads enabled and
    // once thread by thread, must leave the same cells.
    for threads in [1, 7, 8, 9, 31, 32] {
        for op in 4..=14 {
            let prepare = [
                tid(0),
                set(1, 0x9e37),
                set(2, 0x79b9),
                [6, 1, 1, 2],
                [6, 2, 1, 0],
                [6, 3, 1, 2],
            ];
            let words: Vec<Row> = [prepare.as_slice(), &[[op, 4, 2, 3], store(0, 4)]].concat();
            let mut apart = prepare.to_vec();
            for thread in 0..threads as u16 {
                let mine = [set(5, thread), [12, 5, 5, 0], if_(5)];
                apart.extend(mine);
                apart.extend([[op, 4, 2, 3], store(0, 4), ENDIF]);
            }
            let cells = vec![0; threads as usize];
            let together = run(&words, threads, &cells, 999);
            let separate = run(&apart, threads, &cells, 999);
            assert_eq!(together.0.verdict, Verdict::Passed);
            assert_eq!(together.1, separate.1, "op {op}, {threads} threads");
        }
    }
}

/// Each thread's word and amount, both shifts put over them.
fn shifted(words: &[u32], amounts: &[u32], some_only: bool) -> Vec<u32> {
    let mut rows = vec![tid(0), [3, 1, 0, 0], add(4, 0, 1), load(2, 0), load(3, 4)];
    let shifts = [[10, 5, 2, 3], [11, 6, 2, 3], store(0, 5), store(4, 6)];
    if some_only {
        // All but thread 0.
        rows.push(if_(0));
        rows.extend(shifts);
        rows.push(ENDIF);
    } else {
        rows.extend(shifts);
    }
    let cells = [words, amounts].concat();
    let (found, after) = run(&rows, words.len() as u32, &cells, 99);
    assert_eq!(found.verdict, Verdict::Passed);
    after
}

#[test]
fn shift_amounts_are_taken_modulo_32_by_all_threads_and_by_some() {
    let amounts = [9, 0, 1, 31, 32, 33, 63, 64, 1 << 31, u32::MAX];
    let (top, most) = (1 << 31, u32::MAX);
    // By 0, 1 and 31 places.
    let expected = [
        (0, [0, 0, 0], [0, 0, 0]),
        (1, [1, 0, 0], [1, 0, 0]),
        (
            top - 1,
            [top - 1, top / 2 - 1, 0],
            [top - 1, top / 2 - 1, 0],
        ),
        (top, [top, top / 2, 1], [top, 3 << 30, most]),
        (most, [most, top - 1, 1], [most; 3]),
    ];
    for (word, shr, sar) in expected {
        let by_amount = |by: [u32; 3]| [0, 1, 2, 0, 1, 2, 0, 0, 2].map(|at| by[at]);
        for some_only in [false, true] {
            let after = shifted(&[word; 10], &amounts, some_only);
            assert_eq!(after[1..10], by_amount(shr), "{word}, some {some_only}");
            assert_eq!(after[11..], by_amount(sar), "{word}, some {some_only}");
            // Thread 0 has shifted, or kept its word and its amount.
            let first = if some_only {
                9
            } else {
                word.cast_signed() >> 9
            };
            assert_eq!(after[10], first as u32);
        }
    }
}

#[test]
fn a_shift_by_32_keeps_a_loop_going_and_one_by_33_ends_it() {
    // R0 = 5; while R0 { R0 = R0 >> R1; R2 += 1 }; cell[0] = R2.
    let rows = |amount, op| {
        [
            set(0, 5),
            set(1, amount),
            set(3, 1),
            while_(0),
            [op, 0, 0, 1],
            add(2, 2, 3),
            ENDWHILE,
            store(9, 2),
        ]
    };
    for op in [10, 11] {
        for endless in [0, 32, 64, 32_768] {
            let found = run(&rows(endless, op), 1, &[7], 99).0;
            assert!(matches!(found.verdict, Verdict::Spent { .. }), "{endless}");
        }
        for (amount, trips) in [(1, 3), (33, 3), (34, 2), (35, 1), (63, 1)] {
            let (found, cells) = run(&rows(amount, op), 1, &[7], 99);
            assert_eq!(found.verdict, Verdict::Passed);
            assert_eq!(cells, [trips], "{amount}");
        }
    }
}
