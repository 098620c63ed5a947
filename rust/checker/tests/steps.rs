//! Item 4, steps for each thread: what each row adds to whose count.

mod common;

use checker::{AccessKind, Verdict};
use common::*;

const PASSED: Verdict = Verdict::Passed;
/// R1 = R1 + R1, a row that only counts.
const COUNTED: Row = [4, 1, 1, 1];

/// The counts of a launch with a cell for each thread.
fn steps(rows: &[Row], threads: u32) -> Vec<u32> {
    run(rows, threads, &vec![0; threads as usize], 9_999)
        .0
        .steps
}

/// The `steps=` lines of a report, and the lines around them.
fn step_lines(file: &str) -> (Vec<String>, [String; 2]) {
    let report = check(file.as_bytes()).unwrap();
    let lines: Vec<&str> = report.lines().collect();
    let first = lines.iter().position(|line| line.starts_with("steps="));
    let last = lines.iter().rposition(|line| line.starts_with("steps="));
    let (first, last) = (first.unwrap(), last.unwrap());
    let counts = &lines[first..=last];
    let around = [lines[first - 1], lines[last + 1]].map(String::from);
    (counts.iter().map(|line| line.to_string()).collect(), around)
}

#[test]
fn p1_prints_7_and_6_p2_7_and_7_and_p5_2_and_2() {
    let p2 = P1
        .replace("rows=7", "rows=8")
        .replace("row=16,4,0,0", "row=37,0,0,0\nrow=16,4,0,0");
    let p5 = file(&[tid(0), if_(0), BARRIER, ELSE, BARRIER, ENDIF]);
    for (file, lines, around) in [
        (P1, ["steps=7", "steps=6"], ["rows=6", "barriers=0"]),
        (&p2, ["steps=7", "steps=7"], ["rows=8", "barriers=1"]),
        (&p5, ["steps=2", "steps=2"], ["rows=2", "barriers=0"]),
    ] {
        let found = step_lines(file);
        assert_eq!(found.0, lines);
        assert_eq!(found.1, around);
    }
}

#[test]
fn every_thread_has_its_line_thread_0_first() {
    // Thread t goes t times round a loop of three rows.
    let rows = [tid(0), set(1, 1), while_(0), sub(0, 0, 1), ENDWHILE];
    for threads in 1..=32 {
        let text = file(&rows).replace("threads=2", &format!("threads={threads}"));
        let text = text.replace("limit=9", "limit=999");
        let lines: Vec<String> = (0..threads)
            .map(|t| format!("steps={}", 3 + 3 * t))
            .collect();
        assert_eq!(step_lines(&text).0, lines);
    }
}

#[test]
fn a_thread_that_is_never_enabled_in_a_construct_has_its_line() {
    // Only the last thread goes into the loop, and it runs until it is spent.
    let rows = [tid(0), set(1, 31), [12, 2, 0, 1], while_(2), ENDWHILE];
    let text = file(&rows).replace("threads=2", "threads=32");
    let (lines, _) = step_lines(&text);
    assert_eq!(lines[..31], ["steps=4"; 31]);
    assert_eq!(lines[31], "steps=9");
}

#[test]
fn a_row_counts_for_the_enabled_threads_only() {
    for threads in [2, 3, 8, 9, 31, 32] {
        for one in 0..threads {
            let mine = [tid(0), set(2, one as u16), [12, 3, 0, 2], if_(3)];
            let rows = [&mine[..], &[COUNTED; 5], &[ENDIF]].concat();
            let mut expected = vec![5; threads as usize];
            expected[one as usize] = 10;
            assert_eq!(steps(&rows, threads), expected);
        }
    }
}

#[test]
fn if_counts_for_all_that_come_else_for_the_first_arm_endif_for_all() {
    let rows = [tid(0), if_(0), COUNTED, COUNTED, ELSE, COUNTED, ENDIF];
    // Thread 0: TID, IF, the second arm's row, ENDIF. The others: TID, IF, two
    // rows, ELSE, ENDIF.
    assert_eq!(steps(&rows, 3), [4, 6, 6]);
    // Without rows in its arms, ELSE makes the difference.
    assert_eq!(steps(&[tid(0), if_(0), ELSE, ENDIF], 3), [3, 4, 4]);
    assert_eq!(steps(&[tid(0), if_(0), ENDIF], 3), [3, 3, 3]);
}

#[test]
fn an_if_that_all_threads_take_or_none_takes() {
    let rows = |a| [set(1, 1), if_(a), COUNTED, COUNTED, ELSE, COUNTED, ENDIF];
    assert_eq!(steps(&rows(1), 3), [6; 3]);
    assert_eq!(steps(&rows(15), 3), [4; 3]);
}

#[test]
fn while_counts_for_those_that_come_and_its_end_for_those_that_stay() {
    let rows = [
        tid(0),
        set(2, 1),
        while_(0),
        COUNTED,
        sub(0, 0, 2),
        ENDWHILE,
    ];
    assert_eq!(steps(&rows, 4), [3, 7, 11, 15]);
}

#[test]
fn inner_constructs_give_the_mask_back() {
    // Odd threads: an IF for threads 2 and up, a loop of R0 trips, one row.
    let rows = [
        tid(0),
        set(2, 1),
        [7, 3, 0, 2],  // R3 = odd
        [13, 4, 2, 0], // R4 = 1 < thread
        if_(3),
        if_(4),
        COUNTED,
        ELSE,
        COUNTED,
        COUNTED,
        COUNTED,
        ENDIF,
        while_(0),
        sub(0, 0, 2),
        ENDWHILE,
        COUNTED,
        ENDIF,
    ];
    let all = 4 + 1 + 1; // the rows above, IF and its ENDIF
    let inner = |own: u32, trips: u32| all + 1 + own + 1 + 3 * trips + 1 + 1;
    // The first arm is a row and ELSE, the second one is three rows.
    assert_eq!(steps(&rows, 4), [all, inner(3, 1), all, inner(2, 3)]);
}

#[test]
fn barriers_count_for_nobody() {
    assert_eq!(steps(&[BARRIER; 5], 3), [0; 3]);
    assert_eq!(steps(&[BARRIER, COUNTED, BARRIER, BARRIER], 2), [1; 2]);
    // Skipped ones beside a partial mask, in an arm and in a loop.
    let skipped = [if_(15), BARRIER, ENDIF];
    let rows = [&[tid(0), if_(0)], &skipped[..], &[ENDIF, BARRIER]].concat();
    assert_eq!(steps(&rows, 2), [3, 5]);
    let rows = [
        set(1, 3),
        set(2, 1),
        while_(1),
        BARRIER,
        sub(1, 1, 2),
        ENDWHILE,
        BARRIER,
    ];
    let (found, _) = run(&rows, 2, &[0], 99);
    assert_eq!(found, outcome(PASSED, 16, &[12; 2], 4));
}

#[test]
fn a_diverged_barrier_counts_for_nobody() {
    for threads in 2..=32 {
        for one in 0..threads {
            let rows = [
                tid(0),
                set(2, one as u16),
                [12, 3, 0, 2],
                if_(3),
                COUNTED,
                BARRIER,
                ENDIF,
            ];
            let (found, _) = run(&rows, threads, &[0], 99);
            let mut expected = vec![4; threads as usize];
            expected[one as usize] = 5;
            assert!(matches!(found.verdict, Verdict::Diverged { row: 5, .. }));
            assert_eq!(found.steps, expected);
        }
    }
}

/// All threads but every third go into an arm, and one of them stops there:
/// the lower ones of the arm have stepped, it and the others haven't.
#[test]
fn a_stopped_row_counts_for_the_lower_threads_of_its_arm() {
    for access in [load(6, 5), store(5, 0), atomic_add(5, 0)] {
        for stopping in (0..32).filter(|thread| thread % 3 != 2) {
            let found = stopped_in_an_arm(access, stopping);
            let expected: Vec<u32> = (0..32)
                .map(|thread| match thread % 3 {
                    2 => 7,
                    _ if thread < stopping => 9,
                    _ => 8,
                })
                .collect();
            let outside = Verdict::Outside {
                row: 8,
                thread: stopping,
                at: stopping + 1_024,
            };
            assert_eq!(found, outcome(outside, 8, &expected, 0));
        }
    }
}

/// Cells of their own for all, but far off for the stopping thread; IF for the
/// threads whose word isn't 0.
fn stopped_in_an_arm(access: Row, stopping: u32) -> Found {
    let rows = [
        tid(0),
        set(2, 32),
        add(2, 2, 0),
        load(3, 2), // the arm
        COUNTED,
        load(5, 0), // the cell to be used
        if_(3),
        COUNTED,
        access,
        ENDIF,
    ];
    let mut cells: Vec<u32> = (0..32).collect();
    cells[stopping as usize] += 1_024;
    cells.extend((0..32).map(|thread| u32::from(thread % 3 != 2)));
    run(&rows, 32, &cells, 99).0
}

#[test]
fn a_racing_thread_is_not_counted_and_the_lower_ones_are() {
    // Thread 5 stores to thread 2's cell, which has just been stored.
    let rows = [
        tid(0),
        set(2, 5),
        [12, 3, 0, 2],
        set(4, 3),
        [6, 3, 3, 4],
        sub(3, 0, 3), // thread 5: 2
        store(3, 0),
    ];
    let (found, cells) = run(&rows, 8, &[9; 8], 99);
    let race = Verdict::Race {
        row: 6,
        other_group: 0,
        thread: 5,
        other: Some(2),
        kind: AccessKind::Ww,
        at: 2,
    };
    assert_eq!(found, outcome(race, 6, &[7, 7, 7, 7, 7, 6, 6, 6], 0));
    assert_eq!(cells, [0, 1, 2, 3, 4, 9, 9, 9]);
}

#[test]
fn the_limit_cuts_counts_off_at_every_row() {
    // The counts of each limit differ from the last by one row's threads.
    let rows = [
        tid(0),
        set(2, 1),
        if_(0),
        while_(0),
        sub(0, 0, 2),
        ENDWHILE,
        COUNTED,
        ELSE,
        COUNTED,
        ENDIF,
        COUNTED,
    ];
    // Which of the three threads step in each row run.
    let stepping: [&[usize]; 18] = [
        &[0, 1, 2],
        &[0, 1, 2],
        &[0, 1, 2],
        &[1, 2], // WHILE
        &[1, 2],
        &[1, 2],
        &[1, 2], // WHILE, left by thread 1
        &[2],
        &[2],
        &[2], // WHILE, left by thread 2
        &[1, 2],
        &[1, 2], // ELSE
        &[0],
        &[0, 1, 2], // ENDIF
        &[0, 1, 2],
        &[],
        &[],
        &[],
    ];
    let mut expected = vec![0; 3];
    for limit in 0..18 {
        let (found, _) = run(&rows, 3, &[0], limit);
        assert_eq!(
            (found.rows, &found.steps),
            (limit.min(15), &expected),
            "{limit}"
        );
        assert_eq!(found.verdict == PASSED, limit >= 15);
        for &thread in stepping[limit as usize] {
            expected[thread] += 1;
        }
    }
}

#[test]
fn counts_go_past_16_bits_and_their_sum_past_24() {
    // 32 threads in an endless loop, all but thread 0.
    let rows = [tid(0), while_(0), COUNTED, ENDWHILE];
    let (found, _) = run(&rows, 32, &[0], 1_000_000);
    let mut expected = [1_000_000; 32];
    expected[0] = 2;
    assert_eq!(found.steps, expected);
    assert!(found.steps.iter().sum::<u32>() > 1 << 24);
}

/// Many rows that change the mask, more than are kept apart on the way.
#[test]
fn long_tables_of_changing_masks_are_counted_right() {
    let arm = |bit: u16| [set(2, 1 << bit), [7, 2, 0, 2], if_(2), COUNTED, ELSE, ENDIF];
    let mut rows = vec![tid(0), set(3, 5), set(4, 1), while_(3)];
    for turn in 0..40 {
        rows.extend(arm(turn % 5));
    }
    rows.extend([sub(3, 3, 4), ENDWHILE]);
    // IF, its ENDIF and two rows by all; two rows more where the bit is set.
    let of = |thread: u32| 3 + 5 * (1 + 40 * 4 + 16 * thread.count_ones() + 2) + 1;
    let expected: Vec<u32> = (0..32).map(of).collect();
    assert_eq!(steps(&rows, 32), expected);
}
