//! "Turned back": each number with its place, and their order.

mod common;

use checker::{Refusal, INTERVAL_WORDS, MAX_LAUNCH_THREADS};
use common::*;

fn refusal(number: u32, place: u32) -> Refusal {
    Refusal { number, place }
}

/// P1's file with line `line` (from 1) replaced.
fn p1_with(line: usize, text: &str) -> String {
    let mut lines: Vec<&str> = P1.lines().collect();
    lines[line - 1] = text;
    lines.join("\n") + "\n"
}

fn bare(table: &[u8], threads: u32, cells: u32, limit: u32) -> Refusal {
    let mut steps = [JUNK; MAX_LAUNCH_THREADS];
    let none = (&mut [], &mut [], &mut []);
    let refused = one_group(
        table, threads, cells, limit, none.0, none.1, none.2, &mut steps,
    );
    assert_eq!(steps, [JUNK; MAX_LAUNCH_THREADS]);
    refused.unwrap_err()
}

#[test]
fn bare_launches_in_order() {
    let bad_row = [9; 1_032];
    assert_eq!(bare(&bad_row[..1_031], 0, 0, u32::MAX), refusal(1, 0));
    assert_eq!(bare(&bad_row[..1_028], 0, 0, u32::MAX), refusal(2, 0));
    assert_eq!(bare(&[99; 1_024], 0, 0, u32::MAX), refusal(8, 0));
    assert_eq!(bare(&[99; 4], 33, 0, u32::MAX), refusal(8, 0));
    assert_eq!(bare(&[99; 4], 32, 0, u32::MAX), refusal(9, 0));
    assert_eq!(bare(&[99; 4], 1, 1_025, u32::MAX), refusal(9, 0));
    assert_eq!(bare(&[99; 4], 1, 1_024, 1_000_001), refusal(10, 0));
    assert_eq!(bare(&[99; 4], 1, 1, 1_000_000), refusal(3, 0));
    assert_eq!(bare(&[], 1, 1, 0), refusal(20, 0));
}

#[test]
fn lent_buffers_fit_exactly() {
    for (cells, log, expected) in [
        (1, 16, refusal(20, 0)),
        (3, 15, refusal(20, 0)),
        (2, 15, refusal(21, 0)),
        (2, 17, refusal(21, 0)),
        (2, 4, refusal(21, 0)),  // twice the cells
        (2, 6, refusal(21, 0)),  // three times, as without values and marks
        (2, 10, refusal(21, 0)), // five times, as without group masks
        (2, 14, refusal(21, 0)),
        (2, 18, refusal(21, 0)),
        (2, 0, refusal(21, 0)),
    ] {
        let (mut lent_cells, mut lent_log) = (vec![5; cells], vec![6; log]);
        let mut steps = [JUNK; MAX_LAUNCH_THREADS];
        let mut list = [JUNK; INTERVAL_WORDS];
        let (cells_lent, log_lent) = (&mut lent_cells, &mut lent_log);
        let found = one_group(&[], 1, 2, 0, cells_lent, log_lent, &mut list, &mut steps);
        assert_eq!((found, steps), (Err(expected), [JUNK; MAX_LAUNCH_THREADS]));
        assert_eq!(list, [JUNK; INTERVAL_WORDS]);
        assert_eq!((lent_cells, lent_log), (vec![5; cells], vec![6; log]));
    }
    let (cells, log, list) = (&mut [5; 2], &mut [6; 16], &mut [7; INTERVAL_WORDS]);
    let fitting = one_group(&[], 1, 2, 0, cells, log, list, &mut [0; MAX_LAUNCH_THREADS]);
    assert!(fitting.is_ok());
}

#[test]
fn rows_3_unknown_op() {
    for op in [0, 15, 23, 31, 38, 255] {
        assert_eq!(refused(&[tid(0), [op, 255, 255, 255]]), refusal(3, 1));
    }
}

#[test]
fn rows_4_operands() {
    let wrong: [Row; 40] = [
        [1, 16, 0, 0],
        [2, 16, 0, 0],
        [2, 0, 1, 0],
        [2, 0, 0, 1],
        [3, 0, 1, 0],
        [4, 16, 0, 0],
        [9, 0, 16, 0],
        [14, 0, 0, 16],
        [16, 16, 0, 0],
        [16, 0, 16, 0],
        [16, 0, 0, 1],
        [17, 0, 0, 1],
        [18, 16, 0, 0],
        [18, 255, 15, 0],
        [18, 0, 16, 0],
        [18, 15, 255, 0],
        [18, 0, 0, 1],
        [18, 0, 0, 16],
        [18, 15, 15, 255],
        [19, 16, 0, 0],
        [19, 0, 1, 0],
        [19, 0, 0, 1],
        [20, 16, 0, 0],
        [20, 0, 16, 0],
        [20, 0, 0, 1],
        [21, 16, 0, 0],
        [21, 0, 16, 0],
        [21, 0, 0, 1],
        [22, 16, 0, 0],
        [22, 0, 16, 0],
        [22, 0, 0, 1],
        [32, 1, 0, 0],
        [32, 0, 16, 0],
        [32, 0, 0, 1],
        [35, 1, 0, 0],
        [33, 1, 0, 0],
        [34, 0, 1, 0],
        [36, 0, 0, 1],
        [37, 1, 0, 0],
        [37, 0, 0, 255],
    ];
    for row in wrong {
        assert_eq!(refused(&[tid(15), row]), refusal(4, 1), "{row:?}");
    }
}

#[test]
fn rows_5_misfits() {
    for row in [ELSE, ENDIF, ENDWHILE] {
        assert_eq!(refused(&[row]), refusal(5, 0));
        assert_eq!(refused(&[if_(0), ENDIF, row]), refusal(5, 2));
    }
    assert_eq!(refused(&[if_(0), ELSE, ELSE]), refusal(5, 2));
    assert_eq!(refused(&[if_(0), ENDWHILE]), refusal(5, 1));
    assert_eq!(refused(&[if_(0), ELSE, ENDWHILE]), refusal(5, 2));
    assert_eq!(refused(&[while_(0), ELSE]), refusal(5, 1));
    assert_eq!(refused(&[while_(0), ENDIF]), refusal(5, 1));
    assert_eq!(refused(&[if_(0), while_(0), ENDIF]), refusal(5, 2));
}

#[test]
fn rows_6_a_ninth_nesting() {
    let mut rows = [if_(0), while_(0)].repeat(4);
    rows.push(if_(0));
    assert_eq!(refused(&rows), refusal(6, 8));
    rows[8] = while_(0);
    assert_eq!(refused(&rows), refusal(6, 8));
    // Within a row 3, 4, 5, 6.
    rows[8] = if_(16);
    assert_eq!(refused(&rows), refusal(4, 8));
    rows[8] = [99, 0, 16, 0];
    assert_eq!(refused(&rows), refusal(3, 8));
}

#[test]
fn rows_7_left_open() {
    assert_eq!(refused(&[tid(0), if_(0)]), refusal(7, 1));
    assert_eq!(refused(&[if_(0), tid(0), ELSE, tid(0)]), refusal(7, 0));
    assert_eq!(refused(&[if_(0), while_(0), tid(0)]), refusal(7, 1));
    assert_eq!(refused(&[while_(0), if_(0), ENDIF]), refusal(7, 0));
    let eight = [while_(0)].repeat(8);
    assert_eq!(refused(&eight), refusal(7, 7));
    // 7 comes after every row's refusals.
    assert_eq!(refused(&[if_(0), tid(0), [99; 4]]), refusal(3, 2));
}

#[test]
fn files_12_too_long() {
    let mut text = P1.to_string();
    text += &"x".repeat(32_768 - text.len());
    assert_eq!(turned_back(&text), (11, 19));
    text.push('x');
    assert_eq!(turned_back(&text), (12, 0));
    assert_eq!(turned_back(&"\n".repeat(32_769)), (12, 0));
}

#[test]
fn files_11_each_line_due() {
    assert_eq!(turned_back(""), (11, 1));
    let lines: Vec<&str> = P1.lines().collect();
    for line in 1..=lines.len() {
        let number = line as u32;
        // Cut off before it, within it, and before its line end.
        let before: String = lines[..line - 1].iter().map(|l| format!("{l}\n")).collect();
        assert_eq!(turned_back(&before), (11, number));
        assert_eq!(turned_back(&(before.clone() + "t")), (11, number));
        assert_eq!(turned_back(&(before + lines[line - 1])), (11, number));
        // Replaced, and with bytes around its value.
        for text in ["", "=", "x", "kernel", "kernel=2", "row=1,1,1"] {
            assert_eq!(turned_back(&p1_with(line, text)), (11, number));
        }
        for text in [
            format!("{} ", lines[line - 1]),
            format!(" {}", lines[line - 1]),
        ] {
            assert_eq!(turned_back(&p1_with(line, &text)), (11, number));
        }
        assert_eq!(
            turned_back(&p1_with(line, &format!("{}\r", lines[line - 1]))),
            (11, number)
        );
    }
}

#[test]
fn files_11_behind_the_end() {
    assert_eq!(turned_back(&format!("{P1}\n")), (11, 19));
    assert_eq!(turned_back(&format!("{P1}x")), (11, 19));
    assert_eq!(turned_back(&format!("{P1}\0")), (11, 19));
    assert_eq!(turned_back(&p1_with(18, "end=kernelx")), (11, 18));
}

#[test]
fn files_11_numbers() {
    for (line, key) in [
        (2, "threads"),
        (3, "cells"),
        (4, "groups"),
        (5, "global"),
        (6, "limit"),
        (7, "rows"),
        (15, "cell"),
    ] {
        for value in [
            "",
            "01",
            "00",
            "+1",
            "-1",
            "4294967296",
            "99999999999999999999",
            "1,1",
            "0x1",
        ] {
            let text = p1_with(line, &format!("{key}={value}"));
            assert_eq!(turned_back(&text), (11, line as u32), "{key}={value}");
        }
    }
    for value in [
        "256,0,0,0",
        "2,0,0,00",
        "2,0,0",
        "2,0,0,0,0",
        "2,0,0,",
        "2,,0,0",
        "2;0;0;0",
    ] {
        assert_eq!(turned_back(&p1_with(8, &format!("row={value}"))), (11, 8));
    }
}

#[test]
fn files_8_9_10_2_at_their_lines() {
    for value in ["0", "33", "4294967295"] {
        assert_eq!(
            turned_back(&p1_with(2, &format!("threads={value}"))),
            (8, 2)
        );
    }
    for value in ["0", "1025", "4294967295"] {
        assert_eq!(turned_back(&p1_with(3, &format!("cells={value}"))), (9, 3));
    }
    for value in ["0", "9", "4294967295"] {
        let file = p1_with(4, &format!("groups={value}"));
        assert_eq!(turned_back(&file), (32, 4));
    }
    for value in ["1022", "1024", "4294967293", "4294967295"] {
        let file = p1_with(5, &format!("global={value}"));
        assert_eq!(turned_back(&file), (33, 5));
    }
    for value in ["1000001", "4294967295"] {
        assert_eq!(turned_back(&p1_with(6, &format!("limit={value}"))), (10, 6));
    }
    for value in ["257", "4294967295"] {
        assert_eq!(turned_back(&p1_with(7, &format!("rows={value}"))), (2, 7));
    }
    // Line by line: an early range comes before a later malformed line.
    let early = p1_with(2, "threads=33").replace("cells=3", "cells=x");
    assert_eq!(turned_back(&early), (8, 2));
    assert_eq!(turned_back("kernel=1\nthreads=33"), (11, 2));
    assert_eq!(turned_back("kernel=1\nthreads=33\n"), (8, 2));
}

#[test]
fn files_more_or_fewer_lines_than_said() {
    assert_eq!(turned_back(&p1_with(7, "rows=6")), (11, 14));
    assert_eq!(turned_back(&p1_with(7, "rows=8")), (11, 15));
    assert_eq!(turned_back(&p1_with(3, "cells=2")), (11, 17));
    assert_eq!(turned_back(&p1_with(3, "cells=4")), (11, 18));
}

#[test]
fn files_rows_come_after_all_lines_and_count_from_0() {
    assert_eq!(turned_back(&file(&[tid(0), [99, 0, 0, 0]])), (3, 1));
    assert_eq!(turned_back(&file(&[[2, 16, 0, 0]])), (4, 0));
    assert_eq!(turned_back(&file(&[tid(0), tid(0), ELSE])), (5, 2));
    let mut nine = [if_(0)].repeat(9);
    nine.extend([ENDIF].repeat(9));
    assert_eq!(turned_back(&file(&nine)), (6, 8));
    assert_eq!(turned_back(&file(&[while_(0)])), (7, 0));
    let both = file(&[[99, 0, 0, 0]]).replace("cell=0", "cell=x");
    assert_eq!(turned_back(&both), (11, 9));
}

#[test]
fn whole_file_buffers() {
    for (cells, log, out, expected) in [
        (1_023, 8_191, 0, 20),
        (1_025, 8_192, 24_576, 20),
        (3, 24, 24_576, 20),
        (1_024, 8_191, 24_575, 21),
        (1_024, 8_193, 24_576, 21),
        (1_024, 5_120, 24_576, 21),
        (1_024, 2_048, 24_576, 21),
        (1_024, 3_072, 24_576, 21),
        (1_024, 4_096, 24_576, 21),
        (1_024, 6_144, 24_576, 21),
        (1_024, 24, 24_576, 21), // eight times the file's own cells
        (1_024, 8_192, 24_575, 24),
        (1_024, 8_192, 17_408, 24),
        (1_024, 8_192, 0, 24),
    ] {
        let (mut lent_cells, mut lent_log, mut room) = (vec![5; cells], vec![6; log], vec![7; out]);
        let list = &mut [JUNK; INTERVAL_WORDS];
        let found = check_without_global(
            P1.as_bytes(),
            &mut lent_cells,
            &mut lent_log,
            list,
            &mut room,
        );
        assert_eq!(found, Err(refusal(expected, 0)));
        let input = check_without_global(b"", &mut lent_cells, &mut lent_log, list, &mut room);
        assert_eq!(list, &[JUNK; INTERVAL_WORDS]);
        assert_eq!(input, Err(refusal(11, 1)));
        assert_eq!(lent_cells, vec![5; cells]);
        assert_eq!(lent_log, vec![6; log]);
        assert_eq!(room, vec![7; out]);
    }
}
