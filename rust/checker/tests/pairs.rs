//! Item 12: common cells, and two kernels over one set of them.

mod common;

use checker::{
    common_launch, number, pair_files, parse_common, AccessKind, Outcome, Refusal, Verdict,
    COMMON_FROM, INTERVAL_WORDS, MAX_COMMON, MAX_LAUNCH_THREADS, PAIR_ROOM,
};
use common::*;

/// The first common cell's number.
const FIRST: u32 = 65_536;

/// What a launch came to, and what it left.
#[derive(Debug, PartialEq)]
struct Left {
    outcome: Outcome,
    steps: Vec<u32>,
    cells: Vec<u32>,
    global: Vec<u32>,
    /// One list of words for each of the eight kinds.
    log: Vec<Vec<u32>>,
    records: Vec<[u32; 3]>,
    /// The groups and their cells at counted barriers.
    seen: Vec<(u32, Vec<u32>)>,
}

/// Runs a launch with buffers that fit. The words behind the records must be
/// kept, and the steps behind the last launch number be 0.
fn launch(
    coefficients: &[u32],
    rows: &[Row],
    (groups, threads): (u32, u32),
    cells: &[u32],
    global: &[u32],
) -> Left {
    let (mut own, mut shared) = (cells.to_vec(), global.to_vec());
    let all = own.len() + shared.len();
    let (mut log, mut list) = (vec![JUNK; 8 * all], vec![JUNK; INTERVAL_WORDS]);
    let mut steps = [JUNK; MAX_LAUNCH_THREADS];
    let mut seen = Vec::new();
    let ran = common_launch(
        coefficients,
        &rows.concat(),
        threads,
        cells.len() as u32 / groups,
        groups,
        global.len() as u32,
        9_999,
        &mut own,
        &mut shared,
        &mut log,
        &mut list,
        &mut steps,
        |group, cells| seen.push((group, cells.to_vec())),
    );
    let outcome = ran.expect("a launch that isn't refused");
    let (steps, behind) = steps.split_at((groups * threads) as usize);
    assert!(behind.iter().all(|&word| word == 0));
    let (records, kept) = list.split_at(3 * (outcome.group + 1 + outcome.barriers) as usize);
    assert!(kept.iter().all(|&word| word == JUNK));
    Left {
        outcome,
        steps: steps.to_vec(),
        cells: own,
        global: shared,
        log: log.chunks(all).map(<[u32]>::to_vec).collect(),
        records: records.as_chunks().0.to_vec(),
        seen,
    }
}

fn mul(d: u8, a: u8, b: u8) -> Row {
    [6, d, a, b]
}

/// Any word into a register other than 14, in 6 rows: SET holds 16 bits.
fn word(d: u8, word: u32) -> [Row; 6] {
    [
        set(d, (word >> 16) as u16),
        set(14, 256),
        mul(d, d, 14),
        mul(d, d, 14),
        set(14, word as u16),
        add(d, d, 14),
    ]
}

/// 65,536 into a register, in 2 rows.
fn first(d: u8) -> [Row; 2] {
    [set(d, 256), mul(d, d, d)]
}

/// R0 is the thread's number and R1 the word of its cell: the number that the
/// row behind uses.
const LOOK_UP: [Row; 2] = [[2, 0, 0, 0], [16, 1, 0, 0]];

/// One access by each thread at the number that its own cell holds. Stores and
/// adds are of the thread's number.
fn each_at(access: u8, numbers: &[u32], behind: usize, coefficients: &[u32]) -> Left {
    let row = match access {
        16 => load(2, 1),
        17 => store(1, 0),
        _ => atomic_add(1, 0),
    };
    let rows = [&LOOK_UP[..], &[row]].concat();
    let cells = [numbers, &vec![0; behind]].concat();
    launch(coefficients, &rows, (1, numbers.len() as u32), &cells, &[])
}

#[test]
fn the_constants() {
    assert_eq!((MAX_COMMON, COMMON_FROM, PAIR_ROOM), (256, 65_536, 49_152));
    assert_eq!(number::COMMON_FILE, 37);
}

#[test]
fn a_load_takes_the_word_in_one_step_and_logs_nothing() {
    let rows = [&first(0)[..], &[load(1, 0), tid(2), store(2, 1)]].concat();
    let left = launch(&[77], &rows, (1, 2), &[5, 6], &[]);
    assert_eq!(left.outcome.verdict, Verdict::Passed);
    assert_eq!((left.outcome.rows, left.steps), (5, vec![5, 5]));
    assert_eq!(left.cells, [77, 77]);
    assert_eq!(left.log[0], [0, 0]);
    assert_eq!(left.log[1], [1, 2]);
    assert_eq!(left.log[3], [77, 77]);
    for kind in [2, 4, 5, 6, 7] {
        assert_eq!(left.log[kind], [0, 0]);
    }
    assert_eq!(left.records, [[0, 5, 0]]);
}

#[test]
fn each_thread_its_own_coefficient() {
    let rows = [
        &first(0)[..],
        &[tid(2), add(0, 0, 2), load(1, 0), store(2, 1)],
    ]
    .concat();
    for threads in [1, 2, 8, 9, 31, 32] {
        let coefficients: Vec<u32> = (0..threads).map(|i| u32::MAX - 7 * i).collect();
        let left = launch(
            &coefficients,
            &rows,
            (1, threads),
            &vec![0; threads as usize],
            &[],
        );
        assert_eq!(left.outcome.verdict, Verdict::Passed);
        assert_eq!(left.cells, coefficients);
        assert_eq!(left.steps, vec![6; threads as usize]);
        assert_eq!(left.log[0], vec![0; threads as usize]);
    }
}

/// The verdict of one thread's access at a number, over 4 own cells.
fn single(access: u8, at: u32, coefficients: usize) -> Verdict {
    let rows = [&word(0, at)[..], &[[access, 0, 0, 0]]].concat();
    let left = launch(&vec![9; coefficients], &rows, (1, 1), &[1, 2, 3, 4], &[]);
    let (outcome, row, thread) = (left.outcome, 6, 0);
    match outcome.verdict {
        Verdict::Passed => assert_eq!((outcome.rows, &left.steps[..]), (7, &[7][..])),
        verdict => {
            let outside = Verdict::Outside { row, thread, at };
            let common = Verdict::Common { row, thread, at };
            assert!([outside, common].contains(&verdict), "{verdict:?}");
            assert_eq!((outcome.rows, &left.steps[..]), (6, &[6][..]));
            assert_eq!(left.cells, [1, 2, 3, 4]);
            assert!(left.log.concat().iter().all(|&word| word == 0));
        }
    }
    outcome.verdict
}

#[test]
fn own_cells_then_common_then_outside() {
    let (row, thread) = (6, 0);
    for count in [0, 1, 3, 255, 256] {
        let past = FIRST + count as u32;
        let mut outside = vec![4, 5, 255, 256, 1_023, 1_024, 32_768, 65_534, 65_535];
        // Past the common cells, and numbers with the same low bits.
        outside.extend([past, past + 1, 65_792, 65_793, 131_071, 131_072, 131_073]);
        outside.extend([1 << 24, FIRST << 1, FIRST + (1 << 31), 1 << 31, u32::MAX]);
        for at in outside {
            for access in [16, 17, 18] {
                let expected = Verdict::Outside { row, thread, at };
                assert_eq!(
                    single(access, at, count),
                    expected,
                    "{access}, {at}, {count}"
                );
            }
        }
        for at in FIRST..past {
            assert_eq!(single(16, at, count), Verdict::Passed);
            for access in [17, 18] {
                let expected = Verdict::Common { row, thread, at };
                assert_eq!(single(access, at, count), expected);
            }
        }
        for at in 0..4 {
            for access in [16, 17, 18] {
                assert_eq!(single(access, at, count), Verdict::Passed);
            }
        }
    }
}

#[test]
fn each_of_256_words_is_found() {
    let coefficients: Vec<u32> = (0..256).map(|i| i * i + 1).collect();
    // R3 goes from 0 to 255; cell 0 collects.
    let mut rows = [&first(0)[..], &[set(5, 256), set(6, 1), set(7, 1)]].concat();
    rows.extend([while_(7), add(4, 0, 3), load(4, 4), add(8, 8, 4)]);
    rows.extend([add(3, 3, 6), [13, 7, 3, 5], ENDWHILE, store(15, 8)]);
    let left = launch(&coefficients, &rows, (1, 1), &[0], &[]);
    assert_eq!(left.outcome.verdict, Verdict::Passed);
    assert_eq!(left.cells, [coefficients.iter().sum::<u32>()]);
    assert_eq!(left.outcome.rows, 5 + 256 * 7 + 1 + 1);
}

#[test]
fn lower_threads_have_acted_and_the_row_is_not_in_rows() {
    // Thread 0 at its cell, thread 1 at common cell 1, thread 2 at its cell.
    for access in [17, 18] {
        let stop =
            |coefficients: &[u32]| each_at(access, &[0, FIRST + 1, 2, FIRST], 1, coefficients);
        let left = stop(&[5, 6]);
        let (row, thread, at) = (2, 1, FIRST + 1);
        assert_eq!(left.outcome.verdict, Verdict::Common { row, thread, at });
        assert_eq!((left.outcome.group, left.outcome.rows), (0, 2));
        assert_eq!(left.outcome.barriers, 0);
        assert_eq!(left.steps, [3, 2, 2, 2]);
        assert_eq!(left.cells, [0, FIRST + 1, 2, FIRST, 0]);
        assert_eq!(left.log[0], [1, 2, 4, 8, 0]);
        let (stored, added) = if access == 17 { (1, 0) } else { (0, 1) };
        assert_eq!(left.log[1], [stored, 0, 0, 0, 0]);
        assert_eq!(left.log[2], [added, 0, 0, 0, 0]);
        assert_eq!(left.log[3..].concat(), [0; 25]);
        assert_eq!(left.records, [[0, 2, 0]]);
        // With one common cell fewer it is outside, and nothing else changes.
        let mut outside = stop(&[5]);
        assert_eq!(
            outside.outcome.verdict,
            Verdict::Outside { row, thread, at }
        );
        outside.outcome.verdict = left.outcome.verdict;
        assert_eq!(outside, left);
    }
}

#[test]
fn the_lowest_thread_that_stops_decides() {
    let stop = |access, numbers: &[u32]| each_at(access, numbers, 0, &[5]).outcome.verdict;
    let row = 2;
    for (access, kind) in [(17, AccessKind::Ww), (18, AccessKind::Ra)] {
        let race = |thread, other| Verdict::Race {
            row,
            other_group: 0,
            thread,
            other: Some(other),
            kind,
            at: 0,
        };
        let at = FIRST;
        let common = |thread| Verdict::Common { row, thread, at };
        // Thread 1 races at cell 0 with thread 0, which looked its number up there
        // and then stored or added.
        assert_eq!(stop(access, &[0, 0, FIRST]), race(1, 0));
        assert_eq!(stop(access, &[FIRST, 0, 0]), common(0));
        assert_eq!(stop(access, &[0, FIRST, 0]), common(1));
        assert_eq!(stop(access, &[0, 1, FIRST]), common(2));
        let outside = |thread, at| Verdict::Outside { row, thread, at };
        assert_eq!(stop(access, &[3, FIRST, 0]), outside(0, 3));
        assert_eq!(stop(access, &[FIRST, 3, 0]), common(0));
        assert_eq!(stop(access, &[0, 65_535, FIRST]), outside(1, 65_535));
        assert_eq!(stop(access, &[0, FIRST + 1, FIRST]), outside(1, FIRST + 1));
        assert_eq!(stop(access, &[FIRST, FIRST + 1]), common(0));
    }
}

#[test]
fn loads_go_on_behind_a_common_word() {
    // Own and common numbers take turns.
    let numbers = [FIRST, 1, FIRST + 1, 0, FIRST + 1, 5, FIRST];
    let rows = [&LOOK_UP[..], &[load(2, 1), BARRIER, store(0, 2)]].concat();
    let left = launch(&[70, 71], &rows, (1, 7), &numbers, &[]);
    assert_eq!(left.outcome.verdict, Verdict::Passed);
    assert_eq!(left.cells, [70, 1, 71, FIRST, 71, 5, 70]);
    assert_eq!(left.steps, [4; 7]);
    assert_eq!(left.records, [[0, 4, 0], [4, 1, 0]]);
    assert_eq!(left.seen, [(0, numbers.to_vec())]);

    // What was logged before the barrier: own loads only.
    let left = launch(&[70, 71], &rows[..3], (1, 7), &numbers, &[]);
    let readers = [1 | 8, 2, 4, 8, 16, 32, 64];
    assert_eq!(left.log[0], readers);
    assert!(left.log[1..].concat().iter().all(|&word| word == 0));
}

#[test]
fn a_load_stops_behind_common_words_too() {
    // Thread 0 has stored to cell 0; then each thread loads.
    let by_thread_0 = [set(3, 1), [13, 4, 0, 3], if_(4), store(9, 3), ENDIF];
    let rows = [&LOOK_UP[..], &by_thread_0, &[load(2, 1)]].concat();
    let stop = |numbers: &[u32]| {
        let left = launch(&[70], &rows, (1, numbers.len() as u32), numbers, &[]);
        (left.outcome.verdict, left.steps)
    };
    let row = 7;
    let (race, stepped) = stop(&[FIRST, FIRST, 0, FIRST]);
    let expected = Verdict::Race {
        row,
        other_group: 0,
        thread: 2,
        other: Some(0),
        kind: AccessKind::Wr,
        at: 0,
    };
    assert_eq!(race, expected);
    assert_eq!(stepped, [8, 7, 6, 6]);
    for at in [4, 65_535, FIRST + 1] {
        let (outside, stepped) = stop(&[FIRST, 1, FIRST, at]);
        let thread = 3;
        assert_eq!(outside, Verdict::Outside { row, thread, at });
        assert_eq!(stepped, [8, 7, 7, 6]);
    }
    assert_eq!(stop(&[FIRST, 1, FIRST, FIRST]).0, Verdict::Passed);
    assert_eq!(stop(&[0, 1, FIRST, 3]).0, Verdict::Passed);
}

#[test]
fn only_the_last_of_32_threads_loads_a_common_word() {
    let mut numbers: Vec<u32> = (0..32).collect();
    numbers[31] = FIRST;
    let rows = [&LOOK_UP[..], &[load(1, 1), store(0, 1)]].concat();
    let left = launch(&[70], &rows, (1, 32), &numbers, &[]);
    assert_eq!(left.outcome.verdict, Verdict::Passed);
    assert_eq!(left.cells[30..], [30, 70]);
    assert_eq!(left.log[0][31], 1 << 31);
}

#[test]
fn common_loads_meet_nothing() {
    // All threads of all groups, with no barrier between, and no log.
    let rows = [&first(0)[..], &[load(1, 0), load(2, 0), load(0, 0)]].concat();
    let left = launch(&[70], &rows, (8, 32), &[0; 8], &[0]);
    assert_eq!(left.outcome.verdict, Verdict::Passed);
    assert!(left.log.concat().iter().all(|&word| word == 0));
    assert_eq!(left.steps, [5; 256]);
    assert_eq!(left.outcome.rows, 40);
    assert_eq!(left.records, [[0, 5, 0]; 8]);
}

#[test]
fn global_accesses_never_reach_common_cells() {
    for access in [20, 21, 22] {
        for at in [FIRST, FIRST + 1, FIRST + 255] {
            let rows = [&word(0, at)[..], &[[access, 0, 0, 0]]].concat();
            let left = launch(&[70; 256], &rows, (2, 2), &[1; 4], &[2; 3]);
            let (row, thread) = (6, 0);
            let outside = Verdict::Outside { row, thread, at };
            assert_eq!(left.outcome.verdict, outside);
            assert_eq!(left.steps, [6, 6, 0, 0]);
            assert_eq!(left.global, [2; 3]);
        }
    }
}

#[test]
fn the_group_is_told() {
    // Threads of group 1 store at common numbers; those of group 0 at cell 0.
    let mut rows = [&first(3)[..], &[launch_number(0), set(1, 1)]].concat();
    rows.extend([[10, 0, 0, 1], mul(0, 0, 3), store(0, 1)]);
    let left = launch(&[70, 71], &rows, (3, 2), &[9; 6], &[]);
    let (row, thread, at) = (6, 0, FIRST);
    assert_eq!(left.outcome.verdict, Verdict::Common { row, thread, at });
    assert_eq!((left.outcome.group, left.outcome.rows), (1, 7 + 6));
    assert_eq!(left.steps, [7, 7, 6, 6, 0, 0]);
    assert_eq!(left.cells, [1, 9, 9, 9, 9, 9]);
    assert_eq!(left.records, [[0, 7, 0], [0, 6, 0]]);
}

#[test]
fn a_disabled_thread_does_nothing_there() {
    // Only odd threads load; only even ones store, to their own cells.
    let rows = [
        &LOOK_UP[..],
        &[set(3, 1), [7, 4, 0, 3], if_(4)],
        &[load(2, 1), ELSE, store(0, 3), ENDIF],
    ]
    .concat();
    let left = launch(&[70], &rows, (1, 4), &[FIRST, FIRST, 9, FIRST], &[]);
    assert_eq!(left.outcome.verdict, Verdict::Passed);
    assert_eq!(left.cells, [1, FIRST, 1, FIRST]);
    assert_eq!(left.steps, [7, 8, 7, 8]);
}

/// The cost of a row of loads at these numbers, by all threads. The numbers are
/// looked up in their own cells first, whose cost is left out.
fn load_cost(numbers: &[u32]) -> u32 {
    let left = each_at(16, numbers, 1_024 - numbers.len(), &[70; 256]);
    assert_eq!(left.outcome.verdict, Verdict::Passed);
    assert_eq!(left.records, [[0, 3, left.outcome.conflicts]]);
    left.outcome.conflicts - u32::from(numbers.len() > 16)
}

#[test]
fn only_own_numbers_count_for_a_rows_cost() {
    let apart = |distance: u32, count: u32| (0..count).map(move |i| i * distance);
    for (distance, count, cost) in [
        (0, 9, 0),
        (1, 32, 1),
        (8, 32, 15),
        (16, 16, 15),
        (17, 16, 0),
    ] {
        let own: Vec<u32> = apart(distance, count).collect();
        assert_eq!(load_cost(&own), cost);
        if distance * (count - 1) < 256 {
            let common: Vec<u32> = own.iter().map(|number| FIRST + number).collect();
            assert_eq!(load_cost(&common), 0);
        }
    }
    // By parity: the even threads' own cells are all in bank 0.
    let mixed = [0, FIRST, 16, FIRST + 16, 32, FIRST + 32];
    assert_eq!(load_cost(&mixed), 2);
    // By half.
    assert_eq!(load_cost(&[0, 16, 32, FIRST, FIRST + 16, FIRST + 32]), 2);
    assert_eq!(load_cost(&[FIRST, FIRST + 16, FIRST + 32, 0, 16, 32]), 2);
    // Common numbers would be in the same bank.
    assert_eq!(load_cost(&[0, FIRST + 16, FIRST + 32, FIRST + 48]), 0);
    assert_eq!(load_cost(&[FIRST, FIRST + 16, FIRST + 32, 48]), 0);
    assert_eq!(load_cost(&[3, FIRST + 3, 19, FIRST + 19, 3]), 1);
    // At equal distances but for one.
    let all: Vec<u32> = (0..17).collect();
    assert_eq!(load_cost(&all), 1);
    for out in 0..17 {
        let mut numbers = all.clone();
        numbers[out] = FIRST + out as u32;
        let expected = u32::from(out != 0 && out != 16);
        assert_eq!(load_cost(&numbers), expected, "{out}");
    }
    assert_eq!(load_cost(&[FIRST]), 0);
    assert_eq!(load_cost(&[FIRST, 0]), 0);
}

#[test]
fn own_cells_just_before_or_behind_cost_what_they_do() {
    for distance in [1, 2, 4, 8] {
        // R1 are own cells at a distance, R3 common ones at the same.
        let mut rows = [&first(3)[..], &[tid(0), set(1, distance)]].concat();
        rows.extend([mul(1, 1, 0), add(3, 3, 1)]);
        let before = rows.len() as u32;
        rows.extend([load(2, 1), load(2, 3), BARRIER, load(2, 3), BARRIER]);
        rows.extend([load(2, 3), load(2, 1), load(2, 1), load(2, 3)]);
        let left = launch(&[70; 256], &rows, (1, 32), &[0; 256], &[]);
        assert_eq!(left.outcome.verdict, Verdict::Passed);
        let cost = 2 * u32::from(distance) - 1;
        let expected = [
            [0, before + 3, cost],
            [before + 3, 2, 0],
            [before + 5, 4, 2 * cost],
        ];
        assert_eq!(left.records, expected);
        assert_eq!(left.outcome.conflicts, 3 * cost);
    }
}

#[test]
fn the_cost_is_of_the_numbers_before_the_row() {
    // The words loaded go where the numbers were.
    let numbers = [0, 16, FIRST, 32, FIRST + 16, 1];
    let mut cells = numbers.to_vec();
    cells.resize(64, 0);
    (cells[16], cells[32]) = (1, 2);
    let rows = [&LOOK_UP[..], &[load(1, 1)]].concat();
    let left = launch(&[0; 17], &rows, (1, 6), &cells, &[]);
    assert_eq!(left.outcome.verdict, Verdict::Passed);
    assert_eq!(left.outcome.conflicts, 2);
    // The other way round: no conflict before, but the words would have one.
    let numbers = [0, 1, FIRST, 2, 3];
    let left = launch(&[16], &rows, (1, 5), &numbers, &[]);
    assert_eq!(left.outcome.conflicts, 0);
}

#[test]
fn a_stopped_row_costs_nothing() {
    for access in [17, 18] {
        let left = each_at(access, &[0, 16, 32, FIRST], 60, &[70]);
        // Threads 1 and 2 have acted at cells 16 and 32.
        assert_eq!(left.steps, [3, 3, 3, 2]);
        assert_eq!(left.outcome.conflicts, 0);
        assert_eq!(left.records, [[0, 2, 0]]);
    }
    let left = each_at(16, &[0, 16, FIRST, 65_535], 60, &[70]);
    assert_eq!((left.outcome.conflicts, left.steps), (0, vec![3, 3, 3, 2]));
}

#[test]
fn a_kernel_that_uses_no_common_cell_is_as_it_was() {
    // Loads, stores and adds with conflicts and a race at the end.
    let rows = [
        &[tid(0), set(1, 16), mul(2, 0, 1), atomic_add(2, 0)][..],
        &[BARRIER, load(3, 2), store(2, 3), set(4, 1), store(4, 0)],
    ]
    .concat();
    let cells = [3; 64];
    let without = launch(&[], &rows, (1, 4), &cells, &[]);
    assert_eq!(without.outcome.conflicts, 9);
    assert!(matches!(
        without.outcome.verdict,
        Verdict::Race { row: 8, .. }
    ));
    for coefficients in [&[1][..], &[2; 256]] {
        assert_eq!(launch(coefficients, &rows, (1, 4), &cells, &[]), without);
    }
}

// The common file.

fn refused_at(file: &[u8]) -> u32 {
    let refusal = parse_common(file).expect_err("a bad common file");
    assert_eq!(refusal.number, 37);
    refusal.place
}

#[test]
fn good_common_files() {
    assert_eq!(parse_common(b"common=0\nend=common\n"), Ok(vec![]));
    let file = b"common=2\ncell=0\ncell=4294967295\nend=common\n";
    assert_eq!(parse_common(file), Ok(vec![0, u32::MAX]));
    let cells: Vec<u32> = (0..256).collect();
    assert_eq!(parse_common(common_file(&cells).as_bytes()), Ok(cells));
}

/// A sound common file.
fn common_file(cells: &[u32]) -> String {
    let lines: String = cells.iter().map(|cell| format!("cell={cell}\n")).collect();
    format!("common={}\n{lines}end=common\n", cells.len())
}

#[test]
fn faults_of_a_common_file_are_37_at_their_lines() {
    for (file, line) in [
        ("", 1),
        ("\n", 1),
        ("common=1", 1), // without its byte 10
        ("common=\ncell=1\nend=common\n", 1),
        ("common=01\ncell=1\nend=common\n", 1),
        ("common=+1\ncell=1\nend=common\n", 1),
        ("common=-1\ncell=1\nend=common\n", 1),
        ("common=1 \ncell=1\nend=common\n", 1),
        ("common=1\r\ncell=1\nend=common\n", 1),
        ("Common=1\ncell=1\nend=common\n", 1),
        (" common=1\ncell=1\nend=common\n", 1),
        ("common1\ncell=1\nend=common\n", 1),
        ("common=4294967296\nend=common\n", 1),
        ("common=4294967297\ncell=1\nend=common\n", 1),
        // Out of range, whatever follows.
        ("common=257\n", 1),
        ("common=257\nnoise", 1),
        ("common=65536\nend=common\n", 1),
        ("common=4294967295\n", 1),
        ("kernel=1\nthreads=1\n", 1),
        ("cell=1\nend=common\n", 1),
        ("end=common\n", 1),
        // The lines behind it.
        ("common=1\n", 2),
        ("common=1\ncell=1", 2),
        ("common=1\ncell=\nend=common\n", 2),
        ("common=1\ncell=00\nend=common\n", 2),
        ("common=1\ncell=4294967296\nend=common\n", 2),
        ("common=1\ngcell=1\nend=common\n", 2),
        ("common=1\ncell=1,2\nend=common\n", 2),
        ("common=1\n\ncell=1\nend=common\n", 2),
        ("common=1\nend=common\n", 2),
        ("common=2\ncell=1\ncell=x\nend=common\n", 3),
        ("common=2\ncell=1\nend=common\n", 3), // one too few
        ("common=1\ncell=1\ncell=1\nend=common\n", 3), // one too many
        ("common=0\ncell=1\nend=common\n", 2),
        ("common=0\n", 2),
        ("common=0\nend=common", 2),
        ("common=1\ncell=1\n", 3),
        ("common=1\ncell=1\nend=common", 3),
        ("common=1\ncell=1\nend=kernel\n", 3),
        ("common=1\ncell=1\nend=commons\n", 3),
        ("common=1\ncell=1\nend=common \n", 3),
        ("common=1\ncell=1\nend=\n", 3),
        // Behind the end.
        ("common=0\nend=common\n\n", 3),
        ("common=0\nend=common\nx", 3),
        ("common=1\ncell=1\nend=common\n\n", 4),
        ("common=1\ncell=1\nend=common\nend=common\n", 4),
        ("common=1\ncell=1\nend=common\n\0", 4),
    ] {
        assert_eq!(refused_at(file.as_bytes()), line, "{file:?}");
    }
}

#[test]
fn every_cut_of_a_common_file_is_bad_where_it_was_cut() {
    let file = common_file(&[1, 22, 333]);
    for cut in 0..file.len() {
        let part = &file.as_bytes()[..cut];
        let whole = part.iter().filter(|&&byte| byte == b'\n').count() as u32;
        assert_eq!(refused_at(part), whole + 1, "{cut}");
    }
}

#[test]
fn a_common_file_may_have_any_length() {
    // Far longer than a launch file: refused where it is wrong, not by length.
    let mut long = common_file(&[7; 256]).into_bytes();
    assert!(parse_common(&long).is_ok());
    long.extend([b'x'; 40_000]);
    assert_eq!(refused_at(&long), 259);
    let digits = [b"common=1\ncell=".to_vec(), vec![b'1'; 40_000]].concat();
    assert_eq!(refused_at(&digits), 2);
    let many = "common=256\n".to_owned() + &"cell=1\n".repeat(40_000);
    assert_eq!(refused_at(many.as_bytes()), 258);
}

// Two kernels.

/// A launch file of one group without global cells, limit 99.
fn kernel(rows: &[Row], threads: u32, cells: &[u32]) -> String {
    let mut text = format!(
        "kernel=1\nthreads={threads}\ncells={}\ngroups=1\nglobal=0\nlimit=99\nrows={}\n",
        cells.len(),
        rows.len()
    );
    for [op, d, a, b] in rows {
        text += &format!("row={op},{d},{a},{b}\n");
    }
    for cell in cells {
        text += &format!("cell={cell}\n");
    }
    text + "end=kernel\n"
}

/// Both reports as one text; the bytes behind them must be kept.
fn pair(filter: &str, trigger: &str, common: &str) -> String {
    let mut out = vec![b'?'; PAIR_ROOM + 9];
    let files = [filter, trigger, common].map(str::as_bytes);
    let len = pair_files(files[0], files[1], files[2], &mut out).expect("room enough");
    assert!(out[len..].iter().all(|&byte| byte == b'?'));
    out.truncate(len);
    String::from_utf8(out).unwrap()
}

/// Loads common cell 0 into cell 0.
fn filter() -> String {
    let rows = [&first(0)[..], &[load(1, 0), store(2, 1)]].concat();
    kernel(&rows, 1, &[5])
}

const FILTERED: &str = "verdict=passed\nrow=-\ngroup=-\nothergroup=-\nthread=-\nother=-\nkind=-\n\
    at=-\nrows=4\nsteps=4\nbarriers=0\nconflicts=0\ncell=70\nend=report\n";

/// Two threads store to common cell 1.
fn trigger() -> String {
    let rows = [
        &first(0)[..],
        &[tid(1), set(3, 1), add(0, 0, 3), store(0, 1)],
    ]
    .concat();
    kernel(&rows, 2, &[5, 6])
}

const TRIGGERED: &str = "verdict=common\nrow=5\ngroup=0\nothergroup=-\nthread=0\nother=-\nkind=-\n\
    at=65537\nrows=5\nsteps=5\nsteps=5\nbarriers=0\nconflicts=0\ncell=5\ncell=6\nend=report\n";

const COMMON: &str = "common=2\ncell=70\ncell=71\nend=common\n";

fn refusal(number: u32, place: u32) -> String {
    format!("refused={number}\nplace={place}\nend=report\n")
}

#[test]
fn two_reports_in_order_each_with_its_end() {
    let (f, t) = (&filter(), &trigger());
    assert_eq!(pair(f, t, COMMON), [FILTERED, TRIGGERED].concat());
    assert_eq!(pair(t, f, COMMON), [TRIGGERED, FILTERED].concat());
    assert_eq!(pair(f, f, COMMON), [FILTERED, FILTERED].concat());
    assert_eq!(pair(t, t, COMMON), [TRIGGERED, TRIGGERED].concat());
}

#[test]
fn an_add_gives_the_same_verdict() {
    let added = trigger().replace("row=17,", "row=18,");
    assert_eq!(
        pair(&added, &filter(), COMMON),
        [TRIGGERED, FILTERED].concat()
    );
}

#[test]
fn without_common_cells_both_are_outside() {
    let none = "common=0\nend=common\n";
    let reports = pair(&filter(), &trigger(), none);
    assert_eq!(
        reports,
        [check(filter().as_bytes()), check(trigger().as_bytes())]
            .map(Result::unwrap)
            .concat()
    );
    assert!(reports.contains("verdict=outside\nrow=2\n"));
    assert!(reports.contains("at=65536\n") && reports.contains("at=65537\n"));
}

#[test]
fn neither_kernel_sees_what_the_other_did() {
    // Adds 1 to cell 0, and loads it behind a barrier.
    let rows = [
        set(1, 1),
        atomic_add(0, 1),
        BARRIER,
        load(2, 0),
        store(0, 2),
    ];
    let (one, other) = (kernel(&rows, 1, &[5]), kernel(&rows, 1, &[7, 8]));
    let [alone, other_alone] = [&one, &other].map(|file| check(file.as_bytes()).unwrap());
    assert_eq!(pair(&one, &other, COMMON), [&*alone, &other_alone].concat());
    assert_eq!(pair(&other, &one, COMMON), [&*other_alone, &alone].concat());
    assert_eq!(pair(&one, &one, COMMON), [&*alone, &alone].concat());
    // Limits are each kernel's own.
    let short = one.replace("limit=99", "limit=4");
    let spent = check(short.as_bytes()).unwrap();
    assert!(spent.contains("verdict=spent\nrow=4\n"));
    assert_eq!(pair(&short, &one, COMMON), [&*spent, &alone].concat());
    assert_eq!(pair(&one, &short, COMMON), [&*alone, &spent].concat());
}

#[test]
fn a_refused_kernel_leaves_the_other_its_report() {
    let t = &trigger();
    for (bad, number, place) in [
        (String::new(), 11, 1),
        (filter().replace("threads=1", "threads=33"), 8, 2),
        (filter().replace("cells=1", "cells=0"), 9, 3),
        (filter().replace("groups=1", "groups=9"), 32, 4),
        (filter().replace("global=0", "global=1024"), 33, 5),
        (filter().replace("limit=99", "limit=1000001"), 10, 6),
        (filter().replace("rows=4", "rows=257"), 2, 7),
        (filter().replace("row=16,", "row=15,"), 3, 2),
        (filter().replace("row=17,2", "row=17,16"), 4, 3),
        (filter().replace("row=17,2,1,0", "row=33,0,0,0"), 5, 3),
        (filter().replace("row=17,2,1,0", "row=32,0,1,0"), 7, 3),
        (filter() + "\n", 11, 14),
        ("x".repeat(32_769), 12, 0),
        (COMMON.into(), 11, 1),
    ] {
        let refused = refusal(number, place);
        assert_eq!(pair(&bad, t, COMMON), [&*refused, TRIGGERED].concat());
        assert_eq!(pair(t, &bad, COMMON), [TRIGGERED, &*refused].concat());
        assert_eq!(pair(&bad, &bad, COMMON), [&*refused, &refused].concat());
        // Its own refusal comes before 37, and the other has 37.
        let (both, f) = ([&*refused, &refusal(37, 2)], &filter());
        let one_short = "common=1\n";
        assert_eq!(pair(&bad, f, one_short), both.concat());
        assert_eq!(pair(f, &bad, one_short), [both[1], both[0]].concat());
        assert_eq!(pair(&bad, &bad, one_short), [both[0], both[0]].concat());
    }
}

#[test]
fn a_bad_common_file_refuses_both() {
    // Also kernels that use no common cell.
    let plain = kernel(&[tid(0)], 1, &[5]);
    for (common, line) in [
        ("", 1),
        ("common=257\n", 1),
        ("common=1\ncell=01\nend=common\n", 2),
        ("common=1\ncell=1\nend=common", 3),
        ("common=1\ncell=1\nend=common\n.", 4),
        (&*filter(), 1),
    ] {
        let both = refusal(37, line).repeat(2);
        assert_eq!(pair(&filter(), &trigger(), common), both);
        assert_eq!(pair(&plain, &plain, common), both);
    }
}

#[test]
fn too_little_room_is_told_before_anything_else() {
    let refused = Err(Refusal {
        number: 24,
        place: 0,
    });
    for (filter, common) in [(filter(), COMMON), (String::new(), "")] {
        for room in [0, 1, 24_576, 49_151] {
            let mut out = vec![b'?'; room];
            let (file, common) = (filter.as_bytes(), common.as_bytes());
            assert_eq!(pair_files(file, file, common, &mut out), refused);
            assert!(out.iter().all(|&byte| byte == b'?'));
        }
        let mut out = vec![b'?'; 49_152];
        let (file, common) = (filter.as_bytes(), common.as_bytes());
        assert!(pair_files(file, file, common, &mut out).is_ok());
    }
}

#[test]
fn the_longest_reports_have_room() {
    // 1,024 cells, all of ten digits, and 256 threads.
    let mut file =
        "kernel=1\nthreads=32\ncells=1\ngroups=8\nglobal=1016\nlimit=99\nrows=0\n".to_owned();
    file += &"cell=4294967295\n".repeat(8);
    file += &"gcell=4294967295\n".repeat(1_016);
    file += "end=kernel\n";
    let report = check(file.as_bytes()).unwrap();
    assert_eq!(pair(&file, &file, COMMON), report.repeat(2));
}

#[test]
fn check_has_no_common_cells() {
    let report = check(trigger().as_bytes()).unwrap();
    assert_eq!(
        report,
        TRIGGERED.replace("verdict=common", "verdict=outside")
    );
}

// The program.

mod program {
    use super::*;
    use std::path::PathBuf;
    use std::process::{Command, Output};

    fn run(arguments: &[PathBuf]) -> Output {
        let program = env!("CARGO_BIN_EXE_pair");
        let output = Command::new(program).args(arguments).output();
        output.expect("the program runs")
    }

    /// A directory of this test alone, and a way to put files into it.
    fn directory(name: &str) -> PathBuf {
        let path = std::env::temp_dir().join(format!("pairs-{}-{name}", std::process::id()));
        std::fs::create_dir_all(&path).unwrap();
        path
    }

    #[test]
    fn prints_both_reports() {
        let place = directory("both");
        let names = ["filter", "trigger", "common"].map(|name| place.join(name));
        for (name, text) in names.iter().zip([&filter(), &trigger(), COMMON]) {
            std::fs::write(name, text).unwrap();
        }
        let [f, t, c] = names;
        let printed = |names: [&PathBuf; 3]| {
            let output = run(&names.map(PathBuf::clone));
            assert!(output.status.success() && output.stderr.is_empty());
            String::from_utf8(output.stdout).unwrap()
        };
        assert_eq!(printed([&f, &t, &c]), [FILTERED, TRIGGERED].concat());
        assert_eq!(printed([&t, &f, &c]), [TRIGGERED, FILTERED].concat());
        // A file that can't be opened counts as empty.
        let gone = &place.join("gone");
        let empty = &*refusal(11, 1);
        assert_eq!(printed([gone, &t, &c]), [empty, TRIGGERED].concat());
        assert_eq!(printed([&f, gone, &c]), [FILTERED, empty].concat());
        assert_eq!(printed([&f, &t, gone]), refusal(37, 1).repeat(2));
        assert_eq!(printed([gone, &t, gone]), [empty, &refusal(37, 1)].concat());
        // A launch file may have 32,768 bytes, a common file any number.
        let long = &place.join("long");
        std::fs::write(long, COMMON.to_owned() + &"x".repeat(99_999)).unwrap();
        let too_long = &*refusal(12, 0);
        assert_eq!(printed([long, &f, &c]), [too_long, FILTERED].concat());
        assert_eq!(printed([&f, &t, long]), refusal(37, 5).repeat(2));
        std::fs::remove_dir_all(place).unwrap();
    }

    /// A directory opens, but can't be read.
    #[test]
    #[cfg(unix)]
    fn prints_nothing_where_a_read_fails() {
        let place = directory("read");
        let file = place.join("file");
        std::fs::write(&file, filter()).unwrap();
        for at in 0..3 {
            let mut names = [&file; 3].map(PathBuf::clone);
            names[at] = place.clone();
            let output = run(&names);
            assert!(!output.status.success() && output.stdout.is_empty());
        }
        std::fs::remove_dir_all(place).unwrap();
    }

    #[test]
    fn three_names_or_a_usage_line() {
        for count in [0, 1, 2, 4] {
            let output = run(&vec![PathBuf::from("/dev/null"); count]);
            assert!(!output.status.success() && output.stdout.is_empty());
            let told = String::from_utf8(output.stderr).unwrap();
            assert_eq!(told, "usage: pair FILTER TRIGGER COMMON\n");
        }
    }
}
