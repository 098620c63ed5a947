//! Helpers of the tests: launches from rows, files from launches.
#![allow(dead_code)]

use checker::{
    bare_launch, check_file, Outcome, Refusal, Verdict, INTERVAL_WORDS, LENT_CELLS, LENT_GLOBAL,
    LENT_LOG, MAX_LAUNCH_THREADS, REPORT_ROOM,
};

/// What lent words of steps and of intervals hold: no count is as large.
pub const JUNK: u32 = 0xdead_beef;

pub type Row = [u8; 4];

/// P1's file.
pub const P1: &str = "kernel=1\nthreads=2\ncells=3\ngroups=1\nglobal=0\nlimit=100\nrows=7\n\
    row=2,0,0,0\nrow=1,1,1,0\nrow=4,2,0,1\nrow=16,3,2,0\nrow=16,4,0,0\nrow=4,3,3,4\nrow=17,0,3,0\n\
    cell=1\ncell=1\ncell=1\nend=kernel\n";

pub fn set(d: u8, value: u16) -> Row {
    let [a, b] = value.to_le_bytes();
    [1, d, a, b]
}
pub fn tid(d: u8) -> Row {
    [2, d, 0, 0]
}
pub fn add(d: u8, a: u8, b: u8) -> Row {
    [4, d, a, b]
}
pub fn sub(d: u8, a: u8, b: u8) -> Row {
    [5, d, a, b]
}
pub fn load(d: u8, a: u8) -> Row {
    [16, d, a, 0]
}
pub fn store(d: u8, a: u8) -> Row {
    [17, d, a, 0]
}
pub fn atomic_add(d: u8, a: u8) -> Row {
    [18, d, a, 0]
}
pub fn launch_number(d: u8) -> Row {
    [19, d, 0, 0]
}
pub fn global_load(d: u8, a: u8) -> Row {
    [20, d, a, 0]
}
pub fn global_store(d: u8, a: u8) -> Row {
    [21, d, a, 0]
}
pub fn global_add(d: u8, a: u8) -> Row {
    [22, d, a, 0]
}
pub fn if_(a: u8) -> Row {
    [32, 0, a, 0]
}
pub fn while_(a: u8) -> Row {
    [35, 0, a, 0]
}
pub const ELSE: Row = [33, 0, 0, 0];
pub const ENDIF: Row = [34, 0, 0, 0];
pub const ENDWHILE: Row = [36, 0, 0, 0];
pub const BARRIER: Row = [37, 0, 0, 0];

/// An outcome with the steps of each thread.
#[derive(Debug, PartialEq)]
pub struct Found {
    pub verdict: Verdict,
    pub rows: u32,
    pub steps: Vec<u32>,
    pub barriers: u32,
}

pub fn outcome(verdict: Verdict, rows: u32, steps: &[u32], barriers: u32) -> Found {
    Found {
        verdict,
        rows,
        steps: steps.to_vec(),
        barriers,
    }
}

/// An outcome with the lent words of steps, of which those behind the threads'
/// own must be 0.
pub fn found(ran: Outcome, threads: u32, lent: &[u32; MAX_LAUNCH_THREADS]) -> Found {
    let (steps, behind) = lent.split_at(threads as usize);
    assert!(behind.iter().all(|&word| word == 0), "{lent:?}");
    outcome(ran.verdict, ran.rows, steps, ran.barriers)
}

/// A bare launch of one group without global cells.
#[allow(clippy::too_many_arguments)] // As the entry has them.
pub fn one_group(
    table: &[u8],
    threads: u32,
    cells: u32,
    limit: u32,
    lent_cells: &mut [u32],
    lent_log: &mut [u32],
    list: &mut [u32],
    steps: &mut [u32; MAX_LAUNCH_THREADS],
) -> Result<Outcome, Refusal> {
    bare_launch(
        table,
        threads,
        cells,
        1,
        0,
        limit,
        lent_cells,
        &mut [],
        lent_log,
        list,
        steps,
    )
}

/// Runs a bare launch with buffers that fit; gives the cells as well.
pub fn run(rows: &[Row], threads: u32, cells: &[u32], limit: u32) -> (Found, Vec<u32>) {
    let (found, after, _) = run_logged(rows, threads, cells, limit);
    (found, after)
}

/// As [`run`], with the log besides, but for the group masks, which are 0.
pub fn run_logged(
    rows: &[Row],
    threads: u32,
    cells: &[u32],
    limit: u32,
) -> (Found, Vec<u32>, Vec<u32>) {
    let mut after = cells.to_vec();
    let mut log = vec![7; 8 * cells.len()];
    let mut steps = [JUNK; MAX_LAUNCH_THREADS];
    let (table, count) = (rows.concat(), cells.len() as u32);
    let mut list = [JUNK; INTERVAL_WORDS];
    let ran = one_group(
        &table, threads, count, limit, &mut after, &mut log, &mut list, &mut steps,
    );
    let ran = ran.expect("a launch that isn't refused");
    assert_eq!(ran.group, 0);
    let group_masks = log.split_off(5 * cells.len());
    assert!(group_masks.iter().all(|&mask| mask == 0));
    (found(ran, threads, &steps), after, log)
}

/// The refusal of a bare table, which must leave the buffers alone.
pub fn refused(rows: &[Row]) -> Refusal {
    let (mut cells, mut log) = ([5; 2], [6; 16]);
    let (table, mut steps) = (rows.concat(), [JUNK; MAX_LAUNCH_THREADS]);
    let mut list = [JUNK; INTERVAL_WORDS];
    let refused = one_group(&table, 2, 2, 9, &mut cells, &mut log, &mut list, &mut steps);
    assert_eq!((cells, log), ([5; 2], [6; 16]));
    assert_eq!(steps, [JUNK; MAX_LAUNCH_THREADS]);
    assert_eq!(list, [JUNK; INTERVAL_WORDS]);
    refused.unwrap_err()
}

/// The whole-file entry with global cells as it wants them, of which none may be
/// used.
pub fn check_without_global(
    file: &[u8],
    cells: &mut [u32],
    log: &mut [u32],
    list: &mut [u32],
    out: &mut [u8],
) -> Result<usize, Refusal> {
    let mut global = [JUNK; LENT_GLOBAL];
    let result = check_file(file, cells, &mut global, log, list, out);
    assert_eq!(global, [JUNK; LENT_GLOBAL]);
    result
}

/// The whole-file entry with buffers as it wants them; gives the report.
pub fn check(file: &[u8]) -> Result<String, Refusal> {
    let (mut cells, mut global) = (vec![5; LENT_CELLS], vec![5; LENT_GLOBAL]);
    let (mut log, mut list) = (vec![6; LENT_LOG], vec![JUNK; INTERVAL_WORDS]);
    let mut out = vec![b'?'; REPORT_ROOM];
    let result = check_file(file, &mut cells, &mut global, &mut log, &mut list, &mut out);
    match result {
        Ok(len) => {
            assert!(out[len..].iter().all(|&byte| byte == b'?'));
            Ok(String::from_utf8(out[..len].to_vec()).unwrap())
        }
        Err(refusal) => {
            let kept = |words: &[u32], word: u32| words.iter().all(|&kept| kept == word);
            assert!(kept(&cells, 5) && kept(&global, 5) && kept(&log, 6));
            assert!(kept(&list, JUNK) && out.iter().all(|&byte| byte == b'?'));
            Err(refusal)
        }
    }
}

/// `(number, place)` of a refused file.
pub fn turned_back(file: &str) -> (u32, u32) {
    let refusal = check(file.as_bytes()).unwrap_err();
    (refusal.number, refusal.place)
}

/// A file of these rows, for two threads, cells 0 and limit 9.
pub fn file(rows: &[Row]) -> String {
    let mut text = format!(
        "kernel=1\nthreads=2\ncells=1\ngroups=1\nglobal=0\nlimit=9\nrows={}\n",
        rows.len()
    );
    for [op, d, a, b] in rows {
        text += &format!("row={op},{d},{a},{b}\n");
    }
    text + "cell=0\nend=kernel\n"
}
