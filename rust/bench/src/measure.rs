//! One launch through both checkers, and the best time of each.

use std::hint::black_box;
use std::time::{Duration, Instant};

use crate::kernels::Row;

/// Times of each checker's best run, and the rows of one.
pub(crate) struct Best {
    pub ours: Duration,
    pub theirs: Duration,
    pub rows: u32,
}

const TIMES: u32 = 9;
const LIMIT: u32 = 1_000_000;

/// Both in turn, so that whatever else the machine does meets both; the first round only warms up.
fn best(repeats: u32, mut ours: impl FnMut() -> u32, mut theirs: impl FnMut() -> u32) -> Best {
    let rows = theirs();
    assert_eq!(ours(), rows, "both run the same");
    let mut best = Best {
        ours: Duration::MAX,
        theirs: Duration::MAX,
        rows,
    };
    for _ in 0..TIMES {
        best.ours = best.ours.min(time(repeats, &mut ours));
        best.theirs = best.theirs.min(time(repeats, &mut theirs));
    }
    best
}

/// The mean of some repeats, where a single one is too short to time.
fn time(repeats: u32, run: &mut impl FnMut() -> u32) -> Duration {
    let start = Instant::now();
    for _ in 0..repeats {
        black_box(run());
    }
    start.elapsed() / repeats
}

/// The numbers of a launch of 32 threads a group but for its limit.
#[derive(Clone, Copy)]
pub(crate) struct Shape {
    pub cells: u32,
    pub groups: u32,
    pub global: u32,
}

/// The words that one checker is lent for a launch of groups.
struct Words {
    cells: Vec<u32>,
    global: Vec<u32>,
    log: Vec<u32>,
    records: Vec<u32>,
    steps: [u32; sekufoyi::LENT_STEPS],
}

impl Words {
    fn new(shape: Shape) -> Self {
        let (own, global) = ((shape.groups * shape.cells) as usize, shape.global as usize);
        Self {
            cells: vec![0; own],
            global: vec![0; global],
            log: vec![0; checker::log_words(own + global)],
            records: vec![0; sekufoyi::LENT_RECORDS],
            steps: [0; sekufoyi::LENT_STEPS],
        }
    }
}

/// So many launches of groups of 32 threads, each group to its end. The rows are those of all launches.
pub(crate) fn groups(rows: &[Row], shape: Shape, launches: u32) -> Best {
    let table = rows.concat();
    let Shape {
        cells: own,
        groups,
        global: shared,
    } = shape;
    let (mut ours, mut theirs) = (Words::new(shape), Words::new(shape));
    let measured = best(
        1,
        || {
            let Words {
                cells,
                global,
                log,
                records,
                steps,
            } = &mut ours;
            let launch = |_| {
                let table = black_box(&table);
                let outcome = sekufoyi::bare_launch(
                    table, 32, own, groups, shared, LIMIT, cells, global, log, records, steps,
                );
                let outcome = outcome.expect("a sound launch");
                assert_eq!(outcome.verdict, sekufoyi::Verdict::Passed);
                outcome.rows
            };
            (0..launches).map(launch).sum()
        },
        || {
            let Words {
                cells,
                global,
                log,
                records,
                steps,
            } = &mut theirs;
            let launch = |_| {
                let table = black_box(&table);
                let outcome = checker::bare_launch(
                    table, 32, own, groups, shared, LIMIT, cells, global, log, records, steps,
                );
                outcome.expect("a sound launch").rows
            };
            (0..launches).map(launch).sum()
        },
    );
    assert_eq!(ours.global, theirs.global, "the same global cells");
    assert_eq!(ours.steps, theirs.steps, "the same steps");
    assert_eq!(ours.records, theirs.records, "the same records");
    measured
}

/// A bare launch of a million rows, in one group without global cells.
pub(crate) fn bare(rows: &[Row], threads: u32, cells: u32) -> Best {
    let table = rows.concat();
    let mut lent_cells = vec![0; cells as usize];
    let mut lent_log = vec![0; checker::log_words(cells as usize)];
    let (mut our_cells, mut our_log) = (lent_cells.clone(), lent_log.clone());
    let mut records = vec![0; sekufoyi::LENT_RECORDS];
    let mut our_records = records.clone();
    let (mut our_steps, mut steps) = ([0; sekufoyi::LENT_STEPS], [0; sekufoyi::LENT_STEPS]);
    let measured = best(
        1,
        || {
            let (table, lent, log) = (black_box(&table), &mut our_cells, &mut our_log);
            let (list, steps) = (&mut our_records, &mut our_steps);
            let outcome = sekufoyi::bare_launch(
                table,
                threads,
                cells,
                1,
                0,
                LIMIT,
                lent,
                &mut [],
                log,
                list,
                steps,
            );
            outcome.expect("a sound launch").rows
        },
        || {
            let (table, lent, log) = (black_box(&table), &mut lent_cells, &mut lent_log);
            let (list, steps) = (&mut records, &mut steps);
            let outcome = checker::bare_launch(
                table,
                threads,
                cells,
                1,
                0,
                LIMIT,
                lent,
                &mut [],
                log,
                list,
                steps,
            );
            outcome.expect("a sound launch").rows
        },
    );
    assert_eq!(measured.rows, LIMIT, "a loop without end");
    assert_eq!(our_steps, steps, "the same steps");
    assert_eq!(our_records, records, "the same records");
    measured
}

/// A launch file of the largest size, with words of ten digits, through the whole-file entry.
pub(crate) fn file(rows: &[Row], limit: u32, repeats: u32) -> Best {
    let file = launch_file(rows, limit);
    let (mut cells, mut log) = (vec![0; checker::LENT_CELLS], vec![0; checker::LENT_LOG]);
    let mut global = vec![0; checker::LENT_GLOBAL];
    let mut our_global = global.clone();
    let mut records = vec![0; checker::INTERVAL_WORDS];
    let mut output = vec![0; checker::REPORT_ROOM];
    let (mut our_cells, mut our_log) = (cells.clone(), log.clone());
    let (mut our_records, mut our_output) = (records.clone(), output.clone());
    let measured = best(
        repeats,
        || {
            let (file, cells, log) = (black_box(&file), &mut our_cells, &mut our_log);
            let (global, list, output) = (&mut our_global, &mut our_records, &mut our_output);
            sekufoyi::check_file(file, cells, global, log, list, output).expect("a sound file");
            limit
        },
        || {
            let (file, cells, log) = (black_box(&file), &mut cells, &mut log);
            let (global, list, output) = (&mut global, &mut records, &mut output);
            checker::check_file(file, cells, global, log, list, output).expect("a sound file");
            limit
        },
    );
    assert_eq!(our_output, output, "the same report");
    assert_eq!(our_records, records, "the same records");
    measured
}

/// A launch of a million rows in one group of 32 threads beside a kernel without rows, through the entry for pairs. Besides the run, that
/// reads the files, clears what each run has of its own, and writes both reports: well below a millisecond.
pub(crate) fn pair(rows: &[Row], cells: u32) -> Best {
    let filter = file_of(rows, 32, LIMIT, &vec![0; cells as usize]);
    let trigger = file_of(&[], 1, LIMIT, &[0]);
    let common: String = (0..32).map(|cell| format!("cell={cell}\n")).collect();
    let common = format!("common=32\n{common}end=common\n").into_bytes();
    let mut output = vec![0; sekufoyi::PAIR_ROOM];
    let mut our_output = output.clone();
    let measured = best(
        1,
        || {
            let (filter, output) = (black_box(&filter), &mut our_output);
            let written = sekufoyi::pair_files(filter, &trigger, &common, output);
            written.expect("room enough");
            LIMIT
        },
        || {
            let (filter, output) = (black_box(&filter), &mut output);
            let written = checker::pair_files(filter, &trigger, &common, output);
            written.expect("room enough");
            LIMIT
        },
    );
    assert_eq!(our_output, output, "the same reports");
    assert!(output.starts_with(b"verdict=spent\n"), "a loop without end");
    measured
}

fn launch_file(rows: &[Row], limit: u32) -> Vec<u8> {
    let cells: Vec<u32> = (0..1_024).map(|cell| u32::MAX - cell).collect();
    file_of(rows, 32, limit, &cells)
}

/// A launch file of one group without global cells.
fn file_of(rows: &[Row], threads: u32, limit: u32, cells: &[u32]) -> Vec<u8> {
    let (count, words) = (rows.len(), cells.len());
    let mut text = format!("kernel=1\nthreads={threads}\ncells={words}\ngroups=1\nglobal=0\n");
    text += &format!("limit={limit}\nrows={count}\n");
    for [op, d, a, b] in rows {
        text += &format!("row={op},{d},{a},{b}\n");
    }
    for cell in cells {
        text += &format!("cell={cell}\n");
    }
    text += "end=kernel\n";
    text.into_bytes()
}
