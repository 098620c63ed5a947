//! A checker of barrier kernels in lock step, written from document 01, items 1
//! to 7 and 12 of document 02 and their readings, without sight of the verified one
//! (`rust/README.md`, 'Independence'). Every entry answers every input: none of
//! them panics.

mod banks;
mod common;
mod file;
mod groups;
mod intervals;
mod limits;
mod lock_step;
mod log;
mod memory;
mod pair;
mod registers;
mod report;
mod steps;
mod table;
mod verdict;

use common::Common;
pub use file::{parse_common, parse_file, Launch};
pub use limits::*;
use lock_step::{Kernel, Lent};
pub use pair::pair_files;
pub use report::{write_report, Subject};
pub use table::op;
use table::Program;
pub use verdict::{AccessKind, Outcome, Verdict};

/// A bare launch: refusals 1, 2, 8, 9, 32, 33, 10, rows, then 20, 21, 30. The
/// lent cells hold the launch's, those of all groups and global ones, and keep
/// what the run leaves. The lent list has a record of three words for each
/// barrier interval after the run, and the words behind them are kept. Steps go
/// by launch number, and the words behind the last one are 0 after a run. A
/// refusal changes no buffer.
#[allow(clippy::too_many_arguments)] // They are those of the specification.
pub fn bare_launch(
    table: &[u8],
    threads: u32,
    cells: u32,
    groups: u32,
    global: u32,
    limit: u32,
    lent_cells: &mut [u32],
    lent_global: &mut [u32],
    lent_log: &mut [u32],
    lent_intervals: &mut [u32],
    steps: &mut [u32; MAX_LAUNCH_THREADS],
) -> Result<Outcome, Refusal> {
    observed_launch(
        table,
        threads,
        cells,
        groups,
        global,
        limit,
        lent_cells,
        lent_global,
        lent_log,
        lent_intervals,
        steps,
        unobserved,
    )
}

/// The hook of launches that nobody watches: one function, so that the run is
/// compiled once for all of them.
fn unobserved(_: u32, _: &[u32]) {}

/// As [`bare_launch`]; `at_barrier` sees a group and its own cells just before
/// each of its counted barriers.
#[allow(clippy::too_many_arguments)] // They are those of the specification, and the hook.
pub fn observed_launch(
    table: &[u8],
    threads: u32,
    cells: u32,
    groups: u32,
    global: u32,
    limit: u32,
    lent_cells: &mut [u32],
    lent_global: &mut [u32],
    lent_log: &mut [u32],
    lent_intervals: &mut [u32],
    steps: &mut [u32; MAX_LAUNCH_THREADS],
    at_barrier: impl FnMut(u32, &[u32]),
) -> Result<Outcome, Refusal> {
    common_launch(
        &[],
        table,
        threads,
        cells,
        groups,
        global,
        limit,
        lent_cells,
        lent_global,
        lent_log,
        lent_intervals,
        steps,
        at_barrier,
    )
}

/// As [`observed_launch`], over at most 256 common cells. Nothing of a common
/// cell is in any lent buffer.
#[allow(clippy::too_many_arguments)] // They are those of the specification, and the hook.
pub fn common_launch(
    common: &[u32],
    table: &[u8],
    threads: u32,
    cells: u32,
    groups: u32,
    global: u32,
    limit: u32,
    lent_cells: &mut [u32],
    lent_global: &mut [u32],
    lent_log: &mut [u32],
    lent_intervals: &mut [u32],
    steps: &mut [u32; MAX_LAUNCH_THREADS],
    at_barrier: impl FnMut(u32, &[u32]),
) -> Result<Outcome, Refusal> {
    Refusal::unless(table.len().is_multiple_of(4), number::TABLE_LENGTH, 0)?;
    check_rows(table.len() / 4, 0)?;
    check_threads(threads, 0)?;
    check_cells(cells, 0)?;
    check_groups(groups, 0)?;
    check_all_cells(groups, cells, global, 0)?;
    check_limit(limit, 0)?;
    let program = &table::decode(table)?;
    let (own, global) = ((groups * cells) as usize, global as usize);
    let fitting = lent_cells.len() == own && lent_global.len() == global;
    Refusal::unless(fitting, number::LENT_CELLS, 0)?;
    let log_fits = lent_log.len() == log_words(own + global);
    Refusal::unless(log_fits, number::LENT_LOG, 0)?;
    check_intervals(lent_intervals)?;
    let kernel = Kernel {
        program,
        common: Common(common),
        threads,
        groups,
        limit,
    };
    let lent = Lent {
        cells: lent_cells,
        global: lent_global,
        log: lent_log,
        list: lent_intervals,
        steps,
    };
    Ok(lock_step::run(kernel, lent, at_barrier))
}

/// The whole-file entry: the input's refusals, then 20, 21, 30, 24. Runs the
/// launch in the first words of the lent buffers, writes its report to the
/// start of `out` and gives the report's length. A refusal changes no buffer.
pub fn check_file(
    file: &[u8],
    lent_cells: &mut [u32],
    lent_global: &mut [u32],
    lent_log: &mut [u32],
    lent_intervals: &mut [u32],
    out: &mut [u8],
) -> Result<usize, Refusal> {
    let (mut launch, program) = file::parse_and_decode(file)?;
    let fitting = lent_cells.len() == LENT_CELLS && lent_global.len() == LENT_GLOBAL;
    Refusal::unless(fitting, number::LENT_CELLS, 0)?;
    Refusal::unless(lent_log.len() == LENT_LOG, number::LENT_LOG, 0)?;
    check_intervals(lent_intervals)?;
    Refusal::unless(out.len() >= REPORT_ROOM, number::FILE_OUTPUT, 0)?;
    let none = Common::NONE;
    let written = run_file(&mut launch, &program, none, lent_log, lent_intervals, out)?;
    lent_cells[..launch.cells.len()].copy_from_slice(&launch.cells);
    lent_global[..launch.global.len()].copy_from_slice(&launch.global);
    Ok(written)
}

/// Runs a file's launch in its own cells and writes its report to the start of
/// `out`. The log and the list are as the whole-file entry has them.
fn run_file(
    launch: &mut Launch,
    program: &Program,
    common: Common,
    log: &mut [u32],
    list: &mut [u32],
    out: &mut [u8],
) -> Result<usize, Refusal> {
    let (threads, groups, limit) = (launch.threads, launch.groups, launch.limit);
    let mut steps = [0; MAX_LAUNCH_THREADS];
    let kernel = Kernel {
        program,
        common,
        threads,
        groups,
        limit,
    };
    let lent = Lent {
        cells: &mut launch.cells,
        global: &mut launch.global,
        log,
        list,
        steps: &mut steps,
    };
    let outcome = lock_step::run(kernel, lent, unobserved);
    let counts = &steps[..(groups * threads) as usize];
    let (cells, global) = (&launch.cells, &launch.global);
    write_report(Subject::Ran(outcome), counts, cells, global, out)
}
