//! The verified checker for barrier kernels, for Rust. Every function takes any bytes, numbers and buffers, and answers as the
//! specification says; where it refuses, it leaves every lent buffer as it was.

mod answers;
mod raw;
#[cfg(test)]
mod tests;

pub use answers::{AccessKind, Outcome, Refusal, Subject, Verdict};

/// Words of own cells that [`check_file`] is lent, for all groups together.
pub const LENT_CELLS: usize = 1_024;
/// Words of global cells that [`check_file`] is lent.
pub const LENT_GLOBAL: usize = 1_024;
/// Words of log that [`check_file`] is lent: eight for each of the 1,024 cells that a launch has at most.
pub const LENT_LOG: usize = 8_192;
/// Words of records that [`check_file`] and [`bare_launch`] need at least: three for each of 1,025 barrier intervals.
pub const LENT_RECORDS: usize = 3_075;
/// Words of steps that [`bare_launch`] is lent: one for each thread that a launch may have.
pub const LENT_STEPS: usize = 256;
/// Bytes of output that [`check_file`] needs at least: enough for every report.
pub const REPORT_ROOM: usize = 24_576;
/// Bytes of output that [`pair_files`] needs at least: enough for every two reports.
pub const PAIR_ROOM: usize = 49_152;

/// Checks a launch file, writes its report to the start of `output` and gives the report's length. The other buffers are left as by
/// [`bare_launch`], from their first word on; what is behind keeps its value.
pub fn check_file(
    file: &[u8],
    cells: &mut [u32],
    global: &mut [u32],
    log: &mut [u32],
    records: &mut [u32],
    output: &mut [u8],
) -> Result<usize, Refusal> {
    written(raw::check_file(file, cells, global, log, records, output))
}

/// Checks two kernels that are resident together, by their launch files, over the cells of a common file. Writes the filter's report to the
/// start of `output` and the trigger's right behind it, each with its own `end=report`, and gives the length of both together; what is behind
/// keeps its value. Refuses an output of fewer than [`PAIR_ROOM`] bytes, and nothing else: a kernel whose file is refused has the report of
/// that refusal, the other keeps its own, and a bad common file is 37 in the report of each kernel that is not refused by itself. Where both
/// reports begin with `verdict=passed`, they speak for every run of both kernels at once.
pub fn pair_files(
    filter: &[u8],
    trigger: &[u8],
    common: &[u8],
    output: &mut [u8],
) -> Result<usize, Refusal> {
    written(raw::pair_files(filter, trigger, common, output))
}

/// Runs a kernel table over the lent cells, which hold the launch's words before and the run's words after: `cells` those of each group,
/// `cell_count` words each, group 0 first, and `global` the `global_count` words of all. `steps` holds after the run what each thread
/// stepped, by launch number (group × threads + number in the group), and 0 behind the last one; [`write_report`] wants the first words
/// alone, one for each thread.
///
/// `log` has eight words for each cell, neither more nor fewer: of each kind one for each own cell, in their order, and then one for
/// each global cell. After the run it holds who has read each cell since the last barrier or start that cleared it, then who has written
/// each, then who has added to each, bit t for the group's thread t; then what the first store to each wrote, then for each 1 where unequal
/// stores were made to it. Both are 0 where the cell has no writer; a first value of 0 may have been stored. Last come the groups that
/// have read each cell in the whole launch, then those that have written it, then those that have added to it, bit g for group g; they are 0
/// for own cells. A global cell's masks of threads are of one group, the one that ran last.
///
/// `records` holds after the run three words for each barrier interval: the row due at its start, the rows run in it, and what bank
/// conflicts cost in it. There is one at each group's start and one more for each barrier that all threads of a group came to, up to 1,025,
/// of which the last goes on. The words behind the last record used keep their value.
#[allow(clippy::too_many_arguments)] // They are those of the specification.
pub fn bare_launch(
    table: &[u8],
    threads: u32,
    cell_count: u32,
    groups: u32,
    global_count: u32,
    limit: u32,
    cells: &mut [u32],
    global: &mut [u32],
    log: &mut [u32],
    records: &mut [u32],
    steps: &mut [u32; LENT_STEPS],
) -> Result<Outcome, Refusal> {
    let answer = raw::bare_launch(
        table,
        threads,
        cell_count,
        groups,
        global_count,
        limit,
        cells,
        global,
        log,
        records,
        steps,
    );
    if answer.ran {
        Ok(Outcome::from_words(answer.outcome))
    } else {
        Err(Refusal::from_words(answer.refusal))
    }
}

/// Writes a report to the start of `output` and gives its length. A run's report has a line for each of the steps, 1 to 256, and for each
/// of the cells, own and global ones, 1 to 1,024 together. A refusal's report has none of them: they are not looked at.
pub fn write_report(
    subject: Subject,
    steps: &[u32],
    cells: &[u32],
    global: &[u32],
    output: &mut [u8],
) -> Result<usize, Refusal> {
    written(match subject {
        Subject::Ran(outcome) => raw::write_report(&outcome.words(), steps, cells, global, output),
        Subject::Refused(Refusal { number, place }) => raw::write_refusal(number, place, output),
    })
}

/// No report is empty: a length of 0 says that there is none.
fn written((length, refusal): (usize, raw::RefusalWords)) -> Result<usize, Refusal> {
    match length {
        0 => Err(Refusal::from_words(refusal)),
        _ => Ok(length),
    }
}
