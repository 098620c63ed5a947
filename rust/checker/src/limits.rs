//! The limits of document 01 and items 7 and 12, and the refusals of "Turned back".

/// Threads of a group: 1 to this many.
pub const MAX_THREADS: u32 = 32;
/// Groups of a launch: 1 to this many.
pub const MAX_GROUPS: u32 = 8;
/// Threads of a launch, all groups together: 1 to this many.
pub const MAX_LAUNCH_THREADS: usize = (MAX_GROUPS * MAX_THREADS) as usize;
/// Own cells of a group: 1 to this many. So many are the own cells of all groups
/// and the global cells together at most.
pub const MAX_CELLS: u32 = 1_024;
/// Rows of a table: 0 to this many.
pub const MAX_ROWS: usize = 256;
/// Constructs open at once: 0 to this many.
pub const MAX_NESTING: usize = 8;
/// Rows run: the limit is 0 to this.
pub const MAX_LIMIT: u32 = 1_000_000;
/// Bytes of a launch file.
pub const MAX_FILE: usize = 32_768;
/// Words of own cells that the whole-file entry is lent.
pub const LENT_CELLS: usize = MAX_CELLS as usize;
/// Words of global cells that the whole-file entry is lent.
pub const LENT_GLOBAL: usize = MAX_CELLS as usize;
/// Words of log that the whole-file entry is lent.
pub const LENT_LOG: usize = log_words(LENT_CELLS);
/// Records that a lent list of intervals has room for at least.
pub const INTERVAL_RECORDS: usize = 1_025;
/// Words of a lent list of intervals at least, three a record.
pub const INTERVAL_WORDS: usize = 3 * INTERVAL_RECORDS;
/// Bytes of output that the whole-file entry needs at least.
pub const REPORT_ROOM: usize = 24_576;
/// Common cells: 0 to this many.
pub const MAX_COMMON: u32 = 256;
/// The number of the first common cell.
pub const COMMON_FROM: u32 = 65_536;
/// Bytes of output that the entry for two kernels needs at least.
pub const PAIR_ROOM: usize = 2 * REPORT_ROOM;

/// Kinds of words in a log: reader, writer and adder masks, first values, marks,
/// and masks of the groups that read, wrote and added.
pub const LOG_KINDS: usize = 8;

/// Words of log for so many cells, own and global ones: one of each kind each.
pub const fn log_words(cells: usize) -> usize {
    LOG_KINDS * cells
}

/// The refusal numbers of "Turned back", by name.
pub mod number {
    /// Table length no multiple of 4.
    pub const TABLE_LENGTH: u32 = 1;
    /// Over 256 rows.
    pub const ROWS: u32 = 2;
    /// Unknown op.
    pub const UNKNOWN_OP: u32 = 3;
    /// Register above 15, or an unused byte that is not 0.
    pub const OPERAND: u32 = 4;
    /// ELSE or an end that doesn't fit the innermost open construct.
    pub const MISFIT: u32 = 5;
    /// A ninth nesting.
    pub const NESTING: u32 = 6;
    /// Construct left open.
    pub const LEFT_OPEN: u32 = 7;
    /// Threads out of range.
    pub const THREADS: u32 = 8;
    /// A group's own cells out of range.
    pub const CELLS: u32 = 9;
    /// Limit out of range.
    pub const LIMIT: u32 = 10;
    /// A line that isn't the one due.
    pub const LINE: u32 = 11;
    /// File too long.
    pub const FILE_LENGTH: u32 = 12;
    /// Lent own or global cells not as many as said.
    pub const LENT_CELLS: u32 = 20;
    /// Lent log not eight times the cells.
    pub const LENT_LOG: u32 = 21;
    /// Report buffer too short.
    pub const REPORT_BUFFER: u32 = 22;
    /// Step counts of a report none or over 256, or its cells, own and global
    /// ones together, none or over 1,024.
    pub const REPORT_LINES: u32 = 23;
    /// Whole-file output too short.
    pub const FILE_OUTPUT: u32 = 24;
    /// Fewer than 1,025 records of intervals lent.
    pub const LENT_INTERVALS: u32 = 30;
    /// Groups out of range.
    pub const GROUPS: u32 = 32;
    /// Own cells of all groups and global cells together over 1,024.
    pub const ALL_CELLS: u32 = 33;
    /// A common file of another form, or with over 256 cells.
    pub const COMMON_FILE: u32 = 37;
}

/// An input or a state that is turned back, and where.
#[derive(Clone, Copy, Debug, PartialEq, Eq, Hash, PartialOrd, Ord)]
pub struct Refusal {
    /// Which refusal, one of [`number`].
    pub number: u32,
    /// The line from 1, the row from 0, the length needed, or 0.
    pub place: u32,
}

impl Refusal {
    pub(crate) const fn new(number: u32, place: u32) -> Self {
        Self { number, place }
    }

    /// `Err` of this refusal unless `fine`.
    pub(crate) const fn unless(fine: bool, number: u32, place: u32) -> Result<(), Self> {
        if fine {
            Ok(())
        } else {
            Err(Self::new(number, place))
        }
    }
}

/// Refuses a number of a launch out of range, each with its own place.
pub(crate) fn check_threads(threads: u32, place: u32) -> Result<(), Refusal> {
    let fine = (1..=MAX_THREADS).contains(&threads);
    Refusal::unless(fine, number::THREADS, place)
}

pub(crate) fn check_cells(cells: u32, place: u32) -> Result<(), Refusal> {
    let fine = (1..=MAX_CELLS).contains(&cells);
    Refusal::unless(fine, number::CELLS, place)
}

pub(crate) fn check_groups(groups: u32, place: u32) -> Result<(), Refusal> {
    let fine = (1..=MAX_GROUPS).contains(&groups);
    Refusal::unless(fine, number::GROUPS, place)
}

/// Any three words: nothing wraps.
pub(crate) fn check_all_cells(
    groups: u32,
    cells: u32,
    global: u32,
    place: u32,
) -> Result<(), Refusal> {
    let own = u64::from(groups) * u64::from(cells);
    let fine = own + u64::from(global) <= u64::from(MAX_CELLS);
    Refusal::unless(fine, number::ALL_CELLS, place)
}

pub(crate) fn check_limit(limit: u32, place: u32) -> Result<(), Refusal> {
    Refusal::unless(limit <= MAX_LIMIT, number::LIMIT, place)
}

/// Refuses a common file's number of cells out of range.
pub(crate) fn check_common(cells: u32, place: u32) -> Result<(), Refusal> {
    Refusal::unless(cells <= MAX_COMMON, number::COMMON_FILE, place)
}

/// Refuses a lent list of intervals with too few records.
pub(crate) fn check_intervals(list: &[u32]) -> Result<(), Refusal> {
    let fine = list.len() >= INTERVAL_WORDS;
    Refusal::unless(fine, number::LENT_INTERVALS, 0)
}

pub(crate) fn check_rows(rows: usize, place: u32) -> Result<(), Refusal> {
    Refusal::unless(rows <= MAX_ROWS, number::ROWS, place)
}

/// Refuses a report with too few or too many lines of one kind. `cells` are own
/// and global ones together.
pub(crate) fn check_report_lines(steps: usize, cells: usize) -> Result<(), Refusal> {
    let fine =
        (1..=MAX_LAUNCH_THREADS).contains(&steps) && (1..=MAX_CELLS as usize).contains(&cells);
    Refusal::unless(fine, number::REPORT_LINES, 0)
}
