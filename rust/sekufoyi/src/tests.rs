use super::*;

/// P1: two threads add their right neighbour's cell to their own, without a barrier.
const P1_FILE: &str = "kernel=1\nthreads=2\ncells=3\ngroups=1\nglobal=0\nlimit=100\nrows=7\n\
    row=2,0,0,0\nrow=1,1,1,0\nrow=4,2,0,1\nrow=16,3,2,0\nrow=16,4,0,0\nrow=4,3,3,4\nrow=17,0,3,0\n\
    cell=1\ncell=1\ncell=1\nend=kernel\n";
const P1_REPORT: &str =
    "verdict=race\nrow=6\ngroup=0\nothergroup=0\nthread=1\nother=0\nkind=rw\nat=1\nrows=6\nsteps=7\nsteps=6\n\
    barriers=0\nconflicts=0\ncell=2\ncell=1\ncell=1\nend=report\n";
#[rustfmt::skip]
const P1_TABLE: [u8; 28] = [
    2, 0, 0, 0,  1, 1, 1, 0,  4, 2, 0, 1,  16, 3, 2, 0,  16, 4, 0, 0,  4, 3, 3, 4,  17, 0, 3, 0,
];
const P1_OUTCOME: Outcome = Outcome {
    verdict: Verdict::Race {
        row: 6,
        group: 0,
        thread: 1,
        other: 0,
        kind: AccessKind::Rw,
        at: 1,
    },
    rows: 6,
    barriers: 0,
    conflicts: 0,
};
/// Thread 1 is stopped in the last row, which thread 0 has run by then.
const P1_STEPS: [u32; 2] = [7, 6];
/// Readers, writers, adders, first values and marks. Cell 0 alone was stored to. Masks of groups are for global cells.
const P1_LOG: [[u32; 3]; LOG_WORDS] = log_of([[1, 3, 2], [1, 0, 0], [0; 3], [2, 0, 0], [0; 3]]);
/// One interval. The cells that are loaded are neighbours, and the stopped row is not run.
const P1_RECORDS: [u32; 3] = [0, 6, 0];

/// Words of log for each cell.
const LOG_WORDS: usize = 8;

/// A log of own cells alone: masks of groups are 0.
const fn log_of<const N: usize>(threads: [[u32; N]; 5]) -> [[u32; N]; LOG_WORDS] {
    let [readers, writers, adders, firsts, marks] = threads;
    let none = [0; N];
    [readers, writers, adders, firsts, marks, none, none, none]
}

/// What no thread's steps come to, and no word of a record.
const JUNK: u32 = 0xfeed_face;

/// Lent buffers that hold what no run leaves in them.
#[derive(Clone, PartialEq)]
struct Lent {
    cells: Vec<u32>,
    global: Vec<u32>,
    log: Vec<u32>,
    records: Vec<u32>,
    steps: [u32; LENT_STEPS],
    output: Vec<u8>,
}

impl Lent {
    /// For a bare launch without global cells.
    fn new(cells: usize, log: usize, output: usize) -> Self {
        Self {
            cells: vec![0xdead_beef; cells],
            global: Vec::new(),
            log: vec![0xcafe_f00d; log],
            records: vec![JUNK; LENT_RECORDS],
            steps: [JUNK; LENT_STEPS],
            output: vec![0xff; output],
        }
    }

    /// For a file.
    fn for_file() -> Self {
        Self::new(LENT_CELLS, LENT_LOG, REPORT_ROOM).with_global(LENT_GLOBAL)
    }

    /// For a bare launch of `[threads, cells, groups, global, limit]`. All cells are 0.
    fn for_groups([_, cells, groups, global, _]: [u32; 5]) -> Self {
        let (own, global) = ((cells * groups) as usize, global as usize);
        let mut lent = Self::new(own, LOG_WORDS * (own + global), 0).with_global(global);
        lent.cells.fill(0);
        lent.global.fill(0);
        lent
    }

    /// The same with so many global cells.
    fn with_global(self, words: usize) -> Self {
        let global = vec![0xbad_cafe; words];
        Self { global, ..self }
    }

    /// The same with so many words of records.
    fn with_records(self, words: usize) -> Self {
        let records = vec![JUNK; words];
        Self { records, ..self }
    }

    fn check(&mut self, file: &str) -> Result<usize, Refusal> {
        let Self {
            cells,
            global,
            log,
            records,
            output,
            ..
        } = self;
        check_file(file.as_bytes(), cells, global, log, records, output)
    }

    /// A bare launch of `[threads, cells, limit]` in one group without global cells.
    fn launch(&mut self, table: &[u8], numbers: [u32; 3]) -> Result<Outcome, Refusal> {
        let [threads, cells, limit] = numbers;
        self.launch_groups(table, [threads, cells, 1, 0, limit])
    }

    /// A bare launch of `[threads, cells, groups, global, limit]`.
    fn launch_groups(&mut self, table: &[u8], numbers: [u32; 5]) -> Result<Outcome, Refusal> {
        let Self {
            cells,
            global,
            log,
            records,
            steps,
            ..
        } = self;
        let [threads, own, groups, shared, limit] = numbers;
        bare_launch(
            table, threads, own, groups, shared, limit, cells, global, log, records, steps,
        )
    }
}

/// Some counts, and 0 behind them.
fn counted(counts: &[u32]) -> [u32; LENT_STEPS] {
    let mut steps = [0; LENT_STEPS];
    steps[..counts.len()].copy_from_slice(counts);
    steps
}

/// Some records, and what was lent behind them, `words` in all.
fn recorded(records: &[[u32; 3]], words: usize) -> Vec<u32> {
    let mut list = records.concat();
    list.resize(words, JUNK);
    list
}

fn refused<T>(number: u32, place: u32) -> Result<T, Refusal> {
    Err(Refusal { number, place })
}

#[test]
fn the_file_of_p1_gives_its_report_and_keeps_what_is_behind() {
    let mut lent = Lent::for_file();
    let mut expected = lent.clone();
    expected.cells[..3].copy_from_slice(&[2, 1, 1]);
    // Packed: behind its last word the log is kept. The global cells are not used.
    expected.log[..24].copy_from_slice(&P1_LOG.concat());
    expected.records[..3].copy_from_slice(&P1_RECORDS);
    expected.output[..P1_REPORT.len()].copy_from_slice(P1_REPORT.as_bytes());
    assert_eq!(lent.check(P1_FILE), Ok(P1_REPORT.len()));
    assert!(lent == expected);
}

#[test]
fn check_file_refuses_wrong_buffers_and_leaves_them() {
    for (cells, global, log, records, output, number) in [
        (1_023, 1_024, 8_192, 3_075, 24_576, 20),
        (1_025, 1_024, 8_192, 3_075, 24_576, 20),
        (1_024, 1_023, 8_192, 3_075, 24_576, 20),
        (1_024, 1_025, 8_192, 3_075, 24_576, 20),
        // As this launch's three own cells and no global ones would have it.
        (3, 1_024, 8_192, 3_075, 24_576, 20),
        (1_024, 0, 8_192, 3_075, 24_576, 20),
        // As many as there are together.
        (2_048, 0, 8_192, 3_075, 24_576, 20),
        (1_025, 1_023, 8_192, 3_075, 24_576, 20),
        (1_023, 1_024, 8_192, 3_074, 24_576, 20),
        (1_024, 1_023, 8_191, 3_075, 24_576, 20),
        (1_024, 0, 0, 0, 0, 20),
        (0, 0, 0, 0, 0, 20),
        (1_024, 1_024, 8_191, 3_075, 24_576, 21),
        (1_024, 1_024, 8_193, 3_075, 24_576, 21),
        (1_024, 1_024, 8_191, 3_074, 24_576, 21),
        // So many words a cell: three and five were once enough.
        (1_024, 1_024, 3_072, 3_075, 24_576, 21),
        (1_024, 1_024, 5_120, 3_075, 24_576, 21),
        (1_024, 1_024, 7_168, 3_075, 24_576, 21),
        (1_024, 1_024, 9_216, 3_075, 24_576, 21),
        // As for all words that are lent, of which a launch uses half.
        (1_024, 1_024, 16_384, 3_075, 24_576, 21),
        (1_024, 1_024, 24, 3_075, 24_576, 21),
        (1_024, 1_024, 3_075, 8_192, 24_576, 21),
        (1_024, 1_024, 0, 0, 0, 21),
        (1_024, 1_024, 8_192, 3_074, 24_576, 30),
        (1_024, 1_024, 8_192, 3_072, 24_576, 30),
        (1_024, 1_024, 8_192, 1_025, 24_576, 30),
        (1_024, 1_024, 8_192, 3, 24_576, 30),
        (1_024, 1_024, 8_192, 0, 24_576, 30),
        (1_024, 1_024, 8_192, 3_074, 24_575, 30),
        (1_024, 1_024, 8_192, 0, 0, 30),
        (1_024, 1_024, 8_192, 3_075, 24_575, 24),
        (1_024, 1_024, 8_192, 3_076, 24_575, 24),
        // As was once enough.
        (1_024, 1_024, 8_192, 3_075, 17_408, 24),
        (1_024, 1_024, 8_192, 3_075, 0, 24),
    ] {
        let mut lent = Lent::new(cells, log, output)
            .with_global(global)
            .with_records(records);
        let before = lent.clone();
        assert_eq!(lent.check(P1_FILE), refused(number, 0));
        assert!(
            lent == before,
            "{cells}, {global}, {log}, {records}, {output}"
        );
    }
}

#[test]
fn a_refused_file_leaves_the_buffers() {
    for (file, number, place) in [
        ("", 11, 1),
        ("kernel=1\nthreads=33\n", 8, 2),
        ("kernel=1\nthreads=1\ncells=1\ngroups=0\n", 32, 4),
        ("kernel=1\nthreads=1\ncells=1\ngroups=9\n", 32, 4),
        (
            "kernel=1\nthreads=1\ncells=128\ngroups=8\nglobal=1\n",
            33,
            5,
        ),
        // In the order of the lines.
        ("kernel=1\nthreads=1\ncells=0\ngroups=9\n", 9, 3),
        (
            "kernel=1\nthreads=1\ncells=1\ngroups=1\nglobal=1024\nlimit=1000001\n",
            33,
            5,
        ),
        (
            "kernel=1\nthreads=1\ncells=1\ngroups=1\nglobal=1023\nlimit=1000001\n",
            10,
            6,
        ),
    ] {
        for records in [LENT_RECORDS, 0] {
            let mut lent = Lent::for_file().with_records(records);
            let before = lent.clone();
            assert_eq!(lent.check(file), refused(number, place));
            assert!(lent == before);
        }
    }
}

#[test]
fn the_bare_launch_of_p1() {
    let mut lent = Lent::new(3, 24, 0);
    lent.cells.fill(1);
    assert_eq!(lent.launch(&P1_TABLE, [2, 3, 100]), Ok(P1_OUTCOME));
    assert_eq!(lent.cells, [2, 1, 1]);
    assert_eq!(lent.log, P1_LOG.concat());
    assert_eq!(lent.records, recorded(&[P1_RECORDS], LENT_RECORDS));
    assert_eq!(lent.steps, counted(&P1_STEPS));
}

/// The words of steps that a launch leaves, lent as junk. All cells are 0 before.
fn steps_of(table: &[u8], numbers: [u32; 3]) -> [u32; LENT_STEPS] {
    let cells = numbers[1] as usize;
    let mut lent = Lent::new(cells, LOG_WORDS * cells, 0);
    lent.cells.fill(0);
    let answer = lent.launch(table, numbers);
    assert!(answer.is_ok(), "{answer:?}");
    lent.steps
}

/// A loop of as many rounds as the thread's number says.
#[rustfmt::skip]
const ROUNDS: [u8; 20] = [2, 0, 0, 0,  1, 1, 1, 0,  35, 0, 0, 0,  5, 0, 0, 1,  36, 0, 0, 0];

#[test]
fn each_thread_has_steps_of_its_own() {
    // WHILE once in each round and once more, SUB and ENDWHILE in each round.
    let due: [u32; 32] = std::array::from_fn(|thread| 3 + 3 * thread as u32);
    for threads in [1, 2, 3, 8, 9, 31, 32] {
        let steps = steps_of(&ROUNDS, [threads, 1, 1_000]);
        assert_eq!(steps, counted(&due[..threads as usize]), "{threads}");
    }
}

#[test]
fn a_barrier_is_nobodys_step() {
    let (before, behind) = P1_TABLE.split_at(16);
    let p2 = [before, &[37, 0, 0, 0], behind].concat();
    assert_eq!(steps_of(&p2, [2, 3, 100]), counted(&[7, 7]));
    let (tid, begin_if, otherwise) = ([2, 0, 0, 0], [32, 0, 0, 0], [33, 0, 0, 0]);
    let (barrier, end_if) = ([37, 0, 0, 0], [34, 0, 0, 0]);
    let p5 = [tid, begin_if, barrier, otherwise, barrier, end_if].concat();
    assert_eq!(steps_of(&p5, [2, 1, 100]), counted(&[2, 2]));
}

#[test]
fn a_launch_without_rows_clears_all_steps() {
    assert_eq!(steps_of(&[], [32, 1, 0]), [0; LENT_STEPS]);
    assert_eq!(steps_of(&P1_TABLE, [2, 3, 0]), [0; LENT_STEPS]);
}

/// Asks for the records of a launch over cells of 0, in lists of several lengths, and that what was lent behind them is kept. Gives the
/// conflicts.
fn conflicts_of(table: &[u8], numbers: [u32; 3], due: &[[u32; 3]]) -> u32 {
    let cells = numbers[1] as usize;
    let found = [LENT_RECORDS, 3_076, 3_077, 3_078, 4_000, 6_150].map(|words| {
        let mut lent = Lent::new(cells, LOG_WORDS * cells, 0).with_records(words);
        lent.cells.fill(0);
        let outcome = lent.launch(table, numbers).expect("a sound launch");
        assert_eq!(lent.records, recorded(due, words), "{words} words");
        outcome.conflicts
    });
    assert_eq!(found, [found[0]; 6]);
    found[0]
}

/// Each thread loads the cell of 16 times its number, then a barrier, then it stores what it loaded.
#[rustfmt::skip]
const STRIDE: [u8; 24] = [
    2, 0, 0, 0,  1, 1, 16, 0,  6, 2, 0, 1,  16, 3, 2, 0,  37, 0, 0, 0,  17, 2, 3, 0,
];

#[test]
fn a_stride_of_16_costs_all_threads_but_one() {
    for threads in 1..=32 {
        let others = threads - 1;
        let due = [[0, 5, others], [5, 1, others]];
        let conflicts = conflicts_of(&STRIDE, [threads, 512, 100], &due);
        assert_eq!(conflicts, 2 * others, "{threads}");
    }
}

#[test]
fn other_strides_cost_by_their_banks() {
    for (stride, cost) in [
        (0, 0),
        (1, 1),
        (2, 3),
        (4, 7),
        (8, 15),
        (15, 1),
        (17, 1),
        (32, 31),
    ] {
        let (tid, set, mul) = ([2, 0, 0, 0], [1, 1, stride, 0], [6, 2, 0, 1]);
        let table = [tid, set, mul, [16, 3, 2, 0]].concat();
        let conflicts = conflicts_of(&table, [32, 1_024, 100], &[[0, 4, cost]]);
        assert_eq!(conflicts, cost, "{stride}");
    }
}

#[test]
fn a_stopped_row_costs_nothing() {
    // One cell too few for the last thread.
    assert_eq!(conflicts_of(&STRIDE, [32, 496, 100], &[[0, 3, 0]]), 0);
    // The last thread stores to the first cell, which another has loaded.
    let (head, store) = (&STRIDE[..16], &STRIDE[20..]);
    #[rustfmt::skip]
    let back = [1, 4, 31, 0,  12, 4, 0, 4,  1, 5, 240, 1,  6, 4, 4, 5,  5, 2, 2, 4];
    let race = [head, &back, store].concat();
    assert_eq!(conflicts_of(&race, [32, 512, 100], &[[0, 9, 31]]), 31);
    // A barrier that thread 1 comes to alone.
    let barrier_in_if = [32, 0, 0, 0, 37, 0, 0, 0, 34, 0, 0, 0];
    let diverged = [head, &barrier_in_if].concat();
    assert_eq!(conflicts_of(&diverged, [2, 512, 100], &[[0, 5, 1]]), 1);
}

#[test]
fn rows_behind_the_limit_cost_nothing() {
    for (limit, due) in [
        (0, &[[0, 0, 0]][..]),
        (3, &[[0, 3, 0]]),
        (4, &[[0, 4, 1]]),
        (5, &[[0, 5, 1], [5, 0, 0]]),
    ] {
        let cost = u32::from(limit > 3);
        assert_eq!(conflicts_of(&STRIDE, [2, 512, limit], due), cost);
    }
}

#[test]
fn there_is_a_record_before_the_first_row_and_behind_the_last() {
    assert_eq!(conflicts_of(&[], [32, 1, 0], &[[0, 0, 0]]), 0);
    let barrier = [37, 0, 0, 0];
    let due = [[0, 1, 0], [1, 0, 0]];
    assert_eq!(conflicts_of(&barrier, [32, 1, 9], &due), 0);
    // One that nobody comes to is a row, but opens no record.
    let skipped = [[32, 0, 0, 0], barrier, [34, 0, 0, 0]].concat();
    assert_eq!(conflicts_of(&skipped, [32, 1, 9], &[[0, 3, 0]]), 0);
}

/// Two threads load cells of one bank before each barrier, for ever.
#[rustfmt::skip]
const BARRIERS: [u8; 32] = [
    2, 0, 0, 0,  1, 1, 16, 0,  6, 2, 0, 1,  1, 4, 1, 0,
    35, 0, 4, 0,  16, 3, 2, 0,  37, 0, 0, 0,  36, 0, 0, 0,
];

#[test]
fn the_last_of_1025_records_goes_on() {
    // Seven rows in the first interval, then four in each.
    let before_last = 7 + 4 * 1_023;
    let mut due = vec![[7, 4, 1]; 1_025];
    due[0] = [0, 7, 1];
    for (more, cost) in [
        (0, 0),
        (1, 0),
        (3, 1),
        (4, 1),
        (5, 1),
        (7, 2),
        (8, 2),
        (26, 6),
    ] {
        due[1_024] = [7, more, cost];
        let limit = before_last + more;
        let conflicts = conflicts_of(&BARRIERS, [2, 17, limit], &due);
        assert_eq!(conflicts, 1_024 + cost, "{more}");
    }
    // A barrier fewer, and the last record is kept.
    due[1_023] = [7, 3, 1];
    let limit = before_last - 1;
    assert_eq!(
        conflicts_of(&BARRIERS, [2, 17, limit], &due[..1_024]),
        1_024
    );
}

#[test]
fn a_file_leaves_its_records_too() {
    let rows: String = (STRIDE.chunks(4))
        .map(|row| format!("row={},{},{},{}\n", row[0], row[1], row[2], row[3]))
        .collect();
    let cells = "cell=0\n".repeat(32);
    let head = "kernel=1\nthreads=2\ncells=32\ngroups=1\nglobal=0\nlimit=100\nrows=6\n";
    let file = format!("{head}{rows}{cells}end=kernel\n");
    let due = format!(
        "verdict=passed\nrow=-\ngroup=-\nothergroup=-\nthread=-\nother=-\nkind=-\nat=-\nrows=6\nsteps=5\nsteps=5\n\
         barriers=1\nconflicts=2\n{cells}end=report\n"
    );
    for words in [LENT_RECORDS, 3_076, 6_150] {
        let mut lent = Lent::for_file().with_records(words);
        assert_eq!(lent.check(&file), Ok(due.len()));
        assert_eq!(&lent.output[..due.len()], due.as_bytes());
        let records = recorded(&[[0, 5, 1], [5, 1, 1]], words);
        assert_eq!(lent.records, records, "{words} words");
    }
}

#[test]
fn every_refusal_of_a_bare_launch_leaves_the_buffers() {
    for (table, numbers, number) in [
        (&P1_TABLE[..27], [2, 3, 1, 0, 100], 1),
        (&[0; 1_028], [2, 3, 1, 0, 100], 2),
        (&[0; 4], [2, 3, 1, 0, 100], 3),
        (&[2, 16, 0, 0], [2, 3, 1, 0, 100], 4),
        (&[34, 0, 0, 0], [2, 3, 1, 0, 100], 5),
        (&[32, 0, 0, 0].repeat(9)[..], [2, 3, 1, 0, 100], 6),
        (&[32, 0, 0, 0], [2, 3, 1, 0, 100], 7),
        (&P1_TABLE, [0, 3, 1, 0, 100], 8),
        (&P1_TABLE, [33, 3, 1, 0, 100], 8),
        (&P1_TABLE, [2, 0, 1, 0, 100], 9),
        (&P1_TABLE, [2, 1_025, 1, 0, 100], 9),
        // Global cells alone are none of a group's own.
        (&P1_TABLE, [2, 0, 1, 3, 100], 9),
        (&P1_TABLE, [2, 3, 0, 0, 100], 32),
        (&P1_TABLE, [2, 3, 9, 0, 100], 32),
        (&P1_TABLE, [2, 3, u32::MAX, 0, 100], 32),
        (&P1_TABLE, [2, 3, 9, 1_025, 100], 32),
        (&P1_TABLE, [2, 3, 1, 1_022, 100], 33),
        (&P1_TABLE, [2, 3, 1, 1_025, 100], 33),
        (&P1_TABLE, [2, 3, 1, u32::MAX, 100], 33),
        (&P1_TABLE, [2, 129, 8, 0, 100], 33),
        (&P1_TABLE, [2, 128, 8, 1, 100], 33),
        (&P1_TABLE, [2, 1_024, 8, u32::MAX, 1_000_001], 33),
        (&P1_TABLE, [2, 3, 1, 0, 1_000_001], 10),
        (&[0; 4], [2, 3, 1, 0, 1_000_001], 10),
    ] {
        // The input is told before what is lent.
        for records in [LENT_RECORDS, 0] {
            let mut lent = Lent::new(3, 24, 0).with_records(records);
            let before = lent.clone();
            let answer = lent.launch_groups(table, numbers);
            assert_eq!(answer.map_err(|refusal| refusal.number), Err(number));
            assert!(lent == before, "{number}");
        }
    }
}

#[test]
fn bare_launch_refuses_wrong_buffers_and_leaves_them() {
    for (cells, log, records, number) in [
        (2, 24, 3_075, 20),
        (4, 24, 3_075, 20),
        (4, 32, 3_075, 20),
        (2, 24, 3_074, 20),
        (0, 0, 0, 20),
        // Three, five, seven and nine words a cell.
        (3, 9, 3_075, 21),
        (3, 15, 3_075, 21),
        (3, 21, 3_075, 21),
        (3, 27, 3_075, 21),
        (3, 23, 3_075, 21),
        (3, 25, 3_075, 21),
        // As a file has it.
        (3, 8_192, 3_075, 21),
        (3, 23, 3_074, 21),
        (3, 0, 0, 21),
        (3, 24, 3_074, 30),
        (3, 24, 3_072, 30),
        (3, 24, 1_025, 30),
        // Room for the launch's own record.
        (3, 24, 3, 30),
        (3, 24, 0, 30),
    ] {
        let mut lent = Lent::new(cells, log, 0).with_records(records);
        let before = lent.clone();
        assert_eq!(lent.launch(&P1_TABLE, [2, 3, 100]), refused(number, 0));
        assert!(lent == before, "{cells}, {log}, {records}");
    }
}

#[test]
fn a_launch_of_groups_refuses_wrong_buffers_and_leaves_them() {
    for (cells, global, log, records, number) in [
        // Of one group alone, of a group more, by a word.
        (3, 4, 80, 3_075, 20),
        (9, 4, 80, 3_075, 20),
        (5, 4, 80, 3_075, 20),
        (7, 4, 80, 3_075, 20),
        (6, 3, 80, 3_075, 20),
        (6, 5, 80, 3_075, 20),
        (6, 0, 80, 3_075, 20),
        // All in one buffer, or in each other's.
        (10, 0, 80, 3_075, 20),
        (4, 6, 80, 3_075, 20),
        (6, 5, 79, 3_074, 20),
        // Without the global cells, for global cells alone, for one group.
        (6, 4, 48, 3_075, 21),
        (6, 4, 32, 3_075, 21),
        (6, 4, 56, 3_075, 21),
        (6, 4, 79, 3_075, 21),
        (6, 4, 81, 3_075, 21),
        (6, 4, 50, 3_075, 21),
        (6, 4, 79, 3_074, 21),
        (6, 4, 80, 3_074, 30),
    ] {
        let mut lent = Lent::new(cells, log, 0)
            .with_global(global)
            .with_records(records);
        let before = lent.clone();
        let answer = lent.launch_groups(&P1_TABLE, [2, 3, 2, 4, 100]);
        assert_eq!(answer, refused(number, 0));
        assert!(lent == before, "{cells}, {global}, {log}, {records}");
    }
}

/// The outcome's words of a launch with two threads and one cell, and the two threads' steps.
fn words(table: &[u8], limit: u32) -> (raw::OutcomeWords, [u32; 2]) {
    let (mut records, mut steps) = ([JUNK; LENT_RECORDS], [JUNK; LENT_STEPS]);
    let (cells, log) = (&mut [5], &mut [7; LOG_WORDS]);
    let (records, steps) = (&mut records, &mut steps);
    let answer = raw::bare_launch(
        table,
        2,
        1,
        1,
        0,
        limit,
        cells,
        &mut [],
        log,
        records,
        steps,
    );
    assert!(answer.ran);
    assert_eq!(answer.refusal, [0, 0]);
    assert_eq!(steps[2..], [0; LENT_STEPS - 2]);
    (answer.outcome, [steps[0], steps[1]])
}

#[test]
fn words_without_meaning_are_zero() {
    let (tid, set) = ([2, 0, 0, 0], [1, 1, 9, 0]);
    let (load_outside, begin_if) = ([16, 2, 1, 0], [32, 0, 0, 0]);
    let (barrier, end_if) = ([37, 0, 0, 0], [34, 0, 0, 0]);
    let outside = [tid, set, load_outside].concat();
    assert_eq!(
        words(&outside, 9),
        ([3, 2, 0, 0, 0, 0, 0, 9, 2, 0, 0], [2, 2])
    );
    let diverged = [tid, begin_if, barrier, end_if].concat();
    assert_eq!(
        words(&diverged, 9),
        ([4, 2, 0, 0, 1, 0, 0, 0, 2, 0, 0], [2, 2])
    );
    let spent = [tid, set].concat();
    assert_eq!(
        words(&spent, 1),
        ([5, 1, 0, 0, 0, 0, 0, 0, 1, 0, 0], [1, 1])
    );
}

#[test]
fn threads_add_into_one_cell() {
    let (tid, set) = ([2, 0, 0, 0], [1, 1, 9, 0]);
    let table = [tid, set, [18, 2, 1, 0]].concat();
    let mut lent = Lent::new(1, LOG_WORDS, 0);
    lent.cells.fill(u32::MAX);
    let answer = lent.launch(&table, [2, 1, 9]);
    assert!(answer.is_ok_and(|outcome| outcome.verdict == Verdict::Passed));
    assert_eq!(
        (lent.cells, lent.log),
        (vec![17], vec![0, 0, 3, 0, 0, 0, 0, 0])
    );
    assert_eq!(lent.steps, counted(&[3, 3]));
}

type Row = [u8; 4];
const BARRIER: Row = [37, 0, 0, 0];
/// Accesses to cell 0, whose number is in R15: R15 is never set. The add is of 0.
const LOAD_0: Row = [16, 1, 15, 0];
const ADD_0: Row = [18, 15, 15, 0];

/// Stores of these values to a cell, by R2 and R3.
fn puts(cell: u8, values: &[u8]) -> Vec<Row> {
    let put = |value: &u8| [[1, 2, cell, 0], [1, 3, *value, 0], [17, 2, 3, 0]];
    values.iter().flat_map(put).collect()
}

/// Rows for one thread alone.
fn only(thread: u8, rows: &[Row]) -> Vec<Row> {
    let mine = [
        [2, 0, 0, 0],
        [1, 9, thread, 0],
        [12, 9, 0, 9],
        [32, 0, 9, 0],
    ];
    [&mine, rows, &[[34, 0, 0, 0]]].concat()
}

/// All threads load cell 0, set cell 1 to 7 and add 7 to cell 3; thread 1 alone stores 5 and 6 to cell 2.
fn four_ways() -> Vec<Row> {
    let add = [[1, 2, 3, 0], [18, 2, 3, 0]];
    let own = only(1, &puts(2, &[5, 6]));
    [&[LOAD_0], &puts(1, &[7])[..], &add, &own].concat()
}

/// What that leaves with such a mask of all threads: readers, writers, adders, first values, marks.
fn four_logged(all: u32) -> [[u32; 4]; LOG_WORDS] {
    log_of([
        [all, 0, 0, 0],
        [0, all, 2, 0],
        [0, 0, 0, all],
        [0, 7, 5, 0],
        [0, 0, 1, 0],
    ])
}

#[test]
fn a_flag_is_set_by_many_threads_and_each_kind_of_word_is_in_its_place() {
    let table = four_ways().concat();
    for threads in [2, 3, 31, 32] {
        let mut lent = Lent::new(4, 32, 0);
        lent.cells.fill(0);
        let answer = lent.launch(&table, [threads, 4, 100]);
        assert!(answer.is_ok_and(|outcome| outcome.verdict == Verdict::Passed));
        assert_eq!(lent.cells, [0, 7, 6, 7 * threads]);
        assert_eq!(lent.log, four_logged(u32::MAX >> (32 - threads)).concat());
    }
}

#[test]
fn a_file_has_the_same_log_and_keeps_what_is_behind() {
    let rows = four_ways();
    let lines: String = (rows.iter())
        .map(|[op, d, a, b]| format!("row={op},{d},{a},{b}\n"))
        .collect();
    let head = format!(
        "kernel=1\nthreads=32\ncells=4\ngroups=1\nglobal=0\nlimit=100\nrows={}\n",
        rows.len()
    );
    let file = format!("{head}{lines}{}end=kernel\n", "cell=0\n".repeat(4));
    let mut lent = Lent::for_file();
    let mut expected = lent.log.clone();
    expected[..32].copy_from_slice(&four_logged(u32::MAX).concat());
    let written = lent.check(&file).expect("a sound file");
    assert!(lent.output[..written].starts_with(b"verdict=passed\n"));
    assert!(lent.log == expected);
}

#[test]
fn a_barrier_clears_first_values_and_marks() {
    let rows = [four_ways(), vec![BARRIER]].concat();
    // Behind it another value is the first, and 0 is one too.
    for value in [8, 0] {
        let table = [&rows[..], &puts(2, &[value])].concat().concat();
        let mut lent = Lent::new(4, 32, 0);
        lent.cells.fill(0);
        let answer = lent.launch(&table, [3, 4, 100]);
        assert!(answer.is_ok_and(|outcome| outcome.verdict == Verdict::Passed));
        let [writers, firsts] = [[0, 0, 7, 0], [0, 0, value.into(), 0]];
        let due = log_of([[0; 4], writers, [0; 4], firsts, [0; 4]]);
        assert_eq!(lent.log, due.concat());
    }
}

/// What threads do to cell 0 one after the other: the outcome's words of verdict, thread, other and kind, the cell, and its log.
fn in_turn(turns: &[(u8, &[Row])]) -> ([u32; 4], u32, [u32; 5]) {
    let table = (turns.iter()).flat_map(|(thread, rows)| only(*thread, rows));
    let table = table.collect::<Vec<Row>>().concat();
    let (mut records, mut steps) = ([JUNK; LENT_RECORDS], [JUNK; LENT_STEPS]);
    let (mut cells, mut log) = ([77], [JUNK; LOG_WORDS]);
    let answer = raw::bare_launch(
        &table,
        4,
        1,
        1,
        0,
        100,
        &mut cells,
        &mut [],
        &mut log,
        &mut records,
        &mut steps,
    );
    let [verdict, _, group, other_group, thread, other, kind, at, ..] = answer.outcome;
    assert_eq!((answer.ran, group, other_group, at), (true, 0, 0, 0));
    let [threads @ .., 0, 0, 0] = log else {
        panic!("masks of groups at an own cell: {log:?}");
    };
    ([verdict, thread, other, kind], cells[0], threads)
}

const PASSED: [u32; 4] = [1, 0, 0, 0];
/// A race's kinds, as the outcome has them.
const RW: u32 = 1;
const WW: u32 = 3;
const AW: u32 = 7;

#[test]
fn a_thread_may_store_unequal_values_by_itself() {
    for (values, mark) in [
        (&[5, 5][..], 0),
        (&[5, 6], 1),
        (&[5, 6, 5], 1),
        (&[0, 5], 1),
    ] {
        let stores = puts(0, values);
        let last = values[values.len() - 1];
        let log = [0, 4, 0, values[0].into(), mark];
        assert_eq!(in_turn(&[(2, &stores)]), (PASSED, last.into(), log));
        // Behind unequal stores no other may store, not even the first or the last of them.
        for value in [values[0], last] {
            let (answer, cell, left) = in_turn(&[(2, &stores), (1, &puts(0, &[value]))]);
            if mark == 1 {
                assert_eq!((answer, cell, left), ([2, 1, 2, WW], last.into(), log));
            } else {
                assert_eq!((answer, left), (PASSED, [0, 6, 0, 5, 0]));
            }
        }
    }
}

#[test]
fn a_race_beside_equal_stores_shows_what_conflicts() {
    let put = puts(0, &[5]);
    let with = |more: &[Row]| [&put[..], more].concat();
    let (read, added, both) = (with(&[LOAD_0]), with(&[ADD_0]), with(&[ADD_0, LOAD_0]));
    for (turns, race, log) in [
        // An unequal value: the lowest of those that stored.
        (
            &[(3, &put), (1, &put), (0, &puts(0, &[6]))][..],
            [0, 1, WW],
            [0, 10, 0, 5, 0],
        ),
        // An equal one: the store is no conflict, so what was done besides is.
        (&[(0, &read), (1, &put)], [1, 0, RW], [1, 1, 0, 5, 0]),
        (&[(0, &added), (1, &put)], [1, 0, AW], [0, 1, 1, 5, 0]),
        (&[(0, &both), (1, &put)], [1, 0, AW], [1, 1, 1, 5, 0]),
        // An unequal one again: the store is told before what was done besides.
        (
            &[(0, &both), (1, &puts(0, &[4]))],
            [1, 0, WW],
            [1, 1, 1, 5, 0],
        ),
    ] {
        let turns: Vec<(u8, &[Row])> = turns.iter().map(|(t, rows)| (*t, &rows[..])).collect();
        let [thread, other, kind] = race;
        assert_eq!(in_turn(&turns), ([2, thread, other, kind], 5, log));
    }
}

#[test]
fn a_load_or_an_add_beside_equal_stores_races() {
    let put = puts(0, &[5]);
    for (access, kind) in [(LOAD_0, 2), (ADD_0, 6)] {
        let answer = in_turn(&[(3, &put), (1, &put), (2, &[access])]);
        assert_eq!(answer, ([2, 2, 1, kind], 5, [0, 10, 0, 5, 0]));
    }
}

#[test]
fn a_launch_that_passed_has_no_row() {
    assert_eq!(words(&[], 0), ([1, 0, 0, 0, 0, 0, 0, 0, 0, 0, 0], [0, 0]));
    let tid = [2, 0, 0, 0];
    assert_eq!(words(&tid, 9), ([1, 0, 0, 0, 0, 0, 0, 0, 1, 0, 0], [1, 1]));
}

#[test]
fn the_answer_that_does_not_apply_is_zero() {
    let (mut records, mut steps) = ([JUNK; LENT_RECORDS], [JUNK; LENT_STEPS]);
    let (cells, log) = (&mut [5], &mut [7; LOG_WORDS]);
    let lists = (&mut records, &mut steps);
    let answer = raw::bare_launch(&[], 33, 1, 1, 0, 0, cells, &mut [], log, lists.0, lists.1);
    assert!(!answer.ran);
    assert_eq!(answer.outcome, [0; 11]);
    assert_eq!(answer.refusal, [8, 0]);
    assert_eq!(records, [JUNK; LENT_RECORDS]);
    assert_eq!(steps, [JUNK; LENT_STEPS]);
    assert_eq!(raw::write_refusal(1, 2, &mut [0; 40]).1, [0, 0]);
    let written = raw::write_report(&[1; 11], &[1], &[1], &[], &mut [0; 200]);
    assert_eq!(written.1, [0, 0]);
}

#[test]
fn the_report_of_p1_fits_a_buffer_of_its_length() {
    let mut output = [0; P1_REPORT.len()];
    let subject = Subject::Ran(P1_OUTCOME);
    assert_eq!(
        write_report(subject, &P1_STEPS, &[2, 1, 1], &[], &mut output),
        Ok(P1_REPORT.len())
    );
    assert_eq!(output, P1_REPORT.as_bytes());
}

#[test]
fn write_report_refuses_wrong_buffers_and_leaves_them() {
    let needed = P1_REPORT.len() as u32;
    let subject = Subject::Ran(P1_OUTCOME);
    let three = &[2, 1, 1][..];
    for (steps, cells, global, output, number, place) in [
        (
            &P1_STEPS[..],
            three,
            &[][..],
            needed as usize - 1,
            22,
            needed,
        ),
        (&P1_STEPS, three, &[], 0, 22, needed),
        (&P1_STEPS, three, &[5], needed as usize, 22, needed + 8),
        (&P1_STEPS, &[], &[], 24_576, 23, 0),
        (&P1_STEPS, &[0; 1_025], &[], 30_000, 23, 0),
        // Both together.
        (&P1_STEPS, &[], &[0; 1_025], 30_000, 23, 0),
        (&P1_STEPS, &[0; 1_024], &[0], 30_000, 23, 0),
        (&P1_STEPS, &[0; 1], &[0; 1_024], 30_000, 23, 0),
        (&P1_STEPS, &[0; 1_024], &[0; 1_024], 30_000, 23, 0),
        (&[], three, &[], 24_576, 23, 0),
        (&[0; 257], three, &[], 30_000, 23, 0),
        (&[0; 512], three, &[], 30_000, 23, 0),
        (&[], &[], &[], 24_576, 23, 0),
        (&[0; 257], &[0; 1_025], &[], 30_000, 23, 0),
        // Told before the buffer.
        (&[], three, &[], 0, 23, 0),
        (&[0; 257], three, &[], 0, 23, 0),
        (&P1_STEPS, &[], &[], 0, 23, 0),
        (&P1_STEPS, &[0; 1_024], &[0], 0, 23, 0),
    ] {
        let mut lent = Lent::new(0, 0, output);
        let before = lent.clone();
        assert_eq!(
            write_report(subject, steps, cells, global, &mut lent.output),
            refused(number, place)
        );
        assert!(lent == before);
    }
}

#[test]
fn a_report_has_a_line_for_each_count() {
    let subject = Subject::Ran(P1_OUTCOME);
    for threads in [1, 2, 31, 32, 33, 255, 256] {
        let counts: Vec<u32> = (0..threads).map(|thread| u32::MAX - thread).collect();
        let lines: String = counts.iter().map(|n| format!("steps={n}\n")).collect();
        let due = P1_REPORT.replace("steps=7\nsteps=6\n", &lines);
        let mut output = vec![0; due.len()];
        let answer = write_report(subject, &counts, &[2, 1, 1], &[], &mut output);
        assert_eq!(answer, Ok(due.len()));
        assert_eq!(output, due.as_bytes());
    }
}

#[test]
fn a_report_has_the_conflicts_behind_the_barriers() {
    for conflicts in [1, 62, u32::MAX] {
        let subject = Subject::Ran(Outcome {
            barriers: 8,
            conflicts,
            ..P1_OUTCOME
        });
        let lines = format!("barriers=8\nconflicts={conflicts}\n");
        let due = P1_REPORT.replace("barriers=0\nconflicts=0\n", &lines);
        let mut output = vec![0; due.len()];
        let answer = write_report(subject, &P1_STEPS, &[2, 1, 1], &[], &mut output);
        assert_eq!(answer, Ok(due.len()));
        assert_eq!(output, due.as_bytes());
    }
}

#[test]
fn a_report_has_the_global_cells_behind_the_own_ones() {
    let subject = Subject::Ran(P1_OUTCOME);
    for (own, global) in [
        (&[2, 1, 1][..], &[7, u32::MAX][..]),
        (&[], &[7]),
        (&[0; 1_000], &[1; 24]),
        (&[], &[1; 1_024]),
        (&[1; 1_024], &[]),
    ] {
        let lines = |key: &str, words: &[u32]| -> String {
            words.iter().map(|n| format!("{key}={n}\n")).collect()
        };
        let cells = format!("{}{}", lines("cell", own), lines("gcell", global));
        let due = P1_REPORT.replace("cell=2\ncell=1\ncell=1\n", &cells);
        let mut output = vec![0; due.len()];
        let answer = write_report(subject, &P1_STEPS, own, global, &mut output);
        assert_eq!(answer, Ok(due.len()));
        assert_eq!(output, due.as_bytes());
    }
}

#[test]
fn a_race_between_groups_has_no_other_thread() {
    let verdict = Verdict::GroupRace {
        row: 6,
        group: 7,
        other_group: 3,
        thread: 1,
        kind: AccessKind::Rw,
        at: 1,
    };
    let outcome = Outcome {
        verdict,
        ..P1_OUTCOME
    };
    let due = P1_REPORT.replace(
        "group=0\nothergroup=0\nthread=1\nother=0\n",
        "group=7\nothergroup=3\nthread=1\nother=-\n",
    );
    let mut output = vec![0; due.len()];
    let subject = Subject::Ran(outcome);
    let answer = write_report(subject, &P1_STEPS, &[2, 1, 1], &[], &mut output);
    assert_eq!(answer, Ok(due.len()));
    assert_eq!(output, due.as_bytes());
}

#[test]
fn the_report_of_a_common_cell_has_neither_another_nor_a_kind() {
    let verdict = Verdict::Common {
        row: 6,
        group: 7,
        thread: 1,
        at: 65_791,
    };
    let outcome = Outcome {
        verdict,
        ..P1_OUTCOME
    };
    let due = P1_REPORT
        .replace("verdict=race", "verdict=common")
        .replace("group=0\nothergroup=0\n", "group=7\nothergroup=-\n")
        .replace("other=0\nkind=rw\nat=1\n", "other=-\nkind=-\nat=65791\n");
    let mut output = vec![0; due.len()];
    let subject = Subject::Ran(outcome);
    let answer = write_report(subject, &P1_STEPS, &[2, 1, 1], &[], &mut output);
    assert_eq!(answer, Ok(due.len()));
    assert_eq!(output, due.as_bytes());
}

#[test]
fn the_longest_report_fits_the_room_for_every_report() {
    let most = u32::MAX;
    let race = Verdict::Race {
        row: most,
        group: most,
        thread: most,
        other: most,
        kind: AccessKind::Rw,
        at: most,
    };
    let group_race = Verdict::GroupRace {
        row: most,
        group: most,
        other_group: most,
        thread: most,
        kind: AccessKind::Rw,
        at: most,
    };
    for verdict in [race, group_race] {
        let subject = Subject::Ran(Outcome {
            verdict,
            rows: most,
            barriers: most,
            conflicts: most,
        });
        let (steps, cells) = ([most; LENT_STEPS], [most; LENT_CELLS]);
        for own in [0, 1, 512, LENT_CELLS] {
            let (own, global) = cells.split_at(own);
            let mut output = vec![0; REPORT_ROOM];
            let answer = write_report(subject, &steps, own, global, &mut output);
            assert!(answer.is_ok(), "{answer:?}");
        }
    }
}

#[test]
fn the_report_of_a_refusal() {
    let subject = Subject::Refused(Refusal {
        number: 11,
        place: u32::MAX,
    });
    let report = b"refused=11\nplace=4294967295\nend=report\n";
    let mut lent = Lent::new(0, 0, report.len() + 1);
    assert_eq!(
        write_report(subject, &[], &[], &[], &mut lent.output),
        Ok(report.len())
    );
    assert_eq!(lent.output, [&report[..], &[0xff]].concat());
    let mut short = Lent::new(0, 0, report.len() - 1);
    let before = short.clone();
    assert_eq!(
        write_report(subject, &[], &[], &[], &mut short.output),
        refused(22, report.len() as u32)
    );
    assert!(short == before);
    let mut beside = [0; 60];
    let answer = write_report(subject, &[1; 257], &[1; 1_025], &[1; 9], &mut beside);
    assert_eq!(answer, Ok(report.len()), "none of them is looked at");
}

#[test]
fn outcomes_come_back_from_their_words() {
    use AccessKind::{Ar, Aw, Ra, Rw, Wa, Wr, Ww};
    let kinds = [Rw, Wr, Ww, Ra, Ar, Wa, Aw];
    let races = kinds.map(|kind| Verdict::Race {
        row: 1,
        group: 5,
        thread: 2,
        other: 3,
        kind,
        at: 4,
    });
    let group_races = kinds.map(|kind| Verdict::GroupRace {
        row: 1,
        group: 5,
        other_group: 3,
        thread: 2,
        kind,
        at: 4,
    });
    for verdict in [
        Verdict::Passed,
        Verdict::Outside {
            row: 1,
            group: 5,
            thread: 2,
            at: 3,
        },
        Verdict::Common {
            row: 1,
            group: 5,
            thread: 2,
            at: 3,
        },
        Verdict::Diverged {
            row: 1,
            group: 5,
            thread: 2,
            other: 3,
        },
        Verdict::Spent { row: 1, group: 5 },
    ]
    .into_iter()
    .chain(races)
    .chain(group_races)
    {
        let outcome = Outcome {
            verdict,
            rows: 5,
            barriers: 6,
            conflicts: 7,
        };
        assert_eq!(Outcome::from_words(outcome.words()), outcome);
    }
}

/// R0 is the launch number, R1 the thread's number and R2 the number of threads; then the rows.
fn numbered(rows: &[Row]) -> Vec<u8> {
    let head = [[19, 0, 0, 0], [2, 1, 0, 0], [3, 2, 0, 0]];
    [&head, rows].concat().concat()
}

/// The words of an outcome that a launch over cells of 0 comes to, and the buffers that it leaves.
fn launched(table: &[u8], numbers: [u32; 5]) -> (raw::OutcomeWords, Lent) {
    let mut lent = Lent::for_groups(numbers);
    let Lent {
        cells,
        global,
        log,
        records,
        steps,
        ..
    } = &mut lent;
    let [threads, own, groups, shared, limit] = numbers;
    let answer = raw::bare_launch(
        table, threads, own, groups, shared, limit, cells, global, log, records, steps,
    );
    assert!(answer.ran, "{:?}", answer.refusal);
    (answer.outcome, lent)
}

#[test]
fn a_thread_has_a_number_in_the_launch_and_one_in_its_group() {
    // The launch number to the own cell of the thread's number, and the thread's number to the global cell of the launch number.
    let table = numbered(&[[17, 1, 0, 0], [21, 0, 1, 0]]);
    for (threads, groups) in [(1, 1), (1, 8), (3, 2), (2, 8), (32, 8), (31, 8), (32, 1)] {
        let all = threads * groups;
        let (outcome, lent) = launched(&table, [threads, threads, groups, all, 1_000]);
        assert_eq!(outcome[0], 1);
        assert_eq!(lent.cells, (0..all).collect::<Vec<u32>>());
        let due: Vec<u32> = (0..all).map(|number| number % threads).collect();
        assert_eq!(lent.global, due);
        assert_eq!(lent.steps, counted(&vec![5; all as usize]));
    }
}

#[test]
fn a_group_start_opens_a_record_and_barriers_are_a_groups_own() {
    let (outcome, lent) = launched(&numbered(&[BARRIER]), [2, 1, 3, 0, 100]);
    assert_eq!(outcome, [1, 0, 0, 0, 0, 0, 0, 0, 12, 3, 0]);
    let due = [[0, 4, 0], [4, 0, 0]].repeat(3);
    assert_eq!(lent.records, recorded(&due, LENT_RECORDS));
    assert_eq!(lent.steps, counted(&[3; 6]));
}

#[test]
fn one_limit_is_for_all_groups() {
    for (limit, words, steps) in [
        (2, [5, 2, 0, 0, 0, 0, 0, 0, 2, 0, 0], [2, 2, 0, 0, 0, 0]),
        // The next group has started when the limit is found reached.
        (3, [5, 0, 1, 0, 0, 0, 0, 0, 3, 0, 0], [3, 3, 0, 0, 0, 0]),
        (7, [5, 1, 2, 0, 0, 0, 0, 0, 7, 0, 0], [3, 3, 3, 3, 1, 1]),
        (9, [1, 0, 0, 0, 0, 0, 0, 0, 9, 0, 0], [3, 3, 3, 3, 3, 3]),
    ] {
        let (outcome, lent) = launched(&numbered(&[]), [2, 1, 3, 0, limit]);
        assert_eq!((outcome, lent.steps), (words, counted(&steps)), "{limit}");
        let begun = limit.min(8) / 3 + 1;
        let due: Vec<[u32; 3]> = (0..begun)
            .map(|group| [0, (limit - 3 * group).min(3), 0])
            .collect();
        assert_eq!(lent.records, recorded(&due, LENT_RECORDS), "{limit}");
    }
}

#[test]
fn each_kind_of_word_has_own_cells_before_global_ones() {
    // Own cell 0 is read, own cell 1 added to. Global cell 0 is added to by all; another for each group is stored to twice. Groups are of
    // one thread, so that the launch number is the group.
    let rows = [
        LOAD_0,
        [1, 7, 1, 0],
        [18, 7, 7, 0],
        [22, 15, 7, 0],
        [4, 4, 0, 7],
        [21, 4, 7, 0],
        [21, 4, 2, 0],
    ];
    let (outcome, lent) = launched(&numbered(&rows), [1, 2, 2, 3, 100]);
    assert_eq!(outcome[0], 1);
    assert_eq!(lent.cells, [0, 1, 0, 1]);
    assert_eq!(lent.global, [2, 1, 1]);
    let due = [
        [1, 0, 1, 0, 0, 0, 0], // readers
        [0, 0, 0, 0, 0, 0, 1], // writers: group 0's at global cell 1 are cleared by group 1's start
        [0, 1, 0, 1, 1, 0, 0], // adders
        [0, 0, 0, 0, 0, 0, 1], // first values
        [0, 0, 0, 0, 0, 0, 0], // marks
        [0, 0, 0, 0, 0, 0, 0], // groups that read
        [0, 0, 0, 0, 0, 1, 2], // that wrote
        [0, 0, 0, 0, 3, 0, 0], // that added
    ];
    assert_eq!(lent.log, due.concat());
}

#[test]
fn a_barrier_keeps_the_masks_of_groups() {
    // Group 1 stops at a global cell that group 0 used, though both had a barrier.
    for (first, second, kind) in [
        ([20, 3, 15, 0], [21, 15, 7, 0], RW),
        ([21, 15, 7, 0], [20, 3, 15, 0], 2),
        // Equal stores of two groups conflict.
        ([21, 15, 7, 0], [21, 15, 7, 0], WW),
        ([20, 3, 15, 0], [22, 15, 7, 0], 4),
        ([22, 15, 7, 0], [20, 3, 15, 0], 5),
        ([21, 15, 7, 0], [22, 15, 7, 0], 6),
        ([22, 15, 7, 0], [21, 15, 7, 0], AW),
    ] {
        let (begin_if, otherwise, end_if) = ([32, 0, 0, 0], [33, 0, 0, 0], [34, 0, 0, 0]);
        // One thread a group: the launch number is the group.
        let rows = [
            [1, 7, 5, 0],
            begin_if,
            second,
            otherwise,
            first,
            end_if,
            BARRIER,
        ];
        let (outcome, lent) = launched(&numbered(&rows), [1, 1, 3, 1, 100]);
        assert_eq!(outcome, [6, 5, 1, 0, 0, 0, kind, 0, 15, 1, 0]);
        // Of the global cell, behind three own ones in each kind, only the group's access is left.
        let of_global: Vec<u32> = lent.log.chunks(4).map(|kind| kind[3]).collect();
        let which = match first[0] {
            20 => 5,
            21 => 6,
            _ => 7,
        };
        let mut due = [0; LOG_WORDS];
        due[which] = 1;
        assert_eq!(of_global, due);
    }
}

#[test]
fn two_loads_or_two_adds_of_two_groups_do_not_conflict() {
    for (access, left) in [([20, 3, 15, 0], 0), ([22, 15, 7, 0], 8 * 32 * 5)] {
        let (outcome, lent) = launched(&numbered(&[[1, 7, 5, 0], access]), [32, 1, 8, 1, 1_000]);
        assert_eq!((outcome[0], &lent.global[..]), (1, &[left][..]));
    }
}

#[test]
fn a_race_in_the_own_group_is_told_before_one_with_another() {
    // All threads store their launch number, so each group has unequal stores and group 0's thread 1 stops.
    let (outcome, _) = launched(&numbered(&[[21, 15, 0, 0]]), [2, 1, 2, 1, 100]);
    assert_eq!(outcome, [2, 3, 0, 0, 1, 0, WW, 0, 3, 0, 0]);
    // Group 0 loads. In group 1 thread 0 stops alone, since it is the first to store.
    let rows = [
        [12, 3, 0, 1],
        [32, 0, 3, 0],
        [20, 5, 15, 0],
        [33, 0, 0, 0],
        [21, 15, 0, 0],
        [34, 0, 0, 0],
    ];
    let (outcome, lent) = launched(&numbered(&rows), [2, 1, 2, 1, 100]);
    assert_eq!(outcome, [6, 7, 1, 0, 0, 0, RW, 0, 16, 0, 0]);
    assert_eq!(lent.steps, counted(&[8, 8, 5, 5]));
}

#[test]
fn a_global_access_outside_is_by_the_number_of_global_cells() {
    // More own cells than global ones, and the other way round.
    for (own, global, access, ends) in [
        (4, 2, [20, 3, 7, 0], 3),
        (2, 4, [20, 3, 7, 0], 1),
        (2, 4, [16, 3, 7, 0], 3),
        (4, 2, [16, 3, 7, 0], 1),
        (4, 0, [22, 7, 15, 0], 3),
        (4, 0, [21, 7, 15, 0], 3),
    ] {
        let (outcome, _) = launched(&numbered(&[[1, 7, 2, 0], access]), [1, own, 2, global, 100]);
        assert_eq!(outcome[0], ends, "{own}, {global}, {access:?}");
    }
}

#[test]
fn a_file_leaves_global_cells_and_keeps_what_is_behind() {
    let table = numbered(&[[1, 7, 5, 0], [22, 15, 7, 0], [17, 1, 0, 0]]);
    let rows: String = (table.chunks(4))
        .map(|row| format!("row={},{},{},{}\n", row[0], row[1], row[2], row[3]))
        .collect();
    let head = "kernel=1\nthreads=2\ncells=2\ngroups=3\nglobal=2\nlimit=100\nrows=6\n";
    let cells = "cell=9\n".repeat(6);
    let file = format!("{head}{rows}{cells}gcell=4294967295\ngcell=8\nend=kernel\n");
    let steps = "steps=6\n".repeat(6);
    let due = format!(
        "verdict=passed\nrow=-\ngroup=-\nothergroup=-\nthread=-\nother=-\nkind=-\nat=-\nrows=18\n{steps}\
         barriers=0\nconflicts=0\ncell=0\ncell=1\ncell=2\ncell=3\ncell=4\ncell=5\ngcell=29\ngcell=8\nend=report\n"
    );
    let mut lent = Lent::for_file();
    let mut expected = lent.clone();
    expected.cells[..6].copy_from_slice(&[0, 1, 2, 3, 4, 5]);
    expected.global[..2].copy_from_slice(&[29, 8]);
    let log = [
        [0; 8],
        [1, 2, 1, 2, 1, 2, 0, 0],
        [0, 0, 0, 0, 0, 0, 3, 0],
        [0, 1, 2, 3, 4, 5, 0, 0],
        [0; 8],
        [0; 8],
        [0; 8],
        [0, 0, 0, 0, 0, 0, 7, 0],
    ];
    expected.log[..64].copy_from_slice(&log.concat());
    expected.records[..9].copy_from_slice(&[[0, 6, 0]; 3].concat());
    expected.output[..due.len()].copy_from_slice(due.as_bytes());
    assert_eq!(lent.check(&file), Ok(due.len()));
    assert!(lent == expected);
}

/// R8 is the first common cell's number, and R9 the one of the thread's number.
const NUMBERS: [Row; 4] = [[2, 0, 0, 0], [1, 8, 0, 1], [6, 8, 8, 8], [4, 9, 8, 0]];
/// Each thread loads its common cell and stores the word to its own cell.
const LOOK_UP: [Row; 2] = [[16, 3, 9, 0], [17, 0, 3, 0]];
const COMMON: &str = "common=2\ncell=70\ncell=4294967295\nend=common\n";

/// A launch file of some threads, as many cells of 5, and rows behind those of the numbers.
fn kernel(threads: usize, rows: &[Row]) -> String {
    let rows = [&NUMBERS, rows].concat();
    let lines: String = (rows.iter())
        .map(|[op, d, a, b]| format!("row={op},{d},{a},{b}\n"))
        .collect();
    let (count, cells) = (rows.len(), "cell=5\n".repeat(threads));
    format!("kernel=1\nthreads={threads}\ncells={threads}\ngroups=1\nglobal=0\nlimit=100\nrows={count}\n{lines}{cells}end=kernel\n")
}

/// The report of a kernel that passed with so many rows, all of them by all threads.
fn passed(rows: u32, cells: &[u32]) -> String {
    let steps = format!("steps={rows}\n").repeat(cells.len());
    let cells: String = cells.iter().map(|n| format!("cell={n}\n")).collect();
    format!(
        "verdict=passed\nrow=-\ngroup=-\nothergroup=-\nthread=-\nother=-\nkind=-\nat=-\nrows={rows}\n{steps}\
         barriers=0\nconflicts=0\n{cells}end=report\n"
    )
}

/// The report of a kernel of two threads whose thread 0 is stopped in row 4.
fn stopped(verdict: &str, at: u32) -> String {
    format!(
        "verdict={verdict}\nrow=4\ngroup=0\nothergroup=-\nthread=0\nother=-\nkind=-\nat={at}\nrows=4\nsteps=4\nsteps=4\n\
         barriers=0\nconflicts=0\ncell=5\ncell=5\nend=report\n"
    )
}

fn refusal(number: u32, place: u32) -> String {
    format!("refused={number}\nplace={place}\nend=report\n")
}

/// Both reports, in outputs of several sizes. What is behind them must be kept.
fn paired(filter: &str, trigger: &str, common: &str) -> String {
    let files = [filter, trigger, common].map(str::as_bytes);
    let found = [PAIR_ROOM, PAIR_ROOM + 1, 70_001].map(|room| {
        let mut output = vec![0xff; room];
        let (length, words) = raw::pair_files(files[0], files[1], files[2], &mut output);
        assert_eq!(words, [0, 0]);
        let behind = output.split_off(length);
        assert!(behind.iter().all(|&byte| byte == 0xff), "{room} bytes");
        String::from_utf8(output).expect("reports are ASCII")
    });
    assert!(found.iter().all(|reports| *reports == found[0]));
    found[0].clone()
}

#[test]
fn two_kernels_load_from_one_table() {
    let (two, one) = (kernel(2, &LOOK_UP), kernel(1, &LOOK_UP));
    let reports = [passed(6, &[70, u32::MAX]), passed(6, &[70])];
    assert_eq!(paired(&two, &one, COMMON), reports.concat());
    // The same file for both.
    let reports = [&reports[0], &reports[0]].map(String::as_str);
    assert_eq!(paired(&two, &two, COMMON), reports.concat());
}

#[test]
fn a_trigger_that_stores_into_the_table_leaves_the_filter_its_report() {
    let (filter, report) = (kernel(2, &LOOK_UP), passed(6, &[70, u32::MAX]));
    for (rows, stop) in [
        (&[[17, 8, 0, 0]][..], stopped("common", 65_536)),
        (&[[18, 8, 0, 0]], stopped("common", 65_536)),
        (&[[17, 9, 3, 0]], stopped("common", 65_536)),
        // Nothing is added.
        (&[[18, 8, 15, 0]], stopped("common", 65_536)),
        // Global accesses have numbers of their own.
        (&[[20, 3, 8, 0]], stopped("outside", 65_536)),
        (&[[21, 8, 3, 0]], stopped("outside", 65_536)),
        (&[[22, 8, 3, 0]], stopped("outside", 65_536)),
    ] {
        let trigger = kernel(2, rows);
        assert_eq!(
            paired(&filter, &trigger, COMMON),
            format!("{report}{stop}"),
            "{rows:?}"
        );
        assert_eq!(
            paired(&trigger, &filter, COMMON),
            format!("{stop}{report}"),
            "{rows:?}"
        );
    }
}

#[test]
fn numbers_before_and_behind_the_common_ones_are_outside() {
    let (before, behind) = ([5, 8, 8, 7], [4, 8, 8, 7]);
    for access in [[16, 3, 8, 0], [17, 8, 3, 0], [18, 8, 3, 0]] {
        let inside = if access[0] == 16 { "passed" } else { "common" };
        for (next, common, verdict, at) in [
            (before, 2, "outside", "65535"),
            (behind, 2, inside, "65537"),
            (behind, 1, "outside", "65537"),
            (behind, 0, "outside", "65537"),
        ] {
            let kernel = kernel(2, &[[1, 7, 1, 0], next, access]);
            let cells = "cell=7\n".repeat(common);
            let common = format!("common={common}\n{cells}end=common\n");
            let reports = paired(&kernel, &kernel, &common);
            let (row, group, thread, at) = match verdict {
                "passed" => ("-", "-", "-", "-"),
                _ => ("6", "0", "0", at),
            };
            let due = format!("verdict={verdict}\nrow={row}\ngroup={group}\nothergroup=-\nthread={thread}\nother=-\nkind=-\nat={at}\nrows=");
            assert!(reports.starts_with(&due), "{access:?}, {common}: {reports}");
        }
    }
}

#[test]
fn a_launch_alone_has_no_common_cells() {
    for access in [[16, 3, 8, 0], [17, 8, 0, 0], [18, 8, 0, 0]] {
        let due = stopped("outside", 65_536);
        let mut lent = Lent::for_file();
        assert_eq!(lent.check(&kernel(2, &[access])), Ok(due.len()));
        assert_eq!(&lent.output[..due.len()], due.as_bytes());
        let table = [&NUMBERS[..], &[access]].concat().concat();
        let (outcome, _) = launched(&table, [2, 2, 1, 0, 100]);
        assert_eq!(outcome, [3, 4, 0, 0, 0, 0, 0, 65_536, 4, 0, 0]);
    }
}

#[test]
fn common_loads_cost_no_conflict_and_race_with_nobody() {
    // All threads load at a stride of 16, at which own cells would all be in one bank; then one cell; then each stores to its own.
    let stride = [[1, 7, 16, 0], [6, 7, 7, 0], [4, 7, 7, 8], [16, 3, 7, 0]];
    let rows = [&stride[..], &[[16, 4, 8, 0], [17, 0, 3, 0]]].concat();
    let words: Vec<u32> = (0..256).map(|cell| 7 * cell + 1).collect();
    let cells: String = words.iter().map(|n| format!("cell={n}\n")).collect();
    let common = format!("common=256\n{cells}end=common\n");
    let left: Vec<u32> = words.iter().copied().step_by(16).collect();
    let report = passed(10, &left);
    let kernel = kernel(16, &rows);
    assert_eq!(
        paired(&kernel, &kernel, &common),
        [&report[..], &report].concat()
    );
}

#[test]
fn a_refused_kernel_leaves_the_other_its_report() {
    let (sound, report) = (kernel(2, &LOOK_UP), passed(6, &[70, u32::MAX]));
    let too_long = sound.clone() + &" ".repeat(32_768);
    for (file, number, place) in [
        ("", 11, 1),
        ("kernel=1\nthreads=33\n", 8, 2),
        ("kernel=1\nthreads=1\ncells=1\ngroups=9\n", 32, 4),
        (&kernel(2, &[[99, 0, 0, 0]]), 3, 4),
        (&too_long, 12, 0),
        // A common file is no launch file.
        (COMMON, 11, 1),
    ] {
        let refused = refusal(number, place);
        assert_eq!(paired(file, &sound, COMMON), refused.clone() + &report);
        assert_eq!(paired(&sound, file, COMMON), report.clone() + &refused);
        assert_eq!(paired(file, file, COMMON), refused.repeat(2));
    }
}

#[test]
fn a_bad_common_file_refuses_both_but_a_kernels_own_refusal_is_told_first() {
    let sound = kernel(2, &LOOK_UP);
    let many = format!("common=257\n{}end=common\n", "cell=1\n".repeat(257));
    for (common, line) in [
        ("", 1),
        ("common=0", 1),
        ("common=257\n", 1),
        (&many, 1),
        ("common=01\ncell=7\nend=common\n", 1),
        (&sound, 1),
        ("common=1\n", 2),
        ("common=1\ncell=4294967296\nend=common\n", 2),
        ("common=2\ncell=7\nend=common\n", 3),
        ("common=0\ncell=7\nend=common\n", 2),
        ("common=1\ncell=7\nend=kernel\n", 3),
        ("common=1\ncell=7\nend=common", 3),
        ("common=1\ncell=7\nend=common\n\n", 4),
    ] {
        let bad = refusal(37, line);
        assert_eq!(paired(&sound, &sound, common), bad.repeat(2), "{common}");
        let own = refusal(8, 2);
        let refused = "kernel=1\nthreads=33\n";
        assert_eq!(paired(refused, &sound, common), own.clone() + &bad);
        assert_eq!(paired(&sound, refused, common), bad + &own);
        assert_eq!(paired(refused, refused, common), own.repeat(2));
    }
}

#[test]
fn pair_files_refuses_a_short_output_and_leaves_it() {
    let sound = kernel(2, &LOOK_UP);
    for room in [0, 1, 24_575, 24_576, 24_577, 49_151] {
        // Whatever the files are.
        for files in [[&sound, &sound, COMMON], [&sound, "", COMMON], ["", "", ""]] {
            let [filter, trigger, common] = files.map(str::as_bytes);
            let mut lent = Lent::new(0, 0, room);
            let before = lent.clone();
            let answer = pair_files(filter, trigger, common, &mut lent.output);
            assert_eq!(answer, refused(24, 0), "{room}");
            assert!(lent == before, "{room}");
            let words = raw::pair_files(filter, trigger, common, &mut lent.output);
            assert_eq!(words, (0, [24, 0]), "{room}");
        }
    }
}

#[test]
fn the_first_4119_bytes_of_a_common_file_decide() {
    let longest = format!(
        "common=256\n{}end=common\n",
        "cell=4294967295\n".repeat(256)
    );
    assert_eq!(longest.len(), 4_118);
    let sound = kernel(2, &LOOK_UP);
    let report = passed(6, &[u32::MAX; 2]);
    assert_eq!(paired(&sound, &sound, &longest), report.repeat(2));
    for more in ["\n", "x", "cell=1\n", &longest, &" ".repeat(40_000)] {
        let common = longest.clone() + more;
        let bad = refusal(37, 259).repeat(2);
        assert_eq!(paired(&sound, &sound, &common), bad, "{more:.9}");
    }
    for length in [4_117, 4_107, 4_106] {
        let line = if length < 4_107 { 257 } else { 258 };
        let bad = refusal(37, line).repeat(2);
        assert_eq!(
            paired(&sound, &sound, &longest[..length]),
            bad,
            "{length} bytes"
        );
    }
}

#[test]
fn the_longest_two_reports_fit_the_room_for_every_two() {
    // All steps are 0, of ten digits at most; everything else is as long as it can be.
    let cells = format!("cell={}\n", u32::MAX).repeat(1_024);
    let file = format!(
        "kernel=1\nthreads=32\ncells=128\ngroups=8\nglobal=0\nlimit=0\nrows=0\n{cells}end=kernel\n"
    );
    let reports = paired(&file, &file, COMMON);
    assert!(reports.len() <= PAIR_ROOM - 2 * 256 * 9);
    let (first, second) = reports.split_at(reports.len() / 2);
    assert_eq!(first, second);
    assert!(first.starts_with("verdict=passed\n") && first.ends_with("\nend=report\n"));
}
