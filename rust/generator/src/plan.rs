//! A launch before it is written as a file.

use checker::{common_launch, log_words, Verdict, INTERVAL_WORDS, MAX_LAUNCH_THREADS};

use crate::asm::Row;
use crate::rng::Rng;

/// Numbers, rows and cells of a launch, in range or not.
#[derive(Clone, Debug, PartialEq, Eq)]
pub struct Plan {
    /// Threads of each group.
    pub threads: u32,
    /// Groups, at least one.
    pub groups: u32,
    /// Rows that may be run.
    pub limit: u32,
    /// The table.
    pub rows: Vec<Row>,
    /// The own cells at the start, as many of each group, group 0's first.
    pub cells: Vec<u32>,
    /// The global cells at the start.
    pub global: Vec<u32>,
}

/// Rows run to find out how long a launch takes.
const PROBE: u32 = 20_000;

/// Lines of a file before its rows.
pub const HEADER_LINES: usize = 7;

impl Plan {
    /// One group without global cells, with a limit chosen to suit its length.
    pub fn new(rng: &mut Rng, threads: u32, rows: Vec<Row>, cells: Vec<u32>) -> Self {
        let mut plan = Self::limited(threads, PROBE, rows, cells);
        plan.limit = plan.choose_limit(rng, &[]);
        plan
    }

    /// One group without global cells.
    pub fn limited(threads: u32, limit: u32, rows: Vec<Row>, cells: Vec<u32>) -> Self {
        Self {
            threads,
            groups: 1,
            limit,
            rows,
            cells,
            global: vec![],
        }
    }

    /// With a limit chosen anew, often about where one of the groups ends.
    pub fn with_fitting_limit(self, rng: &mut Rng) -> Self {
        self.with_limit_over(rng, &[])
    }

    /// As [`Plan::with_fitting_limit`], for a run over these common cells.
    pub(crate) fn with_limit_over(mut self, rng: &mut Rng, common: &[u32]) -> Self {
        self.limit = self.choose_limit(rng, common);
        if self.groups > 1 && rng.one_in(3) {
            let ending = rng.range(1, self.groups);
            if let Some(rows) = self.rows_of_groups(ending, common) {
                self.limit = (rows + rng.pick(&[0, 0, 1, 2])).saturating_sub(rng.below(2));
            }
        }
        self
    }

    /// Own cells of each group.
    pub fn cells_each(&self) -> u32 {
        self.cells.len() as u32 / self.groups
    }

    /// Four bytes a row.
    pub fn table(&self) -> Vec<u8> {
        self.rows.concat()
    }

    /// The lines of the launch file, without their line ends.
    pub fn lines(&self) -> Vec<Vec<u8>> {
        let mut lines = vec![
            "kernel=1".to_string(),
            format!("threads={}", self.threads),
            format!("cells={}", self.cells_each()),
            format!("groups={}", self.groups),
            format!("global={}", self.global.len()),
            format!("limit={}", self.limit),
            format!("rows={}", self.rows.len()),
        ];
        lines.extend((self.rows.iter()).map(|[op, d, a, b]| format!("row={op},{d},{a},{b}")));
        lines.extend(self.cells.iter().map(|cell| format!("cell={cell}")));
        lines.extend(self.global.iter().map(|cell| format!("gcell={cell}")));
        lines.push("end=kernel".to_string());
        lines.into_iter().map(String::into_bytes).collect()
    }

    /// The launch file.
    pub fn file(&self) -> Vec<u8> {
        join(&self.lines())
    }

    /// Around the rows that the launch needs, or, where it doesn't end soon,
    /// a small number: rarely a run takes longer than a moment.
    fn choose_limit(&self, rng: &mut Rng, common: &[u32]) -> u32 {
        match self.rows_of_groups(self.groups, common) {
            Some(rows) => match rng.below(20) {
                0 => rows.saturating_sub(1),
                1 | 2 => rows,
                3..=6 => rows + 1,
                7 if rng.one_in(2) => rng.below(rows + 1),
                // A narrower reading of it would be too small.
                7 => 65_536 + rng.below(rows + 1),
                8 => rng.below(2),
                9..=12 => rows + rng.below(1_000),
                13..=15 => 1_000_000,
                _ => rng.range(rows + 1, 1_000_000),
            },
            None if rng.one_in(100) => 1_000_000,
            None => rng.below(2_000),
        }
    }

    /// Rows finished, if the launch ends soon. Launches that are refused need
    /// none.
    pub(crate) fn rows_needed(&self) -> Option<u32> {
        self.rows_of_groups(self.groups, &[])
    }

    /// Rows finished by the first groups of the launch, if they end soon.
    fn rows_of_groups(&self, groups: u32, common: &[u32]) -> Option<u32> {
        let each = self.cells_each();
        let mut cells = self.cells[..(groups * each) as usize].to_vec();
        let mut global = self.global.clone();
        let mut log = vec![0; log_words(cells.len() + global.len())];
        let outcome = common_launch(
            common,
            &self.table(),
            self.threads,
            each,
            groups,
            global.len() as u32,
            PROBE,
            &mut cells,
            &mut global,
            &mut log,
            &mut [0; INTERVAL_WORDS],
            &mut [0; MAX_LAUNCH_THREADS],
            |_, _| {},
        );
        match outcome {
            Ok(outcome) if matches!(outcome.verdict, Verdict::Spent { .. }) => None,
            Ok(outcome) => Some(outcome.rows),
            Err(_) => Some(0),
        }
    }
}

/// Lines with their line ends.
pub fn join(lines: &[Vec<u8>]) -> Vec<u8> {
    let mut file = Vec::new();
    for line in lines {
        file.extend_from_slice(line);
        file.push(b'\n');
    }
    file
}
