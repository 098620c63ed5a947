//! Bare launches, with buffers and lengths right and wrong.

use checker::{log_words, INTERVAL_WORDS, LENT_CELLS, LENT_LOG, MAX_LAUNCH_THREADS};

use crate::damage::hurt_rows;
use crate::headers::{out_of_range, GLOBAL, GROUPS, LIMIT};
use crate::plan::Plan;
use crate::rng::Rng;
use crate::slips::{small_faulty_plan, small_plan};
use crate::tables::table;

/// The arguments of a bare launch.
#[derive(Clone, Debug, PartialEq, Eq)]
pub struct BareLaunch {
    /// Table bytes, maybe no multiple of 4.
    pub table: Vec<u8>,
    /// Threads of each group, maybe out of range.
    pub threads: u32,
    /// Own cells said of each group, maybe out of range or not as many as lent.
    pub cells: u32,
    /// Groups, maybe out of range.
    pub groups: u32,
    /// Global cells said, maybe out of range or not as many as lent.
    pub global: u32,
    /// Limit, maybe out of range.
    pub limit: u32,
    /// The lent own cells, holding the launch's words.
    pub lent_cells: Vec<u32>,
    /// The lent global cells, holding the launch's words.
    pub lent_global: Vec<u32>,
    /// The lent log, holding anything.
    pub lent_log: Vec<u32>,
    /// The lent list of intervals, maybe too short, holding words that no
    /// record comes to.
    pub lent_intervals: Vec<u32>,
    /// The lent words of steps, holding words that no count comes to.
    pub lent_steps: [u32; MAX_LAUNCH_THREADS],
}

/// A bare launch: sound, hurt in some way, with a small table that is turned
/// back, or with one fault or two at once.
pub fn bare(rng: &mut Rng, any_plan: impl FnOnce(&mut Rng) -> Plan) -> BareLaunch {
    let mut launch = match rng.below(20) {
        0..=10 | 18 => {
            let plan = any_plan(rng);
            hurt_or_not(rng, plan)
        }
        11..=13 => {
            let plan = small_faulty_plan(rng);
            of(rng, plan)
        }
        _ => one_or_two_faults(rng),
    };
    launch.lent_steps = [0; MAX_LAUNCH_THREADS].map(|_| no_count(rng));
    launch
}

/// A word that neither a number of rows nor a cost comes to.
fn no_count(rng: &mut Rng) -> u32 {
    rng.word() | 1 << 31
}

fn of(rng: &mut Rng, plan: Plan) -> BareLaunch {
    let log = log_words(plan.cells.len() + plan.global.len());
    BareLaunch {
        table: plan.table(),
        threads: plan.threads,
        cells: plan.cells_each(),
        groups: plan.groups,
        global: plan.global.len() as u32,
        limit: plan.limit,
        lent_cells: plan.cells,
        lent_global: plan.global,
        lent_log: (0..log).map(|_| rng.word()).collect(),
        lent_intervals: long_enough(rng),
        lent_steps: [0; MAX_LAUNCH_THREADS],
    }
}

/// As many words as a list of intervals needs, or more.
fn long_enough(rng: &mut Rng) -> Vec<u32> {
    let more = match rng.below(6) {
        0..=2 => 0,
        3 => rng.range(1, 3),
        4 => rng.below(200),
        _ => rng.pick(&[3, 1_021, 3_075, 1_024]),
    };
    let words = INTERVAL_WORDS as u32 + more;
    (0..words).map(|_| no_count(rng)).collect()
}

/// Too few words: one or a record fewer, as many as there are records, as the
/// whole-file entry's log has, none, or any.
fn cut_intervals(rng: &mut Rng, list: &mut Vec<u32>) {
    let words = match rng.below(4) {
        0 | 1 => rng.pick(&[3_074, 3_074, 3_074, 3_073, 3_072, 3_071]),
        2 => rng.pick(&[0, 0, 1, 3, 1_024, 1_025, 1_025, 2_050]),
        _ => rng.below(INTERVAL_WORDS as u32),
    };
    list.truncate(words as usize);
}

/// Hurt in about a third of the cases, in any way.
fn hurt_or_not(rng: &mut Rng, mut plan: Plan) -> BareLaunch {
    if rng.one_in(6) {
        plan = hurt_rows(rng, plan);
    }
    let mut launch = of(rng, plan);
    while rng.one_in(6) {
        hurt(rng, &mut launch);
    }
    launch
}

fn hurt(rng: &mut Rng, launch: &mut BareLaunch) {
    match rng.below(19) {
        0 => {
            let len = rng.index(launch.table.len() + 1);
            launch.table.truncate(len);
        }
        1 => {
            for _ in 0..rng.range(1, 4) {
                launch.table.push(rng.byte());
            }
        }
        2 => launch
            .table
            .resize(rng.pick(&[1_024, 1_025, 1_027, 1_028, 1_032]), 0),
        3 => launch.threads = rng.pick(&[0, 33, u32::MAX]),
        4 => launch.cells = rng.pick(&[0, 1_025, u32::MAX, 1_024, 1]),
        5 => launch.limit = rng.pick(&[1_000_001, u32::MAX]),
        6 => resize(rng, &mut launch.lent_cells),
        7 | 8 => cut_intervals(rng, &mut launch.lent_intervals),
        9 => launch.groups = rng.pick(&[0, 9, u32::MAX, 2, 8]),
        10 => launch.global = rng.pick(&[1, 1_024, 1_025, u32::MAX]),
        11 => resize(rng, &mut launch.lent_global),
        _ => resize_log(rng, launch),
    }
}

/// Mostly one word more or one fewer; none, or as many as the whole-file entry
/// wants.
fn resize(rng: &mut Rng, words: &mut Vec<u32>) {
    let len = words.len();
    let target = match rng.below(6) {
        0 | 1 => len + 1,
        2 | 3 => len.saturating_sub(1),
        _ => rng.pick(&[0, 0, LENT_CELLS, LENT_LOG]),
    };
    words.resize(target, 7);
}

/// As other buffers, or as the whole-file entry wants it or once wanted it, or
/// with fewer words for each cell or one more, now and then but for one word.
fn resize_log(rng: &mut Rng, launch: &mut BareLaunch) {
    let target = match rng.below(20) {
        0..=5 => return resize(rng, &mut launch.lent_log),
        6 | 7 => LENT_LOG,
        8 => rng.pick(&[LENT_LOG - 1, LENT_LOG + 1, 3 * LENT_CELLS]),
        9 => 0,
        _ => {
            let kinds = rng.pick(&[1, 1, 2, 2, 3, 3, 4, 5, 5, 5, 6, 7, 7, 7, 9, 9]);
            let (own, global) = (launch.lent_cells.len(), launch.lent_global.len());
            let words = match rng.below(5) {
                // The global cells forgotten, or the own ones of all groups but one.
                0 if global > 0 => log_words(own),
                0 => log_words(launch.cells as usize % 1_025 + global),
                _ => kinds * (own + global),
            };
            match rng.below(8) {
                0 => words + 1,
                1 => words.saturating_sub(1),
                _ => words,
            }
        }
    };
    launch.lent_log.resize(target, 7);
}

/// The faults of a bare launch that a refusal of their own is told for, in
/// the order in which they are told.
const FAULTS: [fn(&mut Rng, &mut BareLaunch, &Plan); 12] = [
    |rng, launch, _| {
        let more = rng.range(1, 3);
        launch.table.extend((0..more).map(|_| 2));
    },
    |rng, launch, _| {
        let part = launch.table.len() % 4;
        launch
            .table
            .resize(rng.pick(&[1_028, 1_028, 1_032]) + part, 0);
    },
    |rng, launch, plan| launch.threads = out_of_range(rng, 0, plan),
    |rng, launch, plan| launch.cells = out_of_range(rng, 1, plan),
    |rng, launch, plan| launch.groups = out_of_range(rng, GROUPS, plan),
    |rng, launch, plan| launch.global = out_of_range(rng, GLOBAL, plan),
    |rng, launch, plan| launch.limit = out_of_range(rng, LIMIT, plan),
    |rng, launch, _| {
        let mut rows = table(rng).concat();
        rows.extend(launch.table.split_off(launch.table.len() / 4 * 4));
        launch.table = rows;
    },
    |rng, launch, plan| match plan.groups {
        2.. if rng.one_in(3) => launch.lent_cells.truncate(plan.cells_each() as usize),
        _ => resize(rng, &mut launch.lent_cells),
    },
    |rng, launch, _| resize(rng, &mut launch.lent_global),
    |rng, launch, _| resize_log(rng, launch),
    |rng, launch, _| cut_intervals(rng, &mut launch.lent_intervals),
];

/// The place of the log among them.
const LOG: usize = 10;

/// One fault of a small launch, or two, often such as are told one after the
/// other.
fn one_or_two_faults(rng: &mut Rng) -> BareLaunch {
    let plan = small_plan(rng);
    let mut launch = of(rng, plan.clone());
    // A log has more wrong lengths than other buffers.
    let first = if rng.one_in(12) {
        LOG
    } else {
        rng.index(FAULTS.len())
    };
    FAULTS[first](rng, &mut launch, &plan);
    match rng.below(4) {
        0 => {}
        1 => FAULTS[(first + 1) % FAULTS.len()](rng, &mut launch, &plan),
        _ => rng.pick(&FAULTS)(rng, &mut launch, &plan),
    }
    launch
}
