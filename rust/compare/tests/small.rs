//! The launches and pairs that the explorer plays every run of: what it finds of the independent checker's answers holds of the verified
//! library's too, because they are the same.

use checker::{log_words, Outcome, Refusal, INTERVAL_WORDS, MAX_LAUNCH_THREADS, PAIR_ROOM};
use compare::{Checker, Independent, Numbers, PairChecker, Steps, Verified};
use generator::{Plan, SmallLaunch};

/// The explorer's seeds, in its own test and some more.
const SEEDS: u64 = 20_000;
/// The same of pairs.
const PAIRS: u64 = 2_000;
/// The explorer's limit.
const LIMIT: u32 = 100_000;

#[test]
fn small_launches_are_answered_alike() {
    for seed in 0..SEEDS {
        let launch = generator::small(seed);
        let numbers = Numbers {
            threads: launch.threads,
            cells: launch.cells.len() as u32 / launch.groups,
            groups: launch.groups,
            global: launch.global.len() as u32,
            limit: LIMIT,
        };
        let ours = run(&Verified, &launch, numbers);
        let theirs = run(&Independent, &launch, numbers);
        assert_eq!(ours, theirs, "seed {seed}: {launch:?}");
    }
}

/// The answer with the own cells, the global ones, the log, the records and the steps that it leaves.
type Left = (
    Result<Outcome, Refusal>,
    Vec<u32>,
    Vec<u32>,
    Vec<u32>,
    Vec<u32>,
    Steps,
);

fn run(checker: &impl Checker, launch: &SmallLaunch, numbers: Numbers) -> Left {
    let (mut cells, mut global) = (launch.cells.clone(), launch.global.clone());
    let mut log = vec![u32::MAX; log_words(cells.len() + global.len())];
    let mut records = vec![u32::MAX; INTERVAL_WORDS];
    let mut steps = [u32::MAX; MAX_LAUNCH_THREADS];
    let answer = checker.bare_launch(
        &launch.table,
        numbers,
        &mut cells,
        &mut global,
        &mut log,
        &mut records,
        &mut steps,
    );
    (answer, cells, global, log, records, steps)
}

#[test]
fn small_pairs_are_answered_alike() {
    for seed in 0..PAIRS {
        let pair = generator::small_pair(seed);
        let [filter, trigger] = pair.launches().map(file);
        let (count, cells) = (pair.common.len(), &pair.common);
        let lines: String = cells.iter().map(|cell| format!("cell={cell}\n")).collect();
        let common = format!("common={count}\n{lines}end=common\n");
        let run = |checker: &dyn PairChecker| {
            let mut output = vec![0xff; PAIR_ROOM];
            let answer = checker.pair_files(&filter, &trigger, common.as_bytes(), &mut output);
            (answer, output)
        };
        let (ours, theirs) = (run(&Verified), run(&Independent));
        assert_eq!(ours, theirs, "seed {seed}: {pair:?}");
        // No file is refused: the explorer plays both kernels.
        let reports = String::from_utf8_lossy(&ours.1);
        let verdicts = reports
            .lines()
            .filter(|line| line.starts_with("verdict="))
            .count();
        assert_eq!(verdicts, 2, "seed {seed}: {pair:?}");
    }
}

/// The launch's file, under the explorer's limit.
fn file(launch: &SmallLaunch) -> Vec<u8> {
    let rows = launch.table.chunks_exact(4);
    Plan {
        threads: launch.threads,
        groups: launch.groups,
        limit: LIMIT,
        rows: rows.map(|row| [row[0], row[1], row[2], row[3]]).collect(),
        cells: launch.cells.clone(),
        global: launch.global.clone(),
    }
    .file()
}
