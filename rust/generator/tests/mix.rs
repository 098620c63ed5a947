//! The mix of launches: every verdict and every refusal turns up, none rarely.

mod common;

use std::collections::BTreeMap;

use checker::{
    bare_launch, check_file, op, Refusal, Verdict, INTERVAL_WORDS, LENT_CELLS, LENT_GLOBAL,
    LENT_LOG, REPORT_ROOM,
};
use common::{run, small_plan};

type Tally = BTreeMap<String, usize>;

/// The report's first line, its kind if it has one, or the refusal's number.
fn answers(file: &[u8]) -> Vec<String> {
    let (mut cells, mut global) = (vec![0; LENT_CELLS], vec![0; LENT_GLOBAL]);
    let (mut log, mut list) = (vec![0; LENT_LOG], vec![0; INTERVAL_WORDS]);
    let mut out = vec![0; REPORT_ROOM];
    match check_file(file, &mut cells, &mut global, &mut log, &mut list, &mut out) {
        Ok(len) => {
            let report = std::str::from_utf8(&out[..len]).unwrap();
            let lines = report.lines().map(String::from);
            let told = |line: &String| line.starts_with("verdict=") || line.starts_with("kind=");
            lines.filter(told).collect()
        }
        Err(Refusal { number, .. }) => vec![format!("refused={number}")],
    }
}

/// As the report's lines have it.
fn verdict_names(verdict: Verdict) -> Vec<String> {
    let name = match verdict {
        Verdict::Passed => "verdict=passed",
        Verdict::Race { .. } => "verdict=race",
        Verdict::Outside { .. } => "verdict=outside",
        Verdict::Common { .. } => "verdict=common",
        Verdict::Diverged { .. } => "verdict=diverged",
        Verdict::Spent { .. } => "verdict=spent",
    };
    let kind = match verdict {
        Verdict::Race { kind, .. } => format!("kind={kind:?}").to_lowercase(),
        _ => "kind=-".to_string(),
    };
    vec![name.to_string(), kind]
}

fn count(tally: &mut Tally, names: Vec<String>) {
    for name in names {
        *tally.entry(name).or_default() += 1;
    }
}

const VERDICTS: [&str; 5] = [
    "verdict=passed",
    "verdict=race",
    "verdict=outside",
    "verdict=diverged",
    "verdict=spent",
];

fn expect(tally: &Tally, names: &[String], least: usize) {
    println!("{tally:#?}");
    for name in names {
        let count = tally.get(name).copied().unwrap_or(0);
        assert!(count >= least, "{name}: {count}");
    }
}

fn verdicts() -> Vec<String> {
    VERDICTS.map(String::from).to_vec()
}

fn kinds() -> Vec<String> {
    let kinds = ["rw", "wr", "ww", "ra", "ar", "wa", "aw"];
    kinds.iter().map(|kind| format!("kind={kind}")).collect()
}

fn refusals(numbers: &[u32]) -> Vec<String> {
    numbers.iter().map(|n| format!("refused={n}")).collect()
}

#[test]
fn files() {
    let mut tally = Tally::new();
    for seed in 0..15_000 {
        count(&mut tally, answers(&generator::launch(seed)));
    }
    expect(&tally, &verdicts(), 250);
    expect(&tally, &kinds(), 40);
    let numbers = [2, 3, 4, 5, 6, 7, 8, 9, 10, 11, 12, 32, 33];
    expect(&tally, &refusals(&numbers), 40);
}

#[test]
fn bare_launches() {
    let mut tally = Tally::new();
    for seed in 0..15_000 {
        let mut bare = generator::bare(seed);
        let before = bare.clone();
        let found = bare_launch(
            &before.table,
            before.threads,
            before.cells,
            before.groups,
            before.global,
            before.limit,
            &mut bare.lent_cells,
            &mut bare.lent_global,
            &mut bare.lent_log,
            &mut bare.lent_intervals,
            &mut bare.lent_steps,
        );
        let names = match found {
            Ok(outcome) => {
                let threads = (before.groups * before.threads) as usize;
                let (steps, behind) = bare.lent_steps.split_at(threads);
                assert!(steps.iter().all(|&count| count <= outcome.rows + 1));
                assert!(behind.iter().all(|&word| word == 0));
                verdict_names(outcome.verdict)
            }
            Err(refusal) => {
                assert_eq!(bare, before, "a refusal changes no buffer");
                vec![format!("refused={}", refusal.number)]
            }
        };
        count(&mut tally, names);
    }
    expect(&tally, &verdicts(), 250);
    expect(&tally, &kinds(), 40);
    expect(
        &tally,
        &refusals(&[1, 2, 3, 4, 5, 6, 7, 8, 9, 10, 20, 21, 30, 32, 33]),
        100,
    );
}

#[test]
fn small_launches() {
    let mut tally = Tally::new();
    for small in (0..15_000).map(generator::small) {
        let plan = small_plan(small, 1_000);
        let left = run(&plan).expect("small launches are well-formed");
        let outcome = left.outcome;
        count(&mut tally, verdict_names(outcome.verdict));
        let passed = outcome.verdict == Verdict::Passed;
        let cells = plan.cells.len() + plan.global.len();
        let met = |kind: usize| {
            let masks = &left.log[kind * cells..(kind + 1) * cells];
            passed && masks.iter().any(|mask| mask.count_ones() > 1)
        };
        if met(2) {
            count(&mut tally, vec!["adds that meet".to_string()]);
        }
        if met(1) {
            count(&mut tally, vec!["equal stores that meet".to_string()]);
        }
        if passed
            && left.steps[..(plan.groups * plan.threads) as usize]
                .windows(2)
                .any(|two| two[0] != two[1])
        {
            count(&mut tally, vec!["unequal counts".to_string()]);
        }
    }
    expect(&tally, &verdicts(), 500);
    expect(&tally, &kinds(), 60);
    expect(&tally, &["adds that meet".to_string()], 300);
    expect(&tally, &["equal stores that meet".to_string()], 300);
    expect(&tally, &["unequal counts".to_string()], 800);
}

/// Kernels with and without adds, so that neither kind of run is rare.
#[test]
fn plans_with_adds() {
    let adds = |seed: &u64| {
        let rows = generator::plan(*seed).rows;
        rows.iter()
            .any(|row| matches!(row[0], op::ATOMIC_ADD | op::GLOBAL_ADD))
    };
    let with = (0..4_000).filter(adds).count();
    println!("with adds: {with} of 4000");
    assert!((1_200..2_800).contains(&with), "{with}");
}

#[test]
fn the_same_seed_gives_the_same_launch() {
    for seed in [0, 1, 77, u64::MAX] {
        assert_eq!(generator::launch(seed), generator::launch(seed));
        assert_eq!(generator::bare(seed), generator::bare(seed));
        assert_eq!(generator::small(seed), generator::small(seed));
        assert_eq!(generator::plan(seed), generator::plan(seed));
    }
}

#[test]
fn sizes_at_the_edges_turn_up() {
    let mut sizes = BTreeMap::new();
    for seed in 0..20_000 {
        *sizes.entry(generator::launch(seed).len()).or_insert(0) += 1;
    }
    for size in [0, 32_768, 32_769] {
        assert!(sizes.contains_key(&size), "{size} bytes");
    }
}
