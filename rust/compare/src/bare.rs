//! Bare launches.

use checker::{Outcome, Verdict};
use generator::BareLaunch;

use crate::checkers::Numbers;
use crate::difference::{judge, Difference, Left, Lent, Sweep};
use crate::records::Counts;
use crate::tally::refused;
use crate::Checker;

pub(crate) fn compare(
    seed: u64,
    ours: &impl Checker,
    theirs: &impl Checker,
) -> Result<String, Box<Difference>> {
    let launch = generator::bare(seed);
    let before = Lent {
        cells: launch.lent_cells.clone(),
        global: launch.lent_global.clone(),
        log: launch.lent_log.clone(),
        records: launch.lent_intervals.clone(),
        steps: launch.lent_steps,
        output: Vec::new(),
    };
    let ours = run(ours, &launch, &before);
    let theirs = run(theirs, &launch, &before);
    let wrong = |outcome: &Outcome, left: &Lent| {
        counts(outcome, launch.groups).fault(&before.records, &left.records)
    };
    let show = || show(&launch);
    judge(Sweep::Launches, seed, show, wrong, &before, &ours, &theirs)?;
    Ok(ours.answer.map_or_else(refused, name))
}

fn run(checker: &impl Checker, launch: &BareLaunch, before: &Lent) -> Left<Outcome> {
    let numbers = Numbers {
        threads: launch.threads,
        cells: launch.cells,
        groups: launch.groups,
        global: launch.global,
        limit: launch.limit,
    };
    let lend = |lent: &mut Lent| {
        let Lent {
            cells,
            global,
            log,
            records,
            steps,
            ..
        } = lent;
        checker.bare_launch(&launch.table, numbers, cells, global, log, records, steps)
    };
    Left::by(before, lend)
}

fn counts(outcome: &Outcome, groups: u32) -> Counts {
    let Outcome {
        verdict,
        group,
        rows,
        barriers,
        conflicts,
    } = *outcome;
    Counts {
        begun: match verdict {
            Verdict::Passed => groups,
            _ => group + 1,
        },
        rows,
        barriers,
        conflicts,
    }
}

/// As a report's first line has it; a race between two groups is told apart.
fn name(outcome: Outcome) -> String {
    let verdict = match outcome.verdict {
        Verdict::Passed => "passed",
        Verdict::Race { other: None, .. } => "race of groups",
        Verdict::Race { .. } => "race",
        Verdict::Outside { .. } => "outside",
        Verdict::Common { .. } => "common",
        Verdict::Diverged { .. } => "diverged",
        Verdict::Spent { .. } => "spent",
    };
    format!("verdict={verdict}")
}

fn show(launch: &BareLaunch) -> String {
    let BareLaunch {
        threads,
        cells,
        groups,
        global,
        limit,
        lent_cells,
        lent_global,
        ..
    } = launch;
    let rows: String = (launch.table.chunks(4).enumerate())
        .map(|(row, bytes)| format!("row {row}: {bytes:?}\n"))
        .collect();
    let (log, records) = (launch.lent_log.len(), launch.lent_intervals.len());
    format!("threads {threads}, cells {cells}, groups {groups}, global {global}, limit {limit}, {log} words of log, {records} of records, lent cells {lent_cells:?}, lent global cells {lent_global:?}\n{rows}")
}
