//! What several of the tests use: counts by name, and the constructs around a row.
#![allow(dead_code)]

use std::collections::BTreeMap;

use checker::{bare_launch, log_words, op, Outcome, Refusal, INTERVAL_WORDS, MAX_LAUNCH_THREADS};
use generator::{Plan, SmallLaunch};

/// How often each that was looked for was seen.
#[derive(Default)]
pub struct Counts(pub BTreeMap<String, usize>);

impl Counts {
    pub fn see(&mut self, name: impl Into<String>, seen: bool) {
        *self.0.entry(name.into()).or_default() += usize::from(seen);
    }

    /// Fails for each that was looked for and seen fewer than `least` times.
    pub fn expect(&self, least: usize) {
        println!("{:#?}", self.0);
        let rare: Vec<_> = self.0.iter().filter(|(_, &n)| n < least).collect();
        assert!(rare.is_empty(), "fewer than {least} times: {rare:?}");
    }
}

/// The first so many launches of one group without global cells.
pub fn of_one_group(count: u64) -> impl Iterator<Item = Plan> {
    let of_item_7 = |row: &[u8; 4]| (op::LAUNCH_NUMBER..=op::GLOBAL_ADD).contains(&row[0]);
    let alone = move |plan: &Plan| {
        plan.groups == 1 && plan.global.is_empty() && !plan.rows.iter().any(of_item_7)
    };
    let count = count as usize;
    (0..).map(generator::plan).filter(alone).take(count)
}

/// A small launch as a plan.
pub fn small_plan(small: SmallLaunch, limit: u32) -> Plan {
    Plan {
        threads: small.threads,
        groups: small.groups,
        limit,
        rows: small.table.as_chunks().0.to_vec(),
        cells: small.cells,
        global: small.global,
    }
}

/// What a run leaves of a plan.
pub struct Left {
    pub outcome: Outcome,
    pub cells: Vec<u32>,
    pub global: Vec<u32>,
    pub log: Vec<u32>,
    pub list: Vec<u32>,
    pub steps: [u32; MAX_LAUNCH_THREADS],
}

/// What lent words hold that a run doesn't come to.
pub const JUNK: u32 = 0xdead_beef;

/// Runs a plan as a bare launch with buffers that fit.
pub fn run(plan: &Plan) -> Result<Left, Refusal> {
    let (mut cells, mut global) = (plan.cells.clone(), plan.global.clone());
    let mut log = vec![JUNK; log_words(cells.len() + global.len())];
    let mut list = vec![JUNK; INTERVAL_WORDS + 5];
    let mut steps = [JUNK; MAX_LAUNCH_THREADS];
    let outcome = bare_launch(
        &plan.table(),
        plan.threads,
        plan.cells_each(),
        plan.groups,
        plan.global.len() as u32,
        plan.limit,
        &mut cells,
        &mut global,
        &mut log,
        &mut list,
        &mut steps,
    )?;
    Ok(Left {
        outcome,
        cells,
        global,
        log,
        list,
        steps,
    })
}

/// The constructs around a row, outermost first: I, E for the arm behind an
/// ELSE, W.
pub fn around(rows: &[[u8; 4]], row: usize) -> String {
    let mut open = String::new();
    for row in &rows[..row] {
        match row[0] {
            op::IF => open.push('I'),
            op::WHILE => open.push('W'),
            op::ELSE | op::ENDIF | op::ENDWHILE => {
                open.pop();
            }
            _ => {}
        }
        if row[0] == op::ELSE {
            open.push('E');
        }
    }
    open
}
