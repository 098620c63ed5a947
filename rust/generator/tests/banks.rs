//! What item 5 asks of the launches: bank conflicts of all kinds, by all kinds of
//! rows, in intervals and at stops of all kinds, and lists that are full.

mod common;
mod slow;

use std::collections::BTreeSet;

use checker::{log_words, op, INTERVAL_RECORDS, INTERVAL_WORDS, MAX_LIMIT};
use common::{around, of_one_group, run, Counts};
use generator::Plan;
use slow::{cost, slow_run, Access, Told};

const SEEDS: u64 = 10_000;

/// Sound launches that take a moment only, with their accesses.
fn launches() -> impl Iterator<Item = (Plan, Told, Vec<Access>)> {
    of_one_group(SEEDS).filter_map(|plan| {
        let rows = ran(&plan)?[0];
        (rows < 20_000).then(|| {
            let mut seen = vec![];
            let told = slow_run(&plan, |access| seen.push(access));
            (plan, told, seen)
        })
    })
}

/// Rows, barriers, conflicts and the largest cost of an interval, if the launch
/// isn't refused.
fn ran(plan: &Plan) -> Option<[u32; 4]> {
    let left = run(plan).ok()?;
    let ran = left.outcome;
    let used = INTERVAL_RECORDS.min(ran.barriers as usize + 1);
    let records = &left.list.as_chunks::<3>().0[..used];
    let most = records.iter().map(|record| record[2]).max();
    Some([ran.rows, ran.barriers, ran.conflicts, most.unwrap_or(0)])
}

/// The distance of all threads' cells, where it is the same for three or more.
fn distance(access: &Access) -> Option<usize> {
    let cells: Vec<usize> = access.used.iter().map(|&(_, cell)| cell).collect();
    let first = cells.get(1)?.checked_sub(cells[0])?;
    let even = |two: &[usize]| two[1] == two[0] + first;
    (cells.len() > 2 && cells.windows(2).all(even)).then_some(first)
}

/// The numbers of different cells in each bank that is used.
fn in_banks(cells: &BTreeSet<usize>) -> Vec<usize> {
    let in_bank = |bank| cells.iter().filter(|&cell| cell % 16 == bank).count();
    (0..16).map(in_bank).filter(|&number| number > 0).collect()
}

/// What the cost would be where banks were of another number.
fn with_banks(cells: &BTreeSet<usize>, banks: usize) -> u32 {
    let in_bank = |bank| cells.iter().filter(|&cell| cell % banks == bank).count();
    (0..banks).map(in_bank).max().unwrap_or(0).saturating_sub(1) as u32
}

#[test]
fn conflicts_of_all_kinds() {
    let mut counts = Counts::default();
    for (plan, _, accesses) in launches() {
        let finished: Vec<&Access> = accesses.iter().filter(|access| access.finished).collect();
        let mut see = |name: String, is: &dyn Fn(&Access, u32) -> bool| {
            let any = |access: &&Access| is(access, cost(&access.cells()));
            counts.see(name, finished.iter().any(any));
        };
        for of in [1, 2, 4, 8, 15, 16, 17, 32] {
            see(format!("distance {of}"), &|access, _| {
                distance(access) == Some(of)
            });
        }
        for code in [op::LOAD, op::STORE, op::ATOMIC_ADD] {
            see(format!("op {code}"), &|access, cost| {
                plan.rows[access.row][0] == code && cost > 0
            });
            let some = plan.threads as usize;
            see(format!("op {code} by some threads"), &|access, cost| {
                plan.rows[access.row][0] == code && cost > 0 && access.used.len() < some
            });
        }
        for construct in ['I', 'E', 'W'] {
            see(format!("in {construct}"), &|access, cost| {
                cost > 0 && around(&plan.rows, access.row).contains(construct)
            });
        }
        see("a load into its number".into(), &|access, cost| {
            let [code, d, a, _] = plan.rows[access.row];
            code == op::LOAD && d == a && cost > 0
        });
        see(
            "cells shared, others of their bank".into(),
            &|access, cost| cost > 0 && access.cells().len() < access.used.len(),
        );
        see("one cell of many".into(), &|access, _| {
            access.cells().len() == 1 && access.used.len() > 2
        });
        see("banks with unequal numbers".into(), &|access, cost| {
            let numbers = in_banks(&access.cells());
            cost > 1
                && numbers
                    .iter()
                    .any(|&number| number > 1 && number <= cost as usize)
        });
        see(
            "several banks with equal numbers".into(),
            &|access, cost| {
                let numbers = in_banks(&access.cells());
                cost > 0 && numbers.iter().filter(|&&n| n == cost as usize + 1).count() > 1
            },
        );
        for banks in [8, 15, 17, 32] {
            see(format!("otherwise with {banks} banks"), &|access, cost| {
                with_banks(&access.cells(), banks) != cost
            });
        }
        for most in [1, 2, 3, 7, 15, 31] {
            see(format!("cost {most}"), &|_, cost| cost == most);
        }
        let costs = |row| {
            finished
                .iter()
                .filter(move |a| a.row == row)
                .map(|a| cost(&a.cells()))
        };
        let rows: BTreeSet<usize> = finished.iter().map(|access| access.row).collect();
        let unequal = rows.iter().any(|&row| costs(row).min() != costs(row).max());
        counts.see("a row of unequal costs", unequal);
        let again = finished.windows(2).any(|two| {
            two[0].row + 1 == two[1].row && two[0].used == two[1].used && cost(&two[0].cells()) > 0
        });
        counts.see("the same cells in the next row", again);
    }
    counts.expect(15);
}

#[test]
fn intervals_of_all_kinds() {
    let mut counts = Counts::default();
    for (plan, told, _) in launches() {
        let records = &told.records;
        let costs: BTreeSet<u32> = records.iter().map(|record| record[2]).collect();
        let (first, last) = (records[0], records[records.len() - 1]);
        let rows = plan.rows.len() as u32;
        counts.see("three unequal costs", costs.len() > 2);
        counts.see(
            "a barrier as the first row",
            records.len() > 1 && first == [0, 1, 0],
        );
        counts.see(
            "a barrier as the last row",
            records.len() > 1 && last == [rows, 0, 0],
        );
        counts.see("no row but a barrier", rows == 1 && records.len() > 1);
        counts.see("the last of 256 rows", last[0] == 256);
        counts.see("an empty table", rows == 0);
        counts.see(
            "two barriers, one after the other",
            records[1..].iter().any(|r| r[1] == 1),
        );
        let skipped = [
            [op::IF, 0, 15, 0],
            [op::BARRIER, 0, 0, 0],
            [op::ENDIF, 0, 0, 0],
        ];
        let skips = plan.rows.windows(3).any(|rows| rows == skipped);
        counts.see(
            "a skipped barrier, and costs",
            skips && costs.iter().any(|&cost| cost > 0),
        );
        counts.see(
            "costs behind a release only",
            first[2] == 0 && costs.len() > 1,
        );
        counts.see(
            "costs before a release only",
            records.len() > 1 && first[2] > 0 && costs.len() == 2,
        );
        for verdict in ["passed", "race", "outside", "diverged", "spent"] {
            let of = told.verdict == verdict;
            counts.see(format!("{verdict} with costs"), of && last[2] > 0);
            let earlier =
                records.len() > 1 && records[..records.len() - 1].iter().any(|r| r[2] > 0);
            counts.see(
                format!("{verdict} behind costs of other intervals"),
                of && earlier,
            );
            let both = earlier && last[2] > 0;
            counts.see(
                format!("{verdict} with costs in several intervals"),
                of && both,
            );
        }
    }
    counts.expect(8);
}

/// The lower threads of a stopped row have used cells that would cost.
#[test]
fn stopped_rows_with_conflicts() {
    let mut counts = Counts::default();
    for (plan, told, accesses) in launches() {
        let stopped = accesses.last().filter(|access| !access.finished);
        for verdict in ["race", "outside"] {
            let is = |cost_is: &dyn Fn(u32) -> bool, code: &dyn Fn(u8) -> bool| {
                stopped.is_some_and(|access| {
                    let of = code(plan.rows[access.row][0]);
                    of && told.verdict == verdict && cost_is(cost(&access.cells()))
                })
            };
            counts.see(
                format!("{verdict}, at a cost"),
                is(&|cost| cost > 0, &|_| true),
            );
            counts.see(
                format!("{verdict}, at much cost"),
                is(&|cost| cost > 9, &|_| true),
            );
            let released = told.barriers > 0;
            let behind = released && is(&|cost| cost > 0, &|_| true);
            counts.see(format!("{verdict}, at a cost, behind a release"), behind);
            let paid = told.records.iter().any(|record| record[2] > 0);
            let more = paid && is(&|cost| cost > 0, &|_| true);
            counts.see(format!("{verdict}, at a cost, behind other costs"), more);
        }
    }
    counts.expect(8);
}

/// As many releases as there are records to start, one or two more or fewer, or
/// many more.
#[test]
fn lists_that_are_full() {
    let (mut counts, mut by_verdict) = (Counts::default(), Counts::default());
    for (_, told, _) in launches().filter(|(_, told, _)| told.barriers > 1_000) {
        let (records, barriers) = (&told.records, told.barriers);
        let paid = records.iter().any(|record| record[2] > 0);
        for releases in [1_023, 1_024, 1_025, 1_026] {
            counts.see(format!("{releases} releases"), barriers == releases);
            counts.see(
                format!("{releases} releases and costs"),
                barriers == releases && paid,
            );
        }
        counts.see(
            "1,027 to 1,100 releases",
            (1_027..1_100).contains(&barriers),
        );
        counts.see("more releases", barriers > 1_100);
        let last = records[records.len() - 1];
        let full = records.len() == INTERVAL_RECORDS;
        let over = barriers >= INTERVAL_RECORDS as u32;
        counts.see(
            "costs of the last record, not full",
            full && !over && last[2] > 0,
        );
        counts.see("costs of the last record, full", over && last[2] > 0);
        counts.see("no costs of the last record, full", over && last[2] == 0);
        let before = records[records.len() - 2];
        counts.see("another start than before", full && before[0] != last[0]);
        counts.see("costs unlike those before", full && before[2] != last[2]);
        let name = match told.verdict {
            "passed" | "spent" => told.verdict,
            _ => "stopped",
        };
        for of in ["passed", "spent", "stopped"] {
            by_verdict.see(format!("{of}, full"), over && name == of);
            by_verdict.see(
                format!("{of}, one record left or none"),
                full && !over && name == of,
            );
            by_verdict.see(
                format!("{of}, full, with costs"),
                over && name == of && last[2] > 0,
            );
        }
    }
    counts.expect(5);
    by_verdict.expect(1);
}

#[test]
fn costs_past_8_16_and_24_bits() {
    let (mut counts, mut rare) = (Counts::default(), Counts::default());
    let outcomes = of_one_group(SEEDS).filter_map(|plan| ran(&plan));
    for [_, barriers, conflicts, most] in outcomes {
        counts.see("an interval past 8 bits", most > 255);
        counts.see("an interval past 16 bits", most > 65_535);
        counts.see("all past 16 bits", conflicts > 65_535);
        let by_many = conflicts > 65_535 && most < 65_536;
        counts.see("all past 16 bits, no interval", by_many);
        // They take long.
        rare.see("all past 24 bits", conflicts > 1 << 24);
        rare.see("an interval past 24 bits", most > 1 << 24);
        let full = conflicts > 1 << 24 && barriers > 1_024;
        rare.see("all past 24 bits, full", full);
    }
    counts.expect(3);
    rare.expect(2);
}

#[test]
fn lent_lists_of_all_lengths() {
    let mut counts = Counts::default();
    for launch in (0..SEEDS).map(generator::bare) {
        let list = &launch.lent_intervals;
        // No record's word is as large.
        assert!(list.iter().all(|&word| word > 31 * MAX_LIMIT));
        let words = list.len();
        for length in [0, 1, 1_025, 3_072, 3_074, 3_075, 3_076] {
            counts.see(format!("{length} words"), words == length);
        }
        let (own, global) = (launch.lent_cells.len(), launch.lent_global.len());
        let (cells, log) = (own + global, launch.lent_log.len());
        counts.see("more by some records", words > INTERVAL_WORDS + 3);
        let all = u64::from(launch.groups) * u64::from(launch.cells);
        let said = own as u64 == all && global == launch.global as usize;
        counts.see(
            "with a wrong log",
            words < INTERVAL_WORDS && said && log != log_words(cells),
        );
        counts.see("with wrong cells", words < INTERVAL_WORDS && !said);
        let fitting = said && log == log_words(cells);
        counts.see("3,074 and all else fitting", fitting && words == 3_074);
    }
    counts.expect(6);
}
