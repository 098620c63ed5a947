//! Items 4 to 7 against a slow computation of their own.

mod common;
mod slow;

use checker::{
    check_file, op, parse_file, INTERVAL_RECORDS, INTERVAL_WORDS, LENT_CELLS, LENT_GLOBAL,
    LENT_LOG, REPORT_ROOM,
};

use common::{run, JUNK};
use slow::{ended, slow_run, Launch, Told};

/// The records of a list of which all else is as it was lent.
fn records(list: &[u32], used: usize) -> Vec<[u32; 3]> {
    let (records, behind) = list.split_at(3 * used);
    assert!(behind.iter().all(|&word| word == JUNK));
    records.as_chunks().0.to_vec()
}

/// Runs that would take the slow computation too long.
const LONG: u32 = 60_000;

#[test]
fn bare_launches_leave_what_a_slow_run_leaves() {
    let (mut compared, mut costly, mut grouped, mut global) = (0, 0, 0, 0);
    for plan in (0..9_000).map(generator::plan) {
        let Ok(left) = run(&plan) else { continue };
        let outcome = left.outcome;
        let (verdict, stop) = ended(&outcome);
        if verdict == "passed" {
            assert_eq!(outcome.group, plan.groups - 1);
        }
        let (steps, behind) = left.steps.split_at((plan.groups * plan.threads) as usize);
        assert!(behind.iter().all(|&word| word == 0));
        // Each group that has begun and each release, as far as there is room.
        let used = INTERVAL_RECORDS.min((outcome.group + 1 + outcome.barriers) as usize);
        let found = Told {
            verdict,
            stop,
            rows: outcome.rows,
            barriers: outcome.barriers,
            steps: steps.to_vec(),
            records: records(&left.list, used),
            cells: left.cells,
            global: left.global,
            log: left.log,
        };
        let sum = |word: usize| found.records.iter().map(|record| record[word]).sum::<u32>();
        assert_eq!((sum(1), sum(2)), (outcome.rows, outcome.conflicts));
        if outcome.rows < LONG {
            assert_eq!(found, slow_run(&plan, |_| {}), "{plan:?}");
            compared += 1;
            costly += usize::from(outcome.conflicts > 0);
            grouped += usize::from(plan.groups > 1);
            global += usize::from(!plan.global.is_empty());
        }
    }
    println!(
        "{compared} compared, {costly} with costs, {grouped} grouped, {global} with global cells"
    );
    assert!(compared > 7_500 && costly > 1_000 && grouped > 2_000 && global > 1_500);
}

#[test]
fn files_leave_what_a_slow_run_leaves_and_print_its_report() {
    let (mut compared, mut grouped) = (0, 0);
    for file in (0..6_000).map(generator::launch) {
        let (mut cells, mut global) = (vec![JUNK; LENT_CELLS], vec![JUNK; LENT_GLOBAL]);
        let (mut log, mut list) = (vec![JUNK; LENT_LOG], vec![JUNK; INTERVAL_WORDS]);
        let mut out = vec![0; REPORT_ROOM];
        let checked = check_file(
            &file,
            &mut cells,
            &mut global,
            &mut log,
            &mut list,
            &mut out,
        );
        let Ok(len) = checked else {
            let lent = [cells, global, log, list].concat();
            assert!(lent.iter().all(|&word| word == JUNK));
            continue;
        };
        let launch = parse_file(&file).unwrap();
        assert_eq!(launch.cells.len() as u32, launch.groups * launch.cells_each);
        if launch.limit > LONG && launch.table.contains(&op::WHILE) {
            continue; // it may be long
        }
        let expected = slow_run(Launch::of_file(&launch, &[]), |_| {});
        let report = std::str::from_utf8(&out[..len]).unwrap();
        assert_eq!(report, expected.report());
        assert_eq!(records(&list, expected.records.len()), expected.records);
        // The rest of the lent words is kept.
        for (lent, first) in [
            (&cells, &expected.cells),
            (&global, &expected.global),
            (&log, &expected.log),
        ] {
            assert_eq!(lent[..first.len()], first[..]);
            assert!(lent[first.len()..].iter().all(|&word| word == JUNK));
        }
        compared += 1;
        grouped += usize::from(launch.groups > 1);
    }
    println!("{compared} compared, {grouped} grouped");
    assert!(compared > 1_200 && grouped > 300);
}
