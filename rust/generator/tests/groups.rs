//! Groups and global cells, and what can go wrong with them: each of the mistakes
//! that are likely shows in many of the first launches, and so does each way in
//! which accesses meet at global cells, and each edge.

mod common;
mod slow;

use std::collections::BTreeSet;

use checker::{op, INTERVAL_RECORDS};
use common::{run, Counts};
use generator::Plan;
use slow::{run_by, slow_run, Access, Rule, Told};

const SEEDS: u64 = 12_000;

/// Mistakes that the report tells of.
const REPORTED: [Rule; 29] = [
    Rule::BarrierHoldsAll,
    Rule::BarrierClearsGroups,
    Rule::BarrierKeepsGlobal,
    Rule::StartClearsGroups,
    Rule::StartKeepsGlobal,
    Rule::EqualAcrossLetThrough,
    Rule::AddsAcrossRefused,
    Rule::LoadsAcrossRefused,
    Rule::EqualGlobalRefused,
    Rule::OthersFirst,
    Rule::HighestGroup,
    Rule::ReadShownFirst,
    Rule::OtherAcross,
    Rule::TidIsLaunchNumber,
    Rule::LaunchNumberIsTid,
    Rule::CountOfAll,
    Rule::ThreadByLaunch,
    Rule::StepsInGroup,
    Rule::LimitAnew,
    Rule::SpentAtEnd,
    Rule::GlobalBanked,
    Rule::OneGroupsCells,
    Rule::CellsHandedOn,
    Rule::GlobalByOwnCount,
    Rule::OwnByGlobalCount,
    Rule::OwnByAllGroups,
    Rule::RegistersStay,
    Rule::Unmarked,
    Rule::MarkStays,
];

/// Mistakes that only the log or the list of intervals tells of.
const LEFT: [Rule; 8] = [
    Rule::BarrierClearsOthers,
    Rule::StartClearsOwn,
    Rule::RefusedEnters,
    Rule::StartOpensNone,
    Rule::StartPastCap,
    Rule::StartOpensTwo,
    Rule::LogOwnFirst,
    Rule::OwnGroupMasks,
];

fn is_grouped(plan: &Plan) -> bool {
    plan.groups > 1 || !plan.global.is_empty()
}

/// Launches that aren't refused and don't take long.
fn grouped() -> impl Iterator<Item = Plan> {
    let plans = (0..SEEDS).map(generator::plan).filter(is_grouped);
    plans.filter(|plan| run(plan).is_ok_and(|left| left.outcome.rows < 20_000))
}

#[test]
fn about_a_third_of_the_launches() {
    let of = |is: fn(u64) -> bool| (0..6_000).filter(|&seed| is(seed)).count();
    let plans = of(|seed| is_grouped(&generator::plan(seed)));
    let bare = of(|seed| {
        let bare = generator::bare(seed);
        bare.groups != 1 || bare.global != 0
    });
    let files = of(|seed| {
        let file = generator::launch(seed);
        let text = String::from_utf8_lossy(&file);
        !(text.contains("\ngroups=1\n") && text.contains("\nglobal=0\n"))
    });
    println!("of 6000: {plans} plans, {bare} bare launches, {files} files");
    for count in [plans, bare, files] {
        assert!((1_700..2_800).contains(&count), "{count}");
    }
}

#[test]
fn each_mistake_shows() {
    let (mut reported, mut left) = (Counts::default(), Counts::default());
    for plan in grouped() {
        let right = slow_run(&plan, |_| {});
        for rule in REPORTED {
            let wrong = run_by(rule, &plan, |_| {});
            let differs = wrong.report() != right.report();
            reported.see(format!("{rule:?}"), differs);
        }
        // A full list takes long to fill, so these are looked at last.
        for rule in LEFT {
            let wrong = run_by(rule, &plan, |_| {});
            left.see(format!("{rule:?}"), wrong != right);
        }
    }
    reported.expect(15);
    left.expect(15);
}

/// Where one group conflicts with another, in every way; and where both the own
/// group and another are met.
#[test]
fn races_of_all_kinds() {
    let mut counts = Counts::default();
    for plan in grouped() {
        let told = slow_run(&plan, |_| {});
        let (Some(kind), Some(row)) = (&told.stop.kind, told.stop.row) else {
            continue;
        };
        let global = plan.rows[row][0] >= op::GLOBAL_LOAD;
        let (group, other_group) = (told.stop.group, told.stop.other_group);
        let across = group != other_group;
        if !global {
            counts.see("at own cells of a later group", group != Some(0));
            continue;
        }
        let place = if across {
            "across groups"
        } else {
            "in a group"
        };
        for seen in ["rw", "wr", "ww", "ra", "ar", "wa", "aw"] {
            counts.see(format!("{place}: {seen}"), kind == seen);
        }
        if !across {
            counts.see("in a later group", group != Some(0));
            continue;
        }
        let of = told.steps.len() / plan.groups as usize;
        counts.see("across, with group 0", other_group == Some(0));
        counts.see("across, with a later group", other_group != Some(0));
        counts.see(
            "not with the group before",
            group > other_group.map(|g| g + 1),
        );
        counts.see("by the last of 8 groups", group == Some(7));
        counts.see(
            "by a thread that isn't the first",
            told.stop.thread > Some(0),
        );
        counts.see("by one of 32 threads", of == 32);
        counts.see("at another cell than 0", told.stop.at != Some(0));
        counts.see("behind a barrier", told.barriers > 0);
    }
    counts.expect(10);
}

/// Accesses of several groups that agree, and of one group that are parted by
/// its barriers or let through.
#[test]
fn launches_that_pass() {
    let mut counts = Counts::default();
    for plan in grouped() {
        let mut seen = vec![];
        let told = slow_run(&plan, |access| seen.push(access));
        if told.verdict != "passed" || plan.global.is_empty() {
            continue;
        }
        let masks = |kind: usize| {
            let all = plan.cells.len() + plan.global.len();
            told.log[kind * all + plan.cells.len()..(kind + 1) * all].iter()
        };
        let met = |kind| masks(kind).any(|mask| mask.count_ones() > 1);
        counts.see("loads of several groups", met(5));
        counts.see("adds of several groups", met(7));
        let several = |kind| masks(kind).any(|mask| mask.count_ones() == 8);
        counts.see("loads of all 8 groups", several(5));
        counts.see("adds of all 8 groups", several(7));
        let shared = |access: &Access| {
            let stores = plan.rows[access.row][0] == op::GLOBAL_STORE;
            stores && access.cells().len() < access.used.len()
        };
        counts.see("equal stores in a group", seen.iter().any(shared));
        counts.see("stores of each group's own", {
            let writers: BTreeSet<u32> = masks(6).copied().collect();
            writers.len() > 2
        });
        let stores = |access: &&Access| plan.rows[access.row][0] == op::GLOBAL_STORE;
        let first_words = seen.iter().find(stores).map(|access| access.words.clone());
        let unequal =
            first_words.is_some_and(|words| words.iter().collect::<BTreeSet<_>>().len() > 1);
        counts.see("unequal stores to several cells", unequal);
        counts.see("marks of global cells", masks(4).any(|&mark| mark == 1));
        let two_ways = masks(5).zip(masks(6)).any(|(r, w)| r & w != 0);
        counts.see("read and written by one group", two_ways);
    }
    counts.expect(10);
}

/// Numbers at their edges, ends of groups by the limit, and full lists.
#[test]
fn edges() {
    let mut counts = Counts::default();
    for plan in (0..SEEDS).map(generator::plan).filter(is_grouped) {
        let all = plan.cells.len() + plan.global.len();
        let mut see = |name: &str, seen: bool| counts.see(name, seen);
        see(
            "8 groups of 32 threads",
            plan.groups == 8 && plan.threads == 32,
        );
        see(
            "8 groups of 128 cells",
            plan.groups == 8 && plan.cells.len() == 1_024,
        );
        see(
            "1,024 cells in all",
            all == 1_024 && !plan.global.is_empty(),
        );
        see("1,025 cells in all", all == 1_025);
        see(
            "several groups without global cells",
            plan.global.is_empty(),
        );
        see("one group with global cells", plan.groups == 1);
        see(
            "more global cells than own",
            plan.global.len() as u32 > plan.cells_each(),
        );
        see(
            "fewer global cells than own",
            (plan.global.len() as u32) < plan.cells_each(),
        );
        see("an empty table", plan.rows.is_empty() && plan.groups > 1);
        let Ok(left) = run(&plan) else {
            see("33", all > 1_024);
            continue;
        };
        let told = left.outcome;
        if told.rows < 40_000 {
            see_ends(&mut counts, &plan, &slow_run(&plan, |_| {}));
        }
    }
    counts.expect(8);
}

fn see_ends(counts: &mut Counts, plan: &Plan, told: &Told) {
    let group = told.stop.group.unwrap_or(0);
    let mut see = |name: &str, seen: bool| counts.see(name, seen);
    let spent = told.verdict == "spent";
    let at_start = spent && group > 0 && told.stop.row == Some(0);
    see("spent at a later group's row 0", at_start);
    see("spent in a later group", spent && group > 0 && !at_start);
    see("spent in group 0", spent && group == 0 && plan.groups > 1);
    let passed = told.verdict == "passed" && plan.groups > 1;
    see("passed with no row left", passed && told.rows == plan.limit);
    see(
        "diverged in a later group",
        told.verdict == "diverged" && group > 0,
    );
    see(
        "outside in a later group",
        told.verdict == "outside" && group > 0,
    );
    let last = (told.stop.row).is_some_and(|row| row + 1 == plan.rows.len());
    see(
        "spent at the last row of a group",
        spent && last && group + 1 < plan.groups as usize,
    );
    let begun = match told.verdict {
        "passed" => plan.groups as usize,
        _ => group + 1,
    };
    let needed = begun + told.barriers as usize;
    see("a list just full", needed == INTERVAL_RECORDS && begun > 1);
    see("a list too short", needed > INTERVAL_RECORDS && begun > 1);
    let starts: Vec<u32> = told.records.iter().map(|record| record[0]).collect();
    let full = told.records.len() == INTERVAL_RECORDS;
    see(
        "a start in the last record",
        full && starts.last() == Some(&0),
    );
}
