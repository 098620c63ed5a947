//! Equal stores and what can go wrong with them: each of the mistakes that are
//! likely shows in many of the first launches, and each way in which stores
//! meet is among them.

mod common;
mod slow;

use std::collections::{BTreeMap, BTreeSet};

use checker::op;
use common::{around, of_one_group, small_plan, Counts};
use generator::Plan;
use slow::{run_by, Access, Launch, Rule, Told};

const SEEDS: u64 = 10_000;
/// Longer runs are left out.
const ROWS: u32 = 400;

const MISTAKES: [Rule; 23] = [
    Rule::EqualRefused,
    Rule::LastKept,
    Rule::LastCompared,
    Rule::CellCompared,
    Rule::Unmarked,
    Rule::EqualMarked,
    Rule::ZeroIsNone,
    Rule::MarkStays,
    Rule::ValueStays,
    Rule::LoadLetThrough,
    Rule::AddLetThrough,
    Rule::BesidesLetThrough,
    Rule::ShownAsStore,
    Rule::RefusedIsFirst,
    Rule::RefusedMarks,
    Rule::LowBits(1),
    Rule::LowBits(8),
    Rule::LowBits(16),
    Rule::LowBits(24),
    Rule::LowBits(30),
    Rule::LowBits(31),
    Rule::OneWriter,
    Rule::FirstThreadOnly,
];

/// Mistakes that only the log tells of.
const IN_THE_LOG: [Rule; 3] = [Rule::LastKept, Rule::RefusedIsFirst, Rule::RefusedMarks];

/// What a plan that the checker wouldn't refuse came to, where it has stores
/// and isn't long.
fn told(plan: &Plan, rule: Rule, see: impl FnMut(Access)) -> Option<Told> {
    let limit = plan.limit.min(ROWS);
    let stores = plan.rows.iter().any(|row| row[0] == op::STORE);
    let launch = Launch {
        limit,
        ..Launch::from(plan)
    };
    stores.then(|| run_by(rule, launch, see))
}

/// Whether the constructs are nested no deeper than they may be.
fn sound(plan: &Plan) -> bool {
    let mut depth = 0;
    plan.rows.iter().all(|row| {
        match row[0] {
            op::IF | op::WHILE => depth += 1,
            op::ENDIF | op::ENDWHILE => depth -= 1,
            _ => {}
        }
        depth <= 8
    })
}

fn plans() -> impl Iterator<Item = Plan> {
    of_one_group(SEEDS).filter(sound)
}

/// In how many launches each mistake shows, in any way and in the report.
#[test]
fn each_mistake_shows() {
    let (mut anywhere, mut reported) = (Counts::default(), Counts::default());
    for plan in plans() {
        let Some(right) = told(&plan, Rule::Right, |_| {}) else {
            continue;
        };
        for rule in MISTAKES {
            let Some(wrong) = told(&plan, rule, |_| {}) else {
                continue;
            };
            anywhere.see(format!("{rule:?}"), wrong != right);
            if !IN_THE_LOG.contains(&rule) {
                let seen = wrong.report() != right.report();
                reported.see(format!("{rule:?}"), seen);
            }
        }
    }
    anywhere.expect(20);
    reported.expect(8);
}

/// As above, for the small launches of which every run is played: there the
/// verdict tells.
#[test]
fn each_mistake_shows_in_the_verdict_of_small_launches() {
    let mut counts = Counts::default();
    let mistakes = MISTAKES.into_iter().filter(|rule| {
        let kept_only = IN_THE_LOG.contains(rule);
        let shown_only = matches!(rule, Rule::ShownAsStore);
        let bits = matches!(rule, Rule::LowBits(bits) if !matches!(bits, 1 | 8 | 16 | 31));
        !kept_only && !shown_only && !bits
    });
    let mistakes: Vec<Rule> = mistakes.collect();
    for small in (0..2 * SEEDS).map(generator::small) {
        let plan = small_plan(small, ROWS);
        let Some(right) = told(&plan, Rule::Right, |_| {}) else {
            continue;
        };
        for &rule in &mistakes {
            let wrong = told(&plan, rule, |_| {}).map(|told| told.verdict);
            counts.see(format!("{rule:?}"), wrong != Some(right.verdict));
        }
    }
    counts.expect(6);
}

/// An access to a cell in an interval.
struct Use {
    code: u8,
    row: usize,
    thread: usize,
    word: u32,
}

/// What was done to each cell in each interval, in order.
type Uses = BTreeMap<(usize, usize), Vec<Use>>;

fn uses(plan: &Plan) -> Option<(Told, Uses)> {
    let mut found = Uses::new();
    let told = told(plan, Rule::Right, |access| {
        for (&(thread, cell), &word) in access.used.iter().zip(&access.words) {
            found.entry((cell, access.interval)).or_default().push(Use {
                code: plan.rows[access.row][0],
                row: access.row,
                thread,
                word,
            });
        }
    })?;
    Some((told, found))
}

fn stores(uses: &[Use]) -> Vec<&Use> {
    uses.iter().filter(|used| used.code == op::STORE).collect()
}

fn threads(stores: &[&Use]) -> BTreeSet<usize> {
    stores.iter().map(|used| used.thread).collect()
}

fn values(stores: &[&Use]) -> BTreeSet<u32> {
    stores.iter().map(|used| used.word).collect()
}

/// Flags that several threads set to one value, in launches that pass.
#[test]
fn flags_of_all_kinds() {
    let mut counts = Counts::default();
    for plan in plans() {
        let Some((told, uses)) = uses(&plan) else {
            continue;
        };
        let passed = told.verdict == "passed";
        for (&(cell, interval), used) in &uses {
            let set = stores(used);
            let (by, put) = (threads(&set), values(&set));
            let mut see = |name: &str, seen: bool| counts.see(name, passed && seen);
            if by.len() < 2 {
                let alone = put.len() > 1;
                see("one alone, unequal", alone);
                let then = |cell: usize, interval: usize| {
                    let later = uses.get(&(cell, interval));
                    later.is_some_and(|used| threads(&stores(used)).len() > 1)
                };
                see("one alone, then a flag", alone && then(cell, interval + 1));
                let again = uses.get(&(cell, interval + 1)).is_some_and(|later| {
                    let later = stores(later);
                    !later.is_empty() && threads(&later) != by && values(&later) != put
                });
                see("one, then another, unequal", again && !set.is_empty());
                continue;
            }
            see("two threads", by.len() == 2);
            see("three threads or more", by.len() > 2);
            see("all of 32 threads", by.len() == 32);
            see(
                "some of many",
                by.len() > 2 && by.len() < plan.threads as usize,
            );
            see("without thread 0", !by.contains(&0));
            see("0", put.contains(&0));
            see("1", put.contains(&1));
            see("past 16 bits", put.iter().any(|&value| value >= 1 << 16));
            see("the top bit", put.iter().any(|&value| value >> 31 == 1));
            see(
                "what the cell held",
                put.contains(&plan.cells[cell]) && interval == 0,
            );
            let rows: BTreeSet<usize> = set.iter().map(|used| used.row).collect();
            see("by one row", rows.len() == 1);
            see("by several rows", rows.len() > 1);
            see("by one thread twice", set.len() > by.len());
            let falls = set.windows(2).any(|two| two[0].thread > two[1].thread);
            see("a higher thread first", falls);
            for (construct, name) in [
                ('I', "in an IF"),
                ('E', "behind an ELSE"),
                ('W', "in a loop"),
            ] {
                let seen = rows
                    .iter()
                    .any(|&row| around(&plan.rows, row).contains(construct));
                see(name, seen);
            }
            see("at a cell far up", cell > 255);
            see("in the last interval", interval == told.barriers as usize);
            let next = uses.get(&(cell, interval + 1));
            let is_next = |is: &dyn Fn(&[Use]) -> bool| next.is_some_and(|next| is(next));
            see(
                "then read by others",
                is_next(&|next| {
                    next.iter()
                        .any(|used| used.code == op::LOAD && by.iter().any(|&t| t != used.thread))
                }),
            );
            see(
                "then another value by several",
                is_next(&|next| threads(&stores(next)).len() > 1 && values(&stores(next)) != put),
            );
            see(
                "then unequal by one alone",
                is_next(&|next| values(&stores(next)).len() > 1),
            );
        }
    }
    counts.expect(10);
}

/// Stores that are refused, and loads and adds beside stores.
#[test]
fn races_of_all_kinds() {
    let mut counts = Counts::default();
    for plan in plans() {
        let Some((told, uses)) = uses(&plan) else {
            continue;
        };
        let stop = told.stop;
        let (Some(kind), Some(thread), Some(other), Some(at)) =
            (stop.kind, stop.thread, stop.other, stop.at)
        else {
            continue;
        };
        let used = &uses[&(at as usize, told.barriers as usize)];
        let set = stores(used);
        let (by, put) = (threads(&set), values(&set));
        let flag = by.len() > 1;
        let mut see = |name: &str, seen: bool| counts.see(format!("{kind}: {name}"), seen);
        match kind.as_str() {
            "ww" => {
                see("behind a flag", flag);
                see("by one that set it", flag && by.contains(&thread));
                see("by one that didn't", flag && !by.contains(&thread));
                see("behind unequal stores of one", put.len() > 1);
                see("behind one store of 0", !flag && put.contains(&0));
            }
            "wr" | "wa" => {
                see("behind a flag", flag);
                see("by one that set it", flag && by.contains(&thread));
                see("by a lower thread", flag && by.iter().all(|&t| t > thread));
                see("by a higher thread", flag && by.iter().all(|&t| t < thread));
                see("behind unequal stores of one", put.len() > 1);
            }
            "rw" | "aw" => {
                see("the other has stored too", by.contains(&other));
                see("the other is higher", by.contains(&other) && other > thread);
                see("the other is lower", by.contains(&other) && other < thread);
                let first = used.first().map(|used| used.code);
                see(
                    "it stored first",
                    by.contains(&other) && first == Some(op::STORE),
                );
                see(
                    "it stored later",
                    by.contains(&other) && first != Some(op::STORE),
                );
            }
            _ => {}
        }
    }
    counts.expect(4);
}
