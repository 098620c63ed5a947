//! Launches of several groups, with global cells, or both: kernels like real
//! ones with their usual mistakes, kernels of one group spread over several,
//! and launches at the edges.
//!
//! R0 is the thread's number in its group, R1 is 1 and R2 the launch number; R15
//! stays 0.

use checker::op;

use crate::asm::*;
use crate::meetings::meetings;
use crate::patterns::SKIPPED;
use crate::plan::Plan;
use crate::rng::Rng;

/// All cells together, at most.
const ROOM: u32 = 1_024;

/// The numbers of a launch but for its limit.
#[derive(Clone, Copy)]
pub struct Shape {
    pub threads: u32,
    pub groups: u32,
    /// Own cells of each group.
    pub cells: u32,
    pub global: u32,
}

impl Shape {
    /// Threads of all groups.
    pub fn launch_threads(self) -> u32 {
        self.groups * self.threads
    }

    /// With words for its cells, of each group others, and a limit that suits.
    pub fn plan(self, rng: &mut Rng, rows: Vec<Row>) -> Plan {
        let mut words = |count: u32| (0..count).map(|_| rng.word()).collect();
        let (cells, global) = (words(self.groups * self.cells), words(self.global));
        let plan = Plan {
            threads: self.threads,
            groups: self.groups,
            limit: 0,
            rows,
            cells,
            global,
        };
        plan.with_fitting_limit(rng)
    }
}

/// A launch of several groups or with global cells; some of them are one of
/// `of_one_group`, spread over several.
pub fn grouped(rng: &mut Rng, of_one_group: impl FnOnce(&mut Rng) -> Plan) -> Plan {
    match rng.below(34) {
        0..=7 => {
            let plan = of_one_group(rng);
            spread(rng, plan)
        }
        8..=21 => meetings(rng),
        22 | 23 => two_level_reduction(rng),
        24 | 25 => global_histogram(rng),
        26 | 27 => scan_and_exchange(rng),
        28 | 29 => counts_on(rng),
        30 => addresses(rng),
        31 => full_lists(rng),
        _ => edges(rng),
    }
}

/// Groups from 2 to 8, the edges favoured.
pub fn many_groups(rng: &mut Rng) -> u32 {
    match rng.below(3) {
        0 => rng.pick(&[2, 2, 8]),
        _ => rng.range(2, 8),
    }
}

/// A kernel of one group, run by several, with some of its accesses to global
/// cells and launch numbers in the place of thread numbers.
fn spread(rng: &mut Rng, plan: Plan) -> Plan {
    let each = plan.cells.len() as u32;
    let groups = match rng.below(5) {
        0 => 1,
        _ => many_groups(rng).min(ROOM / each),
    };
    let room = ROOM - groups * each;
    let global = rng.pick(&[0, each, each, groups * each, 1]).min(room);
    // So many of four accesses, and of four thread numbers.
    let share = if global == 0 { 0 } else { rng.range(0, 4) };
    let renumbered = rng.pick(&[0, 0, 2, 4, 4]);
    let rows = plan.rows.iter().map(|&row| match row[0] {
        op::LOAD..=op::ATOMIC_ADD if rng.below(4) < share => as_global(row),
        op::TID if rng.below(4) < renumbered => launch_number(row[1]),
        _ => row,
    });
    let rows = rows.collect();
    let mut cells = plan.cells;
    for _ in 1..groups {
        let more: Vec<u32> = match rng.below(3) {
            0 => cells[..each as usize].to_vec(),
            _ => (0..each).map(|_| rng.word()).collect(),
        };
        cells.extend(more);
    }
    let spread = Plan {
        threads: plan.threads,
        groups,
        limit: plan.limit,
        rows,
        cells,
        global: (0..global).map(|_| rng.word()).collect(),
    };
    spread.with_fitting_limit(rng)
}

/// The same access to a global cell.
fn as_global(mut row: Row) -> Row {
    row[0] += op::GLOBAL_LOAD - op::LOAD;
    row
}

/// R5 = the number of the thread's group: how often COUNT goes into the launch
/// number.
fn group_number() -> Vec<Row> {
    let whole = [lt(6, 3, 4), eq(6, 6, 15)];
    let mut rows = vec![set(5, 0), launch_number(3), count(4)];
    rows.extend(whole);
    rows.extend([begin_while(6), sub(3, 3, 4), add(5, 5, 1)]);
    rows.extend(whole);
    rows.push(ENDWHILE);
    rows
}

/// A BARRIER, left out or skipped in about one of `times` kernels.
fn barrier_unless(rng: &mut Rng, times: u32) -> Vec<Row> {
    match rng.below(2 * times) {
        0 => vec![],
        1 => SKIPPED.to_vec(),
        _ => vec![BARRIER],
    }
}

/// Rows by the group's thread 0 only.
fn by_thread_0(rows: &[Row]) -> Vec<Row> {
    [&[eq(9, 0, 15), begin_if(9)], rows, &[ENDIF]].concat()
}

/// Each group sums up its own cells in a tree; its thread 0 then adds the sum to
/// one global cell, or stores it to one of the group's own. Mistakes: the sum is
/// stored by each group to the same cell, or the others' sums are loaded, as if
/// a barrier held all groups.
fn two_level_reduction(rng: &mut Rng) -> Plan {
    let (threads, groups) = (rng.pick(&[2, 4, 8, 16, 32]), many_groups(rng));
    let mut rows = vec![tid(0), set(1, 1), set(7, threads / 2), begin_while(7)];
    rows.extend([lt(8, 0, 7), begin_if(8), add(9, 0, 7), load(10, 9)]);
    rows.extend([load(11, 0), add(11, 11, 10), store(0, 11), ENDIF]);
    rows.extend(barrier_unless(rng, 12));
    rows.extend([shr(7, 7, 1), ENDWHILE]);
    rows.extend(group_number());
    let put = match rng.below(8) {
        0..=3 => global_add(15, 11),
        4 => global_store(15, 11),
        _ => global_store(5, 11),
    };
    rows.extend(by_thread_0(&[load(11, 15), put]));
    match rng.below(6) {
        0 => rows.extend([BARRIER, global_load(12, 15), store(0, 12)]),
        1 => rows.extend([BARRIER, global_load(12, 5), store(0, 12)]),
        2 => rows.extend([BARRIER, set(5, rng.below(groups)), global_load(12, 5)]),
        _ => {}
    }
    let shape = Shape {
        threads,
        groups,
        cells: threads.max(2),
        global: groups + rng.below(3),
    };
    shape.plan(rng, rows)
}

/// Global bins that threads of all groups add to. Mistakes: bins emptied by
/// each group before, or loaded behind a barrier, which holds one group only.
fn global_histogram(rng: &mut Rng) -> Plan {
    let (threads, groups) = (rng.threads(), many_groups(rng));
    let bins = 1 << rng.range(0, 5);
    let mut rows = vec![tid(0), set(1, 1), launch_number(2), set(3, bins - 1)];
    if rng.one_in(5) {
        rows.extend([and(4, 0, 3), global_store(4, 15), BARRIER]);
    }
    rows.extend([load(5, 0), and(4, 5, 3), global_add(4, 1)]);
    if rng.one_in(3) {
        rows.extend(barrier_unless(rng, 4));
        rows.extend(vec![global_add(4, 5); rng.index(3)]);
    }
    match rng.below(5) {
        0 => rows.extend([BARRIER, global_load(6, 4), store(0, 6)]),
        1 => rows.extend([BARRIER, atomic_add(15, 1)]),
        _ => {}
    }
    let shape = Shape {
        threads,
        groups,
        cells: threads,
        global: bins,
    };
    shape.plan(rng, rows)
}

/// Each group makes running sums of its own cells, one for each thread, puts
/// them to the global cells of its launch numbers, and behind a barrier loads
/// its neighbour's. The neighbour is of its own group; mistakes: the next
/// group's, the last thread's of all, or no barrier.
fn scan_and_exchange(rng: &mut Rng) -> Plan {
    let (threads, groups) = (rng.threads(), rng.range(1, 8));
    let mut rows = vec![tid(0), set(1, 1), launch_number(2), count(3), add(5, 0, 1)];
    rows.extend([
        begin_while(5),
        sub(5, 5, 1),
        load(6, 5),
        add(7, 7, 6),
        ENDWHILE,
    ]);
    rows.extend(barrier_unless(rng, 6));
    rows.extend([store(0, 7), global_store(2, 7)]);
    rows.extend(barrier_unless(rng, 6));
    rows.extend(match rng.below(8) {
        0 => vec![add(4, 2, 3)],
        1 => vec![set(4, threads * groups - 1)],
        2 => vec![add(4, 2, 1)],
        // The group's next thread, from the last one on its first.
        _ => vec![
            add(4, 0, 1),
            lt(9, 4, 3),
            mul(4, 4, 9),
            sub(8, 2, 0),
            add(4, 4, 8),
        ],
    });
    rows.extend([global_load(10, 4), add(10, 10, 7)]);
    rows.extend(barrier_unless(rng, 6));
    rows.push(rng.pick(&[store(0, 10), global_store(2, 10), global_add(2, 10)]));
    let shape = Shape {
        threads,
        groups,
        cells: threads,
        global: threads * groups,
    };
    shape.plan(rng, rows)
}

/// Registers that are never set before they are counted on, loops of as many
/// trips as the launch number says, and unequal arms: what is left over from the
/// group before would show, and so would steps in another order.
fn counts_on(rng: &mut Rng) -> Plan {
    let (threads, groups) = (rng.threads(), many_groups(rng));
    let mut rows = vec![add(3, 3, 1), tid(0), launch_number(2)];
    rows.extend([set(4, rng.pick(&[1, 3, 7])), and(5, 2, 4), begin_while(5)]);
    rows.extend([add(6, 6, 2), set(1, 1), sub(5, 5, 1)]);
    rows.extend([vec![ENDWHILE], barrier_unless(rng, 2)].concat());
    rows.extend([
        set(7, rng.below(threads * groups)),
        lt(8, 2, 7),
        begin_if(8),
    ]);
    rows.extend(vec![add(9, 9, 2); rng.index(5)]);
    match rng.below(6) {
        0 => rows.push(BARRIER),
        1 => rows.push(global_store(9, 9)),
        2 => rows.push(load(9, 2)),
        _ => rows.push(store(0, 2)),
    }
    if rng.one_in(2) {
        rows.extend([ELSE, atomic_add(0, 2)]);
    }
    rows.extend([ENDIF, add(3, 3, 6), atomic_add(0, 3)]);
    let shape = Shape {
        threads,
        groups,
        cells: threads + rng.below(3),
        global: rng.pick(&[0, 1, threads]),
    };
    shape.plan(rng, rows)
}

/// Own and global cells of unequal number, used at the last of either and behind
/// it; often there are no global cells.
fn addresses(rng: &mut Rng) -> Plan {
    let shape = Shape {
        threads: rng.threads(),
        groups: rng.range(1, 8),
        cells: rng.range(1, 100),
        global: rng.pick(&[0, 0, 1, 5, 64, 200]),
    };
    let mut rows = vec![tid(0), set(1, 1), launch_number(2)];
    for _ in 0..rng.range(1, 3) {
        let count = rng.pick(&[shape.cells, shape.global, shape.groups * shape.cells]);
        let at = (count + rng.below(3)).saturating_sub(1);
        rows.push(set(3, at));
        if rng.one_in(3) {
            rows.push(sub(3, 3, 0));
        }
        rows.push(rng.pick(&[
            load(4, 3),
            atomic_add(3, 0),
            global_load(4, 3),
            global_add(3, 2),
            store(3, 1),
            global_store(3, 1),
        ]));
    }
    shape.plan(rng, rows)
}

/// So many releases in each group that the list of intervals is full at a
/// group's start, just before it or just behind it.
fn full_lists(rng: &mut Rng) -> Plan {
    let groups = many_groups(rng);
    let (starting, records) = (rng.range(1, groups - 1), rng.range(1_023, 1_027));
    // The start of each group before it opens a record too.
    let releases = records / starting - 1;
    let mut rows = vec![tid(0), set(1, 1), set(3, releases), begin_while(3), BARRIER];
    rows.extend([sub(3, 3, 1), ENDWHILE]);
    let mut of_each = 4 + 4 * releases;
    if rng.one_in(2) {
        rows.extend([set(4, 16), mul(4, 4, 0), load(5, 4)]);
        of_each += 3;
    }
    let threads = rng.pick(&[1, 1, 2, 3]);
    let shape = Shape {
        threads,
        groups,
        cells: 16 * threads,
        global: rng.below(2),
    };
    let mut plan = shape.plan(rng, rows);
    plan.limit = match rng.below(3) {
        0 => 1_000_000,
        _ => starting * of_each + rng.pick(&[0, 0, 1, 2, 9]) - rng.below(2),
    };
    plan
}

/// 8 groups of 32 threads; 8 groups of 128 cells; all cells together 1,024,
/// 1,023 or one too many; an empty table for several groups.
fn edges(rng: &mut Rng) -> Plan {
    let (groups, cells) = rng.pick(&[(8, 128), (8, 127), (8, 1), (7, 146), (1, 1), (2, 512)]);
    let room = ROOM - groups * cells;
    let global = match rng.below(8) {
        0 => 0,
        1 => room.saturating_sub(1),
        2 => room + 1,
        _ => room,
    };
    let threads = rng.pick(&[32, 32, 31, 1, 2]);
    let shape = Shape {
        threads,
        groups,
        cells,
        global,
    };
    let mut rows = vec![tid(0), set(1, 1), launch_number(2)];
    rows.extend(match rng.below(6) {
        0 => return shape.plan(rng, vec![]),
        1 => vec![set(3, cells - 1), add(4, 2, 1), atomic_add(3, 4)],
        2 => vec![set(3, global.wrapping_sub(1)), global_add(3, 2)],
        3 => vec![
            set(3, shape.launch_threads() - 1),
            eq(4, 2, 3),
            begin_if(4),
            ENDIF,
        ],
        4 => vec![global_store(2, 2), BARRIER, global_load(3, 2)],
        _ => vec![
            set(3, cells - 1),
            sub(3, 3, 0),
            load(4, 3),
            add(4, 4, 2),
            store(3, 4),
        ],
    });
    shape.plan(rng, rows)
}
