//! Accesses that meet at global cells, in one group or in two: one after the
//! other in the table, each by one thread, by some or by all, with and without
//! barriers between.
//!
//! R0 is the thread's number in its group, R1 is 1, R2 the launch number, R3 the
//! cell where most accesses meet; R15 stays 0.

use crate::asm::*;
use crate::groups::{many_groups, Shape};
use crate::patterns::SKIPPED;
use crate::plan::Plan;
use crate::rng::Rng;

/// Accesses that meet at a global cell.
pub fn meetings(rng: &mut Rng) -> Plan {
    let shape = Shape {
        threads: rng.pick(&[1, 2, 2, 2, 3, 4, 5, 32]),
        groups: many_groups(rng),
        cells: rng.range(1, 4),
        global: rng.range(1, 6),
    };
    let mut rows = vec![tid(0), set(1, 1), launch_number(2)];
    rows.push(set(3, rng.below(shape.global)));
    rows.extend(match rng.below(11) {
        0..=2 => any_order(rng, shape),
        3 | 4 => one_group_after_another(rng, shape),
        5 | 6 => own_group_besides(rng, shape),
        7 => own_cells_of_one_group(rng, shape),
        _ => flag_of_one_group(rng, shape),
    });
    shape.plan(rng, rows)
}

/// What a row does to the cell where accesses meet.
#[derive(Clone, Copy)]
enum Kind {
    Load,
    Add,
    Store,
}

const KINDS: [Kind; 3] = [Kind::Load, Kind::Add, Kind::Store];

/// Mostly nothing, otherwise a BARRIER or a skipped one.
fn between(rng: &mut Rng) -> Vec<Row> {
    match rng.below(8) {
        0..=2 => vec![BARRIER],
        3 => SKIPPED.to_vec(),
        _ => vec![],
    }
}

/// Rows for the threads with R5 true.
fn where_true(condition: &[Row], rows: Vec<Row>) -> Vec<Row> {
    [condition, &[begin_if(5)], &rows, &[ENDIF]].concat()
}

/// Rows for one thread of the launch.
fn by(launch_thread: u32, rows: Vec<Row>) -> Vec<Row> {
    where_true(&[set(4, launch_thread), eq(5, 2, 4)], rows)
}

/// Rows for all threads of one group: those whose two numbers are as far apart.
fn by_group(shape: Shape, group: u32, rows: Vec<Row>) -> Vec<Row> {
    let first = set(5, group * shape.threads);
    where_true(&[sub(4, 2, 0), first, eq(5, 4, 5)], rows)
}

/// Accesses of any kind, or mostly of one that groups may share, by any.
fn any_order(rng: &mut Rng, shape: Shape) -> Vec<Row> {
    let common = rng.pick(&[None, None, None, Some(0), Some(0), Some(1), Some(2)]);
    let mut rows = vec![];
    for _ in 0..rng.range(2, 5) {
        rows.extend(by_some(rng, shape, common.map(|kind: usize| KINDS[kind])));
        rows.extend(between(rng));
    }
    rows
}

/// One access or two by one thread of the launch, by threads up to one or from
/// one on, by one of each group, by a whole group, or by all.
fn by_some(rng: &mut Rng, shape: Shape, common: Option<Kind>) -> Vec<Row> {
    let used = accesses(rng, common);
    let (any, local) = (rng.below(shape.launch_threads()), rng.below(shape.threads));
    match rng.below(10) {
        0..=3 => by(any, used),
        4 => where_true(&[set(4, any), lt(5, 2, 4)], used),
        5 => where_true(&[set(4, any), lt(5, 4, 2)], used),
        6 | 7 => where_true(&[set(4, local), eq(5, 0, 4)], used),
        8 => by_group(shape, rng.below(shape.groups), used),
        _ => used,
    }
}

/// Mostly at the cell of R3, otherwise at the first one; now and then at an own
/// cell besides.
fn accesses(rng: &mut Rng, common: Option<Kind>) -> Vec<Row> {
    let at = rng.pick(&[3, 3, 3, 15]);
    let mut rows = vec![];
    for _ in 0..rng.pick(&[1, 1, 1, 2]) {
        let kind = match common {
            Some(kind) if !rng.one_in(8) => kind,
            _ => rng.pick(&KINDS),
        };
        rows.extend(access(rng, kind, at));
    }
    if rng.one_in(12) {
        rows.push(rng.pick(&[load(6, 15), store(15, 1), atomic_add(15, 2)]));
    }
    rows
}

fn access(rng: &mut Rng, kind: Kind, at: u8) -> Vec<Row> {
    match kind {
        Kind::Load => vec![global_load(6, at)],
        Kind::Add => vec![global_add(at, rng.pick(&[1, 2, 15]))],
        Kind::Store => stored(rng, at),
    }
}

/// A value that is the same for all, or the thread's own.
fn stored(rng: &mut Rng, at: u8) -> Vec<Row> {
    match rng.below(4) {
        0 => vec![global_store(at, rng.pick(&[0, 2]))],
        1 => vec![set(7, rng.below(3)), global_store(at, 7)],
        _ => vec![global_store(at, 1)],
    }
}

/// One group does one thing to the cell or several, in intervals of its own;
/// another, mostly not the next one, then does something too. Of those between
/// some have done the same.
fn one_group_after_another(rng: &mut Rng, shape: Shape) -> Vec<Row> {
    let last = shape.groups - 1;
    let any = rng.range(1, last);
    let second = rng.pick(&[any, any, last]);
    let first = rng.below(second);
    let thread = |rng: &mut Rng, group: u32| group * shape.threads + rng.below(shape.threads);
    let mut rows = vec![];
    for _ in 0..rng.range(1, 3) {
        let kind = rng.pick(&KINDS);
        let used = access(rng, kind, 3);
        rows.extend(by(thread(rng, first), used.clone()));
        if rng.one_in(3) {
            let between = rng.range(first, second);
            rows.extend(by(thread(rng, between), used));
        }
        if !rng.one_in(6) {
            rows.push(BARRIER);
        }
    }
    let kind = rng.pick(&KINDS);
    rows.extend(by(thread(rng, second), access(rng, kind, 3)));
    rows
}

/// Groups that agree, all of them loading or all adding; then a thread of a later
/// group doesn't agree with its own group, or a barrier has parted it from that.
fn own_group_besides(rng: &mut Rng, shape: Shape) -> Vec<Row> {
    let common = rng.pick(&[Kind::Load, Kind::Add]);
    let second = rng.range(1, shape.groups - 1);
    let (local, other) = (rng.below(shape.threads), rng.below(shape.threads));
    let first = rng.range(0, second) * shape.threads;
    let mut rows = vec![set(8, first), lt(5, 2, 8), eq(5, 5, 15)];
    rows.extend([set(4, local), eq(9, 0, 4), and(5, 5, 9)]);
    rows = where_true(&rows, access(rng, common, 3));
    rows.extend(between(rng));
    let kind = rng.pick(&KINDS);
    let used = access(rng, kind, 3);
    rows.extend(by(second * shape.threads + other, used));
    rows
}

/// Threads of a later group meet at one of its own cells, which no other group
/// has used.
fn own_cells_of_one_group(rng: &mut Rng, shape: Shape) -> Vec<Row> {
    let group = rng.range(1, shape.groups - 1);
    let at = set(8, rng.below(shape.cells));
    let mut rows = vec![];
    for _ in 0..rng.range(2, 4) {
        let used = rng.pick(&[load(6, 8), store(8, 1), store(8, 2), atomic_add(8, 2)]);
        let thread = group * shape.threads + rng.below(shape.threads);
        rows.extend(by(thread, vec![at, used]));
        rows.extend(between(rng));
    }
    rows
}

/// A flag that the threads of one group set to one value; or one of them stores
/// several values by itself. Then others of them store or load, or another
/// group does.
fn flag_of_one_group(rng: &mut Rng, shape: Shape) -> Vec<Row> {
    let group = rng.below(shape.groups);
    let thread = |rng: &mut Rng| group * shape.threads + rng.below(shape.threads);
    let mut rows = vec![set(7, rng.below(2)), set(8, rng.range(1, 3))];
    rows.extend(match rng.below(4) {
        0 | 1 => by(thread(rng), vec![global_store(3, 7), global_store(3, 8)]),
        2 => by(
            thread(rng),
            vec![rng.pick(&[global_store(3, 7), global_add(3, 7)])],
        ),
        _ => by_group(shape, group, vec![global_store(3, 7)]),
    });
    rows.extend(between(rng));
    rows.extend(match rng.below(8) {
        0..=2 => by_group(shape, group, vec![global_store(3, 7)]),
        3 | 4 => by(thread(rng), vec![global_store(3, rng.pick(&[7, 8]))]),
        5 => by(rng.below(shape.launch_threads()), vec![global_store(3, 7)]),
        6 => by(
            thread(rng),
            vec![rng.pick(&[global_load(6, 3), global_add(3, 1)])],
        ),
        _ => vec![],
    });
    rows
}
