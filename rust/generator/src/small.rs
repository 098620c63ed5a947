//! Small launches for the explorer, of which every run is played.

use crate::asm::*;
use crate::rng::Rng;
use crate::small_counts::uneven;
use crate::small_groups::groups;
use crate::small_shifts::shifts;
use crate::small_stores::stores;

/// A launch of few threads, rows and cells; its table is well-formed.
#[derive(Clone, Debug, PartialEq, Eq)]
pub struct SmallLaunch {
    /// Four bytes a row.
    pub table: Vec<u8>,
    /// 1 to 3 threads of each group.
    pub threads: u32,
    /// 1 to 3 groups.
    pub groups: u32,
    /// 1 to 5 own cells of each group, group 0 first.
    pub cells: Vec<u32>,
    /// Global cells, or none.
    pub global: Vec<u32>,
}

/// A small launch: one group with its own cells alone, or groups and global
/// cells.
pub fn small_launch(rng: &mut Rng) -> SmallLaunch {
    if rng.one_in(2) {
        one_group(rng)
    } else {
        groups(rng)
    }
}

/// One group of 2 or 3 threads without global cells: rows at random, a short
/// loop with barriers and accesses, a shift on which the outcome hangs, threads
/// with unequal steps, or stores that meet.
pub fn one_group(rng: &mut Rng) -> SmallLaunch {
    let threads = rng.pick(&[2, 2, 2, 3]);
    let mut count = rng.range(1, 3);
    let mut behind = vec![];
    let rows = match rng.below(31) {
        0..=3 => short_loop(rng),
        4..=5 => exchange(rng),
        6..=8 => two_arms(rng),
        9 | 15 => uneven(rng),
        10 => turns(rng),
        11 => two_loops(rng),
        12..=14 => two_accesses(rng),
        16..=19 | 26 => {
            let (rows, words) = shifts(rng);
            behind = words;
            rows
        }
        27.. => {
            // The flag is cell 0, and the words are right behind it.
            let (rows, words) = stores(rng);
            if !words.is_empty() {
                let mut cells = vec![rng.below(3)];
                cells.extend(&words[..threads as usize]);
                return of_one_group(&rows, threads, cells);
            }
            rows
        }
        _ => loose_rows(rng),
    };
    if !behind.is_empty() {
        count = threads;
    }
    let mut cells: Vec<u32> = (0..count).map(|_| rng.below(3)).collect();
    cells.extend(behind);
    of_one_group(&rows, threads, cells)
}

fn of_one_group(rows: &[Row], threads: u32, cells: Vec<u32>) -> SmallLaunch {
    SmallLaunch {
        table: rows.concat(),
        threads,
        groups: 1,
        cells,
        global: vec![],
    }
}

/// Up to 7 rows at random, mostly with the thread's number in R0.
fn loose_rows(rng: &mut Rng) -> Vec<Row> {
    let mut rows = vec![];
    let mut budget = rng.below(7);
    if rng.percent(75) {
        rows.push(tid(0));
    }
    if rng.one_in(3) {
        rows.push(set(1, rng.range(1, 2)));
    }
    while budget > 0 {
        item(rng, &mut rows, &mut budget, 0);
    }
    rows
}

fn item(rng: &mut Rng, rows: &mut Vec<Row>, budget: &mut u32, depth: u32) {
    let room = *budget >= 2 && depth < 2;
    *budget = budget.saturating_sub(1);
    let a = register(rng);
    match rng.below(13) {
        0 if room => {
            *budget -= 1;
            rows.push(begin_if(a));
            body(rng, rows, budget, depth + 1);
            if rng.one_in(2) {
                rows.push(ELSE);
                body(rng, rows, budget, depth + 1);
            }
            rows.push(ENDIF);
        }
        1..=3 if room => {
            *budget -= 1;
            rows.push(begin_while(a));
            body(rng, rows, budget, depth + 1);
            if rng.percent(45) {
                rows.push(quench(rng, a));
            }
            rows.push(ENDWHILE);
        }
        4 | 5 => rows.push(BARRIER),
        6 | 7 => rows.push(store(a, register(rng))),
        8 => rows.push(load(register(rng), a)),
        9 => rows.push(atomic_add(a, register(rng))),
        _ => rows.push(plain(rng)),
    }
}

fn body(rng: &mut Rng, rows: &mut Vec<Row>, budget: &mut u32, depth: u32) {
    for _ in 0..rng.below(3) {
        if *budget > 0 {
            item(rng, rows, budget, depth);
        }
    }
}

fn register(rng: &mut Rng) -> u8 {
    rng.pick(&[0, 0, 0, 1, 1, 2])
}

fn plain(rng: &mut Rng) -> Row {
    let (d, a, b) = (register(rng), register(rng), register(rng));
    match rng.below(6) {
        0 => tid(d),
        1 => set(d, rng.below(3)),
        2 => count(d),
        _ => [rng.range(4, 14) as u8, d, a, b],
    }
}

/// A row that may bring a loop on Ra to its end.
fn quench(rng: &mut Rng, a: u8) -> Row {
    match rng.below(5) {
        0 => set(a, 0),
        1 => sub(a, a, 1),
        2 => lt(a, 1, a),
        3 => load(a, 2),
        _ => sub(a, a, a),
    }
}

/// A loop of a few trips, the same for all threads or not.
fn short_loop(rng: &mut Rng) -> Vec<Row> {
    let trips = if rng.one_in(2) {
        set(2, rng.range(1, 3))
    } else {
        add(2, 0, rng.pick(&[0, 1]))
    };
    let mut rows = vec![tid(0), set(1, 1), trips, begin_while(2)];
    // Some loops lack their end. An endless sum would have a state for every
    // word, so its amount is 0.
    let ends = !rng.one_in(5);
    let amount = if ends { 2 } else { 15 };
    for _ in 0..rng.range(1, 2) {
        rows.push(match rng.below(7) {
            0 => load(3, 0),
            1 => store(0, 2),
            2 => load(3, 1),
            3 => atomic_add(rng.pick(&[0, 15]), amount),
            _ => BARRIER,
        });
    }
    if ends {
        rows.push(sub(2, 2, 1));
    }
    rows.push(ENDWHILE);
    if rng.one_in(3) {
        rows.push(store(0, 3));
    }
    rows
}

/// Each thread stores its cell, or adds to it, and loads its neighbour's.
fn exchange(rng: &mut Rng) -> Vec<Row> {
    let put = rng.pick(&[store, store, atomic_add]);
    let mut rows = vec![tid(0), set(1, 1), put(0, rng.pick(&[0, 1]))];
    rows.extend(maybe_barrier(rng));
    rows.push(if rng.one_in(3) {
        sub(2, 1, 0)
    } else {
        [9, 2, 0, 1] // R2 = R0 xor 1
    });
    rows.push(load(3, 2));
    rows.extend(maybe_barrier(rng));
    rows.push(store(rng.pick(&[0, 2]), 3));
    rows
}

/// A barrier, none, or one that all threads pass or skip together.
fn maybe_barrier(rng: &mut Rng) -> Vec<Row> {
    match rng.below(8) {
        0 => vec![],
        1 => vec![begin_if(1), BARRIER, ENDIF],
        2 => vec![begin_if(5), BARRIER, ENDIF],
        3 => vec![begin_while(5), BARRIER, ENDWHILE],
        _ => vec![BARRIER],
    }
}

/// An IF with accesses, loops or barriers in its arms.
fn two_arms(rng: &mut Rng) -> Vec<Row> {
    let test = match rng.below(3) {
        0 => tid(1),
        1 => set(1, rng.below(2)),
        _ => load(1, 2),
    };
    let mut rows = vec![tid(0), test, begin_if(1)];
    arm(rng, &mut rows);
    rows.push(ELSE);
    arm(rng, &mut rows);
    rows.push(ENDIF);
    if rng.one_in(3) {
        rows.push(BARRIER);
    }
    rows
}

fn arm(rng: &mut Rng, rows: &mut Vec<Row>) {
    // R2 is 0 here: all threads mean the same cell by it.
    let at = rng.pick(&[0, 2]);
    match rng.below(10) {
        0 => rows.push(BARRIER),
        1 | 2 => rows.push(store(at, 1)),
        3 | 4 => rows.push(load(3, at)),
        5 | 6 => rows.push(atomic_add(at, rng.pick(&[0, 1]))),
        7 => rows.extend([rng.pick(&[store, atomic_add])(at, 0), load(3, at)]),
        8 => rows.extend([begin_while(0), BARRIER, sub(0, 0, 0), ENDWHILE]),
        _ => {}
    }
}

/// All threads access one cell in some way, or each its own, or some do; then
/// so again.
fn two_accesses(rng: &mut Rng) -> Vec<Row> {
    let access = |rng: &mut Rng| {
        let (at, amount) = (rng.pick(&[0, 15, 15]), rng.pick(&[0, 1]));
        let added = atomic_add(at, amount);
        let row = rng.pick(&[load(3, at), store(at, 0), added]);
        by_all_or_some(rng, row)
    };
    let mut rows = vec![tid(0), set(1, 1)];
    rows.extend(access(rng));
    if rng.one_in(2) {
        rows.extend(maybe_barrier(rng));
    }
    rows.extend(access(rng));
    if rng.one_in(3) {
        rows.push(rng.pick(&[store(0, 3), atomic_add(15, 3)]));
    }
    rows
}

fn by_all_or_some(rng: &mut Rng, row: Row) -> Vec<Row> {
    match rng.below(4) {
        0 => vec![begin_if(0), row, ENDIF],
        1 => vec![begin_if(0), ELSE, row, ENDIF],
        _ => vec![row],
    }
}

/// A loop in which each thread comes to the barrier once, maybe not in the
/// same trip: at one row, with unequal loop counts.
fn turns(rng: &mut Rng) -> Vec<Row> {
    let test = if rng.one_in(2) {
        eq(3, 0, 2)
    } else {
        eq(3, 1, 2)
    };
    let trips = rng.range(1, 2);
    let mut rows = vec![tid(0), set(1, 1), set(2, trips), begin_while(2)];
    if rng.one_in(2) {
        rows.push(sub(2, 2, 1));
        rows.extend([test, begin_if(3), BARRIER, ENDIF, ENDWHILE]);
    } else {
        rows.extend([test, begin_if(3), BARRIER, ENDIF]);
        rows.extend([sub(2, 2, 1), ENDWHILE]);
    }
    rows
}

/// A barrier in two loops, whose trip counts are exchanged between threads or
/// the same for all.
fn two_loops(rng: &mut Rng) -> Vec<Row> {
    let number = if rng.percent(70) {
        tid(0)
    } else {
        set(0, rng.below(2))
    };
    vec![
        number,
        set(1, 1),
        add(3, 0, 1), // R0 + 1 trips inside
        sub(2, 1, 0),
        add(2, 2, 1), // 2 - R0 trips outside
        begin_while(2),
        add(4, 3, 15),
        begin_while(4),
        BARRIER,
        sub(4, 4, 1),
        ENDWHILE,
        sub(2, 2, 1),
        ENDWHILE,
    ]
}
