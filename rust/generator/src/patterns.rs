//! Kernels structured like real ones, each with its usual mistakes.
//!
//! R0 is the thread's number and R1 is 1 throughout; R15 stays 0.

use crate::asm::*;
use crate::plan::Plan;
use crate::rng::Rng;

const PATTERNS: [fn(&mut Rng) -> Plan; 49] = [
    reduction,
    scan,
    stencil,
    shared_histogram,
    ordered_histogram,
    private_histogram,
    added_histogram,
    added_histogram,
    common_counter,
    nested_loops,
    two_loops,
    two_loops,
    two_loops,
    uneven_trips,
    uneven_trips,
    uneven_trips,
    guarded_barrier,
    guarded_barrier,
    guarded_barrier,
    guarded_barrier,
    guarded_barrier,
    guarded_barrier,
    guarded_barrier,
    guarded_barrier,
    guarded_barrier,
    reaching_the_end,
    reaching_the_end,
    rotating_counters,
    one_after_the_other,
    one_after_the_other,
    one_after_the_other,
    one_after_the_other,
    one_after_the_other,
    one_after_the_other,
    one_after_the_other,
    one_after_the_other,
    one_after_the_other,
    one_after_the_other,
    one_after_the_other,
    one_after_the_other,
    one_after_the_other,
    one_after_the_other,
    one_after_the_other,
    one_after_the_other,
    one_after_many,
    one_after_many,
    one_after_many,
    one_after_many,
    one_after_many,
];

/// One of the patterns.
pub fn pattern(rng: &mut Rng) -> Plan {
    rng.pick(&PATTERNS)(rng)
}

fn words(rng: &mut Rng, count: u32) -> Vec<u32> {
    (0..count).map(|_| rng.word()).collect()
}

/// At least `least` cells, now and then as many as there may be.
fn cells(rng: &mut Rng, least: u32) -> Vec<u32> {
    let count = match rng.below(12) {
        0 => 1_024,
        1 => (least + 1).min(1_024),
        2 if least > 1 => least - 1, // the last address is outside
        3 => rng.range(least, 1_024),
        _ => least,
    };
    words(rng, count)
}

/// Often a power of two, as trees like it.
fn tree_threads(rng: &mut Rng) -> u32 {
    match rng.below(4) {
        0 => rng.threads(),
        _ => rng.pick(&[2, 4, 8, 16, 32]),
    }
}

/// A BARRIER, left out in about one of `times` kernels, or skipped by all.
fn barrier_unless(rng: &mut Rng, times: u32) -> Vec<Row> {
    if !rng.one_in(times) {
        vec![BARRIER]
    } else if rng.one_in(3) {
        SKIPPED.to_vec()
    } else {
        vec![]
    }
}

/// A BARRIER that nobody comes to.
pub const SKIPPED: [Row; 3] = [begin_if(15), BARRIER, ENDIF];

/// Mostly nothing, otherwise a BARRIER or a skipped one.
fn between(rng: &mut Rng) -> Vec<Row> {
    match rng.below(10) {
        0 | 1 => vec![BARRIER],
        2 => SKIPPED.to_vec(),
        _ => vec![],
    }
}

/// A sum over a tree: halves the stride until it is 0.
fn reduction(rng: &mut Rng) -> Plan {
    let threads = tree_threads(rng);
    let stride = threads.div_ceil(2);
    let mut rows = vec![
        tid(0),
        set(1, 1),
        set(2, stride),
        begin_while(2),
        lt(3, 0, 2),
        begin_if(3),
        add(4, 0, 2),
        load(5, 4),
        load(6, 0),
        add(6, 6, 5),
        store(0, 6),
    ];
    // A barrier inside the IF is a mistake of its own.
    if rng.one_in(8) {
        rows.extend([BARRIER, ENDIF]);
    } else {
        rows.push(ENDIF);
        rows.extend(barrier_unless(rng, 4));
    }
    rows.extend([shr(2, 2, 1), ENDWHILE]);
    let cells = cells(rng, threads);
    Plan::new(rng, threads, rows, cells)
}

/// A prefix sum: adds the cell at a doubling distance to the left.
fn scan(rng: &mut Rng) -> Plan {
    let threads = rng.threads();
    let mut rows = vec![
        tid(0),
        set(1, 1),
        count(2),
        set(3, 1),
        lt(9, 3, 2),
        begin_while(9),
        lt(4, 0, 3),
        eq(4, 4, 15),
        load(6, 0),
        begin_if(4),
        sub(5, 0, 3),
        load(7, 5),
        add(6, 6, 7),
        ENDIF,
    ];
    rows.extend(barrier_unless(rng, 6));
    rows.push(store(0, 6));
    rows.extend(barrier_unless(rng, 6));
    rows.extend([add(3, 3, 3), lt(9, 3, 2), ENDWHILE]);
    let cells = cells(rng, threads);
    Plan::new(rng, threads, rows, cells)
}

/// Each cell from itself and its right neighbour, from one buffer to the
/// other and back.
fn stencil(rng: &mut Rng) -> Plan {
    let threads = rng.threads();
    let rounds = rng.range(1, 6);
    let one_buffer = rng.one_in(6);
    let mut rows = vec![
        tid(0),
        set(1, 1),
        count(2),
        set(3, rounds),
        add(4, 0, 15), // from
        add(5, 0, if one_buffer { 15 } else { 2 }),
        add(10, 0, 1),
        eq(11, 10, 2), // the last thread has no right neighbour
        begin_while(3),
        load(6, 4),
        begin_if(11),
        add(7, 6, 15),
        ELSE,
        add(8, 4, 1),
        load(7, 8),
        ENDIF,
        add(6, 6, 7),
        store(5, 6),
    ];
    rows.extend(barrier_unless(rng, 5));
    rows.extend([
        add(9, 4, 15),
        add(4, 5, 15),
        add(5, 9, 15),
        sub(3, 3, 1),
        ENDWHILE,
    ]);
    let cells = cells(rng, 2 * threads);
    Plan::new(rng, threads, rows, cells)
}

/// All threads count into shared bins by loads and stores: races as soon as
/// two meet.
fn shared_histogram(rng: &mut Rng) -> Plan {
    let threads = rng.threads();
    let bins = 1 << rng.range(0, 5);
    let stride = rng.pick(&[0, 1, 1, 1, 3, 5]);
    let rows = vec![
        tid(0),
        set(1, 1),
        set(2, stride),
        set(3, bins - 1),
        mul(4, 0, 2),
        and(4, 4, 3),
        load(5, 4),
        add(5, 5, 1),
        store(4, 5),
    ];
    let cells = cells(rng, bins);
    Plan::new(rng, threads, rows, cells)
}

/// The threads take turns, with a barrier after each turn.
fn ordered_histogram(rng: &mut Rng) -> Plan {
    let threads = rng.threads();
    let bins = 1 << rng.range(0, 3);
    let mut rows = vec![
        tid(0),
        set(1, 1),
        count(2),
        set(3, bins - 1),
        and(4, 0, 3),
        begin_while(2),
        sub(2, 2, 1),
        eq(6, 0, 2),
        begin_if(6),
        load(5, 4),
        add(5, 5, 1),
        store(4, 5),
        ENDIF,
    ];
    rows.extend(barrier_unless(rng, 5));
    rows.push(ENDWHILE);
    let cells = cells(rng, bins);
    Plan::new(rng, threads, rows, cells)
}

/// Bins of its own for each thread, summed up by thread 0.
fn private_histogram(rng: &mut Rng) -> Plan {
    let threads = rng.threads();
    let mut rows = vec![tid(0), set(1, 1), load(5, 0), add(5, 5, 1), store(0, 5)];
    rows.extend(barrier_unless(rng, 4));
    rows.extend([
        eq(2, 0, 15),
        begin_if(2),
        count(3),
        begin_while(3),
        sub(3, 3, 1),
        load(5, 3),
        add(6, 6, 5),
        ENDWHILE,
        store(15, 6),
        ENDIF,
    ]);
    let cells = cells(rng, threads);
    Plan::new(rng, threads, rows, cells)
}

/// Bins behind the data, emptied, added to and summed up; or with one of the
/// mistakes that are made with them.
fn added_histogram(rng: &mut Rng) -> Plan {
    let threads = rng.threads();
    let bins = 1 << rng.range(0, 4);
    let mut rows = vec![
        tid(0),
        set(1, 1),
        count(2), // the first bin
        set(3, bins - 1),
        load(5, 0),
        and(4, 5, 3),
        add(4, 4, 2), // this thread's bin
    ];
    if rng.one_in(3) {
        rows.extend(empty_bins(bins));
        rows.extend(barrier_unless(rng, 4));
    }
    rows.extend(add_to_bins(rng));
    rows.extend(barrier_unless(rng, 4));
    rows.extend(sum_of_bins(rng, bins));
    let cells = cells(rng, threads + bins);
    Plan::new(rng, threads, rows, cells)
}

/// Each thread adds to the bin numbered R4, or those with R5 true do.
fn add_to_bins(rng: &mut Rng) -> Vec<Row> {
    let added = atomic_add(4, rng.pick(&[1, 1, 0, 5]));
    match rng.below(12) {
        // Mistakes: the bin is loaded on this side of the barrier, stored over,
        // or emptied by a thread meanwhile; the barrier is for some only.
        0 => vec![load(6, 4), added],
        1 => vec![added, load(6, 4)],
        2 => vec![added, store(4, 1)],
        3 => vec![added, eq(7, 0, 15), begin_if(7), store(2, 15), ENDIF],
        4 => vec![begin_if(5), added, BARRIER, ENDIF],
        5 | 6 => vec![begin_if(5), added, ENDIF],
        _ => vec![added; rng.range(1, 3) as usize],
    }
}

/// The first threads store 0 to the bins from R2 on, one each.
fn empty_bins(bins: u32) -> Vec<Row> {
    vec![
        set(7, bins),
        lt(7, 0, 7),
        begin_if(7),
        add(8, 0, 2),
        store(8, 15),
        ENDIF,
    ]
}

/// All threads or one of them load all bins from R2 on; each puts the sum in
/// its own cell, or adds it there.
fn sum_of_bins(rng: &mut Rng, bins: u32) -> Vec<Row> {
    let put = rng.pick(&[store(0, 9), store(0, 9), atomic_add(0, 9)]);
    let sum = [
        set(10, bins),
        begin_while(10),
        sub(10, 10, 1),
        add(11, 10, 2),
        load(12, 11),
        add(9, 9, 12),
        ENDWHILE,
        put,
    ];
    if rng.one_in(2) {
        return sum.to_vec();
    }
    let (mine, end) = ([eq(7, 0, 15), begin_if(7)], [ENDIF]);
    [&mine[..], &sum, &end].concat()
}

/// One cell that all threads add to, some of them more often; then all load
/// it, or one of them stores it, mostly behind a barrier.
fn common_counter(rng: &mut Rng) -> Plan {
    let threads = tree_threads(rng);
    let at = rng.pick(&[0, 0, 1, threads, 1_023]);
    let trips = match rng.below(3) {
        0 => set(3, rng.below(4)),
        1 => set(3, 1),
        _ => add(3, 0, 1),
    };
    let mut rows = vec![tid(0), set(1, 1), set(2, at), trips, begin_while(3)];
    rows.push(atomic_add(2, rng.pick(&[0, 1, 1, 3])));
    match rng.below(8) {
        0 | 1 => rows.push(BARRIER),
        2 => rows.push(load(4, 2)), // as if the add had given it a number
        _ => {}
    }
    rows.extend([sub(3, 3, 1), ENDWHILE]);
    rows.extend(barrier_unless(rng, 3));
    rows.extend(match rng.below(4) {
        0 => vec![eq(5, 0, 15), begin_if(5), store(2, 15), ENDIF],
        1 => vec![load(4, 2), BARRIER, atomic_add(2, 4)],
        2 => vec![atomic_add(2, 15), load(4, 2)],
        _ => vec![load(4, 2)],
    });
    let cells = cells(rng, at + 1);
    Plan::new(rng, threads, rows, cells)
}

/// Loops in loops, a barrier in the inner one, the outer one or both.
fn nested_loops(rng: &mut Rng) -> Plan {
    let threads = rng.threads();
    let (outer, inner) = (rng.below(6), rng.below(6));
    let mut rows = vec![
        tid(0),
        set(1, 1),
        set(2, outer),
        begin_while(2),
        set(3, inner),
        begin_while(3),
        load(4, 0),
        add(4, 4, 3),
        store(0, 4),
    ];
    rows.extend(barrier_unless(rng, 3));
    rows.extend([sub(3, 3, 1), ENDWHILE]);
    rows.extend(barrier_unless(rng, 2));
    rows.extend([sub(2, 2, 1), ENDWHILE]);
    let cells = cells(rng, threads);
    Plan::new(rng, threads, rows, cells)
}

/// A barrier in two loops whose trip counts are exchanged between threads:
/// all go there equally often, with unequal loop counts.
fn two_loops(rng: &mut Rng) -> Plan {
    let threads = rng.threads();
    let (x, y) = (rng.range(1, 5), rng.range(1, 5));
    let rows = vec![
        tid(0),
        set(1, 1),
        and(5, 0, if rng.one_in(6) { 15 } else { 1 }),
        begin_if(5),
        set(2, x),
        set(3, y),
        ELSE,
        set(2, y),
        set(3, x),
        ENDIF,
        begin_while(2),
        add(4, 3, 15),
        begin_while(4),
        BARRIER,
        sub(4, 4, 1),
        ENDWHILE,
        sub(2, 2, 1),
        ENDWHILE,
    ];
    let cells = cells(rng, 1);
    Plan::new(rng, threads, rows, cells)
}

/// A loop as long as the thread's number, with or without a barrier in it.
fn uneven_trips(rng: &mut Rng) -> Plan {
    let threads = rng.threads();
    let mut rows = vec![
        tid(0),
        set(1, 1),
        add(2, 0, rng.pick(&[1, 15])),
        begin_while(2),
        load(4, 0),
        add(4, 4, 2),
        store(0, 4),
    ];
    if rng.one_in(2) {
        rows.push(BARRIER);
    }
    rows.extend([sub(2, 2, 1), ENDWHILE, BARRIER, load(5, 15)]);
    let cells = cells(rng, threads);
    Plan::new(rng, threads, rows, cells)
}

/// Threads from some number on skip the work, and the barrier with it.
fn guarded_barrier(rng: &mut Rng) -> Plan {
    let threads = rng.threads();
    let busy = rng.pick(&[0, 1, threads / 2, threads - 1, threads]);
    let mut rows = vec![
        tid(0),
        set(1, 1),
        set(2, busy),
        lt(3, 0, 2),
        begin_if(3),
        store(0, 0),
        BARRIER,
        load(4, 15),
    ];
    if rng.one_in(2) {
        rows.extend([ELSE, BARRIER]);
    }
    rows.push(ENDIF);
    let cells = cells(rng, threads);
    Plan::new(rng, threads, rows, cells)
}

/// The last thread's address is the last cell, or the one behind it.
fn reaching_the_end(rng: &mut Rng) -> Plan {
    let threads = rng.threads();
    let spare = rng.pick(&[0, 0, 1, 3, 100, 1_024 - threads]);
    let behind = rng.pick(&[0, 0, 1, 2]);
    let mut rows = vec![tid(0), set(1, 1), set(2, spare + behind), add(3, 0, 2)];
    if rng.one_in(4) {
        rows.extend([sub(4, 15, 3), sub(3, 15, 4)]); // the same by way of below 0
    }
    rows.push(rng.pick(&[load(5, 3), store(3, 0), atomic_add(3, 0)]));
    if rng.one_in(3) {
        // Cell number 2^32 - 1.
        let far = rng.pick(&[load(5, 3), atomic_add(3, 15)]);
        rows.extend([sub(3, 15, 1), far]);
    }
    let cells = words(rng, threads + spare);
    Plan::new(rng, threads, rows, cells)
}

/// Each thread stores one cell further in each interval, around a ring.
fn rotating_counters(rng: &mut Rng) -> Plan {
    let threads = tree_threads(rng).next_power_of_two();
    let mut rows = vec![
        tid(0),
        set(1, 1),
        count(2),
        sub(3, 2, 1),
        add(4, 0, 15),
        begin_while(2),
        load(5, 4),
        add(5, 5, 0),
        store(4, 5),
    ];
    rows.extend(barrier_unless(rng, 4));
    rows.extend([add(4, 4, 1), and(4, 4, 3), sub(2, 2, 1), ENDWHILE]);
    let cells = cells(rng, threads);
    Plan::new(rng, threads, rows, cells)
}

/// One thread loads a cell, stores it, adds to it or several of these; then
/// another does, or all the others do, mostly without a barrier between. All
/// store the thread's number or, in half of the launches, the same.
fn one_after_the_other(rng: &mut Rng) -> Plan {
    let threads = match rng.below(2) {
        0 => 32,
        _ => rng.threads().max(2),
    };
    // Often the first or the last thread, the mask's edges.
    let (any, last) = (rng.below(threads), threads - 1);
    let (first, second) = rng.pick(&[(0, last), (last, 0), (any, last), (last, any)]);
    let at = rng.pick(&[0, 0, 1, 6]);
    let value = rng.pick(&[0, 1]);
    let mut rows = vec![
        tid(0),
        count(1),
        set(2, first),
        set(3, second),
        set(5, at),
        eq(6, 0, 2),
        begin_if(6),
    ];
    rows.extend(accesses(rng, value));
    rows.push(ENDIF);
    rows.extend(between(rng));
    if !rng.one_in(3) {
        rows.extend([eq(7, 0, 3), begin_if(7)]);
    } else {
        rows.extend([eq(7, 6, 15), begin_if(7)]);
    }
    rows.extend(accesses(rng, value));
    rows.push(ENDIF);
    let cells = cells(rng, at + 1);
    Plan::new(rng, threads, rows, cells)
}

/// The cell numbered R5 loaded, stored or added to, or any two of these, or
/// all three, in any order. The register of the value to be stored is given.
fn accesses(rng: &mut Rng, value: u8) -> Vec<Row> {
    let kinds = [load(4, 5), store(5, value), atomic_add(5, 1)];
    // Two or three at once come up more often.
    let set = rng.pick(&[1, 2, 3, 4, 5, 5, 6, 6, 7, 7]);
    let mut rows: Vec<Row> = (0..3)
        .filter(|kind| set >> kind & 1 == 1)
        .map(|kind| kinds[kind])
        .collect();
    let turn = rng.index(rows.len());
    rows.rotate_left(turn);
    if rng.one_in(2) {
        rows.reverse();
    }
    rows
}

/// All threads load a cell, add to it or store the same there, or those below
/// some number, or the others; then one of all threads loads it, stores it or
/// adds to it.
fn one_after_many(rng: &mut Rng) -> Plan {
    let threads = match rng.below(2) {
        0 => 32,
        _ => rng.threads().max(2),
    };
    let from = rng.below(threads);
    let last = rng.pick(&[0, from, threads - 1]);
    let mut rows = vec![tid(0), count(1), set(2, from), set(3, last)];
    let many = rng.pick(&[load(4, 5), atomic_add(5, 1), store(5, 1)]);
    match rng.below(3) {
        0 => rows.push(many),
        1 => rows.extend([lt(6, 0, 2), begin_if(6), tid(7), ELSE, many, ENDIF]),
        _ => rows.extend([lt(6, 0, 2), begin_if(6), many, ENDIF]),
    }
    rows.extend(between(rng));
    rows.extend([eq(7, 0, 3), begin_if(7)]);
    rows.push(rng.pick(&[load(4, 5), store(5, 0), store(5, 1), atomic_add(5, 1)]));
    rows.push(ENDIF);
    let cells = cells(rng, 1);
    Plan::new(rng, threads, rows, cells)
}
