//! Kernels over words at the edges: shifts, comparisons, truth values, sums in
//! cells and addresses. Each thread has words of its own, so that one launch
//! tries many.

use crate::asm::*;
use crate::plan::Plan;
use crate::rng::Rng;
use crate::shifts::{deciding_shifts, shifts};

const KERNELS: [fn(&mut Rng) -> Plan; 18] = [
    shifts,
    shifts,
    shifts,
    shifts,
    deciding_shifts,
    deciding_shifts,
    deciding_shifts,
    deciding_shifts,
    comparisons,
    truths,
    truths,
    truths,
    sums,
    addresses,
    addresses,
    addresses,
    addresses,
    addresses,
];

/// One of the kernels.
pub fn words(rng: &mut Rng) -> Plan {
    rng.pick(&KERNELS)(rng)
}

/// Words that are true, though not by their lowest bits or as signed ones.
const TRUE: [u32; 10] = [
    1 << 31, // twice
    1,
    2,
    256,
    1 << 16,
    1 << 24,
    (1 << 31) - 1,
    1 << 31,
    (1 << 31) + 1,
    u32::MAX,
];

/// A word, and one that is equal, close, or as far off as can be.
fn pair(rng: &mut Rng) -> [u32; 2] {
    let x = rng.word();
    let y = match rng.below(8) {
        0 => x,
        1 => x.wrapping_add(1),
        2 => x ^ 1 << 31,
        3 => x ^ 1 << rng.below(32),
        4 => x.wrapping_add(1 << 31).wrapping_sub(1),
        5 => !x,
        _ => rng.edge(),
    };
    if rng.one_in(2) {
        [x, y]
    } else {
        [y, x]
    }
}

/// EQ, LT and SLT of two words of each thread.
fn comparisons(rng: &mut Rng) -> Plan {
    let threads = rng.threads();
    let rows = vec![
        tid(0),
        count(1),
        add(4, 0, 1),
        add(8, 4, 1),
        load(2, 0),
        load(3, 4),
        eq(5, 2, 3),
        lt(6, 2, 3),
        [14, 7, 2, 3],
        store(0, 5),
        store(4, 6),
        store(8, 7),
    ];
    let pairs: Vec<[u32; 2]> = (0..threads).map(|_| pair(rng)).collect();
    let mut cells: Vec<u32> = pairs.iter().map(|pair| pair[0]).collect();
    cells.extend(pairs.iter().map(|pair| pair[1]));
    cells.extend((0..threads).map(|_| rng.word()));
    Plan::new(rng, threads, rows, cells)
}

/// IF and WHILE on a word of each thread, by all threads or by some.
fn truths(rng: &mut Rng) -> Plan {
    let threads = rng.threads();
    let tests = [
        begin_if(2),
        add(5, 5, 1),
        ELSE,
        sub(5, 5, 1),
        ENDIF,
        begin_while(2),
        add(5, 5, 5),
        sub(2, 2, 2),
        ENDWHILE,
    ];
    let mut rows = vec![tid(0), set(1, rng.range(1, 3)), set(5, 3), load(2, 0)];
    if rng.one_in(3) {
        rows.extend(tests);
    } else {
        rows.extend([and(3, 0, 1), begin_if(3)]);
        rows.extend(tests);
        rows.push(ENDIF);
    }
    rows.push(store(0, 5));
    let truth = |rng: &mut Rng| match rng.below(4) {
        0 => 0,
        _ => rng.pick(&TRUE),
    };
    let cells = (0..threads).map(|_| truth(rng)).collect();
    Plan::new(rng, threads, rows, cells)
}

/// A word of each thread added to a cell of its own and to one cell of all, by
/// all threads or by some; both often wrap.
fn sums(rng: &mut Rng) -> Plan {
    let threads = if rng.one_in(3) { 32 } else { rng.threads() };
    let both = [atomic_add(4, 2), atomic_add(5, 2)];
    let mut rows = vec![
        tid(0),
        count(1),
        add(4, 0, 1), // a cell of its own
        add(5, 1, 1), // the cell of all
        load(2, 0),
    ];
    if rng.one_in(3) {
        rows.extend([set(3, 1), and(3, 0, 3), begin_if(3)]);
        rows.extend(both);
        rows.push(ENDIF);
    } else {
        rows.extend(both);
    }
    // Words that are far more than a cell's number, or less than 0.
    let word = |rng: &mut Rng| match rng.below(3) {
        0 => rng.word(),
        1 => u32::MAX - rng.below(4),
        _ => (1 << 31) + rng.below(4),
    };
    let cells = (0..2 * threads + 1).map(|_| word(rng)).collect();
    Plan::new(rng, threads, rows, cells)
}

/// LOAD, STORE or ATOMIC ADD at an address that stands in the thread's own
/// cell: mostly its own number, otherwise the last cell, the one behind it, or
/// a number whose low bits are a cell's.
fn addresses(rng: &mut Rng) -> Plan {
    let threads = rng.threads();
    let count = match rng.below(4) {
        0 => rng.pick(&[1_023, 1_024]),
        1 => threads,
        _ => threads + rng.below(8),
    };
    let mut rows = vec![tid(0), load(2, 0), BARRIER];
    rows.push(rng.pick(&[load(3, 2), store(2, 0), atomic_add(2, 0)]));
    rows.extend([add(3, 3, 0), store(0, 3)]);
    let mut cells: Vec<u32> = (0..count).map(|_| rng.word()).collect();
    for (thread, cell) in (0..threads).zip(&mut cells) {
        *cell = thread;
    }
    let odd = rng.index(threads as usize);
    let inside = if rng.one_in(2) {
        odd as u32
    } else {
        rng.below(count)
    };
    cells[odd] = match rng.below(8) {
        0 => count + rng.pick(&[0, 0, 1]),
        1 => rng.pick(&[1_023, 1_024, u32::MAX]),
        2 => (1 << 16) + inside,
        3 | 5 => (1 << 31) + inside,
        4 => rng.pick(&[1 << 8, 1 << 10, 1 << 24, 1 << 30]) + inside,
        _ => count - 1,
    };
    Plan::new(rng, threads, rows, cells)
}
