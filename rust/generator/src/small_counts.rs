//! Small launches for the explorer in which each thread makes a number of
//! moves of its own. Nearly all of them pass: no cell is used but by adds.

use crate::asm::*;
use crate::rng::Rng;

/// R0 is the thread's number, R1 is 1, R15 is 0.
pub fn uneven(rng: &mut Rng) -> Vec<Row> {
    let mut rows = vec![tid(0), set(1, 1)];
    for _ in 0..rng.range(1, 2) {
        match rng.below(5) {
            0 | 1 => arms(rng, &mut rows),
            2 | 3 => trips(rng, &mut rows),
            _ => trips_in_an_arm(rng, &mut rows),
        }
        if rng.one_in(3) {
            rows.push(BARRIER);
        }
    }
    rows
}

/// Up to three rows that all threads may do at once.
fn work(rng: &mut Rng, rows: &mut Vec<Row>) {
    for _ in 0..rng.below(4) {
        rows.push(rng.pick(&[add(5, 5, 1), tid(5), atomic_add(15, 0)]));
    }
}

/// Arms of unequal length, for one thread and the others.
fn arms(rng: &mut Rng, rows: &mut Vec<Row>) {
    let one = set(2, rng.below(3));
    let test = rng.pick(&[eq(2, 0, 2), lt(2, 0, 2), lt(2, 2, 0)]);
    rows.extend([one, test, begin_if(2)]);
    work(rng, rows);
    if rng.one_in(2) {
        rows.push(ELSE);
        work(rng, rows);
    }
    rows.push(ENDIF);
}

/// As many trips as the thread's number says, or one more, or fewer the higher
/// the thread.
fn trips(rng: &mut Rng, rows: &mut Vec<Row>) {
    match rng.below(3) {
        0 => rows.push(tid(3)),
        1 => rows.push(add(3, 0, 1)),
        _ => rows.extend([count(3), sub(3, 3, 0)]),
    }
    rows.push(begin_while(3));
    if rng.one_in(2) {
        rows.push(add(5, 5, 1));
    }
    rows.extend([sub(3, 3, 1), ENDWHILE]);
}

/// A loop that all threads but the first go into, or the first alone.
fn trips_in_an_arm(rng: &mut Rng, rows: &mut Vec<Row>) {
    let otherwise = rng.one_in(2);
    rows.push(begin_if(0));
    if otherwise {
        rows.push(ELSE);
    }
    trips(rng, rows);
    rows.push(ENDIF);
}
