//! Small launches for the explorer in which stores meet: equal ones, unequal
//! ones, several of one thread, and loads and adds beside them.
//!
//! R0 is the thread's number, R1 is 1, R4 another value. R15 stays 0 and means
//! cell 0, which is the flag.

use crate::asm::*;
use crate::rng::Rng;

/// Rows, and the words of the cells behind the flag.
pub fn stores(rng: &mut Rng) -> (Vec<Row>, Vec<u32>) {
    match rng.below(10) {
        0..=3 => turns(rng),
        4 | 5 => by_one_row(rng),
        6 => trips(rng),
        _ => alone_then_others(rng),
    }
}

/// Two or three turns by all threads or by some, with or without a barrier
/// between them.
fn turns(rng: &mut Rng) -> (Vec<Row>, Vec<u32>) {
    let mut rows = vec![tid(0), set(1, 1), set(4, rng.pick(&[0, 2, 2, 257]))];
    let free = rng.one_in(2);
    let value = rng.pick(&[1, 1, 4, 15]);
    for turn in 0..rng.range(2, 3) {
        if turn > 0 {
            match rng.below(8) {
                0 | 1 => rows.push(BARRIER),
                2 => rows.extend([begin_if(15), BARRIER, ENDIF]),
                _ => {}
            }
        }
        let number = rng.pick(&[1, 1, 1, 2]);
        let access = |rng: &mut Rng| match rng.below(8) {
            0..=3 => store(15, value),
            4 => store(15, rng.pick(&[0, 1, 4])),
            5 | 6 => load(3, 15),
            _ => atomic_add(15, rng.pick(&[1, 15])),
        };
        let put = store(15, value);
        let accesses: Vec<Row> = (0..number)
            .map(|_| if free { access(rng) } else { put })
            .collect();
        rows.extend(by_all_or_some(rng, accesses));
    }
    (rows, vec![])
}

fn by_all_or_some(rng: &mut Rng, rows: Vec<Row>) -> Vec<Row> {
    match rng.below(5) {
        0 | 1 => [vec![begin_if(0)], rows, vec![ENDIF]].concat(),
        2 | 3 => [vec![begin_if(0), ELSE], rows, vec![ENDIF]].concat(),
        _ => rows,
    }
}

/// Thread 0 stores two values by itself, or adds to what it has stored; then
/// the others store one of them, or all do, with or without a barrier between.
fn alone_then_others(rng: &mut Rng) -> (Vec<Row>, Vec<u32>) {
    let mut rows = vec![tid(0), set(1, 1), set(4, rng.pick(&[0, 2, 2, 257]))];
    let (one, other) = rng.pick(&[(1, 4), (4, 1), (1, 15)]);
    let mut alone = vec![store(15, one)];
    alone.extend(match rng.below(6) {
        0 => vec![store(15, other), store(15, one)],
        1 => vec![atomic_add(15, 1)],
        2 => vec![load(3, 15)],
        _ => vec![store(15, other)],
    });
    rows.extend([vec![begin_if(0), ELSE], alone, vec![ENDIF]].concat());
    if rng.one_in(2) {
        rows.push(BARRIER);
    }
    let put = store(15, rng.pick(&[one, other]));
    rows.extend(if rng.one_in(2) {
        vec![begin_if(0), put, ENDIF]
    } else {
        vec![put]
    });
    (rows, vec![])
}

/// Each thread stores the word of its own cell to the flag. The words are
/// equal, or differ in one bit.
fn by_one_row(rng: &mut Rng) -> (Vec<Row>, Vec<u32>) {
    let word = rng.pick(&[0, 1, 1, 1 << 31, 65_536]);
    let bit = rng.pick(&[0, 8, 16, 31, 31]);
    let words = (0..3)
        .map(|_| if rng.one_in(4) { word ^ 1 << bit } else { word })
        .collect();
    // The flag is the cell before those of the threads.
    let mut rows = vec![tid(0), set(1, 1), add(3, 0, 1), load(4, 3), store(15, 4)];
    rows.extend(match rng.below(5) {
        0 => vec![BARRIER, load(3, 15)],
        1 => vec![load(3, 15)],
        2 => vec![store(15, 4)],
        3 => vec![begin_if(4), store(15, 1), ENDIF],
        _ => vec![],
    });
    (rows, words)
}

/// A flag set in each trip of a loop, to one value or to what counts the trips.
fn trips(rng: &mut Rng) -> (Vec<Row>, Vec<u32>) {
    let even = rng.one_in(2);
    let start = if even {
        set(2, rng.range(1, 2))
    } else {
        add(2, 0, rng.pick(&[1, 15]))
    };
    let value = rng.pick(&[1, 1, 2]);
    let mut rows = vec![tid(0), set(1, 1), start, begin_while(2), store(15, value)];
    if even && rng.one_in(2) {
        rows.push(BARRIER);
    }
    // Some loops lack their end.
    if !rng.one_in(4) {
        rows.push(sub(2, 2, 1));
    }
    rows.push(ENDWHILE);
    rows.extend(match rng.below(4) {
        0 => vec![store(15, 1)],
        1 => vec![BARRIER, load(3, 15)],
        _ => vec![],
    });
    (rows, vec![])
}
