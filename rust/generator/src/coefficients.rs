//! Kernels that load coefficients from common cells (item 12): filters and
//! triggers with their usual mistakes, rows that mix own and common numbers,
//! numbers at the edges of both, and coefficients that are written.
//!
//! R0 is the thread's number in its group, R1 is 1, R2 the launch number and R3
//! 65,536, the first common cell's number; R15 stays 0.

use checker::COMMON_FROM;

use crate::asm::*;
use crate::groups::{many_groups, Shape};
use crate::plan::Plan;
use crate::rng::Rng;

/// Own and global cells together, at most.
const ROOM: u32 = 1_024;

/// A kernel over these common cells. All of them come to an end soon.
pub fn over_common(rng: &mut Rng, common: &[u32]) -> Plan {
    if common.is_empty() && rng.one_in(2) {
        return edge(rng, common);
    }
    match rng.below(46) {
        0..=4 => filter(rng, common),
        5..=9 => trigger(rng, common),
        10..=13 => by_number(rng, common),
        14..=19 => mixed(rng, common),
        20..=26 => edge(rng, common),
        27..=30 => written(rng, common),
        31..=34 => with_global(rng, common),
        35..=38 => at_equal_distances(rng, common),
        _ => beside_races(rng, common),
    }
}

/// One group, or about one time in three several of them, each with so many
/// cells; now and then with global cells.
fn shape(rng: &mut Rng, threads: u32, cells: u32) -> Shape {
    let groups = match rng.below(3) {
        0 => many_groups(rng).min(ROOM / cells).max(1),
        _ => 1,
    };
    let global = rng.pick(&[0, 0, 0, 2]).min(ROOM - groups * cells);
    Shape {
        threads,
        groups,
        cells,
        global,
    }
}

/// With these words at the start of each group's cells, any behind them, and a
/// limit that mostly is large enough.
fn plan(rng: &mut Rng, common: &[u32], shape: Shape, rows: Vec<Row>, words: &[u32]) -> Plan {
    let mut cells = vec![];
    for _ in 0..shape.groups {
        cells.extend(words);
        cells.extend((words.len()..shape.cells as usize).map(|_| rng.word()));
    }
    let plan = Plan {
        threads: shape.threads,
        groups: shape.groups,
        limit: rng.pick(&[30_000, 70_000, 1_000_000]),
        rows,
        cells,
        global: (0..shape.global).map(|_| rng.word()).collect(),
    };
    match rng.below(3) {
        0 => plan.with_limit_over(rng, common),
        _ => plan,
    }
}

/// The registers that all kernels here have. SET holds 16 bits, so R3 is worked
/// out.
fn start(rng: &mut Rng) -> Vec<Row> {
    let mut rows = vec![tid(0), set(1, 1), launch_number(2)];
    rows.extend(match rng.below(4) {
        0 => vec![set(3, 65_535), add(3, 3, 1)],
        1 => vec![set(3, 32_768), add(3, 3, 3)],
        2 => vec![set(3, 16), mul(3, 3, 3), mul(3, 3, 3)],
        _ => vec![set(3, 256), mul(3, 3, 3)],
    });
    rows
}

/// Rd = any word, by way of R14.
fn word(d: u8, word: u32) -> [Row; 4] {
    [
        set(d, word >> 16),
        mul(d, d, 3),
        set(14, word & 0xffff),
        add(d, d, 14),
    ]
}

/// The largest number of low bits, as a mask, that the common cells have all
/// words for. Without common cells it is the first one's, which isn't there.
fn low_bits(common: &[u32]) -> u32 {
    let bits = (common.len() as u32).checked_ilog2().unwrap_or(0);
    (1 << bits) - 1
}

/// Any of the common cells; without any, the first one's number all the same.
fn some_common(rng: &mut Rng, common: &[u32]) -> u32 {
    let count = common.len() as u32;
    let last = count.saturating_sub(1);
    COMMON_FROM
        + match rng.below(4) {
            0 => 0,
            1 => last,
            _ => rng.below(count),
        }
}

/// Rows by all threads, or in an arm or a loop by one of them or some.
fn by_some(rng: &mut Rng, threads: u32, rows: &[Row]) -> Vec<Row> {
    let which = rng.below(threads + 1);
    let chosen = match rng.below(8) {
        0..=2 => return rows.to_vec(),
        3 => [set(13, 1), and(13, 0, 13)],
        4 => [set(13, which), lt(13, 0, 13)],
        5 => [set(13, which), lt(13, 13, 0)],
        6 => [set(13, threads - 1), eq(13, 0, 13)],
        _ => [set(13, which), eq(13, 0, 13)],
    };
    match rng.below(4) {
        0 => [
            &chosen[..],
            &[begin_while(13)],
            rows,
            &[set(13, 0), ENDWHILE],
        ]
        .concat(),
        1 => [&chosen[..], &[begin_if(13), ELSE], rows, &[ENDIF]].concat(),
        _ => [&chosen[..], &[begin_if(13)], rows, &[ENDIF]].concat(),
    }
}

/// Each thread weighs its cell and those behind it with the coefficients, from
/// the first or from the last on, and stores the sum behind a barrier. Mistakes:
/// one coefficient too many, a number one too low, no barrier, a sum put in a
/// coefficient's place.
fn filter(rng: &mut Rng, common: &[u32]) -> Plan {
    let (threads, count) = (rng.threads(), common.len() as u32);
    let mistake = rng.below(16);
    let taps = match rng.below(12) {
        _ if mistake == 0 => count.min(40) + 1,
        0 => count,
        _ => rng.range(1, 6).min(count),
    };
    let mut rows = start(rng);
    if mistake == 0 {
        // So that it is the last one that is too many.
        rows.extend([set(5, count + 1 - taps), add(3, 3, 5), set(5, 0)]);
    }
    rows.extend([set(4, taps), lt(6, 15, 4), begin_while(6)]);
    rows.extend([add(7, 0, 5), load(8, 7)]);
    rows.extend(match rng.below(3) {
        0 => vec![sub(9, 4, 5), sub(9, 9, 1), add(9, 9, 3)],
        _ => vec![add(9, 3, 5)],
    });
    if mistake == 1 {
        rows.push(sub(9, 9, 1));
    }
    let weight = rng.pick(&[9, 10]);
    rows.extend([load(weight, 9), mul(8, 8, weight), add(11, 11, 8)]);
    rows.extend([add(5, 5, 1), lt(6, 5, 4), ENDWHILE]);
    if mistake != 2 {
        rows.push(BARRIER);
    }
    rows.push(match mistake {
        3 => store(3, 11),
        4 => atomic_add(3, 11),
        _ => store(0, 11),
    });
    let shape = shape(rng, threads, threads + taps);
    plan(rng, common, shape, rows, &[])
}

/// A threshold for each thread's word, looked up by its low bits; where the word
/// is above it, a flag is set or counted. Mistakes: a bit too many, thresholds
/// that are written back, a barrier in the arm.
fn trigger(rng: &mut Rng, common: &[u32]) -> Plan {
    let threads = rng.threads();
    let mut mask = low_bits(common);
    if rng.one_in(10) {
        mask = 2 * mask + 1;
    }
    let mut rows = start(rng);
    rows.extend([load(4, 0), set(5, mask), and(6, 4, 5), add(6, 6, 3)]);
    rows.extend([load(7, 6), lt(8, 7, 4), set(9, threads), begin_if(8)]);
    rows.extend(match rng.below(18) {
        0 | 1 => vec![store(6, 4)],
        2 => vec![atomic_add(6, 1)],
        3 => vec![BARRIER],
        4..=8 => vec![store(9, 1)],
        9..=11 => vec![load(7, 3), store(0, 7)],
        _ => vec![atomic_add(9, 1)],
    });
    match rng.below(6) {
        0 => rows.extend([ELSE, load(7, 3), store(0, 7)]),
        1 => rows.extend([ELSE, store(0, 15)]),
        2 => rows.extend([ELSE, load(6, 6)]),
        _ => {}
    }
    rows.push(ENDIF);
    if rng.one_in(2) {
        rows.extend([BARRIER, load(10, 9)]);
    }
    let shape = shape(rng, threads, threads + 1);
    plan(rng, common, shape, rows, &[])
}

/// Each thread has its own coefficient, by its number in the group or in the
/// launch, at some distance from the next one's; often it is itself a cell's
/// number. Mistakes: more threads than coefficients, one number too high.
fn by_number(rng: &mut Rng, common: &[u32]) -> Plan {
    let (threads, mask) = (rng.threads(), low_bits(common));
    let distance = rng.pick(&[1, 1, 1, 2, 3, 8, 16]);
    let shape = shape(rng, threads, threads + 4);
    let mut rows = start(rng);
    let number = rng.pick(&[0, 0, 2]);
    rows.extend([set(4, distance), mul(4, 4, number)]);
    if !rng.one_in(8) {
        rows.extend([set(5, mask), and(4, 4, 5)]);
    }
    if rng.one_in(12) {
        rows.push(add(4, 4, 1));
    }
    rows.extend([add(4, 4, 3), load(5, 4)]);
    let is_number = |&word: &u32| word < 4 || common.len() as u32 > word.wrapping_sub(COMMON_FROM);
    let chained = common.iter().all(is_number);
    if chained || rng.one_in(16) {
        let chain = rng.pick(&[load(5, 5), load(6, 5)]);
        rows.extend(vec![chain; rng.index(4)]);
        rows.push(BARRIER);
    }
    rows.push(store(0, 5));
    if rng.one_in(3) {
        rows.extend([BARRIER, load(6, 4), add(6, 6, 1), atomic_add(0, 6)]);
    }
    plan(rng, common, shape, rows, &[])
}

/// Rows in which some threads use own cells and others common ones. Mostly they
/// are loads.
fn mixed(rng: &mut Rng, common: &[u32]) -> Plan {
    let threads = rng.threads().max(2);
    let mut rows = start(rng);
    let (numbers, cells) = if rng.one_in(2) {
        rows.push(load(4, 0));
        mixed_numbers(rng, threads, common)
    } else {
        let distance = rng.pick(&[1, 1, 2, 8, 16, 31]);
        rows.extend(mixed_by_number(rng, threads, distance, common));
        (vec![], threads * distance)
    };
    let access = |rng: &mut Rng| match rng.below(40) {
        0 => store(4, 0),
        1 => store(4, 1),
        2 => atomic_add(4, 1),
        _ => load(6, 4),
    };
    for _ in 0..rng.range(1, 4) {
        let row = access(rng);
        rows.extend(match rng.below(6) {
            0 => by_some(rng, threads, &[row]),
            1 => {
                let trips = set(10, rng.range(1, 3));
                vec![trips, begin_while(10), row, sub(10, 10, 1), ENDWHILE]
            }
            2 => vec![row, BARRIER],
            _ => vec![row],
        });
    }
    if rng.one_in(3) {
        rows.push(load(4, 4));
    }
    rows.extend(match rng.below(8) {
        0 => vec![store(4, 1)],
        1 => vec![atomic_add(4, 0)],
        _ => vec![BARRIER, store(0, rng.pick(&[4, 6]))],
    });
    let shape = shape(rng, threads, cells);
    plan(rng, common, shape, rows, &numbers)
}

/// R4 = a number for each thread: its own cell, or for some threads the common
/// one at the same distance.
fn mixed_by_number(rng: &mut Rng, threads: u32, distance: u32, common: &[u32]) -> Vec<Row> {
    let mut rows = match rng.below(4) {
        0 => vec![set(4, threads / 2), lt(4, 0, 4)],
        1 => vec![set(4, rng.below(threads)), eq(4, 0, 4)],
        _ => vec![and(4, 0, 1)],
    };
    if rng.one_in(2) {
        rows.push(eq(4, 4, 15)); // the others
    }
    rows.extend([mul(4, 4, 3), set(5, distance), mul(5, 5, 0)]);
    if (threads - 1) * distance >= common.len() as u32 {
        rows.extend([set(6, low_bits(common)), and(5, 5, 6)]);
    }
    rows.push(add(4, 4, 5));
    rows
}

/// A number for each thread's cell, and how many cells there are.
fn mixed_numbers(rng: &mut Rng, threads: u32, common: &[u32]) -> (Vec<u32>, u32) {
    let cells = rng.pick(&[threads, threads + 16, 16 * threads, 32 * threads]);
    let share = rng.pick(&[1, 4, 7]); // of eight threads
    let by_half = rng.one_in(3);
    let numbers = (0..threads).map(|thread| {
        let own = if by_half {
            thread < threads / 2
        } else {
            rng.below(8) < share
        };
        match rng.below(3) {
            0 if own => thread,
            1 if own => rng.below(cells),
            _ if own => 16 * rng.below(cells.div_ceil(16)),
            0 => COMMON_FROM + (thread & low_bits(common)),
            1 => some_common(rng, common),
            _ => COMMON_FROM + ((16 * thread) & low_bits(common)),
        }
    });
    (numbers.collect(), cells)
}

/// A number at one of the edges, where so many own cells and common ones are.
fn edge_number(rng: &mut Rng, cells: u32, common: &[u32]) -> u32 {
    let past = COMMON_FROM + common.len() as u32;
    match rng.below(20) {
        0 | 1 => cells - 1,
        2 | 3 => cells,
        4 | 5 => COMMON_FROM - 1,
        6 | 7 => COMMON_FROM,
        8..=10 => past - 1,
        11..=13 => past,
        14 => rng.pick(&[past + 1, COMMON_FROM + 255, COMMON_FROM + 256]),
        15 => rng.pick(&[1_023, 1_024, 32_768, COMMON_FROM - cells]),
        // The low bits are an own cell's or a common one's.
        16 => (rng.range(1, 0xffff) << 16) | rng.below(cells),
        17 => (rng.pick(&[2, 3, 0x101, 0x8001, 0xffff]) << 16) + rng.below(common.len() as u32 + 1),
        18 => COMMON_FROM << rng.range(1, 15),
        _ => rng.pick(&[u32::MAX, 1 << 31, (1 << 24) + 1, past + 65_536]),
    }
}

/// Accesses at the edges, by all threads or by some, at one number or from it on.
fn edge(rng: &mut Rng, common: &[u32]) -> Plan {
    let threads = rng.threads();
    let cells = rng.pick(&[1, threads, threads, 16, 128, 255, 256, 1_024]);
    let shape = shape(rng, threads, cells);
    let mut rows = start(rng);
    for _ in 0..rng.range(1, 3) {
        rows.extend(word(4, edge_number(rng, cells, common)));
        match rng.below(6) {
            0 => rows.push(add(4, 4, 0)),
            1 => rows.push(sub(4, 4, 0)),
            _ => {}
        }
        let row = rng.pick(&[load(5, 4), load(4, 4), store(4, 1), atomic_add(4, 1)]);
        rows.extend(by_some(rng, threads, &[row]));
        if rng.one_in(3) {
            rows.push(BARRIER);
        }
    }
    if cells >= threads {
        rows.extend([BARRIER, store(0, 5)]);
    }
    plan(rng, common, shape, rows, &[])
}

/// Coefficients that are written, by one thread, by some or by all, in the
/// middle or at the end, in arms and loops, before or behind barriers; or not
/// quite.
fn written(rng: &mut Rng, common: &[u32]) -> Plan {
    let threads = rng.threads();
    let shape = shape(rng, threads, threads);
    let mut rows = start(rng);
    rows.extend([set(4, low_bits(common)), and(4, 0, 4), add(4, 4, 3)]);
    rows.extend([load(5, 4), store(0, 5)]);
    if rng.one_in(2) {
        rows.push(BARRIER);
    }
    let number = rng.pick(&[3, 4, 4, 6]);
    let at = match rng.below(4) {
        0 => COMMON_FROM + common.len() as u32,
        _ => some_common(rng, common),
    };
    rows.extend(word(6, at));
    let write = rng.pick(&[store(number, 5), store(number, 1), atomic_add(number, 1)]);
    rows.extend(match rng.below(5) {
        // In one trip of a loop.
        0 | 1 => {
            let (trips, trip) = (rng.range(1, 5), rng.below(6));
            let mut body = vec![set(10, trips), begin_while(10), set(11, trip)];
            body.extend([eq(11, 10, 11), begin_if(11)]);
            body.extend(by_some(rng, threads, &[write]));
            body.push(ENDIF);
            body.extend(vec![BARRIER; rng.index(2)]);
            body.extend([sub(10, 10, 1), ENDWHILE]);
            body
        }
        _ => by_some(rng, threads, &[write]),
    });
    match rng.below(4) {
        0 => rows.extend([BARRIER, load(7, 4), store(0, 7)]),
        1 => rows.extend([load(7, 0), add(7, 7, 5)]),
        2 => rows.push(BARRIER),
        _ => {}
    }
    plan(rng, common, shape, rows, &[])
}

/// Coefficients beside global cells. Mistakes: numbers of common cells for
/// global accesses, a coefficient that a later group writes.
fn with_global(rng: &mut Rng, common: &[u32]) -> Plan {
    let (threads, groups) = (rng.threads(), rng.range(1, 8));
    let shape = Shape {
        threads,
        groups,
        cells: threads,
        global: rng.pick(&[1, 3, groups * threads, groups * threads]),
    };
    let mut rows = start(rng);
    let number = rng.pick(&[0, 2]);
    rows.extend([set(4, low_bits(common)), and(4, number, 4), add(4, 4, 3)]);
    rows.push(load(5, 4));
    let like_common = rng.pick(&[global_load(6, 4), global_store(4, 1), global_add(4, 1)]);
    rows.extend(match rng.below(9) {
        0..=2 => by_some(rng, threads, &[like_common]),
        3 | 4 => {
            let launch_thread = rng.below(groups * threads);
            let by = [set(7, launch_thread), eq(7, 2, 7), begin_if(7)];
            let write = rng.pick(&[store(3, 1), atomic_add(4, 5), global_add(4, 5)]);
            [&by[..], &[write, ENDIF]].concat()
        }
        5 => vec![global_store(2, 5), BARRIER, global_load(6, 2)],
        _ => vec![global_add(15, 5)],
    });
    rows.push(store(0, 5));
    plan(rng, common, shape, rows, &[])
}

/// Own cells at some distance from each other, with bank conflicts, and just
/// before or behind them common cells at the same distances.
fn at_equal_distances(rng: &mut Rng, common: &[u32]) -> Plan {
    let most = (common.len() as u32).max(1) - 1;
    let distance = rng.pick(&[1, 2, 4, 8, 15, 16, 16]).min(most.max(1));
    let threads = (most / distance + 1).clamp(1, rng.range(2, 32));
    let offset = rng.pick(&[0, 0, 0, 16, 5]);
    let cells = (threads - 1) * distance + 1 + offset;
    let mut rows = start(rng);
    rows.extend([set(4, distance), mul(4, 4, 0), add(5, 4, 3)]);
    // Some of each: by parity, or own cells below.
    rows.extend(match rng.below(2) {
        0 => vec![and(7, 0, 1)],
        _ => vec![set(7, rng.below(threads)), lt(7, 7, 0)],
    });
    rows.extend([mul(7, 7, 3), add(7, 7, 4)]);
    rows.extend([set(8, offset), add(4, 4, 8)]);
    for _ in 0..rng.range(1, 4) {
        let (own, coefficients) = (load(6, 4), load(6, 5));
        let turn = match rng.below(8) {
            0 => vec![own, coefficients],
            1 => vec![coefficients, own],
            2 => vec![own, load(6, 7), own],
            3 => vec![own, coefficients, coefficients, own],
            4 => vec![atomic_add(4, 1), coefficients, BARRIER],
            5 => vec![BARRIER, store(4, 0), coefficients, BARRIER],
            6 => by_some(rng, threads, &[own, coefficients]),
            _ => {
                let trips = set(10, rng.range(1, 4));
                let first = [trips, begin_while(10), own, coefficients];
                [&first[..], &[sub(10, 10, 1), ENDWHILE]].concat()
            }
        };
        rows.extend(turn);
    }
    rows.extend(match rng.below(8) {
        0 => vec![BARRIER, store(7, 1)],
        1 => vec![BARRIER, atomic_add(7, 0)],
        2 => vec![load(6, 4), atomic_add(5, 1)],
        _ => vec![],
    });
    let shape = shape(rng, threads, cells);
    plan(rng, common, shape, rows, &[])
}

/// One row in which some threads use their own cells, some race, some are at
/// common cells and some outside, in any order.
fn beside_races(rng: &mut Rng, common: &[u32]) -> Plan {
    let threads = rng.threads().max(2);
    let mut numbers: Vec<u32> = (0..threads).collect();
    for _ in 0..rng.range(1, 5) {
        let at = rng.index(threads as usize);
        numbers[at] = match rng.below(9) {
            0..=3 => some_common(rng, common),
            4..=7 => rng.below(threads),
            _ => edge_number(rng, threads, common),
        };
    }
    let mut rows = start(rng);
    rows.push(load(4, 0));
    // A load races with what was stored or added before.
    let loads = rng.one_in(2);
    rows.extend(match rng.below(5) {
        0 => vec![store(0, 0)],
        1 => vec![BARRIER, atomic_add(0, 1)],
        2 if loads => vec![store(0, 1)],
        2 | 3 => vec![BARRIER],
        _ => vec![],
    });
    let row = match loads {
        true => rng.pick(&[load(5, 4), load(4, 4)]),
        false => rng.pick(&[store(4, 0), store(4, 1), atomic_add(4, 1)]),
    };
    rows.extend(by_some(rng, threads, &[row]));
    rows.push(add(6, 6, 1));
    let shape = shape(rng, threads, threads);
    plan(rng, common, shape, rows, &numbers)
}
