//! Stores that meet: flags that many threads set to one value, and what goes
//! wrong with them. Another value, also one that differs in a bit far up; a
//! thread that stores several values by itself; one that reads the flag or adds
//! to it; a barrier that is missing.
//!
//! R0 is the thread's number, R1 is 1 and R5 the flag's cell; R10 to R12 are
//! the values, of which the first is the one that is mostly stored. R15 stays 0.

use crate::asm::*;
use crate::patterns::SKIPPED;
use crate::plan::Plan;
use crate::rng::Rng;

/// The registers of the values.
const VALUES: [u8; 3] = [10, 11, 12];

const KERNELS: [fn(&mut Rng) -> Plan; 25] = [
    flags,
    flags,
    flags,
    flags,
    flags,
    one_after_the_other,
    one_after_the_other,
    one_after_the_other,
    one_besides,
    one_besides,
    one_among_many,
    one_among_many,
    one_among_many,
    one_among_many,
    one_among_many,
    alone_then_others,
    alone_then_others,
    alone_then_others,
    alone_then_others,
    by_one_row,
    by_one_row,
    by_one_row,
    search,
    trips,
    arms,
];

/// One of the kernels.
pub fn stores(rng: &mut Rng) -> Plan {
    rng.pick(&KERNELS)(rng)
}

fn threads(rng: &mut Rng) -> u32 {
    match rng.below(3) {
        0 => rng.range(2, 4),
        _ => rng.threads().max(2),
    }
}

/// What a flag is set to: often 1, now and then 0.
fn value(rng: &mut Rng) -> u32 {
    match rng.below(8) {
        0..=2 => 1,
        3 => 0,
        4 => rng.edge(),
        _ => rng.word(),
    }
}

/// Another value: one that has the same low bits, or differs in one bit, or is
/// 0, or any.
fn other_value(rng: &mut Rng, value: u32) -> u32 {
    match rng.below(10) {
        0 => value.wrapping_add(1 << 8),
        1 => value.wrapping_add(1 << 16),
        2 | 3 | 8 => value ^ 1 << 31,
        4 => value ^ 1 << rng.below(32),
        5 => value ^ rng.pick(&[1 << 15, 1 << 16, 1 << 24, 1 << 30]),
        6 if value != 0 => 0,
        7 => rng.word(),
        _ => value.wrapping_add(1),
    }
}

/// What the turns of a launch have in common.
struct Flag {
    threads: u32,
    at: u32,
    values: [u32; 3],
    /// Cells may be added to.
    adds: bool,
}

impl Flag {
    fn new(rng: &mut Rng) -> Self {
        let first = value(rng);
        let second = other_value(rng, first);
        let third = rng.pick(&[first, second, second.wrapping_add(1), 0]);
        Self {
            threads: threads(rng),
            at: rng.pick(&[0, 0, 0, 1, 6, 31, 255, 256, 1_000]),
            values: [first, second, third],
            adds: rng.one_in(2),
        }
    }

    /// Sets the registers. Where a value has more than 16 bits, all are loaded
    /// from the cells behind the flag.
    fn head(&self, rng: &mut Rng) -> Vec<Row> {
        let mut rows = vec![tid(0), set(1, 1), set(5, self.at)];
        let small = self.values.iter().all(|&value| value < 1 << 16);
        for (place, (&value, register)) in self.values.iter().zip(VALUES).enumerate() {
            if small {
                rows.push(set(register, value));
            } else {
                let from = self.at + 1 + place as u32;
                rows.extend([set(6, from), load(register, 6)]);
            }
        }
        if small && rng.one_in(3) {
            rows.push(BARRIER);
        }
        rows
    }

    /// Cells up to the flag, which mostly holds another word, and the values.
    fn cells(&self, rng: &mut Rng) -> Vec<u32> {
        let mut cells: Vec<u32> = (0..self.at).map(|_| rng.below(4)).collect();
        let word = rng.word();
        cells.push(rng.pick(&[0, word, self.values[0], self.values[0]]));
        cells.extend(self.values);
        if rng.one_in(4) {
            let count = rng.range(cells.len() as u32, 1_024);
            cells.resize_with(count as usize, || rng.word());
        }
        cells
    }

    fn plan(&self, rng: &mut Rng, body: Vec<Row>) -> Plan {
        let rows = [self.head(rng), body].concat();
        let cells = self.cells(rng);
        Plan::new(rng, self.threads, rows, cells)
    }

    /// A thread, often the first or the last.
    fn thread(&self, rng: &mut Rng) -> u32 {
        let any = rng.below(self.threads);
        rng.pick(&[0, 1, any, any, self.threads - 1])
    }

    /// An add of 1 or of nothing, or a load where there are no adds.
    fn add_or_load(&self, rng: &mut Rng) -> Row {
        if self.adds {
            atomic_add(5, rng.pick(&[1, 15]))
        } else {
            load(4, 5)
        }
    }

    fn any_access(&self, rng: &mut Rng) -> Row {
        match rng.below(8) {
            0..=2 => store(5, 10),
            3 | 4 => store(5, rng.pick(&[11, 11, 12])),
            5 | 6 => load(4, 5),
            _ => self.add_or_load(rng),
        }
    }

    /// Rows for one thread, in an IF or behind an ELSE.
    fn by_one(&self, rng: &mut Rng, thread: u32, rows: Vec<Row>) -> Vec<Row> {
        let test = vec![set(8, thread), eq(7, 0, 8)];
        let framed = if rng.one_in(4) {
            let head = vec![eq(7, 7, 15), begin_if(7), ELSE];
            [head, rows, vec![ENDIF]].concat()
        } else {
            [vec![begin_if(7)], rows, vec![ENDIF]].concat()
        };
        [test, framed].concat()
    }

    /// Rows for all threads, those below a number, those from one on, each
    /// second one, or one.
    fn by_some(&self, rng: &mut Rng, rows: Vec<Row>) -> Vec<Row> {
        let from = rng.range(1, self.threads - 1);
        let test = match rng.below(8) {
            0..=2 => return self.repeated(rng, rows),
            3 => vec![set(8, from), lt(7, 0, 8)],
            4 => vec![set(8, from), lt(7, 0, 8), eq(7, 7, 15)],
            5 => vec![and(7, 0, 1)],
            6 => vec![and(7, 0, 1), eq(7, 7, 15)],
            _ => {
                let thread = self.thread(rng);
                return self.by_one(rng, thread, rows);
            }
        };
        let rows = self.repeated(rng, rows);
        [test, vec![begin_if(7)], rows, vec![ENDIF]].concat()
    }

    /// Mostly once; or two or three times, in a loop.
    fn repeated(&self, rng: &mut Rng, rows: Vec<Row>) -> Vec<Row> {
        if !rng.one_in(6) {
            return rows;
        }
        let head = vec![set(9, rng.range(1, 3)), begin_while(9)];
        [head, rows, vec![sub(9, 9, 1), ENDWHILE]].concat()
    }
}

/// One to four intervals, each with accesses that agree, and a barrier between
/// them; in half of the launches with one mistake.
fn flags(rng: &mut Rng) -> Plan {
    let flag = Flag::new(rng);
    let intervals = rng.range(1, 4) as usize;
    let mut turns: Vec<Vec<Row>> = vec![];
    for interval in 0..intervals {
        turns.extend(agreeing(rng, &flag));
        let last = interval + 1 == intervals;
        if !last || rng.one_in(2) {
            turns.push(parting(rng));
        }
    }
    if rng.one_in(2) {
        slip(rng, &flag, &mut turns);
    }
    let mut rows = turns.concat();
    if rng.one_in(6) && rows.len() < 100 {
        // In a loop, the values of each trip others than those of the last.
        let head = vec![set(13, rng.range(2, 3)), begin_while(13)];
        let next = [BARRIER, add(10, 10, 1), sub(13, 13, 1), ENDWHILE];
        rows = [head, rows, next.to_vec()].concat();
    }
    flag.plan(rng, rows)
}

/// The turns of an interval: all set the flag to one value, or read it, or add
/// to it; or one thread alone does as it likes.
fn agreeing(rng: &mut Rng, flag: &Flag) -> Vec<Vec<Row>> {
    match rng.below(9) {
        0..=3 => {
            let value = rng.pick(&[10, 10, 10, 11, 12, 15]);
            let turns = rng.range(1, 3);
            (0..turns)
                .map(|_| flag.by_some(rng, vec![store(5, value)]))
                .collect()
        }
        4 => vec![flag.by_some(rng, vec![load(4, 5)])],
        5 => {
            let added = flag.add_or_load(rng);
            vec![flag.by_some(rng, vec![added])]
        }
        _ => {
            let thread = flag.thread(rng);
            let rows = alone(rng, flag);
            vec![flag.by_one(rng, thread, rows)]
        }
    }
}

/// Two to four accesses of one thread, unequal stores mostly among them.
fn alone(rng: &mut Rng, flag: &Flag) -> Vec<Row> {
    let number = rng.range(2, 4);
    let mut rows: Vec<Row> = (0..number).map(|_| flag.any_access(rng)).collect();
    if rng.one_in(2) {
        rows[0] = store(5, 10);
    }
    rows
}

fn parting(rng: &mut Rng) -> Vec<Row> {
    match rng.below(8) {
        0 => [&SKIPPED[..], &[BARRIER]].concat(),
        1 => vec![begin_if(1), BARRIER, ENDIF],
        2 => vec![BARRIER, BARRIER],
        _ => vec![BARRIER],
    }
}

/// One mistake: an access more, by one thread or some, anywhere; or a barrier
/// that is missing, or that nobody comes to.
fn slip(rng: &mut Rng, flag: &Flag, turns: &mut Vec<Vec<Row>>) {
    let barriers: Vec<usize> = (0..turns.len())
        .filter(|&turn| turns[turn].contains(&BARRIER))
        .collect();
    if !barriers.is_empty() && rng.one_in(3) {
        let turn = rng.pick(&barriers);
        turns[turn] = rng.pick(&[&SKIPPED[..], &[]]).to_vec();
        return;
    }
    let access = match rng.below(3) {
        0 => store(5, 11),
        _ => flag.any_access(rng),
    };
    let turn = if rng.one_in(3) {
        flag.by_some(rng, vec![access])
    } else {
        let thread = flag.thread(rng);
        flag.by_one(rng, thread, vec![access])
    };
    let place = rng.index(turns.len() + 1);
    turns.insert(place, turn);
}

/// Two to four turns, each by one thread, of one to four accesses; mostly with
/// nothing between them. The threads are often the same two or three.
fn one_after_the_other(rng: &mut Rng) -> Plan {
    let flag = Flag::new(rng);
    let threads = [0; 3].map(|_| flag.thread(rng));
    let mut rows = vec![];
    for _ in 0..rng.range(2, 4) {
        let turn = match rng.below(4) {
            0 => alone(rng, &flag),
            1 => vec![store(5, 10), flag.any_access(rng)],
            2 => vec![store(5, rng.pick(&[10, 10, 11]))],
            _ => vec![flag.any_access(rng), store(5, 10)],
        };
        let thread = rng.pick(&threads);
        rows.extend(flag.by_one(rng, thread, turn));
        match rng.below(10) {
            0 | 1 => rows.push(BARRIER),
            2 => rows.extend(SKIPPED),
            _ => {}
        }
    }
    flag.plan(rng, rows)
}

/// One thread sets the flag, reads it, adds to it or both besides; then another
/// thread sets it, mostly to the same value.
fn one_besides(rng: &mut Rng) -> Plan {
    let flag = Flag {
        adds: true,
        ..Flag::new(rng)
    };
    let mut turn = vec![store(5, 10)];
    turn.extend(match rng.below(4) {
        0 => vec![load(4, 5)],
        1 | 2 => vec![flag.add_or_load(rng)],
        _ => vec![flag.add_or_load(rng), load(4, 5)],
    });
    let place = rng.index(turn.len());
    turn.rotate_left(place);
    let first = flag.thread(rng);
    let second = (first + rng.range(1, flag.threads - 1)) % flag.threads;
    let later = vec![store(5, rng.pick(&[10, 10, 11]))];
    let mut rows = flag.by_one(rng, first, turn);
    if rng.one_in(5) {
        rows.push(BARRIER);
    }
    rows.extend(if rng.one_in(2) {
        flag.by_one(rng, second, later)
    } else {
        flag.by_some(rng, later)
    });
    flag.plan(rng, rows)
}

/// Those below a number set the flag, or the others do; one thread, lower or
/// higher than they are or one of them, reads it, adds to it or sets it to
/// another value, behind them or before.
fn one_among_many(rng: &mut Rng) -> Plan {
    let mut flag = Flag::new(rng);
    flag.adds = true;
    flag.threads = flag.threads.max(3);
    let from = rng.range(1, flag.threads - 1);
    let mut many = vec![set(8, from), lt(7, 0, 8)];
    if rng.one_in(2) {
        many.push(eq(7, 7, 15));
    }
    many.extend([begin_if(7), store(5, 10), ENDIF]);
    let access = match rng.below(7) {
        0..=2 => load(4, 5),
        3..=5 => flag.add_or_load(rng),
        _ => store(5, rng.pick(&[10, 11])),
    };
    let thread = rng.pick(&[0, from - 1, from, flag.threads - 1]);
    let one = flag.by_one(rng, thread, vec![access]);
    let between = if rng.one_in(5) { vec![BARRIER] } else { vec![] };
    let rows = if rng.one_in(4) {
        [one, between, many].concat()
    } else {
        [many, between, one].concat()
    };
    flag.plan(rng, rows)
}

/// One thread stores several values by itself, or stores one and adds to it;
/// then others store the first of them or the last, mostly on this side of a
/// barrier.
fn alone_then_others(rng: &mut Rng) -> Plan {
    let flag = Flag {
        adds: true,
        ..Flag::new(rng)
    };
    let rows = match rng.below(6) {
        0 => vec![store(5, 10), store(5, 11), store(5, 10)],
        1 => vec![store(5, 10), atomic_add(5, 1)],
        2 => vec![store(5, 11), load(4, 5), store(5, 10)],
        3 => vec![store(5, 10), store(5, 10)],
        _ => vec![store(5, 10), store(5, 11)],
    };
    let first = flag.thread(rng);
    let second = (first + rng.range(1, flag.threads - 1)) % flag.threads;
    let mut rows = flag.by_one(rng, first, rows);
    match rng.below(9) {
        0..=3 => rows.push(BARRIER),
        4 => rows.extend(SKIPPED),
        _ => {}
    }
    let access = match rng.below(4) {
        0 => rng.pick(&[load(4, 5), atomic_add(5, 1), atomic_add(5, 15)]),
        _ => store(5, rng.pick(&[10, 11])),
    };
    rows.extend(if rng.one_in(2) {
        flag.by_one(rng, second, vec![access])
    } else {
        flag.by_some(rng, vec![access])
    });
    flag.plan(rng, rows)
}

/// Each thread has a word of its own and stores it, all by one row, to one cell
/// or to cells shared by some. Mostly all words are equal, or all but one.
fn by_one_row(rng: &mut Rng) -> Plan {
    let threads = threads(rng);
    // Which cell behind the words: one, that of a pair or half, or its own.
    let (number, shared) = match rng.below(6) {
        0 => (shr(3, 0, 1), threads.div_ceil(2)),
        1 => (and(3, 0, 1), 2),
        2 => (add(3, 0, 15), threads),
        _ => (set(3, 0), 1),
    };
    let first = value(rng);
    let mut words = vec![first; threads as usize];
    match rng.below(5) {
        0 | 1 => {
            let any = rng.below(threads);
            let one = rng.pick(&[any, threads - 1, 1]);
            words[one as usize] = other_value(rng, first);
        }
        2 => {
            let second = other_value(rng, first);
            let from = rng.below(threads) as usize;
            words[from..].fill(second);
        }
        _ => {}
    }
    let mut rows = vec![tid(0), set(1, 1), load(10, 0), set(5, threads), number];
    rows.push(add(3, 3, 5));
    if rng.one_in(4) {
        rows.extend([begin_if(rng.pick(&[0, 1, 10])), store(3, 10), ENDIF]);
    } else {
        rows.push(store(3, 10));
    }
    rows.extend(match rng.below(6) {
        0 => vec![],
        1 => vec![store(3, 10)],
        2 => vec![add(10, 10, 1), store(3, 10)],
        3 => vec![load(4, 3)],
        _ => vec![BARRIER, load(4, 3), BARRIER, store(3, 0)],
    });
    words.extend((0..shared).map(|_| rng.word()));
    Plan::new(rng, threads, rows, words)
}

/// Each thread looks at its own cell, and those that find the key set the flag
/// behind the cells. Then all read it.
fn search(rng: &mut Rng) -> Plan {
    let threads = threads(rng);
    let key = rng.below(3);
    let mut rows = vec![tid(0), set(1, 1), count(5), set(2, key), load(3, 0)];
    match rng.below(6) {
        0 => rows.extend([store(5, 15), BARRIER]),
        1 => rows.push(store(5, 15)), // emptied by all, and no barrier
        2 => rows.extend([eq(7, 0, 15), begin_if(7), store(5, 15), ENDIF, BARRIER]),
        _ => {}
    }
    // The thread's number is a mistake, and so is what it has found elsewhere.
    let found = rng.pick(&[1, 1, 1, 2, 3, 5, 0]);
    rows.extend([eq(6, 3, 2), begin_if(6), store(5, found)]);
    match rng.below(8) {
        0 => rows.push(load(4, 5)),
        1 => rows.push(atomic_add(5, 15)),
        2 => rows.extend([ELSE, load(4, 5)]),
        3 => rows.extend([ELSE, store(5, rng.pick(&[1, 15]))]),
        _ => {}
    }
    rows.push(ENDIF);
    rows.extend(match rng.below(6) {
        0 => vec![],
        1 => SKIPPED.to_vec(),
        _ => vec![BARRIER],
    });
    rows.extend([load(4, 5), begin_if(4), store(0, 2), ENDIF]);
    let mut cells: Vec<u32> = (0..threads).map(|_| rng.below(4)).collect();
    cells.push(rng.below(2));
    Plan::new(rng, threads, rows, cells)
}

/// A loop in which all set the flag to what counts its trips, or to half of
/// it, with a barrier in each trip or none; as many trips for each thread or
/// not.
fn trips(rng: &mut Rng) -> Plan {
    let flag = Flag::new(rng);
    let even = !rng.one_in(4);
    let start = if even {
        set(9, rng.range(1, 6))
    } else {
        add(9, 0, rng.pick(&[1, 15]))
    };
    let value = rng.pick(&[add(4, 9, 15), add(4, 9, 15), shr(4, 9, 1), add(4, 10, 15)]);
    let mut rows = vec![start, begin_while(9), value];
    let put = vec![store(5, 4)];
    rows.extend(if rng.one_in(3) {
        flag.by_some(rng, put)
    } else {
        put
    });
    if even && rng.percent(70) {
        rows.push(BARRIER);
    }
    if rng.one_in(6) {
        rows.extend([eq(7, 9, 1), begin_if(7), store(5, 0), ENDIF]);
    }
    rows.extend([sub(9, 9, 1), ENDWHILE]);
    rows.extend(match rng.below(4) {
        0 => vec![store(5, 10)],
        1 => vec![BARRIER, load(4, 5)],
        2 => vec![flag.any_access(rng)],
        _ => vec![],
    });
    flag.plan(rng, rows)
}

/// Both arms of an IF set the flag, or arms of two of them one in the other.
fn arms(rng: &mut Rng) -> Plan {
    let flag = Flag::new(rng);
    let put = |rng: &mut Rng| store(5, rng.pick(&[10, 10, 10, 10, 10, 11, 12]));
    let from = rng.below(flag.threads + 1);
    let mut rows = vec![set(8, from), lt(7, 0, 8), begin_if(7), put(rng)];
    if rng.one_in(2) {
        rows.extend([and(6, 0, 1), begin_if(6), put(rng), ELSE, put(rng), ENDIF]);
    }
    rows.extend([ELSE, put(rng)]);
    if rng.one_in(4) {
        rows.push(flag.any_access(rng));
    }
    rows.push(ENDIF);
    if rng.one_in(2) {
        rows.push(BARRIER);
        let access = flag.any_access(rng);
        rows.extend(flag.by_some(rng, vec![access]));
    }
    flag.plan(rng, rows)
}
