//! Random well-structured kernels.
//!
//! R0 is the thread's number, R1 is 1, R2 to R7 are for any use, and R8 to
//! R15 count the loops of each depth, so that most loops end.

use crate::asm::*;
use crate::plan::Plan;
use crate::rng::Rng;

/// How freely a kernel reaches for cells.
#[derive(Clone, Copy, PartialEq, Eq)]
enum Reach {
    /// Each thread its own cell.
    Own,
    /// Loads of any cell, nothing else.
    ReadOnly,
    /// Adds to any cell, nothing else.
    AddOnly,
    /// All accesses to any cell, and now and then outside.
    Wild,
}

struct Writer<'r> {
    rng: &'r mut Rng,
    rows: Vec<Row>,
    most_rows: usize,
    most_depth: usize,
    reach: Reach,
    /// Cells may be added to.
    adds: bool,
    /// Conditions are the same for all threads.
    uniform: bool,
    /// Loops may lack their end.
    endless: bool,
}

/// A random kernel.
pub fn random(rng: &mut Rng) -> Plan {
    if rng.one_in(6) {
        return tower(rng);
    }
    let threads = rng.threads();
    let cells = cells(rng, threads);
    let rows = body_rows(rng, cells.len() as u32);
    Plan::new(rng, threads, rows, cells)
}

fn cells(rng: &mut Rng, threads: u32) -> Vec<u32> {
    let count = match rng.below(10) {
        0 => rng.range(1, 4),
        1 => rng.pick(&[1, 2, 1_023, 1_024]),
        2 => rng.range(1, 1_024),
        _ => threads + rng.below(8),
    };
    (0..count).map(|_| rng.word()).collect()
}

fn writer(rng: &mut Rng) -> Writer<'_> {
    let reach = rng.pick(&[
        Reach::Own,
        Reach::Own,
        Reach::ReadOnly,
        Reach::AddOnly,
        Reach::Wild,
        Reach::Wild,
    ]);
    let adds = rng.one_in(2);
    let (uniform, endless) = (rng.one_in(3), rng.one_in(8));
    let most_rows = rng.pick(&[4, 10, 20, 40, 80, 200]);
    let most_depth = rng.pick(&[1, 2, 3, 3, 8]);
    Writer {
        rng,
        rows: vec![],
        most_rows,
        most_depth,
        reach,
        adds,
        uniform,
        endless,
    }
}

fn body_rows(rng: &mut Rng, cells: u32) -> Vec<Row> {
    let mut writer = writer(rng);
    let mask = cells.next_power_of_two() - 1;
    let inside = if cells.is_power_of_two() {
        mask
    } else {
        mask >> 1
    };
    writer.rows = vec![tid(0), set(1, 1), set(2, inside), count(3)];
    while writer.rows.len() < writer.most_rows {
        writer.item(0);
    }
    writer.rows
}

impl Writer<'_> {
    /// A body of a few items.
    fn body(&mut self, depth: usize) {
        for _ in 0..self.rng.below(4) {
            self.item(depth);
        }
    }

    fn item(&mut self, depth: usize) {
        let room = self.rows.len() + 10 < self.most_rows && depth < self.most_depth;
        match self.rng.below(20) {
            0..=2 if room => self.branch(depth),
            3..=4 if room => self.counted_loop(depth),
            5 if room => self.free_loop(depth),
            6 | 7 => self.barrier(depth),
            8..=10 => self.access(),
            _ => self.plain(),
        }
    }

    /// A register for any use.
    fn free(&mut self) -> u8 {
        self.rng.range(3, 7) as u8
    }

    /// A register to read.
    fn source(&mut self) -> u8 {
        self.rng.below(8) as u8
    }

    fn plain(&mut self) {
        let (d, a, b) = (self.free(), self.source(), self.source());
        let row = match self.rng.below(16) {
            0 => tid(d),
            1 => count(d),
            2 | 3 => set(d, self.rng.word()),
            4 => [1, d, self.rng.byte(), self.rng.byte()],
            _ => [self.rng.range(4, 14) as u8, d, a, b],
        };
        self.rows.push(row);
    }

    fn access(&mut self) {
        let (value, address) = (self.free(), self.address());
        let row = match self.reach {
            Reach::ReadOnly => load(value, address),
            Reach::AddOnly => atomic_add(address, value),
            _ if self.adds && self.rng.one_in(3) => atomic_add(address, value),
            _ if self.rng.one_in(2) => load(value, address),
            _ => store(address, value),
        };
        self.rows.push(row);
    }

    /// A register that holds a cell's number, most of the time.
    fn address(&mut self) -> u8 {
        if self.reach == Reach::Own {
            return 0;
        }
        match self.rng.below(8) {
            0..=3 => 0,
            4 => 1,
            5 if self.rng.one_in(4) => self.source(),
            _ => {
                let (d, a) = (self.free(), self.source());
                self.rows.push(and(d, a, 2));
                d
            }
        }
    }

    /// Leaves a condition in a register for any use.
    fn condition(&mut self) -> u8 {
        let d = self.free();
        if self.uniform {
            self.rows.push(set(d, self.rng.below(2)));
            return d;
        }
        let (a, b) = (self.source(), self.source());
        let op = self.rng.pick(&[7, 10, 12, 12, 13, 13, 14]);
        self.rows.push([op, d, a, b]);
        d
    }

    fn branch(&mut self, depth: usize) {
        let condition = self.condition();
        self.rows.push(begin_if(condition));
        self.body(depth + 1);
        if self.rng.one_in(2) {
            self.rows.push(ELSE);
            self.body(depth + 1);
        }
        self.rows.push(ENDIF);
    }

    fn counted_loop(&mut self, depth: usize) {
        let counter = 8 + depth as u8 % 8;
        let start = match self.rng.below(4) {
            0 if !self.uniform => and(counter, 0, self.rng.pick(&[0, 1, 3])),
            _ => set(counter, self.rng.below(4)),
        };
        self.rows.extend([start, begin_while(counter)]);
        self.body(depth + 1);
        if !(self.endless && self.rng.one_in(3)) {
            self.rows.push(sub(counter, counter, 1));
        }
        self.rows.push(ENDWHILE);
    }

    /// A loop on a register that its body may or may not change.
    fn free_loop(&mut self, depth: usize) {
        let condition = self.condition();
        self.rows.push(begin_while(condition));
        self.body(depth + 1);
        if !self.endless || self.rng.one_in(2) {
            self.rows.push(shr(condition, condition, 1));
        }
        self.rows.push(ENDWHILE);
    }

    /// Barriers stand under uniform conditions, apart from some.
    fn barrier(&mut self, depth: usize) {
        if self.uniform || depth == 0 || self.rng.one_in(2) {
            self.rows.push(BARRIER);
        }
    }
}

/// Constructs nested 6 to 9 deep, straight down and up again.
fn tower(rng: &mut Rng) -> Plan {
    // At each level one thread more may be left behind.
    let narrowing = rng.one_in(2);
    let threads = if narrowing {
        rng.range(9, 32)
    } else {
        rng.threads()
    };
    let depth = rng.pick(&[6, 7, 8, 8, 8, 8, 8, 9]);
    let loops: Vec<bool> = (0..depth).map(|_| rng.one_in(2)).collect();
    let mut rows = vec![tid(0), set(1, 1)];
    for (level, &is_loop) in loops.iter().enumerate() {
        let counter = 8 + level as u8 % 8;
        let start = match rng.below(8) {
            0..=6 if narrowing => {
                rows.push(set(3, level as u32));
                lt(counter, 3, 0)
            }
            0 => tid(counter),
            1 => set(counter, 0),
            2 => set(counter, 2),
            _ => set(counter, 1),
        };
        let begin = if is_loop { begin_while } else { begin_if };
        rows.extend([start, begin(counter)]);
    }
    match rng.below(3) {
        0 => rows.push(atomic_add(rng.pick(&[0, 15]), 1)),
        _ => rows.extend([load(2, 0), add(2, 2, 1), store(0, 2)]),
    }
    if rng.one_in(2) {
        rows.push(BARRIER);
    }
    for (level, &is_loop) in loops.iter().enumerate().rev() {
        let counter = 8 + level as u8 % 8;
        if is_loop {
            rows.extend([sub(counter, counter, 1), ENDWHILE]);
            continue;
        }
        if rng.one_in(2) {
            rows.extend([ELSE, add(3, 3, 1)]);
        }
        rows.push(ENDIF);
    }
    let cells = (0..threads).map(|_| rng.word()).collect();
    Plan::new(rng, threads, rows, cells)
}
