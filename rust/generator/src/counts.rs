//! Kernels in which each thread has a number of steps of its own: arms of
//! unequal length, loops of unequal trips, and a stop among them or a limit.
//!
//! R0 is the thread's number, R1 is 1 and R7 the number of threads; R15 stays
//! 0. R8 to R10 count the loops of each depth, R2 to R6 are for any use.

use crate::asm::*;
use crate::plan::Plan;
use crate::rng::Rng;

/// A kernel of arms and loops, or now and then one whose counts are large.
pub fn counts(rng: &mut Rng) -> Plan {
    match rng.below(30) {
        0 => past_24_bits(rng),
        1..=2 => past_16_bits(rng),
        _ => uneven(rng),
    }
}

/// Many threads, so that a stop has many of them on either side.
fn threads(rng: &mut Rng) -> u32 {
    match rng.below(4) {
        0 => rng.threads(),
        1 => rng.range(2, 8),
        _ => rng.pick(&[32, 32, 32, 32, 31, 17]),
    }
}

/// What stops a run.
#[derive(Clone, Copy, PartialEq, Eq)]
enum Stop {
    Outside,
    /// With an access that another thread made at the start.
    Race,
    /// With a lower thread, in the same row or with what all did at the start.
    Meeting,
    Diverged,
}

struct Writer<'r> {
    rng: &'r mut Rng,
    threads: u32,
    rows: Vec<Row>,
    /// A thread that goes into one arm of each IF, so that it gets to the stop.
    favoured: u32,
    /// How the favoured thread stops, and after how many items of its own.
    stop: Option<(Stop, u32)>,
}

/// Arms and loops at random, mostly with a stop or a limit inside them.
fn uneven(rng: &mut Rng) -> Plan {
    let threads = threads(rng);
    // Often the last one, which may have all the others below it.
    let favoured = match rng.below(4) {
        0 => threads - 1,
        _ => rng.below(threads),
    };
    let stop = stop(rng);
    let mut rows = vec![tid(0), set(1, 1), count(7)];
    match stop {
        Some((Stop::Race, _)) => rows.extend(first_access(rng, threads, favoured)),
        Some((Stop::Meeting, _)) if rng.one_in(2) => rows.push(load(6, 0)),
        _ => {}
    }
    let mut writer = Writer {
        rng,
        threads,
        rows,
        favoured,
        stop,
    };
    for _ in 0..writer.rng.below(5) {
        writer.item(0, true);
    }
    writer.stop_at_last();
    let rows = std::mem::take(&mut writer.rows);
    // A cell for each thread, and one behind them for a race.
    let cells = (0..=threads).map(|_| rng.word()).collect();
    let mut plan = Plan::new(rng, threads, rows, cells);
    let needed = plan.rows_needed().unwrap_or(2_000);
    match (rng.below(6), stop) {
        // Anywhere on the way, inside constructs above all.
        (0, _) | (1..=2, None) => plan.limit = rng.below(needed + 1),
        // The stop is come to.
        (1..=3, Some(_)) => plan.limit = rng.range(needed + 1, 1_000_000),
        _ => {}
    }
    plan
}

fn stop(rng: &mut Rng) -> Option<(Stop, u32)> {
    let kinds = [Stop::Outside, Stop::Race, Stop::Meeting, Stop::Diverged];
    let stop = rng.pick(&kinds);
    (!rng.one_in(3)).then(|| (stop, rng.below(4)))
}

/// Another thread than the favoured one uses the cell behind the threads' own.
fn first_access(rng: &mut Rng, threads: u32, favoured: u32) -> Vec<Row> {
    let other = (favoured + 1 + rng.below((threads - 1).max(1))) % threads;
    let access = rng.pick(&[load(6, 7), store(7, 0), atomic_add(7, 0)]);
    vec![set(4, other), eq(4, 0, 4), begin_if(4), access, ENDIF]
}

impl Writer<'_> {
    /// Up to three items.
    fn body(&mut self, depth: u8, favoured: bool) {
        for _ in 0..self.rng.below(4) {
            self.item(depth, favoured);
        }
    }

    /// An item for some threads, the favoured one among them or not.
    fn item(&mut self, depth: u8, favoured: bool) {
        if favoured && depth > 0 {
            self.stop_or_wait();
        }
        // Tables and nesting stay within their limits.
        let room = depth < 3 && self.rows.len() < 120;
        match self.rng.below(8) {
            0..=2 if room => self.arms(depth, favoured),
            3..=4 if room => self.trips(depth, favoured),
            5 => self.skipped(),
            6 if depth == 0 && !self.needs_log() => self.rows.push(BARRIER),
            _ => self.plain(),
        }
    }

    /// Whether a barrier would take away what the stop meets.
    fn needs_log(&self) -> bool {
        matches!(self.stop, Some((Stop::Race | Stop::Meeting, _)))
    }

    /// One to four rows that do nothing else than count.
    fn plain(&mut self) {
        for _ in 0..self.rng.range(1, 4) {
            self.rows
                .push(self.rng.pick(&[add(5, 5, 1), tid(5), mul(6, 5, 0)]));
        }
    }

    /// A construct with a BARRIER that nobody enabled goes into.
    fn skipped(&mut self) {
        let construct = [
            [begin_if(15), BARRIER, ENDIF],
            [begin_while(15), BARRIER, ENDWHILE],
        ];
        self.rows.extend(self.rng.pick(&construct));
    }

    /// An IF, with ELSE or without, of which the favoured thread takes either
    /// arm.
    fn arms(&mut self, depth: u8, favoured: bool) {
        self.test();
        let first = !self.rng.one_in(3);
        if !first {
            self.rows.push(eq(2, 2, 15));
        }
        self.rows.push(begin_if(2));
        self.body(depth + 1, favoured && first);
        if !first || self.rng.one_in(2) {
            self.rows.push(ELSE);
            self.body(depth + 1, favoured && !first);
        }
        self.rows.push(ENDIF);
    }

    /// R2 is true for the favoured thread, and for others or not: one, those
    /// from some number on, those up to one, each second, any, or all.
    fn test(&mut self) {
        let (mine, last) = (self.favoured, self.threads - 1);
        let rows = match self.rng.below(7) {
            0 => vec![set(2, mine), eq(2, 0, 2)],
            1 => vec![set(2, self.rng.range(mine, last) + 1), lt(2, 0, 2)],
            2 => vec![set(2, self.rng.below(mine + 1)), lt(2, 0, 2), eq(2, 2, 15)],
            3 => vec![set(2, mine + 1), add(2, 2, 0), and(2, 2, 1)],
            4 | 5 => self.any_threads(),
            _ => vec![set(2, 1)],
        };
        self.rows.extend(rows);
    }

    /// Any set of threads among 16 that follow each other.
    fn any_threads(&mut self) -> Vec<Row> {
        let first = self.favoured / 16 * 16;
        let set_of = self.rng.below(1 << 16) | 1 << (self.favoured - first);
        let places = vec![set(3, first), sub(3, 0, 3)];
        [places, vec![set(2, set_of), shr(2, 2, 3), and(2, 2, 1)]].concat()
    }

    /// A loop of as many trips as the thread's number says, up or down, or of
    /// few, or of one by some threads.
    fn trips(&mut self, depth: u8, favoured: bool) {
        let counter = 8 + depth;
        let start = match self.rng.below(6) {
            0 => vec![tid(counter)],
            1 => vec![sub(counter, 7, 0)],
            2 => vec![set(3, 3), and(counter, 0, 3)],
            3 => vec![set(3, self.favoured), eq(counter, 0, 3)],
            4 => vec![set(3, self.favoured + 1), lt(counter, 0, 3)],
            _ => vec![set(counter, self.rng.pick(&[0, 1, 2, 3, 3]))],
        };
        self.rows.extend(start);
        self.rows.push(begin_while(counter));
        self.body(depth + 1, favoured);
        self.rows.extend([sub(counter, counter, 1), ENDWHILE]);
    }

    /// The stop, when its time has come.
    fn stop_or_wait(&mut self) {
        match self.stop {
            Some((stop, 0)) => {
                let rows = self.stopping(stop);
                self.rows.extend(rows);
                self.stop = None;
            }
            Some((stop, items)) => self.stop = Some((stop, items - 1)),
            None => {}
        }
    }

    /// A stop that hasn't come yet, in an arm of its own.
    fn stop_at_last(&mut self) {
        let Some((stop, _)) = self.stop.take() else {
            return;
        };
        self.test();
        let rows = self.stopping(stop);
        if self.rng.one_in(3) {
            self.rows.extend([eq(2, 2, 15), begin_if(2), ELSE]);
        } else {
            self.rows.push(begin_if(2));
        }
        self.rows.extend(rows);
        self.rows.push(ENDIF);
        self.plain();
    }

    /// All that are enabled use their own cells, but for the favoured thread.
    fn stopping(&mut self, stop: Stop) -> Vec<Row> {
        let mine = self.favoured;
        let far = match stop {
            Stop::Outside => self.rng.pick(&[1_024, 32_768]),
            Stop::Race => self.threads - mine,
            // So many cells further down, by way of below 0.
            Stop::Meeting => self.rng.range(mine.min(1), mine),
            Stop::Diverged => return vec![BARRIER],
        };
        let far_off = if stop == Stop::Meeting { sub } else { add };
        let mut rows = vec![set(4, mine), eq(4, 0, 4), set(3, far), mul(4, 4, 3)];
        rows.push(far_off(4, 0, 4));
        rows.push(match stop {
            Stop::Meeting => store(4, 0),
            _ => self.rng.pick(&[load(6, 4), store(4, 0), atomic_add(4, 1)]),
        });
        rows
    }
}

/// A long loop of which each thread makes more trips than the one before, or
/// fewer, or all make as many: some counts are past 16 bits, or all.
fn past_16_bits(rng: &mut Rng) -> Plan {
    let threads = rng.pick(&[1, 2, 3, 7, 7]);
    let (trips, more) = (rng.range(4_000, 4_150), rng.below(60));
    let unequal = rng.pick(&[add, sub]);
    let mut rows = vec![tid(0), set(1, 1), set(2, trips), set(3, more), mul(3, 3, 0)];
    rows.extend([unequal(2, 2, 3), begin_while(2)]);
    rows.extend([add(5, 5, 1); 13]);
    rows.extend([sub(2, 2, 1), ENDWHILE, store(0, 5)]);
    let cells = (0..threads).map(|_| rng.word()).collect();
    let limit = rng.pick(&[70_000, 1_000_000]);
    Plan::limited(threads, limit, rows, cells)
}

/// A loop without an end, behind an arm of one thread: all counts together are
/// past 24 bits when the limit is reached.
fn past_24_bits(rng: &mut Rng) -> Plan {
    let threads = rng.range(30, 32);
    let one = [set(2, rng.below(threads)), eq(2, 0, 2), begin_if(2)];
    let mut rows = vec![tid(0), set(1, 1)];
    rows.extend(one);
    rows.extend([add(5, 5, 1); 3]);
    rows.extend([ENDIF, begin_while(1)]);
    rows.extend([add(5, 5, 1); 40]);
    rows.push(ENDWHILE);
    let limit = rng.range(560_000, 600_000);
    Plan::limited(threads, limit, rows, vec![rng.word()])
}
