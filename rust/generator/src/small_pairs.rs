//! Pairs of small launches for the explorer, resident together over common cells.
//!
//! R0 is the thread's number, R1 is 1, R8 the number of common cell 0, R3 mostly
//! a coefficient. R15 stays 0 and means own cell 0.

use crate::asm::*;
use crate::rng::Rng;
use crate::small::{one_group, SmallLaunch};
use crate::small_groups::groups;

/// Two small launches and the words of the common cells.
#[derive(Clone, Debug, PartialEq, Eq)]
pub struct SmallPair {
    /// The first kernel.
    pub filter: SmallLaunch,
    /// The second kernel.
    pub trigger: SmallLaunch,
    /// At most 256.
    pub common: Vec<u32>,
}

impl SmallPair {
    /// The filter and the trigger.
    pub fn launches(&self) -> [&SmallLaunch; 2] {
        [&self.filter, &self.trigger]
    }
}

/// About so many states of a pair are played at most, but for its loops.
const STATES: u64 = 9_000;
/// The number of common cell 0.
const FIRST: u32 = 65_536;

/// A pair, mostly of two kernels that load from the common cells.
pub fn pair(rng: &mut Rng) -> SmallPair {
    let common = coefficients(rng);
    let filter = kernel(rng, &common);
    let trigger = match rng.below(14) {
        // The same kernel on the same cells, or on cells of its own.
        0 => filter.clone(),
        1 => SmallLaunch {
            cells: filter.cells.iter().map(|_| rng.below(3)).collect(),
            ..filter.clone()
        },
        _ => kernel(rng, &common),
    };
    let (mut filter, mut trigger) = (filter, trigger);
    if states(&filter) * states(&trigger) > STATES {
        let larger = if states(&filter) > states(&trigger) {
            &mut filter
        } else {
            &mut trigger
        };
        larger
            .cells
            .truncate(larger.cells.len() / larger.groups as usize);
        (larger.groups, larger.threads) = (1, 1);
    }
    SmallPair {
        filter,
        trigger,
        common,
    }
}

/// States of a launch without its loops.
fn states(launch: &SmallLaunch) -> u64 {
    let rows = launch.table.len() as u64 / 4 + 1;
    rows.saturating_pow(launch.groups * launch.threads)
}

/// Few words, mostly small ones, on which an arm or a cell may hang; now and then
/// as many as there may be, or none.
fn coefficients(rng: &mut Rng) -> Vec<u32> {
    let count = match rng.below(40) {
        0 => 256,
        1 => 0,
        2..=5 => 1,
        _ => rng.range(2, 4),
    };
    let same = rng.one_in(4);
    let one = rng.below(3);
    let word = |rng: &mut Rng| match rng.below(12) {
        0 => rng.word(),
        // The number of a common cell, or of the one behind the last.
        1 => FIRST + rng.below(count + 1),
        _ => rng.below(3),
    };
    (0..count)
        .map(|_| if same { one } else { word(rng) })
        .collect()
}

/// Rows and the words of a group's own cells.
struct Sketch {
    rows: Vec<Row>,
    cells: Vec<u32>,
}

impl Sketch {
    /// The thread's number in R0, 1 in R1, and the number of common cell 0 in R8.
    fn new(rng: &mut Rng) -> Self {
        let count = rng.pick(&[1, 2, 2, 2, 3]);
        let mut cells: Vec<u32> = (0..count).map(|_| rng.below(3)).collect();
        let mut rows = vec![tid(0), set(1, 1)];
        // SET holds 16 bits only.
        rows.extend(match rng.below(6) {
            0 => [set(8, FIRST / 2), add(8, 8, 8)],
            1 => [set(8, FIRST - 1), add(8, 8, 1)],
            // As a word of the own cell behind the others.
            2 => {
                cells.push(FIRST);
                [set(8, count), load(8, 8)]
            }
            _ => [set(8, 256), mul(8, 8, 8)],
        });
        Self { rows, cells }
    }

    /// A coefficient in R3: for all threads the same one, or each its own.
    fn load_coefficient(&mut self, rng: &mut Rng) {
        match rng.below(5) {
            0 | 1 => self.rows.push(load(3, 8)),
            2 => self.rows.extend([add(9, 8, 1), load(3, 9)]),
            _ => self.rows.extend([add(9, 8, 0), load(3, 9)]),
        }
    }

    fn maybe_barrier(&mut self, rng: &mut Rng, times: u32) {
        if rng.one_in(times) {
            self.rows.push(BARRIER);
        }
    }

    /// By all threads, by all but the first, or by the first alone.
    fn by_all_or_some(&mut self, rng: &mut Rng, rows: &[Row]) {
        let head: &[Row] = match rng.below(4) {
            0 => &[begin_if(0)],
            1 => &[begin_if(0), ELSE],
            _ => return self.rows.extend(rows),
        };
        self.rows.extend(head);
        self.rows.extend(rows);
        self.rows.push(ENDIF);
    }
}

/// A kernel of 1 or 2 threads, now and then of 2 groups of one.
fn kernel(rng: &mut Rng, common: &[u32]) -> SmallLaunch {
    let count = common.len() as u32;
    let sketch = match rng.below(35) {
        0..=4 => loads(rng),
        5..=8 => arms(rng),
        9..=11 => cells_by_coefficient(rng),
        12..=15 => trips(rng),
        16..=19 => meetings(rng),
        20..=23 => puts(rng),
        24..=25 => edges(rng, count),
        26..=28 => own_and_common(rng),
        29..=30 => return global_ops(rng),
        _ => return without_common(rng),
    };
    launch(rng, sketch, 0)
}

fn launch(rng: &mut Rng, sketch: Sketch, global: u32) -> SmallLaunch {
    let few = sketch.rows.len() <= 9;
    let (groups, threads) = match rng.below(8) {
        0 => (1, 1),
        1 => (2, 1),
        _ if few || rng.one_in(2) => (1, 2),
        _ => (1, 1),
    };
    let mut cells = sketch.cells.clone();
    if groups == 2 {
        let same = rng.one_in(2);
        // The number of common cell 0 is one for both groups.
        let keep = |&word: &u32| same || word == FIRST;
        let second = sketch.cells.iter();
        cells.extend(second.map(|word| if keep(word) { *word } else { rng.below(3) }));
    }
    SmallLaunch {
        table: sketch.rows.concat(),
        threads,
        groups,
        cells,
        global: (0..global).map(|_| rng.below(3)).collect(),
    }
}

/// Coefficients that go to own cells, around a barrier or without one.
fn loads(rng: &mut Rng) -> Sketch {
    let mut sketch = Sketch::new(rng);
    sketch.load_coefficient(rng);
    sketch.maybe_barrier(rng, 3);
    let put = rng.pick(&[store(0, 3), store(0, 3), atomic_add(15, 3), store(15, 3)]);
    sketch.by_all_or_some(rng, &[put]);
    match rng.below(5) {
        // Read back by all, behind the barrier or too early.
        0 => {
            sketch.maybe_barrier(rng, 2);
            sketch.rows.push(load(4, 15));
        }
        1 => sketch.rows.extend([BARRIER, load(4, 8), atomic_add(15, 4)]),
        2 => sketch.by_all_or_some(rng, &[load(4, 8)]),
        _ => {}
    }
    sketch
}

/// A coefficient decides the arm.
fn arms(rng: &mut Rng) -> Sketch {
    let mut sketch = Sketch::new(rng);
    sketch.load_coefficient(rng);
    sketch.rows.push(begin_if(3));
    arm(rng, &mut sketch.rows);
    if rng.one_in(2) {
        sketch.rows.push(ELSE);
        arm(rng, &mut sketch.rows);
    }
    sketch.rows.push(ENDIF);
    sketch.maybe_barrier(rng, 3);
    sketch
}

fn arm(rng: &mut Rng, rows: &mut Vec<Row>) {
    rows.push(match rng.below(10) {
        0..=2 => BARRIER,
        3 => load(4, 8),
        4 => store(0, 3),
        5 => store(15, 3),
        6 => atomic_add(15, 1),
        7 => load(4, 15),
        8 => rng.pick(&[store, atomic_add])(8, 1),
        _ => return,
    });
}

/// A coefficient is the number of a cell, of an own one or of a common one.
fn cells_by_coefficient(rng: &mut Rng) -> Sketch {
    let mut sketch = Sketch::new(rng);
    sketch.load_coefficient(rng);
    let access = match rng.below(6) {
        0 | 1 => load(4, 3),
        2 | 3 => atomic_add(3, 1),
        4 => store(3, 1),
        _ => store(3, 0),
    };
    sketch.by_all_or_some(rng, &[access]);
    if rng.one_in(3) {
        sketch.maybe_barrier(rng, 2);
        sketch.rows.push(rng.pick(&[store(0, 4), load(4, 8)]));
    }
    sketch
}

/// As many trips as a coefficient says, with loads and barriers in them.
fn trips(rng: &mut Rng) -> Sketch {
    let mut sketch = Sketch::new(rng);
    if rng.percent(60) {
        sketch.rows.push(load(3, 8));
    } else {
        sketch.load_coefficient(rng);
    }
    // A coefficient may be any word, so that only its low bit counts here.
    if rng.one_in(2) {
        sketch.rows.push(and(3, 3, 1));
    } else {
        sketch.rows.push(set(3, rng.range(1, 2)));
    }
    sketch.rows.push(begin_while(3));
    let inside = match rng.below(8) {
        0 | 1 => BARRIER,
        2 | 3 => load(4, 8),
        4 => atomic_add(15, 1),
        5 => store(0, 1),
        6 if rng.one_in(2) => atomic_add(8, 1),
        _ => load(4, 15),
    };
    sketch.rows.push(inside);
    // Some loops lack their end. An endless sum would have a state for every
    // word.
    if !rng.one_in(3) || inside[0] == atomic_add(0, 0)[0] {
        sketch.rows.push(sub(3, 3, 1));
    }
    sketch.rows.push(ENDWHILE);
    sketch
}

/// Each thread's own coefficient says whether or how often it comes to a barrier,
/// so that the threads meet there or don't.
fn meetings(rng: &mut Rng) -> Sketch {
    let mut sketch = Sketch {
        rows: vec![tid(0), set(8, 256), mul(8, 8, 8)],
        cells: vec![rng.below(3)],
    };
    sketch.rows.extend([add(9, 8, 0), load(3, 9)]);
    sketch.rows.extend(match rng.below(4) {
        0 => vec![begin_if(3), BARRIER, ELSE, BARRIER, ENDIF],
        1 => vec![begin_while(3), BARRIER, sub(3, 3, 3), ENDWHILE],
        2 => vec![begin_while(3), BARRIER, and(3, 3, 15), ENDWHILE],
        _ => vec![begin_if(3), BARRIER, ENDIF],
    });
    sketch
}

/// A store or an add to a common cell, by one thread in an arm, by all, or by
/// nobody since the arm is skipped.
fn puts(rng: &mut Rng) -> Sketch {
    let mut sketch = Sketch::new(rng);
    let put = rng.pick(&[store, atomic_add])(8, rng.pick(&[0, 1, 15]));
    match rng.below(4) {
        // What others or the same thread load, before or behind it.
        0 => {
            sketch.by_all_or_some(rng, &[put]);
            sketch.maybe_barrier(rng, 2);
            sketch.rows.push(load(3, 8));
        }
        1 => {
            sketch.load_coefficient(rng);
            sketch.maybe_barrier(rng, 2);
            sketch.by_all_or_some(rng, &[put]);
        }
        // If the coefficient says so.
        2 => {
            sketch.load_coefficient(rng);
            sketch.rows.extend([begin_if(3), put, ENDIF]);
        }
        // Never, or by one of two.
        _ => {
            let test = begin_if(rng.pick(&[0, 7]));
            sketch.rows.extend([test, put, ENDIF]);
            sketch.by_all_or_some(rng, &[atomic_add(15, 1)]);
        }
    }
    sketch
}

/// The last common cell, the one behind it, and the one before the first.
fn edges(rng: &mut Rng, count: u32) -> Sketch {
    let mut sketch = Sketch::new(rng);
    match rng.below(8) {
        0 => sketch.rows.push(set(9, FIRST - 1)),
        1 => sketch.rows.push(add(9, 8, 8)),
        // Thread 0 at the last, thread 1 behind it.
        2 | 3 => sketch
            .rows
            .extend([set(5, count.saturating_sub(1)), add(9, 8, 5), add(9, 9, 0)]),
        4 | 5 => sketch.rows.extend([set(5, count), add(9, 8, 5)]),
        _ => {
            let last = count.saturating_sub(1);
            sketch.rows.extend([set(5, last), add(9, 8, 5)]);
        }
    }
    let access = rng.pick(&[
        load(3, 9),
        load(3, 9),
        load(3, 9),
        store(9, 1),
        atomic_add(9, 1),
    ]);
    sketch.by_all_or_some(rng, &[access]);
    if rng.one_in(2) {
        sketch
            .rows
            .push(rng.pick(&[store(0, 3), atomic_add(15, 3)]));
    }
    sketch
}

/// Own and common cells in one row, or beside each other as many places behind
/// the first of their kind.
fn own_and_common(rng: &mut Rng) -> Sketch {
    let mut sketch = Sketch::new(rng);
    match rng.below(5) {
        // Thread 0 at own cell 0, thread 1 at common cell 0.
        0 | 1 => {
            sketch.rows.push(mul(9, 0, 8));
            sketch.rows.push(match rng.below(6) {
                0 => store(9, 1),
                1 => atomic_add(9, 1),
                _ => load(3, 9),
            });
            sketch.maybe_barrier(rng, 2);
            let put = rng.pick(&[store(0, 3), atomic_add(15, 3)]);
            sketch.by_all_or_some(rng, &[put]);
        }
        // One uses own cell 0 while the other loads common cell 0.
        2 | 3 => {
            let put = rng.pick(&[store(15, 1), store(15, 0), atomic_add(15, 1)]);
            let (one, other) = rng.pick(&[(put, load(3, 8)), (load(3, 8), put)]);
            sketch.rows.extend([begin_if(0), one, ELSE, other, ENDIF]);
        }
        // All load common cell 0, then one has own cell 0.
        _ => {
            sketch.rows.push(load(3, 8));
            sketch.maybe_barrier(rng, 3);
            let put = rng.pick(&[store(15, 3), atomic_add(15, 3)]);
            sketch.rows.push(begin_if(0));
            if rng.one_in(2) {
                sketch.rows.push(ELSE);
            }
            sketch.rows.extend([put, ENDIF]);
        }
    }
    sketch
}

/// Global ops at numbers of common cells, which they don't reach, or at those of
/// global cells beside loads of common ones.
fn global_ops(rng: &mut Rng) -> SmallLaunch {
    let mut sketch = Sketch::new(rng);
    let at = rng.pick(&[8, 8, 8, 15]);
    let access = match rng.below(4) {
        0 => global_store(at, 1),
        1 => global_add(at, 1),
        _ => global_load(3, at),
    };
    if rng.one_in(2) {
        sketch.rows.push(load(4, 8));
    }
    sketch.by_all_or_some(rng, &[access]);
    if rng.one_in(2) {
        sketch.rows.push(store(0, 3));
    }
    let global = rng.below(3);
    launch(rng, sketch, global)
}

/// A small launch of another kind: racing, stuck, endless or sound, without a
/// common cell; some of its loads may become such as have none to reach.
fn without_common(rng: &mut Rng) -> SmallLaunch {
    for _ in 0..8 {
        let mut launch = if rng.one_in(3) {
            groups(rng)
        } else {
            one_group(rng)
        };
        if launch.groups == 1 && launch.threads == 3 {
            launch.threads = 2;
        }
        if launch.groups * launch.threads <= 2 && launch.table.len() <= 4 * 9 {
            return launch;
        }
    }
    SmallLaunch {
        table: vec![],
        threads: 2,
        groups: 1,
        cells: vec![rng.below(3)],
        global: vec![],
    }
}
