//! Intervals between barriers that use cells here and there: one far up, the
//! last, those around powers of two, a row of them or all, each by some of the
//! threads. In the next interval other threads use them, or the launch ends:
//! either way a mask that a barrier left behind is seen.
//!
//! R0 is the thread's number, R1 is 1, R7 the number of threads and R9 one
//! less; R15 stays 0. R2 is the thread's lane, its number or that counted from
//! above. In most intervals a thread uses only the cells of its lane, those
//! whose number leaves the lane when divided by the number of threads, so that
//! no two meet.

use crate::asm::*;
use crate::patterns::SKIPPED;
use crate::plan::Plan;
use crate::rng::Rng;

/// Cells at which a number of too few bits, or one of whole blocks, goes wrong.
const EDGES: [u32; 18] = [
    0, 1, 7, 8, 31, 32, 63, 64, 127, 128, 255, 256, 511, 512, 767, 768, 1_022, 1_023,
];

/// Those of them at which eight and nine bits end.
const BYTES: [u32; 4] = [255, 256, 511, 512];

/// What the intervals of a launch have in common.
struct Common {
    threads: u32,
    cells: u32,
    /// Each interval reaches up to one of these cells.
    tops: [u32; 2],
    /// Cells may be added to.
    adds: bool,
}

/// One to four intervals with a barrier behind each, or a loop of them; then
/// the end or one interval more.
pub fn intervals(rng: &mut Rng) -> Plan {
    let threads = rng.threads();
    let cells = cell_count(rng, threads);
    let common = Common {
        threads,
        cells,
        tops: [0; 2].map(|_| top(rng, cells)),
        adds: !rng.one_in(3),
    };
    let mut rows = vec![tid(0), set(1, 1), count(7), sub(9, 7, 1), tid(2)];
    if rng.one_in(5) {
        rows.extend(looped(rng, &common));
    } else {
        for _ in 0..rng.range(1, 4) {
            rows.extend(interval(rng, &common));
            rows.extend(parting(rng));
            if rows.len() > 80 {
                break; // one interval more fits in any case
            }
        }
    }
    if rng.one_in(2) {
        rows.extend(interval(rng, &common));
    }
    let cells = words(rng, cells);
    Plan::new(rng, threads, rows, cells)
}

fn cell_count(rng: &mut Rng, threads: u32) -> u32 {
    match rng.below(8) {
        0..=4 => 1_024,
        5 => rng.pick(&EDGES) + 1,
        6 => rng.range(1, 1_024),
        _ => threads + rng.below(40),
    }
}

/// The highest cell of an interval.
fn top(rng: &mut Rng, cells: u32) -> u32 {
    match rng.below(8) {
        0..=2 => cells - 1,
        3 | 4 => rng.pick(&BYTES).min(cells - 1),
        5 => rng.pick(&EDGES).min(cells - 1),
        _ => rng.below(cells),
    }
}

/// Small words in half of the launches: none of them passes for a cell far up.
fn words(rng: &mut Rng, count: u32) -> Vec<u32> {
    let small = rng.one_in(2);
    let word = |rng: &mut Rng| if small { rng.below(4) } else { rng.word() };
    (0..count).map(|_| word(rng)).collect()
}

/// Up to three uses of cells, of which any may be that of the highest.
fn interval(rng: &mut Rng, common: &Common) -> Vec<Row> {
    let top = rng.pick(&common.tops);
    if rng.one_in(5) {
        return together(rng, common, top);
    }
    let uses = rng.range(1, 3);
    let highest = rng.below(uses);
    let mut rows = vec![];
    for which in 0..uses {
        let cell = if which == highest {
            top
        } else {
            rng.below(top + 1)
        };
        let used = use_up_to(rng, common, cell);
        rows.extend(framed(rng, used));
    }
    rows
}

/// The cell alone, those of its row up to it, its whole row, or all cells up
/// to it. A row of cells has one for each lane.
fn use_up_to(rng: &mut Rng, common: &Common, cell: u32) -> Vec<Row> {
    let row = cell / common.threads;
    let first = row * common.threads;
    let whole = first + common.threads <= common.cells;
    match rng.below(6) {
        0 | 1 if row < 256 => walk(rng, common, cell),
        2 if whole => [address(first), accesses(rng, common)].concat(),
        _ => some_of_row(rng, common, cell),
    }
}

/// The cell alone, or those of its row up to it.
fn some_of_row(rng: &mut Rng, common: &Common, cell: u32) -> Vec<Row> {
    let first = address(cell / common.threads * common.threads);
    let test = if rng.one_in(3) {
        vec![set(6, cell + 1), lt(6, 3, 6)]
    } else {
        vec![set(6, cell), eq(6, 3, 6)]
    };
    [first, test, by_some(rng, common)].concat()
}

/// R3 is the lane's cell in the row of cells from `first` on.
fn address(first: u32) -> Vec<Row> {
    vec![set(3, first), add(3, 3, 2)]
}

/// All cells up to one, upwards or downwards, each thread those of its lane.
fn walk(rng: &mut Rng, common: &Common, cell: u32) -> Vec<Row> {
    let bound = vec![set(8, cell + 1), lt(6, 3, 8)];
    let (start, step) = if rng.one_in(2) {
        ([address(0), bound].concat(), add(3, 3, 7))
    } else {
        let first = address(cell / common.threads * common.threads);
        // Lanes behind the cell start one row of cells lower.
        let lower = vec![eq(6, 6, 15), mul(6, 6, 7), sub(3, 3, 6), lt(6, 3, 8)];
        ([first, bound, lower].concat(), sub(3, 3, 7))
    };
    let tail = vec![step, lt(6, 3, 8), ENDWHILE];
    let used = accesses(rng, common);
    [start, vec![begin_while(6)], used, tail].concat()
}

/// The cell numbered R3 used where R6 is true, in either arm of an IF; the
/// other arm may use a cell of the first row.
fn by_some(rng: &mut Rng, common: &Common) -> Vec<Row> {
    let some = accesses(rng, common);
    let others = if common.cells >= common.threads && rng.one_in(2) {
        access(rng, common, 2)
    } else {
        tid(5)
    };
    match rng.below(4) {
        0 => [vec![begin_if(6)], some, vec![ELSE, others, ENDIF]].concat(),
        1 => {
            let head = vec![eq(6, 6, 15), begin_if(6), others, ELSE];
            [head, some, vec![ENDIF]].concat()
        }
        _ => [vec![begin_if(6)], some, vec![ENDIF]].concat(),
    }
}

/// Mostly one access to the cell numbered R3.
fn accesses(rng: &mut Rng, common: &Common) -> Vec<Row> {
    let number = rng.pick(&[1, 1, 1, 2, 3]);
    (0..number).map(|_| access(rng, common, 3)).collect()
}

/// A LOAD, STORE or ATOMIC ADD. What is stored or added is mostly far less
/// than the cell's number.
fn access(rng: &mut Rng, common: &Common, at: u8) -> Row {
    let value = rng.pick(&[0, 1, 4, 15]);
    match rng.below(3) {
        0 => load(4, at),
        1 if common.adds => atomic_add(at, value),
        _ => store(at, value),
    }
}

/// One cell loaded or added to by all threads, or by all but thread 0.
fn together(rng: &mut Rng, common: &Common, cell: u32) -> Vec<Row> {
    let row = if common.adds && rng.one_in(2) {
        atomic_add(3, rng.pick(&[0, 1, 15]))
    } else {
        load(4, 3)
    };
    let rows = if rng.one_in(3) {
        vec![begin_if(0), row, ENDIF]
    } else {
        vec![row]
    };
    [vec![set(3, cell)], framed(rng, rows)].concat()
}

/// Rows inside up to three constructs that all threads go into once. Some of
/// these skip a barrier on the way.
fn framed(rng: &mut Rng, mut rows: Vec<Row>) -> Vec<Row> {
    for depth in 0..rng.pick(&[0, 0, 0, 1, 1, 2, 3]) {
        let (head, tail) = match rng.below(4) {
            0 => (vec![begin_if(1)], vec![ENDIF]),
            1 => (vec![begin_if(1)], vec![ELSE, BARRIER, ENDIF]),
            2 => (vec![begin_if(15), BARRIER, ELSE], vec![ENDIF]),
            _ => once(10 + depth),
        };
        rows = [head, rows, tail].concat();
    }
    rows
}

/// A loop of one trip.
fn once(counter: u8) -> (Vec<Row>, Vec<Row>) {
    let head = vec![set(counter, 1), begin_while(counter)];
    (head, vec![set(counter, 0), ENDWHILE])
}

/// A barrier, alone or beside another one or a skipped one, or inside a
/// construct; now and then a skipped one only. Behind it the lanes are mostly
/// other threads'.
fn parting(rng: &mut Rng) -> Vec<Row> {
    let skipped = SKIPPED.to_vec();
    let mut rows = match rng.below(12) {
        0 => skipped,
        1 | 2 => [skipped, vec![BARRIER]].concat(),
        3 => [vec![BARRIER], skipped].concat(),
        4 => vec![BARRIER, BARRIER],
        5 => vec![begin_if(1), BARRIER, ENDIF],
        6 => {
            let (head, tail) = once(13);
            [head, vec![BARRIER], tail].concat()
        }
        _ => vec![BARRIER],
    };
    if !rng.one_in(4) {
        rows.push(sub(2, 9, 2));
    }
    rows
}

/// The same interval a few times, or more often than a byte can count, by
/// threads that take turns.
fn looped(rng: &mut Rng, common: &Common) -> Vec<Row> {
    let (trips, inside) = if rng.one_in(2) {
        let used = some_of_row(rng, common, common.tops[0]);
        (rng.range(257, 262), used)
    } else {
        (rng.range(2, 5), interval(rng, common))
    };
    let head = vec![set(14, trips), begin_while(14)];
    let tail = vec![BARRIER, sub(2, 9, 2), sub(14, 14, 1), ENDWHILE];
    [head, inside, tail].concat()
}
