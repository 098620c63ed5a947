//! Kernels whose accesses meet in banks, by barrier interval: cells at even
//! distances, cells of several threads, cells looked up, by all threads or some,
//! straight or in arms and loops. Then a barrier, a skipped one or a stop, in
//! a row that has conflicts itself; or more barriers than there are records.
//!
//! R0 is the thread's number, R1 is 1 and R13 a number of ones, all cells up to
//! which there are; R15 stays 0. R3 is the number of the cell to be used, R14
//! counts loops of all threads and R12 those of each, the others are for any use.

use crate::asm::*;
use crate::patterns::SKIPPED;
use crate::plan::Plan;
use crate::rng::Rng;

/// Distances of two threads' cells: in one bank, in neighbouring ones, in each
/// second one and so on, also as with 8 or 32 banks.
const DISTANCES: [u32; 20] = [
    16, 16, 16, 16, 32, 32, 48, 64, 1, 1, 2, 4, 8, 8, 15, 15, 17, 17, 24, 0,
];

/// What all intervals of a launch have in common.
#[derive(Clone, Copy)]
struct Common {
    threads: u32,
    cells: u32,
    /// Each cell's word is a cell's number.
    linked: bool,
    adds: bool,
}

/// What the accesses of an interval are, so that they don't race: loads of any
/// cells, adds to any cells, or any accesses of cells that each thread has for
/// itself.
#[derive(Clone, Copy, PartialEq, Eq)]
enum Kind {
    Loads,
    Adds,
    Own,
}

/// One of the kernels.
pub fn banks(rng: &mut Rng) -> Plan {
    match rng.below(200) {
        0..=6 => past_24_bits(rng),
        7..=14 => past_16_bits(rng),
        15..=22 => nearly_empty(rng),
        23..=34 => full_table(rng),
        35..=46 => far_apart(rng),
        47..=86 => all_records(rng),
        _ => intervals(rng),
    }
}

fn common(rng: &mut Rng) -> Common {
    let threads = match rng.below(4) {
        0 => rng.threads(),
        1 => rng.pick(&[15, 16, 17, 18, 30, 31]),
        _ => 32,
    };
    let cells = match rng.below(8) {
        0..=4 => 1_024,
        5 => rng.pick(&[32, 64, 128, 256, 512]),
        6 => threads + rng.below(40),
        _ => rng.range(threads, 1_024),
    };
    Common {
        threads,
        cells,
        linked: rng.one_in(2),
        adds: !rng.one_in(3),
    }
}

/// The last cell up to which R13 reaches.
fn last(common: &Common) -> u32 {
    (1 << common.cells.ilog2()) - 1
}

fn head(common: &Common) -> Vec<Row> {
    vec![tid(0), set(1, 1), set(13, last(common))]
}

/// Any words, or numbers of cells: any of them, or such as lie in few banks.
fn words(rng: &mut Rng, common: &Common) -> Vec<u32> {
    let apart = rng.pick(&[1, 1, 16, 16, 8, 32]);
    let word = |rng: &mut Rng| match common.linked {
        true => rng.below(common.cells) / apart * apart,
        false => rng.word(),
    };
    (0..common.cells).map(|_| word(rng)).collect()
}

/// One to five intervals, with a stop among them or none.
fn intervals(rng: &mut Rng) -> Plan {
    let common = common(rng);
    let mut table = vec![BARRIER; rng.pick(&[0, 0, 0, 0, 1, 2])];
    table.extend(head(&common));
    let number = rng.range(1, 5);
    let stop_in = if rng.percent(60) {
        rng.below(number)
    } else {
        number
    };
    for nth in 0..number {
        table.extend(interval(rng, &common));
        if nth == stop_in {
            table.extend(stop(rng, &common));
        }
        if table.len() > 160 {
            break; // one interval more fits in any case
        }
        table.extend(parting(rng));
    }
    if rng.one_in(3) {
        table.extend(interval(rng, &common));
    }
    if rng.one_in(4) {
        table.push(BARRIER);
    }
    limited(rng, &common, table)
}

/// A plan that is now and then spent anywhere on the way.
fn limited(rng: &mut Rng, common: &Common, table: Vec<Row>) -> Plan {
    let cells = words(rng, common);
    let mut plan = Plan::new(rng, common.threads, table, cells);
    if rng.one_in(5) {
        let needed = plan.rows_needed().unwrap_or(2_000);
        plan.limit = match rng.below(2) {
            0 => needed.saturating_sub(rng.below(12)),
            _ => rng.below(needed + 1),
        };
    }
    plan
}

/// One to three uses of cells.
fn interval(rng: &mut Rng, common: &Common) -> Vec<Row> {
    let kinds: &[Kind] = if common.adds {
        &[Kind::Loads, Kind::Loads, Kind::Adds, Kind::Own]
    } else {
        &[Kind::Loads, Kind::Loads, Kind::Own]
    };
    let kind = rng.pick(kinds);
    let mut rows = vec![];
    if kind == Kind::Own {
        rows.extend(own_cells(rng, common));
    }
    for _ in 0..rng.range(1, 3) {
        if kind != Kind::Own {
            rows.extend(address(rng, common, kind));
        }
        let used = accesses(rng, common, kind);
        rows.extend(around(rng, common, kind, used));
    }
    rows
}

/// R3 is a cell of the thread's own, at an even distance from the others'.
fn own_cells(rng: &mut Rng, common: &Common) -> Vec<Row> {
    let others = common.threads - 1;
    let most = (common.cells - 1) / others.max(1);
    let distance = match rng.pick(&DISTANCES) {
        distance if (1..=most).contains(&distance) => distance,
        _ => rng.range(1, most.max(1)),
    };
    // Where the cells are fewer than the threads, some are outside.
    let behind = (common.cells - 1).saturating_sub(distance * others);
    let first = rng.below(behind.min(20) + 1);
    let mut rows = vec![set(5, distance), mul(3, 0, 5), set(6, first), add(3, 3, 6)];
    if rng.one_in(4) {
        // Downwards.
        rows.extend([set(6, distance * others + 2 * first), sub(3, 6, 3)]);
    }
    rows
}

/// R3 is the number of a cell, mostly one that other threads use too, or in
/// a bank that they use.
fn address(rng: &mut Rng, common: &Common, kind: Kind) -> Vec<Row> {
    let looked_up = kind == Kind::Loads && rng.one_in(3);
    let mut rows = if looked_up {
        look_up(rng, common)
    } else {
        worked_out(rng)
    };
    rows.push(and(3, 3, 13));
    if rng.one_in(6) {
        rows.push(sub(3, 13, 3)); // downwards
    }
    rows
}

/// The number is a cell's word; where all words are numbers of cells, it is
/// gone on from there, by loads whose own number they replace.
fn look_up(rng: &mut Rng, common: &Common) -> Vec<Row> {
    let mut rows = vec![load(3, 0)];
    if common.linked {
        let more = rng.below(4);
        rows.extend((0..more).map(|_| load(3, 3)));
    }
    rows
}

fn worked_out(rng: &mut Rng) -> Vec<Row> {
    let distance = rng.pick(&DISTANCES);
    let rest = match rng.below(3) {
        0 => vec![],
        1 => vec![set(6, rng.below(40)), add(3, 3, 6)],
        _ => vec![set(6, rng.below(1_024)), add(3, 3, 6)],
    };
    let rows = match rng.below(9) {
        // Neighbours share a cell, or those so far apart.
        0 => vec![set(5, rng.range(1, 4)), shr(3, 0, 5)],
        1 => vec![set(5, rng.pick(&[1, 3, 7, 15, 5, 10])), and(3, 0, 5)],
        // Banks with unequal numbers of cells.
        2 => vec![mul(3, 0, 0)],
        3 => vec![mul(3, 0, 0), mul(3, 3, 0)],
        4 => vec![set(5, rng.pick(&[3, 7, 12])), and(3, 0, 5), add(3, 3, 0)],
        // As the loop's count says.
        5 => vec![add(3, 0, 14), mul(3, 3, 14)],
        _ => vec![tid(3)],
    };
    [rows, vec![set(5, distance), mul(3, 3, 5)], rest].concat()
}

/// One to three accesses of the cell numbered R3, one behind the other.
fn accesses(rng: &mut Rng, common: &Common, kind: Kind) -> Vec<Row> {
    let number = rng.pick(&[1, 1, 2, 3]);
    // Now and then such as race.
    let kind = if rng.one_in(20) { Kind::Own } else { kind };
    (0..number).map(|_| access(rng, common, kind)).collect()
}

fn access(rng: &mut Rng, common: &Common, kind: Kind) -> Row {
    let value = rng.pick(&[0, 1, 15]);
    match (kind, rng.below(3)) {
        // The number's own register, where what is loaded is a number too.
        (Kind::Loads, 0) if common.linked => load(3, 3),
        (Kind::Loads, _) | (Kind::Own, 0) => load(4, 3),
        (Kind::Adds, _) => atomic_add(3, value),
        (Kind::Own, 1) if common.adds => atomic_add(3, value),
        (Kind::Own, _) => store(3, value),
    }
}

/// The accesses by all threads, by some or by others and some, once or in a
/// loop, of which some threads may make more trips than others.
fn around(rng: &mut Rng, common: &Common, kind: Kind, used: Vec<Row>) -> Vec<Row> {
    match rng.below(7) {
        0 | 1 => [some(rng, common), vec![begin_if(2)], used, vec![ENDIF]].concat(),
        2 => {
            let others = accesses(rng, common, kind);
            let head = [some(rng, common), vec![begin_if(2)]].concat();
            [head, used, vec![ELSE], others, vec![ENDIF]].concat()
        }
        3 => trips(rng, common, kind, used),
        4 => {
            let start = rng.pick(&[[set(5, 3), and(12, 0, 5)], [set(5, 29), lt(12, 5, 0)]]);
            let tail = vec![sub(12, 12, 1), ENDWHILE];
            [start.to_vec(), vec![begin_while(12)], used, tail].concat()
        }
        _ => used,
    }
}

/// R2 is true for some threads: each second or fourth, those up to a number or
/// from one on, two of them, or any.
fn some(rng: &mut Rng, common: &Common) -> Vec<Row> {
    let number = rng.below(common.threads + 1);
    match rng.below(6) {
        0 => vec![and(2, 0, 1)],
        1 => vec![set(5, rng.pick(&[2, 3, 4, 16, 20])), and(2, 0, 5)],
        2 => vec![set(5, number), lt(2, 0, 5)],
        3 => vec![set(5, number), lt(2, 5, 0)],
        4 => vec![set(5, rng.below(16)), and(2, 0, 5), eq(2, 2, 15)],
        _ => {
            let some_of = set(2, rng.below(1 << 16));
            let place = [set(5, 15), and(5, 0, 5)];
            [&place[..], &[some_of, shr(2, 2, 5), and(2, 2, 1)]].concat()
        }
    }
}

/// A loop of all threads: the same cells each time or others, with a barrier
/// inside or none.
fn trips(rng: &mut Rng, common: &Common, kind: Kind, used: Vec<Row>) -> Vec<Row> {
    let mut rows = vec![set(14, rng.range(1, 9)), begin_while(14)];
    if kind != Kind::Own && rng.one_in(2) {
        rows.extend(worked_out(rng));
        rows.push(and(3, 3, 13));
    }
    rows.extend(used);
    if rng.one_in(2) {
        rows.extend(parting(rng));
        if rng.one_in(3) {
            rows.push(access(rng, common, kind));
        }
    }
    rows.extend([sub(14, 14, 1), ENDWHILE]);
    rows
}

/// A barrier, two or three, one inside a construct, a skipped one beside
/// another or alone, with rows between or none.
fn parting(rng: &mut Rng) -> Vec<Row> {
    let skipped = SKIPPED.to_vec();
    match rng.below(12) {
        0 => skipped,
        1 => [skipped, vec![BARRIER]].concat(),
        2 => [vec![BARRIER], skipped].concat(),
        3 => vec![BARRIER, BARRIER],
        4 => vec![BARRIER, tid(8), BARRIER, BARRIER],
        5 => vec![begin_if(1), BARRIER, ENDIF],
        6 => vec![set(11, 1), begin_while(11), BARRIER, set(11, 0), ENDWHILE],
        _ => vec![BARRIER],
    }
}

/// A row that stops the run, with conflicts of its own, behind one that has
/// some and is finished, or a barrier that not all come to.
fn stop(rng: &mut Rng, common: &Common) -> Vec<Row> {
    let most = (common.cells - 1) / (common.threads - 1).max(1);
    let distance = rng.pick(&[1, 8, 15, 16, 16, 16, 17, 32]).min(most.max(1));
    let mine = match rng.below(2) {
        0 => common.threads - 1,
        _ => rng.below(common.threads),
    };
    let even = vec![set(5, distance), mul(3, 0, 5), set(6, mine), eq(6, 0, 6)];
    let before = if rng.one_in(2) {
        vec![load(4, 3)]
    } else {
        vec![]
    };
    let rows = match rng.below(8) {
        0 | 1 | 7 => {
            let far = rng.pick(&[1_024, 32_768, common.cells]);
            let access = rng.pick(&[load(4, 3), store(3, 0), atomic_add(3, 1)]);
            vec![set(8, far), mul(6, 6, 8), add(3, 3, 6), access]
        }
        // A lower thread has just used the cell.
        2 | 3 | 6 => {
            let lower = distance * rng.range(mine.min(1), mine);
            vec![set(8, lower), mul(6, 6, 8), sub(3, 3, 6), store(3, 0)]
        }
        _ => {
            let reached = if rng.one_in(2) { load(4, 3) } else { tid(8) };
            let arm = vec![begin_if(2), reached, BARRIER, ENDIF];
            [some(rng, common), arm].concat()
        }
    };
    [even, before, rows, vec![tid(8), BARRIER]].concat()
}

/// No row, or hardly any.
fn nearly_empty(rng: &mut Rng) -> Plan {
    let threads = rng.threads();
    let rows = match rng.below(6) {
        0 => vec![BARRIER],
        1 => vec![BARRIER, BARRIER],
        2 => vec![tid(0), load(0, 0), BARRIER],
        _ => vec![],
    };
    let cells = (0..rng.range(1, 40)).map(|_| rng.word()).collect();
    Plan::new(rng, threads, rows, cells)
}

/// As many rows as there may be, or one fewer, with a barrier as the last.
fn full_table(rng: &mut Rng) -> Plan {
    let common = common(rng);
    let mut rows = head(&common);
    rows.extend(address(rng, &common, Kind::Loads));
    let length = rng.pick(&[255, 256, 256, 256]);
    while rows.len() + 1 < length {
        let row = [load(4, 3), load(4, 0), tid(8), BARRIER];
        rows.push(rng.pick(&row));
    }
    rows.push(BARRIER);
    limited(rng, &common, rows)
}

/// As many releases as there are records, one or two more or fewer, or many
/// more; costs and rows in each interval, and behind the loop.
fn all_records(rng: &mut Rng) -> Plan {
    let mut common = common(rng);
    if rng.one_in(2) {
        common.threads = rng.pick(&[2, 3, 17, 18]);
        common.cells = common.cells.max(common.threads);
    }
    let releases = match rng.below(8) {
        0 | 1 => rng.range(1_027, 1_100),
        2 => rng.range(1_100, 2_500),
        _ => rng.pick(&[1_023, 1_023, 1_024, 1_024, 1_024, 1_025, 1_025, 1_026]),
    };
    let a_trip = rng.pick(&[1, 1, 2, 3, 5, 8]);
    let mut rows = head(&common);
    let kind = if common.adds && rng.one_in(3) {
        Kind::Adds
    } else {
        Kind::Loads
    };
    rows.extend(address(rng, &common, kind));
    for _ in 0..releases % a_trip {
        rows.extend([access(rng, &common, kind), BARRIER]);
    }
    rows.extend([set(14, releases / a_trip), begin_while(14)]);
    let costly = rng.below(a_trip);
    for nth in 0..a_trip {
        if nth == costly {
            rows.extend(used_in_trip(rng, &common, kind));
        }
        rows.push(BARRIER);
    }
    if rng.one_in(4) {
        rows.push(access(rng, &common, kind));
    }
    rows.extend([sub(14, 14, 1), ENDWHILE]);
    match rng.below(6) {
        0 => {}
        1 => rows.extend(SKIPPED),
        2 => rows.extend(stop(rng, &common)),
        3 => rows.extend([interval(rng, &common), vec![BARRIER]].concat()),
        _ => rows.extend(interval(rng, &common)),
    }
    let mut plan = limited(rng, &common, rows);
    if rng.one_in(3) {
        // About where the last of all records starts.
        let needed = plan.rows_needed().unwrap_or(20_000);
        plan.limit = (needed / releases * 1_024 + rng.below(20)).min(needed);
    }
    plan
}

/// Accesses that cost another number in each trip, or in some trips only.
fn used_in_trip(rng: &mut Rng, common: &Common, kind: Kind) -> Vec<Row> {
    let used = accesses(rng, common, kind);
    match rng.below(4) {
        0 => vec![],
        1 => used,
        2 => [vec![mul(3, 0, 14), and(3, 3, 13)], used].concat(),
        _ => {
            let mut rows = vec![set(5, rng.pick(&[1, 3, 15])), and(2, 14, 5), begin_if(2)];
            rows.extend(used);
            rows.push(ENDIF);
            rows
        }
    }
}

/// The same cells used twice, so many rows apart that too few bits of the
/// number of rows run would take both for one.
fn far_apart(rng: &mut Rng) -> Plan {
    let common = common(rng);
    let apart = rng.pick(&[256, 512, 768, 4_096, 65_536, 65_536, 65_536, 131_072]);
    let mut rows = head(&common);
    rows.extend([set(5, rng.pick(&[16, 32, 8])), mul(3, 0, 5), and(3, 3, 13)]);
    rows.extend(vec![tid(8); rng.index(4)]);
    rows.push(load(4, 3));
    // SET, so many trips, and WHILE once more.
    let inside = rng.range(1, 13);
    let (trips, left) = ((apart - 3) / (inside + 3), (apart - 3) % (inside + 3));
    rows.extend([set(14, trips), begin_while(14)]);
    rows.extend((0..inside).map(|_| rng.pick(&[tid(8), add(8, 8, 1), mul(8, 8, 0)])));
    rows.extend([sub(14, 14, 1), ENDWHILE]);
    rows.extend((0..left).map(|_| tid(8)));
    rows.push(load(4, 3));
    let cells = words(rng, &common);
    let limit = rng.pick(&[apart + 100, 1_000_000]);
    Plan::limited(common.threads, limit, rows, cells)
}

/// Many accesses of 32 cells in one bank, again and again: the cost of an
/// interval is past 16 bits, or that of all.
fn past_16_bits(rng: &mut Rng) -> Plan {
    let a_trip = rng.range(20, 40);
    let trips = 70_000 / (31 * a_trip) + rng.below(20);
    let (mut rows, cells) = one_bank(rng);
    if rng.one_in(2) {
        rows.push(BARRIER);
    }
    rows.extend([set(14, trips), begin_while(14)]);
    rows.extend(vec![
        rng.pick(&[load(4, 3), atomic_add(3, 1)]);
        a_trip as usize
    ]);
    if rng.one_in(3) {
        rows.push(BARRIER);
    }
    rows.extend([sub(14, 14, 1), ENDWHILE]);
    if rng.one_in(2) {
        rows.extend([BARRIER, load(4, 3), tid(8)]);
    }
    Plan::new(rng, 32, rows, cells)
}

/// The same without an end, until all costs together are past 24 bits.
fn past_24_bits(rng: &mut Rng) -> Plan {
    let (mut rows, cells) = one_bank(rng);
    rows.push(begin_while(1));
    rows.extend(vec![rng.pick(&[load(4, 3), store(3, 1)]); 60]);
    if rng.one_in(2) {
        rows.push(BARRIER);
    }
    rows.push(ENDWHILE);
    let limit = rng.range(570_000, 600_000);
    Plan::limited(32, limit, rows, cells)
}

/// R3 is one of 32 cells in one bank.
fn one_bank(rng: &mut Rng) -> (Vec<Row>, Vec<u32>) {
    let rows = vec![
        tid(0),
        set(1, 1),
        set(5, rng.pick(&[16, 32])),
        mul(3, 0, 5),
        set(6, rng.below(32)),
        add(3, 3, 6),
    ];
    (rows, (0..1_024).map(|_| rng.word()).collect())
}
