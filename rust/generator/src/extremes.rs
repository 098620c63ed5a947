//! Launches at the edges: full tables, all cells, edge words, far shifts.

use crate::asm::*;
use crate::plan::Plan;
use crate::rng::Rng;
use crate::shifts::shift_amount;

const EXTREMES: [fn(&mut Rng) -> Plan; 8] = [
    word_table,
    built_words,
    full_table,
    straight_table,
    all_cells,
    nearly_empty,
    long_loop,
    long_loop,
];

/// One of the extremes.
pub fn extreme(rng: &mut Rng) -> Plan {
    rng.pick(&EXTREMES)(rng)
}

fn edge_words(rng: &mut Rng, count: u32) -> Vec<u32> {
    (0..count).map(|_| rng.edge()).collect()
}

/// Each thread works out ops on two edge words of its own, and keeps the
/// results in cells of its own.
fn word_table(rng: &mut Rng) -> Plan {
    let threads = rng.threads();
    let ops = rng.range(1, 11);
    let some_only = rng.one_in(2);
    let mut rows = vec![tid(0), count(1), add(3, 0, 1), load(2, 0), load(4, 3)];
    for _ in 0..ops {
        let op = rng.range(4, 14) as u8;
        rows.push(add(3, 3, 1));
        if some_only {
            let test = [rng.range(4, 14) as u8, 6, 2, 4];
            let otherwise = [rng.range(4, 14) as u8, 5, 4, 2];
            rows.extend([test, begin_if(6), [op, 5, 2, 4], ELSE, otherwise, ENDIF]);
        } else {
            rows.push([op, 5, 2, 4]);
        }
        rows.push(store(3, 5));
    }
    let cells = edge_words(rng, threads * (2 + ops));
    Plan::new(rng, threads, rows, cells)
}

/// Big words built from SET, shifted by amounts at the edges.
fn built_words(rng: &mut Rng) -> Plan {
    let threads = rng.threads();
    let (low, high) = (rng.word(), rng.word());
    let mut rows = vec![
        tid(0),
        set(1, low),
        set(2, high),
        set(3, 32_768),
        mul(2, 2, 3),
        add(2, 2, 2),
        add(1, 1, 2), // low + 2^16 * high
    ];
    for _ in 0..rng.range(1, 8) {
        let amount = shift_amount(rng);
        let op = rng.pick(&[10, 11]);
        rows.push(set(4, amount));
        if rng.one_in(3) {
            rows.push(sub(4, 15, 4)); // 2^32 less the amount
        }
        rows.push([op, 6, 1, 4]);
        rows.push([rng.range(4, 14) as u8, 1, 6, 1]);
    }
    rows.push(store(0, 1));
    let cells = edge_words(rng, threads);
    Plan::new(rng, threads, rows, cells)
}

/// As many rows as there may be, or one fewer.
fn full_table(rng: &mut Rng) -> Plan {
    let threads = rng.threads();
    let rows = rng.pick(&[255, 256, 256]);
    let mut table = vec![tid(0), set(1, 2), begin_while(1)];
    while table.len() < rows - 3 {
        let (d, a, b) = (rng.range(2, 15), rng.below(16), rng.below(16));
        let regs = [d as u8, a as u8, b as u8];
        table.push(match rng.below(13) {
            0 => BARRIER,
            1 => load(regs[0], 0),
            2 => store(0, regs[1]),
            3 => atomic_add(0, regs[1]),
            4 => [1, regs[0], rng.byte(), rng.byte()],
            _ => [rng.range(4, 14) as u8, regs[0], regs[1], regs[2]],
        });
    }
    table.extend([set(2, 1), sub(1, 1, 2), ENDWHILE]);
    let cells = edge_words(rng, threads);
    Plan::new(rng, threads, table, cells)
}

/// Plain rows to the last row there may be, at which the run stops or ends.
fn straight_table(rng: &mut Rng) -> Plan {
    let threads = rng.threads();
    let mut rows = vec![tid(0), set(1, 1), begin_if(0)];
    while rows.len() < 254 {
        rows.push([
            rng.range(4, 14) as u8,
            rng.range(2, 15) as u8,
            rng.below(16) as u8,
            1,
        ]);
    }
    // Row 255 is due, stops the run, or is its last.
    let outside = rng.pick(&[load(3, 2), store(2, 3), atomic_add(2, 3)]);
    let racing = rng.pick(&[store(15, 0), store(2, 0), atomic_add(15, 0)]);
    let plain = rng.pick(&[tid(3), atomic_add(2, 1)]);
    match rng.below(5) {
        0 => rows.splice(253.., [BARRIER, sub(1, 15, 1), ENDIF]),
        1 => rows.splice(253.., [ENDIF, sub(2, 15, 1), outside]),
        2 => rows.splice(253.., [ENDIF, tid(2), store(15, 0)]),
        3 => rows.splice(253.., [ENDIF, load(2, 15), racing]),
        _ => rows.splice(253.., [ENDIF, tid(2), plain]),
    }
    .for_each(drop);
    let cells = edge_words(rng, threads);
    let mut plan = Plan::new(rng, threads, rows, cells);
    if rng.one_in(2) {
        plan.limit = rng.pick(&[254, 255, 255, 256]);
    }
    plan
}

/// 1,024 cells, each written or added to by one thread in a strided loop.
fn all_cells(rng: &mut Rng) -> Plan {
    let threads = rng.threads();
    let count_cells = rng.pick(&[1_023, 1_024, 1_024]);
    let end = rng.pick(&[count_cells, count_cells, count_cells + 1]);
    let mut rows = vec![tid(0), count(1), set(2, end), lt(3, 0, 2), begin_while(3)];
    match rng.below(3) {
        0 => rows.extend([atomic_add(0, 0), atomic_add(0, 2)]),
        1 => rows.extend([load(4, 0), atomic_add(0, 4)]),
        _ => rows.extend([load(4, 0), mul(4, 4, 4), store(0, 4)]),
    }
    rows.extend([add(0, 0, 1), lt(3, 0, 2), ENDWHILE]);
    let cells = edge_words(rng, count_cells);
    Plan::new(rng, threads, rows, cells)
}

/// No row or one row, one cell.
fn nearly_empty(rng: &mut Rng) -> Plan {
    let threads = rng.threads();
    let rows = match rng.below(6) {
        0 => vec![],
        1 => vec![BARRIER],
        2 => vec![store(0, 0)],
        3 => vec![load(15, 15)],
        4 => vec![atomic_add(15, 0)],
        _ => vec![tid(15)],
    };
    let cells = edge_words(rng, 1);
    Plan::new(rng, threads, rows, cells)
}

/// A loop without an end, run until a count is past 8 or 16 bits: barriers,
/// steps, or now and then rows as well.
fn long_loop(rng: &mut Rng) -> Plan {
    let (threads, limit) = match rng.below(10) {
        0 => (rng.range(1, 2), rng.range(196_620, 200_000)),
        1..=4 => (32, rng.range(2_060, 2_400)),
        _ => (rng.range(1, 8), rng.range(800, 1_600)),
    };
    let inside = if threads == 32 { tid(2) } else { BARRIER };
    let rows = vec![set(1, 1), begin_while(1), inside, ENDWHILE];
    let cells = edge_words(rng, 1);
    Plan::limited(threads, limit, rows, cells)
}
