//! Small files with one slip or two: in the spelling, in the header's
//! numbers, in the table. All else in them is sound, so that a slip let
//! through is seen.

use crate::damage::stretch;
use crate::headers::{out_of_range, set_number, LIMIT, NUMBERS};
use crate::plan::{join, Plan, HEADER_LINES};
use crate::rng::Rng;
use crate::spelling::{misspell, misspell_row};
use crate::tables::{filler, table};

type Lines = Vec<Vec<u8>>;

/// A few rows and cells, of which no run takes long; about a third of them for
/// several groups or with global cells.
pub fn small_plan(rng: &mut Rng) -> Plan {
    let (groups, global) = match rng.below(9) {
        0 => (1, rng.range(1, 3)),
        1 => (rng.range(2, 8), 0),
        2 => (rng.range(2, 3), rng.range(1, 3)),
        _ => (1, 0),
    };
    let count = groups * rng.range(1, 4);
    Plan {
        threads: rng.range(1, 4),
        groups,
        limit: rng.below(12),
        rows: filler(rng, 4),
        cells: (0..count).map(|_| rng.word()).collect(),
        global: (0..global).map(|_| rng.word()).collect(),
    }
}

/// A small plan with a table that is turned back, or nearly.
pub fn small_faulty_plan(rng: &mut Rng) -> Plan {
    let threads = rng.threads();
    let rows = table(rng);
    Plan {
        threads,
        limit: rng.below(200),
        rows,
        ..small_plan(rng)
    }
}

/// One line misspelt, of any kind; now and then two, or one beside a table
/// that is turned back.
pub fn misspelt(rng: &mut Rng) -> Vec<u8> {
    let plan = if rng.one_in(6) {
        small_faulty_plan(rng)
    } else {
        small_plan(rng)
    };
    let mut lines = plan.lines();
    misspell_some_line(rng, &mut lines, &plan);
    if rng.one_in(8) {
        misspell_some_line(rng, &mut lines, &plan);
    }
    join(&lines)
}

/// One fault of the bytes: a line end lost, something behind the end, or a
/// file that is as long as it may be, or longer.
pub fn hurt_bytes(rng: &mut Rng) -> Vec<u8> {
    let mut file = small_plan(rng).file();
    match rng.below(5) {
        0 => lose_a_line_end(rng, &mut file),
        1 | 2 => stretch(rng, &mut file),
        _ => {
            let behind: &[&[u8]] = &[
                b"\n",
                b"\n",
                b"\0",
                b" ",
                b"\r",
                b"e",
                b"end=kernel\n",
                b"x\n",
            ];
            file.extend_from_slice(rng.pick(behind));
        }
    }
    file
}

fn misspell_some_line(rng: &mut Rng, lines: &mut Lines, plan: &Plan) {
    let (rows, global) = (plan.rows.len(), plan.global.len());
    let cells = plan.cells.len() + global;
    let at = match rng.below(14) {
        // A global cell's, right before the end.
        0..=2 if global > 0 => lines.len() - 2 - rng.index(global),
        0..=5 => rng.index(HEADER_LINES),
        6..=9 if rows > 0 => HEADER_LINES + rng.index(rows),
        10..=12 => HEADER_LINES + rows + cells,
        _ => HEADER_LINES + rows + rng.index(cells),
    };
    if (HEADER_LINES..HEADER_LINES + rows).contains(&at) && lines[at].starts_with(b"row=") {
        misspell_row(rng, &mut lines[at]);
    } else {
        misspell(rng, &mut lines[at]);
    }
}

/// Another byte in place of a line end.
pub fn lose_a_line_end(rng: &mut Rng, file: &mut [u8]) {
    let ends: Vec<usize> = (0..file.len()).filter(|&at| file[at] == b'\n').collect();
    if !ends.is_empty() {
        file[rng.pick(&ends)] = rng.pick(b"\r\0 ;\x0b");
    }
}

/// A header's number on either side of its limit, alone or with a second
/// fault in a later line.
pub fn headers(rng: &mut Rng) -> Vec<u8> {
    let plan = if rng.one_in(8) {
        small_faulty_plan(rng)
    } else {
        small_plan(rng)
    };
    let mut lines = plan.lines();
    let first = rng.index(NUMBERS);
    if rng.one_in(6) {
        // The last number in range, where no other line hangs on it.
        set_number(&mut lines, 0, rng.pick(&[1, 32]));
        set_number(&mut lines, LIMIT, rng.pick(&[0, 1, 999_999, 1_000_000]));
        return join(&lines);
    }
    let number = out_of_range(rng, first, &plan);
    set_number(&mut lines, first, number);
    match rng.below(6) {
        0 => {}
        1..=3 if first + 1 < NUMBERS => {
            let second = match rng.below(3) {
                0 => rng.range(first as u32 + 1, NUMBERS as u32 - 1) as usize,
                _ => first + 1,
            };
            if rng.one_in(2) {
                let number = out_of_range(rng, second, &plan);
                set_number(&mut lines, second, number);
            } else {
                misspell(rng, &mut lines[second + 1]);
            }
        }
        _ => misspell_some_line(rng, &mut lines, &plan),
    }
    join(&lines)
}

/// A table that is turned back, or nearly; now and then with a line that is
/// turned back before it.
pub fn faulty_table(rng: &mut Rng) -> Vec<u8> {
    let plan = small_faulty_plan(rng);
    let mut lines = plan.lines();
    if rng.one_in(8) {
        let from = HEADER_LINES + plan.rows.len();
        let at = from + rng.index(lines.len() - from);
        misspell(rng, &mut lines[at]);
    }
    join(&lines)
}
