//! Files and tables with faults: in the rows, in the lines, in the bytes.

use checker::op;

use crate::asm::*;
use crate::plan::{join, Plan, HEADER_LINES};
use crate::rng::Rng;
use crate::spelling::hurt_number;
use crate::tables::wrong_row_in_frame;

type Lines = Vec<Vec<u8>>;

/// A file hurt in one way, or now and then in several.
pub fn damaged(rng: &mut Rng, mut plan: Plan) -> Vec<u8> {
    let kind = rng.below(10);
    if kind < 4 || rng.one_in(6) {
        plan = hurt_rows(rng, plan);
    }
    let mut lines = plan.lines();
    if (4..8).contains(&kind) || rng.one_in(12) {
        hurt_lines(rng, &mut lines);
    }
    let mut file = join(&lines);
    if kind >= 8 || rng.one_in(12) {
        hurt_bytes(rng, &mut file);
    }
    file
}

/// Entirely random bytes, from a small or a large alphabet, or none.
pub fn noise(rng: &mut Rng) -> Vec<u8> {
    let len = match rng.below(4) {
        0 => 0,
        1 => rng.below(4),
        _ => rng.below(400),
    };
    let alphabet: &[u8] = b"kernlthadscimtow=0123456789,-\n\n\n";
    let any = rng.one_in(2);
    let random = |rng: &mut Rng| if any { rng.byte() } else { rng.pick(alphabet) };
    let mut file: Vec<u8> = (0..len).map(|_| random(rng)).collect();
    if rng.one_in(3) {
        let start = b"kernel=1\nthreads=2\ncells=1\ngroups=2\nglobal=0\nlimit=9\nrows=1\n";
        file.splice(0..0, start.iter().copied());
    }
    file
}

/// Faults that the row checks find, refusals 2 to 7.
pub fn hurt_rows(rng: &mut Rng, mut plan: Plan) -> Plan {
    match rng.below(9) {
        0 => unknown_op(rng, &mut plan.rows),
        1 => wrong_operand(rng, &mut plan.rows),
        2 => wrong_row(rng, &mut plan.rows),
        3 => stray_end(rng, &mut plan.rows),
        4 => left_open(rng, &mut plan.rows),
        5 => drop_a_bound(rng, &mut plan.rows),
        6 => ninth_nesting(rng, &mut plan.rows),
        7 => second_else(rng, &mut plan.rows),
        _ => too_many_rows(rng, &mut plan.rows),
    }
    plan
}

fn insert_row(rng: &mut Rng, rows: &mut Vec<Row>, row: Row) {
    let at = rng.index(rows.len() + 1);
    rows.insert(at, row);
}

/// Inserted, or in place of a row that had its own part to play.
fn put_row(rng: &mut Rng, rows: &mut Vec<Row>, row: Row) {
    if rows.is_empty() || rng.one_in(3) {
        insert_row(rng, rows, row);
    } else {
        let at = rng.index(rows.len());
        rows[at] = row;
    }
}

fn unknown_op(rng: &mut Rng, rows: &mut Vec<Row>) {
    let code = match rng.below(3) {
        0 => rng.pick(&[0, 15, 23, 31, 38, 255]),
        1 => rng.range(38, 255) as u8,
        _ => rng.range(23, 31) as u8,
    };
    let operand = rng.pick(&[0, 0, 16, 255]);
    put_row(rng, rows, [code, operand, 0, operand]);
}

/// A register above 15, or an unused byte that is not 0.
fn wrong_operand(rng: &mut Rng, rows: &mut Vec<Row>) {
    if rows.is_empty() {
        return rows.push([op::TID, 16, 0, 0]);
    }
    let at = rng.index(rows.len());
    let byte = rng.range(1, 3) as usize;
    rows[at][byte] = rng.pick(&[1, 15, 16, 16, 17, 32, 128, 255]);
}

/// A row with one wrong byte, of any op.
fn wrong_row(rng: &mut Rng, rows: &mut Vec<Row>) {
    let at = rng.index(rows.len() + 1);
    rows.splice(at..at, wrong_row_in_frame(rng));
}

fn stray_end(rng: &mut Rng, rows: &mut Vec<Row>) {
    let row = rng.pick(&[ELSE, ENDIF, ENDWHILE]);
    insert_row(rng, rows, row);
}

/// An opening row too many, once or several times.
fn left_open(rng: &mut Rng, rows: &mut Vec<Row>) {
    for _ in 0..rng.range(1, 4) {
        let row = rng.pick(&[begin_if(0), begin_while(0)]);
        if rng.one_in(2) {
            insert_row(rng, rows, row);
        } else {
            rows.push(row);
        }
    }
    if rng.one_in(3) && rows.last() == Some(&begin_if(0)) {
        rows.push(ELSE);
    }
}

/// A construct's row lost, or turned into another construct's.
fn drop_a_bound(rng: &mut Rng, rows: &mut Vec<Row>) {
    let bounds: Vec<usize> = (0..rows.len())
        .filter(|&row| (op::IF..=op::ENDWHILE).contains(&rows[row][0]))
        .collect();
    if bounds.is_empty() {
        return rows.push(ENDIF);
    }
    let at = rng.pick(&bounds);
    if rng.one_in(2) {
        rows.remove(at);
    } else {
        rows[at] = rng.pick(&[ELSE, ENDIF, ENDWHILE, begin_if(1), begin_while(1)]);
    }
}

/// Nine or more constructs open at once; the ninth row may have another fault
/// besides, which then comes first.
fn ninth_nesting(rng: &mut Rng, rows: &mut Vec<Row>) {
    let ninth = match rng.below(6) {
        0 => begin_if(16),
        1 => [op::WHILE, 1, 0, 0],
        2 => [38, 0, 16, 1],
        3 => begin_while(2),
        _ => begin_if(2),
    };
    let mut tower = vec![];
    let mut ends = vec![];
    for _ in 0..8 {
        let (begin, end) = rng.pick(&[(begin_if(1), ENDIF), (begin_while(1), ENDWHILE)]);
        tower.push(begin);
        ends.insert(0, end);
    }
    tower.push(ninth);
    if rng.one_in(2) {
        let end = if ninth[0] == op::WHILE {
            ENDWHILE
        } else {
            ENDIF
        };
        tower.push(end);
        tower.extend(ends);
    }
    let at = rng.index(rows.len() + 1);
    rows.splice(at..at, tower);
}

fn second_else(rng: &mut Rng, rows: &mut Vec<Row>) {
    let at = rng.index(rows.len() + 1);
    let filler = set(9, 9);
    rows.splice(at..at, [begin_if(3), ELSE, filler, ELSE, ENDIF]);
}

fn too_many_rows(rng: &mut Rng, rows: &mut Vec<Row>) {
    let count = rng.pick(&[256, 257, 257, 258, 300]);
    rows.resize(count, set(9, 9));
}

/// Faults in whole lines or in a line's value.
fn hurt_lines(rng: &mut Rng, lines: &mut Lines) {
    let mut at = rng.index(lines.len());
    if rng.one_in(3) {
        at = rng.index(HEADER_LINES);
    }
    match rng.below(15) {
        0 => {
            lines.remove(at);
        }
        1 => {
            let line = lines[at].clone();
            lines.insert(at, line);
        }
        2 => {
            let next = (at + 1) % lines.len();
            lines.swap(at, next);
        }
        13 => global_first(lines),
        14 => rename_a_cell(rng, lines),
        3 => lines[at].push(b'\r'),
        4 => lines.iter_mut().for_each(|line| line.push(b'\r')),
        5 | 6 => hurt_number(rng, &mut lines[at]),
        7 => {
            let header = rng.index(HEADER_LINES);
            hurt_number(rng, &mut lines[header]);
        }
        _ => hurt_header(rng, lines),
    }
}

/// The global cells' lines before those of the own cells, or those of `groups=`
/// and `global=` exchanged where there are none.
fn global_first(lines: &mut Lines) {
    let first = |key: &[u8]| lines.iter().position(|line| line.starts_with(key));
    match (first(b"cell="), first(b"gcell="), lines.len()) {
        (Some(own), Some(global), len) if own < global => {
            lines[own..len - 1].rotate_left(global - own);
        }
        _ => lines.swap(3, 4),
    }
}

/// A cell's line under the other kind's key.
fn rename_a_cell(rng: &mut Rng, lines: &mut Lines) {
    let is_cell = |line: &[u8]| line.starts_with(b"cell=") || line.starts_with(b"gcell=");
    let cells: Vec<usize> = (0..lines.len()).filter(|&at| is_cell(&lines[at])).collect();
    if cells.is_empty() {
        return;
    }
    let line = &mut lines[rng.pick(&cells)];
    if line[0] == b'g' {
        line.remove(0);
    } else {
        line.insert(0, b'g');
    }
}

/// A header's number out of range, or at odds with the lines that follow.
fn hurt_header(rng: &mut Rng, lines: &mut Lines) {
    let around = |rng: &mut Rng, key: &[u8]| {
        let count = lines.iter().filter(|line| line.starts_with(key)).count();
        (count + rng.index(3)).saturating_sub(1) as u32
    };
    let (at, key, value) = match rng.below(14) {
        0 | 1 => (1, "threads", rng.pick(&[0, 33, 32, 1, u32::MAX])),
        2 | 3 => (2, "cells", rng.pick(&[0, 1_025, 1_024, u32::MAX])),
        4 | 5 => (3, "groups", rng.pick(&[0, 9, 8, 2, 1, u32::MAX])),
        6 => (4, "global", rng.pick(&[1_024, 1_025, 1, 0, u32::MAX])),
        7 => (4, "global", around(rng, b"gcell=")),
        8 | 9 => (5, "limit", rng.pick(&[1_000_001, 1_000_001, u32::MAX])),
        10 => (6, "rows", rng.pick(&[257, 257, 256, u32::MAX])),
        11 => (6, "rows", around(rng, b"row=")),
        _ => (2, "cells", around(rng, b"cell=")),
    };
    lines[at] = format!("{key}={value}").into_bytes();
}

/// Faults anywhere in the bytes, and faults of length.
fn hurt_bytes(rng: &mut Rng, file: &mut Vec<u8>) {
    let byte = match rng.below(3) {
        0 => rng.byte(),
        _ => rng.pick(b"\n\n\r\0 =,-+019:/"),
    };
    let at = rng.index(file.len());
    match rng.below(9) {
        0 => file[at] = byte,
        1 => file.insert(at, byte),
        2 => {
            file.remove(at);
        }
        3 => {
            file.pop();
        }
        4 => file.truncate(at),
        5 => file.push(byte),
        6 => file.extend_from_slice(b"end=kernel\n"),
        _ => stretch(rng, file),
    }
}

/// A file of 32,768 bytes, of 32,769, or longer. No sound file is as long, so
/// the bytes are put where a fault of its own is found, or behind the end.
pub fn stretch(rng: &mut Rng, file: &mut Vec<u8>) {
    let target = rng.pick(&[32_767, 32_768, 32_769, 32_769, 32_769, 40_000]);
    let missing = usize::saturating_sub(target, file.len());
    let filler = rng.pick(b"0019 x\n\0=");
    let at = match rng.below(3) {
        // Inside the last number or at a random place.
        0 => file.len().saturating_sub(b"\nend=kernel\n".len()),
        1 => rng.index(file.len() + 1),
        _ => file.len(),
    };
    if rng.one_in(3) {
        // Whole lines: as if more cells had been given.
        let lines = b"cell=4294967295\n".repeat(missing / 16 + 1);
        file.extend_from_slice(&lines[..missing]);
    } else {
        file.splice(at..at, std::iter::repeat_n(filler, missing));
    }
}
