//! Small tables that the row checks turn back, for one fault or for two at
//! once, and tables that they just let through.

use checker::op;

use crate::asm::*;
use crate::rng::Rng;

/// Which bytes of a row its op reads as registers: d, a, b. Accesses stand here
/// twice, so that they come up more often.
const OPS: [(u8, [bool; 3]); 31] = {
    const D: [bool; 3] = [true, false, false];
    const DAB: [bool; 3] = [true; 3];
    const DA: [bool; 3] = [true, true, false];
    const A: [bool; 3] = [false, true, false];
    const NONE: [bool; 3] = [false; 3];
    [
        (op::SET, D),
        (op::TID, D),
        (op::COUNT, D),
        (op::ADD, DAB),
        (op::SUB, DAB),
        (op::MUL, DAB),
        (op::AND, DAB),
        (op::OR, DAB),
        (op::XOR, DAB),
        (op::SHR, DAB),
        (op::SAR, DAB),
        (op::EQ, DAB),
        (op::LT, DAB),
        (op::SLT, DAB),
        (op::LOAD, DA),
        (op::LOAD, DA),
        (op::STORE, DA),
        (op::STORE, DA),
        (op::ATOMIC_ADD, DA),
        (op::ATOMIC_ADD, DA),
        (op::LAUNCH_NUMBER, D),
        (op::LAUNCH_NUMBER, D),
        (op::GLOBAL_LOAD, DA),
        (op::GLOBAL_STORE, DA),
        (op::GLOBAL_ADD, DA),
        (op::IF, A),
        (op::ELSE, NONE),
        (op::ENDIF, NONE),
        (op::WHILE, A),
        (op::ENDWHILE, NONE),
        (op::BARRIER, NONE),
    ]
};

/// Ops next to the known ones.
const NEAR: [u8; 6] = [0, 15, 23, 31, 38, 255];

/// A small table with a fault or two, or at the edge of one.
pub fn table(rng: &mut Rng) -> Vec<Row> {
    match rng.below(31) {
        0..=12 | 26.. => one_byte(rng),
        13 | 14 => one_op(rng),
        15 | 16 => loose(rng),
        17 => one_misfit(rng),
        18 => left_open(rng),
        19 | 25 => nested(rng),
        _ => two_faults(rng),
    }
}

/// A few sound rows.
pub fn filler(rng: &mut Rng, most: u32) -> Vec<Row> {
    (0..rng.below(most + 1)).map(|_| plain(rng)).collect()
}

fn plain(rng: &mut Rng) -> Row {
    let [d, a, b] = std::array::from_fn(|_| rng.below(16) as u8);
    match rng.below(5) {
        0 => tid(d),
        1 => [op::SET, d, rng.byte(), rng.byte()],
        2 => count(d),
        3 => launch_number(d),
        _ => [rng.range(4, 14) as u8, d, a, b],
    }
}

/// The row in the least frame that it is sound in.
fn framed(row: Row) -> Vec<Row> {
    match row[0] {
        op::IF => vec![row, ENDIF],
        op::ELSE => vec![begin_if(0), row, ENDIF],
        op::ENDIF => vec![begin_if(0), row],
        op::WHILE => vec![row, ENDWHILE],
        op::ENDWHILE => vec![begin_while(0), row],
        _ => vec![row],
    }
}

fn among(rng: &mut Rng, middle: Vec<Row>) -> Vec<Row> {
    let mut rows = filler(rng, 2);
    rows.extend(middle);
    rows.extend(filler(rng, 2));
    rows
}

/// Register 15 or 16, or an unused byte that is not 0, in one byte of one op.
fn one_byte(rng: &mut Rng) -> Vec<Row> {
    let rows = wrong_row_in_frame(rng);
    among(rng, rows)
}

/// A row with one wrong byte, in the least frame that is sound but for it.
pub fn wrong_row_in_frame(rng: &mut Rng) -> Vec<Row> {
    framed(wrong_row(rng))
}

fn wrong_row(rng: &mut Rng) -> Row {
    let (code, registers) = rng.pick(&OPS);
    let at = match code {
        op::SET => 0, // the others may be any byte
        _ => rng.index(3),
    };
    let mut row = [code, 0, 0, 0];
    for byte in 0..3 {
        if registers[byte] {
            row[byte + 1] = rng.pick(&[0, 1, 15, 15]);
        }
    }
    row[at + 1] = if registers[at] {
        rng.pick(&[15, 16, 16, 16, 16, 16, 17, 32, 128, 255])
    } else {
        rng.pick(&[1, 1, 15, 16, 128, 255])
    };
    row
}

/// An unknown op, alone or with bytes that no op takes.
fn one_op(rng: &mut Rng) -> Vec<Row> {
    let row = unknown(rng);
    among(rng, vec![row])
}

fn unknown(rng: &mut Rng) -> Row {
    let code = match rng.below(4) {
        0 => rng.range(23, 31) as u8,
        1 => rng.range(38, 255) as u8,
        _ => rng.pick(&NEAR),
    };
    let [d, a, b] = std::array::from_fn(|_| rng.pick(&[0, 0, 0, 15, 16, 255]));
    [code, d, a, b]
}

/// Construct rows that fit or don't, now and then with another fault.
fn loose(rng: &mut Rng) -> Vec<Row> {
    (0..rng.range(1, 7))
        .map(|_| match rng.below(24) {
            0 => unknown(rng),
            1 => wrong_row(rng),
            2..=4 => plain(rng),
            _ => construct_row(rng),
        })
        .collect()
}

fn construct_row(rng: &mut Rng) -> Row {
    rng.pick(&[
        begin_if(0),
        begin_if(1),
        begin_while(0),
        ELSE,
        ELSE,
        ENDIF,
        ENDIF,
        ENDWHILE,
    ])
}

/// IF and WHILE mixed, 7 to 10 open at once, some of them already left.
fn nested(rng: &mut Rng) -> Vec<Row> {
    let depth = rng.pick(&[7, 8, 8, 9, 9, 10]);
    let mut rows = filler(rng, 1);
    let mut ends = vec![];
    for _ in 0..depth {
        if rng.one_in(6) {
            // Closed again, so it isn't open any more at the ninth.
            rows.extend([begin_if(0), ENDIF]);
        }
        let is_loop = rng.one_in(2);
        rows.push(if is_loop { begin_while(0) } else { begin_if(1) });
        ends.push(if is_loop { ENDWHILE } else { ENDIF });
        if !is_loop && rng.one_in(4) {
            rows.push(ELSE);
        }
    }
    ends.reverse();
    if rng.one_in(3) {
        ends.truncate(rng.index(depth));
    }
    rows.extend(ends);
    rows
}

/// Two faults at once: in one row, or in two.
fn two_faults(rng: &mut Rng) -> Vec<Row> {
    match rng.below(8) {
        0 | 1 => misfit_and_wrong(rng),
        2 => ninth_and_wrong(rng),
        3 => misfit_and_open(rng),
        _ => two_rows(rng),
    }
}

/// Rows that open a construct, and an end or ELSE that doesn't fit it.
fn misfit(rng: &mut Rng) -> (Vec<Row>, Row) {
    match rng.below(5) {
        0 => (vec![], rng.pick(&[ELSE, ENDIF, ENDWHILE])),
        1 => (vec![begin_if(0)], ENDWHILE),
        2 => (vec![begin_while(0)], rng.pick(&[ELSE, ENDIF])),
        3 => (vec![begin_if(0), ELSE], rng.pick(&[ELSE, ENDWHILE])),
        _ => (vec![begin_if(0), ENDIF], rng.pick(&[ELSE, ENDIF])),
    }
}

/// 5 alone.
fn one_misfit(rng: &mut Rng) -> Vec<Row> {
    let (mut rows, row) = misfit(rng);
    rows.push(row);
    among(rng, rows)
}

/// 7 alone: the innermost open row stands before its ELSE, or before rows of
/// a construct that is closed, or has another open one around it.
fn left_open(rng: &mut Rng) -> Vec<Row> {
    let mut rows = filler(rng, 1);
    for _ in 0..rng.range(1, 2) {
        match rng.below(3) {
            0 => rows.push(begin_while(0)),
            1 => rows.push(begin_if(0)),
            _ => rows.extend([begin_if(0), ELSE]),
        }
        rows.extend(filler(rng, 1));
    }
    if rng.one_in(3) {
        rows.extend([begin_if(0), ELSE, ENDIF]);
    }
    rows
}

/// 4 and 5 in one row.
fn misfit_and_wrong(rng: &mut Rng) -> Vec<Row> {
    let (mut rows, mut row) = misfit(rng);
    row[rng.range(1, 3) as usize] = rng.pick(&[1, 15, 16, 255]);
    rows.push(row);
    among(rng, rows)
}

/// 4 and 6 in one row.
fn ninth_and_wrong(rng: &mut Rng) -> Vec<Row> {
    let mut rows: Vec<Row> = (0..8)
        .map(|_| rng.pick(&[begin_if(0), begin_while(0)]))
        .collect();
    let code = rng.pick(&[op::IF, op::WHILE]);
    rows.push(rng.pick(&[[code, 0, 16, 0], [code, 1, 0, 0], [code, 0, 0, 1]]));
    among(rng, rows)
}

/// 5, and later 7: the construct is left open, or so is another around it.
fn misfit_and_open(rng: &mut Rng) -> Vec<Row> {
    let mut rows = vec![begin_while(1)];
    let (opened, row) = misfit(rng);
    rows.extend(opened);
    rows.push(row);
    among(rng, rows)
}

/// A row that is turned back, and another behind it.
fn two_rows(rng: &mut Rng) -> Vec<Row> {
    let mut rows = filler(rng, 1);
    for _ in 0..2 {
        match rng.below(4) {
            0 => rows.push(unknown(rng)),
            1 => rows.push(wrong_row(rng)),
            2 => rows.push(rng.pick(&[begin_if(0), begin_while(0)])),
            _ => {
                let (opened, row) = misfit(rng);
                rows.extend(opened);
                rows.push(row);
            }
        }
        rows.extend(filler(rng, 1));
    }
    rows
}
