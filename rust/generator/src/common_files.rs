//! Common files (item 12): sound ones, and such as are bad in any place.

use checker::{COMMON_FROM, MAX_COMMON};

use crate::damage::noise;
use crate::plan::join;
use crate::rng::Rng;
use crate::slips::lose_a_line_end;
use crate::spelling::misspell;

type Lines = Vec<Vec<u8>>;

/// From none to 256 common cells, the edges favoured: any words, small ones, or
/// numbers of cells, own and common ones.
pub fn common_cells(rng: &mut Rng) -> Vec<u32> {
    let count = match rng.below(16) {
        0 => 0,
        1 => 1,
        2 | 3 => MAX_COMMON,
        4 => MAX_COMMON - 1,
        5 => rng.range(2, MAX_COMMON),
        6..=9 => rng.pick(&[2, 4, 8, 16, 32, 64, 128]),
        _ => rng.range(2, 40),
    };
    let kind = rng.below(3);
    let word = |_| match kind {
        0 => rng.word(),
        1 => rng.below(40),
        _ if rng.one_in(2) => rng.below(4),
        _ => COMMON_FROM + rng.below(count),
    };
    (0..count).map(word).collect()
}

/// The lines of a sound file, without their line ends.
fn lines(cells: &[u32]) -> Lines {
    let mut lines = vec![format!("common={}", cells.len())];
    lines.extend(cells.iter().map(|cell| format!("cell={cell}")));
    lines.push("end=common".to_string());
    lines.into_iter().map(String::into_bytes).collect()
}

/// A sound file.
pub fn common_file(cells: &[u32]) -> Vec<u8> {
    join(&lines(cells))
}

/// A file that isn't sound, but for a few. `kernel` is a launch file.
pub fn bad_common_file(rng: &mut Rng, cells: &[u32], kernel: &[u8]) -> Vec<u8> {
    let mut file = common_file(cells);
    match rng.below(24) {
        0..=4 => return hurt_line(rng, lines(cells), misspell),
        5 | 6 => return hurt_line(rng, lines(cells), hurt_number),
        7..=9 => return wrong_count(rng, cells),
        10 => return other_lines(rng, lines(cells)),
        11 => drop(file.pop()),
        12 => lose_a_line_end(rng, &mut file),
        13..=15 => file.truncate(rng.index(file.len())),
        // Cut behind a line.
        16 => return join(&lines(cells)[..rng.index(cells.len() + 2)]),
        17..=19 => file.extend_from_slice(rng.pick(BEHIND)),
        20 => return kernel.to_vec(),
        21 => return noise_or_nothing(rng),
        22 => stretch(rng, &mut file),
        _ => return vec![],
    }
    file
}

/// What stands behind the end.
const BEHIND: &[&[u8]] = &[
    b"\n",
    b"\n",
    b"\0",
    b" ",
    b"x",
    b"e",
    b"\r\n",
    b"end=common\n",
    b"cell=1\n",
    b"common=0\nend=common\n",
];

/// The first line hurt, the last, or any.
fn hurt_line(rng: &mut Rng, mut lines: Lines, hurt: fn(&mut Rng, &mut Vec<u8>)) -> Vec<u8> {
    let last = lines.len() - 1;
    let at = match rng.below(4) {
        0 => 0,
        1 => last,
        2 => 1,
        _ => rng.index(lines.len()),
    };
    hurt(rng, &mut lines[at]);
    join(&lines)
}

/// A leading zero or a sign.
fn hurt_number(rng: &mut Rng, line: &mut Vec<u8>) {
    let start = line.iter().position(|&byte| byte == b'=').unwrap_or(0) + 1;
    line.insert(start, rng.pick(b"000+-"));
}

/// One cell more or fewer than said, or a count that is too large, with as many
/// lines or not.
fn wrong_count(rng: &mut Rng, cells: &[u32]) -> Vec<u8> {
    let mut lines = lines(cells);
    let count = cells.len() as u64;
    let said = match rng.below(8) {
        0 | 1 => count + 1,
        2 | 3 => count.saturating_sub(1),
        4 => {
            let more = b"cell=7".to_vec();
            let missing = MAX_COMMON as usize + 1 - cells.len();
            lines.splice(1..1, std::iter::repeat_n(more, missing));
            257
        }
        5 => rng.pick(&[257, 257, 258, 512]),
        6 => (1 << rng.pick(&[8, 9, 16, 31])) + count,
        _ => (1 << 32) + count,
    };
    lines[0] = format!("common={said}").into_bytes();
    join(&lines)
}

/// Lines that are missing, doubled, exchanged or of another file.
fn other_lines(rng: &mut Rng, mut lines: Lines) -> Vec<u8> {
    let (at, last) = (rng.index(lines.len()), lines.len() - 1);
    match rng.below(7) {
        0 => drop(lines.remove(at)),
        1 => lines.insert(at, lines[at].clone()),
        2 => lines.swap(at, (at + 1) % (last + 1)),
        3 => lines[last] = b"end=kernel".to_vec(),
        4 => lines.insert(0, b"kernel=1".to_vec()),
        5 => lines[at].insert(0, b'g'),
        _ => lines.iter_mut().for_each(|line| line.push(b'\r')),
    }
    join(&lines)
}

fn noise_or_nothing(rng: &mut Rng) -> Vec<u8> {
    if rng.one_in(4) {
        return b"common=".to_vec();
    }
    let mut file = noise(rng);
    if rng.one_in(2) {
        file.splice(0..0, b"common=2\ncell=".iter().copied());
    }
    file
}

/// Far longer than a launch file may be: in a number, by more lines, or behind
/// the end.
fn stretch(rng: &mut Rng, file: &mut Vec<u8>) {
    let more = rng.pick(&[32_768, 33_000, 70_000]);
    match rng.below(3) {
        0 => {
            let filler = rng.pick(b"0019 x\n\0=");
            file.extend(std::iter::repeat_n(filler, more));
        }
        1 => {
            let at = rng.index(file.len() + 1);
            let filler = rng.pick(b"0019\n");
            file.splice(at..at, std::iter::repeat_n(filler, more));
        }
        _ => {
            let end = file.len() - b"end=common\n".len();
            let lines = b"cell=4294967295\n".repeat(more / 16);
            file.splice(end..end, lines);
        }
    }
}
