//! Lines that are spelt almost right: numbers, keys, values, separators and
//! line ends.

use crate::rng::Rng;

/// A line, without its line end.
pub type Line = Vec<u8>;

/// Hurts one line, wherever it may be hurt.
pub fn misspell(rng: &mut Rng, line: &mut Line) {
    if line.is_empty() {
        return line.push(b'=');
    }
    for (right, wrong) in [(b"kernel=1".as_slice(), KERNEL), (b"end=kernel", END)] {
        if line == right && rng.one_in(3) {
            *line = rng.pick(wrong).to_vec();
            return;
        }
    }
    match rng.below(16) {
        0..=7 => hurt_number(rng, line),
        8..=11 => hurt_key(rng, line),
        12..=14 => hurt_value(rng, line),
        _ => hurt_end(rng, line),
    }
}

/// Hurts a `row=` line in its four values, or as any line.
pub fn misspell_row(rng: &mut Rng, line: &mut Line) {
    if rng.one_in(3) {
        return misspell(rng, line);
    }
    let value = &line[b"row=".len()..];
    let mut parts: Vec<Line> = value.split(|&b| b == b',').map(<[u8]>::to_vec).collect();
    let at = rng.index(parts.len());
    match rng.below(12) {
        0 | 1 => {
            parts.remove(at);
        }
        2 | 3 => parts.insert(at, b"0".to_vec()),
        4 | 5 => parts.push(vec![]),
        6 => parts[at].clear(),
        7 => parts[at] = b"255".to_vec(),
        8 | 9 => parts[at] = rng.pick(&[b"256", b"256", b"256", b"257", b"999"]).to_vec(),
        _ => join_two(rng, &mut parts, at),
    }
    *line = [b"row=".as_slice(), &parts.join(&b',')].concat();
}

/// Another separator between two of the values.
fn join_two(rng: &mut Rng, parts: &mut Vec<Line>, at: usize) {
    if parts.len() > 1 {
        let at = at.min(parts.len() - 2);
        let behind = parts.remove(at + 1);
        parts[at].push(rng.pick(b";;;   .:/\t"));
        parts[at].extend(behind);
    }
}

/// A number spelt wrong, or too big, somewhere in the line.
pub fn hurt_number(rng: &mut Rng, line: &mut Line) {
    // The numbers of a line start behind `=` and each comma.
    let starts: Vec<usize> = (0..line.len())
        .filter(|&at| matches!(line[at], b'=' | b','))
        .map(|at| at + 1)
        .collect();
    if starts.is_empty() {
        return line.push(b'=');
    }
    let start = rng.pick(&starts);
    let len = line[start..]
        .iter()
        .take_while(|&&byte| byte != b',')
        .count();
    let old = line[start..start + len].to_vec();
    let new = match rng.below(8) {
        0 | 1 => digit_beside(rng, &old),
        2 | 3 if line.starts_with(b"row=") => rng.pick(&[b"255", b"256"]).to_vec(),
        2 | 3 => rng.pick(&[b"4294967295", b"4294967296"]).to_vec(),
        4 if rng.one_in(4) => vec![],
        4 => rng.pick(FRESH).to_vec(),
        _ => {
            let (before, behind) = rng.pick(AROUND);
            [before, &old, behind].concat()
        }
    };
    line.splice(start..start + len, new);
}

/// Spellings in place of the first line.
const KERNEL: &[&[u8]] = &[
    b"kernel=",
    b"kernel=2",
    b"kernel=11",
    b"kernel1",
    b"kerne=1",
    b"kernels=1",
    b"Kernel=1",
    b"kernel==1",
    b"kernel=0",
];

/// Spellings in place of the last line.
const END: &[&[u8]] = &[
    b"end=kerne",
    b"end=kernels",
    b"end=kernelkernel",
    b"end=KERNEL",
    b"en=kernel",
    b"end",
    b"end=",
    b"end=report",
];

/// Spellings in place of a number.
const FRESH: &[&[u8]] = &[
    b"",
    b"4294967295",
    b"4294967296",
    b"4294967297",
    b"18446744073709551615",
    b"18446744073709551616",
    b"340282366920938463463374607431768211456",
    b"255",
    b"256",
    b"257",
    b"00",
    b"0",
    b"-0",
    b"-0",
    b"-0",
    b"+0",
    b"0x1",
    b"1e1",
    b"\xd9\xa1",
];

/// Bytes around a number, mostly a leading zero.
const AROUND: &[(&[u8], &[u8])] = &[
    (b"0", b""),
    (b"0", b""),
    (b"0", b""),
    (b"0", b""),
    (b"00", b""),
    (b"+", b""),
    (b"-", b""),
    (b" ", b""),
    (b"", b" "),
    (b"", b","),
    (b"", b",0"),
    (b"=", b""),
    (b"", b"="),
    (b"", b"=1"),
    (b"1=", b""),
    (b"", b"\0"),
    (b"", b"\t"),
    (b"", b"."),
    (b"", b"\r"),
    (b"", b"x"),
];

/// A byte next to the digits in place of one of them, or alone.
fn digit_beside(rng: &mut Rng, old: &[u8]) -> Vec<u8> {
    let beside = rng.pick(b":::///a");
    let mut new = old.to_vec();
    match rng.below(3) {
        0 => new = vec![beside],
        1 => new.push(beside),
        _ if new.is_empty() => new.push(beside),
        _ => {
            let at = rng.index(new.len());
            new[at] = beside;
        }
    }
    new
}

/// A key that only begins or ends right, is cut short, or another one.
fn hurt_key(rng: &mut Rng, line: &mut Line) {
    let equals = line.iter().position(|&b| b == b'=').unwrap_or(0);
    let letter = rng.index(equals.max(1));
    match rng.below(12) {
        0 => line.insert(equals, rng.pick(b"s ax\t")),
        1 => line.insert(0, rng.pick(b" xs\0\n")),
        2 if equals > 0 => {
            line.remove(equals - 1);
        }
        3 => {
            line.drain(..letter + 1);
        }
        4 | 5 => line[letter] = line[letter].to_ascii_uppercase(),
        6 => line[letter] = line[letter].wrapping_add(1),
        7 => line.splice(..equals, b"row".iter().copied()).for_each(drop),
        8 => line
            .splice(..equals, b"cell".iter().copied())
            .for_each(drop),
        9 => {
            line.remove(equals);
        }
        10 => line[equals] = rng.pick(b":, -\0;"),
        _ => line.insert(equals, b'='),
    }
}

/// A value that only begins right, is cut short, or has another letter.
fn hurt_value(rng: &mut Rng, line: &mut Line) {
    let start = line
        .iter()
        .position(|&b| b == b'=')
        .map_or(0, |equals| equals + 1);
    let room = (line.len() - start).max(1);
    match rng.below(7) {
        0 => line.push(rng.pick(b"x1s0=")),
        1 => line.truncate(start),
        2 => line.truncate(start + rng.index(room)),
        3 => {
            let letters = line[start..].to_ascii_uppercase();
            line.splice(start.., letters);
        }
        4 => {
            let at = (start + rng.index(room)).min(line.len() - 1);
            line[at] = line[at].wrapping_add(1);
        }
        5 => {
            let value = line[start..].to_vec();
            line.extend(value);
        }
        _ => line.insert(start, b'='),
    }
}

/// Bytes before the line end, or another byte in its place. An empty line is
/// one of them.
fn hurt_end(rng: &mut Rng, line: &mut Line) {
    let bytes: &[&[u8]] = &[b"\r", b"\0", b" ", b"\t", b",", b"=", b"\n", b"\n\r"];
    line.extend_from_slice(rng.pick(bytes));
}
