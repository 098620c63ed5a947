//! "The launch file", and the common file of item 12: their lines, read once from
//! top to bottom.

use crate::limits::{
    check_all_cells, check_cells, check_common, check_groups, check_limit, check_rows,
    check_threads, number, Refusal, MAX_FILE,
};
use crate::table::{decode, Program};

/// A launch as a file gives it, all of it in range.
#[derive(Clone, Debug, PartialEq, Eq)]
pub struct Launch {
    /// Threads of each group, 1 to 32.
    pub threads: u32,
    /// Groups, 1 to 8.
    pub groups: u32,
    /// Rows that may be run.
    pub limit: u32,
    /// Four bytes a row.
    pub table: Vec<u8>,
    /// Own cells of each group, at least 1.
    pub cells_each: u32,
    /// All groups' own cells at the start, group 0's first.
    pub cells: Vec<u32>,
    /// The global cells at the start, with the own ones at most 1,024.
    pub global: Vec<u32>,
}

/// Reads a launch file: refusal 12, then line by line, then 3 to 7 by row.
pub fn parse_file(file: &[u8]) -> Result<Launch, Refusal> {
    parse_and_decode(file).map(|(launch, _)| launch)
}

/// As [`parse_file`], with the decoded table.
pub(crate) fn parse_and_decode(file: &[u8]) -> Result<(Launch, Program), Refusal> {
    Refusal::unless(file.len() <= MAX_FILE, number::FILE_LENGTH, 0)?;
    let launch = Lines::new(file, number::LINE).launch()?;
    let program = decode(&launch.table)?;
    Ok((launch, program))
}

/// Reads a common file, of any length: the common cells. Every fault is refusal
/// 37 at its line.
pub fn parse_common(file: &[u8]) -> Result<Vec<u32>, Refusal> {
    Lines::new(file, number::COMMON_FILE).common()
}

/// Numbers of most lines are below this.
const WORD: u64 = 1 << 32;

/// The lines not yet read.
struct Lines<'a> {
    rest: &'a [u8],
    /// The number of the next line.
    due: u32,
    /// The refusal of a line that isn't the one due.
    misread: u32,
}

impl<'a> Lines<'a> {
    fn new(file: &'a [u8], misread: u32) -> Self {
        Self {
            rest: file,
            due: 1,
            misread,
        }
    }

    fn launch(mut self) -> Result<Launch, Refusal> {
        self.exact(b"kernel", b"1")?;
        let (threads, line) = self.number(b"threads")?;
        check_threads(threads, line)?;
        let (cells_each, line) = self.number(b"cells")?;
        check_cells(cells_each, line)?;
        let (groups, line) = self.number(b"groups")?;
        check_groups(groups, line)?;
        let (global, line) = self.number(b"global")?;
        check_all_cells(groups, cells_each, global, line)?;
        let (limit, line) = self.number(b"limit")?;
        check_limit(limit, line)?;
        let (rows, line) = self.number(b"rows")?;
        check_rows(rows as usize, line)?;
        let mut table = Vec::with_capacity(4 * rows as usize);
        for _ in 0..rows {
            table.extend(self.line(b"row", parse_row)?);
        }
        let cells = self.words(b"cell", groups * cells_each)?;
        let global = self.words(b"gcell", global)?;
        self.end(b"kernel")?;
        Ok(Launch {
            threads,
            groups,
            limit,
            table,
            cells_each,
            cells,
            global,
        })
    }

    fn common(mut self) -> Result<Vec<u32>, Refusal> {
        let (count, line) = self.number(b"common")?;
        check_common(count, line)?;
        let cells = self.words(b"cell", count)?;
        self.end(b"common")?;
        Ok(cells)
    }

    /// The refusal of the line due.
    fn refused(&self) -> Refusal {
        Refusal::new(self.misread, self.due)
    }

    /// The value of the line due: the part of the file after its first `=`,
    /// up to the line end. The key itself has no `=`.
    fn value(&self, key: &[u8]) -> Option<(&'a [u8], &'a [u8])> {
        let end = self.rest.iter().position(|&byte| byte == b'\n')?;
        let (line, rest) = (&self.rest[..end], &self.rest[end + 1..]);
        let value = line.strip_prefix(key)?.strip_prefix(b"=")?;
        Some((value, rest))
    }

    /// Reads the line due with `read`, which gives nothing for a bad value.
    fn line<T>(&mut self, key: &[u8], read: impl Fn(&[u8]) -> Option<T>) -> Result<T, Refusal> {
        let (value, rest) = self.value(key).ok_or(self.refused())?;
        let read = read(value).ok_or(self.refused())?;
        self.rest = rest;
        self.due += 1;
        Ok(read)
    }

    fn exact(&mut self, key: &[u8], value: &[u8]) -> Result<(), Refusal> {
        self.line(key, |found| (found == value).then_some(()))
    }

    /// The last line, and nothing behind it.
    fn end(&mut self, value: &[u8]) -> Result<(), Refusal> {
        self.exact(b"end", value)?;
        Refusal::unless(self.rest.is_empty(), self.misread, self.due)
    }

    /// A line's number, and the number of the line.
    fn number(&mut self, key: &[u8]) -> Result<(u32, u32), Refusal> {
        let line = self.due;
        let number = self.line(key, |value| parse_number(value, WORD))?;
        Ok((number, line))
    }

    /// The numbers of so many lines.
    fn words(&mut self, key: &[u8], count: u32) -> Result<Vec<u32>, Refusal> {
        (0..count).map(|_| Ok(self.number(key)?.0)).collect()
    }
}

/// `op,d,a,b`, each below 256.
fn parse_row(value: &[u8]) -> Option<[u8; 4]> {
    let mut parts = value.split(|&byte| byte == b',');
    let mut row = [0; 4];
    for byte in &mut row {
        *byte = parse_number(parts.next()?, 256)? as u8;
    }
    parts.next().is_none().then_some(row)
}

/// A number without sign or leading zero, below `bound` (at most 2^32).
fn parse_number(text: &[u8], bound: u64) -> Option<u32> {
    if text.is_empty() || (text.len() > 1 && text[0] == b'0') {
        return None;
    }
    let mut number = 0;
    for &byte in text {
        if !byte.is_ascii_digit() {
            return None;
        }
        number = 10 * number + u64::from(byte - b'0');
        // Tested digit by digit, so that a long line can't overflow.
        if number >= bound {
            return None;
        }
    }
    u32::try_from(number).ok()
}

#[cfg(test)]
mod tests {
    use super::*;

    #[test]
    fn numbers_have_one_spelling() {
        assert_eq!(parse_number(b"0", WORD), Some(0));
        assert_eq!(parse_number(b"4294967295", WORD), Some(u32::MAX));
        assert_eq!(parse_number(b"255", 256), Some(255));
        let wrong: [&[u8]; 9] = [
            b"",
            b"00",
            b"01",
            b"+1",
            b"-0",
            b" 1",
            b"1 ",
            b"1\r",
            b"4294967296",
        ];
        for text in wrong {
            assert_eq!(parse_number(text, WORD), None, "{text:?}");
        }
        assert_eq!(parse_number(b"256", 256), None);
        assert_eq!(parse_number(b"18446744073709551617", WORD), None);
    }

    #[test]
    fn rows_have_four_parts() {
        assert_eq!(parse_row(b"1,2,3,255"), Some([1, 2, 3, 255]));
        let wrong: [&[u8]; 6] = [
            b"1,2,3",
            b"1,2,3,4,5",
            b"1,2,3,4,",
            b"1,2,,4",
            b"",
            b"1,2,3,256",
        ];
        for value in wrong {
            assert_eq!(parse_row(value), None, "{value:?}");
        }
    }
}
