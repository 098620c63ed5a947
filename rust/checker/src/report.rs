//! "The report": lines written one behind the other into the caller's buffer.

use crate::limits::{check_report_lines, number, Refusal};
use crate::verdict::{AccessKind, Outcome, Verdict};

/// What a report is about.
#[derive(Clone, Copy, Debug, PartialEq, Eq)]
pub enum Subject {
    /// A launch that ran.
    Ran(Outcome),
    /// A launch that was turned back.
    Refused(Refusal),
}

/// Writes the report of `subject` to the start of `out` and gives its length.
/// Steps, one count for each thread by launch number, own cells of all groups
/// and global cells belong to a launch that ran and are not looked at otherwise.
pub fn write_report(
    subject: Subject,
    steps: &[u32],
    cells: &[u32],
    global: &[u32],
    out: &mut [u8],
) -> Result<usize, Refusal> {
    if let Subject::Ran(_) = subject {
        // Two slices of words never have so many that their sum would wrap.
        check_report_lines(steps.len(), cells.len() + global.len())?;
    }
    let lists = [("steps", steps), ("cell", cells), ("gcell", global)];
    let mut needed = 0;
    each_line(subject, lists, |key, value| {
        needed += line_len(key, value);
    });
    let short = Refusal::new(number::REPORT_BUFFER, needed as u32);
    let mut rest = out.get_mut(..needed).ok_or(short)?;
    each_line(subject, lists, |key, value| {
        rest = write_line(std::mem::take(&mut rest), key, value);
    });
    Ok(needed)
}

/// A line's key, and the numbers for which it is repeated.
type List<'a> = (&'static str, &'a [u32]);

/// A line's value.
#[derive(Clone, Copy)]
enum Value {
    Word(&'static str),
    Number(u32),
}

/// A line without meaning.
const HYPHEN: Value = Value::Word("-");

/// A verdict's lines from `verdict=` to `at=`.
struct Head {
    verdict: &'static str,
    row: Value,
    group: Value,
    other_group: Value,
    thread: Value,
    other: Value,
    kind: Value,
    at: Value,
}

impl Head {
    const fn passed() -> Self {
        Self {
            verdict: "passed",
            row: HYPHEN,
            group: HYPHEN,
            other_group: HYPHEN,
            thread: HYPHEN,
            other: HYPHEN,
            kind: HYPHEN,
            at: HYPHEN,
        }
    }

    const fn stopped(verdict: &'static str, row: u32, group: u32) -> Self {
        Self {
            verdict,
            row: Value::Number(row),
            group: Value::Number(group),
            ..Self::passed()
        }
    }

    const fn of(outcome: &Outcome) -> Self {
        let group = outcome.group;
        match outcome.verdict {
            Verdict::Passed => Self::passed(),
            Verdict::Race {
                row,
                other_group,
                thread,
                other,
                kind,
                at,
            } => Self {
                other_group: Value::Number(other_group),
                thread: Value::Number(thread),
                other: match other {
                    Some(other) => Value::Number(other),
                    None => HYPHEN,
                },
                kind: Value::Word(kind_word(kind)),
                at: Value::Number(at),
                ..Self::stopped("race", row, group)
            },
            Verdict::Outside { row, thread, at } => Self {
                thread: Value::Number(thread),
                at: Value::Number(at),
                ..Self::stopped("outside", row, group)
            },
            Verdict::Common { row, thread, at } => Self {
                thread: Value::Number(thread),
                at: Value::Number(at),
                ..Self::stopped("common", row, group)
            },
            Verdict::Diverged { row, thread, other } => Self {
                thread: Value::Number(thread),
                other: Value::Number(other),
                ..Self::stopped("diverged", row, group)
            },
            Verdict::Spent { row } => Self::stopped("spent", row, group),
        }
    }
}

const fn kind_word(kind: AccessKind) -> &'static str {
    match kind {
        AccessKind::Rw => "rw",
        AccessKind::Wr => "wr",
        AccessKind::Ww => "ww",
        AccessKind::Ra => "ra",
        AccessKind::Ar => "ar",
        AccessKind::Wa => "wa",
        AccessKind::Aw => "aw",
    }
}

/// Gives every line of a report in order, for measuring and for writing.
fn each_line(
    subject: Subject,
    [steps, cells, global]: [List; 3],
    mut line: impl FnMut(&'static str, Value),
) {
    match subject {
        Subject::Ran(outcome) => {
            let head = Head::of(&outcome);
            line("verdict", Value::Word(head.verdict));
            line("row", head.row);
            line("group", head.group);
            line("othergroup", head.other_group);
            line("thread", head.thread);
            line("other", head.other);
            line("kind", head.kind);
            line("at", head.at);
            line("rows", Value::Number(outcome.rows));
            each_number(steps, &mut line);
            line("barriers", Value::Number(outcome.barriers));
            line("conflicts", Value::Number(outcome.conflicts));
            each_number(cells, &mut line);
            each_number(global, &mut line);
        }
        Subject::Refused(refusal) => {
            line("refused", Value::Number(refusal.number));
            line("place", Value::Number(refusal.place));
        }
    }
    line("end", Value::Word("report"));
}

fn each_number((key, numbers): List, line: &mut impl FnMut(&'static str, Value)) {
    for &number in numbers {
        line(key, Value::Number(number));
    }
}

/// Key, `=`, value and line end.
fn line_len(key: &str, value: Value) -> usize {
    let value_len = match value {
        Value::Word(word) => word.len(),
        Value::Number(number) => Digits::of(number).as_bytes().len(),
    };
    key.len() + 1 + value_len + 1
}

/// Writes a line at the start of `out` and gives the part behind it.
fn write_line<'a>(out: &'a mut [u8], key: &str, value: Value) -> &'a mut [u8] {
    let out = write_bytes(out, key.as_bytes());
    let out = write_bytes(out, b"=");
    let out = match value {
        Value::Word(word) => write_bytes(out, word.as_bytes()),
        Value::Number(number) => write_bytes(out, Digits::of(number).as_bytes()),
    };
    write_bytes(out, b"\n")
}

/// The buffer has been measured, so it is never too short here.
fn write_bytes<'a>(out: &'a mut [u8], bytes: &[u8]) -> &'a mut [u8] {
    match out.split_at_mut_checked(bytes.len()) {
        Some((here, behind)) => {
            here.copy_from_slice(bytes);
            behind
        }
        None => &mut [],
    }
}

/// A number in base ten, right-aligned.
struct Digits {
    text: [u8; 10],
    start: usize,
}

impl Digits {
    fn of(mut number: u32) -> Self {
        let mut text = [b'0'; 10];
        let mut start = text.len() - 1;
        text[start] += (number % 10) as u8;
        while number >= 10 {
            number /= 10;
            start -= 1;
            text[start] += (number % 10) as u8;
        }
        Self { text, start }
    }

    fn as_bytes(&self) -> &[u8] {
        &self.text[self.start..]
    }
}

#[cfg(test)]
mod tests {
    use super::*;

    #[test]
    fn digits_are_those_of_the_standard_library() {
        for number in [0, 1, 9, 10, 99, 100, 4_294_967_295, 1_000_000_000] {
            assert_eq!(Digits::of(number).as_bytes(), number.to_string().as_bytes());
        }
    }
}
