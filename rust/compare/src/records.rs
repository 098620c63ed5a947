//! The records of barrier intervals: what they must come to, and how they are shown where they differ.

use checker::INTERVAL_RECORDS;

/// Words of a record: the row due at the interval's start, the rows run in it, its cost.
const RECORD: usize = 3;

/// The counts of a run that its records come to.
#[derive(Clone, Copy, Debug, PartialEq, Eq)]
pub(crate) struct Counts {
    /// Groups that have started: each opens an interval.
    pub begun: u32,
    pub rows: u32,
    pub barriers: u32,
    pub conflicts: u32,
}

impl Counts {
    /// As the report's lines say of a launch of so many groups, or what is wrong with these.
    pub(crate) fn in_report(report: &[u8], groups: u32) -> Result<Self, String> {
        let value = |key: &str| {
            (report.split(|&byte| byte == b'\n'))
                .find_map(|line| line.strip_prefix(key.as_bytes())?.strip_prefix(b"="))
        };
        let number = |key: &str| -> Result<u32, String> {
            let digits = value(key).and_then(|value| std::str::from_utf8(value).ok());
            let number = digits.and_then(|digits| digits.parse().ok());
            number.ok_or_else(|| format!("the report has no number in a line {key}="))
        };
        Ok(Self {
            // A launch that passed has a hyphen there.
            begun: match value("group") {
                Some(b"-") => groups,
                _ => number("group")?.saturating_add(1),
            },
            rows: number("rows")?,
            barriers: number("barriers")?,
            conflicts: number("conflicts")?,
        })
    }

    /// The records that a run with these counts uses.
    fn used(self) -> usize {
        INTERVAL_RECORDS.min(self.barriers as usize + self.begun as usize)
    }

    /// What is wrong with the records that such a run left, each alone: how many words were written, and the sums of rows and costs. Words
    /// are lent that no run leaves, so a word is written where it is another.
    pub(crate) fn fault(self, before: &[u32], left: &[u32]) -> Option<String> {
        let used = RECORD * self.used();
        let wrong = (0..left.len()).find(|&word| (left[word] == before[word]) == (word < used));
        if let Some(word) = wrong {
            let (record, due) = (word / RECORD, self.used());
            let is = if word < used { "kept" } else { "changed" };
            return Some(format!(
                "{due} records are due, and record {record} is {is}"
            ));
        }
        let sum = |word: usize| -> u64 {
            let records = left[..used].chunks(RECORD);
            records.map(|record| u64::from(record[word])).sum()
        };
        [
            ("rows", sum(1), self.rows),
            ("conflicts", sum(2), self.conflicts),
        ]
        .into_iter()
        .find(|&(_, sum, due)| sum != u64::from(due))
        .map(|(name, sum, due)| format!("{name} of all records are {sum}, but {name}={due}"))
    }
}

/// The records that differ, the first few of them; words behind the last whole record count as one.
pub(crate) fn shown(before: &[u32], ours: &[u32], theirs: &[u32]) -> String {
    const SHOWN: usize = 10;
    let [lent, our, their] = [before, ours, theirs].map(|words| words.chunks(RECORD));
    let differing = (lent.zip(our).zip(their).enumerate())
        .filter(|(_, ((_, our), their))| our != their)
        .map(|(number, ((lent, our), their))| {
            let [our, their] = [our, their].map(|record| one(lent, record));
            format!("record {number}: ours {our}; theirs {their}\n")
        });
    let all: Vec<String> = differing.collect();
    let first = all[..all.len().min(SHOWN)].concat();
    match all.len().saturating_sub(SHOWN) {
        0 => first,
        more => format!("{first}and {more} records more\n"),
    }
}

/// A record's words by name.
fn one(lent: &[u32], record: &[u32]) -> String {
    match record {
        _ if record == lent => format!("as lent {lent:?}"),
        [start, rows, cost] => format!("start {start}, rows {rows}, cost {cost}"),
        _ => format!("{record:?}, lent as {lent:?}"),
    }
}
