//! What both checkers left, and how it is shown where it differs.

use std::fmt;

use checker::{Refusal, MAX_LAUNCH_THREADS};

use crate::records;
use crate::Steps;

/// The buffers that an entry is lent. An entry without one of them has it empty, or full of zeros.
#[derive(Clone, Debug, PartialEq, Eq)]
pub(crate) struct Lent {
    pub cells: Vec<u32>,
    pub global: Vec<u32>,
    pub log: Vec<u32>,
    pub records: Vec<u32>,
    pub steps: Steps,
    pub output: Vec<u8>,
}

/// Arrays of more than 32 words have no default of their own.
impl Default for Lent {
    fn default() -> Self {
        Self {
            cells: Vec::new(),
            global: Vec::new(),
            log: Vec::new(),
            records: Vec::new(),
            steps: NO_STEPS,
            output: Vec::new(),
        }
    }
}

/// The steps of an entry that has none.
const NO_STEPS: Steps = [0; MAX_LAUNCH_THREADS];

/// An answer, and the lent buffers after it.
#[derive(Clone, Debug, PartialEq, Eq)]
pub(crate) struct Left<T> {
    pub answer: Result<T, Refusal>,
    pub lent: Lent,
}

impl<T> Left<T> {
    /// Calls an entry with buffers of its own.
    pub(crate) fn by(lent: &Lent, entry: impl FnOnce(&mut Lent) -> Result<T, Refusal>) -> Self {
        let mut lent = lent.clone();
        let answer = entry(&mut lent);
        Self { answer, lent }
    }
}

/// What a seed is counted among.
#[derive(Clone, Copy, Debug)]
pub(crate) enum Sweep {
    Launches,
    Pairs,
}

/// A launch or a pair on which two checkers differ, or on which both changed a buffer that a refusal keeps, or left records that don't come
/// to what they must, or no two reports.
#[derive(Debug)]
pub struct Difference {
    sweep: Sweep,
    seed: u64,
    launch: String,
    what: String,
}

impl fmt::Display for Difference {
    fn fmt(&self, f: &mut fmt::Formatter) -> fmt::Result {
        let Self {
            sweep,
            seed,
            launch,
            what,
        } = self;
        let sweep = match sweep {
            Sweep::Launches => "",
            Sweep::Pairs => "pairs ",
        };
        write!(
            f,
            "seed {seed} differs (`compare {sweep}{seed} 1` repeats it)\n\n{launch}\n{what}"
        )
    }
}

/// Agreement, or the difference with the launch as `launch` shows it. `wrong` says what is wrong with what is left beside an answer that is no
/// refusal.
pub(crate) fn judge<T: PartialEq + fmt::Debug>(
    sweep: Sweep,
    seed: u64,
    launch: impl FnOnce() -> String,
    wrong: impl Fn(&T, &Lent) -> Option<String>,
    before: &Lent,
    ours: &Left<T>,
    theirs: &Left<T>,
) -> Result<(), Box<Difference>> {
    let [our_fault, their_fault] = [ours, theirs].map(|left| fault(before, left, &wrong));
    if ours == theirs && our_fault.is_none() {
        return Ok(());
    }
    let what = format!(
        "ours:   {:?}\ntheirs: {:?}\n{}{}{}{}{}{}{}{}{}{}",
        ours.answer,
        theirs.answer,
        told("ours", our_fault),
        told("theirs", their_fault),
        steps(&before.steps, &ours.lent.steps, &theirs.lent.steps),
        records::shown(&before.records, &ours.lent.records, &theirs.lent.records),
        words("cell", &before.cells, &ours.lent.cells, &theirs.lent.cells),
        words(
            "global cell",
            &before.global,
            &ours.lent.global,
            &theirs.lent.global
        ),
        words("log word", &before.log, &ours.lent.log, &theirs.lent.log),
        words(
            "output byte",
            &before.output,
            &ours.lent.output,
            &theirs.lent.output
        ),
        report("ours", &ours.lent.output),
        report("theirs", &theirs.lent.output),
    );
    let launch = launch();
    Err(Box::new(Difference {
        sweep,
        seed,
        launch,
        what,
    }))
}

/// What is wrong with what one checker left, whatever the other did: a buffer that a refusal changed, or what `wrong` says.
fn fault<T>(
    before: &Lent,
    left: &Left<T>,
    wrong: impl Fn(&T, &Lent) -> Option<String>,
) -> Option<String> {
    match &left.answer {
        Ok(answer) => wrong(answer, &left.lent),
        Err(_) => (left.lent != *before).then(|| "a refusal changed a buffer".to_string()),
    }
}

fn told(whose: &str, fault: Option<String>) -> String {
    fault.map_or_else(String::new, |fault| format!("{whose}: {fault}\n"))
}

/// Every count beside the other's, since where one is wrong the others say which row it was; nothing where the entry has none. Words that
/// both left 0 are not shown behind the last that is not.
fn steps(before: &Steps, ours: &Steps, theirs: &Steps) -> String {
    if *before == NO_STEPS {
        return String::new();
    }
    let line = |number: usize| {
        let (was, our, their) = (before[number], ours[number], theirs[number]);
        let mark = if our == their { "" } else { "  differs" };
        format!("number {number:>5}{our:>12}{their:>12}{was:>12}{mark}\n")
    };
    let shown = (ours.iter().zip(theirs)).rposition(|(&our, &their)| (our, their) != (0, 0));
    let lines: String = (0..shown.map_or(0, |last| last + 1)).map(line).collect();
    format!(
        "{:<12}{:>12}{:>12}{:>12}\n{lines}",
        "steps of", "ours", "theirs", "before"
    )
}

/// The places where a buffer differs, the first few of them.
fn words<W: PartialEq + fmt::Display>(
    name: &str,
    before: &[W],
    ours: &[W],
    theirs: &[W],
) -> String {
    const SHOWN: usize = 10;
    let places = (0..before.len()).filter(|&i| ours[i] != theirs[i]);
    let line = |i: usize| {
        let (was, our, their) = (&before[i], &ours[i], &theirs[i]);
        format!("{name} {i}: ours {our}, theirs {their}, before {was}\n")
    };
    let shown: String = places.clone().take(SHOWN).map(line).collect();
    match places.count().saturating_sub(SHOWN) {
        0 => shown,
        more => format!("{shown}and {more} more\n"),
    }
}

/// A report up to where the output was left as it was; nothing where the entry writes none.
fn report(whose: &str, output: &[u8]) -> String {
    if output.is_empty() {
        return String::new();
    }
    let end = output.iter().position(|byte| !byte.is_ascii());
    let text = lines(&output[..end.unwrap_or(output.len())]);
    format!("\nreport, {whose}:\n{text}")
}

/// Bytes as lines of text, with what is not text escaped.
pub(crate) fn lines(bytes: &[u8]) -> String {
    bytes
        .split_inclusive(|&byte| byte == b'\n')
        .map(|line| match line.strip_suffix(b"\n") {
            Some(line) => format!("{}\n", line.escape_ascii()),
            None => format!("{} (no line end)\n", line.escape_ascii()),
        })
        .collect()
}
