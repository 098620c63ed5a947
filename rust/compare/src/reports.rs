//! The report writer alone.

use checker::{AccessKind, Outcome, Refusal, Subject, Verdict, REPORT_ROOM};
use generator::Rng;

use crate::difference::{judge, Difference, Left, Lent, Sweep};
use crate::tally::refused;
use crate::{junk, Checker};

pub(crate) fn compare(
    seed: u64,
    ours: &impl Checker,
    theirs: &impl Checker,
) -> Result<String, Box<Difference>> {
    let mut rng = Rng::new(seed, 11);
    let subject = subject(&mut rng);
    let steps = counts(&mut rng);
    let (cells, global) = cells(&mut rng);
    let asked = Asked {
        subject,
        steps,
        cells,
        global,
    };
    let before = Lent {
        output: junk::bytes(seed, room(&mut rng, theirs, &asked)),
        ..Lent::default()
    };
    let ours = write(ours, &asked, &before);
    let theirs = write(theirs, &asked, &before);
    let show = || show(&asked, &before);
    judge(
        Sweep::Launches,
        seed,
        show,
        |_, _| None,
        &before,
        &ours,
        &theirs,
    )?;
    Ok(ours
        .answer
        .map_or_else(refused, |_| "report=written".to_string()))
}

/// What a report is asked to say.
struct Asked {
    subject: Subject,
    steps: Vec<u32>,
    cells: Vec<u32>,
    global: Vec<u32>,
}

impl Asked {
    fn of(&self, checker: &impl Checker, output: &mut [u8]) -> Result<usize, Refusal> {
        let Self {
            subject,
            steps,
            cells,
            global,
        } = self;
        checker.write_report(*subject, steps, cells, global, output)
    }
}

fn write(checker: &impl Checker, asked: &Asked, before: &Lent) -> Left<usize> {
    Left::by(before, |lent| asked.of(checker, &mut lent.output))
}

/// Exactly as long as the report, one byte shorter, empty, or longer. Where steps or cells are refused, mostly too short as well.
fn room(rng: &mut Rng, checker: &impl Checker, asked: &Asked) -> usize {
    let mut output = vec![0; REPORT_ROOM];
    let Ok(needed) = asked.of(checker, &mut output) else {
        return rng.pick(&[0, 1, 40, 1_024, REPORT_ROOM, 30_000]);
    };
    match rng.below(8) {
        0..=2 => needed,
        3..=4 => needed - 1,
        5 => 0,
        6 => needed + 1 + rng.index(100),
        _ => REPORT_ROOM,
    }
}

fn subject(rng: &mut Rng) -> Subject {
    if rng.one_in(5) {
        let (number, place) = (digits(rng), digits(rng) * rng.below(2));
        return Subject::Refused(Refusal { number, place });
    }
    let group = digits(rng);
    Subject::Ran(Outcome {
        verdict: verdict(rng, group),
        group,
        rows: digits(rng),
        barriers: digits(rng),
        conflicts: digits(rng),
    })
}

const KINDS: [AccessKind; 7] = [
    AccessKind::Rw,
    AccessKind::Wr,
    AccessKind::Ww,
    AccessKind::Ra,
    AccessKind::Ar,
    AccessKind::Wa,
    AccessKind::Aw,
];

/// A race of either kind: two threads are of one group.
fn verdict(rng: &mut Rng, group: u32) -> Verdict {
    let [row, other_group, thread, other, at] = std::array::from_fn(|_| digits(rng));
    let kind = rng.pick(&KINDS);
    let (other_group, met) = match rng.below(2) {
        0 => (group, Some(other)),
        _ => (other_group, None),
    };
    match rng.below(8) {
        0 => Verdict::Passed,
        1 => Verdict::Outside { row, thread, at },
        2 => Verdict::Diverged { row, thread, other },
        3 => Verdict::Spent { row },
        4 => Verdict::Common { row, thread, at },
        _ => Verdict::Race {
            row,
            other_group,
            thread,
            other: met,
            kind,
            at,
        },
    }
}

/// The generator's counts, of right and wrong lengths. One in four is drawn anew, so that the least and the greatest count of so many
/// digits are among them.
fn counts(rng: &mut Rng) -> Vec<u32> {
    let drawn = generator::report_steps(rng);
    some_anew(rng, drawn)
}

/// The generator's cells likewise, own and global ones.
fn cells(rng: &mut Rng) -> (Vec<u32>, Vec<u32>) {
    let (own, global) = generator::report_cells(rng);
    (some_anew(rng, own), some_anew(rng, global))
}

fn some_anew(rng: &mut Rng, words: Vec<u32>) -> Vec<u32> {
    (words.into_iter())
        .map(|word| if rng.one_in(4) { digits(rng) } else { word })
        .collect()
}

/// A word of 1 to 10 digits, each number of digits as likely as another; now and then the least or the greatest of them.
fn digits(rng: &mut Rng) -> u32 {
    let more = rng.below(10);
    let low = if more == 0 { 0 } else { 10_u32.pow(more) };
    let high = 10_u64.pow(more + 1) - 1;
    let high = u32::try_from(high).unwrap_or(u32::MAX);
    match rng.below(8) {
        0 => low,
        1 => high,
        _ => rng.range(low, high),
    }
}

fn show(asked: &Asked, lent: &Lent) -> String {
    let Asked {
        subject,
        steps,
        cells,
        global,
    } = asked;
    let (room, counts) = (lent.output.len(), steps.len());
    let (own, shared) = (cells.len(), global.len());
    format!("{subject:?}, {room} bytes of output\n{counts} steps: {steps:?}\n{own} cells: {cells:?}\n{shared} global cells: {global:?}\n")
}
