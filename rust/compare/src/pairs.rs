//! Two kernels over common cells.

use checker::PAIR_ROOM;
use generator::{PairFiles, Rng};

use crate::difference::{judge, lines, Difference, Left, Lent, Sweep};
use crate::files::first_line;
use crate::tally::refused;
use crate::{junk, PairChecker};

/// What both checkers answered to a pair.
#[derive(Clone, Debug, PartialEq, Eq)]
pub enum PairAnswer {
    /// The first lines of the filter's report and of the trigger's; a race between two groups is told apart.
    Reported([String; 2]),
    /// The refusal.
    Refused(String),
}

pub(crate) fn compare(
    seed: u64,
    ours: &impl PairChecker,
    theirs: &impl PairChecker,
) -> Result<PairAnswer, Box<Difference>> {
    let files = generator::pair(seed);
    let before = Lent {
        output: junk::bytes(seed, room(seed)),
        ..Lent::default()
    };
    let ours = check(ours, &files, &before);
    let theirs = check(theirs, &files, &before);
    let show = || show(&files, &before);
    let wrong = |&written: &usize, left: &Lent| fault(written, &before.output, &left.output);
    judge(Sweep::Pairs, seed, show, wrong, &before, &ours, &theirs)?;
    Ok(match ours.answer {
        Ok(written) => {
            let output = &ours.lent.output[..written];
            let (filter, trigger) = output.split_at(behind_end(output).unwrap_or(written));
            PairAnswer::Reported([filter, trigger].map(first_line))
        }
        Err(refusal) => PairAnswer::Refused(refused(refusal)),
    })
}

fn check(checker: &impl PairChecker, files: &PairFiles, before: &Lent) -> Left<usize> {
    let PairFiles {
        filter,
        trigger,
        common,
    } = files;
    Left::by(before, |lent| {
        checker.pair_files(filter, trigger, common, &mut lent.output)
    })
}

/// Just enough, more, or in about one pair of ten too little: by a byte, for one report, none.
fn room(seed: u64) -> usize {
    let mut rng = Rng::new(seed, 14);
    let any = rng.index(10_000);
    match rng.below(20) {
        0 => PAIR_ROOM - 1,
        1 => rng.pick(&[0, 1, 24_575, 24_576, PAIR_ROOM - 1 - any]),
        2 => PAIR_ROOM + 1,
        3 => PAIR_ROOM + any,
        _ => PAIR_ROOM,
    }
}

/// The place behind the first line that ends a report.
fn behind_end(output: &[u8]) -> Option<usize> {
    let mut behind = 0;
    output
        .split_inclusive(|&byte| byte == b'\n')
        .find_map(|line| {
            behind += line.len();
            (line == b"end=report\n").then_some(behind)
        })
}

/// What is wrong with an output, whatever the files are: two reports, each up to its own end, are all that was written. Bytes are lent that
/// no report has.
fn fault(written: usize, before: &[u8], output: &[u8]) -> Option<String> {
    let Some((reports, behind)) = output.split_at_checked(written) else {
        return Some("the reports are longer than the output".to_string());
    };
    if behind != &before[written..] {
        return Some("a byte behind the reports is changed".to_string());
    }
    let first = behind_end(reports);
    let second = first.and_then(|first| Some(first + behind_end(&reports[first..])?));
    match second {
        None => Some("there are no two reports".to_string()),
        Some(end) if end < written => Some("the second report does not end the text".to_string()),
        Some(_) if !reports.is_ascii() => Some("a byte of the reports is as it was".to_string()),
        Some(_) => None,
    }
}

fn show(files: &PairFiles, lent: &Lent) -> String {
    let output = lent.output.len();
    let [filter, trigger, common] =
        [&files.filter, &files.trigger, &files.common].map(|file| lines(file));
    format!("lent {output} bytes of output\nthe filter's file:\n{filter}\nthe trigger's file:\n{trigger}\nthe common file:\n{common}")
}
