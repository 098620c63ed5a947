//! Launch files through the whole-file entry.

use checker::{parse_file, INTERVAL_WORDS, LENT_CELLS, LENT_GLOBAL, LENT_LOG, REPORT_ROOM};
use generator::Rng;

use crate::difference::{judge, lines, Difference, Left, Lent, Sweep};
use crate::records::Counts;
use crate::tally::refused;
use crate::{junk, Checker};

pub(crate) fn compare(
    seed: u64,
    ours: &impl Checker,
    theirs: &impl Checker,
) -> Result<String, Box<Difference>> {
    let file = generator::launch(seed);
    let before = lend(seed);
    let ours = check(ours, &file, &before);
    let theirs = check(theirs, &file, &before);
    let show = || show(&file, &before);
    // Of a file that is refused nobody counts.
    let groups = parse_file(&file).map_or(0, |launch| launch.groups);
    let wrong = |written: &usize, left: &Lent| match counts(*written, left, groups) {
        Ok(counts) => counts.fault(&before.records, &left.records),
        Err(fault) => Some(fault),
    };
    judge(Sweep::Launches, seed, show, wrong, &before, &ours, &theirs)?;
    Ok(name(&ours))
}

fn check(checker: &impl Checker, file: &[u8], before: &Lent) -> Left<usize> {
    let lend = |lent: &mut Lent| {
        let Lent {
            cells,
            global,
            log,
            records,
            output,
            ..
        } = lent;
        checker.check_file(file, cells, global, log, records, output)
    };
    Left::by(before, lend)
}

/// As the report has them.
fn counts(written: usize, left: &Lent, groups: u32) -> Result<Counts, String> {
    let report = left.output.get(..written).unwrap_or(&[]);
    Counts::in_report(report, groups)
}

/// Buffers full of junk. In about one launch of six some of them are of a wrong size: one, some or all, each set as likely as
/// another, so that the refusals' order is seen. Records and output may be longer than they need to be.
fn lend(seed: u64) -> Lent {
    let mut rng = Rng::new(seed, 10);
    let mut sizes = [
        LENT_CELLS,
        LENT_GLOBAL,
        LENT_LOG,
        INTERVAL_WORDS + more_records(&mut rng),
        rng.pick(&[REPORT_ROOM, REPORT_ROOM, REPORT_ROOM + 1, 30_000]),
    ];
    if rng.one_in(6) {
        let wrong = rng.range(1, 31);
        for (which, size) in sizes.iter_mut().enumerate() {
            if wrong >> which & 1 == 1 {
                *size = wrong_size(&mut rng, which);
            }
        }
    }
    let [cells, global, log, records, output] = sizes;
    Lent {
        cells: junk::words(seed, cells),
        global: junk::words(seed.rotate_left(13), global),
        log: junk::words(!seed, log),
        records: junk::records(seed, records),
        output: junk::bytes(seed, output),
        ..Lent::default()
    }
}

/// None, a word or two, a record, or as many again.
fn more_records(rng: &mut Rng) -> usize {
    let any = rng.index(500);
    rng.pick(&[0, 0, 0, 0, 1, 2, 3, any, INTERVAL_WORDS])
}

fn wrong_size(rng: &mut Rng, which: usize) -> usize {
    match which {
        0 => rng.pick(&[1_023, 1_025, 0, 8_192]),
        1 => rng.pick(&[1_023, 1_025, 0, 0, 8_192]),
        // By a word, and as many words a cell as are too few or too many; three and five of them were once right.
        2 => rng.pick(&[
            8_191, 8_193, 5_120, 5_120, 7_168, 9_216, 3_072, 0, 1_024, 4_096, 16_384,
        ]),
        3 => rng.pick(&[3_074, 3_074, 3_074, 3_073, 3_072, 1_025, 3, 1, 0, 0]),
        _ => rng.pick(&[0, 1, 24_575, 24_575, 17_408, 1_024]),
    }
}

/// The report's first line, or the refusal.
fn name(left: &Left<usize>) -> String {
    match left.answer {
        Ok(_) => first_line(&left.lent.output),
        Err(refusal) => refused(refusal),
    }
}

/// A race without another thread is told apart: it is between two groups.
pub(crate) fn first_line(report: &[u8]) -> String {
    let mut lines = report.split(|&byte| byte == b'\n');
    let first = lines.next().unwrap_or(&[]).escape_ascii().to_string();
    let alone = lines.take(5).any(|line| line == b"other=-");
    match &first[..] {
        "verdict=race" if alone => "verdict=race of groups".to_string(),
        _ => first,
    }
}

fn show(file: &[u8], lent: &Lent) -> String {
    let (cells, global, log) = (lent.cells.len(), lent.global.len(), lent.log.len());
    let (records, output) = (lent.records.len(), lent.output.len());
    let lines = lines(file);
    format!("lent {cells} cells, {global} global cells, {log} words of log, {records} of records, {output} bytes of output; the file:\n{lines}")
}
