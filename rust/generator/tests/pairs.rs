//! Two kernels over common cells, and what can go wrong with them: reports and
//! logs are those of a slow run, each of the mistakes that are likely shows in
//! several of the first pairs, and each edge turns up.

mod common;
mod slow;

use std::collections::BTreeMap;

use checker::{
    common_launch, log_words, op, pair_files, parse_common, parse_file, Refusal, INTERVAL_RECORDS,
    INTERVAL_WORDS, MAX_LAUNCH_THREADS, PAIR_ROOM,
};
use common::{around, Counts, JUNK};
use generator::PairFiles;
use slow::{cost, ended, run_by, slow_run, Access, Launch, Rule, Told, COMMON};

const SEEDS: u64 = 2_000;

/// Both reports as one text. Bytes behind them must be kept.
fn reports(files: &PairFiles) -> String {
    let mut out = vec![b'?'; PAIR_ROOM + 5];
    let len = pair_files(&files.filter, &files.trigger, &files.common, &mut out);
    let len = len.expect("room enough");
    assert!(out[len..].iter().all(|&byte| byte == b'?'));
    out.truncate(len);
    String::from_utf8(out).unwrap()
}

/// The pairs of which no kernel takes the slow run long.
fn pairs() -> impl Iterator<Item = (PairFiles, String)> {
    let pairs = (0..SEEDS).map(generator::pair);
    pairs.filter_map(|files| {
        let told = reports(&files);
        let short = |line: &str| {
            let rows = line.strip_prefix("rows=").map(|rows| rows.parse::<u32>());
            rows.is_none_or(|rows| rows.unwrap() < 4_500)
        };
        told.lines().all(short).then_some((files, told))
    })
}

/// What can go wrong, in a run or around it.
#[derive(Clone, Copy, Debug, PartialEq)]
enum Mistake {
    None,
    /// In the runs.
    Run(Rule),
    /// 37 comes before a kernel's own refusal.
    CommonFileFirst,
    /// A bad common file refuses the filter only, or the trigger only.
    FilterOnly,
    TriggerOnly,
    /// It refuses nobody, as if it had no cells.
    NobodyRefused,
    /// The trigger runs on what the filter has left in its cells.
    CellsHandedOn,
    /// A refused filter refuses the trigger.
    RefusedTogether,
    /// The reports the other way round, or with one end for both.
    Exchanged,
    OneEnd,
    /// A cut file is good as far as it goes.
    CutIsGood,
    /// The last line needs no line end.
    LastLineOpen,
    /// What stands behind the end isn't looked at.
    BehindIsGood,
    /// More than 256 cells are good, or 257.
    AnyCount,
    Up257,
    /// As many cells as there are lines, whatever is said.
    LinesCount,
    /// Leading zeros and a plus sign are good.
    LooseNumbers,
    /// A file of over 32,768 bytes is 12.
    LongIs12,
    /// An empty file is one without cells.
    EmptyIsNone,
    /// Lines count from 0.
    LinesFrom0,
    /// A count out of range is told at its last line, or behind it.
    CountToldLater,
}

/// In reports; and in what else a run leaves.
const REPORTED: [Rule; 18] = [
    Rule::CommonBanked,
    Rule::MixedUncharged,
    Rule::CostRemembered,
    Rule::CommonUnstepped,
    Rule::CommonFrom65535,
    Rule::CommonUpToCount,
    Rule::CommonUpTo256,
    Rule::FarIsCommon,
    Rule::CommonByLowBits,
    Rule::CommonIsOutside,
    Rule::CommonWritten,
    Rule::CommonLoadStops,
    Rule::RaceFirst,
    Rule::CommonFirst,
    Rule::CommonFromZero,
    Rule::CommonStopSteps,
    Rule::CommonStopCounts,
    Rule::GlobalIsCommon,
];

const AROUND: [Mistake; 19] = [
    Mistake::CommonFileFirst,
    Mistake::FilterOnly,
    Mistake::TriggerOnly,
    Mistake::NobodyRefused,
    Mistake::CellsHandedOn,
    Mistake::RefusedTogether,
    Mistake::Exchanged,
    Mistake::OneEnd,
    Mistake::CutIsGood,
    Mistake::LastLineOpen,
    Mistake::BehindIsGood,
    Mistake::AnyCount,
    Mistake::Up257,
    Mistake::LinesCount,
    Mistake::LooseNumbers,
    Mistake::LongIs12,
    Mistake::EmptyIsNone,
    Mistake::LinesFrom0,
    Mistake::CountToldLater,
];

/// A number as the files have it.
fn number(text: &[u8], mistake: Mistake) -> Option<u32> {
    let text = std::str::from_utf8(text).ok()?;
    let number = text.parse::<u32>().ok()?;
    (number.to_string() == text || mistake == Mistake::LooseNumbers).then_some(number)
}

/// The common cells, or the number and the place of the refusal.
fn slow_common(file: &[u8], mistake: Mistake) -> Result<Vec<u32>, (u32, usize)> {
    if mistake == Mistake::EmptyIsNone && file.is_empty() {
        return Ok(vec![]);
    }
    if mistake == Mistake::LongIs12 && file.len() > 32_768 {
        return Err((12, 0));
    }
    let mut lines: Vec<&[u8]> = file.split(|&byte| byte == b'\n').collect();
    let open = lines.pop().unwrap_or_default();
    if mistake == Mistake::LastLineOpen && !open.is_empty() {
        lines.push(open);
    }
    let bad = |line: usize| (37, line - usize::from(mistake == Mistake::LinesFrom0));
    let value = |at: usize, key: &[u8]| {
        let value = lines.get(at)?.strip_prefix(key)?;
        number(value, mistake)
    };
    let mut count = value(0, b"common=").ok_or(bad(1))? as usize;
    let most = match mistake {
        Mistake::AnyCount => 1 << 20,
        Mistake::Up257 => 257,
        _ => 256,
    };
    if count > most {
        let later = mistake == Mistake::CountToldLater;
        return Err(bad(if later { lines.len().max(2) } else { 1 }));
    }
    if mistake == Mistake::LinesCount {
        count = lines
            .iter()
            .filter(|line| line.starts_with(b"cell="))
            .count();
    }
    let mut cells = vec![];
    for at in 1..=count {
        if mistake == Mistake::CutIsGood && at >= lines.len() {
            return Ok(cells);
        }
        cells.push(value(at, b"cell=").ok_or(bad(at + 1))?);
    }
    match lines.get(count + 1).copied() {
        None if mistake == Mistake::CutIsGood => return Ok(cells),
        Some(b"end=common") => {}
        _ => return Err(bad(count + 2)),
    }
    let ended = lines.len() == count + 2 && (open.is_empty() || mistake == Mistake::LastLineOpen);
    match ended || mistake == Mistake::BehindIsGood {
        true => Ok(cells),
        false => Err(bad(count + 3)),
    }
}

fn refusal((number, place): (u32, usize)) -> String {
    format!("refused={number}\nplace={place}\nend=report\n")
}

/// Both reports, by the slow run.
fn slow_reports(files: &PairFiles, mistake: Mistake) -> String {
    let rule = match mistake {
        Mistake::Run(rule) => rule,
        _ => Rule::Right,
    };
    let common = slow_common(&files.common, mistake);
    let mut handed_on: Vec<u32> = vec![];
    let mut told = |file: &[u8], lenient: bool| -> Result<String, String> {
        let common = match (&common, lenient || mistake == Mistake::NobodyRefused) {
            (Err(bad), _) if mistake == Mistake::CommonFileFirst => return Err(refusal(*bad)),
            (Err(_), true) => Ok(&[][..]),
            (Err(bad), false) => Err(*bad),
            (Ok(cells), _) => Ok(&cells[..]),
        };
        let own = |refused: Refusal| refusal((refused.number, refused.place as usize));
        let mut launch = parse_file(file).map_err(own)?;
        let common = common.map_err(refusal)?;
        for (cell, word) in launch.cells.iter_mut().zip(std::mem::take(&mut handed_on)) {
            *cell = word;
        }
        let told = run_by(rule, Launch::of_file(&launch, common), |_| {});
        if mistake == Mistake::CellsHandedOn {
            handed_on = told.cells.clone();
        }
        Ok(told.report())
    };
    let filter = told(&files.filter, mistake == Mistake::TriggerOnly);
    let trigger = match (&filter, mistake) {
        (Err(refused), Mistake::RefusedTogether) => Err(refused.clone()),
        _ => told(&files.trigger, mistake == Mistake::FilterOnly),
    };
    let [filter, trigger] = [filter, trigger].map(|told| told.unwrap_or_else(|refused| refused));
    match mistake {
        Mistake::Exchanged => trigger + &filter,
        Mistake::OneEnd => filter.trim_end_matches("end=report\n").to_string() + &trigger,
        _ => filter + &trigger,
    }
}

#[test]
fn reports_are_those_of_a_slow_run() {
    let mut compared = 0;
    for (files, told) in pairs() {
        assert_eq!(told, slow_reports(&files, Mistake::None), "{files:?}");
        compared += 1;
    }
    assert!(compared > SEEDS * 95 / 100, "{compared}");
}

/// A kernel that isn't refused, over good common cells.
struct Kernel {
    launch: checker::Launch,
    common: Vec<u32>,
}

impl Kernel {
    fn slow(&self) -> Launch<'_> {
        Launch::of_file(&self.launch, &self.common)
    }
}

fn kernels() -> impl Iterator<Item = Kernel> {
    pairs().flat_map(|(files, _)| {
        let common = parse_common(&files.common).ok();
        let both = [files.filter, files.trigger].map(|file| parse_file(&file).ok());
        let accepted = both.into_iter().flatten();
        accepted.filter_map(move |launch| {
            let common = common.clone()?;
            Some(Kernel { launch, common })
        })
    })
}

/// What the run over common cells leaves.
fn left(kernel: &Kernel) -> Told {
    let launch = &kernel.launch;
    let (mut cells, mut global) = (launch.cells.clone(), launch.global.clone());
    let mut log = vec![JUNK; log_words(cells.len() + global.len())];
    let mut list = vec![JUNK; INTERVAL_WORDS];
    let mut steps = [JUNK; MAX_LAUNCH_THREADS];
    let outcome = common_launch(
        &kernel.common,
        &launch.table,
        launch.threads,
        launch.cells_each,
        launch.groups,
        global.len() as u32,
        launch.limit,
        &mut cells,
        &mut global,
        &mut log,
        &mut list,
        &mut steps,
        |_, _| {},
    );
    let outcome = outcome.expect("a launch that isn't refused");
    let (verdict, stop) = ended(&outcome);
    let used = INTERVAL_RECORDS.min((outcome.group + 1 + outcome.barriers) as usize);
    let (records, kept) = list.split_at(3 * used);
    assert!(kept.iter().all(|&word| word == JUNK));
    Told {
        verdict,
        stop,
        rows: outcome.rows,
        barriers: outcome.barriers,
        steps: steps[..(launch.groups * launch.threads) as usize].to_vec(),
        records: records.as_chunks().0.to_vec(),
        cells,
        global,
        log,
    }
}

#[test]
fn runs_leave_what_a_slow_run_leaves_and_a_logged_load_shows() {
    let mut logged = 0;
    for kernel in kernels() {
        let right = slow_run(kernel.slow(), |_| {});
        assert_eq!(left(&kernel), right);
        if logged < 40 {
            let wrong = run_by(Rule::CommonLogged, kernel.slow(), |_| {});
            logged += usize::from(wrong.log != right.log);
        }
    }
    assert!(logged >= 40, "{logged}");
}

/// Each is looked for until it has shown often enough.
#[test]
fn each_mistake_shows() {
    const ENOUGH: usize = 6;
    let runs = REPORTED.map(Mistake::Run);
    let logged = [Mistake::Run(Rule::CommonLogged)];
    let all = [&runs[..], &AROUND, &logged].concat();
    let mut shown: BTreeMap<String, usize> = BTreeMap::new();
    for (files, told) in pairs() {
        for &mistake in &all {
            let times = shown.entry(format!("{mistake:?}")).or_default();
            if *times < ENOUGH {
                *times += usize::from(slow_reports(&files, mistake) != told);
            }
        }
    }
    let rare: Vec<_> = shown.iter().filter(|(_, &times)| times < ENOUGH).collect();
    assert!(rare.is_empty(), "fewer than {ENOUGH} times: {rare:?}");
}

#[test]
fn about_two_thirds_are_sound() {
    let mut counts = Counts::default();
    let mut sound = 0;
    for (files, told) in pairs() {
        let refused = |file: &[u8]| parse_file(file).is_err();
        let kernels = [refused(&files.filter), refused(&files.trigger)];
        let common = parse_common(&files.common);
        sound += u64::from(kernels == [false; 2] && common.is_ok());
        let mut see = |name: &str, seen: bool| counts.see(name, seen);
        see(
            "filter refused alone",
            kernels == [true, false] && common.is_ok(),
        );
        see(
            "trigger refused alone",
            kernels == [false, true] && common.is_ok(),
        );
        see("both refused", kernels == [true, true]);
        see(
            "filter refused, bad common",
            kernels == [true, false] && common.is_err(),
        );
        see(
            "trigger refused, bad common",
            kernels == [false, true] && common.is_err(),
        );
        see("37 twice", told.matches("refused=37\n").count() == 2);
        see("both passed", told.matches("verdict=passed\n").count() == 2);
        see("both common", told.matches("verdict=common\n").count() == 2);
        see(
            "passed and common",
            told.contains("passed") && told.contains("common"),
        );
        see("the same file twice", files.filter == files.trigger);
        for verdict in ["passed", "race", "outside", "common", "diverged", "spent"] {
            see(verdict, told.contains(&format!("verdict={verdict}\n")));
        }
    }
    let share = sound * 100 / SEEDS;
    println!("{share} of a hundred are sound");
    assert!((60..75).contains(&share), "{share}");
    counts.expect(5);
    let mut refused = Counts::default();
    for (_, told) in pairs() {
        for number in [3, 4, 5, 7, 8, 9, 10, 11, 12, 32, 33, 37] {
            let line = format!("refused={number}\n");
            refused.see(line.trim(), told.contains(&line));
        }
    }
    refused.expect(1);
}

/// Common files bad in each place.
#[test]
fn bad_common_files() {
    let mut counts = Counts::default();
    for (files, _) in pairs() {
        let file = &files.common;
        let Err(Refusal { number, place }) = parse_common(file) else {
            continue;
        };
        assert_eq!(number, 37);
        let text = String::from_utf8_lossy(file);
        let whole = text.matches('\n').count() as u32;
        let said = text
            .lines()
            .next()
            .and_then(|line| line.strip_prefix("common="));
        let said: Option<u32> = said.and_then(|said| said.parse().ok());
        let mut see = |name: &str, seen: bool| counts.see(name, seen);
        see("at line 1", place == 1 && !file.is_empty());
        see("at line 2", place == 2);
        let count = said.filter(|&said| said <= 256);
        see(
            "at a later cell",
            place > 2 && count.is_some_and(|count| place <= count + 1),
        );
        see("at the end", count.is_some_and(|count| place == count + 2));
        see(
            "behind the end",
            count.is_some_and(|count| place == count + 3),
        );
        see("257", said == Some(257));
        see(
            "a count out of range",
            place == 1 && said.is_some_and(|said| said > 256),
        );
        see("empty", file.is_empty());
        see("longer than a launch file", file.len() > 32_768);
        see("a launch file", text.starts_with("kernel=1\n"));
        see(
            "cut inside a line",
            place == whole + 1 && !text.ends_with('\n') && !file.is_empty(),
        );
        see(
            "cut behind a line",
            place == whole + 1 && text.ends_with('\n'),
        );
        see("the last line end missing", text.ends_with("end=common"));
        see(
            "a leading zero",
            text.contains("=0") && !text.contains("=0\n"),
        );
        see("a sign", text.contains("=-") || text.contains("=+"));
        let cells = text.matches("\ncell=").count() as u32;
        see(
            "one cell too few",
            said == Some(cells + 1) && text.ends_with("\nend=common\n"),
        );
        let one_more = said.is_some_and(|said| said + 1 == cells);
        see(
            "one cell too many",
            one_more && text.ends_with("\nend=common\n"),
        );
        see("CR", text.contains('\r'));
    }
    counts.expect(3);
}

/// Whether some of a row's numbers are own cells' and others common ones'.
fn is_mixed(access: &Access) -> bool {
    access.is_common() && access.used.iter().any(|&(_, cell)| cell < COMMON)
}

#[test]
fn edges() {
    let mut counts = Counts::default();
    for kernel in kernels() {
        let mut rows: Vec<Access> = vec![];
        let told = slow_run(kernel.slow(), |access| rows.push(access));
        see_numbers(&mut counts, &kernel, &rows, &told);
        see_rows(&mut counts, &kernel, &rows);
        see_stop(&mut counts, &kernel, &told, rows.last());
    }
    counts.expect(5);
}

/// Numbers loaded, and numbers at which runs stopped.
fn see_numbers(counts: &mut Counts, kernel: &Kernel, rows: &[Access], told: &Told) {
    let count = kernel.common.len();
    for size in [0, 1, 255, 256] {
        counts.see(format!("{size} common cells"), count == size);
    }
    let each = kernel.launch.cells_each as usize;
    let own = rows.iter().filter(|access| !access.global);
    let numbers = own.flat_map(|access| access.used.iter().map(|&(_, cell)| cell));
    let numbers: Vec<usize> = numbers.collect();
    let used = |at: usize| numbers.contains(&at);
    counts.see("the first common cell loaded", used(COMMON));
    counts.see(
        "the last of several loaded",
        count > 1 && used(COMMON + count - 1),
    );
    counts.see("the last of 256 loaded", used(COMMON + 255));
    counts.see("the last own cell used", used(each - 1) && count > 0);
    let (Some(at), Some(row)) = (told.stop.at, told.stop.row) else {
        return;
    };
    let at = at as usize;
    let code = kernel.launch.table[4 * row];
    let name = match code {
        op::LOAD => "load",
        op::STORE => "store",
        op::ATOMIC_ADD => "add",
        op::GLOBAL_LOAD => "global load",
        op::GLOBAL_STORE => "global store",
        _ => "global add",
    };
    if code >= op::GLOBAL_LOAD {
        let common = at >= COMMON && at - COMMON < count;
        counts.see(format!("a {name} at a common number"), common);
        return;
    }
    let outside = told.verdict == "outside";
    let mut see = |place: &str, seen: bool| counts.see(format!("{name} {place}"), seen);
    see("at 65,535", outside && at == 65_535);
    see("just past the own cells", outside && at == each);
    see(
        "just past the common cells",
        outside && count > 0 && at == COMMON + count,
    );
    see(
        "at 65,536 without common cells",
        outside && count == 0 && at == COMMON,
    );
    let far = outside && at >= 2 * COMMON;
    see(
        "far off, with a common cell's low bits",
        far && at % COMMON < count,
    );
    see(
        "far off, with an own cell's low bits",
        far && at % COMMON < each,
    );
    if code != op::LOAD {
        let common = told.verdict == "common";
        see("at a common cell", common);
        see("at the first", common && at == COMMON);
        see(
            "at the last of several",
            common && count > 1 && at + 1 == COMMON + count,
        );
    }
}

/// Rows with common loads: their costs, and what is beside them.
fn see_rows(counts: &mut Counts, kernel: &Kernel, rows: &[Access]) {
    let table = kernel.launch.table.as_chunks::<4>().0;
    let own_cost = |access: &Access| cost(&access.own_cells());
    let finished = |access: &&Access| access.finished && !access.global;
    let rows: Vec<&Access> = rows.iter().filter(finished).collect();
    counts.see(
        "no common load",
        !rows.iter().any(|access| access.is_common()),
    );
    for access in &rows {
        let bytes = table[access.row];
        let mut see = |name: &str, seen: bool| counts.see(name, seen);
        see("common loads only", access.is_common() && !is_mixed(access));
        see(
            "of all of 32 threads",
            access.is_common() && access.used.len() == 32,
        );
        see("in a later group", access.is_common() && access.group > 0);
        let place = around(table, access.row);
        see(
            "in an arm",
            access.is_common() && place.contains(['I', 'E']),
        );
        see("in a loop", access.is_common() && place.contains('W'));
        see(
            "behind a barrier",
            access.is_common() && access.interval > 0,
        );
        see(
            "into its number's register",
            access.is_common() && bytes[1] == bytes[2],
        );
        let all = cost(&access.cells());
        see(
            "common numbers in one bank",
            access.is_common() && own_cost(access) < all,
        );
        if !is_mixed(access) {
            continue;
        }
        see("mixed", true);
        see("mixed at a cost", own_cost(access) > 0);
        see(
            "mixed, common ones in the same bank",
            own_cost(access) < all,
        );
        see("mixed into its number's register", bytes[1] == bytes[2]);
        let own = |&(_, cell): &(usize, usize)| cell < COMMON;
        let first = access.used.first().is_some_and(own);
        let last = access.used.last().is_some_and(own);
        see("mixed, own below", first && !last);
        see("mixed, common below", !first && last);
        see("mixed, of both at each end", first == last);
        let changes = access
            .used
            .windows(2)
            .filter(|two| own(&two[0]) != own(&two[1]));
        see("mixed, many changes", changes.count() > 6);
    }
    for two in rows.windows(2) {
        let (now, then) = (&two[1].used, &two[0].used);
        let shift = |(now, then): (&(usize, usize), &(usize, usize))| {
            (now.0 == then.0).then(|| now.1.wrapping_sub(then.1))
        };
        let shifts: Vec<_> = now.iter().zip(then).map(shift).collect();
        let even = now.len() == then.len() && shifts.windows(2).all(|two| two[0] == two[1]);
        let even = even && shifts.first().is_some_and(Option::is_some);
        let costly = |access: &Access| !access.is_common() && own_cost(access) > 0;
        let all_common = |access: &Access| access.is_common() && !is_mixed(access);
        let mut see = |name: &str, seen: bool| counts.see(name, even && seen);
        see(
            "common behind own ones at one distance",
            costly(two[0]) && all_common(two[1]),
        );
        see(
            "own behind common ones at one distance",
            all_common(two[0]) && costly(two[1]),
        );
    }
}

/// Where a run stops at a common cell, or beside one.
fn see_stop(counts: &mut Counts, kernel: &Kernel, told: &Told, last: Option<&Access>) {
    let table = kernel.launch.table.as_chunks::<4>().0;
    let (Some(row), Some(thread), Some(last)) = (told.stop.row, told.stop.thread, last) else {
        return;
    };
    let race_first = run_by(Rule::RaceFirst, kernel.slow(), |_| {});
    let common_first = run_by(Rule::CommonFirst, kernel.slow(), |_| {});
    let mut see = |name: &str, seen: bool| counts.see(name, seen);
    let common = told.verdict == "common";
    see("by thread 0", common && thread == 0);
    see("by a higher thread", common && thread > 0);
    see(
        "others have acted",
        common && last.row == row && !last.used.is_empty(),
    );
    see(
        "and would cost",
        common && last.row == row && cost(&last.cells()) > 0,
    );
    see("by a later group", common && told.stop.group > Some(0));
    let place = around(table, row);
    see("stopped in an arm", common && place.contains(['I', 'E']));
    see("stopped in a loop", common && place.contains('W'));
    see("stopped behind a barrier", common && told.barriers > 0);
    see("stopped at the last row", common && row + 1 == table.len());
    see("stopped at another row", common && row + 1 < table.len());
    see(
        "common below a race",
        common && race_first.verdict == "race",
    );
    let above = common_first.verdict == "common";
    see("common above a race", told.verdict == "race" && above);
    see(
        "common above one outside",
        told.verdict == "outside" && above,
    );
    let behind_load = told.verdict == "race" && last.row == row && last.is_common();
    see("a race behind common loads of its row", behind_load);
    let outside = told.verdict == "outside" && last.row == row && last.is_common();
    see("outside behind common loads of its row", outside);
}

#[test]
fn the_same_seed_gives_the_same_pair() {
    for seed in [0, 1, 77, u64::MAX] {
        assert_eq!(generator::pair(seed), generator::pair(seed));
    }
}
