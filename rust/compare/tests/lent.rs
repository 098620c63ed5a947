//! What the seeds lend: where a length, or a word of a buffer, is never put to the checkers, they are not compared there.

use std::cell::RefCell;
use std::ops::RangeInclusive;
use std::sync::OnceLock;

use checker::{
    log_words, Outcome, Refusal, Subject, INTERVAL_RECORDS, INTERVAL_WORDS, LENT_CELLS,
    LENT_GLOBAL, LENT_LOG, MAX_GROUPS, MAX_LAUNCH_THREADS, MAX_THREADS, REPORT_ROOM,
};
use compare::{compare_seed, Checker, Independent, Kind, Numbers, Steps};

const THREADS: usize = MAX_THREADS as usize;
const GROUPS: usize = MAX_GROUPS as usize;

/// A report that was asked for.
#[derive(Clone, Copy, Debug)]
struct Report {
    ran: bool,
    steps: usize,
    /// Own and global ones.
    cells: [usize; 2],
    room: usize,
    answer: Result<usize, Refusal>,
}

impl Report {
    fn all_cells(&self) -> usize {
        self.cells[0] + self.cells[1]
    }

    fn refused(&self, number: u32) -> bool {
        self.answer.is_err_and(|refusal| refusal.number == number)
    }
}

/// A bare launch that was asked for.
#[derive(Clone, Copy, Debug)]
struct Launch {
    threads: usize,
    groups: usize,
    ran: bool,
    lent: Steps,
    left: Steps,
}

/// A file or a bare launch: which of its buffers are right, the log and the list of records that it was lent, and what became of it.
#[derive(Clone, Copy, Debug)]
struct List {
    cells: bool,
    global: bool,
    log: bool,
    output: bool,
    /// Words of global cells, lent and due.
    global_words: [usize; 2],
    /// Words of log, lent and due.
    log_words: [usize; 2],
    words: usize,
    /// No word is one that a run leaves.
    junk: bool,
    /// Records with a word that was changed.
    changed: usize,
    /// The refusal's number, or 0.
    number: u32,
}

impl List {
    fn new<T>(
        cells: bool,
        global_words: [usize; 2],
        log_words: [usize; 2],
        output: bool,
        before: &[u32],
        after: &[u32],
        answer: &Result<T, Refusal>,
    ) -> Self {
        let [log, due] = log_words;
        let records = before.chunks(3).zip(after.chunks(3));
        Self {
            cells,
            global: global_words[0] == global_words[1],
            log: log == due,
            output,
            global_words,
            log_words,
            words: before.len(),
            junk: before.iter().all(|&word| word >= 1 << 31),
            changed: records.filter(|(was, is)| was != is).count(),
            number: answer.as_ref().map_or_else(|refusal| refusal.number, |_| 0),
        }
    }

    fn right(&self) -> [bool; 4] {
        [self.cells, self.global, self.log, self.output]
    }
}

/// The independent checker, with all that is asked of it.
#[derive(Default)]
struct Witness {
    reports: RefCell<Vec<Report>>,
    launches: RefCell<Vec<Launch>>,
    lists: RefCell<Vec<List>>,
}

impl Checker for Witness {
    fn check_file(
        &self,
        file: &[u8],
        cells: &mut [u32],
        global: &mut [u32],
        log: &mut [u32],
        records: &mut [u32],
        output: &mut [u8],
    ) -> Result<usize, Refusal> {
        let lent = records.to_vec();
        let answer = Independent.check_file(file, cells, global, log, records, output);
        let list = List::new(
            cells.len() == LENT_CELLS,
            [global.len(), LENT_GLOBAL],
            [log.len(), LENT_LOG],
            output.len() >= REPORT_ROOM,
            &lent,
            records,
            &answer,
        );
        self.lists.borrow_mut().push(list);
        answer
    }

    fn bare_launch(
        &self,
        table: &[u8],
        numbers: Numbers,
        cells: &mut [u32],
        global: &mut [u32],
        log: &mut [u32],
        records: &mut [u32],
        steps: &mut Steps,
    ) -> Result<Outcome, Refusal> {
        let (lent, lent_records) = (*steps, records.to_vec());
        let answer = Independent.bare_launch(table, numbers, cells, global, log, records, steps);
        let Numbers {
            cells: own,
            groups,
            global: shared,
            ..
        } = numbers;
        // Out of range, no length is due.
        let (own, shared) = match (own, groups, shared) {
            (..=1_024, ..=8, ..=1_024) => ((groups * own) as usize, shared as usize),
            _ => (0, 0),
        };
        let list = List::new(
            cells.len() == own,
            [global.len(), shared],
            [log.len(), log_words(own + shared)],
            true,
            &lent_records,
            records,
            &answer,
        );
        self.lists.borrow_mut().push(list);
        self.launches.borrow_mut().push(Launch {
            threads: numbers.threads as usize,
            groups: groups as usize,
            ran: answer.is_ok(),
            lent,
            left: *steps,
        });
        answer
    }

    fn write_report(
        &self,
        subject: Subject,
        steps: &[u32],
        cells: &[u32],
        global: &[u32],
        output: &mut [u8],
    ) -> Result<usize, Refusal> {
        let answer = Independent.write_report(subject, steps, cells, global, output);
        self.reports.borrow_mut().push(Report {
            ran: matches!(subject, Subject::Ran(_)),
            steps: steps.len(),
            cells: [cells.len(), global.len()],
            room: output.len(),
            answer,
        });
        answer
    }
}

/// What is asked by the seeds of a kind, as many as are compared where no number is given.
fn witness(kind: Kind) -> Witness {
    let witness = Witness::default();
    for seed in (0..compare::DEFAULT_COUNT).filter(|&seed| Kind::of(seed) == kind) {
        compare_seed(seed, &witness, &Independent).unwrap_or_else(|found| panic!("{found}"));
    }
    witness
}

#[test]
fn reports_are_asked_for_with_many_lengths() {
    let reports = witness(Kind::Report).reports.into_inner();
    let asked =
        |due: &dyn Fn(&Report) -> bool| reports.iter().any(|report| report.ran && due(report));
    let written = |lengths: RangeInclusive<usize>| {
        let found = asked(&|r| lengths.contains(&r.steps) && r.answer.is_ok());
        assert!(found, "{lengths:?} written");
    };
    // Those of one group, and some of every number of groups.
    for steps in 1..=THREADS {
        written(steps..=steps);
    }
    for steps in (1..MAX_LAUNCH_THREADS).step_by(16) {
        written(steps..=steps + 15);
    }
    for steps in [1, THREADS, THREADS + 1, 255, 256] {
        let of = |report: &Report| report.steps == steps;
        assert!(asked(&|r| of(r) && r.refused(22)), "{steps} too long");
        for cells in [0, 1_025] {
            assert!(
                asked(&|r| of(r) && r.all_cells() == cells),
                "{steps} and {cells} cells"
            );
        }
    }
    for steps in [0, 257, 512, 1_024] {
        for (cells, room) in [
            (0, 0),
            (0, 30_000),
            (1, 0),
            (1, 30_000),
            (1_024, 0),
            (1_024, 30_000),
            (1_025, 0),
            (1_025, 30_000),
        ] {
            let of = |r: &Report| (r.steps, r.all_cells(), r.room) == (steps, cells, room);
            assert!(
                asked(&|r| of(r) && r.refused(23)),
                "{steps}, {cells}, {room}"
            );
        }
    }
}

#[test]
fn reports_are_asked_for_with_own_and_global_cells_of_every_length() {
    let reports = witness(Kind::Report).reports.into_inner();
    let asked =
        |due: &dyn Fn(&Report) -> bool| reports.iter().any(|report| report.ran && due(report));
    for (own, global, written) in [
        (false, true, true),
        (true, false, true),
        (true, true, true),
        (false, true, false),
        (true, false, false),
        (true, true, false),
    ] {
        let of = |r: &Report| [own, global] == r.cells.map(|words| words > 0);
        let found = match written {
            true => asked(&|r| of(r) && r.all_cells() == 1_024 && r.answer.is_ok()),
            false => asked(&|r| of(r) && r.all_cells() == 1_025 && r.refused(23)),
        };
        assert!(found, "{own}, {global}, {written}");
    }
    // Each alone would be in range.
    let each = |r: &Report| r.cells.iter().all(|&words| words <= 1_024);
    assert!(asked(&|r| each(r)
        && r.all_cells() == 2_048
        && r.refused(23)));
    assert!(asked(&|r| each(r)
        && r.all_cells() == 1_025
        && r.refused(23)
        && r.room >= 30_000));
}

#[test]
fn reports_are_asked_for_with_a_byte_too_few_and_just_enough() {
    let reports = witness(Kind::Report).reports.into_inner();
    for steps in [1, MAX_LAUNCH_THREADS] {
        for cells in [1, 1_024] {
            let of = |r: &&Report| r.ran && (r.steps, r.all_cells()) == (steps, cells);
            let short = |r: &Report| {
                r.answer
                    .is_err_and(|refusal| refusal.place as usize == r.room + 1)
            };
            assert!(
                reports.iter().filter(of).any(short),
                "{steps}, {cells}: short"
            );
            let exact = |r: &Report| r.answer == Ok(r.room);
            assert!(
                reports.iter().filter(of).any(exact),
                "{steps}, {cells}: exact"
            );
        }
    }
}

#[test]
fn every_word_of_steps_is_a_count_a_word_behind_and_one_that_is_kept() {
    let launches = witness(Kind::Bare).launches.into_inner();
    let (ran, refused): (Vec<Launch>, Vec<Launch>) = launches.into_iter().partition(|l| l.ran);
    assert!(ran
        .iter()
        .chain(&refused)
        .all(|launch| !launch.lent.contains(&0)));
    assert!(refused.len() > 100 && refused.iter().all(|launch| launch.left == launch.lent));
    let cleared = |launch: &Launch| {
        let all = launch.threads * launch.groups;
        launch.left[all..].iter().all(|&word| word == 0)
    };
    assert!(ran.iter().all(cleared));
    for threads in 1..=THREADS {
        let of = |launch: &&Launch| launch.threads == threads;
        let counted = |launch: &Launch| launch.left[threads - 1] > 0;
        assert!(ran.iter().filter(of).any(counted), "{threads} threads");
        assert!(
            refused.iter().any(|launch| launch.threads == threads),
            "{threads} threads"
        );
        let unequal = |launch: &Launch| launch.left[0] != launch.left[threads - 1];
        assert!(
            threads == 1 || ran.iter().filter(of).any(unequal),
            "{threads} threads"
        );
    }
    for groups in 1..=GROUPS {
        let of = |launch: &&Launch| launch.groups == groups;
        let all = |launch: &Launch| launch.threads * groups;
        let counted = |launch: &Launch| launch.left[all(launch) - 1] > 0;
        assert!(ran.iter().filter(of).any(counted), "{groups} groups");
        // A group that was not begun has 0, and one may differ from another.
        let stopped = |launch: &Launch| launch.left[all(launch) - 1] == 0;
        assert!(ran.iter().filter(of).any(stopped), "{groups} groups");
        let unequal = |launch: &Launch| {
            let (first, last) = launch.left[..all(launch)].split_at(launch.threads);
            last.len() >= first.len()
                && last[last.len() - 1] > 0
                && first != &last[last.len() - first.len()..]
        };
        assert!(
            groups == 1 || ran.iter().filter(of).any(unequal),
            "{groups} groups"
        );
    }
    let full = |launch: &Launch| launch.left[MAX_LAUNCH_THREADS - 1] > 0;
    assert!(ran.iter().any(full), "all words are counts");
}

/// The lists that files or bare launches are lent. Files are many, so they are asked for once.
fn lists(kind: Kind) -> &'static [List] {
    static FILES: OnceLock<Vec<List>> = OnceLock::new();
    static BARE: OnceLock<Vec<List>> = OnceLock::new();
    let lists = match kind {
        Kind::File => &FILES,
        _ => &BARE,
    };
    let lists = lists.get_or_init(|| witness(kind).lists.into_inner());
    assert!(lists.iter().all(|list| list.junk), "{kind:?}");
    lists
}

#[test]
fn files_are_lent_logs_of_wrong_lengths_beside_each_wrong_buffer() {
    let lists = lists(Kind::File);
    assert!(lists.iter().all(|list| list.log_words[1] == 8_192));
    // By a word; as many words a cell as were once right; one kind too few and one too many.
    for words in [8_191, 8_193, 3_072, 5_120, 7_168, 9_216] {
        for wrong in 0..16 {
            let [cells, global, records, output] =
                [0, 1, 2, 3].map(|which| wrong >> which & 1 == 0);
            let of = |list: &&List| {
                let enough = list.words >= INTERVAL_WORDS;
                let others = (list.cells, list.global, enough, list.output);
                list.log_words[0] == words && others == (cells, global, records, output)
            };
            let due = if cells && global { 21 } else { 20 };
            let told = |list: &List| list.number == due;
            assert!(lists.iter().filter(of).any(told), "{words}, {wrong:04b}");
        }
    }
    let ran = lists.iter().filter(|list| list.number == 0).count();
    assert!(ran > 20_000, "{ran}");
}

#[test]
fn files_are_lent_global_cells_of_wrong_lengths_beside_each_wrong_buffer() {
    let lists = lists(Kind::File);
    assert!(lists.iter().all(|list| list.global_words[1] == 1_024));
    for words in [1_023, 1_025, 0, 8_192] {
        for wrong in 0..16 {
            let [cells, log, records, output] = [0, 1, 2, 3].map(|which| wrong >> which & 1 == 0);
            let of = |list: &&List| {
                let others = (
                    list.cells,
                    list.log,
                    list.words >= INTERVAL_WORDS,
                    list.output,
                );
                list.global_words[0] == words && others == (cells, log, records, output)
            };
            let told = |list: &List| list.number == 20;
            assert!(lists.iter().filter(of).any(told), "{words}, {wrong:04b}");
            let input_first = |list: &List| matches!(list.number, 1..=12 | 32 | 33);
            assert!(
                lists.iter().filter(of).any(input_first),
                "{words}, {wrong:04b}"
            );
        }
    }
}

#[test]
fn bare_launches_are_lent_global_cells_of_wrong_lengths() {
    let lists = lists(Kind::Bare);
    let told = |due: &dyn Fn([usize; 2]) -> bool| {
        let told = |list: &&List| list.number == 20 && list.cells && due(list.global_words);
        lists.iter().filter(told).count()
    };
    assert!(told(&|[lent, due]| lent == due + 1) > 10, "a word more");
    assert!(told(&|[lent, due]| lent + 1 == due) > 10, "a word fewer");
    assert!(told(&|[lent, due]| lent > 0 && due == 0) > 10, "none due");
    assert!(told(&|[lent, due]| lent == 0 && due > 0) > 0, "none lent");
}

#[test]
fn bare_launches_are_lent_logs_of_wrong_lengths() {
    let lists = lists(Kind::Bare);
    let told = |words: &dyn Fn(usize) -> Option<usize>| {
        let told = |list: &&List| {
            let [lent, due] = list.log_words;
            list.number == 21 && words(due / 8) == Some(lent)
        };
        lists.iter().filter(told).count()
    };
    for kinds in [0, 1, 2, 3, 5, 7, 9] {
        assert!(
            told(&|cells| Some(kinds * cells)) > 10,
            "{kinds} words a cell"
        );
    }
    assert!(
        told(&|cells| (8 * cells).checked_sub(1)) > 10,
        "a word short"
    );
    assert!(told(&|cells| Some(8 * cells + 1)) > 10, "a word too long");
    for words in [8_191, 8_192, 8_193, 3_072] {
        assert!(told(&|_| Some(words)) > 0, "{words} words");
    }
    // The global cells forgotten.
    let own_alone = |list: &&List| {
        let ([_, global], [lent, due]) = (list.global_words, list.log_words);
        list.number == 21 && global > 0 && lent + log_words(global) == due
    };
    assert!(lists.iter().filter(own_alone).count() > 10);
}

/// Lengths that are too short: by a word, by a record, as many as there are records, room for one, none.
const SHORT: [usize; 5] = [3_074, 3_072, 1_025, 3, 0];

#[test]
fn files_are_lent_short_lists_beside_each_wrong_buffer() {
    let lists = lists(Kind::File);
    for words in SHORT {
        for wrong in 0..16 {
            let right @ [cells, global, log, _] = [0, 1, 2, 3].map(|which| wrong >> which & 1 == 0);
            let due = match (cells && global, log) {
                (false, _) => 20,
                (_, false) => 21,
                _ => 30,
            };
            let of = |list: &&List| (list.words, list.right()) == (words, right);
            let told = |list: &List| list.number == due && list.changed == 0;
            assert!(lists.iter().filter(of).any(told), "{words}, {right:?}");
            let input_first = |list: &List| matches!(list.number, 1..=12 | 32 | 33);
            assert!(
                lists.iter().filter(of).any(input_first),
                "{words}, {right:?}"
            );
        }
    }
}

#[test]
fn bare_launches_are_lent_short_lists_beside_each_wrong_buffer() {
    let lists = lists(Kind::Bare);
    for words in [3_074, 3_072, 0] {
        for (cells, log, due) in [(true, true, 30), (true, false, 21), (false, true, 20)] {
            let of = |list: &&List| {
                (list.words, list.cells && list.global, list.log) == (words, cells, log)
            };
            let told = |list: &List| list.number == due && list.changed == 0;
            assert!(lists.iter().filter(of).any(told), "{words}, {due}");
        }
    }
}

#[test]
fn lists_are_lent_that_are_long_enough_or_longer() {
    for kind in [Kind::File, Kind::Bare] {
        let lists = lists(kind);
        for words in [3_075, 3_076, 3_077, 3_078, 2 * 3_075] {
            let ran = |list: &&List| list.words == words && list.number == 0;
            let ran: Vec<&List> = lists.iter().filter(ran).collect();
            for used in [1, 2, 3, INTERVAL_RECORDS] {
                let found = ran.iter().any(|list| list.changed == used);
                assert!(found, "{kind:?}: {used} records of {words} words");
            }
            assert!(ran.iter().all(|list| list.changed <= INTERVAL_RECORDS));
        }
        for used in [1_024, INTERVAL_RECORDS - 2] {
            let found = lists.iter().any(|list| list.changed == used);
            assert!(found, "{kind:?}: {used} records");
        }
        let refused = |number| {
            let of = move |list: &&List| list.number == number && list.words > INTERVAL_WORDS;
            lists.iter().filter(of).count()
        };
        let numbers: &[u32] = match kind {
            Kind::File => &[20, 21, 24],
            _ => &[20, 21],
        };
        assert!(
            numbers.iter().all(|&number| refused(number) > 0),
            "{kind:?}"
        );
        assert_eq!(refused(30), 0, "{kind:?}");
    }
}
