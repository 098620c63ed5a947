//! The two checkers agree, and a checker with a fault is found out.

use checker::{
    log_words, op, parse_file, AccessKind, Outcome, Refusal, Subject, Verdict, INTERVAL_RECORDS,
    INTERVAL_WORDS, LENT_GLOBAL, LENT_LOG, MAX_CELLS, MAX_LAUNCH_THREADS, REPORT_ROOM,
};
use compare::{compare_all, compare_seed, Checker, Independent, Kind, Numbers, Steps};

#[test]
fn the_verified_library_agrees_with_the_independent_checker() {
    let tally = compare_all(1 << 40, 4_800, |_| ()).unwrap_or_else(|found| panic!("{found}"));
    assert_eq!(
        [Kind::File, Kind::Bare, Kind::Report].map(|kind| tally.of(kind)),
        [3_600, 900, 300]
    );
    for answer in [
        "passed",
        "race",
        "race of groups",
        "outside",
        "diverged",
        "spent",
    ] {
        let answer = format!("verdict={answer}");
        for kind in [Kind::File, Kind::Bare] {
            assert!(tally.answered(kind, &answer) > 10, "{kind:?}: {answer}");
        }
    }
    // A launch alone has no common cells.
    for kind in [Kind::File, Kind::Bare] {
        assert_eq!(tally.answered(kind, "verdict=common"), 0, "{kind:?}");
    }
    for (kind, numbers) in [
        (
            Kind::File,
            &[2, 3, 4, 5, 6, 7, 8, 9, 10, 11, 12, 20, 21, 24, 30, 32, 33][..],
        ),
        (
            Kind::Bare,
            &[1, 2, 3, 4, 5, 6, 7, 8, 9, 10, 20, 21, 30, 32, 33],
        ),
        (Kind::Report, &[22, 23]),
    ] {
        for number in numbers {
            let answer = format!("refused={number}");
            assert!(tally.answered(kind, &answer) > 0, "{kind:?}: {answer}");
        }
    }
    assert!(tally.answered(Kind::Report, "report=written") > 50);
}

/// The independent checker with one mistake.
#[derive(Clone, Copy, Debug)]
enum Faulty {
    PlaceOffByOne,
    ChangesTheLastCell,
    ChangesTheLastGlobalCell,
    ChangesAGlobalCellBehind,
    LeavesTheGlobalCellsAsLent,
    ClearsTheGlobalCellsOnRefusal,
    TakesAnyGlobalCells,
    ChangesTheLastLogWord,
    ChangesTheLastByte,
    CountsAStepTooMany,
    CountsTheStoppedThread,
    CountsForAllAsForTheFirst,
    SumsTheSteps,
    PutsTheLastThreadFirst,
    ForgetsTheLastCount,
    LeavesTheWordsBehindAsLent,
    ChangesTheLastStepWord,
    ClearsTheStepsOnRefusal,
    ForgetsTheLastGroupsSteps,
    ChangesALaterGroupsSteps,
    SumsTheStepsOfAllGroups,
    CountsGroupsBy32,
    PutsThreadsBeforeGroups,
    WritesTheBarriersBeforeTheSteps,
    TakesNoCounts,
    TakesACountTooMany,
    TakesManyCounts,
    ClearsTheLogOnRefusal,
    TellsTheOutputBeforeTheLog,
    TellsTheLogBeforeTheCells,
    TellsCellsBeforeThreads,
    TellsGroupsBeforeCells,
    TellsAllCellsBeforeGroups,
    TellsTheLimitBeforeTheGroups,
    TellsTheLogBeforeTheGlobalCells,
    TellsTheBufferBeforeTheCells,
    TellsTheBufferBeforeTheCounts,
    ForgetsTheAdders,
    PutsTheAddersBeforeTheWriters,
    LeavesTheAddersAsLent,
    ForgetsTheValues,
    ForgetsTheMarks,
    ForgetsTheTopBitOfAValue,
    PutsTheValuesBeforeTheAdders,
    PutsTheMarksBeforeTheValues,
    PutsEachMarkBehindItsValue,
    LeavesTheValuesAsLent,
    LeavesTheMarksAsLent,
    KeepsTheLastValue,
    MarksEqualStores,
    MarksByTheThreads,
    MarksTheRefusedStore,
    ForgetsTheGroupsThatRead,
    ForgetsTheGroupsThatWrote,
    ForgetsTheGroupsThatAdded,
    KeepsTheLastGroupAlone,
    ForgetsTheFirstGroup,
    PutsTheGroupsBeforeTheMarks,
    PutsTheGroupsThatAddedFirst,
    PutsGlobalCellsFirst,
    LeavesTheGroupsOfOwnCellsAsLent,
    LogsTheGroupsOfOwnCells,
    LogsTheGroupThatIsStopped,
    TakesALogOfTheMasks,
    TakesALogOfFiveKinds,
    TakesALogOfSevenKinds,
    TakesALogOfNineKinds,
    TakesALogOfOwnCells,
    TakesALogAWordShort,
    TakesALogAWordTooLong,
    SwapsTheLetters,
    ShowsAnAddBeforeAWrite,
    ShowsAnEqualStore,
    ShowsTheGroupAsTheOther,
    ShowsAnotherOtherGroup,
    SwapsTheGroups,
    ShowsTheOtherThread,
    ShowsTheLaunchNumber,
    ShowsAGroupWhenPassed,
    ShowsAnotherGroup,
    ShowsAnOtherGroupWithoutARace,
    ShowsCommonAsARace,
    WritesTheGroupsBehindTheThreads,
    WritesTheGlobalCellsFirst,
    WritesGlobalCellsAsOwn,
    ForgetsTheLastGlobalCell,
    TakesTooManyCellsTogether,
    RefusesGlobalCellsAlone,
    CostsOneTooMany,
    CountsARowTooMany,
    PutsACostInTheNextRecord,
    CountsTheBarrierBehindIt,
    MovesTheStart,
    StartsAtTheBarrier,
    OpensARecordTooMany,
    OpensNoRecordForALaterGroup,
    UsesMoreThanAllRecords,
    KeepsTheLastRecord,
    ClearsTheRecordsBehind,
    ChangesTheLastRecordWord,
    ClearsTheRecordsOnRefusal,
    CountsAConflictTooMany,
    ForgetsTheConflicts,
    WritesTheConflictsBeforeTheBarriers,
    TellsTheRecordsFirst,
    TellsTheRecordsBeforeTheCells,
    TellsTheRecordsBeforeTheLog,
    TellsTheOutputBeforeTheRecords,
    TakesAWordTooFew,
    TakesARecordTooFew,
    RefusesALongerList,
}

/// A refusal whose place is 0.
fn refused<T>(number: u32) -> Result<T, Refusal> {
    Err(Refusal { number, place: 0 })
}

impl Faulty {
    /// Does the mistake to an answer and its buffers.
    fn spoil<T>(
        self,
        answer: Result<T, Refusal>,
        cells: &mut [u32],
        global: &mut [u32],
        log: &mut [u32],
        records: &mut [u32],
        output: &mut [u8],
    ) -> Result<T, Refusal> {
        match self {
            Faulty::PlaceOffByOne => {
                return answer.map_err(|Refusal { number, place }| Refusal {
                    number,
                    place: place + 1,
                })
            }
            Faulty::ChangesTheLastCell => cells.iter_mut().last().into_iter().for_each(|w| *w ^= 1),
            Faulty::ChangesTheLastGlobalCell => {
                global.iter_mut().last().into_iter().for_each(|w| *w ^= 1)
            }
            Faulty::ClearsTheGlobalCellsOnRefusal if answer.is_err() => global.fill(0),
            Faulty::ChangesTheLastLogWord => {
                log.iter_mut().last().into_iter().for_each(|w| *w ^= 1)
            }
            Faulty::ChangesTheLastByte => {
                output.iter_mut().last().into_iter().for_each(|b| *b ^= 1)
            }
            Faulty::ClearsTheLogOnRefusal if answer.is_err() => log.fill(0),
            Faulty::ChangesTheLastRecordWord => {
                records.iter_mut().last().into_iter().for_each(|w| *w ^= 1)
            }
            Faulty::ClearsTheRecordsOnRefusal if answer.is_err() => records.fill(0),
            _ => {}
        }
        answer
    }

    /// Does the mistake to the records that a run with so many intervals has left.
    fn spoil_records(self, records: &mut [u32], lent: &[u32], intervals: usize) {
        let used = INTERVAL_RECORDS.min(intervals);
        let full = used == INTERVAL_RECORDS;
        let (ours, behind) = records.split_at_mut(3 * used);
        let (first, later) = ours.split_at_mut(3);
        let last = 3 * (used - 1);
        match self {
            Faulty::PutsACostInTheNextRecord if first[2] > 0 && used > 1 => {
                first[2] -= 1;
                later[2] += 1;
            }
            Faulty::CountsTheBarrierBehindIt if used > 1 && first[1] > 0 => {
                first[1] -= 1;
                later[1] += 1;
            }
            Faulty::StartsAtTheBarrier => {
                let starts = later.iter_mut().step_by(3);
                starts.for_each(|start| *start = start.saturating_sub(1))
            }
            // A start at row 0 behind the first is a group's.
            Faulty::OpensNoRecordForALaterGroup if used > 1 && ours[last] == 0 => {
                ours[last - 2] += ours[last + 1];
                ours[last - 1] += ours[last + 2];
                ours[last..].copy_from_slice(&lent[last..3 * used]);
            }
            Faulty::OpensARecordTooMany if !full => behind[..3].copy_from_slice(&[0; 3]),
            Faulty::UsesMoreThanAllRecords if full && behind.len() >= 3 => {
                behind[..3].copy_from_slice(&[0; 3])
            }
            Faulty::ClearsTheRecordsBehind => behind.fill(0),
            Faulty::MovesTheStart => ours[last] += 1,
            Faulty::CountsARowTooMany => ours[last + 1] += 1,
            Faulty::CostsOneTooMany => ours[last + 2] += 1,
            Faulty::KeepsTheLastRecord => ours[last..].copy_from_slice(&lent[last..3 * used]),
            _ => {}
        }
    }

    /// The number that the mistake tells in a refusal's place, with such a list of records and so many bytes of output.
    fn told_for(self, number: u32, records: &[u32], room: usize) -> Option<u32> {
        let short = records.len() < INTERVAL_WORDS;
        match (self, number) {
            (Faulty::TellsTheRecordsFirst, 1..=12 | 32 | 33) if short => Some(30),
            (Faulty::TellsTheRecordsBeforeTheCells, 20) if short => Some(30),
            (Faulty::TellsTheRecordsBeforeTheLog, 21) if short => Some(30),
            (Faulty::TellsTheOutputBeforeTheRecords, 30) if room < REPORT_ROOM => Some(24),
            _ => None,
        }
    }

    /// A list that is long enough in the place of a short one that the mistake takes.
    fn longer_list(self, records: &[u32]) -> Option<Vec<u32>> {
        let taken = match self {
            Faulty::TakesAWordTooFew => INTERVAL_WORDS - 1,
            Faulty::TakesARecordTooFew => INTERVAL_WORDS - 3,
            _ => return None,
        };
        (records.len() == taken).then(|| vec![0; INTERVAL_WORDS])
    }

    /// Whether a list is refused that has more words than are needed.
    fn refuses(self, records: &[u32]) -> bool {
        matches!(self, Faulty::RefusesALongerList) && records.len() > INTERVAL_WORDS
    }

    /// Does the mistake to the log that a run has left, beside its cells, own and global ones.
    fn spoil_log(self, log: &mut [u32], lent: &[u32], own: &[u32], global: &[u32]) {
        let cells = [own, global].concat();
        let count = cells.len();
        let kind = |which: usize| which * count..(which + 1) * count;
        let [writers, adders, values, marks] = [1, 2, 3, 4].map(kind);
        let [read, wrote, added] = [5, 6, 7].map(kind);
        match self {
            Faulty::ForgetsTheGroupsThatRead => log[read].fill(0),
            Faulty::ForgetsTheGroupsThatWrote => log[wrote].fill(0),
            Faulty::ForgetsTheGroupsThatAdded => log[added].fill(0),
            Faulty::KeepsTheLastGroupAlone => {
                let masks = log[read.start..added.end].iter_mut();
                masks.for_each(|mask| *mask = mask.checked_ilog2().map_or(0, |last| 1 << last))
            }
            Faulty::ForgetsTheFirstGroup => log[read.start..added.end]
                .iter_mut()
                .for_each(|mask| *mask &= !1),
            Faulty::PutsTheGroupsBeforeTheMarks => log[marks.start..added.end].rotate_left(count),
            Faulty::PutsTheGroupsThatAddedFirst => log[read.start..added.end].rotate_right(count),
            Faulty::PutsGlobalCellsFirst => {
                let kinds = log[..8 * count].chunks_mut(count);
                kinds.for_each(|kind| kind.rotate_right(global.len()))
            }
            Faulty::LeavesTheGroupsOfOwnCellsAsLent => {
                for mask in [read, wrote, added] {
                    let own = mask.start..mask.start + own.len();
                    log[own.clone()].copy_from_slice(&lent[own]);
                }
            }
            Faulty::LogsTheGroupsOfOwnCells => {
                for cell in 0..own.len() {
                    log[read.start + cell] = u32::from(log[cell] != 0);
                }
            }
            Faulty::ForgetsTheAdders => log[adders].fill(0),
            Faulty::ForgetsTheValues => log[values].fill(0),
            Faulty::ForgetsTheMarks => log[marks].fill(0),
            Faulty::ForgetsTheTopBitOfAValue => {
                log[values].iter_mut().for_each(|w| *w &= !(1 << 31))
            }
            Faulty::PutsTheAddersBeforeTheWriters => {
                log[writers.start..adders.end].rotate_left(count)
            }
            Faulty::PutsTheValuesBeforeTheAdders => {
                log[adders.start..values.end].rotate_left(count)
            }
            Faulty::PutsTheMarksBeforeTheValues => log[values.start..marks.end].rotate_left(count),
            Faulty::PutsEachMarkBehindItsValue => {
                let pairs = log[values.clone()].iter().zip(&log[marks.clone()]);
                let pairs: Vec<u32> = pairs.flat_map(|(&value, &mark)| [value, mark]).collect();
                log[values.start..marks.end].copy_from_slice(&pairs);
            }
            Faulty::LeavesTheAddersAsLent => {
                for word in adders {
                    log[word] |= lent[word];
                }
            }
            // Where nobody has stored, a value and a mark decide nothing; yet they are 0.
            Faulty::LeavesTheValuesAsLent | Faulty::LeavesTheMarksAsLent => {
                let left = match self {
                    Faulty::LeavesTheValuesAsLent => values,
                    _ => marks,
                };
                for (writer, word) in writers.zip(left) {
                    if log[writer] == 0 {
                        log[word] = lent[word];
                    }
                }
            }
            _ => self.spoil_stores(log, &cells),
        }
    }

    /// The same cell by cell, where somebody has stored.
    fn spoil_stores(self, log: &mut [u32], cells: &[u32]) {
        let count = cells.len();
        for (cell, &left) in cells.iter().enumerate() {
            let writers = log[count + cell];
            if writers == 0 {
                continue;
            }
            let [value, mark] = [3 * count + cell, 4 * count + cell];
            match self {
                Faulty::KeepsTheLastValue if log[mark] == 1 => log[value] = left,
                Faulty::MarksEqualStores if !writers.is_power_of_two() => log[mark] = 1,
                Faulty::MarksByTheThreads if log[mark] == 1 => log[mark] = writers,
                _ => {}
            }
        }
    }

    /// Does the mistake to the steps that a run has left.
    fn spoil_steps(self, steps: &mut Steps, lent: &Steps, numbers: Numbers, outcome: &Outcome) {
        let (threads, groups) = (numbers.threads as usize, numbers.groups as usize);
        let all = threads * groups;
        let group = outcome.group as usize * threads;
        let (counts, behind) = steps.split_at_mut(all);
        match (self, outcome.verdict) {
            (Faulty::CountsAStepTooMany, _) => counts[0] += 1,
            (
                Faulty::CountsTheStoppedThread,
                Verdict::Race { thread, .. } | Verdict::Outside { thread, .. },
            ) => counts[group + thread as usize] += 1,
            (Faulty::CountsForAllAsForTheFirst, _) => counts.fill(counts[0]),
            (Faulty::SumsTheSteps, _) => {
                let sum = counts.iter().sum();
                counts.fill(0);
                counts[0] = sum;
            }
            (Faulty::PutsTheLastThreadFirst, _) => counts.reverse(),
            (Faulty::ForgetsTheLastCount, _) => counts[all - 1] = lent[all - 1],
            (Faulty::LeavesTheWordsBehindAsLent, _) => behind.copy_from_slice(&lent[all..]),
            (Faulty::ForgetsTheLastGroupsSteps, _) if groups > 1 => counts[all - threads..].fill(0),
            (Faulty::ChangesALaterGroupsSteps, _) if groups > 1 => counts[all - 1] ^= 1,
            (Faulty::SumsTheStepsOfAllGroups, _) => {
                for number in threads..all {
                    counts[number % threads] += counts[number];
                    counts[number] = 0;
                }
            }
            (Faulty::CountsGroupsBy32, _) => {
                let each: Vec<Vec<u32>> = counts.chunks(threads).map(<[u32]>::to_vec).collect();
                steps.fill(0);
                for (group, counts) in each.iter().enumerate() {
                    steps[32 * group..][..threads].copy_from_slice(counts);
                }
            }
            (Faulty::PutsThreadsBeforeGroups, _) => {
                let by_group = counts.to_vec();
                for (number, count) in by_group.into_iter().enumerate() {
                    counts[number % threads * groups + number / threads] = count;
                }
            }
            _ => {}
        }
    }

    /// Does the mistake to the lines of a report.
    fn spoil_lines(self, lines: &mut Vec<String>) {
        let Some(barriers) = lines.iter().position(|line| line.starts_with("barriers=")) else {
            return;
        };
        let steps = FIRST_COUNT..barriers;
        match self {
            Faulty::SwapsTheLetters => lines[KIND] = swapped_line(&lines[KIND]),
            Faulty::SumsTheSteps => {
                let counts = lines[steps.clone()].iter();
                let sum: u64 = counts.map(|line| number("steps=", line)).sum();
                lines.splice(steps, [format!("steps={sum}")]);
            }
            Faulty::PutsTheLastThreadFirst => lines[steps].reverse(),
            Faulty::ForgetsTheLastCount => drop(lines.remove(barriers - 1)),
            Faulty::WritesTheBarriersBeforeTheSteps => {
                lines[FIRST_COUNT..=barriers].rotate_right(1)
            }
            Faulty::CountsAConflictTooMany => {
                let line = &mut lines[barriers + 1];
                *line = format!("conflicts={}", off_by_one(number("conflicts=", line)));
            }
            Faulty::ForgetsTheConflicts => drop(lines.remove(barriers + 1)),
            Faulty::WritesTheConflictsBeforeTheBarriers => lines.swap(barriers, barriers + 1),
            _ => self.spoil_groups(lines),
        }
    }

    /// The same in the lines about groups and global cells.
    fn spoil_groups(self, lines: &mut Vec<String>) {
        let group = value(&lines[2]).to_string();
        let other_group = value(&lines[3]).to_string();
        let alone = lines[0] == "verdict=race" && lines[5] == "other=-";
        let global = lines.iter().position(|line| line.starts_with("gcell="));
        let own = lines.iter().position(|line| line.starts_with("cell="));
        let end = lines.len() - 1;
        match self {
            Faulty::ShowsTheGroupAsTheOther if alone => lines[3] = format!("othergroup={group}"),
            Faulty::ShowsAnotherOtherGroup if other_group != "-" => {
                let other = off_by_one(number("othergroup=", &lines[3]));
                lines[3] = format!("othergroup={other}");
            }
            Faulty::SwapsTheGroups if alone => {
                lines[2] = format!("group={other_group}");
                lines[3] = format!("othergroup={group}");
            }
            Faulty::ShowsTheOtherThread if alone => lines[5] = "other=0".to_string(),
            Faulty::ShowsAGroupWhenPassed if group == "-" => lines[2] = "group=0".to_string(),
            Faulty::ShowsAnotherGroup if group != "-" => {
                lines[2] = format!("group={}", off_by_one(number("group=", &lines[2])));
            }
            Faulty::ShowsAnOtherGroupWithoutARace if other_group == "-" => {
                lines[3] = "othergroup=0".to_string()
            }
            Faulty::ShowsCommonAsARace if lines[0] == "verdict=common" => {
                lines[0] = "verdict=race".to_string()
            }
            Faulty::WritesTheGroupsBehindTheThreads => lines[2..6].rotate_left(2),
            Faulty::WritesTheGlobalCellsFirst => {
                if let (Some(own), Some(global)) = (own, global) {
                    lines[own..end].rotate_left(global - own);
                }
            }
            Faulty::WritesGlobalCellsAsOwn => {
                for line in &mut lines[global.unwrap_or(end)..end] {
                    *line = line.replace("gcell=", "cell=");
                }
            }
            Faulty::ForgetsTheLastGlobalCell if global.is_some() => drop(lines.remove(end - 1)),
            _ => {}
        }
    }

    /// The same in the output. No mistake makes a report longer.
    fn spoil_report(self, output: &mut [u8], written: usize) -> usize {
        let text = std::str::from_utf8(&output[..written]).expect("a report is ASCII");
        let mut lines: Vec<String> = text.lines().map(str::to_string).collect();
        self.spoil_lines(&mut lines);
        let text: String = lines.iter().map(|line| format!("{line}\n")).collect();
        output[..text.len()].copy_from_slice(text.as_bytes());
        text.len()
    }

    /// As many counts as are written where a wrong number of them is taken.
    fn counts_taken(self, steps: &[u32]) -> Option<Vec<u32>> {
        let taken = || Some(steps[..MAX_LAUNCH_THREADS].to_vec());
        match (self, steps.len()) {
            (Faulty::TakesNoCounts, 0) => Some(vec![0]),
            (Faulty::TakesACountTooMany, 257) => taken(),
            (Faulty::TakesManyCounts, 258..) => taken(),
            _ => None,
        }
    }

    /// As many global cells as are written where either kind is in range, but not both together.
    fn global_taken<'a>(self, own: &[u32], global: &'a [u32]) -> &'a [u32] {
        let most = MAX_CELLS as usize;
        let both = own.len() <= most && global.len() <= most;
        match self {
            Faulty::TakesTooManyCellsTogether if both => {
                &global[..global.len().min(most - own.len())]
            }
            _ => global,
        }
    }

    /// Whether a log of a wrong length is taken, where eight words a cell are due and so many are for own cells.
    fn takes(self, log: &[u32], words: usize, own: usize) -> bool {
        let (lent, cells) = (log.len(), words / 8);
        match self {
            Faulty::TakesALogOfTheMasks => lent == 3 * cells,
            Faulty::TakesALogOfFiveKinds => lent == 5 * cells,
            Faulty::TakesALogOfSevenKinds => lent == 7 * cells,
            Faulty::TakesALogOfNineKinds => lent == 9 * cells,
            Faulty::TakesALogOfOwnCells => lent == own && own < words,
            Faulty::TakesALogAWordShort => lent + 1 == words,
            Faulty::TakesALogAWordTooLong => lent == words + 1,
            _ => false,
        }
    }

    /// The kind, the thread or the groups that the mistake makes of a race, with the masks of its cell, which is the log's word `place` of
    /// each kind; or what it leaves there.
    fn spoil_race(self, outcome: &mut Outcome, numbers: Numbers, log: &mut [u32], place: usize) {
        let (group, cells) = (outcome.group, log.len() / 8);
        let Verdict::Race {
            kind,
            other,
            other_group,
            thread,
            ..
        } = &mut outcome.verdict
        else {
            return;
        };
        // Masks of threads, or behind the marks those of groups.
        let (first, bit) = match *other {
            Some(other) => (0, other),
            None => (5, *other_group),
        };
        let did = |which: usize| log[(first + which) * cells + place] >> bit & 1 == 1;
        match self {
            Faulty::SwapsTheLetters => *kind = swapped(*kind),
            Faulty::ShowsAnAddBeforeAWrite => {
                *kind = match *kind {
                    AccessKind::Wr if did(2) => AccessKind::Ar,
                    AccessKind::Ww if did(2) => AccessKind::Aw,
                    kind => kind,
                };
            }
            Faulty::ShowsAnEqualStore
                if did(1) && matches!(*kind, AccessKind::Rw | AccessKind::Aw) =>
            {
                *kind = AccessKind::Ww
            }
            Faulty::MarksTheRefusedStore if *kind == AccessKind::Ww => log[4 * cells + place] = 1,
            Faulty::LogsTheGroupThatIsStopped if other.is_none() => {
                let entered = match *kind {
                    AccessKind::Wr | AccessKind::Ar => 5,
                    AccessKind::Rw | AccessKind::Ww | AccessKind::Aw => 6,
                    AccessKind::Ra | AccessKind::Wa => 7,
                };
                log[entered * cells + place] |= 1 << group;
            }
            Faulty::ShowsTheGroupAsTheOther if other.is_none() => *other_group = group,
            Faulty::ShowsAnotherOtherGroup => {
                *other_group = off_by_one((*other_group).into()) as u32
            }
            Faulty::SwapsTheGroups if other.is_none() => {
                outcome.group = *other_group;
                *other_group = group;
            }
            Faulty::ShowsTheOtherThread if other.is_none() => *other = Some(0),
            Faulty::ShowsTheLaunchNumber => *thread += group * numbers.threads,
            _ => {}
        }
    }
}

/// Where the log has a race's cell among all cells: behind the own ones of lower groups, or behind all of them.
fn place(table: &[u8], numbers: Numbers, outcome: &Outcome) -> usize {
    let Verdict::Race { row, at, .. } = outcome.verdict else {
        return 0;
    };
    let first = match table[4 * row as usize] {
        op::GLOBAL_LOAD | op::GLOBAL_STORE | op::GLOBAL_ADD => numbers.groups,
        _ => outcome.group,
    };
    (first * numbers.cells + at) as usize
}

/// Words of log that are due, and those of them that are for own cells; none where the numbers are out of range.
fn log_due(numbers: Numbers) -> [usize; 2] {
    let Numbers {
        cells,
        groups,
        global,
        ..
    } = numbers;
    let own = u64::from(groups) * u64::from(cells);
    let all = own + u64::from(global);
    if all > u64::from(MAX_CELLS) {
        return [0, 0];
    }
    [all, own].map(|cells| log_words(cells as usize))
}

/// The acting thread's letter first.
fn swapped(kind: AccessKind) -> AccessKind {
    match kind {
        AccessKind::Rw => AccessKind::Wr,
        AccessKind::Wr => AccessKind::Rw,
        AccessKind::Ww => AccessKind::Ww,
        AccessKind::Ra => AccessKind::Ar,
        AccessKind::Ar => AccessKind::Ra,
        AccessKind::Wa => AccessKind::Aw,
        AccessKind::Aw => AccessKind::Wa,
    }
}

/// The same in a report.
fn swapped_line(line: &str) -> String {
    let letters = line.strip_prefix("kind=").expect("the kind's line");
    format!("kind={}", letters.chars().rev().collect::<String>())
}

/// Where the line `kind=` of a report is.
const KIND: usize = 6;
/// Where its first line `steps=` is.
const FIRST_COUNT: usize = 9;

fn value(line: &str) -> &str {
    line.split_once('=').expect("a line").1
}

fn number(key: &str, line: &str) -> u64 {
    let digits = line.strip_prefix(key).expect("the key's line");
    digits.parse().expect("a number")
}

/// One fewer, which is never longer, or one more than none.
fn off_by_one(count: u64) -> u64 {
    count.checked_sub(1).unwrap_or(1)
}

/// The intervals of a launch of so many groups, as its report has them.
fn intervals_in(report: &[u8], groups: u32) -> usize {
    let text = std::str::from_utf8(report).expect("a report is ASCII");
    let line = |key: &str| {
        let line = text.lines().find(|line| line.starts_with(key));
        line.expect("a run's report")
    };
    let begun = match line("group=") {
        "group=-" => groups.into(),
        line => number("group=", line) + 1,
    };
    (number("barriers=", line("barriers=")) + begun) as usize
}

impl Checker for Faulty {
    fn check_file(
        &self,
        file: &[u8],
        cells: &mut [u32],
        global: &mut [u32],
        log: &mut [u32],
        records: &mut [u32],
        output: &mut [u8],
    ) -> Result<usize, Refusal> {
        let (lent, lent_records, lent_global) = (log.to_vec(), records.to_vec(), global.to_vec());
        if self.takes(log, LENT_LOG, LENT_LOG) {
            let mut longer = vec![0; LENT_LOG];
            return Independent.check_file(file, cells, global, &mut longer, records, output);
        }
        if matches!(self, Faulty::TakesAnyGlobalCells) && global.len() != LENT_GLOBAL {
            let mut right = vec![0; LENT_GLOBAL];
            return Independent.check_file(file, cells, &mut right, log, records, output);
        }
        if let Some(mut longer) = self.longer_list(records) {
            return Independent.check_file(file, cells, global, log, &mut longer, output);
        }
        if self.refuses(records) {
            return Independent.check_file(file, cells, global, log, &mut [], output);
        }
        let mut answer = Independent.check_file(file, cells, global, log, records, output);
        if let (Ok(launch), Ok(written)) = (parse_file(file), &mut answer) {
            let intervals = intervals_in(&output[..*written], launch.groups);
            self.spoil_records(records, &lent_records, intervals);
            let (own, shared) = (launch.cells.len(), launch.global.len());
            self.spoil_log(log, &lent, &cells[..own], &global[..shared]);
            *written = self.spoil_report(output, *written);
            match self {
                Faulty::LeavesTheGlobalCellsAsLent => global.copy_from_slice(&lent_global),
                Faulty::ChangesAGlobalCellBehind if shared < LENT_GLOBAL => global[shared] = 0,
                _ => {}
            }
        }
        let answer = match (self, answer.map_err(|refusal| refusal.number)) {
            (Faulty::TellsTheOutputBeforeTheLog, Err(21)) if output.len() < REPORT_ROOM => {
                refused(24)
            }
            (Faulty::TellsTheLogBeforeTheCells, Err(20)) if log.len() != LENT_LOG => refused(21),
            (Faulty::TellsTheLogBeforeTheGlobalCells, Err(20))
                if log.len() != LENT_LOG && global.len() != LENT_GLOBAL =>
            {
                refused(21)
            }
            (_, Err(number)) => {
                let told = self.told_for(number, records, output.len());
                told.map_or(answer, refused)
            }
            _ => answer,
        };
        self.spoil(answer, cells, global, log, records, output)
    }

    fn bare_launch(
        &self,
        table: &[u8],
        numbers: Numbers,
        cells: &mut [u32],
        global: &mut [u32],
        log: &mut [u32],
        records: &mut [u32],
        steps: &mut Steps,
    ) -> Result<Outcome, Refusal> {
        let (lent, lent_steps, lent_global) = (log.to_vec(), *steps, global.to_vec());
        let lent_records = records.to_vec();
        let [due, of_own] = log_due(numbers);
        if self.takes(log, due, of_own) {
            let mut right = vec![0; due];
            return Independent
                .bare_launch(table, numbers, cells, global, &mut right, records, steps);
        }
        let said = numbers.global as usize;
        if matches!(self, Faulty::TakesAnyGlobalCells) && said <= 1_024 && global.len() != said {
            let mut right = vec![0; said];
            return Independent.bare_launch(table, numbers, cells, &mut right, log, records, steps);
        }
        if let Some(mut longer) = self.longer_list(records) {
            return Independent.bare_launch(table, numbers, cells, global, log, &mut longer, steps);
        }
        if self.refuses(records) {
            return Independent.bare_launch(table, numbers, cells, global, log, &mut [], steps);
        }
        let mut answer =
            Independent.bare_launch(table, numbers, cells, global, log, records, steps);
        let Numbers {
            cells: own,
            groups,
            limit,
            ..
        } = numbers;
        let wrong_groups = !(1..=8).contains(&groups);
        let too_many = due == 0;
        answer = match (self, answer.map_err(|refusal| refusal.number)) {
            (Faulty::TellsCellsBeforeThreads, Err(8)) if !(1..=1_024).contains(&own) => refused(9),
            (Faulty::TellsGroupsBeforeCells, Err(9)) if wrong_groups => refused(32),
            (Faulty::TellsAllCellsBeforeGroups, Err(32)) if too_many => refused(33),
            (Faulty::TellsTheLimitBeforeTheGroups, Err(32 | 33)) if limit > 1_000_000 => {
                refused(10)
            }
            (Faulty::TellsTheLogBeforeTheCells, Err(20)) if log.len() != due => refused(21),
            (Faulty::TellsTheLogBeforeTheGlobalCells, Err(20))
                if log.len() != due && global.len() != said =>
            {
                refused(21)
            }
            (_, Err(number)) => {
                let told = self.told_for(number, records, REPORT_ROOM);
                told.map_or(answer, refused)
            }
            _ => answer,
        };
        if let Ok(outcome) = &mut answer {
            let begun = match outcome.verdict {
                Verdict::Passed => groups,
                _ => outcome.group + 1,
            };
            let intervals = outcome.barriers as usize + begun as usize;
            self.spoil_records(records, &lent_records, intervals);
            self.spoil_steps(steps, &lent_steps, numbers, outcome);
            let place = place(table, numbers, outcome);
            self.spoil_race(outcome, numbers, log, place);
            self.spoil_log(log, &lent, cells, global);
            match (self, outcome.verdict) {
                (Faulty::CountsAConflictTooMany, _) => outcome.conflicts += 1,
                (Faulty::LeavesTheGlobalCellsAsLent, _) => global.copy_from_slice(&lent_global),
                (Faulty::ShowsAGroupWhenPassed, Verdict::Passed) => outcome.group = groups - 1,
                (Faulty::ShowsAnotherGroup, _) => outcome.group ^= 1,
                _ => {}
            }
        }
        match self {
            Faulty::ChangesTheLastStepWord => steps[MAX_LAUNCH_THREADS - 1] ^= 1,
            Faulty::ClearsTheStepsOnRefusal if answer.is_err() => steps.fill(0),
            _ => {}
        }
        self.spoil(answer, cells, global, log, records, &mut [])
    }

    fn write_report(
        &self,
        subject: Subject,
        steps: &[u32],
        cells: &[u32],
        global: &[u32],
        output: &mut [u8],
    ) -> Result<usize, Refusal> {
        if let Some(taken) = self.counts_taken(steps) {
            return Independent.write_report(subject, &taken, cells, global, output);
        }
        let global = self.global_taken(cells, global);
        let mut answer = Independent.write_report(subject, steps, cells, global, output);
        if let Ok(written) = &mut answer {
            *written = self.spoil_report(output, *written);
        }
        let right = (1..=MAX_LAUNCH_THREADS).contains(&steps.len());
        // A report has no fewer bytes than this.
        let short = output.len() < 50;
        let ran = matches!(subject, Subject::Ran(_));
        let answer = match (self, answer.map_err(|refusal| refusal.number)) {
            (Faulty::TellsTheBufferBeforeTheCells, Err(23)) if right && short => refused(22),
            (Faulty::TellsTheBufferBeforeTheCounts, Err(23)) if !right && short => refused(22),
            (Faulty::RefusesGlobalCellsAlone, _) if ran && cells.is_empty() => refused(23),
            _ => answer,
        };
        self.spoil(answer, &mut [], &mut [], &mut [], &mut [], output)
    }
}

/// Whether the fault shows in some launch of a kind among the first seeds.
fn found_out(faulty: Faulty, kind: Kind) -> bool {
    (0..16_000)
        .filter(|&seed| Kind::of(seed) == kind)
        .any(|seed| compare_seed(seed, &faulty, &Independent).is_err())
}

#[test]
fn a_fault_in_files_is_found_out() {
    for faulty in [
        Faulty::PlaceOffByOne,
        Faulty::ChangesTheLastCell,
        Faulty::ChangesTheLastLogWord,
        Faulty::ChangesTheLastByte,
        Faulty::ChangesAGlobalCellBehind,
        Faulty::ClearsTheLogOnRefusal,
        Faulty::TellsTheOutputBeforeTheLog,
        Faulty::TellsTheLogBeforeTheCells,
        Faulty::SwapsTheLetters,
        Faulty::SumsTheSteps,
        Faulty::PutsTheLastThreadFirst,
        Faulty::ForgetsTheLastCount,
        Faulty::WritesTheBarriersBeforeTheSteps,
        Faulty::CountsAConflictTooMany,
        Faulty::ForgetsTheConflicts,
        Faulty::WritesTheConflictsBeforeTheBarriers,
        Faulty::TellsTheOutputBeforeTheRecords,
    ] {
        assert!(found_out(faulty, Kind::File), "{faulty:?}");
    }
    for faulty in GROUP_LINES {
        assert!(found_out(faulty, Kind::File), "{faulty:?}");
    }
}

/// Faults in the lines about groups and global cells, of files and of reports alone.
const GROUP_LINES: [Faulty; 12] = [
    Faulty::ShowsTheGroupAsTheOther,
    Faulty::ShowsAnotherOtherGroup,
    Faulty::SwapsTheGroups,
    Faulty::ShowsTheOtherThread,
    Faulty::ShowsAGroupWhenPassed,
    Faulty::ShowsAnotherGroup,
    Faulty::ShowsAnOtherGroupWithoutARace,
    Faulty::WritesTheGroupsBehindTheThreads,
    Faulty::WritesTheGlobalCellsFirst,
    Faulty::WritesGlobalCellsAsOwn,
    Faulty::ForgetsTheLastGlobalCell,
    Faulty::ForgetsTheLastCount,
];

/// Faults in the global cells, which files and bare launches leave alike.
const GLOBAL: [Faulty; 5] = [
    Faulty::ChangesTheLastGlobalCell,
    Faulty::LeavesTheGlobalCellsAsLent,
    Faulty::ClearsTheGlobalCellsOnRefusal,
    Faulty::TakesAnyGlobalCells,
    Faulty::TellsTheLogBeforeTheGlobalCells,
];

#[test]
fn a_fault_in_global_cells_is_found_out() {
    for kind in [Kind::File, Kind::Bare] {
        for faulty in GLOBAL {
            assert!(found_out(faulty, kind), "{kind:?}: {faulty:?}");
        }
    }
}

/// Faults in the records, which files and bare launches leave alike.
const RECORDS: [Faulty; 19] = [
    Faulty::CostsOneTooMany,
    Faulty::CountsARowTooMany,
    Faulty::PutsACostInTheNextRecord,
    Faulty::CountsTheBarrierBehindIt,
    Faulty::MovesTheStart,
    Faulty::StartsAtTheBarrier,
    Faulty::OpensARecordTooMany,
    Faulty::OpensNoRecordForALaterGroup,
    Faulty::UsesMoreThanAllRecords,
    Faulty::KeepsTheLastRecord,
    Faulty::ClearsTheRecordsBehind,
    Faulty::ChangesTheLastRecordWord,
    Faulty::ClearsTheRecordsOnRefusal,
    Faulty::TellsTheRecordsFirst,
    Faulty::TellsTheRecordsBeforeTheCells,
    Faulty::TellsTheRecordsBeforeTheLog,
    Faulty::TakesAWordTooFew,
    Faulty::TakesARecordTooFew,
    Faulty::RefusesALongerList,
];

/// Faults in the log, likewise.
const LOG: [Faulty; 30] = [
    Faulty::ForgetsTheAdders,
    Faulty::PutsTheAddersBeforeTheWriters,
    Faulty::LeavesTheAddersAsLent,
    Faulty::ForgetsTheValues,
    Faulty::ForgetsTheMarks,
    Faulty::ForgetsTheTopBitOfAValue,
    Faulty::PutsTheValuesBeforeTheAdders,
    Faulty::PutsTheMarksBeforeTheValues,
    Faulty::PutsEachMarkBehindItsValue,
    Faulty::LeavesTheValuesAsLent,
    Faulty::LeavesTheMarksAsLent,
    Faulty::KeepsTheLastValue,
    Faulty::MarksEqualStores,
    Faulty::MarksByTheThreads,
    Faulty::ForgetsTheGroupsThatRead,
    Faulty::ForgetsTheGroupsThatWrote,
    Faulty::ForgetsTheGroupsThatAdded,
    Faulty::KeepsTheLastGroupAlone,
    Faulty::ForgetsTheFirstGroup,
    Faulty::PutsTheGroupsBeforeTheMarks,
    Faulty::PutsTheGroupsThatAddedFirst,
    Faulty::PutsGlobalCellsFirst,
    Faulty::LeavesTheGroupsOfOwnCellsAsLent,
    Faulty::LogsTheGroupsOfOwnCells,
    Faulty::TakesALogOfTheMasks,
    Faulty::TakesALogOfFiveKinds,
    Faulty::TakesALogOfSevenKinds,
    Faulty::TakesALogOfNineKinds,
    Faulty::TakesALogAWordShort,
    Faulty::TakesALogAWordTooLong,
];

#[test]
fn a_fault_in_the_log_is_found_out() {
    for kind in [Kind::File, Kind::Bare] {
        for faulty in LOG {
            assert!(found_out(faulty, kind), "{kind:?}: {faulty:?}");
        }
    }
}

#[test]
fn a_fault_in_records_is_found_out() {
    for kind in [Kind::File, Kind::Bare] {
        for faulty in RECORDS {
            assert!(found_out(faulty, kind), "{kind:?}: {faulty:?}");
        }
    }
}

#[test]
fn a_fault_in_bare_launches_is_found_out() {
    for faulty in [
        Faulty::PlaceOffByOne,
        Faulty::ChangesTheLastCell,
        Faulty::ChangesTheLastLogWord,
        Faulty::CountsAStepTooMany,
        Faulty::CountsTheStoppedThread,
        Faulty::CountsForAllAsForTheFirst,
        Faulty::SumsTheSteps,
        Faulty::PutsTheLastThreadFirst,
        Faulty::ForgetsTheLastCount,
        Faulty::LeavesTheWordsBehindAsLent,
        Faulty::ChangesTheLastStepWord,
        Faulty::ClearsTheStepsOnRefusal,
        Faulty::ClearsTheLogOnRefusal,
        Faulty::TellsTheLogBeforeTheCells,
        Faulty::TellsCellsBeforeThreads,
        Faulty::SwapsTheLetters,
        Faulty::ShowsAnAddBeforeAWrite,
        Faulty::ShowsAnEqualStore,
        Faulty::MarksTheRefusedStore,
        Faulty::CountsAConflictTooMany,
        Faulty::ForgetsTheLastGroupsSteps,
        Faulty::ChangesALaterGroupsSteps,
        Faulty::SumsTheStepsOfAllGroups,
        Faulty::CountsGroupsBy32,
        Faulty::PutsThreadsBeforeGroups,
        Faulty::TellsGroupsBeforeCells,
        Faulty::TellsAllCellsBeforeGroups,
        Faulty::TellsTheLimitBeforeTheGroups,
        Faulty::LogsTheGroupThatIsStopped,
        Faulty::TakesALogOfOwnCells,
        Faulty::ShowsTheGroupAsTheOther,
        Faulty::ShowsAnotherOtherGroup,
        Faulty::SwapsTheGroups,
        Faulty::ShowsTheOtherThread,
        Faulty::ShowsTheLaunchNumber,
        Faulty::ShowsAGroupWhenPassed,
        Faulty::ShowsAnotherGroup,
    ] {
        assert!(found_out(faulty, Kind::Bare), "{faulty:?}");
    }
}

#[test]
fn a_fault_in_reports_is_found_out() {
    for faulty in [
        Faulty::PlaceOffByOne,
        Faulty::ChangesTheLastByte,
        Faulty::TellsTheBufferBeforeTheCells,
        Faulty::TellsTheBufferBeforeTheCounts,
        Faulty::TakesNoCounts,
        Faulty::TakesACountTooMany,
        Faulty::TakesManyCounts,
        Faulty::SumsTheSteps,
        Faulty::PutsTheLastThreadFirst,
        Faulty::ForgetsTheLastCount,
        Faulty::WritesTheBarriersBeforeTheSteps,
        Faulty::SwapsTheLetters,
        Faulty::CountsAConflictTooMany,
        Faulty::ForgetsTheConflicts,
        Faulty::WritesTheConflictsBeforeTheBarriers,
        Faulty::TakesTooManyCellsTogether,
        Faulty::RefusesGlobalCellsAlone,
        Faulty::ShowsCommonAsARace,
    ] {
        assert!(found_out(faulty, Kind::Report), "{faulty:?}");
    }
    for faulty in GROUP_LINES {
        assert!(found_out(faulty, Kind::Report), "{faulty:?}");
    }
}

#[test]
fn a_fault_of_both_is_found_out_where_a_refusal_keeps_the_buffers() {
    for both in [
        Faulty::ClearsTheLogOnRefusal,
        Faulty::ClearsTheStepsOnRefusal,
        Faulty::ClearsTheRecordsOnRefusal,
        Faulty::ClearsTheGlobalCellsOnRefusal,
    ] {
        assert!((0..160).any(|seed| compare_seed(seed, &both, &both).is_err()));
    }
}

#[test]
fn a_fault_of_both_is_found_out_where_the_records_do_not_come_to_the_counts() {
    for both in [
        Faulty::CostsOneTooMany,
        Faulty::CountsARowTooMany,
        Faulty::OpensARecordTooMany,
        Faulty::OpensNoRecordForALaterGroup,
        Faulty::UsesMoreThanAllRecords,
        Faulty::KeepsTheLastRecord,
        Faulty::ClearsTheRecordsBehind,
        Faulty::CountsAConflictTooMany,
    ] {
        for kind in [Kind::File, Kind::Bare] {
            let mut seeds = (0..16_000).filter(|&seed| Kind::of(seed) == kind);
            let found = seeds.any(|seed| compare_seed(seed, &both, &both).is_err());
            assert!(found, "{kind:?}: {both:?}");
        }
    }
}

#[test]
fn a_difference_shows_the_launch_and_both_answers() {
    let seed = (12..10_000)
        .step_by(16)
        .find(|&seed| compare_seed(seed, &Faulty::CountsAStepTooMany, &Independent).is_err())
        .expect("some launch runs");
    let found = compare_seed(seed, &Faulty::CountsAStepTooMany, &Independent);
    let text = found.expect_err("as before").to_string();
    for part in ["row 0: [", "threads ", "ours:   Ok", "theirs: Ok"] {
        assert!(text.contains(part), "{part} in\n{text}");
    }
}

#[test]
fn a_difference_shows_the_counts_side_by_side() {
    let seed = (12..10_000).step_by(16);
    let found =
        seed.filter_map(|seed| compare_seed(seed, &Faulty::CountsAStepTooMany, &Independent).err());
    let text = found.map(|found| found.to_string()).next();
    let text = text.expect("some launch runs");
    let mut lines = (text.lines())
        .skip_while(|line| !line.starts_with("steps of"))
        .map(|line| line.split_whitespace().collect::<Vec<_>>());
    assert_eq!(
        lines.next(),
        Some(vec!["steps", "of", "ours", "theirs", "before"])
    );
    let mut shown = 0;
    for line in lines {
        let [name, place, ours, theirs, _, mark @ ..] = &line[..] else {
            break;
        };
        if *name != "number" {
            break;
        }
        assert_eq!(*place, shown.to_string());
        let [ours, theirs] = [ours, theirs].map(|count| count.parse::<u32>().expect("a count"));
        assert_eq!(ours - theirs, u32::from(shown == 0));
        assert_eq!(mark.len(), usize::from(shown == 0));
        shown += 1;
    }
    assert!(shown > 0, "no counts in\n{text}");
}

#[test]
fn a_difference_shows_the_global_cells() {
    for kind in [Kind::File, Kind::Bare] {
        let text = first_difference(Faulty::ChangesTheLastGlobalCell, kind);
        assert!(text.contains("\nglobal cell "), "{text}");
    }
    let text = first_difference(Faulty::ChangesTheLastGlobalCell, Kind::Bare);
    assert!(text.contains(", lent global cells ["), "{text}");
}

/// The text of the first difference in launches of a kind.
fn first_difference(faulty: Faulty, kind: Kind) -> String {
    let seeds = (0..16_000).filter(|&seed| Kind::of(seed) == kind);
    let found = seeds.filter_map(|seed| compare_seed(seed, &faulty, &Independent).err());
    let text = found.map(|found| found.to_string()).next();
    text.expect("some launch runs")
}

#[test]
fn a_difference_shows_the_records_by_name() {
    for kind in [Kind::File, Kind::Bare] {
        let text = first_difference(Faulty::CostsOneTooMany, kind);
        let lines: Vec<&str> = (text.lines())
            .filter(|line| line.starts_with("record "))
            .collect();
        let [line] = lines[..] else {
            panic!("one record differs in\n{text}");
        };
        let numbers: Vec<u32> = (line.split(|c: char| !c.is_ascii_digit()))
            .filter_map(|digits| digits.parse().ok())
            .collect();
        let [record, start, rows, cost, their_start, their_rows, their_cost] = numbers[..] else {
            panic!("{line}");
        };
        assert_eq!(line, format!("record {record}: ours start {start}, rows {rows}, cost {cost}; theirs start {start}, rows {rows}, cost {their_cost}"));
        assert_eq!(
            (their_start, their_rows, their_cost + 1),
            (start, rows, cost)
        );
        assert!(
            text.contains("ours: conflicts of all records are "),
            "{text}"
        );
    }
}

#[test]
fn a_difference_shows_records_that_were_kept() {
    let text = first_difference(Faulty::OpensARecordTooMany, Kind::Bare);
    assert!(
        text.contains(": ours start 0, rows 0, cost 0; theirs as lent ["),
        "{text}"
    );
    assert!(text.contains(" of records, lent cells"), "{text}");
    let text = first_difference(Faulty::ClearsTheRecordsBehind, Kind::Bare);
    assert!(text.contains(" records more\n"), "{text}");
}
