//! Pairs: the two checkers agree, a checker with a fault is found out, and outputs of every size are lent.

use std::cell::RefCell;

use checker::{number, parse_common, parse_file, Refusal, MAX_FILE, PAIR_ROOM, REPORT_ROOM};
use compare::{compare_pair, compare_pairs, Independent, PairAnswer, PairChecker};

#[test]
fn the_verified_library_agrees_with_the_independent_checker() {
    let tally = compare_pairs(1 << 40, 1_600, |_| ()).unwrap_or_else(|found| panic!("{found}"));
    for verdict in [
        "passed",
        "race",
        "race of groups",
        "outside",
        "common",
        "diverged",
        "spent",
    ] {
        let found = tally.reported(&format!("verdict={verdict}"));
        assert!(found.iter().all(|&reports| reports > 0), "{verdict}");
    }
    for number in [2, 3, 4, 5, 6, 7, 8, 9, 10, 11, 12, 32, 33, 37] {
        let found = tally.reported(&format!("refused={number}"));
        assert!(found.iter().sum::<u64>() > 0, "{number}");
    }
    for answer in ["both passed", "one passed", "none passed", "refused=24"] {
        assert!(tally.answered(answer) > 50, "{answer}");
    }
    assert_eq!(
        tally.reported("refused=24"),
        [0, 0],
        "no kernel's own refusal"
    );
}

/// The independent checker with one mistake.
#[derive(Clone, Copy, Debug)]
enum Faulty {
    None,
    WritesOneEndForBoth,
    ExchangesTheReports,
    ReportsTheFilterTwice,
    PutsTheTriggerBehindRoomForOne,
    TellsTheFiltersLength,
    TellsTheRoom,
    RunsTheTriggerOnTheFiltersCells,
    RefusesTheFilterOnly,
    RefusesTheTriggerOnly,
    RefusesNobody,
    TellsTheCommonFileFirst,
    RefusesTheTriggerWithTheFilter,
    RefusesTheFilterWithTheTrigger,
    TellsTheLineBefore,
    TakesNoFileForNoCells,
    TakesWhatIsBehindTheEnd,
    RefusesALongCommonFileBy12,
    ForgetsTheLastCommonCell,
    TakesACellMore,
    ChargesCommonLoads,
    StepsTwiceAtCommonLoads,
    ShowsCommonAsOutside,
    ShowsAnotherGroupOfCommon,
    CountsTheRowOfCommon,
    ChangesAByteBehind,
    ChangesTheLastByte,
    ClearsTheBytesBehind,
    TakesAByteTooFew,
    TakesRoomForOneReport,
    TakesWhateverFits,
    RefusesALongerOutput,
    TellsAKernelBeforeTheOutput,
    TellsTheCommonFileBeforeTheOutput,
    ChangesAShortOutput,
    WritesAShortOutput,
}

/// A common file without cells.
const NO_CELLS: &[u8] = b"common=0\nend=common\n";

/// One kernel's report, by the independent checker.
fn report(file: &[u8], common: &[u8]) -> String {
    let mut output = vec![0; PAIR_ROOM];
    let written = Independent.pair_files(file, b"", common, &mut output);
    output.truncate(written.expect("room enough"));
    let both = String::from_utf8(output).expect("reports are ASCII");
    let (first, _) = both.split_once("end=report\n").expect("a report");
    format!("{first}end=report\n")
}

fn refusal(Refusal { number, place }: Refusal) -> String {
    format!("refused={number}\nplace={place}\nend=report\n")
}

/// A sound launch file with the words of a report's `cell=` lines in the first of its own.
fn with_cells_of(file: &[u8], report: &str) -> Vec<u8> {
    let text = std::str::from_utf8(file).expect("a sound file is ASCII");
    let mut left = report.lines().filter(|line| line.starts_with("cell="));
    let lines = text.lines().map(|line| match line.starts_with("cell=") {
        true => left.next().unwrap_or(line),
        false => line,
    });
    lines
        .flat_map(|line| [line, "\n"])
        .collect::<String>()
        .into_bytes()
}

/// A sound common file of other cells.
fn with_cells(common: &[u8], change: fn(&mut Vec<u32>)) -> Vec<u8> {
    let Ok(mut cells) = parse_common(common) else {
        return common.to_vec();
    };
    change(&mut cells);
    let lines: String = cells.iter().map(|cell| format!("cell={cell}\n")).collect();
    format!("common={}\n{lines}end=common\n", cells.len()).into_bytes()
}

/// A report with one added in the lines of a key.
fn one_more(report: String, key: &str) -> String {
    let line = |line: &str| {
        let digits = line.strip_prefix(key);
        match digits.and_then(|digits| digits.parse::<u32>().ok()) {
            Some(number) => format!("{key}{}\n", number + 1),
            None => format!("{line}\n"),
        }
    };
    report.lines().map(line).collect()
}

impl Faulty {
    /// The common file as the mistake has it.
    fn common(self, common: &[u8]) -> Vec<u8> {
        match self {
            Faulty::TakesNoFileForNoCells if common.is_empty() => NO_CELLS.to_vec(),
            Faulty::RefusesNobody if parse_common(common).is_err() => NO_CELLS.to_vec(),
            Faulty::TakesWhatIsBehindTheEnd => {
                let end = b"\nend=common\n";
                let place = common.windows(end.len()).position(|bytes| bytes == end);
                common[..place.map_or(common.len(), |place| place + end.len())].to_vec()
            }
            Faulty::ForgetsTheLastCommonCell => with_cells(common, |cells| {
                cells.truncate(cells.len().saturating_sub(1))
            }),
            Faulty::TakesACellMore => with_cells(common, |cells| {
                cells.push(0);
                cells.truncate(256)
            }),
            _ => common.to_vec(),
        }
    }

    /// Both kernels' reports.
    fn reports(self, files: [&[u8]; 2], common: &[u8]) -> [String; 2] {
        let bad = parse_common(common).err();
        let common = &self.common(common);
        let [filter, trigger] = files.map(|file| self.spoil(file, common));
        let own = files.map(|file| parse_file(file).is_err());
        match (self, bad) {
            (Faulty::ExchangesTheReports, _) => [trigger, filter],
            (Faulty::ReportsTheFilterTwice, _) => [filter.clone(), filter],
            (Faulty::RunsTheTriggerOnTheFiltersCells, _) if !own[1] => {
                let trigger = report(&with_cells_of(files[1], &filter), common);
                [filter, trigger]
            }
            (Faulty::RefusesTheFilterOnly, Some(_)) => [filter, report(files[1], NO_CELLS)],
            (Faulty::RefusesTheTriggerOnly, Some(_)) => [report(files[0], NO_CELLS), trigger],
            (Faulty::TellsTheCommonFileFirst, Some(bad)) => [refusal(bad), refusal(bad)],
            (Faulty::RefusesTheTriggerWithTheFilter, _) if own[0] => [filter.clone(), filter],
            (Faulty::RefusesTheFilterWithTheTrigger, _) if own[1] => [trigger.clone(), trigger],
            _ => [filter, trigger],
        }
    }

    /// One kernel's report, with the mistakes that are in it alone.
    fn spoil(self, file: &[u8], common: &[u8]) -> String {
        let text = report(file, common);
        let stopped = text.starts_with("verdict=common\n");
        // Where it runs otherwise without them, it uses common cells.
        let uses = || text != report(file, NO_CELLS);
        match self {
            Faulty::TellsTheLineBefore => match parse_common(common) {
                Err(bad) if text == refusal(bad) => refusal(Refusal {
                    place: bad.place - 1,
                    ..bad
                }),
                _ => text,
            },
            Faulty::RefusesALongCommonFileBy12 if common.len() > MAX_FILE => {
                text.replace("refused=37\n", "refused=12\n")
            }
            Faulty::ChargesCommonLoads if uses() => one_more(text, "conflicts="),
            Faulty::StepsTwiceAtCommonLoads if uses() => one_more(text, "steps="),
            Faulty::ShowsCommonAsOutside => text.replace("verdict=common\n", "verdict=outside\n"),
            Faulty::ShowsAnotherGroupOfCommon if stopped => {
                text.replace("othergroup=-\n", "othergroup=0\n")
            }
            Faulty::CountsTheRowOfCommon if stopped => one_more(text, "rows="),
            _ => text,
        }
    }

    /// Whether so many bytes are too few for a text.
    fn refuses(self, room: usize, text: &str) -> bool {
        match self {
            Faulty::TakesAByteTooFew => room < PAIR_ROOM - 1,
            Faulty::TakesRoomForOneReport => room < REPORT_ROOM,
            Faulty::TakesWhateverFits => room < text.len(),
            Faulty::RefusesALongerOutput => room != PAIR_ROOM,
            _ => room < PAIR_ROOM,
        }
    }

    /// What is told of a short output.
    fn short(
        self,
        files: [&[u8]; 2],
        common: &[u8],
        text: &str,
        output: &mut [u8],
    ) -> Result<usize, Refusal> {
        match self {
            Faulty::TellsAKernelBeforeTheOutput => {
                parse_file(files[0])?;
            }
            Faulty::TellsTheCommonFileBeforeTheOutput => {
                parse_common(common)?;
            }
            Faulty::ChangesAShortOutput => {
                output.iter_mut().last().into_iter().for_each(|b| *b ^= 1)
            }
            Faulty::WritesAShortOutput => put(text, output),
            _ => {}
        }
        let number = number::FILE_OUTPUT;
        Err(Refusal { number, place: 0 })
    }
}

/// As much of a text as there is room for.
fn put(text: &str, output: &mut [u8]) {
    let written = text.len().min(output.len());
    output[..written].copy_from_slice(&text.as_bytes()[..written]);
}

impl PairChecker for Faulty {
    fn pair_files(
        &self,
        filter: &[u8],
        trigger: &[u8],
        common: &[u8],
        output: &mut [u8],
    ) -> Result<usize, Refusal> {
        let files = [filter, trigger];
        let [first, second] = self.reports(files, common);
        let text = match self {
            Faulty::WritesOneEndForBoth => first.replace("end=report\n", "") + &second,
            _ => first.clone() + &second,
        };
        if self.refuses(output.len(), &text) {
            return self.short(files, common, &text, output);
        }
        let written = text.len();
        match self {
            Faulty::PutsTheTriggerBehindRoomForOne => {
                put(&first, output);
                put(&second, &mut output[REPORT_ROOM..]);
                return Ok(REPORT_ROOM + second.len());
            }
            _ => put(&text, output),
        }
        match self {
            Faulty::TellsTheFiltersLength => return Ok(first.len()),
            Faulty::TellsTheRoom => return Ok(output.len()),
            Faulty::ChangesAByteBehind if written < output.len() => output[written] = 0,
            Faulty::ChangesTheLastByte => {
                output.iter_mut().last().into_iter().for_each(|b| *b ^= 1)
            }
            Faulty::ClearsTheBytesBehind if written < output.len() => output[written..].fill(0),
            _ => {}
        }
        Ok(written)
    }
}

#[test]
fn a_fault_is_found_out() {
    for faulty in [
        Faulty::WritesOneEndForBoth,
        Faulty::ExchangesTheReports,
        Faulty::ReportsTheFilterTwice,
        Faulty::PutsTheTriggerBehindRoomForOne,
        Faulty::TellsTheFiltersLength,
        Faulty::TellsTheRoom,
        Faulty::RunsTheTriggerOnTheFiltersCells,
        Faulty::RefusesTheFilterOnly,
        Faulty::RefusesTheTriggerOnly,
        Faulty::RefusesNobody,
        Faulty::TellsTheCommonFileFirst,
        Faulty::RefusesTheTriggerWithTheFilter,
        Faulty::RefusesTheFilterWithTheTrigger,
        Faulty::TellsTheLineBefore,
        Faulty::TakesNoFileForNoCells,
        Faulty::TakesWhatIsBehindTheEnd,
        Faulty::RefusesALongCommonFileBy12,
        Faulty::ForgetsTheLastCommonCell,
        Faulty::TakesACellMore,
        Faulty::ChargesCommonLoads,
        Faulty::StepsTwiceAtCommonLoads,
        Faulty::ShowsCommonAsOutside,
        Faulty::ShowsAnotherGroupOfCommon,
        Faulty::CountsTheRowOfCommon,
        Faulty::ChangesAByteBehind,
        Faulty::ChangesTheLastByte,
        Faulty::ClearsTheBytesBehind,
        Faulty::TakesAByteTooFew,
        Faulty::TakesRoomForOneReport,
        Faulty::TakesWhateverFits,
        Faulty::RefusesALongerOutput,
        Faulty::TellsAKernelBeforeTheOutput,
        Faulty::TellsTheCommonFileBeforeTheOutput,
        Faulty::ChangesAShortOutput,
        Faulty::WritesAShortOutput,
    ] {
        let seeds = (0..1_000).filter(|&seed| differs(seed, faulty));
        // More than once, so that none is found out by chance.
        assert!(seeds.take(3).count() == 3, "{faulty:?}");
    }
}

fn differs(seed: u64, faulty: Faulty) -> bool {
    compare_pair(seed, &faulty, &Independent).is_err()
}

#[test]
fn without_a_fault_nothing_is_found_out() {
    assert!(!(0..200).any(|seed| differs(seed, Faulty::None)));
}

#[test]
fn a_fault_of_both_is_found_out_where_no_two_reports_are_left() {
    for both in [
        Faulty::WritesOneEndForBoth,
        Faulty::PutsTheTriggerBehindRoomForOne,
        Faulty::TellsTheFiltersLength,
        Faulty::TellsTheRoom,
        Faulty::ChangesAByteBehind,
        Faulty::ChangesTheLastByte,
        Faulty::ClearsTheBytesBehind,
        Faulty::ChangesAShortOutput,
        Faulty::WritesAShortOutput,
    ] {
        let found = (0..200).any(|seed| compare_pair(seed, &both, &both).is_err());
        assert!(found, "{both:?}");
    }
}

#[test]
fn a_difference_shows_the_files_and_both_outputs() {
    let mut found = (0..1_000).filter_map(|seed| {
        let found = compare_pair(seed, &Faulty::ShowsCommonAsOutside, &Independent);
        Some((seed, found.err()?.to_string()))
    });
    let (seed, text) = found.next().expect("some kernel stores into the table");
    let repeat = format!("`compare pairs {seed} 1` repeats it");
    for part in [
        &repeat[..],
        "bytes of output\nthe filter's file:\nkernel=1\n",
        "\nend=kernel\n\nthe trigger's file:\nkernel=1\n",
        "\nend=kernel\n\nthe common file:\ncommon=",
        "\nend=common\n",
        "ours:   Ok(",
        "theirs: Ok(",
        "\noutput byte ",
        "\nreport, ours:\nverdict=",
        "\nreport, theirs:\nverdict=",
        "verdict=common\n",
    ] {
        assert!(text.contains(part), "{part} in\n{text}");
    }
    let ends = text.lines().filter(|line| *line == "end=report");
    assert_eq!(ends.count(), 4, "two reports of each in\n{text}");
}

/// A pair that was asked for: whether each file is sound, the room, and the answer.
#[derive(Clone, Copy, Debug)]
struct Asked {
    kernels: [bool; 2],
    common: bool,
    room: usize,
    answer: Result<usize, Refusal>,
}

/// The independent checker, with all that is asked of it.
#[derive(Default)]
struct Witness(RefCell<Vec<Asked>>);

impl PairChecker for Witness {
    fn pair_files(
        &self,
        filter: &[u8],
        trigger: &[u8],
        common: &[u8],
        output: &mut [u8],
    ) -> Result<usize, Refusal> {
        assert!(!output.iter().any(u8::is_ascii), "no byte of a report");
        let answer = Independent.pair_files(filter, trigger, common, output);
        self.0.borrow_mut().push(Asked {
            kernels: [filter, trigger].map(|file| parse_file(file).is_ok()),
            common: parse_common(common).is_ok(),
            room: output.len(),
            answer,
        });
        answer
    }
}

#[test]
fn outputs_of_every_size_are_lent_beside_all_kinds_of_files() {
    let witness = Witness::default();
    let mut refused = 0;
    for seed in 0..compare::DEFAULT_PAIRS {
        let answer = compare_pair(seed, &witness, &Independent);
        let answer = answer.unwrap_or_else(|found| panic!("{found}"));
        refused += u64::from(matches!(answer, PairAnswer::Refused(_)));
    }
    assert!((400..1_600).contains(&refused), "{refused}");
    let asked = witness.0.into_inner();
    let sound = |files: usize| [0, 1, 2].map(|which| files >> which & 1 == 0);
    // The generator makes two of three files bad, never all.
    for files in 0..7 {
        let [filter, trigger, common] = sound(files);
        let of = |asked: &&Asked| (asked.kernels, asked.common) == ([filter, trigger], common);
        let lent = |room: usize, taken: bool| {
            let lent = |asked: &Asked| asked.room == room && asked.answer.is_ok() == taken;
            asked.iter().filter(of).any(lent)
        };
        assert!(lent(PAIR_ROOM - 1, false), "{files:03b}: a byte too few");
        assert!(lent(PAIR_ROOM, true), "{files:03b}: just enough");
        assert!(lent(PAIR_ROOM + 1, true), "{files:03b}: a byte more");
    }
    for room in [0, 1, REPORT_ROOM - 1, REPORT_ROOM] {
        let lent = |asked: &&Asked| asked.room == room && asked.answer.is_err();
        assert!(asked.iter().filter(lent).count() > 10, "{room}");
    }
    // Rooms in which the reports would fit.
    let fitting = |asked: &&Asked| asked.room > 40_000 && asked.answer.is_err();
    assert!(asked.iter().filter(fitting).count() > 100);
    let more = |asked: &&Asked| asked.room > PAIR_ROOM + 1 && asked.answer.is_ok();
    assert!(asked.iter().filter(more).count() > 100);
}
