//! The edges that few launches would have by chance: each occurs often enough
//! among the first few thousand seeds.

mod common;

use checker::{
    log_words, op, AccessKind, Outcome, Refusal, Verdict, INTERVAL_WORDS, MAX_FILE, MAX_LIMIT,
    MAX_ROWS,
};
use common::{around, of_one_group, run, small_plan, Counts};
use generator::{BareLaunch, Plan};

const SEEDS: u64 = 6_000;

/// Whether some line of a file has this key and a value of this kind.
fn has(file: &[u8], key: &str, value: impl Fn(&[u8]) -> bool) -> bool {
    file.split(|&byte| byte == b'\n').any(|line| {
        line.strip_prefix(key.as_bytes())
            .and_then(|rest| rest.strip_prefix(b"="))
            .is_some_and(&value)
    })
}

const KEYS: [&str; 9] = [
    "threads", "cells", "groups", "global", "limit", "rows", "row", "cell", "gcell",
];

fn only(value: &[u8], more: &[u8]) -> bool {
    let fits = |byte: &u8| byte.is_ascii_digit() || b",".contains(byte) || more.contains(byte);
    value.iter().all(fits) && more.iter().any(|byte| value.contains(byte))
}

#[test]
fn spellings_of_numbers() {
    let (mut by_key, mut by_fault) = (Counts::default(), Counts::default());
    for file in (0..SEEDS).map(generator::launch) {
        for key in KEYS {
            let seen = |value: &dyn Fn(&[u8]) -> bool| has(&file, key, value);
            by_fault.see("colon", seen(&|v| only(v, b":")));
            by_fault.see("slash", seen(&|v| only(v, b"/")));
            by_fault.see("equals", seen(&|v| v.contains(&b'=')));
            by_fault.see("carriage return", seen(&|v| v.ends_with(b"\r")));
            let mut see = |name: &str, found: bool| by_key.see(format!("{key}: {name}"), found);
            see("leading zero", seen(&|v| v.len() > 1 && v[0] == b'0'));
            see("empty", seen(&|v| v.is_empty()));
            if key != "row" {
                see("2^32 - 1", seen(&|v| v == b"4294967295"));
                see("2^32", seen(&|v| v == b"4294967296"));
            }
        }
    }
    by_key.expect(2);
    by_fault.expect(15);
}

#[test]
fn spellings_of_rows() {
    let mut counts = Counts::default();
    for file in (0..SEEDS).map(generator::launch) {
        for parts in [3, 5] {
            let seen = has(&file, "row", |value| {
                only(value, b",") && value.split(|&b| b == b',').count() == parts
            });
            counts.see(format!("{parts} values"), seen);
        }
        for byte in ["255", "256"] {
            let seen = has(&file, "row", |value| {
                value.split(|&b| b == b',').any(|v| v == byte.as_bytes())
            });
            counts.see(byte, seen);
        }
        let other = has(&file, "row", |value| only(value, b";") || only(value, b" "));
        counts.see("another separator", other);
        let none = has(&file, "row", |value| {
            only(value, b",") && value.split(|&b| b == b',').any(<[u8]>::is_empty)
        });
        counts.see("an empty value", none);
    }
    counts.expect(8);
}

#[test]
fn keys_and_values_that_are_almost_right() {
    let lines: [&[u8]; 14] = [
        b"kernel=",
        b"kernel=2",
        b"kernel=11",
        b"kernel1",
        b"kerne=1",
        b"kernels=1",
        b"Kernel=1",
        b"kernel==1",
        b"end=kerne",
        b"end=kernels",
        b"end=kernelkernel",
        b"end=KERNEL",
        b"en=kernel",
        b"end",
    ];
    let mut counts = Counts::default();
    for file in (0..SEEDS).map(generator::launch) {
        let of_file: Vec<&[u8]> = file.split(|&byte| byte == b'\n').collect();
        for line in lines {
            counts.see(line.escape_ascii().to_string(), of_file.contains(&line));
        }
        for behind in [b'\n', 0, b' '] {
            let end = [b"\nend=kernel\n".as_slice(), &[behind]].concat();
            counts.see(format!("byte {behind} behind"), file.ends_with(&end));
        }
    }
    // Each spelling alone is rare; together they aren't.
    println!("{:#?}", counts.0);
    let missing = counts.0.values().filter(|&&count| count == 0).count();
    let all: usize = counts.0.values().sum();
    assert!(missing <= 2 && all >= 60, "{missing} missing, {all} in all");
}

/// The header's numbers that can be read, 0 to 2^32 - 1.
fn header(file: &[u8]) -> [Option<u32>; 6] {
    let mut lines = file.split(|&byte| byte == b'\n').skip(1);
    let keys = [
        "threads=", "cells=", "groups=", "global=", "limit=", "rows=",
    ];
    keys.map(|key| {
        let value = lines.next()?.strip_prefix(key.as_bytes())?;
        let number = std::str::from_utf8(value).ok()?.parse().ok()?;
        (!value.starts_with(b"+")).then_some(number)
    })
}

/// All cells together, where the numbers before are in range.
fn all_cells(cells: Option<u32>, groups: Option<u32>, global: Option<u32>) -> Option<u64> {
    let fine = !bad(cells, 1, 1_024) && !bad(groups, 1, 8);
    let own = u64::from(cells?) * u64::from(groups?);
    fine.then_some(own + u64::from(global?))
}

fn bad(number: Option<u32>, low: u32, high: u32) -> bool {
    number.is_some_and(|number| !(low..=high).contains(&number))
}

#[test]
fn both_sides_of_every_limit() {
    let mut counts = Counts::default();
    for file in (0..SEEDS).map(generator::launch) {
        let [threads, cells, groups, global, limit, rows] = header(&file);
        for edge in [0, 1, 2, 8, 9] {
            counts.see(format!("groups {edge}"), groups == Some(edge));
        }
        counts.see(
            "all cells 1,024",
            all_cells(cells, groups, global) == Some(1_024),
        );
        counts.see(
            "all cells 1,025",
            all_cells(cells, groups, global) == Some(1_025),
        );
        // Read by a sum of 32 bits, or of 16, they would be in range.
        for bits in [16, 32] {
            let wraps = all_cells(cells, groups, global)
                .is_some_and(|all| all > 1_024 && all % (1 << bits) <= 1_024);
            counts.see(format!("all cells past {bits} bits"), wraps);
        }
        counts.see(
            "groups as a byte",
            groups.is_some_and(|n| n % 256 < 9 && n > 255),
        );
        for edge in [0, 1, 32, 33] {
            counts.see(format!("threads {edge}"), threads == Some(edge));
        }
        for edge in [0, 1, 1_024, 1_025] {
            counts.see(format!("cells {edge}"), cells == Some(edge));
        }
        for edge in [0, 1, MAX_LIMIT, MAX_LIMIT + 1] {
            counts.see(format!("limit {edge}"), limit == Some(edge));
        }
        for edge in [0, 255, 256, 257] {
            counts.see(format!("rows {edge}"), rows == Some(edge));
        }
        for edge in [MAX_FILE, MAX_FILE + 1] {
            counts.see(format!("{edge} bytes"), file.len() == edge);
        }
        counts.see(
            "threads as a byte",
            threads.is_some_and(|n| n % 256 < 33 && n > 255),
        );
        counts.see(
            "cells as 16 bits",
            cells.is_some_and(|n| n % 65_536 < 1_025 && n > 65_535),
        );
        counts.see(
            "rows as 16 bits",
            rows.is_some_and(|n| n % 65_536 < 257 && n > 65_535),
        );
    }
    counts.expect(5);
}

#[test]
fn two_faults_in_a_header() {
    let mut counts = Counts::default();
    for file in (0..SEEDS).map(generator::launch) {
        let numbers = header(&file);
        let [threads, cells, groups, global, limit, rows] = numbers;
        let own = cells.unwrap_or(0).saturating_mul(groups.unwrap_or(0));
        let out = [
            bad(threads, 1, 32),
            bad(cells, 1, 1_024),
            bad(groups, 1, 8),
            bad(global, 0, 1_024_u32.saturating_sub(own)),
            bad(limit, 0, MAX_LIMIT),
            bad(rows, 0, MAX_ROWS as u32),
        ];
        for first in 0..5 {
            let next = first + 1;
            counts.see(format!("{first} and {next}"), out[first] && out[next]);
            let misspelt = out[first] && numbers[next].is_none();
            counts.see(format!("{first}, and {next} misspelt"), misspelt);
        }
    }
    counts.expect(4);
}

/// What the row checks say of a table, with all else in order.
fn rows_refused(table: &[u8]) -> Option<Refusal> {
    let rows = table.as_chunks().0.to_vec();
    run(&Plan::limited(1, 0, rows, vec![0])).err()
}

/// The four bytes of a `row=` line that is spelt right.
fn row_of(line: &[u8]) -> Option<[u8; 4]> {
    let value = std::str::from_utf8(line.strip_prefix(b"row=")?).ok()?;
    let bytes: Vec<u8> = value.split(',').map_while(|v| v.parse().ok()).collect();
    bytes.try_into().ok()
}

/// The tables of the first launches, four files for each bare launch, as far
/// as they have whole rows and not too many.
fn tables() -> impl Iterator<Item = Vec<u8>> {
    let of_files = (0..SEEDS).map(|seed| {
        let file = generator::launch(seed);
        let lines = file.split(|&byte| byte == b'\n');
        lines.filter_map(row_of).flatten().collect()
    });
    let of_bare = (0..SEEDS / 4).map(|seed| generator::bare(seed).table);
    of_files
        .chain(of_bare)
        .filter(|table: &Vec<u8>| table.len().is_multiple_of(4) && table.len() <= 4 * MAX_ROWS)
}

#[test]
fn two_faults_in_the_rows() {
    let mut counts = Counts::default();
    for mut table in tables() {
        let Some(Refusal { number, place }) = rows_refused(&table) else {
            continue;
        };
        let at = 4 * place as usize;
        let row: [u8; 4] = table[at..at + 4].try_into().unwrap();
        counts.see("3 and 4", number == 3 && row[1] > 15);
        // Without its first fault, the row may have another.
        let mended = match number {
            4 => [row[0], 0, 0, 0],
            _ => [op::TID, 0, 0, 0],
        };
        table[at..at + 4].copy_from_slice(&mended);
        let then = rows_refused(&table);
        let same = then.is_some_and(|then| then.place == place);
        let then = then.map_or(0, |then| then.number);
        counts.see("4 and 5", number == 4 && same && then == 5);
        counts.see("4 and 6", number == 4 && same && then == 6);
        counts.see("5 and later 7", number == 5 && then == 7);
        counts.see("3 and later 4", number == 3 && !same && then == 4);
        counts.see("4 and later 3", number == 4 && !same && then == 3);
        counts.see("5 and later 3", number == 5 && !same && then == 3);
    }
    counts.expect(4);
}

#[test]
fn each_byte_of_each_op_is_wrong_alone() {
    let mut counts = Counts::default();
    for table in tables() {
        let refused = rows_refused(&table);
        for known in (1..=14).chain(16..=22).chain(32..=37) {
            for byte in 1..4 {
                if known == op::SET && byte > 1 {
                    continue;
                }
                let seen = refused.is_some_and(|Refusal { number, place }| {
                    let row = &table[4 * place as usize..];
                    let mut mended = [row[0], row[1], row[2], row[3]];
                    mended[byte] = 0;
                    let framed = [32, 0, 0, 0].into_iter().chain(mended).collect::<Vec<u8>>();
                    let alone = rows_refused(&framed).is_none_or(|then| then.number != 4);
                    number == 4 && row[0] == known && row[byte] != 0 && alone
                });
                counts.see(format!("op {known}, byte {byte}"), seen);
            }
        }
    }
    counts.expect(2);
}

#[test]
fn unknown_ops_next_to_known_ones() {
    let mut counts = Counts::default();
    for table in tables() {
        let refused = rows_refused(&table);
        for unknown in [0, 15, 23, 31, 38, 255] {
            let seen = refused.is_some_and(|Refusal { number, place }| {
                number == 3 && table[4 * place as usize] == unknown
            });
            counts.see(format!("op {unknown}"), seen);
        }
    }
    counts.expect(4);
}

/// How many constructs of a table are open at once, and of how many kinds.
fn nesting(table: &[u8]) -> (usize, usize) {
    let (mut open, mut deepest) = (vec![], (0, 0));
    for row in table.chunks_exact(4) {
        match row[0] {
            op::IF | op::WHILE => open.push(row[0]),
            op::ENDIF | op::ENDWHILE => {
                open.pop();
            }
            _ => {}
        }
        let kinds = [op::IF, op::WHILE]
            .iter()
            .filter(|kind| open.contains(kind));
        deepest = deepest.max((open.len(), kinds.count()));
    }
    deepest
}

#[test]
fn eight_and_nine_constructs_of_both_kinds() {
    let mut counts = Counts::default();
    for table in tables() {
        let refused = rows_refused(&table);
        let (deepest, kinds) = nesting(&table);
        counts.see("8", refused.is_none() && (deepest, kinds) == (8, 2));
        let ninth = refused.is_some_and(|refusal| refusal.number == 6);
        counts.see("9", ninth && kinds == 2);
    }
    counts.expect(20);
}

/// Own cells of all groups as a bare launch says them.
fn said_own(launch: &BareLaunch) -> usize {
    launch.groups as usize * launch.cells as usize
}

/// The refusals that a bare launch earns, each by itself.
fn faults(launch: &BareLaunch) -> Vec<&'static str> {
    let table = &launch.table;
    let (own, global) = (said_own(launch), launch.global as usize);
    let lent = (launch.lent_cells.len(), launch.lent_global.len());
    let log = launch.lent_log.len();
    let few = table.len() / 4 <= MAX_ROWS;
    [
        ("1", !table.len().is_multiple_of(4)),
        ("2", !few),
        ("8", bad(Some(launch.threads), 1, 32)),
        ("9", bad(Some(launch.cells), 1, 1_024)),
        ("32", bad(Some(launch.groups), 1, 8)),
        ("33", own + global > 1_024),
        ("10", bad(Some(launch.limit), 0, MAX_LIMIT)),
        (
            "rows",
            few && rows_refused(&table[..table.len() / 4 * 4]).is_some(),
        ),
        ("20", lent != (own, global)),
        ("21", log != log_words(own + global)),
        ("30", launch.lent_intervals.len() < INTERVAL_WORDS),
    ]
    .into_iter()
    .filter_map(|(name, earned)| earned.then_some(name))
    .collect()
}

#[test]
fn two_faults_of_a_bare_launch() {
    let mut counts = Counts::default();
    let names = [
        "1", "2", "8", "9", "32", "33", "10", "rows", "20", "21", "30",
    ];
    for launch in (0..2 * SEEDS).map(generator::bare) {
        let found = faults(&launch);
        for (at, first) in names.iter().enumerate() {
            for second in &names[at + 1..] {
                if (*first, *second) == ("2", "rows") {
                    continue; // told apart by no one: the rows aren't read
                }
                // The first that is told, and the other behind it.
                let seen = found.first() == Some(first) && found.contains(second);
                counts.see(format!("{first} and {second}"), seen);
            }
        }
        let (own, lent) = (said_own(&launch), launch.lent_cells.len());
        let (global, lent_global) = (launch.global as usize, launch.lent_global.len());
        let (cells, log) = (own.saturating_add(global), launch.lent_log.len());
        counts.see("one cell more", found == ["20"] && lent == own + 1);
        counts.see("one cell fewer", found == ["20"] && lent + 1 == own);
        let of_global = found == ["20"] && lent == own;
        counts.see(
            "one global cell more",
            of_global && lent_global == global + 1,
        );
        counts.see(
            "one global cell fewer",
            of_global && lent_global + 1 == global,
        );
        let one_group = found == ["20"] && launch.groups > 1 && lent == launch.cells as usize;
        counts.see("own cells of one group", one_group);
        let exchanged = found == ["20"] && (lent, lent_global) == (global, own);
        counts.see("own and global cells exchanged", exchanged && own != global);
        let mut see = |name: &str, length: usize| {
            let seen = found == ["21"] && cells > 1 && log == length;
            counts.see(format!("log of {name}"), seen);
        };
        see("one word more", log_words(cells.min(9_999)) + 1);
        see("one word fewer", log_words(cells.clamp(1, 9_999)) - 1);
        see("one kind", cells);
        see("two kinds", 2 * cells);
        see("three kinds", 3 * cells);
        see("four kinds", 4 * cells);
        see("five kinds", 5 * cells);
        see("six kinds", 6 * cells);
        see("seven kinds", 7 * cells);
        see("nine kinds", 9 * cells);
        if global > 0 {
            see("own cells only", log_words(own.min(9_999)));
        }
        see("a whole file", 8_192);
        see("no word", 0);
        let whole = [5_120, 8_191, 8_193].contains(&log);
        counts.see("log of nearly a whole file", found == ["21"] && whole);
        for words in [5, 7, 9] {
            let near = log.abs_diff(words * cells) == 1;
            let seen = found == ["21"] && cells > 1 && near;
            counts.see("log of other words a cell but for one", seen);
        }
    }
    counts.expect(5);
}

/// Sound launches with these rows among theirs.
fn plans_with(rows: &'static [[u8; 4]]) -> impl Iterator<Item = Plan> {
    of_one_group(SEEDS).filter(move |plan| plan.rows.windows(rows.len()).any(|some| some == rows))
}

/// What a thread shifts, by what amount, and whether only some threads do.
struct Shift {
    word: u32,
    amount: u32,
    some_only: bool,
}

/// The shifts of the launches in which each thread does SHR and SAR of words of
/// its own. Words and amounts take turns, one of each for every thread.
fn shifts() -> Vec<Shift> {
    let mut found = vec![];
    for plan in plans_with(&[[op::SHR, 5, 2, 3], [op::SAR, 6, 2, 3]]) {
        let some_only = plan.rows.contains(&[op::IF, 0, 7, 0]);
        let blocks: Vec<&[u32]> = plan.cells.chunks(plan.threads as usize).collect();
        for pair in blocks.chunks_exact(2) {
            for (thread, (&word, &amount)) in pair[0].iter().zip(pair[1]).enumerate() {
                if !some_only || thread % 2 == 1 {
                    found.push(Shift {
                        word,
                        amount,
                        some_only,
                    });
                }
            }
        }
    }
    found
}

/// Words with the top bit set, by every number of places, and by the amounts at
/// which a reading other than modulo 32 has its edge.
#[test]
fn shifts_by_all_places_and_by_amounts_at_edges() {
    let (mut by_places, mut by_edge) = (Counts::default(), Counts::default());
    let (top, most) = (1 << 31, u32::MAX);
    let near = [0, 1, 31, 32, 33, 63, 64, 95, 96, 127, 128, 255, 256, 257];
    let far = [65_535, 65_536, 65_537, top - 1, top, most - 31, most];
    for Shift { word, amount, .. } in shifts() {
        let set = word >> 31 == 1;
        for edge in near.into_iter().chain(far) {
            by_edge.see(format!("{edge:10}"), set && amount == edge);
        }
        for places in 0..32 {
            let seen = set && amount % 32 == places;
            for (turns, is) in [("none", 0..=0), ("one", 1..=1), ("more", 2..=most)] {
                let name = format!("{places:2} places, multiples of 32: {turns}");
                by_places.see(name, seen && is.contains(&(amount / 32)));
            }
        }
    }
    by_places.expect(6);
    by_edge.expect(15);
}

/// Amounts at and beside multiples of 32, however far up, of all words and by
/// all threads or some.
#[test]
fn shifts_beside_multiples_of_32() {
    let mut counts = Counts::default();
    let ranges = [
        ("32 to 63", 32..=63),
        ("64 to 255", 64..=255),
        ("2^8 on", 256..=65_535),
        ("2^16 on", 1 << 16..=(1 << 31) - 1),
        ("2^31 on", 1 << 31..=u32::MAX),
    ];
    for shift in shifts() {
        let by = if shift.some_only { "some" } else { "all" };
        let top = shift.word >> 31;
        for (range, amounts) in &ranges {
            for places in [0, 1, 31] {
                let seen = amounts.contains(&shift.amount) && shift.amount % 32 == places;
                let name = format!("{range}, {places} places");
                counts.see(format!("{name}, by {by}"), seen);
                counts.see(format!("{name}, top bit {top}"), seen);
            }
        }
    }
    counts.expect(8);
}

/// The rows with other readings of far shifts in place of each shift: all is
/// shifted out, or nothing is. R10 to R14 are of no other use.
fn otherwise(rows: &[[u8; 4]], all_out: bool) -> Vec<[u8; 4]> {
    let mut others = vec![];
    for &row in rows {
        let [shift @ (op::SHR | op::SAR), d, a, b] = row else {
            others.push(row);
            continue;
        };
        // R11 = the amount is below 32.
        others.extend([[op::SET, 10, 32, 0], [op::LT, 11, b, 10]]);
        if all_out {
            others.extend([[shift, 12, a, b], [op::MUL, d, 12, 11]]);
        } else {
            others.extend([[op::MUL, 12, b, 11], [shift, d, a, 12]]);
        }
    }
    others
}

fn verdict_name(verdict: Verdict) -> &'static str {
    match verdict {
        Verdict::Passed => "passed",
        Verdict::Race { .. } => "race",
        Verdict::Outside { .. } => "outside",
        Verdict::Common { .. } => "common",
        Verdict::Diverged { .. } => "diverged",
        Verdict::Spent { .. } => "spent",
    }
}

/// How verdicts change under both other readings, where they do.
fn see_changes(counts: &mut Counts, plan: &Plan) {
    for all_out in [true, false] {
        let other = Plan {
            rows: otherwise(&plan.rows, all_out),
            ..plan.clone()
        };
        if let [Some(right), Some(wrong)] = [plan, &other].map(Ran::of) {
            let [right, wrong] = [right, wrong].map(|ran| verdict_name(ran.outcome.verdict));
            if right != wrong {
                counts.see(format!("{wrong} for {right}"), true);
            }
        }
    }
}

/// The plan with room for the rows of another reading, if it has shifts and
/// leaves the registers that those rows need.
fn with_shifts(plan: Plan) -> Option<Plan> {
    let free = |row: &[u8; 4]| row[1..].iter().all(|byte| !(10..15).contains(byte));
    let shift = |row: &[u8; 4]| matches!(row[0], op::SHR | op::SAR);
    let plan = Plan {
        limit: 20_000,
        ..plan
    };
    let rows = &plan.rows;
    (rows.len() < 64 && rows.iter().all(free) && rows.iter().any(shift)).then_some(plan)
}

#[test]
fn shifts_that_decide_the_verdict() {
    let mut counts = Counts::default();
    for wrong in ["race", "outside", "diverged", "spent"] {
        counts.see(format!("{wrong} for passed"), false);
    }
    counts.see("passed for spent", false);
    for plan in of_one_group(SEEDS).filter_map(with_shifts) {
        see_changes(&mut counts, &plan);
    }
    // Others occur, but need not.
    let asked = |name: &str| name.ends_with("for passed") || name == "passed for spent";
    let mut others = Counts(counts.0.clone());
    counts.0.retain(|name, _| asked(name));
    counts.expect(3);
    // What else turns into or out of passed is no single chance find.
    let more = of_one_group(8 * SEEDS).skip(SEEDS as usize);
    for plan in more.filter_map(with_shifts) {
        see_changes(&mut others, &plan);
    }
    others.0.retain(|name, _| name.contains("passed"));
    others.expect(3);
}

#[test]
fn shifts_that_decide_the_verdict_of_small_launches() {
    let mut counts = Counts::default();
    for other in ["race", "outside", "diverged", "spent"] {
        counts.see(format!("{other} for passed"), false);
        counts.see(format!("passed for {other}"), false);
    }
    for small in (0..2 * SEEDS).map(generator::small) {
        if let Some(plan) = with_shifts(small_plan(small, 0)) {
            see_changes(&mut counts, &plan);
        }
    }
    counts.0.retain(|name, _| name.contains("passed"));
    counts.expect(3);
}

#[test]
fn truth_values_from_2_31_on() {
    let mut counts = Counts::default();
    for plan in plans_with(&[[op::IF, 0, 2, 0], [op::ADD, 5, 5, 1]]) {
        let some_only = plan.rows.contains(&[op::AND, 3, 0, 1]);
        for &word in &plan.cells {
            for truth in [1 << 31, (1 << 31) + 1, u32::MAX, 1 << 16] {
                counts.see(format!("{truth}, some {some_only}"), word == truth);
            }
        }
    }
    counts.expect(15);
}

#[test]
fn addresses_at_the_end_and_behind_it() {
    let mut counts = Counts::default();
    for access in [op::LOAD, op::STORE, op::ATOMIC_ADD] {
        for plan in plans_with(&[[op::LOAD, 2, 0, 0], [op::BARRIER, 0, 0, 0]]) {
            if !plan
                .rows
                .iter()
                .any(|row| row[0] == access && row[1..].contains(&2))
            {
                continue;
            }
            let count = plan.cells.len() as u32;
            let own = &plan.cells[..plan.threads as usize];
            let mut see = |name: &str, found: bool| counts.see(format!("{access}: {name}"), found);
            see("the last cell", own.contains(&(count - 1)));
            see("the cell behind it", own.contains(&count));
            see(
                "2^16 on",
                own.iter()
                    .any(|&at| at % (1 << 16) < count && at >= 1 << 16),
            );
            see(
                "2^31 on",
                own.iter().any(|&at| at >> 31 == 1 && at << 1 >> 1 < count),
            );
        }
    }
    counts.expect(4);
}

/// A plan's outcome, the steps of each thread, its cells and the log of each
/// cell, where it isn't refused.
struct Ran {
    outcome: Outcome,
    steps: Vec<u32>,
    before: Vec<u32>,
    after: Vec<u32>,
    log: Vec<u32>,
}

impl Ran {
    fn of(plan: &Plan) -> Option<Self> {
        let left = run(plan).ok()?;
        Some(Self {
            outcome: left.outcome,
            steps: left.steps[..plan.threads as usize].to_vec(),
            before: plan.cells.clone(),
            after: left.cells,
            log: left.log,
        })
    }

    /// Reader, writer and adder mask of a cell.
    fn masks(&self, cell: usize) -> [u32; 3] {
        let cells = self.before.len();
        [0, 1, 2].map(|kind| self.log[kind * cells + cell])
    }

    /// Whether unequal stores were made to a cell.
    fn marked(&self, cell: usize) -> bool {
        self.log[4 * self.before.len() + cell] == 1
    }

    fn passed(&self) -> bool {
        self.outcome.verdict == Verdict::Passed
    }
}

fn ran() -> impl Iterator<Item = (Plan, Ran)> {
    ran_to(SEEDS)
}

/// The launches of so many seeds.
fn ran_to(seeds: u64) -> impl Iterator<Item = (Plan, Ran)> {
    of_one_group(seeds).filter_map(|plan| {
        let ran = Ran::of(&plan)?;
        Some((plan, ran))
    })
}

/// The acting thread's letter.
fn acting(kind: AccessKind) -> char {
    match kind {
        AccessKind::Wr | AccessKind::Ar => 'r',
        AccessKind::Rw | AccessKind::Ww | AccessKind::Aw => 'w',
        AccessKind::Ra | AccessKind::Wa => 'a',
    }
}

/// The letters of the masks that hold a thread.
fn letters(masks: [u32; 3], thread: u32) -> String {
    let held = |mask: u32| mask >> thread & 1 == 1;
    "rwa"
        .chars()
        .zip(masks)
        .filter_map(|(letter, mask)| held(mask).then_some(letter))
        .collect()
}

/// What the other had done to the cell, and what the thread then did. Nineteen
/// of these are races: loads meet all but nothing and r, stores all but
/// nothing, adds all but nothing and a. Where stores meet they are not equal;
/// where they are, three more are races by what the other did besides.
#[test]
fn every_access_meets_all_that_another_can_have_done() {
    let mut counts = Counts::default();
    for letter in ["r", "w", "a"] {
        for other in ["r", "w", "a", "rw", "ra", "wa", "rwa"] {
            if letter == "w" || letter != other {
                counts.see(format!("{other} then {letter}"), false);
            }
        }
    }
    assert_eq!(counts.0.len(), 19);
    for other in ["rw", "wa", "rwa"] {
        counts.see(format!("{other} then w, equal"), false);
    }
    for (_, ran) in ran() {
        if let Verdict::Race {
            other: Some(other),
            kind,
            at,
            ..
        } = ran.outcome.verdict
        {
            let others = letters(ran.masks(at as usize), other);
            let equal = if acting(kind) == 'w' && others.contains('w') && kind != AccessKind::Ww {
                ", equal"
            } else {
                ""
            };
            counts.see(format!("{others} then {}{equal}", acting(kind)), true);
        }
    }
    assert_eq!(counts.0.len(), 22);
    counts.expect(6);
}

/// Who else has been there, and the thread itself.
#[test]
fn races_with_many_and_by_threads_that_were_there() {
    let mut counts = Counts::default();
    for (_, ran) in ran() {
        let Verdict::Race {
            thread,
            other: Some(other),
            kind,
            at,
            ..
        } = ran.outcome.verdict
        else {
            continue;
        };
        let masks = ran.masks(at as usize);
        let many = masks.iter().any(|mask| mask.count_ones() > 2);
        let own = letters(masks, thread);
        let mut see = |name: &str, seen: bool| counts.see(format!("{kind:?}: {name}"), seen);
        see("many", many);
        see("many, the thread too", many && !own.is_empty());
        see("a higher thread", other > thread);
        // One that stored unequal values is alone at the cell.
        if kind == AccessKind::Ww {
            see("own unequal stores of the other", ran.marked(at as usize));
        }
        see("thread 31", thread == 31);
        see("other 31", other == 31);
        see("a cell but the first", at > 0);
    }
    counts.expect(2);
}

#[test]
fn adds_of_many_threads_and_of_edge_words() {
    let mut counts = Counts::default();
    for (plan, ran) in ran().filter(|(_, ran)| ran.passed()) {
        let cells = ran.before.len();
        let adders = &ran.log[2 * cells..3 * cells];
        let has = |op: u8| plan.rows.iter().any(|row| row[0] == op);
        let any = adders.iter().any(|&mask| mask != 0);
        counts.see("all 32 threads", adders.contains(&u32::MAX));
        counts.see("some threads", adders.iter().any(|m| m.count_ones() > 1));
        counts.see(
            "the last of all cells",
            cells == 1_024 && adders[1_023] != 0,
        );
        let lower = |cell: &usize| ran.after[*cell] < ran.before[*cell];
        let only_added = |cell: &usize| ran.masks(*cell)[1] == 0 && adders[*cell] != 0;
        let wrapped = (0..cells).filter(only_added).any(|cell| lower(&cell));
        counts.see("a sum that wraps", wrapped);
        let all_three = (0..cells).any(|cell| ran.masks(cell).iter().all(|&mask| mask != 0));
        counts.see("read, written and added to", all_three);
        counts.see(
            "before a barrier",
            has(op::ATOMIC_ADD) && has(op::BARRIER) && !any,
        );
        counts.see("behind a barrier", any && ran.outcome.barriers > 0);
    }
    counts.expect(8);
}

/// A launch that passes, and races by an add if its barriers are left out.
#[test]
fn barriers_part_adds_from_other_accesses() {
    let mut counts = Counts::default();
    for (mut plan, ran) in ran() {
        if ran.passed() && ran.outcome.barriers > 0 {
            plan.rows.retain(|row| row[0] != op::BARRIER);
            let together = Ran::of(&plan).map(|ran| ran.outcome.verdict);
            if let Some(Verdict::Race { kind, .. }) = together {
                counts.see(format!("{kind:?}"), true);
            }
        }
    }
    let kinds = ["Rw", "Wr", "Ww", "Ra", "Ar", "Wa", "Aw"];
    kinds.iter().for_each(|kind| counts.see(*kind, false));
    counts.expect(5);
}

/// What has been done to the cells since the last barrier, just before a
/// counted one.
struct Interval {
    ran: Ran,
    /// The cells that have been used, lowest first.
    used: Vec<usize>,
    /// The row of the barrier.
    barrier: usize,
    /// The row that first used the highest of them.
    row: usize,
    /// Other cells were used before that row.
    others_before: bool,
    /// Other cells were used only behind that row.
    others_behind: bool,
}

/// The plan's launch, stopped after so many rows, and the row due.
fn stopped(plan: &Plan, limit: u32) -> (Ran, usize) {
    let plan = Plan {
        limit,
        ..plan.clone()
    };
    let ran = Ran::of(&plan).expect("it ran before");
    let row = match ran.outcome.verdict {
        Verdict::Spent { row } => row as usize,
        _ => plan.rows.len(),
    };
    (ran, row)
}

/// The least number above `low` that will do; `high` does.
fn least(mut low: u32, mut high: u32, will_do: impl Fn(u32) -> bool) -> u32 {
    while low + 1 < high {
        let middle = low.midpoint(high);
        if will_do(middle) {
            high = middle;
        } else {
            low = middle;
        }
    }
    high
}

impl Interval {
    fn highest(&self) -> usize {
        self.used[self.used.len() - 1]
    }
}

/// The cells with a mask that isn't 0.
fn used(ran: &Ran) -> Vec<usize> {
    let used = |cell: &usize| ran.masks(*cell) != [0; 3];
    (0..ran.before.len()).filter(used).collect()
}

/// The first few intervals of a launch that end in a counted barrier, without
/// those that use no cell.
fn intervals(plan: &Plan, ran: &Ran) -> Vec<Interval> {
    let mut found = vec![];
    let mut from = 0;
    for nth in 1..=ran.outcome.barriers.min(4) {
        let passed = |limit| stopped(plan, limit).0.outcome.barriers >= nth;
        let end = least(from, ran.outcome.rows, passed);
        let (ran, barrier) = stopped(plan, end - 1);
        let all = used(&ran);
        if let Some(&highest) = all.last() {
            let there = |limit| used(&stopped(plan, limit).0).contains(&highest);
            let first = least(from, end - 1, there);
            let (before, row) = stopped(plan, first - 1);
            let behind = used(&stopped(plan, first).0);
            found.push(Interval {
                others_before: !used(&before).is_empty(),
                others_behind: behind != all,
                used: all,
                ran,
                barrier,
                row,
            });
        }
        from = end;
    }
    found
}

/// Launches that come to a counted barrier within a moment, and their
/// intervals.
fn parted() -> impl Iterator<Item = (Plan, Ran, Vec<Interval>)> {
    let soon = |(_, ran): &(Plan, Ran)| ran.outcome.barriers > 0 && ran.outcome.rows < 20_000;
    ran().filter(soon).map(|(plan, ran)| {
        let intervals = intervals(&plan, &ran);
        (plan, ran, intervals)
    })
}

#[test]
fn barriers_behind_all_kinds_of_use() {
    let mut counts = Counts::default();
    for (plan, ran, intervals) in parted() {
        for interval in &intervals {
            see_cells(&mut counts, interval);
            see_highest(&mut counts, &plan, interval);
        }
        see_one_after_the_other(&mut counts, &ran, &intervals);
    }
    counts.expect(15);
}

/// How many cells have been used, and up to which.
fn see_cells(counts: &mut Counts, interval: &Interval) {
    let (number, highest) = (interval.used.len(), interval.highest());
    for edge in [0, 255, 256, 511, 512, 1_023] {
        counts.see(format!("up to {edge}"), highest == edge);
    }
    let apart = highest - interval.used[0] > 1_000;
    counts.see("all 1,024 cells", number == 1_024);
    counts.see("more cells than a byte counts", number > 255);
    counts.see("few cells, far apart", apart && number < 100);
    counts.see("one cell far up", highest > 255 && number == 1);
}

/// By whom, how and where the highest cell has been used, if it is far up.
fn see_highest(counts: &mut Counts, plan: &Plan, interval: &Interval) {
    let highest = interval.highest();
    let mut see = |name: &str, seen: bool| counts.see(name, seen && highest > 255);
    see("the last cell", highest + 1 == plan.cells.len());

    let masks = interval.ran.masks(highest);
    let mask = masks.iter().fold(0, |all, mask| all | mask);
    see("only loads", masks[0] == mask);
    see("only stores", masks[1] == mask);
    see("only adds", masks[2] == mask);
    let last = 1 << (plan.threads - 1);
    see("by thread 0", mask == 1 && last > 1);
    see("by the last thread", mask == last && last > 1);
    see("by thread 31", mask == 1 << 31);
    see("by many", mask.count_ones() > 1);

    let constructs = around(&plan.rows, interval.row);
    see("in an IF", constructs.contains('I'));
    see("behind an ELSE", constructs.contains('E'));
    see("in a WHILE", constructs.contains('W'));
    see("in no construct", constructs.is_empty());
    see("in three", constructs.len() > 2);

    let (before, behind) = (interval.others_before, interval.others_behind);
    see("before the others", !before && behind);
    see("behind the others", before && !behind);
    let skipped = [
        [op::IF, 0, 15, 0],
        [op::BARRIER, 0, 0, 0],
        [op::ENDIF, 0, 0, 0],
    ];
    let rows = &plan.rows[..interval.barrier];
    see("before a skipped barrier", rows.ends_with(&skipped));
}

/// What follows an interval that reaches far up, or comes before it.
fn see_one_after_the_other(counts: &mut Counts, ran: &Ran, intervals: &[Interval]) {
    let tops: Vec<usize> = intervals.iter().map(Interval::highest).collect();
    let any = |is: fn(usize, usize) -> bool| tops.windows(2).any(|two| is(two[0], two[1]));
    counts.see("far up, then low", any(|first, then| first > then + 255));
    counts.see("low, then far up", any(|first, then| then > first + 255));
    let far_up = tops.iter().any(|&top| top > 255);
    let clean = ran.passed() && used(ran).is_empty();
    counts.see("far up, then the end", far_up && clean);
    let many = ran.outcome.barriers > 256;
    counts.see("far up, more often than a byte counts", far_up && many);
}

/// A launch that passes, and races far up if its barriers are left out.
#[test]
fn barriers_part_accesses_far_up() {
    let mut counts = Counts::default();
    let kinds = ["Rw", "Wr", "Ww", "Ra", "Ar", "Wa", "Aw"];
    kinds.iter().for_each(|kind| counts.see(*kind, false));
    for (mut plan, ran) in ran().filter(|(_, ran)| ran.passed()) {
        plan.rows.retain(|row| row[0] != op::BARRIER);
        let together = Ran::of(&plan).map(|ran| ran.outcome.verdict);
        if let Some(Verdict::Race { kind, at, .. }) = together {
            counts.see(format!("{kind:?}"), at > 255 && ran.outcome.barriers > 0);
        }
    }
    counts.expect(4);
}

#[test]
fn the_number_of_threads_is_seldom_that_of_cells() {
    let differ = of_one_group(SEEDS).filter(|plan| {
        let counted = plan.rows.iter().any(|row| row[0] == op::COUNT);
        counted && plan.cells.len() != plan.threads as usize
    });
    assert!(differ.count() > 400);
}

/// Whether some thread has made more steps than another.
fn unequal(steps: &[u32]) -> bool {
    steps.windows(2).any(|two| two[0] != two[1])
}

#[test]
fn counts_of_steps_that_differ_from_thread_to_thread() {
    let (mut by_threads, mut counts) = (Counts::default(), Counts::default());
    for (plan, ran) in ran() {
        let steps = &ran.steps;
        for threads in 2..=32 {
            let seen = plan.threads == threads && unequal(steps);
            by_threads.see(format!("{threads:2} threads"), seen);
        }
        for name in ["passed", "race", "outside", "diverged", "spent"] {
            let seen = verdict_name(ran.outcome.verdict) == name && unequal(steps);
            counts.see(format!("unequal, {name}"), seen);
        }
        let many = plan.threads > 3;
        let rising = steps.windows(2).all(|two| two[0] < two[1]);
        let falling = steps.windows(2).all(|two| two[0] > two[1]);
        counts.see("rising", many && rising);
        counts.see("falling", many && falling);
        let (first, last) = (steps[0], steps[steps.len() - 1]);
        let all_but = |one: u32| steps.iter().filter(|&&count| count != one).count() == 1;
        counts.see(
            "only thread 0 differs",
            many && all_but(last) && first != last,
        );
        counts.see(
            "only the last differs",
            many && all_but(first) && first != last,
        );
        counts.see(
            "one in between differs",
            many && all_but(first) && first == last,
        );
        let most = steps.iter().max().copied().unwrap_or(0);
        counts.see("twice as many", steps.iter().any(|&count| 2 * count < most));
        counts.see(
            "past 8 bits, not all",
            most > 255 && steps.iter().any(|&n| n < 256),
        );
    }
    by_threads.expect(10);
    counts.expect(8);
}

#[test]
fn counts_of_steps_that_are_large() {
    let mut counts = Counts::default();
    for (_, ran) in ran() {
        let steps = &ran.steps;
        let past = |count: &u32| *count > 65_535;
        let (some, all) = (steps.iter().any(past), steps.iter().all(past));
        counts.see("past 16 bits", some);
        counts.see("past 16 bits, unequal", some && unequal(steps));
        counts.see("past 16 bits, not all", some && !all);
        let sum: u32 = steps.iter().sum();
        counts.see(
            "a sum past 16 bits by counts that aren't",
            sum > 65_535 && !some,
        );
        counts.see("a sum past 24 bits", sum > 1 << 24);
        counts.see(
            "a sum past 24 bits, unequal",
            sum > 1 << 24 && unequal(steps),
        );
    }
    counts.expect(3);
}

/// The threads with more steps in the second run.
fn stepping(before: &Ran, after: &Ran) -> u32 {
    let more = |thread: &usize| after.steps[*thread] > before.steps[*thread];
    let threads = (0..before.steps.len()).filter(more);
    threads.fold(0, |mask, thread| mask | 1 << thread)
}

fn all_threads(plan: &Plan) -> u32 {
    u32::MAX >> (32 - plan.threads)
}

/// Where an access or a barrier stops a run, which threads have acted there
/// already: none, some, and threads that weren't enabled between them.
#[test]
fn stops_inside_constructs_count_for_some() {
    let (mut by_thread, mut counts) = (Counts::default(), Counts::default());
    for (plan, ran) in ran_to(3 * SEEDS) {
        let (Verdict::Race { row, thread, .. } | Verdict::Outside { row, thread, .. }) =
            ran.outcome.verdict
        else {
            continue;
        };
        let name = verdict_name(ran.outcome.verdict);
        let acted = stepping(&stopped(&plan, ran.outcome.rows).0, &ran);
        let lower = (1 << thread) - 1;
        let constructs = around(&plan.rows, row as usize);
        for number in 0..32 {
            // Nobody is below thread 0, so that all of them have acted there.
            let partly = (acted != lower || thread == 0) && !constructs.is_empty();
            by_thread.see(format!("thread {number:2}"), thread == number && partly);
        }
        let access = plan.rows[row as usize][0];
        let mut see = |what: &str, seen: bool| counts.see(format!("{name}, {what}"), seen);
        see("some lower threads acted", acted != 0 && acted != lower);
        see("all lower threads acted", acted == lower && thread > 1);
        see("no lower thread acted", acted == 0 && thread > 1);
        see("thread 31 behind others", thread == 31 && acted != 0);
        for construct in ['I', 'E', 'W'] {
            see(&format!("in {construct}"), constructs.contains(construct));
        }
        see(&format!("by {access}"), acted != 0 && acted != lower);
    }
    by_thread.expect(3);
    counts.expect(6);
}

#[test]
fn limits_and_barriers_inside_constructs_cut_counts_off() {
    let mut counts = Counts::default();
    for (plan, ran) in ran() {
        let (Verdict::Spent { row } | Verdict::Diverged { row, .. }) = ran.outcome.verdict else {
            continue;
        };
        let name = verdict_name(ran.outcome.verdict);
        let mut see = |what: &str, seen: bool| counts.see(format!("{name}, {what}"), seen);
        let constructs = around(&plan.rows, row as usize);
        for construct in ['I', 'E', 'W'] {
            let seen = constructs.contains(construct) && unequal(&ran.steps);
            see(&format!("in {construct}"), seen);
        }
        see("in three", constructs.len() > 2 && unequal(&ran.steps));
        // The row before may have changed the mask.
        let before = row.checked_sub(1).map(|row| plan.rows[row as usize][0]);
        for op in [op::IF, op::ELSE, op::WHILE] {
            see(&format!("behind {op}"), before == Some(op));
        }
    }
    counts.expect(4);
}

/// The rows run one after the other, each with the threads that stepped. The
/// launch is run up to each row of it.
fn trace(plan: &Plan, rows: u32) -> Vec<(usize, u32)> {
    let mut found = vec![];
    let (mut before, mut row) = stopped(plan, 0);
    for limit in 1..=rows {
        let (after, next) = stopped(plan, limit);
        found.push((row, stepping(&before, &after)));
        (before, row) = (after, next);
    }
    found
}

/// Rows that change the mask, and which of those that come and those that
/// leave are counted there.
#[test]
fn rows_that_change_the_mask_are_stepped_by_some() {
    let mut counts = Counts::default();
    let short = |(_, ran): &(Plan, Ran)| ran.outcome.rows < 100;
    for (plan, ran) in ran().filter(short).filter(|(plan, _)| plan.threads > 2) {
        let all = all_threads(&plan);
        let traced = trace(&plan, ran.outcome.rows);
        for rows in traced.windows(2) {
            let [(row, came), (next, then)] = [rows[0], rows[1]];
            let [code, of_next] = [row, next].map(|row| plan.rows[row][0]);
            if of_next == op::BARRIER {
                continue;
            }
            see_change(&mut counts, code, came, then, all);
            let end = of_next == op::ENDIF;
            counts.see(
                "ENDIF of more than the arm",
                end && came != 0 && then != came,
            );
            counts.see(
                "ENDIF of some",
                end && then != all && then != came && came != 0,
            );
            counts.see("ENDIF behind nobody", end && came == 0 && then != 0);
        }
    }
    counts.expect(50);
}

fn see_change(counts: &mut Counts, code: u8, came: u32, then: u32, all: u32) {
    let some = came != 0 && came != all;
    let names = [(op::IF, "IF"), (op::WHILE, "WHILE"), (op::ELSE, "ELSE")];
    for (of, name) in names {
        let mut see = |what: &str, seen: bool| {
            counts.see(format!("{name}, {what}"), seen && code == of);
        };
        see("some of some go on", some && then != 0 && then != came);
        // Behind ELSE others go on, and behind WHILE somebody always does.
        if of != op::ELSE {
            see("some of all go on", came == all && then != 0 && then != all);
            see("all of some go on", some && then == came);
        }
        if of != op::WHILE {
            see("nobody goes on", came != 0 && then == 0);
        }
    }
}

/// What the report writer may be handed, together with cells that are as wrong.
#[test]
fn counts_for_the_report_writer_alone() {
    let mut counts = Counts::default();
    for seed in 0..SEEDS {
        let steps = generator::report_steps(&mut generator::Rng::new(seed, 0));
        for length in [0, 1, 32, 33, 255, 256, 257, 1_024] {
            counts.see(format!("{length} counts"), steps.len() == length);
        }
        counts.see("some counts", (2..32).contains(&steps.len()));
        counts.see("counts of several groups", (34..256).contains(&steps.len()));
        for digits in 1..=10 {
            let seen = steps.iter().any(|count| count.to_string().len() == digits);
            counts.see(format!("{digits} digits"), seen);
        }
    }
    counts.expect(100);
}

/// Own and global cells for the report writer alone: it is their sum that counts.
#[test]
fn cells_for_the_report_writer_alone() {
    let mut counts = Counts::default();
    for seed in 0..SEEDS {
        let (own, global) = generator::report_cells(&mut generator::Rng::new(seed, 0));
        let sum = own.len() + global.len();
        for edge in [0, 1, 1_023, 1_024, 1_025, 2_048] {
            counts.see(format!("{edge} cells"), sum == edge);
        }
        for (edge, name) in [(1_024, "in range"), (1_025, "too many")] {
            counts.see(
                format!("own cells only, {name}"),
                own.len() == edge && sum == edge,
            );
            counts.see(
                format!("global cells only, {name}"),
                own.is_empty() && sum == edge,
            );
            counts.see(
                format!("both, {name}"),
                sum == edge && !own.is_empty() && !global.is_empty(),
            );
        }
        counts.see(
            "few of both",
            sum < 20 && !own.is_empty() && !global.is_empty(),
        );
    }
    counts.expect(40);
}

#[test]
fn lent_words_of_steps_pass_for_no_count() {
    for launch in (0..SEEDS).map(generator::bare) {
        assert!(launch.lent_steps.iter().all(|&word| word > MAX_LIMIT));
        assert!(unequal(&launch.lent_steps));
    }
}
