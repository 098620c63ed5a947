//! `bench`: how fast the verified library is beside the independent checker, and how its cost grows.

mod kernels;
mod measure;

use std::time::Duration;

use kernels::Source;
use measure::{Best, Shape};

const THREADS: [u32; 6] = [1, 2, 4, 8, 16, 32];
/// The barrier loop: this many rows in each round, two of them the loop's.
const ROUND: usize = 8;

fn main() {
    loops();
    stores();
    banks();
    files();
    threads();
    cells();
    barriers();
    logged();
    global();
    groups();
    common();
}

fn loops() {
    heading("loops, 1,000,000 rows, 32 threads", "Mrows/s");
    speed("arithmetic", &measure::bare(&kernels::arithmetic(), 32, 32));
    speed("shifts", &measure::bare(&kernels::shifts(), 32, 32));
    speed(
        "load and store",
        &measure::bare(&kernels::load_store(), 32, 32),
    );
    speed(
        "add, own cells",
        &measure::bare(&kernels::add_own(), 32, 32),
    );
    speed("add, one cell", &measure::bare(&kernels::add_one(), 32, 32));
    speed("mixed", &measure::bare(&kernels::mixed(), 32, 32));
    speed("arms", &measure::bare(&kernels::arms(), 32, 32));
    speed("trips", &measure::bare(&kernels::trips(), 32, 32));
    let barrier = kernels::barrier(ROUND);
    speed("barrier, 32 cells", &measure::bare(&barrier, 32, 32));
    speed("barrier, 1,024 cells", &measure::bare(&barrier, 32, 1_024));
}

/// Stores by the values that the log finds there.
fn stores() {
    heading("stores, 1,000,000 rows, 32 threads", "Mrows/s");
    for (name, rows) in [
        ("own cells, one value", kernels::store_equal()),
        ("own cells, two values", kernels::store_unequal()),
        ("one cell, one value", kernels::store_flag()),
    ] {
        speed(name, &measure::bare(&rows, 32, 32));
    }
}

/// Accesses that meet in banks, or whose cells lie in no regular order.
fn banks() {
    heading("bank conflicts, 1,000,000 rows, 32 threads", "Mrows/s");
    for (name, rows) in [
        ("load and store, stride 16", kernels::one_bank()),
        ("load, one cell", kernels::one_cell()),
        ("load and store, scattered", kernels::load_store_scattered()),
        ("half of the threads", kernels::load_store_by_half()),
        (
            "half of the threads, stride 16",
            kernels::one_bank_by_half(),
        ),
        (
            "half of the threads, scattered",
            kernels::scattered_by_half(),
        ),
    ] {
        speed(name, &measure::bare(&rows, 32, 1_024));
    }
}

fn files() {
    let rows = kernels::largest();
    heading("files, 256 rows, 1,024 cells of 10 digits", "us/file");
    for (limit, repeats) in [
        (1, 50),
        (1_000, 50),
        (10_000, 10),
        (100_000, 2),
        (1_000_000, 1),
    ] {
        let best = measure::file(&rows, limit, repeats);
        let micros = |time: Duration| time.as_secs_f64() * 1e6;
        line(
            &format!("limit {limit}"),
            micros(best.ours),
            micros(best.theirs),
        );
    }
}

fn threads() {
    for (name, rows) in [
        ("arithmetic", kernels::arithmetic()),
        ("shifts", kernels::shifts()),
        ("load and store", kernels::load_store()),
        ("add, own cells", kernels::add_own()),
        ("mixed", kernels::mixed()),
    ] {
        heading(&format!("threads, {name}"), "Mrows/s");
        for threads in THREADS {
            speed(
                &count(threads, "thread"),
                &measure::bare(&rows, threads, 32),
            );
        }
    }
}

fn cells() {
    heading(&format!("cells, a barrier every {ROUND} rows"), "Mrows/s");
    for cells in [1, 32, 1_024] {
        let best = measure::bare(&kernels::barrier(ROUND), 32, cells);
        speed(&count(cells, "cell"), &best);
    }
}

fn barriers() {
    for cells in [32, 1_024] {
        heading(&format!("barriers, {cells} cells"), "Mrows/s");
        for every in [4, 16, 64] {
            let best = measure::bare(&kernels::barrier(every), 32, cells);
            speed(&format!("every {every} rows"), &best);
        }
    }
}

/// What a barrier costs by the cells that were accessed since the last one.
fn logged() {
    heading(
        &format!("accessed cells, a barrier every {ROUND} rows"),
        "Mrows/s",
    );
    let (first, last) = (
        kernels::barrier_behind_store(ROUND, 0),
        kernels::barrier_behind_store(ROUND, 992),
    );
    for (name, rows, cells) in [
        ("1 of 1", &kernels::barrier_behind_add(ROUND), 1),
        ("32 of 32", &first, 32),
        ("the first 32 of 1,024", &first, 1_024),
        ("the last 32 of 1,024", &last, 1_024),
        (
            "all 1,024, one barrier for all",
            &kernels::barrier_behind_all(),
            1_024,
        ),
    ] {
        speed(name, &measure::bare(rows, 32, cells));
    }
}

/// Accesses to global cells by all groups.
fn global() {
    heading("global cells, 8 groups of 32 threads", "Mrows/s");
    let shape = Shape {
        cells: 1,
        groups: 8,
        global: 32,
    };
    for (name, rows) in [
        ("load, the same cells", kernels::global_load()),
        ("add, the same cells", kernels::global_add()),
    ] {
        speed(name, &measure::groups(&rows, shape, 1));
    }
}

/// A launch of eight groups beside eight launches of one group, with as many rows.
fn groups() {
    for (name, rows) in [
        ("arithmetic", kernels::arithmetic_rounds()),
        ("load and store", kernels::load_store_rounds()),
        ("a barrier every 8 rows", kernels::barrier_rounds()),
    ] {
        heading(&format!("groups, {name}"), "Mrows/s");
        for (name, groups, launches) in [
            ("8 groups in one launch", 8, 1),
            ("8 launches of one group", 1, 8),
        ] {
            let shape = Shape {
                cells: 32,
                groups,
                global: 0,
            };
            speed(name, &measure::groups(&rows, shape, launches));
        }
    }
}

/// Loads of common cells beside own loads of the same shape. All go through the entry for pairs, since no other has common cells.
fn common() {
    let kinds = [("common", Source::Common), ("own", Source::Own(0))];
    heading("pairs, 1,000,000 rows, 32 threads", "Mrows/s");
    for (name, source) in kinds {
        let best = measure::pair(&kernels::load(source), 32);
        speed(&format!("load, {name} cells"), &best);
    }
    for (name, source) in kinds {
        let best = measure::pair(&kernels::load_one_of_three(source), 32);
        speed(&format!("one row of three, {name} cells"), &best);
    }
    heading(
        &format!("pairs, stored cells, a barrier every {ROUND} rows"),
        "Mrows/s",
    );
    for (stored, first, cells) in [
        ("32 of 32", 0, 32),
        ("the first 32 of 1,024", 0, 1_024),
        ("the last 32 of 1,024", 992, 1_024),
    ] {
        for (name, source) in [("common", Source::Common), ("own", Source::Own(first))] {
            let rows = kernels::barrier_behind_load(ROUND, source, first);
            let best = measure::pair(&rows, cells);
            speed(&format!("{stored}, {name} load"), &best);
        }
    }
}

fn count(number: u32, of: &str) -> String {
    let plural = if number == 1 { "" } else { "s" };
    format!("{number} {of}{plural}")
}

/// Millions of rows in a second.
fn speed(name: &str, best: &Best) {
    let rate = |time: Duration| f64::from(best.rows) / time.as_secs_f64() / 1e6;
    line(name, rate(best.ours), rate(best.theirs));
}

fn heading(name: &str, unit: &str) {
    let (ours, theirs) = (format!("ours {unit}"), format!("theirs {unit}"));
    println!("\n{name:<45}{ours:>14}{theirs:>16}{:>10}", "ratio");
}

/// The ratio is ours to theirs.
fn line(name: &str, ours: f64, theirs: f64) {
    let ratio = ours / theirs;
    println!("  {name:<43}{ours:>14.2}{theirs:>16.2}{ratio:>10.2}");
}
