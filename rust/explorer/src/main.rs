//! `explore SEED COUNT`: checks COUNT small launches, one a seed from SEED on.
//! `explore pairs SEED COUNT`: the same for pairs of small launches over common
//! cells.

use std::io::Write;
use std::process::ExitCode;
use std::time::{Duration, Instant};

use explorer::{check_pair_seed, check_seed, PairTally, Tally};

fn main() -> ExitCode {
    let arguments: Vec<String> = std::env::args().skip(1).collect();
    let (pairs, numbers) = match &arguments[..] {
        [mode, numbers @ ..] if mode == "pairs" => (true, numbers),
        numbers => (false, numbers),
    };
    let Some((seed, count)) = read(numbers) else {
        eprintln!("usage: explore [pairs] SEED COUNT");
        return ExitCode::from(2);
    };
    let faults = if pairs {
        explore_pairs(seed, count)
    } else {
        explore_launches(seed, count)
    };
    println!("faults: {faults}");
    if faults == 0 {
        ExitCode::SUCCESS
    } else {
        ExitCode::FAILURE
    }
}

fn read(arguments: &[String]) -> Option<(u64, u64)> {
    let [seed, count] = arguments else {
        return None;
    };
    Some((seed.parse().ok()?, count.parse().ok()?))
}

fn explore_launches(seed: u64, count: u64) -> u64 {
    let mut tally = Tally::new();
    let faults = explore(seed, count, "launches", |seed| check_seed(seed, &mut tally));
    for ((confirmed, extent), launches) in &tally {
        println!("{confirmed:?}, {extent:?}: {launches}");
    }
    faults
}

fn explore_pairs(seed: u64, count: u64) -> u64 {
    let mut tally = PairTally::default();
    let faults = explore(seed, count, "pairs", |seed| {
        check_pair_seed(seed, &mut tally)
    });
    for ((confirmed, [one, other]), pairs) in &tally.pairs {
        println!("{confirmed:?}, {one:?} and {other:?}: {pairs}");
    }
    for (confirmed, kernels) in &tally.alone {
        println!("kernels by themselves, {confirmed:?}: {kernels}");
    }
    println!("states of pairs: {}", tally.states);
    faults
}

/// Checks seed by seed, and gives the number of faults.
fn explore(
    seed: u64,
    count: u64,
    what: &str,
    mut check: impl FnMut(u64) -> Result<(), String>,
) -> u64 {
    let mut faults = 0;
    let mut shown = Instant::now();
    for done in 0..count {
        if let Err(fault) = check(seed.wrapping_add(done)) {
            println!("{fault}");
            faults += 1;
        }
        if shown.elapsed() > Duration::from_secs(1) || done + 1 == count {
            eprint!("\r{} of {count} {what}, {faults} faults", done + 1);
            // A progress line that can't be shown is no fault.
            let _ = std::io::stderr().flush();
            shown = Instant::now();
        }
    }
    eprintln!();
    faults
}
