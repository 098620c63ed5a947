//! `compare [SEED [COUNT]]`: the verified library against the independent checker. `compare pairs [SEED [COUNT]]`: the same for pairs of
//! kernels over common cells. Without a count the first is followed by the second.

use std::io::{IsTerminal, Write};
use std::process::ExitCode;

use compare::{compare_all, compare_pairs, Difference, DEFAULT_COUNT, DEFAULT_PAIRS, DEFAULT_SEED};

fn main() -> ExitCode {
    let Some(sweeps) = arguments() else {
        eprintln!("usage: compare [pairs] [SEED [COUNT]]");
        return ExitCode::from(2);
    };
    match compare(sweeps) {
        Ok(()) => ExitCode::SUCCESS,
        Err(difference) => {
            println!("{difference}");
            ExitCode::FAILURE
        }
    }
}

/// How many launches and how many pairs, from a seed on; or that none of them is asked for.
struct Sweeps {
    seed: u64,
    launches: Option<u64>,
    pairs: Option<u64>,
}

/// Prints what each sweep came to, up to the first difference.
fn compare(sweeps: Sweeps) -> Result<(), Box<Difference>> {
    let seed = sweeps.seed;
    if let Some(count) = sweeps.launches {
        println!("{}", compare_all(seed, count, progress("", count))?);
    }
    if let Some(count) = sweeps.pairs {
        let tally = compare_pairs(seed, count, progress("pairs: ", count))?;
        println!("{tally}");
    }
    Ok(())
}

/// What to compare, or nothing where an argument is not a number or one too many.
fn arguments() -> Option<Sweeps> {
    let given: Vec<String> = std::env::args().skip(1).collect();
    let (only_pairs, numbers) = match &given[..] {
        [sweep, numbers @ ..] if sweep == "pairs" => (true, numbers),
        numbers => (false, numbers),
    };
    let numbers: Vec<u64> = (numbers.iter())
        .map(|number| number.parse().ok())
        .collect::<Option<_>>()?;
    let (seed, count) = match numbers[..] {
        [] => (DEFAULT_SEED, None),
        [seed] => (seed, None),
        [seed, count] => (seed, Some(count)),
        _ => return None,
    };
    let (launches, pairs) = match (only_pairs, count) {
        (true, count) => (None, Some(count.unwrap_or(DEFAULT_PAIRS))),
        (false, Some(count)) => (Some(count), None),
        (false, None) => (Some(DEFAULT_COUNT), Some(DEFAULT_PAIRS)),
    };
    Some(Sweeps {
        seed,
        launches,
        pairs,
    })
}

/// One line that counts up on a terminal; otherwise a line now and then.
fn progress(what: &'static str, count: u64) -> impl FnMut(u64) {
    let terminal = std::io::stderr().is_terminal();
    move |done| {
        // Progress that can't be written is no failure.
        if terminal && (done % 200 == 0 || done == count) {
            let end = if done == count { "\n" } else { "" };
            let _ = write!(std::io::stderr(), "\r{what}{done} of {count}{end}");
        } else if !terminal && done % 5_000 == 0 {
            let _ = writeln!(std::io::stderr(), "{what}{done} of {count}");
        }
    }
}
