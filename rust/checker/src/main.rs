//! `check`: reads a launch file from standard input and prints its report.

use std::io::{Read, Write};
use std::process::ExitCode;

use checker::{
    check_file, write_report, Subject, INTERVAL_WORDS, LENT_CELLS, LENT_GLOBAL, LENT_LOG, MAX_FILE,
    REPORT_ROOM,
};

fn main() -> ExitCode {
    // A read that fails is not the input's end: nothing is printed then.
    let Ok(file) = read_input() else {
        return ExitCode::FAILURE;
    };
    let mut out = std::io::stdout();
    match out.write_all(&report(&file)).and_then(|()| out.flush()) {
        Ok(()) => ExitCode::SUCCESS,
        Err(_) => ExitCode::FAILURE,
    }
}

/// The input up to one byte more than a launch file may have.
fn read_input() -> std::io::Result<Vec<u8>> {
    let mut file = Vec::new();
    let most = MAX_FILE as u64 + 1;
    std::io::stdin().take(most).read_to_end(&mut file)?;
    Ok(file)
}

fn report(file: &[u8]) -> Vec<u8> {
    let (mut cells, mut global) = (vec![0; LENT_CELLS], vec![0; LENT_GLOBAL]);
    let (mut log, mut list) = (vec![0; LENT_LOG], vec![0; INTERVAL_WORDS]);
    let mut out = vec![0; REPORT_ROOM];
    let checked = check_file(file, &mut cells, &mut global, &mut log, &mut list, &mut out);
    let written =
        checked.or_else(|refusal| write_report(Subject::Refused(refusal), &[], &[], &[], &mut out));
    // Neither can fail with these buffers; an empty report would say so.
    out.truncate(written.unwrap_or(0));
    out
}
