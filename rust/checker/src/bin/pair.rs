//! `pair FILTER TRIGGER COMMON`: prints the reports of two kernels that load from
//! one set of common cells. All three are names of files.

use std::ffi::{OsStr, OsString};
use std::fs::File;
use std::io::{Read, Write};
use std::process::ExitCode;

use checker::{pair_files, MAX_FILE, PAIR_ROOM};

fn main() -> ExitCode {
    let names: Vec<OsString> = std::env::args_os().skip(1).collect();
    let [filter, trigger, common] = names.as_slice() else {
        eprintln!("usage: pair FILTER TRIGGER COMMON");
        return ExitCode::from(2);
    };
    // A read that fails is not the file's end: nothing is printed then.
    let (Ok(filter), Ok(trigger), Ok(common)) = (read(filter), read(trigger), read(common)) else {
        return ExitCode::FAILURE;
    };
    let mut out = std::io::stdout();
    let printed = out.write_all(&reports(&filter, &trigger, &common));
    match printed.and_then(|()| out.flush()) {
        Ok(()) => ExitCode::SUCCESS,
        Err(_) => ExitCode::FAILURE,
    }
}

/// A file, up to one byte more than a launch file may have. That decides a common
/// file too: a good one is far shorter, and another is refused for one of its
/// first lines. A file that can't be opened counts as empty.
fn read(name: &OsStr) -> std::io::Result<Vec<u8>> {
    let mut bytes = Vec::new();
    if let Ok(file) = File::open(name) {
        file.take(MAX_FILE as u64 + 1).read_to_end(&mut bytes)?;
    }
    Ok(bytes)
}

fn reports(filter: &[u8], trigger: &[u8], common: &[u8]) -> Vec<u8> {
    let mut out = vec![0; PAIR_ROOM];
    // It can't fail with this buffer; an empty report would say so.
    let written = pair_files(filter, trigger, common, &mut out);
    out.truncate(written.unwrap_or(0));
    out
}
