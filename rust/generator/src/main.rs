//! `generate SEED COUNT DIR`: writes COUNT launch files, one a seed from SEED
//! on, as DIR/SEED.launch.

use std::path::PathBuf;
use std::process::ExitCode;

fn main() -> ExitCode {
    let arguments: Vec<String> = std::env::args().skip(1).collect();
    let Some((seed, count, dir)) = read(&arguments) else {
        eprintln!("usage: generate SEED COUNT DIR");
        return ExitCode::from(2);
    };
    match write(seed, count, dir) {
        Ok(()) => ExitCode::SUCCESS,
        Err(error) => {
            eprintln!("generate: {error}");
            ExitCode::FAILURE
        }
    }
}

fn read(arguments: &[String]) -> Option<(u64, u64, PathBuf)> {
    let [seed, count, dir] = arguments else {
        return None;
    };
    Some((seed.parse().ok()?, count.parse().ok()?, dir.into()))
}

fn write(seed: u64, count: u64, dir: PathBuf) -> std::io::Result<()> {
    std::fs::create_dir_all(&dir)?;
    for seed in (0..count).map(|offset| seed.wrapping_add(offset)) {
        std::fs::write(dir.join(format!("{seed}.launch")), generator::launch(seed))?;
    }
    Ok(())
}
