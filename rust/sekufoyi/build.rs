//! Finds the verified checker's static library and links it.

use std::env;
use std::path::PathBuf;

const NAME: &str = "libsekufoyi.a";

fn main() {
    println!("cargo::rerun-if-env-changed=SEKUFOYI_LIB_DIR");
    let dir = library_dir();
    let library = dir.join(NAME);
    println!("cargo::rerun-if-changed={}", library.display());
    if !library.is_file() {
        let dir = dir.display();
        println!("cargo::error={NAME} is not in {dir}: run `scripts/build sekufoyi` at the repository's root, or set SEKUFOYI_LIB_DIR");
        return;
    }
    println!("cargo::rustc-link-search=native={}", dir.display());
    println!("cargo::rustc-link-lib=static=sekufoyi");
}

/// `SEKUFOYI_LIB_DIR`, or where `scripts/build` puts the library.
fn library_dir() -> PathBuf {
    match env::var_os("SEKUFOYI_LIB_DIR") {
        Some(dir) => PathBuf::from(dir),
        None => {
            let manifest = env::var_os("CARGO_MANIFEST_DIR").expect("cargo sets it");
            PathBuf::from(manifest).join("../../target/staticlib")
        }
    }
}
