//! Links the archive of the proved calls, libfadurinko_c.a.

use std::path::{Path, PathBuf};

const VARIABLE: &str = "FADURINKO_LIB";
const ARCHIVE: &str = "libfadurinko_c.a";

fn main() {
    println!("cargo:rerun-if-env-changed={VARIABLE}");
    let folder = match std::env::var_os(VARIABLE) {
        Some(folder) => PathBuf::from(folder),
        None => Path::new(env!("CARGO_MANIFEST_DIR")).join("../../crates/fadurinko_c/out"),
    };
    let archive = folder.join(ARCHIVE);
    println!("cargo:rerun-if-changed={}", archive.display());
    if !archive.is_file() {
        eprintln!(
            "{} is not there. Make it with `rt lib` in the repository's folder crates/fadurinko_c, or name \
             the folder that has {ARCHIVE} in the variable {VARIABLE}.",
            archive.display()
        );
        std::process::exit(1);
    }
    println!("cargo:rustc-link-search=native={}", folder.display());
    println!("cargo:rustc-link-lib=static=fadurinko_c");
}
