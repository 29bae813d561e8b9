//! Links the archive that `rt lib` writes in crates/fadurinko_c.

fn main() {
    let here = std::env::var("CARGO_MANIFEST_DIR").expect("cargo sets it");
    let archive = format!("{here}/../crates/fadurinko_c/out");
    println!("cargo:rustc-link-search=native={archive}");
    println!("cargo:rustc-link-lib=static=fadurinko_c");
    println!("cargo:rerun-if-changed={archive}/libfadurinko_c.a");
}
