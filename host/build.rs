//! Links the archive of the proved library. `rt` makes the archive, and cargo does not: a proof
//! takes longer than a build should.

use std::path::Path;

const FOLDER: &str = concat!(env!("CARGO_MANIFEST_DIR"), "/../crates/thimmorel/out");

fn main() {
    let archive = Path::new(FOLDER).join("libthimmorel.a");
    println!("cargo::rerun-if-changed={}", archive.display());
    assert!(
        archive.exists(),
        "crates/thimmorel/out/libthimmorel.a is missing: run `rt lib --cpu x86-64` in crates/thimmorel"
    );
    println!("cargo::rustc-link-search=native={FOLDER}");
    println!("cargo::rustc-link-lib=static=thimmorel");
}
