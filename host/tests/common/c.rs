//! Builds a C program over the header and the archive, as a user does, and runs it. The programs go
//! below the target folder.

use std::io::{self, Write};
use std::path::{Path, PathBuf};
use std::process::Command;

const ROOT: &str = concat!(env!("CARGO_MANIFEST_DIR"), "/..");
const TMP: &str = env!("CARGO_TARGET_TMPDIR");

const WARNINGS: [&str; 4] = ["-Wall", "-Wextra", "-Wpedantic", "-Werror"];

/// The C programs in a folder of the repository, by their paths from its root.
pub fn programs(folder: &str) -> Vec<String> {
    let Ok(entries) = Path::new(ROOT).join(folder).read_dir() else {
        return Vec::new();
    };
    let names = entries.map(|entry| entry.expect("it can be read").file_name());
    let names = names.map(|name| name.into_string().expect("a name is text"));
    let programs = names.filter(|name| name.ends_with(".c"));
    let mut paths: Vec<String> = programs.map(|name| format!("{folder}/{name}")).collect();
    paths.sort();
    paths
}

/// Builds and runs the program at a path from the repository's root, as C99 and as C++. Without g++
/// the C++ run is skipped, but with `THIMMOREL_GATE=1`, which the gate sets, it fails.
pub fn run_as_c_and_cpp(path: &str) {
    run(&build(path, "gcc", &["-std=c99"]));
    if is_there("g++") || in_the_gate() {
        run(&build(path, "g++", &["-x", "c++"]));
    } else {
        say(&format!("SKIPPED: {path} as C++, since g++ is missing"));
    }
}

fn is_there(compiler: &str) -> bool {
    Command::new(compiler).arg("--version").output().is_ok()
}

fn in_the_gate() -> bool {
    std::env::var("THIMMOREL_GATE").as_deref() == Ok("1")
}

/// Writes a line that cargo shows. It hides what `eprintln` writes in a test that passes.
fn say(line: &str) {
    writeln!(io::stderr(), "{line}").expect("standard error is open");
}

/// The words in `language` choose the language and its version.
fn build(path: &str, compiler: &str, language: &[&str]) -> PathBuf {
    let name = path.replace('/', "-");
    let program = PathBuf::from(TMP).join(format!("{name}-{compiler}"));
    let status = Command::new(compiler)
        .args(language)
        .args(WARNINGS)
        .arg(format!("-I{ROOT}/include"))
        .arg(format!("{ROOT}/{path}"))
        .args(["-x", "none"])
        .arg(format!("{ROOT}/crates/thimmorel/out/libthimmorel.a"))
        .arg("-o")
        .arg(&program)
        .status()
        .unwrap_or_else(|_| panic!("{compiler} is needed"));
    assert!(status.success(), "{compiler} refused {path}");
    program
}

fn run(program: &PathBuf) {
    let status = Command::new(program)
        .status()
        .expect("the program was built");
    assert!(status.success(), "{} failed: {status}", program.display());
}
