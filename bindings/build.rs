//! Tells rustc where libplanner.a is.
#![forbid(unsafe_code)]

use std::env;
use std::path::{Path, PathBuf};
use std::process::ExitCode;

/// Names a folder with libplanner.a other than the repository's crates/planner/out.
const FOLDER: &str = "FIBERGRAVEL_LIB_DIR";

fn main() -> ExitCode {
    let folder = folder();
    let library = folder.join("libplanner.a");
    println!("cargo:rerun-if-env-changed={FOLDER}");
    println!("cargo:rerun-if-changed={}", library.display());
    if !library.is_file() {
        eprintln!("there is no {}", library.display());
        eprintln!("run rt lib in crates/planner first");
        return ExitCode::FAILURE;
    }
    println!("cargo:rustc-link-search=native={}", folder.display());
    println!("cargo:rustc-link-lib=static=planner");
    ExitCode::SUCCESS
}

/// The folder of the library.
fn folder() -> PathBuf {
    match env::var_os(FOLDER) {
        Some(folder) => PathBuf::from(folder),
        None => Path::new(env!("CARGO_MANIFEST_DIR")).join("../crates/planner/out"),
    }
}
