//! Tells the program which compiler and which flags it was built with.
#![forbid(unsafe_code)]

use std::env;
use std::process::Command;

fn main() {
    let compiler = env::var_os("RUSTC").unwrap_or_else(|| "rustc".into());
    let version = match Command::new(compiler).arg("--version").output() {
        Ok(output) => String::from_utf8_lossy(&output.stdout).trim().to_string(),
        Err(_) => "unknown".to_string(),
    };
    let flags = env::var("CARGO_ENCODED_RUSTFLAGS").unwrap_or_default();
    println!("cargo:rustc-env=COMPILER={version}");
    println!(
        "cargo:rustc-env=COMPILER_FLAGS={}",
        flags.replace('\u{1f}', " ")
    );
    println!(
        "cargo:rustc-env=COMPILER_TARGET={}",
        env::var("TARGET").unwrap_or_default()
    );
    println!("cargo:rerun-if-changed=build.rs");
}
