//! The slip program, run as a child.

use std::env;
use std::io::{ErrorKind, Write};
use std::path::{Path, PathBuf};
use std::process::{Command, Stdio};
use std::thread::sleep;
use std::time::Duration;

/// Names a slip program other than the repository's crates/slip/out/slip.
const PROGRAM: &str = "FIBERGRAVEL_SLIP";

/// Between two parts of an input that is written in parts, so that the program reads each alone.
const PAUSE: Duration = Duration::from_millis(3);

/// The program, or a message where it is missing.
pub fn program() -> Result<PathBuf, String> {
    let program = match env::var_os(PROGRAM) {
        Some(program) => PathBuf::from(program),
        None => Path::new(env!("CARGO_MANIFEST_DIR")).join("../crates/slip/out/slip"),
    };
    if !program.is_file() {
        let missing = program.display();
        return Err(format!(
            "there is no {missing}: run rt run in crates/slip first"
        ));
    }
    Ok(program)
}

/// What the program prints when it is given the parts of an input one after the other; in place
/// of that a message where it fails or complains.
pub fn print(program: &Path, parts: &[&[u8]]) -> Result<String, String> {
    let mut child = Command::new(program)
        .stdin(Stdio::piped())
        .stdout(Stdio::piped())
        .stderr(Stdio::piped())
        .spawn()
        .map_err(|error| error.to_string())?;
    if let Some(mut input) = child.stdin.take() {
        for (place, part) in parts.iter().enumerate() {
            if place > 0 {
                sleep(PAUSE);
            }
            match input.write_all(part) {
                Ok(()) => (),
                // The program need not read what decides nothing.
                Err(error) if error.kind() == ErrorKind::BrokenPipe => break,
                Err(error) => return Err(error.to_string()),
            }
        }
    }
    let output = child
        .wait_with_output()
        .map_err(|error| error.to_string())?;
    if !output.status.success() || !output.stderr.is_empty() {
        let complaint = String::from_utf8_lossy(&output.stderr);
        return Err(format!("{}, {complaint}", output.status));
    }
    String::from_utf8(output.stdout).map_err(|error| error.to_string())
}
