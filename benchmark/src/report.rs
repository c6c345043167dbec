//! What is printed, in Markdown.

use std::fs;
use std::time::Duration;

use crate::growth::Table;
use crate::shares::Shares;
use crate::timing::{Times, PASSES};

/// This package's manifest, which has the settings.
const MANIFEST: &str = include_str!("../Cargo.toml");

/// Compiler, settings and processor.
pub fn settings() -> String {
    let flags = match env!("COMPILER_FLAGS") {
        "" => "none",
        flags => flags,
    };
    format!(
        "- Compiler: {}, for {}\n- Settings: {}; RUSTFLAGS: {flags}\n- Processor: {}\n",
        env!("COMPILER"),
        env!("COMPILER_TARGET"),
        profile(MANIFEST),
        processor(&fs::read_to_string("/proc/cpuinfo").unwrap_or_default()),
    )
}

/// The lines of a manifest's release profile, with commas between.
fn profile(manifest: &str) -> String {
    let (_, after) = manifest.split_once("[profile.release]").unwrap_or_default();
    let lines = after.lines().map(str::trim).skip(1);
    let lines = lines.take_while(|line| !line.starts_with('['));
    let lines: Vec<&str> = lines.filter(|line| !line.is_empty()).collect();
    lines.join(", ")
}

/// The processor's name.
fn processor(cpuinfo: &str) -> &str {
    let mut lines = cpuinfo.lines().filter_map(|line| line.split_once(':'));
    let name = lines.find(|(key, _)| key.trim() == "model name");
    name.map_or("unknown", |(_, name)| name.trim())
}

/// The head of the mixes' table.
pub fn mixes_head() -> String {
    let columns = [
        "mix",
        "proved",
        "impossible",
        "open",
        "100 rounds or more",
        "rounds",
        "planner",
        "plain",
        "planner, ns a round",
        "plain, ns a round",
        "ratio",
        "single passes",
    ];
    head(&columns)
}

/// The row of a mix.
pub fn mix_row(name: &str, times: &Times) -> String {
    let counts = &times.counts;
    let (planner, plain) = times.per_round();
    let cells = [
        name.to_string(),
        counts.proved.to_string(),
        counts.impossible.to_string(),
        counts.open.to_string(),
        counts.long.to_string(),
        counts.rounds.to_string(),
        seconds(times.planner),
        seconds(times.plain),
        format!("{planner:.0}"),
        format!("{plain:.0}"),
        format!("{:.3}", times.ratio()),
        format!("{:.3} to {:.3}", times.spread.0, times.spread.1),
    ];
    row(&cells)
}

/// The table of what the mixes are made of.
pub fn shares_table(shares: &[(&str, Shares)]) -> String {
    let mut lines = vec![head(&[
        "mix",
        "tapes with curves",
        "tapes with a weight of 0",
        "rounds whose candidate follows the tape",
        "numbers of the rounds at lo or hi",
    ])];
    for (name, shares) in shares {
        lines.push(row(&[
            name.to_string(),
            shares.curves.to_string(),
            shares.weights_of_0.to_string(),
            format!("{:.0}%", 100.0 * shares.followed()),
            format!("{:.0}%", 100.0 * shares.at_ends()),
        ]));
    }
    lines.join("\n")
}

/// The head of a table of growth with the sizes.
pub fn sizes_head(table: &Table) -> String {
    head(&[
        table.head,
        "planner, ns a round",
        "plain, ns a round",
        "ratio",
    ])
}

/// A row of growth with the sizes.
pub fn size_row(label: String, times: &Times) -> String {
    let (planner, plain) = times.per_round();
    row(&[
        label,
        format!("{planner:.0}"),
        format!("{plain:.0}"),
        format!("{:.2}", times.ratio()),
    ])
}

/// The head of the table of growth with the rounds.
pub fn rounds_head(table: &Table) -> String {
    head(&[
        table.head,
        "planner, µs a solve",
        "plain, µs a solve",
        "ratio",
    ])
}

/// A row of growth with the rounds.
pub fn rounds_row(label: String, times: &Times) -> String {
    let tapes = times.counts.tapes() as f64;
    let of = |time: Duration| format!("{:.1}", time.as_secs_f64() * 1e6 / tapes);
    let ratio = format!("{:.2}", times.ratio());
    row(&[label, of(times.planner), of(times.plain), ratio])
}

/// How the times are taken.
pub fn method() -> String {
    format!(
        "Each tape is solved by both in turn, in {PASSES} passes. A time is the sum over the \
         tapes of the least of each; a single pass has the sum of its own.\n"
    )
}

/// Seconds with a unit.
fn seconds(time: Duration) -> String {
    format!("{:.3} s", time.as_secs_f64())
}

/// The head of a table, with numbers to the right of all but the first column.
fn head(columns: &[&str]) -> String {
    let cells: Vec<String> = columns.iter().map(ToString::to_string).collect();
    let others = "---:|".repeat(columns.len() - 1);
    format!("{}\n|---|{others}", row(&cells))
}

/// A row of a table.
fn row(cells: &[String]) -> String {
    format!("| {} |", cells.join(" | "))
}

#[cfg(test)]
mod tests {
    use super::*;

    #[test]
    fn the_profile_is_found() {
        let expected = "opt-level = 3, lto = \"fat\", codegen-units = 1, panic = \"abort\"";
        assert_eq!(profile(MANIFEST), expected);
        assert_eq!(profile("[package]"), "");
    }

    #[test]
    fn the_processor_is_found() {
        let cpuinfo = "processor\t: 0\nmodel name\t: A Processor: 2\nmodel name\t: Other";
        assert_eq!(processor(cpuinfo), "A Processor: 2");
        assert_eq!(processor(""), "unknown");
    }

    #[test]
    fn tables_are_markdown() {
        assert_eq!(head(&["N", "time"]), "| N | time |\n|---|---:|");
    }
}
