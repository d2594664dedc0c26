//! The report: docs/BENCHMARK.md but for the stack use of the controller's calls, which examples/c/measure.c adds.

use crate::{
    cases,
    planners::{self, Sort, PLANNERS},
};
use std::fs;

const HEAD: &str = "\
Every proved call beside plain Rust that does the same: the same refusals in the same sequence, bounds checks, each stop judged once
(`rust/src/plain*.rs`; `rust/tests/plain.rs` compares them with the independent reading). Where plain Rust is written in several ways, the
quickest counts. A ratio is the proved call's time as a part of the other's: below 1 the proved call is the quicker one.

One process and one thread. All have the same input, from a fixed seed, and the same lent buffers, and take turns; a turn is as many calls as
take 0.2 ms, at least one. Times are the thread's processor time in microseconds for one call, the tenth part from below of all rounds: not
the least, because the clock of a virtual machine now and then counts too little. Rust and the proved library are both built for release and
for x86-64 without extensions.";

const CALLS: &str = "\
Paths of 2^k stops whose fields take their whole range. `plan_path` leads from path bytes to the order. Plain Rust goes through the records by
indices or takes them off the front as arrays (chunks); its `cell_check` makes no table and sums the n − 1 moves; the planner's ways are those
below. `table_from` makes the table from path bytes. `plan_places` plans by the travel times and a second table of random entries.
`tour` plans a round trip by one pass for each last stop and one halving. `fork_cost` plans twice without a table, the second time with the last
fork held in the opposite state; plain Rust does so for two stops at a time. Noted beside it is `plan_path` for the same path, which plans once by a
table.
`plan_filled` weighs one stop's candidates at a time or those of two neighbouring stops together. `exchange_fork` validates order and sums before it exchanges
the root or the last fork; each call undoes the one before.";

const PLANNER: &str = "\
`planner::plan` for one table of random entries below 4,000,001 for each k. The paper's order goes through each stop's candidates, 'along rows'
through the stops that each candidate may come before, 'rows by slices' does so with slices and iterators in place of indices, and 'two stops
at a time' is the paper's order for two neighbouring stops together. The unchecked loops are the same without bounds checks.";

const GROWTH: &str = "\
A cost that grows as n² log n gives 4 (k / (k − 1)) in the last column: 4.7 at k = 7 and 4.4 at k = 10. At k = 9 and 10 the table has 1 and
4 MB, more than the nearer caches of many processors, and a column's entries lie 2 and 4 KB apart.";

/// A table of the document.
fn table(head: &[&str], rows: impl Iterator<Item = Vec<String>>) -> String {
    let rule = "|---".repeat(head.len()) + "|";
    let line = |cells: Vec<String>| format!("| {} |", cells.join(" | "));
    let head = format!("| {} |", head.join(" | "));
    [head, rule].into_iter().chain(rows.map(line)).collect::<Vec<String>>().join("\n")
}

/// A time with three figures, or as many as stand before the point.
fn figures(time: f64) -> String {
    let places = (2.0 - time.log10().floor()).max(0.0) as usize;
    format!("{time:.places$}")
}

/// The name of the kit that proved and built the library: the first word of `rt version`.
fn kit() -> String {
    let said = std::process::Command::new("rt").arg("version").output().map(|o| o.stdout).unwrap_or_default();
    String::from_utf8_lossy(&said).split_whitespace().next().unwrap_or("unknown").into()
}

/// The processor's name, as the system gives it.
fn processor() -> String {
    let text = fs::read_to_string("/proc/cpuinfo").unwrap_or_default();
    let value = |name: &str| text.lines().filter_map(|line| line.split_once(':')).find(|(key, _)| key.trim() == name).map(|(_, value)| value.trim());
    let name = value("model name").unwrap_or("unknown");
    match (value("cpu family"), value("model")) {
        (Some(family), Some(model)) => format!("{name} (family {family}, model {model})"),
        _ => name.into(),
    }
}

/// Every call beside plain Rust.
pub fn calls(all: &[cases::Measured]) -> String {
    let row = |of: &cases::Measured| {
        let ways: Vec<String> = of.plain.iter().map(|(name, time)| format!("{name} {}", figures(*time))).collect();
        let note = of.beside.map_or(String::new(), |(name, time)| format!("; {name} {}", figures(time)));
        let (name, ratio) = (format!("`{}`", of.name), format!("{:.2}", of.proved / of.best()));
        let [k, version, rounds] = [of.k.into(), of.version.into(), of.rounds].map(|number| number.to_string());
        vec![name, k, version, rounds, figures(of.proved), figures(of.best()), ratio, ways.join(", ") + &note]
    };
    table(&["call", "k", "version", "rounds", "proved", "plain Rust", "ratio", "plain Rust, each way"], all.iter().map(row))
}

/// How many megabytes of path a second are read.
fn speeds(all: &[cases::Measured]) -> String {
    let row = |of: &cases::Measured| {
        let speed = |time: f64| format!("{:.0}", of.bytes as f64 / time);
        vec![of.k.to_string(), of.version.to_string(), of.bytes.to_string(), speed(of.proved), speed(of.best())]
    };
    let read = all.iter().filter(|of| of.name == "read_path");
    table(&["k", "version", "bytes", "proved, MB/s", "plain Rust, MB/s"], read.map(row))
}

/// The planners' times.
fn times(all: &[planners::Measured]) -> String {
    let names = PLANNERS.map(|planner| planner.1);
    let head: Vec<&str> = ["k", "rounds"].into_iter().chain(names).collect();
    let row = |of: &planners::Measured| {
        let mut cells = vec![of.k.to_string(), of.rounds.to_string()];
        cells.extend(of.times.iter().map(|time| figures(*time)));
        cells.resize(head.len(), "".into());
        cells
    };
    table(&head, all.iter().map(row))
}

/// The planner's time as a part of the quickest others', and of its own for half the stops.
fn ratios(all: &[planners::Measured]) -> String {
    let row = |(place, of): (usize, &planners::Measured)| {
        let to = |time: Option<f64>, places: usize| time.map_or("".into(), |time| format!("{:.places$}", of.proved() / time));
        let before = place.checked_sub(1).map(|before| all[before].proved());
        vec![of.k.to_string(), to(of.best(Sort::Plain), 2), to(of.best(Sort::Unchecked), 2), to(of.best(Sort::Cubic), 3), to(before, 2)]
    };
    table(&["k", "to plain Rust", "to unchecked Rust", "to the cubic method", "to itself at k − 1"], all.iter().enumerate().map(row))
}

/// The whole report.
pub fn report(all: &[cases::Measured], mixed: &[planners::Measured], equal: &[planners::Measured]) -> String {
    let parts = [
        "# Benchmark".into(),
        format!("Written by `make bench`. Processor: {}. Rattle: {}.", processor(), kit()),
        HEAD.into(),
        "## The calls".into(),
        CALLS.into(),
        calls(all),
        "Reading, in megabytes of path a second:".into(),
        speeds(all),
        "## The planner".into(),
        PLANNER.into(),
        times(mixed),
        ratios(mixed),
        GROWTH.into(),
        "![time by k](benchmark.svg)".into(),
        "The same for tables whose entries are all equal:".into(),
        times(equal),
        ratios(equal),
    ];
    parts.join("\n\n") + "\n"
}
