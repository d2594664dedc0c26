//! The benchmark: the proved calls beside plain Rust that does the same, and the planner also beside loops without bounds checks and beside
//! the cubic method. Same input, same buffers, same process, by turns. Writes docs/BENCHMARK.md and docs/benchmark.svg.
//! With the beginning of a call's name it measures those calls alone and writes no file.

mod cases;
mod clock;
mod planners;
mod plot;
mod report;

use evidence::{cases::SEED, random::Random};
use std::{env, fs, path::Path};

fn main() {
    let mut random = Random::new(SEED);
    if let Some(name) = env::args().nth(1) {
        return println!("{}", report::calls(&cases::measure(&mut random, &name)));
    }
    let calls = cases::measure(&mut random, "");
    let mixed = planners::measure(&mut random, 4_000_001);
    let equal = planners::measure(&mut random, 1);
    let text = report::report(&calls, &mixed, &equal);
    print!("{text}");
    let docs = Path::new(env!("CARGO_MANIFEST_DIR")).join("../docs");
    fs::write(docs.join("BENCHMARK.md"), text).expect("docs/BENCHMARK.md");
    fs::write(docs.join("benchmark.svg"), plot::plot(&mixed)).expect("docs/benchmark.svg");
}
