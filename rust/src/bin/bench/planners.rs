//! The planner beside plain Rust of the same method, beside the same loops without bounds checks, and beside the cubic method.

use crate::clock::race;
use evidence::{
    cubic, ffi,
    plain::{self, Checked, Columns, Pairs, Rows, Slices, Unchecked},
    random::Random,
};
use std::{hint::black_box, ops::RangeInclusive};

/// The k that are measured, and the largest of them for the cubic method.
pub const KS: RangeInclusive<u16> = 4..=10;
const CUBIC_UP_TO: u16 = 8;

type Planner = fn(u16, &[u32], &mut [u16], &mut [u64], &mut [u16]) -> Result<u64, u16>;

/// What a planner is counted as.
#[derive(Clone, Copy, PartialEq)]
pub enum Sort {
    Proved,
    Plain,
    Unchecked,
    Cubic,
}

/// Who is measured, with what the report calls it.
pub const PLANNERS: [(Sort, &str, Planner); 9] = [
    (Sort::Proved, "proved", ffi::plan),
    (Sort::Plain, "plain, paper's order", plain::plan::<Columns<Checked>>),
    (Sort::Plain, "plain, along rows", plain::plan::<Rows<Checked>>),
    (Sort::Plain, "plain, rows by slices", plain::plan::<Slices>),
    (Sort::Plain, "plain, two stops at a time", plain::plan::<Pairs<Checked>>),
    (Sort::Unchecked, "unchecked, paper's order", plain::plan::<Columns<Unchecked>>),
    (Sort::Unchecked, "unchecked, along rows", plain::plan::<Rows<Unchecked>>),
    (Sort::Unchecked, "unchecked, two stops at a time", plain::plan::<Pairs<Unchecked>>),
    (Sort::Cubic, "cubic method", cubic),
];

/// The cubic method, which takes its own work space and knows no rule for equal totals.
fn cubic(k: u16, table: &[u32], order: &mut [u16], _: &mut [u64], _: &mut [u16]) -> Result<u64, u16> {
    let (found, total) = cubic::plan(k.into(), table);
    order.copy_from_slice(&found);
    Ok(total)
}

/// The times of one k in microseconds, as `PLANNERS` has them; the cubic method's may be missing.
pub struct Measured {
    pub k: u16,
    pub rounds: usize,
    pub times: Vec<f64>,
}

impl Measured {
    /// The time of the quickest planner of a sort.
    pub fn best(&self, sort: Sort) -> Option<f64> {
        let times = self.times.iter().zip(PLANNERS).filter(|(_, planner)| planner.0 == sort);
        times.map(|(&time, _)| time).min_by(f64::total_cmp)
    }

    pub fn proved(&self) -> f64 {
        self.times[0]
    }
}

/// One table. The planners have the same buffers, and must give the same total.
fn measure_one(k: u16, table: &[u32]) -> Measured {
    let n = 1usize << k;
    let (mut order, mut totals, mut pivots) = (vec![0; n], vec![0; 2 * n], vec![0; 2 * n]);
    let due = ffi::plan(k, table, &mut order, &mut totals, &mut pivots);
    let contenders = PLANNERS.iter().filter(|planner| planner.0 != Sort::Cubic || k <= CUBIC_UP_TO).count();
    let (times, rounds) = race(contenders, |i| {
        let plan = black_box(PLANNERS[i].2);
        assert_eq!(plan(k, black_box(table), &mut order, &mut totals, &mut pivots), due);
    });
    Measured { k, rounds, times }
}

/// A table of entries below `range` for each k.
pub fn measure(random: &mut Random, range: u64) -> Vec<Measured> {
    KS.map(|k| {
        let table: Vec<u32> = (0..1usize << (2 * k)).map(|_| random.below(range) as u32).collect();
        measure_one(k, &table)
    })
    .collect()
}
