//! The calls that are measured beside plain Rust. A further call is one more entry of `CASES`.

use crate::clock::race;
use evidence::{
    calls::{Call, Heap, Lent},
    ffi,
    plain::{self, Checked, Columns, Pairs, Slices, Step},
    plain_filled::{self, Fill, One, Two},
    plain_fork::{self, Reach},
    plain_jobs,
    plain_path::{self, Chunks, Indices, Way},
    plain_screen,
    plain_times,
    random::Random,
    world::World,
};
use std::hint::black_box;

/// One run of a call for a path of 2^k stops: a value, or the refusal's number.
type Run = fn(u16, &mut Lent<Heap>) -> Result<u64, u16>;

/// A call that is measured.
struct Case {
    /// What the report calls it.
    name: &'static str,
    /// The call for 2^k stops as `World` knows it, which lends what it takes.
    call: fn(u16) -> Call,
    /// The k and version of each path.
    paths: &'static [(u16, u16)],
    /// The proved function.
    proved: Run,
    /// Plain Rust that does the same, in each way that it is written, with what the report calls the way.
    plain: &'static [(&'static str, Run)],
}

const CASES: &[Case] = &[
    Case {
        name: "read_path",
        call: |_| Call::ReadPath { highest: 6 },
        paths: &[(6, 4), (6, 5), (6, 6), (10, 4), (10, 5), (10, 6)],
        proved: |_, l| ffi::read_path(&l.bytes, 6, &mut l.coords, &mut l.speeds, &mut l.blends, &mut l.dwells).map(|(_, k)| k.into()),
        plain: &[("indices", plain_read::<Indices>), ("chunks", plain_read::<Chunks>)],
    },
    Case {
        name: "make_table",
        call: |k| Call::MakeTable { k },
        paths: &[(6, 6), (8, 6), (10, 6)],
        proved: |k, l| ffi::make_table(k, &l.coords, &l.speeds, &l.blends, &l.dwells, &mut l.table).map(|()| 0),
        plain: &[
            ("indices", |k, l| plain_times::make_table(k, &l.coords, &l.speeds, &l.blends, &l.dwells, &mut l.table).map(|()| 0)),
            ("slices", |k, l| plain_times::make_table_by_slices(k, &l.coords, &l.speeds, &l.blends, &l.dwells, &mut l.table).map(|()| 0)),
        ],
    },
    Case {
        name: "table_from",
        call: |k| Call::TableFrom { version: 6, k },
        paths: &[(6, 6), (8, 6), (10, 6)],
        proved: |k, l| ffi::table_from(&l.bytes, 6, k, &mut l.table).map(|()| k.into()),
        plain: &[("indices", plain_path_table::<Indices>), ("chunks", plain_path_table::<Chunks>)],
    },
    Case {
        name: "plan_path",
        call: |_| Call::PlanPath { highest: 6 },
        paths: &[(6, 6), (8, 6), (10, 6)],
        proved: plan_path,
        plain: &[
            ("paper's order", plain_plan_path::<Columns<Checked>>),
            ("rows by slices", plain_plan_path::<Slices>),
            ("two stops at a time", plain_plan_path::<Pairs<Checked>>),
        ],
    },
    Case {
        name: "plan_places",
        call: |k| Call::PlanPlaces { k },
        paths: &[(6, 6), (8, 6), (10, 6)],
        proved: |k, l| ffi::plan_places(k, &l.table, &l.places, &mut l.order, &mut l.totals, &mut l.pivots),
        plain: &[
            ("paper's order", plain_places::<Columns<Checked>>),
            ("rows by slices", plain_places::<Slices>),
            ("two stops at a time", plain_places::<Pairs<Checked>>),
        ],
    },
    Case {
        name: "tour",
        call: |k| Call::Tour { k },
        paths: &[(5, 6), (7, 6)],
        proved: |k, l| ffi::tour(k, &l.table, &mut l.order, &mut l.totals, &mut l.pivots),
        plain: &[
            ("paper's order", plain_tour::<Columns<Checked>>),
            ("rows by slices", plain_tour::<Slices>),
            ("two stops at a time", plain_tour::<Pairs<Checked>>),
        ],
    },
    Case {
        name: "fork_cost",
        call: |k| Call::ForkCost { highest: 6, fork: last_fork(k), field: 1 },
        paths: &[(6, 6), (8, 6), (10, 6)],
        proved: |k, l| ffi::fork_cost(&l.bytes, 6, last_fork(k), &mut l.totals, &mut l.pivots, &mut l.orders, 1),
        plain: &[("indices", plain_fork_last::<Indices>), ("chunks", plain_fork_last::<Chunks>)],
    },
    Case {
        name: "plan_filled, all filled",
        call: |k| Call::PlanFilled { k },
        paths: &[(6, 5)],
        proved: |k, l| all_filled(l, |l| ffi::plan_filled(k, &l.table, &l.empties, &mut l.list, &mut l.bits, &mut l.work)),
        plain: &[("one stop at a time", plain_filled_all::<One>), ("two stops at a time", plain_filled_all::<Two>)],
    },
    Case {
        name: "plan_filled, 28 filled",
        call: |k| Call::PlanFilled { k },
        paths: &[(6, 5)],
        proved: |k, l| some_filled(l, |l| ffi::plan_filled(k, &l.table, &l.empties, &mut l.list, &mut l.bits, &mut l.work)),
        plain: &[("one stop at a time", plain_filled_some::<One>), ("two stops at a time", plain_filled_some::<Two>)],
    },
    Case {
        name: "group_sums",
        call: |_| Call::GroupSums { highest: 6 },
        paths: &[(6, 6), (10, 6)],
        proved: |_, l| ffi::group_sums(&l.bytes, 6, &l.order, &mut l.sums).map(|()| l.sums[1]),
        plain: &[("indices", plain_sums::<Indices>), ("chunks", plain_sums::<Chunks>)],
    },
    Case {
        name: "exchange_fork, the root",
        call: |_| Call::ExchangeFork { highest: 6, fork: 1 },
        paths: &[(6, 6), (10, 6)],
        proved: |_, l| ffi::exchange_fork(&l.bytes, 6, 1, &mut l.order, &mut l.sums).map(|()| 0),
        plain: &[
            ("indices", |_, l| plain_screen::exchange_fork::<Indices>(&l.bytes, 6, 1, &mut l.order, &mut l.sums).map(|()| 0)),
            ("chunks", |_, l| plain_screen::exchange_fork::<Chunks>(&l.bytes, 6, 1, &mut l.order, &mut l.sums).map(|()| 0)),
        ],
    },
    Case {
        name: "exchange_fork, the last",
        call: |k| Call::ExchangeFork { highest: 6, fork: last_fork(k) },
        paths: &[(6, 6), (10, 6)],
        proved: |k, l| ffi::exchange_fork(&l.bytes, 6, last_fork(k), &mut l.order, &mut l.sums).map(|()| 0),
        plain: &[("indices", plain_exchange_last::<Indices>), ("chunks", plain_exchange_last::<Chunks>)],
    },
    Case {
        name: "cell_plan",
        call: |_| Call::CellPlan { highest: 6 },
        paths: &[(6, 6)],
        proved: |_, l| value(ffi::cell_plan(&l.bytes, 6, &mut l.out)),
        plain: &[
            ("paper's order", plain_cell_plan::<Columns<Checked>>),
            ("rows by slices", plain_cell_plan::<Slices>),
            ("two stops at a time", plain_cell_plan::<Pairs<Checked>>),
        ],
    },
    Case {
        name: "cell_check",
        call: |_| Call::CellCheck { highest: 6 },
        paths: &[(6, 6)],
        proved: |_, l| value(ffi::cell_check(&l.bytes, 6, &l.file)),
        plain: &[
            ("indices", |_, l| value(plain_jobs::cell_check::<Indices>(&l.bytes, 6, &l.file))),
            ("chunks", |_, l| value(plain_jobs::cell_check::<Chunks>(&l.bytes, 6, &l.file))),
        ],
    },
    Case {
        name: "cell_rewrite",
        call: |_| Call::CellRewrite { highest: 6, version: 6 },
        paths: &[(6, 6)],
        proved: |_, l| value(ffi::cell_rewrite(&l.bytes, 6, 6, &mut l.out)),
        plain: &[
            ("indices", |_, l| value(plain_jobs::cell_rewrite::<Indices>(&l.bytes, 6, 6, &mut l.out))),
            ("chunks", |_, l| value(plain_jobs::cell_rewrite::<Chunks>(&l.bytes, 6, 6, &mut l.out))),
        ],
    },
];

/// Another proved call for the same path, whose time is noted beside a case: the case, what the report calls the other, and its run.
const BESIDE: &[(&str, &str, Run)] = &[("fork_cost", "proved `plan_path`", plan_path)];

/// The result of a controller's call.
fn value(result: i64) -> Result<u64, u16> {
    u64::try_from(result).map_err(|_| (-result) as u16)
}

fn plain_read<W: Way>(_: u16, l: &mut Lent<Heap>) -> Result<u64, u16> {
    plain_path::read::<W>(&l.bytes, 6, &mut l.coords, &mut l.speeds, &mut l.blends, &mut l.dwells).map(|(_, k)| k.into())
}

fn plain_path_table<W: Way>(_: u16, l: &mut Lent<Heap>) -> Result<u64, u16> {
    plain_jobs::path_table::<W>(&l.bytes, 6, &mut l.table).map(u64::from)
}

#[rustfmt::skip]
fn plan_path(_: u16, l: &mut Lent<Heap>) -> Result<u64, u16> {
    ffi::plan_path(
        &l.bytes, 6, &mut l.table, &mut l.order, &mut l.totals, &mut l.pivots,
    )
    .map(|(_, _, total)| total)
}

fn plain_plan_path<S: Step>(_: u16, l: &mut Lent<Heap>) -> Result<u64, u16> {
    plain_jobs::plan_path::<S>(&l.bytes, 6, &mut l.table, &mut l.order, &mut l.totals, &mut l.pivots).map(|(_, _, total)| total)
}

fn plain_places<S: Step>(k: u16, l: &mut Lent<Heap>) -> Result<u64, u16> {
    plain::plan_places::<S>(k, &l.table, &l.places, &mut l.order, &mut l.totals, &mut l.pivots)
}

fn plain_tour<S: Step>(k: u16, l: &mut Lent<Heap>) -> Result<u64, u16> {
    plain::tour::<S>(k, &l.table, &mut l.order, &mut l.totals, &mut l.pivots)
}

/// A list's total, with every stop filled.
fn all_filled(l: &mut Lent<Heap>, run: impl Fn(&mut Lent<Heap>) -> Result<(u64, usize), u16>) -> Result<u64, u16> {
    l.empties.fill(0);
    run(l).map(|(total, _)| total)
}

/// And with 28 of 64 filled.
fn some_filled(l: &mut Lent<Heap>, run: impl Fn(&mut Lent<Heap>) -> Result<(u64, usize), u16>) -> Result<u64, u16> {
    for (i, byte) in l.empties.iter_mut().enumerate() {
        *byte = u8::from(i * i % 7 > 1);
    }
    run(l).map(|(total, _)| total)
}

fn plain_filled_all<F: Fill>(k: u16, l: &mut Lent<Heap>) -> Result<u64, u16> {
    all_filled(l, |l| plain_filled::plan_filled::<F>(k, &l.table, &l.empties, &mut l.list, &mut l.bits, &mut l.work))
}

fn plain_filled_some<F: Fill>(k: u16, l: &mut Lent<Heap>) -> Result<u64, u16> {
    some_filled(l, |l| plain_filled::plan_filled::<F>(k, &l.table, &l.empties, &mut l.list, &mut l.bits, &mut l.work))
}

/// The order's total: the sum of the root.
fn plain_sums<W: Way>(_: u16, l: &mut Lent<Heap>) -> Result<u64, u16> {
    plain_screen::group_sums::<W>(&l.bytes, 6, &l.order, &mut l.sums).map(|()| l.sums[1])
}

fn last_fork(k: u16) -> u16 {
    (1 << k) - 1
}

fn plain_exchange_last<W: Way>(k: u16, l: &mut Lent<Heap>) -> Result<u64, u16> {
    plain_screen::exchange_fork::<W>(&l.bytes, 6, last_fork(k), &mut l.order, &mut l.sums).map(|()| 0)
}

fn plain_fork_last<R: Reach>(k: u16, l: &mut Lent<Heap>) -> Result<u64, u16> {
    plain_fork::fork_cost::<R>(&l.bytes, 6, last_fork(k), &mut l.totals, &mut l.pivots, &mut l.orders, 1)
}

fn plain_cell_plan<S: Step>(_: u16, l: &mut Lent<Heap>) -> Result<u64, u16> {
    value(plain_jobs::cell_plan::<S>(&l.bytes, 6, &mut l.out))
}

/// What a call took for one path, in microseconds.
pub struct Measured {
    pub name: &'static str,
    pub k: u16,
    pub version: u16,
    /// The path's length.
    pub bytes: usize,
    pub rounds: usize,
    pub proved: f64,
    pub plain: Vec<(&'static str, f64)>,
    /// What is noted beside it.
    pub beside: Option<(&'static str, f64)>,
}

impl Measured {
    /// The quickest plain Rust.
    pub fn best(&self) -> f64 {
        self.plain.iter().map(|plain| plain.1).fold(f64::INFINITY, f64::min)
    }
}

impl Case {
    /// The case for one path. Every contender has the same buffers, and must give the same value.
    fn measure(&self, random: &mut Random, k: u16, version: u16) -> Measured {
        let mut lent = World::wide(random, k, version).lent(random, (self.call)(k));
        let beside = BESIDE.iter().find(|beside| beside.0 == self.name);
        let same = [self.proved].into_iter().chain(self.plain.iter().map(|plain| plain.1));
        let contenders: Vec<Run> = same.chain(beside.map(|beside| beside.2)).collect();
        let due: Vec<u64> = contenders.iter().map(|run| run(k, &mut lent).expect("a good path")).collect();
        assert!(due[..=self.plain.len()].iter().all(|&value| value == due[0]));
        let (times, rounds) = race(contenders.len(), |i| assert_eq!(black_box(contenders[i])(k, black_box(&mut lent)), Ok(due[i])));
        let plain = self.plain.iter().map(|plain| plain.0).zip(times[1..].iter().copied()).collect();
        let beside = beside.map(|beside| (beside.1, times[contenders.len() - 1]));
        Measured { name: self.name, k, version, bytes: lent.bytes.len(), rounds, proved: times[0], plain, beside }
    }
}

/// Every case whose name begins so, for each of its paths.
pub fn measure(random: &mut Random, name: &str) -> Vec<Measured> {
    let each = |case: &Case| -> Vec<Measured> { case.paths.iter().map(|&(k, version)| case.measure(random, k, version)).collect() };
    CASES.iter().filter(|case| case.name.starts_with(name)).flat_map(each).collect()
}
