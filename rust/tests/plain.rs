//! The benchmark's plain Rust does the same work as the calls that stand beside it: every answer and every lent number against the
//! independent reading, with good input, one fault and two.

use evidence::{
    calls::{by_reading, Answer, Call, Heap, Lent},
    cases::{rounds, seeded},
    plain::{self, Checked, Columns, Pairs, Rows, Slices},
    plain_filled::{self, One, Two},
    plain_fork,
    plain_jobs,
    plain_path::{self, Chunks, Indices},
    plain_screen,
    plain_times,
    world::each_case,
};

/// A result of the controller's calls.
fn signed(result: i64) -> Answer {
    if result < 0 {
        Err(u16::try_from(-result).expect("a refusal has 16 bits"))
    } else {
        Ok(vec![result])
    }
}

/// A version and k.
fn head((version, k): (u16, u16)) -> Vec<i64> {
    vec![version.into(), k.into()]
}

/// A total.
fn one(total: u64) -> Vec<i64> {
    vec![total as i64]
}

/// A version, k and a total.
fn planned((version, k, total): (u16, u16, u64)) -> Vec<i64> {
    vec![version.into(), k.into(), total as i64]
}

/// A list's total and its length.
fn listed((total, length): (u64, usize)) -> Vec<i64> {
    vec![total as i64, length as i64]
}

/// A call made to plain Rust.
type Plain = Box<dyn Fn(&mut Lent<Heap>) -> Answer>;

/// A call in every way in which there is plain Rust for it. The planner's own ways are compared in tests/planner.rs.
#[rustfmt::skip]
fn by_plain(call: Call) -> Vec<Plain> {
    match call {
        Call::ReadPath { highest } => vec![
            Box::new(move |l| plain_path::read::<Indices>(&l.bytes, highest, &mut l.coords, &mut l.speeds, &mut l.blends, &mut l.dwells).map(head)),
            Box::new(move |l| plain_path::read::<Chunks>(&l.bytes, highest, &mut l.coords, &mut l.speeds, &mut l.blends, &mut l.dwells).map(head)),
        ],
        Call::MakeTable { k } => vec![
            Box::new(move |l| plain_times::make_table(k, &l.coords, &l.speeds, &l.blends, &l.dwells, &mut l.table).map(|()| vec![])),
            Box::new(move |l| plain_times::make_table_by_slices(k, &l.coords, &l.speeds, &l.blends, &l.dwells, &mut l.table).map(|()| vec![])),
        ],
        Call::PlanPath { highest } => vec![
            Box::new(move |l| plain_jobs::plan_path::<Slices>(&l.bytes, highest, &mut l.table, &mut l.order, &mut l.totals, &mut l.pivots).map(planned)),
        ],
        Call::PlanPlaces { k } => vec![
            Box::new(move |l| plain::plan_places::<Columns<Checked>>(k, &l.table, &l.places, &mut l.order, &mut l.totals, &mut l.pivots).map(one)),
            Box::new(move |l| plain::plan_places::<Rows<Checked>>(k, &l.table, &l.places, &mut l.order, &mut l.totals, &mut l.pivots).map(one)),
            Box::new(move |l| plain::plan_places::<Slices>(k, &l.table, &l.places, &mut l.order, &mut l.totals, &mut l.pivots).map(one)),
            Box::new(move |l| plain::plan_places::<Pairs<Checked>>(k, &l.table, &l.places, &mut l.order, &mut l.totals, &mut l.pivots).map(one)),
        ],
        Call::Tour { k } => vec![
            Box::new(move |l| plain::tour::<Columns<Checked>>(k, &l.table, &mut l.order, &mut l.totals, &mut l.pivots).map(one)),
            Box::new(move |l| plain::tour::<Rows<Checked>>(k, &l.table, &mut l.order, &mut l.totals, &mut l.pivots).map(one)),
            Box::new(move |l| plain::tour::<Slices>(k, &l.table, &mut l.order, &mut l.totals, &mut l.pivots).map(one)),
            Box::new(move |l| plain::tour::<Pairs<Checked>>(k, &l.table, &mut l.order, &mut l.totals, &mut l.pivots).map(one)),
        ],
        Call::ForkCost { highest, fork, field } => vec![
            Box::new(move |l| plain_fork::fork_cost::<Indices>(&l.bytes, highest, fork, &mut l.totals, &mut l.pivots, &mut l.orders, field).map(one)),
            Box::new(move |l| plain_fork::fork_cost::<Chunks>(&l.bytes, highest, fork, &mut l.totals, &mut l.pivots, &mut l.orders, field).map(one)),
        ],
        Call::PlanFilled { k } => vec![
            Box::new(move |l| plain_filled::plan_filled::<One>(k, &l.table, &l.empties, &mut l.list, &mut l.bits, &mut l.work).map(listed)),
            Box::new(move |l| plain_filled::plan_filled::<Two>(k, &l.table, &l.empties, &mut l.list, &mut l.bits, &mut l.work).map(listed)),
        ],
        Call::GroupSums { highest } => vec![
            Box::new(move |l| plain_screen::group_sums::<Indices>(&l.bytes, highest, &l.order, &mut l.sums).map(|()| vec![])),
            Box::new(move |l| plain_screen::group_sums::<Chunks>(&l.bytes, highest, &l.order, &mut l.sums).map(|()| vec![])),
        ],
        Call::ExchangeFork { highest, fork } => vec![
            Box::new(move |l| plain_screen::exchange_fork::<Indices>(&l.bytes, highest, fork, &mut l.order, &mut l.sums).map(|()| vec![])),
            Box::new(move |l| plain_screen::exchange_fork::<Chunks>(&l.bytes, highest, fork, &mut l.order, &mut l.sums).map(|()| vec![])),
        ],
        Call::CellPlan { highest } => vec![
            Box::new(move |l| signed(plain_jobs::cell_plan::<Slices>(&l.bytes, highest, &mut l.out))),
        ],
        Call::CellCheck { highest } => vec![
            Box::new(move |l| signed(plain_jobs::cell_check::<Indices>(&l.bytes, highest, &l.file))),
            Box::new(move |l| signed(plain_jobs::cell_check::<Chunks>(&l.bytes, highest, &l.file))),
        ],
        Call::CellRewrite { highest, version } => vec![
            Box::new(move |l| signed(plain_jobs::cell_rewrite::<Indices>(&l.bytes, highest, version, &mut l.out))),
            Box::new(move |l| signed(plain_jobs::cell_rewrite::<Chunks>(&l.bytes, highest, version, &mut l.out))),
        ],
        _ => vec![],
    }
}

#[test]
fn same_work() {
    let mut random = seeded("plain Rust of the benchmark");
    let mut compared = 0;
    for (k, worlds) in [(0, 1000), (1, 1000), (2, 1000), (3, 1000), (4, 300), (5, 100), (6, 40), (7, 4)] {
        each_case(&mut random, k, worlds * rounds(), |call, lent| {
            for plain in by_plain(call) {
                let (mut due, mut got) = (lent.held(Heap), lent.held(Heap));
                let (answer, given) = (by_reading(call, &mut due), plain(&mut got));
                assert_eq!(given, answer, "{call:?}");
                assert_eq!(got.difference(&due), None, "{call:?}");
                compared += 1;
            }
        });
    }
    println!("{compared} calls compared");
}
