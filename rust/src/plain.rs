//! Plain Rust planners of the same method (Algorithm 2 of document 000 as document 01 corrects it), for the benchmark: two rows of totals and
//! of pivots, and the places halved by recursion.
//!
//! There are two loop orders, and each is written once: `Columns` is the paper's (for each stop its candidates), `Rows` goes along the
//! table's rows (for each candidate the stops that it may come before). `Checked` and `Unchecked` reach the numbers with and without the
//! bounds checks. `Slices` goes along the rows too, in the way that spares most checks: by slices and iterators. `Pairs` is the paper's
//! order with two neighbouring stops at a time. Where places cost extra (M-107), each adds a stop's entry once its way is found. A round trip
//! (M-104) takes one pass for each last stop, in which the first stop costs the move from it, and one halving.

use std::ops::Range;

/// How a number of a slice is reached.
pub trait Access {
    fn get<T: Copy>(numbers: &[T], at: usize) -> T;
    fn put<T: Copy>(numbers: &mut [T], at: usize, number: T);
}

/// With the bounds checks.
pub struct Checked;

impl Access for Checked {
    #[inline(always)]
    fn get<T: Copy>(numbers: &[T], at: usize) -> T {
        numbers[at]
    }
    #[inline(always)]
    fn put<T: Copy>(numbers: &mut [T], at: usize, number: T) {
        numbers[at] = number;
    }
}

/// Without them: only for lengths that `plan` has tested.
pub struct Unchecked;

impl Access for Unchecked {
    #[inline(always)]
    fn get<T: Copy>(numbers: &[T], at: usize) -> T {
        unsafe { *numbers.get_unchecked(at) }
    }
    #[inline(always)]
    fn put<T: Copy>(numbers: &mut [T], at: usize, number: T) {
        unsafe { *numbers.get_unchecked_mut(at) = number }
    }
}

/// One row: for each stop the best total of a beginning that ends there, and the stop in its middle place.
pub struct Row<'a> {
    pub totals: &'a mut [u64],
    pub pivots: &'a mut [u16],
}

/// What a stop costs in a place, beside the moves.
pub trait Extra: Copy {
    fn of<A: Access>(self, n: usize, stop: usize, place: usize) -> u64;
    /// The same in the first place of a pass.
    #[inline(always)]
    fn first(self, n: usize, stop: usize, place: usize) -> u64 {
        self.of::<Checked>(n, stop, place)
    }
    /// Adds it to the totals of a block.
    fn add(self, n: usize, totals: &mut [u64], place: usize, block: Range<usize>);
}

/// Nothing: the plain total.
#[derive(Clone, Copy)]
pub struct Nothing;

impl Extra for Nothing {
    #[inline(always)]
    fn of<A: Access>(self, _: usize, _: usize, _: usize) -> u64 {
        0
    }
    #[inline(always)]
    fn add(self, _: usize, _: &mut [u64], _: usize, _: Range<usize>) {}
}

/// The entry of a table of n rows, row stop and column place.
#[derive(Clone, Copy)]
pub struct Places<'a>(&'a [u32]);

impl Extra for Places<'_> {
    #[inline(always)]
    fn of<A: Access>(self, n: usize, stop: usize, place: usize) -> u64 {
        A::get(self.0, stop * n + place).into()
    }
    #[inline(always)]
    fn add(self, n: usize, totals: &mut [u64], place: usize, block: Range<usize>) {
        let rows = self.0.chunks_exact(n).skip(block.start);
        for (total, row) in totals[block].iter_mut().zip(rows) {
            *total += u64::from(row[place]);
        }
    }
}

/// In place 0 the move from a tour's last stop, by the table of moves, and nothing elsewhere.
#[derive(Clone, Copy)]
pub struct Home<'a>(&'a [u32], usize);

impl Extra for Home<'_> {
    #[inline(always)]
    fn of<A: Access>(self, _: usize, _: usize, _: usize) -> u64 {
        0
    }
    #[inline(always)]
    fn first(self, n: usize, stop: usize, place: usize) -> u64 {
        if place == 0 { self.0[self.1 * n + stop].into() } else { 0 }
    }
    #[inline(always)]
    fn add(self, _: usize, _: &mut [u64], _: usize, _: Range<usize>) {}
}

/// The costs of n stops: a table of moves, and what places cost.
#[derive(Clone, Copy)]
pub struct Costs<'a, E: Extra> {
    n: usize,
    table: &'a [u32],
    extra: E,
}

/// What makes the row of place p from the row of the place before it, for the stops of a block. The candidates of a stop are the aligned
/// block of 2^t stops beside its own, where t is the number of trailing zero bits of p. Up to the middle place (`early`) a stop is its own pivot.
pub trait Step {
    fn step<E: Extra>(costs: Costs<E>, old: &Row, new: &mut Row, p: usize, early: bool, block: Range<usize>);
}

/// For each stop its candidates.
pub struct Columns<A: Access>(A);

impl<A: Access> Step for Columns<A> {
    #[inline(always)]
    fn step<E: Extra>(costs: Costs<E>, old: &Row, new: &mut Row, p: usize, early: bool, block: Range<usize>) {
        let (Costs { n, table, extra }, t) = (costs, p.trailing_zeros());
        for to in block {
            let first = ((to >> t) ^ 1) << t;
            let mut least = u64::MAX;
            let mut held = 0;
            for from in first..first + (1 << t) {
                let total = A::get(old.totals, from) + u64::from(A::get(table, from * n + to));
                if total < least {
                    least = total;
                    held = from;
                }
            }
            A::put(new.totals, to, least + extra.of::<A>(n, to, p));
            A::put(new.pivots, to, if early { to as u16 } else { A::get(old.pivots, held) });
        }
    }
}

/// For each candidate the stops that it may come before.
pub struct Rows<A: Access>(A);

impl<A: Access> Step for Rows<A> {
    #[inline(always)]
    fn step<E: Extra>(costs: Costs<E>, old: &Row, new: &mut Row, p: usize, early: bool, block: Range<usize>) {
        let (Costs { n, table, extra }, t) = (costs, p.trailing_zeros());
        for to in block.clone() {
            A::put(new.totals, to, u64::MAX);
        }
        for from in block.clone() {
            let first = ((from >> t) ^ 1) << t;
            let before = A::get(old.totals, from);
            let pivot = A::get(old.pivots, from);
            for to in first..first + (1 << t) {
                let total = before + u64::from(A::get(table, from * n + to));
                if total < A::get(new.totals, to) {
                    A::put(new.totals, to, total);
                    A::put(new.pivots, to, if early { to as u16 } else { pivot });
                }
            }
        }
        extra.add(n, new.totals, p, block);
    }
}

/// For each candidate the stops that it may come before, by slices and iterators.
pub struct Slices;

impl Step for Slices {
    #[inline(always)]
    fn step<E: Extra>(costs: Costs<E>, old: &Row, new: &mut Row, p: usize, early: bool, block: Range<usize>) {
        let (Costs { n, table, extra }, t) = (costs, p.trailing_zeros());
        new.totals[block.clone()].fill(u64::MAX);
        if early {
            for to in block.clone() {
                new.pivots[to] = to as u16;
            }
        }
        for from in block.clone() {
            let first = ((from >> t) ^ 1) << t;
            let beside = first..first + (1 << t);
            let before = old.totals[from];
            let pivot = old.pivots[from];
            let times = &table[from * n..][beside.clone()];
            let totals = &mut new.totals[beside.clone()];
            if early {
                for (held, &time) in totals.iter_mut().zip(times) {
                    *held = (*held).min(before + u64::from(time));
                }
            } else {
                let pivots = &mut new.pivots[beside];
                for ((held, &time), mark) in totals.iter_mut().zip(times).zip(pivots) {
                    let total = before + u64::from(time);
                    if total < *held {
                        *held = total;
                        *mark = pivot;
                    }
                }
            }
        }
        extra.add(n, new.totals, p, block);
    }
}

/// The smaller of two totals with its stop; of equals the one that was held.
#[inline(always)]
pub(crate) fn keep(held: (u64, usize), total: u64, stop: usize) -> (u64, usize) {
    if total < held.0 {
        (total, stop)
    } else {
        held
    }
}

/// For two neighbouring stops their candidates, which are the same from t = 1 on.
pub struct Pairs<A: Access>(A);

impl<A: Access> Step for Pairs<A> {
    #[inline(always)]
    fn step<E: Extra>(costs: Costs<E>, old: &Row, new: &mut Row, p: usize, early: bool, block: Range<usize>) {
        let (Costs { n, table, extra }, t) = (costs, p.trailing_zeros());
        if t == 0 {
            return Columns::<A>::step(costs, old, new, p, early, block);
        }
        for to in block.step_by(2) {
            let first = ((to >> t) ^ 1) << t;
            let mut one = (u64::MAX, 0);
            let mut other = one;
            for from in first..first + (1 << t) {
                let before = A::get(old.totals, from);
                one = keep(one, before + u64::from(A::get(table, from * n + to)), from);
                other = keep(other, before + u64::from(A::get(table, from * n + to + 1)), from);
            }
            for (stop, held) in [(to, one), (to + 1, other)] {
                A::put(new.totals, stop, held.0 + extra.of::<A>(n, stop, p));
                A::put(new.pivots, stop, if early { stop as u16 } else { A::get(old.pivots, held.1) });
            }
        }
    }
}

/// The lent work space.
struct Work<'a> {
    totals: &'a mut [u64],
    pivots: &'a mut [u16],
}

/// All rows of 2^m places from `left` on, for the aligned block of stops from `base` on; the last is the odd row.
#[inline(always)]
fn sweep<S: Step, E: Extra>(costs: Costs<E>, order: &[u16], work: &mut Work, left: usize, base: usize, m: u32) {
    let Costs { n, table, extra } = costs;
    let size = 1 << m;
    let middle = left + size / 2 - 1;
    let (even_totals, odd_totals) = work.totals.split_at_mut(n);
    let (even_pivots, odd_pivots) = work.pivots.split_at_mut(n);
    let mut old = Row { totals: even_totals, pivots: even_pivots };
    let mut new = Row { totals: odd_totals, pivots: odd_pivots };
    for stop in base..base + size {
        let time = if left == 0 { 0 } else { u64::from(table[order[left - 1] as usize * n + stop]) };
        old.totals[stop] = time + extra.first(n, stop, left);
        old.pivots[stop] = stop as u16;
    }
    for p in left + 1..left + size {
        S::step(costs, &old, &mut new, p, p <= middle, base..base + size);
        std::mem::swap(&mut old, &mut new);
    }
}

/// Fixes every place of a block of 2^m places, whose last place is fixed.
fn solve<S: Step, E: Extra>(costs: Costs<E>, order: &mut [u16], work: &mut Work, left: usize, m: u32) {
    if m == 0 {
        return;
    }
    if m == 1 {
        order[left] = order[left + 1] ^ 1;
        return;
    }
    let size = 1 << m;
    let last = order[left + size - 1] as usize;
    sweep::<S, E>(costs, order, work, left, last / size * size, m);
    order[left + size / 2 - 1] = work.pivots[costs.n + last];
    solve::<S, E>(costs, order, work, left, m - 1);
    solve::<S, E>(costs, order, work, left + size / 2, m - 1);
}

/// The wanted order of 2^k stops, and its total. The work space is 0 afterwards.
#[inline(always)]
fn planned<S: Step, E: Extra>(k: u32, costs: Costs<E>, order: &mut [u16], mut work: Work) -> u64 {
    let n = costs.n;
    let total;
    if k == 0 {
        order[0] = 0;
        total = costs.extra.of::<Checked>(n, 0, 0);
    } else {
        order.fill(0);
        sweep::<S, E>(costs, order, &mut work, 0, 0, k);
        let mut last = 0;
        for stop in 1..n {
            if work.totals[n + stop] < work.totals[n + last] {
                last = stop;
            }
        }
        total = work.totals[n + last];
        order[n - 1] = last as u16;
        order[n / 2 - 1] = work.pivots[n + last];
        solve::<S, E>(costs, order, &mut work, 0, k - 1);
        solve::<S, E>(costs, order, &mut work, n / 2, k - 1);
    }
    work.totals.fill(0);
    work.pivots.fill(0);
    total
}

/// The wanted order of 2^k stops in the first places of `order`, and its total, or the refusal's number. The work space is 0 afterwards.
pub fn plan<S: Step>(k: u16, table: &[u32], order: &mut [u16], totals: &mut [u64], pivots: &mut [u16]) -> Result<u64, u16> {
    if let Some(number) = crate::reading::refusal(k, table.len(), order.len(), totals.len(), pivots.len()) {
        return Err(number);
    }
    let n = 1usize << k;
    let work = Work { totals: &mut totals[..2 * n], pivots: &mut pivots[..2 * n] };
    Ok(planned::<S, _>(k.into(), Costs { n, table, extra: Nothing }, &mut order[..n], work))
}

/// The same where places cost extra.
#[rustfmt::skip]
pub fn plan_places<S: Step>(
    k: u16, table: &[u32], places: &[u32], order: &mut [u16], totals: &mut [u64], pivots: &mut [u16],
) -> Result<u64, u16> {
    if let Some(number) = crate::reading::refusal(k, table.len(), order.len(), totals.len(), pivots.len()) {
        return Err(number);
    }
    let n = 1usize << k;
    if places.len() != n * n {
        return Err(8);
    }
    let work = Work { totals: &mut totals[..2 * n], pivots: &mut pivots[..2 * n] };
    Ok(planned::<S, _>(k.into(), Costs { n, table, extra: Places(places) }, &mut order[..n], work))
}

/// The wanted tour of 2^k stops, two or more, and its closed total: of equals the smallest last stop.
#[inline(always)]
fn best_tour<S: Step>(k: u32, n: usize, table: &[u32], order: &mut [u16], work: &mut Work) -> u64 {
    let closing = |last| Costs { n, table, extra: Home(table, last) };
    let mut held = (u64::MAX, 0);
    order.fill(0);
    for last in 0..n {
        sweep::<S, _>(closing(last), order, work, 0, 0, k);
        if work.totals[n + last] < held.0 {
            held = (work.totals[n + last], last);
        }
    }
    order[n - 1] = held.1 as u16;
    solve::<S, _>(closing(held.1), order, work, 0, k);
    held.0
}

/// The wanted tour of 2^k stops in the first places of `order`, and its closed total, or the refusal's number. The work space is 0 afterwards.
pub fn tour<S: Step>(k: u16, table: &[u32], order: &mut [u16], totals: &mut [u64], pivots: &mut [u16]) -> Result<u64, u16> {
    if k > 7 {
        return Err(5);
    }
    if let Some(number) = crate::reading::refusal(k, table.len(), order.len(), totals.len(), pivots.len()) {
        return Err(number);
    }
    let n = 1usize << k;
    let mut work = Work { totals: &mut totals[..2 * n], pivots: &mut pivots[..2 * n] };
    let mut total = 0;
    if k == 0 {
        order[0] = 0;
    } else {
        total = best_tour::<S>(k.into(), n, table, &mut order[..n], &mut work);
    }
    work.totals.fill(0);
    work.pivots.fill(0);
    Ok(total)
}
