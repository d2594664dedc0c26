//! Plain Rust of the method of a fork's cost the other way (M-101), for the benchmark: the method of `plain`, two stops at a time, twice from the same
//! judged path bytes, the second time with the fork held in the opposite state. There is no table: the time of each weighing is computed from the bytes
//! of its two stops. `Indices` computes where a stop's record begins, `Chunks` takes the records as arrays of a known size.

use crate::{
    plain::{keep, Row},
    plain_path::{judge_path, stop_at, stop_in, Chunks, Indices, Way},
    plain_times::time,
    reading::Stop,
};
use std::ops::Range;

/// The stops of a judged path.
trait Stops: Copy {
    fn stop(self, i: usize) -> Stop;
    /// Its point alone, which is all that a move from it takes.
    fn point(self, i: usize) -> [i32; 3];
}

/// The point that 12 bytes say.
#[inline(always)]
fn point(bytes: &[u8; 12]) -> [i32; 3] {
    let wide = |at: usize| i32::from_le_bytes([bytes[at], bytes[at + 1], bytes[at + 2], bytes[at + 3]]);
    [wide(0), wide(4), wide(8)]
}

/// By where their records begin.
#[derive(Clone, Copy)]
struct Bytes<'a> {
    bytes: &'a [u8],
    version: u16,
    size: usize,
}

impl Stops for Bytes<'_> {
    #[inline(always)]
    fn stop(self, i: usize) -> Stop {
        stop_at(self.bytes, self.version, i)
    }
    #[inline(always)]
    fn point(self, i: usize) -> [i32; 3] {
        let at = 12 + i * self.size;
        point(self.bytes[at..at + 12].try_into().expect("12 bytes"))
    }
}

/// By their records.
#[derive(Clone, Copy)]
struct Records<'a, const SIZE: usize>(&'a [[u8; SIZE]]);

impl<const SIZE: usize> Stops for Records<'_, SIZE> {
    #[inline(always)]
    fn stop(self, i: usize) -> Stop {
        stop_in(&self.0[i])
    }
    #[inline(always)]
    fn point(self, i: usize) -> [i32; 3] {
        point(self.0[i][4..16].try_into().expect("12 bytes"))
    }
}

/// A fork that is held in a state: the first stop below it, and how many are on each side.
#[derive(Clone, Copy)]
struct Held {
    first: usize,
    side: usize,
    exchanged: bool,
}

/// No fork is held.
const FREE: Held = Held { first: 0, side: 0, exchanged: false };

/// The total of a stop in a place where it may not stand: more than any other, and a time can be added to it.
const NO_WAY: u64 = 1 << 63;

/// What is planned: n stops, with a fork held.
#[derive(Clone, Copy)]
struct Task<S: Stops> {
    n: usize,
    stops: S,
    held: Held,
}

impl<S: Stops> Task<S> {
    /// The time from a stop to another.
    #[inline(always)]
    fn time(self, from: usize, to: &Stop) -> u64 {
        time(self.stops.point(from), to.at, to.speed, to.blend, to.dwell).into()
    }

    /// Whether a stop may stand in a place.
    #[inline(always)]
    fn may_stand(self, stop: usize, place: usize) -> bool {
        let Held { first, side, exchanged } = self.held;
        stop.wrapping_sub(first) >= 2 * side || ((stop ^ place) & side != 0) == exchanged
    }

    /// The best way to a stop in place p, with the stop before it.
    #[inline(always)]
    fn best(self, old: &Row, p: usize, to: usize) -> (u64, usize) {
        let first = (to >> p.trailing_zeros() ^ 1) << p.trailing_zeros();
        let stop = self.stops.stop(to);
        let mut held = (u64::MAX, first);
        for from in first..first + (1 << p.trailing_zeros()) {
            held = keep(held, old.totals[from] + self.time(from, &stop), from);
        }
        held
    }

    /// The same for a stop and the next, which have the same candidates.
    #[inline(always)]
    fn best_two(self, old: &Row, p: usize, to: usize) -> [(u64, usize); 2] {
        let first = (to >> p.trailing_zeros() ^ 1) << p.trailing_zeros();
        let (stop, next) = (self.stops.stop(to), self.stops.stop(to + 1));
        let mut one = (u64::MAX, first);
        let mut other = one;
        for from in first..first + (1 << p.trailing_zeros()) {
            let before = old.totals[from];
            one = keep(one, before + self.time(from, &stop), from);
            other = keep(other, before + self.time(from, &next), from);
        }
        [one, other]
    }

    /// Makes the row of place p from that of the place before it, for the stops of a block of two or more.
    #[inline(always)]
    fn step(self, old: &Row, new: &mut Row, p: usize, early: bool, block: Range<usize>) {
        for to in block.step_by(2) {
            let may = [to, to + 1].map(|stop| self.may_stand(stop, p));
            let ways = if may == [false; 2] {
                [(NO_WAY, to); 2]
            } else if p % 2 == 0 {
                self.best_two(old, p, to)
            } else {
                [self.best(old, p, to), self.best(old, p, to + 1)]
            };
            for side in 0..2 {
                let (stop, (total, from)) = (to + side, ways[side]);
                new.totals[stop] = if may[side] { total } else { NO_WAY };
                new.pivots[stop] = if early { stop as u16 } else { old.pivots[from] };
            }
        }
    }

    /// All rows of 2^m places from `left` on, for the aligned block of stops from `base` on; the last is the odd row.
    #[inline(always)]
    fn sweep(self, order: &[u16], work: &mut Work, left: usize, base: usize, m: u32) {
        let size = 1 << m;
        let middle = left + size / 2 - 1;
        let (even_totals, odd_totals) = work.totals.split_at_mut(self.n);
        let (even_pivots, odd_pivots) = work.pivots.split_at_mut(self.n);
        let mut old = Row { totals: even_totals, pivots: even_pivots };
        let mut new = Row { totals: odd_totals, pivots: odd_pivots };
        for stop in base..base + size {
            let time = if left == 0 { 0 } else { self.time(order[left - 1].into(), &self.stops.stop(stop)) };
            old.totals[stop] = if self.may_stand(stop, left) { time } else { NO_WAY };
            old.pivots[stop] = stop as u16;
        }
        for p in left + 1..left + size {
            self.step(&old, &mut new, p, p <= middle, base..base + size);
            std::mem::swap(&mut old, &mut new);
        }
    }

    /// Fixes every place of a block of 2^m places, whose last place is fixed.
    fn solve(self, order: &mut [u16], work: &mut Work, left: usize, m: u32) {
        if m == 0 {
            return;
        }
        if m == 1 {
            order[left] = order[left + 1] ^ 1;
            return;
        }
        let size = 1 << m;
        let last = usize::from(order[left + size - 1]);
        self.sweep(order, work, left, last / size * size, m);
        order[left + size / 2 - 1] = work.pivots[self.n + last];
        self.solve(order, work, left, m - 1);
        self.solve(order, work, left + size / 2, m - 1);
    }

    /// The wanted order of two stops or more, and its total.
    fn plan(self, order: &mut [u16], work: &mut Work) -> u64 {
        let (n, k) = (self.n, self.n.trailing_zeros());
        self.sweep(order, work, 0, 0, k);
        let mut last = 0;
        for stop in 1..n {
            if work.totals[n + stop] < work.totals[n + last] {
                last = stop;
            }
        }
        let total = work.totals[n + last];
        order[n - 1] = last as u16;
        order[n / 2 - 1] = work.pivots[n + last];
        self.solve(order, work, 0, k - 1);
        self.solve(order, work, n / 2, k - 1);
        total
    }
}

/// The planner's work space.
pub struct Work<'a> {
    totals: &'a mut [u64],
    pivots: &'a mut [u16],
}

/// What a fork costs the other way.
pub struct Cost {
    exchanged: bool,
    total: u64,
    opposite: u64,
    /// The last place at which the two orders part.
    place: usize,
}

/// The cost of a fork of n stops, by two orders that are lent.
#[inline(always)]
fn cost<S: Stops>(stops: S, n: usize, fork: usize, orders: &mut [u16], work: &mut Work) -> Cost {
    let (order, other) = orders.split_at_mut(n);
    let total = Task { n, stops, held: FREE }.plan(order, work);
    let below = n >> fork.ilog2();
    let (first, side) = (fork * below - n, below / 2);
    // the first stop below the fork stands in the second half of their places exactly if it is exchanged
    let mut place = 0;
    while usize::from(order[place]) != first {
        place += 1;
    }
    let exchanged = place & side != 0;
    let opposite = Task { n, stops, held: Held { first, side, exchanged: !exchanged } }.plan(other, work);
    let mut place = n - 1;
    while order[place] == other[place] {
        place -= 1;
    }
    Cost { exchanged, total, opposite, place }
}

/// How a judged path's stops are reached.
pub trait Reach: Way {
    fn cost(bytes: &[u8], version: u16, n: usize, fork: usize, orders: &mut [u16], work: &mut Work) -> Cost;
}

impl Reach for Indices {
    fn cost(bytes: &[u8], version: u16, n: usize, fork: usize, orders: &mut [u16], work: &mut Work) -> Cost {
        cost(Bytes { bytes, version, size: 18 + 2 * usize::from(version - 4) }, n, fork, orders, work)
    }
}

impl Reach for Chunks {
    fn cost(bytes: &[u8], version: u16, n: usize, fork: usize, orders: &mut [u16], work: &mut Work) -> Cost {
        let body = &bytes[8..];
        match version {
            4 => cost(Records(body.as_chunks::<18>().0), n, fork, orders, work),
            5 => cost(Records(body.as_chunks::<20>().0), n, fork, orders, work),
            _ => cost(Records(body.as_chunks::<22>().0), n, fork, orders, work),
        }
    }
}

/// One field of what a fork costs the other way, or the refusal's number. The work space is 0 afterwards.
#[rustfmt::skip]
pub fn fork_cost<R: Reach>(
    bytes: &[u8], highest: u16, fork: u16, totals: &mut [u64], pivots: &mut [u16], orders: &mut [u16], field: u16,
) -> Result<u64, u16> {
    let shortest = totals.len().min(pivots.len()).min(orders.len());
    let (version, k) = judge_path::<R>(bytes, highest, |k| if shortest < 2 << k { Err(8) } else { Ok(()) })?;
    let (n, fork) = (1usize << k, usize::from(fork));
    if fork == 0 || n <= fork {
        return Err(14);
    }
    let orders = &mut orders[..2 * n];
    let mut work = Work { totals: &mut totals[..2 * n], pivots: &mut pivots[..2 * n] };
    let cost = R::cost(bytes, version, n, fork, orders, &mut work);
    work.totals.fill(0);
    work.pivots.fill(0);
    orders.fill(0);
    Ok(match field {
        0 => cost.exchanged.into(),
        1 => cost.opposite,
        2 => cost.opposite - cost.total,
        3 if cost.opposite == cost.total => cost.place as u64 + 1,
        _ => 0,
    })
}
