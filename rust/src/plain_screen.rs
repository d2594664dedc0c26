//! Plain Rust of the method of `screen`, for the benchmark, by indices: the sums of an order by those of each fork's sides, times straight from the
//! judged path's bytes, no work space. `W` is the way to go through the path.

use crate::{
    plain_path::{judge_path, stop_at, Way},
    plain_times::move_time,
};

/// A judged path.
struct Stops<'a> {
    bytes: &'a [u8],
    version: u16,
    n: usize,
}

impl Stops<'_> {
    /// The move into place p.
    #[inline(always)]
    fn move_into(&self, order: &[u16], p: usize) -> u64 {
        let stop = |place: usize| stop_at(self.bytes, self.version, order[place].into());
        move_time(&stop(p - 1), &stop(p)).into()
    }

    /// The fork between whose sides place p is.
    #[inline(always)]
    fn fork_between(&self, order: &[u16], p: usize) -> usize {
        (self.n + usize::from(order[p])) >> (p.trailing_zeros() + 1)
    }

    /// The sum of a side: a stop has none.
    #[inline(always)]
    fn side(&self, sums: &[u64], w: usize) -> u64 {
        if w < self.n {
            sums[w]
        } else {
            0
        }
    }

    /// The sum of fork v by its sides and the move between them, which leads into place p.
    #[inline(always)]
    fn sum(&self, order: &[u16], sums: &[u64], v: usize, p: usize) -> u64 {
        self.side(sums, 2 * v).wrapping_add(self.side(sums, 2 * v + 1)).wrapping_add(self.move_into(order, p))
    }

    /// Whether the first n sums are the order's. A sum of 42 bits or more is no order's, and those of fewer do not wrap.
    #[inline(always)]
    fn agree(&self, order: &[u16], sums: &[u64]) -> bool {
        if sums[0] != 0 {
            return false;
        }
        for p in 1..self.n {
            let v = self.fork_between(order, p);
            if sums[v] >= 1 << 42 || sums[v] != self.sum(order, sums, v, p) {
                return false;
            }
        }
        true
    }
}

/// The path with the lent lengths in its head.
#[inline(always)]
fn path<W: Way>(bytes: &[u8], highest: u16, order: usize, sums: usize) -> Result<Stops<'_>, u16> {
    let fit = |k: u16| if order < 1 << k || sums < 1 << k { Err(8) } else { Ok(()) };
    let (version, k) = judge_path::<W>(bytes, highest, fit)?;
    Ok(Stops { bytes, version, n: 1 << k })
}

/// 9 and 10 of the first n numbers.
#[inline(always)]
fn judge_order(n: usize, order: &[u16]) -> Result<(), u16> {
    for p in 0..n {
        if usize::from(order[p]) >= n {
            return Err(9);
        }
    }
    for p in 1..n {
        let r = 1 << p.trailing_zeros();
        if !(r..2 * r).contains(&(order[p - 1] ^ order[p])) {
            return Err(10);
        }
    }
    Ok(())
}

/// Makes the sums of an order: first each fork's place gets the place between its sides, then, from the last fork up, its sum.
pub fn group_sums<W: Way>(bytes: &[u8], highest: u16, order: &[u16], sums: &mut [u64]) -> Result<(), u16> {
    let stops = path::<W>(bytes, highest, order.len(), sums.len())?;
    judge_order(stops.n, order)?;
    sums[0] = 0;
    for p in 1..stops.n {
        sums[stops.fork_between(order, p)] = p as u64;
    }
    for v in (1..stops.n).rev() {
        sums[v] = stops.sum(order, sums, v, sums[v] as usize);
    }
    Ok(())
}

/// Exchanges one fork of an order and updates its sums.
pub fn exchange_fork<W: Way>(bytes: &[u8], highest: u16, fork: u16, order: &mut [u16], sums: &mut [u64]) -> Result<(), u16> {
    let stops = path::<W>(bytes, highest, order.len(), sums.len())?;
    let n = stops.n;
    judge_order(n, order)?;
    if !stops.agree(order, sums) {
        return Err(11);
    }
    let fork = usize::from(fork);
    if fork == 0 || n <= fork {
        return Err(14);
    }
    let mut p = 1;
    while stops.fork_between(order, p) != fork {
        p += 1;
    }
    let half = 1 << p.trailing_zeros();
    for x in 0..half {
        order.swap(p - half + x, p + x);
    }
    let (mut v, mut r) = (fork, half);
    while v > 0 {
        sums[v] = stops.sum(order, sums, v, p);
        p = p / (4 * r) * (4 * r) + 2 * r;
        (v, r) = (v / 2, 2 * r);
    }
    Ok(())
}
