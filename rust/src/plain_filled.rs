//! Plain Rust of the method of `filled::plan_filled`, for the benchmark: for each place and each filled stop the least total of a list up to it,
//! from the nearest group beside the stop that has a filled one, and the walk back. `One` weighs the candidates of one stop at a time, `Two`
//! those of two neighbouring stops together.

use crate::reading::{OUT_OF_RANGE, WRONG_K, WRONG_SIZE};
use std::ops::Range;

/// A total above that of every list: the stop is empty.
const UNREACHED: u64 = 1 << 63;

/// The tree of n stops, which of them are filled, and the times.
pub struct Tray<'a> {
    n: usize,
    filled: u64,
    table: &'a [u32],
}

impl Tray<'_> {
    /// The stops of the group beside stop i in place p.
    #[inline(always)]
    fn beside(&self, p: usize, i: usize) -> Range<usize> {
        let t = p.trailing_zeros();
        let first = ((i >> t) ^ 1) << t;
        first..first + (1 << t)
    }

    /// Whether one of them is filled.
    #[inline(always)]
    fn some_filled(&self, group: &Range<usize>) -> bool {
        self.filled >> group.start & ((1 << group.len()) - 1) != 0
    }

    #[inline(always)]
    fn is_filled(&self, i: usize) -> bool {
        self.filled >> i & 1 == 1
    }

    /// The least total over a group to stop i, and the smallest stop that it leads from; `row` is that of the place before.
    #[inline(always)]
    fn cheapest(&self, row: &[u64], group: Range<usize>, i: usize) -> (u64, usize) {
        let mut held = (UNREACHED, 0);
        for j in group {
            let total = row[j] + u64::from(self.table[j * self.n + i]);
            if total < held.0 {
                held = (total, j);
            }
        }
        held
    }
}

/// What makes the row of place p, the last n of `rows`, from those before it.
pub trait Fill {
    fn row(tray: &Tray, rows: &mut [u64], p: usize);
}

/// One stop at a time.
pub struct One;

impl Fill for One {
    #[inline(always)]
    fn row(tray: &Tray, rows: &mut [u64], p: usize) {
        let n = tray.n;
        let (made, row) = rows.split_at_mut(p * n);
        let skipped = p & (p - 1);
        for i in 0..n {
            let group = tray.beside(p, i);
            row[i] = if !tray.is_filled(i) {
                UNREACHED
            } else if tray.some_filled(&group) {
                tray.cheapest(&made[(p - 1) * n..], group, i).0
            } else {
                made[skipped * n + i]
            };
        }
    }
}

/// Two neighbouring stops at a time, i even: above the first level both have the same group beside them.
pub struct Two;

impl Fill for Two {
    #[inline(always)]
    fn row(tray: &Tray, rows: &mut [u64], p: usize) {
        let n = tray.n;
        if p % 2 == 1 {
            return One::row(tray, rows, p);
        }
        let (made, row) = rows.split_at_mut(p * n);
        let skipped = p & (p - 1);
        for i in (0..n).step_by(2) {
            let group = tray.beside(p, i);
            let mut pair = [made[skipped * n + i], made[skipped * n + i + 1]];
            if tray.some_filled(&group) {
                pair = [UNREACHED; 2];
                for j in group {
                    let before = made[(p - 1) * n + j];
                    for (held, &time) in pair.iter_mut().zip(&tray.table[j * n + i..j * n + i + 2]) {
                        *held = (*held).min(before + u64::from(time));
                    }
                }
            }
            row[i] = if tray.is_filled(i) { pair[0] } else { UNREACHED };
            row[i + 1] = if tray.is_filled(i + 1) { pair[1] } else { UNREACHED };
        }
    }
}

/// Writes the list from its last stop back.
fn walk_back(tray: &Tray, rows: &[u64], list: &mut [u16], last: usize) {
    let n = tray.n;
    let (mut p, mut i) = (n - 1, last);
    for at in (0..list.len() - 1).rev() {
        let mut group = tray.beside(p, i);
        while !tray.some_filled(&group) {
            p &= p - 1;
            group = tray.beside(p, i);
        }
        i = tray.cheapest(&rows[(p - 1) * n..], group, i).1;
        list[at] = i as u16;
        p -= 1;
    }
}

/// The forks that the moves of a list say to be exchanged.
fn forks_of(n: usize, list: &[u16]) -> u64 {
    let fork = |pair: &[u16]| {
        let (a, b) = (usize::from(pair[0]), usize::from(pair[1]));
        if b < a { 1u64 << ((n + b) >> (usize::BITS - (a ^ b).leading_zeros())) } else { 0 }
    };
    list.windows(2).map(fork).fold(0, |forks, fork| forks | fork)
}

/// The call. Gives the total and the length.
pub fn plan_filled<F: Fill>(
    k: u16,
    table: &[u32],
    empties: &[u8],
    list: &mut [u16],
    bits: &mut [u8],
    work: &mut [u64],
) -> Result<(u64, usize), u16> {
    if k > 6 {
        return Err(WRONG_K);
    }
    let n = 1usize << k;
    if table.len() != n * n || empties.len() < n || list.len() < n || bits.len() < n.div_ceil(8) || work.len() < n * n {
        return Err(WRONG_SIZE);
    }
    if empties[..n].iter().any(|&byte| byte > 1) {
        return Err(OUT_OF_RANGE);
    }
    let filled = empties[..n].iter().enumerate().fold(0, |set, (i, &byte)| set | u64::from(1 - byte) << i);
    let tray = Tray { n, filled, table };
    let (work, count) = (&mut work[..n * n], filled.count_ones() as usize);
    let mut total = 0;
    if count > 0 {
        for i in 0..n {
            work[i] = if tray.is_filled(i) { 0 } else { UNREACHED };
        }
        for p in 1..n {
            F::row(&tray, &mut work[..(p + 1) * n], p);
        }
        let row = &work[(n - 1) * n..];
        let last = (0..n).reduce(|held, i| if row[i] < row[held] { i } else { held }).expect("there is a stop");
        total = row[last];
        list[count - 1] = last as u16;
        walk_back(&tray, work, &mut list[..count], last);
    }
    bits[..n.div_ceil(8)].copy_from_slice(&forks_of(n, &list[..count]).to_le_bytes()[..n.div_ceil(8)]);
    work.fill(0);
    Ok((total, count))
}
