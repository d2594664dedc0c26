//! Document 01, 'Tree, order, total': allowed orders, totals, the preference, and the wanted order by two methods.

use super::refusals::{require, WRONG_K, WRONG_SIZE};

/// 'n = 2^k stops, k from 0 to 10'; 5 for 'k above 10'.
pub(super) fn count(k: u16) -> Result<usize, u16> {
    require(k <= 10, WRONG_K)?;
    Ok(1 << k)
}

/// 'The fork above stop i at depth h, 0 ≤ h ≤ k−1, is 2^h + floor(i / 2^(k−h)).'
pub fn fork_above(k: u32, i: usize, h: u32) -> usize {
    (1 << h) + i / (1 << (k - h))
}

/// 'A set of exchanged forks puts stop i in the place whose bit k−1−h is that bit of i, inverted exactly if its fork at depth h is
/// exchanged. An order lists the stop in each place.' `exchanged[v]` is fork v.
pub fn order_of(k: u32, exchanged: &[bool]) -> Vec<u16> {
    let n = 1 << k;
    let mut order = vec![None; n];
    for i in 0..n {
        let mut place = 0;
        for h in 0..k {
            let bit = k - 1 - h;
            let inverted = exchanged[fork_above(k, i, h)];
            if (i >> bit & 1 == 1) != inverted {
                place |= 1 << bit;
            }
        }
        assert!(order[place].is_none(), "two stops in one place");
        order[place] = Some(i as u16);
    }
    order.into_iter().map(|stop| stop.expect("every place has a stop")).collect()
}

/// 'The total is the sum of these entries; for n = 1 it is 0.'
pub fn total(table: &[u32], order: &[u16]) -> u64 {
    let n = order.len();
    order.windows(2).map(|pair| u64::from(table[pair[0] as usize * n + pair[1] as usize])).sum()
}

/// What a place adds to it: the entry of the move that leads there, and nothing for place 0.
pub fn move_cost(n: usize, table: &[u32], before: Option<usize>, stop: usize) -> u64 {
    before.map_or(0, |from| u64::from(table[from * n + stop]))
}

/// 'The wanted order has the least total .. Of equal totals it is the one with the smaller stop at the first difference, read from the
/// last place back.'
pub fn preferred(a: (&[u16], u64), b: (&[u16], u64)) -> bool {
    if a.1 != b.1 {
        return a.1 < b.1;
    }
    let (a, b) = (a.0, b.0);
    for p in (0..a.len()).rev() {
        if a[p] != b[p] {
            return a[p] < b[p];
        }
    }
    false
}

/// Every set of forks in turn, for k up to 4: forks 1 to n − 1, so 2^(n−1) sets.
pub fn every_set(k: u32) -> impl Iterator<Item = Vec<bool>> {
    let n = 1usize << k;
    (0..1u32 << (n - 1)).map(move |set| (0..n).map(|v| v > 0 && set >> (v - 1) & 1 == 1).collect())
}

/// The wanted order and its total by plain enumeration of the given orders, which are all allowed ones.
pub fn by_enumeration(orders: &[Vec<u16>], total: impl Fn(&[u16]) -> u64) -> (Vec<u16>, u64) {
    let mut held = (&orders[0], total(&orders[0]));
    for order in orders {
        let sum = total(order);
        if preferred((order, sum), (held.0, held.1)) {
            held = (order, sum);
        }
    }
    (held.0.clone(), held.1)
}

/// 'Take r = 2^t, where t is the number of trailing zero bits of place p. .. the exclusive or of the stops in places p−1 and p is at least
/// r and less than 2r': whether stop b in place p may follow stop a.
pub fn may_follow(p: usize, a: usize, b: usize) -> bool {
    let mut r = 1;
    while p % (2 * r) == 0 {
        r *= 2;
    }
    let both = a ^ b;
    r <= both && both < 2 * r
}

/// 'An order of stops below n is allowed exactly if ..'
pub fn allowed(order: &[u16]) -> bool {
    let n = order.len();
    order.iter().all(|&stop| (stop as usize) < n) && (1..n).all(|p| may_follow(p, order[p - 1] as usize, order[p] as usize))
}

/// For every stop the preferred of all orders that end with it, and its total, by whole tables: for every place and every stop there the
/// preferred of all beginnings that end with it, kept as a whole order, from every stop that may come before. `cost` is what a place adds to the
/// total: by the place, the stop in the place before it where there is one, and its own stop.
pub(super) fn best_to_each_stop(k: u32, cost: impl Fn(usize, Option<usize>, usize) -> u64) -> Vec<(Vec<u16>, u64)> {
    let n = 1usize << k;
    let mut row: Vec<(Vec<u16>, u64)> = (0..n).map(|stop| (vec![stop as u16], cost(0, None, stop))).collect();
    for p in 1..n {
        let follows: Vec<bool> = (0..n).map(|both| may_follow(p, 0, both)).collect();
        row = (0..n)
            .map(|to| {
                let mut held: Option<(usize, u64)> = None;
                for from in (0..n).filter(|from| follows[from ^ to]) {
                    let sum = row[from].1 + cost(p, Some(from), to);
                    if held.map_or(true, |(other, least)| preferred((&row[from].0, sum), (&row[other].0, least))) {
                        held = Some((from, sum));
                    }
                }
                let (from, sum) = held.expect("some stop may come before");
                let mut order = Vec::with_capacity(n);
                order.extend_from_slice(&row[from].0);
                order.push(to as u16);
                (order, sum)
            })
            .collect();
    }
    row
}

/// The wanted order and its total by whole tables.
pub fn by_whole_tables(k: u32, cost: impl Fn(usize, Option<usize>, usize) -> u64) -> (Vec<u16>, u64) {
    let row = best_to_each_stop(k, cost);
    let mut held = &row[0];
    for other in &row {
        if preferred((&other.0, other.1), (&held.0, held.1)) {
            held = other;
        }
    }
    held.clone()
}

/// The refusal of a call of the planner, or none: 'Every other call: k, lengths'; 5 for 'k above 10', 8 for 'a lent buffer too short, a
/// table not n² long'; 'the lent work space .. 2n 64-bit and 2n 16-bit numbers'.
pub fn refusal(k: u16, table: usize, order: usize, totals: usize, pivots: usize) -> Option<u16> {
    let fit = |n: usize| table == n * n && order >= n && totals >= 2 * n && pivots >= 2 * n;
    count(k).and_then(|n| require(fit(n), WRONG_SIZE)).err()
}
