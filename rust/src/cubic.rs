//! The cubic method that is in use elsewhere: optimal leaf ordering after Bar-Joseph and others, in a plain version of our own.
//!
//! For every two stops there is one lowest fork above both. `least` has, for stops a and b, the least total of the orders of that fork's
//! stops that begin with a and end with b. It takes n² 64-bit numbers, and it knows no rule for equal totals.

/// The stops below the sides of each fork whose sides have r stops each: (one side's first, the other side's first), both ways round.
fn sides(n: usize, r: usize) -> impl Iterator<Item = (usize, usize)> {
    (0..n / r).map(move |side| (side * r, (side ^ 1) * r))
}

/// The stops that can stand at the other end of a side of r stops that has `stop` at one end: all of its other half, or itself.
fn other_end(stop: usize, r: usize) -> std::ops::Range<usize> {
    if r == 1 {
        stop..stop + 1
    } else {
        let half = r / 2;
        let first = (stop / half ^ 1) * half;
        first..first + half
    }
}

/// `least`, for every two stops.
fn all_ends(n: usize, table: &[u32]) -> Vec<u64> {
    let mut least = vec![0u64; n * n];
    let mut joined = vec![0u64; n];
    let mut r = 1;
    while r < n {
        for (here, there) in sides(n, r) {
            for a in here..here + r {
                // from a through its whole side and on to each stop of the other
                let joined = &mut joined[..r];
                joined.fill(u64::MAX);
                for end in other_end(a, r) {
                    let before = least[a * n + end];
                    for (held, &time) in joined.iter_mut().zip(&table[end * n + there..][..r]) {
                        *held = (*held).min(before + u64::from(time));
                    }
                }
                // and through the other side to its other end
                for b in there..there + r {
                    let ends = other_end(b, r);
                    least[a * n + b] = ends.map(|start| joined[start - there] + least[start * n + b]).min().expect("a side has a stop");
                }
            }
        }
        r *= 2;
    }
    least
}

/// Writes a best order of a fork's stops that begins with a and ends with b, found again from `least`.
fn write(n: usize, table: &[u32], least: &[u64], a: usize, b: usize, order: &mut Vec<u16>) {
    if a == b {
        order.push(a as u16);
        return;
    }
    let r = 1 << (a ^ b).ilog2();
    for end in other_end(a, r) {
        for start in other_end(b, r) {
            if least[a * n + end] + u64::from(table[end * n + start]) + least[start * n + b] == least[a * n + b] {
                write(n, table, least, a, end, order);
                write(n, table, least, start, b, order);
                return;
            }
        }
    }
    unreachable!("some two stops meet in the middle");
}

/// A best order of 2^k stops, and its total.
pub fn plan(k: u32, table: &[u32]) -> (Vec<u16>, u64) {
    let n = 1usize << k;
    let mut order = Vec::with_capacity(n);
    if n == 1 {
        return (vec![0], 0);
    }
    let least = all_ends(n, table);
    let ends = (0..n).flat_map(|a| other_end(a, n).map(move |b| (a, b)));
    let (a, b) = ends.min_by_key(|&(a, b)| least[a * n + b]).expect("there are two stops");
    write(n, table, &least, a, b, &mut order);
    (order, least[a * n + b])
}
