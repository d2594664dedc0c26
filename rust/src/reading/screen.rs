//! Document 02, M-109: the travel within the groups of an order, beside the order.

use super::{
    orders::{check_order, exchanged_forks},
    paths::Path,
    refusals::{put, require, NO_SUCH_FORK, WRONG_TOTAL},
    stops::{travel_time, Stop},
    tree::{fork_above, order_of},
};

/// Whether stop i is in the group of fork v: v, at its own depth, is the fork above it.
fn in_group(k: u32, v: usize, i: u16) -> bool {
    fork_above(k, i.into(), v.ilog2()) == v
}

/// 'the inner travel of every fork's group: the sum of the moves between neighbouring places of that group. There are n 64-bit sums, that of
/// fork v in place v, and 0 in place 0.' Of an allowed order.
fn sums_of(k: u32, stops: &[Stop], order: &[u16]) -> Vec<u64> {
    let within = |v: usize, pair: &[u16]| pair.iter().all(|&stop| in_group(k, v, stop));
    let time = |pair: &[u16]| u64::from(travel_time(&stops[usize::from(pair[0])], &stops[usize::from(pair[1])]));
    let sum = |v: usize| order.windows(2).filter(|pair| within(v, pair)).map(time).sum();
    (0..order.len()).map(|v| if v == 0 { 0 } else { sum(v) }).collect()
}

/// The path, with all lent lengths in its head: n stops of the order and n sums.
fn path_of(bytes: &[u8], highest: u16, order: &[u16], sums: &[u64]) -> Result<(Path, usize), u16> {
    let path = Path::read(bytes, highest, |k| order.len() >= 1 << k && sums.len() >= 1 << k)?;
    let n = path.stops.len();
    Ok((path, n))
}

/// 'The screen's records are lent and validated on entry: 9, 10, then 11 if a sum, place 0 included, is not the order's.'
pub(super) fn check_records(path: &Path, order: &[u16], sums: &[u64]) -> Result<(), u16> {
    check_order(order)?;
    require(sums == sums_of(path.k.into(), &path.stops, order), WRONG_TOTAL)
}

/// 'One call makes them from a path and an order'.
pub fn group_sums(bytes: &[u8], highest: u16, order: &[u16], sums: &mut [u64]) -> Result<(), u16> {
    let (path, n) = path_of(bytes, highest, order, sums)?;
    check_order(&order[..n])?;
    put(&sums_of(path.k.into(), &path.stops, &order[..n]), sums);
    Ok(())
}

/// 'another, given the path too, exchanges one fork and updates order and sums. Afterwards the order has that fork alone inverted, the sums equal
/// those made afresh'. 'A fork out of range is 14, after those.'
pub fn exchange_fork(bytes: &[u8], highest: u16, fork: u16, order: &mut [u16], sums: &mut [u64]) -> Result<(), u16> {
    let (path, n) = path_of(bytes, highest, order, sums)?;
    check_records(&path, &order[..n], &sums[..n])?;
    require((1..n).contains(&fork.into()), NO_SUCH_FORK)?;
    let mut states = exchanged_forks(path.k.into(), &order[..n]);
    states[usize::from(fork)] ^= true;
    put(&order_of(path.k.into(), &states), order);
    put(&sums_of(path.k.into(), &path.stops, &order[..n]), sums);
    Ok(())
}
