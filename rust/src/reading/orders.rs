//! Document 01, 'Tree, order, total' and 'Turned down': orders to fork bits and back, and an order's total. Document 02, M-108: forks exchanged.

use super::{
    refusals::{put, require, NOT_ALLOWED, WRONG_FORKS, WRONG_SIZE, WRONG_STOP},
    tree::{allowed, count, fork_above, order_of, total},
};

/// 9 for 'a stop number n or more in an order', then 10 for 'an order not allowed'.
pub(super) fn check_order(order: &[u16]) -> Result<(), u16> {
    require(order.iter().all(|&stop| usize::from(stop) < order.len()), WRONG_STOP)?;
    require(allowed(order), NOT_ALLOWED)
}

/// 'The lowest fork above both is exchanged exactly if bit t of the stop in p is 0', 'where t is the number of trailing zero bits of place
/// p', for the stops in places p−1 and p of an allowed order. The forks give the order back: `order_of` says so.
pub(super) fn exchanged_forks(k: u32, order: &[u16]) -> Vec<bool> {
    let mut exchanged = vec![false; order.len()];
    for p in 1..order.len() {
        let (a, b) = (usize::from(order[p - 1]), usize::from(order[p]));
        let above_both = |h: &u32| fork_above(k, a, *h) == fork_above(k, b, *h);
        let lowest = (0..k).rev().find(above_both).expect("the root is above both");
        exchanged[fork_above(k, b, lowest)] = b >> p.trailing_zeros() & 1 == 0;
    }
    assert_eq!(order_of(k, &exchanged), order);
    exchanged
}

/// 'ceil(n/8)' bytes.
pub(super) fn string_length(n: usize) -> usize {
    n.div_ceil(8)
}

/// 'bit v of the string is fork v, 1 for exchanged; byte v/8, low bit first; other bits 0'
pub(super) fn string_of(exchanged: &[bool]) -> Vec<u8> {
    let mut bits = vec![0; string_length(exchanged.len())];
    for v in 1..exchanged.len() {
        if exchanged[v] {
            bits[v / 8] |= 1 << (v % 8);
        }
    }
    bits
}

/// The forks of a string of ceil(n/8) bytes; 12 for 'a fork bit outside 1 to n−1 set'.
pub(super) fn forks_in(n: usize, bits: &[u8]) -> Result<Vec<bool>, u16> {
    let set = |v: usize| bits[v / 8] >> (v % 8) & 1 == 1;
    require((0..8 * bits.len()).all(|v| !set(v) || (1..n).contains(&v)), WRONG_FORKS)?;
    Ok((0..n).map(set).collect())
}

/// An order to its fork bits: 'Every other call: k, lengths, contents in table order'. 'Of a lent order .. only the first n numbers .. are
/// looked at.'
pub fn fork_bits(k: u16, order: &[u16], bits: &mut [u8]) -> Result<(), u16> {
    let n = count(k)?;
    require(order.len() >= n && bits.len() >= string_length(n), WRONG_SIZE)?;
    check_order(&order[..n])?;
    put(&string_of(&exchanged_forks(k.into(), &order[..n])), bits);
    Ok(())
}

/// Fork bits to their order. 'Of a lent .. fork string only the first .. ceil(n/8) bytes are looked at.'
pub fn order_of_bits(k: u16, bits: &[u8], order: &mut [u16]) -> Result<(), u16> {
    let n = count(k)?;
    require(bits.len() >= string_length(n) && order.len() >= n, WRONG_SIZE)?;
    let exchanged = forks_in(n, &bits[..string_length(n)])?;
    put(&order_of(k.into(), &exchanged), order);
    Ok(())
}

/// Document 02, M-108: 'a call that takes an allowed order and a set of forks and gives the order with those forks' states inverted'. 'Faulty
/// orders are 9 or 10, faulty sets 12, in that sequence.'
pub fn exchange(k: u16, order: &[u16], bits: &[u8], out: &mut [u16]) -> Result<(), u16> {
    let n = count(k)?;
    require(order.len() >= n && bits.len() >= string_length(n) && out.len() >= n, WRONG_SIZE)?;
    check_order(&order[..n])?;
    let inverted = forks_in(n, &bits[..string_length(n)])?;
    let states = exchanged_forks(k.into(), &order[..n]);
    let exchanged: Vec<bool> = states.iter().zip(&inverted).map(|(state, other)| state != other).collect();
    put(&order_of(k.into(), &exchanged), out);
    Ok(())
}

/// 'The total is the sum of these entries', of an allowed order of stops below n.
pub fn order_total(k: u16, order: &[u16], table: &[u32]) -> Result<u64, u16> {
    let n = count(k)?;
    require(order.len() >= n && table.len() == n * n, WRONG_SIZE)?;
    check_order(&order[..n])?;
    Ok(total(table, &order[..n]))
}
