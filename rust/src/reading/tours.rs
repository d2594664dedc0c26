//! Document 02, M-104: round trips.

use super::{
    plans::put_plan,
    refusals::{require, WRONG_K},
    tree::{best_to_each_stop, by_enumeration, every_set, move_cost, order_of, preferred, refusal, total},
};

/// 'its total has one more move, last to first, with the first stop's dwell; for n = 1 it is 0'. The table's entries hold the dwells.
pub fn closed_total(table: &[u32], order: &[u16]) -> u64 {
    let n = order.len();
    let home = if n == 1 { 0 } else { table[usize::from(order[n - 1]) * n + usize::from(order[0])].into() };
    total(table, order) + home
}

/// 'Among tours the least total is wanted, ties as before': for every last stop the preferred tour that ends with it, by whole tables in which the
/// first stop costs the move from that last stop, and the preferred of these. There are two stops or more.
pub fn tour_by_last_stops(k: u32, table: &[u32]) -> (Vec<u16>, u64) {
    let n = 1 << k;
    let ending_with = |last: usize| {
        let cost = |_, before: Option<usize>, stop| move_cost(n, table, before.or(Some(last)), stop);
        best_to_each_stop(k, cost).swap_remove(last)
    };
    let prefer = |held: (Vec<u16>, u64), other: (Vec<u16>, u64)| if preferred((&other.0, other.1), (&held.0, held.1)) { other } else { held };
    (0..n).map(ending_with).reduce(prefer).expect("there is a stop")
}

/// 'Tours are for k up to 7; above that 5 is given. The work space is the planner's.' Gives the closed total.
pub fn tour(k: u16, table: &[u32], order: &mut [u16], totals: &mut [u64], pivots: &mut [u16]) -> Result<u64, u16> {
    require(k <= 7, WRONG_K)?;
    refusal(k, table.len(), order.len(), totals.len(), pivots.len()).map_or(Ok(()), Err)?;
    let wanted = if k <= 3 {
        let orders: Vec<Vec<u16>> = every_set(k.into()).map(|set| order_of(k.into(), &set)).collect();
        by_enumeration(&orders, |order| closed_total(table, order))
    } else {
        tour_by_last_stops(k.into(), table)
    };
    Ok(put_plan(wanted, order, totals, pivots))
}
