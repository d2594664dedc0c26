//! Document 02, M-107: places that cost extra.

use super::{
    plans::{put_plan, wanted_by},
    refusals::{require, WRONG_SIZE},
    tree::{count, move_cost, refusal, total},
};

/// 'Lend a second table of n² 32-bit entries, row stop, column place.'
fn entry(n: usize, places: &[u32], stop: usize, place: usize) -> u64 {
    places[stop * n + place].into()
}

/// 'A stop's entry for its place is added to the total, place 0 included.'
pub fn placed_total(table: &[u32], places: &[u32], order: &[u16]) -> u64 {
    let each = order.iter().enumerate().map(|(place, &stop)| entry(order.len(), places, stop.into(), place));
    total(table, order) + each.sum::<u64>()
}

/// What a place adds to it.
pub fn placed_cost(n: usize, table: &[u32], places: &[u32], place: usize, before: Option<usize>, stop: usize) -> u64 {
    move_cost(n, table, before, stop) + entry(n, places, stop, place)
}

/// 'Optimality, with its rule for equals, is wanted for this sum'; 'The work space is the planner's'; 'A second table of another length is 8, after
/// the first'. Gives the total.
#[rustfmt::skip]
pub fn plan_places(
    k: u16, table: &[u32], places: &[u32], order: &mut [u16], totals: &mut [u64], pivots: &mut [u16],
) -> Result<u64, u16> {
    refusal(k, table.len(), order.len(), totals.len(), pivots.len()).map_or(Ok(()), Err)?;
    let n = count(k)?;
    require(places.len() == n * n, WRONG_SIZE)?;
    let cost = |place, before, stop| placed_cost(n, table, places, place, before, stop);
    let wanted = wanted_by(k, |order| placed_total(table, places, order), cost);
    Ok(put_plan(wanted, order, totals, pivots))
}
