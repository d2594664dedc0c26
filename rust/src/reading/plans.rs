//! Document 01: the planner's call, and the whole run from path bytes to the order.

use super::{
    paths::Path,
    refusals::put,
    stops::table_of,
    tree::{by_enumeration, by_whole_tables, every_set, move_cost, order_of, refusal, total},
};

/// The wanted order and its total: 'a plain enumeration in Rust up to k = 3', and whole tables above. `cost` is what a place adds to the total.
pub(super) fn wanted_by(k: u16, total: impl Fn(&[u16]) -> u64, cost: impl Fn(usize, Option<usize>, usize) -> u64) -> (Vec<u16>, u64) {
    let k = u32::from(k);
    if k > 3 {
        return by_whole_tables(k, cost);
    }
    let orders: Vec<Vec<u16>> = every_set(k).map(|set| order_of(k, &set)).collect();
    by_enumeration(&orders, total)
}

/// The same by a table of moves.
pub(super) fn wanted(k: u16, table: &[u32]) -> (Vec<u16>, u64) {
    let n = 1 << k;
    wanted_by(k, |order| total(table, order), |_, before, stop| move_cost(n, table, before, stop))
}

/// Writes a plan to lent buffers that suffice: 'the planner's work space holds 0 in the numbers named above and is untouched beyond', '2n 64-bit
/// and 2n 16-bit numbers'. Gives the total.
pub(super) fn put_plan((best, total): (Vec<u16>, u64), order: &mut [u16], totals: &mut [u64], pivots: &mut [u16]) -> u64 {
    put(&best, order);
    put(&vec![0; 2 * best.len()], totals);
    put(&vec![0; 2 * best.len()], pivots);
    total
}

/// The planner: 'Every other call: k, lengths'. Gives the total.
pub fn plan(k: u16, table: &[u32], order: &mut [u16], totals: &mut [u64], pivots: &mut [u16]) -> Result<u64, u16> {
    match refusal(k, table.len(), order.len(), totals.len(), pivots.len()) {
        Some(number) => Err(number),
        None => Ok(put_plan(wanted(k, table), order, totals, pivots)),
    }
}

/// 'one claim over a whole run ..: any path bytes are read, the table is made with the path's k .., the planner is called with that k on that
/// table', in one call, by 'the travel times of the stops that the bytes mean'. 'In the head: version, k, then lent lengths (8)': all that is
/// lent. Gives the version, k and the total.
pub fn plan_path(
    bytes: &[u8],
    highest: u16,
    table: &mut [u32],
    order: &mut [u16],
    totals: &mut [u64],
    pivots: &mut [u16],
) -> Result<(u16, u16, u64), u16> {
    let path = Path::read(bytes, highest, |k| refusal(k, table.len(), order.len(), totals.len(), pivots.len()).is_none())?;
    put(&table_of(&path.stops), table);
    let total = put_plan(wanted(path.k, table), order, totals, pivots);
    Ok((path.version, path.k, total))
}
