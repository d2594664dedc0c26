//! Document 02, M-101: what a fork costs the other way.

use super::{
    orders::exchanged_forks,
    paths::Path,
    refusals::{put, require, NO_SUCH_FORK},
    stops::table_of,
    tree::{by_enumeration, by_whole_tables, every_set, fork_above, move_cost, order_of, total},
};

/// 'For a path and one fork, give the fork's state in the returned order, the least total among all allowed orders with that fork in the opposite
/// state, and that total less the returned one', and the reason.
#[derive(Debug, PartialEq)]
pub struct ForkCost {
    /// Whether the returned order has the fork exchanged.
    pub exchanged: bool,
    pub opposite: u64,
    pub difference: u64,
    /// None for 'dearer', or the place of 'tie'.
    pub tie: Option<usize>,
}

/// An order with its total.
type Plan = (Vec<u16>, u64);

impl ForkCost {
    /// 'The reason is 'dearer', without a place, exactly if the difference is above 0. Otherwise it is 'tie', with the last place at which the returned
    /// order and the opposite one part'.
    fn of(exchanged: bool, returned: Plan, opposite: Plan) -> ForkCost {
        let difference = opposite.1.checked_sub(returned.1).expect("the returned total is the least of all");
        let part = |place: &usize| returned.0[*place] != opposite.0[*place];
        let last = (0..returned.0.len()).rev().find(part).expect("orders whose fork has different states");
        ForkCost { exchanged, opposite: opposite.1, difference, tie: if difference > 0 { None } else { Some(last) } }
    }
}

/// By enumeration of all sets of forks; 'the opposite order is chosen among its equals by the same rule from the back'.
pub fn fork_cost_by_enumeration(k: u32, table: &[u32], fork: usize) -> ForkCost {
    let wanted = |orders: &[Vec<u16>]| by_enumeration(orders, |order| total(table, order));
    let sets: Vec<Vec<bool>> = every_set(k).collect();
    let orders: Vec<Vec<u16>> = sets.iter().map(|set| order_of(k, set)).collect();
    let returned = wanted(&orders);
    let exchanged = sets[orders.iter().position(|order| *order == returned.0).expect("one of them")][fork];
    let others: Vec<Vec<u16>> = sets.iter().zip(orders).filter(|(set, _)| set[fork] != exchanged).map(|(_, order)| order).collect();
    ForkCost::of(exchanged, returned, wanted(&others))
}

/// Whether an order that has a fork in this state may have stop i in a place: 'A set of exchanged forks puts stop i in the place whose bit k−1−h is that
/// bit of i, inverted exactly if its fork at depth h is exchanged.' A stop that is not below the fork may stand anywhere.
fn may_stand(k: u32, fork: usize, exchanged: bool, i: usize, place: usize) -> bool {
    let h = fork.ilog2();
    let bit = |number: usize| number >> (k - 1 - h) & 1;
    fork_above(k, i, h) != fork || (bit(place) != bit(i)) == exchanged
}

/// More than any total, which has at most 1,023 entries of 32 bits, and 1,024 times this has 64 bits.
const NEVER: u64 = 1 << 50;

/// By whole tables, twice; the second time each stop that may not stand in a place costs more there than any order does.
pub fn fork_cost_by_whole_tables(k: u32, table: &[u32], fork: usize) -> ForkCost {
    let cost = |before, stop| move_cost(1 << k, table, before, stop);
    let returned = by_whole_tables(k, |_, before, stop| cost(before, stop));
    let exchanged = exchanged_forks(k, &returned.0)[fork];
    let extra = |place, stop| if may_stand(k, fork, !exchanged, stop, place) { 0 } else { NEVER };
    let opposite = by_whole_tables(k, |place, before, stop| cost(before, stop) + extra(place, stop));
    assert!(opposite.1 < NEVER, "some order has the fork in the opposite state");
    assert_eq!(exchanged_forks(k, &opposite.0)[fork], !exchanged);
    ForkCost::of(exchanged, returned, opposite)
}

/// 'a new call for a path takes its bytes and the highest known version and tests all its lent lengths in the head'; '14, the fork is not 1 to n−1; tested
/// once the path has been read'. 'The lent work space is the planner's and 2n 16-bit numbers more, all 0 after success.' Gives a field: 0 for the state, 1
/// for exchanged; 1 for the least total of the opposite state; 2 for the difference; 3 for the place of a tie, counted from 0, and 1 more, or 0 for
/// 'dearer'. Another field is 0.
pub fn fork_cost(
    bytes: &[u8],
    highest: u16,
    fork: u16,
    totals: &mut [u64],
    pivots: &mut [u16],
    orders: &mut [u16],
    field: u16,
) -> Result<u64, u16> {
    let path = Path::read(bytes, highest, |k| [totals.len(), pivots.len(), orders.len()].iter().all(|&length| length >= 2 << k))?;
    let (k, n, fork) = (u32::from(path.k), path.stops.len(), usize::from(fork));
    require((1..n).contains(&fork), NO_SUCH_FORK)?;
    let table = table_of(&path.stops);
    let by = if k <= 3 { fork_cost_by_enumeration } else { fork_cost_by_whole_tables };
    let cost = by(k, &table, fork);
    put(&vec![0; 2 * n], totals);
    put(&vec![0; 2 * n], pivots);
    put(&vec![0; 2 * n], orders);
    Ok(match field {
        0 => cost.exchanged.into(),
        1 => cost.opposite,
        2 => cost.difference,
        3 => cost.tie.map_or(0, |place| place as u64 + 1),
        _ => 0,
    })
}
