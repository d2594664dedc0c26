//! Document 02, M-113: the weighings of a plan, counted one pass after another, and what k alone foretells.

use super::{plans::plan, tree::count};

/// 'A weighing is one candidate predecessor considered for one stop in one place; the predecessor already fixed before a pass's first place is
/// not weighed': those of a pass over 2^m places for its 2^m stops, place by place. In place p a stop may follow as many stops as 'r = 2^t,
/// where t is the number of trailing zero bits of place p'.
pub fn of_pass(m: u32) -> u64 {
    (1..1u64 << m).map(|p| (1 << m) * (1 << p.trailing_zeros())).sum()
}

/// Those of halving 2^m places of a plan of 2^k stops: a pass, and then both halves. 'passes over 2 places make none, except that k = 1 makes 2'.
fn of_halving(m: u16, k: u16) -> u64 {
    match m {
        0 => 0,
        1 if k != 1 => 0,
        _ => of_pass(m.into()) + 2 * of_halving(m - 1, k),
    }
}

/// The planner: 'The planner's result gains its count'. Gives the count.
pub fn plan_weighings(k: u16, table: &[u32], order: &mut [u16], totals: &mut [u64], pivots: &mut [u16]) -> Result<u64, u16> {
    plan(k, table, order, totals, pivots)?;
    Ok(of_halving(k, k))
}

/// 'From k alone give the lent work space in bytes, 20n, and the weighings: 0 for k = 0, 2 for k = 1, (k−1) × 2^(2k) above'; 'k above 10 is 5'.
pub fn foretell(k: u16) -> Result<(u64, u64), u16> {
    let n = count(k)? as u64;
    let weighings = match k {
        0 => 0,
        1 => 2,
        _ => u64::from(k - 1) << (2 * k),
    };
    Ok((20 * n, weighings))
}
