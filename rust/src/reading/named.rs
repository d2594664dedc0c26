//! Document 02, M-110: orders kept by name, and come back to.

use super::{
    paths::Path,
    refusals::{put, require, NOTHING_KEPT, NO_SUCH_NAME, WRONG_SIZE},
    screen::check_records,
};
use std::ops::Range;

/// 'up to eight named orders, names 1 to 8'
const NAMES: usize = 8;

/// 'name m has mark m−1 and the n stops and n sums from (m−1)n on'
fn places(n: usize, name: u16) -> Range<usize> {
    let m = usize::from(name);
    (m - 1) * n..m * n
}

/// 'Path, order and sums pass their tests first', the path with all lent lengths in its head: 'Lent are 8 mark bytes, 8n stops and 8n sums'. Then '15, a
/// name not 1 to 8'. Gives the path and n; the lengths are those of the marks, the stops and the sums.
fn entered(bytes: &[u8], highest: u16, name: u16, order: &[u16], sums: &[u64], lengths: [usize; 3]) -> Result<(Path, usize), u16> {
    let [marks, stops, kept] = lengths;
    let fit = |k: u16| {
        let n = 1usize << k;
        marks >= NAMES && stops >= NAMES * n && kept >= NAMES * n && order.len() >= n && sums.len() >= n
    };
    let path = Path::read(bytes, highest, fit)?;
    let n = path.stops.len();
    check_records(&path, &order[..n], &sums[..n])?;
    require((1..=NAMES).contains(&name.into()), NO_SUCH_NAME)?;
    Ok((path, n))
}

/// 'Keeping under a used name replaces what was there.' 'A mark is 1 when used'.
#[allow(clippy::too_many_arguments)]
pub fn keep(
    bytes: &[u8],
    highest: u16,
    name: u16,
    order: &[u16],
    sums: &[u64],
    marks: &mut [u8],
    stops: &mut [u16],
    kept: &mut [u64],
) -> Result<(), u16> {
    let (_, n) = entered(bytes, highest, name, order, sums, [marks.len(), stops.len(), kept.len()])?;
    marks[usize::from(name) - 1] = 1;
    put(&order[..n], &mut stops[places(n, name)]);
    put(&sums[..n], &mut kept[places(n, name)]);
    Ok(())
}

/// 'Coming back restores the order and all group sums as they were when last kept under that name'. '16, nothing kept under it when coming back'; 'any
/// other mark means nothing kept'. 'what was kept passes the same' tests, 'after 15 and 16, before it is restored'.
#[allow(clippy::too_many_arguments)]
pub fn come_back(
    bytes: &[u8],
    highest: u16,
    name: u16,
    order: &mut [u16],
    sums: &mut [u64],
    marks: &[u8],
    stops: &[u16],
    kept: &[u64],
) -> Result<(), u16> {
    let (path, n) = entered(bytes, highest, name, order, sums, [marks.len(), stops.len(), kept.len()])?;
    require(marks[usize::from(name) - 1] == 1, NOTHING_KEPT)?;
    let (stops, kept) = (&stops[places(n, name)], &kept[places(n, name)]);
    check_records(&path, stops, kept)?;
    put(stops, order);
    put(kept, sums);
    Ok(())
}

/// 'for a new one the caller clears them by a call that takes the marks alone and sets the 8 to 0'
pub fn clear(marks: &mut [u8]) -> Result<(), u16> {
    require(marks.len() >= NAMES, WRONG_SIZE)?;
    put(&[0; NAMES], marks);
    Ok(())
}
