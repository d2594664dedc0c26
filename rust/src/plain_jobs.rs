//! Plain Rust for whole jobs, for the benchmark: path bytes to the order, and the controller's three calls. The stops are read once into an
//! array of the call's own. `S` is the planner's loop order, `W` the way to go through the path.

use crate::{
    plain::{plan, Step},
    plain_files::{file_size, read_file, write_file},
    plain_path::{read_stops, write_path, Chunks, Way},
    plain_times::{fill_table, move_time},
    reading::{refusal, Stop},
};

/// What the arrays of stops hold at first.
const NOWHERE: Stop = Stop { at: [0; 3], speed: 0, blend: 0, dwell: 0 };

/// Path bytes to the wanted order: version, k and the total.
pub fn plan_path<S: Step>(
    bytes: &[u8],
    highest: u16,
    table: &mut [u32],
    order: &mut [u16],
    totals: &mut [u64],
    pivots: &mut [u16],
) -> Result<(u16, u16, u64), u16> {
    let mut stops = [NOWHERE; 1024];
    let fit = |k| refusal(k, table.len(), order.len(), totals.len(), pivots.len()).map_or(Ok(()), Err);
    let (version, k) = read_stops::<Chunks>(bytes, highest, fit, &mut stops)?;
    fill_table(&stops[..1 << k], table);
    Ok((version, k, plan::<S>(k, table, order, totals, pivots)?))
}

/// Path bytes to the table of their stops' travel times: k.
pub fn path_table<W: Way>(bytes: &[u8], highest: u16, table: &mut [u32]) -> Result<u16, u16> {
    let mut stops = [NOWHERE; 1024];
    let fit = |k: u16| if k > 10 || table.len() != 1 << (2 * k) { Err(8) } else { Ok(()) };
    let (_, k) = read_stops::<W>(bytes, highest, fit, &mut stops)?;
    fill_table(&stops[..1 << k], table);
    Ok(k)
}

/// A count of bytes, 0 for a good check, or the refusal's number made negative.
fn signed(result: Result<usize, u16>) -> i64 {
    match result {
        Ok(count) => count as i64,
        Err(number) => -i64::from(number),
    }
}

/// The controller's limit of k.
fn limited(k: u16) -> Result<(), u16> {
    if k > 6 {
        return Err(8);
    }
    Ok(())
}

/// Path bytes to order-file bytes.
pub fn cell_plan<S: Step>(path: &[u8], highest: u16, out: &mut [u8]) -> i64 {
    signed(plan_job::<S>(path, highest, out))
}

fn plan_job<S: Step>(path: &[u8], highest: u16, out: &mut [u8]) -> Result<usize, u16> {
    let mut stops = [NOWHERE; 64];
    let fit = |k| limited(k).and(if out.len() < file_size(1 << k) { Err(8) } else { Ok(()) });
    let (_, k) = read_stops::<Chunks>(path, highest, fit, &mut stops)?;
    let n = 1usize << k;
    let (mut table, mut order, mut totals, mut pivots) = ([0; 4096], [0; 64], [0; 128], [0; 128]);
    let (table, order) = (&mut table[..n * n], &mut order[..n]);
    fill_table(&stops[..n], table);
    let total = plan::<S>(k, table, order, &mut totals, &mut pivots)?;
    Ok(write_file(k, order, total, out))
}

/// An order file checked against path bytes: the moves of its order are summed without a table.
pub fn cell_check<W: Way>(path: &[u8], highest: u16, file: &[u8]) -> i64 {
    signed(check_job::<W>(path, highest, file))
}

fn check_job<W: Way>(path: &[u8], highest: u16, file: &[u8]) -> Result<usize, u16> {
    let mut stops = [NOWHERE; 64];
    let (_, k) = read_stops::<W>(path, highest, limited, &mut stops)?;
    let n = 1usize << k;
    let mut order = [0; 64];
    let order = &mut order[..n];
    let said = read_file(k, file, order)?;
    let stop = |place: u16| &stops[usize::from(place)];
    // an allowed order has no stop twice, so every move leads to another stop
    let total: u64 = order.windows(2).map(|pair| u64::from(move_time(stop(pair[0]), stop(pair[1])))).sum();
    if total != said {
        return Err(11);
    }
    Ok(0)
}

/// Path bytes rewritten in another version.
pub fn cell_rewrite<W: Way>(path: &[u8], highest: u16, version: u16, out: &mut [u8]) -> i64 {
    signed(rewrite_job::<W>(path, highest, version, out))
}

fn rewrite_job<W: Way>(path: &[u8], highest: u16, version: u16, out: &mut [u8]) -> Result<usize, u16> {
    let mut stops = [NOWHERE; 64];
    let (_, k) = read_stops::<W>(path, highest, limited, &mut stops)?;
    write_path(version, k, &stops[..1 << k], out)
}
