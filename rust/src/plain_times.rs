//! Plain Rust making of a table of travel times, for the benchmark: each stop is judged once, then the table is written row by row.

use crate::{
    plain_path::{in_range, stops_fit},
    reading::Stop,
};

/// The time of a move in milliseconds, to the nearest one, an exact half to the even one, of the way that the blend leaves, and then the dwell.
#[inline(always)]
pub(crate) fn time(from: [i32; 3], to: [i32; 3], speed: u16, blend: u16, dwell: u16) -> u32 {
    let distance = from[0].abs_diff(to[0]).max(from[1].abs_diff(to[1])).max(from[2].abs_diff(to[2]));
    let counted = distance - u32::from(blend).min(distance / 2);
    let (way, speed) = (100 * counted, u32::from(speed));
    let (whole, rest) = (way / speed, way % speed);
    whole + u32::from(speed < 2 * rest + whole % 2) + u32::from(dwell)
}

/// The time from one stop to another.
#[inline(always)]
pub(crate) fn move_time(from: &Stop, to: &Stop) -> u32 {
    time(from.at, to.at, to.speed, to.blend, to.dwell)
}

/// The table of judged stops.
#[inline(always)]
pub(crate) fn fill_table(stops: &[Stop], table: &mut [u32]) {
    for (i, (from, row)) in stops.iter().zip(table.chunks_exact_mut(stops.len())).enumerate() {
        for (to, entry) in stops.iter().zip(row.iter_mut()) {
            *entry = move_time(from, to);
        }
        row[i] = 0;
    }
}

/// Tests k and the lengths; gives n.
#[inline(always)]
fn lengths(k: u16, coords: &[i32], speeds: &[u16], blends: &[u16], dwells: &[u16], table: &[u32]) -> Result<usize, u16> {
    if k > 10 {
        return Err(5);
    }
    let n = 1usize << k;
    if !stops_fit(n, coords, speeds, blends, dwells) || table.len() != n * n {
        return Err(8);
    }
    Ok(n)
}

/// Makes the table, by indices.
pub fn make_table(k: u16, coords: &[i32], speeds: &[u16], blends: &[u16], dwells: &[u16], table: &mut [u32]) -> Result<(), u16> {
    let n = lengths(k, coords, speeds, blends, dwells, table)?;
    let at = |i: usize| [coords[3 * i], coords[3 * i + 1], coords[3 * i + 2]];
    for i in 0..n {
        if !in_range(&Stop { at: at(i), speed: speeds[i], blend: blends[i], dwell: dwells[i] }) {
            return Err(6);
        }
    }
    for from in 0..n {
        for to in 0..n {
            table[from * n + to] = if from == to { 0 } else { time(at(from), at(to), speeds[to], blends[to], dwells[to]) };
        }
    }
    Ok(())
}

/// Makes the table, by slices and iterators.
pub fn make_table_by_slices(k: u16, coords: &[i32], speeds: &[u16], blends: &[u16], dwells: &[u16], table: &mut [u32]) -> Result<(), u16> {
    let n = lengths(k, coords, speeds, blends, dwells, table)?;
    let (coords, speeds, blends, dwells) = (&coords.as_chunks::<3>().0[..n], &speeds[..n], &blends[..n], &dwells[..n]);
    for (((&at, &speed), &blend), &dwell) in coords.iter().zip(speeds).zip(blends).zip(dwells) {
        if !in_range(&Stop { at, speed, blend, dwell }) {
            return Err(6);
        }
    }
    for (i, (&from, row)) in coords.iter().zip(table.chunks_exact_mut(n)).enumerate() {
        for ((((&to, &speed), &blend), &dwell), entry) in coords.iter().zip(speeds).zip(blends).zip(dwells).zip(row.iter_mut()) {
            *entry = time(from, to, speed, blend, dwell);
        }
        row[i] = 0;
    }
    Ok(())
}
