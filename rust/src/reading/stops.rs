//! Document 01, 'Travel time', with document 02's M-100, M-102 and M-105: stops, their ranges, and the table.

use super::{
    refusals::{put, require, OUT_OF_RANGE, WRONG_SIZE},
    tree::count,
};
use std::cmp::Ordering;

/// 'A stop has three coordinates x, y, z .., a speed .. and a blend.' M-102: 'a 2-byte dwell'.
#[derive(Clone, Copy, PartialEq, Debug)]
pub struct Stop {
    pub at: [i32; 3],
    pub speed: u16,
    pub blend: u16,
    pub dwell: u16,
}

impl Stop {
    /// 'x, y, z (signed, tenths of a millimetre, −20,000 to 20,000), a speed (1 to 2,000 mm/s) and a blend (0 to 500 tenths of a
    /// millimetre)'; M-102: 'a 2-byte dwell of 0 to 5,000 ms'; 6 for 'a stop's field out of range'.
    pub(super) fn check(&self) -> Result<(), u16> {
        require(self.at.iter().all(|x| (-20_000..=20_000).contains(x)), OUT_OF_RANGE)?;
        require((1..=2_000).contains(&self.speed), OUT_OF_RANGE)?;
        require((0..=500).contains(&self.blend), OUT_OF_RANGE)?;
        require((0..=5_000).contains(&self.dwell), OUT_OF_RANGE)
    }
}

/// 'D is the largest of the three absolute differences. The time from a to b, a ≠ b, is 100 × D / speed of b in milliseconds ..' M-105: 'The distance
/// counted towards b becomes D − min(blend of b, floor(D / 2)), before multiplying and rounding.' M-100: 'to the nearest whole millisecond, with
/// an exact half going to the even one'. M-102: the dwell 'is added to the rounded time of every move that arrives at the stop'. For stops in range.
pub fn travel_time(a: &Stop, b: &Stop) -> u32 {
    let mut largest = 0;
    for axis in 0..3 {
        largest = largest.max(a.at[axis].abs_diff(b.at[axis]));
    }
    let counted = largest - u32::from(b.blend).min(largest / 2);
    let speed = u32::from(b.speed);
    let lower = 100 * counted / speed;
    let (above_lower, below_upper) = (100 * counted - lower * speed, (lower + 1) * speed - 100 * counted);
    let rounded = match above_lower.cmp(&below_upper) {
        Ordering::Less => lower,
        Ordering::Greater => lower + 1,
        Ordering::Equal => [lower, lower + 1].into_iter().find(|time| time % 2 == 0).expect("one of two neighbours is even"),
    };
    rounded + u32::from(b.dwell)
}

/// 'n² 32-bit unsigned entries, row "from", column "to"'; 'from a stop to itself it is 0', and with M-102 'stays 0'.
pub(super) fn table_of(stops: &[Stop]) -> Vec<u32> {
    let mut table = Vec::new();
    for (from, a) in stops.iter().enumerate() {
        for (to, b) in stops.iter().enumerate() {
            table.push(if from == to { 0 } else { travel_time(a, b) });
        }
    }
    table
}

/// 8 for 'a lent buffer too short': n stops have 3n coordinates, n speeds, n blends and n dwells.
pub(super) fn stops_fit(n: usize, coords: &[i32], speeds: &[u16], blends: &[u16], dwells: &[u16]) -> bool {
    coords.len() >= 3 * n && [speeds, blends, dwells].iter().all(|lent| lent.len() >= n)
}

/// The first n stops of lent buffers that are long enough.
pub(super) fn lent_stops(n: usize, coords: &[i32], speeds: &[u16], blends: &[u16], dwells: &[u16]) -> Vec<Stop> {
    let at = |i: usize| [coords[3 * i], coords[3 * i + 1], coords[3 * i + 2]];
    (0..n).map(|i| Stop { at: at(i), speed: speeds[i], blend: blends[i], dwell: dwells[i] }).collect()
}

/// Writes stops to lent buffers that are long enough.
pub(super) fn put_stops(stops: &[Stop], coords: &mut [i32], speeds: &mut [u16], blends: &mut [u16], dwells: &mut [u16]) {
    for (i, stop) in stops.iter().enumerate() {
        put(&stop.at, &mut coords[3 * i..]);
        speeds[i] = stop.speed;
        blends[i] = stop.blend;
        dwells[i] = stop.dwell;
    }
}

/// '6 in stop order'
pub(super) fn check_stops(stops: &[Stop]) -> Result<(), u16> {
    stops.iter().try_for_each(Stop::check)
}

/// Makes the table. 'Every other call: k, lengths, contents in table order'; 8 for 'a table not n² long'.
pub fn make_table(k: u16, coords: &[i32], speeds: &[u16], blends: &[u16], dwells: &[u16], table: &mut [u32]) -> Result<(), u16> {
    let n = count(k)?;
    require(stops_fit(n, coords, speeds, blends, dwells) && table.len() == n * n, WRONG_SIZE)?;
    let stops = lent_stops(n, coords, speeds, blends, dwells);
    check_stops(&stops)?;
    put(&table_of(&stops), table);
    Ok(())
}
