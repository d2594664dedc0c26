//! Plain Rust reading and writing of paths, for the benchmark. The whole path is judged before anything lent is written.
//!
//! The records are gone through in two ways: `Indices` computes where each begins, `Chunks` takes them off the front as arrays of a known
//! size.

use crate::reading::Stop;

/// The content of the record that begins at a place.
#[inline(always)]
pub(crate) fn record(bytes: &[u8], at: usize, kind: u16, length: usize) -> Result<&[u8], u16> {
    let rest = &bytes[at..];
    if rest.len() < 4 {
        return Err(1);
    }
    if u16::from_le_bytes([rest[2], rest[3]]) != kind {
        return Err(3);
    }
    if usize::from(u16::from_le_bytes([rest[0], rest[1]])) != length {
        return Err(2);
    }
    rest.get(4..2 + length).ok_or(1)
}

/// The stop of a content.
#[inline(always)]
fn stop(content: &[u8], version: u16) -> Stop {
    let wide = |at: usize| i32::from_le_bytes([content[at], content[at + 1], content[at + 2], content[at + 3]]);
    let two = |at: usize| u16::from_le_bytes([content[at], content[at + 1]]);
    let since = |first: u16, at: usize| if version < first { 0 } else { two(at) };
    Stop { at: [wide(0), wide(4), wide(8)], speed: two(12), blend: since(5, 14), dwell: since(6, 16) }
}

/// Whether every field is in range.
#[inline(always)]
pub(crate) fn in_range(stop: &Stop) -> bool {
    stop.at.iter().all(|x| (-20_000..=20_000).contains(x)) && (1..=2_000).contains(&stop.speed) && stop.blend <= 500 && stop.dwell <= 5_000
}

/// The stop in place i of a judged path.
#[inline(always)]
pub(crate) fn stop_at(bytes: &[u8], version: u16, i: usize) -> Stop {
    stop(&bytes[12 + i * (2 + stop_length(version))..], version)
}

/// The length of a stop's record.
#[inline(always)]
fn stop_length(version: u16) -> usize {
    match version {
        4 => 16,
        5 => 18,
        _ => 20,
    }
}

/// Whether a version is known.
#[inline(always)]
fn known(version: u16) -> bool {
    (4..=6).contains(&version)
}

/// The version and k of a path's head.
#[inline(always)]
fn head(bytes: &[u8], highest: u16) -> Result<(u16, u16), u16> {
    if !known(highest) {
        return Err(4);
    }
    let head = record(bytes, 0, 1, 6)?;
    let (version, k) = (u16::from_le_bytes([head[0], head[1]]), u16::from_le_bytes([head[2], head[3]]));
    if version < 4 || version > highest {
        return Err(4);
    }
    if k > 10 {
        return Err(5);
    }
    Ok((version, k))
}

/// Judges the end record, which begins at a place, and that nothing follows it.
#[inline(always)]
pub(crate) fn end(bytes: &[u8], at: usize) -> Result<(), u16> {
    record(bytes, at, 3, 2)?;
    if bytes.len() > at + 4 {
        return Err(7);
    }
    Ok(())
}

/// Whether lent buffers have room for n stops.
#[inline(always)]
pub(crate) fn stops_fit(n: usize, coords: &[i32], speeds: &[u16], blends: &[u16], dwells: &[u16]) -> bool {
    coords.len() >= 3 * n && speeds.len() >= n && blends.len() >= n && dwells.len() >= n
}

/// How the stops of a path are gone through, behind its head.
pub trait Way {
    /// Judges n stops and the end, and hands each stop over.
    fn judge(bytes: &[u8], version: u16, n: usize, each: impl FnMut(usize, Stop)) -> Result<(), u16>;

    /// Stores the stops of a judged path in lent buffers that have room.
    fn store(bytes: &[u8], version: u16, n: usize, coords: &mut [i32], speeds: &mut [u16], blends: &mut [u16], dwells: &mut [u16]);
}

/// By indices.
pub struct Indices;

impl Way for Indices {
    #[inline(always)]
    fn judge(bytes: &[u8], version: u16, n: usize, mut each: impl FnMut(usize, Stop)) -> Result<(), u16> {
        let length = stop_length(version);
        for i in 0..n {
            let stop = stop(record(bytes, 8 + i * (2 + length), 2, length)?, version);
            if !in_range(&stop) {
                return Err(6);
            }
            each(i, stop);
        }
        end(bytes, 8 + n * (2 + length))
    }

    #[inline(always)]
    fn store(bytes: &[u8], version: u16, n: usize, coords: &mut [i32], speeds: &mut [u16], blends: &mut [u16], dwells: &mut [u16]) {
        for i in 0..n {
            let stop = stop_at(bytes, version, i);
            coords[3 * i..3 * i + 3].copy_from_slice(&stop.at);
            speeds[i] = stop.speed;
            blends[i] = stop.blend;
            dwells[i] = stop.dwell;
        }
    }
}

/// By chunks.
pub struct Chunks;

/// The stop of a record of SIZE bytes: 18 in version 4, 20 in version 5, 22 in version 6.
#[inline(always)]
pub(crate) fn stop_in<const SIZE: usize>(record: &[u8; SIZE]) -> Stop {
    stop(&record[4..], 4 + (SIZE as u16 - 18) / 2)
}

#[inline(always)]
fn judge<const SIZE: usize>(bytes: &[u8], n: usize, mut each: impl FnMut(usize, Stop)) -> Result<(), u16> {
    let mut rest = &bytes[8..];
    for i in 0..n {
        record(rest, 0, 2, SIZE - 2)?;
        let (record, after) = rest.split_first_chunk::<SIZE>().ok_or(1u16)?;
        let stop = stop_in(record);
        if !in_range(&stop) {
            return Err(6);
        }
        each(i, stop);
        rest = after;
    }
    end(rest, 0)
}

#[inline(always)]
fn store<const SIZE: usize>(bytes: &[u8], coords: &mut [[i32; 3]], speeds: &mut [u16], blends: &mut [u16], dwells: &mut [u16]) {
    let records = bytes[8..].as_chunks::<SIZE>().0;
    for ((((record, at), speed), blend), dwell) in records.iter().zip(coords).zip(speeds).zip(blends).zip(dwells) {
        let stop = stop_in(record);
        (*at, *speed, *blend, *dwell) = (stop.at, stop.speed, stop.blend, stop.dwell);
    }
}

impl Way for Chunks {
    #[inline(always)]
    fn judge(bytes: &[u8], version: u16, n: usize, each: impl FnMut(usize, Stop)) -> Result<(), u16> {
        match version {
            4 => judge::<18>(bytes, n, each),
            5 => judge::<20>(bytes, n, each),
            _ => judge::<22>(bytes, n, each),
        }
    }

    #[inline(always)]
    fn store(bytes: &[u8], version: u16, n: usize, coords: &mut [i32], speeds: &mut [u16], blends: &mut [u16], dwells: &mut [u16]) {
        let (coords, speeds) = (&mut coords.as_chunks_mut::<3>().0[..n], &mut speeds[..n]);
        let (blends, dwells) = (&mut blends[..n], &mut dwells[..n]);
        match version {
            4 => store::<18>(bytes, coords, speeds, blends, dwells),
            5 => store::<20>(bytes, coords, speeds, blends, dwells),
            _ => store::<22>(bytes, coords, speeds, blends, dwells),
        }
    }
}

/// Reads a path into lent buffers.
pub fn read<W: Way>(
    bytes: &[u8],
    highest: u16,
    coords: &mut [i32],
    speeds: &mut [u16],
    blends: &mut [u16],
    dwells: &mut [u16],
) -> Result<(u16, u16), u16> {
    let (version, k) = head(bytes, highest)?;
    let n = 1usize << k;
    if !stops_fit(n, coords, speeds, blends, dwells) {
        return Err(8);
    }
    W::judge(bytes, version, n, |_, _| ())?;
    W::store(bytes, version, n, coords, speeds, blends, dwells);
    Ok((version, k))
}

/// Reads a path into lent buffers, by indices.
pub fn read_path(
    bytes: &[u8],
    highest: u16,
    coords: &mut [i32],
    speeds: &mut [u16],
    blends: &mut [u16],
    dwells: &mut [u16],
) -> Result<(u16, u16), u16> {
    read::<Indices>(bytes, highest, coords, speeds, blends, dwells)
}

/// Judges a path and stores nothing. `fit` tests what was lent, directly after k.
#[inline(always)]
pub(crate) fn judge_path<W: Way>(bytes: &[u8], highest: u16, fit: impl FnOnce(u16) -> Result<(), u16>) -> Result<(u16, u16), u16> {
    let (version, k) = head(bytes, highest)?;
    fit(k)?;
    W::judge(bytes, version, 1 << k, |_, _| ())?;
    Ok((version, k))
}

/// Reads a path into the caller's own stops, which may be written before the whole is judged. `fit` tests what was lent, directly after k.
#[inline(always)]
pub(crate) fn read_stops<W: Way>(
    bytes: &[u8],
    highest: u16,
    fit: impl FnOnce(u16) -> Result<(), u16>,
    stops: &mut [Stop],
) -> Result<(u16, u16), u16> {
    let (version, k) = head(bytes, highest)?;
    fit(k)?;
    W::judge(bytes, version, 1 << k, |i, stop| stops[i] = stop)?;
    Ok((version, k))
}

/// Writes stops in records of SIZE bytes.
#[inline(always)]
fn write_stops<const SIZE: usize>(stops: &[Stop], out: &mut [u8]) {
    for (stop, record) in stops.iter().zip(out.as_chunks_mut::<SIZE>().0) {
        record[..2].copy_from_slice(&(SIZE as u16 - 2).to_le_bytes());
        record[2..4].copy_from_slice(&2u16.to_le_bytes());
        for (axis, x) in stop.at.iter().enumerate() {
            record[4 + 4 * axis..8 + 4 * axis].copy_from_slice(&x.to_le_bytes());
        }
        record[16..18].copy_from_slice(&stop.speed.to_le_bytes());
        if SIZE >= 20 {
            record[18..20].copy_from_slice(&stop.blend.to_le_bytes());
        }
        if SIZE >= 22 {
            record[20..22].copy_from_slice(&stop.dwell.to_le_bytes());
        }
    }
}

/// Writes 2^k good stops as a path: 4 for the version, 13, and 8 for the output. Gives the count of bytes.
pub(crate) fn write_path(version: u16, k: u16, stops: &[Stop], out: &mut [u8]) -> Result<usize, u16> {
    if !known(version) {
        return Err(4);
    }
    let lost = |stop: &Stop| version < 5 && stop.blend != 0 || version < 6 && stop.dwell != 0;
    if stops.iter().any(lost) {
        return Err(13);
    }
    let size = 8 + stops.len() * (2 + stop_length(version)) + 4;
    let out = out.get_mut(..size).ok_or(8u16)?;
    let (head, rest) = out.split_at_mut(8);
    let (body, end) = rest.split_at_mut(size - 12);
    for (place, number) in head.as_chunks_mut::<2>().0.iter_mut().zip([6, 1, version, k]) {
        *place = number.to_le_bytes();
    }
    match version {
        4 => write_stops::<18>(stops, body),
        5 => write_stops::<20>(stops, body),
        _ => write_stops::<22>(stops, body),
    }
    end.copy_from_slice(&[2, 0, 3, 0]);
    Ok(size)
}
