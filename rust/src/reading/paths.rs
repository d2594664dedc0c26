//! Document 01, 'Records' and 'Turned down', with document 02's M-102: paths read and written.

use super::{
    records::{add, Due, Fields, Rest},
    refusals::{put, require, BYTES_AFTER, LOST_FIELD, WRONG_SIZE, WRONG_VERSION},
    stops::{check_stops, lent_stops, put_stops, stops_fit, table_of, Stop},
    tree::count,
};

/// 'A path is kind 1, n of kind 2, kind 3.'
pub(super) struct Path {
    pub(super) version: u16,
    pub(super) k: u16,
    pub(super) stops: Vec<Stop>,
}

/// M-102: 'The highest known version and the version to be written may be 4, 5 or 6, and 4 is now given for others.'
pub(super) fn check_version(version: u16) -> Result<(), u16> {
    require([4, 5, 6].contains(&version), WRONG_VERSION)
}

/// How many of a stop's fields x, y, z, speed, blend, dwell a record of a known version carries: 'in version 5 also blend'; M-102: 'Version 6
/// stops carry, after the blend, a 2-byte dwell'.
fn fields_of(version: u16) -> usize {
    match version {
        4 => 4,
        5 => 5,
        _ => 6,
    }
}

/// 'x, y, z 4 bytes each, speed 2' and the later fields. 'Version 4 reads as blend 0.' M-102: 'Versions 4 and 5 read as dwell 0.'
fn stop_of(mut fields: Fields, version: u16) -> Stop {
    let at = [fields.i32(), fields.i32(), fields.i32()];
    let speed = fields.u16();
    let [blend, dwell] = [5, 6].map(|count| if fields_of(version) < count { 0 } else { fields.u16() });
    Stop { at, speed, blend, dwell }
}

/// M-102: 'Number 13 covers any field not 0 that the version to be written lacks.'
fn loses_nothing(stop: &Stop, version: u16) -> bool {
    let later = [stop.blend, stop.dwell];
    later[fields_of(version) - 4..].iter().all(|&field| field == 0)
}

/// 'Reading: highest known version first. .. In the head: version, k, then lent lengths (8).' Then every stop's record and its fields (6),
/// the end record, and 7 for 'bytes after the end record'. Adds each stop before the end or the first refused record to `stops`; gives the
/// version and k. `fit` says of a k up to 10 whether what was lent suffices.
pub(super) fn read_along(bytes: &[u8], highest: u16, fit: impl FnOnce(u16) -> bool, stops: &mut Vec<Stop>) -> Result<(u16, u16), u16> {
    check_version(highest)?;
    let mut rest = Rest(bytes);
    let mut head = rest.record(Due::Path)?;
    let (version, k) = (head.u16(), head.u16());
    check_version(version)?;
    require(version <= highest, WRONG_VERSION)?;
    let n = count(k)?;
    require(fit(k), WRONG_SIZE)?;
    for _ in 0..n {
        let stop = stop_of(rest.record(Due::Stop { version })?, version);
        stop.check()?;
        stops.push(stop);
    }
    rest.record(Due::End)?;
    require(rest.0.is_empty(), BYTES_AFTER)?;
    Ok((version, k))
}

impl Path {
    /// A whole reading: the path that the bytes mean, or the refusal.
    pub(super) fn read(bytes: &[u8], highest: u16, fit: impl FnOnce(u16) -> bool) -> Result<Path, u16> {
        let mut stops = Vec::new();
        let (version, k) = read_along(bytes, highest, fit, &mut stops)?;
        Ok(Path { version, k, stops })
    }

    /// The end of writing a path: '13, output (8)'. 'A lent output needs as many places as its result has.' Gives the count of bytes.
    pub(super) fn write(&self, out: &mut [u8]) -> Result<u64, u16> {
        require(self.stops.iter().all(|stop| loses_nothing(stop, self.version)), LOST_FIELD)?;
        let bytes = self.bytes();
        require(out.len() >= bytes.len(), WRONG_SIZE)?;
        put(&bytes, out);
        Ok(bytes.len() as u64)
    }

    /// The path's records.
    fn bytes(&self) -> Vec<u8> {
        let mut file = Vec::new();
        add(&mut file, Due::Path, &[&self.version.to_le_bytes(), &self.k.to_le_bytes()]);
        for stop in &self.stops {
            let [x, y, z] = stop.at.map(i32::to_le_bytes);
            let [speed, blend, dwell] = [stop.speed, stop.blend, stop.dwell].map(u16::to_le_bytes);
            let fields: [&[u8]; 6] = [&x, &y, &z, &speed, &blend, &dwell];
            add(&mut file, Due::Stop { version: self.version }, &fields[..fields_of(self.version)]);
        }
        add(&mut file, Due::End, &[]);
        file
    }
}

/// Reads a path into lent buffers; gives the version and k.
pub fn read_path(
    bytes: &[u8],
    highest: u16,
    coords: &mut [i32],
    speeds: &mut [u16],
    blends: &mut [u16],
    dwells: &mut [u16],
) -> Result<(u16, u16), u16> {
    let path = Path::read(bytes, highest, |k| stops_fit(1 << k, coords, speeds, blends, dwells))?;
    put_stops(&path.stops, coords, speeds, blends, dwells);
    Ok((path.version, path.k))
}

/// 'Writing a path: version, k, stops lent (8), 6 in stop order, 13, output (8).' Gives the count of bytes written.
pub fn write_path(version: u16, k: u16, coords: &[i32], speeds: &[u16], blends: &[u16], dwells: &[u16], out: &mut [u8]) -> Result<u64, u16> {
    check_version(version)?;
    let n = count(k)?;
    require(stops_fit(n, coords, speeds, blends, dwells), WRONG_SIZE)?;
    let stops = lent_stops(n, coords, speeds, blends, dwells);
    check_stops(&stops)?;
    Path { version, k, stops }.write(out)
}

/// The table of the stops of path bytes 'for a caller that has read their head', which gave the version and k: 'Every other call: k, lengths, contents'. The head's own 8
/// bytes are not looked at again.
pub fn table_from(bytes: &[u8], version: u16, k: u16, table: &mut [u32]) -> Result<(), u16> {
    let n = count(k)?;
    require(table.len() == n * n, WRONG_SIZE)?;
    check_version(version)?;
    let head = [6, 0, 1, 0, version as u8, 0, k as u8, 0];
    let path = Path::read(&[&head[..], bytes.get(8..).unwrap_or(&[])].concat(), version, |_| true)?;
    put(&table_of(&path.stops), table);
    Ok(())
}
