//! Document 01: 'The cell's controller, written in C, calls us for three jobs'.

use super::{
    files::{file_length, file_of, OrderFile},
    paths::{check_version, Path},
    plans::wanted,
    refusals::put,
    stops::table_of,
};

/// 'These calls take k up to 6; a larger k is 8, found directly after k.'
const LARGEST_K: u16 = 6;

/// 'The result is the count of bytes written, 0 for a good check, or the refusal number made negative.'
fn answer(result: Result<u64, u16>) -> i64 {
    match result {
        Ok(count) => i64::try_from(count).expect("k is at most 6"),
        Err(number) => -i64::from(number),
    }
}

/// 'path bytes to order-file bytes'
pub fn cell_plan(path: &[u8], highest: u16, out: &mut [u8]) -> i64 {
    answer(plan_job(path, highest, out))
}

/// 'The controller's order-file output counts among the path head's lengths.'
fn plan_job(path: &[u8], highest: u16, out: &mut [u8]) -> Result<u64, u16> {
    let path = Path::read(path, highest, |k| k <= LARGEST_K && out.len() >= file_length(1 << k))?;
    let (order, total) = wanted(path.k, &table_of(&path.stops));
    let file = file_of(path.k, &order, total);
    put(&file, out);
    Ok(file.len() as u64)
}

/// 'an order file checked against path bytes'
pub fn cell_check(path: &[u8], highest: u16, file: &[u8]) -> i64 {
    answer(check_job(path, highest, file))
}

/// 'Where a path is handed over too, its reading comes first.'
fn check_job(path: &[u8], highest: u16, file: &[u8]) -> Result<u64, u16> {
    let path = Path::read(path, highest, |k| k <= LARGEST_K)?;
    OrderFile::read(path.k, &table_of(&path.stops), file)?;
    Ok(0)
}

/// 'path bytes rewritten in another version'
pub fn cell_rewrite(path: &[u8], highest: u16, version: u16, out: &mut [u8]) -> i64 {
    answer(rewrite_job(path, highest, version, out))
}

/// 'Where a path is handed over too, its reading comes first; the version to be written is tested after that and need only be 4 or 5 (M-102: or 6). ..
/// a rewritten path's output is tested last.'
fn rewrite_job(path: &[u8], highest: u16, version: u16, out: &mut [u8]) -> Result<u64, u16> {
    let path = Path::read(path, highest, |k| k <= LARGEST_K)?;
    check_version(version)?;
    Path { version, ..path }.write(out)
}
