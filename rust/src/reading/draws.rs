//! Document 01, 'Records': 'The stops can also be drawn one after another from the file's bytes'.

use super::{paths::read_along, stops::Stop};

/// Draw d, counted from 0: 'each stop before the end or before the first refused record, then the end or the refusal that a whole reading
/// with long enough buffers gives; later draws repeat it'.
pub fn draw_number(bytes: &[u8], highest: u16, d: usize) -> Result<Option<Stop>, u16> {
    let mut stops = Vec::new();
    let whole = read_along(bytes, highest, |_| true, &mut stops);
    match stops.get(d) {
        Some(&stop) => Ok(Some(stop)),
        None => whole.map(|_| None),
    }
}
