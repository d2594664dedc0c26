//! Plain Rust order files, for the benchmark.

use crate::plain_path::{end, record};

/// The bytes of a file of n stops.
pub(crate) fn file_size(n: usize) -> usize {
    26 + 2 * n + n.div_ceil(8)
}

/// The fork string of an allowed order of up to 64 stops: the lowest fork above the stops in places p − 1 and p is exchanged exactly if bit
/// t of the latter is 0, where t is the number of p's trailing zero bits.
fn fork_string(order: &[u16]) -> [u8; 8] {
    let n = order.len();
    let mut bits = 0u64;
    for (p, &stop) in order.iter().enumerate().skip(1) {
        let t = p.trailing_zeros();
        if stop >> t & 1 == 0 {
            bits |= 1 << ((n + usize::from(stop)) >> (t + 1));
        }
    }
    bits.to_le_bytes()
}

/// Writes the file of an allowed order of up to 64 stops to an output that is long enough. Gives the count of bytes.
pub(crate) fn write_file(k: u16, order: &[u16], total: u64, out: &mut [u8]) -> usize {
    let n = order.len();
    let string = n.div_ceil(8);
    let (head, rest) = out[..file_size(n)].split_at_mut(6);
    let (stops, rest) = rest.split_at_mut(12 + 2 * n);
    let (forks, end) = rest.split_at_mut(4 + string);
    for (place, number) in head.as_chunks_mut::<2>().0.iter_mut().zip([4, 4, k]) {
        *place = number.to_le_bytes();
    }
    stops[..2].copy_from_slice(&(10 + 2 * n as u16).to_le_bytes());
    stops[2..4].copy_from_slice(&5u16.to_le_bytes());
    stops[4..12].copy_from_slice(&total.to_le_bytes());
    for (place, stop) in stops[12..].as_chunks_mut::<2>().0.iter_mut().zip(order) {
        *place = stop.to_le_bytes();
    }
    forks[..2].copy_from_slice(&(2 + string as u16).to_le_bytes());
    forks[2..4].copy_from_slice(&6u16.to_le_bytes());
    forks[4..].copy_from_slice(&fork_string(order)[..string]);
    end.copy_from_slice(&[2, 0, 3, 0]);
    file_size(n)
}

/// Reads a file of up to 64 stops: all records, 7, then 9, 10 and 12. Gives the total that it says; its order is left in `order`.
pub(crate) fn read_file(k: u16, file: &[u8], order: &mut [u16]) -> Result<u64, u16> {
    let n = order.len();
    let string = n.div_ceil(8);
    if record(file, 0, 4, 4)? != k.to_le_bytes() {
        return Err(5);
    }
    let stops = record(file, 6, 5, 10 + 2 * n)?;
    let forks = record(file, 18 + 2 * n, 6, 2 + string)?;
    end(file, 22 + 2 * n + string)?;
    let (total, stops) = stops.split_first_chunk::<8>().expect("the content is as long as its record says");
    for (stop, place) in order.iter_mut().zip(stops.as_chunks::<2>().0) {
        *stop = u16::from_le_bytes(*place);
    }
    if order.iter().any(|&stop| usize::from(stop) >= n) {
        return Err(9);
    }
    for (p, pair) in order.windows(2).enumerate() {
        let r = 1 << (p + 1).trailing_zeros();
        if !(r..2 * r).contains(&(pair[0] ^ pair[1])) {
            return Err(10);
        }
    }
    if *forks != fork_string(order)[..string] {
        return Err(12);
    }
    Ok(u64::from_le_bytes(*total))
}
