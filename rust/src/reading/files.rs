//! Document 01, 'Records' and 'Turned down': order files read and written.

use super::{
    orders::{check_order, exchanged_forks, forks_in, string_length, string_of},
    records::{add, Due, Rest},
    refusals::{put, require, BYTES_AFTER, WRONG_FORKS, WRONG_K, WRONG_SIZE, WRONG_TOTAL},
    tree::{count, total},
};

/// 'An order file is 4, 5, 6, 3.'
fn due(n: usize) -> [Due; 4] {
    [Due::Order, Due::Stops { n }, Due::Forks { n }, Due::End]
}

/// The count of an order file's bytes.
pub(super) fn file_length(n: usize) -> usize {
    due(n).map(Due::bytes).iter().sum()
}

/// The order file of an allowed order and its total.
pub(super) fn file_of(k: u16, order: &[u16], total: u64) -> Vec<u8> {
    let [head, stops, forks, end] = due(order.len());
    let listed: Vec<u8> = order.iter().flat_map(|stop| stop.to_le_bytes()).collect();
    let mut file = Vec::new();
    add(&mut file, head, &[&k.to_le_bytes()]);
    add(&mut file, stops, &[&total.to_le_bytes(), &listed]);
    add(&mut file, forks, &[&string_of(&exchanged_forks(k.into(), order))]);
    add(&mut file, end, &[]);
    file
}

/// Writes an order file: 'Every other call: k, lengths, contents in table order'. Gives the count of bytes.
pub fn write_order_file(k: u16, order: &[u16], table: &[u32], out: &mut [u8]) -> Result<u64, u16> {
    let n = count(k)?;
    require(order.len() >= n && table.len() == n * n && out.len() >= file_length(n), WRONG_SIZE)?;
    let order = &order[..n];
    check_order(order)?;
    put(&file_of(k, order, total(table, order)), out);
    Ok(file_length(n) as u64)
}

/// What an order file says.
pub(super) struct OrderFile {
    total: u64,
    order: Vec<u16>,
    bits: Vec<u8>,
}

impl OrderFile {
    /// 'all records, 7': 5 for 'an order file's k not the path's' is a field of the first.
    fn records(k: u16, n: usize, file: &[u8]) -> Result<OrderFile, u16> {
        let mut rest = Rest(file);
        let [head, stops, forks, end] = due(n);
        require(rest.record(head)?.u16() == k, WRONG_K)?;
        let mut stops = rest.record(stops)?;
        let mut forks = rest.record(forks)?;
        rest.record(end)?;
        require(rest.0.is_empty(), BYTES_AFTER)?;
        let total = stops.u64();
        let order = (0..n).map(|_| stops.u16()).collect();
        Ok(OrderFile { total, order, bits: forks.bytes(string_length(n)).to_vec() })
    }

    /// 'all records, 7, then 9, 10, 12, 11', for the path's k and a table of n² entries.
    pub(super) fn read(k: u16, table: &[u32], file: &[u8]) -> Result<OrderFile, u16> {
        let n = count(k)?;
        let read = OrderFile::records(k, n, file)?;
        check_order(&read.order)?;
        require(forks_in(n, &read.bits)? == exchanged_forks(k.into(), &read.order), WRONG_FORKS)?;
        require(total(table, &read.order) == read.total, WRONG_TOTAL)?;
        Ok(read)
    }
}

/// Reads an order file: 'the path's k, lent lengths, all records, 7, then 9, 10, 12, 11'. Gives the total.
pub fn read_order_file(k: u16, table: &[u32], file: &[u8], order: &mut [u16], bits: &mut [u8]) -> Result<u64, u16> {
    let n = count(k)?;
    require(table.len() == n * n && order.len() >= n && bits.len() >= string_length(n), WRONG_SIZE)?;
    let read = OrderFile::read(k, table, file)?;
    put(&read.order, order);
    put(&read.bits, bits);
    Ok(read.total)
}
