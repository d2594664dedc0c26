//! The proved library's exported functions and the controller's three calls: each declared once and wrapped once in a safe function.
//!
//! A slice passes as a pointer and a length. Nothing checks a declaration against the Rattle source, so the tests run every call between
//! guard pages too. A result below 0 is a refusal's number made negative. No function has a `requires`; each reads the slices that are
//! lent to it as constant and writes only within the others.

use crate::reading::Stop;

mod declared {
    #[rustfmt::skip]
    extern "C" {
        pub fn ffi_read_path(
            bytes: *const u8, bytes_len: usize, highest: u16,
            coords: *mut i32, coords_len: usize, speeds: *mut u16, speeds_len: usize, blends: *mut u16, blends_len: usize,
            dwells: *mut u16, dwells_len: usize,
        ) -> i64;
        pub fn ffi_write_path(
            version: u16, k: u16,
            coords: *const i32, coords_len: usize, speeds: *const u16, speeds_len: usize, blends: *const u16, blends_len: usize,
            dwells: *const u16, dwells_len: usize,
            out: *mut u8, out_len: usize,
        ) -> i64;
        pub fn ffi_make_table(
            k: u16,
            coords: *const i32, coords_len: usize, speeds: *const u16, speeds_len: usize, blends: *const u16, blends_len: usize,
            dwells: *const u16, dwells_len: usize,
            table: *mut u32, table_len: usize,
        ) -> i64;
        pub fn ffi_table_from(bytes: *const u8, bytes_len: usize, version: u16, k: u16, table: *mut u32, table_len: usize) -> i64;
        pub fn ffi_plan(
            k: u16, table: *const u32, table_len: usize,
            order: *mut u16, order_len: usize, totals: *mut u64, totals_len: usize, pivots: *mut u16, pivots_len: usize,
        ) -> i64;
        pub fn ffi_plan_weighings(
            k: u16, table: *const u32, table_len: usize,
            order: *mut u16, order_len: usize, totals: *mut u64, totals_len: usize, pivots: *mut u16, pivots_len: usize,
        ) -> i64;
        pub fn ffi_plan_places(
            k: u16, table: *const u32, table_len: usize, places: *const u32, places_len: usize,
            order: *mut u16, order_len: usize, totals: *mut u64, totals_len: usize, pivots: *mut u16, pivots_len: usize,
        ) -> i64;
        pub fn ffi_tour(
            k: u16, table: *const u32, table_len: usize,
            order: *mut u16, order_len: usize, totals: *mut u64, totals_len: usize, pivots: *mut u16, pivots_len: usize,
        ) -> i64;
        pub fn ffi_foretell_bytes(k: u16) -> i64;
        pub fn ffi_foretell_weighings(k: u16) -> i64;
        pub fn ffi_plan_path(
            bytes: *const u8, bytes_len: usize, highest: u16, table: *mut u32, table_len: usize,
            order: *mut u16, order_len: usize, totals: *mut u64, totals_len: usize, pivots: *mut u16, pivots_len: usize,
        ) -> i64;
        pub fn ffi_fork_cost(
            bytes: *const u8, bytes_len: usize, highest: u16, fork: u16,
            totals: *mut u64, totals_len: usize, pivots: *mut u16, pivots_len: usize, orders: *mut u16, orders_len: usize, field: u16,
        ) -> i64;
        pub fn ffi_plan_filled(
            k: u16, table: *const u32, table_len: usize, empties: *const u8, empties_len: usize,
            list: *mut u16, list_len: usize, bits: *mut u8, bits_len: usize, work: *mut u64, work_len: usize,
        ) -> i64;
        pub fn ffi_fork_bits(k: u16, order: *const u16, order_len: usize, bits: *mut u8, bits_len: usize) -> i64;
        pub fn ffi_order_of_bits(k: u16, bits: *const u8, bits_len: usize, order: *mut u16, order_len: usize) -> i64;
        pub fn ffi_exchange(
            k: u16, order: *const u16, order_len: usize, bits: *const u8, bits_len: usize, out: *mut u16, out_len: usize,
        ) -> i64;
        pub fn ffi_group_sums(
            bytes: *const u8, bytes_len: usize, highest: u16, order: *const u16, order_len: usize, sums: *mut u64, sums_len: usize,
        ) -> i64;
        pub fn ffi_exchange_fork(
            bytes: *const u8, bytes_len: usize, highest: u16, fork: u16, order: *mut u16, order_len: usize, sums: *mut u64, sums_len: usize,
        ) -> i64;
        pub fn ffi_keep(
            bytes: *const u8, bytes_len: usize, highest: u16, name: u16, order: *const u16, order_len: usize, sums: *const u64, sums_len: usize,
            marks: *mut u8, marks_len: usize, stops: *mut u16, stops_len: usize, kept: *mut u64, kept_len: usize,
        ) -> i64;
        pub fn ffi_come_back(
            bytes: *const u8, bytes_len: usize, highest: u16, name: u16, order: *mut u16, order_len: usize, sums: *mut u64, sums_len: usize,
            marks: *const u8, marks_len: usize, stops: *const u16, stops_len: usize, kept: *const u64, kept_len: usize,
        ) -> i64;
        pub fn ffi_clear(marks: *mut u8, marks_len: usize) -> i64;
        pub fn ffi_order_total(k: u16, order: *const u16, order_len: usize, table: *const u32, table_len: usize) -> i64;
        pub fn ffi_write_order_file(
            k: u16, order: *const u16, order_len: usize, table: *const u32, table_len: usize, out: *mut u8, out_len: usize,
        ) -> i64;
        pub fn ffi_read_order_file(
            k: u16, table: *const u32, table_len: usize, file: *const u8, file_len: usize,
            order: *mut u16, order_len: usize, bits: *mut u8, bits_len: usize,
        ) -> i64;
        pub fn ffi_draw(bytes: *const u8, bytes_len: usize, highest: u16, d: usize) -> i64;
        pub fn ffi_draw_field(bytes: *const u8, bytes_len: usize, highest: u16, d: usize, field: u16) -> i64;
        pub fn cell_plan(path: *const u8, path_len: usize, highest: u16, out: *mut u8, out_len: usize) -> i64;
        pub fn cell_check(path: *const u8, path_len: usize, highest: u16, file: *const u8, file_len: usize) -> i64;
        pub fn cell_rewrite(path: *const u8, path_len: usize, highest: u16, version: u16, out: *mut u8, out_len: usize) -> i64;
    }
}

/// A result, or the refusal's number.
fn answer(result: i64) -> Result<u64, u16> {
    if result < 0 {
        Err(u16::try_from(-result).expect("a refusal has 16 bits"))
    } else {
        Ok(result as u64)
    }
}

/// No result, or the refusal's number.
fn done(result: i64) -> Result<(), u16> {
    answer(result).map(|value| assert_eq!(value, 0))
}

/// A total, a version and k out of one number: k in 16 bits, the version in 4, the total above them.
fn unpacked(value: u64) -> (u64, u16, u16) {
    (value >> 20, (value >> 16 & 15) as u16, value as u16)
}

/// `path::read_path`: version and k.
pub fn read_path(
    bytes: &[u8],
    highest: u16,
    coords: &mut [i32],
    speeds: &mut [u16],
    blends: &mut [u16],
    dwells: &mut [u16],
) -> Result<(u16, u16), u16> {
    let (coords_len, speeds_len, blends_len, dwells_len) = (coords.len(), speeds.len(), blends.len(), dwells.len());
    let (coords, speeds, blends, dwells) = (coords.as_mut_ptr(), speeds.as_mut_ptr(), blends.as_mut_ptr(), dwells.as_mut_ptr());
    #[rustfmt::skip]
    let result = unsafe {
        declared::ffi_read_path(
            bytes.as_ptr(), bytes.len(), highest, coords, coords_len, speeds, speeds_len, blends, blends_len, dwells, dwells_len,
        )
    };
    answer(result).map(unpacked).map(|(_, version, k)| (version, k))
}

/// `path::write_path`: the count of bytes written.
pub fn write_path(version: u16, k: u16, coords: &[i32], speeds: &[u16], blends: &[u16], dwells: &[u16], out: &mut [u8]) -> Result<u64, u16> {
    let (coords_len, speeds_len, blends_len, dwells_len) = (coords.len(), speeds.len(), blends.len(), dwells.len());
    let (coords, speeds, blends, dwells) = (coords.as_ptr(), speeds.as_ptr(), blends.as_ptr(), dwells.as_ptr());
    let (out, out_len) = (out.as_mut_ptr(), out.len());
    #[rustfmt::skip]
    let result = unsafe {
        declared::ffi_write_path(
            version, k, coords, coords_len, speeds, speeds_len, blends, blends_len, dwells, dwells_len, out, out_len,
        )
    };
    answer(result)
}

/// `times::make_table`.
pub fn make_table(k: u16, coords: &[i32], speeds: &[u16], blends: &[u16], dwells: &[u16], table: &mut [u32]) -> Result<(), u16> {
    let (coords_len, speeds_len, blends_len, dwells_len) = (coords.len(), speeds.len(), blends.len(), dwells.len());
    let (coords, speeds, blends, dwells) = (coords.as_ptr(), speeds.as_ptr(), blends.as_ptr(), dwells.as_ptr());
    let (table, table_len) = (table.as_mut_ptr(), table.len());
    #[rustfmt::skip]
    let result = unsafe {
        declared::ffi_make_table(
            k, coords, coords_len, speeds, speeds_len, blends, blends_len, dwells, dwells_len, table, table_len,
        )
    };
    done(result)
}

/// `times::table_from`.
pub fn table_from(bytes: &[u8], version: u16, k: u16, table: &mut [u32]) -> Result<(), u16> {
    done(unsafe { declared::ffi_table_from(bytes.as_ptr(), bytes.len(), version, k, table.as_mut_ptr(), table.len()) })
}

/// `planner::plan`: the total of the order that was written.
pub fn plan(k: u16, table: &[u32], order: &mut [u16], totals: &mut [u64], pivots: &mut [u16]) -> Result<u64, u16> {
    let (order_len, totals_len, pivots_len) = (order.len(), totals.len(), pivots.len());
    let (order, totals, pivots) = (order.as_mut_ptr(), totals.as_mut_ptr(), pivots.as_mut_ptr());
    answer(unsafe { declared::ffi_plan(k, table.as_ptr(), table.len(), order, order_len, totals, totals_len, pivots, pivots_len) })
}

/// `planner::plan`: the number of weighings.
pub fn plan_weighings(k: u16, table: &[u32], order: &mut [u16], totals: &mut [u64], pivots: &mut [u16]) -> Result<u64, u16> {
    let (order_len, totals_len, pivots_len) = (order.len(), totals.len(), pivots.len());
    let (order, totals, pivots) = (order.as_mut_ptr(), totals.as_mut_ptr(), pivots.as_mut_ptr());
    answer(unsafe { declared::ffi_plan_weighings(k, table.as_ptr(), table.len(), order, order_len, totals, totals_len, pivots, pivots_len) })
}

/// `planner::plan_places`: the total with the places.
#[rustfmt::skip]
pub fn plan_places(
    k: u16, table: &[u32], places: &[u32], order: &mut [u16], totals: &mut [u64], pivots: &mut [u16],
) -> Result<u64, u16> {
    let (order_len, totals_len, pivots_len) = (order.len(), totals.len(), pivots.len());
    let (order, totals, pivots) = (order.as_mut_ptr(), totals.as_mut_ptr(), pivots.as_mut_ptr());
    let result = unsafe {
        declared::ffi_plan_places(
            k, table.as_ptr(), table.len(), places.as_ptr(), places.len(), order, order_len, totals, totals_len, pivots, pivots_len,
        )
    };
    answer(result)
}

/// `planner::tour`: the closed total.
pub fn tour(k: u16, table: &[u32], order: &mut [u16], totals: &mut [u64], pivots: &mut [u16]) -> Result<u64, u16> {
    let (order_len, totals_len, pivots_len) = (order.len(), totals.len(), pivots.len());
    let (order, totals, pivots) = (order.as_mut_ptr(), totals.as_mut_ptr(), pivots.as_mut_ptr());
    answer(unsafe { declared::ffi_tour(k, table.as_ptr(), table.len(), order, order_len, totals, totals_len, pivots, pivots_len) })
}

/// `planner::foretell`: the bytes of lent work space, and the weighings.
pub fn foretell(k: u16) -> Result<(u64, u64), u16> {
    let (bytes, weighings) = unsafe { (declared::ffi_foretell_bytes(k), declared::ffi_foretell_weighings(k)) };
    Ok((answer(bytes)?, answer(weighings)?))
}

/// `path_plan::plan_path`: version, k and the total.
pub fn plan_path(
    bytes: &[u8],
    highest: u16,
    table: &mut [u32],
    order: &mut [u16],
    totals: &mut [u64],
    pivots: &mut [u16],
) -> Result<(u16, u16, u64), u16> {
    let (table_len, order_len, totals_len, pivots_len) = (table.len(), order.len(), totals.len(), pivots.len());
    let (table, order, totals, pivots) = (table.as_mut_ptr(), order.as_mut_ptr(), totals.as_mut_ptr(), pivots.as_mut_ptr());
    #[rustfmt::skip]
    let result = unsafe {
        declared::ffi_plan_path(
            bytes.as_ptr(), bytes.len(), highest, table, table_len, order, order_len, totals, totals_len, pivots, pivots_len,
        )
    };
    answer(result).map(unpacked).map(|(total, version, k)| (version, k, total))
}

/// `fork_cost::fork_cost`: one field of what it tells: 0 the state, 1 the least total of the opposite state, 2 the difference, 3 the place of a tie and 1 more or 0.
#[rustfmt::skip]
pub fn fork_cost(
    bytes: &[u8], highest: u16, fork: u16, totals: &mut [u64], pivots: &mut [u16], orders: &mut [u16], field: u16,
) -> Result<u64, u16> {
    let (totals_len, pivots_len, orders_len) = (totals.len(), pivots.len(), orders.len());
    let (totals, pivots, orders) = (totals.as_mut_ptr(), pivots.as_mut_ptr(), orders.as_mut_ptr());
    let result = unsafe {
        declared::ffi_fork_cost(
            bytes.as_ptr(), bytes.len(), highest, fork, totals, totals_len, pivots, pivots_len, orders, orders_len, field,
        )
    };
    answer(result)
}

/// `filled::plan_filled`: the total and the list's length, out of one number.
pub fn plan_filled(k: u16, table: &[u32], empties: &[u8], list: &mut [u16], bits: &mut [u8], work: &mut [u64]) -> Result<(u64, usize), u16> {
    let (list_len, bits_len, work_len) = (list.len(), bits.len(), work.len());
    let (list, bits, work) = (list.as_mut_ptr(), bits.as_mut_ptr(), work.as_mut_ptr());
    #[rustfmt::skip]
    let result = unsafe {
        declared::ffi_plan_filled(
            k, table.as_ptr(), table.len(), empties.as_ptr(), empties.len(), list, list_len, bits, bits_len, work, work_len,
        )
    };
    answer(result).map(|value| (value >> 7, (value & 127) as usize))
}

/// `orders::fork_bits`.
pub fn fork_bits(k: u16, order: &[u16], bits: &mut [u8]) -> Result<(), u16> {
    done(unsafe { declared::ffi_fork_bits(k, order.as_ptr(), order.len(), bits.as_mut_ptr(), bits.len()) })
}

/// `orders::order_of_bits`.
pub fn order_of_bits(k: u16, bits: &[u8], order: &mut [u16]) -> Result<(), u16> {
    done(unsafe { declared::ffi_order_of_bits(k, bits.as_ptr(), bits.len(), order.as_mut_ptr(), order.len()) })
}

/// `orders::exchange`.
pub fn exchange(k: u16, order: &[u16], bits: &[u8], out: &mut [u16]) -> Result<(), u16> {
    let (out, out_len) = (out.as_mut_ptr(), out.len());
    done(unsafe { declared::ffi_exchange(k, order.as_ptr(), order.len(), bits.as_ptr(), bits.len(), out, out_len) })
}

/// `screen::group_sums`.
pub fn group_sums(bytes: &[u8], highest: u16, order: &[u16], sums: &mut [u64]) -> Result<(), u16> {
    let (sums, sums_len) = (sums.as_mut_ptr(), sums.len());
    done(unsafe { declared::ffi_group_sums(bytes.as_ptr(), bytes.len(), highest, order.as_ptr(), order.len(), sums, sums_len) })
}

/// `screen::exchange_fork`.
pub fn exchange_fork(bytes: &[u8], highest: u16, fork: u16, order: &mut [u16], sums: &mut [u64]) -> Result<(), u16> {
    let (order_len, sums_len) = (order.len(), sums.len());
    let (order, sums) = (order.as_mut_ptr(), sums.as_mut_ptr());
    done(unsafe { declared::ffi_exchange_fork(bytes.as_ptr(), bytes.len(), highest, fork, order, order_len, sums, sums_len) })
}

/// `named::keep`.
#[rustfmt::skip]
#[allow(clippy::too_many_arguments)]
pub fn keep(
    bytes: &[u8], highest: u16, name: u16, order: &[u16], sums: &[u64], marks: &mut [u8], stops: &mut [u16], kept: &mut [u64],
) -> Result<(), u16> {
    let (marks_len, stops_len, kept_len) = (marks.len(), stops.len(), kept.len());
    let (marks, stops, kept) = (marks.as_mut_ptr(), stops.as_mut_ptr(), kept.as_mut_ptr());
    done(unsafe {
        declared::ffi_keep(
            bytes.as_ptr(), bytes.len(), highest, name, order.as_ptr(), order.len(), sums.as_ptr(), sums.len(),
            marks, marks_len, stops, stops_len, kept, kept_len,
        )
    })
}

/// `named::come_back`.
#[rustfmt::skip]
#[allow(clippy::too_many_arguments)]
pub fn come_back(
    bytes: &[u8], highest: u16, name: u16, order: &mut [u16], sums: &mut [u64], marks: &[u8], stops: &[u16], kept: &[u64],
) -> Result<(), u16> {
    let (order_len, sums_len) = (order.len(), sums.len());
    let (order, sums) = (order.as_mut_ptr(), sums.as_mut_ptr());
    done(unsafe {
        declared::ffi_come_back(
            bytes.as_ptr(), bytes.len(), highest, name, order, order_len, sums, sums_len,
            marks.as_ptr(), marks.len(), stops.as_ptr(), stops.len(), kept.as_ptr(), kept.len(),
        )
    })
}

/// `named::clear`.
pub fn clear(marks: &mut [u8]) -> Result<(), u16> {
    done(unsafe { declared::ffi_clear(marks.as_mut_ptr(), marks.len()) })
}

/// `orders::order_total`: the total.
pub fn order_total(k: u16, order: &[u16], table: &[u32]) -> Result<u64, u16> {
    answer(unsafe { declared::ffi_order_total(k, order.as_ptr(), order.len(), table.as_ptr(), table.len()) })
}

/// `order_file::write_order_file`: the count of bytes written.
pub fn write_order_file(k: u16, order: &[u16], table: &[u32], out: &mut [u8]) -> Result<u64, u16> {
    let (out, out_len) = (out.as_mut_ptr(), out.len());
    answer(unsafe { declared::ffi_write_order_file(k, order.as_ptr(), order.len(), table.as_ptr(), table.len(), out, out_len) })
}

/// `order_file::read_order_file`: the total.
pub fn read_order_file(k: u16, table: &[u32], file: &[u8], order: &mut [u16], bits: &mut [u8]) -> Result<u64, u16> {
    let (order_len, bits_len) = (order.len(), bits.len());
    let (order, bits) = (order.as_mut_ptr(), bits.as_mut_ptr());
    let result = unsafe {
        declared::ffi_read_order_file(k, table.as_ptr(), table.len(), file.as_ptr(), file.len(), order, order_len, bits, bits_len)
    };
    answer(result)
}

/// `reader::draw_number`: a stop, the end, or the refusal. Where there is no stop every field is 0.
pub fn draw_number(bytes: &[u8], highest: u16, d: usize) -> Result<Option<Stop>, u16> {
    let field = |field: u16| unsafe { declared::ffi_draw_field(bytes.as_ptr(), bytes.len(), highest, d, field) };
    let verdict = answer(unsafe { declared::ffi_draw(bytes.as_ptr(), bytes.len(), highest, d) });
    if verdict == Ok(0) {
        let at = [0, 1, 2].map(|axis| i32::try_from(field(axis)).expect("a coordinate has 32 bits"));
        let [speed, blend, dwell] = [3, 4, 5].map(|place| u16::try_from(field(place)).expect("a speed, a blend or a dwell has 16 bits"));
        return Ok(Some(Stop { at, speed, blend, dwell }));
    }
    assert!((0..6).all(|place| field(place) == 0), "a field beside the end or a refusal");
    verdict.map(|value| {
        assert_eq!(value, 1, "the end");
        None
    })
}

/// The controller's call: the count of bytes of the order file, or a refusal as a negative number.
pub fn cell_plan(path: &[u8], highest: u16, out: &mut [u8]) -> i64 {
    unsafe { declared::cell_plan(path.as_ptr(), path.len(), highest, out.as_mut_ptr(), out.len()) }
}

/// The controller's call: 0, or a refusal as a negative number.
pub fn cell_check(path: &[u8], highest: u16, file: &[u8]) -> i64 {
    unsafe { declared::cell_check(path.as_ptr(), path.len(), highest, file.as_ptr(), file.len()) }
}

/// The controller's call: the count of bytes of the path, or a refusal as a negative number.
pub fn cell_rewrite(path: &[u8], highest: u16, version: u16, out: &mut [u8]) -> i64 {
    unsafe { declared::cell_rewrite(path.as_ptr(), path.len(), highest, version, out.as_mut_ptr(), out.len()) }
}
