//! The reading of the documents by itself: document 01's examples, each refusal of its table, and the sequence of the refusals. Nothing here
//! calls the library.

mod examples;
mod filled;
mod forks;
mod listing;
mod named;
mod orders;
mod paths;
mod places;
mod screen;
mod tours;

use evidence::{
    cases::{any_set, seeded},
    reading::*,
};

/// The bytes that a text of hexadecimal numbers says.
fn hex(text: &str) -> Vec<u8> {
    text.split_whitespace().map(|byte| u8::from_str_radix(byte, 16).expect("two hexadecimal digits")).collect()
}

/// 'the path of the 50 example': 'k = 2, x = 0, 30, 10, 20, speeds 100, rest 0', by hand, in version 4, 5 and 6.
const HEAD: [&str; 3] = ["06 00 01 00 04 00 02 00", "06 00 01 00 05 00 02 00", "06 00 01 00 06 00 02 00"];
const STOP: [&str; 3] = [
    "10 00 02 00 XX 00 00 00 00 00 00 00 00 00 00 00 64 00",
    "12 00 02 00 XX 00 00 00 00 00 00 00 00 00 00 00 64 00 00 00",
    "14 00 02 00 XX 00 00 00 00 00 00 00 00 00 00 00 64 00 00 00 00 00",
];
const XS: [&str; 4] = ["00", "1E", "0A", "14"];
const END: &str = "02 00 03 00";

fn fifty(version: u16) -> Vec<u8> {
    let form = usize::from(version - 4);
    let stops = XS.map(|x| STOP[form].replace("XX", x)).join(" ");
    hex(&format!("{} {stops} {END}", HEAD[form]))
}

/// Its order file, as the document writes it.
const FILE: &str = "04 00 04 00 02 00  12 00 05 00 32 00 00 00 00 00 00 00 02 00 03 00 01 00 00 00  03 00 06 00 06  02 00 03 00";

/// Its table of times.
const TABLE: [u32; 16] = [0, 30, 10, 20, 30, 0, 20, 10, 10, 20, 0, 10, 20, 10, 10, 0];

/// The bytes with others in place of those from `at` on.
fn with(bytes: &[u8], at: usize, others: &[u8]) -> Vec<u8> {
    let mut changed = bytes.to_vec();
    changed[at..at + others.len()].copy_from_slice(others);
    changed
}

/// Buffers for a whole run on 2^k stops, three places longer than needed (the table apart), filled with 77.
#[derive(Clone, PartialEq, Debug)]
struct Run {
    coords: Vec<i32>,
    speeds: Vec<u16>,
    blends: Vec<u16>,
    dwells: Vec<u16>,
    table: Vec<u32>,
    order: Vec<u16>,
    totals: Vec<u64>,
    pivots: Vec<u16>,
}

impl Run {
    fn new(k: u16) -> Self {
        let n = 1usize << k;
        Run {
            coords: vec![77; 3 * n + 3],
            speeds: vec![77; n + 3],
            blends: vec![77; n + 3],
            dwells: vec![77; n + 3],
            table: vec![77; n * n],
            order: vec![77; n + 3],
            totals: vec![77; 2 * n + 3],
            pivots: vec![77; 2 * n + 3],
        }
    }
    fn read(&mut self, bytes: &[u8], highest: u16) -> Result<(u16, u16), u16> {
        read_path(bytes, highest, &mut self.coords, &mut self.speeds, &mut self.blends, &mut self.dwells)
    }
    fn make(&mut self, k: u16) -> Result<(), u16> {
        make_table(k, &self.coords, &self.speeds, &self.blends, &self.dwells, &mut self.table)
    }
    fn plan(&mut self, k: u16) -> Result<u64, u16> {
        plan(k, &self.table, &mut self.order, &mut self.totals, &mut self.pivots)
    }
    fn write(&self, version: u16, k: u16, out: &mut [u8]) -> Result<u64, u16> {
        write_path(version, k, &self.coords, &self.speeds, &self.blends, &self.dwells, out)
    }
    fn whole(&mut self, bytes: &[u8], highest: u16) -> Result<(u16, u16, u64), u16> {
        plan_path(bytes, highest, &mut self.table, &mut self.order, &mut self.totals, &mut self.pivots)
    }
}

/// The refusal of path bytes by every call that reads them, with buffers that suffice for k = 2; none of them writes.
fn path_refused(bytes: &[u8], highest: u16) -> u16 {
    let before = Run::new(2);
    let mut run = before.clone();
    let number = run.read(bytes, highest).expect_err("a refusal");
    assert_eq!(run.whole(bytes, highest), Err(number));
    assert!(run == before, "a refusal wrote");
    let mut orders = [77; 8];
    assert_eq!(fork_cost(bytes, highest, 0, &mut run.totals, &mut run.pivots, &mut orders, 0), Err(number));
    assert!(run == before && orders == [77; 8], "a refusal wrote");
    let mut out = [77; 200];
    let negative = -i64::from(number);
    assert_eq!(cell_plan(bytes, highest, &mut out), negative);
    assert_eq!(cell_check(bytes, highest, &[]), negative);
    assert_eq!(cell_rewrite(bytes, highest, 3, &mut out), negative);
    assert_eq!(out, [77; 200]);
    let mut draws = (0..6).map(|d| draw_number(bytes, highest, d));
    assert!(draws.any(|draw| draw == Err(number)));
    assert!(draws.all(|draw| draw == Err(number)), "later draws repeat it");
    number
}
