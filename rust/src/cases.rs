//! Inputs from a fixed seed.

use crate::{random::Random, reading};

/// The seed of every run.
pub const SEED: u64 = 20_261_115;

/// How many times as many cases as usual: `ROUNDS` in the environment, 1 where it is not given.
pub fn rounds() -> usize {
    std::env::var("ROUNDS").ok().and_then(|text| text.parse().ok()).unwrap_or(1)
}

/// A source of numbers for one test, whose seed is printed.
pub fn seeded(test: &str) -> Random {
    println!("{test}: seed {SEED}");
    Random::new(SEED)
}

/// How many different entries a table has: few give many equal totals.
pub const RANGES: [u64; 8] = [1, 2, 2, 3, 5, 10, 1000, 1 << 32];

/// A table of n² entries below `range`, with something added to every entry so that large ones are met too.
pub fn table(random: &mut Random, k: u32, range: u64) -> Vec<u32> {
    let n = 1usize << k;
    let most = (1u64 << 32) - range;
    let low = match random.below(3) {
        0 => 0,
        1 => most,
        _ => random.below(most + 1),
    };
    (0..n * n).map(|_| (low + random.below(range)) as u32).collect()
}

/// A table of one of the ranges.
pub fn any_table(random: &mut Random, k: u32) -> Vec<u32> {
    let range = RANGES[random.below(RANGES.len() as u64) as usize];
    table(random, k, range)
}

/// A set of forks of 2^k stops, some exchanged.
pub fn any_set(random: &mut Random, k: u32) -> Vec<bool> {
    (0..1usize << k).map(|v| v > 0 && random.below(2) == 1).collect()
}

/// A table whose only best order is the one that a mixed set of forks gives, with the order and its total: the order's moves take 0 to 3,
/// every other one more than they do together. It is asymmetric, since the moves back take as much as the others.
pub fn planted(random: &mut Random, k: u32) -> (Vec<u32>, Vec<u16>, u64) {
    let n = 1usize << k;
    let order = reading::order_of(k, &any_set(random, k));
    let least = 4 * n as u64;
    let mut table: Vec<u32> = (0..n * n).map(|_| (least + random.below((1 << 32) - least)) as u32).collect();
    for pair in order.windows(2) {
        table[pair[0] as usize * n + pair[1] as usize] = random.below(4) as u32;
    }
    let total = reading::total(&table, &order);
    (table, order, total)
}
