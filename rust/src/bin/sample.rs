//! A smaller number of the comparisons, to be run under valgrind (`rust/test.sh valgrind`): every lent buffer is a heap block of its own.

use evidence::{calls::compare, cases::seeded, world::each_case};

fn main() {
    let mut random = seeded("sample");
    let mut calls = 0;
    for (k, worlds) in [(0, 20), (1, 30), (2, 40), (3, 30), (4, 10), (5, 3), (6, 1)] {
        each_case(&mut random, k, worlds, |call, lent| {
            compare(call, lent);
            calls += 1;
        });
    }
    println!("{calls} calls compared");
}
