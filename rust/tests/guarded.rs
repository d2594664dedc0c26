//! The same inputs with every buffer between guard pages: a wrong declaration at the boundary, or a number read or written beyond a buffer,
//! stops the run.

use evidence::{
    calls::compare_guarded,
    cases::{rounds, seeded},
    world::each_case,
};

#[test]
fn every_call_between_guard_pages() {
    let mut random = seeded("guard pages");
    for (k, worlds) in [(0, 400), (1, 400), (2, 400), (3, 400), (4, 200), (5, 60), (6, 20), (7, 6), (8, 2), (9, 1)] {
        each_case(&mut random, k, worlds * rounds(), |call, lent| {
            compare_guarded(call, lent);
        });
    }
}
