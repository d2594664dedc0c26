//! What a fork costs the other way (M-101): every fork and every field against the reading, and beside the planner and the exchanges of forks.

use evidence::{
    calls::{by_library, compare, Call, Heap, Lent},
    cases::{rounds, seeded},
    random::Random,
    world::World,
};

/// How many worlds of each k there are.
const WORLDS: [(u16, usize); 7] = [(0, 50), (1, 400), (2, 400), (3, 150), (4, 60), (5, 12), (6, 3)];

/// A value that the library gives.
fn value(call: Call, lent: &Lent<Heap>) -> i64 {
    *by_library(call, &mut lent.held(Heap)).expect("good input").last().expect("a value")
}

/// Compares all fields for a fork, one that there is not too; whether it is a tie.
fn compare_fields(random: &mut Random, world: &World, fork: u16) -> bool {
    let call = |field| Call::ForkCost { highest: 6, fork, field };
    let lent = world.lent(random, call(0));
    for field in 0..=4 {
        assert_eq!(compare(call(field), &lent), 0);
    }
    value(call(2), &lent) == 0
}

/// Every fork of paths up to k = 6 with every field, and of larger ones a fork of each of some depths with one field.
#[test]
fn every_fork_and_every_field() {
    let mut random = seeded("every fork and every field");
    let mut met = [0; 2];
    for (k, worlds) in WORLDS {
        for _ in 0..worlds * rounds() {
            let world = World::any(&mut random, k);
            for fork in 1..1 << k {
                met[usize::from(compare_fields(&mut random, &world, fork))] += 1;
            }
            for fork in [0, 1 << k, (1 << k) + 1, 65_535] {
                let call = Call::ForkCost { highest: 6, fork, field: 1 };
                assert_eq!(compare(call, &world.lent(&mut random, call)), 14);
            }
        }
    }
    println!("{met:?} dearer and ties");
    assert!(met.iter().all(|&times| times > 500), "dearer and ties are both met");
    for (k, depths) in [(7, 0..7), (8, 0..8), (9, 6..9), (10, 8..10)] {
        let world = World::any(&mut random, k);
        for h in depths {
            let fork = (1 << h) + random.below(1 << h) as u16;
            let call = Call::ForkCost { highest: 6, fork, field: 1 + random.below(3) as u16 };
            assert_eq!(compare(call, &world.lent(&mut random, call)), 0);
        }
    }
}

/// The set of one fork.
fn one_fork(n: usize, fork: usize) -> Vec<u8> {
    let mut bits = vec![0; n.div_ceil(8)];
    bits[fork / 8] = 1 << (fork % 8);
    bits
}

/// For every fork: the difference is not negative, and what it is added to is the planner's total; the state is that of the planner's order; the
/// planner's order with this fork alone exchanged is not cheaper than the least total of the opposite state; 'tie' exactly if the difference is 0, and
/// then in a place from 1 on.
#[test]
fn beside_the_planner_and_exchanges() {
    let mut random = seeded("forks beside the planner");
    let mut met = [0; 2];
    for (k, worlds) in WORLDS {
        let n = 1usize << k;
        for _ in 0..2 * worlds * rounds() {
            let world = World::any(&mut random, k);
            let mut planned = world.lent(&mut random, Call::PlanPath { highest: 6 });
            let total = by_library(Call::PlanPath { highest: 6 }, &mut planned).expect("a good path")[2];
            let mut states = planned.held(Heap);
            by_library(Call::ForkBits { k }, &mut states).expect("an allowed order");
            for fork in 1..n {
                let lent = world.lent(&mut random, Call::ForkCost { highest: 6, fork: 1, field: 0 });
                let [exchanged, opposite, difference, tie] = [0, 1, 2, 3].map(|field| value(Call::ForkCost { highest: 6, fork: fork as u16, field }, &lent));
                assert!(difference >= 0);
                assert_eq!(opposite - difference, total);
                assert_eq!(exchanged, i64::from(states.bits[fork / 8] >> (fork % 8) & 1));
                assert_eq!(tie > 0, difference == 0);
                assert!(tie == 0 || (2..=n as i64).contains(&tie));
                let mut other = planned.held(Heap);
                other.bits = one_fork(n, fork);
                by_library(Call::Exchange { k }, &mut other).expect("an allowed order and a set");
                other.order = other.list.clone();
                assert!(opposite <= value(Call::OrderTotal { k }, &other));
                met[usize::from(tie > 0)] += 1;
            }
        }
    }
    println!("{met:?} dearer and ties");
    assert!(met.iter().all(|&times| times > 500), "dearer and ties are both met");
}
