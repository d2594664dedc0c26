//! What a fork costs the other way: document 02, M-101.

use super::*;
use evidence::cases::{any_table, rounds};

/// All four fields, and the work space afterwards.
fn fields(path: &[u8], fork: u16) -> [u64; 4] {
    [0, 1, 2, 3].map(|field| {
        let n = 1usize << path[6];
        let (mut totals, mut pivots, mut orders) = (vec![77; 2 * n + 1], vec![77; 2 * n + 2], vec![77; 2 * n + 3]);
        let value = fork_cost(path, 6, fork, &mut totals, &mut pivots, &mut orders, field).expect("a good path and a fork");
        assert_eq!((&totals[..2 * n], &totals[2 * n..]), (&vec![0; 2 * n][..], &[77][..]));
        assert_eq!((&pivots[..2 * n], &pivots[2 * n..]), (&vec![0; 2 * n][..], &[77; 2][..]));
        assert_eq!((&orders[..2 * n], &orders[2 * n..]), (&vec![0; 2 * n][..], &[77; 3][..]));
        value
    })
}

/// A path of version 4 with these x and speeds, the rest 0.
fn path_of(stops: &[(i32, u16)]) -> Vec<u8> {
    let k = stops.len().trailing_zeros() as u16;
    let mut run = Run::new(k);
    for (i, &(x, speed)) in stops.iter().enumerate() {
        run.coords[3 * i..3 * i + 3].copy_from_slice(&[x, 0, 0]);
        (run.speeds[i], run.blends[i], run.dwells[i]) = (speed, 0, 0);
    }
    let mut path = vec![0; 12 + 18 * stops.len()];
    run.write(4, k, &mut path).expect("good stops");
    path
}

/// The 50 example: four orders take 50, 2 3 1 0 and 1 0 2 3, 0 1 3 2, 3 2 0 1. The last places are 0, 3, 2, 1, so every opposite order parts from the
/// returned one there.
#[test]
fn forks_of_the_50_example() {
    for version in 4..=6 {
        assert_eq!([1, 2, 3].map(|fork| fields(&fifty(version), fork)), [[1, 50, 0, 4], [1, 50, 0, 4], [0, 50, 0, 4]]);
    }
}

/// M-112's path: `3 0 1` and `7 1 0`. Equal speeds: 1 0 is returned, and 0 1 parts from it in place 1.
#[test]
fn forks_of_two_stops() {
    assert_eq!(fields(&path_of(&[(0, 300), (21, 700)]), 1), [0, 7, 4, 0]);
    assert_eq!(fields(&path_of(&[(0, 700), (21, 300)]), 1), [1, 7, 4, 0]);
    assert_eq!(fields(&path_of(&[(0, 300), (21, 300)]), 1), [1, 7, 0, 2]);
}

/// Stops in one point: 3 2 1 0 is returned. With fork 1 or 2 as it was the last stop is another; with fork 3 so it is 2 3 1 0, which parts from it in
/// places 0 and 1.
#[test]
fn forks_of_stops_in_one_point() {
    let path = path_of(&[(5, 1); 4]);
    assert_eq!([1, 2, 3].map(|fork| fields(&path, fork)), [[1, 0, 0, 4], [1, 0, 0, 4], [1, 0, 0, 2]]);
    // of eight stops the last fork has stops 6 and 7, in places 1 and 0
    let path = path_of(&[(5, 1); 8]);
    assert_eq!([1, 2, 3, 4, 5, 6, 7].map(|fork| fields(&path, fork)[3]), [8, 8, 4, 8, 6, 4, 2]);
}

/// Stops on a line: the way through them takes 30 in both directions, every fork in one state or in the other, and every other order takes more. With
/// a slow stop 0 the way back takes 70 and 0 1 3 2 takes 40.
#[test]
fn forks_of_stops_on_a_line() {
    let [both, back] = [100, 20].map(|speed| path_of(&[(0, speed), (10, 100), (20, 100), (30, 100)]));
    assert_eq!([1, 2, 3].map(|fork| fields(&both, fork)), [[1, 30, 0, 4]; 3]);
    assert_eq!([1, 2, 3].map(|fork| fields(&back, fork)), [[0, 70, 40, 0], [0, 70, 40, 0], [0, 40, 10, 0]]);
}

/// 'by the same rule from the back' among all orders, and among those with the fork in the opposite state: enumeration and whole tables agree.
#[test]
fn forks_by_both_methods() {
    let mut random = seeded("forks by both methods");
    let (mut ties, mut dearer, mut states) = (0, 0, [0; 2]);
    for (k, count) in [(1, 300), (2, 600), (3, 400)] {
        for _ in 0..count * rounds() {
            let table = any_table(&mut random, k);
            for fork in 1..1 << k {
                let cost = fork_cost_by_enumeration(k, &table, fork);
                assert_eq!(cost, fork_cost_by_whole_tables(k, &table, fork), "k = {k}, fork {fork}, {table:?}");
                assert_eq!(cost.tie.is_some(), cost.difference == 0);
                states[usize::from(cost.exchanged)] += 1;
                *(if cost.tie.is_some() { &mut ties } else { &mut dearer }) += 1;
            }
        }
    }
    println!("{ties} ties, {dearer} dearer, {states:?} states");
    assert!(ties > 1000 && dearer > 1000 && states.iter().all(|&met| met > 1000));
}

/// The path with all lent lengths in its head, then 14, then the field; a refusal writes nothing.
#[test]
fn refusals_of_fork_costs() {
    let path = fifty(6);
    let (mut totals, mut pivots, mut orders) = ([77; 9], [77; 9], [77; 9]);
    for (bytes, highest, fork, lengths, number) in [
        (&path[..], 3, 0, [7, 7, 7], WRONG_VERSION),
        (&path[..], 5, 0, [7, 7, 7], WRONG_VERSION),
        (&with(&path, 6, &[11]), 6, 0, [7, 7, 7], WRONG_K),
        (&with(&path, 6, &[10]), 6, 0, [8, 8, 8], WRONG_SIZE),
        (&path[..8], 6, 0, [7, 8, 8], WRONG_SIZE),
        (&path[..8], 6, 0, [8, 7, 8], WRONG_SIZE),
        (&path[..8], 6, 0, [8, 8, 7], WRONG_SIZE),
        (&path[..8], 6, 0, [0, 9, 9], WRONG_SIZE),
        (&path[..8], 6, 0, [8, 8, 8], CUT_OFF),
        (&path[..99], 6, 1, [9, 9, 9], CUT_OFF),
        (&with(&path, 24, &[0]), 6, 0, [8, 8, 8], OUT_OF_RANGE),
        (&[&path[..], &[0]].concat(), 6, 0, [8, 8, 8], BYTES_AFTER),
        (&path, 6, 0, [8, 8, 8], NO_SUCH_FORK),
        (&path, 6, 4, [9, 9, 9], NO_SUCH_FORK),
        (&path, 6, 5, [8, 8, 8], NO_SUCH_FORK),
        (&path, 6, 65_535, [8, 8, 8], NO_SUCH_FORK),
    ] {
        for field in [0, 3, 4, 65_535] {
            let lent = (&mut totals[..lengths[0]], &mut pivots[..lengths[1]], &mut orders[..lengths[2]]);
            assert_eq!(fork_cost(bytes, highest, fork, lent.0, lent.1, lent.2, field), Err(number));
        }
    }
    // one stop has no fork at all
    let one = path_of(&[(0, 1)]);
    for fork in [0, 1, 2, 65_535] {
        assert_eq!(fork_cost(&one, 4, fork, &mut totals, &mut pivots, &mut orders, 0), Err(NO_SUCH_FORK));
    }
    assert_eq!((totals, pivots, orders), ([77; 9], [77; 9], [77; 9]));
    // another field: a success all the same
    assert_eq!(fork_cost(&path, 6, 1, &mut totals, &mut pivots, &mut orders, 4), Ok(0));
    assert_eq!((totals[..8] == [0; 8], totals[8], pivots[..8] == [0; 8], orders[..8] == [0; 8], orders[8]), (true, 77, true, true, 77));
}
