//! Round trips: document 02, M-104.

use super::*;

/// 'Tours are for k up to 7; above that 5 is given', before the planner's 8; a refusal writes nothing.
#[test]
fn refusals_of_tours() {
    let (mut order, mut totals, mut pivots) = ([77; 5], [77; 9], [77; 9]);
    for (k, table, stops, sums, marks, number) in [
        (8, 16, 4, 8, 8, WRONG_K),
        (8, 15, 3, 7, 7, WRONG_K),
        (10, 16, 4, 8, 8, WRONG_K),
        (11, 17, 4, 8, 8, WRONG_K),
        (65_535, 16, 4, 8, 8, WRONG_K),
        (7, 16, 4, 8, 8, WRONG_SIZE),
        (2, 15, 4, 8, 8, WRONG_SIZE),
        (2, 17, 4, 8, 8, WRONG_SIZE),
        (2, 16, 3, 8, 8, WRONG_SIZE),
        (2, 16, 4, 7, 8, WRONG_SIZE),
        (2, 16, 4, 8, 7, WRONG_SIZE),
        (2, 17, 3, 9, 9, WRONG_SIZE),
    ] {
        let lent = (&mut order[..stops], &mut totals[..sums], &mut pivots[..marks]);
        assert_eq!(tour(k, &vec![0; table], lent.0, lent.1, lent.2), Err(number));
    }
    assert_eq!((order, totals, pivots), ([77; 5], [77; 9], [77; 9]));
}

/// Four stops: the tour of the 50 example, and tours that are no planner's order.
#[test]
fn tours_of_four_stops() {
    let mut home = [0; 16];
    home[3] = 10;
    let to_larger: Vec<u32> = (0..16).map(|i| if i / 4 < i % 4 { 3 } else { 7 }).collect();
    for (table, total, due) in [
        // there and back again: 2 3 1 0, and from 0 to 2 another 10
        (&TABLE[..], 60, [2, 3, 1, 0]),
        // the open order is 3 2 1 0, which the move from 0 to 3 would close
        (&home, 0, [2, 3, 1, 0]),
        // one of the four moves leads to a smaller stop, or two; the open order is 0 1 2 3, and of equals the smaller last stop is wanted
        (&to_larger, 16, [2, 3, 0, 1]),
        // ties
        (&[5; 16], 20, [3, 2, 1, 0]),
        (&[u32::MAX; 16], 4 * u64::from(u32::MAX), [3, 2, 1, 0]),
    ] {
        let (mut order, mut totals, mut pivots) = ([77; 5], [77; 9], [77; 10]);
        assert_eq!((tour(2, table, &mut order, &mut totals, &mut pivots), &order[..4]), (Ok(total), &due[..]));
        assert_eq!((order[4], totals, pivots[..8] == [0; 8], &pivots[8..]), (77, [0, 0, 0, 0, 0, 0, 0, 0, 77], true, &[77, 77][..]));
    }
}

/// 'for n = 1 it is 0', whatever the diagonal; 'For k = 1 the two totals are equal, so the tour is 1, 0'.
#[test]
fn tours_of_one_stop_and_of_two() {
    let (mut order, mut totals, mut pivots) = ([77; 2], [77; 4], [77; 4]);
    assert_eq!(tour(0, &[u32::MAX], &mut order, &mut totals, &mut pivots), Ok(0));
    assert_eq!((order, totals, pivots), ([0, 77], [0, 0, 77, 77], [0, 0, 77, 77]));
    for table in [[9, 3, 7, 9], [9, 7, 3, 9]] {
        assert_eq!((tour(1, &table, &mut order, &mut totals, &mut pivots), order), (Ok(10), [1, 0]));
    }
}
