//! Places that cost extra: document 02, M-107.

use super::*;

/// 'A second table of another length is 8, after the first'; 5 comes before; a refusal writes nothing.
#[test]
fn refusals_of_places() {
    let (mut order, mut totals, mut pivots) = ([77; 5], [77; 9], [77; 9]);
    for (k, table, places, stops, sums, marks, number) in [
        (11, 15, 17, 3, 7, 7, WRONG_K),
        (65_535, 16, 16, 4, 8, 8, WRONG_K),
        (10, 16, 16, 4, 8, 8, WRONG_SIZE),
        (2, 15, 16, 4, 8, 8, WRONG_SIZE),
        (2, 17, 16, 4, 8, 8, WRONG_SIZE),
        (2, 16, 15, 4, 8, 8, WRONG_SIZE),
        (2, 16, 17, 4, 8, 8, WRONG_SIZE),
        (2, 16, 0, 4, 8, 8, WRONG_SIZE),
        (2, 16, 16, 3, 8, 8, WRONG_SIZE),
        (2, 16, 16, 4, 7, 8, WRONG_SIZE),
        (2, 16, 16, 4, 8, 7, WRONG_SIZE),
        (2, 17, 15, 5, 9, 9, WRONG_SIZE),
    ] {
        let lent = (&mut order[..stops], &mut totals[..sums], &mut pivots[..marks]);
        assert_eq!(plan_places(k, &vec![0; table], &vec![0; places], lent.0, lent.1, lent.2), Err(number));
    }
    assert_eq!((order, totals, pivots), ([77; 5], [77; 9], [77; 9]));
}

/// The 50 example with a second table that is 0 but for some entries: the stop, the place and the entry.
#[test]
fn places_of_the_50_example() {
    for (entries, total, due) in [
        // 'A second table all zero gives the plain result'
        (&[][..], 50, [2, 3, 1, 0]),
        // stop 0 in the last place: 3 2 0 1 takes 50 too
        (&[(0, 3, 10)], 50, [3, 2, 0, 1]),
        // place 0 included
        (&[(2, 0, 10)], 50, [3, 2, 0, 1]),
        // row stop, column place: stop 3 is in no place 0 of what is wanted, and stop 0 stays last
        (&[(3, 0, 10)], 50, [2, 3, 1, 0]),
        // the entry is added to the total of an order that is wanted all the same
        (&[(0, 3, 10), (1, 3, 10), (2, 3, 10), (3, 3, 10)], 60, [2, 3, 1, 0]),
        (&[(0, 3, 9), (1, 3, 7), (2, 3, 4), (3, 3, 5)], 54, [0, 1, 3, 2]),
    ] {
        let mut places = [0; 16];
        entries.iter().for_each(|&(stop, place, entry)| places[4 * stop + place] = entry);
        let (mut order, mut totals, mut pivots) = ([77; 5], [77; 9], [77; 10]);
        let planned = plan_places(2, &TABLE, &places, &mut order, &mut totals, &mut pivots);
        assert_eq!((planned, &order[..4]), (Ok(total), &due[..]), "{entries:?}");
        assert_eq!((order[4], totals, pivots[..8] == [0; 8], &pivots[8..]), (77, [0, 0, 0, 0, 0, 0, 0, 0, 77], true, &[77, 77][..]));
    }
}

/// 'For n = 1 the total is the single entry.'
#[test]
fn the_place_of_one_stop() {
    let (mut order, mut totals, mut pivots) = ([77], [77; 2], [77; 2]);
    assert_eq!(plan_places(0, &[9], &[u32::MAX], &mut order, &mut totals, &mut pivots), Ok(u32::MAX.into()));
    assert_eq!((order, totals, pivots), ([0], [0; 2], [0; 2]));
}
