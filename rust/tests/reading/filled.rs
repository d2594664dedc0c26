//! Lists of filled stops: document 02, M-111.

use super::*;

/// 'another value among the first n is 6, after the lengths'; 'k goes up to 6, above that 5'; a refusal writes nothing.
#[test]
fn refusals_of_filled_stops() {
    let (mut list, mut bits, mut work) = ([77; 5], [77; 2], [77; 17]);
    for (k, table, empties, places, bytes, numbers, number) in [
        (7, 15, &[2u8, 0, 0][..], 3, 0, 15, WRONG_K),
        (65_535, 16, &[0; 4], 4, 1, 16, WRONG_K),
        (2, 15, &[2, 0, 0, 0], 4, 1, 16, WRONG_SIZE),
        (2, 17, &[2, 0, 0, 0], 4, 1, 16, WRONG_SIZE),
        (2, 16, &[2, 0, 0], 4, 1, 16, WRONG_SIZE),
        (2, 16, &[2, 0, 0, 0], 3, 1, 16, WRONG_SIZE),
        (2, 16, &[2, 0, 0, 0], 4, 0, 16, WRONG_SIZE),
        (2, 16, &[2, 0, 0, 0], 4, 1, 15, WRONG_SIZE),
        (2, 16, &[2, 0, 0, 0], 4, 1, 16, OUT_OF_RANGE),
        (2, 16, &[0, 0, 0, 255], 5, 2, 17, OUT_OF_RANGE),
    ] {
        let lent = (&mut list[..places], &mut bits[..bytes], &mut work[..numbers]);
        assert_eq!(plan_filled(k, &vec![0; table], empties, lent.0, lent.1, lent.2), Err(number));
    }
    assert_eq!((list, bits, work), ([77; 5], [77; 2], [77; 17]));
}

/// The 50 example's stops, x = 0, 30, 10, 20: some of them empty.
#[test]
fn lists_of_filled_stops() {
    for (empties, total, due, byte) in [
        // 'With no byte 1 it must agree with the plain order'
        ([0, 0, 0, 0, 9], 50, &[2, 3, 1, 0][..], 0b0110),
        // 'No filled stop gives an empty list, total 0'
        ([1, 1, 1, 1, 9], 0, &[], 0),
        ([1, 1, 0, 1, 9], 0, &[2], 0),
        // x = 0, 10, 20: both ways take 20, and the smaller stop comes last; fork 2 has one filled stop and is not exchanged
        ([0, 1, 0, 0, 9], 20, &[3, 2, 0], 0b1010),
        // x = 30 and 10, the same both ways
        ([1, 0, 0, 1, 9], 20, &[2, 1], 0b0010),
        // x = 0, 30, 10: 0 and 30 are one group, so 10 comes after 30 or before it
        ([0, 0, 0, 1, 9], 40, &[2, 0, 1], 0b0010),
    ] {
        let (mut list, mut bits, mut work) = ([77; 5], [77; 2], [77; 17]);
        assert_eq!(plan_filled(2, &TABLE, &empties, &mut list, &mut bits, &mut work), Ok((total, due.len())), "{empties:?}");
        assert_eq!((&list[..due.len()], bits), (due, [byte, 77]), "{empties:?}");
        assert!(list[due.len()..].iter().all(|&stop| stop == 77) && work[..16] == [0; 16] && work[16] == 77);
    }
}

/// Both ways to the wanted list, on every filling of up to 8 stops and tables with many equal totals.
#[test]
fn lists_by_two_ways() {
    let mut random = seeded("filled stops");
    for k in 0..=3 {
        let n = 1usize << k;
        for set in 0..1u32 << n {
            let filled: Vec<bool> = (0..n).map(|i| set >> i & 1 == 1).collect();
            let table: Vec<u32> = (0..n * n).map(|_| random.below(3) as u32).collect();
            let (a, b) = (list_by_enumeration(k, &table, &filled), list_by_groups(k, &table, &filled));
            assert_eq!((a.list, a.total, a.exchanged), (b.list, b.total, b.exchanged));
        }
    }
}
