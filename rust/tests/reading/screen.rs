//! The set-up screen's records: document 02, M-109.

use super::*;

/// The sums of the 50 example's stops, x = 0, 30, 10, 20: fork 2 has stops 0 and 1, fork 3 stops 2 and 3, and fork 1 has all moves.
#[test]
fn sums_of_the_50_example() {
    for (order, due) in [([2, 3, 1, 0, 9], [0, 50, 30, 10, 77]), ([0, 1, 2, 3, 9], [0, 60, 30, 10, 77]), ([3, 2, 0, 1, 9], [0, 50, 30, 10, 77])] {
        for version in 4..=6 {
            let mut sums = [77; 5];
            assert_eq!(group_sums(&fifty(version), 6, &order, &mut sums), Ok(()));
            assert_eq!(sums, due);
        }
    }
}

/// 'Afterwards the order has that fork alone inverted, the sums equal those made afresh and change only at that fork and the forks above it.'
#[test]
fn forks_exchanged_beside_sums() {
    let (mut order, mut sums) = ([2, 3, 1, 0, 9], [0, 50, 30, 10, 77]);
    for (fork, stops, others) in [(2, [2, 3, 0, 1, 9], [0, 60, 30, 10, 77]), (3, [3, 2, 0, 1, 9], [0, 50, 30, 10, 77]), (1, [0, 1, 3, 2, 9], [0, 50, 30, 10, 77])] {
        assert_eq!(exchange_fork(&fifty(5), 5, fork, &mut order, &mut sums), Ok(()));
        assert_eq!((order, sums), (stops, others));
    }
    let mut random = seeded("forks exchanged");
    for k in 1..=5u16 {
        let n = 1usize << k;
        let mut stops = Run::new(k);
        stops.coords.fill_with(|| random.below(40_001) as i32 - 20_000);
        stops.speeds.fill_with(|| 1 + random.below(2_000) as u16);
        stops.blends.fill(0);
        stops.dwells.fill(0);
        let mut path = vec![0; 12 + 18 * n];
        stops.write(4, k, &mut path).expect("good stops");
        let mut order = order_of(k.into(), &any_set(&mut random, k.into()));
        let mut sums = vec![77; n];
        group_sums(&path, 4, &order, &mut sums).expect("an allowed order");
        stops.make(k).expect("good stops");
        for fork in (1..n).chain(1..n) {
            let (before, held, mut exchanged) = (order.clone(), sums.clone(), order.clone());
            assert_eq!(exchange_fork(&path, 4, fork as u16, &mut order, &mut sums), Ok(()));
            let mut bits = vec![0; n.div_ceil(8)];
            bits[fork / 8] = 1 << (fork % 8);
            exchange(k, &before, &bits, &mut exchanged).expect("an allowed order and a set");
            assert_eq!(order, exchanged);
            assert_eq!(sums[1], total(&stops.table, &order));
            let mut afresh = vec![77; n];
            group_sums(&path, 4, &order, &mut afresh).expect("an allowed order");
            assert_eq!(sums, afresh);
            let above = |v: usize| (0..k).any(|h| fork >> h == v);
            assert!((0..n).all(|v| above(v) || sums[v] == held[v]));
        }
    }
}

/// The path and the lent lengths first, then 9, 10, 11 and 14; a refusal writes nothing.
#[test]
fn refusals_of_the_screen() {
    let path = fifty(6);
    for (bytes, highest, fork, order, sums, number) in [
        (&path[..], 3, 0, &[0u16, 2, 1, 4][..], &[1u64, 2, 3, 4][..], WRONG_VERSION),
        (&path[..], 5, 0, &[0, 2, 1, 4], &[1, 2, 3, 4], WRONG_VERSION),
        (&path[..30], 6, 0, &[0, 2, 1], &[1, 2, 3, 4], WRONG_SIZE),
        (&path[..30], 6, 0, &[0, 2, 1, 4], &[1, 2, 3], WRONG_SIZE),
        (&path[..99], 6, 0, &[0, 2, 1, 4], &[1, 2, 3, 4], CUT_OFF),
        (&path, 6, 0, &[0, 2, 1, 4], &[1, 2, 3, 4], WRONG_STOP),
        (&path, 6, 0, &[0, 2, 1, 3], &[1, 2, 3, 4], NOT_ALLOWED),
        (&path, 6, 0, &[0, 1, 2, 3], &[1, 60, 30, 10], WRONG_TOTAL),
        (&path, 6, 4, &[0, 1, 2, 3], &[0, 61, 30, 10], WRONG_TOTAL),
        (&path, 6, 4, &[0, 1, 2, 3], &[0, 60, 30, 11, 7], WRONG_TOTAL),
        (&path, 6, 0, &[0, 1, 2, 3], &[0, 60, 30, 10], NO_SUCH_FORK),
        (&path, 6, 4, &[0, 1, 2, 3, 9], &[0, 60, 30, 10], NO_SUCH_FORK),
    ] {
        let (mut stops, mut others) = (order.to_vec(), sums.to_vec());
        assert_eq!(exchange_fork(bytes, highest, fork, &mut stops, &mut others), Err(number));
        assert_eq!((&stops[..], &others[..]), (order, sums));
        if number <= NOT_ALLOWED {
            assert_eq!(group_sums(bytes, highest, order, &mut others), Err(number));
            assert_eq!(others, sums);
        }
    }
    // one stop: place 0 alone, and no fork at all
    let one = with(&path[..34], 6, &[0]);
    let one = [&one[..30], &hex(END)].concat();
    let mut sums = [77];
    assert_eq!(group_sums(&one, 6, &[0], &mut sums), Ok(()));
    assert_eq!(sums, [0]);
    assert_eq!(exchange_fork(&one, 6, 1, &mut [0], &mut sums), Err(NO_SUCH_FORK));
    assert_eq!(exchange_fork(&one, 6, 1, &mut [0], &mut [1]), Err(WRONG_TOTAL));
}
