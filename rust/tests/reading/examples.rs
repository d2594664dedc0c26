//! The document's examples, and what holds at every k.

use super::*;

#[test]
fn known_examples() {
    let examples: [(u16, &[u32], &[u16], u64); 6] = [
        (0, &[9], &[0], 0),
        (1, &[0, 3, 7, 0], &[0, 1], 3),
        (1, &[0, 7, 3, 0], &[1, 0], 3),
        (1, &[0, 5, 5, 0], &[1, 0], 5),
        (2, &[1; 16], &[3, 2, 1, 0], 3),
        (2, &TABLE, &[2, 3, 1, 0], 50),
    ];
    for (k, table, order, total) in examples {
        let mut run = Run::new(k);
        run.table = table.to_vec();
        assert_eq!(run.plan(k), Ok(total));
        let n = order.len();
        assert_eq!((&run.order[..n], &run.order[n..]), (order, &[77; 3][..]));
        assert!(run.totals[..2 * n].iter().all(|&number| number == 0) && run.totals[2 * n..] == [77; 3]);
        assert!(run.pivots[..2 * n].iter().all(|&number| number == 0) && run.pivots[2 * n..] == [77; 3]);
        assert_eq!(order_total(k, order, table), Ok(total));
    }
    assert_eq!(order_total(2, &[0, 1, 2, 3], &TABLE), Ok(60), "unturned 60");
    assert_eq!(order_total(2, &[0, 2, 1, 3], &TABLE), Err(NOT_ALLOWED));
    assert_eq!(order_total(1, &[0, 0], &[0; 4]), Err(NOT_ALLOWED));
}

/// M-113: 'A halving pass over 2^m places makes m × 2^(2m−1) of them'; 'so 16 for k = 2 and 9,437,184 for k = 10'; the count is what is foretold.
#[test]
fn weighings() {
    for m in 1..=10 {
        assert_eq!(of_pass(m), u64::from(m) << (2 * m - 1));
    }
    assert_eq!([0, 1, 2, 10].map(foretell), [Ok((20, 0)), Ok((40, 2)), Ok((80, 16)), Ok((20_480, 9_437_184))]);
    assert_eq!([11, 65_535].map(foretell), [Err(WRONG_K); 2]);
    for k in 0..=6 {
        let mut run = Run::new(k);
        run.table = vec![7; 1 << (2 * k)];
        let count = plan_weighings(k, &run.table, &mut run.order, &mut run.totals, &mut run.pivots);
        assert_eq!(count, foretell(k).map(|(_, weighings)| weighings));
    }
}

#[test]
fn travel_times() {
    let stop = |x: i32, y: i32, z: i32, speed: u16| Stop { at: [x, y, z], speed, blend: 0, dwell: 0 };
    // M-100: 'D = 1, 3, 5 at speed 200 give 0, 2, 2', and beside a half
    for (distance, speed, time) in [(1, 200, 0), (3, 200, 2), (5, 200, 2), (7, 200, 4), (1, 199, 1), (1, 201, 0), (2, 200, 1), (0, 1, 0)] {
        assert_eq!(travel_time(&stop(0, 0, 0, 1), &stop(0, -distance, 0, speed)), time);
    }
    assert_eq!(travel_time(&stop(-20_000, 0, 0, 7), &stop(20_000, 0, 0, 1)), 4_000_000);
    assert_eq!(travel_time(&stop(0, 0, 0, 7), &stop(1, -2, 3, 100)), 3);
    assert_eq!(travel_time(&stop(0, 0, 0, 7), &stop(0, 0, 3, 300)), 1);
    assert_eq!(travel_time(&stop(0, 0, 0, 7), &stop(0, 0, 3, 299)), 1);
    assert_eq!(travel_time(&stop(5, 6, 7, 7), &stop(5, 6, 7, 9)), 0);
    // M-105: 'With D = 30 a blend of 10 counts 20, and a blend of 20 counts 15.' It is the blend of the stop where the move ends.
    for (blend, time) in [(0, 30), (10, 20), (14, 16), (15, 15), (16, 15), (20, 15), (500, 15)] {
        assert_eq!(travel_time(&stop(0, 0, 0, 7), &Stop { blend, ..stop(0, 30, 0, 100) }), time);
        assert_eq!(travel_time(&Stop { blend, ..stop(0, 0, 0, 7) }, &stop(0, 30, 0, 100)), 30);
    }
    assert_eq!(travel_time(&stop(0, 0, 0, 7), &Stop { blend: 500, ..stop(31, 0, 0, 100) }), 16, "floor(31 / 2) is 15");
    // M-102: the dwell is added to the rounded time of the move that arrives
    let resting = |dwell: u16, from: Stop| Stop { dwell, ..from };
    assert_eq!(travel_time(&stop(0, 0, 0, 1), &resting(5_000, stop(0, 1, 0, 200))), 5_000);
    assert_eq!(travel_time(&resting(5_000, stop(0, 0, 0, 1)), &stop(0, 3, 0, 200)), 2);
    assert_eq!(travel_time(&stop(-20_000, 0, 0, 7), &resting(5_000, stop(20_000, 0, 0, 1))), 4_005_000);
    let mut table = [77; 4];
    assert_eq!(make_table(1, &[0, 0, 0, 10, 0, 0], &[1, 100], &[0, 4], &[0, 0], &mut table), Ok(()));
    assert_eq!(table, [0, 6, 1000, 0]);
    // 'the time from a stop to itself stays 0'
    assert_eq!(make_table(1, &[0, 0, 0, 10, 0, 0], &[1, 100], &[0, 4], &[40, 5_000], &mut table), Ok(()));
    assert_eq!(table, [0, 5_006, 1_040, 0]);
}

/// M-102: 'no move of an open order arrives at its first stop'. A dwell there changes nothing; one where the order ends makes another order the
/// wanted one.
#[test]
fn dwells_in_the_50_example() {
    let dwelling = |stop: usize| with(&fifty(6), 8 + 22 * stop + 20, &[20, 0]);
    let mut run = Run::new(2);
    assert_eq!(run.whole(&dwelling(2), 6), Ok((6, 2, 50)));
    assert_eq!(run.order[..4], [2, 3, 1, 0]);
    assert_eq!(order_total(2, &[2, 3, 1, 0], &run.table), Ok(50));
    assert_eq!(order_total(2, &[0, 1, 3, 2], &run.table), Ok(70));
    assert_eq!(run.whole(&dwelling(0), 6), Ok((6, 2, 50)));
    assert_eq!(run.order[..4], [0, 1, 3, 2]);
    assert_eq!(order_total(2, &[2, 3, 1, 0], &run.table), Ok(70));
    // an order file with the total without the dwell is refused by 11
    assert_eq!(cell_check(&dwelling(0), 6, &hex(FILE)), -11);
    assert_eq!(cell_check(&dwelling(2), 6, &hex(FILE)), 0);
}

#[test]
fn the_50_example_from_bytes_to_bytes() {
    for version in [4, 5, 6] {
        let bytes = fifty(version);
        let mut run = Run::new(2);
        let mut whole = run.clone();
        assert_eq!(run.read(&bytes, 6), Ok((version, 2)));
        assert_eq!(run.coords, [0, 0, 0, 30, 0, 0, 10, 0, 0, 20, 0, 0, 77, 77, 77]);
        assert_eq!(run.speeds, [100, 100, 100, 100, 77, 77, 77]);
        assert_eq!([run.blends.clone(), run.dwells.clone()], [[0, 0, 0, 0, 77, 77, 77]; 2]);
        assert_eq!(run.make(2), Ok(()));
        assert_eq!(run.table, TABLE);
        assert_eq!(run.plan(2), Ok(50));
        assert_eq!(whole.whole(&bytes, 6), Ok((version, 2, 50)));
        assert_eq!(whole.read(&bytes, 6), Ok((version, 2)));
        assert_eq!(whole, run);
        let mut out = [77; 200];
        assert_eq!(run.write(version, 2, &mut out), Ok(bytes.len() as u64));
        assert_eq!((&out[..bytes.len()], &out[bytes.len()..]), (&bytes[..], &[77; 200][bytes.len()..]));
        let mut out = [77; 36];
        assert_eq!(cell_plan(&bytes, 6, &mut out), 35);
        assert_eq!((&out[..35], out[35]), (&hex(FILE)[..], 77));
        assert_eq!(cell_check(&bytes, 6, &hex(FILE)), 0);
    }
}

#[test]
fn the_50_example_rewritten() {
    let mut out = [77; 100];
    // 'need only be 4 or 5', or 6 with M-102: also above the highest known
    assert_eq!(cell_rewrite(&fifty(4), 4, 5, &mut out), 92);
    assert_eq!((&out[..92], out[92]), (&fifty(5)[..], 77));
    assert_eq!(cell_rewrite(&fifty(5), 5, 4, &mut out), 84);
    assert_eq!(out[..84], fifty(4));
    assert_eq!(cell_rewrite(&fifty(5), 5, 5, &mut out[..92]), 92);
    assert_eq!(cell_rewrite(&fifty(4), 4, 6, &mut out), 100);
    assert_eq!(out[..], fifty(6));
    for (version, size) in [(4, 84), (5, 92), (6, 100)] {
        assert_eq!(cell_rewrite(&fifty(6), 6, version, &mut out), size as i64);
        assert_eq!(out[..size], fifty(version));
    }
    let blended = with(&fifty(5), 8 + 20 + 18, &[1]);
    assert_eq!(cell_rewrite(&blended, 5, 5, &mut out), 92);
    assert_eq!(out[..92], blended);
    let mut out = [77; 100];
    assert_eq!(cell_rewrite(&blended, 5, 4, &mut out), -13);
    assert_eq!(cell_rewrite(&blended, 5, 4, &mut []), -13, "the output is tested last");
    assert_eq!(cell_rewrite(&blended, 5, 3, &mut []), -4);
    assert_eq!(cell_rewrite(&blended, 5, 7, &mut out), -4);
    assert_eq!(cell_rewrite(&blended, 5, 5, &mut out[..91]), -8);
    assert_eq!(cell_rewrite(&blended, 4, 3, &mut out), -4);
    assert_eq!(cell_rewrite(&[blended, vec![0]].concat(), 5, 3, &mut out), -7, "the reading comes first");
    // M-102: 'any field not 0 that the version to be written lacks'
    let dwelling = with(&fifty(6), 8 + 3 * 22 + 20, &[1]);
    for version in [4, 5] {
        assert_eq!(cell_rewrite(&dwelling, 6, version, &mut []), -13);
    }
    assert_eq!(cell_rewrite(&with(&fifty(6), 8 + 18, &[1]), 6, 4, &mut []), -13);
    assert_eq!(cell_rewrite(&dwelling, 6, 6, &mut []), -8);
    assert_eq!(cell_rewrite(&dwelling, 5, 6, &mut out), -4, "a controller that knows only 5 turns a newer path down");
    assert_eq!(out, [77; 100]);
    assert_eq!(cell_rewrite(&dwelling, 6, 6, &mut out), 100);
    assert_eq!(out[..], dwelling);
    assert_eq!(cell_rewrite(&with(&fifty(6), 8 + 18, &[1]), 6, 5, &mut out), 92);
    assert_eq!(out[..92], with(&fifty(5), 8 + 18, &[1]));
}

/// k = 0: n = 1, no fork, a fork string of one byte.
#[test]
fn one_stop() {
    let path = hex("06 00 01 00 05 00 00 00  12 00 02 00 FF FF FF FF E0 B1 FF FF 20 4E 00 00 D0 07 F4 01  02 00 03 00");
    let mut run = Run::new(0);
    assert_eq!(run.whole(&path, 5), Ok((5, 0, 0)));
    assert_eq!(run.read(&path, 5), Ok((5, 0)));
    assert_eq!(run.coords, [-1, -20_000, 20_000, 77, 77, 77]);
    assert_eq!((run.speeds[0], run.blends[0], &run.table[..], run.order[0]), (2_000, 500, &[0][..], 0));
    let file = hex("04 00 04 00 00 00  0C 00 05 00 00 00 00 00 00 00 00 00 00 00  03 00 06 00 00  02 00 03 00");
    let mut out = [77; 29];
    assert_eq!(cell_plan(&path, 5, &mut out), 29);
    assert_eq!(out[..], file);
    assert_eq!(cell_plan(&path, 5, &mut out[..28]), -8);
    assert_eq!(cell_check(&path, 5, &file), 0);
    assert_eq!(cell_check(&path, 5, &with(&file, 24, &[1])), -12);
    assert_eq!(cell_check(&path, 5, &with(&file, 24, &[2])), -12);
    assert_eq!(cell_check(&path, 5, &with(&file, 18, &[1])), -9);
    assert_eq!(cell_check(&path, 5, &with(&file, 10, &[1])), -11);
    let mut bits = [77; 2];
    assert_eq!(fork_bits(0, &[0, 9], &mut bits), Ok(()));
    assert_eq!(bits, [0, 77]);
    let mut order = [77; 2];
    assert_eq!(order_of_bits(0, &bits, &mut order), Ok(()));
    assert_eq!(order, [0, 77]);
    assert_eq!(order_total(0, &[0], &[5]), Ok(0));
}

/// Orders to fork bits and back: every allowed order up to k = 3, some of each larger k; all forks exchanged is the order reversed.
#[test]
fn forks_and_back() {
    let mut random = seeded("forks");
    for k in 0..=10u32 {
        let sets: Vec<Vec<bool>> = if k <= 3 { every_set(k).collect() } else { (0..20).map(|_| any_set(&mut random, k)).collect() };
        let n = 1usize << k;
        for set in sets {
            let order = order_of(k, &set);
            let mut bits = vec![77; n.div_ceil(8) + 1];
            assert_eq!(fork_bits(k as u16, &order, &mut bits), Ok(()));
            assert_eq!(bits.pop(), Some(77));
            for v in 0..8 * bits.len() {
                assert_eq!(bits[v / 8] >> (v % 8) & 1 == 1, v < n && set[v]);
            }
            let mut back = vec![0; n];
            assert_eq!(order_of_bits(k as u16, &bits, &mut back), Ok(()));
            assert_eq!(back, order);
        }
    }
    let mut order = [0; 4];
    assert_eq!(order_of_bits(2, &[0x0E, 0xFF], &mut order), Ok(()));
    assert_eq!(order, [3, 2, 1, 0]);
}

/// 'Accepted: .. k = 10': the whole run and an order file at every k, each read back.
#[test]
fn every_k() {
    let mut random = seeded("every k");
    for k in 0..=10u16 {
        let n = 1usize << k;
        let mut lent = Run::new(k);
        lent.coords.fill_with(|| random.below(40_001) as i32 - 20_000);
        lent.speeds.fill_with(|| 1 + random.below(2_000) as u16);
        lent.blends.fill_with(|| random.below(501) as u16);
        lent.dwells.fill_with(|| random.below(5_001) as u16);
        let mut path = vec![0; 12 + 22 * n];
        assert_eq!(lent.write(6, k, &mut path), Ok(path.len() as u64));
        let mut run = Run::new(k);
        let (_, _, total) = run.whole(&path, 6).expect("a good path");
        assert_eq!(run.read(&path, 6), Ok((6, k)));
        assert_eq!(run.coords[..3 * n], lent.coords[..3 * n]);
        assert_eq!([&run.speeds[..n], &run.blends[..n], &run.dwells[..n]], [&lent.speeds[..n], &lent.blends[..n], &lent.dwells[..n]]);
        let mut file = vec![0; 30 + 3 * n];
        let count = write_order_file(k, &run.order, &run.table, &mut file).expect("an allowed order") as usize;
        assert_eq!(count, 26 + 2 * n + n.div_ceil(8));
        let (mut order, mut bits) = (vec![0; n], vec![0; n.div_ceil(8)]);
        assert_eq!(read_order_file(k, &run.table, &file[..count], &mut order, &mut bits), Ok(total));
        assert_eq!(order, run.order[..n]);
        let due = if k <= 6 { 0 } else { -8 };
        assert_eq!(cell_check(&path, 6, &file[..count]), due);
        let mut out = vec![77; count];
        assert_eq!(cell_plan(&path, 6, &mut out), if k <= 6 { count as i64 } else { -8 });
        assert!(k > 6 || out == file[..count]);
        assert_eq!(draw_number(&path, 6, n), Ok(None));
    }
}
