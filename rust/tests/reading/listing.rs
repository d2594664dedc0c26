//! M-112 by itself: the document's example, each line once, and the sequence of the refusals.

use super::*;

/// A path of stops at some x with some speeds, the rest 0.
fn row(version: u16, k: u16, xs: &[i32], speeds: &[u16]) -> Vec<u8> {
    let coords: Vec<i32> = xs.iter().flat_map(|&x| [x, 0, 0]).collect();
    let zeros = vec![0; xs.len()];
    let mut bytes = vec![0; 12 + xs.len() * (18 + 2 * usize::from(version - 4))];
    write_path(version, k, &coords, speeds, &zeros, &zeros, &mut bytes).expect("good stops");
    bytes
}

/// 'For stops at x = 0 and 21, speeds 300 and 700, the rest 0, the whole output is `3 0 1` and `7 1 0`.'
#[test]
fn the_pair_in_every_version() {
    for version in 4..=6 {
        assert_eq!(all_orders(&row(version, 1, &[0, 21], &[300, 700])), Ok("3 0 1\n7 1 0\n".into()));
    }
}

/// Every list of n different stops, from the left.
fn arrangements(n: u16) -> Vec<Vec<u16>> {
    let mut lists = vec![vec![]];
    for _ in 0..n {
        let longer = |list: &Vec<u16>| -> Vec<Vec<u16>> { (0..n).filter(|stop| !list.contains(stop)).map(|stop| [&list[..], &[stop]].concat()).collect() };
        lists = lists.iter().flat_map(longer).collect();
    }
    lists
}

/// 'prints each allowed order exactly once'; 'The smallest printed total is the planner's.' By all arrangements of the stops, of which those are
/// allowed that Theorem 7 lets through.
#[test]
fn each_allowed_order_once() {
    for k in 0..=3 {
        let n = 1u16 << k;
        let xs: Vec<i32> = (0..n).map(|i| i32::from(i * i * 37 % 101)).collect();
        let bytes = row(4, k, &xs, &vec![7; n.into()]);
        let text = all_orders(&bytes).expect("a good path");
        assert!(text.ends_with('\n'));
        let lines: Vec<Vec<u64>> = text.lines().map(|line| line.split(' ').map(|number| number.parse().expect("a number")).collect()).collect();
        let mut printed: Vec<Vec<u16>> = lines.iter().map(|line| line[1..].iter().map(|&stop| stop as u16).collect()).collect();
        printed.sort();
        assert_eq!(printed, arrangements(n).into_iter().filter(|order| allowed(order)).collect::<Vec<_>>());
        let mut run = Run::new(k);
        let (_, _, least) = run.whole(&bytes, 6).expect("a good path");
        assert_eq!(lines.iter().map(|line| line[0]).min(), Some(least));
    }
}

/// 'above that 5, found directly after the path's k': before a stop that is not there, and after the version.
#[test]
fn five_directly_after_k() {
    for k in [4, 6, 7, 10, 11, 65_535u16] {
        let head = |version: u8| [&[6, 0, 1, 0, version, 0], &k.to_le_bytes()[..]].concat();
        assert_eq!(all_orders(&head(6)), Err((WRONG_K, "5\n".into())));
        assert_eq!(all_orders(&head(7)), Err((WRONG_VERSION, "4\n".into())));
        assert_eq!(all_orders(&head(6)[..7]), Err((CUT_OFF, "1\n".into())));
    }
}
