//! Orders kept by name: document 02, M-110.

use super::*;

/// What is lent on the 50 example's stops, one place longer than needed.
#[derive(Clone, PartialEq, Debug)]
struct Lent {
    order: [u16; 5],
    sums: [u64; 5],
    marks: [u8; 9],
    stops: [u16; 33],
    kept: [u64; 33],
}

impl Lent {
    fn new() -> Lent {
        Lent { order: [2, 3, 1, 0, 77], sums: [0, 50, 30, 10, 77], marks: [0; 9], stops: [77; 33], kept: [77; 33] }
    }
    fn keep(&mut self, name: u16) -> Result<(), u16> {
        keep(&fifty(5), 6, name, &self.order, &self.sums, &mut self.marks, &mut self.stops, &mut self.kept)
    }
    fn back(&mut self, name: u16) -> Result<(), u16> {
        come_back(&fifty(5), 6, name, &mut self.order, &mut self.sums, &self.marks, &self.stops, &self.kept)
    }
    fn exchange(&mut self, fork: u16) {
        exchange_fork(&fifty(5), 6, fork, &mut self.order, &mut self.sums).expect("a fork");
    }
}

/// 'Coming back restores the order and all group sums as they were when last kept under that name'; 'Other names are unaffected.'
#[test]
fn monday_to_thursday() {
    let mut lent = Lent::new();
    let mut days = vec![];
    for name in 1..=8 {
        assert_eq!(lent.keep(name), Ok(()));
        days.push((lent.order, lent.sums));
        lent.exchange(1 + name % 3);
    }
    for name in (1..=8).chain([3, 1, 8]) {
        assert_eq!(lent.back(name), Ok(()));
        assert_eq!((lent.order, lent.sums), days[usize::from(name) - 1]);
        lent.exchange(2);
    }
    // 'Keeping under a used name replaces what was there'
    let before = lent.clone();
    assert_eq!(lent.keep(3), Ok(()));
    assert_eq!((&lent.stops[8..12], &lent.kept[8..12]), (&lent.order[..4], &lent.sums[..4]));
    assert_eq!((&lent.stops[..8], &lent.stops[12..]), (&before.stops[..8], &before.stops[12..]));
    assert_eq!((&lent.kept[..8], &lent.kept[12..], lent.marks), (&before.kept[..8], &before.kept[12..], before.marks));
    assert_eq!(clear(&mut lent.marks), Ok(()));
    assert_eq!(lent.marks, [0; 9]);
    assert_eq!(lent.back(3), Err(NOTHING_KEPT));
}

/// The path and all lengths, the screen's records, 15, 16, and then what was kept; a refusal writes nothing.
#[test]
fn refusals_of_names() {
    let mut good = Lent::new();
    good.keep(2).expect("a name");
    let path = fifty(6);
    let calls = |lent: &Lent, name: u16, number: [u16; 2]| {
        for (back, number) in [false, true].into_iter().zip(number) {
            let mut other = lent.clone();
            let answer = if back { other.back(name) } else { other.keep(name) };
            assert_eq!(answer, if number == 0 { Ok(()) } else { Err(number) });
            assert!(number == 0 || other == *lent, "a refusal wrote");
        }
    };
    let with = |change: fn(&mut Lent)| {
        let mut lent = good.clone();
        change(&mut lent);
        lent
    };
    calls(&good, 2, [0, 0]);
    calls(&good, 0, [NO_SUCH_NAME; 2]);
    calls(&good, 9, [NO_SUCH_NAME; 2]);
    calls(&good, 1, [0, NOTHING_KEPT]);
    calls(&with(|lent| lent.sums[0] = 1), 9, [WRONG_TOTAL; 2]);
    calls(&with(|lent| (lent.order[0], lent.sums[0]) = (1, 1)), 9, [NOT_ALLOWED; 2]);
    calls(&with(|lent| (lent.order[0], lent.sums[0]) = (4, 1)), 9, [WRONG_STOP; 2]);
    // 'A mark is 1 when used; any other mark means nothing kept'
    calls(&with(|lent| lent.marks[1] = 2), 2, [0, NOTHING_KEPT]);
    calls(&with(|lent| (lent.marks[1], lent.stops[4]) = (0, 4)), 2, [0, NOTHING_KEPT]);
    calls(&with(|lent| (lent.stops[4], lent.kept[4]) = (4, 1)), 2, [0, WRONG_STOP]);
    calls(&with(|lent| (lent.stops[4], lent.kept[4]) = (1, 1)), 2, [0, NOT_ALLOWED]);
    calls(&with(|lent| lent.kept[4] = 1), 2, [0, WRONG_TOTAL]);
    // the lengths, in the head
    for (order, sums, marks, stops, kept) in [(3, 5, 9, 33, 33), (5, 3, 9, 33, 33), (5, 5, 7, 33, 33), (5, 5, 9, 31, 33), (5, 5, 9, 33, 31)] {
        let Lent { order: o, sums: s, marks: m, stops: t, kept: u } = &mut good.clone();
        assert_eq!(keep(&path[..40], 6, 9, &o[..order], &s[..sums], &mut m[..marks], &mut t[..stops], &mut u[..kept]), Err(WRONG_SIZE));
        assert_eq!(come_back(&path[..40], 6, 9, &mut o[..order], &mut s[..sums], &m[..marks], &t[..stops], &u[..kept]), Err(WRONG_SIZE));
    }
    assert_eq!(clear(&mut [1; 7]), Err(WRONG_SIZE));
}
