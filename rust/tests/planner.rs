//! The planner against the independent reading of document 01.

use evidence::{
    calls::{by_library, compare, Call, Heap, Lent},
    cases::{any_set, any_table, planted, rounds, seeded, table},
    cubic,
    plain::{self, Checked, Columns, Pairs, Rows, Slices, Unchecked},
    random::Random,
    reading::{
        allowed, by_enumeration, by_whole_tables, closed_total, every_set, move_cost, order_of, placed_cost, placed_total, preferred, total, tour_by_last_stops,
    },
    world::{planner_lent, planner_suiting},
};

/// All allowed orders of 2^k stops.
fn every_order(k: u32) -> Vec<Vec<u16>> {
    every_set(k).map(|set| order_of(k, &set)).collect()
}

/// The planner gives this order and this total: 'After success each output holds the result first and is untouched beyond; the planner's
/// work space holds 0 in the numbers named above and is untouched beyond.'
fn gives(k: u16, lent: &Lent<Heap>, order: &[u16], total: u64) {
    let n = order.len();
    let mut due = lent.held(Heap);
    due.order[..n].copy_from_slice(order);
    due.totals[..2 * n].fill(0);
    due.pivots[..2 * n].fill(0);
    let mut got = lent.held(Heap);
    assert_eq!(by_library(Call::Plan { k }, &mut got), Ok(vec![total as i64]));
    assert_eq!(got.difference(&due), None, "k = {k}");
}

#[test]
fn k_0_to_3_against_enumeration() {
    let mut random = seeded("k = 0 to 3");
    for k in 0..=3 {
        assert_eq!(every_order(k.into()).len(), 1 << ((1 << k) - 1));
        for _ in 0..20_000 * rounds() {
            let table = any_table(&mut random, k.into());
            assert_eq!(compare(Call::Plan { k }, &planner_suiting(&mut random, k, &table)), 0);
        }
    }
}

#[test]
fn k_4_to_10_against_whole_tables() {
    let mut random = seeded("k = 4 to 10");
    for (k, count) in [(4, 9000), (5, 2500), (6, 500), (7, 120), (8, 50), (9, 15), (10, 5)] {
        for _ in 0..count * rounds() {
            let table = any_table(&mut random, k.into());
            assert_eq!(compare(Call::Plan { k }, &planner_suiting(&mut random, k, &table)), 0);
        }
    }
}

/// 'Optimality, with its rule for equals, is wanted for this sum', by enumeration and by whole tables; 'A second table all zero gives the plain
/// result', and so does one that is the same everywhere, at n times its entry more.
#[test]
fn places_against_both_methods() {
    let mut random = seeded("places");
    let counts = [(0, 2000), (1, 5000), (2, 20_000), (3, 20_000), (4, 6000), (5, 1500), (6, 300), (7, 80), (8, 30), (9, 8), (10, 3)];
    for (k, count) in counts {
        for i in 0..count * rounds() {
            let table = any_table(&mut random, k.into());
            let mut lent = planner_suiting(&mut random, k, &table);
            lent.places = any_table(&mut random, k.into());
            assert_eq!(compare(Call::PlanPlaces { k }, &lent), 0);
            if i % 4 == 0 {
                let entry = [0, 1, u32::MAX][i / 4 % 3];
                lent.places.fill(entry);
                let mut plain = lent.held(Heap);
                let sum = by_library(Call::Plan { k }, &mut plain).expect("the lengths suffice")[0];
                assert_eq!(by_library(Call::PlanPlaces { k }, &mut lent), Ok(vec![sum + (i64::from(entry) << k)]));
                assert_eq!(lent.difference(&plain), None, "k = {k}");
            }
        }
    }
}

/// 'Among tours the least total is wanted, ties as before', by enumeration and by whole tables; 'for n = 1 it is 0'; 'For k = 1 the two totals are
/// equal, so the tour is 1, 0'; closing an order adds a move.
#[test]
fn tours_against_both_methods() {
    let mut random = seeded("tours");
    for (k, count) in [(0, 2000), (1, 5000), (2, 20_000), (3, 20_000), (4, 1500), (5, 150), (6, 15), (7, 3)] {
        for _ in 0..count * rounds() {
            let table = any_table(&mut random, k.into());
            let mut lent = planner_suiting(&mut random, k, &table);
            assert_eq!(compare(Call::Tour { k }, &lent), 0);
            let sum = by_library(Call::Tour { k }, &mut lent).expect("the lengths suffice")[0];
            let order = lent.order[..1 << k].to_vec();
            assert!(allowed(&order));
            assert_eq!(sum as u64, closed_total(&table, &order));
            assert!(k > 0 || sum == 0);
            assert!(k != 1 || order == [1, 0]);
            let open = by_library(Call::Plan { k }, &mut lent).expect("the lengths suffice")[0];
            let closed = closed_total(&table, &lent.order[..1 << k]);
            assert!(open <= sum && sum as u64 <= closed, "k = {k}");
        }
    }
}

/// The order and the total that a call gives by two tables, of which only `plan_places` has the second.
fn found(random: &mut Random, call: Call, k: u16, table: &[u32], places: &[u32]) -> (Vec<u16>, u64) {
    let mut lent = planner_suiting(random, k, table);
    lent.places = places.to_vec();
    let sum = by_library(call, &mut lent).expect("the lengths suffice")[0] as u64;
    (lent.order[..1 << k].to_vec(), sum)
}

/// An amount that may be added to entries up to `largest`.
fn any_amount(random: &mut Random, largest: u32) -> u32 {
    let room = u64::from(u32::MAX - largest);
    let most = room.min([0, 7, u64::from(u32::MAX)][random.below(3) as usize]);
    random.below(most + 1) as u32
}

/// M-106: 'if the same amount is added to all entries off the diagonal and none passes 4,294,967,295, the returned order is the same and its total grows
/// by n−1 times the amount', for tours 'n times the amount for n at least 2 and zero for n = 1'; n times the amount that every place costs more. 'raising
/// any entries never makes the least total smaller'. The diagonal may be anything.
#[test]
fn slower_and_raised_tables() {
    let mut random = seeded("slower and raised tables");
    for (k, count) in [(0, 100), (1, 500), (2, 2000), (3, 1000), (4, 300), (5, 80), (6, 20)] {
        let n = 1usize << k;
        let moves = n as u64 - 1;
        for _ in 0..count * rounds() {
            let [table, places] = [0; 2].map(|_| any_table(&mut random, k.into()));
            let largest = |table: &[u32], diagonal: bool| (0..n * n).filter(|i| diagonal || i / n != i % n).map(|i| table[i]).max().unwrap_or(0);
            let amount = any_amount(&mut random, largest(&table, false));
            let each = any_amount(&mut random, largest(&places, true));
            let slower: Vec<u32> = (0..n * n).map(|i| if i / n == i % n { random.next() as u32 } else { table[i] + amount }).collect();
            let dearer: Vec<u32> = places.iter().map(|entry| entry + each).collect();
            let [raised, raised_places] = [&table, &places].map(|table| table.iter().map(|&entry| entry + any_amount(&mut random, entry)).collect::<Vec<u32>>());
            let tours = if k == 0 { 0 } else { n as u64 };
            let calls = [(Call::Plan { k }, moves, 0), (Call::Tour { k }, tours, 0), (Call::PlanPlaces { k }, moves, n as u64)];
            for (call, moves, shares) in calls.into_iter().filter(|&(call, ..)| k <= 5 || !matches!(call, Call::Tour { .. })) {
                let (order, sum) = found(&mut random, call, k, &table, &places);
                let grown = sum + moves * u64::from(amount) + shares * u64::from(each);
                assert_eq!(found(&mut random, call, k, &slower, &dearer), (order, grown), "{call:?}");
                assert!(sum <= found(&mut random, call, k, &raised, &raised_places).1, "{call:?}");
            }
        }
    }
}

#[test]
fn totals_against_the_cubic_method() {
    let mut random = seeded("cubic method");
    for (k, count) in [(0, 10), (1, 100), (2, 500), (3, 500), (4, 500), (5, 200), (6, 40), (7, 6)] {
        for _ in 0..count * rounds() {
            let table = any_table(&mut random, k.into());
            let (order, sum) = cubic::plan(k.into(), &table);
            assert!(allowed(&order));
            assert_eq!(total(&table, &order), sum);
            let mut lent = planner_suiting(&mut random, k, &table);
            assert_eq!(by_library(Call::Plan { k }, &mut lent), Ok(vec![sum as i64]));
        }
    }
}

/// The two readings of 'allowed' agree, and so do the two independent methods: what the planner is compared with is right.
#[test]
fn the_reading_agrees_with_itself() {
    let mut random = seeded("reading");
    for k in 0..=3 {
        let orders = every_order(k);
        assert!(orders.iter().all(|order| allowed(order)));
        for _ in 0..300 {
            let (n, table, places) = (1 << k, any_table(&mut random, k), any_table(&mut random, k));
            let by_moves = by_enumeration(&orders, |order| total(&table, order));
            assert_eq!(by_moves, by_whole_tables(k, |_, before, stop| move_cost(n, &table, before, stop)));
            let by_both = by_enumeration(&orders, |order| placed_total(&table, &places, order));
            assert_eq!(by_both, by_whole_tables(k, |place, before, stop| placed_cost(n, &table, &places, place, before, stop)));
            let by_closed = by_enumeration(&orders, |order| closed_total(&table, order));
            assert!(k == 0 || by_closed == tour_by_last_stops(k, &table));
        }
    }
    for k in 4..=10 {
        for _ in 0..20 {
            assert!(allowed(&order_of(k, &any_set(&mut random, k))));
        }
    }
    // of all sequences of the stops 0 to 3, repeated ones too, exactly 8 are allowed, and they are the enumerated ones
    let orders = every_order(2);
    let sequences = (0..256u16).map(|x| vec![x & 3, x >> 2 & 3, x >> 4 & 3, x >> 6]);
    let found: Vec<_> = sequences.filter(|order| allowed(order)).collect();
    assert_eq!(found.len(), 8);
    assert!(found.iter().all(|order| orders.contains(order)));
}

#[test]
fn plain_planners_of_the_benchmark() {
    let mut random = seeded("plain planners");
    for (k, count) in [(0, 20), (1, 200), (2, 500), (3, 500), (4, 200), (5, 50), (6, 20), (8, 3)] {
        for _ in 0..count {
            let table = any_table(&mut random, k.into());
            let before = planner_suiting(&mut random, k, &table);
            let mut first = before.held(Heap);
            let answer = by_library(Call::Plan { k }, &mut first);
            for planner in [
                plain::plan::<Columns<Checked>>,
                plain::plan::<Rows<Checked>>,
                plain::plan::<Slices>,
                plain::plan::<Pairs<Checked>>,
                plain::plan::<Columns<Unchecked>>,
                plain::plan::<Rows<Unchecked>>,
                plain::plan::<Pairs<Unchecked>>,
            ] {
                let mut lent = before.held(Heap);
                let given = planner(k, &table, &mut lent.order, &mut lent.totals, &mut lent.pivots);
                assert_eq!(given.map(|total| vec![total as i64]), answer);
                assert_eq!(lent.difference(&first), None);
            }
        }
    }
}

#[test]
fn a_planted_order_at_every_k() {
    let mut random = seeded("planted order");
    for k in 1..=10 {
        for _ in 0..3 * rounds() {
            let (table, order, sum) = planted(&mut random, k.into());
            gives(k, &planner_suiting(&mut random, k, &table), &order, sum);
        }
    }
}

#[test]
fn tables_full_of_ties_at_every_k() {
    let mut random = seeded("ties");
    for k in 0..=10 {
        let n = 1u16 << k;
        for entry in [0, 1, u32::MAX] {
            let table = vec![entry; n as usize * n as usize];
            let order: Vec<u16> = (0..n).rev().collect();
            gives(k, &planner_suiting(&mut random, k, &table), &order, u64::from(n - 1) * u64::from(entry));
        }
    }
    // few different entries, at a large k: no allowed order near the answer is preferred to it
    let k = 10;
    let table = table(&mut random, k.into(), 2);
    let mut lent = planner_suiting(&mut random, k, &table);
    let sum = by_library(Call::Plan { k }, &mut lent).expect("the lengths suffice")[0] as u64;
    let order = &lent.order[..1 << k];
    assert!(allowed(order));
    assert_eq!(total(&table, order), sum);
    for _ in 0..500 {
        let other = order_of(k.into(), &any_set(&mut random, k.into()));
        assert!(!preferred((&other, total(&table, &other)), (order, sum)));
    }
}

#[test]
fn known_examples() {
    let examples: [(u16, &[u32], &[u16], u64); 6] = [
        (0, &[9], &[0], 0),
        (1, &[0, 3, 7, 0], &[0, 1], 3),
        (1, &[0, 7, 3, 0], &[1, 0], 3),
        (1, &[0, 5, 5, 0], &[1, 0], 5),
        (2, &[1; 16], &[3, 2, 1, 0], 3),
        (2, &[0, 30, 10, 20, 30, 0, 20, 10, 10, 20, 0, 10, 20, 10, 10, 0], &[2, 3, 1, 0], 50),
    ];
    let mut random = seeded("known examples");
    for (k, table, order, sum) in examples {
        gives(k, &planner_suiting(&mut random, k, table), order, sum);
    }
}

/// Every combination of lengths around those that suffice, for k up to 2; each length by itself for larger k; every k above 10.
#[test]
fn refusals() {
    let mut random = seeded("refusals");
    for k in 0..=2u16 {
        let n = 1usize << k;
        for entries in 0..=n * n + 2 {
            let table: Vec<u32> = (0..entries).map(|_| random.below(4) as u32).collect();
            for order in 0..=n + 1 {
                for totals in 0..=2 * n + 1 {
                    for pivots in 0..=2 * n + 1 {
                        compare(Call::Plan { k }, &planner_lent(&mut random, &table, order, totals, pivots));
                    }
                }
            }
        }
    }
    for k in 3..=10u16 {
        let n = 1usize << k;
        let good = table(&mut random, k.into(), 4);
        let mut refused = |table: &[u32], order: usize, totals: usize, pivots: usize| {
            assert_eq!(compare(Call::Plan { k }, &planner_lent(&mut random, table, order, totals, pivots)), 8);
        };
        let short = |suffices: usize| (0..suffices).step_by(1 + suffices / 20).chain([suffices - 1]);
        for order in short(n) {
            refused(&good, order, 2 * n, 2 * n);
        }
        for work in short(2 * n) {
            refused(&good, n, work, 2 * n);
            refused(&good, n, 2 * n, work);
        }
        for entries in short(n * n).chain([n * n + 1, n * n + n, 2 * n * n]) {
            let wrong: Vec<u32> = good.iter().copied().cycle().take(entries).collect();
            refused(&wrong, n, 2 * n, 2 * n);
        }
    }
    for k in 11..=u16::MAX {
        // 5 comes before 8
        let length = usize::from(k % 5);
        assert_eq!(compare(Call::Plan { k }, &planner_lent(&mut random, &[7; 4][..length.min(4)], length, 2 * length, length)), 5);
    }
}
