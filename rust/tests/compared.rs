//! Every public call and the controller's three against the independent reading: each answer, each number, each lent byte.

use evidence::{
    calls::{by_library, compare, Call, Heap, Lent},
    cases::{rounds, seeded},
    damage::record_starts,
    plain_path,
    random::Random,
    world::{each_case, World},
};
use std::{collections::BTreeMap, mem::discriminant};

/// How many worlds of each k a run looks at. Of the larger ones fewer: the independent method keeps whole tables.
const WORLDS: [(u16, usize); 11] =
    [(0, 4000), (1, 4000), (2, 6000), (3, 6000), (4, 1500), (5, 500), (6, 120), (7, 20), (8, 6), (9, 2), (10, 1)];

/// Which numbers each call gave, 0 for a success.
#[derive(Default)]
struct Seen(BTreeMap<String, BTreeMap<u16, usize>>);

impl Seen {
    fn note(&mut self, call: Call, number: u16) {
        let text = format!("{call:?}");
        let name = text.split(' ').next().expect("a call has a name").to_owned();
        *self.0.entry(name).or_default().entry(number).or_default() += 1;
    }

    fn numbers(&self, name: &str) -> Vec<u16> {
        self.0[name].keys().copied().collect()
    }
}

/// Good input, one fault and two, for every call: every success and every refusal that a call has is met, and no other.
#[test]
fn every_call_with_faults() {
    let mut random = seeded("every call");
    let mut seen = Seen::default();
    for (k, worlds) in WORLDS {
        each_case(&mut random, k, worlds * rounds(), |call, lent| seen.note(call, compare(call, lent)));
    }
    for (name, numbers) in &seen.0 {
        println!("{name}: {numbers:?}");
    }
    let path = [0, 1, 2, 3, 4, 5, 6, 7, 8];
    assert_eq!(seen.numbers("ReadPath"), path);
    assert_eq!(seen.numbers("PlanPath"), path);
    assert_eq!(seen.numbers("CellPlan"), path);
    assert_eq!(seen.numbers("Draw"), path[..8]);
    assert_eq!(seen.numbers("CellRewrite"), [0, 1, 2, 3, 4, 5, 6, 7, 8, 13]);
    assert_eq!(seen.numbers("CellCheck"), [0, 1, 2, 3, 4, 5, 6, 7, 8, 9, 10, 11, 12]);
    assert_eq!(seen.numbers("WritePath"), [0, 4, 5, 6, 8, 13]);
    assert_eq!(seen.numbers("MakeTable"), [0, 5, 6, 8]);
    assert_eq!(seen.numbers("TableFrom"), path);
    assert_eq!(seen.numbers("Plan"), [0, 5, 8]);
    assert_eq!(seen.numbers("PlanWeighings"), [0, 5, 8]);
    assert_eq!(seen.numbers("PlanPlaces"), [0, 5, 8]);
    assert_eq!(seen.numbers("Tour"), [0, 5, 8]);
    assert_eq!(seen.numbers("Foretell"), [0, 5]);
    for call in ["ForkBits", "OrderTotal", "WriteOrderFile"] {
        assert_eq!(seen.numbers(call), [0, 5, 8, 9, 10]);
    }
    assert_eq!(seen.numbers("OrderOfBits"), [0, 5, 8, 12]);
    assert_eq!(seen.numbers("Exchange"), [0, 5, 8, 9, 10, 12]);
    assert_eq!(seen.numbers("GroupSums"), [0, 1, 2, 3, 4, 5, 6, 7, 8, 9, 10]);
    assert_eq!(seen.numbers("ExchangeFork"), [0, 1, 2, 3, 4, 5, 6, 7, 8, 9, 10, 11, 14]);
    assert_eq!(seen.numbers("Keep"), [0, 1, 2, 3, 4, 5, 6, 7, 8, 9, 10, 11, 15]);
    assert_eq!(seen.numbers("ComeBack"), [0, 1, 2, 3, 4, 5, 6, 7, 8, 9, 10, 11, 15, 16]);
    assert_eq!(seen.numbers("Clear"), [0, 8]);
    assert_eq!(seen.numbers("ForkCost"), [0, 1, 2, 3, 4, 5, 6, 7, 8, 14]);
    assert_eq!(seen.numbers("PlanFilled"), [0, 5, 6, 8]);
    assert_eq!(seen.numbers("ReadOrderFile"), [0, 1, 2, 3, 5, 7, 8, 9, 10, 11, 12]);
}

/// The plain reader of the benchmark does the same work.
#[test]
fn plain_reader_of_the_benchmark() {
    let mut random = seeded("plain reader");
    for k in 0..=6 {
        each_case(&mut random, k, 100, |call, lent| {
            let Call::ReadPath { highest } = call else { return };
            let (mut library, mut plain) = (lent.held(Heap), lent.held(Heap));
            let answer = plain_path::read_path(&plain.bytes, highest, &mut plain.coords, &mut plain.speeds, &mut plain.blends, &mut plain.dwells);
            assert_eq!(by_library(call, &mut library), answer.map(|(version, k)| vec![version.into(), k.into()]));
            assert_eq!(library.difference(&plain), None);
        });
    }
}

/// The calls that read path bytes, and those that read an order file.
fn path_calls(k: u16, highest: u16) -> Vec<Call> {
    let mut calls = vec![
        Call::ReadPath { highest },
        Call::PlanPath { highest },
        Call::ForkCost { highest, fork: 1, field: 1 },
        Call::ForkCost { highest, fork: 1 << k, field: 3 },
        Call::ForkCost { highest, fork: 0, field: 4 },
        Call::GroupSums { highest },
        Call::ExchangeFork { highest, fork: 1 },
        Call::Keep { highest, name: 8 },
        Call::ComeBack { highest, name: 8 },
        Call::CellPlan { highest },
        Call::CellCheck { highest },
        Call::CellRewrite { highest, version: 4 },
        Call::CellRewrite { highest, version: 5 },
        Call::CellRewrite { highest, version: 6 },
    ];
    calls.extend((0..(1 << k) + 2).map(|d| Call::Draw { highest, d }));
    calls
}

/// Compares these calls for some path bytes and order file.
fn compare_all(calls: &[Call], random: &mut Random, world: &World, path: &[u8], file: &[u8]) {
    for &call in calls {
        let mut lent = world.lent(random, call);
        lent.bytes = path.to_vec();
        lent.file = file.to_vec();
        compare(call, &lent);
    }
}

/// Every cut, every bit, and every value of every byte of a record's head and of the fields after it.
fn each_damage(bytes: &[u8], mut with: impl FnMut(&[u8])) {
    for length in 0..bytes.len() {
        with(&bytes[..length]);
    }
    for bit in 0..8 * bytes.len() {
        let mut other = bytes.to_vec();
        other[bit / 8] ^= 1 << (bit % 8);
        with(&other);
    }
    for start in record_starts(bytes) {
        for at in start..bytes.len().min(start + 6) {
            for value in 0..=255 {
                let mut other = bytes.to_vec();
                other[at] = value;
                with(&other);
            }
        }
    }
    for more in 1..=5 {
        with(&[bytes, &[2, 0, 3, 0, 0][..more]].concat());
    }
}

#[test]
fn every_damage_of_small_paths() {
    let mut random = seeded("small paths");
    for k in 0..=2 {
        for version in 4..=6 {
            let world = World::wide(&mut random, k, version);
            for highest in 3..=7 {
                let calls = path_calls(k, highest);
                compare_all(&calls, &mut random, &world, &world.path, &world.file);
                each_damage(&world.path, |path| compare_all(&calls, &mut random, &world, path, &world.file));
            }
        }
    }
}

#[test]
fn every_damage_of_small_order_files() {
    let mut random = seeded("small order files");
    for k in 0..=4 {
        for _ in 0..6 {
            let world = World::any(&mut random, k);
            let calls = [Call::ReadOrderFile { k }, Call::CellCheck { highest: 6 }];
            compare_all(&calls, &mut random, &world, &world.path, &world.file);
            each_damage(&world.file, |file| compare_all(&calls, &mut random, &world, &world.path, file));
        }
    }
}

/// Two faults: every pair of bits of the smallest path and of the smallest order file.
#[test]
fn every_pair_of_bits() {
    let mut random = seeded("pairs of bits");
    let world = World::wide(&mut random, 0, 6);
    let flipped = |bytes: &[u8], a: usize, b: usize| {
        let mut other = bytes.to_vec();
        other[a / 8] ^= 1 << (a % 8);
        other[b / 8] ^= 1 << (b % 8);
        other
    };
    let calls = [Call::ReadPath { highest: 6 }, Call::CellRewrite { highest: 6, version: 5 }];
    for b in 0..8 * world.path.len() {
        for a in 0..b {
            compare_all(&calls, &mut random, &world, &flipped(&world.path, a, b), &world.file);
        }
    }
    for b in 0..8 * world.file.len() {
        for a in 0..b {
            compare_all(&[Call::ReadOrderFile { k: 0 }], &mut random, &world, &world.path, &flipped(&world.file, a, b));
        }
    }
}

/// The same call with another number beside the buffers.
fn with_number(call: Call, number: u16) -> Vec<Call> {
    match call {
        Call::ReadPath { .. } => vec![Call::ReadPath { highest: number }],
        Call::WritePath { version, k } => vec![Call::WritePath { version: number, k }, Call::WritePath { version, k: number }],
        Call::MakeTable { .. } => vec![Call::MakeTable { k: number }],
        Call::TableFrom { version, k } => vec![Call::TableFrom { version: number, k }, Call::TableFrom { version, k: number }],
        Call::Plan { .. } => vec![Call::Plan { k: number }],
        Call::PlanWeighings { .. } => vec![Call::PlanWeighings { k: number }],
        Call::PlanPlaces { .. } => vec![Call::PlanPlaces { k: number }],
        Call::Tour { .. } => vec![Call::Tour { k: number }],
        Call::Foretell { .. } => vec![Call::Foretell { k: number }],
        Call::PlanPath { .. } => vec![Call::PlanPath { highest: number }],
        Call::ForkCost { highest, fork, field } => vec![
            Call::ForkCost { highest: number, fork, field },
            Call::ForkCost { highest, fork: number, field },
            Call::ForkCost { highest, fork, field: number },
        ],
        Call::PlanFilled { .. } => vec![Call::PlanFilled { k: number }],
        Call::ForkBits { .. } => vec![Call::ForkBits { k: number }],
        Call::OrderOfBits { .. } => vec![Call::OrderOfBits { k: number }],
        Call::Exchange { .. } => vec![Call::Exchange { k: number }],
        Call::GroupSums { .. } => vec![Call::GroupSums { highest: number }],
        Call::ExchangeFork { highest, fork } => {
            vec![Call::ExchangeFork { highest: number, fork }, Call::ExchangeFork { highest, fork: number }]
        }
        Call::Keep { highest, name } => vec![Call::Keep { highest: number, name }, Call::Keep { highest, name: number }],
        Call::ComeBack { highest, name } => vec![Call::ComeBack { highest: number, name }, Call::ComeBack { highest, name: number }],
        Call::Clear => vec![],
        Call::OrderTotal { .. } => vec![Call::OrderTotal { k: number }],
        Call::WriteOrderFile { .. } => vec![Call::WriteOrderFile { k: number }],
        Call::ReadOrderFile { .. } => vec![Call::ReadOrderFile { k: number }],
        Call::Draw { d, .. } => vec![Call::Draw { highest: number, d }],
        Call::CellPlan { .. } => vec![Call::CellPlan { highest: number }],
        Call::CellCheck { .. } => vec![Call::CellCheck { highest: number }],
        Call::CellRewrite { highest, version } => {
            vec![Call::CellRewrite { highest: number, version }, Call::CellRewrite { highest, version: number }]
        }
    }
}

/// Every number of 16 bits as k, as the highest known version, as the version to be written, as a fork, as a field and as a name.
#[test]
fn every_number() {
    let mut random = seeded("numbers");
    let world = World::any(&mut random, 1);
    for call in world.calls(&mut random) {
        let lent = world.lent(&mut random, call);
        for number in 0..=u16::MAX {
            for other in with_number(call, number) {
                assert_eq!(discriminant(&call), discriminant(&other));
                compare(other, &lent);
            }
        }
    }
}

/// Every length of each lent buffer, from none to one more than needed.
#[test]
fn every_length() {
    let mut random = seeded("lengths");
    for k in 0..=5 {
        let world = World::any(&mut random, k);
        for call in world.calls(&mut random) {
            let lent = world.lent(&mut random, call);
            let shortened = |cut: fn(&mut Lent<Heap>, usize) -> bool| {
                let mut length = 0;
                loop {
                    let mut other = lent.held(Heap);
                    if !cut(&mut other, length) {
                        break;
                    }
                    compare(call, &other);
                    length += 1;
                }
            };
            shortened(|lent, length| cut(&mut lent.coords, length));
            shortened(|lent, length| cut(&mut lent.speeds, length));
            shortened(|lent, length| cut(&mut lent.blends, length));
            shortened(|lent, length| cut(&mut lent.dwells, length));
            shortened(|lent, length| cut(&mut lent.order, length));
            shortened(|lent, length| cut(&mut lent.totals, length));
            shortened(|lent, length| cut(&mut lent.pivots, length));
            shortened(|lent, length| cut(&mut lent.orders, length));
            shortened(|lent, length| cut(&mut lent.bits, length));
            shortened(|lent, length| cut(&mut lent.list, length));
            shortened(|lent, length| cut(&mut lent.empties, length));
            shortened(|lent, length| cut(&mut lent.sums, length));
            shortened(|lent, length| cut(&mut lent.marks, length));
            if k <= 3 {
                shortened(|lent, length| cut(&mut lent.stops, length));
                shortened(|lent, length| cut(&mut lent.kept, length));
            }
            shortened(|lent, length| cut(&mut lent.out, length));
            if k <= 3 {
                shortened(|lent, length| cut(&mut lent.table, length));
                shortened(|lent, length| cut(&mut lent.places, length));
                shortened(|lent, length| cut(&mut lent.work, length));
            }
        }
    }
}

/// Cuts a buffer to a length that it has.
fn cut<T>(numbers: &mut Vec<T>, length: usize) -> bool {
    let has = length <= numbers.len();
    numbers.truncate(length);
    has
}
