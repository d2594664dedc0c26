//! A path with everything that belongs to it, and what each call is lent for it.

use crate::{
    calls::{Call, Heap, Lent},
    cases::{any_set, any_table},
    damage::{one_of, spoil},
    random::Random,
    reading::{self, order_of},
};

/// A good path, a table, an allowed order with its fork bits, and the order file of the order by the table. In half of the worlds the
/// table is that of the path's travel times.
pub struct World {
    pub k: u16,
    pub version: u16,
    pub coords: Vec<i32>,
    pub speeds: Vec<u16>,
    pub blends: Vec<u16>,
    pub dwells: Vec<u16>,
    pub path: Vec<u8>,
    pub table: Vec<u32>,
    pub order: Vec<u16>,
    pub bits: Vec<u8>,
    pub file: Vec<u8>,
}

/// The bytes of a path of n stops.
pub fn path_length(version: u16, n: usize) -> usize {
    12 + n * (18 + 2 * usize::from(version - 4))
}

/// The bytes of the order file of n stops.
pub fn file_length(n: usize) -> usize {
    26 + 2 * n + n.div_ceil(8)
}

/// Numbers of some pattern, a few more than needed.
fn pattern<T>(random: &mut Random, needed: usize, number: impl Fn(u64) -> T) -> Vec<T> {
    let more = random.below(4) as usize;
    (0..needed + more).map(|_| number(random.next())).collect()
}

/// A field of n stops that paths have from version `since` on: numbers below `limit`, and 0 in an older version.
fn later_field(random: &mut Random, n: usize, version: u16, since: u16, limit: u64) -> Vec<u16> {
    let limit = if version < since { 1 } else { limit };
    (0..n).map(|_| random.below(limit) as u16).collect()
}

/// What the planner is lent: a table, and an order and work space of these lengths, filled with a pattern. The other buffers are empty.
pub fn planner_lent(random: &mut Random, table: &[u32], order: usize, totals: usize, pivots: usize) -> Lent<Heap> {
    Lent {
        bytes: vec![],
        file: vec![],
        coords: vec![],
        speeds: vec![],
        blends: vec![],
        dwells: vec![],
        table: table.to_vec(),
        places: vec![],
        order: (0..order).map(|_| random.next() as u16).collect(),
        totals: (0..totals).map(|_| random.next()).collect(),
        pivots: (0..pivots).map(|_| random.next() as u16).collect(),
        orders: vec![],
        bits: vec![],
        list: vec![],
        empties: vec![],
        work: vec![],
        sums: vec![],
        marks: vec![],
        stops: vec![],
        kept: vec![],
        out: vec![],
    }
}

/// What the planner is lent for a table of 2^k rows, some numbers longer than it needs.
pub fn planner_suiting(random: &mut Random, k: u16, table: &[u32]) -> Lent<Heap> {
    let n = 1usize << k;
    let [a, b, c] = [0; 3].map(|_: u64| random.below(4) as usize);
    planner_lent(random, table, n + a, 2 * n + b, 2 * n + c)
}

impl World {
    /// A world of 2^k stops. Small ranges give equal times, and so many equal totals.
    pub fn any(random: &mut Random, k: u16) -> World {
        let n = 1usize << k;
        let version = 4 + random.below(3) as u16;
        let reach = [1, 3, 40, 20_000][random.below(4) as usize];
        let coords = (0..3 * n).map(|_| random.below(2 * reach + 1) as i32 - reach as i32).collect();
        let fastest = [1, 3, 2_000][random.below(3) as usize];
        let speeds = (0..n).map(|_| 1 + random.below(fastest) as u16).collect();
        // where every blend or every dwell is 0, the path can be rewritten in a version that lacks the field
        let blends_below = [1, 501][random.below(2) as usize];
        let blends = later_field(random, n, version, 5, blends_below);
        let dwells_below = [1, 2, 40, 5_001][random.below(4) as usize];
        let dwells = later_field(random, n, version, 6, dwells_below);
        World::of(random, k, version, coords, speeds, blends, dwells)
    }

    /// A world whose stops take their whole range, with the table of their travel times: what the benchmark measures.
    pub fn wide(random: &mut Random, k: u16, version: u16) -> World {
        let n = 1usize << k;
        let coords = (0..3 * n).map(|_| random.below(40_001) as i32 - 20_000).collect();
        let speeds = (0..n).map(|_| 1 + random.below(2_000) as u16).collect();
        let blends = later_field(random, n, version, 5, 501);
        let dwells = later_field(random, n, version, 6, 5_001);
        let mut world = World::of(random, k, version, coords, speeds, blends, dwells);
        reading::make_table(k, &world.coords, &world.speeds, &world.blends, &world.dwells, &mut world.table).expect("good stops");
        reading::write_order_file(k, &world.order, &world.table, &mut world.file).expect("an allowed order");
        world
    }

    /// The world of some good stops.
    fn of(random: &mut Random, k: u16, version: u16, coords: Vec<i32>, speeds: Vec<u16>, blends: Vec<u16>, dwells: Vec<u16>) -> World {
        let n = 1usize << k;
        let mut path = vec![0; path_length(version, n)];
        reading::write_path(version, k, &coords, &speeds, &blends, &dwells, &mut path).expect("good stops");
        let mut table = any_table(random, k.into());
        if random.below(2) == 0 {
            reading::make_table(k, &coords, &speeds, &blends, &dwells, &mut table).expect("good stops");
        }
        let order = order_of(k.into(), &any_set(random, k.into()));
        let mut bits = vec![0; n.div_ceil(8)];
        reading::fork_bits(k, &order, &mut bits).expect("an allowed order");
        let mut file = vec![0; file_length(n)];
        reading::write_order_file(k, &order, &table, &mut file).expect("an allowed order");
        World { k, version, coords, speeds, blends, dwells, path, table, order, bits, file }
    }

    /// Each call once, with numbers that suit this world.
    pub fn calls(&self, random: &mut Random) -> [Call; 27] {
        let k = self.k;
        let highest = self.version + random.below(u64::from(7 - self.version)) as u16;
        let version = 4 + random.below(3) as u16;
        let d = random.below((1 << k) + 3) as usize;
        let fork = 1 + random.below(((1 << k) - 1).max(1)) as u16;
        let name = 1 + random.below(8) as u16;
        let field = random.below(4) as u16;
        [
            Call::ReadPath { highest },
            Call::WritePath { version, k },
            Call::MakeTable { k },
            Call::TableFrom { version: self.version, k },
            Call::Plan { k },
            Call::PlanWeighings { k },
            Call::PlanPlaces { k },
            Call::Tour { k },
            Call::Foretell { k },
            Call::PlanPath { highest },
            Call::ForkCost { highest, fork, field },
            Call::PlanFilled { k },
            Call::ForkBits { k },
            Call::OrderOfBits { k },
            Call::Exchange { k },
            Call::GroupSums { highest },
            Call::ExchangeFork { highest, fork },
            Call::Keep { highest, name },
            Call::ComeBack { highest, name },
            Call::Clear,
            Call::OrderTotal { k },
            Call::WriteOrderFile { k },
            Call::ReadOrderFile { k },
            Call::Draw { highest, d },
            Call::CellPlan { highest },
            Call::CellCheck { highest },
            Call::CellRewrite { highest, version },
        ]
    }

    /// What a call is lent for this world: its inputs, and outputs filled with a pattern, since nothing about them may be relied on. A
    /// lent input that may be longer than needed is.
    pub fn lent(&self, random: &mut Random, call: Call) -> Lent<Heap> {
        let n = 1usize << self.k;
        let out = match call {
            Call::WritePath { version, .. } | Call::CellRewrite { version, .. } => path_length(version, n),
            _ => file_length(n),
        };
        let mut lent = Lent::<Heap> {
            bytes: self.path.clone(),
            file: self.file.clone(),
            coords: pattern(random, 3 * n, |x| x as i32),
            speeds: pattern(random, n, |x| x as u16),
            blends: pattern(random, n, |x| x as u16),
            dwells: pattern(random, n, |x| x as u16),
            table: (0..n * n).map(|_| random.next() as u32).collect(),
            places: (0..n * n).map(|_| random.next() as u32).collect(),
            order: pattern(random, n, |x| x as u16),
            totals: pattern(random, 2 * n, |x| x),
            pivots: pattern(random, 2 * n, |x| x as u16),
            orders: pattern(random, 2 * n, |x| x as u16),
            bits: pattern(random, n.div_ceil(8), |x| x as u8),
            list: pattern(random, n, |x| x as u16),
            empties: pattern(random, n, |x| x as u8),
            work: pattern(random, if self.k <= 6 { n * n } else { 0 }, |x| x),
            sums: pattern(random, n, |x| x),
            marks: pattern(random, 8, |x| x as u8),
            stops: pattern(random, 8 * n, |x| x as u16),
            kept: pattern(random, 8 * n, |x| x),
            out: pattern(random, out, |x| x as u8),
        };
        if matches!(call, Call::WritePath { .. } | Call::MakeTable { .. }) {
            lent.coords[..3 * n].copy_from_slice(&self.coords);
            lent.speeds[..n].copy_from_slice(&self.speeds);
            lent.blends[..n].copy_from_slice(&self.blends);
            lent.dwells[..n].copy_from_slice(&self.dwells);
        }
        if matches!(call, Call::Plan { .. } | Call::PlanWeighings { .. } | Call::PlanPlaces { .. } | Call::Tour { .. } | Call::PlanFilled { .. } | Call::OrderTotal { .. } | Call::WriteOrderFile { .. } | Call::ReadOrderFile { .. }) {
            lent.table.copy_from_slice(&self.table);
        }
        if matches!(call, Call::PlanPlaces { .. }) {
            lent.places = any_table(random, self.k.into());
        }
        if matches!(call, Call::ForkBits { .. } | Call::Exchange { .. } | Call::OrderTotal { .. } | Call::WriteOrderFile { .. }) || call.of_the_screen() {
            lent.order[..n].copy_from_slice(&self.order);
        }
        if call.takes_sums() {
            reading::group_sums(&self.path, 6, &self.order, &mut lent.sums).expect("an allowed order");
        }
        if let Call::ComeBack { name, .. } = call {
            // the name has an order, and so have some others
            for other in (1..=8u16).filter(|&other| other == name || other % 3 == 0) {
                let start = usize::from(other - 1) * n;
                lent.marks[usize::from(other) - 1] = 1;
                lent.stops[start..start + n].copy_from_slice(&order_of(self.k.into(), &any_set(random, self.k.into())));
                reading::group_sums(&self.path, 6, &lent.stops[start..start + n], &mut lent.kept[start..]).expect("an allowed order");
            }
        }
        if matches!(call, Call::OrderOfBits { .. }) {
            lent.bits[..n.div_ceil(8)].copy_from_slice(&self.bits);
        }
        if matches!(call, Call::PlanFilled { .. }) {
            // of so many stops one is empty: all, most, half, few, none
            let of = one_of(random, &[1, 2, 2, 4, 16, u64::MAX]);
            lent.empties[..n].fill_with(|| u8::from(random.below(of) == 0));
        }
        if matches!(call, Call::Exchange { .. }) {
            // another set than the order's own
            let other = order_of(self.k.into(), &any_set(random, self.k.into()));
            reading::fork_bits(self.k, &other, &mut lent.bits).expect("an allowed order");
        }
        lent
    }
}

/// So many worlds of 2^k stops: every call with good input, with one fault and with two.
pub fn each_case(random: &mut Random, k: u16, worlds: usize, mut case: impl FnMut(Call, &Lent<Heap>)) {
    for _ in 0..worlds {
        let world = World::any(random, k);
        for good in world.calls(random) {
            for faults in 0..3 {
                let mut call = good;
                let mut lent = world.lent(random, call);
                for _ in 0..faults {
                    spoil(random, &mut call, &mut lent);
                }
                case(call, &lent);
            }
        }
    }
}
