//! Every public call with all that it is lent, made to the library or to the independent reading, and the comparison of the two.

use crate::{
    ffi,
    guard::{Against, Guarded},
    reading::{self, Stop},
};
use std::ops::DerefMut;

/// Where buffers stand: on the heap, or between guard pages.
pub trait Room {
    type Of<T: Copy>: DerefMut<Target = [T]>;
    fn hold<T: Copy>(&self, numbers: &[T]) -> Self::Of<T>;
}

/// On the heap.
#[derive(Clone, Copy)]
pub struct Heap;

impl Room for Heap {
    type Of<T: Copy> = Vec<T>;
    fn hold<T: Copy>(&self, numbers: &[T]) -> Vec<T> {
        numbers.to_vec()
    }
}

impl Room for Against {
    type Of<T: Copy> = Guarded<T>;
    fn hold<T: Copy>(&self, numbers: &[T]) -> Guarded<T> {
        Guarded::new(numbers, *self)
    }
}

/// Every buffer that some call takes, to read or to write. A call is compared on all of them, also on those that it is not lent.
pub struct Lent<R: Room> {
    pub bytes: R::Of<u8>,
    pub file: R::Of<u8>,
    pub coords: R::Of<i32>,
    pub speeds: R::Of<u16>,
    pub blends: R::Of<u16>,
    pub dwells: R::Of<u16>,
    pub table: R::Of<u32>,
    pub places: R::Of<u32>,
    pub order: R::Of<u16>,
    pub totals: R::Of<u64>,
    pub pivots: R::Of<u16>,
    pub orders: R::Of<u16>,
    pub bits: R::Of<u8>,
    pub list: R::Of<u16>,
    pub empties: R::Of<u8>,
    pub work: R::Of<u64>,
    pub sums: R::Of<u64>,
    pub marks: R::Of<u8>,
    pub stops: R::Of<u16>,
    pub kept: R::Of<u64>,
    pub out: R::Of<u8>,
}

impl<R: Room> Lent<R> {
    /// The same numbers in another room.
    pub fn held<S: Room>(&self, room: S) -> Lent<S> {
        Lent {
            bytes: room.hold(&self.bytes),
            file: room.hold(&self.file),
            coords: room.hold(&self.coords),
            speeds: room.hold(&self.speeds),
            blends: room.hold(&self.blends),
            dwells: room.hold(&self.dwells),
            table: room.hold(&self.table),
            places: room.hold(&self.places),
            order: room.hold(&self.order),
            totals: room.hold(&self.totals),
            pivots: room.hold(&self.pivots),
            orders: room.hold(&self.orders),
            bits: room.hold(&self.bits),
            list: room.hold(&self.list),
            empties: room.hold(&self.empties),
            work: room.hold(&self.work),
            sums: room.hold(&self.sums),
            marks: room.hold(&self.marks),
            stops: room.hold(&self.stops),
            kept: room.hold(&self.kept),
            out: room.hold(&self.out),
        }
    }

    /// The name of a buffer that differs, where one does.
    pub fn difference<S: Room>(&self, other: &Lent<S>) -> Option<&'static str> {
        let same = [
            ("bytes", *self.bytes == *other.bytes),
            ("file", *self.file == *other.file),
            ("coords", *self.coords == *other.coords),
            ("speeds", *self.speeds == *other.speeds),
            ("blends", *self.blends == *other.blends),
            ("dwells", *self.dwells == *other.dwells),
            ("table", *self.table == *other.table),
            ("places", *self.places == *other.places),
            ("order", *self.order == *other.order),
            ("totals", *self.totals == *other.totals),
            ("pivots", *self.pivots == *other.pivots),
            ("orders", *self.orders == *other.orders),
            ("bits", *self.bits == *other.bits),
            ("list", *self.list == *other.list),
            ("empties", *self.empties == *other.empties),
            ("work", *self.work == *other.work),
            ("sums", *self.sums == *other.sums),
            ("marks", *self.marks == *other.marks),
            ("stops", *self.stops == *other.stops),
            ("kept", *self.kept == *other.kept),
            ("out", *self.out == *other.out),
        ];
        same.into_iter().find(|(_, same)| !same).map(|(name, _)| name)
    }
}

/// A call with the numbers that are handed over beside the buffers.
#[derive(Clone, Copy, Debug, PartialEq)]
pub enum Call {
    ReadPath { highest: u16 },
    WritePath { version: u16, k: u16 },
    MakeTable { k: u16 },
    TableFrom { version: u16, k: u16 },
    Plan { k: u16 },
    PlanWeighings { k: u16 },
    PlanPlaces { k: u16 },
    Tour { k: u16 },
    Foretell { k: u16 },
    PlanPath { highest: u16 },
    ForkCost { highest: u16, fork: u16, field: u16 },
    PlanFilled { k: u16 },
    ForkBits { k: u16 },
    OrderOfBits { k: u16 },
    Exchange { k: u16 },
    GroupSums { highest: u16 },
    ExchangeFork { highest: u16, fork: u16 },
    Keep { highest: u16, name: u16 },
    ComeBack { highest: u16, name: u16 },
    Clear,
    OrderTotal { k: u16 },
    WriteOrderFile { k: u16 },
    ReadOrderFile { k: u16 },
    Draw { highest: u16, d: usize },
    CellPlan { highest: u16 },
    CellCheck { highest: u16 },
    CellRewrite { highest: u16, version: u16 },
}

impl Call {
    /// Whether the call takes the set-up screen's records with a path: an order and its sums.
    pub fn of_the_screen(&self) -> bool {
        matches!(self, Call::GroupSums { .. }) || self.takes_sums()
    }

    /// Whether the sums are those of the order, to begin with.
    pub fn takes_sums(&self) -> bool {
        matches!(self, Call::ExchangeFork { .. } | Call::Keep { .. } | Call::ComeBack { .. })
    }
}

/// The values that a call gives, or the refusal's number.
pub type Answer = Result<Vec<i64>, u16>;

/// A count or a total.
fn one(value: u64) -> Vec<i64> {
    vec![i64::try_from(value).expect("a count or a total has 63 bits")]
}

/// A signed result of the controller's calls.
fn signed(result: i64) -> Answer {
    if result < 0 {
        Err(u16::try_from(-result).expect("a refusal has 16 bits"))
    } else {
        Ok(vec![result])
    }
}

/// 0 and the stop's fields, or 1 for the end.
fn drawn(stop: Option<Stop>) -> Vec<i64> {
    match stop {
        Some(Stop { at: [x, y, z], speed, blend, dwell }) => vec![0, x.into(), y.into(), z.into(), speed.into(), blend.into(), dwell.into()],
        None => vec![1],
    }
}

/// A call made to a module that has every call under the same name.
macro_rules! made_to {
    ($module:ident, $call:expr, $l:ident) => {
        match $call {
            Call::ReadPath { highest } => {
                $module::read_path(&$l.bytes, highest, &mut $l.coords, &mut $l.speeds, &mut $l.blends, &mut $l.dwells)
                    .map(|(version, k)| vec![version.into(), k.into()])
            }
            Call::WritePath { version, k } => {
                $module::write_path(version, k, &$l.coords, &$l.speeds, &$l.blends, &$l.dwells, &mut $l.out).map(one)
            }
            Call::MakeTable { k } => {
                $module::make_table(k, &$l.coords, &$l.speeds, &$l.blends, &$l.dwells, &mut $l.table).map(|()| vec![])
            }
            Call::TableFrom { version, k } => $module::table_from(&$l.bytes, version, k, &mut $l.table).map(|()| vec![]),
            Call::Plan { k } => $module::plan(k, &$l.table, &mut $l.order, &mut $l.totals, &mut $l.pivots).map(one),
            Call::PlanWeighings { k } => $module::plan_weighings(k, &$l.table, &mut $l.order, &mut $l.totals, &mut $l.pivots).map(one),
            Call::PlanPlaces { k } => $module::plan_places(k, &$l.table, &$l.places, &mut $l.order, &mut $l.totals, &mut $l.pivots).map(one),
            Call::Tour { k } => $module::tour(k, &$l.table, &mut $l.order, &mut $l.totals, &mut $l.pivots).map(one),
            Call::Foretell { k } => $module::foretell(k).map(|(bytes, weighings)| vec![one(bytes)[0], one(weighings)[0]]),
            Call::PlanPath { highest } => {
                $module::plan_path(&$l.bytes, highest, &mut $l.table, &mut $l.order, &mut $l.totals, &mut $l.pivots)
                    .map(|(version, k, total)| vec![version.into(), k.into(), one(total)[0]])
            }
            Call::ForkCost { highest, fork, field } => {
                $module::fork_cost(&$l.bytes, highest, fork, &mut $l.totals, &mut $l.pivots, &mut $l.orders, field).map(one)
            }
            Call::PlanFilled { k } => {
                $module::plan_filled(k, &$l.table, &$l.empties, &mut $l.list, &mut $l.bits, &mut $l.work)
                    .map(|(total, length)| vec![one(total)[0], length as i64])
            }
            Call::ForkBits { k } => $module::fork_bits(k, &$l.order, &mut $l.bits).map(|()| vec![]),
            Call::OrderOfBits { k } => $module::order_of_bits(k, &$l.bits, &mut $l.order).map(|()| vec![]),
            Call::Exchange { k } => $module::exchange(k, &$l.order, &$l.bits, &mut $l.list).map(|()| vec![]),
            Call::GroupSums { highest } => $module::group_sums(&$l.bytes, highest, &$l.order, &mut $l.sums).map(|()| vec![]),
            Call::ExchangeFork { highest, fork } => {
                $module::exchange_fork(&$l.bytes, highest, fork, &mut $l.order, &mut $l.sums).map(|()| vec![])
            }
            Call::Keep { highest, name } => {
                $module::keep(&$l.bytes, highest, name, &$l.order, &$l.sums, &mut $l.marks, &mut $l.stops, &mut $l.kept).map(|()| vec![])
            }
            Call::ComeBack { highest, name } => {
                $module::come_back(&$l.bytes, highest, name, &mut $l.order, &mut $l.sums, &$l.marks, &$l.stops, &$l.kept).map(|()| vec![])
            }
            Call::Clear => $module::clear(&mut $l.marks).map(|()| vec![]),
            Call::OrderTotal { k } => $module::order_total(k, &$l.order, &$l.table).map(one),
            Call::WriteOrderFile { k } => $module::write_order_file(k, &$l.order, &$l.table, &mut $l.out).map(one),
            Call::ReadOrderFile { k } => $module::read_order_file(k, &$l.table, &$l.file, &mut $l.order, &mut $l.bits).map(one),
            Call::Draw { highest, d } => $module::draw_number(&$l.bytes, highest, d).map(drawn),
            Call::CellPlan { highest } => signed($module::cell_plan(&$l.bytes, highest, &mut $l.out)),
            Call::CellCheck { highest } => signed($module::cell_check(&$l.bytes, highest, &$l.file)),
            Call::CellRewrite { highest, version } => signed($module::cell_rewrite(&$l.bytes, highest, version, &mut $l.out)),
        }
    };
}

/// The call made to the proved library.
pub fn by_library<R: Room>(call: Call, lent: &mut Lent<R>) -> Answer {
    made_to!(ffi, call, lent)
}

/// The call made to the independent reading.
pub fn by_reading<R: Room>(call: Call, lent: &mut Lent<R>) -> Answer {
    made_to!(reading, call, lent)
}

/// Makes the call to the reading and, in each of the rooms, to the library, and compares the answers and every number of every buffer,
/// those beyond the result too. Gives the number, 0 for a success.
fn compare_in<R: Room + Copy>(rooms: &[R], call: Call, lent: &Lent<Heap>) -> u16 {
    let mut due = lent.held(Heap);
    let answer = by_reading(call, &mut due);
    for room in rooms {
        let mut got = lent.held(*room);
        let given = by_library(call, &mut got);
        assert!(given == answer, "{call:?} gave {given:?} and not {answer:?}; bytes {:02x?}, file {:02x?}", lent.bytes, lent.file);
        if let Some(name) = got.difference(&due) {
            panic!("{call:?}, answer {answer:?}: another {name}; bytes {:02x?}, file {:02x?}", lent.bytes, lent.file);
        }
    }
    match answer {
        Ok(_) => 0,
        Err(number) => {
            assert_eq!(due.difference(lent), None, "a refusal writes to no lent buffer");
            number
        }
    }
}

/// The comparison with buffers on the heap.
pub fn compare(call: Call, lent: &Lent<Heap>) -> u16 {
    compare_in(&[Heap], call, lent)
}

/// The comparison with every buffer between guard pages, its start against one and then its end.
pub fn compare_guarded(call: Call, lent: &Lent<Heap>) -> u16 {
    compare_in(&[Against::Start, Against::End], call, lent)
}
