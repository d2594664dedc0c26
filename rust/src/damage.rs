//! Faults: bytes damaged in every way, lengths that do not suffice, numbers and contents out of range.

use crate::{
    calls::{Call, Heap, Lent},
    random::Random,
};

/// Numbers at and beside the limits of the documents.
const EDGES: [u16; 22] = [0, 1, 2, 3, 4, 5, 6, 7, 8, 10, 11, 63, 64, 500, 501, 2_000, 2_001, 5_000, 5_001, 32_768, 65_534, 65_535];
const WIDE_EDGES: [i32; 8] = [20_000, 20_001, -20_000, -20_001, 0, -1, i32::MIN, i32::MAX];

/// One of some numbers.
pub fn one_of<T: Copy>(random: &mut Random, numbers: &[T]) -> T {
    numbers[random.below(numbers.len() as u64) as usize]
}

/// A place below a length, 0 where there is none.
fn place(random: &mut Random, length: usize) -> usize {
    random.below(length as u64) as usize
}

/// Where the records begin, as their lengths say.
pub fn record_starts(bytes: &[u8]) -> Vec<usize> {
    let mut starts = Vec::new();
    let mut at = 0;
    while at + 4 <= bytes.len() {
        starts.push(at);
        at += 2 + usize::from(u16::from_le_bytes([bytes[at], bytes[at + 1]]));
    }
    starts
}

/// Writes bytes over others, as far as they reach.
fn overwrite(bytes: &mut [u8], at: usize, with: &[u8]) {
    for (old, new) in bytes.iter_mut().skip(at).zip(with) {
        *old = *new;
    }
}

/// Damages bytes somewhere: cut, lengthened, a bit, a byte, one removed or put in.
fn damage_anywhere(random: &mut Random, bytes: &mut Vec<u8>) {
    let at = place(random, bytes.len());
    let byte = random.next() as u8;
    match random.below(6) {
        0 => bytes.truncate(at),
        1 => bytes.extend((0..=random.below(5)).map(|_| byte)),
        2 if !bytes.is_empty() => bytes[at] ^= 1 << random.below(8),
        3 if !bytes.is_empty() => bytes[at] = byte,
        4 if !bytes.is_empty() => drop(bytes.remove(at)),
        _ => bytes.insert(at, byte),
    }
}

/// Damages a record: its length, its kind, a field set to a number at or beside a limit or one more or less, the record taken out, doubled
/// or cut off after its head.
fn damage_record(random: &mut Random, bytes: &mut Vec<u8>) {
    let starts = record_starts(bytes);
    if starts.is_empty() {
        return bytes.push(0);
    }
    let at = one_of(random, &starts);
    let end = starts.iter().copied().find(|&start| start > at).unwrap_or(bytes.len());
    let field = at + 4 + 2 * place(random, (end - at).saturating_sub(4).div_ceil(2));
    match random.below(9) {
        0 => overwrite(bytes, at, &one_of(random, &EDGES).to_le_bytes()),
        1 => bytes[at] = bytes[at].wrapping_add(one_of(random, &[1, 2, 254, 255])),
        2 => overwrite(bytes, at + 2, &random.below(10).to_le_bytes()[..2]),
        3 => overwrite(bytes, at + 2, &one_of(random, &EDGES).to_le_bytes()),
        4 => overwrite(bytes, field, &one_of(random, &EDGES).to_le_bytes()),
        5 => overwrite(bytes, field, &one_of(random, &WIDE_EDGES).to_le_bytes()),
        6 if field < bytes.len() => bytes[field] = bytes[field].wrapping_add(one_of(random, &[1, 255])),
        7 => drop(bytes.drain(at..end)),
        8 => bytes.truncate(at + 4),
        _ => {
            let record = bytes[at..end].to_vec();
            bytes.splice(at..at, record);
        }
    }
}

/// Damages bytes in one way.
pub fn damage(random: &mut Random, bytes: &mut Vec<u8>) {
    if random.below(2) == 0 {
        damage_anywhere(random, bytes);
    } else {
        damage_record(random, bytes);
    }
}

/// Makes a buffer another length: one less, none, some, or one more.
fn another_length<T: Copy + Default>(random: &mut Random, needed: usize, numbers: &mut Vec<T>) {
    let length = match random.below(4) {
        0 => needed.saturating_sub(1),
        1 => 0,
        2 => place(random, needed),
        _ => needed + 1,
    };
    numbers.resize(length, T::default());
}

/// One lent buffer of another length.
fn spoil_length(random: &mut Random, lent: &mut Lent<Heap>) {
    let n = lent.table.len().isqrt();
    match random.below(18) {
        0 => another_length(random, 3 * n, &mut lent.coords),
        1 => another_length(random, n, &mut lent.speeds),
        2 => another_length(random, n, &mut lent.blends),
        3 => another_length(random, n * n, &mut lent.table),
        4 => another_length(random, n, &mut lent.order),
        5 => another_length(random, 2 * n, &mut lent.totals),
        6 => another_length(random, 2 * n, &mut lent.pivots),
        7 => another_length(random, n, &mut lent.list),
        8 => another_length(random, n, &mut lent.empties),
        9 => another_length(random, n * n, &mut lent.work),
        10 => another_length(random, n, &mut lent.dwells),
        11 => another_length(random, n, &mut lent.sums),
        12 => another_length(random, 8, &mut lent.marks),
        13 => another_length(random, 8 * n, &mut lent.stops),
        14 => another_length(random, 8 * n, &mut lent.kept),
        15 => another_length(random, n * n, &mut lent.places),
        16 => another_length(random, 2 * n, &mut lent.orders),
        _ => another_length(random, n.div_ceil(8), &mut lent.bits),
    }
}

/// Another number beside the buffers of a call for n stops.
fn spoil_number(random: &mut Random, call: &mut Call, n: u16) {
    let other = one_of(random, &EDGES);
    // of the forks those beside 1 to n − 1, half of the times
    let no_fork = one_of(random, &[0, n, n + 1, 65_535, other, other, other, other]);
    match call {
        Call::ReadPath { highest } | Call::PlanPath { highest } | Call::CellPlan { highest } | Call::CellCheck { highest } => *highest = other,
        Call::Draw { highest, d } => {
            if random.below(2) == 0 {
                *highest = other;
            } else {
                *d = usize::MAX - usize::from(other);
            }
        }
        Call::GroupSums { highest } => *highest = other,
        Call::Clear => (),
        Call::Keep { highest, name } | Call::ComeBack { highest, name } => *(if random.below(2) == 0 { highest } else { name }) = other,
        Call::ExchangeFork { highest, fork } => {
            if random.below(2) == 0 {
                *highest = other;
            } else {
                *fork = no_fork;
            }
        }
        Call::ForkCost { highest, fork, field } => match random.below(4) {
            0 => *highest = other,
            1 => *field = other,
            _ => *fork = no_fork,
        },
        Call::CellRewrite { highest, version } => *(if random.below(2) == 0 { highest } else { version }) = other,
        Call::WritePath { version, k } | Call::TableFrom { version, k } => *(if random.below(2) == 0 { version } else { k }) = other,
        Call::Plan { k } | Call::PlanWeighings { k } | Call::PlanPlaces { k } | Call::Tour { k } | Call::Foretell { k } => *k = other,
        Call::MakeTable { k } | Call::PlanFilled { k } | Call::ForkBits { k } | Call::OrderOfBits { k } => *k = other,
        Call::Exchange { k } | Call::OrderTotal { k } | Call::WriteOrderFile { k } | Call::ReadOrderFile { k } => *k = other,
    }
}

/// One number of a buffer set to another.
fn put_at<T>(random: &mut Random, numbers: &mut [T], number: T) {
    if !numbers.is_empty() {
        let at = place(random, numbers.len());
        numbers[at] = number;
    }
}

/// One sum made larger or smaller.
fn another_sum(random: &mut Random, sums: &mut [u64]) {
    if !sums.is_empty() {
        let at = place(random, sums.len());
        sums[at] = sums[at].wrapping_add(one_of(random, &[1, u64::MAX, 1 << 32, 1 << 63]));
    }
}

/// Another content of a lent input: a stop's field, a stop of the order, two of them exchanged, a byte that says what is empty, a group's sum, a mark, a
/// stop or a sum that is kept, a fork bit. In an output it changes the pattern alone.
fn spoil_content(random: &mut Random, lent: &mut Lent<Heap>) {
    let (edge, wide) = (one_of(random, &EDGES), one_of(random, &WIDE_EDGES));
    let n = lent.order.len();
    match random.below(12) {
        0 => put_at(random, &mut lent.coords, wide),
        1 => put_at(random, &mut lent.speeds, edge),
        2 => put_at(random, &mut lent.blends, edge),
        3 => put_at(random, &mut lent.dwells, edge),
        4 => put_at(random, &mut lent.order, edge),
        5 => put_at(random, &mut lent.empties, edge as u8),
        6 if n > 0 => lent.order.swap(place(random, n), place(random, n)),
        7 => another_sum(random, &mut lent.sums),
        8 => put_at(random, &mut lent.marks, edge as u8),
        9 => put_at(random, &mut lent.stops, edge),
        10 => another_sum(random, &mut lent.kept),
        _ => put_at(random, &mut lent.bits, 1 << (edge % 8)),
    }
}

/// One fault in what a call is handed over.
pub fn spoil(random: &mut Random, call: &mut Call, lent: &mut Lent<Heap>) {
    let reads_path = matches!(
        call,
        Call::ReadPath { .. } | Call::TableFrom { .. } | Call::PlanPath { .. } | Call::ForkCost { .. } | Call::Draw { .. } | Call::CellPlan { .. } | Call::CellCheck { .. } | Call::CellRewrite { .. }
    );
    // the screen's records are spoiled as often as the path
    let reads_path = reads_path || call.of_the_screen() && random.below(2) == 0;
    let reads_file = matches!(call, Call::ReadOrderFile { .. } | Call::CellCheck { .. });
    match random.below(8) {
        0 => spoil_number(random, call, lent.table.len().isqrt() as u16),
        1 => spoil_length(random, lent),
        2 => {
            let needed = lent.out.len().saturating_sub(place(random, 4));
            another_length(random, needed, &mut lent.out);
        }
        3.. if reads_file && (!reads_path || random.below(4) > 0) => damage(random, &mut lent.file),
        3.. if reads_path => damage(random, &mut lent.bytes),
        _ => spoil_content(random, lent),
    }
}
