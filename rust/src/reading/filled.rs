//! Document 02, M-111: empty pockets.

use super::{
    orders::{string_length, string_of},
    refusals::{put, require, OUT_OF_RANGE, WRONG_K, WRONG_SIZE},
    tree::{every_set, fork_above, order_of, preferred},
};

/// A list of filled stops, its total, and the forks that are exchanged for it.
#[derive(Clone)]
pub struct Listed {
    pub list: Vec<u16>,
    pub total: u64,
    pub exchanged: Vec<bool>,
}

/// 'moves join neighbouring filled stops directly': the entries of a table of n rows, added up.
fn list_total(n: usize, table: &[u32], list: &[u16]) -> u64 {
    list.windows(2).map(|pair| u64::from(table[usize::from(pair[0]) * n + usize::from(pair[1])])).sum()
}

/// Whether both sides of a fork have a filled stop; the sides of a fork at depth h are told apart by bit k−1−h.
fn both_sides(k: u32, filled: &[bool], fork: usize) -> bool {
    let depth = fork.ilog2();
    let side = |bit: usize| {
        (0..filled.len()).any(|stop| filled[stop] && fork_above(k, stop, depth) == fork && stop >> (k - 1 - depth) & 1 == bit)
    };
    side(0) && side(1)
}

/// 'Allowed orders are as before, then empties are left out .. The list of least total is wanted, ties judged on the list from its end.' 'Forks
/// with no filled stop on one side are not exchanged, so the fork bits are determined': every set of forks in turn.
pub fn list_by_enumeration(k: u32, table: &[u32], filled: &[bool]) -> Listed {
    let n = 1usize << k;
    let listed = |exchanged: Vec<bool>| {
        let list: Vec<u16> = order_of(k, &exchanged).into_iter().filter(|&stop| filled[usize::from(stop)]).collect();
        Listed { total: list_total(n, table, &list), list, exchanged }
    };
    let all: Vec<Listed> = every_set(k).map(listed).collect();
    let best = all.iter().reduce(|held, other| if preferred((&other.list, other.total), (&held.list, held.total)) { other } else { held });
    let best = best.expect("there is a set");
    let mut same = all.iter().filter(|other| other.list == best.list && (1..n).all(|v| !other.exchanged[v] || both_sides(k, filled, v)));
    let only = same.next().expect("a set gives the list");
    assert!(same.next().is_none(), "the fork bits are determined");
    only.clone()
}

/// The lists of one group of stops, each the preferred of those with its first and its last stop.
type Group = Vec<Listed>;

/// A list of one side followed by one of the other. `fork` is exchanged if the upper side comes first.
fn joined(n: usize, table: &[u32], first: &Listed, second: &Listed, exchanged: Option<usize>) -> Listed {
    let list = [&first.list[..], &second.list[..]].concat();
    let exchanged = (0..n).map(|v| first.exchanged[v] || second.exchanged[v] || exchanged == Some(v)).collect();
    let joint = [first.list[first.list.len() - 1], second.list[0]];
    Listed { list, total: first.total + second.total + list_total(n, table, &joint), exchanged }
}

/// Keeps a list if none with its first and last stop is preferred.
fn keep(group: &mut Group, ends: &mut [Option<usize>], n: usize, listed: Listed) {
    let at = usize::from(listed.list[0]) * n + usize::from(listed.list[listed.list.len() - 1]);
    match ends[at] {
        None => {
            ends[at] = Some(group.len());
            group.push(listed);
        }
        Some(held) if preferred((&listed.list, listed.total), (&group[held].list, group[held].total)) => group[held] = listed,
        Some(_) => {}
    }
}

/// The lists of the group of a fork, or of one stop for a number from n on: a group whose other side is empty has the lists of its one side.
fn lists_of(k: u32, table: &[u32], filled: &[bool], fork: usize) -> Group {
    let n = 1usize << k;
    if fork >= n {
        let stop = fork - n;
        let one = Listed { list: vec![stop as u16], total: 0, exchanged: vec![false; n] };
        return if filled[stop] { vec![one] } else { vec![] };
    }
    let (lower, upper) = (lists_of(k, table, filled, 2 * fork), lists_of(k, table, filled, 2 * fork + 1));
    if lower.is_empty() || upper.is_empty() {
        return [lower, upper].concat();
    }
    let (mut group, mut ends) = (vec![], vec![None; n * n]);
    for a in &lower {
        for b in &upper {
            keep(&mut group, &mut ends, n, joined(n, table, a, b, None));
            keep(&mut group, &mut ends, n, joined(n, table, b, a, Some(fork)));
        }
    }
    group
}

/// The same group by group, for more stops: of two lists of a group with the same ends the preferred one is enough, since what stands before
/// and after it is the same.
pub fn list_by_groups(k: u32, table: &[u32], filled: &[bool]) -> Listed {
    let none = Listed { list: vec![], total: 0, exchanged: vec![false; 1 << k] };
    let better = |held: Listed, other: Listed| if preferred((&other.list, other.total), (&held.list, held.total)) { other } else { held };
    lists_of(k, table, filled, 1).into_iter().reduce(better).unwrap_or(none)
}

/// 'lend one byte per stop, 0 for filled and 1 for empty; another value among the first n is 6, after the lengths. The list's buffer needs n
/// places, however many stops are filled, and the result gives the list's length.' The fork bits 'are given too, in ceil(n/8) lent bytes'. 'The
/// lent work space is n² 64-bit numbers, all 0 after success. k goes up to 6, above that 5.' Gives the total and the length.
pub fn plan_filled(k: u16, table: &[u32], empties: &[u8], list: &mut [u16], bits: &mut [u8], work: &mut [u64]) -> Result<(u64, usize), u16> {
    require(k <= 6, WRONG_K)?;
    let n = 1usize << k;
    let lent = empties.len() >= n && list.len() >= n && bits.len() >= string_length(n) && work.len() >= n * n;
    require(table.len() == n * n && lent, WRONG_SIZE)?;
    require(empties[..n].iter().all(|&byte| byte <= 1), OUT_OF_RANGE)?;
    let filled: Vec<bool> = empties[..n].iter().map(|&byte| byte == 0).collect();
    let wanted = if k <= 3 { list_by_enumeration(k.into(), table, &filled) } else { list_by_groups(k.into(), table, &filled) };
    put(&wanted.list, list);
    put(&string_of(&wanted.exchanged), bits);
    put(&vec![0; n * n], work);
    Ok((wanted.total, wanted.list.len()))
}
