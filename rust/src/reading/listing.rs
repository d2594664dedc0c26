//! Document 02, M-112: all orders of a small path, printed.

use super::{
    paths::Path,
    refusals::{WRONG_K, WRONG_SIZE},
    stops::table_of,
    tree::{every_set, order_of, total},
};

/// 'fork bits read as one number with fork v worth 2^v'
fn number_of(set: &[bool]) -> u64 {
    set.iter().enumerate().map(|(v, &exchanged)| u64::from(exchanged) << v).sum()
}

/// 'prints each allowed order exactly once, by increasing fork bits ..': the lines, each the total and then the stops by place.
fn lines(path: &Path) -> Vec<String> {
    let table = table_of(&path.stops);
    let mut sets: Vec<Vec<bool>> = every_set(path.k.into()).collect();
    sets.sort_by_key(|set| number_of(set));
    let line = |set: &Vec<bool>| {
        let order = order_of(path.k.into(), set);
        let stops: String = order.iter().map(|stop| format!(" {stop}")).collect();
        format!("{}{stops}\n", total(&table, &order))
    };
    sets.iter().map(line).collect()
}

/// What the program prints for the bytes on standard input: 'For k up to 3, above that 5, found directly after the path's k, a program reads a path
/// .., highest version 6'. 'A refusal prints only its number and byte 10.' Or the refusal's number beside its line.
pub fn all_orders(bytes: &[u8]) -> Result<String, (u16, String)> {
    // nothing is lent, so the test behind k is the limit of k alone
    let number = |refused| if refused == WRONG_SIZE { WRONG_K } else { refused };
    match Path::read(bytes, 6, |k| k <= 3) {
        Ok(path) => Ok(lines(&path).concat()),
        Err(refused) => Err((number(refused), format!("{}\n", number(refused)))),
    }
}
