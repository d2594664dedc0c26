//! What programs are held to, beside the independent reading.

use evidence::{
    cases::{rounds, seeded},
    damage::damage,
    random::Random,
    reading::{all_orders, clear, come_back, exchange_fork, fork_cost, group_sums, keep, plan, plan_filled, plan_places, tour},
    world::World,
};
use std::{
    collections::BTreeMap,
    fs,
    io::{ErrorKind, Write},
    path::{Path, PathBuf},
    process::{Command, Stdio},
};

/// A file below crates/.
fn text(name: &str) -> String {
    let path = Path::new(env!("CARGO_MANIFEST_DIR")).join("../crates").join(name);
    fs::read_to_string(path).expect(name)
}

/// The entry from stop a to stop b of a table by a rule, as crates/test_filled/src/table.rt has it.
fn entry(rule: u64, a: u64, b: u64) -> u32 {
    let entry = match rule {
        0 => 1,
        1 => (37 * a + 101 * b) % 97 + (3 * a + 7 * b) % 11 * 9,
        2 => 4_294_967_295 - (37 * a + 101 * b) % 97,
        _ => (2 * a + b / 3 + (5 * a + 3 * b) / 7) % 3,
    };
    entry as u32
}

/// Numbers after one space each.
fn spaced<T>(numbers: &[T], written: impl Fn(&T) -> String) -> String {
    numbers.iter().map(|number| format!(" {}", written(number))).collect()
}

/// The rest of a line of crates/test_filled/stdout by what stands before its colon: k, the rule, the lent lengths and the lent bytes.
fn due(call: &str) -> String {
    let (numbers, bytes) = call.split_once(", bytes").expect("the lent bytes");
    let numbers: Vec<u64> = numbers.split([' ', ',']).filter_map(|word| word.parse().ok()).collect();
    let [k, rule, table, list, bits, work] = numbers[..] else { panic!("{call}") };
    let empties: Vec<u8> = bytes.split_whitespace().map(|byte| u8::from_str_radix(byte, 16).expect("a byte")).collect();
    let n = if k < 7 { 1 << k } else { 1 };
    let table: Vec<u32> = (0..table).map(|i| entry(rule, i / n, i % n)).collect();
    let (mut list, mut bits, mut work) = (vec![77u16; list as usize], vec![77u8; bits as usize], vec![77u64; work as usize]);
    match plan_filled(k as u16, &table, &empties, &mut list, &mut bits, &mut work) {
        Err(number) => format!("{number}, untouched"),
        Ok((total, length)) => {
            let [zeros, others] = [0, 77].map(|value| work.iter().filter(|&&number| number == value).count());
            let (list, bits) = (spaced(&list, u16::to_string), spaced(&bits, |byte| format!("{byte:02x}")));
            format!("0, total {total}, length {length}, list{list}, bits{bits}, 0 in {zeros}, 77 in {others}")
        }
    }
}

/// Every filling of up to 8 stops by enumeration, and some of more.
#[test]
fn lists_of_filled_stops() {
    let mut lines = 0;
    for line in text("test_filled/stdout").lines() {
        let (call, written) = line.split_once(": ").expect("a call and its answer");
        assert_eq!(written, due(call), "{call}");
        lines += 1;
    }
    assert!(lines > 4 * (2 + 4 + 16 + 256), "{lines} lines");
}

/// The entry of row a and column b by a rule, as crates/test_planner/src/table.rt has it.
fn planner_entry(rule: u64, a: u64, b: u64) -> u32 {
    let x = [0, 30, 10, 20];
    let entry = match rule {
        0 => 1,
        1 => (37 * a + 101 * b) % 97 + (3 * a + 7 * b) % 11 * 9,
        2 => a % 7 * 11 + b % 5 * 13 + (a + b) % 3 * 20 + 4_000_000_000,
        3 => (2 * a + b / 3 + (5 * a + 3 * b) / 7) % 3,
        4 => if a < b { 3 } else { 7 },
        5 => if a < b { 7 } else { 3 },
        7 => u64::abs_diff(x[a.min(3) as usize], x[b.min(3) as usize]),
        9 => 0,
        10 => if (a, b) == (0, 3) { 10 } else { 0 },
        11 => if (a, b) == (2, 0) { 10 } else { 0 },
        _ => 5,
    };
    entry as u32
}

/// The rest of a line of crates/test_planner/stdout where places cost extra, by what stands before its colon: k, the rules, the lent lengths.
fn due_of_places(call: &str) -> String {
    let numbers: Vec<u64> = call.split([' ', ',']).filter_map(|word| word.parse().ok()).collect();
    let [k, rule, extra, table, places, order, totals, pivots] = numbers[..] else { panic!("{call}") };
    let n = if k <= 4 { 1 << k } else { 4 };
    let [table, places] = [(rule, table), (extra, places)].map(|(rule, size)| (0..size).map(|i| planner_entry(rule, i / n, i % n)).collect::<Vec<_>>());
    due_of_order([order, totals, pivots], |order, totals, pivots| plan_places(k as u16, &table, &places, order, totals, pivots))
}

/// The same for a tour: k, the rule, the lent lengths.
fn due_of_tour(call: &str) -> String {
    let numbers: Vec<u64> = call.split([' ', ',']).filter_map(|word| word.parse().ok()).collect();
    let [k, rule, table, order, totals, pivots] = numbers[..] else { panic!("{call}") };
    let n = if k <= 4 { 1 << k } else { 4 };
    let table: Vec<u32> = (0..table).map(|i| planner_entry(rule, i / n, i % n)).collect();
    due_of_order([order, totals, pivots], |order, totals, pivots| tour(k as u16, &table, order, totals, pivots))
}

/// The answer, the order and the work space that a call leaves in buffers of these lengths.
fn due_of_order(lent: [u64; 3], plan: impl Fn(&mut [u16], &mut [u64], &mut [u16]) -> Result<u64, u16>) -> String {
    let [order, totals, pivots] = lent.map(|length| length as usize);
    let (mut order, mut totals, mut pivots) = (vec![77u16; order], vec![77u64; totals], vec![77u16; pivots]);
    let answer = match plan(&mut order, &mut totals, &mut pivots) {
        Err(number) => number.to_string(),
        Ok(total) => format!("0, total {total}"),
    };
    let [zeros, others] = [0, 77].map(|value| {
        let marks = pivots.iter().filter(|&&number| u64::from(number) == value).count();
        format!("{} {marks}", totals.iter().filter(|&&number| number == value).count())
    });
    format!("{answer}, order{}, 0 in {zeros}, 77 in {others}", spaced(&order, u16::to_string))
}

/// The lines of the planner's program that begin with this word, more than so many.
fn planner_lines(word: &str, more_than: usize, due: fn(&str) -> String) {
    let text = text("test_planner/stdout");
    let lines: Vec<&str> = text.lines().filter(|line| line.starts_with(word)).collect();
    for line in &lines {
        let (call, written) = line.split_once(": ").expect("a call and its answer");
        assert_eq!(written, due(call), "{call}");
    }
    assert!(lines.len() > more_than, "{} lines", lines.len());
}

/// The planner's program, where places cost extra.
#[test]
fn places_that_cost_extra() {
    planner_lines("places", 40, due_of_places);
}

/// The planner's program, for round trips.
#[test]
fn round_trips() {
    planner_lines("tour", 35, due_of_tour);
}

/// The entry by a rule with hundreds, as the program's heading says what they add; the diagonal of a slower table is 99.
fn changed_entry(rule: u64, a: u64, b: u64) -> u32 {
    let entry = planner_entry(rule % 100, a, b);
    match rule / 100 {
        0 => entry,
        1 if a == b => 99,
        3 if a < b => entry,
        3 => entry + 5,
        _ => entry + 7,
    }
}

/// The rest of a line of crates/test_planner/stdout that compares two tables, by what stands before its colon: the call, k, the rules of both. Where the
/// second is slower, the order is the same and the total grows by n - 1 times 7, for a tour by n times 7 or, for n = 1, by nothing; where it is raised, the
/// total is not smaller.
fn due_of_two(call: &str) -> String {
    let numbers: Vec<u64> = call.split([' ', ',']).filter_map(|word| word.parse().ok()).collect();
    let (k, rules) = match numbers[..] {
        [k, rule, rule2] => (k as u16, [[rule, 9], [rule2, 9]]),
        [k, rule, extra, rule2, extra2] => (k as u16, [[rule, extra], [rule2, extra2]]),
        _ => panic!("{call}"),
    };
    let word = call.split(' ').nth(1).expect("a call");
    let n = 1u64 << k;
    let [(total, order), (total2, order2)] = rules.map(|rules| {
        let [table, places] = rules.map(|rule| (0..n * n).map(|i| changed_entry(rule, i / n, i % n)).collect::<Vec<_>>());
        let (mut order, mut totals, mut pivots) = (vec![0; n as usize], vec![0; 2 * n as usize], vec![0; 2 * n as usize]);
        let total = match word {
            "plan" => plan(k, &table, &mut order, &mut totals, &mut pivots),
            "tour" => tour(k, &table, &mut order, &mut totals, &mut pivots),
            _ => plan_places(k, &table, &places, &mut order, &mut totals, &mut pivots),
        };
        (total.expect("the lengths suffice"), spaced(&order, u16::to_string))
    });
    if call.starts_with("slower") {
        let moves = if word != "tour" { n - 1 } else if n == 1 { 0 } else { n };
        let [first, second] = [0, 1].map(|i| if rules[1][i] < 100 { 0 } else { 7 });
        assert_eq!((total2, &order2), (total + moves * first + n * second, &order), "{call}");
    }
    assert!(total <= total2, "{call}");
    format!("total {total} then {total2}, order{order} then{order2}")
}

/// The planner's program, by slower tables and by raised ones.
#[test]
fn slower_and_raised() {
    planner_lines("slower", 12, due_of_two);
    planner_lines("raised", 4, due_of_two);
}

/// The bytes of a path that a constant of a file below crates/ holds, by the word that names it there.
fn path_of(file: &str, word: &str) -> Vec<u8> {
    let code = text(file);
    let rest = code.split(&format!("const {}: &[u8]", word.to_uppercase())).nth(1).expect("a constant");
    let literal = rest.split('"').nth(1).expect("its bytes");
    literal.split("\\x").skip(1).map(|byte| u8::from_str_radix(byte, 16).expect("two hexadecimal digits")).collect()
}

/// What a session of crates/test_screen holds: the bytes of a path, an order and sums.
struct Session {
    bytes: [u8; 188],
    order: [u16; 9],
    sums: [u64; 9],
}

impl Session {
    /// The rest of the line that a case writes, after its name. `words` are what crates/test_screen/src/session.rt says of each.
    fn due(&mut self, words: &[&str]) -> String {
        let number = |i: usize| words[i].parse::<u64>().expect("a number");
        let place = |i: usize| number(i) as usize;
        let made = match words[0] {
            "path" => {
                let path = path_of("test_screen/src/paths.rt", words[1]);
                self.bytes[..path.len()].copy_from_slice(&path);
                let change = u16::from_str_radix(words[2], 16).expect("a place and a byte");
                if change != 0 {
                    self.bytes[usize::from(change / 256)] = change as u8;
                }
                (self.order, self.sums) = ([77; 9], [77; 9]);
                return String::new();
            }
            "order" => {
                (0..place(1)).for_each(|i| self.order[i] = number(2 + i) as u16);
                return String::new();
            }
            "sum" => {
                self.sums[place(1)] = number(2);
                return String::new();
            }
            "make" => group_sums(&self.bytes[..place(1)], number(2) as u16, &self.order[..place(3)], &mut self.sums[..place(4)]),
            "exchange" => {
                let (bytes, order, sums) = (&self.bytes[..place(2)], &mut self.order[..place(4)], &mut self.sums[..place(5)]);
                exchange_fork(bytes, number(3) as u16, number(1) as u16, order, sums)
            }
            word => panic!("{word}"),
        };
        let number = made.map_or_else(|number| number, |()| 0);
        format!(": {number}, order{}, sums{}", spaced(&self.order, u16::to_string), spaced(&self.sums, u64::to_string))
    }
}

/// The screen's sessions, case by case.
#[test]
fn sessions_of_the_screen() {
    let mut session = Session { bytes: [0; 188], order: [77; 9], sums: [77; 9] };
    let cases = text("test_screen/stdin");
    let cases = cases.lines().filter_map(|line| line.split_once(": "));
    let due: Vec<String> = cases.map(|(name, words)| name.to_owned() + &session.due(&words.split(' ').collect::<Vec<_>>())).collect();
    assert_eq!(text("test_screen/stdout").lines().collect::<Vec<_>>(), due);
    assert!(due.len() > 100);
}

/// What the program of crates/test_fork_cost lends: work space that holds 77.
struct Work {
    totals: Vec<u64>,
    pivots: Vec<u16>,
    orders: Vec<u16>,
}

impl Work {
    /// One number more than 2n of the totals, two of the pivots, three of the orders.
    fn of(n: usize) -> Work {
        Work { totals: vec![77; 2 * n + 1], pivots: vec![77; 2 * n + 2], orders: vec![77; 2 * n + 3] }
    }

    /// What is told of a fork, in the words of src/words.rt, with so many numbers of each lent.
    fn told(&mut self, bytes: &[u8], highest: u16, fork: u16, lent: [usize; 3]) -> String {
        let mut fields = [0; 4];
        for (field, value) in (0..).zip(&mut fields) {
            let (totals, pivots, orders) = (&mut self.totals[..lent[0]], &mut self.pivots[..lent[1]], &mut self.orders[..lent[2]]);
            match fork_cost(bytes, highest, fork, totals, pivots, orders, field) {
                Ok(given) => *value = given,
                Err(number) => return format!(": refused, {number}"),
            }
        }
        let [state, total, more, place] = fields;
        let state = if state == 0 { "not exchanged" } else { "exchanged" };
        let reason = if place == 0 { ": dearer".to_owned() } else { format!("; a tie, lost at place {}", place - 1) };
        format!(": {state}; the other way takes {total} ms at least, {more} more{reason}")
    }

    /// All that there is of each.
    fn all(&self) -> [usize; 3] {
        [self.totals.len(), self.pivots.len(), self.orders.len()]
    }

    /// How many numbers of each are 0, and how many as they were lent.
    fn counts(&self) -> String {
        let count = |value: u16| {
            let totals = self.totals.iter().filter(|&&total| total == u64::from(value)).count();
            let [pivots, orders] = [&self.pivots, &self.orders].map(|numbers| numbers.iter().filter(|&&number| number == value).count());
            format!("{totals} {pivots} {orders}")
        };
        format!("0 in {}, 77 in {}", count(0), count(77))
    }
}

/// The path of src/large.rt.
fn path_of_ten() -> Vec<u8> {
    let mut fields = vec![6, 1, 6, 10];
    for i in 0..1024u16 {
        fields.extend([20, 2, u32::from(i) * 37 % 31 * 10, 0, 0, 0, 0, 0, 1000 + u32::from(i) % 2 * 1000, 10, u32::from(i) % 4]);
    }
    fields.extend([2, 3]);
    fields.into_iter().flat_map(|field| (field as u16).to_le_bytes()).collect()
}

/// The lines of a case of crates/test_fork_cost. `words` are what src/cases.rt and src/large.rt say of each.
fn lines_of_forks(name: &str, words: &[&str]) -> Vec<String> {
    let number = |i: usize| words[i].parse::<usize>().expect("a number");
    let path = |word: usize| {
        let mut bytes = path_of("test_fork_cost/src/paths.rt", words[word]);
        bytes.resize(189, 0);
        bytes
    };
    let mut work = Work::of(if words[0] == "ten" { 1024 } else { 8 });
    let told = match words[0] {
        "every" => {
            let mut lines = vec![name.to_owned()];
            lines.extend((1..=number(3) as u16).map(|fork| format!("fork {fork}{}", work.told(&path(1)[..number(2)], 6, fork, work.all()))));
            lines.push(format!("work space: {}", work.counts()));
            return lines;
        }
        "fork" => {
            let mut bytes = path(2);
            let changes = u64::from_str_radix(words[3], 16).expect("places and bytes");
            for change in [48, 32, 16, 0].map(|low| (changes >> low) as u16).into_iter().filter(|&change| change != 0) {
                bytes[usize::from(change >> 8)] = change as u8;
            }
            work.told(&bytes[..number(4)], number(5) as u16, number(1) as u16, [number(6), number(7), number(8)])
        }
        "ten" => work.told(&path_of_ten(), 6, number(1) as u16, work.all()),
        word => panic!("{word}"),
    };
    vec![format!("{name}{told}; {}", work.counts())]
}

/// What forks cost the other way, case by case.
#[test]
fn forks_the_other_way() {
    let cases = text("test_fork_cost/stdin");
    let cases = cases.lines().filter_map(|line| line.split_once(": "));
    let due: Vec<String> = cases.flat_map(|(name, words)| lines_of_forks(name, &words.split(' ').collect::<Vec<_>>())).collect();
    assert_eq!(text("test_fork_cost/stdout").lines().collect::<Vec<_>>(), due);
    assert!(due.len() > 80);
}

/// A file of the repository.
fn file(name: &str) -> PathBuf {
    Path::new(env!("CARGO_MANIFEST_DIR")).join("..").join(name)
}

/// What the program `all_orders` prints for bytes on standard input. It may be done before it took them all.
fn printed(bytes: &[u8]) -> Vec<u8> {
    let program = file("target/bin/all_orders");
    let mut run = Command::new(&program).stdin(Stdio::piped()).stdout(Stdio::piped()).spawn().expect("target/bin/all_orders, which tools/build.sh builds");
    let given = run.stdin.take().expect("a pipe").write_all(bytes);
    assert!(given.is_ok() || given.is_err_and(|error| error.kind() == ErrorKind::BrokenPipe));
    let done = run.wait_with_output().expect("the program's output");
    assert!(done.status.success());
    done.stdout
}

/// The text that is due, and its refusal's number or 0.
fn text_due(bytes: &[u8]) -> (u16, String) {
    match all_orders(bytes) {
        Ok(text) => (0, text),
        Err(refused) => refused,
    }
}

/// A path of 2^k stops with so many faults, now and then with some thousands of bytes after it.
fn input(random: &mut Random, k: u16, faults: usize) -> Vec<u8> {
    let mut bytes = World::any(random, k).path;
    for _ in 0..faults {
        damage(random, &mut bytes);
    }
    if random.below(20) == 0 {
        bytes.resize(bytes.len() + random.below(100_000) as usize, random.next() as u8);
    }
    bytes
}

/// The program that prints all orders, on good paths and on paths with one fault and two: every refusal of a path is met, 5 in place of 8.
#[test]
fn all_orders_printed() {
    let mut random = seeded("all orders");
    let mut seen: BTreeMap<u16, usize> = BTreeMap::new();
    for case in 0..4_000 * rounds() {
        let k = [0, 1, 2, 3, 3, 4, 5, 10][random.below(8) as usize];
        let bytes = input(&mut random, k, case % 3);
        let (number, text) = text_due(&bytes);
        assert_eq!(String::from_utf8(printed(&bytes)).expect("text"), text, "{bytes:02x?}");
        *seen.entry(number).or_default() += 1;
    }
    println!("all orders: {seen:?}");
    assert_eq!(seen.into_keys().collect::<Vec<u16>>(), [0, 1, 2, 3, 4, 5, 6, 7]);
}

/// The program's samples, and the one that `rt ci` runs.
#[test]
fn all_orders_samples() {
    let mut samples = vec![(file("crates/all_orders/stdin"), file("crates/all_orders/stdout"))];
    for entry in fs::read_dir(file("examples/orders")).expect("examples/orders") {
        let path = entry.expect("a file").path();
        if path.extension().is_some_and(|end| end == "path") {
            samples.push((path.clone(), path.with_extension("text")));
        }
    }
    for (path, text) in &samples {
        let given = fs::read(path).expect("a path");
        assert_eq!(fs::read_to_string(text).expect("a text"), text_due(&given).1, "{path:?}");
    }
    assert!(samples.len() > 40, "{} samples", samples.len());
}

/// What the session of crates/test_named holds: the bytes of a path, the screen's order and sums, and what is kept.
struct Week {
    bytes: Vec<u8>,
    order: [u16; 5],
    sums: [u64; 5],
    marks: [u8; 9],
    stops: [u16; 33],
    kept: [u64; 33],
}

impl Week {
    /// What a case does, and the number of its call. `words` are what crates/test_named/src says of each.
    fn run(&mut self, words: &[&str]) -> Option<Result<(), u16>> {
        let number = |i: usize| words[i].parse::<u64>().expect("a number");
        let place = |i: usize| number(i) as usize;
        let Week { bytes, order, sums, marks, stops, kept } = self;
        match words[0] {
            "path" => *self = Week { bytes: path_of("test_named/src/setting.rt", "fifty"), order: [77; 5], sums: [77; 5], marks: [77; 9], stops: [77; 33], kept: [77; 33] },
            "order" => order[place(1)] = number(2) as u16,
            "value" => sums[place(1)] = number(2),
            "used" => marks[place(1)] = number(2) as u8,
            "stop" => stops[place(1)] = number(2) as u16,
            "total" => kept[place(1)] = number(2),
            "make" => return Some(group_sums(&bytes[..place(1)], number(2) as u16, order, sums)),
            "exchange" => return Some(exchange_fork(&bytes[..place(2)], number(3) as u16, number(1) as u16, order, sums)),
            "clear" => return Some(clear(&mut marks[..place(1)])),
            word => {
                let (bytes, highest, name) = (&bytes[..place(2)], number(3) as u16, number(1) as u16);
                let (order, sums) = (&mut order[..place(4)], &mut sums[..place(5)]);
                let (marks, stops, kept) = (&mut marks[..place(6)], &mut stops[..place(7)], &mut kept[..place(8)]);
                return Some(match word {
                    "keep" => keep(bytes, highest, name, order, sums, marks, stops, kept),
                    "back" => come_back(bytes, highest, name, order, sums, marks, stops, kept),
                    _ => panic!("{word}"),
                });
            }
        }
        None
    }

    /// The line that a case writes.
    fn due(&mut self, name: &str, words: &[&str]) -> String {
        let number = self.run(words).map_or(String::new(), |made| format!(": {}", made.map_or_else(|number| number, |()| 0)));
        let (order, sums) = (spaced(&self.order, u16::to_string), spaced(&self.sums, u64::to_string));
        let (stops, kept) = (spaced(&self.stops, u16::to_string), spaced(&self.kept, u64::to_string));
        let marks = spaced(&self.marks, |mark| format!("{mark:02x}"));
        format!("{name}{number}, order{order}, sums{sums}, marks{marks}, stops{stops}, kept{kept}")
    }
}

/// Monday to Thursday, case by case.
#[test]
fn a_week_at_the_screen() {
    let mut week = Week { bytes: vec![], order: [0; 5], sums: [0; 5], marks: [0; 9], stops: [0; 33], kept: [0; 33] };
    let cases = text("test_named/stdin");
    let cases = cases.lines().filter_map(|line| line.split_once(": "));
    let due: Vec<String> = cases.map(|(name, words)| week.due(name, &words.split(' ').collect::<Vec<_>>())).collect();
    assert_eq!(text("test_named/stdout").lines().collect::<Vec<_>>(), due);
    assert!(due.len() > 80);
}
