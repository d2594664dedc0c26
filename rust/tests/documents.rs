//! What the documents say, read from them. The worked bytes of docs/RECORDS.md: every field that a line names is held to the bytes, and what
//! the lines of a table mean together to what the library reads and writes. The sizes and the refusals' names of docs/CALLS.md.

use evidence::{ffi, reading};
use std::{collections::BTreeMap, fs, path::Path};

/// One line of a table: a record's bytes, and the fields that the document names, by name.
struct Line {
    bytes: Vec<u8>,
    fields: BTreeMap<String, Vec<i64>>,
}

impl Line {
    fn field(&self, name: &str) -> &[i64] {
        self.fields.get(name).unwrap_or_else(|| panic!("no {name} beside {:02x?}", self.bytes))
    }

    fn one(&self, name: &str) -> i64 {
        assert_eq!(self.field(name).len(), 1, "{name}");
        self.field(name)[0]
    }
}

/// A number as the document writes it, with a minus sign of its own.
fn number(word: &str) -> Option<i64> {
    word.replace('−', "-").parse().ok()
}

/// The fields of a meaning such as 'stops: length 18, kind 5, total 50, order 2, 3, 1, 0'.
fn fields(meaning: &str) -> BTreeMap<String, Vec<i64>> {
    let (_, list) = meaning.split_once(": ").expect("what the record is");
    let mut named = BTreeMap::new();
    let mut last = String::new();
    for word in list.split([',', ' ']).filter(|word| !word.is_empty()) {
        match number(word) {
            Some(value) => named.entry(last.clone()).or_insert_with(Vec::new).push(value),
            None => {
                last = word.to_owned();
                named.insert(last.clone(), vec![]);
            }
        }
    }
    named
}

/// The text of a file of the repository.
fn text(name: &str) -> String {
    fs::read_to_string(Path::new(env!("CARGO_MANIFEST_DIR")).join("..").join(name)).expect(name)
}

/// The tables of bytes in docs/RECORDS.md, one after the other.
fn tables() -> Vec<Vec<Line>> {
    let text = text("docs/RECORDS.md");
    let mut tables = Vec::new();
    for line in text.lines() {
        if line == "| Bytes | Meaning |" {
            tables.push(Vec::new());
        }
        let Some((bytes, meaning)) = line.strip_prefix("| `").and_then(|rest| rest.split_once("` | ")) else { continue };
        let bytes = bytes.split(' ').map(|byte| u8::from_str_radix(byte, 16).expect("a byte")).collect();
        let fields = fields(meaning.strip_suffix(" |").expect("the end of a line"));
        tables.last_mut().expect("a table's head comes first").push(Line { bytes, fields });
    }
    tables
}

/// A table's bytes, one record after the other.
fn file(table: &[Line]) -> Vec<u8> {
    table.iter().flat_map(|line| line.bytes.clone()).collect()
}

/// A table is a path: the library reads what the lines say, and writes the same bytes.
fn is_path(table: &[Line]) {
    let (version, k) = (table[0].one("version") as u16, table[0].one("k") as u16);
    let n = 1usize << k;
    assert_eq!(table.len(), n + 2);
    let (mut coords, [mut speeds, mut blends, mut dwells]) = (vec![7; 3 * n], [0; 3].map(|_| vec![7; n]));
    assert_eq!(ffi::read_path(&file(table), version, &mut coords, &mut speeds, &mut blends, &mut dwells), Ok((version, k)));
    for (i, line) in table[1..=n].iter().enumerate() {
        assert_eq!(["x", "y", "z"].map(|name| line.one(name)), [0, 1, 2].map(|axis| i64::from(coords[3 * i + axis])));
        assert_eq!(["speed", "blend", "dwell"].map(|name| line.one(name)), [speeds[i], blends[i], dwells[i]].map(i64::from));
    }
    let mut written = vec![0; file(table).len()];
    assert_eq!(ffi::write_path(version, k, &coords, &speeds, &blends, &dwells, &mut written), Ok(written.len() as u64));
    assert_eq!(written, file(table));
}

/// A table is the order file that the controller gets for a path: the library writes these bytes, and reads what the lines say.
fn is_order_file_of(table: &[Line], path: &[Line]) {
    let mut out = vec![0; file(table).len()];
    assert_eq!(ffi::cell_plan(&file(path), 6, &mut out), out.len() as i64);
    assert_eq!(out, file(table));
    assert_eq!(ffi::cell_check(&file(path), 6, &out), 0);
    let k = table[0].one("k") as u16;
    let n = 1usize << k;
    let (mut coords, [mut speeds, mut blends, mut dwells], mut times) = (vec![0; 3 * n], [0; 3].map(|_| vec![0; n]), vec![0; n * n]);
    ffi::read_path(&file(path), 6, &mut coords, &mut speeds, &mut blends, &mut dwells).expect("a path");
    ffi::make_table(k, &coords, &speeds, &blends, &dwells, &mut times).expect("good stops");
    let (mut order, mut bits) = (vec![0u16; n], vec![0u8; n.div_ceil(8)]);
    assert_eq!(ffi::read_order_file(k, &times, &out, &mut order, &mut bits), Ok(table[1].one("total") as u64));
    assert_eq!(order.iter().map(|&stop| i64::from(stop)).collect::<Vec<_>>(), table[1].field("order"));
    let exchanged = (0..8 * bits.len()).filter(|v| bits[v / 8] >> (v % 8) & 1 == 1);
    assert_eq!(exchanged.map(|v| v as i64).collect::<Vec<_>>(), table[2].field("exchanged"));
}

#[test]
fn worked_records() {
    let tables = tables();
    let mut kinds = vec![];
    for line in tables.iter().flatten() {
        let two = |at: usize| i64::from(u16::from_le_bytes([line.bytes[at], line.bytes[at + 1]]));
        assert_eq!((two(0), two(2)), (line.one("length"), line.one("kind")));
        assert_eq!(line.one("length") + 2, line.bytes.len() as i64);
        kinds.push(line.one("kind"));
    }
    kinds.sort();
    kinds.dedup();
    assert_eq!(kinds, [1, 2, 3, 4, 5, 6, 7], "every kind has an example");
    let [path_5, order_5, path_4, order_4, path_6, order_6, refused] = &tables[..] else { panic!("seven tables") };
    for (version, path, order) in [(5, path_5, order_5), (4, path_4, order_4), (6, path_6, order_6)] {
        assert_eq!(path[0].one("version"), version);
        is_path(path);
        is_order_file_of(order, path);
    }
    assert_eq!(refused[0].bytes[4..], (refused[0].one("number") as u16).to_le_bytes());
    assert_eq!(refused[0].one("number"), i64::from(reading::OUT_OF_RANGE));
}

/// The cells of a document's table lines.
fn cells(line: &str) -> Vec<&str> {
    line.trim_matches('|').split('|').map(str::trim).collect()
}

#[test]
fn sizes() {
    let text = text("docs/CALLS.md");
    let lines = text.lines().skip_while(|line| !line.starts_with("| k | n |")).skip(2).take_while(|line| line.starts_with('|'));
    let mut k = 0;
    for line in lines {
        let said: Vec<u64> = cells(line).into_iter().map(|cell| cell.parse().expect("a number")).collect();
        let n = 1usize << k;
        let (coords, speeds, zeros, table) = (vec![0; 3 * n], vec![1; n], vec![0; n], vec![0; n * n]);
        let order: Vec<u16> = (0..n as u16).collect();
        let path = |version| {
            let size = said[usize::from(version) - 2] as usize;
            assert_eq!(ffi::write_path(version, k, &coords, &speeds, &zeros, &zeros, &mut vec![0; size - 1]), Err(reading::WRONG_SIZE));
            ffi::write_path(version, k, &coords, &speeds, &zeros, &zeros, &mut vec![0; size])
        };
        let bits = said[6] as usize;
        assert_eq!(ffi::fork_bits(k, &order, &mut vec![0; bits - 1]), Err(reading::WRONG_SIZE));
        assert_eq!(ffi::fork_bits(k, &order, &mut vec![0; bits]), Ok(()));
        let file = ffi::write_order_file(k, &order, &table, &mut vec![0; said[5] as usize]);
        let sizes = [Ok(k.into()), Ok(n as u64), path(4), path(5), path(6), file, Ok(bits as u64)];
        assert_eq!(sizes.map(|size| size.expect("long enough")).to_vec(), said);
        k += 1;
    }
    assert_eq!(k, 11, "a line for each k");
}

#[test]
fn names_of_the_refusals() {
    let (text, code) = (text("docs/CALLS.md"), text("crates/base/src/lib.rt"));
    let lines = text.lines().skip_while(|line| !line.starts_with("| No. |")).skip(2).take_while(|line| line.starts_with('|'));
    let said: Vec<String> = lines.map(|line| format!("{} = {},", cells(line)[1].trim_matches('`'), cells(line)[0])).collect();
    let variants = code.lines().skip_while(|line| *line != "pub enum Refusal {").skip(1).take_while(|line| *line != "}");
    let written: Vec<&str> = variants.map(str::trim).filter(|line| !line.starts_with("//")).collect();
    assert_eq!(said.len(), 16);
    assert_eq!(said, written);
}
