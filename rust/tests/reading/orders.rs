//! Orders, tables and order files: each refusal and its place in the sequence.

use super::*;

/// 'Every other call: k, lengths, contents in table order.'
#[test]
fn refusals_of_orders() {
    let mut bits = [77; 1];
    assert_eq!(fork_bits(11, &[], &mut bits), Err(WRONG_K));
    assert_eq!(fork_bits(1, &[2], &mut bits), Err(WRONG_SIZE));
    assert_eq!(fork_bits(1, &[0, 2], &mut []), Err(WRONG_SIZE));
    assert_eq!(fork_bits(1, &[0, 2], &mut bits), Err(WRONG_STOP));
    assert_eq!(fork_bits(2, &[0, 2, 1, 4], &mut bits), Err(WRONG_STOP));
    assert_eq!(fork_bits(2, &[0, 2, 1, 3], &mut bits), Err(NOT_ALLOWED));
    assert_eq!(bits, [77]);
    let mut order = [77; 2];
    assert_eq!(order_of_bits(11, &[], &mut order), Err(WRONG_K));
    assert_eq!(order_of_bits(1, &[], &mut order), Err(WRONG_SIZE));
    assert_eq!(order_of_bits(1, &[1], &mut order[..1]), Err(WRONG_SIZE));
    for byte in [0x01, 0x04, 0x80, 0x03] {
        assert_eq!(order_of_bits(1, &[byte], &mut order), Err(WRONG_FORKS));
    }
    assert_eq!(order, [77; 2]);
}

/// M-108: 'Faulty orders are 9 or 10, faulty sets 12, in that sequence'; 'a set used twice gives the order back'.
#[test]
fn forks_exchanged() {
    let mut out = [77; 5];
    assert_eq!(exchange(11, &[], &[], &mut out), Err(WRONG_K));
    assert_eq!(exchange(2, &[0, 1, 2], &[0], &mut out), Err(WRONG_SIZE));
    assert_eq!(exchange(2, &[0, 1, 2, 4], &[], &mut out), Err(WRONG_SIZE));
    assert_eq!(exchange(2, &[0, 1, 2, 4], &[1], &mut out[..3]), Err(WRONG_SIZE));
    assert_eq!(exchange(2, &[0, 2, 1, 4], &[1], &mut out), Err(WRONG_STOP));
    assert_eq!(exchange(2, &[0, 2, 1, 3], &[1], &mut out), Err(NOT_ALLOWED));
    for byte in [0x01, 0x10, 0x03] {
        assert_eq!(exchange(2, &[0, 1, 2, 3], &[byte], &mut out), Err(WRONG_FORKS));
    }
    assert_eq!(out, [77; 5]);
    // the halves; a half's stops; of the 50 example's order its forks 1 and 2, and back
    for (order, byte, due) in [
        ([0, 1, 2, 3], 0b0010, [2, 3, 0, 1, 77]),
        ([0, 1, 2, 3], 0b1000, [0, 1, 3, 2, 77]),
        ([2, 3, 1, 0], 0b0110, [0, 1, 2, 3, 77]),
        ([0, 1, 2, 3], 0b0110, [2, 3, 1, 0, 77]),
        ([3, 2, 0, 1], 0b0000, [3, 2, 0, 1, 77]),
    ] {
        assert_eq!(exchange(2, &order, &[byte], &mut out), Ok(()));
        assert_eq!(out, due);
    }
}

/// The calls that take an order and a table, with an order file's 31 bytes for k = 1 and 29 for k = 0.
#[test]
fn refusals_of_orders_with_tables() {
    let mut out = [77; 31];
    for (k, order, table, number) in [
        (11, &[0u16, 2][..], &[0u32; 4][..], WRONG_K),
        (1, &[2], &[0; 4], WRONG_SIZE),
        (1, &[0, 2], &[0; 3], WRONG_SIZE),
        (1, &[0, 2], &[0; 5], WRONG_SIZE),
        (1, &[0, 2], &[0; 4], WRONG_STOP),
        (1, &[0, 0], &[0; 4], NOT_ALLOWED),
    ] {
        assert_eq!(order_total(k, order, table), Err(number));
        assert_eq!(write_order_file(k, order, table, &mut out), Err(number));
    }
    assert_eq!(write_order_file(0, &[1], &[0], &mut out[..28]), Err(WRONG_SIZE));
    assert_eq!(write_order_file(0, &[1], &[0], &mut out[..29]), Err(WRONG_STOP));
    assert_eq!(out, [77; 31]);
}

/// The table's call: k, lengths, then 6; only the first n stops are looked at.
#[test]
fn refusals_of_the_table() {
    let faults: [fn(&mut Run); 7] = [
        |run| run.coords[3] = 20_001,
        |run| run.coords[5] = i32::MIN,
        |run| run.speeds[1] = 0,
        |run| run.speeds[0] = 2_001,
        |run| run.blends[1] = 501,
        |run| run.blends[0] = 65_535,
        |run| run.dwells[1] = 5_001,
    ];
    for (place, fault) in faults.iter().enumerate() {
        let mut run = Run::new(1);
        (run.coords[6], run.speeds[2], run.blends[2], run.dwells[2]) = (20_001, 0, 501, 5_001);
        assert_eq!(run.clone().make(1), Ok(()));
        fault(&mut run);
        let before = run.clone();
        assert_eq!(run.make(11), Err(WRONG_K));
        assert_eq!(run.make(0), Err(WRONG_SIZE), "a table of 4 entries for one stop");
        assert_eq!(run.make(1), Err(OUT_OF_RANGE), "fault {place}");
        assert!(run == before, "a refusal wrote");
    }
}

/// The refusal of an order file for the 50 example's path by both calls that read one; neither writes.
fn file_refused(file: &[u8]) -> u16 {
    let (mut order, mut bits) = ([77; 5], [77; 2]);
    let number = read_order_file(2, &TABLE, file, &mut order, &mut bits).expect_err("a refusal");
    assert_eq!((order, bits), ([77; 5], [77; 2]));
    assert_eq!(cell_check(&fifty(4), 4, file), -i64::from(number));
    number
}

#[test]
fn order_files() {
    let file = hex(FILE);
    let (mut order, mut bits, mut out) = ([77; 5], [77; 2], [77; 36]);
    assert_eq!(read_order_file(2, &TABLE, &file, &mut order, &mut bits), Ok(50));
    assert_eq!((order, bits), ([2, 3, 1, 0, 77], [0x06, 77]));
    assert_eq!(write_order_file(2, &order, &TABLE, &mut out), Ok(35));
    assert_eq!((&out[..35], out[35]), (&file[..], 77));
    for cut in 0..file.len() {
        assert_eq!(file_refused(&file[..cut]), CUT_OFF, "cut after {cut}");
    }
    assert_eq!(file_refused(&[&file[..], &[0]].concat()), BYTES_AFTER);
    // places of the records: head 0, stops 6 (its total 10, its stops 18), forks 26 (its byte 30), end 31
    for (at, others, number) in [
        (2, &[9u8][..], WRONG_KIND),
        (0, &[5], WRONG_LENGTH),
        (4, &[1], WRONG_K),
        (4, &[11], WRONG_K),
        (6, &[0x13, 0, 5, 1], WRONG_KIND),
        (6, &[0x13], WRONG_LENGTH),
        (28, &[3], WRONG_KIND),
        (26, &[4], WRONG_LENGTH),
        (33, &[7], WRONG_KIND),
        (31, &[3], WRONG_LENGTH),
        (10, &[51], WRONG_TOTAL),
        (17, &[1], WRONG_TOTAL),
        (18, &[4], WRONG_STOP),
        (19, &[1], WRONG_STOP),
        (18, &[0, 0, 2, 0, 1, 0, 3], NOT_ALLOWED),
        (30, &[0x07], WRONG_FORKS),
        (30, &[0x16], WRONG_FORKS),
        (30, &[0x02], WRONG_FORKS),
    ] {
        assert_eq!(file_refused(&with(&file, at, others)), number, "{others:?} at {at}");
    }
}

/// 'Order file: the path's k, lent lengths, all records, 7, then 9, 10, 12, 11': each fault with all that come after it.
#[test]
fn sequence_in_an_order_file() {
    let mut file = [hex(FILE), vec![0]].concat();
    file = with(&file, 10, &[51]);
    file = with(&file, 30, &[0xFF]);
    file = with(&file, 18, &[0, 0, 2, 0, 1, 0, 4]);
    let last = file.len() - 1;
    assert_eq!(file_refused(&with(&file, 31, &[9])), WRONG_LENGTH);
    assert_eq!(file_refused(&with(&file, 4, &[9])), WRONG_K);
    assert_eq!(file_refused(&file), BYTES_AFTER);
    assert_eq!(file_refused(&file[..last]), WRONG_STOP);
    file = with(&file, 24, &[3]);
    assert_eq!(file_refused(&file[..last]), NOT_ALLOWED);
    file = with(&file, 18, &[2, 0, 3, 0, 1, 0, 0]);
    assert_eq!(file_refused(&file[..last]), WRONG_FORKS);
    file = with(&file, 30, &[0x06]);
    assert_eq!(file_refused(&file[..last]), WRONG_TOTAL);
    for (k, entries, places, bytes, number) in [
        (11, 16, 4, 1, WRONG_K),
        (2, 15, 4, 1, WRONG_SIZE),
        (2, 17, 4, 1, WRONG_SIZE),
        (2, 16, 3, 1, WRONG_SIZE),
        (2, 16, 4, 0, WRONG_SIZE),
        (2, 16, 4, 1, CUT_OFF),
    ] {
        assert_eq!(read_order_file(k, &vec![0; entries], &[], &mut vec![0; places], &mut vec![0; bytes]), Err(number));
    }
}
