//! Paths: each refusal and its place in the sequence, read, drawn, written and handed to the controller's calls.

use super::*;

#[test]
fn each_refusal_of_a_path() {
    let [four, five, six] = [4, 5, 6].map(fifty);
    let after_head = |text: &str| [hex(HEAD[0]), hex(text)].concat();
    let cases: [(Vec<u8>, u16, u16); 28] = [
        (vec![], 5, CUT_OFF),
        (after_head("12 00 02 00"), 5, WRONG_LENGTH),
        (hex("06 00 09 00"), 5, WRONG_KIND),
        (hex("06 00 01 00 09 00 00 00"), 5, WRONG_VERSION),
        (hex("06 00 01 00 04 00 0B 00"), 5, WRONG_K),
        (with(&four, 8 + 16, &[0, 0]), 5, OUT_OF_RANGE),
        ([four.clone(), vec![0]].concat(), 5, BYTES_AFTER),
        // highest known version first
        (vec![], 3, WRONG_VERSION),
        (four.clone(), 7, WRONG_VERSION),
        (five.clone(), 4, WRONG_VERSION),
        // M-102: 'A controller that knows only 4 or 5 still turns a newer path down at its head', whatever its stops are
        (six.clone(), 4, WRONG_VERSION),
        (six.clone(), 5, WRONG_VERSION),
        (six[..8].to_vec(), 5, WRONG_VERSION),
        (with(&six, 4, &[7]), 6, WRONG_VERSION),
        (with(&five, 4, &[6]), 6, WRONG_LENGTH),
        (with(&six, 4, &[5]), 6, WRONG_LENGTH),
        (with(&four, 4, &[3]), 5, WRONG_VERSION),
        // 4 bytes present, kind, length, bytes present, fields
        (hex("07 00 09"), 5, CUT_OFF),
        (hex("07 00 09 00"), 5, WRONG_KIND),
        (hex("07 00 01 00"), 5, WRONG_LENGTH),
        (hex("06 00 01 00 09 00 0B"), 5, CUT_OFF),
        (hex("06 00 01 00 09 00 0B 00"), 5, WRONG_VERSION),
        (after_head("12 00 03 00"), 5, WRONG_KIND),
        (after_head("10 00 02 00 00 00 00 00 00 00 00 00 00 00 00 00 00"), 5, CUT_OFF),
        (after_head(END), 5, WRONG_KIND),
        (with(&four, 80, &[3]), 5, WRONG_LENGTH),
        (with(&four, 82, &[2]), 5, WRONG_KIND),
        (with(&[four.clone(), vec![0]].concat(), 80, &[2, 1]), 5, WRONG_LENGTH),
    ];
    for (place, (bytes, highest, number)) in cases.iter().enumerate() {
        assert_eq!(path_refused(bytes, *highest), *number, "case {place}");
    }
    for path in [&four, &five, &six] {
        for cut in 0..path.len() {
            assert_eq!(path_refused(&path[..cut], 6), CUT_OFF, "cut after {cut}");
        }
    }
}

/// The limits of each field, in the last stop of a path of version 6.
#[test]
fn ranges() {
    let six = fifty(6);
    let last = 8 + 3 * 22;
    for axis in 0..3 {
        let at = last + 4 + 4 * axis;
        for x in [20_000i32, -20_000] {
            assert_eq!(Run::new(2).read(&with(&six, at, &x.to_le_bytes()), 6), Ok((6, 2)));
        }
        for x in [20_001, -20_001, i32::MAX, i32::MIN] {
            assert_eq!(path_refused(&with(&six, at, &x.to_le_bytes()), 6), OUT_OF_RANGE);
        }
    }
    for (at, good, bad) in [(last + 16, [1u16, 2_000], [0u16, 2_001]), (last + 18, [0, 500], [501, 65_535]), (last + 20, [0, 5_000], [5_001, 65_535])] {
        for number in good {
            assert_eq!(Run::new(2).read(&with(&six, at, &number.to_le_bytes()), 6), Ok((6, 2)));
        }
        for number in bad {
            let changed = with(&six, at, &number.to_le_bytes());
            assert_eq!(path_refused(&changed, 6), OUT_OF_RANGE);
            // the fields come before the next record, the first stop before the last
            assert_eq!(path_refused(&changed[..last + 22], 6), OUT_OF_RANGE);
            assert_eq!(path_refused(&with(&changed, 8, &[0x10]), 6), WRONG_LENGTH);
        }
    }
}

/// 'In the head: version, k, then lent lengths (8)': each lent buffer by itself one too short, with a cut path.
#[test]
fn lengths_in_the_head() {
    let path = &fifty(4)[..8];
    let shortened: [fn(&mut Run); 9] = [
        |run| run.coords.truncate(11),
        |run| run.speeds.truncate(3),
        |run| run.blends.truncate(3),
        |run| run.dwells.truncate(3),
        |run| run.table.truncate(15),
        |run| run.table.push(0),
        |run| run.order.truncate(3),
        |run| run.totals.truncate(7),
        |run| run.pivots.truncate(7),
    ];
    for (place, shorten) in shortened.iter().enumerate() {
        let mut run = Run::new(2);
        shorten(&mut run);
        let before = run.clone();
        assert_eq!(run.whole(path, 5), Err(if place < 4 { CUT_OFF } else { WRONG_SIZE }), "buffer {place}");
        assert_eq!(run.whole(&with(path, 6, &[11]), 5), Err(WRONG_K));
        assert_eq!(run.read(path, 5), Err(if place < 4 { WRONG_SIZE } else { CUT_OFF }));
        // 77 is in every range, and a dwell of 77 is lost in version 5
        assert_eq!(run.write(5, 2, &mut []), Err(if place < 4 { WRONG_SIZE } else { LOST_FIELD }));
        assert!(run == before, "a refusal wrote");
        assert_eq!(run.clone().make(2), if place < 6 { Err(WRONG_SIZE) } else { Ok(()) });
        assert_eq!(run.plan(2), if place < 4 { Ok(3 * 77) } else { Err(WRONG_SIZE) });
    }
    let one_speed = hex("06 00 01 00 04 00 01 00");
    assert_eq!(read_path(&one_speed, 5, &mut [0; 6], &mut [0; 1], &mut [0; 2], &mut [0; 2]), Err(WRONG_SIZE));
}

/// 'a larger k is 8, found directly after k'; 'k above 10' is 5; 'The controller's order-file output counts among the path head's lengths'.
#[test]
fn lengths_in_the_controllers_calls() {
    for (k, number) in [(6, CUT_OFF), (7, WRONG_SIZE), (10, WRONG_SIZE), (11, WRONG_K)] {
        let head = with(&hex(HEAD[0]), 6, &[k]);
        let mut out = [77; 1000];
        assert_eq!(cell_plan(&head, 5, &mut out), -i64::from(number));
        assert_eq!(cell_check(&head, 5, &[]), -i64::from(number));
        assert_eq!(cell_rewrite(&head, 5, 9, &mut out), -i64::from(number));
        assert_eq!(out, [77; 1000]);
    }
    let mut out = [77; 34];
    assert_eq!(cell_plan(&fifty(4)[..8], 5, &mut out), -8);
    assert_eq!(cell_plan(&fifty(4)[..7], 5, &mut out), -1);
    assert_eq!(cell_plan(&fifty(4), 5, &mut out), -8);
    assert_eq!(out, [77; 34]);
}

/// 'Writing a path: version, k, stops lent (8), 6 in stop order, 13, output (8).'
#[test]
fn writing_a_path() {
    let mut run = Run::new(1);
    let mut out = [77; 200];
    assert_eq!(run.write(6, 1, &mut out[..56]), Ok(56));
    run.speeds[1] = 0;
    for (version, k, number) in [(3, 11, WRONG_VERSION), (7, 2, WRONG_VERSION), (4, 11, WRONG_K), (4, 3, WRONG_SIZE), (4, 1, OUT_OF_RANGE)] {
        assert_eq!(run.write(version, k, &mut []), Err(number));
    }
    run.speeds[1] = 1;
    // beyond the first n stops nothing is looked at
    (run.coords[6], run.speeds[2], run.blends[2], run.dwells[2]) = (20_001, 0, 501, 5_001);
    assert_eq!(run.write(5, 1, &mut []), Err(LOST_FIELD));
    run.dwells[..2].copy_from_slice(&[0, 5_001]);
    assert_eq!(run.write(5, 1, &mut []), Err(OUT_OF_RANGE));
    run.dwells[1] = 0;
    assert_eq!(run.write(4, 1, &mut []), Err(LOST_FIELD));
    run.blends[..2].copy_from_slice(&[0, 501]);
    assert_eq!(run.write(4, 1, &mut []), Err(OUT_OF_RANGE));
    run.blends[1] = 0;
    let mut out = [77; 200];
    for (version, count) in [(4, 48), (5, 52), (6, 56)] {
        assert_eq!(run.write(version, 1, &mut out[..count - 1]), Err(WRONG_SIZE));
        assert_eq!(out, [77; 200]);
        assert_eq!(run.write(version, 1, &mut out[..count]), Ok(count as u64));
        assert_eq!(run.clone().read(&out[..count], version), Ok((version, 1)));
        out = [77; 200];
    }
}

/// 'each stop before the end or before the first refused record, then the end or the refusal ..; later draws repeat it'
#[test]
fn draws() {
    let drawn = |bytes: &[u8], highest: u16| -> Vec<Result<Option<i32>, u16>> {
        (0..7).map(|d| draw_number(bytes, highest, d).map(|stop| stop.map(|stop| stop.at[0]))).collect()
    };
    let stops = [Ok(Some(0)), Ok(Some(30)), Ok(Some(10)), Ok(Some(20))];
    let then = |count: usize, last: Result<Option<i32>, u16>| [stops[..count].to_vec(), vec![last; 7 - count]].concat();
    for version in [4, 5, 6] {
        let bytes = fifty(version);
        let record = bytes.len() / 4 - 3;
        assert_eq!(drawn(&bytes, 6), then(4, Ok(None)));
        assert_eq!(drawn(&[&bytes[..], &[0]].concat(), 6), then(4, Err(BYTES_AFTER)));
        assert_eq!(drawn(&bytes[..bytes.len() - 1], 6), then(4, Err(CUT_OFF)));
        assert_eq!(drawn(&bytes, 3), then(0, Err(WRONG_VERSION)));
        assert_eq!(drawn(&bytes[..8], 6), then(0, Err(CUT_OFF)));
        assert_eq!(drawn(&with(&bytes, 8 + record + 16, &[0, 0]), 6), then(1, Err(OUT_OF_RANGE)));
        assert_eq!(drawn(&with(&bytes, 8 + 2 * record + 2, &[3]), 6), then(2, Err(WRONG_KIND)));
    }
    let blended = with(&fifty(5), 8 + 18, &[7]);
    assert_eq!(draw_number(&blended, 5, 0), Ok(Some(Stop { at: [0; 3], speed: 100, blend: 7, dwell: 0 })));
    assert_eq!(draw_number(&fifty(4), 4, 3), Ok(Some(Stop { at: [20, 0, 0], speed: 100, blend: 0, dwell: 0 })));
    let dwelling = with(&fifty(6), 8 + 20, &[0x88, 0x13]);
    assert_eq!(draw_number(&dwelling, 6, 0), Ok(Some(Stop { at: [0; 3], speed: 100, blend: 0, dwell: 5_000 })));
    assert_eq!(draw_number(&dwelling, 5, 0), Err(WRONG_VERSION));
}
