//! M-103: every distance and every speed, by tables that the proved library makes, beside the independent reading.

use evidence::{
    ffi,
    reading::{travel_time, Stop},
};

/// Half of the largest table's stops.
const HALF: usize = 512;

/// The lent buffers of some stops.
fn lent(stops: &[Stop]) -> (Vec<i32>, [Vec<u16>; 3]) {
    let field = |of: fn(&Stop) -> u16| stops.iter().map(of).collect();
    (stops.iter().flat_map(|stop| stop.at).collect(), [field(|stop| stop.speed), field(|stop| stop.blend), field(|stop| stop.dwell)])
}

/// 'Show for every D up to 40,000, every speed and every dwell that the result is the definition's': the moves from one half of the stops, at as
/// many distances, to the other half, with as many speeds, and blends and dwells by a rule of the speed.
fn every_distance_and_speed(blend: fn(u16) -> u16, dwell: fn(u16) -> u16) {
    let mut table = vec![0; 4 * HALF * HALF];
    let mut moves = 0;
    for first_distance in (0..=40_000).step_by(HALF) {
        for first_speed in (1..=2_000).step_by(HALF) {
            let far = |i: usize| Stop { at: [(first_distance + i).min(40_000) as i32 - 20_000, 0, 0], speed: 1, blend: 0, dwell: 0 };
            let near = |i: usize| {
                let speed = (first_speed + i).min(2_000) as u16;
                Stop { at: [-20_000, 0, 0], speed, blend: blend(speed), dwell: dwell(speed) }
            };
            let stops: Vec<Stop> = (0..HALF).map(far).chain((0..HALF).map(near)).collect();
            let (coords, [speeds, blends, dwells]) = lent(&stops);
            ffi::make_table(10, &coords, &speeds, &blends, &dwells, &mut table).expect("stops in range");
            for from in 0..HALF {
                for to in HALF..2 * HALF {
                    let (got, due) = (table[from * 2 * HALF + to], travel_time(&stops[from], &stops[to]));
                    assert_eq!(got, due, "from {:?} to {:?}", stops[from], stops[to]);
                    moves += 1;
                }
            }
        }
    }
    assert!(moves >= 40_001 * 2_000, "{moves} moves");
}

#[test]
fn no_blend_and_no_dwell() {
    every_distance_and_speed(|_| 0, |_| 0);
}

#[test]
fn largest_blend_and_longest_dwell() {
    every_distance_and_speed(|_| 500, |_| 5_000);
}

#[test]
fn other_blends_and_dwells() {
    every_distance_and_speed(|speed| speed * 7 % 501, |speed| speed * 13 % 5_001);
}
