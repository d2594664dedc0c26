//! What a call takes, by the thread's processor time.

use std::ffi::{c_int, c_long};

/// The least time of a contender's turn in microseconds.
const TURN: f64 = 200.0;

/// The time of all turns, in microseconds, after which no further round begins once there are enough, and the numbers of rounds that are
/// enough and too many.
const RACE: f64 = 1_500_000.0;
const ENOUGH: usize = 80;
const TOO_MANY: usize = 2000;

/// C's `struct timespec`, and the thread's clock on Linux.
#[repr(C)]
struct Time {
    seconds: c_long,
    nanoseconds: c_long,
}

const THREAD: c_int = 3;

extern "C" {
    fn clock_gettime(clock: c_int, time: *mut Time) -> c_int;
}

/// The thread's processor time so far in microseconds: time in which another program has the processor does not count.
fn now() -> f64 {
    let mut time = Time { seconds: 0, nanoseconds: 0 };
    assert_eq!(unsafe { clock_gettime(THREAD, &mut time) }, 0);
    time.seconds as f64 * 1e6 + time.nanoseconds as f64 / 1e3
}

/// The time of one run in microseconds, from `times` of them.
fn timed(times: usize, mut run: impl FnMut()) -> f64 {
    let start = now();
    for _ in 0..times {
        run();
    }
    (now() - start) / times as f64
}

/// How many runs make a turn.
fn runs_of_a_turn(mut run: impl FnMut()) -> usize {
    let mut times = 1;
    while timed(times, &mut run) * (times as f64) < TURN {
        times *= 2;
    }
    times
}

/// The tenth part from below.
fn low(times: &mut [f64]) -> f64 {
    times.sort_by(f64::total_cmp);
    times[times.len() / 10]
}

/// The time of one run of each contender in microseconds, and the number of rounds. In each round each has its turn; `run(i)` is one run of
/// contender i.
pub fn race(contenders: usize, mut run: impl FnMut(usize)) -> (Vec<f64>, usize) {
    let turns: Vec<usize> = (0..contenders).map(|i| runs_of_a_turn(|| run(i))).collect();
    let mut times = vec![Vec::new(); contenders];
    let mut spent = 0.0;
    while times[0].len() < ENOUGH || (times[0].len() < TOO_MANY && spent < RACE) {
        for (i, &turn) in turns.iter().enumerate() {
            let time = timed(turn, || run(i));
            times[i].push(time);
            spent += time * turn as f64;
        }
    }
    let rounds = times[0].len();
    (times.iter_mut().map(|times| low(times)).collect(), rounds)
}
