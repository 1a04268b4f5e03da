//! The system's clock, and whether it is right.

mod guard;
mod kernel;

use std::time::{Duration, Instant, SystemTime, UNIX_EPOCH};

use vamuretu::{NextRun, Timetable};

use crate::config::Clock;

pub use guard::{Guard, Look, Wrong};

/// Microseconds since 1970 by the system's clock.
fn now_us() -> i64 {
    match SystemTime::now().duration_since(UNIX_EPOCH) {
        Ok(since) => i64::try_from(since.as_micros()).unwrap_or(i64::MAX),
        Err(before) => -i64::try_from(before.duration().as_micros()).unwrap_or(i64::MAX),
    }
}

/// Milliseconds since 1970 by the system's clock.
pub fn now_ms() -> i64 {
    now_us().div_euclid(1000)
}

/// A moment by the clocks of the machine.
#[derive(Debug, Clone, Copy, PartialEq, Eq)]
struct Moment {
    at: Instant,
    /// The time since the machine was started, with that of a suspension. Nothing sets it.
    since_boot: Duration,
    /// Microseconds since 1970 by the system's clock.
    now_us: i64,
}

/// How far apart the clocks may be read, and how often that is tried.
const APART: Duration = Duration::from_micros(500);
const READINGS: usize = 8;

/// Reads the clocks, one soon after the other also where the machine is busy.
fn moment() -> Moment {
    let reading = || {
        let (since_boot, at, now_us) = (since_boot(), Instant::now(), now_us());
        (at.elapsed(), Moment { at, since_boot, now_us })
    };
    let mut best = reading();
    for _ in 1..READINGS {
        if best.0 <= APART {
            break;
        }
        let next = reading();
        best = if next.0 < best.0 { next } else { best };
    }
    best.1
}

fn since_boot() -> Duration {
    // SAFETY: a `timespec` is two numbers, and it is this function's own.
    let told = unsafe {
        let mut told: libc::timespec = std::mem::zeroed();
        libc::clock_gettime(libc::CLOCK_BOOTTIME, &mut told);
        told
    };
    Duration::new(told.tv_sec as u64, told.tv_nsec as u32)
}

/// The run that a node with this mark begins next, where `now_ms` is the least time at which it may begin. The library tells
/// it: it is the same for all who read the same clock and have marks below it, and no clock, however it is set, gives a number
/// at or below the mark. `None` if no number is left.
pub fn next_run(mark: Option<u32>, now_ms: i64, clock: &Clock) -> Option<NextRun> {
    let timetable = Timetable { start: clock.start, period: clock.period_ms.into() };
    timetable.next_run(now_ms, mark)
}

/// When a run begins, in milliseconds since 1970: it is the next one where the run before it is the mark, and all times are to
/// come. A run that no system has never begins.
pub fn beginning(run: u32, clock: &Clock) -> i64 {
    next_run(run.checked_sub(1), i64::MIN, clock).map_or(i64::MAX, |next| next.begins)
}

#[cfg(test)]
mod tests {
    use super::*;
    use crate::config::Source;

    fn clock(start: i64, period_ms: u32) -> Clock {
        Clock { source: Source::Assumed, start, period_ms, round_ms: 40, bound_ms: 5, drift_ppm: 4 }
    }

    #[test]
    fn next_run_is_above_the_mark_and_not_past() {
        let clock = clock(1000, 100);
        for mark in [None, Some(0), Some(4), Some(5), Some(1_000_000)] {
            for now in [-5_000_000, 0, 999, 1000, 1001, 1099, 1100, 1101, 1500, 1501, 9_999_999] {
                let next = next_run(mark, now, &clock).expect("a run");
                let begins = |run: u32| 1000 + i64::from(run) * 100;
                let is_old = |run: u32| mark.map_or(false, |mark| run <= mark) || begins(run) < now;
                assert!(!is_old(next.number));
                assert!(next.number == 0 || is_old(next.number - 1), "a lesser run would serve");
                assert_eq!((next.begins, beginning(next.number, &clock)), (begins(next.number), begins(next.number)));
            }
        }
    }

    #[test]
    fn next_run_ends_with_its_numbers() {
        const LAST: u32 = 4_194_303;
        assert_eq!(next_run(Some(LAST - 1), 0, &clock(0, 1)), Some(NextRun { number: LAST, begins: LAST.into() }));
        for mark in [LAST, LAST + 1, u32::MAX - 1, u32::MAX] {
            assert_eq!(next_run(Some(mark), 0, &clock(0, 1)), None);
        }
        assert_eq!(next_run(None, i64::MAX, &clock(i64::MIN, 1)), None);
        assert_eq!(next_run(Some(0), 0, &clock(i64::MAX, 1)), None);
        assert_eq!(
            (beginning(LAST, &clock(-5, 1)), beginning(LAST + 1, &clock(-5, 1))),
            (i64::from(LAST) - 5, i64::MAX)
        );
    }

    #[test]
    fn a_clock_that_is_set_back_begins_no_run_again() {
        let number = |mark, now| next_run(mark, now, &clock(0, 100)).expect("a run").number;
        assert_eq!((number(None, 10_000), number(Some(100), 3_000)), (100, 101));
    }
}
