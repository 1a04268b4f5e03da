//! Why no run begins, and how many runs pass meanwhile.

use std::fmt;
use std::time::{Duration, Instant, SystemTime};

use crate::clock::{self, Wrong};
use crate::config::Clock;

/// How often an alarm says that runs were missed.
const ALARM_EACH: Duration = Duration::from_secs(60);
/// A mark that is ahead of the clock by more periods than these is said; of a block those of its other runs are added.
const MOST_PERIODS: u32 = 2;

/// Why no run begins.
#[derive(Debug, Clone, Copy, PartialEq, Eq)]
pub enum Waits {
    /// The clock is not to be believed.
    Clock(Wrong),
    /// The mark is of a run to come: the next run is the one behind it, which begins then.
    Mark { mark: u32, next_ms: i64 },
    /// The clock shows a time behind the last run, of which the mark is not.
    Behind { last: u32 },
    /// The next run can't be made of the files of roots.
    Roots,
}

impl fmt::Display for Waits {
    fn fmt(&self, to: &mut fmt::Formatter<'_>) -> fmt::Result {
        match self {
            Waits::Clock(wrong) => wrong.fmt(to),
            Waits::Mark { mark, next_ms } => {
                let until = SystemTime::UNIX_EPOCH + Duration::from_millis((*next_ms).max(0) as u64);
                let until = humantime::format_rfc3339_millis(until);
                write!(to, "the mark is run {mark}, which is to come by the clock: it waits until {until}")
            }
            Waits::Behind { last } => {
                write!(
                    to,
                    "the clock shows a time behind run {last}, the last of the system, and this node was not in it"
                )
            }
            Waits::Roots => to.write_str("a file of roots is not as it was when the node was started"),
        }
    }
}

/// Why the next run does not begin soon, by its beginning and by the mark, which serves a block of so many runs.
pub fn of_mark(mark: Option<u32>, next_ms: i64, now_ms: i64, block: u32, clock: &Clock) -> Option<Waits> {
    let most = i64::from(MOST_PERIODS + block - 1).saturating_mul(clock.period_ms.into());
    let mark = mark.filter(|_| next_ms.saturating_sub(now_ms) > most)?;
    Some(Waits::Mark { mark, next_ms })
}

/// Counts the runs that pass by the clock and do not begin.
#[derive(Default)]
pub struct Passing {
    /// The least run that neither began nor passed.
    next: Option<u32>,
    /// How many an alarm has told, and when.
    told: u64,
    alarmed: Option<Instant>,
}

impl Passing {
    /// Has the runs pass that can't be opened any more at a time, of a system with so many. Tells how many did.
    pub fn pass(&mut self, opens_ms: i64, mark: Option<u32>, runs: u64, clock: &Clock) -> u32 {
        let last = u32::try_from(runs).unwrap_or(u32::MAX);
        let open = clock::next_run(mark, opens_ms, clock).map_or(last, |next| next.number.min(last));
        let next = *self.next.get_or_insert_with(|| {
            let left_out = open - mark.map_or(0, |mark| mark + 1).min(open);
            tracing::info!(left_out, next = open, mark = ?mark, "the first run by the clock");
            open
        });
        self.next = Some(next.max(open));
        open.saturating_sub(next)
    }

    /// The least run that neither began nor passed.
    pub fn next(&self) -> u32 {
        self.next.unwrap_or(0)
    }

    /// A run begins.
    pub fn begin(&mut self, number: u32) {
        self.next = self.next.max(number.checked_add(1));
    }

    /// How many runs an alarm has to tell, if one is due. `missed` is how many there were by now.
    pub fn alarm(&mut self, missed: u64, now: Instant) -> Option<u64> {
        let untold = missed.saturating_sub(self.told);
        let is_due = self.alarmed.map_or(true, |last| now.saturating_duration_since(last) >= ALARM_EACH);
        if untold == 0 || !is_due {
            return None;
        }
        (self.told, self.alarmed) = (missed, Some(now));
        Some(untold)
    }
}

#[cfg(test)]
mod tests {
    use super::*;
    use crate::config::Source;

    const CLOCK: Clock =
        Clock { source: Source::Assumed, start: 1000, period_ms: 100, round_ms: 40, bound_ms: 5, drift_ppm: 4 };

    #[test]
    fn runs_that_pass_are_counted_while_none_begins() {
        let mut passing = Passing::default();
        let mut pass = |opens_ms, mark| passing.pass(opens_ms, mark, 64, &CLOCK);
        assert_eq!(pass(2001, Some(3)), 0, "those of before the start are left out");
        assert_eq!((pass(2100, Some(3)), pass(2101, Some(3)), pass(2500, Some(3))), (0, 1, 3));
        assert_eq!((pass(1000, Some(3)), pass(2500, Some(3))), (0, 0), "a clock that goes back");
        passing.begin(15);
        let mut pass = |opens_ms, mark| passing.pass(opens_ms, mark, 64, &CLOCK);
        assert_eq!((pass(2600, Some(15)), pass(2701, Some(15))), (0, 2));
        assert_eq!((pass(2701, Some(40)), pass(5000, Some(40))), (23, 0), "a mark that is ahead");
        assert_eq!((pass(9_000_000, Some(40)), pass(i64::MAX, Some(63))), (23, 0), "behind the last run");
    }

    #[test]
    fn an_alarm_a_minute() {
        let (mut passing, begin) = (Passing::default(), Instant::now());
        let mut alarm = |missed, seconds| passing.alarm(missed, begin + Duration::from_secs(seconds));
        assert_eq!((alarm(0, 0), alarm(2, 1), alarm(9, 2), alarm(9, 60)), (None, Some(2), None, None));
        assert_eq!((alarm(9, 61), alarm(9, 200), alarm(10, 201)), (Some(7), None, Some(1)));
    }

    #[test]
    fn a_mark_that_is_ahead_is_said() {
        assert_eq!(of_mark(Some(7), 1200, 1000, 1, &CLOCK), None);
        assert_eq!(of_mark(Some(7), 1201, 1000, 1, &CLOCK), Some(Waits::Mark { mark: 7, next_ms: 1201 }));
        assert_eq!(of_mark(Some(7), 1500, 1000, 4, &CLOCK), None, "what is left of a block");
        assert_eq!(of_mark(Some(7), 1501, 1000, 4, &CLOCK), Some(Waits::Mark { mark: 7, next_ms: 1501 }));
        assert_eq!(of_mark(None, i64::MAX, i64::MIN, 1, &CLOCK), None, "a system that has not begun");
        let said = Waits::Mark { mark: 7, next_ms: 1_798_761_600_000 }.to_string();
        assert!(said.ends_with("until 2027-01-01T00:00:00.000Z"), "{said}");
    }
}
