//! Whether the system's clock is to be believed.

use std::fmt;
use std::sync::{Mutex, MutexGuard};
use std::time::{Duration, Instant};

use super::kernel::{estimate, Daemon, Doubt, Estimate};
use super::{moment, Moment};
use crate::config::{Clock, Source};

/// How long the clock has to go on without a step before it is believed again.
const SETTLES: Duration = Duration::from_secs(2);
/// A clock that is ahead of what was believed by more periods than these waits for an operator.
const MOST_PERIODS: i64 = 2;
/// What a clock may depart from the time since the boot in so many milliseconds, by one of them: what departs no faster is
/// followed, and is no step. No daemon that slews departs at all, since both clocks go at its rate. But where something sets
/// the clock by a little again and again, as hosts of virtual machines do by 5 ms a second, the sum is no step either.
const FOLLOWS: i64 = 100;

/// Why the clock is not believed.
#[derive(Debug, Clone, Copy, PartialEq, Eq)]
pub enum Wrong {
    /// The clock is ahead of what it showed before by more than two periods.
    Ahead { by_ms: i64 },
    /// The clock was set to another time a moment ago.
    Stepped { by_ms: i64 },
    /// The kernel does not say that the clock is synchronised.
    Unsynchronised,
    /// A daemon moves the clock just now.
    Moved,
    /// The error may be above the configured one.
    Uncertain,
}

impl fmt::Display for Wrong {
    fn fmt(&self, to: &mut fmt::Formatter<'_>) -> fmt::Result {
        match self {
            Wrong::Ahead { by_ms } => {
                write!(to, "the clock was set {by_ms} ms ahead: a person has to accept that, or the clock to come back")
            }
            Wrong::Stepped { by_ms } => write!(to, "the clock was set by {by_ms} ms"),
            Wrong::Unsynchronised => to.write_str("the clock is not synchronised"),
            Wrong::Moved => to.write_str("the clock is being corrected"),
            Wrong::Uncertain => to.write_str("the clock may be wrong by more than bound_ms"),
        }
    }
}

/// The clock at a moment.
#[derive(Debug, Clone, Copy)]
pub struct Look {
    pub at: Instant,
    /// What the clock shows, in milliseconds since 1970.
    pub now_ms: i64,
    /// What the clock would show without the step that is not believed. `None` if it never was right.
    pub believed_ms: Option<i64>,
    /// The latest time that it may be: where the clock was set back, what it would show without that.
    pub latest_ms: i64,
    pub wrong: Option<Wrong>,
    /// How far the clock is ahead of what is believed, where that is a step.
    pub ahead_ms: i64,
    /// How often the clock was set to another time.
    pub steps: u64,
    pub estimate: Estimate,
    pub doubt: Doubt,
    base: i64,
}

/// What is known of the clock. A base is what the clock shows less the time since the boot, in microseconds.
#[derive(Default)]
struct State {
    /// The time of the last look, and the base at that time.
    looked: Option<(Duration, i64)>,
    /// The base that is believed: the first one when the clock was right, and what followed slowly.
    believed: Option<i64>,
    /// The size of the step ahead that is not believed, in milliseconds.
    ahead: Option<i64>,
    /// When the clock was set last, and by how many milliseconds.
    stepped: Option<(Duration, i64)>,
    steps: u64,
    daemon: Daemon,
}

/// Looks after the clock of a process, for all its threads. What the clock shows when it is right for the first time is
/// believed. From then on a step ahead is not, until it is accepted or gone. A clock that is set back is believed after a
/// moment, and so is one that comes to where it was before.
pub struct Guard {
    clock: Clock,
    state: Mutex<State>,
}

impl Guard {
    pub fn new(clock: Clock) -> Guard {
        Guard { clock, state: Mutex::default() }
    }

    fn state(&self) -> MutexGuard<'_, State> {
        self.state.lock().unwrap_or_else(|told| told.into_inner())
    }

    /// Looks at the clock.
    pub fn look(&self) -> Look {
        let mut state = self.state();
        state.look(&self.clock, moment(), estimate())
    }

    /// Notes that something was done by what the clock showed. If it was set back before, it may not come again to where it
    /// was.
    pub fn relied_on(&self, look: &Look) {
        self.state().relied_on(look);
    }

    /// Accepts the step ahead for which runs wait. Tells its size in milliseconds.
    pub fn accept(&self) -> Option<i64> {
        let mut state = self.state();
        let look = state.look(&self.clock, moment(), estimate());
        state.accept(&look)
    }
}

impl State {
    fn look(&mut self, clock: &Clock, Moment { at, since_boot, now_us }: Moment, estimate: Estimate) -> Look {
        let base = now_us.saturating_sub(micros(since_boot));
        let (before, last) = self.looked.replace((since_boot, base)).unwrap_or((since_boot, base));
        let follows = micros(since_boot.saturating_sub(before)) / FOLLOWS;
        self.note_step(clock, since_boot, base.saturating_sub(last), follows);
        let doubt = self.daemon.look(since_boot, &estimate, clock.drift_ppm);
        let said = said_by_kernel(clock, &estimate, &doubt);
        if said.is_none() {
            self.believed.get_or_insert(base);
        }
        self.follow(clock, base, follows);
        let wrong = self.ahead.map(|by_ms| Wrong::Ahead { by_ms });
        let wrong = wrong.or_else(|| self.stepped.map(|(_, by_ms)| Wrong::Stepped { by_ms })).or(said);
        let ahead = self.ahead.map_or(0, |_| self.believed.map_or(0, |believed| base - believed));
        let believed_ms = self.believed.map(|_| (now_us - ahead).div_euclid(1000));
        let latest_ms = (self.believed.unwrap_or(base).max(base) + micros(since_boot)).div_euclid(1000);
        let (now_ms, ahead_ms, steps) = (now_us.div_euclid(1000), ahead / 1000, self.steps);
        Look { at, now_ms, believed_ms, latest_ms, wrong, ahead_ms, steps, estimate, doubt, base }
    }

    /// Notes a step, and forgets one that is over.
    fn note_step(&mut self, clock: &Clock, since_boot: Duration, by_us: i64, follows: i64) {
        if by_us.saturating_abs() > i64::from(clock.bound_ms.max(1)) * 1000 + follows {
            self.stepped = Some((since_boot, by_us / 1000));
            self.steps += 1;
        }
        self.stepped = self.stepped.filter(|(at, _)| since_boot.saturating_sub(*at) < SETTLES);
    }

    /// Has what is believed follow the clock, unless the clock is too far ahead. Where it was set back, it may come again to
    /// where it was.
    fn follow(&mut self, clock: &Clock, base: i64, follows: i64) {
        let Some(believed) = self.believed else { return };
        let (ahead, most) = (base.saturating_sub(believed), MOST_PERIODS * i64::from(clock.period_ms));
        if ahead > most * 1000 {
            let ahead = ahead / 1000;
            self.ahead = self.ahead.filter(|was| (ahead - was).abs() <= most).or(Some(ahead));
            return;
        }
        self.ahead = None;
        if ahead >= -most * 1000 {
            self.believed = Some(believed + ahead.clamp(-follows, follows));
        }
    }

    fn relied_on(&mut self, look: &Look) {
        self.believed = self.believed.map(|believed| believed.min(look.base));
    }

    fn accept(&mut self, look: &Look) -> Option<i64> {
        let by_ms = self.ahead.take()?;
        self.believed = Some(look.base);
        Some(by_ms)
    }
}

fn micros(time: Duration) -> i64 {
    i64::try_from(time.as_micros()).unwrap_or(i64::MAX)
}

/// What is wrong by what the kernel says, where that is asked.
fn said_by_kernel(clock: &Clock, estimate: &Estimate, doubt: &Doubt) -> Option<Wrong> {
    match clock.source {
        Source::Assumed => None,
        Source::Kernel if !estimate.is_synchronised => Some(Wrong::Unsynchronised),
        Source::Kernel if doubt.is_moved => Some(Wrong::Moved),
        Source::Kernel if doubt.error_us > i64::from(clock.bound_ms) * 1000 => Some(Wrong::Uncertain),
        Source::Kernel => None,
    }
}

#[cfg(test)]
mod tests {
    use super::*;

    const RIGHT: Estimate =
        Estimate { is_synchronised: true, most_error_us: 5000, error_us: 100, offset_us: 0, rate_ppm: 12 };
    const BEGIN_MS: i64 = 1_000_000_000;

    /// A guard whose period is a second, and the clock that it looks at.
    struct Tried {
        clock: Clock,
        state: State,
        /// How far the clock is ahead, and what the kernel says.
        ahead_us: i64,
        estimate: Estimate,
        since_boot: Duration,
    }

    impl Tried {
        fn new(source: Source) -> Tried {
            let clock = Clock { source, start: 0, period_ms: 1000, round_ms: 80, bound_ms: 20, drift_ppm: 4 };
            Tried { clock, state: State::default(), ahead_us: 0, estimate: RIGHT, since_boot: Duration::from_secs(77) }
        }

        fn look(&mut self) -> Look {
            let now_us = BEGIN_MS * 1000 + micros(self.since_boot) + self.ahead_us;
            let moment = Moment { at: Instant::now(), since_boot: self.since_boot, now_us };
            self.state.look(&self.clock, moment, self.estimate)
        }

        /// Looks ten times a second, for so many milliseconds, with the clock so far ahead. Tells what is wrong in the end.
        fn go(&mut self, milliseconds: u64, ahead_ms: i64) -> Option<Wrong> {
            self.ahead_us = ahead_ms * 1000;
            let mut wrong = self.look().wrong;
            for _ in 0..milliseconds / 100 {
                self.since_boot += Duration::from_millis(100);
                wrong = self.look().wrong;
            }
            wrong
        }
    }

    fn ahead(by_ms: i64) -> Option<Wrong> {
        Some(Wrong::Ahead { by_ms })
    }

    fn stepped(by_ms: i64) -> Option<Wrong> {
        Some(Wrong::Stepped { by_ms })
    }

    #[test]
    fn a_small_step_is_seen_and_passes() {
        let mut it = Tried::new(Source::Assumed);
        assert_eq!((it.go(1000, 0), it.go(1000, 20), it.state.steps), (None, None, 0));
        assert_eq!((it.go(1900, 1520), it.go(200, 1520), it.state.steps), (stepped(1500), None, 1));
        assert_eq!((it.go(1900, -500), it.go(200, -500), it.state.steps), (stepped(-2020), None, 2));
    }

    #[test]
    fn a_step_ahead_waits_for_an_operator_or_for_the_clock_to_come_back() {
        for is_accepted in [true, false] {
            let mut it = Tried::new(Source::Assumed);
            assert_eq!((it.go(1000, 0), it.go(7_200_000, 2001)), (None, ahead(2001)), "for as long as it takes");
            let look = it.look();
            assert_eq!((look.now_ms - look.believed_ms.expect("a time"), look.ahead_ms), (2001, 2001));
            let accepted = is_accepted.then(|| it.state.accept(&look)).flatten();
            assert_eq!(accepted, is_accepted.then_some(2001));
            assert_eq!(it.go(5000, 2001), if is_accepted { None } else { ahead(2001) });
            let look = it.look();
            assert_eq!(it.state.accept(&look).is_none(), is_accepted, "nothing waits that was accepted");
        }
        let mut it = Tried::new(Source::Assumed);
        assert_eq!((it.go(1000, 0), it.go(5000, 200_000)), (None, ahead(200_000)));
        assert_eq!((it.go(1000, 900_000), it.state.steps), (ahead(900_000), 2));
        assert_eq!((it.go(1900, 5), it.go(200, 5), it.go(0, 5)), (stepped(-899_995), None, None));
    }

    #[test]
    fn several_steps_are_one() {
        let mut it = Tried::new(Source::Assumed);
        assert_eq!((it.go(1000, 0), it.go(3000, 900), it.go(3000, 1800)), (None, None, None));
        assert_eq!(it.go(3000, 2700), ahead(2640));
        let mut it = Tried::new(Source::Assumed);
        let told: Vec<_> = (0..60).map(|second| it.go(1000, 100 * second)).collect();
        assert!(told.iter().any(|it| matches!(it, Some(Wrong::Ahead { .. }))), "{told:?}");
    }

    #[test]
    fn what_departs_slowly_is_followed() {
        // 5 ms a second, for a day, in ten pieces each second or in one each 3 s; and looks that come late.
        for (every, most) in [(100, 0), (3000, 0), (10_000, 0)] {
            let mut it = Tried::new(Source::Assumed);
            it.look();
            for _ in 0..86_400_000 / every {
                it.since_boot += Duration::from_millis(every);
                it.ahead_us += 5 * every as i64;
                assert_eq!((it.look().wrong, it.state.steps), (None, most), "{every} {}", it.ahead_us);
            }
            assert_eq!(it.ahead_us, 432_000_000);
        }
    }

    #[test]
    fn a_clock_that_was_set_back_may_come_again_to_where_it_was() {
        let mut it = Tried::new(Source::Assumed);
        assert_eq!((it.go(1000, 0), it.go(600_000, -60_000)), (None, None));
        let look = it.look();
        assert_eq!((look.latest_ms - look.now_ms, look.believed_ms), (60_000, Some(look.now_ms)));
        assert_eq!((it.go(2100, 0), it.go(2100, 2500)), (None, ahead(2500)));
        // Not once runs have begun by it.
        assert_eq!((it.go(2100, 0), it.go(2100, -60_000)), (None, None));
        let look = it.look();
        it.state.relied_on(&look);
        assert_eq!(it.go(2100, 0), ahead(60_000));
    }

    #[test]
    fn a_clock_that_never_was_right_may_step() {
        let mut it = Tried::new(Source::Kernel);
        it.estimate = Estimate { is_synchronised: false, ..RIGHT };
        assert_eq!((it.go(5000, 0), it.look().believed_ms), (Some(Wrong::Unsynchronised), None));
        it.go(0, 3_600_000);
        it.estimate = RIGHT;
        assert_eq!((it.go(1900, 3_600_000), it.go(200, 3_600_000)), (stepped(3_600_000), None));
        // Once it was right, it may not, and an operator is asked before the kernel.
        it.estimate = Estimate { is_synchronised: false, ..RIGHT };
        assert_eq!(it.go(5000, 3_600_000), Some(Wrong::Unsynchronised));
        assert_eq!(it.go(5000, 7_200_000), ahead(3_600_000));
        it.estimate = RIGHT;
        assert_eq!((it.go(5000, 7_200_000), it.go(5000, 3_600_000)), (ahead(3_600_000), None));
    }

    #[test]
    fn the_kernel_is_believed_to_the_bound() {
        let mut it = Tried::new(Source::Kernel);
        assert_eq!(it.go(1000, 0), None);
        for (estimate, wrong) in [
            (Estimate { is_synchronised: false, ..RIGHT }, Wrong::Unsynchronised),
            (Estimate { most_error_us: 30_000, ..RIGHT }, Wrong::Uncertain),
            (Estimate { offset_us: 21_000, ..RIGHT }, Wrong::Uncertain),
            (Estimate { rate_ppm: 5000, ..RIGHT }, Wrong::Moved),
        ] {
            it.estimate = estimate;
            assert_eq!(it.look().wrong, Some(wrong), "{estimate:?}");
            it.estimate = RIGHT;
            assert_eq!(it.look().wrong, None);
        }
        let mut assumed = Tried::new(Source::Assumed);
        assumed.estimate = Estimate { is_synchronised: false, rate_ppm: 5000, ..RIGHT };
        assert_eq!(assumed.look().wrong, None);
    }

    #[test]
    fn threads_look_at_one_clock() {
        let clock = Tried::new(Source::Assumed).clock;
        let guard = Guard::new(clock);
        let (first, second) = (guard.look(), std::thread::scope(|scope| scope.spawn(|| guard.look()).join()));
        let second = second.expect("a look");
        assert!(first.wrong.is_none() && second.wrong.is_none() && second.now_ms >= first.now_ms);
        assert_eq!((guard.accept(), second.believed_ms), (None, Some(second.now_ms)));
    }
}
