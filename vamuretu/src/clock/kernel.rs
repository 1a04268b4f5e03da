//! What the kernel says of the system's clock, and how wrong the clock may be by that.

use std::time::Duration;

/// What Linux adds to its bound of the error each second, in microseconds, until a daemon sets the bound again
/// (`second_overflow` of kernel/time/ntp.c).
const ADDED_US: u64 = 500;
/// A bound that is so far from the sum of what was added was set by a daemon.
const SLACK_US: i64 = 1000;
/// How much faster or slower than its oscillator a clock goes at most that no daemon moves just now.
const MOST_RATE_PPM: i64 = 1000;

/// What the kernel says of the system's clock.
#[derive(Debug, Clone, Copy, PartialEq, Default)]
pub struct Estimate {
    pub is_synchronised: bool,
    /// The kernel's bound of the error, in microseconds.
    pub most_error_us: i64,
    /// The error as the daemon estimates it, in microseconds.
    pub error_us: i64,
    /// What the kernel still has to correct, in microseconds.
    pub offset_us: i64,
    /// How much faster than its oscillator the clock goes, in millionths.
    pub rate_ppm: i64,
}

/// Asks the kernel.
pub fn estimate() -> Estimate {
    // SAFETY: a `timex` is a struct of numbers, of which zeros change nothing (no mode), and it is this function's own.
    let (told, state) = unsafe {
        let mut told: libc::timex = std::mem::zeroed();
        let state = libc::adjtimex(&mut told);
        (told, state)
    };
    let nanoseconds = told.status & libc::STA_NANO != 0;
    Estimate {
        is_synchronised: state >= 0 && state != libc::TIME_ERROR && told.status & libc::STA_UNSYNC == 0,
        most_error_us: told.maxerror,
        error_us: told.esterror,
        offset_us: if nanoseconds { told.offset / 1000 } else { told.offset },
        // A tick is 10,000 microseconds, and the frequency has 16 bits behind the point.
        rate_ppm: (told.tick - 10_000) * 100 + (told.freq >> 16),
    }
}

/// How wrong the clock may be.
#[derive(Debug, Clone, Copy, PartialEq, Eq, Default)]
pub struct Doubt {
    /// For how long no daemon has set the clock, at most.
    pub silent: Duration,
    /// The error at most, in microseconds, unless the clock is being moved.
    pub error_us: i64,
    /// A daemon moves the clock just now, by making it go faster or slower.
    pub is_moved: bool,
}

/// What a daemon told the kernel last. The kernel's bound of the error is for an oscillator that nobody has measured. A daemon
/// measures it, and what is left is `drift_ppm`. So what the kernel adds is taken out of its bound, and the drift comes in.
#[derive(Default)]
pub struct Daemon {
    /// The moment of the last look, and the bound at that time.
    looked: Option<(Duration, i64)>,
    /// When the bound was seen to be set last, and to what.
    set: Option<(Duration, i64)>,
}

impl Daemon {
    /// Looks at what the kernel says at a moment, which has to be no less than that of the last look.
    pub fn look(&mut self, now: Duration, told: &Estimate, drift_ppm: u32) -> Doubt {
        if self.looked.map_or(false, |(at, bound)| was_set(bound, now.saturating_sub(at), told.most_error_us)) {
            self.set = Some((now, told.most_error_us));
        }
        self.looked = Some((now, told.most_error_us));
        // Where it was not seen, the bound as a whole may be what was added.
        let unseen = || (Duration::from_secs(told.most_error_us.max(0) as u64 / ADDED_US), told.error_us);
        let (silent, error_us) = self.set.map_or_else(unseen, |(at, bound)| (now.saturating_sub(at), bound));
        let drifted = silent.as_secs_f64() * f64::from(drift_ppm);
        let error_us = error_us.saturating_add(told.offset_us.saturating_abs()).saturating_add(drifted as i64);
        Doubt { silent, error_us, is_moved: told.rate_ppm.abs() > MOST_RATE_PPM }
    }
}

/// Whether a daemon has set the bound of the error since it was looked at.
fn was_set(before: i64, passed: Duration, bound: i64) -> bool {
    let expected = before.saturating_add((passed.as_secs_f64() * ADDED_US as f64) as i64);
    bound < before || (bound - expected).abs() > SLACK_US
}

#[cfg(test)]
mod tests {
    use super::*;

    const DRIFT_PPM: u32 = 4;

    /// What the kernel says under a daemon that sets the bound to `to_us` every `poll` seconds, until it dies.
    fn told(second: u64, poll: u64, to_us: i64, dies: u64) -> Estimate {
        let since = if second < dies { second % poll } else { second - (dies - 1) / poll * poll };
        Estimate {
            is_synchronised: true,
            most_error_us: to_us + 500 * since as i64,
            error_us: to_us / 2,
            ..Estimate::default()
        }
    }

    /// The greatest error of so many seconds of looks, five a second, which begin at a second.
    fn worst(from: u64, seconds: u64, told: impl Fn(u64) -> Estimate) -> Doubt {
        let mut daemon = Daemon::default();
        let looks = (from * 5..(from + seconds) * 5).map(|fifth| (Duration::from_millis(fifth * 200), told(fifth / 5)));
        let doubts = looks.map(|(now, told)| daemon.look(now, &told, DRIFT_PPM));
        doubts.max_by_key(|doubt| doubt.error_us).expect("a look")
    }

    #[test]
    fn a_healthy_daemon_keeps_the_clock_within_20_ms() {
        // chrony sets the clock every 64 to 1,024 s, and says its error. systemd-timesyncd does every 32 to 2,048 s, twice as late
        // where an answer was a spike, and says 0.
        for (poll, to_us) in [(64, 5), (1024, 5), (2048, 9000), (32, 0), (2048, 0), (4096, 0)] {
            for from in [0, 1, poll / 2, poll - 1] {
                let doubt = worst(from, 3 * poll, |second| told(second, poll, to_us, u64::MAX));
                assert!(doubt.error_us <= 20_000, "{poll} {to_us} from {from}: {doubt:?}");
                assert!(doubt.silent <= Duration::from_secs(poll), "{poll} {to_us} from {from}: {doubt:?}");
                let drifted = i64::from(DRIFT_PPM) * (poll as i64 - 1);
                assert!(doubt.error_us >= to_us + drifted - 10, "{poll} {to_us} from {from}: {doubt:?}");
            }
        }
    }

    #[test]
    fn a_daemon_that_died_does_not() {
        for (poll, to_us, seconds) in [(64, 5, 5100), (1024, 9000, 2850), (2048, 0, 5100)] {
            let silent = |seconds| worst(0, 2 * poll + seconds, |second| told(second, poll, to_us, 2 * poll + 1));
            assert!(silent(seconds).error_us > 20_000, "{poll}: {:?}", silent(seconds));
            assert!(silent(seconds - 200).error_us <= 20_000, "{poll}: {:?}", silent(seconds - 200));
        }
        // A process that is started meanwhile knows by the kernel's bound.
        let late = worst(6000, 1, |second| told(second, 64, 0, 65));
        assert!(late.error_us > 20_000 && late.silent >= Duration::from_secs(5900), "{late:?}");
    }

    #[test]
    fn what_the_daemon_says_counts() {
        let far = worst(0, 200, |second| told(second, 64, 20_001, u64::MAX));
        assert!(far.error_us > 20_000, "{far:?}");
        let slewed = Estimate { offset_us: -30_000, ..told(0, 64, 0, u64::MAX) };
        assert_eq!(Daemon::default().look(Duration::ZERO, &slewed, DRIFT_PPM).error_us, 30_000);
        let moved = |rate_ppm| Estimate { rate_ppm, ..told(0, 64, 0, u64::MAX) };
        assert!(Daemon::default().look(Duration::ZERO, &moved(-5000), DRIFT_PPM).is_moved);
        assert!(!Daemon::default().look(Duration::ZERO, &moved(480), DRIFT_PPM).is_moved);
    }

    #[test]
    fn a_bound_that_was_set_is_seen() {
        let passed = Duration::from_millis;
        for (before, milliseconds, bound, is_set) in [
            (2000, 100, 2000, false),
            (2000, 100, 2500, false),
            (2000, 1000, 2500, false),
            (2000, 10_000, 7000, false),
            (505, 100, 5, true),
            (2000, 100_000, 25_000, true),
            (2000, 100, 16_000_000, true),
        ] {
            assert_eq!(was_set(before, passed(milliseconds), bound), is_set, "{before} {milliseconds} {bound}");
        }
    }
}
