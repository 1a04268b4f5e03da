//! Which run of a system a node begins next, by the clock.

use crate::raw;

/// When the runs of a system begin: run r at `start` + r * `period`. Times are whole numbers of one unit, as milliseconds
/// since 1970.
#[derive(Debug, Clone, Copy, PartialEq, Eq)]
pub struct Timetable {
    /// When run 0 begins.
    pub start: i64,
    /// From the beginning of a run to that of the next.
    pub period: u64,
}

/// The number of a run, and when the run begins.
#[derive(Debug, Clone, Copy, PartialEq, Eq)]
pub struct NextRun {
    /// The number.
    pub number: u32,
    /// When it begins.
    pub begins: i64,
}

impl Timetable {
    /// The run that a node begins next: the least above the mark that begins now or later. The mark is the number of the
    /// newest run that the node has begun. `None` if no number is left, or the time does not fit. A system can have fewer
    /// runs: compare.
    pub fn next_run(&self, now: i64, mark: Option<u32>) -> Option<NextRun> {
        // No system has runs so high, so a mark there is as good as the one below it.
        let mark = mark.map_or(raw::NO_RUN, |mark| mark.min(raw::NO_RUN - 1));
        let mut next = NextRun { number: 0, begins: 0 };
        // SAFETY: both numbers are this function's own.
        let status =
            unsafe { raw::sm_node_next_run(now, self.start, self.period, mark, &mut next.number, &mut next.begins) };
        (status == raw::OK).then_some(next)
    }
}
