//! Which run is next, by the clock: the answers of the documents.

use vamuretu::{NextRun, Timetable};

const LAST: u32 = 4_194_303;

#[test]
fn the_least_above_the_mark_that_begins_now_or_later() {
    let timetable = Timetable { start: 1000, period: 100 };
    for (now, mark, number) in [
        (-5000, None, 0),
        (1000, None, 0),
        (1001, None, 1),
        (1100, Some(0), 1),
        (1100, Some(1), 2),
        (1101, Some(0), 2),
        (0, Some(41), 42),
        (i64::MIN, Some(LAST - 1), LAST),
    ] {
        let next = NextRun { number, begins: 1000 + 100 * i64::from(number) };
        assert_eq!(timetable.next_run(now, mark), Some(next), "{now} {mark:?}");
    }
}

#[test]
fn none_is_left() {
    let timetable = |start, period| Timetable { start, period };
    for mark in [LAST, LAST + 1, u32::MAX - 1, u32::MAX] {
        assert_eq!(timetable(0, 1).next_run(0, Some(mark)), None);
    }
    assert_eq!(timetable(0, 1).next_run(i64::from(LAST) + 1, None), None);
    assert_eq!(timetable(0, 0).next_run(1, None), None);
    assert_eq!(timetable(i64::MAX, 1).next_run(0, Some(0)), None);
    assert_eq!(timetable(0, u64::MAX).next_run(1, None), None);
    let last = NextRun { number: 1, begins: i64::MAX };
    assert_eq!(timetable(i64::MIN, u64::MAX).next_run(i64::MAX, None), Some(last));
}
