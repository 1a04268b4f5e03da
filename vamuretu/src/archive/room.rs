//! Room for what threads hold side by side: memory does not grow with the cores.

use std::sync::{Condvar, Mutex, MutexGuard};

/// The most bytes of files as they are stored, and of what is judged with what judging takes, at any time. A file that
/// wants more has all of it.
const MOST_STORED: u64 = 128 << 20;
const MOST_JUDGED: u64 = 512 << 20;

/// So many bytes, of which each thread has some for a while.
pub struct Room {
    most: u64,
    left: Mutex<u64>,
    freed: Condvar,
}

/// Bytes that are free again when this is dropped.
pub struct Taken<'a> {
    room: &'a Room,
    bytes: u64,
}

impl Room {
    fn new(most: u64) -> Room {
        Room { most, left: Mutex::new(most), freed: Condvar::new() }
    }

    fn left(&self) -> MutexGuard<'_, u64> {
        self.left.lock().unwrap_or_else(|told| told.into_inner())
    }

    /// Waits until so many bytes are free, or all if these are fewer, and takes them.
    pub fn take(&self, bytes: u64) -> Taken<'_> {
        let bytes = bytes.min(self.most);
        let waited = self.freed.wait_while(self.left(), |left| *left < bytes);
        *waited.unwrap_or_else(|told| told.into_inner()) -= bytes;
        Taken { room: self, bytes }
    }
}

impl Drop for Taken<'_> {
    fn drop(&mut self) {
        *self.room.left() += self.bytes;
        self.room.freed.notify_all();
    }
}

/// The rooms of files. Who has some of the second never waits for the first.
pub struct Rooms {
    pub stored: Room,
    pub judged: Room,
}

impl Default for Rooms {
    fn default() -> Rooms {
        Rooms { stored: Room::new(MOST_STORED), judged: Room::new(MOST_JUDGED) }
    }
}

#[cfg(test)]
mod tests {
    use super::*;
    use std::sync::atomic::{AtomicU64, Ordering};

    #[test]
    fn no_more_is_taken_than_there_is() {
        let (room, taken) = (Room::new(10), AtomicU64::new(0));
        std::thread::scope(|scope| {
            for bytes in [1, 4, 9, 10, 99, 6, 0, 5] {
                let (room, taken) = (&room, &taken);
                scope.spawn(move || {
                    for _ in 0..100 {
                        let has = room.take(bytes);
                        assert!(taken.fetch_add(has.bytes, Ordering::SeqCst) + has.bytes <= 10);
                        std::thread::yield_now();
                        taken.fetch_sub(has.bytes, Ordering::SeqCst);
                    }
                });
            }
        });
        assert_eq!(*room.left(), 10);
    }
}
