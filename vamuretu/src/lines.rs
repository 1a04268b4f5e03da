//! The lines that a process which goes on says on standard error. One thread writes them, from a bounded queue: where nobody
//! reads them, lines are dropped and counted, and nothing waits.

use std::collections::HashMap;
use std::io::{self, Write};
use std::sync::mpsc::{sync_channel, Receiver, SyncSender, TrySendError};
use std::sync::{Arc, LazyLock, Mutex};
use std::thread;
use std::time::{Duration, Instant};

use prometheus::IntCounter;
use tracing::callsite::Identifier;
use tracing::{Level, Metadata};
use tracing_subscriber::fmt::MakeWriter;

/// How many lines wait at most.
const MOST_WAITING: usize = 1024;
/// How many lines of one place in the program, and no error, are said in a second.
const MOST_EACH_SECOND: u32 = 32;
const SECOND: Duration = Duration::from_secs(1);
/// How long a process that ends waits for lines to be written.
const MOST_ENDING: Duration = Duration::from_millis(500);
const LOOK: Duration = Duration::from_millis(5);

/// The lines that were dropped, by all of the process.
static DROPPED: LazyLock<IntCounter> = LazyLock::new(|| {
    let help = "Lines that were not said: nobody read them, or there were too many of one kind in a second.";
    IntCounter::new("vamuretu_lines_dropped_total", help).expect("a name and a text that are right")
});

/// The counter of lines that were dropped, for a registry.
pub fn dropped() -> IntCounter {
    DROPPED.clone()
}

enum Message {
    Line(Vec<u8>),
    /// All that was said before is written when this is dropped.
    Mark(#[allow(dead_code)] SyncSender<()>),
}

/// What makes the writers of lines.
#[derive(Clone)]
pub struct Lines {
    to: SyncSender<Message>,
    said: Arc<Mutex<HashMap<Identifier, Second>>>,
}

/// How many lines of one place there were in a second.
struct Second {
    since: Instant,
    lines: u32,
}

impl Second {
    /// Notes a line. Tells whether it may be said.
    fn note(&mut self, now: Instant) -> bool {
        if now.duration_since(self.since) >= SECOND {
            *self = Second { since: now, lines: 0 };
        }
        self.lines = self.lines.saturating_add(1);
        self.lines <= MOST_EACH_SECOND
    }
}

/// Writes what comes, and says how many lines were dropped once lines are taken again.
fn write_all(from: &Receiver<Message>, mut to: impl Write) {
    let mut told = DROPPED.get();
    while let Ok(message) = from.recv() {
        let Message::Line(line) = message else { continue };
        if to.write_all(&line).is_err() {
            DROPPED.inc();
        }
        let dropped = DROPPED.get();
        if dropped > told {
            let line =
                format!("{{\"level\":\"WARN\",\"message\":\"lines were dropped\",\"lines\":{}}}\n", dropped - told);
            told = dropped;
            let _ = to.write_all(line.as_bytes());
        }
    }
}

impl Lines {
    /// Has a thread write lines.
    pub fn to(to: impl Write + Send + 'static) -> io::Result<Lines> {
        let (sender, receiver) = sync_channel(MOST_WAITING);
        thread::Builder::new().name("lines".into()).spawn(move || write_all(&receiver, to))?;
        Ok(Lines { to: sender, said: Arc::default() })
    }

    fn put(&self, line: &[u8]) {
        if self.to.try_send(Message::Line(line.into())).is_err() {
            DROPPED.inc();
        }
    }

    /// Whether another line of a place may be said. Errors always may: they are of the node's own, and alarms.
    fn may_say(&self, of: &Metadata<'_>) -> bool {
        let now = Instant::now();
        let mut said = self.said.lock().unwrap_or_else(|told| told.into_inner());
        let second = said.entry(of.callsite()).or_insert(Second { since: now, lines: 0 });
        *of.level() == Level::ERROR || second.note(now)
    }

    /// Waits until all that was said is written, and not longer than a moment.
    pub fn finish(&self) {
        let end = Instant::now() + MOST_ENDING;
        let (mark, written) = sync_channel(1);
        let mut message = Message::Mark(mark);
        while let Err(TrySendError::Full(back)) = self.to.try_send(message) {
            if Instant::now() >= end {
                return;
            }
            message = back;
            thread::sleep(LOOK);
        }
        let _ = written.recv_timeout(end.saturating_duration_since(Instant::now()));
    }
}

/// The writer of one line, or of none.
pub struct Line<'a>(Option<&'a Lines>);

impl Write for Line<'_> {
    fn write(&mut self, bytes: &[u8]) -> io::Result<usize> {
        match self.0 {
            Some(lines) => lines.put(bytes),
            None => DROPPED.inc(),
        }
        Ok(bytes.len())
    }

    fn flush(&mut self) -> io::Result<()> {
        Ok(())
    }
}

impl<'a> MakeWriter<'a> for Lines {
    type Writer = Line<'a>;

    fn make_writer(&'a self) -> Line<'a> {
        Line(Some(self))
    }

    fn make_writer_for(&'a self, of: &Metadata<'_>) -> Line<'a> {
        Line(self.may_say(of).then_some(self))
    }
}

#[cfg(test)]
mod tests {
    use std::os::unix::net::UnixStream;

    use super::*;

    fn with<T>(lines: &Lines, say: impl FnOnce() -> T) -> T {
        tracing::subscriber::with_default(tracing_subscriber::fmt().json().with_writer(lines.clone()).finish(), say)
    }

    #[test]
    fn a_pipe_that_nobody_reads_stops_nobody() {
        let (mut reader, writer) = UnixStream::pair().expect("a pair");
        let lines = Lines::to(writer).expect("a thread");
        let (before, begun) = (DROPPED.get(), Instant::now());
        with(&lines, || (0..20_000).for_each(|number| tracing::error!(number, "a line")));
        lines.finish();
        assert!(begun.elapsed() < Duration::from_secs(10), "{:?}", begun.elapsed());
        assert!(DROPPED.get() > before);
        reader.set_read_timeout(Some(Duration::from_secs(5))).expect("a limit");
        let (mut got, mut room) = (vec![], [0; 65_536]);
        while !String::from_utf8_lossy(&got).contains("lines were dropped") {
            let count = io::Read::read(&mut reader, &mut room).expect("lines");
            got.extend_from_slice(&room[..count]);
        }
        assert!(got.starts_with(b"{"));
    }

    #[test]
    fn what_is_said_is_written_at_the_end() {
        let (reader, writer) = UnixStream::pair().expect("a pair");
        let lines = Lines::to(writer).expect("a thread");
        with(&lines, || tracing::error!("the last"));
        lines.finish();
        reader.set_nonblocking(true).expect("set");
        let mut room = [0; 4096];
        let count = io::Read::read(&mut &reader, &mut room).expect("it is there");
        assert!(String::from_utf8_lossy(&room[..count]).contains("the last"));
    }

    #[test]
    fn one_kind_of_line_does_not_flood() {
        let now = Instant::now();
        let mut second = Second { since: now, lines: 0 };
        let said = |second: &mut Second, at| (0..100).filter(|_| second.note(at)).count() as u32;
        assert_eq!(said(&mut second, now), MOST_EACH_SECOND);
        assert_eq!(said(&mut second, now + SECOND / 2), 0);
        assert_eq!(said(&mut second, now + SECOND), MOST_EACH_SECOND);
    }
}
