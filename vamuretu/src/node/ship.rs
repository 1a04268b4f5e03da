//! Hands the logs of the spool to the watchers.

use std::collections::VecDeque;
use std::io;
use std::sync::Arc;
use std::time::{Duration, Instant};

use tokio::io::{ReadHalf, WriteHalf};
use tokio::time::timeout;

use super::spool::Spool;
use super::Shared;
use crate::config::Watcher;
use crate::frames::{self, Backoff, Hello, Message, Stream, Transport};

/// How many logs go out before an answer to the first has come, and how long one may take.
const MOST_UNANSWERED: usize = 16;
const MOST_ANSWER: Duration = Duration::from_secs(30);
/// The bytes of the number of a run in an answer, and of a word that says why a log is refused.
const NUMBER: usize = 4;
const MOST_WORD: usize = 32;

/// Sends a watcher all logs that it has not acknowledged, for ever.
pub async fn ship(shared: Arc<Shared>, transport: Transport, place: usize, watcher: Watcher) {
    let mut backoff = Backoff::new();
    loop {
        let connecting = async {
            let most_unanswered = frames::UNANSWERED_BY_WATCHER;
            let mut stream = transport.connect(watcher.address, &watcher.keys, most_unanswered).await?;
            let hello = Hello { system: shared.file.system.id, node: shared.file.node.number as u8 };
            frames::write(&mut stream, frames::HELLO, &[&hello.to_bytes()]).await?;
            io::Result::Ok(stream)
        };
        let ended = match connecting.await {
            Ok(stream) => {
                let since = Instant::now();
                let ended = serve(&shared.spool, place, stream).await;
                // A watcher that does not take the key ends a connection that was made.
                backoff.stood(since.elapsed());
                ended
            }
            Err(told) => Err(told),
        };
        if let (Err(told), Some(unsaid)) = (ended, backoff.may_say()) {
            tracing::warn!(watcher = %watcher.address, %told, unsaid, "no watcher");
        }
        backoff.wait().await;
    }
}

/// Sends logs until the connection ends. The log for which the watcher owed an answer then lets others go first: a watcher
/// that ends the connection in place of an answer, again and again, gets them all the same.
pub async fn serve(spool: &Spool, place: usize, stream: Stream) -> io::Result<()> {
    let mut shipping = Shipping { spool, place, unanswered: VecDeque::new() };
    let ended = shipping.go_on(tokio::io::split(stream)).await;
    if let Some(&run) = shipping.unanswered.front() {
        spool.set_back(place, run);
    }
    ended
}

/// One connection to a watcher.
struct Shipping<'a> {
    spool: &'a Spool,
    place: usize,
    /// The runs whose logs were sent and not answered, in this order.
    unanswered: VecDeque<u32>,
}

impl Shipping<'_> {
    /// Sends logs, some before the answers to those before them.
    async fn go_on(&mut self, (mut from, mut to): (ReadHalf<Stream>, WriteHalf<Stream>)) -> io::Result<()> {
        let spool = self.spool;
        loop {
            let come = spool.come();
            for run in spool.wanted_by(self.place, &self.unanswered, MOST_UNANSWERED - self.unanswered.len()) {
                self.send(run, &mut to).await?;
            }
            if self.unanswered.is_empty() {
                // A connection that the watcher has ended is seen here too.
                tokio::select! {
                    () = come => {}
                    () = wait_until(spool.next_try(self.place)) => {}
                    told = frames::read(&mut from, NUMBER + MOST_WORD) => self.take(told?)?,
                }
                continue;
            }
            let message = timeout(MOST_ANSWER, frames::read(&mut from, NUMBER + MOST_WORD)).await;
            self.take(message.map_err(|_| io::Error::new(io::ErrorKind::TimedOut, "no answer comes"))??)?;
        }
    }

    /// Sends a log, unless the disk does not give it.
    async fn send(&mut self, run: u32, to: &mut WriteHalf<Stream>) -> io::Result<()> {
        let log = match self.spool.read(run).await {
            Ok(log) => log,
            Err(told) => {
                self.spool.fail(self.place, run, &told.to_string());
                return Ok(());
            }
        };
        self.unanswered.push_back(run);
        let written = timeout(MOST_ANSWER, frames::write(to, frames::LOG, &[&run.to_be_bytes(), &log])).await;
        written.map_err(|_| io::Error::new(io::ErrorKind::TimedOut, "the watcher does not read"))?
    }

    /// Takes an answer to a log that was sent.
    fn take(&mut self, message: Option<Message>) -> io::Result<()> {
        let message = message.ok_or_else(|| io::Error::from(io::ErrorKind::UnexpectedEof))?;
        let wrong = || io::Error::new(io::ErrorKind::InvalidData, "no answer to a log");
        let (number, word) = message.body.split_first_chunk::<NUMBER>().ok_or_else(wrong)?;
        let run = u32::from_be_bytes(*number);
        let at = self.unanswered.iter().position(|&it| it == run).ok_or_else(wrong)?;
        match message.kind {
            frames::ACKNOWLEDGED if word.is_empty() => self.spool.acknowledge(self.place, run),
            frames::REFUSED if word.iter().all(u8::is_ascii_graphic) => {
                self.spool.fail(self.place, run, &String::from_utf8_lossy(word));
            }
            _ => return Err(wrong()),
        }
        self.unanswered.remove(at);
        Ok(())
    }
}

/// Waits until a moment, or for ever.
async fn wait_until(moment: Option<Instant>) {
    match moment {
        Some(moment) => tokio::time::sleep_until(moment.into()).await,
        None => std::future::pending().await,
    }
}
