//! Messages between machines, over TCP or mutual TLS, and the queue of what goes to a neighbour.
//!
//! A message is its length in four bytes, big-endian, which counts what follows: the kind, one byte, and the body.

use std::collections::VecDeque;
use std::future::Future;
use std::io::{self, ErrorKind};
use std::net::SocketAddr;
use std::sync::{Arc, Mutex, MutexGuard, OnceLock};
use std::time::{Duration, Instant};

use rustls::ServerName;
use socket2::{SockRef, TcpKeepalive};
use tokio::io::{AsyncRead, AsyncReadExt, AsyncWrite, AsyncWriteExt};
use tokio::net::TcpStream;
use tokio::sync::Notify;
use tokio::time::timeout;
use tokio_rustls::TlsAcceptor;

use crate::config::{Id, Key};
use crate::doors::Seldom;
use crate::pins::{Own, Pin};
use crate::End;

/// The kinds of messages: who is there; a frame of a run; a log with the number of its run; the number of a run whose log is
/// durable at the watcher; the number of a run whose log the watcher refuses, and one word that says why.
pub const HELLO: u8 = b'H';
pub const FRAME: u8 = b'F';
pub const LOG: u8 = b'L';
pub const ACKNOWLEDGED: u8 = b'A';
pub const REFUSED: u8 = b'R';
/// Between neighbours: that this end wants receipts, with nothing behind it; a receipt behind the number of its run.
pub const RECEIPTS_WANTED: u8 = b'K';
pub const RECEIPT: u8 = b'T';
/// At the door for devices: which decisions are wanted; a decision; runs of which none can be handed out.
pub const DECISIONS_WANTED: u8 = b'W';
pub const DECISION: u8 = b'D';
pub const MISSING: u8 = b'M';
/// To devices and to neighbours: that the node is there, where nothing else was sent for a while.
pub const PRESENT: u8 = b'P';

/// How long a connection may take to be made, and to say who is there.
pub const MOST_GREETING: Duration = Duration::from_secs(5);
/// How long a message may take from its first byte to its last, read or written.
pub const MOST_MESSAGE: Duration = Duration::from_secs(30);
/// How long what was sent to a watcher may stay without an answer of its machine. A watcher that is busy reads later.
pub const UNANSWERED_BY_WATCHER: Duration = Duration::from_secs(10);
/// Within these it is a round, for a node.
const LEAST_UNANSWERED: Duration = Duration::from_millis(200);
const MOST_UNANSWERED: Duration = Duration::from_secs(2);
/// So many bytes of a message go in one write with its front: the other end wakes once.
const TOGETHER: usize = 64 << 10;
/// After so long without a byte the other end's machine is asked whether it is there.
const SILENT: Duration = Duration::from_secs(5);

/// The message that a connection begins with.
pub trait Greeting: Sized {
    const KIND: u8;
    const BYTES: usize;

    fn read(body: &[u8]) -> Option<Self>;

    /// The system that it is of.
    fn system(&self) -> &Id;

    /// The node that sends it, if a node does.
    fn node(&self) -> Option<u32>;
}

/// The greeting of a node.
#[derive(Debug, Clone, Copy, PartialEq, Eq)]
pub struct Hello {
    pub system: Id,
    pub node: u8,
}

impl Hello {
    pub fn to_bytes(self) -> [u8; Hello::BYTES] {
        let mut bytes = [self.node; Hello::BYTES];
        bytes[..32].copy_from_slice(&self.system);
        bytes
    }
}

impl Greeting for Hello {
    const KIND: u8 = HELLO;
    const BYTES: usize = 33;

    fn read(body: &[u8]) -> Option<Hello> {
        let (system, node) = body.split_first_chunk()?;
        match node {
            &[node] => Some(Hello { system: *system, node }),
            _ => None,
        }
    }

    fn system(&self) -> &Id {
        &self.system
    }

    fn node(&self) -> Option<u32> {
        Some(self.node.into())
    }
}

/// The greeting of a device.
#[derive(Debug, Clone, Copy, PartialEq, Eq)]
pub struct Wanted {
    pub system: Id,
    /// The first run of which it wants the decision, or none for the decisions from now on.
    pub first: Option<u32>,
}

impl Wanted {
    /// What stands in the place of a run for the decisions from now on.
    const NOW: u32 = u32::MAX;
}

impl Greeting for Wanted {
    const KIND: u8 = DECISIONS_WANTED;
    const BYTES: usize = 36;

    fn read(body: &[u8]) -> Option<Wanted> {
        let (system, first) = body.split_first_chunk()?;
        let first = u32::from_be_bytes(first.try_into().ok()?);
        Some(Wanted { system: *system, first: (first != Wanted::NOW).then_some(first) })
    }

    fn system(&self) -> &Id {
        &self.system
    }

    fn node(&self) -> Option<u32> {
        None
    }
}

/// A message that came.
#[derive(Debug, Clone, PartialEq, Eq)]
pub struct Message {
    pub kind: u8,
    pub body: Vec<u8>,
}

/// Does what has to be done within a time.
pub async fn within<T>(most: Duration, what: &str, work: impl Future<Output = io::Result<T>>) -> io::Result<T> {
    timeout(most, work).await.unwrap_or_else(|_| Err(io::Error::new(ErrorKind::TimedOut, what)))
}

/// Reads the next message, whose body has at most so many bytes. `None` if the connection ended before it.
pub async fn read<S: AsyncRead + Unpin + ?Sized>(from: &mut S, most: usize) -> io::Result<Option<Message>> {
    let mut front = [0; 5];
    match from.read_exact(&mut front[..1]).await {
        Err(told) if told.kind() == ErrorKind::UnexpectedEof => return Ok(None),
        told => told.map(|_| ())?,
    }
    let rest = async {
        from.read_exact(&mut front[1..]).await?;
        let length = u32::from_be_bytes([front[0], front[1], front[2], front[3]]) as usize;
        if length == 0 || length - 1 > most {
            return Err(io::Error::new(ErrorKind::InvalidData, format!("a message of {length} bytes")));
        }
        let mut body = vec![0; length - 1];
        from.read_exact(&mut body).await?;
        Ok(Some(Message { kind: front[4], body }))
    };
    within(MOST_MESSAGE, "a message does not end", rest).await
}

/// Writes a message whose body is these parts one behind another.
pub async fn write<S: AsyncWrite + Unpin + ?Sized>(to: &mut S, kind: u8, parts: &[&[u8]]) -> io::Result<()> {
    let length = 1 + parts.iter().map(|part| part.len()).sum::<usize>();
    let length = u32::try_from(length).map_err(|_| io::Error::from(ErrorKind::InvalidInput))?;
    let mut first = Vec::with_capacity(TOGETHER.min(4 + length as usize));
    first.extend(length.to_be_bytes());
    first.push(kind);
    let whole = async {
        for part in parts {
            let (together, rest) = part.split_at(part.len().min(TOGETHER.saturating_sub(first.len())));
            first.extend(together);
            if !rest.is_empty() {
                to.write_all(&std::mem::take(&mut first)).await?;
                to.write_all(rest).await?;
            }
        }
        to.write_all(&first).await?;
        to.flush().await
    };
    within(MOST_MESSAGE, "the other end does not read", whole).await
}

/// Reads the greeting of a connection, of the system with this id.
pub async fn read_greeting<G: Greeting, S: AsyncRead + Unpin + ?Sized>(from: &mut S, system: &Id) -> io::Result<G> {
    let wrong = |what: &str| io::Error::new(ErrorKind::InvalidData, what.to_string());
    let message = read(from, G::BYTES).await?.ok_or_else(|| wrong("no greeting"))?;
    let greeting = G::read(&message.body).filter(|_| message.kind == G::KIND).ok_or_else(|| wrong("no greeting"))?;
    if greeting.system() == system {
        Ok(greeting)
    } else {
        Err(wrong("a greeting of another system"))
    }
}

/// A connection of either kind.
pub trait Connected: AsyncRead + AsyncWrite + Unpin + Send {}
impl<T: AsyncRead + AsyncWrite + Unpin + Send> Connected for T {}
pub type Stream = Box<dyn Connected>;

/// How long what was sent may stay without an answer of the other end's machine, by the length of a round, before the
/// connection is closed.
pub fn most_unanswered(round_ms: u32) -> Duration {
    Duration::from_millis(round_ms.into()).clamp(LEAST_UNANSWERED, MOST_UNANSWERED)
}

/// Sets up a connection: what is sent goes at once, and an end that has vanished is noticed.
pub fn set_up(stream: &TcpStream, most_unanswered: Duration) -> io::Result<()> {
    let socket = SockRef::from(stream);
    socket.set_nodelay(true)?;
    socket.set_tcp_user_timeout(Some(most_unanswered))?;
    socket.set_tcp_keepalive(&TcpKeepalive::new().with_time(SILENT).with_interval(SILENT / 5).with_retries(3))
}

/// Makes and takes connections: plain ones, or by mutual TLS.
#[derive(Clone)]
pub struct Transport {
    own: Option<Arc<Own>>,
}

impl Transport {
    pub fn new(key: Option<&Key>) -> Result<Transport, End> {
        Ok(Transport { own: key.map(|key| Own::read(&key.file)).transpose()?.map(Arc::new) })
    }

    #[cfg(test)]
    pub fn of(own: Arc<Own>) -> Transport {
        Transport { own: Some(own) }
    }

    /// By what others know this end, if connections are not plain.
    pub fn pin(&self) -> Option<Pin> {
        self.own.as_ref().map(|own| own.pin())
    }

    /// Connects to an address, where the key of one of these pins has to be.
    pub async fn connect(&self, address: SocketAddr, pins: &[Pin], most_unanswered: Duration) -> io::Result<Stream> {
        let connecting = async {
            let stream = TcpStream::connect(address).await?;
            set_up(&stream, most_unanswered)?;
            match &self.own {
                Some(own) => {
                    let connector =
                        own.connector(pins).map_err(|told| io::Error::new(ErrorKind::InvalidInput, told))?;
                    let name = ServerName::IpAddress(address.ip());
                    Ok(Box::new(connector.connect(name, stream).await?) as Stream)
                }
                None => Ok(Box::new(stream) as Stream),
            }
        };
        within(MOST_GREETING, "it takes too long to connect", connecting).await
    }

    /// What takes connections of ends that have keys of these pins, if connections are not plain.
    pub fn acceptor(&self, pins: Vec<Pin>) -> Result<Option<TlsAcceptor>, End> {
        self.own.as_ref().map(|own| own.acceptor(pins)).transpose().map_err(End::failed)
    }
}

/// How long to wait before the next try to connect: twice as long each time, up to two seconds. That the other end is away is
/// said once it has been for ten seconds, and then each minute.
pub struct Backoff {
    wait: Duration,
    since: Instant,
    away: Seldom,
}

impl Backoff {
    const FIRST: Duration = Duration::from_millis(50);
    const MOST: Duration = Duration::from_secs(2);
    const AWAY: Duration = Duration::from_secs(10);
    const AWAY_EACH: Duration = Duration::from_secs(60);

    pub fn new() -> Backoff {
        Backoff { wait: Backoff::FIRST, since: Instant::now(), away: Seldom::new(Backoff::AWAY_EACH) }
    }

    /// Notes that a connection, which has ended now, stood for so long. One that ended at once was none.
    pub fn stood(&mut self, long: Duration) {
        if long >= Backoff::MOST {
            self.wait = Backoff::FIRST;
            self.since = Instant::now();
        }
    }

    /// Whether it is to be said that the other end is away, and how often it was not since it was said last.
    pub fn may_say(&self) -> Option<u64> {
        if self.since.elapsed() < Backoff::AWAY {
            return None;
        }
        self.away.may_say()
    }

    pub async fn wait(&mut self) {
        tokio::time::sleep(self.wait).await;
        self.wait = (self.wait * 2).min(Backoff::MOST);
    }
}

/// A frame that goes to a neighbour, and when all of it was handed to the kernel.
pub struct Outgoing {
    pub bytes: Arc<[u8]>,
    handed_over: OnceLock<Instant>,
}

impl Outgoing {
    pub fn new(bytes: Arc<[u8]>) -> Arc<Outgoing> {
        Arc::new(Outgoing { bytes, handed_over: OnceLock::new() })
    }

    /// Notes that the kernel has all of it.
    pub fn is_handed_over(&self) {
        self.handed_over.get_or_init(Instant::now);
    }

    pub fn handed_over(&self) -> Option<Instant> {
        self.handed_over.get().copied()
    }
}

/// What goes to one neighbour: at most so many bytes wait, and the oldest is dropped where there are more.
pub struct Queue {
    waiting: Mutex<(VecDeque<Arc<Outgoing>>, usize)>,
    come: Notify,
    most_bytes: usize,
}

impl Queue {
    pub fn new(most_bytes: usize) -> Queue {
        Queue { waiting: Mutex::default(), come: Notify::new(), most_bytes }
    }

    fn waiting(&self) -> MutexGuard<'_, (VecDeque<Arc<Outgoing>>, usize)> {
        self.waiting.lock().unwrap_or_else(|told| told.into_inner())
    }

    /// Puts a frame behind what waits. Tells how many were dropped.
    pub fn push(&self, frame: Arc<Outgoing>) -> usize {
        let mut waiting = self.waiting();
        let (queue, held) = &mut *waiting;
        *held += frame.bytes.len();
        queue.push_back(frame);
        let mut dropped = 0;
        while *held > self.most_bytes && queue.len() > 1 {
            *held -= queue.pop_front().map_or(0, |oldest| oldest.bytes.len());
            dropped += 1;
        }
        drop(waiting);
        self.come.notify_one();
        dropped
    }

    /// Takes what has waited longest, as soon as something is there.
    pub async fn pop(&self) -> Arc<Outgoing> {
        loop {
            if let Some(frame) = self.take() {
                return frame;
            }
            self.come.notified().await;
        }
    }

    fn take(&self) -> Option<Arc<Outgoing>> {
        let mut waiting = self.waiting();
        let frame = waiting.0.pop_front()?;
        waiting.1 -= frame.bytes.len();
        Some(frame)
    }

    /// Drops all that waits.
    pub fn clear(&self) {
        *self.waiting() = Default::default();
    }
}

#[cfg(test)]
mod tests {
    use super::*;

    fn now<F: std::future::Future>(of: F) -> F::Output {
        tokio::runtime::Builder::new_current_thread().enable_time().build().expect("a runtime").block_on(of)
    }

    #[test]
    fn messages_are_read_as_they_were_written() {
        let mut bytes = vec![];
        now(write(&mut bytes, LOG, &[b"12", b"345"])).expect("written");
        now(write(&mut bytes, HELLO, &[])).expect("written");
        assert_eq!(bytes[..6], [0, 0, 0, 6, b'L', b'1']);
        let mut from = &bytes[..];
        let first = now(read(&mut from, 5)).expect("read").expect("a message");
        assert_eq!(first, Message { kind: LOG, body: b"12345".to_vec() });
        assert_eq!(now(read(&mut from, 5)).expect("read"), Some(Message { kind: HELLO, body: vec![] }));
        assert_eq!(now(read(&mut from, 5)).expect("read"), None);
    }

    #[test]
    fn long_messages_are_whole() {
        for lengths in [vec![0], vec![TOGETHER - 5], vec![TOGETHER - 4], vec![3, TOGETHER, 5, 0], vec![9 * TOGETHER]] {
            let parts: Vec<Vec<u8>> = lengths.iter().zip(1..).map(|(&length, byte)| vec![byte; length]).collect();
            let (mut bytes, all): (Vec<u8>, Vec<&[u8]>) = (vec![], parts.iter().map(|part| &part[..]).collect());
            now(write(&mut bytes, LOG, &all)).expect("written");
            let message = now(read(&mut &bytes[..], 9 * TOGETHER)).expect("read").expect("a message");
            assert_eq!((message.kind, message.body == parts.concat()), (LOG, true), "{lengths:?}");
        }
    }

    #[test]
    fn messages_that_are_wrong_are_refused() {
        for bytes in [&b"\0\0\0\0L"[..], b"\0\0\0\x07L123456", b"\xff\xff\xff\xffL", b"\0\0\0\x05L12", b"\0\0"] {
            assert!(now(read(&mut &bytes[..], 5)).is_err(), "{bytes:?}");
        }
    }

    #[test]
    fn a_hello_is_of_the_system() {
        let hello = Hello { system: [7; 32], node: 3 };
        assert_eq!(Hello::read(&hello.to_bytes()), Some(hello));
        assert_eq!(Hello::read(&hello.to_bytes()[..32]), None);
        assert_eq!(Hello::read(&[0; 34]), None);
        let mut bytes = vec![];
        now(write(&mut bytes, HELLO, &[&hello.to_bytes()])).expect("written");
        assert_eq!(now(read_greeting::<Hello, _>(&mut &bytes[..], &[7; 32])).expect("a hello"), hello);
        assert!(now(read_greeting::<Hello, _>(&mut &bytes[..], &[8; 32])).is_err());
    }

    #[test]
    fn a_device_says_what_it_wants() {
        let body = |first: u32| [&[7; 32][..], &first.to_be_bytes()].concat();
        for (first, wanted) in [(0, Some(0)), (7, Some(7)), (u32::MAX - 1, Some(u32::MAX - 1)), (u32::MAX, None)] {
            assert_eq!(Wanted::read(&body(first)), Some(Wanted { system: [7; 32], first: wanted }));
        }
        assert_eq!((Wanted::read(&body(7)[..35]), Wanted::read(&[0; 37])), (None, None));
        let mut bytes = vec![];
        now(write(&mut bytes, DECISIONS_WANTED, &[&body(7)])).expect("written");
        assert!(now(read_greeting::<Wanted, _>(&mut &bytes[..], &[7; 32])).is_ok());
        assert!(now(read_greeting::<Wanted, _>(&mut &bytes[..], &[8; 32])).is_err());
        assert!(now(read_greeting::<Hello, _>(&mut &bytes[..], &[7; 32])).is_err(), "no node's");
    }

    #[test]
    fn a_connection_that_ends_at_once_is_none() {
        let mut backoff = Backoff::new();
        backoff.wait = Backoff::MOST;
        backoff.stood(Duration::from_millis(10));
        assert_eq!(backoff.wait, Backoff::MOST);
        backoff.stood(Backoff::MOST);
        assert_eq!((backoff.wait, backoff.may_say()), (Backoff::FIRST, None));
    }

    #[test]
    fn a_queue_drops_the_oldest() {
        let queue = Queue::new(10);
        let of = |byte: u8| Outgoing::new(vec![byte; 4].into());
        assert_eq!([1, 2, 3, 4].map(|byte| queue.push(of(byte))), [0, 0, 1, 1]);
        assert_eq!([now(queue.pop()).bytes[0], now(queue.pop()).bytes[0]], [3, 4]);
        assert_eq!(queue.push(Outgoing::new(vec![0; 99].into())), 0);
        assert_eq!(queue.push(of(5)), 1);
        queue.clear();
        assert!(queue.take().is_none());
    }
}
