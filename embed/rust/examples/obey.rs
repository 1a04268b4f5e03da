//! A device: it opens a valve if and only if more than m nodes of a system show the value (order) that opens it, in a new run.
//!
//!     obey FILE SYSTEM START PERIOD ORDER ADDRESS..
//!
//! It does what `examples/device/valve.c` does, and the words are those of `valve.c`. Connections are plain.
use std::fs::{File, OpenOptions};
use std::io::{self, Error, ErrorKind, Read, Write};
use std::net::{SocketAddr, TcpStream};
use std::os::unix::fs::FileExt;
use std::sync::mpsc::{channel, Receiver, RecvTimeoutError, Sender};
use std::time::{Duration, Instant, SystemTime, UNIX_EPOCH};
use std::{env, thread};

use vamuretu::{Device, NotObeyed, SystemId, Timetable};

/// After so many periods without a decision the valve closes, and without a message a node is left. So many decisions
/// running that are not obeyed are borne, and so many periods without one that is.
const CLOSES: u32 = 3;
const SILENT: u32 = 2;
const BORNE: u32 = 3;
const NOTHING_NEW: u32 = 5;
/// The most bytes of a message, and those of a decision before its admission.
const MOST_BYTES: usize = 12 * 1024 + 16 * 18_000;
const FRONT: usize = 1 + 4 + 1 + 1 + 4;

/// What the words say.
struct Asked {
    file: String,
    system: SystemId,
    timetable: Timetable,
    order: u32,
    addresses: Vec<SocketAddr>,
}

impl Asked {
    fn read(words: &[String]) -> Option<Asked> {
        let [file, system, start, period, order, addresses @ ..] = words else { return None };
        let pairs = system.as_bytes().chunks_exact(2).map(|pair| std::str::from_utf8(pair).ok());
        let bytes: Option<Vec<u8>> = pairs.map(|pair| u8::from_str_radix(pair?, 16).ok()).collect();
        let system = if system.len() == 64 { bytes?.try_into().ok()? } else { return None };
        let timetable = Timetable { start: start.parse().ok()?, period: period.parse().ok()? };
        let addresses: Vec<_> = addresses.iter().map(|it| it.parse().ok()).collect::<Option<_>>()?;
        let asked = Asked { file: file.clone(), system, timetable, order: order.parse().ok()?, addresses };
        (asked.timetable.period > 0 && !asked.addresses.is_empty()).then_some(asked)
    }

    fn periods(&self, count: u32) -> Duration {
        Duration::from_millis(self.timetable.period) * count
    }
}

/// Sets the file that stands for the valve to what is told. If nothing is told for too long it closes.
fn set_valve(file: &File, told: &Receiver<bool>, patience: Duration) -> io::Result<()> {
    let mut is_open = false;
    loop {
        file.write_all_at(if is_open { b"open  \n" } else { b"closed\n" }, 0)?;
        is_open = match told.recv_timeout(patience) {
            Ok(is_open) => is_open,
            Err(RecvTimeoutError::Timeout) => false,
            Err(RecvTimeoutError::Disconnected) => return Ok(()),
        }
    }
}

fn left(why: &str) -> Error {
    Error::new(ErrorKind::Other, why.to_owned())
}

/// Fills the room by bytes that have to be there by a moment.
fn read_until(stream: &mut TcpStream, room: &mut [u8], until: Instant) -> io::Result<()> {
    let mut done = 0;
    while done < room.len() {
        let patience = until.saturating_duration_since(Instant::now()).max(Duration::from_millis(1));
        stream.set_read_timeout(Some(patience))?;
        match stream.read(&mut room[done..])? {
            0 => return Err(left("the end of the connection")),
            more => done += more,
        }
    }
    Ok(())
}

/// The next message of a node.
fn message(stream: &mut TcpStream, until: Instant) -> io::Result<Vec<u8>> {
    let mut length = [0; 4];
    read_until(stream, &mut length, until)?;
    let length = u32::from_be_bytes(length) as usize;
    if !(1..=MOST_BYTES).contains(&length) {
        return Err(left("a message of so many bytes"));
    }
    let mut room = vec![0; length];
    read_until(stream, &mut room, until).map(|()| room)
}

fn number_at(bytes: &[u8]) -> u32 {
    bytes[..4].iter().fold(0, |number, &byte| number << 8 | u32::from(byte))
}

/// The value (order) of a decision, if it is obeyed.
fn order_of(device: &mut Device, decision: &[u8]) -> io::Result<Result<u32, NotObeyed>> {
    if decision.len() < FRONT {
        return Err(left("a decision that is cut off"));
    }
    let (run, shown) = (number_at(&decision[1..]), &decision[FRONT..]);
    let (admission, receipts) = shown.split_at(shown.len().min(number_at(&decision[FRONT - 4..]) as usize));
    let now = SystemTime::now().duration_since(UNIX_EPOCH).map_err(|_| left("a clock before 1970"))?;
    Ok(device.obey(run, admission, receipts, now.as_millis() as i64))
}

/// Obeys what a node shows, until there is a reason to leave it.
fn follow(asked: &Asked, device: &mut Device, valve: &Sender<bool>, address: &SocketAddr) -> io::Result<()> {
    let mut stream = TcpStream::connect_timeout(address, asked.periods(SILENT))?;
    stream.write_all(&[&[0, 0, 0, 37, b'W'], &asked.system[..], &[0xff; 4]].concat())?;
    let (mut borne, mut good) = (0, Instant::now());
    loop {
        let message = message(&mut stream, Instant::now() + asked.periods(SILENT))?;
        if message[0] == b'D' {
            match order_of(device, &message)? {
                Ok(order) => {
                    valve.send(order == asked.order).map_err(|_| left("the valve cannot be set"))?;
                    (borne, good) = (0, Instant::now());
                }
                Err(told) => {
                    borne += 1;
                    eprintln!("a decision is not obeyed: {told}");
                }
            }
        }
        if borne == BORNE || good.elapsed() > asked.periods(NOTHING_NEW) {
            return Err(left("nothing that is obeyed"));
        }
    }
}

fn main() -> Result<(), Box<dyn std::error::Error>> {
    let words: Vec<String> = env::args().skip(1).collect();
    let asked = Asked::read(&words).ok_or("obey FILE SYSTEM START PERIOD ORDER ADDRESS..")?;
    let file = OpenOptions::new().write(true).create(true).truncate(true).open(&asked.file)?;
    let (valve, told) = channel();
    let patience = asked.periods(CLOSES);
    let sets = thread::spawn(move || set_valve(&file, &told, patience));
    let mut device = Device::new(asked.system, asked.timetable);
    for address in asked.addresses.iter().cycle().take_while(|_| !sets.is_finished()) {
        if let Err(why) = follow(&asked, &mut device, &valve, address) {
            eprintln!("{address} is left: {why}");
        }
        thread::sleep(asked.periods(1) / 8);
    }
    Err("the valve cannot be set".into())
}
