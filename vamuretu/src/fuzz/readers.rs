//! The readers, each with true inputs.

use std::cell::RefCell;
use std::ffi::OsStr;
use std::future::Future;
use std::net::Ipv4Addr;
use std::os::unix::ffi::OsStrExt;
use std::path::{Path, PathBuf};
use std::sync::atomic::{AtomicU64, Ordering};
use std::sync::Arc;
use std::time::Duration;
use std::{fs, thread};

use clap::Parser;
use rusqlite::Connection;
use tokio::io::{AsyncReadExt, AsyncWriteExt};
use tokio::runtime::{Builder, Runtime};
use vamuretu::FrameHead;

use super::Reader;
use crate::archive::files::{self, Names};
use crate::archive::read::{self, Question, Range};
use crate::archive::room::Rooms;
use crate::config::{self, NodeFile, WatchFile};
use crate::frames::{self, Greeting, Hello, Wanted};
use crate::node::counts::Counts;
use crate::node::spool::Spool;
use crate::node::{self, local, ship};
use crate::pins::{self, Own};
use crate::roots::Roots;
use crate::watch::{index, judge};
use crate::{metrics, report};

pub const READERS: &[Reader] = &[
    Reader {
        name: "messages",
        inputs: || vec![messages_of(&[(b'H', &[7; 33]), (b'F', b"SMF1"), (b'A', &[0; 4])])],
        read: messages,
    },
    Reader { name: "hellos", inputs: || vec![hello_message(), [5; 33].into()], read: hellos },
    Reader { name: "greetings of devices", inputs: || vec![device_message()], read: devices },
    Reader { name: "heads of frames", inputs: || vec![[b"SMF1", &[3; 37][..], &[0; 9]].concat()], read: heads },
    Reader { name: "lines of applications", inputs: lines, read: line },
    Reader {
        name: "requests for metrics",
        inputs: || vec![b"GET /metrics HTTP/1.1\r\nHost: x\r\n\r\n".into()],
        read: requests,
    },
    Reader {
        name: "configuration of a node",
        inputs: || vec![filled(NODE).into()],
        read: |bytes| configuration::<NodeFile>(bytes),
    },
    Reader {
        name: "configuration of a watcher",
        inputs: || vec![filled(WATCH).into()],
        read: |bytes| configuration::<WatchFile>(bytes),
    },
    Reader { name: "keys", inputs: || vec![KEY.with(|key| key.0.clone())], read: keys },
    Reader { name: "handshakes", inputs: || vec![begun_handshake()], read: handshake },
    Reader {
        name: "names of nodes",
        inputs: || vec![b"2 = \"Pump house\"\n14 = \"Gate\"\n".into()],
        read: names_of_nodes,
    },
    Reader { name: "a spool and the answers of a watcher", inputs: || vec![spool_input()], read: spool },
    Reader { name: "marks", inputs: || vec![MARK.into(), MARK.replace("17", "none").into()], read: marks },
    Reader { name: "roots", inputs: || vec![roots_of(0), roots_of(3), roots_of(9)], read: roots },
    Reader { name: "packed logs", inputs: packs, read: packed },
    Reader { name: "lists of files", inputs: lists, read: listed },
    Reader { name: "files of archives", inputs: packs, read: stored },
    Reader { name: "an index", inputs: || vec![indexed()], read: of_index },
    Reader { name: "values of an index", inputs: || vec![(0..60).collect()], read: values },
];

const NODE: &str = include_str!("../../../examples/four/node.toml");
const WATCH: &str = include_str!("../../../examples/four/watch.toml");
const MARK: &str = "newest run 17\nsystem 5e5e5e5e5e5e5e5e5e5e5e5e5e5e5e5e5e5e5e5e5e5e5e5e5e5e5e5e5e5e5e5e\n";
/// The most bytes of a message, and of what a packed log has.
const MOST: usize = 1 << 16;

/// Waits for a future on this thread.
fn wait<T>(of: impl Future<Output = T>) -> T {
    thread_local!(static RUNTIME: RefCell<Runtime> =
        RefCell::new(Builder::new_current_thread().enable_all().build().expect("a runtime")));
    RUNTIME.with(|runtime| runtime.borrow().block_on(of))
}

/// A new folder, in memory where that is possible.
fn folder() -> PathBuf {
    static COUNT: AtomicU64 = AtomicU64::new(0);
    let above = Some(PathBuf::from("/dev/shm")).filter(|it| it.is_dir()).unwrap_or_else(std::env::temp_dir);
    let count = COUNT.fetch_add(1, Ordering::Relaxed);
    let folder = above.join(format!("vamuretu.{}.{count}.bent", std::process::id()));
    fs::create_dir_all(&folder).expect("a folder");
    folder
}

/// Takes a folder away, to which a thread of a reader that has ended may write for a moment.
fn remove(folder: &Path) {
    let is_gone = || fs::remove_dir_all(folder).is_ok();
    assert!(
        (0..5000).any(|_| is_gone() || {
            thread::sleep(Duration::from_millis(1));
            false
        }),
        "a folder stays"
    );
}

/// A file of this process with these bytes, for a call.
fn with_file<T>(name: &str, bytes: &[u8], call: impl FnOnce(&Path) -> T) -> T {
    let folder = folder();
    let path = folder.join(name);
    fs::write(&path, bytes).expect("a disk");
    let told = call(&path);
    remove(&folder);
    told
}

fn messages_of(all: &[(u8, &[u8])]) -> Vec<u8> {
    let mut written = vec![];
    all.iter().for_each(|&(kind, body)| wait(frames::write(&mut written, kind, &[body])).expect("memory"));
    written
}

fn hello_message() -> Vec<u8> {
    messages_of(&[(frames::HELLO, &Hello { system: [5; 32], node: 3 }.to_bytes())])
}

/// Each message is written as it was read.
fn messages(bytes: &[u8]) {
    let mut rest = bytes;
    loop {
        let before = rest;
        let Ok(Some(message)) = wait(frames::read(&mut rest, MOST)) else { return };
        assert!(message.body.len() <= MOST);
        assert_eq!(messages_of(&[(message.kind, &message.body)]), before[..before.len() - rest.len()]);
    }
}

fn hellos(bytes: &[u8]) {
    let mut rest = bytes;
    let _ = wait(frames::read_greeting::<Hello, _>(&mut rest, &[5; 32]));
    if let Some(hello) = Hello::read(bytes) {
        assert_eq!(hello.to_bytes(), bytes);
    }
}

fn device_message() -> Vec<u8> {
    messages_of(&[(frames::DECISIONS_WANTED, &[&[5; 32][..], &[0, 0, 0, 7]].concat())])
}

fn devices(bytes: &[u8]) {
    let mut rest = bytes;
    let wanted = wait(frames::read_greeting::<Wanted, _>(&mut rest, &[5; 32]));
    assert!(wanted.map_or(true, |it| it.first != Some(u32::MAX)));
}

fn heads(bytes: &[u8]) {
    let _ = FrameHead::read(bytes);
}

fn lines() -> Vec<Vec<u8>> {
    let all = ["\"status\"", "\"drain\"", "\"decisions\"", "\"propose\",\"value\":{\"name\":\"close\"},\"run\":7"];
    all.map(|it| format!("{{\"ask\":{it}}}\n").into()).into()
}

fn line(bytes: &[u8]) {
    let _ = serde_json::from_slice::<local::Request>(bytes);
}

/// The answer has an end, whatever is asked.
fn requests(bytes: &[u8]) {
    let registry = prometheus::Registry::new();
    let answered = wait(async {
        let (mut own, other) = tokio::io::duplex(1 << 17);
        own.write_all(bytes).await?;
        own.shutdown().await?;
        let _ = metrics::answer(other, &registry).await;
        let mut answer = vec![];
        own.read_to_end(&mut answer).await.map(|_| answer)
    });
    assert!(answered.map_or(true, |it| it.len() < 1 << 16));
}

thread_local!(static KEY: (Vec<u8>, Arc<Own>) = {
    let text: Vec<u8> = pins::new_file().expect("random bytes").into();
    let own = with_file("key", &text, Own::read).unwrap_or_else(|end| panic!("{end}"));
    (text, Arc::new(own))
});

fn keys(bytes: &[u8]) {
    let _ = with_file("key", bytes, Own::read).map(|own| own.pin());
}

/// What an end that connects says first.
fn begun_handshake() -> Vec<u8> {
    KEY.with(|(_, own)| {
        let connector = own.connector(&[own.pin()]).expect("a key");
        let name = rustls::ServerName::IpAddress(Ipv4Addr::LOCALHOST.into());
        wait(async {
            let ((here, mut there), mut said) = (tokio::io::duplex(1 << 16), vec![0; 1 << 14]);
            let read = tokio::select! { biased; _ = connector.connect(name, here) => Ok(0), read = there.read(&mut said) => read };
            said.truncate(read.expect("memory"));
            said
        })
    })
}

fn handshake(bytes: &[u8]) {
    KEY.with(|(_, own)| {
        let acceptor = own.acceptor(vec![own.pin()]).expect("a key");
        wait(async {
            let (mut here, there) = tokio::io::duplex(1 << 17);
            let said = async { here.write_all(bytes).await.and(here.shutdown().await) };
            assert!(tokio::join!(said, acceptor.accept(there)).1.is_err(), "nobody has shown a key");
        });
    });
}

fn configuration<T: config::File>(bytes: &[u8]) {
    if let Ok(text) = std::str::from_utf8(bytes) {
        let _ = config::read_text::<T>(Path::new("/etc/vamuretu/x.toml"), text);
    }
}

/// An example's configuration with the number of the node and pins.
fn filled(text: &str) -> String {
    let pin =
        |text: String, (digit, key): (usize, char)| text.replace(&format!("KEY-{key}"), &digit.to_string().repeat(64));
    "0123W".chars().enumerate().fold(text.replace("NODE", "2"), pin)
}

/// Names of the files of a spool, and behind an empty line what a watcher answers.
fn spool_input() -> Vec<u8> {
    let answers = messages_of(&[(frames::ACKNOWLEDGED, &3_u32.to_be_bytes()), (frames::REFUSED, b"\0\0\0\x05bytes")]);
    let names =
        ["0000000003.log.zst", "0000000004.log.zst", "0000000005.log.zst", "7.log.zst", "0000000009.log.zst.new"];
    [names.join("\n").as_bytes(), b"\n\n", &answers].concat()
}

/// Opens a spool whose folders have files of these names, and hands its logs to a watcher that answers so.
fn spool(bytes: &[u8]) {
    let folder = folder();
    let file: NodeFile = config::read_text(&folder.join("x.toml"), &filled(NODE)).unwrap_or_else(|end| panic!("{end}"));
    let open = || Spool::open(&file, Counts::new(file.clock.round_ms));
    drop(open().unwrap_or_else(|end| panic!("{end}")));
    let end = bytes.windows(2).position(|it| it == b"\n\n").unwrap_or(bytes.len());
    for (place, name) in bytes[..end].split(|&it| it == b'\n').take(16).enumerate() {
        let below = file.node.spool.join(["waiting", "acknowledged"][usize::from(place % 4 == 3)]);
        let name: Vec<u8> = name.iter().map(|&it| if b"/\0".contains(&it) { b'_' } else { it }).collect();
        // The name may be too long, or a folder's.
        let _ = fs::write(below.join(OsStr::from_bytes(&name)), &name);
    }
    if let Ok(spool) = open() {
        let answers = bytes.get(end + 2..).unwrap_or_default();
        wait(async {
            let (here, there) = tokio::io::duplex(1 << 17);
            let (mut from, mut to) = tokio::io::split(here);
            let mut sent = vec![];
            let said = async { to.write_all(answers).await.and(to.shutdown().await) };
            let _ = tokio::join!(said, from.read_to_end(&mut sent), ship::serve(&spool, 0, Box::new(there)));
        });
    }
    remove(&folder);
}

fn names_of_nodes(bytes: &[u8]) {
    with_file("names", bytes, |path| drop(report::Names::read(path)));
}

fn marks(bytes: &[u8]) {
    if let Ok(text) = std::str::from_utf8(bytes) {
        if let Some(mark) = node::keys::read_mark(text, &[0x5e; 32]) {
            assert_eq!(node::keys::mark_text(mark, &[0x5e; 32]), text);
        }
    }
}

fn roots_of(levels: u8) -> Vec<u8> {
    [b"SMI2", &[levels][..], &vec![7; 32 << levels]].concat()
}

fn roots(bytes: &[u8]) {
    let told = with_file("roots", bytes, Roots::open);
    if let Ok(roots) = told {
        let sets = 1_u32 << roots.levels;
        for set in [0, sets / 2, sets - 1] {
            assert_eq!(roots.opening(set).expect("a whole file").siblings.len(), roots.levels as usize);
        }
    }
}

fn packs() -> Vec<Vec<u8>> {
    let long: Vec<u8> = (0..3000_u32).flat_map(u32::to_be_bytes).collect();
    let unsaid = zstd::encode_all(&long[..], 3).expect("memory");
    vec![judge::pack(&[0; 3000]).expect("memory"), judge::pack(&long).expect("memory"), unsaid]
}

fn packed(bytes: &[u8]) {
    let _ = judge::unpack(bytes, MOST).map(|it| assert!(it.len() <= MOST));
}

fn stored(bytes: &[u8]) {
    for name in ["a.bundle", "a.bundle.zst"] {
        let _ =
            with_file(name, bytes, |path| files::read(path, &Rooms::default()).map(|it| it.input.map(|it| it.len())));
    }
}

fn lists() -> Vec<Vec<u8>> {
    let json = "{\"input\":{\"name\":\"/none/d\"}}\n{\"path\":\"?\",\"path_hex\":\"2f6e6f6e65\"}\n\"/none/c\"\n";
    vec![b"/none/a\n/none/b c\n".into(), b"/none/a\0/none/b\0".into(), json.into()]
}

/// No name is looked for: a bent one may be that of a folder of this machine.
fn listed(bytes: &[u8]) {
    for names in [Names::Lines, Names::Nulls, Names::Json] {
        let end = if names == Names::Nulls { 0 } else { b'\n' };
        for name in bytes.split(|it| *it == end) {
            let _ = files::path_of(names, name.to_vec());
        }
    }
}

/// What a row of any table has in a column, by its name or else by its kind.
fn value_of(column: &str, kind: &str, number: u32) -> String {
    let digest = format!("{number:x}").repeat(64);
    match column {
        "run_id" | "sha256" | "input" | "root" | "program" => format!("'{digest}'"),
        "source" => "'watcher'".into(),
        "holds" => "'runs'".into(),
        "verdict" => "'no'".into(),
        "assumed_faulty" | "missing" | "suspected" => format!("'[{}]'", number % 4),
        "others" => "'[[0],[2]]'".into(),
        "nodes" if kind == "TEXT" => "'[0,1,2,3]'".into(),
        "equal_roots" => "'[[0,1]]'".into(),
        "findings" => "'[\"N8 from 0 to 2 round 1 order 1\"]'".into(),
        "path" | "evidence" => format!("'0000000/{number}.bundle.zst'"),
        "kind" => "'K2'".into(),
        "fault" | "told" => "NULL".into(),
        "node" | "decided" | "gone" => "0".into(),
        _ if kind == "TEXT" => "'{}'".into(),
        _ => number.to_string(),
    }
}

/// The columns of all tables of an index: the table, the name and the kind.
fn columns(database: &Connection) -> Vec<[String; 3]> {
    let order =
        "SELECT m.name, p.name, p.type FROM sqlite_schema m JOIN pragma_table_info(m.name) p WHERE m.type = 'table'";
    let mut asked = database.prepare(order).expect("a schema");
    let rows = asked.query_map([], |row| Ok([row.get(0)?, row.get(1)?, row.get(2)?])).expect("a schema");
    rows.flatten().collect()
}

/// An index in which each table has two rows.
fn indexed() -> Vec<u8> {
    let folder = folder();
    let path = folder.join("index");
    drop(index::Index::open(&path, &"5e".repeat(32), 4).expect("an index"));
    let database = Connection::open(&path).expect("an index");
    let columns = columns(&database);
    for of in columns.chunk_by(|one, next| one[0] == next[0]).filter(|of| of[0][0] != "system") {
        for number in [3, 5] {
            let row: Vec<String> = of.iter().map(|[_, column, kind]| value_of(column, kind, number)).collect();
            database.execute(&format!("INSERT INTO {} VALUES ({})", of[0][0], row.join(", ")), []).expect("a row");
        }
    }
    database.execute_batch("PRAGMA journal_mode = DELETE; VACUUM").expect("a disk");
    drop(database);
    let bytes = fs::read(&path).expect("an index");
    remove(&folder);
    bytes
}

/// The words of a report.
#[derive(Parser)]
struct Words {
    #[command(flatten)]
    report: report::Report,
}

/// Asks an index all that can be asked.
fn ask_all(path: &Path) {
    let _ = index::status(path);
    let Ok(reader) = read::Reader::open(path) else { return };
    let questions = [Question::Gaps, Question::Convictions, Question::Doubles, Question::Unknown, Question::EqualRoots];
    for question in questions.into_iter().chain([Question::Changed, Question::Verdicts, Question::Faults]) {
        let found = reader.ask(question, Range::default());
        found.iter().flatten().for_each(|it| assert!(!it.line().contains('\n') && it.json().is_object()));
    }
    // Whoever writes to an index waits for those who read it.
    drop(reader);
    let out = path.with_extension("html");
    let words = [OsStr::new("report"), path.as_os_str(), OsStr::new("--out"), out.as_os_str()];
    let _ = report::write(&Words::parse_from(words).report);
    let _ = index::Index::open(path, &"5e".repeat(32), 4).map(|index| {
        let _ = (
            index.begun(),
            index.judged(0),
            index.untold(9),
            index.replaced(9),
            index.run(3),
            index.changes(3),
            index.as_change(3),
            index.waiting(3),
        );
    });
}

fn of_index(bytes: &[u8]) {
    with_file("index", bytes, ask_all);
}

/// Values that a stranger's index may have anywhere.
const VALUES: &str =
    "0|-1|4294967295|4194303|4294967296|9223372036854775807|-9223372036854775808|1.5|NULL|''|x'ff00'|'[4294967295]'|\
    '[[0],[1],[[2]]]'|'0; touch pwned #'|char(8238, 10, 27)|'gap'|'agreed'|'K9'|zeroblob(100000)";

/// Puts values into an index that a stranger may have made: of each three bytes the first names a column, the second a row, and
/// the third a value.
fn values(bytes: &[u8]) {
    thread_local!(static TRUE: Vec<u8> = indexed());
    let orders: Vec<&str> = VALUES.split('|').collect();
    let put = |database: &Connection| {
        let columns = columns(database);
        for of in bytes.chunks_exact(3).take(20) {
            let [table, column, _] = &columns[usize::from(of[0]) % columns.len()];
            let order = orders[usize::from(of[2]) % orders.len()];
            let first = format!("\"{column}\" IN (SELECT \"{column}\" FROM {table} LIMIT 1)");
            let row = if of[1] % 3 == 0 { "1" } else { &first };
            let _ = database.execute(&format!("UPDATE OR IGNORE {table} SET \"{column}\" = {order} WHERE {row}"), []);
        }
    };
    TRUE.with(|index| {
        with_file("index", index, |path| {
            let database = Connection::open(path).expect("an index");
            let ways = "PRAGMA ignore_check_constraints = ON; PRAGMA synchronous = OFF; PRAGMA journal_mode = MEMORY";
            database.execute_batch(ways).expect("an index");
            put(&database);
            drop(database);
            ask_all(path);
        });
    });
}

#[cfg(test)]
mod tests {
    use super::*;

    #[test]
    fn true_inputs_are_taken() {
        let path = Path::new("/etc/vamuretu/x.toml");
        assert!(config::read_text::<NodeFile>(path, &filled(NODE)).is_ok());
        assert!(config::read_text::<WatchFile>(path, &filled(WATCH)).is_ok());
        assert!(lines().iter().all(|line| serde_json::from_slice::<local::Request>(line).is_ok()));
        assert_eq!(node::keys::read_mark(MARK, &[0x5e; 32]), Some(Some(17)));
        with_file("index", &indexed(), |path| {
            let reader = read::Reader::open(path).unwrap_or_else(|end| panic!("{end}"));
            assert_eq!(reader.ask(Question::Convictions, Range::default()).map(|it| it.len()), Ok(2));
        });
    }
}
