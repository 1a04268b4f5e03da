//! An index that anybody may have made is looked through before any of it is believed. It has the tables of this program and
//! nothing else, each page of the file is where it belongs, what SQLite finds rows by is what the rows have, and each value has
//! the form that this program gives it. What was
//! looked through is what is read: both stand in one transaction.

use std::path::{Component, Path};
use std::time::{Duration, Instant};

use rusqlite::limits::Limit;
use rusqlite::types::ValueRef;
use rusqlite::{Connection, Error, ErrorCode};
use serde::de::DeserializeOwned;

use crate::config::{MOST_NODES, MOST_ORDERS};
use crate::index::{self, Asked, Source, ANEW};
use crate::text::{is_hidden, spelled};
use crate::End;

/// The most bytes of a value.
const MOST_VALUE: i32 = 64 << 20;
/// How long all questions to an index may take, and how much longer for each MiB of its file.
const MOST_TIME: Duration = Duration::from_secs(60);
const OF_MIB: Duration = Duration::from_secs(1);
/// How many steps SQLite does before it looks at the time.
const STEPS: i32 = 1 << 16;
/// The greatest number that a run of a system can have, and the greatest ones of a node and an order.
pub const LAST: i64 = (1 << 22) - 1;
const NODES: i64 = MOST_NODES as i64 - 1;
const ORDERS: i64 = MOST_ORDERS as i64 - 1;
/// The last millisecond of the year 9999.
const MOST_MOMENT: i64 = 253_402_300_799_999;
/// How long a version and the line of a finding may be.
const MOST_VERSION: usize = 64;
const MOST_FINDING: usize = 80;

/// The form of a value.
#[derive(Clone, Copy)]
enum Form {
    Digest,
    /// The id of a system, or nothing.
    System,
    /// A number from 0 to this one.
    Number(i64),
    /// Any number.
    Signed,
    Moment,
    Word(&'static [&'static str]),
    Kind,
    Version,
    Nodes,
    Lists,
    Pairs,
    Findings,
    /// The path of a file, in bytes.
    Name,
    /// A path below the folder of a watcher.
    Below,
    Text,
}

use Form::*;

const VERDICTS: Form = Word(&["agreed", "explained", "no", "gap"]);
const SOURCES: Form = Word(&["watcher", "archive"]);
const RUN: Form = Number(LAST);
const NODE: Form = Number(NODES);
const PLACE: Form = Number(u32::MAX as i64);
const SIZE: Form = Number(i64::MAX);

/// The columns that are read of each table. Where a name ends with `?`, there may be nothing.
const TABLES: [(&str, &[(&str, Form)]); 8] = [
    ("system", &[("id", System), ("nodes", Number(NODES + 1))]),
    (
        "runs",
        &[
            ("id", Signed),
            ("source", SOURCES),
            ("number?", RUN),
            ("run_id", Digest),
            ("nodes?", Nodes),
            ("generals", Number(NODES + 1)),
            ("traitors", NODE),
            ("verdict", VERDICTS),
            ("decided?", Number(ORDERS)),
            ("assumed_faulty", Nodes),
            ("others", Lists),
            ("missing", Nodes),
            ("suspected", Nodes),
            ("findings", Findings),
            ("equal_roots", Pairs),
            ("path?", Name),
            ("place", PLACE),
            ("library", Version),
            ("judged", Moment),
        ],
    ),
    (
        "convictions",
        &[("run", Signed), ("node", NODE), ("kind", Kind), ("other", PLACE), ("root", Digest), ("evidence?", Below)],
    ),
    (
        "files",
        &[
            ("path", Name),
            ("source", SOURCES),
            ("holds", Word(&["runs", "verdict", "earlier", "evidence"])),
            ("number?", RUN),
            ("node?", NODE),
            ("kind?", Kind),
            ("bytes", SIZE),
            ("modified?", Signed),
            ("sha256?", Digest),
            ("input?", Digest),
            ("input_bytes?", SIZE),
            ("said?", Text),
            ("fault?", Text),
            ("library", Version),
            ("program?", Digest),
            ("judged", Moment),
            ("gone", Number(1)),
        ],
    ),
    (
        "changes",
        &[
            ("place", Number(i64::MAX)),
            ("number", RUN),
            ("verdict", VERDICTS),
            ("decided?", Number(ORDERS)),
            ("assumed_faulty", Nodes),
            ("missing", Nodes),
            ("path?", Below),
            ("sha256?", Digest),
            ("library", Version),
            ("judged", Moment),
        ],
    ),
    (
        "earlier",
        &[
            ("path", Name),
            ("turn", PLACE),
            ("sha256?", Digest),
            ("said", Text),
            ("library", Version),
            ("program", Digest),
        ],
    ),
    ("admissions", &[("path", Name), ("fault?", Text)]),
    ("admitted", &[("run_id", Digest), ("number", RUN), ("path", Name)]),
];

/// A list, as JSON, of which each has to hold.
fn is_list<T: DeserializeOwned>(text: &str, holds: impl Fn(&T) -> bool) -> bool {
    serde_json::from_str::<Vec<T>>(text).is_ok_and(|list| list.iter().all(holds))
}

fn is_node(node: &u32) -> bool {
    i64::from(*node) <= NODES
}

/// Whether a text has so many characters at most, all of which show.
fn is_short(text: &str, most: usize) -> bool {
    (1..=most).contains(&text.len()) && text.bytes().all(|it| it.is_ascii_graphic())
}

/// Whether a line is that of a finding, as N8 and what it names.
fn is_finding(line: &str) -> bool {
    let is_plain = line.bytes().all(|it| it.is_ascii_graphic() || it == b' ');
    (2..=MOST_FINDING).contains(&line.len()) && is_plain && line.starts_with('N')
}

/// Whether a path stays below the folder that it counts from.
pub fn is_below(path: &str) -> bool {
    let mut parts = Path::new(path).components().peekable();
    parts.peek().is_some() && parts.all(|it| matches!(it, Component::Normal(_))) && !path.contains(is_hidden)
}

impl Form {
    fn holds(self, value: ValueRef) -> bool {
        match (self, value) {
            (Signed, ValueRef::Integer(_)) => true,
            (Number(most), ValueRef::Integer(it)) => (0..=most).contains(&it),
            (Moment, ValueRef::Integer(it)) => (0..=MOST_MOMENT).contains(&it),
            (Name, ValueRef::Text(bytes) | ValueRef::Blob(bytes)) => !bytes.is_empty() && !bytes.contains(&0),
            (_, ValueRef::Text(bytes)) => std::str::from_utf8(bytes).is_ok_and(|text| self.holds_text(text)),
            _ => false,
        }
    }

    fn holds_text(self, text: &str) -> bool {
        let is_digest = |text: &str| text.len() == 64 && text.bytes().all(|it| b"0123456789abcdef".contains(&it));
        match self {
            Digest => is_digest(text),
            System => text.is_empty() || is_digest(text),
            Word(words) => words.contains(&text),
            Kind => matches!(text.as_bytes(), [b'K', b'1'..=b'6']),
            Version => is_short(text, MOST_VERSION),
            Nodes => is_list(text, is_node),
            Lists => is_list(text, |list: &Vec<u32>| list.iter().all(is_node)),
            Pairs => is_list(text, |(one, other): &(u32, u32)| is_node(one) && is_node(other)),
            Findings => is_list(text, |line: &String| is_finding(line)),
            Below => is_below(text),
            Text => true,
            Signed | Number(_) | Moment | Name => false,
        }
    }

    /// What a value is not.
    fn said(self) -> String {
        let said = match self {
            Digest => "no SHA-256 in 64 hexadecimal digits",
            System => "no id of a system",
            Number(most) => return format!("no number from 0 to {most}"),
            Signed => "no number",
            Moment => "no moment from 1970 to 9999",
            Word(words) => return format!("none of {}", words.join(", ")),
            Kind => "no kind of a conviction",
            Version => "no version",
            Nodes => "no list of nodes",
            Lists => "no list of lists of nodes",
            Pairs => "no list of pairs of nodes",
            Findings => "no list of findings",
            Name => "no path",
            Below => "no path below a folder",
            Text => "no text",
        };
        said.to_owned()
    }
}

/// Why an index can't be read: it has a fault, unless the system refuses the file.
pub fn end_of(path: &Path, told: &Error) -> End {
    let of_system = [ErrorCode::CannotOpen, ErrorCode::PermissionDenied, ErrorCode::SystemIoFailure];
    let or_later = [ErrorCode::DatabaseBusy, ErrorCode::DatabaseLocked, ErrorCode::OutOfMemory];
    match told.sqlite_error_code() {
        Some(code) if of_system.contains(&code) || or_later.contains(&code) => {
            End::unusable(spelled(path), &std::io::Error::new(std::io::ErrorKind::Other, told.to_string()))
        }
        Some(ErrorCode::OperationInterrupted) => End::fault(path, "to read it takes too long"),
        _ => End::fault(path, format!("no index: {}", spelled(&told.to_string()))),
    }
}

/// Sets what a database may do: nothing in its schema is run, and no question takes for ever.
fn bound(database: &Connection, path: &Path) -> Asked<()> {
    database.busy_timeout(Duration::from_secs(10))?;
    database.set_limit(Limit::SQLITE_LIMIT_LENGTH, MOST_VALUE);
    database.execute_batch("PRAGMA trusted_schema = OFF; PRAGMA cell_size_check = ON")?;
    let mebibytes = std::fs::metadata(path).map_or(0, |it| it.len() >> 20).try_into().unwrap_or(u32::MAX);
    let ends = Instant::now() + MOST_TIME + OF_MIB * mebibytes;
    database.progress_handler(STEPS, Some(move || Instant::now() > ends));
    Ok(())
}

/// Opens an index that anybody may have made, for reading.
pub fn open(path: &Path) -> Result<Connection, End> {
    let told = |told: Error| end_of(path, &told);
    let database = index::connect_to_read(path).map_err(End::file(path))?;
    bound(&database, path).map_err(told)?;
    database.execute_batch("PRAGMA query_only = ON; BEGIN").map_err(told)?;
    if let Some(other) = index::other_shape(&database).map_err(told)? {
        return Err(End::fault(path, format!("{other}. {ANEW}")));
    }
    let whole: String = database.query_row("PRAGMA main.integrity_check(1)", [], |row| row.get(0)).map_err(told)?;
    if whole != "ok" {
        return Err(End::fault(path, format!("no index: {}", spelled(&whole))));
    }
    TABLES.iter().try_for_each(|(table, columns)| look_through(&database, path, table, columns))?;
    Ok(database)
}

/// Looks through the rows of a table.
fn look_through(database: &Connection, path: &Path, table: &str, columns: &[(&str, Form)]) -> Result<(), End> {
    let told = |told: Error| end_of(path, &told);
    let names: Vec<&str> = columns.iter().map(|it| it.0.trim_end_matches('?')).collect();
    let place_of = |name: &str| names.iter().position(|it| *it == name);
    let of_source = place_of("source").zip(place_of("path"));
    let order = format!("SELECT {} FROM main.{table}", names.join(", "));
    let mut asked = database.prepare(&order).map_err(told)?;
    let (mut rows, mut place) = (asked.query([]).map_err(told)?, 0_u64);
    while let Some(row) = rows.next().map_err(told)? {
        place += 1;
        for (at, (name, form)) in columns.iter().enumerate() {
            let value = row.get_ref(at).map_err(told)?;
            let is_nothing = name.ends_with('?') && value == ValueRef::Null;
            if !is_nothing && !form.holds(value) {
                let (name, said) = (names[at], form.said());
                return Err(End::fault(path, format!("table {table}, row {place}: {name} is {said}")));
            }
        }
        // A watcher's files lie below its folder, which is joined with their paths.
        if let Some((source, file)) = of_source {
            let (source, file) = (row.get_ref(source).map_err(told)?, row.get_ref(file).map_err(told)?);
            let is_watchers = source.as_str().is_ok_and(|it| it == Source::Watcher.word()) && file != ValueRef::Null;
            if is_watchers && !Below.holds(file) {
                return Err(End::fault(path, format!("table {table}, row {place}: path is {}", Below.said())));
            }
        }
    }
    Ok(())
}

#[cfg(test)]
mod tests {
    use super::super::read::Reader;
    use super::super::store::tests::{index, judge, judged};
    use super::*;

    /// What is said of an index in which orders were done.
    fn said(name: &str, orders: &str) -> String {
        let (folder, mut store) = index(name);
        store.write(&judge("a"), &[("/a/3".into(), judged('3', Some(3), "agreed", true))]).expect("a disk");
        store.close().expect("a disk");
        let path = folder.join("index");
        let own = Connection::open(&path).expect("an index");
        own.execute_batch(&format!("PRAGMA ignore_check_constraints = ON; {orders}")).expect(orders);
        drop(own);
        let end =
            Reader::open(&path).err().map(|end| (end.status, end.line.replace(&path.display().to_string(), "INDEX")));
        std::fs::remove_dir_all(folder).expect("a folder");
        let (status, line) = end.unwrap_or((3, "nothing".into()));
        assert_eq!(status, 3, "{line}");
        line
    }

    #[test]
    fn values_of_a_stranger() {
        let id = "1".repeat(64);
        let run = |number: &str, run_id: &str, verdict: &str, judged: &str| {
            format!(
                "INSERT INTO runs VALUES (0, 'watcher', {number}, '{run_id}', '[]', 4, 1, '{verdict}', 1, '[]', '[]', '[]', '[]', \
                 '[]', '[]', NULL, 0, 'x', {judged})"
            )
        };
        assert_eq!(said("stranger", &run("0", &id, "no", "0")), "nothing");
        assert_eq!(said("stranger", &run("4194303", &id, "no", "253402300799999")), "nothing");
        for (orders, wanted) in [
            (
                run("7", "0; touch pwned #", "no", "0"),
                "table runs, row 1: run_id is no SHA-256 in 64 hexadecimal digits",
            ),
            (run("4294967295", &id, "no", "0"), "table runs, row 1: number is no number from 0 to 4194303"),
            (run("-1", &id, "no", "0"), "table runs, row 1: number is no number from 0 to 4194303"),
            (run("7", &id, "no", "9223372036854775807"), "table runs, row 1: judged is no moment from 1970 to 9999"),
            (run("7", &id, "no", "'x'"), "table runs, row 1: judged is no moment from 1970 to 9999"),
            ("UPDATE runs SET nodes = '[16]'".into(), "table runs, row 1: nodes is no list of nodes"),
            ("UPDATE runs SET missing = '[1e99]'".into(), "table runs, row 1: missing is no list of nodes"),
            (
                format!("UPDATE runs SET assumed_faulty = '{}'", "[".repeat(50_000)),
                "table runs, row 1: assumed_faulty is no list of nodes",
            ),
            (
                "UPDATE runs SET equal_roots = '[[1]]'".into(),
                "table runs, row 1: equal_roots is no list of pairs of nodes",
            ),
            ("UPDATE runs SET findings = '[\"<b>\"]'".into(), "table runs, row 1: findings is no list of findings"),
            ("UPDATE runs SET generals = 17".into(), "table runs, row 1: generals is no number from 0 to 16"),
            ("UPDATE runs SET source = 'me'".into(), "table runs, row 1: source is none of watcher, archive"),
            ("UPDATE files SET source = 'watcher'".into(), "table files, row 1: path is no path below a folder"),
            (
                "UPDATE runs SET source = 'watcher', path = '../3'".into(),
                "table runs, row 1: path is no path below a folder",
            ),
            (
                "UPDATE convictions SET kind = 'K1<script>'".into(),
                "table convictions, row 1: kind is no kind of a conviction",
            ),
            ("UPDATE convictions SET node = 99".into(), "table convictions, row 1: node is no number from 0 to 15"),
            (
                "UPDATE files SET program = 'x'".into(),
                "table files, row 1: program is no SHA-256 in 64 hexadecimal digits",
            ),
            ("UPDATE files SET judged = 1 << 62".into(), "table files, row 1: judged is no moment from 1970 to 9999"),
            ("UPDATE system SET id = '<b>'".into(), "table system, row 1: id is no id of a system"),
            (
                "UPDATE convictions SET evidence = '../x'".into(),
                "table convictions, row 1: evidence is no path below a folder",
            ),
            (
                "UPDATE convictions SET evidence = '/x'".into(),
                "table convictions, row 1: evidence is no path below a folder",
            ),
            (
                "INSERT INTO admitted VALUES ('00', 1, 'x')".into(),
                "table admitted, row 1: run_id is no SHA-256 in 64 hexadecimal digits",
            ),
        ] {
            assert_eq!(said("stranger", &orders), format!("INDEX: {wanted}"), "{orders}");
        }
        assert_eq!(
            said("stranger", &run("7", &id, "well", "0")),
            "INDEX: table runs, row 1: verdict is none of agreed, explained, no, gap"
        );
    }

    #[test]
    fn tables_of_a_stranger() {
        let endless = "CREATE VIEW changes AS WITH RECURSIVE it(number) AS (SELECT 1 UNION ALL SELECT number + 1 FROM it) SELECT number FROM it";
        for (orders, wanted) in [
            (&*format!("DROP TABLE changes; {endless}"), "the index changes_by_number"),
            ("CREATE TRIGGER it AFTER UPDATE ON runs BEGIN DELETE FROM runs; END", "the trigger it"),
            ("CREATE TABLE \"\u{202e}x\" (a)", "the table \\u{202e}x"),
            ("DROP TABLE logs", "the table logs"),
            ("ALTER TABLE runs ADD COLUMN a AS (abs(1))", "the table runs"),
            ("CREATE INDEX other ON runs (abs(number))", "the index other"),
        ] {
            assert_eq!(
                said("tables", orders),
                format!("INDEX: another shape: {wanted} is missing, or is none of an index. {ANEW}")
            );
        }
        let lies = format!(
            "DROP INDEX runs_by_verdict; CREATE INDEX runs_by_verdict ON runs (verdict, judged); INSERT INTO runs VALUES
            (0, 'watcher', 7, '{}', '[]', 4, 1, 'gap', 1, '[]', '[]', '[]', '[]', '[]', '[]', NULL, 0, 'x', 4294967295);
            PRAGMA writable_schema = ON;
            UPDATE sqlite_schema SET sql = 'CREATE INDEX runs_by_verdict ON runs (verdict, number)'
            WHERE name = 'runs_by_verdict'",
            "1".repeat(64)
        );
        assert!(said("tables", &lies).starts_with("INDEX: no index: row "), "{}", said("tables", &lies));
        assert_eq!(
            said("tables", "PRAGMA user_version = 2"),
            format!("INDEX: version 2 of its tables, and not 3. {ANEW}")
        );
    }

    #[test]
    fn bytes_of_a_stranger() {
        let (folder, mut store) = index("bytes");
        store.write(&judge("a"), &[("/a/3".into(), judged('3', Some(3), "agreed", true))]).expect("a disk");
        store.close().expect("a disk");
        let (whole, path) = (std::fs::read(folder.join("index")).expect("a file"), folder.join("bent"));
        let status = |bytes: &[u8]| {
            std::fs::write(&path, bytes).expect("a file");
            Reader::open(&path).err().map(|end| end.status)
        };
        for length in [20, 100, 4096, whole.len() / 2] {
            assert_eq!(status(&whole[..length]), Some(3), "{length}");
        }
        let mut bent = whole.clone();
        (4096..bent.len()).step_by(997).for_each(|at| bent[at] ^= 0xff);
        assert_eq!((status(&bent), status(&whole)), (Some(3), None));
        std::fs::remove_dir_all(folder).expect("a folder");
    }
}
