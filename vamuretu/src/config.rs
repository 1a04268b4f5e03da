//! The configuration: one TOML file for a node, and one for a watcher. Paths count from the folder of the file.
//!
//! tools/tables.py makes the table of keys in docs/REFERENCE.md of these types. The comment of a field says there what the key is;
//! its lines `Bounds:` and `Default:` say what the type does not say of these.

use std::collections::{BTreeMap, BTreeSet};
use std::fs;
use std::net::{IpAddr, SocketAddr};
use std::path::{Path, PathBuf};
use std::time::Duration;

use serde::de::{DeserializeOwned, Error};
use serde::{Deserialize, Deserializer};

use crate::pins::Pin;
use crate::text::is_hidden;
use crate::End;

/// The id of a system.
pub type Id = [u8; 32];

/// The number of each order by its name.
pub type Orders = BTreeMap<String, u8>;

/// The most runs that may be under way at a time, by the timetable.
const MOST_UNDER_WAY: u64 = 64;
/// What Linux itself adds to its bound of the error.
const MOST_DRIFT_PPM: u32 = 500;
/// The most nodes, rounds and orders that a header can have.
pub const MOST_NODES: usize = 16;
const MOST_ROUNDS: u64 = 16;
pub const MOST_ORDERS: u32 = 15;
/// The most dots and brackets of a file: each can begin one table or array inside another.
const MOST_NESTED: usize = 500;

/// The system that a node is of, or that a watcher watches.
#[derive(Debug, Clone, Deserialize)]
#[serde(deny_unknown_fields)]
pub struct System {
    /// The file that `sm_tool system` wrote.
    pub file: PathBuf,
    /// The id that this file has to have.
    #[serde(deserialize_with = "digits")]
    pub id: Id,
    /// The files of roots of all nodes, node 0 first.
    /// Bounds: 2 to 16 files, one for each node.
    pub roots: Vec<PathBuf>,
}

/// When runs begin, and how long a round is.
#[derive(Debug, Clone, Copy, PartialEq, Eq, Deserialize)]
#[serde(deny_unknown_fields)]
pub struct Clock {
    /// Whose word it is that the system's clock is right.
    pub source: Source,
    /// When run 0 begins: milliseconds since 1970, or a moment as `2027-01-01T00:00:00Z`.
    /// Bounds: a moment is behind 1970, and ends with `Z`.
    #[serde(deserialize_with = "moment")]
    pub start: i64,
    /// From the beginning of a run to that of the next.
    /// Bounds: at least `round_ms` / 4.
    pub period_ms: u32,
    /// The length of a round.
    /// Bounds: 4 to 4 `period_ms`.
    pub round_ms: u32,
    /// How wrong the clock may be.
    /// Bounds: 0 to `round_ms` / 4.
    pub bound_ms: u32,
    /// How fast it goes wrong at most, where the daemon that sets it is silent.
    /// Bounds: 1 to 500.
    #[serde(default = "drift_ppm")]
    pub drift_ppm: u32,
}

/// What an oscillator changes its rate by in the hour behind its measurement, with the warmth of a cabinet.
fn drift_ppm() -> u32 {
    4
}

/// Whose word it is that the system's clock is right.
#[derive(Debug, Clone, Copy, PartialEq, Eq, Deserialize)]
#[serde(rename_all = "lowercase")]
pub enum Source {
    /// The kernel's own estimate.
    Kernel,
    /// Whoever wrote the configuration: nothing is asked.
    Assumed,
}

/// The key of this end: without it connections are plain, and a tunnel protects them.
#[derive(Debug, Clone, Deserialize)]
#[serde(deny_unknown_fields)]
pub struct Key {
    /// The file that `vamuretu key` made.
    pub file: PathBuf,
}

/// The node that runs.
#[derive(Debug, Clone, Deserialize)]
#[serde(deny_unknown_fields)]
pub struct Node {
    /// The number of the node in the system.
    /// Bounds: below the number of `roots`.
    pub number: u32,
    /// The file of the state, 68 bytes: secret.
    pub state: PathBuf,
    /// The file of the mark, which belongs to another disk.
    /// Default: beside the state, with the end `.mark`.
    mark: Option<PathBuf>,
    /// The folder of the logs.
    pub spool: PathBuf,
    /// Where neighbours of greater numbers connect to.
    pub listen: SocketAddr,
}

impl Node {
    /// The file of the mark.
    pub fn mark(&self) -> PathBuf {
        self.mark.clone().unwrap_or_else(|| self.state.with_extension("mark"))
    }
}

/// A node, as others reach it.
#[derive(Debug, Clone, Deserialize)]
#[serde(deny_unknown_fields)]
pub struct Peer {
    /// Its number in the system.
    /// Bounds: below the number of `roots`, each once.
    pub number: u32,
    /// Where it listens.
    pub address: SocketAddr,
    /// The pins of its key.
    #[serde(default)]
    pub keys: Vec<Pin>,
}

/// A watcher, to which the logs go.
#[derive(Debug, Clone, Deserialize)]
#[serde(deny_unknown_fields)]
pub struct Watcher {
    /// Where it listens.
    pub address: SocketAddr,
    /// The pins of its key.
    #[serde(default)]
    pub keys: Vec<Pin>,
}

/// The door for devices and programs on other machines, which ask for decisions.
#[derive(Debug, Clone, Deserialize)]
#[serde(deny_unknown_fields)]
pub struct Devices {
    /// Where they connect to.
    pub listen: SocketAddr,
    /// The pins of their keys, each of which may connect.
    /// Bounds: 1 to 64 with `[key]`, each once in the file, and else none.
    #[serde(default)]
    pub keys: Vec<Pin>,
    /// Where they connect from.
    /// Bounds: 1 to 64 without `[key]`, each once, and else none.
    #[serde(default)]
    pub addresses: Vec<IpAddr>,
}

/// A node, as a watcher knows it.
#[derive(Debug, Clone, Deserialize)]
#[serde(deny_unknown_fields)]
pub struct Watched {
    /// Its number in the system.
    /// Bounds: below the number of `roots`, each once.
    pub number: u32,
    /// Where it connects from: this keeps places for its connections.
    pub address: Option<IpAddr>,
    /// The pins of its key.
    #[serde(default)]
    pub keys: Vec<Pin>,
}

/// Where programs of the same machine talk to the node.
#[derive(Debug, Clone, Deserialize)]
#[serde(deny_unknown_fields)]
pub struct Local {
    /// The Unix socket of proposals and decisions.
    pub socket: PathBuf,
    /// The rule that makes one value of n runs of n nodes, which propose by turns; but for `"all"`, n is above 2m.
    /// Default: no vote is told.
    pub combine: Option<Rule>,
}

/// A rule that makes one value of several decided ones.
#[derive(Debug, Clone, Copy, PartialEq, Eq, Deserialize)]
#[serde(rename_all = "lowercase")]
pub enum Rule {
    /// The least value such that at least half of the values are at most it.
    Median,
    /// The value that more than half of the values are, or value 0 if there is none.
    Majority,
    /// The value that all of the values are, or value 0 if they differ.
    All,
}

/// Where the metrics are read.
#[derive(Debug, Clone, Deserialize)]
#[serde(deny_unknown_fields)]
pub struct Metrics {
    /// The address, by HTTP without a key: an address of the machine itself.
    pub address: SocketAddr,
}

/// How long logs are kept.
#[derive(Debug, Clone, Deserialize)]
#[serde(deny_unknown_fields)]
pub struct Spool {
    /// How long a log is kept that each watcher has acknowledged, and a decision.
    pub days: u32,
    /// How many bytes the logs and the decisions have at most.
    pub most_bytes: u64,
}

/// The system that goes on when this one is over.
#[derive(Debug, Clone, Deserialize)]
#[serde(deny_unknown_fields)]
pub struct Next {
    /// The configuration of the node in that system.
    pub file: PathBuf,
}

/// The file of a node.
#[derive(Debug, Clone, Deserialize)]
#[serde(deny_unknown_fields)]
pub struct NodeFile {
    /// The system that the node is of.
    pub system: System,
    /// The system that goes on when this one is over.
    pub next: Option<Next>,
    /// The node that runs.
    pub node: Node,
    /// Its neighbours. The node itself may stand among them, so that all nodes have one list.
    peers: Vec<Peer>,
    /// The watchers, to which the logs go.
    #[serde(default)]
    pub watchers: Vec<Watcher>,
    /// The door for devices and programs on other machines, which ask for decisions.
    pub devices: Option<Devices>,
    /// The key of connections. Without it these are plain, and a tunnel protects them.
    pub key: Option<Key>,
    /// When runs begin, and how long a round is.
    pub clock: Clock,
    /// A key for each value (order): its name, and its number. Value 0 is decided if nothing comes.
    /// Bounds: 2 to 15 names, with the numbers from 0 on. A name has characters, none of them hidden.
    pub orders: Orders,
    /// Where programs of the same machine talk to the node.
    pub local: Local,
    /// Where the metrics are read.
    pub metrics: Option<Metrics>,
    /// How long logs are kept.
    pub spool: Spool,
}

/// What a watcher does.
#[derive(Debug, Clone, Deserialize)]
#[serde(deny_unknown_fields)]
pub struct Watch {
    /// Where nodes connect to.
    pub listen: SocketAddr,
    /// Where bundles, verdicts and evidence are kept.
    pub folder: PathBuf,
    /// The file of the index.
    pub database: PathBuf,
    /// How long after the end of a run its logs are waited for.
    pub deadline_ms: u32,
    /// The first run that is watched.
    #[serde(default)]
    pub first: u32,
}

/// Who is told of alarms.
#[derive(Debug, Clone, Default, Deserialize)]
#[serde(deny_unknown_fields)]
pub struct Alarms {
    /// A program that is started on each alarm, with its JSON as the input.
    pub hook: Option<PathBuf>,
}

/// The file of a watcher.
#[derive(Debug, Clone, Deserialize)]
#[serde(deny_unknown_fields)]
pub struct WatchFile {
    /// The system that is watched.
    pub system: System,
    /// What the watcher does.
    pub watch: Watch,
    /// As the nodes have it.
    pub clock: Clock,
    /// As the nodes have it.
    pub orders: Orders,
    /// As of a node.
    pub key: Option<Key>,
    /// The nodes, each by its key.
    /// Bounds: each node, if there is `[key]`.
    #[serde(default)]
    pub nodes: Vec<Watched>,
    /// Who is told of alarms.
    #[serde(default)]
    pub alarms: Alarms,
    /// As of a node.
    pub metrics: Option<Metrics>,
}

/// 32 bytes of 64 hexadecimal digits.
pub fn digits<'de, D: Deserializer<'de>>(from: D) -> Result<Id, D::Error> {
    let text = String::deserialize(from)?;
    let mut id = [0; 32];
    hex::decode_to_slice(&text, &mut id)
        .map_err(|told| D::Error::custom(format!("not 64 hexadecimal digits: {told}")))?;
    Ok(id)
}

/// A moment as TOML and people write it.
#[derive(Deserialize)]
#[serde(untagged)]
enum Moment {
    Milliseconds(i64),
    Date(toml::value::Datetime),
    Text(String),
}

/// Milliseconds since 1970, of a number of these or of an RFC 3339 text that ends with Z.
fn moment<'de, D: Deserializer<'de>>(from: D) -> Result<i64, D::Error> {
    let text = match Moment::deserialize(from)? {
        Moment::Milliseconds(number) => return Ok(number),
        Moment::Date(date) => date.to_string(),
        Moment::Text(text) => text,
    };
    let time = humantime::parse_rfc3339(&text).map_err(D::Error::custom)?;
    let since = time.duration_since(std::time::UNIX_EPOCH).map_err(D::Error::custom)?;
    i64::try_from(since.as_millis()).map_err(D::Error::custom)
}

/// What the files of nodes and watchers have in common.
pub trait File: DeserializeOwned {
    /// All paths of the file.
    fn paths(&mut self) -> Vec<&mut PathBuf>;

    /// What is wrong with it, though it can be read.
    fn wrong(&self) -> Option<String>;
}

fn paths_of<'a>(system: &'a mut System, key: &'a mut Option<Key>) -> Vec<&'a mut PathBuf> {
    let mut paths = vec![&mut system.file];
    paths.extend(&mut system.roots);
    paths.extend(key.as_mut().map(|key| &mut key.file));
    paths
}

/// The most pins that one end has.
const MOST_PINS: usize = 2;

/// What is wrong with the pins of the other ends, each of which has a name here.
fn wrong_keys<'a>(key: &Option<Key>, ends: impl Iterator<Item = (String, &'a [Pin])>) -> Option<String> {
    let mut met = BTreeSet::new();
    for (name, keys) in ends {
        match (key, keys.len()) {
            (None, 1..) => return Some(format!("{name}: keys are there, and there is no [key]")),
            (Some(_), 0) => return Some(format!("{name}: with [key] it has keys, the pin of its own")),
            (_, count) if count > MOST_PINS => return Some(format!("{name}: keys has more than {MOST_PINS} pins")),
            _ => {}
        }
        if let Some(pin) = keys.iter().find(|&&pin| !met.insert(pin)) {
            return Some(format!("{name}: the pin {pin} is there twice"));
        }
    }
    None
}

/// The most devices that a door is for.
const MOST_DEVICES: usize = 64;

impl Devices {
    fn wrong(&self, key: &Option<Key>) -> Option<String> {
        let (keys, mut met) = (self.keys.len(), BTreeSet::new());
        let addresses = self.addresses.len();
        let twice = self.addresses.iter().find(|it| !met.insert(it.to_canonical()));
        let wrong = match key {
            Some(_) if keys == 0 || addresses > 0 => {
                "with [key] it has keys, the pins of the devices', and no addresses"
            }
            None if addresses == 0 || keys > 0 => {
                "without [key] it has addresses, from which devices come, and no keys"
            }
            _ if keys.max(addresses) > MOST_DEVICES => return Some(format!("[devices]: more than {MOST_DEVICES}")),
            _ => return twice.map(|address| format!("[devices]: the address {address} is there twice")),
        };
        Some(format!("[devices]: {wrong}"))
    }
}

/// What is wrong with the numbers of nodes.
fn wrong_numbers(what: &str, numbers: impl Iterator<Item = u32>, nodes: usize) -> Option<String> {
    let mut met = BTreeSet::new();
    let wrong = numbers.into_iter().find(|&number| number as usize >= nodes || !met.insert(number));
    wrong.map(|number| format!("{what}: number {number} is no node's, or comes twice"))
}

impl Clock {
    /// From the beginning of a run to that of the next.
    pub fn period(&self) -> Duration {
        Duration::from_millis(self.period_ms.into())
    }

    fn wrong(&self) -> Option<String> {
        if self.period_ms == 0 || self.round_ms < 4 {
            return Some("[clock]: a period has 1 ms at least, and a round 4".into());
        }
        if u64::from(self.round_ms) * MOST_ROUNDS > u64::from(self.period_ms) * MOST_UNDER_WAY {
            return Some(format!("[clock]: more than {MOST_UNDER_WAY} runs may be under way"));
        }
        if !(1..=MOST_DRIFT_PPM).contains(&self.drift_ppm) {
            return Some(format!("[clock]: drift_ppm is from 1 to {MOST_DRIFT_PPM}"));
        }
        (self.bound_ms > self.round_ms / 4).then(|| "[clock]: bound_ms is above a quarter of a round".into())
    }
}

impl File for NodeFile {
    fn paths(&mut self) -> Vec<&mut PathBuf> {
        let mut paths = paths_of(&mut self.system, &mut self.key);
        paths.extend([&mut self.node.state, &mut self.node.spool, &mut self.local.socket]);
        paths.extend(&mut self.node.mark);
        paths.extend(self.next.as_mut().map(|next| &mut next.file));
        paths
    }

    fn wrong(&self) -> Option<String> {
        let nodes = self.system.roots.len();
        if !(2..=MOST_NODES).contains(&nodes) || self.node.number as usize >= nodes {
            return Some(format!(
                "[system] roots, [node] number: there is one file for each of 2 to {MOST_NODES} nodes"
            ));
        }
        if let wrong @ Some(_) = wrong_numbers("[[peers]]", self.peers.iter().map(|peer| peer.number), nodes) {
            return wrong;
        }
        if let wrong @ Some(_) = self.devices.as_ref().and_then(|devices| devices.wrong(&self.key)) {
            return wrong;
        }
        if let wrong @ Some(_) = wrong_keys(&self.key, self.ends()) {
            return wrong;
        }
        wrong_orders(&self.orders).or_else(|| self.clock.wrong())
    }
}

/// What is wrong with a table of orders.
fn wrong_orders(orders: &Orders) -> Option<String> {
    let mut numbers: Vec<usize> = orders.values().map(|&order| order.into()).collect();
    numbers.sort_unstable();
    if !(2..=MOST_ORDERS as usize).contains(&numbers.len())
        || numbers.iter().enumerate().any(|(place, &it)| place != it)
    {
        return Some(format!("[orders]: 2 to {MOST_ORDERS} names have the numbers from 0 on, each once"));
    }
    let is_odd = |name: &String| name.is_empty() || name.contains(is_hidden);
    orders.keys().any(is_odd).then(|| "[orders]: a name has characters, and none that is hidden".into())
}

/// The text whose SHA-256 is the context of the system: the timetable, and what the orders mean.
pub fn context_text(clock: &Clock, orders: &Orders) -> String {
    let Clock { start, period_ms, round_ms, .. } = clock;
    let mut orders: Vec<(u8, &str)> = orders.iter().map(|(name, &order)| (order, name.as_str())).collect();
    orders.sort_unstable();
    let lines: Vec<String> = orders.iter().map(|(order, name)| format!("order {order} {name}\n")).collect();
    format!("start {start}\nperiod {period_ms}\nround {round_ms}\n{}end\n", lines.concat())
}

impl NodeFile {
    /// The text of the context.
    pub fn context_text(&self) -> String {
        context_text(&self.clock, &self.orders)
    }

    /// All other ends, with the pins of each.
    fn ends(&self) -> impl Iterator<Item = (String, &[Pin])> {
        let peers = self.peers.iter().map(|peer| (format!("[[peers]] {}", peer.number), &peer.keys[..]));
        let watchers = self.watchers.iter().map(|it| (format!("[[watchers]] {}", it.address), &it.keys[..]));
        let devices = self.devices.iter().flat_map(|it| it.keys.chunks(1)).map(|key| ("[devices]".into(), key));
        peers.chain(watchers).chain(devices)
    }

    /// Compares the pin of this node's key with those that its own place among the peers names, if it stands there.
    pub fn check_pin(&self, pin: Option<Pin>) -> Result<(), End> {
        let own = self.peers.iter().find(|peer| peer.number == self.node.number);
        match (pin, own) {
            (Some(pin), Some(own)) if !own.keys.contains(&pin) => {
                Err(End::failed(format!("[key] has the pin {pin}, and [[peers]] {} names another", own.number)))
            }
            _ => Ok(()),
        }
    }

    /// The neighbours.
    pub fn neighbours(&self) -> impl Iterator<Item = &Peer> {
        self.peers.iter().filter(|peer| peer.number != self.node.number)
    }

    /// The name of an order.
    pub fn name_of(&self, order: u32) -> Option<&str> {
        self.orders.iter().find(|(_, &number)| u32::from(number) == order).map(|(name, _)| name.as_str())
    }
}

impl File for WatchFile {
    fn paths(&mut self) -> Vec<&mut PathBuf> {
        let mut paths = paths_of(&mut self.system, &mut self.key);
        paths.extend([&mut self.watch.folder, &mut self.watch.database]);
        paths.extend(&mut self.alarms.hook);
        paths
    }

    fn wrong(&self) -> Option<String> {
        let nodes = self.system.roots.len();
        if !(2..=MOST_NODES).contains(&nodes) {
            return Some(format!("[system] roots: there is one file for each of 2 to {MOST_NODES} nodes"));
        }
        if self.key.is_some() && self.nodes.len() != nodes {
            return Some(format!("[[nodes]]: with [key] each of {nodes} nodes is there"));
        }
        if let wrong @ Some(_) = wrong_numbers("[[nodes]]", self.nodes.iter().map(|node| node.number), nodes) {
            return wrong;
        }
        let ends = self.nodes.iter().map(|node| (format!("[[nodes]] {}", node.number), &node.keys[..]));
        wrong_keys(&self.key, ends).or_else(|| wrong_orders(&self.orders)).or_else(|| self.clock.wrong())
    }
}

/// Reads a configuration.
pub fn read<T: File>(path: &Path) -> Result<T, End> {
    let text = fs::read_to_string(path).map_err(End::file(path))?;
    read_text(path, &text)
}

/// Reads TOML. The parser goes one step deeper for each table or array inside another, and sets itself no bound: a text of 6 KB
/// would end its stack.
pub fn from_toml<T: DeserializeOwned>(path: &Path, text: &str) -> Result<T, End> {
    let lines = text.lines().filter(|line| !line.trim_start().starts_with('#'));
    if lines.flat_map(str::chars).filter(|it| ".[{".contains(*it)).count() > MOST_NESTED {
        return Err(End::fault(
            path,
            format!("more than {MOST_NESTED} dots and brackets stand outside of lines of comment"),
        ));
    }
    toml::from_str(text).map_err(|told| fault_of(path, text, &told.to_string()))
}

/// What is said of an address that is none, and what is said in its place.
const NO_ADDRESS: [&str; 2] =
    ["invalid socket address syntax", "no address with a port, as 192.0.2.1:4700 (names of hosts are not looked up)"];

/// What is wrong with a text. Of an unknown key `toml` tells the line where its table ends, and not that of the key.
fn fault_of(path: &Path, text: &str, told: &str) -> End {
    let quoted = |front: &str| Some(told.split_once(front)?.1.split_once('`')?.0);
    let line = quoted("unknown field `").and_then(|key| line_of(text, key, quoted(" for key `")));
    match line {
        Some(line) => End::fault(path, format!("line {line}: {}", told.split(" at line ").next().unwrap_or(told))),
        None => End::fault(path, told.replace(NO_ADDRESS[0], NO_ADDRESS[1])),
    }
}

/// The number of the first line that has a key, in a table of this name if one has it there.
fn line_of(text: &str, key: &str, table: Option<&str>) -> Option<usize> {
    let (mut within, mut lines) = (None, vec![]);
    for (number, line) in (1..).zip(text.lines().map(str::trim_start)) {
        let rest = line.trim_start_matches('[').strip_prefix(key);
        if rest.map_or(false, |rest| rest.trim_start().starts_with(['=', ']'])) {
            lines.push((within == table, number));
        }
        if line.starts_with('[') {
            within = line.trim_start_matches('[').split(']').next();
        }
    }
    lines.iter().find(|(is_there, _)| *is_there).or(lines.first()).map(|&(_, number)| number)
}

/// A configuration of one kind or the other.
pub enum Either {
    Node(Box<NodeFile>),
    Watch(Box<WatchFile>),
}

/// Reads a configuration of which it is not said whose it is: that of a watcher has a table `[watch]`.
pub fn read_either(path: &Path) -> Result<Either, End> {
    let text = fs::read_to_string(path).map_err(End::file(path))?;
    if from_toml::<toml::value::Table>(path, &text)?.contains_key("watch") {
        read_text(path, &text).map(|file| Either::Watch(Box::new(file)))
    } else {
        read_text(path, &text).map(|file| Either::Node(Box::new(file)))
    }
}

/// Reads the text of a configuration, whose paths count from the folder of its file.
pub fn read_text<T: File>(path: &Path, text: &str) -> Result<T, End> {
    let mut file: T = from_toml(path, text)?;
    let folder = path.parent().unwrap_or(Path::new(""));
    for it in file.paths() {
        *it = folder.join(&*it);
    }
    match file.wrong() {
        Some(what) => Err(End::fault(path, what)),
        None => Ok(file),
    }
}

#[cfg(test)]
mod tests {
    use super::*;

    const FOUR: &str = include_str!("../../examples/four/node.toml");

    /// The pin that stands for an end of the example.
    fn pin(end: char) -> String {
        end.to_string().repeat(64)
    }

    /// An example in which each end has a key.
    fn with_keys(example: &str) -> String {
        let named = ['0', '1', '2', '3']
            .into_iter()
            .fold(example.to_string(), |text, it| text.replace(&format!("KEY-{it}"), &pin(it)));
        named.replace("KEY-W", &pin('f'))
    }

    fn four() -> String {
        with_keys(&FOUR.replace("NODE", "2"))
    }

    #[test]
    fn what_nests_without_end_is_refused() {
        let path = Path::new("names.toml");
        let read = |text: &str| from_toml::<toml::Value>(path, text).map_err(|told| told.line);
        for nested in ["[", "{a=", "a.", "[{a.a="] {
            let told = read(&format!("x = {}", nested.repeat(1 << 15))).expect_err("no end");
            assert!(told.contains("more than 500 dots and brackets"), "{told}");
        }
        assert!(read(&format!("[{}a]", "a.".repeat(1 << 15))).is_err());
        assert!(read(&format!("[{}a]", "a.".repeat(MOST_NESTED - 1))).is_ok());
        assert!(read(&format!("# {}\na = 1", "[".repeat(1 << 15))).is_ok());
    }

    #[test]
    fn a_wrong_key_is_named_with_its_line() {
        let told = |text: &str| read_text::<NodeFile>(Path::new("2.toml"), text).map_err(|told| told.line);
        let text = four();
        let line = text.lines().position(|line| line.starts_with("period_ms")).expect("a period") + 1;
        let wrong = told(&text.replace("period_ms", "periodms")).expect_err("a wrong key");
        assert!(wrong.starts_with(&format!("2.toml: line {line}: unknown field `periodms`")), "{wrong}");
        let wrong = told(&format!("{text}\n[watch]\n")).expect_err("a wrong table");
        let line = text.lines().count() + 2;
        assert!(wrong.starts_with(&format!("2.toml: line {line}: unknown field `watch`")), "{wrong}");
        // Other tables have a key of this name.
        let wrong = told(&text.replace("days = 30", "days = 30\nfile = \"logs\"")).expect_err("a wrong key");
        let line = text.lines().position(|line| line.starts_with("days")).expect("days") + 2;
        assert!(wrong.starts_with(&format!("2.toml: line {line}: unknown field `file`")), "{wrong}");
        let wrong = told(&text.replace("127.0.0.1:4702", "pump:4702")).expect_err("no address");
        assert!(wrong.contains("no address with a port") && wrong.contains(" at line "), "{wrong}");
    }

    #[test]
    fn the_example_is_a_configuration() {
        let file: NodeFile = read_text(Path::new("/etc/four/2.toml"), &four()).expect("a configuration");
        assert_eq!(file.node.state, Path::new("/etc/four/2/state"));
        assert_eq!(file.neighbours().map(|peer| peer.number).collect::<Vec<_>>(), [0, 1, 3]);
        assert_eq!(file.clock.start, 1_798_761_600_000);
        let text = "start 1798761600000\nperiod 1000\nround 250\norder 0 hold\norder 1 close\norder 2 open\nend\n";
        assert_eq!((file.context_text().as_str(), file.name_of(1), file.name_of(3)), (text, Some("close"), None));
        let watch = with_keys(include_str!("../../examples/four/watch.toml"));
        let watch: WatchFile = read_text(Path::new("w.toml"), &watch).expect("a configuration");
        assert_eq!(context_text(&watch.clock, &watch.orders), text);
    }

    #[test]
    fn what_is_wrong_is_refused() {
        let wrong = [
            ("number = 2", "number = 4"),
            ("close = 1", "close = 3"),
            ("close = 1", "close = 0"),
            ("close = 1", "\"\\u202eclose\" = 1"),
            ("period_ms = 1000", "period_ms = 0"),
            ("round_ms = 250", "round_ms = 9000"),
            ("bound_ms = 20", "bound_ms = 63"),
            ("drift_ppm = 4", "drift_ppm = 0"),
            ("drift_ppm = 4", "drift_ppm = 501"),
            ("source = \"kernel\"", "source = \"nobody\""),
            ("start = 2027-01-01T00:00:00Z", "start = 2027-01-01"),
            ("period_ms = 1000", "period_ms = 1000\nperiods = 3"),
            ("# combine = \"median\"", "combine = \"mean\""),
        ];
        for (old, new) in wrong {
            assert!(four().contains(old), "{old}");
            let told = read_text::<NodeFile>(Path::new("2.toml"), &four().replacen(old, new, 1));
            assert_eq!(told.expect_err(new).status, 3, "{new}");
        }
    }

    /// The bounds of keys as docs/REFERENCE.md has them. Behind each stands a key of the example with such bounds, and values that
    /// it may have and may not have. Other tests here try the bounds that stand without a key.
    const BOUNDS: [(&str, &str, &[&str], &[&str]); 14] = [
        ("2 to 16 files, one for each node", "roots", &[ROOTS], &["[\"0\"]", MANY_ROOTS]),
        ("below the number of `roots`", "number", &["3"], &["4", "-1"]),
        ("below the number of `roots`, each once", "", &[], &[]),
        ("1 to 64 with `[key]`, each once in the file, and else none", "", &[], &[]),
        ("1 to 64 without `[key]`, each once, and else none", "", &[], &[]),
        (
            "a moment is behind 1970, and ends with `Z`",
            "start",
            &["-1"],
            &["1969-12-31T23:59:59Z", "2027-01-01T00:00:00"],
        ),
        ("at least `round_ms` / 4", "period_ms", &["63", "4294967295"], &["62", "4294967296"]),
        ("4 to 4 `period_ms`", "round_ms", &["4", "4000"], &["3", "4001"]),
        ("0 to `round_ms` / 4", "bound_ms", &["0", "62"], &["-1", "63"]),
        ("1 to 500", "drift_ppm", &["1", "500"], &["0", "501"]),
        ("2 to 15 names, with the numbers from 0 on. A name has characters, none of them hidden", "", &[], &[]),
        ("each node, if there is `[key]`", "", &[], &[]),
        ("below 2^32", "days", &["0", "4294967295"], &["-1", "4294967296"]),
        ("below 2^63", "most_bytes", &["0", "9223372036854775807"], &["-1", "9223372036854775808"]),
    ];
    const ROOTS: &str = r#"["0", "1", "2", "3", "4", "5", "6", "7", "8", "9", "10", "11", "12", "13", "14", "15"]"#;
    const MANY_ROOTS: &str =
        r#"["0", "1", "2", "3", "4", "5", "6", "7", "8", "9", "10", "11", "12", "13", "14", "15", "16"]"#;

    #[test]
    fn bounds_are_as_the_page_has_them() {
        let page = include_str!("../../docs/REFERENCE.md");
        let section = page.split("\n## ").find(|it| it.starts_with("The configuration\n")).expect("the section");
        let rows = section.lines().filter(|line| line.starts_with("| ") && line.contains('`'));
        let values = rows.map(|row| row.split(" | ").nth(1).expect("a column"));
        let told: BTreeSet<&str> = values.filter_map(|value| Some(value.split_once(": ")?.1)).collect();
        assert_eq!(told, BOUNDS.iter().map(|it| it.0).collect());
        let text = four().replace("bound_ms = 20", "bound_ms = 0");
        for (bounds, key, may, may_not) in BOUNDS.iter().filter(|it| !it.1.is_empty()) {
            let front = format!("\n{key} = ");
            let (before, behind) = text.split_once(&front).expect("the key");
            let rest = behind.split_once('\n').expect("a line").1;
            let takes = |value| {
                let text = format!("{before}{front}{value}\n{rest}");
                read_text::<NodeFile>(Path::new("2.toml"), &text).map_err(|told| told.line)
            };
            may.iter().for_each(|it| assert!(takes(it).is_ok(), "{key}, {bounds}: {:?}", takes(it).err()));
            may_not.iter().for_each(|it| assert!(takes(it).is_err(), "{key}, {bounds}: {it}"));
        }
    }

    #[test]
    fn keys_are_named_once_each() {
        let told = |text: String| read_text::<NodeFile>(Path::new("2.toml"), &text).expect_err("refused").line;
        let (one, three) = (pin('1'), pin('3'));
        assert!(told(four().replace(&one, &three)).contains("is there twice"));
        assert!(
            told(four().replace(&format!("keys = [\"{one}\"]\n"), "")).contains("[[peers]] 1: with [key] it has keys")
        );
        assert!(told(four().replace("[key]\nfile = \"2/key\"\n", "")).contains("there is no [key]"));
        let more = format!("{one}\", \"{}\", \"{}", pin('a'), pin('b'));
        assert!(told(four().replace(&one, &more)).contains("more than 2 pins"));
        assert!(told(four().replace(&one, "1234")).contains("64 hexadecimal digits"));
        let file: NodeFile = read_text(Path::new("2.toml"), &four()).expect("a configuration");
        let (own, other) = (file.neighbours().next().expect("a neighbour").keys[0], file.peers[2].keys[0]);
        assert!(
            file.check_pin(Some(own)).is_err() && file.check_pin(Some(other)).is_ok() && file.check_pin(None).is_ok()
        );
        let renewed = four().replace(&one, &format!("{one}\", \"{}", pin('a')));
        assert!(read_text::<NodeFile>(Path::new("2.toml"), &renewed).is_ok());
        let watch = with_keys(include_str!("../../examples/four/watch.toml"));
        let fewer = watch.replace(&format!("[[nodes]]\nnumber = 3\nkeys = [\"{three}\"]\n"), "");
        assert!(read_text::<WatchFile>(Path::new("w.toml"), &fewer)
            .expect_err("refused")
            .line
            .contains("each of 4 nodes"));
    }

    #[test]
    fn devices_have_keys_or_addresses() {
        let read = |text: String| read_text::<NodeFile>(Path::new("2.toml"), &text).map_err(|told| told.line);
        let of = |lines: &str| format!("{}\n[devices]\nlisten = \"127.0.0.1:4732\"\n{lines}\n", four());
        let keyed = read(of(&format!("keys = [\"{}\", \"{}\"]", pin('a'), pin('b')))).expect("a configuration");
        assert_eq!(keyed.devices.map(|it| it.keys.len()), Some(2));
        let plain = |lines: &str| {
            let text = of(lines).replace("[key]\nfile = \"2/key\"\n", "");
            text.lines().filter(|line| !line.starts_with("keys = [\"")).map(|it| format!("{it}\n")).collect::<String>()
        };
        assert!(read(plain("addresses = [\"192.0.2.9\", \"2001:db8::1\"]")).is_ok());
        let one = format!("keys = [\"{}\"]", pin('1'));
        let many = |count| format!("keys = {:?}", (1..=count).map(|it| format!("{it:064x}")).collect::<Vec<_>>());
        assert!(read(of(&many(64))).is_ok());
        let wrong = [
            (of(&many(65)), "more than 64"),
            (of(""), "with [key] it has keys"),
            (of("addresses = [\"192.0.2.9\"]"), "with [key] it has keys"),
            (of("keys = [\"1\"]"), "64 hexadecimal digits"),
            (of(&one), "is there twice"),
            (plain(""), "without [key] it has addresses"),
            (plain("addresses = [\"192.0.2.9\", \"::ffff:192.0.2.9\"]"), "is there twice"),
            (
                plain(&format!("addresses = {:?}", (0..65).map(|it| format!("192.0.2.{it}")).collect::<Vec<_>>())),
                "more than 64",
            ),
        ];
        for (text, told) in wrong {
            let line = read(text).expect_err(told);
            assert!(line.contains(told), "{line}, and not {told}");
        }
    }

    #[test]
    fn moments_are_numbers_or_texts() {
        for moment in ["1798761600000", "\"2027-01-01T00:00:00Z\"", "2027-01-01T00:00:00.000Z"] {
            let text = four().replace("2027-01-01T00:00:00Z", moment);
            let file: NodeFile = read_text(Path::new("2.toml"), &text).expect(moment);
            assert_eq!(file.clock.start, 1_798_761_600_000);
        }
    }
}
