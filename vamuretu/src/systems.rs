//! The system: its numbers, and the header of each of its runs.

use std::fs::{self, File};
use std::io::{ErrorKind, Read};
use std::path::{Path, PathBuf};
use std::sync::{Arc, Mutex, MutexGuard};
use std::time::Instant;

use sd_notify::NotifyState;
use sha2::{Digest, Sha256};
use vamuretu::{Admitted, Expected, Fault, Header, RunId, Version};

use crate::config::{self, Id};
use crate::roots::{Opening, Roots};
use crate::End;

/// What an admission begins with.
const MARK: &[u8] = b"SMA1";
/// How long the roots of a node may take to be hashed, in microseconds, before the system's manager holds a start for one that hangs.
const MOST_HASHING: u32 = 120_000_000;
/// The most bytes of a file of roots, and one more.
const MOST_ROOTS: u64 = 6 + (32 << 20);

/// A set of keys: its number, and the last run that it serves.
#[derive(Debug, Clone, Copy, PartialEq, Eq)]
pub struct Set {
    pub number: u32,
    pub last: u32,
}

/// A run of the system.
#[derive(Debug, Clone)]
pub struct Run {
    pub number: u32,
    pub set: Set,
    pub header: Header,
    pub run_id: RunId,
    /// The node that each general is.
    pub nodes: Vec<u32>,
    /// How many nodes may be faulty: m.
    pub traitors: u32,
    /// How many orders there are: q.
    pub orders: u32,
    /// The admission of its set, and the id of the system.
    admission: Arc<[u8]>,
    system: Id,
}

impl Run {
    /// What an input is expected to be of.
    pub fn expected(&self) -> Expected<'_> {
        Expected::Admitted { admission: &self.admission, system: Some(&self.system) }
    }

    /// The admission of its set.
    pub fn admission(&self) -> Arc<[u8]> {
        self.admission.clone()
    }

    /// The general that a node is.
    pub fn general_of(&self, node: u32) -> Option<u32> {
        self.nodes.iter().position(|&it| it == node).and_then(|place| u32::try_from(place).ok())
    }
}

/// The roots of a file, or `None` where it is no file of roots.
fn roots_of(path: &Path) -> Result<Option<Roots>, End> {
    let _ = sd_notify::notify(false, &[NotifyState::ExtendTimeoutUsec(MOST_HASHING)]);
    match Roots::open(path) {
        Err(told) if told.kind() == ErrorKind::InvalidData => Ok(None),
        told => told.map(Some).map_err(End::file(path)),
    }
}

/// What is wrong with the files of a system that has no first run, as the library says it.
fn fault_of(config: &config::System, system: &[u8]) -> End {
    let read = |path: &PathBuf| {
        let mut bytes = vec![];
        let file = File::open(path).map_err(End::file(path))?;
        file.take(MOST_ROOTS).read_to_end(&mut bytes).map_err(End::file(path)).map(|_| bytes)
    };
    let files = config.roots.iter().map(read).collect::<Result<Vec<_>, End>>();
    let told = files.map(|files| {
        let files: Vec<(u32, &[u8])> = (0..).zip(&files).map(|(node, file)| (node, &file[..])).collect();
        let first =
            vamuretu::admission(0, system, &files).and_then(|made| vamuretu::admit(0, &made.bytes, Some(&config.id)));
        first.map_or_else(|told| told.to_string(), |_| "the files have changed since they were opened".into())
    });
    told.map_or_else(|end| end, |told| End::fault(&config.file, format!("run 0: {told}")))
}

/// A system whose id is that of the configuration.
pub struct Systems {
    config: config::System,
    system: Vec<u8>,
    roots: Vec<Roots>,
    context: Id,
    version: Version,
    levels: u32,
    turns: bool,
    /// The admission that was made last, with the number of its set.
    newest: Mutex<Option<(u32, Arc<[u8]>)>>,
}

impl Systems {
    /// Reads the files of a system, hashes all roots, and has the first run admitted. This compares the tops over the roots with
    /// the identities of the system.
    pub fn open(config: &config::System) -> Result<Systems, End> {
        let system = fs::read(&config.file).map_err(End::file(&config.file))?;
        // The context stands last.
        let context = *system.last_chunk::<32>().ok_or_else(|| End::fault(&config.file, "no system"))?;
        let begun = Instant::now();
        let Some(roots) = config.roots.iter().map(|path| roots_of(path)).collect::<Result<Option<Vec<_>>, End>>()?
        else {
            return Err(fault_of(config, &system));
        };
        let levels = roots.first().map_or(0, |it| it.levels);
        let (config, newest) = (config.clone(), Mutex::default());
        let version = Version::One;
        let mut made = Systems { config, system, roots, context, version, levels, turns: false, newest };
        let first = made.run(0).map_err(|_| fault_of(&made.config, &made.system))?;
        made.version = first.header.version();
        if made.roots.iter().any(|roots| roots.version != made.version) {
            return Err(fault_of(&made.config, &made.system));
        }
        made.turns = made.runs() > 1 && made.run(1)?.nodes.first() == Some(&1);
        let (nodes, sets, seconds) = (made.nodes(), 1_u32 << levels, begun.elapsed().as_secs_f32());
        tracing::info!(nodes, sets, seconds, "the roots are those of the system");
        Ok(made)
    }

    /// The node that proposes in a run.
    pub fn proposer_of(&self, number: u32) -> u32 {
        if self.turns {
            number % self.nodes()
        } else {
            0
        }
    }

    /// Whether the nodes propose by turns.
    pub fn has_turns(&self) -> bool {
        self.turns
    }

    /// How many nodes there are.
    pub fn nodes(&self) -> u32 {
        self.roots.len() as u32
    }

    /// Compares the context, which is what all users agree on, with the text of a configuration.
    pub fn check_context(&self, text: &str) -> Result<(), End> {
        let context: Id = Sha256::digest(text).into();
        if context == self.context {
            return Ok(());
        }
        let told = format!("its context is not that of [clock] and [orders], {}", hex::encode(context));
        Err(End::fault(&self.config.file, told))
    }

    /// How many runs the system has, numbered from 0.
    pub fn runs(&self) -> u64 {
        self.slots() << self.levels
    }

    /// How many runs a set serves.
    pub fn slots(&self) -> u64 {
        match self.version {
            Version::One => 1,
            Version::Two => 4,
        }
    }

    pub fn version(&self) -> Version {
        self.version
    }

    /// The set of a run.
    pub fn set_of(&self, number: u32) -> Set {
        let slots = self.slots() as u32;
        Set { number: number / slots, last: number / slots * slots + (slots - 1) }
    }

    /// The admission of the set of a run.
    pub fn admission(&self, number: u32) -> Result<Arc<[u8]>, End> {
        let set = self.set_of(number).number;
        if u64::from(number) >= self.runs() {
            return Err(End::over(format!("the system has no run {number}")));
        }
        if let Some((_, admission)) = self.newest().as_ref().filter(|it| it.0 == set) {
            return Ok(admission.clone());
        }
        let mut bytes = [MARK, &self.system, &set.to_be_bytes()].concat();
        for (roots, path) in self.roots.iter().zip(&self.config.roots) {
            let Opening { root, siblings } = roots.opening(set).map_err(End::file(path))?;
            bytes.extend(root);
            bytes.push(siblings.len() as u8);
            bytes.extend(siblings.as_flattened());
        }
        let admission: Arc<[u8]> = bytes.into();
        *self.newest() = Some((set, admission.clone()));
        Ok(admission)
    }

    fn newest(&self) -> MutexGuard<'_, Option<(u32, Arc<[u8]>)>> {
        self.newest.lock().unwrap_or_else(|told| told.into_inner())
    }

    /// What a call ended with that told of a run.
    fn wrong(&self, number: u32) -> impl Fn(Fault) -> End + '_ {
        move |told| End::fault(&self.config.file, format!("run {number}: {told}"))
    }

    /// A run of the system, by its number.
    pub fn run(&self, number: u32) -> Result<Run, End> {
        let admission = self.admission(number)?;
        let admitted = vamuretu::admit(number, &admission, Some(&self.config.id)).map_err(self.wrong(number))?;
        let Admitted { header, run } = admitted;
        let (set, nodes, run_id) = (self.set_of(number), run.nodes, header.run_id().map_err(self.wrong(number))?);
        let (traitors, orders) = (header.traitors(), header.orders());
        let system = self.config.id;
        Ok(Run { number, set, header, run_id, nodes, traitors, orders, admission, system })
    }
}

#[cfg(test)]
mod tests {
    use vamuretu::Terms;

    use super::*;
    use crate::roots::tests::file;

    /// The files of a system of three nodes, whose roots are nobody's, in a folder of their own.
    fn files(name: &str, version: Version, levels: u32, turns: bool) -> (config::System, Vec<Vec<u8>>) {
        let folder = std::env::temp_dir().join(format!("vamuretu.{}.{name}", std::process::id()));
        fs::create_dir_all(&folder).expect("a folder");
        let roots: Vec<Vec<u8>> = (1..4).map(|node| file(version, levels, node)).collect();
        let tops = roots.iter().map(|it| format!("root {}\n", vamuretu::identity(it).expect("roots")));
        let front = "generals 3\nedge 0 1\nedge 0 2\nedge 1 2\ntraitors 1\ndiameter 1\norders 2\nchoice 0\n";
        let text = format!("{front}{}end\n", tops.collect::<String>());
        let made = vamuretu::system(&Terms { version, levels, turns, context: [7; 32] }, text.as_bytes());
        let made = made.expect("a system");
        fs::write(folder.join("system"), &made.bytes).expect("a disk");
        let path = |node: usize| folder.join(format!("{node}.roots"));
        roots.iter().enumerate().for_each(|(node, it)| fs::write(path(node), it).expect("a disk"));
        let roots_at = (0..3).map(path).collect();
        (config::System { file: folder.join("system"), id: made.system, roots: roots_at }, roots)
    }

    fn remove(config: &config::System) {
        fs::remove_dir_all(config.file.parent().expect("a folder")).expect("taken away");
    }

    #[test]
    fn admissions_are_those_of_the_library() {
        let cases =
            [(Version::Two, 0, true), (Version::Two, 9, true), (Version::Two, 3, false), (Version::One, 4, true)];
        for (version, levels, turns) in cases {
            let (config, roots) = files(&format!("same{levels}"), version, levels, turns);
            let made = Systems::open(&config).unwrap_or_else(|end| panic!("{end}"));
            let files: Vec<(u32, &[u8])> = (0..).zip(&roots).map(|(node, file)| (node, &file[..])).collect();
            let system = fs::read(&config.file).expect("a system");
            assert_eq!((made.runs(), made.version()), (made.slots() << levels, version));
            for number in [0, 1, made.runs() as u32 / 2, made.runs() as u32 - 1] {
                let wanted = vamuretu::admission(number, &system, &files).expect("an admission");
                assert_eq!(
                    (&made.admission(number).expect("a run")[..], wanted.system),
                    (&wanted.bytes[..], config.id)
                );
                assert_eq!(made.run(number).expect("a run").nodes[0], if turns { number % 3 } else { 0 });
            }
            assert_eq!(made.run(made.runs() as u32).expect_err("no run").status, 6);
            remove(&config);
        }
    }

    #[test]
    fn roots_of_others_are_a_fault_at_the_start() {
        let (config, roots) = files("others", Version::Two, 9, true);
        let last = roots[1].len() - 1;
        let bent = [&roots[1][..last], &[roots[1][last] ^ 1]].concat();
        let version = [b"SMI1", &roots[1][4..]].concat();
        let lower = file(Version::Two, 8, 2);
        let told = [
            (&bent, "A10 node 1"),
            (&version, "A10 node 1"),
            (&lower, "A10 node 1"),
            (&roots[0], "A10 node 1"),
            (&roots[1][..last].to_vec(), "I1"),
            (&b"no roots".to_vec(), "I2"),
            (&[&roots[1][..], &[0]].concat(), "I4"),
        ];
        for (bytes, fault) in told {
            fs::write(&config.roots[1], bytes).expect("a disk");
            let end = Systems::open(&config).map(|_| ()).expect_err("a fault");
            assert!(end.status == 3 && end.line.ends_with(fault), "{end}, and not {fault}");
        }
        fs::write(&config.roots[1], &roots[1]).expect("a disk");
        let two = config::System { roots: config.roots[..2].to_vec(), ..config.clone() };
        assert!(Systems::open(&two).map(|_| ()).expect_err("a file is missing").line.ends_with("A9"));
        let other = config::System { id: [0; 32], ..config.clone() };
        assert_eq!(Systems::open(&other).map(|_| ()).expect_err("another system").status, 3);
        remove(&config);
    }

    #[test]
    fn roots_that_change_are_refused_and_tried_again() {
        let (config, roots) = files("change", Version::Two, 9, true);
        let made = Systems::open(&config).unwrap_or_else(|end| panic!("{end}"));
        fs::write(&config.roots[2], file(Version::Two, 9, 9)).expect("a disk");
        assert!(made.run(8).expect_err("other roots").line.contains("2.roots"));
        fs::write(&config.roots[2], &roots[2]).expect("a disk");
        assert_eq!(made.run(8).expect("a run").number, 8);
        remove(&config);
    }
}
