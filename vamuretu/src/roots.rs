//! The roots of a node's sets of keys, and the tree over them, whose top is the node's identity.
//!
//! All roots are hashed once. The upper levels of the tree stay in memory, and the roots in their file: an opening takes the
//! hashes of one part of the tree, whatever the number of levels. What is made here is not believed: the library looks at each
//! admission, and so compares the tops with those of the system.

use std::fs::File;
use std::io::{self, ErrorKind};
use std::iter::successors;
use std::os::unix::fs::FileExt;
use std::path::Path;
use std::thread;

use sha2::{Digest, Sha256};
use vamuretu::Version;

/// A root, or a node of a tree.
type Hash = [u8; 32];

/// The bytes in front of the roots: the mark, and how many levels there are.
const HEAD: usize = 5;
const MOST_LEVELS: u32 = 20;
/// How many levels a part of a tree has, which are hashed again for each opening.
const PART_LEVELS: u32 = 8;
/// The first bytes of what is hashed.
const LEAF: u8 = 0x42;
const NODE: u8 = 0x43;

/// The file of a node's roots, with the upper levels of the tree over them.
pub struct Roots {
    file: File,
    pub version: Version,
    pub levels: u32,
    /// From the tops of the parts to the top of all, level by level.
    upper: Vec<Vec<Hash>>,
}

/// The root of a set, and the siblings of its leaf and of the nodes above it, from the bottom up.
pub struct Opening {
    pub root: Hash,
    pub siblings: Vec<Hash>,
}

fn digest(first: u8, hashes: &[Hash]) -> Hash {
    Sha256::new().chain_update([first]).chain_update(hashes.as_flattened()).finalize().into()
}

/// The nodes of a tree, level by level from its leaves to its top.
fn levels_above(leaves: Vec<Hash>) -> Vec<Vec<Hash>> {
    let above = |below: &Vec<Hash>| {
        (below.len() > 1).then(|| below.chunks_exact(2).map(|pair| digest(NODE, pair)).collect::<Vec<Hash>>())
    };
    successors(Some(leaves), above).collect()
}

/// The siblings of a node and of those above it, from all levels but the last.
fn siblings(levels: &[Vec<Hash>], place: usize) -> impl Iterator<Item = Hash> + '_ {
    let below = &levels[..levels.len() - 1];
    below.iter().enumerate().map(move |(level, nodes)| nodes[(place >> level) ^ 1])
}

fn wrong(what: &str) -> io::Error {
    io::Error::new(ErrorKind::InvalidData, what)
}

impl Roots {
    /// Opens a file of roots, and hashes them all. `InvalidData` for one that has no roots, or not all or more of them.
    pub fn open(path: &Path) -> io::Result<Roots> {
        let file = File::open(path)?;
        let length = file.metadata()?.len();
        let mut head = [0; HEAD];
        if length >= HEAD as u64 {
            file.read_exact_at(&mut head, 0)?;
        }
        let version = match &head[..4] {
            b"SMI1" => Version::One,
            b"SMI2" => Version::Two,
            _ => return Err(wrong("no roots")),
        };
        let levels = u32::from(head[4]);
        if levels > MOST_LEVELS || length != HEAD as u64 + (32 << levels) {
            return Err(wrong("not so many roots as it has levels for"));
        }
        let mut made = Roots { file, version, levels, upper: vec![] };
        made.upper = levels_above(made.tops()?);
        Ok(made)
    }

    /// How many levels a part has.
    fn part_levels(&self) -> u32 {
        self.levels.min(PART_LEVELS)
    }

    /// The roots of a part.
    fn part(&self, part: usize) -> io::Result<Vec<Hash>> {
        let mut roots = vec![[0; 32]; 1 << self.part_levels()];
        let first = part << self.part_levels();
        self.file.read_exact_at(roots.as_flattened_mut(), (HEAD + 32 * first) as u64)?;
        Ok(roots)
    }

    /// The levels over the roots of a part.
    fn tree(roots: &[Hash]) -> Vec<Vec<Hash>> {
        levels_above(roots.iter().map(|root| digest(LEAF, &[*root])).collect())
    }

    /// The tops of all parts, by a thread for each core.
    fn tops(&self) -> io::Result<Vec<Hash>> {
        let mut tops = vec![[0; 32]; 1 << (self.levels - self.part_levels())];
        let share = tops.len().div_ceil(thread::available_parallelism().map_or(1, |it| it.get()));
        let fill = |first: usize, tops: &mut [Hash]| {
            (first..).zip(tops).try_for_each(|(part, top)| {
                *top = Self::tree(&self.part(part)?).last().map_or(*top, |last| last[0]);
                Ok(())
            })
        };
        thread::scope(|scope| {
            let shares = tops.chunks_mut(share).enumerate();
            let started: Vec<_> = shares.map(|(place, tops)| scope.spawn(move || fill(place * share, tops))).collect();
            let ended =
                |it: thread::ScopedJoinHandle<io::Result<()>>| it.join().map_err(|_| wrong("a thread ended"))?;
            started.into_iter().try_for_each(ended)
        })?;
        Ok(tops)
    }

    /// The opening of a set, whose number is one of the file's. `InvalidData` where its part is not as it was at first.
    pub fn opening(&self, set: u32) -> io::Result<Opening> {
        let (set, bits) = (set as usize, self.part_levels());
        let (part, place) = (set >> bits, set & ((1 << bits) - 1));
        let roots = self.part(part)?;
        let lower = Self::tree(&roots);
        if lower.last().map(|top| top[0]) != Some(self.upper[0][part]) {
            return Err(wrong("the file has changed since it was opened"));
        }
        let siblings = siblings(&lower, place).chain(siblings(&self.upper, part)).collect();
        Ok(Opening { root: roots[place], siblings })
    }
}

#[cfg(test)]
pub mod tests {
    use super::*;

    /// A file of roots that are nobody's.
    pub fn file(version: Version, levels: u32, node: u8) -> Vec<u8> {
        let root = |set: u32| digest(node, &[digest(0, &[[set as u8; 32]]), [(set >> 8) as u8; 32]]);
        let front = [b"SMI", &[b'0' + version.number(), levels as u8][..]].concat();
        (0..1 << levels).fold(front, |bytes, set| [bytes, root(set).to_vec()].concat())
    }

    /// What `read` makes of a file with these bytes.
    fn opened<T>(bytes: &[u8], name: &str, read: impl FnOnce(io::Result<Roots>, &Path) -> T) -> T {
        let path = std::env::temp_dir().join(format!("vamuretu.{}.{name}.roots", std::process::id()));
        std::fs::write(&path, bytes).expect("a disk");
        let told = read(Roots::open(&path), &path);
        std::fs::remove_file(&path).expect("a file");
        told
    }

    /// The top over roots, by halves.
    fn top(roots: &[u8]) -> Hash {
        match roots.len() {
            32 => Sha256::new().chain_update([LEAF]).chain_update(roots).finalize().into(),
            length => digest(NODE, &[top(&roots[..length / 2]), top(&roots[length / 2..])]),
        }
    }

    #[test]
    fn openings_lead_to_the_top() {
        for levels in [0, 1, 7, 8, 9, 11] {
            let bytes = file(Version::Two, levels, 1);
            let made = opened(&bytes, &format!("leads{levels}"), |made, _| made.expect("roots"));
            assert_eq!((made.levels, made.version), (levels, Version::Two));
            for set in (0..1_u32 << levels).step_by(3) {
                let Opening { root, siblings } = made.opening(set).expect("a set");
                assert_eq!(root, bytes[HEAD + 32 * set as usize..][..32]);
                assert_eq!(siblings.len(), levels as usize);
                let join = |node, (level, sibling): (usize, &Hash)| match set >> level & 1 {
                    0 => digest(NODE, &[node, *sibling]),
                    _ => digest(NODE, &[*sibling, node]),
                };
                assert_eq!(siblings.iter().enumerate().fold(digest(LEAF, &[root]), join), top(&bytes[HEAD..]));
            }
        }
    }

    #[test]
    fn what_has_no_roots_is_refused() {
        let good = file(Version::One, 2, 1);
        let longer = [&good[..], &[0]].concat();
        let levels = [&good[..4], &[3], &good[5..]].concat();
        let (most, mark) = ([&good[..4], &[255]].concat(), [b"SMI3", &good[4..]].concat());
        for bytes in [&good[..0], &good[..4], &good[..5], &good[..good.len() - 1], &longer, &levels, &most, &mark] {
            let told = opened(bytes, "refused", |made, _| made.map(|_| ()).expect_err("no roots"));
            assert_eq!(told.kind(), ErrorKind::InvalidData);
        }
    }

    #[test]
    fn a_file_that_changes_is_seen() {
        let bytes = file(Version::Two, 9, 1);
        opened(&bytes, "changes", |made, path| {
            let made = made.expect("roots");
            let last = bytes.len() - 1;
            let bent = [&bytes[..last], &[bytes[last] ^ 1]].concat();
            std::fs::write(path, &bent).expect("a disk");
            assert!(made.opening(0).is_ok() && made.opening(255).is_ok());
            assert_eq!(made.opening(256).map(|_| ()).expect_err("another part").kind(), ErrorKind::InvalidData);
            std::fs::write(path, &bytes[..last]).expect("a disk");
            assert!(made.opening(511).is_err() && made.opening(0).is_ok());
        });
    }
}
