//! A state that is kept on the disk, so that the seed of each set is handed out once.

use std::ffi::OsString;
use std::fmt;
use std::fs::{self, File, OpenOptions};
use std::io::{self, Read, Write};
use std::os::unix::fs::{MetadataExt, OpenOptionsExt};
use std::os::unix::io::AsRawFd;
use std::path::{Path, PathBuf};

use crate::states::{Secret, SetState, SystemId, SETS_MOST, STATE_BYTES};
use crate::{Fault, Seed};

/// The bytes of a mark: the number of the newest state, and the id of its system.
const MARK_BYTES: usize = 36;
/// The bytes of a state in front of its state proper, and in front of the id of its system.
const NUMBER_BYTES: usize = 4;
const SYSTEM_AT: usize = 36;
/// Of `flock`: nobody else has the lock; it ends.
const LOCK_EX: i32 = 2;
const LOCK_UN: i32 = 8;

extern "C" {
    fn flock(file: i32, operation: i32) -> i32;
}

/// Why a kept state gives no seed. No seed was handed out.
#[derive(Debug)]
pub enum StateFault {
    /// A file or a folder could not be read, written or waited for. The state may have gone on to the next set.
    File(PathBuf, io::Error),
    /// The file is no whole record, or no plain file with one name, or others may use it: the mode of a state has to be 600.
    NoRecord(PathBuf),
    /// The file is of another system than the one that is expected.
    OtherSystem(PathBuf),
    /// The state is older than its mark: it was restored from an old image, or the secret was put in its place. The seeds
    /// of the sets between may have signed.
    Older {
        /// The number of the state.
        state: u32,
        /// The number of the mark.
        mark: u32,
    },
    /// The seed of the set is not to be had: it was handed out, or passed over, or the system has no such set.
    Used {
        /// The set that was asked for.
        set: u32,
        /// The least set whose seed may still be handed out.
        next: u32,
    },
    /// A call of the library ended so.
    Call(Fault),
}

impl fmt::Display for StateFault {
    fn fmt(&self, to: &mut fmt::Formatter<'_>) -> fmt::Result {
        match self {
            StateFault::File(path, told) => write!(to, "{}: {told}", path.display()),
            StateFault::NoRecord(path) => {
                write!(to, "{}: no whole record in a plain file with one name, or others may use it", path.display())
            }
            StateFault::OtherSystem(path) => write!(to, "{}: of another system", path.display()),
            StateFault::Older { state, mark } => write!(to, "the state is of set {state}, and its mark of set {mark}"),
            StateFault::Used { set, next } => write!(to, "the seed of set {set} is used: the next set is {next}"),
            StateFault::Call(fault) => write!(to, "{fault}"),
        }
    }
}

impl std::error::Error for StateFault {
    fn source(&self) -> Option<&(dyn std::error::Error + 'static)> {
        match self {
            StateFault::File(_, told) => Some(told),
            StateFault::Call(fault) => Some(fault),
            _ => None,
        }
    }
}

impl From<Fault> for StateFault {
    fn from(fault: Fault) -> StateFault {
        StateFault::Call(fault)
    }
}

/// A node's state in a file, and the mark of its number in a second file, which belongs to another disk or machine.
///
/// The files have the forms of `docs/IDENTITIES.md`, and the packages for C and Python keep the same. A call reads them
/// anew under a lock, so threads and processes may call at the same time. The lock is `flock` on the folder of the state,
/// which has to be on a file system that has it. A call waits as long as a node of the program `vamuretu` has this folder.
/// A file that is a link, or has a second name, is refused: the next state would be put into the place of the link.
#[derive(Debug, Clone, PartialEq, Eq)]
pub struct KeptState {
    state: PathBuf,
    mark: PathBuf,
    system: SystemId,
}

impl KeptState {
    /// The state in a file, with the mark in a second one, for the system with this id. Nothing is read or written yet.
    pub fn new(state: impl Into<PathBuf>, mark: impl Into<PathBuf>, system: SystemId) -> KeptState {
        KeptState { state: state.into(), mark: mark.into(), system }
    }

    /// Makes the state of set 0 of a secret, which serves this system alone, and its mark. The file of the state must not
    /// be there. A mark may be, but not one of a later set: [`StateFault::Older`]. Both are on the disk when the call
    /// returns, also if their folders are new.
    pub fn make(&self, secret: &Secret) -> Result<(), StateFault> {
        let _lock = self.lock()?;
        let first = SetState::first(secret, &self.system)?;
        if fs::symlink_metadata(&self.state).is_ok() {
            return Err(StateFault::File(self.state.clone(), io::ErrorKind::AlreadyExists.into()));
        }
        if fs::symlink_metadata(&self.mark).is_ok() {
            self.compare(&first)?;
        }
        for path in [&self.state, &self.mark] {
            sync_folder(&folder_of(path).join(".."))?;
        }
        // The mark comes first: a state that is there has one.
        let [of_state, of_mark] = self.write(&first)?;
        put(&of_mark, &self.mark)?;
        put(&of_state, &self.state)
    }

    /// The number of the least set whose seed may still be handed out.
    pub fn next_set(&self) -> Result<u32, StateFault> {
        let _lock = self.lock()?;
        self.read().map(|state| state.number())
    }

    /// Hands out the seed of a set, once ever, and ends all earlier sets too. The state of the next set is on the disk
    /// before this returns, and so is its mark. If power fails before, the seed is lost, and nobody has it.
    ///
    /// The seed makes the keys of the runs of this set: of one run in version 1, of four in version 2. A process that ends
    /// has no way back to it.
    pub fn take(&self, set: u32) -> Result<Seed, StateFault> {
        let _lock = self.lock()?;
        let state = self.read()?;
        if set < state.number() || set >= SETS_MOST {
            return Err(StateFault::Used { set, next: state.number() });
        }
        let of_set = state.advance_to(set)?;
        let seed = of_set.seed(&self.system)?;
        self.keep(&of_set.advance_to(set + 1)?)?;
        Ok(seed)
    }

    /// Brings a state that is older than its mark to the set of the mark, and tells the number of this set. So a state that
    /// was restored from an old image serves again, if the mark was not restored too: no seed before the mark is handed
    /// out. Another state stays as it is.
    pub fn catch_up(&self) -> Result<u32, StateFault> {
        let _lock = self.lock()?;
        match self.read() {
            Err(StateFault::Older { mark, .. }) => {
                self.keep(&self.record()?.advance_to(mark)?)?;
                Ok(mark)
            }
            told => told.map(|state| state.number()),
        }
    }

    /// Waits until no other call has the folder of the state.
    fn lock(&self) -> Result<Lock, StateFault> {
        let folder = folder_of(&self.state);
        let open = File::open(&folder).map_err(of(&folder))?;
        loop {
            // SAFETY: the call takes two numbers, and the file is open.
            if unsafe { flock(open.as_raw_fd(), LOCK_EX) } == 0 {
                return Ok(Lock(open));
            }
            let told = io::Error::last_os_error();
            if told.kind() != io::ErrorKind::Interrupted {
                return Err(StateFault::File(folder, told));
            }
        }
    }

    /// The state, which is not older than its mark.
    fn read(&self) -> Result<SetState, StateFault> {
        let state = self.record()?;
        self.compare(&state).map(|()| state)
    }

    /// The state as its file has it.
    fn record(&self) -> Result<SetState, StateFault> {
        let state = SetState::of_bytes(&read_exactly::<STATE_BYTES>(&self.state, 0o077)?);
        if state.system() != self.system {
            return Err(StateFault::OtherSystem(self.state.clone()));
        }
        Ok(state)
    }

    /// Compares a state with its mark.
    fn compare(&self, state: &SetState) -> Result<(), StateFault> {
        let mark = read_exactly::<MARK_BYTES>(&self.mark, 0)?;
        let (number, system) = mark.split_at(NUMBER_BYTES);
        if system != self.system {
            return Err(StateFault::OtherSystem(self.mark.clone()));
        }
        let mark = number.iter().fold(0, |number, &byte| number << 8 | u32::from(byte));
        if state.number() < mark {
            return Err(StateFault::Older { state: state.number(), mark });
        }
        Ok(())
    }

    /// Writes a state and its mark beside those that are there, and tells their names.
    fn write(&self, state: &SetState) -> Result<[PathBuf; 2], StateFault> {
        let bytes = state.as_bytes();
        let mark = [&bytes[..NUMBER_BYTES], &bytes[SYSTEM_AT..]].concat();
        Ok([write_beside(&self.state, 0o600, bytes)?, write_beside(&self.mark, 0o666, &mark)?])
    }

    /// Puts a state and its mark into the places of those that are there. The state comes first, so power that fails between
    /// leaves a mark that is older, which is no fault.
    fn keep(&self, state: &SetState) -> Result<(), StateFault> {
        let [of_state, of_mark] = self.write(state)?;
        put(&of_state, &self.state)?;
        put(&of_mark, &self.mark)
    }
}

/// A folder that no other call has, until this is dropped.
struct Lock(File);

impl Drop for Lock {
    fn drop(&mut self) {
        // A process that was forked meanwhile has the file too, so closing it here would not end the lock.
        // SAFETY: as in `lock`.
        unsafe { flock(self.0.as_raw_fd(), LOCK_UN) };
    }
}

/// The fault of a path that a call of the system told.
fn of(path: &Path) -> impl Fn(io::Error) -> StateFault + '_ {
    |told| StateFault::File(path.to_owned(), told)
}

/// The folder of a file.
fn folder_of(path: &Path) -> PathBuf {
    match path.parent() {
        Some(folder) if !folder.as_os_str().is_empty() => folder.to_owned(),
        _ => PathBuf::from("."),
    }
}

/// All of a plain file with one name that has so many bytes, and that others don't have the rights of this mode on.
fn read_exactly<const BYTES: usize>(path: &Path, refused: u32) -> Result<[u8; BYTES], StateFault> {
    let told = fs::symlink_metadata(path).map_err(of(path))?;
    if !told.is_file() || told.nlink() != 1 || told.mode() & refused != 0 {
        return Err(StateFault::NoRecord(path.to_owned()));
    }
    let file = File::open(path).map_err(of(path))?;
    let mut bytes = Vec::with_capacity(BYTES + 1);
    file.take(BYTES as u64 + 1).read_to_end(&mut bytes).map_err(of(path))?;
    bytes.try_into().map_err(|_| StateFault::NoRecord(path.to_owned()))
}

/// Writes a file beside a path, waits until its bytes are on the disk, and tells its name.
fn write_beside(path: &Path, mode: u32, bytes: &[u8]) -> Result<PathBuf, StateFault> {
    let mut name = OsString::from(path);
    name.push(".new");
    let fresh = PathBuf::from(name);
    let written = || {
        let mut file = OpenOptions::new().write(true).create(true).truncate(true).mode(mode).open(&fresh)?;
        file.write_all(bytes)?;
        file.sync_all()
    };
    written().map_err(of(&fresh))?;
    Ok(fresh)
}

/// Puts a file into the place of another. Power that fails leaves one of the two, whole.
fn put(fresh: &Path, path: &Path) -> Result<(), StateFault> {
    fs::rename(fresh, path).map_err(of(path))?;
    sync_folder(&folder_of(path))
}

/// Waits until the names in a folder are on the disk.
fn sync_folder(folder: &Path) -> Result<(), StateFault> {
    File::open(folder).and_then(|open| open.sync_all()).map_err(of(folder))
}
