//! Files that a loss of power leaves whole: the old one or the new one. Folders that one process has.

use std::ffi::OsString;
use std::fs::{self, File, OpenOptions};
use std::io::{self, Write};
use std::os::unix::fs::{MetadataExt, OpenOptionsExt};
use std::os::unix::io::AsRawFd;
use std::path::{Path, PathBuf};

use nix::errno::Errno;
use nix::fcntl::{flock, FlockArg};
use sha2::{Digest, Sha256};

use crate::End;

/// What the name of a file ends with that is not whole yet.
pub const NEW: &str = ".new";
/// The bytes behind those of a sealed file.
pub const SEAL: usize = 32;

/// The folder of a file.
pub fn folder_of(path: &Path) -> &Path {
    path.parent().filter(|folder| !folder.as_os_str().is_empty()).unwrap_or(Path::new("."))
}

/// A folder that no other process can take until this is dropped. The lock is on the folder itself: there is no file to take
/// away, and it holds by each name of the folder.
pub struct Lock(File);

impl Lock {
    /// Takes a folder.
    pub fn take(folder: &Path) -> Result<Lock, End> {
        let open = File::open(folder).map_err(End::file(folder))?;
        match flock(open.as_raw_fd(), FlockArg::LockExclusiveNonblock) {
            Ok(()) => Ok(Lock(open)),
            Err(Errno::EWOULDBLOCK) => {
                Err(End::failed(format!("{}: another process has this folder", folder.display())))
            }
            Err(told) => Err(End::unusable(folder.display(), &told.into())),
        }
    }

    /// Takes the folders of files, each once.
    pub fn take_all(files: &[&Path]) -> Result<Vec<Lock>, End> {
        let mut taken: Vec<Lock> = vec![];
        for folder in files.iter().map(|file| folder_of(file)) {
            let told = fs::metadata(folder).map_err(End::file(folder))?;
            let is_taken =
                |lock: &Lock| lock.0.metadata().map_or(false, |own| (own.dev(), own.ino()) == (told.dev(), told.ino()));
            if !taken.iter().any(is_taken) {
                taken.push(Lock::take(folder)?);
            }
        }
        Ok(taken)
    }
}

/// Refuses what is no plain file of one name. A link is left behind when the next file is put into its place.
pub fn refuse_links(path: &Path) -> Result<(), End> {
    let told = fs::symlink_metadata(path).map_err(End::file(path))?;
    match told.is_file() && told.nlink() == 1 {
        true => Ok(()),
        false => Err(End::fault(path, "no plain file of one name: links to it and from it are refused")),
    }
}

/// Makes a folder, durably, and those above it.
pub fn make_folder(path: &Path) -> io::Result<()> {
    if path.is_dir() {
        return Ok(());
    }
    if let Some(above) = path.parent().filter(|above| !above.as_os_str().is_empty()) {
        make_folder(above)?;
        fs::create_dir(path).or_else(|told| if path.is_dir() { Ok(()) } else { Err(told) })?;
        return File::open(above)?.sync_all();
    }
    fs::create_dir(path)
}

/// Waits until the names in a folder are on the disk.
pub fn sync_folder(folder: &Path) -> io::Result<()> {
    File::open(folder)?.sync_all()
}

/// Puts bytes into the place of a file, and returns when they are on the disk, and their name too.
pub fn put(path: &Path, mode: u32, bytes: &[u8]) -> io::Result<()> {
    let mut name = OsString::from(path);
    name.push(NEW);
    let fresh = PathBuf::from(name);
    let write = || {
        let mut file = OpenOptions::new().write(true).create(true).truncate(true).mode(mode).open(&fresh)?;
        file.write_all(bytes)?;
        file.sync_all()?;
        fs::rename(&fresh, path)
    };
    if let Err(told) = write() {
        let _ = fs::remove_file(&fresh);
        return Err(told);
    }
    sync_folder(folder_of(path))
}

/// Puts bytes into the place of a file with their SHA-256 behind them, and does not wait for the disk. A loss of power may cut
/// the file, which `unsealed` sees.
pub fn put_sealed(path: &Path, mode: u32, bytes: &[u8]) -> io::Result<()> {
    let mut name = OsString::from(path);
    name.push(NEW);
    let fresh = PathBuf::from(name);
    let write = || {
        let mut file = OpenOptions::new().write(true).create(true).truncate(true).mode(mode).open(&fresh)?;
        file.write_all(bytes)?;
        file.write_all(&Sha256::digest(bytes))?;
        fs::rename(&fresh, path)
    };
    write().inspect_err(|_| _ = fs::remove_file(&fresh))
}

/// The bytes of a file that `put_sealed` has put, if they are all there.
pub fn unsealed(mut file: Vec<u8>) -> io::Result<Vec<u8>> {
    let length = file.len().saturating_sub(SEAL);
    if file.len() < SEAL || file[length..] != Sha256::digest(&file[..length])[..] {
        return Err(io::Error::new(io::ErrorKind::InvalidData, "its file is not as it was written"));
    }
    file.truncate(length);
    Ok(file)
}

/// Makes a file of bytes, if nothing is there. They are on the disk when this returns, and their name too.
pub fn create(path: &Path, mode: u32, bytes: &[u8]) -> io::Result<()> {
    let mut file = match OpenOptions::new().write(true).create_new(true).mode(mode).open(path) {
        Err(told) if told.kind() == io::ErrorKind::AlreadyExists => return Ok(()),
        opened => opened?,
    };
    if let Err(told) = file.write_all(bytes).and_then(|()| file.sync_all()) {
        let _ = fs::remove_file(path);
        return Err(told);
    }
    sync_folder(folder_of(path))
}

#[cfg(test)]
mod tests {
    use std::os::unix::fs::symlink;

    use super::*;

    fn folder(name: &str) -> PathBuf {
        let folder = std::env::temp_dir().join(format!("vamuretu.{}.{name}", std::process::id()));
        fs::create_dir_all(&folder).expect("a folder");
        folder
    }

    #[test]
    fn one_process_has_a_folder() {
        let (one, link) = (folder("one"), std::env::temp_dir().join(format!("vamuretu.{}.link", std::process::id())));
        symlink(&one, &link).expect("a link");
        let held = Lock::take_all(&[&one.join("state"), &link.join("mark")]).expect("the folder, by both names");
        assert_eq!(held.len(), 1);
        for name in [&one, &link] {
            assert_eq!(Lock::take(name).map(|_| ()).expect_err("a second process").status, 1);
        }
        drop(held);
        assert!(Lock::take(&link).is_ok());
        assert_eq!(Lock::take(&one.join("none")).map(|_| ()).expect_err("no folder").status, 5);
        fs::remove_file(&link).and_then(|()| fs::remove_dir_all(&one)).expect("taken away");
    }

    #[test]
    fn a_sealed_file_that_is_cut_is_seen() {
        let here = folder("sealed");
        let path = here.join("file");
        for bytes in [&b""[..], b"a decision"] {
            put_sealed(&path, 0o600, bytes).expect("a file");
            let file = fs::read(&path).expect("a file");
            assert_eq!(unsealed(file.clone()).expect("whole"), bytes);
            for cut in 0..file.len() {
                assert!(unsealed(file[..cut].into()).is_err(), "{cut}");
            }
            assert!(unsealed(vec![0; file.len()]).is_err() && unsealed([&file[..], &[0]].concat()).is_err());
        }
        fs::remove_dir_all(&here).expect("taken away");
    }

    #[test]
    fn links_are_refused() {
        let here = folder("links");
        let status = |name: &str| refuse_links(&here.join(name)).map_or_else(|told| told.status, |()| 0);
        put(&here.join("file"), 0o600, b"a state").expect("a file");
        symlink("file", here.join("link")).expect("a link");
        assert_eq!((status("file"), status("link"), status("none"), status(".")), (0, 3, 5, 3));
        fs::hard_link(here.join("file"), here.join("second")).expect("a second name");
        assert_eq!((status("file"), status("second")), (3, 3));
        fs::remove_dir_all(&here).expect("taken away");
    }
}
