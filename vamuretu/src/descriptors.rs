//! The file descriptors of the process: the doors share some, and a reserve stays for what a run has to sign, mark and store.

use nix::sys::resource::{getrlimit, setrlimit, Resource};

use crate::End;

/// The process raises its soft limit to the hard one, and no farther than this.
const MOST: u64 = 4096;
/// How many no door takes: for files, for what the runtime has, and for connections that are being made or closed.
const RESERVE: u64 = 256;

/// Raises the soft limit. What the system refuses is seen by `keep_reserve`.
pub fn raise() {
    if let Ok((soft, hard)) = getrlimit(Resource::RLIMIT_NOFILE) {
        let _ = setrlimit(Resource::RLIMIT_NOFILE, soft.max(hard.min(MOST)), hard);
    }
}

/// Refuses to begin where doors of so many places, all taken, would leave less than the reserve.
pub fn keep_reserve(places: usize) -> Result<(), End> {
    let (soft, _) = getrlimit(Resource::RLIMIT_NOFILE).map_err(|told| End::unusable("descriptors", &told.into()))?;
    fits(places, soft)
}

fn fits(places: usize, soft: u64) -> Result<(), End> {
    let wanted = RESERVE + places as u64;
    match soft >= wanted {
        true => Ok(()),
        false => Err(End::failed(format!("{wanted} descriptors are wanted, and the limit of the process is {soft}"))),
    }
}

#[cfg(test)]
mod tests {
    use super::*;

    #[test]
    fn a_reserve_is_left() {
        assert_eq!(fits(200, 1024), Ok(()));
        assert_eq!((fits(100, RESERVE + 100), fits(0, RESERVE)), (Ok(()), Ok(())));
        assert!(fits(101, RESERVE + 100).is_err() && fits(0, RESERVE - 1).is_err());
    }

    #[test]
    fn the_soft_limit_is_raised() {
        let (soft, hard) = getrlimit(Resource::RLIMIT_NOFILE).expect("a limit");
        setrlimit(Resource::RLIMIT_NOFILE, hard.min(512), hard).expect("lowered");
        raise();
        assert_eq!(getrlimit(Resource::RLIMIT_NOFILE), Ok((hard.min(MOST), hard)));
        setrlimit(Resource::RLIMIT_NOFILE, soft, hard).expect("as before");
    }
}
