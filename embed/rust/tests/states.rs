//! States that are kept on the disk: each seed is handed out once, and an old state gives none.

use std::collections::BTreeSet;
use std::fs;
use std::os::unix::fs::{symlink, PermissionsExt};
use std::path::{Path, PathBuf};
use std::thread;
use vamuretu::{Fault, KeptState, Secret, SetState, StateFault, SystemId};

const SECRET: Secret = Secret([7; 32]);
const SYSTEM: SystemId = [9; 32];
const OTHER: SystemId = [8; 32];
/// Seeds of sets of this secret, by the hashes of docs/FORMATS.md.
const SEEDS: [(u32, &str); 4] = [
    (0, "ef300fda0125b1bbba78b96c8fa85896cc60b5d7986e4be0c2092ad67752c257"),
    (1, "db22e4bfd6080cf7195c73098dfd3a571fd9861e536ebccb9b810de2d1783b12"),
    (5, "01d6385024553de3f7ebb935298bba9b9be94bb9f0565ce89e31dbacfd6f62a7"),
    (1_048_575, "af748ab0e460d313aa4ba3ce75a8d7f79c32d1207de376189f4b21b0cbb71658"),
];

/// A folder of a test, which is taken away at its end.
struct Folder(PathBuf);

impl Folder {
    fn new(name: &str) -> Folder {
        let path = std::env::temp_dir().join(format!("vamuretu-{}-{name}", std::process::id()));
        fs::create_dir_all(path.join("marks")).expect("a folder");
        Folder(path)
    }

    fn kept(&self) -> KeptState {
        KeptState::new(self.0.join("state"), self.0.join("marks/mark"), SYSTEM)
    }

    fn made(name: &str) -> (Folder, KeptState) {
        let folder = Folder::new(name);
        let kept = folder.kept();
        kept.make(&SECRET).expect("a state");
        (folder, kept)
    }

    fn state(&self) -> PathBuf {
        self.0.join("state")
    }

    fn mark(&self) -> PathBuf {
        self.0.join("marks/mark")
    }
}

impl Drop for Folder {
    fn drop(&mut self) {
        let _ = fs::remove_dir_all(&self.0);
    }
}

fn digits(bytes: &[u8]) -> String {
    bytes.iter().map(|byte| format!("{byte:02x}")).collect()
}

/// The seed of a set in digits, or the text of the fault.
fn taken(kept: &KeptState, set: u32) -> String {
    kept.take(set).map_or_else(|fault| fault.to_string(), |seed| digits(&seed.0))
}

#[test]
fn records() {
    let first = SetState::first(&SECRET, &SYSTEM).expect("a state");
    assert_eq!(first.as_bytes()[..], [&[0; 4][..], &SECRET.0, &SYSTEM].concat());
    assert_eq!((first.number(), first.system()), (0, SYSTEM));
    for (set, seed) in SEEDS {
        let state = SetState::of_bytes(first.advance_to(set).expect("a state").as_bytes());
        assert_eq!((state.number(), state.system()), (set, SYSTEM));
        assert_eq!(digits(&state.seed(&SYSTEM).expect("a seed").0), seed);
        assert_eq!(state.seed(&OTHER).err(), Some(Fault::OtherSystem));
        assert_eq!(state.advance_to(set).map(|it| *it.as_bytes()), Ok(*state.as_bytes()));
        if set > 0 {
            assert_eq!(state.advance_to(set - 1).err(), Some(Fault::Misuse));
        }
        assert_eq!(format!("{state:?} {SECRET:?}"), format!("SetState({set}, ..) Secret(..)"));
    }
}

#[test]
fn each_seed_once() {
    let (folder, kept) = Folder::made("once");
    assert_eq!(kept.next_set().expect("a number"), 0);
    for (set, seed) in &SEEDS[..3] {
        assert_eq!(taken(&kept, *set), *seed);
        assert_eq!(folder.kept().next_set().expect("a number"), set + 1);
        for used in [0, *set] {
            let told = format!("the seed of set {used} is used: the next set is {}", set + 1);
            assert_eq!((taken(&kept, used), taken(&folder.kept(), used)), (told.clone(), told));
        }
        let (state, mark) = (fs::read(folder.state()).expect("a state"), fs::read(folder.mark()).expect("a mark"));
        assert_eq!(state[..4], (set + 1).to_be_bytes());
        assert_eq!(mark, [&state[..4], &SYSTEM].concat());
        assert_eq!(fs::metadata(folder.state()).expect("a state").permissions().mode() & 0o777, 0o600);
    }
    assert!(matches!(kept.take(1 << 20), Err(StateFault::Used { .. })));
    assert!(matches!(kept.take(u32::MAX), Err(StateFault::Used { .. })));
}

#[test]
fn threads_take_different_seeds() {
    let (_folder, kept) = Folder::made("threads");
    let take_all = || {
        let take = |_| loop {
            match kept.take(kept.next_set().expect("a number")) {
                Ok(seed) => return seed.0,
                Err(StateFault::Used { .. }) => continue,
                Err(told) => panic!("{told}"),
            }
        };
        (0..8).map(take).collect::<Vec<_>>()
    };
    let seeds: Vec<[u8; 32]> = thread::scope(|scope| {
        let begun: Vec<_> = (0..4).map(|_| scope.spawn(take_all)).collect();
        begun.into_iter().flat_map(|it| it.join().expect("a thread")).collect()
    });
    assert_eq!((seeds.iter().collect::<BTreeSet<_>>().len(), kept.next_set().expect("a number")), (32, 32));
}

#[test]
fn old_images() {
    let (folder, kept) = Folder::made("images");
    let image = |path: &Path| fs::read(path).expect("a file");
    let (state, mark) = (image(&folder.state()), image(&folder.mark()));
    assert!(kept.take(4).is_ok());
    let (newer, newer_mark) = (image(&folder.state()), image(&folder.mark()));
    fs::write(folder.state(), &state).expect("a state that is restored");
    for set in [0, 4, 5, 6] {
        assert!(matches!(kept.take(set), Err(StateFault::Older { state: 0, mark: 5 })));
    }
    assert!(matches!(kept.next_set(), Err(StateFault::Older { state: 0, mark: 5 })));
    assert_eq!(kept.catch_up().expect("a number"), 5);
    assert_eq!((image(&folder.state()), image(&folder.mark())), (newer.clone(), newer_mark));
    assert_eq!(taken(&kept, 5), SEEDS[2].1);
    assert_eq!(kept.catch_up().expect("a number"), 6);
    // A mark alone that is restored does no harm, since the state is newer.
    fs::write(folder.mark(), &mark).expect("a mark that is restored");
    assert!(matches!(kept.take(5), Err(StateFault::Used { set: 5, next: 6 })));
    assert!(kept.take(6).is_ok());
    assert_eq!(image(&folder.mark())[..4], 7_u32.to_be_bytes());
    // Nothing finds out that both are restored.
    fs::write(folder.state(), &state).expect("a state that is restored");
    fs::write(folder.mark(), &mark).expect("a mark that is restored");
    assert_eq!(taken(&kept, 0), SEEDS[0].1);
}

#[test]
fn made_once() {
    let (folder, kept) = Folder::made("made");
    let told = |kept: &KeptState| kept.make(&SECRET).map_err(|fault| fault.to_string()).err().unwrap_or_default();
    assert!(told(&kept).contains("exists"));
    fs::remove_file(folder.state()).expect("the state is lost");
    assert_eq!(told(&kept), "");
    assert!(kept.take(0).is_ok());
    fs::remove_file(folder.state()).expect("the state is lost");
    assert!(matches!(kept.make(&SECRET), Err(StateFault::Older { state: 0, mark: 1 })));
    assert!(!folder.state().exists());
}

#[test]
fn files_that_are_refused() {
    let (folder, kept) = Folder::made("files");
    let other = KeptState::new(folder.state(), folder.mark(), OTHER);
    assert!(matches!(other.take(0), Err(StateFault::OtherSystem(path)) if path == folder.state()));
    assert!(matches!(other.catch_up(), Err(StateFault::OtherSystem(_))));
    let (state, mark) = (fs::read(folder.state()).expect("a state"), fs::read(folder.mark()).expect("a mark"));
    let is_refused = |path: &Path, bytes: &[u8]| {
        fs::write(path, bytes).expect("a file");
        matches!(kept.take(0), Err(StateFault::NoRecord(told)) if told == path)
    };
    for (path, bytes) in [(folder.state(), &state), (folder.mark(), &mark)] {
        assert!(
            is_refused(&path, &bytes[1..]) && is_refused(&path, &[&bytes[..], &[0]].concat()) && is_refused(&path, &[])
        );
        fs::remove_file(&path).expect("a file that is lost");
        assert!(matches!(kept.take(0), Err(StateFault::File(told, _)) if told == path));
        let elsewhere = folder.0.join("elsewhere");
        fs::write(&elsewhere, bytes).expect("a file");
        fs::set_permissions(&elsewhere, fs::Permissions::from_mode(0o600)).expect("a mode");
        for link in [symlink::<&Path, &Path>, |of: &Path, name: &Path| fs::hard_link(of, name)] {
            link(&elsewhere, &path).expect("a link");
            assert!(matches!(kept.take(0), Err(StateFault::NoRecord(told)) if told == path));
            fs::remove_file(&path).expect("taken away");
        }
        fs::write(&path, bytes).expect("a file");
        fs::set_permissions(&path, fs::Permissions::from_mode(0o600)).expect("a mode");
    }
    fs::set_permissions(folder.state(), fs::Permissions::from_mode(0o640)).expect("a mode");
    assert!(matches!(kept.take(0), Err(StateFault::NoRecord(_))));
    fs::set_permissions(folder.state(), fs::Permissions::from_mode(0o600)).expect("a mode");
    fs::write(folder.mark(), [&mark[..4], &OTHER].concat()).expect("a mark");
    assert!(matches!(kept.take(0), Err(StateFault::OtherSystem(path)) if path == folder.mark()));
    fs::write(folder.mark(), &mark).expect("a mark");
    let nowhere = KeptState::new(folder.0.join("none/state"), folder.mark(), SYSTEM);
    assert!(matches!(nowhere.make(&SECRET), Err(StateFault::File(..))));
    assert_eq!(taken(&kept, 0), SEEDS[0].1);
}
