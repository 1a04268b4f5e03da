//! An index that lacks runs whose bundles lie in the folder takes these runs in again.
//!
//! At each start the folders of runs are compared with the index, one by one, the least numbers first. A bundle that the index
//! does not name is read, its logs are checked as those that nodes bring, and its run is judged anew: the same logs give the same
//! verdict and the same files. Evidence that lies beside it is checked too, and stays. A run that was not compared yet is not
//! judged, so a bundle is never taken for a gap. Each few runs are one transaction, so the next start goes on where this one ended.

use std::collections::{BTreeMap, BTreeSet, VecDeque};
use std::fs::{self, File};
use std::io::{self, Read};
use std::ops::Range;
use std::path::Path;

use serde_json::json;

use super::index::{failed, Change, Holds, Index, Raised, Rebuilt, Stored};
use super::keep::{bundle_path, conviction_of, evidence_of, wrong, Case, Keeper, BUNDLE, EARLIER, MOST_RUNS, TOGETHER};
use super::{alarms, judge};
use crate::config::MOST_ORDERS;
use crate::index::Conviction;
use crate::systems::Run;
use crate::{clock, disk};

/// What the names of evidence end with.
const EVIDENCE: &str = ".evidence";
/// The most bytes of a file that tells what was judged before.
const MOST_EARLIER: usize = 1 << 20;
/// How long a version is at most.
const MOST_VERSION: usize = 64;
/// The last millisecond of the year 9999.
const LAST_MOMENT: i64 = 253_402_300_799_999;
/// How many files that can't be read are named.
const MOST_NAMED: usize = 16;

/// The files of a run that lie in the folder, where the index does not name its bundle.
#[derive(Debug, Clone, Default)]
pub struct Found {
    pub bundles: Vec<String>,
    evidence: Vec<String>,
    /// What was judged of a lost run before.
    pub earlier: Vec<Change>,
    /// Evidence that holds, and what is wrong with other evidence.
    pub stored: Vec<Stored>,
    faults: Vec<String>,
    /// Whether the index has lost the run. Otherwise the program was stopped before it wrote down what it had judged.
    pub is_lost: bool,
}

impl Found {
    /// Evidence that no conviction names, of a run that was judged before the program was stopped.
    pub fn unnamed<'a>(&'a self, convicted: &'a [Conviction]) -> impl Iterator<Item = &'a String> {
        let is_named = |path: &String| convicted.iter().any(|it| it.evidence.as_ref() == Some(path));
        self.evidence.iter().filter(move |path| !self.is_lost && !is_named(path))
    }
}

/// How far the folders are compared with the index.
pub struct Rebuild {
    first: u32,
    folders: VecDeque<u32>,
    /// The runs that are taken in next, and the files of these and of other runs.
    lost: VecDeque<u32>,
    found: BTreeMap<u32, Found>,
    /// The runs that are not judged yet.
    held: Range<u32>,
    /// What the index has of this, while runs are taken in, and the first number above all that ever were.
    place: Option<i64>,
    below: u32,
    /// The runs whose files can't be read, and why of the first of these files.
    unread: BTreeSet<u32>,
    faults: Vec<String>,
    is_over: bool,
}

impl Rebuild {
    /// Begins at the first folder. `first` is the first run that is watched.
    pub fn begin(folder: &Path, index: &Index, first: u32) -> io::Result<Rebuild> {
        let mut folders = vec![];
        for entry in fs::read_dir(folder)? {
            let name = entry?.file_name().to_string_lossy().into_owned();
            let number = name.parse().ok().filter(|number| name == format!("{number:07}"));
            folders.extend(number.filter(|number: &u32| *number < u32::MAX / TOGETHER));
        }
        folders.sort_unstable();
        let held = folders.first().zip(folders.last()).map(|(from, to)| from * TOGETHER..(to + 1) * TOGETHER);
        Ok(Rebuild {
            first,
            folders: folders.into(),
            lost: VecDeque::new(),
            found: BTreeMap::new(),
            held: held.unwrap_or_default(),
            place: index.rebuilding().map_err(failed)?.map(|it| it.place),
            below: index.rebuilt_below().map_err(failed)?,
            unread: BTreeSet::new(),
            faults: vec![],
            is_over: false,
        })
    }

    pub fn is_over(&self) -> bool {
        self.is_over
    }

    /// The runs that are not judged yet.
    pub fn held(&self) -> Range<u32> {
        self.held.clone()
    }

    /// Whether a run is not judged yet, or can't be.
    pub fn holds(&self, number: u32) -> bool {
        self.held.contains(&number) || self.unread.contains(&number)
    }

    /// Whether a lost index had this run: what it raised is not raised again.
    pub fn had(&self, number: u32) -> bool {
        number < self.below
    }

    pub fn is_lost(&self, number: u32) -> bool {
        self.found.get(&number).map_or(false, |it| it.is_lost)
    }

    /// The files of a run that the index does not name.
    pub fn found(&self, number: u32) -> Found {
        self.found.get(&number).cloned().unwrap_or_default()
    }

    /// A run whose files can't be read is set aside until the next start.
    pub fn cannot_read(&mut self, number: u32, told: &io::Error) {
        let found = self.found.remove(&number).unwrap_or_default();
        tracing::error!(run = number, files = ?found.bundles, %told, "a bundle can't be read");
        self.unread.insert(number);
        self.name(found.bundles.iter().map(|path| format!("{path}: {told}")));
    }

    /// A run was judged by what was found of it.
    pub fn done(&mut self, number: u32, found: &Found) {
        self.found.remove(&number);
        self.name(found.faults.iter().cloned());
    }

    fn name(&mut self, faults: impl Iterator<Item = String>) {
        let room = MOST_NAMED.saturating_sub(self.faults.len());
        self.faults.extend(faults.take(room));
    }

    /// What was taken in of some runs, by their numbers and how many convictions each has.
    pub fn rebuilt(&self, runs: impl Iterator<Item = (u32, usize)>) -> Option<Rebuilt> {
        let mut more = Rebuilt { place: self.place?, runs: 0, convictions: 0, below: 0 };
        for (_, convictions) in runs.filter(|it| self.is_lost(it.0)) {
            more = Rebuilt { runs: more.runs + 1, convictions: more.convictions + convictions as u64, ..more };
        }
        (more.runs > 0).then_some(more)
    }
}

/// Reads a file that has at most so many bytes.
pub fn read(path: &Path, most: usize) -> io::Result<Vec<u8>> {
    if !fs::metadata(path)?.is_file() {
        return Err(wrong("no plain file"));
    }
    let mut bytes = vec![];
    File::open(path)?.take(most as u64 + 1).read_to_end(&mut bytes)?;
    match bytes.len() > most {
        true => Err(wrong("more bytes than such a file has")),
        false => Ok(bytes),
    }
}

/// The files in the folder of some runs, by the number of the run. Files that were not whole when the program was stopped are
/// taken away.
fn files_of(folder: &Path, below: u32) -> io::Result<BTreeMap<u32, Found>> {
    let below_it = format!("{below:07}");
    let mut files: BTreeMap<u32, Found> = BTreeMap::new();
    for entry in fs::read_dir(folder.join(&below_it))? {
        let entry = entry?;
        let name = entry.file_name().to_string_lossy().into_owned();
        let number = name.split_once('-').and_then(|(number, _)| number.parse().ok());
        let Some(number) = number.filter(|number: &u32| number / TOGETHER == below) else { continue };
        let path = format!("{below_it}/{name}");
        match () {
            () if name.ends_with(disk::NEW) => fs::remove_file(entry.path())?,
            () if name.ends_with(BUNDLE) => files.entry(number).or_default().bundles.push(path),
            () if name.ends_with(EVIDENCE) => files.entry(number).or_default().evidence.push(path),
            () => {}
        }
    }
    files.retain(|_, found| !found.bundles.is_empty());
    files.values_mut().for_each(|found| found.evidence.sort());
    Ok(files)
}

/// Whether a change is one that a judgement of a run has made, by its form.
fn is_own(change: &Change, number: u32, nodes: u32) -> bool {
    let is_node = |node: &u32| *node < nodes;
    let is_digest = |text: &str| text.len() == 64 && text.bytes().all(|it| matches!(it, b'0'..=b'9' | b'a'..=b'f'));
    let is_file = match (&change.path, &change.sha256) {
        (Some(path), Some(sha256)) => is_digest(sha256) && *path == bundle_path(number, sha256),
        (path, sha256) => path.is_none() && sha256.is_none(),
    };
    let is_version = (1..=MOST_VERSION).contains(&change.library.len());
    is_file
        && is_version
        && change.library.bytes().all(|it| it.is_ascii_graphic())
        && change.assumed_faulty.iter().chain(&change.missing).all(is_node)
        && change.order.map_or(true, |order| order < MOST_ORDERS)
        && (0..=LAST_MOMENT).contains(&change.judged)
}

/// Checks that each log of a run is one that its node has sealed, as when it comes.
pub fn check_seals(case: &Case) -> io::Result<()> {
    for (general, log) in &case.logs {
        if !judge::is_sealed(&case.run.header, *general, &log.bytes).map_err(wrong)? {
            return Err(wrong(format!("a log that node {} has not sealed", log.node)));
        }
    }
    Ok(())
}

impl Keeper {
    /// Refuses a folder none of whose first bundles is of the system, where nothing was judged.
    pub fn check_bundles(&mut self) -> io::Result<()> {
        if !self.index.is_empty().map_err(failed)? {
            return Ok(());
        }
        for below in self.rebuild.folders.clone() {
            let files = files_of(&self.folder, below)?;
            if files.is_empty() {
                continue;
            }
            self.rebuild.found = files.into_iter().take(MOST_RUNS).collect();
            let is_own = |number: &u32| self.case(*number).and_then(|case| check_seals(&case)).is_ok();
            let has_any = self.rebuild.found.keys().any(is_own);
            self.rebuild.found.clear();
            let said = "has bundles, of which none of the first is whole and of this system. Name another folder, or move them";
            let refused = || io::Error::new(io::ErrorKind::InvalidData, format!("{} {said}", self.folder.display()));
            return has_any.then_some(()).ok_or_else(refused);
        }
        Ok(())
    }

    /// Goes on to compare the folders with the index: looks at the next one, or judges the next runs that are to be taken in.
    pub fn rebuild_some(&mut self) -> io::Result<()> {
        if self.rebuild.is_over {
            return Ok(());
        }
        let count = self.rebuild.lost.len().min(MOST_RUNS);
        if count > 0 {
            // One that could not be read is no more among those that were found.
            let next = self.rebuild.lost.range(..count).copied().filter(|&number| self.rebuild.is_lost(number));
            self.judge_these(&next.collect::<Vec<u32>>(), clock::now_ms())?;
            self.rebuild.lost.drain(..count);
            return Ok(());
        }
        match self.rebuild.folders.front().copied() {
            Some(below) => {
                self.compare(below)?;
                self.rebuild.folders.pop_front();
            }
            None => self.end_rebuilding()?,
        }
        self.counts.rebuilding.set(self.rebuild.folders.len() as i64);
        Ok(())
    }

    /// Compares a folder of runs with the index.
    fn compare(&mut self, below: u32) -> io::Result<()> {
        let numbers = below * TOGETHER..(below + 1) * TOGETHER;
        let mut files = files_of(&self.folder, below)?;
        let last = files.keys().next_back().copied();
        let known = self.index.bundles(numbers.clone()).map_err(failed)?;
        files.retain(|number, found| match known.get(number) {
            Some(Some(path)) => found.bundles != [path.as_str()],
            _ => true,
        });
        self.rebuild.held.start = numbers.start;
        let is_lost = self.rebuild.place.is_some() || files.keys().any(|number| !self.is_open(*number));
        if let Some(last) = last.filter(|_| is_lost && !files.is_empty()) {
            disk::sync_folder(&self.folder.join(format!("{below:07}")))?;
            self.take_in(last + 1)?;
            tracing::info!(
                runs = files.len(),
                first = files.keys().next(),
                last,
                "runs that the index lacks are judged"
            );
            self.rebuild.lost.extend(files.keys());
        }
        files.values_mut().for_each(|found| found.is_lost = is_lost);
        self.rebuild.found.extend(files);
        Ok(())
    }

    /// Writes down that runs below a number are taken in.
    fn take_in(&mut self, below: u32) -> io::Result<()> {
        let (now, place) = (clock::now_ms(), self.rebuild.place);
        let place = self.index.in_one(|part| match place {
            None => part.begin_rebuilding(below, now),
            Some(place) => part.add_rebuilt(&Rebuilt { place, runs: 0, convictions: 0, below }).map(|()| place),
        });
        self.rebuild.place = Some(place.map_err(failed)?);
        self.rebuild.below = self.rebuild.below.max(below);
        Ok(())
    }

    /// All folders were compared: an alarm says what was taken in, and another one what could not be read.
    fn end_rebuilding(&mut self) -> io::Result<()> {
        let now = clock::now_ms();
        let rebuilt = self.index.rebuilding().map_err(failed)?;
        let mut raised: Vec<Raised> = vec![];
        if let Some(it) = &rebuilt {
            let numbers = self.rebuild.first.min(it.below)..it.below;
            let unread = self.rebuild.unread.range(numbers.clone()).count() as u32;
            let there = self.index.with_logs(numbers.clone()).map_err(failed)? + unread;
            raised.push(alarm_of(it, (numbers.end - numbers.start).saturating_sub(there), now));
        }
        if !self.rebuild.faults.is_empty() {
            let (count, faults) = (self.rebuild.unread.len(), self.rebuild.faults.join("; "));
            let said = format!("{count} runs are set aside until the next start, as files can't be read: {faults}");
            raised.push(alarms::of_node("unread", self.rebuild.unread.first().copied(), None, &said, now));
        }
        let done = self.index.in_one(|part| {
            rebuilt.iter().try_for_each(|it| part.end_rebuilding(it.place, now))?;
            raised.iter().try_for_each(|it| part.raise(it, now))
        });
        done.map_err(failed)?;
        raised.iter().for_each(|it| self.counts.alarms.with_label_values(&[it.kind]).inc());
        (self.rebuild.place, self.rebuild.held, self.rebuild.is_over) = (None, 0..0, true);
        rebuilt.map_or(Ok(()), |_| self.learn_presence())
    }

    /// Reads what was judged of a lost run before. Of several bundles the one tells most that was judged last.
    pub fn read_earlier(&self, number: u32, found: &mut Found) {
        for path in found.bundles.iter().filter(|_| found.is_lost) {
            let path = path.replace(BUNDLE, EARLIER);
            let at = self.folder.join(&path);
            if !at.exists() {
                continue;
            }
            let read = || -> io::Result<Vec<Change>> {
                let changes: Vec<Change> = serde_json::from_slice(&read(&at, MOST_EARLIER)?)?;
                let are_own = changes.iter().all(|it| is_own(it, number, self.runs.systems.nodes()));
                are_own.then_some(changes).ok_or_else(|| wrong("it is of no run"))
            };
            match read() {
                Ok(changes) if changes.len() > found.earlier.len() => found.earlier = changes,
                Ok(_) => {}
                Err(told) => found.faults.push(format!("{path}: {told}")),
            }
        }
    }

    /// Whom evidence convicts that lies beside a lost bundle, beyond those that are known.
    pub fn convicted_by(&self, run: &Run, found: &mut Found, known: &[Conviction]) -> Vec<Conviction> {
        let mut more: Vec<Conviction> = vec![];
        if !found.is_lost {
            return more;
        }
        for path in &found.evidence {
            match self.evidence(run, path) {
                Ok((convicted, stored)) => {
                    let is_same = |it: &Conviction| (it.node, &it.kind) == (convicted.node, &convicted.kind);
                    if !known.iter().chain(&more).any(is_same) {
                        more.push(convicted);
                    }
                    found.stored.push(stored);
                }
                Err(told) => found.faults.push(format!("{path}: {told}")),
            }
        }
        more
    }

    /// A file of evidence, and whom it convicts.
    fn evidence(&self, run: &Run, path: &str) -> io::Result<(Conviction, Stored)> {
        let bytes = read(&self.folder.join(path), self.most_bundle)?;
        let (general, kind) = judge::accused(&run.run_id, &bytes)?.ok_or_else(|| wrong("it does not hold"))?;
        let node = run.nodes.get(general as usize).copied().filter(|node| path.ends_with(&evidence_of(*node)));
        let node = node.ok_or_else(|| wrong("it is against another node"))?;
        let holds = Holds::Evidence { node, kind: kind.clone() };
        let stored = Stored { path: path.to_owned(), sha256: judge::digest(&bytes), bytes: bytes.len(), holds };
        Ok((conviction_of(node, kind, path.to_owned()), stored))
    }
}

/// The alarm of runs that were taken in.
fn alarm_of(it: &Rebuilt, gaps: u32, now: i64) -> Raised {
    let Rebuilt { runs, convictions, below, .. } = it;
    let said = format!(
        "the index lacked {runs} runs below {below}, which were judged again by their bundles: {convictions} convictions. \
         {gaps} runs below {below} have no bundle, and their gaps are not told again"
    );
    let mut raised = alarms::of_node("rebuilt", None, None, &said, now);
    raised.text["rebuilt"] = json!({ "below": below, "convictions": convictions, "gaps": gaps, "runs": runs });
    raised
}

#[cfg(test)]
mod tests {
    use super::*;
    use crate::index::Verdict;
    use std::path::PathBuf;

    fn folder(name: &str) -> PathBuf {
        let folder = std::env::temp_dir().join(format!("vamuretu-rebuild-{name}-{}", std::process::id()));
        let _ = fs::remove_dir_all(&folder);
        for below in ["0000000", "0000012", "9999999", "12", "a"] {
            fs::create_dir_all(folder.join(below)).expect("a folder");
        }
        folder
    }

    fn memory() -> Index {
        Index::open(Path::new(":memory:"), "5e", 4).expect("an index")
    }

    #[test]
    fn folders_hold_their_runs() {
        let folder = folder("folders");
        let rebuild = Rebuild::begin(&folder, &memory(), 3).expect("a folder");
        assert_eq!((&rebuild.folders, rebuild.held()), (&VecDeque::from([0, 12]), 0..13_000));
        assert!(rebuild.holds(12_999) && !rebuild.holds(13_000) && !rebuild.had(0) && !rebuild.is_over());
        fs::remove_dir_all(folder).expect("a folder");
    }

    #[test]
    fn what_was_taken_in_goes_on() {
        let (folder, mut index) = (folder("goes-on"), memory());
        let place = index.in_one(|part| part.begin_rebuilding(5, 1)).expect("memory");
        let more = Rebuilt { place, runs: 3, convictions: 1, below: 4 };
        index.in_one(|part| part.add_rebuilt(&more)).expect("memory");
        assert_eq!(index.rebuilding().expect("a row"), Some(Rebuilt { below: 5, ..more }));
        let rebuild = Rebuild::begin(&folder, &index, 0).expect("a folder");
        assert_eq!((rebuild.place, rebuild.had(4), rebuild.had(5)), (Some(place), true, false));
        index.in_one(|part| part.end_rebuilding(place, 2)).expect("memory");
        assert_eq!((index.rebuilding().expect("no row"), index.rebuilt_below().expect("a row")), (None, 5));
        fs::remove_dir_all(folder).expect("a folder");
    }

    #[test]
    fn files_by_their_names() {
        let folder = folder("names");
        let put = |name: &str| fs::write(folder.join("0000012").join(name), name).expect("a file");
        let whole = ["12345-1a2b3c4d.bundle.zst", "12345-1a2b3c4d.verdict.json", "12345-1a2b3c4d.node-3.evidence"];
        let others =
            ["12346-1a2b3c4d.bundle.zst.new", "345-1a2b3c4d.bundle.zst", "12347-00000000.node-1.evidence", "x"];
        whole.into_iter().chain(others).for_each(put);
        let found = files_of(&folder, 12).expect("a folder");
        assert_eq!(found.keys().collect::<Vec<_>>(), [&12345]);
        assert_eq!(found[&12345].bundles, [format!("0000012/{}", whole[0])]);
        assert_eq!(found[&12345].evidence, [format!("0000012/{}", whole[2])]);
        assert!(!folder.join("0000012").join(others[0]).exists() && folder.join("0000012").join(others[1]).exists());
        fs::remove_dir_all(folder).expect("a folder");
    }

    #[test]
    fn what_cannot_be_read_is_named_and_held() {
        let folder = folder("unread");
        let mut rebuild = Rebuild::begin(&folder, &memory(), 0).expect("a folder");
        let found = Found { bundles: vec!["0000000/7-x.bundle.zst".into()], is_lost: true, ..Found::default() };
        rebuild.found.insert(7, found);
        rebuild.held = 0..0;
        assert!(rebuild.is_lost(7) && !rebuild.holds(7));
        rebuild.cannot_read(7, &wrong("bent"));
        assert!(!rebuild.is_lost(7) && rebuild.holds(7));
        assert_eq!(rebuild.faults, ["0000000/7-x.bundle.zst: bent"]);
        fs::remove_dir_all(folder).expect("a folder");
    }

    #[test]
    fn evidence_that_nothing_names_goes() {
        let evidence = vec!["a".to_owned(), "b".to_owned()];
        let convicted = [conviction_of(1, "K2".to_owned(), "b".to_owned())];
        let left = Found { evidence, ..Found::default() };
        assert_eq!(left.unnamed(&convicted).collect::<Vec<_>>(), ["a"]);
        assert_eq!(Found { is_lost: true, ..left }.unnamed(&convicted).count(), 0);
    }

    #[test]
    fn a_change_is_of_its_run() {
        let sha256 = "a1".repeat(32);
        let own = Change {
            verdict: Verdict::Explained,
            order: None,
            assumed_faulty: vec![1, 3],
            missing: vec![3],
            path: Some(bundle_path(12_345, &sha256)),
            sha256: Some(sha256.clone()),
            library: "1.2.3".to_owned(),
            judged: 7,
        };
        let gap = Change { verdict: Verdict::Gap, path: None, sha256: None, ..own.clone() };
        assert!(is_own(&own, 12_345, 4) && is_own(&gap, 12_345, 4));
        assert!(!is_own(&own, 12_346, 4) && !is_own(&own, 12_345, 3));
        for path in ["../../file", "/etc/file", "0000012/../../file.bundle.zst", ""] {
            assert!(!is_own(&Change { path: Some(path.to_owned()), ..own.clone() }, 12_345, 4), "{path}");
        }
        assert!(!is_own(&Change { path: None, ..own.clone() }, 12_345, 4));
        assert!(!is_own(&Change { order: Some(MOST_ORDERS), ..own.clone() }, 12_345, 4));
        assert!(!is_own(&Change { judged: i64::MAX, ..own.clone() }, 12_345, 4));
        assert!(!is_own(&Change { sha256: Some("A".repeat(64)), ..own }, 12_345, 4));
    }

    #[test]
    fn a_file_has_a_bound() {
        let folder = folder("bound");
        fs::write(folder.join("file"), [7; 9]).expect("a file");
        assert_eq!(read(&folder.join("file"), 9).expect("a file").len(), 9);
        assert!(read(&folder.join("file"), 8).is_err() && read(&folder, 9).is_err());
        fs::remove_dir_all(folder).expect("a folder");
    }
}
