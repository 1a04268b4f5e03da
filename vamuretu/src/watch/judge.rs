//! A run is judged: its logs become a bundle, a verdict and evidence. The proved library does this; what stands here
//! chooses which nodes are listed as faulty.
//!
//! The first list has the nodes without a log. While the verdict is no, the list takes those that are convicted and those
//! that N1 to N7 name: a log that is taken is sealed, so such a finding is of its own node. What N8 and N9 name may be
//! either end. So lists that add some of these ends are tried, the short ones first, up to m nodes in all.

use std::collections::BTreeSet;
use std::io;

use serde::Deserialize;
use sha2::{Digest, Sha256};
use vamuretu::{Bundle, Expected, Fault, Finding, Header, RunId, Said, Verdict};

use crate::index::judged::Answer;

/// How many lists are tried beyond the first ones.
const MOST_TRIED: usize = 32;
/// The window of the compression, as a power of two: a signature that comes again is found this far away.
pub const WINDOW: u32 = 27;
const LEVEL: i32 = 3;

/// A list of nodes that are assumed faulty, by their numbers in the run.
pub type List = BTreeSet<u32>;

/// What was judged of a run.
#[derive(Debug)]
pub struct Judged {
    /// The bundle of all logs, with the list of the verdict.
    pub bundle: Vec<u8>,
    /// What the library answers on it.
    pub answer: Answer,
    /// Lists as long as that of the verdict that give a yes too: the logs do not tell which of them is right.
    pub others: Vec<List>,
    /// Who is convicted, by their numbers in the run, each with the kind and the evidence.
    pub evidence: Vec<(u32, String, Vec<u8>)>,
}

impl Judged {
    /// The order that each log decides, in the order of the logs.
    pub fn decided(&self, logs: impl Iterator<Item = u32>) -> Vec<Option<u32>> {
        let mut read = self.answer.decided.iter().flatten().peekable();
        logs.map(|general| read.next_if(|it| it.0 == general).and_then(|it| it.1)).collect()
    }
}

/// A log that stands in a bundle, as `show` tells its place.
#[derive(Deserialize)]
struct Place {
    format: String,
    #[serde(default)]
    of: u32,
    #[serde(default)]
    byte: usize,
    #[serde(default)]
    length: usize,
}

fn other(said: impl std::fmt::Display) -> io::Error {
    io::Error::new(io::ErrorKind::InvalidData, said.to_string())
}

/// The logs of a run, of which the lists of the verdict are sought.
struct Case<'a> {
    header: &'a Header,
    of: Expected<'a>,
    logs: &'a [(u32, &'a [u8])],
}

/// The logs under a list: their bundle, and what was judged of it.
struct Tried {
    list: List,
    bundle: Bundle,
    judged: vamuretu::Judged,
}

impl Case<'_> {
    /// Judges the logs under a list, by one whole audit.
    fn under(&self, list: List) -> Result<Tried, Fault> {
        let assumed: Vec<u32> = list.iter().copied().collect();
        let bundle = Bundle::parted(self.header, &assumed, self.logs)?;
        let judged = vamuretu::Judged::of(self.of, bundle.as_bytes())?;
        match judged.judgement().runs() {
            [_] => Ok(Tried { list, bundle, judged }),
            _ => Err(Fault::Misuse),
        }
    }
}

impl Tried {
    fn verdict(&self) -> &Verdict {
        &self.judged.judgement().runs()[0]
    }
}

/// The findings of a verdict, none of a yes.
fn findings(verdict: &Verdict) -> &[Finding] {
    match &verdict.said {
        Said::No(found) => found,
        _ => &[],
    }
}

/// The nodes that a no speaks of as their own: those that are convicted, and those that N1 to N7 name.
fn named(verdict: &Verdict) -> List {
    let found = findings(verdict).iter().filter_map(|found| match *found {
        Finding::Of { general, .. } | Finding::Unread { general, .. } | Finding::At { general, .. } => Some(general),
        _ => None,
    });
    verdict.convictions.iter().map(|it| it.general).chain(found).collect()
}

/// The ends of the messages that N8 and N9 name.
fn ends(verdict: &Verdict) -> List {
    let of = |found: &Finding| match *found {
        Finding::Message { from, to, .. } => vec![from, to],
        _ => vec![],
    };
    findings(verdict).iter().flat_map(of).collect()
}

/// The lists of at most `most` nodes that give a yes, the shortest of them alone, found among those that add ends of messages to
/// the list of a no. Of all but the first the list alone is told.
fn shortest(case: &Case, first: &Tried, most: usize) -> Result<Option<(Tried, Vec<List>)>, Fault> {
    let mut open = vec![(first.list.clone(), ends(first.verdict()))];
    let (mut seen, mut tried) = (BTreeSet::new(), 0);
    while !open.is_empty() {
        let (mut found, mut next) = (vec![], vec![]);
        for (list, ends) in open {
            for end in ends.difference(&list) {
                let longer: List = list.iter().copied().chain([*end]).collect();
                if longer.len() > most || tried == MOST_TRIED || !seen.insert(longer.clone()) {
                    continue;
                }
                tried += 1;
                let under = case.under(longer)?;
                match under.verdict().is_no() {
                    true => next.push((under.list.clone(), self::ends(under.verdict()))),
                    false => found.push(under),
                }
            }
        }
        if !found.is_empty() {
            found.sort_by(|one, other| one.list.cmp(&other.list));
            let mut found = found.into_iter();
            return Ok(found.next().map(|first| (first, found.map(|it| it.list).collect())));
        }
        open = next;
    }
    Ok(None)
}

/// Judges the logs of a run, which is the one that is expected. They are sealed and stand in the ascending order of their
/// nodes' numbers in the run. There is at least one.
pub fn judge(header: &Header, of: Expected, logs: &[(u32, &[u8])]) -> Result<Judged, Fault> {
    let case = Case { header, of, logs };
    let with: List = logs.iter().map(|log| log.0).collect();
    let mut tried = case.under((0..header.generals()).filter(|general| !with.contains(general)).collect())?;
    while tried.verdict().is_no() && !named(tried.verdict()).is_subset(&tried.list) {
        let longer = tried.list.union(&named(tried.verdict())).copied().collect();
        tried = case.under(longer)?;
    }
    let mut others = vec![];
    if tried.verdict().is_no() {
        let most = usize::try_from(tried.verdict().traitors).map_err(|_| Fault::Misuse)?;
        if let Some((first, more)) = shortest(&case, &tried, most)? {
            (tried, others) = (first, more);
        }
    }
    let mut evidence = vec![];
    for it in &tried.verdict().convictions {
        let found = tried.judged.evidence(it.general)?.ok_or(Fault::Misuse)?;
        evidence.push((it.general, format!("K{}", it.kind), found));
    }
    let answer = Answer::of(&tried.judged, header.as_bytes())?;
    Ok(Judged { bundle: tried.bundle.as_bytes().to_vec(), answer, others, evidence })
}

/// Whether a log of a node is sealed: whether the node signed all of it, for the run of the header.
pub fn is_sealed(header: &Header, general: u32, log: &[u8]) -> Result<bool, Fault> {
    let run = header.run_id()?;
    if !log.starts_with(&run) {
        return Ok(false);
    }
    let alone = Bundle::parted(header, &[], &[(general, log)])?;
    vamuretu::receipt(Some(&run), general, alone.as_bytes()).map(|found| found.is_some())
}

/// What evidence says of itself.
#[derive(Deserialize)]
struct Accusation {
    accused: u32,
    kind: String,
    holds: bool,
}

/// Whom evidence of a run convicts, and of what kind it is, if it holds.
pub fn accused(run: &RunId, evidence: &[u8]) -> io::Result<Option<(u32, String)>> {
    let json = vamuretu::evidence_json(Some(run), evidence).map_err(other)?;
    let Accusation { accused, kind, holds } = serde_json::from_str(&json)?;
    Ok(holds.then_some((accused, kind)))
}

/// The logs of a bundle, by the places that `show` tells.
pub fn logs_of(run: &RunId, bundle: &[u8]) -> io::Result<Vec<(u32, Vec<u8>)>> {
    let shown = vamuretu::show_json(&[*run], bundle).map_err(other)?;
    let mut logs = vec![];
    for line in shown.text().lines() {
        let place: Place = serde_json::from_str(line)?;
        if place.format == "shown log" || place.format == "unreadable log" {
            let log =
                bundle.get(place.byte..place.byte + place.length).ok_or_else(|| other("a log outside of its file"))?;
            logs.push((place.of, log.to_vec()));
        }
    }
    Ok(logs)
}

/// The most bytes of a log of a node that follows the algorithm, whatever the others send.
pub fn longest_log(header: &Header) -> Result<usize, Fault> {
    let plan = vamuretu::plan(header.as_bytes())?;
    let told = plan.text().lines().find_map(|line| line.strip_prefix("longest log "));
    told.and_then(|told| told.parse().ok()).ok_or(Fault::Misuse)
}

/// The SHA-256 of a log, by which it is known to be one that came before.
pub fn digest(log: &[u8]) -> String {
    hex::encode(Sha256::digest(log))
}

/// Compresses bytes, with a window that is long enough for a bundle.
pub fn pack(bytes: &[u8]) -> io::Result<Vec<u8>> {
    let mut zstd = zstd::bulk::Compressor::new(LEVEL)?;
    zstd.set_parameter(zstd::zstd_safe::CParameter::EnableLongDistanceMatching(true))?;
    zstd.set_parameter(zstd::zstd_safe::CParameter::WindowLog(WINDOW))?;
    zstd.compress(bytes)
}

/// Compresses the log of one node, or less: a search over a long window finds no more in it, and takes three times as long.
pub fn pack_log(bytes: &[u8]) -> io::Result<Vec<u8>> {
    zstd::bulk::compress(bytes, LEVEL)
}

/// What was compressed, if it has at most so many bytes. No more than these are ever held.
pub fn unpack(bytes: &[u8], most: usize) -> io::Result<Vec<u8>> {
    zstd::bulk::decompress(bytes, most)
}

#[cfg(test)]
mod tests {
    use super::*;
    use crate::index::judged::roots_of;
    use crate::index::Verdict;
    use vamuretu::{Keys, Node, Numbers, Seed, Version};

    const FOUR: u32 = 4;
    type Logs = Vec<(u32, Vec<u8>)>;

    fn header(first: u8) -> Header {
        let numbers =
            Numbers { version: Version::One, slot: 0, generals: 4, traitors: 1, diameter: 1, orders: 3, choice: 0 };
        let root = |place: u8| Keys::new(&Seed([first + place; 32]), Version::One).expect("keys").root();
        let roots: Vec<_> = (0..4).map(root).collect();
        let edges: Vec<_> = (0..4).flat_map(|a| (a + 1..4).map(move |b| (a, b))).collect();
        Header::new(&numbers, &edges, &roots).expect("a header")
    }

    /// The logs of a run in which node 0 tells node 1 order 2, and the others this one. A frame from one node to another
    /// may be lost in the second round.
    fn run(header: &Header, first: u8, order: u8, lost: Option<(u32, u32)>) -> Logs {
        let node = |general: u32, order: Option<u8>| {
            Node::new(header, general, &Seed([first + general as u8; 32]), order).expect("a node")
        };
        let mut nodes: Vec<Node> = (0..FOUR).map(|general| node(general, (general == 0).then_some(2))).collect();
        let mut twin = node(0, Some(order));
        for round in 1..=header.rounds() {
            nodes.iter_mut().chain([&mut twin]).for_each(|node| node.begin_round().expect("a round"));
            for (from, to) in (0..FOUR).flat_map(|from| header.neighbours(from).map(move |to| (from, to))) {
                let sender = if from == 0 && to > 1 { &mut twin } else { &mut nodes[from as usize] };
                let frame = sender.send(to).expect("a frame");
                if round == 1 || lost != Some((from, to)) {
                    nodes[to as usize].hear(from, &frame).expect("an awaited frame");
                }
            }
            nodes.iter_mut().chain([&mut twin]).for_each(|node| node.end_round().expect("a round"));
        }
        nodes.iter_mut().for_each(|node| node.finish().expect("the last round"));
        (0..).zip(nodes.iter_mut().map(|node| node.log().expect("a log"))).collect()
    }

    fn judged(header: &Header, logs: &Logs) -> Judged {
        let logs: Vec<(u32, &[u8])> = logs.iter().map(|(general, log)| (*general, &log[..])).collect();
        let run = header.run_id().expect("a header");
        judge(header, (&[run]).into(), &logs).expect("a verdict")
    }

    /// The verdict, its order, and who is assumed faulty.
    fn said(judged: &Judged) -> (Verdict, Option<u32>, Vec<u32>) {
        let run = &judged.answer.runs[0];
        (run.verdict, run.order, run.assumed_faulty.clone())
    }

    #[test]
    fn a_run_of_correct_nodes() {
        let header = header(1);
        let logs = run(&header, 1, 2, None);
        let told = judged(&header, &logs);
        assert_eq!(said(&told), (Verdict::Agreed, Some(2), vec![]));
        assert_eq!((told.decided(0..4), told.evidence.len(), told.others.len()), (vec![Some(2); 4], 0, 0));
        assert!(told.answer.json.contains("\"verdict\":\"agreed\"") && told.answer.json.contains(&told.answer.input));
        assert_eq!((digest(&told.bundle), told.bundle.len() as u64), (told.answer.input.clone(), told.answer.bytes));
        assert_eq!(logs_of(&header.run_id().expect("a header"), &told.bundle).expect("a bundle"), logs);
        assert!(logs_of(&[0; 32], &told.bundle).is_err());
    }

    #[test]
    fn nodes_without_a_log_are_listed() {
        let header = header(1);
        let mut logs = run(&header, 1, 2, None);
        logs.remove(1);
        let told = judged(&header, &logs);
        assert_eq!(said(&told), (Verdict::Agreed, Some(2), vec![1]));
        assert_eq!(
            (told.decided([0, 2, 3].into_iter()), &told.answer.runs[0].missing[..]),
            (vec![Some(2); 3], &[1][..])
        );
        logs.truncate(1);
        let told = judged(&header, &logs);
        assert_eq!(said(&told), (Verdict::Explained, None, vec![1, 2, 3]));
        assert!(!told.answer.runs[0].speaks());
    }

    #[test]
    fn a_liar_is_convicted_and_listed() {
        let header = header(1);
        let told = judged(&header, &run(&header, 1, 1, None));
        assert_eq!(said(&told), (Verdict::Agreed, Some(0), vec![0]));
        let [(0, kind, evidence)] = &told.evidence[..] else { panic!("one conviction") };
        let (own, roots) = (header.run_id().expect("a header"), roots_of(header.as_bytes()).expect("a header"));
        assert_eq!((&told.answer.runs[0].convicted[0].root, kind.as_str()), (&roots[0][0], "K2"));
        assert_eq!(vamuretu::evidence_of(Some(&own), evidence), Ok(true));
        assert_eq!(accused(&own, evidence).expect("evidence"), Some((0, "K2".to_owned())));
        assert!(accused(&[0; 32], evidence).is_err() && accused(&own, &evidence[1..]).is_err());
    }

    #[test]
    fn either_end_of_a_lost_frame_is_listed() {
        let header = header(1);
        let told = judged(&header, &run(&header, 1, 2, Some((1, 3))));
        assert_eq!((said(&told), told.others), ((Verdict::Agreed, Some(2), vec![1]), vec![List::from([3])]));
    }

    #[test]
    fn two_logs_of_a_node_convict_it() {
        let header = header(1);
        let (one, two) = (run(&header, 1, 2, None), run(&header, 1, 2, Some((1, 3))));
        let mut logs = one;
        logs.insert(3, two[3].clone());
        logs.sort();
        let told = judged(&header, &logs);
        assert_eq!(told.evidence.iter().map(|it| (it.0, &it.1[..])).collect::<Vec<_>>(), [(3, "K1")]);
        assert_eq!(said(&told), (Verdict::Agreed, Some(2), vec![3]));
        assert_eq!(told.decided([0, 1, 2, 3, 3].into_iter()), [Some(2); 5]);
    }

    #[test]
    fn what_is_sealed() {
        let (header, other) = (header(1), header(5));
        let log = run(&header, 1, 2, None).swap_remove(2).1;
        assert_eq!(is_sealed(&header, 2, &log), Ok(true));
        assert_eq!((is_sealed(&header, 1, &log), is_sealed(&other, 2, &log)), (Ok(false), Ok(false)));
        for place in [0, 31, 40, 41, log.len() / 2, log.len() - 1] {
            let mut bent = log.clone();
            bent[place] ^= 1;
            assert_eq!(is_sealed(&header, 2, &bent), Ok(false), "{place}");
        }
        assert_eq!((is_sealed(&header, 2, &[]), is_sealed(&header, 2, &log[..log.len() - 1])), (Ok(false), Ok(false)));
        assert!(longest_log(&header).expect("a header") > log.len());
    }

    #[test]
    fn what_is_compressed_has_a_bound() {
        let zeros = vec![0; 1 << 20];
        let packed = pack(&zeros).expect("memory");
        assert!(packed.len() < 1000);
        assert_eq!(unpack(&packed, 1 << 20).expect("compressed"), zeros);
        for (bytes, most) in [(&packed[..], (1 << 20) - 1), (&packed[..9], 1 << 20), (b"no such bytes", 99), (b"", 99)]
        {
            assert!(unpack(bytes, most).map_or(true, |it| it.is_empty()));
        }
    }
}
