//! Identities of nodes over many runs, systems of them, and the admissions that show the roots of a run.

use crate::jobs::{asked, ended, options, text_of, told, Expected, TEXT};
use crate::raw::{self, Held, SmAnswer, SmFact, SmRoots};
use crate::states::{Secret, SystemId};
use crate::{Fault, Header, Version};

/// The kinds of facts, as `sm_embed.h` has them.
const FACT_SYSTEM: u32 = 10;
const FACT_NODE: u32 = 11;

/// Which run of a system an input is of.
#[derive(Debug, Clone, PartialEq, Eq, Hash)]
pub struct SystemRun {
    /// The id of the system.
    pub system: SystemId,
    /// The number of the run.
    pub number: u32,
    /// For each general of the run, the node of the system that it is.
    pub nodes: Vec<u32>,
}

impl SystemRun {
    /// The runs that facts tell, and the facts that tell of something else.
    pub(crate) fn split(facts: &[SmFact]) -> (Vec<SystemRun>, &[SmFact]) {
        let count = facts.iter().take_while(|fact| [FACT_SYSTEM, FACT_NODE].contains(&fact.kind)).count();
        let (front, rest) = facts.split_at(count);
        let of_system = front.iter().filter(|fact| fact.kind == FACT_SYSTEM);
        let run = |it: &SmFact| SystemRun { system: it.run_id, number: it.number, nodes: nodes_of(front, it.run) };
        (of_system.map(run).collect(), rest)
    }
}

/// The nodes that the generals of a run are, by its place among the runs.
fn nodes_of(facts: &[SmFact], run: u32) -> Vec<u32> {
    facts.iter().filter(|it| it.kind == FACT_NODE && it.run == run).map(|it| it.other).collect()
}

/// What a system says besides the text of its header.
#[derive(Debug, Clone, Copy, PartialEq, Eq, Hash)]
pub struct Terms {
    /// The version of its runs.
    pub version: Version,
    /// How many levels each identity has, 0 to 20: each node has 2^levels sets of keys.
    pub levels: u32,
    /// Whether node r mod n proposes in run r, in place of node 0.
    pub turns: bool,
    /// What the users agree on, as the hash of their plan of rounds and of what the values (orders) mean.
    pub context: [u8; 32],
}

/// What a call makes of a system: its bytes, and the id of the system.
#[derive(Debug, Clone, PartialEq, Eq, Hash)]
pub struct OfSystem {
    /// The bytes.
    pub bytes: Vec<u8>,
    /// The id of the system.
    pub system: SystemId,
}

/// The header of a run that an admission admits, and which run of which system it is of.
#[derive(Debug, Clone, PartialEq, Eq, Hash)]
pub struct Admitted {
    /// The header.
    pub header: Header,
    /// The run.
    pub run: SystemRun,
}

/// Makes the answer of a call, which is never a no.
fn made(call: impl FnOnce(*mut SmAnswer) -> u32) -> Result<Held, Fault> {
    ended(Held::by(call)).map(|(_, held)| held)
}

/// The bytes of an answer about one run of a system, and that run.
fn of_system(mut held: Held) -> Result<(Vec<u8>, SystemRun), Fault> {
    let run = SystemRun::split(&held.facts()).0.pop().ok_or(Fault::Misuse)?;
    Ok((held.text(), run))
}

/// The file of roots of the 2^levels sets of keys of a secret, 0 to 20 levels, for runs of a version. It is public. The keys
/// of all sets are made, in the calling thread alone, which takes long: `sm_tool enroll` has workers.
pub fn enroll(version: Version, levels: u32, secret: &Secret) -> Result<Vec<u8>, Fault> {
    let (number, at) = (version.number().into(), secret.0.as_ptr());
    // SAFETY: the secret is of 32 bytes, and nobody else has the answer.
    made(|answer| unsafe { raw::sm_enroll(number, levels, at, secret.0.len(), answer) }).map(|mut held| held.text())
}

/// The top of the identity over a file of roots: 64 hexadecimal digits, which stand in the place of a root in the text of
/// [`system`].
pub fn identity(roots: &[u8]) -> Result<String, Fault> {
    told(raw::sm_identity, roots).map(|(_, mut held)| text_of(held.text()).trim_end().to_owned())
}

/// The system of the text of a header, whose roots are the tops of the nodes' identities. Who judges pins its id once.
pub fn system(terms: &Terms, text: &[u8]) -> Result<OfSystem, Fault> {
    let (number, turns, context) = (terms.version.number().into(), terms.turns.into(), terms.context.as_ptr());
    // SAFETY: the pointers are of pieces of memory of these lengths that do not overlap, and nobody else has the answer.
    let call =
        |answer| unsafe { raw::sm_system(number, terms.levels, turns, context, text.as_ptr(), text.len(), answer) };
    of_system(made(call)?).map(|(bytes, run)| OfSystem { bytes, system: run.system })
}

/// The admission of the set of the run with this number, from the bytes of a system and the file of roots of each node, as
/// the node's number and the file, node 0 first. It serves for each run of this set. [`Fault::Misuse`] for a node above 15.
pub fn admission(number: u32, system: &[u8], roots: &[(u32, &[u8])]) -> Result<OfSystem, Fault> {
    let file = |&(node, roots): &(u32, &[u8])| SmRoots { node, roots: roots.as_ptr(), roots_bytes: roots.len() };
    let files: Vec<SmRoots> = roots.iter().map(file).collect();
    // SAFETY: as in `system`, and the files of roots outlive the call.
    let call = |answer| unsafe {
        raw::sm_admission(number, system.as_ptr(), system.len(), files.as_ptr(), files.len(), answer)
    };
    of_system(made(call)?).map(|(bytes, run)| OfSystem { bytes, system: run.system })
}

/// The header of the run with this number of an admission. [`Fault::OtherSystem`] if the admission is of another system
/// than the one with this id. Without an id anybody's admission counts: compare the id that is told.
pub fn admit(number: u32, admission: &[u8], system: Option<&SystemId>) -> Result<Admitted, Fault> {
    let (at, length) = (admission.as_ptr(), admission.len());
    let id = system.map_or(&[][..], |id| &id[..]);
    // SAFETY: as in `system`.
    let call = |answer| unsafe { raw::sm_admit(number, at, length, id.as_ptr(), id.len(), answer) };
    let (bytes, run) = of_system(made(call)?)?;
    Ok(Admitted { header: Header::read(&bytes)?, run })
}

/// Which runs of a system a header, a bundle, a campaign or evidence is of, by an admission of their set.
/// [`Fault::OtherRun`] for another run, and [`Fault::OtherSystem`] if the admission is not of the system with this id.
pub fn system_runs(admission: &[u8], system: Option<&SystemId>, input: &[u8]) -> Result<Vec<SystemRun>, Fault> {
    let expected = Expected::Admitted { admission, system };
    let (_, mut held) = asked(raw::sm_show, &options(expected, false, TEXT)?, input)?;
    Ok(SystemRun::split(&held.facts()).0)
}
