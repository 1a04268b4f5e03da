//! What is said to people who have not seen this before: what an answer is worth, and how a page is signed. The words are
//! those of docs/ANSWERS.md, in short.

use crate::index::Verdict;

/// What a conviction is worth.
pub const CONVICTION: [&str; 4] = [
    "A conviction stands on signatures alone, and needs no witness: anybody can check it by the commands below.",
    "It shows that the node, or somebody who has its keys, signed what a node that follows the rules never signs: in one run, or in two with the same keys.",
    "It leaves open who has the keys, why this was signed, and whether it did harm.",
    "The node can answer by the log that it kept. Such an answer asks who has the keys, and clears nobody.",
];

/// How a conviction is checked.
pub const CHECKED: &str =
    "Whoever doubts it takes the run id from a source of its own, and runs these, and the like for the other files:";

/// What a verdict `agreed` is worth.
pub const AGREED: &str = "An agreed run tells what the correct nodes decided if no more nodes are faulty than the m that it was \
    planned for, if at least m + 1 nodes are not assumed faulty, if correct nodes are joined by walks through correct nodes as it was \
    planned, if nobody else has the keys of a correct node, and if its run id or its system is known from elsewhere.";

/// What a verdict `no` without a conviction is worth.
pub const FINDING: [&str; 3] = [
    "A finding convicts nobody. A message that only one of two logs has can be the fault of either end, or of the network.",
    "A log that was changed, cut or exchanged can come from anybody who had it.",
    "Ask the nodes that are named for their logs again, or judge with another list of nodes that are assumed faulty.",
];

/// What the others mean.
pub const UNKNOWN: &str =
    "Anybody can make keys, a header and logs that fit. So a file of a run that no admission shows \
    says nothing about these nodes, whatever its verdict is.";
pub const DOUBLE: &str =
    "One run has one bundle. Two logs of one node that differ convict it, if one bundle has both: join them.";
pub const EQUAL: &str = "Whoever has the keys of one of these nodes has those of the other, and is counted twice.";
pub const GAP: &str =
    "A run in which nobody proposed leaves a file too. So a missing file was lost, kept back, or never made.";
pub const NUMBERLESS: &str = "No admission shows these runs, so nothing says whose they are: anybody can make such files. The \
    number of a general says nothing of another run. So a conviction is of the holder of a root, nothing is added up over \
    runs, and no names are given. This gives runs and nodes their numbers:";
pub const UNCOMMITTED: &str =
    "The index knows the digest of no file. So this page commits to no file: whoever signs it signs no \
    evidence.";
pub const EVIDENCE: &str =
    "Evidence is kept when its run is judged again. It convicts its node, whatever was said of the run later. An alarm named each of these files: where one is gone, somebody has taken it.";
pub const ALONE: &str = "No run id was given. Anybody can make such a file: compare its run id with one that you know \
    from before the run.";

/// What a kind of conviction means, in the words of a person.
pub fn kind(kind: &str) -> &'static str {
    match kind.get(..2) {
        Some("K1") => "It signed two different texts where one is allowed.",
        Some("K2") => "As the node that proposes, it signed two different values for one run.",
        Some("K3") => "It signed a log as complete that lacks something which it signed.",
        Some("K4") => "It signed a log of its own that breaks the rules.",
        _ => "Its signatures contradict each other.",
    }
}

/// How many nodes speak for the correct nodes, where these are too few.
pub fn few((count, needed): (u32, u32)) -> String {
    let are = if count == 1 { "node is" } else { "nodes are" };
    format!("{count} {are} not assumed faulty; {needed} are needed to speak for the correct nodes.")
}

/// What a verdict means, in the words of a person.
pub fn verdict(verdict: Verdict) -> &'static str {
    match verdict {
        Verdict::Agreed => {
            "The signed logs fit together, and all nodes that are not assumed faulty decided the same value. A convicted \
             node can be one of those that are assumed faulty."
        }
        Verdict::Explained => {
            "The signed logs fit together, but more nodes are assumed faulty than the run was planned for: nothing says \
             that the others had to agree."
        }
        Verdict::No => "The signed logs do not fit together: the findings say where.",
        Verdict::Gap => "No log came.",
    }
}

/// How the page is signed, and shown to have been there at a time. NAME is that of the page.
pub const SIGNING: &str = "sha256sum NAME
ssh-keygen -Y sign -f KEY -n vamuretu-report NAME
openssl ts -query -data NAME -sha256 -cert -out NAME.tsq
curl -s -H 'Content-Type: application/timestamp-query' --data-binary @NAME.tsq -o NAME.tsr SERVICE";
pub const CHECKING: &str = "ssh-keygen -Y verify -f SIGNERS -I WHO -n vamuretu-report -s NAME.sig < NAME
openssl ts -verify -in NAME.tsr -data NAME -CAfile AUTHORITY";
pub const STAMPING: &str = "The first two give the digest and NAME.sig, by the private key KEY of whoever answers for the \
    page. The third makes a request for a time stamp (RFC 3161), and the fourth sends it to SERVICE, the address of a service that \
    you trust, which answers by NAME.tsr. SIGNERS has a line with WHO and the public key, and AUTHORITY the certificate of the \
    service. A signature says who stands \
    behind the page, and not that it is right: for that, judge the files again.";
