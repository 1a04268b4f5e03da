//! Headers: what a run is about. And the seeds and roots of keys.

use std::fmt;

use crate::fault::NodeFault;
use crate::raw::{self, written, SmNumbers, SmPair};
use crate::{Fault, Keys, RunId};

/// The version of the formats.
#[derive(Debug, Clone, Copy, PartialEq, Eq, Hash)]
pub enum Version {
    /// A seed serves one run.
    One,
    /// A seed serves one run in each of four slots, 0 to 3.
    Two,
}

impl Version {
    /// The number of the version.
    pub fn number(self) -> u8 {
        match self {
            Version::One => 1,
            Version::Two => 2,
        }
    }

    /// The bytes of a signer in a chain.
    fn signer(self) -> usize {
        match self {
            Version::One => 16_513,
            Version::Two => 16_577,
        }
    }
}

/// The seed of a node's keys: 32 secret bytes of the system's generator. Whoever has it can sign as the node.
pub struct Seed(pub [u8; 32]);

impl fmt::Debug for Seed {
    fn fmt(&self, to: &mut fmt::Formatter<'_>) -> fmt::Result {
        write!(to, "Seed(..)")
    }
}

/// The root of a node's keys: its public key.
#[derive(Debug, Clone, Copy, PartialEq, Eq, Hash)]
pub struct Root(pub [u8; 32]);

impl Root {
    /// The root of the keys that a seed makes, for headers of a version.
    pub fn of(seed: &Seed, version: Version) -> Result<Root, Fault> {
        Keys::new(seed, version).map(|keys| keys.root())
    }
}

/// The numbers of a header. They may be any: [`Header::new`] checks them.
#[derive(Debug, Clone, Copy, PartialEq, Eq, Hash)]
pub struct Numbers {
    /// The version.
    pub version: Version,
    /// The slot, which counts in version 2 alone.
    pub slot: u8,
    /// How many nodes (generals) there are.
    pub generals: u8,
    /// How many of them may be faulty (traitors): m.
    pub traitors: u8,
    /// The diameter of the rest: d. A run has m + d rounds.
    pub diameter: u8,
    /// How many values (orders) there are.
    pub orders: u8,
    /// The choice, 0 or 1.
    pub choice: u8,
}

/// A header, as its bytes, with its numbers. Each header has one spelling, so two headers are the same if and only if their
/// bytes are.
#[derive(Debug, Clone, PartialEq, Eq, Hash)]
pub struct Header {
    bytes: Vec<u8>,
    numbers: Numbers,
}

impl Header {
    /// The header of these numbers, edges in any order and direction, and roots in the order of their nodes (generals).
    /// Faults are H1 to H8 and H11, and behind them that two nodes have the same root.
    pub fn new(numbers: &Numbers, edges: &[(u8, u8)], roots: &[Root]) -> Result<Header, Fault> {
        let given = SmNumbers {
            version: numbers.version.number(),
            slot: numbers.slot,
            generals: numbers.generals,
            traitors: numbers.traitors,
            diameter: numbers.diameter,
            orders: numbers.orders,
            choice: numbers.choice,
        };
        let ends: Vec<u8> = edges.iter().flat_map(|&(a, b)| [a, b]).collect();
        let keys: Vec<u8> = roots.iter().flat_map(|root| root.0).collect();
        let mut fault = 0;
        let mut equal = SmPair { first: 0, second: 0 };
        // SAFETY: the pointers are of pieces of memory of these lengths that do not overlap, and nobody else has the
        // room, the count, the fault and the pair.
        let (status, bytes) = written(8 + ends.len() + keys.len(), |room, room_bytes, count| unsafe {
            let (ends_at, keys_at) = (ends.as_ptr(), keys.as_ptr());
            let (edge_count, root_count, told) = (edges.len(), roots.len(), &mut fault);
            raw::sm_node_header(
                &given, ends_at, edge_count, keys_at, root_count, room, room_bytes, count, told, &mut equal,
            )
        });
        match Fault::of_node(status, fault) {
            Err(Fault::Node(NodeFault::EqualRoots)) => Err(Fault::EqualRoots(equal.first, equal.second)),
            told => told.and_then(|()| Header::read(&bytes)),
        }
    }

    /// The header that bytes spell. Faults are H1 to H7, H9 to H11, or bytes that are left over.
    pub fn read(bytes: &[u8]) -> Result<Header, Fault> {
        let mut told = SmNumbers { version: 0, slot: 0, generals: 0, traitors: 0, diameter: 0, orders: 0, choice: 0 };
        let mut fault = 0;
        // SAFETY: as in `new`.
        let status = unsafe { raw::sm_node_header_numbers(bytes.as_ptr(), bytes.len(), &mut told, &mut fault) };
        Fault::of_node(status, fault)?;
        let SmNumbers { version, slot, generals, traitors, diameter, orders, choice } = told;
        let version = if version == 1 { Version::One } else { Version::Two };
        let numbers = Numbers { version, slot, generals, traitors, diameter, orders, choice };
        Ok(Header { bytes: bytes.to_vec(), numbers })
    }

    /// The bytes of the header.
    pub fn as_bytes(&self) -> &[u8] {
        &self.bytes
    }

    /// The numbers of the header.
    pub fn numbers(&self) -> &Numbers {
        &self.numbers
    }

    /// The run id, by which a file is known to be of this run.
    pub fn run_id(&self) -> Result<RunId, Fault> {
        let (mut run_id, mut fault) = ([0; 32], 0);
        // SAFETY: as in `new`.
        let status =
            unsafe { raw::sm_node_run_id(self.bytes.as_ptr(), self.bytes.len(), run_id.as_mut_ptr(), &mut fault) };
        Fault::of_node(status, fault).map(|()| run_id)
    }

    /// The version of the header.
    pub fn version(&self) -> Version {
        self.numbers.version
    }

    /// How many nodes (generals) there are. They are 0 to n - 1, and node 0 is the commander.
    pub fn generals(&self) -> u32 {
        self.numbers.generals.into()
    }

    /// How many nodes (generals) may be faulty (traitors): m.
    pub fn traitors(&self) -> u32 {
        self.numbers.traitors.into()
    }

    /// How many values (orders) there are: q.
    pub fn orders(&self) -> u32 {
        self.numbers.orders.into()
    }

    /// How many rounds a run has: m + d.
    pub fn rounds(&self) -> usize {
        usize::from(self.numbers.traitors) + usize::from(self.numbers.diameter)
    }

    /// The edges, ascending. They stand behind the numbers, and behind how many they are.
    pub fn edges(&self) -> impl Iterator<Item = (u32, u32)> + '_ {
        let count = match self.version() {
            Version::One => 6,
            Version::Two => 7,
        };
        let edges = self.bytes[count + 1..].chunks_exact(2).take(self.bytes[count].into());
        edges.map(|edge| (edge[0].into(), edge[1].into()))
    }

    /// The nodes (generals) that an edge joins to one.
    pub fn neighbours(&self, general: u32) -> impl Iterator<Item = u32> + '_ {
        self.edges().filter_map(move |(a, b)| match general {
            _ if general == a => Some(b),
            _ if general == b => Some(a),
            _ => None,
        })
    }

    /// The most bytes of a frame of a node that follows the algorithm. A transport should refuse a longer one.
    pub fn longest_frame(&self) -> usize {
        41 + usize::from(self.numbers.orders) * (6 + self.version().signer() * self.rounds())
    }
}
