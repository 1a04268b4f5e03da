//! What a call can end with other than its answer.

use std::fmt;

use crate::raw;

/// Why a call gave no answer. Nothing was changed, but for [`Fault::Memory`] of a round.
#[derive(Debug, Clone, PartialEq, Eq)]
pub enum Fault {
    /// The input of a job has a fault: the line that `sm_tool` prints of it, as `fault B3 H6`.
    Input(String),
    /// The input of a job is of another run than the one that is expected.
    OtherRun,
    /// An admission, or a state, is of another system than the one that is expected.
    OtherSystem,
    /// The node (general) of [`accuse`](crate::accuse) or [`receipt`](crate::receipt) is none of the run's.
    Nobody,
    /// What was handed to a call on nodes, headers or bundles, to [`shown`](crate::shown) or to
    /// [`admitted_run`](crate::admitted_run), has a fault.
    Node(NodeFault),
    /// Two nodes of a header have the same root, the lesser one first. No lesser pair has.
    EqualRoots(u32, u32),
    /// Two nodes that are not assumed faulty have no walk ([`NodeFault::U1`]), or none of at most d edges
    /// ([`NodeFault::U2`]), the lesser one first. No lesser pair has.
    NoWalk(NodeFault, u32, u32),
    /// The call is not allowed here, or a number is out of its range: the calling program has a mistake, but for a frame
    /// that came to [`Node::hear`](crate::Node::hear) after the node ended.
    Misuse,
    /// Memory was refused. The same call may be made again; it continues a round that is half begun or half ended.
    Memory,
}

/// The faults of `sm_node.h`. `docs/FORMATS.md` says what H1 to H11, F1 to F8, B1 to B9, Q1 to Q5 and A1 to
/// A8 are, and so does [`explain`](crate::explain) of such a name.
#[allow(missing_docs)]
#[derive(Debug, Clone, Copy, PartialEq, Eq, Hash)]
pub enum NodeFault {
    H1,
    H2,
    H3,
    H4,
    H5,
    H6,
    H7,
    H8,
    H9,
    H10,
    H11,
    /// Bytes are left over behind a header.
    LeftOver,
    /// The number is none of the header's nodes (generals), or the value (order) does not fit the node.
    NoGeneral,
    /// The header has another root for the node than that of the keys.
    OtherRoot,
    /// Two nodes have the same root: [`Fault::EqualRoots`] names them.
    EqualRoots,
    /// The keys are of another version than the header.
    OtherVersion,
    /// A node was made of the keys in the slot of the header, or in a later one.
    UsedSlot,
    F1,
    F2,
    F3,
    F4,
    F5,
    F6,
    F7,
    F8,
    /// Two nodes that are not assumed faulty have no walk: [`Fault::NoWalk`] names them.
    U1,
    /// Two nodes that are not assumed faulty have no walk of at most d edges: [`Fault::NoWalk`] names them.
    U2,
    B1,
    B2,
    B3,
    B4,
    B5,
    B6,
    B7,
    B8,
    B9,
    /// A log has 2^32 bytes or more.
    LongLog,
    Q1,
    Q2,
    Q3,
    Q4,
    Q5,
    A1,
    A2,
    /// The system of the admission breaks a rule, other than one of its header.
    A3,
    A4,
    A5,
    A6,
    A7,
    A8,
}

use NodeFault::*;

/// The faults of each row of numbers, with the first number.
const NUMBERED: [(u32, &[NodeFault]); 8] = [
    (1, &[H1, H2, H3, H4, H5, H6, H7, H8, H9, H10, H11, LeftOver, NoGeneral, OtherRoot, EqualRoots]),
    (16, &[OtherVersion, UsedSlot]),
    (21, &[F1, F2, F3, F4, F5, F6, F7, F8]),
    (31, &[U1, U2]),
    (41, &[B1, B2, B3, B4, B5, B6, B7, B8, B9]),
    (50, &[LongLog]),
    (61, &[Q1, Q2, Q3, Q4, Q5]),
    (71, &[A1, A2, A3, A4, A5, A6, A7, A8]),
];

impl NodeFault {
    /// The fault of a number of `sm_node.h`.
    pub(crate) fn of_number(number: u32) -> Option<NodeFault> {
        let place = |first: u32| number.checked_sub(first).and_then(|place| usize::try_from(place).ok());
        NUMBERED.iter().find_map(|&(first, faults)| faults.get(place(first)?).copied())
    }
}

impl fmt::Display for NodeFault {
    fn fmt(&self, to: &mut fmt::Formatter<'_>) -> fmt::Result {
        match self {
            LeftOver => write!(to, "bytes are left over behind a header"),
            NoGeneral => write!(to, "no general of the header, or an order that does not fit it"),
            OtherRoot => write!(to, "another root than that of the keys"),
            EqualRoots => write!(to, "two generals have the same root"),
            OtherVersion => write!(to, "keys of another version than the header"),
            UsedSlot => write!(to, "a slot that the keys have served, or passed over"),
            U1 => write!(to, "two generals that are not assumed faulty have no walk"),
            U2 => write!(to, "two generals that are not assumed faulty have no walk of at most d edges"),
            LongLog => write!(to, "a log of 2^32 bytes or more"),
            named => write!(to, "fault {named:?}"),
        }
    }
}

impl fmt::Display for Fault {
    fn fmt(&self, to: &mut fmt::Formatter<'_>) -> fmt::Result {
        match self {
            Fault::Input(line) => write!(to, "{line}"),
            Fault::OtherRun => write!(to, "fault R1"),
            Fault::OtherSystem => write!(to, "fault A11"),
            Fault::Node(fault) => write!(to, "{fault}"),
            Fault::EqualRoots(first, second) => write!(to, "fault G2 generals {first} {second}"),
            Fault::NoWalk(fault, first, second) => write!(to, "{fault}: {first} and {second}"),
            Fault::Nobody => write!(to, "the general is none of the run's"),
            Fault::Misuse => write!(to, "the call is not allowed here"),
            Fault::Memory => write!(to, "memory was refused"),
        }
    }
}

impl std::error::Error for Fault {}

impl Fault {
    /// What a call of the library of nodes ended with, by its status and the fault that it told.
    pub(crate) fn of_node(status: u32, number: u32) -> Result<(), Fault> {
        match status {
            raw::OK => Ok(()),
            raw::FAULT => Err(NodeFault::of_number(number).map_or(Fault::Misuse, Fault::Node)),
            raw::MEMORY => Err(Fault::Memory),
            raw::OTHER => Err(Fault::OtherRun),
            _ => Err(Fault::Misuse),
        }
    }
}

#[cfg(test)]
mod tests {
    use super::*;

    #[test]
    fn numbers_are_those_of_the_header() {
        let header = include_str!("../../sm_node.h");
        for (name, fault) in [
            ("SM_LEFT_OVER = 12", LeftOver),
            ("SM_NO_GENERAL = 13", NoGeneral),
            ("SM_OTHER_ROOT = 14", OtherRoot),
            ("SM_EQUAL_ROOTS = 15", EqualRoots),
            ("SM_OTHER_VERSION = 16", OtherVersion),
            ("SM_USED_SLOT = 17", UsedSlot),
        ] {
            let number = name.rsplit(' ').next().expect("a number").parse().expect("a number");
            assert!(header.contains(name) && NodeFault::of_number(number) == Some(fault));
        }
        let told = [
            (1, H1),
            (11, H11),
            (21, F1),
            (28, F8),
            (31, U1),
            (32, U2),
            (44, B4),
            (47, B7),
            (49, B9),
            (50, LongLog),
            (61, Q1),
            (65, Q5),
            (71, A1),
            (78, A8),
        ];
        for (number, fault) in told {
            assert_eq!(NodeFault::of_number(number), Some(fault));
        }
        for number in [0, 18, 20, 29, 33, 40, 51, 60, 66, 70, 79, u32::MAX] {
            assert_eq!(NodeFault::of_number(number), None);
        }
    }

    #[test]
    fn statuses_are_those_of_the_header() {
        let header = include_str!("../../sm_status.h");
        let names = ["SM_OK = 0", "SM_MISUSE = 2", "SM_FAULT = 3", "SM_MEMORY = 4", "SM_LENGTH = 5"];
        assert!(names.iter().all(|name| header.contains(name)));
        assert_eq!((Fault::of_node(0, 0), Fault::of_node(2, 0)), (Ok(()), Err(Fault::Misuse)));
        assert_eq!(Fault::of_node(7, 0), Err(Fault::OtherRun));
        assert_eq!((Fault::of_node(3, 6), Fault::of_node(4, 0)), (Err(Fault::Node(H6)), Err(Fault::Memory)));
        assert_eq!(Fault::Node(H6).to_string(), "fault H6");
        for fault in [LeftOver, NoGeneral, OtherRoot, EqualRoots, OtherVersion, UsedSlot, U1, U2, LongLog] {
            assert!(!fault.to_string().starts_with("fault"), "a name that explain does not know");
        }
    }
}
