//! Runs of four nodes, whose bundles are those of scenarios, and calls that end otherwise.
//!
//! The folder VAMURETU_BUNDLES has what is compared: `all.bundle` and `ring.bundle`, with the logs of those who took
//! part. `trials/bindings.py` makes it by the program. Without it the runs are judged alone.

use std::collections::BTreeMap;
use vamuretu::{audit, run_ids, shown, Bundle, Fault, FrameHead, Header, Keys, Node, NodeFault, Numbers};
use vamuretu::{Root, Seed, Version};

/// The seeds of the nodes (generals) of a scenario whose seed is zero (docs/FORMATS.md).
const SEEDS: [&str; 4] = [
    "66d70c6db5df5e0dc723644c7f93c8fee5b0eb7d6409bcc2cd5153f38e8678b2",
    "49aac0d4ee170399312235e300697e7e76d0e0fc57377fda40ad356ccfe5aed9",
    "47a45e3a94f7e0200b36e9bb1d5879bc5a173b709d905d056400ff7f039001c5",
    "5832781c75b5c3b49bdbb7acd4d5267a08b8910d4f2cfbe5cce6298ae495ea80",
];
const NUMBERS: Numbers =
    Numbers { version: Version::One, slot: 0, generals: 4, traitors: 1, diameter: 1, orders: 3, choice: 0 };
const ALL: [(u8, u8); 6] = [(0, 1), (0, 2), (0, 3), (1, 2), (1, 3), (2, 3)];
const RING: [(u8, u8); 4] = [(1, 0), (1, 2), (3, 2), (0, 3)];

fn seed_of(general: u32) -> Seed {
    let digits = SEEDS[general as usize];
    let byte = |at: usize| u8::from_str_radix(&digits[2 * at..2 * at + 2], 16).expect("two digits");
    Seed(std::array::from_fn(byte))
}

fn header_of(numbers: &Numbers, edges: &[(u8, u8)]) -> Header {
    let roots: Vec<Root> = (0..4).map(|g| Root::of(&seed_of(g), numbers.version).expect("a root")).collect();
    Header::new(numbers, edges, &roots).expect("a header")
}

fn node_of(header: &Header, general: u32, order: u8) -> Node {
    Node::new(header, general, &seed_of(general), (general == 0).then_some(order)).expect("a node")
}

/// What a node that has ended leaves: its number, its log, what it decided, and its receipt.
type Left = (u32, Vec<u8>, u32, Vec<u8>);

/// What is left of a run in which some nodes never begin.
fn drive(header: &Header, order: u8, silent: &[u32]) -> Result<Vec<Left>, Fault> {
    let loyal = (0..4).filter(|general| !silent.contains(general));
    let mut nodes: BTreeMap<u32, Node> = loyal.map(|general| (general, node_of(header, general, order))).collect();
    for _ in 0..header.rounds() {
        nodes.values_mut().try_for_each(Node::begin_round)?;
        for (a, b) in header.edges() {
            for (from, to) in [(a, b), (b, a)] {
                if nodes.contains_key(&from) && nodes.contains_key(&to) {
                    let frame = nodes.get_mut(&from).expect("a node").send(to)?;
                    assert!(frame.len() <= header.longest_frame());
                    nodes.get_mut(&to).expect("a node").hear(from, &frame)?;
                }
            }
        }
        nodes.values_mut().try_for_each(Node::end_round)?;
    }
    let end = |(general, mut node): (u32, Node)| {
        node.finish()?;
        Ok((general, node.log()?, node.order()?, node.receipt()?))
    };
    nodes.into_iter().map(end).collect()
}

/// The receipts of nodes that have ended show the value that they decided.
fn check_receipts(header: &Header, order: u8, ended: &[Left]) {
    let run = header.run_id().expect("a run id");
    let receipts: Vec<&[u8]> = ended.iter().map(|left| left.3.as_slice()).collect();
    let whole = receipts.concat();
    assert_eq!(shown(&run, &whole), Ok(Some(order.into())));
    assert_eq!((shown(&run, receipts[0]), shown(&run, &[receipts[0]; 3].concat())), (Ok(None), Ok(None)));
    assert_eq!(shown(&[0; 32], &whole), Err(Fault::OtherRun));
    for (given, fault) in
        [(&whole[1..], NodeFault::Q2), (&whole[..9], NodeFault::Q1), (&whole[..whole.len() - 1], NodeFault::Q1)]
    {
        assert_eq!(shown(&run, given), Err(Fault::Node(fault)));
    }
}

/// The run of a header, whose bundle has to be that of a file, and its verdict `agreed`.
fn check(name: &str, header: &Header, order: u8, silent: &[u32]) {
    let ended = drive(header, order, silent).expect("a run");
    assert!(ended.iter().all(|it| it.2 == u32::from(order)));
    check_receipts(header, order, &ended);
    let logs: Vec<(u32, &[u8])> = ended.iter().map(|(general, log, ..)| (*general, log.as_slice())).collect();
    let bundle = Bundle::new(header, silent, &logs).expect("a bundle");
    match std::env::var_os("VAMURETU_BUNDLES") {
        Some(folder) => {
            let wanted = std::fs::read(std::path::Path::new(&folder).join(name)).expect("the bundle of the scenario");
            assert!(bundle.as_bytes() == wanted, "{name} is another bundle");
        }
        None => println!("{name} is not compared, as VAMURETU_BUNDLES names no folder"),
    }
    let verdict = audit(bundle.as_bytes()).expect("a verdict");
    assert!(!verdict.is_no() && verdict.text().contains(&format!("verdict agreed {order}\n")));
}

#[test]
fn all() {
    check("all.bundle", &header_of(&NUMBERS, &ALL), 2, &[]);
}

#[test]
fn ring_in_a_slot() {
    let numbers = Numbers { version: Version::Two, slot: 1, diameter: 2, orders: 2, ..NUMBERS };
    check("ring.bundle", &header_of(&numbers, &RING), 1, &[2]);
}

#[test]
fn headers() {
    let header = header_of(&Numbers { version: Version::Two, slot: 1, diameter: 2, orders: 2, ..NUMBERS }, &RING);
    assert_eq!((header.generals(), header.rounds(), header.longest_frame()), (4, 3, 99_515));
    assert_eq!(header.edges().collect::<Vec<_>>(), [(0, 1), (0, 3), (1, 2), (2, 3)]);
    assert_eq!(header.neighbours(0).collect::<Vec<_>>(), [1, 3]);
    let bytes = header.as_bytes();
    assert_eq!(Header::read(bytes), Ok(header.clone()));
    assert_eq!(run_ids(bytes), Ok(Some(vec![header.run_id().expect("a run id")])));
    let longer = [bytes, &[0]].concat();
    for (given, fault) in
        [(&[][..], NodeFault::H9), (&bytes[..9], NodeFault::H9), (&longer, NodeFault::LeftOver), (&[3], NodeFault::H10)]
    {
        assert_eq!(Header::read(given), Err(Fault::Node(fault)));
    }
    let roots = [Root([0; 32]), Root([1; 32]), Root([2; 32])];
    let line = Numbers { generals: 3, traitors: 0, ..NUMBERS };
    let parted = Header::new(&line, &[(0, 1), (1, 2)], &roots).expect("a header");
    assert_eq!(Header::read(parted.as_bytes()), Ok(parted.clone()));
    assert_eq!(Bundle::new(&parted, &[1], &[]), Err(Fault::NoWalk(NodeFault::U1, 0, 2)));
    assert_eq!(Bundle::new(&parted, &[], &[]), Err(Fault::NoWalk(NodeFault::U2, 0, 2)));
    assert!(Bundle::parted(&parted, &[], &[]).is_ok());
    for (numbers, edges, fault) in [
        (Numbers { generals: 1, ..line }, &[][..], NodeFault::H1),
        (line, &[(0, 0)][..], NodeFault::H2),
        (Numbers { generals: 4, ..line }, &[(0, 1)][..], NodeFault::H8),
        (Numbers { version: Version::Two, slot: 4, ..line }, &[(0, 1)][..], NodeFault::H11),
    ] {
        assert_eq!(Header::new(&numbers, edges, &roots), Err(Fault::Node(fault)));
    }
    let shared = [roots[0], roots[1], roots[1]];
    assert_eq!(Header::new(&line, &[(0, 1), (1, 2)], &shared), Err(Fault::EqualRoots(1, 2)));
}

#[test]
fn keys() {
    let header = |slot| header_of(&Numbers { version: Version::Two, slot, ..NUMBERS }, &ALL);
    let mut keys = Keys::new(&seed_of(1), Version::Two).expect("keys");
    assert_eq!(Root::of(&seed_of(1), Version::Two), Ok(keys.root()));
    for (slot, fault) in [(1, None), (3, None), (0, Some(NodeFault::UsedSlot)), (3, Some(NodeFault::UsedSlot))] {
        assert_eq!(Node::of_keys(&header(slot), 1, &mut keys, None).err(), fault.map(Fault::Node));
    }
    let mut other = Keys::new(&seed_of(1), Version::One).expect("keys");
    let told = Node::of_keys(&header(0), 1, &mut other, None).err();
    assert_eq!(told, Some(Fault::Node(NodeFault::OtherVersion)));
    assert!(Node::of_keys(&header_of(&NUMBERS, &ALL), 1, &mut other, None).is_ok());
}

#[test]
fn calls() {
    let header = header_of(&NUMBERS, &ALL);
    let begin = |general, seed, order| Node::new(&header, general, &seed_of(seed), order).err();
    assert_eq!(begin(0, 0, None), Some(Fault::Node(NodeFault::NoGeneral)));
    assert_eq!(begin(4, 0, None), Some(Fault::Node(NodeFault::NoGeneral)));
    assert_eq!(begin(0, 1, Some(1)), Some(Fault::Node(NodeFault::OtherRoot)));
    for (general, order) in [(16, None), (u32::MAX, None), (0, Some(16)), (1, Some(255))] {
        assert_eq!(begin(general, 0, order), Some(Fault::Misuse));
    }
    let (mut own, mut other) = (node_of(&header, 0, 2), node_of(&header, 1, 2));
    assert_eq!(own.send(1), Err(Fault::Misuse));
    assert_eq!((own.log(), own.receipt()), (Err(Fault::Misuse), Err(Fault::Misuse)));
    assert_eq!(own.order(), Err(Fault::Misuse));
    assert_eq!(own.finish(), Err(Fault::Misuse));
    assert_eq!(own.end_round(), Err(Fault::Misuse));
    assert_eq!(own.hear(1, &[]), Err(Fault::Node(NodeFault::F1)));
    let asked = |node: &mut Node| (node.round(), node.lacks(1), node.may_end(), node.is_over());
    assert_eq!(asked(&mut own), (Ok(0), Ok(false), Ok(false), Ok(false)));
    assert_eq!((own.begin_round(), other.begin_round()), (Ok(()), Ok(())));
    assert_eq!(asked(&mut own), (Ok(1), Ok(true), Ok(true), Ok(false)));
    assert_eq!(own.lacks(16), Err(Fault::Misuse));
    let frame = own.send(1).expect("a frame");
    assert_eq!(own.send(1), Ok(frame.clone()));
    let run_id = header.run_id().expect("a run id");
    let head = FrameHead { run_id, round: 1, sender: 0, receiver: 1, parcel_count: 1 };
    assert_eq!((FrameHead::read(&frame), FrameHead::read(&frame[..41])), (Ok(head), Ok(head)));
    assert_eq!(FrameHead::read(&frame[..40]), Err(Fault::Node(NodeFault::F3)));
    assert_eq!(FrameHead::read(&frame[1..]), Err(Fault::Node(NodeFault::F4)));
    assert_eq!(own.send(4), Err(Fault::Misuse));
    assert_eq!(other.hear(16, &frame), Err(Fault::Misuse));
    assert_eq!(other.hear(2, &frame), Err(Fault::Node(NodeFault::F8)));
    assert_eq!(other.hear(0, &frame[1..]), Err(Fault::Node(NodeFault::F4)));
    assert_eq!((other.lacks(0), other.hear(0, &frame), other.lacks(0)), (Ok(true), Ok(()), Ok(false)));
    assert_eq!(other.hear(0, &frame), Err(Fault::Node(NodeFault::F2)));
    for (faulty, logs, fault) in [
        (&[16][..], &[][..], Fault::Misuse),
        (&[], &[(16, &b""[..])], Fault::Misuse),
        (&[4], &[], Fault::Node(NodeFault::B4)),
        (&[], &[(4, b"")], Fault::Node(NodeFault::B7)),
        (&[], &[(1, b""), (0, b"")], Fault::Node(NodeFault::B9)),
    ] {
        assert_eq!(Bundle::new(&header, faulty, logs), Err(fault));
    }
}
