//! A device that knows the id of a system and its timetable alone: what it obeys, and what it does not.

use vamuretu::{admission, admit, admitted_run, enroll, identity, system, AdmittedRun, Device, Fault, Header, Node};
use vamuretu::{NodeFault, NotObeyed, Secret, SetState, SystemId, SystemRun, Terms, Timetable, Version};

const SECRETS: [Secret; 3] = [Secret([7; 32]), Secret([8; 32]), Secret([9; 32])];
const TERMS: Terms = Terms { version: Version::Two, levels: 1, turns: true, context: [5; 32] };
/// Run 5 is in slot 1 of set 1, and node 2 proposes. It begins at `BEGUN`.
const RUN: u32 = 5;
const TIMES: Timetable = Timetable { start: 10_000, period: 100 };
const BEGUN: i64 = 10_500;

/// The id of a system of three nodes, of which one may be faulty, and the admission of the set of the run.
fn made() -> (SystemId, Vec<u8>) {
    let roots: Vec<_> = SECRETS.iter().map(|it| enroll(TERMS.version, TERMS.levels, it).expect("roots")).collect();
    let tops: String = roots.iter().map(|file| format!("root {}\n", identity(file).expect("a top"))).collect();
    let edges = "edge 0 1\nedge 0 2\nedge 1 2\n";
    let text = format!("generals 3\n{edges}traitors 1\ndiameter 1\norders 2\nchoice 0\n{tops}end\n");
    let of_system = system(&TERMS, text.as_bytes()).expect("a system");
    let files: Vec<(u32, &[u8])> = (0..).zip(&roots).map(|(node, file)| (node, file.as_slice())).collect();
    (of_system.system, admission(RUN, &of_system.bytes, &files).expect("an admission").bytes)
}

/// The receipts of the nodes of a run, in which the proposer has this value.
fn receipts(header: &Header, run: &SystemRun, order: u8) -> Vec<Vec<u8>> {
    let seed = |node: u32| {
        let state = SetState::first(&SECRETS[node as usize], &run.system)?;
        state.advance_to(run.number / 4)?.seed(&run.system)
    };
    let make = |(at, &node): (u32, &u32)| Node::new(header, at, &seed(node)?, (at == 0).then_some(order));
    let mut nodes = (0..).zip(&run.nodes).map(make).collect::<Result<Vec<Node>, Fault>>().expect("nodes");
    for _ in 0..header.rounds() {
        nodes.iter_mut().try_for_each(Node::begin_round).expect("a round");
        for (a, b) in header.edges() {
            for (from, to) in [(a, b), (b, a)] {
                let frame = nodes[from as usize].send(to).expect("a frame");
                nodes[to as usize].hear(from, &frame).expect("a frame");
            }
        }
        nodes.iter_mut().try_for_each(Node::end_round).expect("a round");
    }
    let end = |node: &mut Node| node.finish().and_then(|()| node.receipt());
    nodes.iter_mut().map(end).collect::<Result<_, _>>().expect("receipts")
}

#[test]
fn runs_that_are_admitted() {
    let (id, shown) = made();
    for run in 4..8 {
        let run_id = admit(run, &shown, None).expect("a header").header.run_id().expect("an id");
        assert_eq!(admitted_run(&id, run, &shown), Ok(AdmittedRun { run_id, traitors: 1, proposer: run % 3 }));
    }
    for run in [0, 3, 8, u32::MAX] {
        assert_eq!(admitted_run(&id, run, &shown), Err(Fault::Node(NodeFault::A8)));
    }
    assert_eq!(admitted_run(&[0; 32], RUN, &shown), Err(Fault::OtherSystem));
    assert_eq!(admitted_run(&id, RUN, b""), Err(Fault::Node(NodeFault::A1)));
    let mut bent = shown;
    *bent.last_mut().expect("bytes") ^= 1;
    assert_eq!(admitted_run(&id, RUN, &bent), Err(Fault::Node(NodeFault::A7)));
}

#[test]
fn what_is_obeyed() {
    let (id, shown) = made();
    let told = admit(RUN, &shown, None).expect("a header");
    let [one, two, three] = <[Vec<u8>; 3]>::try_from(receipts(&told.header, &told.run, 1)).expect("three");
    for given in [[&one[..], &two].concat(), [&three[..], &two].concat(), [&one[..], &two, &three].concat()] {
        let mut device = Device::new(id, TIMES);
        assert_eq!((device.obey(RUN, &shown, &given, BEGUN), device.newest()), (Ok(1), Some(RUN)));
        assert_eq!(device.obey(RUN, &shown, &given, BEGUN), Err(NotObeyed::NotLater));
        for (oldest, last) in [(3, 300), (0, 0), (12, 1200)] {
            let fresh = Device::new(id, TIMES).with_oldest(oldest);
            assert_eq!(fresh.clone().obey(RUN, &shown, &given, BEGUN + last), Ok(1));
            assert_eq!(fresh.clone().obey(RUN, &shown, &given, 0), Ok(1));
            assert_eq!(fresh.clone().obey(RUN, &shown, &given, i64::MIN), Ok(1));
            assert_eq!(fresh.clone().obey(RUN, &shown, &given, BEGUN + last + 1), Err(NotObeyed::Old));
            assert_eq!(fresh.clone().obey(RUN, &shown, &given, i64::MAX), Err(NotObeyed::Old));
        }
    }
}

#[test]
fn what_is_not() {
    let (id, shown) = made();
    let told = admit(RUN, &shown, None).expect("a header");
    let given = receipts(&told.header, &told.run, 1);
    let others = receipts(&told.header, &told.run, 0);
    let next = admit(RUN + 1, &shown, None).expect("a header");
    let later = receipts(&next.header, &next.run, 1).concat();
    let mut device = Device::new(id, TIMES);
    let mut obey = |run, shown: &[u8], given: &[u8]| device.obey(run, shown, given, BEGUN);
    for few in [given[0].clone(), [&given[0][..], &given[0]].concat(), [&given[0][..], &others[1]].concat()] {
        assert_eq!(obey(RUN, &shown, &few), Err(NotObeyed::NotShown));
    }
    let both = [given.concat(), others.concat()].concat();
    assert_eq!(obey(RUN, &shown, &both), Err(NotObeyed::NotShown));
    assert_eq!(obey(RUN, &shown, &later), Err(NotObeyed::NoReceipts(Fault::OtherRun)));
    assert_eq!(obey(RUN, &shown, b""), Err(NotObeyed::NoReceipts(Fault::Node(NodeFault::Q1))));
    assert_eq!(obey(RUN, b"", &both), Err(NotObeyed::NotAdmitted(Fault::Node(NodeFault::A1))));
    assert_eq!(obey(8, &shown, &both), Err(NotObeyed::NotAdmitted(Fault::Node(NodeFault::A8))));
    assert_eq!(device.newest(), None);
    let mut other = Device::new([0; 32], TIMES);
    assert_eq!(other.obey(RUN, &shown, &given.concat(), BEGUN), Err(NotObeyed::NotAdmitted(Fault::OtherSystem)));
}
