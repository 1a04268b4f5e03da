//! Identities, systems and admissions, and a run that an admission admits.

use vamuretu::{accuse_of, admission, admit, audit, audit_of, draw, draw_of, enroll, evidence_of, identity, judge};
use vamuretu::{receipt, receipts, show_of, system, system_runs};
use vamuretu::{Bundle, Expected, Fault, Header, Node, OfSystem, Secret, SetState, SystemRun, Terms, Version};

const SECRETS: [Secret; 3] = [Secret([7; 32]), Secret([8; 32]), Secret([9; 32])];
const TERMS: Terms = Terms { version: Version::Two, levels: 1, turns: true, context: [5; 32] };
/// Run 5 is in slot 1 of set 1, and node 2 proposes.
const RUN: u32 = 5;

/// The files of roots, the text of the system's header, and the system.
fn made() -> (Vec<Vec<u8>>, String, OfSystem) {
    let roots: Vec<_> = SECRETS.iter().map(|it| enroll(TERMS.version, TERMS.levels, it).expect("roots")).collect();
    let tops = roots.iter().map(|file| format!("root {}\n", identity(file).expect("a top")));
    let text = format!(
        "generals 3\nedge 0 1\nedge 0 2\nedge 1 2\ntraitors 1\ndiameter 1\norders 2\nchoice 0\n{}end\n",
        tops.collect::<String>()
    );
    let of_system = system(&TERMS, text.as_bytes()).expect("a system");
    (roots, text, of_system)
}

/// Pairs of a node and its file of roots.
fn files(roots: &[Vec<u8>]) -> Vec<(u32, &[u8])> {
    (0..).zip(roots).map(|(node, file)| (node, file.as_slice())).collect()
}

/// The nodes that are the generals of a run.
fn told(of_system: &OfSystem, number: u32) -> SystemRun {
    SystemRun { system: of_system.system, number, nodes: (0..3).map(|general| (number + general) % 3).collect() }
}

/// The bundle of a run, whose seeds come from states of the secrets.
fn play(header: &Header, run: &SystemRun) -> Bundle {
    let seed = |&node: &u32| {
        let state = SetState::first(&SECRETS[node as usize], &run.system)?;
        state.advance_to(run.number / 4)?.seed(&run.system)
    };
    let node = |(general, node): (u32, &u32)| Node::new(header, general, &seed(node)?, (general == 0).then_some(1));
    let mut nodes: Vec<Node> =
        (0..).zip(&run.nodes).map(node).collect::<Result<_, Fault>>().expect("nodes of the header's roots");
    for _ in 0..header.rounds() {
        nodes.iter_mut().try_for_each(Node::begin_round).expect("a round");
        for (a, b) in header.edges() {
            for (from, to) in [(a, b), (b, a)] {
                let frame = nodes[from as usize].send(to).expect("a frame");
                nodes[to as usize].hear(from, &frame).expect("a frame");
            }
        }
        nodes.iter_mut().try_for_each(Node::end_round).expect("a round");
    }
    let end = |node: &mut Node| node.finish().and_then(|()| node.log());
    let logs: Vec<Vec<u8>> = nodes.iter_mut().map(end).collect::<Result<_, Fault>>().expect("logs");
    Bundle::new(header, &[], &files(&logs)).expect("a bundle")
}

#[test]
fn a_run_of_a_system() {
    let (roots, _, of_system) = made();
    let shown = admission(RUN, &of_system.bytes, &files(&roots)).expect("an admission");
    assert_eq!(shown.system, of_system.system);
    let admitted = admit(RUN, &shown.bytes, Some(&of_system.system)).expect("a header");
    assert_eq!(admitted.run, told(&of_system, RUN));
    assert_eq!(admit(RUN, &shown.bytes, None), Ok(admitted.clone()));
    let bundle = play(&admitted.header, &admitted.run);
    let expected = Expected::Admitted { admission: &shown.bytes, system: Some(&of_system.system) };
    let judged = judge(expected, bundle.as_bytes()).expect("a verdict");
    assert_eq!(judged.system_runs, [told(&of_system, RUN)]);
    let plain = judge(&[], bundle.as_bytes()).expect("a verdict");
    assert_eq!((judged.verdicts, plain.system_runs), (plain.verdicts, vec![]));
    assert_eq!(system_runs(&shown.bytes, Some(&of_system.system), bundle.as_bytes()), Ok(vec![told(&of_system, RUN)]));
    let text = audit_of(expected, false, bundle.as_bytes()).expect("a verdict");
    assert!(!text.is_no() && text.text().ends_with(audit(bundle.as_bytes()).expect("a verdict").text()));
    assert_eq!(draw_of(expected, bundle.as_bytes()), draw(bundle.as_bytes()));
    assert_eq!(accuse_of(expected, 0, bundle.as_bytes()), Ok(None));
    let kept = receipt(expected, 1, bundle.as_bytes()).expect("a bundle").expect("a receipt");
    assert_eq!(receipts(expected, &kept), receipts(None, &kept));
}

#[test]
fn others() {
    let (roots, text, of_system) = made();
    let shown = admission(RUN, &of_system.bytes, &files(&roots)).expect("an admission");
    let first = admission(0, &of_system.bytes, &files(&roots)).expect("an admission");
    let header = admit(RUN, &shown.bytes, None).expect("a header").header;
    let of_set = |of: &OfSystem, system| {
        show_of(Expected::Admitted { admission: &of.bytes, system }, header.as_bytes()).map(|it| it.is_no())
    };
    assert_eq!((of_set(&shown, None), of_set(&shown, Some(&of_system.system))), (Ok(false), Ok(false)));
    assert_eq!(of_set(&first, None), Err(Fault::OtherRun));
    assert_eq!(of_set(&shown, Some(&[0; 32])), Err(Fault::OtherSystem));
    let nothing = OfSystem { bytes: vec![], system: [0; 32] };
    assert_eq!((of_set(&nothing, None), of_set(&nothing, Some(&[0; 32]))), (Err(Fault::Misuse), Err(Fault::Misuse)));
    assert_eq!(admit(RUN, &shown.bytes, Some(&[0; 32])), Err(Fault::OtherSystem));
    let line = |fault: &str| Fault::Input(format!("fault {fault}"));
    assert_eq!(admit(0, &shown.bytes, None), Err(line("A8")));
    assert_eq!(admit(0, b"", None), Err(line("A1")));
    assert_eq!(admission(8, &of_system.bytes, &files(&roots)), Err(line("A8")));
    assert_eq!(admission(RUN, &of_system.bytes, &[]), Err(line("A9")));
    assert_eq!(admission(RUN, &of_system.bytes, &[(16, &roots[0])]), Err(Fault::Misuse));
    assert_eq!(identity(&roots[0][1..]), Err(line("I2")));
    assert_eq!(enroll(Version::One, 21, &SECRETS[0]), Err(Fault::Misuse));
    assert_eq!(system(&Terms { levels: 21, ..TERMS }, text.as_bytes()), Err(Fault::Misuse));
    assert!(matches!(system(&TERMS, b""), Err(Fault::Input(_))));
    let found: &[u8] = include_bytes!("../../../examples/split.evidence");
    assert_eq!(evidence_of(Expected::Admitted { admission: &shown.bytes, system: None }, found), Err(Fault::OtherRun));
}
