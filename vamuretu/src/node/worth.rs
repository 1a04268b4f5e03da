//! What a decision is worth, by what its node knows.
//!
//! A loss between two nodes counts as a fault of one of them. So a node that is correct holds each node for faulty from which
//! a frame was lacking, or to which one left too late. If these are more than m, then more than m are faulty, or this node is.

use std::collections::BTreeSet;

/// A frame of a round, and the node at its other end.
#[derive(Debug, Clone, Copy, PartialEq, Eq, serde::Serialize)]
pub struct Missed {
    /// The round.
    pub round: u32,
    /// The node.
    pub node: u32,
}

/// Why a decision is worth nothing alone.
#[derive(Debug, Clone, PartialEq, Eq)]
pub enum Doubt {
    /// In this round the node was behind the clock, or its frames did not leave in time to more than m neighbours.
    Late(u32),
    /// The clock was set by so many milliseconds since the run began, so the run may have begun at another moment.
    ClockSet(i64),
    /// A frame from or to each of these nodes was missed, and they are more than m.
    Apart(BTreeSet<u32>),
}

/// What a node knows of a run that it has ended.
#[derive(Debug, Clone, Default)]
pub struct Known {
    /// The first round in which the node was behind the clock.
    pub behind: Option<u32>,
    /// By how much the clock was set in the run, where that is more than it may be wrong.
    pub clock_set: Option<i64>,
    /// The frames that had not come when their round ended.
    pub lacked: Vec<Missed>,
    /// The frames that were not with the kernel by half of their round.
    pub unsent: Vec<Missed>,
}

impl Known {
    /// The first round in which the node was not in time: it was behind the clock, or too few neighbours can have its frames.
    pub fn late(&self, traitors: u32) -> Option<u32> {
        let is_cut = |round: &u32| self.unsent.iter().filter(|it| it.round == *round).count() > traitors as usize;
        let rounds = self.unsent.iter().map(|it| it.round).filter(is_cut);
        self.behind.into_iter().chain(rounds).min()
    }

    /// Why the decision is worth nothing alone, if so. Without a doubt each correct node decides alike if at most m are faulty.
    pub fn doubt(&self, traitors: u32) -> Option<Doubt> {
        if let Some(round) = self.late(traitors) {
            return Some(Doubt::Late(round));
        }
        if let Some(by_ms) = self.clock_set {
            return Some(Doubt::ClockSet(by_ms));
        }
        let apart: BTreeSet<u32> = self.lacked.iter().chain(&self.unsent).map(|it| it.node).collect();
        (apart.len() > traitors as usize).then_some(Doubt::Apart(apart))
    }
}

/// What a decision is worth, for people.
pub fn sentence(doubt: Option<&Doubt>, traitors: u32) -> String {
    let why = match doubt {
        None => return format!("if at most {traitors} nodes are faulty in this run, each correct node decides this"),
        Some(Doubt::Late(round)) => format!(
            "in round {round} this node was behind the clock, or its frames did not leave in time, so it counts as faulty"
        ),
        Some(Doubt::ClockSet(by_ms)) => format!("the clock was set by {by_ms} ms in this run"),
        Some(Doubt::Apart(nodes)) => {
            let nodes: Vec<String> = nodes.iter().map(u32::to_string).collect();
            format!("frames from or to nodes {} were missed, and at most {traitors} may be faulty", nodes.join(", "))
        }
    };
    format!("nothing alone: {why}; receipts of {} other nodes show the decision", traitors + 1)
}

#[cfg(test)]
mod tests {
    use super::*;

    fn missed(places: &[(u32, u32)]) -> Vec<Missed> {
        places.iter().map(|&(round, node)| Missed { round, node }).collect()
    }

    #[test]
    fn a_decision_holds_with_at_most_m_apart() {
        let all = [(&[][..], &[][..]), (&[(1, 3), (2, 3)], &[]), (&[], &[(1, 3), (2, 3)]), (&[(1, 3)], &[(2, 3)])];
        for (lacked, unsent) in all {
            let known = Known { lacked: missed(lacked), unsent: missed(unsent), ..Known::default() };
            assert_eq!((known.late(1), known.doubt(1)), (None, None), "{known:?}");
        }
        assert!(sentence(None, 1).starts_with("if at most 1 nodes"));
    }

    #[test]
    fn who_is_cut_off_is_told() {
        let alone = missed(&[(1, 1), (1, 2), (1, 3), (2, 1), (2, 2), (2, 3)]);
        let known = Known { lacked: alone.clone(), unsent: alone.clone(), ..Known::default() };
        assert_eq!((known.late(1), known.doubt(1)), (Some(1), Some(Doubt::Late(1))));
        let deaf = Known { lacked: alone, ..Known::default() };
        assert_eq!((deaf.late(1), deaf.doubt(1)), (None, Some(Doubt::Apart([1, 2, 3].into()))));
        assert!(sentence(deaf.doubt(1).as_ref(), 1).starts_with("nothing alone: frames from or to nodes 1, 2, 3 "));
    }

    #[test]
    fn losses_of_several_rounds_add_up() {
        let known = Known { lacked: missed(&[(1, 1), (2, 2)]), ..Known::default() };
        assert_eq!((known.late(1), known.doubt(1)), (None, Some(Doubt::Apart([1, 2].into()))));
        assert_eq!(known.doubt(2), None);
        let known = Known { lacked: missed(&[(1, 1)]), unsent: missed(&[(2, 2)]), ..Known::default() };
        assert_eq!((known.late(1), known.doubt(1)), (None, Some(Doubt::Apart([1, 2].into()))));
        let mute = Known { unsent: missed(&[(1, 1), (2, 1), (2, 2)]), ..Known::default() };
        assert_eq!((mute.late(1), mute.doubt(1)), (Some(2), Some(Doubt::Late(2))));
    }

    #[test]
    fn a_late_node_and_a_clock_that_was_set_are_told() {
        let known = Known { behind: Some(2), clock_set: Some(-900), ..Known::default() };
        assert_eq!((known.late(0), known.doubt(0)), (Some(2), Some(Doubt::Late(2))));
        let known = Known { behind: None, ..known };
        assert_eq!((known.late(0), known.doubt(0)), (None, Some(Doubt::ClockSet(-900))));
    }
}
