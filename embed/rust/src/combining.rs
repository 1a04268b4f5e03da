//! How several decided values become one.

use crate::{raw, Fault};

/// A rule that makes one value (order) of several decided ones.
#[derive(Debug, Clone, Copy, PartialEq, Eq, Hash)]
pub enum Combination {
    /// The least value such that at least half of the values are at most it.
    Median,
    /// The value that more than half of the values are, or 0 if there is none.
    Majority,
    /// The value that all of the values are, or 0 if they differ.
    All,
}

impl Combination {
    /// The number that the library has for the rule.
    fn number(self) -> u32 {
        match self {
            Combination::Median => raw::MEDIAN,
            Combination::Majority => raw::MAJORITY,
            Combination::All => raw::ALL,
        }
    }
}

/// The value (order) that a rule makes of those that several runs decided. [`Fault::Misuse`] if there are none, or one is above
/// 15.
///
/// With at most m faulty nodes and more than 2m values, each of which another node proposed, the median is from the least to
/// the greatest value that correct nodes proposed, and the majority is the value that all of these proposed, if there is one.
/// By [`Combination::All`] no value but 0 comes that is not each correct node's. Nothing tells whether the values are of such
/// runs.
pub fn combine(rule: Combination, orders: &[u8]) -> Result<u8, Fault> {
    let mut made = raw::NO_ORDER;
    // SAFETY: the pointers are of pieces of memory of these lengths that do not overlap, and nobody else has the last one.
    let status = unsafe { raw::sm_node_combine(rule.number(), orders.as_ptr(), orders.len(), &mut made) };
    Fault::of_node(status, 0).map(|()| made as u8)
}
