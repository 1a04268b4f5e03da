//! The states of a node's secret, as records.

use std::fmt;

use crate::raw;
use crate::{Fault, Seed};

/// The secret of a node in a system of many runs: 32 secret bytes of the system's generator, from which the seeds of all
/// its sets of keys come. It serves one system alone. Whoever has it can sign as the node.
pub struct Secret(pub [u8; 32]);

impl fmt::Debug for Secret {
    fn fmt(&self, to: &mut fmt::Formatter<'_>) -> fmt::Result {
        write!(to, "Secret(..)")
    }
}

/// The id of a system of many runs.
pub type SystemId = [u8; 32];

/// The bytes of a state, and the most sets of keys of one secret.
pub(crate) const STATE_BYTES: usize = 68;
pub(crate) const SETS_MOST: u32 = 1 << 20;

/// A state of a node's secret, the number of its set of keys, and the id of the one system that it serves: a secret record
/// of 68 bytes. Whoever has it can sign as the node in this set and all later ones, and in no earlier one.
///
/// A state gives the seed of its set as often as it is asked: [`KeptState`](crate::KeptState) is what hands out each seed
/// once. Nothing wipes a state that is dropped.
pub struct SetState([u8; STATE_BYTES]);

impl fmt::Debug for SetState {
    fn fmt(&self, to: &mut fmt::Formatter<'_>) -> fmt::Result {
        write!(to, "SetState({}, ..)", self.number())
    }
}

impl SetState {
    /// The state of set 0 of a secret, for the system with this id.
    pub fn first(secret: &Secret, system: &SystemId) -> Result<SetState, Fault> {
        let mut state = SetState([0; STATE_BYTES]);
        // SAFETY: the secret and the id are of 32 bytes, the state is of 68, and nobody else has it.
        let status = unsafe { raw::sm_node_state(secret.0.as_ptr(), system.as_ptr(), state.0.as_mut_ptr()) };
        Fault::of_node(status, 0).map(|()| state)
    }

    /// The state that a record is.
    pub fn of_bytes(record: &[u8; STATE_BYTES]) -> SetState {
        SetState(*record)
    }

    /// The record, which is as secret as the state.
    pub fn as_bytes(&self) -> &[u8; STATE_BYTES] {
        &self.0
    }

    /// The number of the state's set.
    pub fn number(&self) -> u32 {
        self.0[..4].iter().fold(0, |number, &byte| number << 8 | u32::from(byte))
    }

    /// The id of the system that the state serves.
    pub fn system(&self) -> SystemId {
        std::array::from_fn(|at| self.0[36 + at])
    }

    /// The seed of the state's set for the system with this id. [`Fault::OtherSystem`] if the state serves another.
    pub fn seed(&self, system: &SystemId) -> Result<Seed, Fault> {
        let mut seed = Seed([0; 32]);
        // SAFETY: as in `first`.
        let status = unsafe { raw::sm_node_state_seed(self.0.as_ptr(), system.as_ptr(), seed.0.as_mut_ptr()) };
        if status == raw::OTHER {
            return Err(Fault::OtherSystem);
        }
        Fault::of_node(status, 0).map(|()| seed)
    }

    /// The state of a later set, or of the same. [`Fault::Misuse`] for an earlier one.
    pub fn advance_to(&self, set: u32) -> Result<SetState, Fault> {
        let mut later = SetState(self.0);
        // SAFETY: as in `first`.
        let status = unsafe { raw::sm_node_state_advance(later.0.as_mut_ptr(), set) };
        Fault::of_node(status, 0).map(|()| later)
    }
}
