//! A device that obeys the decisions of a system, of which it knows the id and the timetable alone.

use std::fmt;

use crate::raw::{self, SmAdmitted};
use crate::{shown, Fault, RunId, SystemId, Timetable};

/// So many periods ago a run may have begun that is obeyed.
const OLDEST: u32 = 3;

/// What an admission tells of a run.
#[derive(Debug, Clone, Copy, PartialEq, Eq)]
pub struct AdmittedRun {
    /// The run id.
    pub run_id: RunId,
    /// The number of faulty nodes that the run is planned for, m.
    pub traitors: u32,
    /// The number of the node that proposes.
    pub proposer: u32,
}

/// The run with this number of the system with this id, which an admission of its set admits. The admission may come from
/// anybody. Faults are A1 to A8, and those of a header. [`Fault::OtherSystem`] if the admission holds for the run, and is of
/// another system.
pub fn admitted_run(system: &SystemId, run: u32, admission: &[u8]) -> Result<AdmittedRun, Fault> {
    let mut told = SmAdmitted { run_id: [0; 32], traitors: 0, proposer: 0 };
    let (at, length, mut fault) = (admission.as_ptr(), admission.len(), 0);
    // SAFETY: the pointers are of pieces of memory of these lengths that do not overlap, and nobody else has the last two.
    let status = unsafe { raw::sm_node_admit(system.as_ptr(), run, at, length, &mut told, &mut fault) };
    if status == raw::OTHER {
        return Err(Fault::OtherSystem);
    }
    let SmAdmitted { run_id, traitors, proposer } = told;
    Fault::of_node(status, fault).map(|()| AdmittedRun { run_id, traitors, proposer })
}

/// Why a decision is not obeyed.
#[derive(Debug, Clone, PartialEq, Eq)]
pub enum NotObeyed {
    /// The run is not above the last one that was obeyed.
    NotLater,
    /// The run began too long ago.
    Old,
    /// The admission does not admit the run in this system.
    NotAdmitted(Fault),
    /// These are no receipts of the run.
    NoReceipts(Fault),
    /// The receipts show no value, or several.
    NotShown,
    /// Memory was refused: the same call may be made again.
    Memory,
}

impl fmt::Display for NotObeyed {
    fn fmt(&self, to: &mut fmt::Formatter<'_>) -> fmt::Result {
        match self {
            NotObeyed::NotLater => write!(to, "the run is not above the last one that was obeyed"),
            NotObeyed::Old => write!(to, "the run began too long ago"),
            NotObeyed::NotAdmitted(fault) => write!(to, "the admission does not admit the run in this system: {fault}"),
            NotObeyed::NoReceipts(fault) => write!(to, "these are no receipts of the run: {fault}"),
            NotObeyed::NotShown => write!(to, "the receipts show no value, or several"),
            NotObeyed::Memory => write!(to, "memory was refused"),
        }
    }
}

impl std::error::Error for NotObeyed {}

/// A device that obeys the decisions of one system. It knows the id of the system, and its timetable in milliseconds since
/// 1970.
#[derive(Debug, Clone)]
pub struct Device {
    system: SystemId,
    timetable: Timetable,
    oldest: u32,
    newest: Option<u32>,
}

impl Device {
    /// A device that has obeyed nothing yet. It obeys runs that began at most three periods ago.
    pub fn new(system: SystemId, timetable: Timetable) -> Device {
        Device { system, timetable, oldest: OLDEST, newest: None }
    }

    /// The same device, for runs that began at most so many periods ago. A run that takes longer than a period needs as many
    /// more than three.
    pub fn with_oldest(self, periods: u32) -> Device {
        Device { oldest: periods, ..self }
    }

    /// The number of the last run that was obeyed.
    pub fn newest(&self) -> Option<u32> {
        self.newest
    }

    /// The value (order) that is to be obeyed: that of a run which is new at this time, if the admission admits the run in the
    /// system, and receipts of more than m nodes show this one value. All of it may come from anybody. A run is new if its
    /// number is above that of the last run that was obeyed, and it did not begin too long ago. If the value is not obeyed,
    /// nothing was changed.
    pub fn obey(&mut self, run: u32, admission: &[u8], receipts: &[u8], now: i64) -> Result<u32, NotObeyed> {
        self.must_be_new(run, now)?;
        let admitted = admitted_run(&self.system, run, admission);
        let run_id = admitted.map_err(|fault| ended(fault, NotObeyed::NotAdmitted))?.run_id;
        let order = shown(&run_id, receipts).map_err(|fault| ended(fault, NotObeyed::NoReceipts))?;
        let order = order.ok_or(NotObeyed::NotShown)?;
        self.newest = Some(run);
        Ok(order)
    }

    /// Why a run is not obeyed at this time, whatever is shown of it.
    fn must_be_new(&self, run: u32, now: i64) -> Result<(), NotObeyed> {
        if self.newest >= Some(run) {
            return Err(NotObeyed::NotLater);
        }
        let age = i128::from(self.timetable.period) * i128::from(self.oldest);
        let earliest = i64::try_from(i128::from(now) - age).unwrap_or(i64::MIN);
        let first = self.timetable.next_run(earliest, None).ok_or(NotObeyed::Old)?;
        if run < first.number {
            return Err(NotObeyed::Old);
        }
        Ok(())
    }
}

/// Why a decision is not obeyed, by what a call ended with.
fn ended(fault: Fault, why: impl FnOnce(Fault) -> NotObeyed) -> NotObeyed {
    if fault == Fault::Memory {
        NotObeyed::Memory
    } else {
        why(fault)
    }
}
