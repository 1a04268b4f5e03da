//! The functions of `sm_embed.h` and `sm_node.h` as they are, and how a text is taken out of a room.

use std::ffi::c_void;

/// The statuses of calls, as `sm_status.h` has them. All others say that the calling program has a mistake.
pub const OK: u32 = 0;
pub const NO: u32 = 1;
pub const FAULT: u32 = 3;
pub const MEMORY: u32 = 4;
/// The room was too short. The count says how much is needed.
pub const SHORT: u32 = 5;
pub const NOBODY: u32 = 6;
pub const OTHER: u32 = 7;
/// In place of an order: the node has none.
pub const NO_ORDER: u32 = 255;
/// The rules that make one order of several, as `sm_node.h` has them.
pub const MEDIAN: u32 = 0;
pub const MAJORITY: u32 = 1;
pub const ALL: u32 = 2;
/// In place of a run: there is none.
pub const NO_RUN: u32 = 4_294_967_295;

/// `sm_node`. It holds neither a node nor keys if it is null.
#[repr(C)]
pub struct SmNode {
    pub at: *mut c_void,
}

/// `sm_answer`. It holds nothing if it is null.
#[repr(C)]
pub struct SmAnswer {
    pub at: *mut c_void,
}

/// `sm_options`.
#[repr(C)]
pub struct SmOptions {
    pub runs: *const u8,
    pub run_count: usize,
    pub strict: u32,
    pub form: u32,
    pub receipts: u32,
    pub admission: *const u8,
    pub admission_bytes: usize,
    pub system: *const u8,
    pub system_bytes: usize,
}

/// `sm_roots`.
#[repr(C)]
pub struct SmRoots {
    pub node: u32,
    pub roots: *const u8,
    pub roots_bytes: usize,
}

/// `sm_fact`.
#[repr(C)]
#[derive(Clone, Copy, Default)]
pub struct SmFact {
    pub kind: u32,
    pub run: u32,
    pub general: u32,
    pub other: u32,
    pub number: u32,
    pub order: u32,
    pub round: u32,
    pub log_fault: u32,
    pub chain_fault: u32,
    pub generals: u32,
    pub traitors: u32,
    pub set: u32,
    pub entry: u64,
    pub run_id: [u8; 32],
}

/// `sm_numbers`.
#[repr(C)]
pub struct SmNumbers {
    pub version: u8,
    pub slot: u8,
    pub generals: u8,
    pub traitors: u8,
    pub diameter: u8,
    pub orders: u8,
    pub choice: u8,
}

/// `sm_pair`.
#[repr(C)]
pub struct SmPair {
    pub first: u32,
    pub second: u32,
}

/// `sm_frame_head`.
#[repr(C)]
pub struct SmFrameHead {
    pub run_id: [u8; 32],
    pub round: u32,
    pub sender: u32,
    pub receiver: u32,
    pub parcel_count: u32,
}

/// `sm_admitted`.
#[repr(C)]
pub struct SmAdmitted {
    pub run_id: [u8; 32],
    pub traitors: u32,
    pub proposer: u32,
}

/// `sm_log`.
#[repr(C)]
pub struct SmLog {
    pub general: u32,
    pub bytes: usize,
}

extern "C" {
    pub fn sm_audit(input: *const u8, input_bytes: usize, options: *const SmOptions, answer: *mut SmAnswer) -> u32;
    pub fn sm_draw(input: *const u8, input_bytes: usize, options: *const SmOptions, answer: *mut SmAnswer) -> u32;
    pub fn sm_evidence(input: *const u8, input_bytes: usize, options: *const SmOptions, answer: *mut SmAnswer) -> u32;
    pub fn sm_receipts(input: *const u8, input_bytes: usize, options: *const SmOptions, answer: *mut SmAnswer) -> u32;
    pub fn sm_decide(input: *const u8, input_bytes: usize, options: *const SmOptions, answer: *mut SmAnswer) -> u32;
    pub fn sm_show(input: *const u8, input_bytes: usize, options: *const SmOptions, answer: *mut SmAnswer) -> u32;
    pub fn sm_accuse(
        general: u32,
        input: *const u8,
        input_bytes: usize,
        options: *const SmOptions,
        answer: *mut SmAnswer,
    ) -> u32;
    pub fn sm_receipt(
        general: u32,
        input: *const u8,
        input_bytes: usize,
        options: *const SmOptions,
        answer: *mut SmAnswer,
    ) -> u32;
    pub fn sm_refute(
        evidence: *const u8,
        evidence_bytes: usize,
        log: *const u8,
        log_bytes: usize,
        answer: *mut SmAnswer,
    ) -> u32;
    pub fn sm_explain(input: *const u8, input_bytes: usize, answer: *mut SmAnswer) -> u32;
    pub fn sm_words(input: *const u8, input_bytes: usize, answer: *mut SmAnswer) -> u32;
    pub fn sm_plan(input: *const u8, input_bytes: usize, answer: *mut SmAnswer) -> u32;
    pub fn sm_run_id(input: *const u8, input_bytes: usize, answer: *mut SmAnswer) -> u32;
    pub fn sm_enroll(version: u32, levels: u32, secret: *const u8, secret_bytes: usize, answer: *mut SmAnswer) -> u32;
    pub fn sm_identity(input: *const u8, input_bytes: usize, answer: *mut SmAnswer) -> u32;
    pub fn sm_system(
        version: u32,
        levels: u32,
        turns: u32,
        context: *const u8,
        text: *const u8,
        text_bytes: usize,
        answer: *mut SmAnswer,
    ) -> u32;
    pub fn sm_admission(
        run: u32,
        system: *const u8,
        system_bytes: usize,
        files: *const SmRoots,
        file_count: usize,
        answer: *mut SmAnswer,
    ) -> u32;
    pub fn sm_admit(
        run: u32,
        admission: *const u8,
        admission_bytes: usize,
        system: *const u8,
        system_bytes: usize,
        answer: *mut SmAnswer,
    ) -> u32;
    pub fn sm_answer_text(answer: *mut SmAnswer, room: *mut u8, room_bytes: usize, count: *mut usize) -> u32;
    pub fn sm_answer_facts(answer: *mut SmAnswer, room: *mut SmFact, room_facts: usize, count: *mut usize) -> u32;
    pub fn sm_answer_free(answer: *mut SmAnswer);
    pub fn sm_version() -> u32;

    pub fn sm_node_keys(keys: *mut SmNode, seed: *const u8, version: u32, root: *mut u8) -> u32;
    pub fn sm_node_header(
        numbers: *const SmNumbers,
        edges: *const u8,
        edge_count: usize,
        roots: *const u8,
        root_count: usize,
        room: *mut u8,
        room_bytes: usize,
        count: *mut usize,
        fault: *mut u32,
        equal: *mut SmPair,
    ) -> u32;
    pub fn sm_node_new(
        node: *mut SmNode,
        header: *const u8,
        header_bytes: usize,
        general: u32,
        keys: *mut SmNode,
        order: u32,
        fault: *mut u32,
    ) -> u32;
    pub fn sm_node_begin_round(node: *mut SmNode) -> u32;
    pub fn sm_node_send(node: *mut SmNode, to: u32, room: *mut u8, room_bytes: usize, count: *mut usize) -> u32;
    pub fn sm_node_hear(node: *mut SmNode, from: u32, bytes: *const u8, byte_count: usize, fault: *mut u32) -> u32;
    pub fn sm_node_end_round(node: *mut SmNode) -> u32;
    pub fn sm_node_finish(node: *mut SmNode) -> u32;
    pub fn sm_node_log(node: *mut SmNode, room: *mut u8, room_bytes: usize, count: *mut usize) -> u32;
    pub fn sm_node_receipt(node: *mut SmNode, room: *mut u8, room_bytes: usize, count: *mut usize) -> u32;
    pub fn sm_node_shown(
        run_id: *const u8,
        receipts: *const u8,
        receipt_bytes: usize,
        order: *mut u32,
        fault: *mut u32,
    ) -> u32;
    pub fn sm_node_admit(
        system: *const u8,
        run: u32,
        admission: *const u8,
        admission_bytes: usize,
        admitted: *mut SmAdmitted,
        fault: *mut u32,
    ) -> u32;
    pub fn sm_node_combine(combination: u32, orders: *const u8, count: usize, order: *mut u32) -> u32;
    pub fn sm_node_order(node: *mut SmNode, order: *mut u32) -> u32;
    pub fn sm_node_free(node: *mut SmNode);
    pub fn sm_node_round(node: *mut SmNode, round: *mut u32) -> u32;
    pub fn sm_node_awaits(node: *mut SmNode, general: u32, awaited: *mut u32) -> u32;
    pub fn sm_node_lacks(node: *mut SmNode, general: u32, lacks: *mut u32) -> u32;
    pub fn sm_node_may_end(node: *mut SmNode, may: *mut u32) -> u32;
    pub fn sm_node_is_over(node: *mut SmNode, is_over: *mut u32) -> u32;
    pub fn sm_node_state(secret: *const u8, system: *const u8, state: *mut u8) -> u32;
    pub fn sm_node_state_seed(state: *const u8, system: *const u8, seed: *mut u8) -> u32;
    pub fn sm_node_state_advance(state: *mut u8, set: u32) -> u32;
    pub fn sm_node_next_run(now: i64, start: i64, period: u64, mark: u32, run: *mut u32, begins: *mut i64) -> u32;
    pub fn sm_node_version() -> u32;
    pub fn sm_node_header_numbers(
        header: *const u8,
        header_bytes: usize,
        numbers: *mut SmNumbers,
        fault: *mut u32,
    ) -> u32;
    pub fn sm_node_run_id(header: *const u8, header_bytes: usize, run_id: *mut u8, fault: *mut u32) -> u32;
    pub fn sm_node_frame_head(frame: *const u8, frame_bytes: usize, head: *mut SmFrameHead, fault: *mut u32) -> u32;
    pub fn sm_node_bundle(
        header: *const u8,
        header_bytes: usize,
        faulty: u32,
        parted: u32,
        logs: *const SmLog,
        log_count: usize,
        bytes: *const u8,
        byte_count: usize,
        room: *mut u8,
        room_bytes: usize,
        count: *mut usize,
        fault: *mut u32,
        apart: *mut SmPair,
    ) -> u32;
}

/// The status of a call, and what it writes. The call gets a room, its length and the count. It is made again if the room
/// was too short.
pub fn written<T: Clone + Default>(
    length: usize,
    mut call: impl FnMut(*mut T, usize, *mut usize) -> u32,
) -> (u32, Vec<T>) {
    let mut room = vec![T::default(); length];
    loop {
        let mut count = 0;
        let status = call(room.as_mut_ptr(), room.len(), &mut count);
        if status != SHORT {
            room.truncate(count);
            return (status, room);
        }
        room = vec![T::default(); count];
    }
}

/// An answer, which is freed where it is dropped.
pub struct Held(SmAnswer);

impl Held {
    /// The status of a call that takes an answer, and the answer.
    pub fn by(call: impl FnOnce(*mut SmAnswer) -> u32) -> (u32, Held) {
        let mut held = Held(SmAnswer { at: std::ptr::null_mut() });
        (call(&mut held.0), held)
    }

    /// The bytes that are held: none if nothing is.
    pub fn text(&mut self) -> Vec<u8> {
        // SAFETY: the pointers are of pieces of memory of these lengths that do not overlap, and nobody else has them.
        written(0, |room, length, count| unsafe { sm_answer_text(&mut self.0, room, length, count) }).1
    }

    /// The facts that are held: none if nothing is.
    pub fn facts(&mut self) -> Vec<SmFact> {
        // SAFETY: as in `text`.
        written(0, |room, length, count| unsafe { sm_answer_facts(&mut self.0, room, length, count) }).1
    }
}

impl Drop for Held {
    fn drop(&mut self) {
        // SAFETY: the pointer is null, or what the library put there, and nobody else has it.
        unsafe { sm_answer_free(&mut self.0) }
    }
}
