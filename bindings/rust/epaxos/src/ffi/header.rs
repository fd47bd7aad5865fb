//! What bindings/c/epaxos.h declares. `tools/generate` writes this file.
#![allow(dead_code)]

/// What the header is of.
pub(crate) const VERSION: u32 = 9;

/// `struct ep_replica`
#[repr(C)]
#[derive(Debug)]
pub(crate) struct Replica {
    pub(crate) at: *mut u8,
}

/// `struct ep_patience`
#[repr(C)]
#[derive(Debug)]
pub(crate) struct Patience {
    pub(crate) at: *mut u8,
}

/// `struct ep_bytes`
#[repr(C)]
#[derive(Clone, Copy, Debug)]
pub(crate) struct Bytes {
    pub(crate) at: *const u8,
    pub(crate) len: usize,
}

/// `struct ep_call`
#[repr(C)]
#[derive(Clone, Copy, Debug, Default)]
pub(crate) struct Call {
    pub(crate) seen: u64,
    pub(crate) client: u32,
    pub(crate) request: u32,
    pub(crate) has_spared: u8,
    pub(crate) spared: u8,
}

/// `struct ep_checkpoint`
#[repr(C)]
#[derive(Debug)]
pub(crate) struct Checkpoint {
    pub(crate) at: *mut u8,
}

/// `struct ep_closed_log`
#[repr(C)]
#[derive(Clone, Copy, Debug)]
pub(crate) struct ClosedLog {
    pub(crate) sum: Bytes,
    pub(crate) length: u64,
    pub(crate) generation: u32,
    pub(crate) replicas: u8,
}

/// `struct ep_exchange`
#[repr(C)]
#[derive(Clone, Copy, Debug)]
pub(crate) struct Exchange {
    pub(crate) expected: Bytes,
    pub(crate) desired: Bytes,
    pub(crate) has_expected: u8,
    pub(crate) has_desired: u8,
}

/// `struct ep_frame_head`
#[repr(C)]
#[derive(Clone, Copy, Debug, Default)]
pub(crate) struct FrameHead {
    pub(crate) entry: u32,
    pub(crate) generation: u32,
    pub(crate) body_at: u32,
    pub(crate) body_len: u32,
    pub(crate) number: u16,
    pub(crate) ballot: u16,
    pub(crate) dependencies: u16,
    pub(crate) replica: u8,
    pub(crate) from: u8,
    pub(crate) to: u8,
    pub(crate) kind: u8,
    pub(crate) op: u8,
}

/// `struct ep_held_generation`
#[repr(C)]
#[derive(Clone, Copy, Debug, Default)]
pub(crate) struct HeldGeneration {
    pub(crate) number: u32,
    pub(crate) left_for: u32,
    pub(crate) has_opening: u8,
    pub(crate) has_reference: u8,
    pub(crate) is_bound: u8,
}

/// `struct ep_instance`
#[repr(C)]
#[derive(Clone, Copy, Debug, Default)]
pub(crate) struct Instance {
    pub(crate) number: u16,
    pub(crate) replica: u8,
}

/// `struct ep_leading`
#[repr(C)]
#[derive(Clone, Copy, Debug, Default)]
pub(crate) struct Leading {
    pub(crate) phase: u8,
    pub(crate) answers: u8,
}

/// `struct ep_log_head`
#[repr(C)]
#[derive(Clone, Copy, Debug, Default)]
pub(crate) struct LogHead {
    pub(crate) generation: u32,
    pub(crate) replicas: u8,
    pub(crate) replica: u8,
}

/// `struct ep_opening_head`
#[repr(C)]
#[derive(Clone, Copy, Debug, Default)]
pub(crate) struct OpeningHead {
    pub(crate) base_stamp: u64,
    pub(crate) map_at: u64,
    pub(crate) generation: u32,
    pub(crate) seal_len: u32,
    pub(crate) keys: u32,
    pub(crate) replicas: u8,
    pub(crate) has_seal: u8,
}

/// `struct ep_opening_parts`
#[repr(C)]
#[derive(Clone, Copy, Debug)]
pub(crate) struct OpeningParts {
    pub(crate) seal: Bytes,
    pub(crate) map: Bytes,
    pub(crate) base_stamp: u64,
    pub(crate) generation: u32,
    pub(crate) replicas: u8,
}

/// `struct ep_pair`
#[repr(C)]
#[derive(Clone, Copy, Debug, Default)]
pub(crate) struct Pair {
    pub(crate) len: u64,
    pub(crate) key_at: u32,
    pub(crate) key_len: u32,
    pub(crate) value_at: u32,
    pub(crate) value_len: u32,
}

/// `struct ep_place`
#[repr(C)]
#[derive(Clone, Copy, Debug, Default)]
pub(crate) struct Place {
    pub(crate) at: u64,
    pub(crate) by: u64,
}

/// `struct ep_reference_head`
#[repr(C)]
#[derive(Clone, Copy, Debug, Default)]
pub(crate) struct ReferenceHead {
    pub(crate) length: u64,
    pub(crate) generation: u32,
    pub(crate) replicas: u8,
}

/// `struct ep_setup`
#[repr(C)]
#[derive(Clone, Copy, Debug)]
pub(crate) struct Setup {
    pub(crate) opening: Bytes,
    pub(crate) log: Bytes,
    pub(crate) replicas: u8,
    pub(crate) replica: u8,
    pub(crate) is_new: u8,
}

/// `struct ep_start_plan`
#[repr(C)]
#[derive(Clone, Copy, Debug, Default)]
pub(crate) struct StartPlan {
    pub(crate) generation: u32,
    pub(crate) writes: u8,
    pub(crate) log: u8,
}

/// `struct ep_start_wish`
#[repr(C)]
#[derive(Clone, Copy, Debug, Default)]
pub(crate) struct StartWish {
    pub(crate) generation: u32,
    pub(crate) kind: u8,
    pub(crate) is_same: u8,
}

/// `struct ep_succession`
#[repr(C)]
#[derive(Clone, Copy, Debug)]
pub(crate) struct Succession {
    pub(crate) digest: Bytes,
    pub(crate) log: Bytes,
    pub(crate) replicas: u8,
    pub(crate) replica: u8,
    pub(crate) is_new: u8,
}

/// `struct ep_touching`
#[repr(C)]
#[derive(Clone, Copy, Debug)]
pub(crate) struct Touching {
    pub(crate) first: Bytes,
    pub(crate) second: Bytes,
    pub(crate) has_second: u8,
    pub(crate) is_reading: u8,
}

/// `struct ep_waits`
#[repr(C)]
#[derive(Clone, Copy, Debug, Default)]
pub(crate) struct Waits {
    pub(crate) seed: u64,
    pub(crate) granularity: u32,
    pub(crate) initial: u32,
    pub(crate) told: u32,
    pub(crate) longest: u32,
    pub(crate) replicas: u8,
    pub(crate) replica: u8,
}

unsafe extern "C" {
    pub(crate) fn ep_open(replica: *mut Replica, setup: *const Setup, place: *mut Place) -> u8;
    pub(crate) fn ep_cut(replica: *mut Replica, place: *mut Place) -> u8;
    pub(crate) fn ep_free(replica: *mut Replica) -> u8;
    pub(crate) fn ep_propose_get(replica: *mut Replica, call: *const Call, key: *const u8, key_len: usize) -> u8;
    pub(crate) fn ep_propose_put(
        replica: *mut Replica,
        call: *const Call,
        key: *const u8,
        key_len: usize,
        value: *const u8,
        value_len: usize,
    ) -> u8;
    pub(crate) fn ep_propose_del(replica: *mut Replica, call: *const Call, key: *const u8, key_len: usize) -> u8;
    pub(crate) fn ep_propose_swap(
        replica: *mut Replica,
        call: *const Call,
        first: *const u8,
        first_len: usize,
        second: *const u8,
        second_len: usize,
    ) -> u8;
    pub(crate) fn ep_propose_cas(
        replica: *mut Replica,
        call: *const Call,
        key: *const u8,
        key_len: usize,
        exchange: *const Exchange,
    ) -> u8;
    pub(crate) fn ep_propose_opaque(
        replica: *mut Replica,
        call: *const Call,
        touching: *const Touching,
        body: *const u8,
        body_len: usize,
    ) -> u8;
    pub(crate) fn ep_propose_tx(replica: *mut Replica, call: *const Call, body: *const u8, body_len: usize) -> u8;
    pub(crate) fn ep_propose_seal(replica: *mut Replica, call: *const Call, value: *const u8, value_len: usize) -> u8;
    pub(crate) fn ep_handle(replica: *mut Replica, frame: *const u8, frame_len: usize) -> u8;
    pub(crate) fn ep_give_up(replica: *mut Replica, instance: Instance) -> u8;
    pub(crate) fn ep_recover(replica: *mut Replica, instance: Instance) -> u8;
    pub(crate) fn ep_advance(replica: *mut Replica) -> u8;
    pub(crate) fn ep_execute_all(replica: *mut Replica) -> u8;
    pub(crate) fn ep_execute(replica: *mut Replica, instance: Instance, waits_for: *mut Instance) -> u8;
    pub(crate) fn ep_ready(replica: *mut Replica, log: *mut Bytes, is_anew: *mut u8) -> u8;
    pub(crate) fn ep_synced(replica: *mut Replica, count: usize) -> u8;
    pub(crate) fn ep_answers(replica: *mut Replica, told: u32, most: u8, answers: *mut Bytes) -> u8;
    pub(crate) fn ep_prepare(replica: *mut Replica, told: u32, most: u8) -> u8;
    pub(crate) fn ep_answers_all(replica: *mut Replica, told: u32, most: u8, answers: *mut Bytes) -> u8;
    pub(crate) fn ep_prepare_all(replica: *mut Replica, told: u32, most: u8) -> u8;
    pub(crate) fn ep_told(replica: *mut Replica, answers: *mut Bytes) -> u8;
    pub(crate) fn ep_ask(replica: *mut Replica, request: *const u8, request_len: usize) -> u8;
    pub(crate) fn ep_get(replica: *mut Replica, key: *const u8, key_len: usize, value: *mut Bytes) -> u8;
    pub(crate) fn ep_contents(replica: *mut Replica, contents: *mut Bytes) -> u8;
    pub(crate) fn ep_handled(replica: *mut Replica, peer: u8, entries: *mut u32) -> u8;
    pub(crate) fn ep_next_open(replica: *mut Replica, above: Instance, instance: *mut Instance) -> u8;
    pub(crate) fn ep_leads(replica: *mut Replica, instance: Instance, leading: *mut Leading) -> u8;
    pub(crate) fn ep_close(replica: *mut Replica, replicas: u8, opening: *mut Bytes) -> u8;
    pub(crate) fn ep_reference(closed: *const ClosedLog, out: *mut u8, out_len: usize, len: *mut usize) -> u8;
    pub(crate) fn ep_binding(
        reference: *const u8,
        reference_len: usize,
        opening: *const u8,
        opening_len: usize,
        out: *mut u8,
        out_len: usize,
        len: *mut usize,
    ) -> u8;
    pub(crate) fn ep_succeed(
        replica: *mut Replica,
        checkpoint: *mut Checkpoint,
        succession: *const Succession,
        place: *mut Place,
    ) -> u8;
    pub(crate) fn ep_checkpoint_next(checkpoint: *mut Checkpoint, most: usize, piece: *mut Bytes) -> u8;
    pub(crate) fn ep_checkpoint_rest(checkpoint: *mut Checkpoint) -> u8;
    pub(crate) fn ep_checkpoint_free(checkpoint: *mut Checkpoint) -> u8;
    pub(crate) fn ep_open_bound(
        replica: *mut Replica,
        opening: *const u8,
        opening_len: usize,
        succession: *const Succession,
        place: *mut Place,
    ) -> u8;
    pub(crate) fn ep_patience_begin(patience: *mut Patience, waits: *const Waits) -> u8;
    pub(crate) fn ep_patience_free(patience: *mut Patience) -> u8;
    pub(crate) fn ep_patience_measure(patience: *mut Patience, peer: u8, took: u32) -> u8;
    pub(crate) fn ep_patience_reach(patience: *mut Patience, peer: u8, is_reached: u8) -> u8;
    pub(crate) fn ep_patience_hurry(patience: *mut Patience) -> u8;
    pub(crate) fn ep_patience_put_off(patience: *mut Patience, instance: Instance, ballot: u16, now: u64) -> u8;
    pub(crate) fn ep_patience_turn(
        patience: *mut Patience,
        now: u64,
        instances: *const u8,
        instances_len: usize,
        late: *mut Bytes,
    ) -> u8;
    pub(crate) fn ep_patience_due(patience: *mut Patience, due: *mut u64) -> u8;
    pub(crate) fn ep_frame_head(frame: *const u8, frame_len: usize, head: *mut FrameHead) -> u8;
    pub(crate) fn ep_opening_head(opening: *const u8, opening_len: usize, head: *mut OpeningHead) -> u8;
    pub(crate) fn ep_check_opening(opening: *const u8, opening_len: usize, place: *mut Place) -> u8;
    pub(crate) fn ep_opening(
        parts: *const OpeningParts,
        out: *mut u8,
        out_len: usize,
        len: *mut usize,
        place: *mut Place,
    ) -> u8;
    pub(crate) fn ep_read_reference(
        reference: *const u8,
        reference_len: usize,
        read: *mut ReferenceHead,
        place: *mut Place,
    ) -> u8;
    pub(crate) fn ep_log_head(log: *const u8, log_len: usize, head: *mut LogHead) -> u8;
    pub(crate) fn ep_record(records: *const u8, records_len: usize, len: *mut u64) -> u8;
    pub(crate) fn ep_pair(pairs: *const u8, pairs_len: usize, pair: *mut Pair) -> u8;
    pub(crate) fn ep_plan(
        held: *const HeldGeneration,
        held_len: usize,
        wish: *const StartWish,
        plan: *mut StartPlan,
        place: *mut Place,
    ) -> u8;
    pub(crate) fn ep_newest(held: *const HeldGeneration, held_len: usize, newest: *mut u32) -> u8;
    pub(crate) fn ep_first(held: *const HeldGeneration, held_len: usize, generation: u32, first: *mut u32) -> u8;
    pub(crate) fn ep_generation_in(name: *const u8, name_len: usize, generation: *mut u32) -> u8;
    pub(crate) fn ep_left_in(mark: *const u8, mark_len: usize, generation: u32) -> u32;
    pub(crate) safe fn ep_version() -> u32;
    pub(crate) fn ep_first_opening(replicas: u8, out: *mut u8, out_len: usize, len: *mut usize) -> u8;
    pub(crate) fn ep_sum(bytes: *const u8, bytes_len: usize, out: *mut u8, out_len: usize, len: *mut usize) -> u8;
    pub(crate) fn ep_audit(bundle: *const u8, bundle_len: usize, out: *mut u8, out_len: usize, len: *mut usize) -> u8;
}
