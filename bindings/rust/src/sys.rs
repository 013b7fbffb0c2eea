//! What include/teivorm.h declares, by hand: the layout of the structs, and the library's functions.
use std::ffi::c_void;

#[repr(C)]
pub struct RawConn {
    pub at: *mut c_void,
    pub live: bool,
}

#[repr(C)]
#[derive(Clone, Copy, Default)]
pub struct RawSettings {
    pub max_frame: u32,
    pub window: u32,
    pub journal_limit: u32,
    pub first_id: u32,
    pub idle_time_out: u32,
}

#[repr(C)]
#[derive(Clone, Copy)]
pub struct RawLinkSettings {
    pub snd: u8,
    pub rcv: u8,
    pub count: u32,
    pub max_message: u64,
}

#[repr(C)]
#[derive(Clone, Copy, Default)]
pub struct RawOutcome {
    pub state: u32,
    pub section_number: u32,
    pub section_offset: u64,
    pub delivery_failed: bool,
    pub undeliverable_here: bool,
}

#[repr(C)]
#[derive(Clone, Copy, Default)]
pub struct RawEvent {
    pub kind: u32,
    pub link: u32,
    pub id: u32,
    pub state: u32,
    pub violation: u32,
    pub frame: u32,
    pub phase: u32,
    pub handle: u32,
    pub format: u32,
    pub verdict: u32,
    pub tag_len: u32,
    pub payload_len: u64,
    pub tag: [u8; 32],
    pub settled: bool,
    pub second: bool,
    pub stepped: bool,
}

#[repr(C)]
#[derive(Clone, Copy, Default)]
pub struct RawConnStatus {
    pub phase: u32,
    pub steps_left: u32,
    pub next_in: u32,
    pub incoming: u32,
    pub next_out: u32,
    pub remote_in: u32,
    pub next_delivery: u32,
    pub peer_max_frame: u32,
    pub peer_idle_time_out: u32,
    pub units: u64,
    pub octets: u64,
    pub unwritten: u64,
    pub sent_unsettled: u64,
    pub received_unsettled: u64,
    pub begun: bool,
}

#[repr(C)]
#[derive(Clone, Copy, Default)]
pub struct RawLinkStatus {
    pub role: u32,
    pub phase: u32,
    pub count: u32,
    pub credit: u32,
    pub peer_handle: u32,
    pub ready: u64,
    pub peer_max_message: u64,
    pub max_message: u64,
    pub snd: u8,
    pub rcv: u8,
    pub drain: bool,
    pub mid: bool,
}

const _: () = assert!(std::mem::size_of::<RawConn>() == 16);
const _: () = assert!(std::mem::size_of::<RawSettings>() == 20);
const _: () = assert!(std::mem::size_of::<RawLinkSettings>() == 16);
const _: () = assert!(std::mem::size_of::<RawOutcome>() == 24);
const _: () = assert!(std::mem::size_of::<RawEvent>() == 96);
const _: () = assert!(std::mem::size_of::<RawConnStatus>() == 88);
const _: () = assert!(std::mem::size_of::<RawLinkStatus>() == 56);

// All that the header declares, so that check-header can compare them.
#[allow(dead_code)]
extern "C" {
    pub fn teivorm_raw_new(c: *mut RawConn, name: *const u8, name_len: usize, host: *const u8, host_len: usize, settings: *const RawSettings) -> u32;
    pub fn teivorm_raw_free(c: *mut RawConn);
    pub fn teivorm_raw_feed(c: *mut RawConn, bytes: *const u8, len: usize, used: *mut usize, event: *mut RawEvent) -> u32;
    pub fn teivorm_raw_write(c: *mut RawConn, room: *mut u8, room_len: usize) -> usize;
    pub fn teivorm_raw_unit(c: *mut RawConn, at: *mut *const u8) -> usize;
    pub fn teivorm_raw_wrote(c: *mut RawConn, count: usize) -> u32;
    pub fn teivorm_raw_lost(c: *mut RawConn) -> u32;
    pub fn teivorm_raw_close(c: *mut RawConn, condition: *const u8, condition_len: usize, description: *const u8, description_len: usize) -> u32;
    pub fn teivorm_raw_forget(c: *mut RawConn) -> u32;
    pub fn teivorm_raw_phase(c: *mut RawConn) -> u32;
    pub fn teivorm_raw_begin(c: *mut RawConn, event: *mut RawEvent) -> u32;
    pub fn teivorm_raw_attach(
        c: *mut RawConn,
        name: *const u8,
        name_len: usize,
        role: u32,
        source: *const u8,
        source_len: usize,
        target: *const u8,
        target_len: usize,
        settings: *const RawLinkSettings,
        event: *mut RawEvent,
    ) -> u32;
    pub fn teivorm_raw_start(
        c: *mut RawConn,
        link: u32,
        tag: *const u8,
        tag_len: usize,
        payload: *const u8,
        payload_len: usize,
        settled: bool,
        more: bool,
        event: *mut RawEvent,
    ) -> u32;
    pub fn teivorm_raw_carry(c: *mut RawConn, link: u32, payload: *const u8, payload_len: usize, more: bool, event: *mut RawEvent) -> u32;
    pub fn teivorm_raw_abort(c: *mut RawConn, link: u32, event: *mut RawEvent) -> u32;
    pub fn teivorm_raw_learn(c: *mut RawConn, link: u32, event: *mut RawEvent) -> u32;
    pub fn teivorm_raw_offer(c: *mut RawConn, link: u32, available: u32, event: *mut RawEvent) -> u32;
    pub fn teivorm_raw_drained(c: *mut RawConn, link: u32, event: *mut RawEvent) -> u32;
    pub fn teivorm_raw_grant(c: *mut RawConn, link: u32, credit: u32, drain: bool, echo: bool, event: *mut RawEvent) -> u32;
    pub fn teivorm_raw_take(c: *mut RawConn, link: u32, event: *mut RawEvent) -> u32;
    pub fn teivorm_raw_payload(c: *mut RawConn, from: u64, room: *mut u8, room_len: usize) -> usize;
    pub fn teivorm_raw_payload_at(c: *mut RawConn, from: u64, at: *mut *const u8) -> usize;
    pub fn teivorm_raw_dispose(
        c: *mut RawConn,
        role: u32,
        first: u32,
        last: u32,
        settled: bool,
        outcome: *const RawOutcome,
        condition: *const u8,
        condition_len: usize,
        description: *const u8,
        description_len: usize,
        event: *mut RawEvent,
    ) -> u32;
    pub fn teivorm_raw_detach(
        c: *mut RawConn,
        link: u32,
        condition: *const u8,
        condition_len: usize,
        description: *const u8,
        description_len: usize,
        event: *mut RawEvent,
    ) -> u32;
    pub fn teivorm_raw_end(
        c: *mut RawConn,
        condition: *const u8,
        condition_len: usize,
        description: *const u8,
        description_len: usize,
        event: *mut RawEvent,
    ) -> u32;
    pub fn teivorm_raw_suspend(c: *mut RawConn, link: u32, event: *mut RawEvent) -> u32;
    pub fn teivorm_raw_rejoin(
        c: *mut RawConn,
        lost: *mut RawConn,
        role: u32,
        place: u32,
        source: *const u8,
        source_len: usize,
        target: *const u8,
        target_len: usize,
        settings: *const RawLinkSettings,
        event: *mut RawEvent,
    ) -> u32;
    pub fn teivorm_raw_waiting(c: *mut RawConn, link: u32, place: u32, event: *mut RawEvent) -> u32;
    pub fn teivorm_raw_resume(c: *mut RawConn, link: u32, tag: *const u8, tag_len: usize, settled: bool, event: *mut RawEvent) -> u32;
    pub fn teivorm_raw_left(c: *mut RawConn, event: *mut RawEvent) -> u32;
    pub fn teivorm_raw_refresh(c: *mut RawConn, echo: bool, event: *mut RawEvent) -> u32;
    pub fn teivorm_raw_beat(c: *mut RawConn, event: *mut RawEvent) -> u32;
    pub fn teivorm_raw_status(c: *mut RawConn, status: *mut RawConnStatus) -> u32;
    pub fn teivorm_raw_link(c: *mut RawConn, link: u32, status: *mut RawLinkStatus) -> u32;
    pub fn teivorm_raw_text(c: *mut RawConn, what: u32, link: u32, room: *mut u8, room_len: usize) -> usize;
}
