//! The calls of `maltcove.h`, as they stand there.

use crate::views::Totals;
use std::ffi::{c_char, c_int, c_void};

#[repr(C)]
pub struct Maltcove {
    pub inner: *mut c_void,
    pub is_open: bool,
}

#[repr(C)]
#[derive(Default)]
pub struct Fault {
    pub place: u64,
    pub kind: i32,
    pub offset: u64,
    pub len: u64,
}

#[repr(C)]
#[derive(Default)]
pub struct Packet {
    pub tag: u64,
    pub len: u32,
    pub sport: u16,
    pub dport: u16,
    pub src: [u8; 16],
    pub dst: [u8; 16],
    pub proto: u8,
    pub ecn: u8,
    pub version: u8,
}

#[repr(C)]
#[derive(Default)]
pub struct Where {
    pub transport: u64,
    pub flow_label: u32,
    pub verdict: i32,
    pub fragment: u8,
    pub ports: u8,
    pub dscp: u8,
    pub ecn: u8,
}

#[repr(C)]
#[derive(Default)]
pub struct Found {
    pub offset: u64,
    pub tags: u64,
    pub ethertype: u16,
}

#[repr(C)]
#[derive(Default)]
pub struct Admitted {
    pub id: u64,
    pub drops: u64,
    pub flow: u32,
}

#[repr(C)]
#[derive(Clone, Copy, Default)]
pub struct Sent {
    pub tag: u64,
    pub id: u64,
    pub drops: u64,
    pub len: u32,
    pub ecn: u8,
    pub mark: u8,
}

#[repr(C)]
#[derive(Default)]
pub struct Dropped {
    pub tag: u64,
    pub id: u64,
    pub cause: u8,
}

#[repr(C)]
#[derive(Default)]
pub struct Flushed {
    pub tag: u64,
    pub id: u64,
}

#[repr(C)]
#[derive(Default)]
pub struct Flow {
    pub queued: u64,
    pub queued_bytes: u64,
    pub credits: i64,
    pub first_above: u64,
    pub drop_next: u64,
    pub count: u64,
    pub last_count: u64,
    pub has_first_above: bool,
    pub dropping: bool,
}

#[repr(C)]
#[derive(Default)]
pub struct Params {
    pub target: u64,
    pub interval: u64,
    pub ce_threshold: u64,
    pub memory_limit: u64,
    pub limit: u32,
    pub flows: u32,
    pub quantum: u32,
    pub mtu: u32,
    pub drop_batch: u32,
    pub has_ce_threshold: bool,
    pub has_memory_limit: bool,
    pub ecn: bool,
    pub hash: bool,
}

const _: () = assert!(size_of::<Maltcove>() == 16 && size_of::<Fault>() == 32);
const _: () = assert!(size_of::<Packet>() == 56 && size_of::<Admitted>() == 24);
const _: () = assert!(size_of::<Sent>() == 32 && size_of::<Dropped>() == 24);
const _: () = assert!(size_of::<Flushed>() == 16 && size_of::<Totals>() == 112);
const _: () = assert!(size_of::<Flow>() == 64 && size_of::<Params>() == 56);
const _: () = assert!(size_of::<Where>() == 24 && size_of::<Found>() == 24);

pub const OK: c_int = 0;
pub const IDLE: c_int = 1;

extern "C" {
    pub fn maltcove_open(
        m: *mut Maltcove,
        words: *const c_char,
        words_len: usize,
        seed: *const u8,
        seed_len: usize,
        fault: *mut Fault,
    ) -> c_int;
    pub fn maltcove_free(m: *mut Maltcove);
    pub fn maltcove_enqueue(
        m: *mut Maltcove,
        now_us: u64,
        packet: *const Packet,
        admitted: *mut Admitted,
    ) -> c_int;
    pub fn maltcove_enqueue_flow(
        m: *mut Maltcove,
        now_us: u64,
        flow: u32,
        len: u32,
        ecn: u8,
        tag: u64,
        admitted: *mut Admitted,
    ) -> c_int;
    pub fn maltcove_dequeue(m: *mut Maltcove, now_us: u64, sent: *mut Sent) -> c_int;
    pub fn maltcove_dequeue_burst(m: *mut Maltcove, now_us: u64, sent: *mut Sent, n: usize) -> i64;
    pub fn maltcove_drops(m: *mut Maltcove, dropped: *mut Dropped, n: usize) -> i64;
    pub fn maltcove_flush(m: *mut Maltcove, flushed: *mut Flushed, n: usize) -> i64;
    pub fn maltcove_close(m: *mut Maltcove, now_us: u64) -> c_int;
    pub fn maltcove_is_closed(m: *mut Maltcove) -> c_int;
    pub fn maltcove_queued(m: *mut Maltcove) -> i64;
    pub fn maltcove_totals(m: *mut Maltcove, totals: *mut Totals) -> c_int;
    pub fn maltcove_flow(m: *mut Maltcove, flow: u32, view: *mut Flow) -> c_int;
    pub fn maltcove_params(m: *mut Maltcove, params: *mut Params) -> c_int;
    pub fn maltcove_find(
        bytes: *const u8,
        captured: usize,
        link_type: u32,
        found: *mut Found,
    ) -> c_int;
    pub fn maltcove_parse_as(
        bytes: *const u8,
        captured: usize,
        wire: usize,
        ethertype: u16,
        flags: u32,
        packet: *mut Packet,
        place: *mut Where,
    ) -> c_int;
    pub fn maltcove_mark(bytes: *mut u8, captured: usize, place: *mut Where) -> c_int;
    pub fn maltcove_version() -> *const c_char;
}
