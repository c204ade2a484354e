//! The declarations of `bindings/c/txc.h`.
use std::os::raw::c_void;

#[repr(C)]
pub struct Handle {
    pub slot: *mut c_void,
    pub is_open: bool,
}

#[repr(C)]
#[derive(Clone, Copy)]
pub struct Key {
    pub function: u8,
    pub count: u8,
    pub args: [u32; 4],
}

#[repr(C)]
#[derive(Clone, Copy)]
pub struct Tag {
    pub table: u8,
    pub kind: u8,
    pub number: u32,
}

#[repr(C)]
#[derive(Clone, Copy)]
pub struct Reach {
    pub lo: u32,
    pub known: u32,
    pub is_still: bool,
}

#[repr(C)]
#[derive(Clone, Copy)]
pub struct Stored {
    pub reach: Reach,
    pub has_evicted: bool,
    pub evicted: Key,
    pub evicted_lo: u32,
}

#[repr(C)]
#[derive(Clone, Copy)]
pub struct Counts {
    pub lookups: u64,
    pub hits: u64,
    pub stored: u64,
    pub kept: u64,
    pub evicted: u64,
}

#[repr(C)]
#[derive(Clone, Copy)]
pub struct Totals {
    pub entries: usize,
    pub bytes: usize,
    pub trimmed: u64,
}

#[repr(C)]
#[derive(Clone, Copy)]
pub struct Row {
    pub table: u8,
    pub id: u32,
    pub group: u32,
}

#[repr(C)]
#[derive(Clone, Copy)]
pub struct Query {
    pub table: u8,
    pub kind: u8,
    pub first: u32,
    pub last: u32,
}

#[repr(C)]
#[derive(Clone, Copy)]
pub struct Receipt {
    pub answers: usize,
    pub has_pin: bool,
    pub stamp: u32,
    pub moment: u64,
}

#[repr(C)]
#[derive(Clone, Copy)]
pub struct SiteSettings {
    pub size: usize,
    pub events: usize,
    pub capacity: usize,
    pub recent: usize,
    pub renew_after: u64,
    pub bytes: usize,
    pub store: usize,
}

#[repr(C)]
#[derive(Clone, Copy)]
pub struct Kept {
    pub retired: usize,
    pub horizon: u32,
    pub swept: usize,
}

pub const ABI: u32 = 4;

pub const STORE_SQL: usize = 0;
pub const STORE_PLAIN: usize = 1;

pub const DONE: u32 = 0;
pub const MISS: u32 = 1;
pub const KEPT: u32 = 2;
pub const NO_ROOM: u32 = 3;
pub const BAD_ARGUMENT: u32 = 6;
pub const EMPTY_RANGE: u32 = 7;
pub const BAD_REACH: u32 = 8;
pub const OUT_OF_ORDER: u32 = 9;
pub const VALUE_TOO_LONG: u32 = 10;
pub const NO_MEMORY: u32 = 11;
pub const COMPUTE: u32 = 12;
pub const ANSWERED: u32 = 13;
pub const NOT_OPEN: u32 = 14;
pub const MID_CALL: u32 = 15;
pub const CONFLICT: u32 = 18;

extern "C" {
    pub fn txc_node_open(node: *mut Handle, capacity: usize, recent: usize) -> u32;
    pub fn txc_node_close(node: *mut Handle) -> u32;
    pub fn txc_node_lookup(
        node: *mut Handle,
        key: *const Key,
        lo: u32,
        hi: u32,
        reach: *mut Reach,
        value: *mut u8,
        room: usize,
        len: *mut usize,
    ) -> u32;
    pub fn txc_node_insert(
        node: *mut Handle,
        key: *const Key,
        reach: *const Reach,
        tags: *const Tag,
        tag_count: usize,
        value: *const u8,
        len: usize,
        stored: *mut Stored,
    ) -> u32;
    pub fn txc_node_event(
        node: *mut Handle,
        stamp: u32,
        tags: *const Tag,
        tag_count: usize,
        closed: *mut usize,
        processed: *mut u32,
    ) -> u32;
    pub fn txc_node_sweep(node: *mut Handle, horizon: u32, swept: *mut usize) -> u32;
    pub fn txc_node_trim(node: *mut Handle, most: usize, dropped: *mut usize) -> u32;
    pub fn txc_node_totals(node: *mut Handle, totals: *mut Totals) -> u32;
    pub fn txc_node_count(node: *mut Handle, function: u8, counts: *mut Counts) -> u32;
    pub fn txc_abi() -> u32;
    pub fn txc_site_open(site: *mut Handle, settings: *const SiteSettings) -> u32;
    pub fn txc_site_close(site: *mut Handle) -> u32;
    pub fn txc_begin(site: *mut Handle, now: u64, staleness: u64, at_least: u32, txn: *mut u64) -> u32;
    pub fn txc_call(site: *mut Handle, txn: u64, key: *const Key, value: *mut u8, room: usize, len: *mut usize) -> u32;
    pub fn txc_query_rows(site: *mut Handle, txn: u64, query: *const Query, count: *mut usize) -> u32;
    pub fn txc_row_at(
        site: *mut Handle,
        txn: u64,
        at: usize,
        row: *mut Row,
        body: *mut u8,
        room: usize,
        len: *mut usize,
    ) -> u32;
    pub fn txc_answer(site: *mut Handle, txn: u64, value: *mut u8, room: usize, len: *mut usize) -> u32;
    pub fn txc_finish(
        site: *mut Handle,
        txn: u64,
        bytes: *const u8,
        count: usize,
        value: *mut u8,
        room: usize,
        len: *mut usize,
    ) -> u32;
    pub fn txc_give_up(site: *mut Handle, txn: u64) -> u32;
    pub fn txc_read_stamp(site: *mut Handle, txn: u64, stamp: *mut u32) -> u32;
    pub fn txc_member_at(site: *mut Handle, txn: u64, at: usize, stamp: *mut u32, moment: *mut u64) -> u32;
    pub fn txc_commit(site: *mut Handle, txn: u64, receipt: *mut Receipt) -> u32;
    pub fn txc_abort(site: *mut Handle, txn: u64) -> u32;
    pub fn txc_begin_write(site: *mut Handle, txn: *mut u64) -> u32;
    pub fn txc_begin_write_at(site: *mut Handle, stamp: u32, txn: *mut u64) -> u32;
    pub fn txc_put(site: *mut Handle, txn: u64, table: u8, id: u32, group: u32, body: *const u8, len: usize) -> u32;
    pub fn txc_remove(site: *mut Handle, txn: u64, table: u8, id: u32) -> u32;
    pub fn txc_commit_write(site: *mut Handle, txn: u64, stamp: *mut u32) -> u32;
    pub fn txc_pin(site: *mut Handle, moment: u64, stamp: *mut u32) -> u32;
    pub fn txc_keep(site: *mut Handle, now: u64, age: u64, kept: *mut Kept) -> u32;
    pub fn txc_site_trim(site: *mut Handle, most: usize, dropped: *mut usize) -> u32;
    pub fn txc_site_totals(site: *mut Handle, totals: *mut Totals) -> u32;
    pub fn txc_open_transactions(site: *mut Handle, count: *mut usize) -> u32;
    pub fn txc_oldest_open(site: *mut Handle, txn: *mut u64) -> u32;
}
