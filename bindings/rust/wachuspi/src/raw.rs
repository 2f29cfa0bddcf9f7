//! The C interface, as `include/wachuspi.h` has it.
use std::ffi::c_void;

#[repr(C)]
pub struct Options {
    pub write_buffer: u64,
    pub block_bytes: u64,
    pub file_bytes: u64,
    pub level0_files: u64,
    pub base_bytes: u64,
    pub cache_blocks: u64,
}

/// A `wch_db` or a `wch_batch`. It may be moved, and must not be copied.
#[repr(C)]
pub struct Handle {
    at: *mut c_void,
    pub holds: bool,
}

impl Handle {
    pub const NONE: Handle = Handle {
        at: std::ptr::null_mut(),
        holds: false,
    };
}

#[repr(C)]
#[derive(Default)]
pub struct Pair {
    pub key_length: usize,
    pub value_length: usize,
}

#[repr(C)]
#[derive(Default)]
pub struct Filled {
    pub used: usize,
    pub pairs: usize,
}

#[repr(C)]
pub struct Trouble {
    pub has: u32,
    pub code: i32,
    pub at: u64,
    pub found: u64,
    pub wanted: u64,
    pub count: u64,
    pub name_length: u64,
    pub words_length: u64,
    pub name: [u8; 48],
    pub words: [u8; 160],
}

impl Trouble {
    pub const NONE: Trouble = Trouble {
        has: 0,
        code: 0,
        at: 0,
        found: 0,
        wanted: 0,
        count: 0,
        name_length: 0,
        words_length: 0,
        name: [0; 48],
        words: [0; 160],
    };
}

#[repr(C)]
#[derive(Clone, Copy, Default)]
pub struct Cut {
    pub kind: u32,
    pub number: u64,
    pub at: u64,
    pub length: u64,
    pub zeros: u64,
}

type Bytes = *const u8;
type Room = *mut u8;

extern "C" {
    pub fn wch_version() -> u32;
    pub fn wch_default_options(options: *mut Options);
    pub fn wch_open(
        path: Bytes,
        path_length: usize,
        options: *const Options,
        mode: u32,
        db: *mut Handle,
        trouble: *mut Trouble,
    ) -> i32;
    pub fn wch_close(db: *mut Handle) -> i32;
    pub fn wch_put(db: *mut Handle, k: Bytes, kn: usize, v: Bytes, vn: usize, flags: u32) -> i32;
    pub fn wch_delete(db: *mut Handle, k: Bytes, kn: usize, flags: u32) -> i32;
    pub fn wch_batch_put(batch: *mut Handle, k: Bytes, kn: usize, v: Bytes, vn: usize) -> i32;
    pub fn wch_batch_delete(batch: *mut Handle, k: Bytes, kn: usize) -> i32;
    pub fn wch_batch_free(batch: *mut Handle);
    pub fn wch_write(db: *mut Handle, batch: *mut Handle, flags: u32) -> i32;
    pub fn wch_get(
        db: *mut Handle,
        k: Bytes,
        kn: usize,
        snapshot: u64,
        room: Room,
        room_length: usize,
        length: *mut usize,
    ) -> i32;
    pub fn wch_snapshot(db: *mut Handle, id: *mut u64) -> i32;
    pub fn wch_release(db: *mut Handle, id: u64) -> i32;
    pub fn wch_iter_new(db: *mut Handle, snapshot: u64, iter: *mut u64) -> i32;
    pub fn wch_iter_free(db: *mut Handle, iter: u64) -> i32;
    pub fn wch_iter_first(db: *mut Handle, iter: u64, room: Room, n: usize, pair: *mut Pair) -> i32;
    pub fn wch_iter_last(db: *mut Handle, iter: u64, room: Room, n: usize, pair: *mut Pair) -> i32;
    pub fn wch_iter_seek(
        db: *mut Handle,
        iter: u64,
        k: Bytes,
        kn: usize,
        room: Room,
        n: usize,
        pair: *mut Pair,
    ) -> i32;
    pub fn wch_iter_next(db: *mut Handle, iter: u64, room: Room, n: usize, pair: *mut Pair) -> i32;
    pub fn wch_iter_prev(db: *mut Handle, iter: u64, room: Room, n: usize, pair: *mut Pair) -> i32;
    pub fn wch_iter_pair(db: *mut Handle, iter: u64, room: Room, n: usize, pair: *mut Pair) -> i32;
    pub fn wch_iter_fill(
        db: *mut Handle,
        iter: u64,
        backwards: u32,
        room: Room,
        n: usize,
        filled: *mut Filled,
    ) -> i32;
    pub fn wch_work(db: *mut Handle, budget: u32, idle: *mut u32) -> i32;
    pub fn wch_settle(db: *mut Handle, budget: u32) -> i32;
    pub fn wch_compact(db: *mut Handle, level: u32) -> i32;
    pub fn wch_tables(db: *mut Handle, level: u32) -> i64;
    pub fn wch_last_trouble(db: *mut Handle, trouble: *mut Trouble) -> i32;
    pub fn wch_explain(answer: i32, room: Room, n: usize) -> usize;
    pub fn wch_check(path: Bytes, path_length: usize, trouble: *mut Trouble) -> i32;
    pub fn wch_mend(
        path: Bytes,
        path_length: usize,
        flags: u32,
        cuts: *mut Cut,
        cuts_length: usize,
        count: *mut usize,
        trouble: *mut Trouble,
    ) -> i32;
}
