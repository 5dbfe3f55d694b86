//! The exported calls of tempolemon_threads.h, and what they pass.

use std::ffi::{c_char, c_void};
use std::ptr::null_mut;

/// The version of the headers that this crate was written for.
pub const VERSION: u32 = 3;

pub const DONE: u8 = 0;
pub const SMALL_BUFFER: u8 = 103;
pub const BUSY: u8 = 109;

/// The kinds of results that a call has several of.
pub mod kind {
    pub const FREE: u8 = 5;
    pub const CPU: u8 = 6;
    pub const MARKED: u8 = 8;
    pub const LEFT: u8 = 10;
    pub const RETURNED: u8 = 11;
    pub const HELD: u8 = 14;
    pub const ZERO: u8 = 15;
    pub const RACED: u8 = 16;
    pub const PAGES: u8 = 22;
}

/// A zone or a CPU, or none.
#[repr(C)]
pub struct Handle {
    raw: *mut c_void,
    is_live: bool,
}

// The archive allows it: what the pointer leads to is proved to be `Send`.
unsafe impl Send for Handle {}

impl Handle {
    pub const NONE: Handle = Handle { raw: null_mut(), is_live: false };
}

#[repr(C)]
#[derive(Clone, Copy, Default)]
pub struct TypedResult {
    pub number: u64,
    pub kind: u8,
}

#[rustfmt::skip]
extern "C" {
    pub fn tempolemon_zone_boot_as(version: u32, sizes: *const crate::Sizes, zone: *mut Handle) -> u8;
    pub fn tempolemon_zone_end(zone: *mut Handle, report: *mut crate::Report) -> u8;
    pub fn tempolemon_try_take(zone: *mut Handle, cpu: u32, part: *mut Handle) -> u8;
    pub fn tempolemon_try_return(part: *mut Handle) -> u8;
    pub fn tempolemon_cpu_get(part: *mut Handle, frame: u32, out: *mut TypedResult) -> u8;
    pub fn tempolemon_cpu_put(part: *mut Handle, frame: u32, out: *mut TypedResult) -> u8;
    pub fn tempolemon_try_alloc(part: *mut Handle, group: u32, order: u32, out: *mut TypedResult) -> u8;
    pub fn tempolemon_try_alloc_dirty(part: *mut Handle, group: u32, order: u32, out: *mut TypedResult) -> u8;
    pub fn tempolemon_try_alloc_pinned(part: *mut Handle, group: u32, order: u32, out: *mut TypedResult) -> u8;
    pub fn tempolemon_try_release(part: *mut Handle, frame: u32, out: *mut TypedResult) -> u8;
    pub fn tempolemon_try_touch(part: *mut Handle, frame: u32, out: *mut TypedResult) -> u8;
    pub fn tempolemon_try_dirty(part: *mut Handle, frame: u32, out: *mut TypedResult) -> u8;
    pub fn tempolemon_try_clean(part: *mut Handle, frame: u32, out: *mut TypedResult) -> u8;
    pub fn tempolemon_try_owner(part: *mut Handle, frame: u32, out: *mut TypedResult) -> u8;
    pub fn tempolemon_try_settle(part: *mut Handle, out: *mut TypedResult) -> u8;
    pub fn tempolemon_try_mkdir(part: *mut Handle, path: *const u8, length: usize, out: *mut TypedResult) -> u8;
    pub fn tempolemon_try_rmdir(part: *mut Handle, path: *const u8, length: usize, out: *mut TypedResult) -> u8;
    pub fn tempolemon_try_write(part: *mut Handle, path: *const u8, length: usize, file: *const u8, file_length: usize,
        value: *const u8, value_length: usize, out: *mut TypedResult) -> u8;
    pub fn tempolemon_try_read(part: *mut Handle, path: *const u8, length: usize, file: *const u8, file_length: usize,
        text: *mut u8, room: usize, out: *mut TypedResult) -> u8;
    pub fn tempolemon_try_usage(part: *mut Handle, group: u32, out: *mut TypedResult) -> u8;
    pub fn tempolemon_try_peak(part: *mut Handle, group: u32, out: *mut TypedResult) -> u8;
    pub fn tempolemon_try_max(part: *mut Handle, group: u32, out: *mut TypedResult) -> u8;
    pub fn tempolemon_try_high(part: *mut Handle, group: u32, out: *mut TypedResult) -> u8;
    pub fn tempolemon_try_set_max(part: *mut Handle, group: u32, pages: u64, out: *mut TypedResult) -> u8;
    pub fn tempolemon_try_set_high(part: *mut Handle, group: u32, pages: u64, out: *mut TypedResult) -> u8;
    pub fn tempolemon_try_set_low(part: *mut Handle, group: u32, pages: u64, out: *mut TypedResult) -> u8;
    pub fn tempolemon_try_set_min(part: *mut Handle, group: u32, pages: u64, out: *mut TypedResult) -> u8;
    pub fn tempolemon_try_reclaim(part: *mut Handle, group: u32, pages: u64, out: *mut TypedResult) -> u8;
    pub fn tempolemon_try_show(part: *mut Handle, text: *mut u8, room: usize, written: *mut usize) -> u8;
    pub fn tempolemon_try_blocks(part: *mut Handle, text: *mut u8, room: usize, written: *mut usize) -> u8;
    pub fn tempolemon_try_stock(part: *mut Handle, text: *mut u8, room: usize, written: *mut usize) -> u8;
    pub fn tempolemon_try_units(part: *mut Handle, path: *const u8, length: usize, text: *mut u8, room: usize,
        written: *mut usize) -> u8;
    pub fn tempolemon_proof() -> *const c_char;
}
