//! The declarations of `aecp.h` for Rust, and the library `libaecp.a` itself, which `build.rs` links.
//! `aecp.h` describes each call. The crate `aecp` has safe calls.
#![no_std]
#![allow(non_camel_case_types)]

use core::ffi::c_void;

/// The version of the header that this file restates: 10,000, 100 and 1 times its three numbers.
pub const AECP_VERSION: u32 = 10100;

// The faults.
pub const AECP_OK: u32 = 0;
pub const AECP_BITS_PER_SAMPLE: u32 = 1;
pub const AECP_BLOCK_SIZE: u32 = 2;
pub const AECP_INTERVAL: u32 = 3;
pub const AECP_RESTRICTED_WIDTH: u32 = 4;
pub const AECP_SAMPLE_RANGE: u32 = 5;
pub const AECP_TRUNCATED: u32 = 6;
pub const AECP_VALUE_TOO_LARGE: u32 = 7;
pub const AECP_RUN_TOO_LONG: u32 = 8;
pub const AECP_TOO_MANY_SAMPLES: u32 = 9;
pub const AECP_OUT_OF_RANGE: u32 = 10;
pub const AECP_SPENT: u32 = 11;
pub const AECP_MEMORY: u32 = 12;
pub const AECP_SCRIPT: u32 = 15;
pub const AECP_STREAM_TOO_LONG: u32 = 16;
pub const AECP_EVEN_BLOCK_SIZE: u32 = 17;
pub const AECP_NO_ROOM: u32 = 18;
pub const AECP_NOT_OPEN: u32 = 19;
pub const AECP_BIT_OUT_OF_RANGE: u32 = 20;

/// A sample count that stands for all samples of a stream.
pub const AECP_ALL: u64 = u64::MAX;

/// How samples are stored and coded.
#[repr(C)]
#[derive(Clone, Copy, Debug, PartialEq, Eq, Hash)]
pub struct aecp_options {
    pub bits: u32,
    pub block_size: u32,
    pub interval: u32,
    pub is_signed: bool,
    pub msb_first: bool,
    pub three_byte: bool,
    pub preprocess: bool,
    pub pad: bool,
    pub restricted: bool,
    pub even_blocks: bool,
}

/// How a call ended.
#[repr(C)]
#[derive(Clone, Copy, Debug, Default, PartialEq, Eq)]
pub struct aecp_reply {
    pub fault: u32,
    pub place: u64,
    pub len: u64,
}

/// How `aecp_edit` or `aecp_apply` ended.
#[repr(C)]
#[derive(Clone, Copy, Debug, Default, PartialEq, Eq)]
pub struct aecp_edit_reply {
    pub reply: aecp_reply,
    pub line: u64,
    pub samples: u64,
}

/// A workspace, which `aecp_open` or `aecp_load` opens. Begins as [`AECP_HANDLE`].
#[repr(C)]
pub struct aecp_handle {
    pub at: *mut c_void,
    pub full: bool,
}

/// A coder, with the same members.
pub type aecp_coder = aecp_handle;
/// A reader, with the same members.
pub type aecp_reader = aecp_handle;

/// What a handle, coder or reader begins as: `AECP_HANDLE`, `AECP_CODER`, `AECP_READER` of `aecp.h`.
pub const AECP_HANDLE: aecp_handle = aecp_handle { at: core::ptr::null_mut(), full: false };

extern "C" {
    pub fn aecp_version() -> u32;
    pub fn aecp_encode(
        options: *const aecp_options,
        samples: *const c_void,
        samples_len: usize,
        out: *mut u8,
        out_len: usize,
        reply: *mut aecp_reply,
    ) -> u32;
    pub fn aecp_decode(
        options: *const aecp_options,
        count: u64,
        coded: *const u8,
        coded_len: usize,
        out: *mut c_void,
        out_len: usize,
        reply: *mut aecp_reply,
    ) -> u32;
    pub fn aecp_range(
        options: *const aecp_options,
        count: u64,
        first: u64,
        len: u64,
        coded: *const u8,
        coded_len: usize,
        out: *mut c_void,
        out_len: usize,
        reply: *mut aecp_reply,
    ) -> u32;
    pub fn aecp_offsets(
        options: *const aecp_options,
        count: u64,
        coded: *const u8,
        coded_len: usize,
        out: *mut u64,
        out_len: usize,
        reply: *mut aecp_reply,
    ) -> u32;
    pub fn aecp_decode_at(
        options: *const aecp_options,
        bit: u64,
        count: u64,
        coded: *const u8,
        coded_len: usize,
        out: *mut c_void,
        out_len: usize,
        reply: *mut aecp_reply,
    ) -> u32;
    pub fn aecp_bound(options: *const aecp_options, samples: u64) -> u64;
    pub fn aecp_text(reply: *const aecp_reply, out: *mut u8, out_len: usize) -> usize;
    pub fn aecp_open(
        options: *const aecp_options,
        handle: *mut aecp_handle,
        reply: *mut aecp_reply,
    ) -> u32;
    pub fn aecp_load(
        options: *const aecp_options,
        count: u64,
        coded: *const u8,
        coded_len: usize,
        handle: *mut aecp_handle,
        reply: *mut aecp_reply,
    ) -> u32;
    pub fn aecp_close(handle: *mut aecp_handle);
    pub fn aecp_append(
        handle: *mut aecp_handle,
        values: *const i64,
        values_len: usize,
        reply: *mut aecp_reply,
    ) -> u32;
    pub fn aecp_truncate(handle: *mut aecp_handle, count: u64, reply: *mut aecp_reply) -> u32;
    pub fn aecp_remove(
        handle: *mut aecp_handle,
        first: u64,
        len: u64,
        reply: *mut aecp_reply,
    ) -> u32;
    pub fn aecp_overwrite(
        handle: *mut aecp_handle,
        first: u64,
        values: *const i64,
        values_len: usize,
        reply: *mut aecp_reply,
    ) -> u32;
    pub fn aecp_insert(
        handle: *mut aecp_handle,
        first: u64,
        values: *const i64,
        values_len: usize,
        reply: *mut aecp_reply,
    ) -> u32;
    pub fn aecp_apply(
        handle: *mut aecp_handle,
        script: *const c_void,
        script_len: usize,
        reply: *mut aecp_edit_reply,
    ) -> u32;
    pub fn aecp_read(
        handle: *mut aecp_handle,
        first: u64,
        len: u64,
        out: *mut i64,
        out_len: usize,
        reply: *mut aecp_reply,
    ) -> u32;
    pub fn aecp_write(
        handle: *mut aecp_handle,
        out: *mut u8,
        out_len: usize,
        reply: *mut aecp_reply,
    ) -> u32;
    pub fn aecp_size(handle: *mut aecp_handle) -> u64;
    pub fn aecp_calls(handle: *mut aecp_handle) -> u64;
    pub fn aecp_edit(
        options: *const aecp_options,
        count: u64,
        script: *const c_void,
        script_len: usize,
        coded: *const u8,
        coded_len: usize,
        out: *mut u8,
        out_len: usize,
        reply: *mut aecp_edit_reply,
    ) -> u32;
    pub fn aecp_coder_open(
        options: *const aecp_options,
        coder: *mut aecp_coder,
        reply: *mut aecp_reply,
    ) -> u32;
    pub fn aecp_coder_feed(
        coder: *mut aecp_coder,
        samples: *const c_void,
        samples_len: usize,
        reply: *mut aecp_reply,
    ) -> u32;
    pub fn aecp_coder_finish(coder: *mut aecp_coder, reply: *mut aecp_reply) -> u32;
    pub fn aecp_coder_take(
        coder: *mut aecp_coder,
        out: *mut u8,
        out_len: usize,
        reply: *mut aecp_reply,
    ) -> u32;
    pub fn aecp_coder_close(coder: *mut aecp_coder);
    pub fn aecp_reader_open(
        options: *const aecp_options,
        count: u64,
        coded: *const u8,
        coded_len: usize,
        reader: *mut aecp_reader,
        reply: *mut aecp_reply,
    ) -> u32;
    pub fn aecp_reader_next(
        reader: *mut aecp_reader,
        out: *mut c_void,
        out_len: usize,
        reply: *mut aecp_reply,
    ) -> u32;
    pub fn aecp_reader_go_to(
        reader: *mut aecp_reader,
        interval: u64,
        reply: *mut aecp_reply,
    ) -> u32;
    pub fn aecp_reader_close(reader: *mut aecp_reader);
}
