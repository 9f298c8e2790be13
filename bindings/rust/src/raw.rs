//! `detio_threads.h`, as far as the crate needs it. `tools/header` compares it with the header.

use std::ffi::{CStr, c_char, c_uint};

/// The driver's run, whose fields are its own.
#[repr(C)]
pub struct Place {
    _private: [u8; 0],
}

#[repr(C)]
#[derive(Clone, Copy, Debug)]
pub struct Settings {
    pub size: usize,
    pub threads: usize,
    pub patience: u32,
    pub door_cost: u32,
    pub version: u32,
    pub room: usize,
}

#[repr(C)]
#[derive(Clone, Copy, Debug, Default)]
pub struct Call {
    pub kind: u32,
    pub choice: u32,
    pub flags: u32,
    pub descriptor: i64,
    pub number: i64,
    pub position: i64,
}

#[repr(C)]
#[derive(Clone, Copy, Debug, Default)]
pub struct Reply {
    pub kind: u32,
    pub error: u32,
    pub count: u64,
    pub first: i64,
    pub second: i64,
    pub links: u64,
}

#[repr(C)]
#[derive(Clone, Copy, Debug, Default)]
pub struct RunEnd {
    pub how: u32,
    pub thread: usize,
    pub length: usize,
}

extern "C" {
    pub fn detio_run_begin(run: *mut Place, settings: *const Settings, wait: c_uint) -> u32;
    pub fn detio_run_replay(run: *mut Place, log: *const u8, length: usize) -> u32;
    pub fn detio_thread_call(
        run: *mut Place, thread: usize, call: *const Call, text: *const u8, text_length: usize, second: *const u8,
        second_length: usize, reply: *mut Reply, data: *mut u8, room: usize,
    ) -> u32;
    pub fn detio_thread_work(run: *mut Place, thread: usize, units: u64) -> u32;
    pub fn detio_thread_end(run: *mut Place, thread: usize) -> u32;
    pub fn detio_run_stop(run: *mut Place, cause: u32, thread: usize);
    pub fn detio_run_still(run: *mut Place, milliseconds: c_uint, line: *mut c_char, room: usize) -> usize;
    pub fn detio_run_strayed(run: *mut Place, line: *mut c_char, room: usize) -> usize;
    pub fn detio_run_finish(run: *mut Place, ended: *mut RunEnd) -> u32;
    pub fn detio_run_log(run: *mut Place, from: usize, data: *mut u8, room: usize, length: *mut usize) -> u32;
    pub fn detio_run_free(run: *mut Place);
    pub fn detio_run_size() -> usize;
    fn detio_error_name(error: u32) -> *const c_char;
    fn detio_code_name(code: u32) -> *const c_char;
    fn detio_end_name(how: u32) -> *const c_char;
}

fn name(found: *const c_char) -> &'static str {
    if found.is_null() {
        return "";
    }
    unsafe { CStr::from_ptr(found) }.to_str().unwrap_or("")
}

/// The name of an error, as `ENOENT`.
pub fn error_name(error: u32) -> &'static str {
    name(unsafe { detio_error_name(error) })
}

/// The name of a code, as `DETIO_NO_ROOM`.
pub fn code_name(code: u32) -> &'static str {
    name(unsafe { detio_code_name(code) })
}

/// How a run ended, as `stopped: no memory`.
pub fn end_name(how: u32) -> &'static str {
    name(unsafe { detio_end_name(how) })
}
