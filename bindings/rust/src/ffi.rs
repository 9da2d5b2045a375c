//! The functions of the static library, declared as `bindings/c/settle.h` has them. Nothing compares the two with the exports in `crates/settle_c/src`.

use std::ffi::c_void;

/// A register, or none where the pointer is null.
#[repr(C)]
pub struct Handle {
    pub at: *mut c_void,
}

#[repr(C)]
#[derive(Debug)]
pub struct Outcome {
    pub accepted: bool,
    pub count: u32,
    pub numbers: [u64; 4],
}

unsafe extern "C" {
    pub fn settle_new(handle: *mut Handle, chart: *const u8, chart_len: usize, top: u32) -> Outcome;
    pub fn settle_new_twice(
        handle: *mut Handle,
        first: *const u8,
        first_len: usize,
        second: *const u8,
        second_len: usize,
        top: u32,
    ) -> Outcome;
    pub fn settle_free(handle: *mut Handle);
    pub fn settle_sections(handle: *mut Handle) -> usize;
    pub fn settle_open(handle: *mut Handle, lower: bool) -> Outcome;
    pub fn settle_claim(handle: *mut Handle, s: usize, t: usize, value: u32) -> Outcome;
    pub fn settle_close(handle: *mut Handle) -> Outcome;
    pub fn settle_show(handle: *mut Handle, s: usize, t: usize, words: *const i32, count: usize) -> Outcome;
    pub fn settle_enter(handle: *mut Handle) -> Outcome;
    pub fn settle_abandon(handle: *mut Handle) -> Outcome;
    pub fn settle_ask(handle: *mut Handle, s: usize, t: usize) -> Outcome;
    pub fn settle_weigh(handle: *mut Handle, lower: bool, s: usize, t: usize, words: *const i32, count: usize) -> Outcome;
}
