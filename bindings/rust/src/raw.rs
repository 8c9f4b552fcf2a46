//! The functions and structs of include/worzsunab.h and include/worzsunab_threads.h.

use std::ffi::{c_char, c_int, c_void};

use crate::call::Call;

#[repr(C)]
#[derive(Clone, Copy, Debug, Default, PartialEq, Eq)]
pub struct RawRequest {
    pub slot: u32,
    pub generation: u32,
}

#[repr(C)]
#[derive(Clone, Copy, Debug, Default, PartialEq, Eq)]
pub struct RawCall {
    pub kind: u8,
    pub op: u8,
    pub ty: u8,
    pub root: u8,
    pub count: u32,
}

#[repr(C)]
#[derive(Clone, Copy, Debug, Default, PartialEq, Eq)]
pub struct RawReason {
    pub code: i32,
    pub rank: u8,
    pub cause: u8,
    pub first: u8,
    pub persistent: bool,
    pub call: RawCall,
    pub comm: u32,
    pub place: u32,
    pub want: u32,
    pub got: usize,
}

#[repr(C)]
pub struct RawEngine {
    pub at: *mut u8,
    pub opened: bool,
    pub reason: RawReason,
}

#[repr(C)]
#[derive(Clone, Copy)]
pub struct RawPosted {
    pub call: RawCall,
    pub persistent: bool,
    pub counts: [u32; 64],
}

#[repr(C)]
#[derive(Clone, Copy, Debug)]
pub struct RawPart {
    pub request: RawRequest,
    pub at: usize,
    pub room: usize,
    pub count: usize,
    pub completed: bool,
}

#[repr(C)]
#[derive(Clone, Copy, Debug, Default)]
pub struct RawAbout {
    pub rank: u8,
    pub persistent: bool,
    pub comm: u32,
    pub place: u32,
    pub starts: u32,
}

#[repr(C)]
pub struct RawLimits {
    pub ranks: u32,
    pub slots: u32,
    pub places: u32,
    pub wear: u32,
    pub starts: u32,
}

#[repr(C)]
pub struct RawShared {
    pub at: *mut c_void,
}

extern "C" {
    pub fn wz_open(
        engine: &mut RawEngine,
        limits: &RawLimits,
        sizes: *const u8,
        communicators: usize,
        members: *const u8,
        member_count: usize,
    ) -> i32;
    pub fn wz_shared_open(
        shared: *mut RawShared,
        limits: &RawLimits,
        sizes: *const u8,
        communicators: usize,
        members: *const u8,
        member_count: usize,
    ) -> i32;
    pub fn wz_shared_close(shared: *mut RawShared) -> i32;
    pub fn wz_shared_progress(shared: *mut RawShared, threads: u32) -> i32;
    pub fn wz_shared_leave(shared: *mut RawShared, rank: u8);
    pub fn wz_shared_post(
        shared: *mut RawShared,
        rank: u8,
        comm: u32,
        call: &Call,
        bytes: *const u8,
        length: usize,
        request: &mut RawRequest,
    ) -> i32;
    pub fn wz_shared_init(shared: *mut RawShared, rank: u8, comm: u32, call: &Call, request: &mut RawRequest) -> i32;
    pub fn wz_shared_post_allgatherv(
        shared: *mut RawShared,
        rank: u8,
        comm: u32,
        ty: u8,
        counts: *const u32,
        many: usize,
        bytes: *const u8,
        length: usize,
        request: &mut RawRequest,
    ) -> i32;
    pub fn wz_shared_init_allgatherv(
        shared: *mut RawShared,
        rank: u8,
        comm: u32,
        ty: u8,
        counts: *const u32,
        many: usize,
        request: &mut RawRequest,
    ) -> i32;
    pub fn wz_shared_start(
        shared: *mut RawShared,
        rank: u8,
        request: &RawRequest,
        bytes: *const u8,
        length: usize,
    ) -> i32;
    pub fn wz_shared_start_all(
        shared: *mut RawShared,
        rank: u8,
        parts: *const RawPart,
        many: usize,
        given: *const u8,
        length: usize,
        started: &mut usize,
    ) -> i32;
    pub fn wz_shared_free(shared: *mut RawShared, rank: u8, request: &mut RawRequest) -> i32;
    pub fn wz_shared_test(
        shared: *mut RawShared,
        rank: u8,
        request: &mut RawRequest,
        out: *mut u8,
        room: usize,
        count: &mut usize,
    ) -> i32;
    pub fn wz_shared_wait(
        shared: *mut RawShared,
        rank: u8,
        request: &mut RawRequest,
        out: *mut u8,
        room: usize,
        count: &mut usize,
    ) -> i32;
    pub fn wz_shared_test_any(
        shared: *mut RawShared,
        rank: u8,
        parts: *mut RawPart,
        many: usize,
        out: *mut u8,
        room: usize,
        index: &mut usize,
    ) -> i32;
    pub fn wz_shared_test_some(
        shared: *mut RawShared,
        rank: u8,
        parts: *mut RawPart,
        many: usize,
        out: *mut u8,
        room: usize,
        completed: &mut usize,
    ) -> i32;
    pub fn wz_shared_test_all(
        shared: *mut RawShared,
        rank: u8,
        parts: *mut RawPart,
        many: usize,
        out: *mut u8,
        room: usize,
    ) -> i32;
    pub fn wz_shared_wait_any(
        shared: *mut RawShared,
        rank: u8,
        parts: *mut RawPart,
        many: usize,
        out: *mut u8,
        room: usize,
        index: &mut usize,
    ) -> i32;
    pub fn wz_shared_wait_some(
        shared: *mut RawShared,
        rank: u8,
        parts: *mut RawPart,
        many: usize,
        out: *mut u8,
        room: usize,
        completed: &mut usize,
    ) -> i32;
    pub fn wz_shared_wait_all(
        shared: *mut RawShared,
        rank: u8,
        parts: *mut RawPart,
        many: usize,
        out: *mut u8,
        room: usize,
    ) -> i32;
    pub fn wz_shared_phase(shared: *mut RawShared, rank: u8, request: &RawRequest, phase: &mut u8) -> i32;
    pub fn wz_shared_about(shared: *mut RawShared, rank: u8, request: &RawRequest, about: &mut RawAbout) -> i32;
    pub fn wz_shared_outcome_length(shared: *mut RawShared, rank: u8, request: &RawRequest, bytes: &mut usize) -> i32;
    pub fn wz_shared_posted_at(shared: *mut RawShared, comm: u32, place: u32, posted: &mut RawPosted) -> i32;
    pub fn wz_shared_lent(shared: *mut RawShared, bytes: &mut u64) -> i32;
    pub fn wz_shared_reason(shared: *const RawShared, rank: u8) -> RawReason;
    pub fn wz_shared_explain(shared: *mut RawShared, rank: u8, text: *mut c_char, size: usize) -> c_int;
}
