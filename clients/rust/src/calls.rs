//! The calls of rohcfn_c.h.

use std::ffi::c_void;

/// A pointer to a session, null where there is none.
#[repr(C)]
pub struct Handle {
    at: *mut c_void,
}

impl Handle {
    /// A handle with no session.
    pub fn closed() -> Handle {
        Handle { at: std::ptr::null_mut() }
    }
}

/// How much an item is, and how many bits its packet took.
#[repr(C)]
#[derive(Default)]
pub struct Counts {
    pub header_bits: usize,
    pub asked_octets: usize,
    pub taken_bits: usize,
}

extern "C" {
    #[rustfmt::skip]
    pub fn rohcfn_open(
        top: *const u8,
        top_len: usize,
        profile: *const u8,
        profile_len: usize,
        certificate: *const u8,
        certificate_len: usize,
        flows: usize,
        handle: &mut Handle,
        line: *mut u8,
        room: usize,
        said: &mut usize,
    ) -> i32;
    #[rustfmt::skip]
    pub fn rohcfn_pack(
        handle: &mut Handle,
        flow: usize,
        header: *const u8,
        header_len: usize,
        header_bits: usize,
        asked: *const u8,
        asked_len: usize,
        packed: *mut u8,
        room: usize,
        packed_bits: &mut usize,
    ) -> i32;
    #[rustfmt::skip]
    pub fn rohcfn_unpack(
        handle: &mut Handle,
        flow: usize,
        packed: *const u8,
        packed_len: usize,
        packed_bits: usize,
        header: *mut u8,
        header_room: usize,
        asked: *mut u8,
        asked_room: usize,
        counts: &mut Counts,
    ) -> i32;
    pub fn rohcfn_reset(handle: &mut Handle, flow: usize) -> i32;
    pub fn rohcfn_robust(handle: &mut Handle, flow: usize, lost: u8) -> i32;
    pub fn rohcfn_contexts(handle: &mut Handle, flow: usize, count: &mut usize) -> i32;
    pub fn rohcfn_most(handle: &mut Handle, header_bits: &mut usize, packed_bits: &mut usize) -> i32;
    #[rustfmt::skip]
    pub fn rohcfn_asked(handle: &mut Handle, index: usize, name: *mut u8, room: usize, said: &mut usize, bits: &mut usize) -> i32;
    pub fn rohcfn_why(handle: &mut Handle, line: *mut u8, room: usize, said: &mut usize) -> i32;
    pub fn rohcfn_close(handle: &mut Handle);
}
