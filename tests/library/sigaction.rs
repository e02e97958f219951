//! What a program does on a signal: `sigaction` of the C library on x86-64 Linux, declared by hand.

use std::ffi::{c_int, c_void};

pub type Handler = extern "C" fn(c_int, *const Information, *mut c_void);

#[repr(C)]
pub struct Action {
    pub handler: Handler,
    pub mask: [u64; 16],
    pub flags: c_int,
    pub restorer: usize,
}

#[repr(C)]
pub struct Information {
    pub number: c_int,
    pub error: c_int,
    pub code: c_int,
    pub address: usize,
}

/// The handler is given the information.
pub const WITH_INFORMATION: c_int = 4;

extern "C" {
    pub fn sigaction(signal: c_int, action: *const Action, old: *mut Action) -> c_int;
}
