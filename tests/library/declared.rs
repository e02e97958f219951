//! The static library as a Rust caller declares it: as the wrapper does, and the host forms.

#[path = "../../bindings/rust/src/raw.rs"]
mod raw;
pub use raw::*;

/// No program here asks for the version. Any other function that tests/robustness does not call is told as unused.
const _: unsafe extern "C" fn() -> u32 = packet_window_version;

/// What a host form gives back: a step without the header, which it has updated.
#[repr(C)]
pub struct NumberedOutcome {
    pub answer: NumberedAnswer,
    pub count: u32,
}

extern "C" {
    pub fn packet_window_host_insert(
        w: *mut Header,
        sequences: *mut u32, sequences_length: usize, values: *mut u32, values_length: usize,
        pages: *mut u64, pages_length: usize, blocks: *mut u64, blocks_length: usize,
        returned: *mut u32, returned_length: usize,
        sequence: u32, value: u32,
    ) -> NumberedOutcome;

    pub fn packet_window_host_remove(
        w: *mut Header,
        sequences: *mut u32, sequences_length: usize, values: *mut u32, values_length: usize,
        pages: *mut u64, pages_length: usize, blocks: *mut u64, blocks_length: usize,
        sequence: u32,
    ) -> NumberedOutcome;

    pub fn packet_window_host_release_retired(
        w: *mut Header,
        sequences: *const u32, sequences_length: usize, values: *const u32, values_length: usize,
        pages: *mut u64, pages_length: usize, blocks: *mut u64, blocks_length: usize,
        returned: *mut u32, returned_length: usize,
        budget: u32,
    ) -> NumberedOutcome;
}
