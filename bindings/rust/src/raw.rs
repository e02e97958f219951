//! The static library as it is: include/packet_window.h in Rust. A list is its start and its length, two arguments.

/// The header of a window. Its fields are for reading: a window stays sound only if the library alone writes them.
#[repr(C)]
#[derive(Debug, Clone, Copy, Default, PartialEq, Eq)]
pub struct Header {
    /// As given to `new`.
    pub window_size: u32,
    /// The cells of a sparse page.
    pub n: u32,
    /// The most values with which a dense page becomes sparse again.
    pub demote_at: u32,
    /// Live values.
    pub len: u32,
    /// Retired values still held.
    pub retired_held: u32,
    /// The page that `release_retired` inspects next.
    pub release_cursor: u32,
    /// Where `point` is looked for from, below 2^31.
    pub base: u32,
    /// The first sequence from the base that is not live.
    pub point: u32,
    /// Bit b: a page of block b holds a value.
    pub nonempty_summary: u64,
    /// Bit b: every page of block b counts as retired.
    pub retired_blocks: u64,
    /// Pages that became sparse again by `remove` and `take_front`, modulo 2^64.
    pub single_demotions: u64,
    /// Pages that became sparse again by `remove_range`, modulo 2^64.
    pub range_demotions: u64,
    /// Pages that became dense, modulo 2^64.
    pub promotions: u64,
}

/// A code, then up to four numbers.
#[repr(C)]
#[derive(Debug, Clone, Copy, PartialEq, Eq)]
pub struct NumberedAnswer {
    pub code: u32,
    pub first: u32,
    pub second: u32,
    pub third: u32,
    pub fourth: u32,
}

/// The header to keep, the answer, and how many places of the return list are written.
#[repr(C)]
#[derive(Debug, Clone, Copy, PartialEq, Eq)]
pub struct NumberedStep {
    pub window: Header,
    pub answer: NumberedAnswer,
    pub count: u32,
}

pub const DONE: u32 = 0;
pub const NEW: u32 = 1;
pub const REPLACED: u32 = 2;
pub const ABSENT: u32 = 3;
pub const FOUND: u32 = 4;
pub const PAIR: u32 = 5;
pub const RELEASED: u32 = 6;
pub const REFUSED: u32 = 7;

extern "C" {
    pub fn packet_window_version() -> u32;

    pub fn packet_window_new(
        sequences: *mut u32, sequences_length: usize, values: *mut u32, values_length: usize,
        pages: *mut u64, pages_length: usize, blocks: *mut u64, blocks_length: usize,
        window_size: u32, n: u32, demote_at: u32,
    ) -> NumberedStep;

    pub fn packet_window_insert(
        w: Header,
        sequences: *mut u32, sequences_length: usize, values: *mut u32, values_length: usize,
        pages: *mut u64, pages_length: usize, blocks: *mut u64, blocks_length: usize,
        returned: *mut u32, returned_length: usize,
        sequence: u32, value: u32,
    ) -> NumberedStep;

    pub fn packet_window_get(
        w: Header,
        sequences: *const u32, sequences_length: usize, values: *const u32, values_length: usize,
        pages: *const u64, pages_length: usize, blocks: *const u64, blocks_length: usize,
        sequence: u32,
    ) -> NumberedStep;

    pub fn packet_window_exchange(
        w: Header,
        sequences: *const u32, sequences_length: usize, values: *mut u32, values_length: usize,
        pages: *const u64, pages_length: usize, blocks: *const u64, blocks_length: usize,
        sequence: u32, value: u32,
    ) -> NumberedStep;

    pub fn packet_window_remove(
        w: Header,
        sequences: *mut u32, sequences_length: usize, values: *mut u32, values_length: usize,
        pages: *mut u64, pages_length: usize, blocks: *mut u64, blocks_length: usize,
        sequence: u32,
    ) -> NumberedStep;

    pub fn packet_window_set_base(
        w: Header,
        sequences: *const u32, sequences_length: usize, values: *const u32, values_length: usize,
        pages: *const u64, pages_length: usize, blocks: *const u64, blocks_length: usize,
        base: u32,
    ) -> NumberedStep;

    pub fn packet_window_take_front(
        w: Header,
        sequences: *mut u32, sequences_length: usize, values: *mut u32, values_length: usize,
        pages: *mut u64, pages_length: usize, blocks: *mut u64, blocks_length: usize,
    ) -> NumberedStep;

    pub fn packet_window_successor_after(
        w: Header,
        sequences: *const u32, sequences_length: usize, values: *const u32, values_length: usize,
        pages: *const u64, pages_length: usize, blocks: *const u64, blocks_length: usize,
        sequence: u32,
    ) -> NumberedStep;

    pub fn packet_window_first_from(
        w: Header,
        sequences: *const u32, sequences_length: usize, values: *const u32, values_length: usize,
        pages: *const u64, pages_length: usize, blocks: *const u64, blocks_length: usize,
        sequence: u32,
    ) -> NumberedStep;

    pub fn packet_window_iter(
        w: Header,
        sequences: *const u32, sequences_length: usize, values: *const u32, values_length: usize,
        pages: *const u64, pages_length: usize, blocks: *const u64, blocks_length: usize,
        cell: u32,
    ) -> NumberedStep;

    pub fn packet_window_remove_range(
        w: Header,
        sequences: *mut u32, sequences_length: usize, values: *mut u32, values_length: usize,
        pages: *mut u64, pages_length: usize, blocks: *mut u64, blocks_length: usize,
        returned: *mut u32, returned_length: usize,
        first: u32, last: u32,
    ) -> NumberedStep;

    pub fn packet_window_release_retired(
        w: Header,
        sequences: *const u32, sequences_length: usize, values: *const u32, values_length: usize,
        pages: *mut u64, pages_length: usize, blocks: *mut u64, blocks_length: usize,
        returned: *mut u32, returned_length: usize,
        budget: u32,
    ) -> NumberedStep;

    pub fn packet_window_clear(
        w: Header,
        sequences: *const u32, sequences_length: usize, values: *const u32, values_length: usize,
        pages: *mut u64, pages_length: usize, blocks: *mut u64, blocks_length: usize,
        returned: *mut u32, returned_length: usize,
    ) -> NumberedStep;

    pub fn packet_window_clear_bounded(
        w: Header,
        sequences: *const u32, sequences_length: usize, values: *const u32, values_length: usize,
        pages: *mut u64, pages_length: usize, blocks: *mut u64, blocks_length: usize,
        returned: *mut u32, returned_length: usize,
        number: u32,
    ) -> NumberedStep;

    pub fn packet_window_stranger(
        w: Header,
        sequences: *const u32, sequences_length: usize, values: *const u32, values_length: usize,
        pages: *const u64, pages_length: usize, blocks: *const u64, blocks_length: usize,
        first: u32, last: u32,
    ) -> NumberedStep;

    pub fn packet_window_write_losses(
        w: Header,
        sequences: *const u32, sequences_length: usize, values: *const u32, values_length: usize,
        pages: *const u64, pages_length: usize, blocks: *const u64, blocks_length: usize,
        words: *mut u32, words_length: usize,
        first: u32, last: u32,
    ) -> NumberedStep;

    pub fn packet_window_read_losses(
        w: Header,
        sequences: *const u32, sequences_length: usize, values: *const u32, values_length: usize,
        pages: *const u64, pages_length: usize, blocks: *const u64, blocks_length: usize,
        words: *const u32, words_length: usize, lost: *mut u8, lost_length: usize,
        first: u32, last: u32,
    ) -> NumberedStep;

    pub fn packet_window_check(
        w: Header,
        sequences: *const u32, sequences_length: usize, values: *const u32, values_length: usize,
        pages: *const u64, pages_length: usize, blocks: *const u64, blocks_length: usize,
    ) -> NumberedStep;
}
