//! The lists that a window works in, and how long they must be.

#[cfg(feature = "alloc")]
use alloc::{vec, vec::Vec};

/// The version of the library that this wrapper is written for, as 10000 × major + 100 × minor + patch.
pub const VERSION: u32 = 600;

/// Positions of a page.
pub const PAGE_SLOTS: usize = 64;

/// The largest budget of `release_retired`, and number of `clear_bounded`.
pub const MAX_RETIRED_RELEASED_PER_VISIT: u32 = 256;

/// The least length of a return list.
pub const RETURN_PLACES: usize = 384;

const LARGEST_WINDOW: usize = 65536;

/// Positions: window_size, at least 64, raised to a power of two. The least length of `sequences` and of `values`. As for 65536 where
/// window_size is above it, which `new` refuses.
pub const fn capacity(window_size: u32) -> usize {
    let size = window_size as usize;
    if size <= PAGE_SLOTS {
        PAGE_SLOTS
    } else if size <= LARGEST_WINDOW {
        size.next_power_of_two()
    } else {
        LARGEST_WINDOW
    }
}

/// The least length of `pages`: three words a page of 64 positions.
pub const fn page_words(window_size: u32) -> usize {
    3 * (capacity(window_size) / PAGE_SLOTS)
}

/// The least length of `blocks`: three words a block of 64 pages.
pub const fn block_words(window_size: u32) -> usize {
    3 * (capacity(window_size) / PAGE_SLOTS).div_ceil(64)
}

/// The most words that a loss list of `count` sequences has: so many places are enough for `write_losses`.
pub const fn loss_words(count: u32) -> usize {
    (count - count / 3) as usize
}

/// The lists that a window is lent. What they hold does not matter to `new`; afterwards the window alone writes them. A list may be
/// longer than it must be; what lies past that is never written.
#[derive(Debug)]
pub struct Memory<'m> {
    /// At least [`capacity`].
    pub sequences: &'m mut [u32],
    /// At least [`capacity`].
    pub values: &'m mut [u32],
    /// At least [`page_words`].
    pub pages: &'m mut [u64],
    /// At least [`block_words`].
    pub blocks: &'m mut [u64],
    /// At least [`RETURN_PLACES`]: where calls put the values that they hand back.
    pub returned: &'m mut [u32],
}

/// Lists on the heap, as long as a window_size needs them.
#[cfg(feature = "alloc")]
#[derive(Debug, Clone, PartialEq, Eq)]
pub struct OwnedMemory {
    /// As in [`Memory`], as are the others.
    pub sequences: Vec<u32>,
    /// The values of cells.
    pub values: Vec<u32>,
    /// The words of pages.
    pub pages: Vec<u64>,
    /// The words of blocks.
    pub blocks: Vec<u64>,
    /// The return list.
    pub returned: Vec<u32>,
}

#[cfg(feature = "alloc")]
impl OwnedMemory {
    /// Lists for a window of this size, filled with zeros.
    pub fn new(window_size: u32) -> Self {
        Self {
            sequences: vec![0; capacity(window_size)],
            values: vec![0; capacity(window_size)],
            pages: vec![0; page_words(window_size)],
            blocks: vec![0; block_words(window_size)],
            returned: vec![0; RETURN_PLACES],
        }
    }

    /// The lists, lent to a window.
    pub fn lend(&mut self) -> Memory<'_> {
        Memory {
            sequences: &mut self.sequences,
            values: &mut self.values,
            pages: &mut self.pages,
            blocks: &mut self.blocks,
            returned: &mut self.returned,
        }
    }
}
