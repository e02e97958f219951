//! Memory of a window: what the library is lent, and what the source holds.

use crate::declared::Header;
use crate::window::AdaptiveReceiverPacketWindow;
use std::alloc::{GlobalAlloc, Layout, System};
use std::mem::size_of;
use std::sync::atomic::{AtomicUsize, Ordering::Relaxed};

const N: usize = 8;
const DEMOTE_AT: usize = 4;
const SIZES: [u32; 4] = [64, 512, 4096, 65536];
const RETURNED: usize = 384;

/// The system's allocator, which counts the bytes asked for, and those that its chunks take.
struct Counting;

static ASKED: AtomicUsize = AtomicUsize::new(0);
static CHUNKS: AtomicUsize = AtomicUsize::new(0);

extern "C" {
    fn malloc_usable_size(start: *mut u8) -> usize;
}

/// A chunk of the C library has its size before what the caller may use.
const CHUNK_SIZE: usize = 8;

unsafe impl GlobalAlloc for Counting {
    unsafe fn alloc(&self, layout: Layout) -> *mut u8 {
        let start = System.alloc(layout);
        ASKED.fetch_add(layout.size(), Relaxed);
        CHUNKS.fetch_add(malloc_usable_size(start) + CHUNK_SIZE, Relaxed);
        start
    }

    unsafe fn dealloc(&self, start: *mut u8, layout: Layout) {
        ASKED.fetch_sub(layout.size(), Relaxed);
        CHUNKS.fetch_sub(malloc_usable_size(start) + CHUNK_SIZE, Relaxed);
        System.dealloc(start, layout);
    }
}

#[global_allocator]
static ALLOCATOR: Counting = Counting;

fn lent(size: u32) -> usize {
    let capacity = (size as usize).max(64).next_power_of_two();
    let pages = capacity / 64;
    let words = 3 * pages + 3 * pages.div_ceil(64);
    2 * capacity * size_of::<u32>() + words * size_of::<u64>()
}

/// One line: window, content, lent, the source's heap as it counts it, as its chunks take.
fn line(size: u32, content: &str, sequences: impl Iterator<Item = u32>) {
    let (asked, chunks) = (ASKED.load(Relaxed), CHUNKS.load(Relaxed));
    let mut source = AdaptiveReceiverPacketWindow::<u32, N>::new(size, DEMOTE_AT);
    sequences.for_each(|sequence| assert!(source.insert(sequence, sequence).is_ok()));
    let (asked, chunks) = (ASKED.load(Relaxed) - asked, CHUNKS.load(Relaxed) - chunks);
    assert_eq!(source.heap_bytes(), asked, "heap_bytes of the source");
    println!("| {size} | {content} | {} | {asked} | {chunks} |", lent(size));
}

pub fn print() {
    println!("| window | content | lent | source, heap | in chunks |");
    println!("|---|---|---|---|---|");
    for size in SIZES {
        line(size, "empty", 0..0);
        line(size, "half, in a row", 0..size / 2);
        line(size, "half, every second", (0..size).step_by(2));
        line(size, "every 16th", (0..size).step_by(16));
        line(size, "full", 0..size);
    }
    println!();
    println!("Header {} bytes, return list {}; the source's struct {}.", size_of::<Header>(), RETURNED * size_of::<u32>(), size_of::<AdaptiveReceiverPacketWindow<u32, N>>());
}
