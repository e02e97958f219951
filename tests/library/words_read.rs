//! Request S-2: the number of reads in an answer of iter is that of the reads which the compiled step makes.
//!
//! A list of words lies in memory that may not be read. Each instruction that reads it faults; the handler notes the address, opens the
//! memory for this one instruction and closes it again. (A read of two words at once would be noted as one of the first; then the
//! second is missed, and that is told.) Of the block words a step must read the retired word of each block from the given cell's to the
//! found pair's, or to the last, once each, no word of another block, and say how many they were. Of the page words it must read those
//! of the given cell's page, if that is live, and of the found pair's, and of no other page.

#[allow(dead_code)] // other tests use the rest
mod declared;
mod reads;
mod sigaction;

use declared::*;
use reads::{reads_due, BLOCK_CELLS};
use sigaction::{sigaction, Action, Handler, Information, WITH_INFORMATION};
use std::ffi::{c_int, c_void};
use std::process::ExitCode;

/// As far as the flags of the x86-64 processor: ucontext_t, whose general registers come after 40 bytes, the flags 17th of them.
#[repr(C)]
struct Context {
    before: [u8; 40],
    registers: [u64; 23],
}

extern "C" {
    fn mmap(start: *mut c_void, bytes: usize, protection: c_int, flags: c_int, file: c_int, at: i64) -> *mut c_void;
    fn mprotect(start: *mut c_void, bytes: usize, protection: c_int) -> c_int;
}

const TRAP: c_int = 5;
const FAULT: c_int = 11;
const CLOSED: c_int = 0;
const OPEN: c_int = 3;
const PRIVATE_AND_ANONYMOUS: c_int = 0x22;
const FLAGS: usize = 17;
const SINGLE_STEP: u64 = 0x100;
/// Room for the words of the largest window, in pages of the processor of their own.
const BLOCK_BYTES: usize = 4096;
const PAGE_BYTES: usize = 24576;
const MOST: usize = 256;

/// The lists of words, and which of them is watched: its start and its bytes.
static mut BLOCKS: *mut u64 = std::ptr::null_mut();
static mut PAGES: *mut u64 = std::ptr::null_mut();
static mut WATCHED: (*mut u64, usize) = (std::ptr::null_mut(), 0);
static mut SEEN: [usize; MOST] = [0; MOST];
static mut COUNT: usize = 0;

unsafe fn protect(protection: c_int) {
    assert_eq!(mprotect(WATCHED.0.cast(), WATCHED.1, protection), 0);
}

/// A read of the watched memory: noted, then done by one step of the processor. Any other fault ends the program.
extern "C" fn faulted(_: c_int, information: *const Information, context: *mut c_void) {
    unsafe {
        let start = WATCHED.0 as usize;
        let address = (*information).address;
        if !(start..start + WATCHED.1).contains(&address) || COUNT == MOST {
            std::process::abort();
        }
        SEEN[COUNT] = (address - start) / 8;
        COUNT += 1;
        protect(OPEN);
        (*context.cast::<Context>()).registers[FLAGS] |= SINGLE_STEP;
    }
}

extern "C" fn stepped(_: c_int, _: *const Information, context: *mut c_void) {
    unsafe {
        protect(CLOSED);
        (*context.cast::<Context>()).registers[FLAGS] &= !SINGLE_STEP;
    }
}

fn watch() {
    unsafe {
        let start = mmap(std::ptr::null_mut(), BLOCK_BYTES + PAGE_BYTES, OPEN, PRIVATE_AND_ANONYMOUS, -1, 0);
        assert_ne!(start as isize, -1, "no memory");
        BLOCKS = start.cast();
        PAGES = start.byte_add(BLOCK_BYTES).cast();
        for (signal, handler) in [(FAULT, faulted as Handler), (TRAP, stepped)] {
            let action = Action { handler, mask: [0; 16], flags: WITH_INFORMATION, restorer: 0 };
            assert_eq!(sigaction(signal, &action, std::ptr::null_mut()), 0);
        }
    }
}

/// A wrong step, to show that it is noticed.
#[derive(Clone, Copy, PartialEq, Eq)]
enum Wrong {
    /// The retired word of the block of the given cell is read once more.
    ReadTwice,
    /// The answer tells one read fewer.
    OneFewer,
    /// A word of the last page is read.
    LastPage,
}

/// A window whose block words are watched while it steps.
struct Window {
    header: Header,
    sequences: Vec<u32>,
    values: Vec<u32>,
    page_words: usize,
    block_words: usize,
    returned: [u32; 384],
}

macro_rules! call {
    ($w:ident, $call:ident, [$($list:ident)?] $(, $number:expr)*) => {
        unsafe {
            $call(
                $w.header, $w.sequences.as_mut_ptr(), $w.sequences.len(), $w.values.as_mut_ptr(), $w.values.len(),
                PAGES, $w.page_words, BLOCKS, $w.block_words,
                $($w.$list.as_mut_ptr(), $w.$list.len(),)? $($number),*
            )
        }
    };
}

impl Window {
    fn new(window_size: u32) -> Self {
        let capacity = (window_size as usize).max(64).next_power_of_two();
        let (sequences, values) = (vec![0; capacity], vec![0; capacity]);
        let (page_words, block_words) = (3 * (capacity / 64), 3 * (capacity / 64).div_ceil(64));
        let mut w = Self { header: EMPTY, sequences, values, page_words, block_words, returned: [0; 384] };
        w.header = unsafe {
            packet_window_new(
                w.sequences.as_mut_ptr(), capacity, w.values.as_mut_ptr(), capacity, PAGES, page_words,
                BLOCKS, block_words, window_size, 8, 4,
            )
        }
        .window;
        w
    }

    fn insert(&mut self, sequence: u32) {
        let w = &mut *self;
        let step = call!(w, packet_window_insert, [returned], sequence, sequence);
        assert_eq!(step.answer.code, NEW);
        self.header = step.window;
    }

    /// Everything retired, nothing released.
    fn retire_all(&mut self) {
        let w = &mut *self;
        self.header = call!(w, packet_window_clear_bounded, [returned], 0).window;
    }

    fn retire(&mut self, first: u32, last: u32) {
        let w = &mut *self;
        self.header = call!(w, packet_window_remove_range, [returned], first, last).window;
    }

    /// A step, and the places of the watched words that it read, in order.
    fn step(&mut self, cell: u32, watched: (*mut u64, usize), wrong: Option<Wrong>) -> (NumberedAnswer, Vec<usize>) {
        let w = &mut *self;
        unsafe {
            WATCHED = watched;
            COUNT = 0;
            protect(CLOSED);
        }
        let mut step = call!(w, packet_window_iter, [], cell);
        unsafe {
            match wrong {
                None => (),
                Some(Wrong::ReadTwice) => drop(BLOCKS.add(3 * (cell / BLOCK_CELLS) as usize + 1).read_volatile()),
                Some(Wrong::OneFewer) => step.answer.fourth -= 1,
                Some(Wrong::LastPage) => drop(PAGES.add(w.page_words - 1).read_volatile()),
            }
            protect(OPEN);
            (step.answer, (0..COUNT).map(|at| SEEN[at]).collect())
        }
    }

    /// What is wrong with a step from the cell, or how many words it read.
    fn judge(&mut self, cell: u32, wrong: Option<Wrong>) -> Result<u32, String> {
        let (answer, seen) = self.step(cell, (unsafe { BLOCKS }, BLOCK_BYTES), wrong);
        let capacity = self.sequences.len() as u32;
        let found = (answer.code == PAIR).then(|| answer.third - 1);
        let due = reads_due(capacity, cell, found);
        let first = (cell / BLOCK_CELLS) as usize;
        let wanted: Vec<usize> = (first..first + due as usize).map(|block| 3 * block + 1).collect();
        let retired: Vec<usize> = seen.iter().copied().filter(|place| place % 3 == 1).collect();
        if retired != wanted || answer.fourth != due || seen.iter().any(|place| place / 3 < first || place / 3 >= first + due as usize) {
            return Err(format!("iter {cell} answers {answer:?}, reads the words {seen:?}; {due} retired words are due"));
        }
        Ok(due)
    }

    /// Whether the words say that page `page` holds a value and is not retired.
    fn is_live(&self, page: usize) -> bool {
        let (block, bit) = (page / 64, page % 64);
        let word = |at: usize| unsafe { BLOCKS.add(3 * block + at).read() };
        word(0) & !word(1) & (1 << bit) != 0 && self.header.retired_blocks & (1 << block) == 0
    }

    /// What is wrong with the page words that a step from the cell reads.
    fn judge_pages(&mut self, cell: u32, wrong: Option<Wrong>) -> Result<(), String> {
        let (answer, seen) = self.step(cell, (unsafe { PAGES }, PAGE_BYTES), wrong);
        let own = (cell as usize) < self.sequences.len() && self.is_live(cell as usize / 64);
        let own = own.then_some(cell as usize / 64);
        let found = (answer.code == PAIR).then(|| (answer.third as usize - 1) / 64);
        let read = |page: usize| seen.iter().any(|place| place / 3 == page);
        let due = [own, found];
        if !due.iter().flatten().all(|&page| read(page)) || seen.iter().any(|place| !due.contains(&Some(place / 3))) {
            return Err(format!("iter {cell} answers {answer:?}, reads the words {seen:?} of pages; those of {due:?} are due"));
        }
        Ok(())
    }
}

const EMPTY: Header = Header {
    window_size: 0, n: 0, demote_at: 0, len: 0, retired_held: 0, release_cursor: 0, base: 0, point: 0,
    nonempty_summary: 0, retired_blocks: 0, single_demotions: 0, range_demotions: 0, promotions: 0,
};

/// Windows with nothing live, with a value in some blocks, with dense pages, with pages and blocks retired.
fn fill(w: &mut Window, kind: usize) {
    let capacity = w.sequences.len() as u32;
    let every = |w: &mut Window, step: usize| (0..capacity).step_by(step).for_each(|sequence| w.insert(sequence));
    match kind {
        0 => (),
        1 => every(w, 1),
        2 => [0, capacity / 3, capacity - 1].into_iter().for_each(|sequence| w.insert(sequence)),
        3 => every(w, 5000),
        4 => {
            every(w, 7);
            w.retire_all();
        }
        5 => {
            every(w, 3);
            w.retire(0, capacity / 2 + 100);
        }
        _ => {
            every(w, 64);
            w.retire_all();
            [capacity / 2, capacity - 1].into_iter().for_each(|sequence| w.insert(sequence));
        }
    }
}

fn main() -> ExitCode {
    watch();
    let (mut steps, mut reads, mut wrong) = (0u64, 0u64, 0u64);
    for window_size in [1, 64, 65, 4096, 4097, 10000, 65536] {
        for kind in 0..7 {
            let mut w = Window::new(window_size);
            fill(&mut w, kind);
            let capacity = w.sequences.len() as u32;
            let edges = (0..=capacity).step_by(64).flat_map(|start| [start, start.saturating_sub(1), start + 17]);
            for cell in edges.chain([capacity + 1, u32::MAX]) {
                steps += 1;
                match w.judge(cell, None).and_then(|due| w.judge_pages(cell, None).map(|()| due)) {
                    Ok(due) => reads += u64::from(due),
                    Err(what) => {
                        wrong += 1;
                        eprintln!("window_size {window_size}, kind {kind}: {what}");
                    }
                }
                if wrong > 5 {
                    return ExitCode::FAILURE;
                }
            }
        }
    }
    let mut empty = Window::new(65536);
    let sixteen = empty.judge(0, None) == Ok(16);
    let noticed = [Wrong::ReadTwice, Wrong::OneFewer].into_iter().all(|wrong| empty.judge(0, Some(wrong)).is_err())
        && empty.judge_pages(0, Some(Wrong::LastPage)).is_err();
    println!(
        "words read: {steps} steps, each on watched block words and on watched page words; {reads} retired words read and told, {wrong} \
         wrong; an empty window of 65536 reads 16: {sixteen}; a word read twice, a read not told, a page read in vain are noticed: {noticed}"
    );
    ExitCode::from(u8::from(wrong > 0 || !sixteen || !noticed))
}
