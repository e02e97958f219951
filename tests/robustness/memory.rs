//! A header and the five lists that a window is lent, between guard regions; the header too, as a list of words, for calls that take
//! its start; and the two lists of loss reports.

use crate::calls::Random;
use crate::declared::Header;
use crate::guarded::{Flush, List, Mappings};

pub const SEQUENCES: usize = 0;
pub const VALUES: usize = 1;
pub const PAGES: usize = 2;
pub const BLOCKS: usize = 3;
pub const RETURNED: usize = 4;
pub const HEADER: usize = 5;
pub const WORDS: usize = 6;
pub const LOST: usize = 7;
pub const LISTS: usize = 8;

pub const NAMES: [&str; LISTS] = ["sequences", "values", "pages", "blocks", "returned", "the header", "words", "lost"];
const ELEMENT: [usize; LISTS] = [4, 4, 8, 8, 4, 8, 4, 1];

pub const LARGEST_WINDOW: u32 = 65536;

pub fn capacity(window_size: u32) -> usize {
    (window_size as usize).max(64).next_power_of_two()
}

/// The most words of the loss list of so many sequences.
pub fn most_words(count: u32) -> usize {
    (count - count / 3) as usize
}

/// The lengths that document 01 names, for a window_size within the limits; the lists of loss reports are long enough for any range.
pub fn named(window_size: u32) -> [usize; LISTS] {
    let capacity = capacity(window_size);
    let pages = capacity / 64;
    let header = size_of::<Header>() / 8;
    [capacity, capacity, 3 * pages, 3 * pages.div_ceil(64), 384, header, most_words(capacity as u32), capacity]
}

/// The lists as a call is lent them.
#[derive(Clone, Copy)]
pub struct Lent {
    pub starts: [*mut u8; LISTS],
    pub lengths: [usize; LISTS],
}

pub struct Memory {
    pub header: Header,
    pub lists: [List; LISTS],
}

impl Memory {
    /// Memory for a window_size: lists of the named lengths and some elements more.
    pub fn new(mappings: &mut Mappings, random: &mut Random, window_size: u32) -> Self {
        let named = named(window_size);
        let lists = std::array::from_fn(|list| {
            let flush = if random.percent(70) { Flush::After } else { Flush::Before };
            let more = random.pick(&[0, 0, 0, 1, 1, 5]);
            List::new(mappings, list, ELEMENT[list], named[list] + more, flush)
        });
        Self { header: Header::default(), lists }
    }

    pub fn lengths(&self) -> [usize; LISTS] {
        std::array::from_fn(|list| self.lists[list].count())
    }

    /// The lists lent by `lengths`, those in `writable` to be written.
    pub fn lent(&self, lengths: [usize; LISTS], writable: &[usize]) -> Lent {
        let starts = std::array::from_fn(|list| self.lists[list].lent(lengths[list], writable.contains(&list)));
        Lent { starts, lengths }
    }

    /// The header put where a call that takes its start finds it.
    pub fn place_header(&mut self, header: Header) {
        let place = &mut self.lists[HEADER];
        unsafe { place.lent(place.count(), true).cast::<Header>().write(header) };
        place.remember();
    }

    pub fn remember(&mut self, lists: &[usize]) {
        lists.iter().for_each(|&list| self.lists[list].remember());
    }
}
