//! The windows that are timed: the library, the library by its host forms, the source inlined, and the source behind a call
//! boundary. An answer is a number, the same for all.

use crate::declared::*;
use crate::window::AdaptiveReceiverPacketWindow;

pub const N: usize = 8;
pub const DEMOTE_AT: u32 = 4;

pub trait Window {
    fn new(window_size: u32) -> Self;
    fn insert(&mut self, sequence: u32, value: u32) -> u64;
    fn remove(&mut self, sequence: u32) -> u64;
    fn get(&self, sequence: u32) -> u64;
    fn successor_after(&self, sequence: u32) -> u64;
    fn first_from(&self, sequence: u32) -> u64;
    fn each(&self, pair: impl FnMut(u32, u32));
    fn remove_range(&mut self, first: u32, last: u32) -> u64;
    fn release_retired(&mut self, budget: u32) -> u64;
    fn clear(&mut self) -> u64;
    fn set_base(&mut self, base: u32) -> u64;
    /// The base's value removed; if there is one the base moves by one.
    fn take_front(&mut self) -> u64;
    /// The first sequence from the base that is not live: of the library a field of its header, of the source looked for.
    fn point(&self) -> u64;
    /// The loss list of first to last: of the source by a get of each sequence.
    fn write_losses(&self, words: &mut [u32], first: u32, last: u32) -> u64;
    /// What a loss list says of first to last: of the source by a plain reader, which takes other lists too.
    fn read_losses(&self, words: &[u32], lost: &mut [u8], first: u32, last: u32) -> u64;
}

/// The library's code of what release_retired answers.
const RELEASED: u32 = 6;

const REFUSED: u64 = 1 << 32;
const NEW: u64 = 2 << 32;
const REPLACED: u64 = 3 << 32;
pub const ABSENT: u64 = 4 << 32;
const FOUND: u64 = 5 << 32;
const NOTHING: u64 = 6 << 32;

/// Codes of the library that the source can answer, as numbers.
fn number(answer: NumberedAnswer) -> u64 {
    let kind = match answer.code {
        1 => NEW,
        2 => REPLACED,
        3 => ABSENT,
        4 => FOUND,
        _ => REFUSED,
    };
    kind | if kind == REFUSED { 0 } else { u64::from(answer.first) }
}

/// What a call answers that tells nothing.
fn done(answer: NumberedAnswer) -> u64 {
    if answer.code == DONE { NOTHING } else { REFUSED }
}

/// The sequence so many after a base.
fn after(base: u32, steps: u32) -> u32 {
    base.wrapping_add(steps) & 0x7fff_ffff
}

/// The first sequence from the base that `get` does not find, at most window_size from it.
#[inline(always)]
fn scanned(w: &impl Window, base: u32, window_size: u32) -> u64 {
    let mut reach = 0;
    while reach < window_size && w.get(after(base, reach)) != ABSENT {
        reach += 1;
    }
    u64::from(after(base, reach))
}

/// The top bit of a word of a loss list: a run that ends with the next word.
const TOP_BIT: u32 = 1 << 31;

/// The most words of a loss list for so many sequences.
pub fn loss_words(count: u32) -> usize {
    (count - count / 3) as usize
}

/// The loss list of the sequences of first to last that `is_live` does not find; how many words it has.
#[inline(always)]
pub fn listed(is_live: impl Fn(u32) -> bool, words: &mut [u32], first: u32, last: u32) -> usize {
    let count = after(last, 1u32.wrapping_sub(first));
    let (mut at, mut run) = (0, 0);
    for distance in 0..=count {
        if distance < count && !is_live(after(first, distance)) {
            run += 1;
            continue;
        }
        if run > 0 {
            words[at] = after(first, distance - run) | if run > 2 { TOP_BIT } else { 0 };
            if run > 1 {
                words[at + 1] = after(first, distance - 1);
            }
            at += run.min(2) as usize;
            run = 0;
        }
    }
    at
}

/// A plain reader: the bytes cleared, then set for each word; refused where a word is outside the range.
#[inline(always)]
fn set_from(words: &[u32], lost: &mut [u8], first: u32, last: u32) -> u64 {
    let bytes = &mut lost[..after(last, 1u32.wrapping_sub(first)) as usize];
    bytes.fill(0);
    let (mut number, mut begun) = (0, None);
    for &word in words {
        let at = after(word, 0u32.wrapping_sub(first)) as usize;
        if word >= TOP_BIT {
            begun = Some(at);
            continue;
        }
        let Some(run) = bytes.get_mut(begun.take().unwrap_or(at)..=at) else {
            return REFUSED;
        };
        run.fill(1);
        number += run.len() as u64;
    }
    FOUND | number
}

fn found(answer: Option<u32>) -> u64 {
    answer.map_or(ABSENT, |value| FOUND | u64::from(value))
}

/// A window over the library, in memory that was written before.
pub struct Library {
    header: Header,
    sequences: Vec<u32>,
    values: Vec<u32>,
    pages: Vec<u64>,
    blocks: Vec<u64>,
    returned: Vec<u32>,
}

/// The call `name` on the window `w`: the header, the lists (the return list too where values are dropped), the numbers.
macro_rules! call {
    ($w:ident, $name:ident, [$($list:ident),*], $($number:expr),*) => {
        unsafe { $name($w.header, $($w.$list.as_ptr().cast_mut(), $w.$list.len(),)* $($number),*) }
    };
    (&mut $w:ident, $name:ident, [$($list:ident),*], $($number:expr),*) => {
        unsafe { $name(&mut $w.header, $($w.$list.as_mut_ptr(), $w.$list.len(),)* $($number),*) }
    };
}

/// What a visit released.
fn released(answer: NumberedAnswer) -> u64 {
    if answer.code == RELEASED { u64::from(answer.first) } else { REFUSED }
}

impl Window for Library {
    fn new(window_size: u32) -> Self {
        let capacity = (window_size as usize).max(64).next_power_of_two();
        let pages = capacity / 64;
        let mut w = Self {
            header: Header::default(),
            sequences: vec![u32::MAX; capacity],
            values: vec![u32::MAX; capacity],
            pages: vec![u64::MAX; 3 * pages],
            blocks: vec![u64::MAX; 3 * pages.div_ceil(64)],
            returned: vec![u32::MAX; 384],
        };
        let step = unsafe {
            packet_window_new(
                w.sequences.as_mut_ptr(), capacity, w.values.as_mut_ptr(), capacity, w.pages.as_mut_ptr(), w.pages.len(),
                w.blocks.as_mut_ptr(), w.blocks.len(), window_size, N as u32, DEMOTE_AT,
            )
        };
        assert_eq!(step.answer.code, DONE);
        w.header = step.window;
        w
    }

    fn insert(&mut self, sequence: u32, value: u32) -> u64 {
        let w = self;
        let step = call!(w, packet_window_insert, [sequences, values, pages, blocks, returned], sequence, value);
        w.header = step.window;
        number(step.answer)
    }

    fn remove(&mut self, sequence: u32) -> u64 {
        let w = self;
        let step = call!(w, packet_window_remove, [sequences, values, pages, blocks], sequence);
        w.header = step.window;
        number(step.answer)
    }

    fn get(&self, sequence: u32) -> u64 {
        let w = self;
        number(call!(w, packet_window_get, [sequences, values, pages, blocks], sequence).answer)
    }

    fn successor_after(&self, sequence: u32) -> u64 {
        let w = self;
        number(call!(w, packet_window_successor_after, [sequences, values, pages, blocks], sequence).answer)
    }

    fn first_from(&self, sequence: u32) -> u64 {
        let w = self;
        number(call!(w, packet_window_first_from, [sequences, values, pages, blocks], sequence).answer)
    }

    fn each(&self, mut pair: impl FnMut(u32, u32)) {
        let w = self;
        let mut cell = 0;
        loop {
            let NumberedAnswer { code, first, second, third, .. } =
                call!(w, packet_window_iter, [sequences, values, pages, blocks], cell).answer;
            if code != PAIR {
                break;
            }
            pair(first, second);
            cell = third;
        }
    }

    fn remove_range(&mut self, first: u32, last: u32) -> u64 {
        let w = self;
        let step = call!(w, packet_window_remove_range, [sequences, values, pages, blocks, returned], first, last);
        w.header = step.window;
        number(step.answer)
    }

    fn release_retired(&mut self, budget: u32) -> u64 {
        let w = self;
        let step = call!(w, packet_window_release_retired, [sequences, values, pages, blocks, returned], budget);
        w.header = step.window;
        released(step.answer)
    }

    fn clear(&mut self) -> u64 {
        let w = self;
        let step = call!(w, packet_window_clear, [sequences, values, pages, blocks, returned],);
        w.header = step.window;
        done(step.answer)
    }

    fn set_base(&mut self, base: u32) -> u64 {
        let w = self;
        let step = call!(w, packet_window_set_base, [sequences, values, pages, blocks], base);
        w.header = step.window;
        done(step.answer)
    }

    fn take_front(&mut self) -> u64 {
        let w = self;
        let step = call!(w, packet_window_take_front, [sequences, values, pages, blocks],);
        w.header = step.window;
        number(step.answer)
    }

    fn point(&self) -> u64 {
        u64::from(self.header.point)
    }

    fn write_losses(&self, words: &mut [u32], first: u32, last: u32) -> u64 {
        let (w, places) = (self, words.len());
        number(call!(w, packet_window_write_losses, [sequences, values, pages, blocks], words.as_mut_ptr(), places, first, last).answer)
    }

    fn read_losses(&self, words: &[u32], lost: &mut [u8], first: u32, last: u32) -> u64 {
        let (w, list, length, bytes, places) = (self, words.as_ptr(), words.len(), lost.as_mut_ptr(), lost.len());
        number(call!(w, packet_window_read_losses, [sequences, values, pages, blocks], list, length, bytes, places, first, last).answer)
    }
}

/// The same by the host forms, for the calls that have one.
pub struct Host(Library);

impl Window for Host {
    fn new(window_size: u32) -> Self {
        Self(Library::new(window_size))
    }

    fn insert(&mut self, sequence: u32, value: u32) -> u64 {
        let w = &mut self.0;
        number(call!(&mut w, packet_window_host_insert, [sequences, values, pages, blocks, returned], sequence, value).answer)
    }

    fn remove(&mut self, sequence: u32) -> u64 {
        let w = &mut self.0;
        number(call!(&mut w, packet_window_host_remove, [sequences, values, pages, blocks], sequence).answer)
    }

    fn get(&self, sequence: u32) -> u64 {
        self.0.get(sequence)
    }

    fn successor_after(&self, sequence: u32) -> u64 {
        self.0.successor_after(sequence)
    }

    fn first_from(&self, sequence: u32) -> u64 {
        self.0.first_from(sequence)
    }

    fn each(&self, pair: impl FnMut(u32, u32)) {
        self.0.each(pair);
    }

    fn remove_range(&mut self, first: u32, last: u32) -> u64 {
        self.0.remove_range(first, last)
    }

    fn release_retired(&mut self, budget: u32) -> u64 {
        let w = &mut self.0;
        released(call!(&mut w, packet_window_host_release_retired, [sequences, values, pages, blocks, returned], budget).answer)
    }

    fn clear(&mut self) -> u64 {
        self.0.clear()
    }

    fn set_base(&mut self, base: u32) -> u64 {
        self.0.set_base(base)
    }

    fn take_front(&mut self) -> u64 {
        self.0.take_front()
    }

    fn point(&self) -> u64 {
        self.0.point()
    }

    fn write_losses(&self, words: &mut [u32], first: u32, last: u32) -> u64 {
        self.0.write_losses(words, first, last)
    }

    fn read_losses(&self, words: &[u32], lost: &mut [u8], first: u32, last: u32) -> u64 {
        self.0.read_losses(words, lost, first, last)
    }
}

/// The source, inlined as rustc likes, and a base beside it.
pub struct Inlined {
    window: AdaptiveReceiverPacketWindow<u32, N>,
    window_size: u32,
    base: u32,
}

impl Window for Inlined {
    fn new(window_size: u32) -> Self {
        Self { window: AdaptiveReceiverPacketWindow::new(window_size, DEMOTE_AT as usize), window_size, base: 0 }
    }

    fn insert(&mut self, sequence: u32, value: u32) -> u64 {
        match self.window.insert(sequence, value) {
            Ok(None) => NEW,
            Ok(Some(old)) => REPLACED | u64::from(old),
            Err(_) => REFUSED,
        }
    }

    fn remove(&mut self, sequence: u32) -> u64 {
        found(self.window.remove(sequence))
    }

    fn get(&self, sequence: u32) -> u64 {
        found(self.window.get(sequence).copied())
    }

    fn successor_after(&self, sequence: u32) -> u64 {
        found(self.window.successor_after(sequence))
    }

    fn first_from(&self, sequence: u32) -> u64 {
        found(self.window.first_from(sequence))
    }

    fn each(&self, mut pair: impl FnMut(u32, u32)) {
        for (sequence, value) in self.window.iter() {
            pair(sequence, *value);
        }
    }

    fn remove_range(&mut self, first: u32, last: u32) -> u64 {
        self.window.remove_range(first, last).map_or(REFUSED, |removed| FOUND | removed as u64)
    }

    fn release_retired(&mut self, budget: u32) -> u64 {
        self.window.release_retired(budget as usize) as u64
    }

    fn clear(&mut self) -> u64 {
        self.window.clear();
        NOTHING
    }

    fn set_base(&mut self, base: u32) -> u64 {
        self.base = base;
        NOTHING
    }

    fn take_front(&mut self) -> u64 {
        let answer = self.remove(self.base);
        if answer != ABSENT {
            self.base = after(self.base, 1);
        }
        answer
    }

    fn point(&self) -> u64 {
        scanned(self, self.base, self.window_size)
    }

    fn write_losses(&self, words: &mut [u32], first: u32, last: u32) -> u64 {
        FOUND | listed(|sequence| self.window.get(sequence).is_some(), words, first, last) as u64
    }

    fn read_losses(&self, words: &[u32], lost: &mut [u8], first: u32, last: u32) -> u64 {
        set_from(words, lost, first, last)
    }
}

/// The source with each call, for iter each step, behind a call boundary.
pub struct Called(Inlined);

#[inline(never)]
fn stepped<I: Iterator>(iterator: &mut I) -> Option<I::Item> {
    iterator.next()
}

impl Window for Called {
    fn new(window_size: u32) -> Self {
        Self(Inlined::new(window_size))
    }

    #[inline(never)]
    fn insert(&mut self, sequence: u32, value: u32) -> u64 {
        self.0.insert(sequence, value)
    }

    #[inline(never)]
    fn remove(&mut self, sequence: u32) -> u64 {
        self.0.remove(sequence)
    }

    #[inline(never)]
    fn get(&self, sequence: u32) -> u64 {
        self.0.get(sequence)
    }

    #[inline(never)]
    fn successor_after(&self, sequence: u32) -> u64 {
        self.0.successor_after(sequence)
    }

    #[inline(never)]
    fn first_from(&self, sequence: u32) -> u64 {
        self.0.first_from(sequence)
    }

    fn each(&self, mut pair: impl FnMut(u32, u32)) {
        let mut pairs = self.0.window.iter();
        while let Some((sequence, value)) = stepped(&mut pairs) {
            pair(sequence, *value);
        }
    }

    #[inline(never)]
    fn remove_range(&mut self, first: u32, last: u32) -> u64 {
        self.0.remove_range(first, last)
    }

    #[inline(never)]
    fn release_retired(&mut self, budget: u32) -> u64 {
        self.0.release_retired(budget)
    }

    #[inline(never)]
    fn clear(&mut self) -> u64 {
        self.0.clear()
    }

    fn set_base(&mut self, base: u32) -> u64 {
        self.0.set_base(base)
    }

    #[inline(never)]
    fn take_front(&mut self) -> u64 {
        self.0.take_front()
    }

    fn point(&self) -> u64 {
        scanned(self, self.0.base, self.0.window_size)
    }

    fn write_losses(&self, words: &mut [u32], first: u32, last: u32) -> u64 {
        FOUND | listed(|sequence| self.get(sequence) != ABSENT, words, first, last) as u64
    }

    #[inline(never)]
    fn read_losses(&self, words: &[u32], lost: &mut [u8], first: u32, last: u32) -> u64 {
        self.0.read_losses(words, lost, first, last)
    }
}
