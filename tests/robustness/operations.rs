//! The calls of the static library, one line each, and which refusal the arguments of a call decide.

use crate::declared::*;
use crate::memory::{named, Lent, BLOCKS, HEADER, LARGEST_WINDOW, LISTS, LOST, PAGES, RETURNED, SEQUENCES, VALUES, WORDS};

pub const OCCUPIED: u32 = 4;
pub const RANGE_COUNT: u32 = 5;
pub const SHORT_MEMORY: u32 = 6;
pub const UNSOUND: u32 = 7;
pub const BUDGET: u32 = 8;
pub const BASE: u32 = 9;
pub const SEQUENCE: u32 = 10;
pub const SHORT_LIST: u32 = 11;
pub const LOSS_LIST: u32 = 12;
/// The refusals are numbered from 1 to this.
pub const REFUSALS: u32 = 12;

pub const LARGEST_BUDGET: u32 = 256;

/// What a call's numbers are.
#[derive(Clone, Copy, PartialEq, Eq)]
pub enum Numbers {
    /// window_size, N, demote_at
    Window,
    Sequence,
    SequenceAndValue,
    Range,
    Budget,
    Cell,
    Base,
    None,
}

pub struct Operation {
    pub name: &'static str,
    pub make: fn(Header, &Lent, [u32; 3]) -> NumberedStep,
    pub numbers: Numbers,
    /// The lists that it may write; with the return list, it takes one, and with the bytes of losses a list of words to read.
    pub writes: &'static [usize],
    /// The codes that it answers with, but for a refusal.
    pub codes: &'static [u32],
}

/// `new`, which takes no header.
macro_rules! created {
    ($call:ident) => {
        |_, m, n| unsafe {
            $call(
                m.starts[SEQUENCES].cast(), m.lengths[SEQUENCES], m.starts[VALUES].cast(), m.lengths[VALUES],
                m.starts[PAGES].cast(), m.lengths[PAGES], m.starts[BLOCKS].cast(), m.lengths[BLOCKS],
                n[0], n[1], n[2],
            )
        }
    };
}

/// A call on the header, four lists and the numbers.
macro_rules! plain {
    ($call:ident $(, $number:literal)*) => {
        |w, m, _n| unsafe {
            $call(
                w, m.starts[SEQUENCES].cast(), m.lengths[SEQUENCES], m.starts[VALUES].cast(), m.lengths[VALUES],
                m.starts[PAGES].cast(), m.lengths[PAGES], m.starts[BLOCKS].cast(), m.lengths[BLOCKS],
                $(_n[$number]),*
            )
        }
    };
}

/// The same with more lists.
macro_rules! listed {
    ($call:ident, [$($list:ident),*] $(, $number:literal)*) => {
        |w, m, _n| unsafe {
            $call(
                w, m.starts[SEQUENCES].cast(), m.lengths[SEQUENCES], m.starts[VALUES].cast(), m.lengths[VALUES],
                m.starts[PAGES].cast(), m.lengths[PAGES], m.starts[BLOCKS].cast(), m.lengths[BLOCKS],
                $(m.starts[$list].cast(), m.lengths[$list],)* $(_n[$number]),*
            )
        }
    };
}

/// A host form, which takes the header's start and updates it; the return list if it has one.
macro_rules! hosted {
    ($call:ident, [$($returned:ident)?] $(, $number:literal)*) => {
        |_, m, n| unsafe {
            let header = m.starts[HEADER].cast::<Header>();
            let NumberedOutcome { answer, count } = $call(
                header, m.starts[SEQUENCES].cast(), m.lengths[SEQUENCES], m.starts[VALUES].cast(), m.lengths[VALUES],
                m.starts[PAGES].cast(), m.lengths[PAGES], m.starts[BLOCKS].cast(), m.lengths[BLOCKS],
                $(m.starts[$returned].cast(), m.lengths[$returned],)? $(n[$number]),*
            );
            NumberedStep { window: header.read(), answer, count }
        }
    };
}

const fn operation(
    name: &'static str,
    make: fn(Header, &Lent, [u32; 3]) -> NumberedStep,
    numbers: Numbers,
    writes: &'static [usize],
    codes: &'static [u32],
) -> Operation {
    Operation { name, make, numbers, writes, codes }
}

const WINDOW: &[usize] = &[SEQUENCES, VALUES, PAGES, BLOCKS];
const ALL: &[usize] = &[SEQUENCES, VALUES, PAGES, BLOCKS, RETURNED];
const RELEASING: &[usize] = &[PAGES, BLOCKS, RETURNED];
const HOST_WINDOW: &[usize] = &[SEQUENCES, VALUES, PAGES, BLOCKS, HEADER];
const HOST_ALL: &[usize] = &[SEQUENCES, VALUES, PAGES, BLOCKS, RETURNED, HEADER];
const HOST_RELEASING: &[usize] = &[PAGES, BLOCKS, RETURNED, HEADER];

pub static OPERATIONS: &[Operation] = &[
    operation("new", created!(packet_window_new), Numbers::Window, &[PAGES, BLOCKS], &[DONE]),
    operation("get", plain!(packet_window_get, 0), Numbers::Sequence, &[], &[ABSENT, FOUND]),
    operation("successor_after", plain!(packet_window_successor_after, 0), Numbers::Sequence, &[], &[ABSENT, FOUND]),
    operation("first_from", plain!(packet_window_first_from, 0), Numbers::Sequence, &[], &[ABSENT, FOUND]),
    operation("iter", plain!(packet_window_iter, 0), Numbers::Cell, &[], &[DONE, PAIR]),
    operation("stranger", plain!(packet_window_stranger, 0, 1), Numbers::Range, &[], &[ABSENT, PAIR]),
    operation("check", plain!(packet_window_check), Numbers::None, &[], &[DONE]),
    operation("exchange", plain!(packet_window_exchange, 0, 1), Numbers::SequenceAndValue, &[VALUES], &[ABSENT, FOUND]),
    operation("remove", plain!(packet_window_remove, 0), Numbers::Sequence, WINDOW, &[ABSENT, FOUND]),
    operation("set_base", plain!(packet_window_set_base, 0), Numbers::Base, &[], &[DONE]),
    operation("take_front", plain!(packet_window_take_front), Numbers::None, WINDOW, &[ABSENT, FOUND]),
    operation("insert", listed!(packet_window_insert, [RETURNED], 0, 1), Numbers::SequenceAndValue, ALL, &[NEW, REPLACED]),
    operation("remove_range", listed!(packet_window_remove_range, [RETURNED], 0, 1), Numbers::Range, ALL, &[FOUND]),
    operation("release_retired", listed!(packet_window_release_retired, [RETURNED], 0), Numbers::Budget, RELEASING, &[RELEASED]),
    operation("clear", listed!(packet_window_clear, [RETURNED]), Numbers::None, RELEASING, &[DONE]),
    operation("clear_bounded", listed!(packet_window_clear_bounded, [RETURNED], 0), Numbers::Budget, RELEASING, &[FOUND]),
    operation("write_losses", listed!(packet_window_write_losses, [WORDS], 0, 1), Numbers::Range, &[WORDS], &[FOUND]),
    operation("read_losses", listed!(packet_window_read_losses, [WORDS, LOST], 0, 1), Numbers::Range, &[LOST], &[FOUND]),
    operation("host_insert", hosted!(packet_window_host_insert, [RETURNED], 0, 1), Numbers::SequenceAndValue, HOST_ALL, &[NEW, REPLACED]),
    operation("host_remove", hosted!(packet_window_host_remove, [], 0), Numbers::Sequence, HOST_WINDOW, &[ABSENT, FOUND]),
    operation("host_release_retired", hosted!(packet_window_host_release_retired, [RETURNED], 0), Numbers::Budget, HOST_RELEASING, &[RELEASED]),
];

/// The call of that name, if the library has it.
pub fn find(name: &str) -> Option<&'static Operation> {
    OPERATIONS.iter().find(|operation| operation.name == name)
}

/// The call of that name; if asked for, and there is one, its host form.
pub fn form(name: &str, by_start: bool) -> Option<&'static Operation> {
    let mut host_forms = OPERATIONS.iter().filter(|operation| by_start && operation.by_start());
    host_forms.find(|operation| operation.call() == name).or_else(|| find(name))
}

impl Operation {
    pub fn with_list(&self) -> bool {
        self.writes.contains(&RETURNED)
    }

    /// It takes the header's start.
    pub fn by_start(&self) -> bool {
        self.writes.contains(&HEADER)
    }

    /// The name of the call that it is a form of.
    pub fn call(&self) -> &'static str {
        self.name.trim_start_matches("host_")
    }

    pub fn is_new(&self) -> bool {
        self.numbers == Numbers::Window
    }

    pub fn is_check(&self) -> bool {
        self.name == "check"
    }

    /// It writes a loss list.
    pub fn writes_losses(&self) -> bool {
        self.writes.contains(&WORDS)
    }

    /// It reads a loss list.
    pub fn reads_losses(&self) -> bool {
        self.writes.contains(&LOST)
    }

    pub fn is_report(&self) -> bool {
        self.writes_losses() || self.reads_losses()
    }

    /// Whether the list is one that calls of its kind are lent; those of loss reports are lent to these alone.
    pub fn takes(&self, list: usize) -> bool {
        match list {
            WORDS => self.is_report(),
            LOST => self.reads_losses(),
            _ => true,
        }
    }

    /// By how much it may raise single_demotions, and range_demotions, at most: a range ends in two pages of which it takes a part.
    pub fn most_demotions(&self) -> [u64; 2] {
        match self.call() {
            "remove" | "take_front" => [1, 0],
            "remove_range" => [0, 2],
            _ => [0, 0],
        }
    }

    /// It writes no list of the window, and leaves the header.
    pub fn keeps_window(&self) -> bool {
        (self.writes.is_empty() || self.is_report()) && self.numbers != Numbers::Base
    }
}

/// One call with all that it is given but the lists' contents.
#[derive(Clone, Copy)]
pub struct Call {
    pub operation: &'static Operation,
    pub header: Header,
    pub lengths: [usize; LISTS],
    pub numbers: [u32; 3],
}

/// Refusals 1 to 3.
fn limits(window_size: u32, n: u32, demote_at: u32) -> Option<u32> {
    if !(1..=LARGEST_WINDOW).contains(&window_size) {
        return Some(1);
    }
    if !(1..=63).contains(&n) {
        return Some(2);
    }
    (demote_at > n).then_some(3)
}

/// It has its top bit set, which no sequence on the wire has.
pub fn is_wide(number: u32) -> bool {
    number >> 31 == 1
}

/// The sequence so many after a base.
pub fn after_base(base: u32, steps: u32) -> u32 {
    base.wrapping_add(steps) & 0x7fff_ffff
}

/// By how much a call raised single_demotions, and range_demotions, which wrap.
pub fn demotions_counted(before: Header, after: Header) -> [u64; 2] {
    [
        after.single_demotions.wrapping_sub(before.single_demotions),
        after.range_demotions.wrapping_sub(before.range_demotions),
    ]
}

/// The positions of a range.
pub fn range_count(first: u32, last: u32) -> u32 {
    (last.wrapping_sub(first) & 0x7fff_ffff) + 1
}

impl Call {
    /// Whether a list that the call takes is shorter than named.
    fn short(&self) -> bool {
        let named = self.named();
        let taken = if self.operation.with_list() { 5 } else { 4 };
        (0..taken).any(|list| self.lengths[list] < named[list])
    }

    /// The numbers that are sequences, first or last of a range among them. A base is none.
    fn sequences(&self) -> &[u32] {
        match self.operation.numbers {
            Numbers::Sequence | Numbers::SequenceAndValue => &self.numbers[..1],
            Numbers::Range => &self.numbers[..2],
            Numbers::Window | Numbers::Budget | Numbers::Cell | Numbers::Base | Numbers::None => &[],
        }
    }

    /// The sequences of its range.
    pub fn range_count(&self) -> u32 {
        range_count(self.numbers[0], self.numbers[1])
    }

    /// Whether a loss list is to be read into fewer bytes than the range has sequences.
    fn short_list(&self) -> bool {
        self.operation.reads_losses() && self.lengths[LOST] < self.range_count() as usize
    }

    /// The refusal that header, lengths and numbers decide, by document 01's 'Refusal by operation' and document 02.
    pub fn refusal(&self) -> Option<u32> {
        let [first, second, third] = self.numbers;
        let Header { window_size, n, demote_at, .. } = self.header;
        if self.operation.is_new() {
            return limits(first, second, third).or_else(|| self.short().then_some(SHORT_MEMORY));
        }
        if limits(window_size, n, demote_at).is_some() || self.short() {
            return Some(SHORT_MEMORY);
        }
        if self.sequences().iter().any(|&number| is_wide(number)) {
            return Some(SEQUENCE);
        }
        match self.operation.numbers {
            Numbers::Range if self.range_count() > window_size => Some(RANGE_COUNT),
            Numbers::Range => self.short_list().then_some(SHORT_LIST),
            Numbers::Budget => (first > LARGEST_BUDGET).then_some(BUDGET),
            Numbers::Base => is_wide(first).then_some(BASE),
            _ => None,
        }
    }

    /// The window_size that names the lengths.
    pub fn window_size(&self) -> u32 {
        if self.operation.is_new() {
            self.numbers[0]
        } else {
            self.header.window_size
        }
    }

    /// The lengths that are named for a call that the arguments do not refuse.
    pub fn named(&self) -> [usize; LISTS] {
        named(self.window_size())
    }
}
