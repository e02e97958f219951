//! The window: its header, the memory that it is lent, and the calls.

use crate::answers::{self, Inserted, Outcome, Refusal, Released, Step};
use crate::memory::{capacity, Memory, RETURN_PLACES, VERSION};
use crate::raw::{self, Header, NumberedAnswer, NumberedStep};
use core::iter::FusedIterator;

/// A packet window over lent memory, which is the window's alone while it lives. Dropping a window hands no value back: first
/// [`Window::clear`] it, then [`Window::release_retired`] until [`Window::retired_held`] is 0.
///
/// Any call may answer [`Refusal::Unsound`] if something other than the window wrote its memory, and no call does otherwise.
#[derive(Debug)]
pub struct Window<'m> {
    header: Header,
    memory: Memory<'m>,
}

/// A call that writes nothing of the window: its answer.
macro_rules! reading {
    ($window:expr, $call:ident($($argument:expr),*)) => {{
        let Window { header, memory: Memory { sequences: s, values: v, pages: p, blocks: b, .. } } = $window;
        // SAFETY: each start and length is a slice's, which is borrowed here; the call writes none of the window's.
        let step: NumberedStep = unsafe {
            raw::$call(*header, s.as_ptr(), s.len(), v.as_ptr(), v.len(), p.as_ptr(), p.len(), b.as_ptr(), b.len() $(, $argument)*)
        };
        step.answer
    }};
}

/// A call that writes the window: the header that it gives back is kept.
macro_rules! writing {
    ($window:expr, $call:ident($($argument:expr),*)) => {{
        let Window { header, memory: Memory { sequences: s, values: v, pages: p, blocks: b, .. } } = $window;
        // SAFETY: each start and length is a slice's, which is borrowed here exclusively.
        let step: NumberedStep = unsafe {
            raw::$call(
                *header, s.as_mut_ptr(), s.len(), v.as_mut_ptr(), v.len(), p.as_mut_ptr(), p.len(), b.as_mut_ptr(), b.len()
                $(, $argument)*
            )
        };
        *header = step.window;
        step
    }};
}

/// A call that writes the window and takes the return list.
macro_rules! returning {
    ($window:expr, $call:ident($($argument:expr),*)) => {{
        let (start, places) = ($window.memory.returned.as_mut_ptr(), $window.memory.returned.len());
        writing!($window, $call(start, places $(, $argument)*))
    }};
}

/// The version of the library that is linked, as 10000 × major + 100 × minor + patch.
pub fn library_version() -> u32 {
    // SAFETY: it takes nothing and gives a number.
    unsafe { raw::packet_window_version() }
}

/// With a library of another version the header's fields and the lengths may be others, so that no call may be made.
fn same_version() {
    assert_eq!(library_version(), VERSION, "libpacket_window.a is of another version than this wrapper");
}

impl<'m> Window<'m> {
    /// An empty window. `n`: the cells of a sparse page, 1 to 63; a page with more values becomes dense. `demote_at`: a dense page that
    /// a removal leaves with this many values or fewer becomes sparse again; at most `n`, and 0 for never. Neither changes what `insert`,
    /// `get`, `exchange`, `remove`, `set_base`, `take_front`, `successor_after`, `first_from`, `remove_range`, `write_losses` and
    /// `read_losses` answer.
    ///
    /// Refused, in this order: `WindowSize`, `SparseCells`, `DemoteAt`, `ShortMemory`. The memory then stays as it was.
    ///
    /// # Panics
    ///
    /// If the library that is linked is of another version than [`VERSION`].
    pub fn new(memory: Memory<'m>, window_size: u32, n: u32, demote_at: u32) -> Result<Self, Refusal> {
        same_version();
        let Memory { sequences: s, values: v, pages: p, blocks: b, returned } = memory;
        // The library's new takes no return list: a short one is refused as short block words are.
        let block_words = if returned.len() < RETURN_PLACES { 0 } else { b.len() };
        // SAFETY: each start and length is a slice's or less, which is borrowed here exclusively.
        let step = unsafe {
            raw::packet_window_new(
                s.as_mut_ptr(), s.len(), v.as_mut_ptr(), v.len(), p.as_mut_ptr(), p.len(), b.as_mut_ptr(), block_words,
                window_size, n, demote_at,
            )
        };
        answers::done(step.answer)?;
        let memory = Memory { sequences: s, values: v, pages: p, blocks: b, returned };
        Ok(Self { header: step.window, memory })
    }

    /// A window again from the parts that [`Window::into_parts`] gave, which [`Window::check`] must find sound. The header must be the
    /// last that the window in this memory had: with an older one, values may be handed back twice or never.
    ///
    /// Refused: `ShortMemory`, also for a header that no `new` gave; `Unsound`.
    ///
    /// # Panics
    ///
    /// As [`Window::new`].
    pub fn from_parts(header: Header, memory: Memory<'m>) -> Result<Self, Refusal> {
        same_version();
        if memory.returned.len() < RETURN_PLACES {
            return Err(Refusal::ShortMemory);
        }
        let window = Self { header, memory };
        window.check()?;
        Ok(window)
    }

    /// The header and the memory, which hold the window's values until [`Window::from_parts`] makes a window of them.
    pub fn into_parts(self) -> (Header, Memory<'m>) {
        (self.header, self.memory)
    }

    /// Puts a value at a sequence. If its page is retired, the retired values of that page are returned first.
    ///
    /// Refused, in this order: `Sequence`, `Occupied`. The value then stays with the caller.
    pub fn insert(&mut self, sequence: u32, value: u32) -> Outcome<'_, Inserted> {
        let step = returning!(self, packet_window_insert(sequence, value));
        self.outcome(step, answers::inserted)
    }

    /// The value of a sequence.
    ///
    /// Refused: `Sequence`.
    pub fn get(&self, sequence: u32) -> Result<Option<u32>, Refusal> {
        answers::found(reading!(self, packet_window_get(sequence)))
    }

    /// Puts a value in place of the one that the sequence has, and hands that back; or none, and the new value stays with the caller.
    ///
    /// Refused: `Sequence`, and the new value stays with the caller.
    pub fn exchange(&mut self, sequence: u32, value: u32) -> Result<Option<u32>, Refusal> {
        answers::found(writing!(self, packet_window_exchange(sequence, value)).answer)
    }

    /// Removes the value of a sequence and hands it back.
    ///
    /// Refused: `Sequence`.
    pub fn remove(&mut self, sequence: u32) -> Result<Option<u32>, Refusal> {
        answers::found(writing!(self, packet_window_remove(sequence)).answer)
    }

    /// Sets the base, forwards or backwards, also away from all values. Nothing is removed. Up to the point it takes a bounded number of
    /// steps; to any other sequence, the live ones from there on are passed over.
    ///
    /// Refused: `Base`.
    pub fn set_base(&mut self, base: u32) -> Result<(), Refusal> {
        answers::done(writing!(self, packet_window_set_base(base)).answer)
    }

    /// Removes the value of the base, hands it back and moves the base by one, modulo 2^31. If the base has none, nothing moves.
    pub fn take_front(&mut self) -> Result<Option<u32>, Refusal> {
        answers::found(writing!(self, packet_window_take_front()).answer)
    }

    /// The first live sequence by position, from the position after the given sequence's, round the capacity, to its own last of all.
    ///
    /// Refused: `Sequence`.
    pub fn successor_after(&self, sequence: u32) -> Result<Option<u32>, Refusal> {
        answers::found(reading!(self, packet_window_successor_after(sequence)))
    }

    /// The first live sequence by position, from the given sequence's own, round the capacity.
    ///
    /// Refused: `Sequence`.
    pub fn first_from(&self, sequence: u32) -> Result<Option<u32>, Refusal> {
        answers::found(reading!(self, packet_window_first_from(sequence)))
    }

    /// Removes the values at the positions of first to last, whatever their sequences are, and releases with a budget of 256. Answers
    /// how many of them were live. What is not returned by this call stays retired.
    ///
    /// Refused, in this order: `Sequence`, `RangeCount`.
    pub fn remove_range(&mut self, first: u32, last: u32) -> Outcome<'_, u32> {
        let step = returning!(self, packet_window_remove_range(first, last));
        self.outcome(step, answers::number)
    }

    /// Hands retired values back, within a budget of 0 to 256 units: one for each page inspected and one for each value.
    ///
    /// A budget may be split: a and then b, a + b at most 256 and no other call between, hand back the values that a + b would, in
    /// its order, save perhaps its last one, which stays held. A larger budget hands back what a smaller one would, in its order,
    /// and then perhaps more.
    ///
    /// Refused: `Budget`.
    pub fn release_retired(&mut self, budget: u32) -> Outcome<'_, Released> {
        let step = returning!(self, packet_window_release_retired(budget));
        self.outcome(step, answers::released)
    }

    /// Retires all values and releases with a budget of 256. What is not returned by this call stays retired.
    pub fn clear(&mut self) -> Outcome<'_, ()> {
        let step = returning!(self, packet_window_clear());
        self.outcome(step, answers::done)
    }

    /// Retires all values and hands back as many as are held, at most `number`, which is 0 to 256. Answers how many.
    ///
    /// Refused: `Budget`.
    pub fn clear_bounded(&mut self, number: u32) -> Outcome<'_, u32> {
        let step = returning!(self, packet_window_clear_bounded(number));
        self.outcome(step, answers::number)
    }

    /// One step over the live pairs, in the order of pages, then of cells: the next from a cell on. Begin with cell 0 and go on with the
    /// cell that comes with the pair. On entering a block the step reads the block's retired word, once; the answer has the number of
    /// these reads: 1 to 16, and 0 from a cell of the capacity or more.
    pub fn step(&self, cell: u32) -> Result<Step, Refusal> {
        answers::stepped(reading!(self, packet_window_iter(cell)))
    }

    /// The live pairs, sequence and value, in the order of pages, then of cells: `step` from cell 0 until none is left.
    pub fn iter(&self) -> Iter<'_, 'm> {
        Iter { window: self, cell: Some(0) }
    }

    /// A live pair, sequence and value, at a position of first to last whose sequence is none of the range's; none exactly if there is
    /// none.
    ///
    /// Refused, in this order: `Sequence`, `RangeCount`.
    pub fn stranger(&self, first: u32, last: u32) -> Result<Option<(u32, u32)>, Refusal> {
        answers::pair(reading!(self, packet_window_stranger(first, last)))
    }

    /// The loss list of the sequences of first to last that are not live, as `get` tells: the words written, from the first place of
    /// `words` on. [`loss_words`] of the range's sequences are always enough places; fewer may be. What lies past the words stays.
    ///
    /// Refused, in this order: `Sequence`, `RangeCount`, `ShortList`. Then `words` stays as it was.
    ///
    /// [`loss_words`]: crate::loss_words
    pub fn write_losses<'l>(&self, first: u32, last: u32, words: &'l mut [u32]) -> Result<&'l [u32], Refusal> {
        let (start, places) = (words.as_mut_ptr(), words.len());
        let count = answers::number(reading!(self, packet_window_write_losses(start, places, first, last)))?;
        Ok(&words[..count as usize])
    }

    /// What the whole list `words` says of the sequences of first to last: into `lost`, a byte for each, 1 if it is lost and 0 if not.
    /// Answers how many are lost; by an empty list none is. What lies past the bytes stays. Nothing of the window but its size counts.
    ///
    /// Refused, in this order: `Sequence`, `RangeCount`, `ShortList`, `LossList`. Then `lost` stays as it was.
    pub fn read_losses(&self, first: u32, last: u32, words: &[u32], lost: &mut [u8]) -> Result<u32, Refusal> {
        let (start, places) = (lost.as_mut_ptr(), lost.len());
        answers::number(reading!(self, packet_window_read_losses(words.as_ptr(), words.len(), start, places, first, last)))
    }

    /// Whether the state is sound. It looks at every page.
    ///
    /// Refused: `Unsound`, exactly if it is not.
    pub fn check(&self) -> Result<(), Refusal> {
        answers::done(reading!(self, packet_window_check()))
    }

    /// Live values.
    pub fn len(&self) -> u32 {
        self.header.len
    }

    /// Whether no value is live.
    pub fn is_empty(&self) -> bool {
        self.header.len == 0
    }

    /// Retired values still held.
    pub fn retired_held(&self) -> u32 {
        self.header.retired_held
    }

    /// Whether retired values are held.
    pub fn has_retired(&self) -> bool {
        self.header.retired_held != 0
    }

    /// Whether no value, live or retired, is held.
    pub fn is_released(&self) -> bool {
        self.is_empty() && !self.has_retired()
    }

    /// Where [`Window::point`] is looked for from: 0 in a new window.
    pub fn base(&self) -> u32 {
        self.header.base
    }

    /// The first sequence from the base, in 31-bit circular order, that is not live; if the window_size sequences from the base are all
    /// live, the base plus window_size, modulo 2^31.
    pub fn point(&self) -> u32 {
        self.header.point
    }

    /// Pages that became dense, modulo 2^64.
    pub fn promotions(&self) -> u64 {
        self.header.promotions
    }

    /// Pages that became sparse again, modulo 2^64: the sum of [`Window::single_demotions`] and [`Window::range_demotions`].
    pub fn demotions(&self) -> u64 {
        self.single_demotions().wrapping_add(self.range_demotions())
    }

    /// Pages that became sparse again because [`Window::remove`] or [`Window::take_front`] took a value from them, modulo 2^64.
    pub fn single_demotions(&self) -> u64 {
        self.header.single_demotions
    }

    /// Pages that became sparse again because [`Window::remove_range`] took values from them, modulo 2^64.
    pub fn range_demotions(&self) -> u64 {
        self.header.range_demotions
    }

    /// As given to `new`.
    pub fn window_size(&self) -> u32 {
        self.header.window_size
    }

    /// Positions: two sequences with the same remainder by it share one.
    pub fn capacity(&self) -> usize {
        capacity(self.header.window_size)
    }

    /// The header as the last call left it.
    pub fn header(&self) -> &Header {
        &self.header
    }

    fn outcome<T>(&self, step: NumberedStep, read: fn(NumberedAnswer) -> Result<T, Refusal>) -> Outcome<'_, T> {
        Outcome {
            answer: read(step.answer),
            returned: &self.memory.returned[..step.count as usize],
        }
    }
}

/// The live pairs of a window. It ends after a refusal.
#[derive(Debug, Clone)]
pub struct Iter<'w, 'm> {
    window: &'w Window<'m>,
    cell: Option<u32>,
}

impl Iterator for Iter<'_, '_> {
    type Item = Result<(u32, u32), Refusal>;

    fn next(&mut self) -> Option<Self::Item> {
        let cell = self.cell.take()?;
        match self.window.step(cell) {
            Ok(step) => {
                let pair = step.next?;
                // A cell that does not rise can come of an unsound state only.
                if pair.cell <= cell {
                    return Some(Err(Refusal::Unsound));
                }
                self.cell = Some(pair.cell);
                Some(Ok((pair.sequence, pair.value)))
            }
            Err(refusal) => Some(Err(refusal)),
        }
    }
}

impl FusedIterator for Iter<'_, '_> {}

impl<'w, 'm> IntoIterator for &'w Window<'m> {
    type Item = Result<(u32, u32), Refusal>;
    type IntoIter = Iter<'w, 'm>;

    fn into_iter(self) -> Self::IntoIter {
        self.iter()
    }
}
