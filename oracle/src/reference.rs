//! The calls of documents 01 and 02, answered by the unchanged source.
//!
//! The source takes N as a const parameter; a trait object hides it, with one
//! instance for each N from 1 to 63. What the source lacks or answers with a
//! panic is worked out here: refusals 1, 2, 3, 8, 9 and 10, the units of
//! release_retired, stranger, the base and its point, demotions by cause. The
//! source takes sequences of 32 bits; it is asked for those of 31 alone.

use crate::line::Call;
use crate::value::{take_dropped, Value};
use crate::window::{
    AdaptiveReceiverPacketWindow, PageWords, WindowHeader, MAX_RETIRED_RELEASED_PER_VISIT,
};

const DISTANCE_MASK: u32 = 0x7fff_ffff;
const TOP_BIT: u32 = 1 << 31;

/// What one call answers, beside the counts and the dropped values.
#[derive(Debug, Clone, PartialEq, Eq)]
pub enum Answer {
    Nothing,
    Inserted,
    Replaced(u32),
    Absent,
    Refused(u32),
    Number(u32),
    Released { released: u32, units: u32 },
    Pair { sequence: u32, value: u32 },
    Pairs(Vec<(u32, u32)>),
}

impl Answer {
    fn number_or_absent(number: Option<u32>) -> Self {
        number.map_or(Self::Absent, Self::Number)
    }
}

/// A window of the source, whatever its N.
pub trait Window: Memory {
    /// Make any call but new.
    fn call(&mut self, call: Call) -> Answer;
    /// The header as the port has it; its point is looked for in each call of this.
    fn header(&self) -> WindowHeader;
    /// Len, retired_held, promotions, and the demotions of both causes.
    fn counts(&self) -> [u64; 4];
    fn window_size(&self) -> u32;
    /// Whether `get` finds the sequence.
    fn is_live(&self, sequence: u32) -> bool;
}

/// The words and cells of a window, for comparisons with the port's.
pub trait Memory {
    fn page_count(&self) -> usize;
    fn block_words(&self) -> &[u64];
    fn page_words(&self, page: usize) -> PageWords;
    /// The cells in use of one page by rising cell: cell, sequence, value.
    fn page_cells(&self, page: usize) -> Vec<(usize, u32, u32)>;
}

type Source<const N: usize> = AdaptiveReceiverPacketWindow<Value, N>;

/// The source's window, and beside it the base and the demotions by cause, all
/// 0 at first.
struct Based<const N: usize> {
    window: Source<N>,
    base: u32,
    demotions: Demotions,
}

/// The source's demotions by the call that made them.
#[derive(Default)]
struct Demotions {
    /// By remove and take_front.
    single: u64,
    /// By remove_range.
    range: u64,
}

impl Demotions {
    /// What the source's count has risen by since the last call is the call's.
    fn attribute(&mut self, call: Call, count: usize) {
        let (known, count, letter) = (self.single + self.range, count as u64, call.letter());
        assert!(count >= known, "{letter}: demotions fall to {count}");
        match call {
            Call::Remove(_) | Call::TakeFront => self.single += count - known,
            Call::RemoveRange { .. } => self.range += count - known,
            _ => assert!(count == known, "{letter}: only r, t and d demote pages"),
        }
    }
}

impl<const N: usize> Based<N> {
    fn answer(&mut self, call: Call) -> Answer {
        if call.has_wide_sequence() {
            return Answer::Refused(10);
        }
        let window = &mut self.window;
        match call {
            Call::New { .. } => unreachable!("new makes a window, it is no call on one"),
            Call::Insert { sequence, value } => insert(window, sequence, value),
            Call::Get(sequence) => {
                Answer::number_or_absent(window.get(sequence).map(Value::number))
            }
            Call::Remove(sequence) => remove(window, sequence),
            Call::SuccessorAfter(sequence) => {
                Answer::number_or_absent(window.successor_after(sequence))
            }
            Call::FirstFrom(sequence) => Answer::number_or_absent(window.first_from(sequence)),
            Call::Exchange { sequence, value } => exchange(window, sequence, value),
            Call::RemoveRange { first, last } => window
                .remove_range(first, last)
                .map_or(Answer::Refused(5), |removed| Answer::Number(removed as u32)),
            Call::Stranger { first, last } => stranger(window, first, last),
            Call::ClearBounded(number) if above_visit(number) => Answer::Refused(8),
            Call::ClearBounded(number) => {
                Answer::Number(window.clear_bounded(number as usize) as u32)
            }
            Call::ReleaseRetired(number) if above_visit(number) => Answer::Refused(8),
            Call::ReleaseRetired(number) => release_retired(window, number),
            Call::Clear => {
                window.clear();
                Answer::Nothing
            }
            Call::Iter => Answer::Pairs(live_pairs(window)),
            Call::SetBase(base) if base >= TOP_BIT => Answer::Refused(9),
            Call::SetBase(base) => {
                self.base = base;
                Answer::Nothing
            }
            Call::TakeFront => {
                let answer = remove(window, self.base);
                if answer != Answer::Absent {
                    self.base = after(self.base, 1);
                }
                answer
            }
        }
    }

    fn header_with(&self, point: u32) -> WindowHeader {
        let Demotions { single, range } = self.demotions;
        self.window.header(self.base, point, single, range)
    }
}

impl<const N: usize> Window for Based<N> {
    fn call(&mut self, call: Call) -> Answer {
        let answer = self.answer(call);
        self.demotions.attribute(call, self.window.demotions());
        answer
    }

    fn header(&self) -> WindowHeader {
        self.header_with(point(&self.window, self.base))
    }

    fn counts(&self) -> [u64; 4] {
        let header = self.header_with(0);
        [
            u64::from(header.len),
            u64::from(header.retired_held),
            header.promotions,
            header.single_demotions.wrapping_add(header.range_demotions),
        ]
    }

    fn window_size(&self) -> u32 {
        self.window.window_size()
    }

    fn is_live(&self, sequence: u32) -> bool {
        self.window.get(sequence).is_some()
    }
}

impl<const N: usize> Memory for Based<N> {
    fn page_count(&self) -> usize {
        self.window.page_count()
    }

    fn block_words(&self) -> &[u64] {
        self.window.block_words()
    }

    fn page_words(&self, page: usize) -> PageWords {
        self.window.page_words(page)
    }

    fn page_cells(&self, page: usize) -> Vec<(usize, u32, u32)> {
        self.window
            .page_cells(page)
            .map(|(cell, sequence, value)| (cell, sequence, value.number()))
            .collect()
    }
}

fn live_pairs<const N: usize>(window: &Source<N>) -> Vec<(u32, u32)> {
    let mut pairs = Vec::new();
    for (sequence, value) in window.iter() {
        pairs.push((sequence, value.number()));
    }
    pairs
}

fn above_visit(number: u32) -> bool {
    number as usize > MAX_RETIRED_RELEASED_PER_VISIT
}

fn insert<const N: usize>(window: &mut Source<N>, sequence: u32, value: u32) -> Answer {
    match window.insert(sequence, Value::new(value)) {
        Ok(None) => Answer::Inserted,
        Ok(Some(old)) => Answer::Replaced(old.into_number()),
        Err(refused) => {
            refused.into_number();
            Answer::Refused(4)
        }
    }
}

fn remove<const N: usize>(window: &mut Source<N>, sequence: u32) -> Answer {
    Answer::number_or_absent(window.remove(sequence).map(Value::into_number))
}

/// The sequence so many after a base, modulo 2^31.
fn after(base: u32, steps: u32) -> u32 {
    (base + steps) & DISTANCE_MASK
}

/// The first sequence from the base that is not live; if the window_size
/// sequences from the base are all live, the base plus window_size.
fn point<const N: usize>(window: &Source<N>, base: u32) -> u32 {
    let mut live = 0;
    while live < window.window_size() && window.get(after(base, live)).is_some() {
        live += 1;
    }
    after(base, live)
}

/// `get_mut` and a write.
fn exchange<const N: usize>(window: &mut Source<N>, sequence: u32, value: u32) -> Answer {
    Answer::number_or_absent(
        window
            .get_mut(sequence)
            .map(|held| std::mem::replace(held, Value::new(value)).into_number()),
    )
}

/// The source does not report its units. It stops early only when nothing is
/// held any more, and it inspects no page twice in one call, so they follow
/// from what was held before and what is held after.
fn release_retired<const N: usize>(window: &mut Source<N>, budget: u32) -> Answer {
    let pages = window.retired_pages_held() as u32;
    let released = window.release_retired(budget as usize) as u32;
    let units = if window.has_retired() {
        budget
    } else {
        released + pages
    };
    Answer::Released { released, units }
}

/// The first stranger by position from that of `first`, round the capacity:
/// a live pair at a position of the range whose sequence is not one of the
/// range.
fn stranger<const N: usize>(window: &Source<N>, first: u32, last: u32) -> Answer {
    let reach = last.wrapping_sub(first) & DISTANCE_MASK;
    if reach >= window.window_size() {
        return Answer::Refused(5);
    }
    let position_mask = window.capacity() as u32 - 1;
    let offset = |sequence: u32| sequence.wrapping_sub(first) & position_mask;
    let outside = |sequence: u32| sequence.wrapping_sub(first) & DISTANCE_MASK > reach;
    live_pairs(window)
        .into_iter()
        .filter(|&(sequence, _)| offset(sequence) <= reach && outside(sequence))
        .min_by_key(|&(sequence, _)| offset(sequence))
        .map_or(Answer::Absent, |(sequence, value)| Answer::Pair { sequence, value })
}

fn based<const N: usize>(window: Source<N>) -> Box<dyn Window> {
    Box::new(Based {
        window,
        base: 0,
        demotions: Demotions::default(),
    })
}

/// One arm for each N, since the source wants it when it is compiled.
macro_rules! source_with {
    ($n:expr, $window_size:expr, $demote_at:expr, $($each:literal)*) => {
        match $n {
            $($each => based(Source::<$each>::new($window_size, $demote_at)),)*
            _ => unreachable!("refusal 2 keeps N within 1 to 63"),
        }
    };
}

/// A fresh window, or the number of the refusal.
pub fn fresh(window_size: u32, n: u32, demote_at: u32) -> Result<Box<dyn Window>, u32> {
    if !(1..=65_536).contains(&window_size) {
        return Err(1);
    }
    if !(1..=63).contains(&n) {
        return Err(2);
    }
    if demote_at > n {
        return Err(3);
    }
    Ok(source_with!(n, window_size, demote_at as usize,
        1 2 3 4 5 6 7 8 9 10 11 12 13 14 15 16 17 18 19 20 21
        22 23 24 25 26 27 28 29 30 31 32 33 34 35 36 37 38 39 40 41 42
        43 44 45 46 47 48 49 50 51 52 53 54 55 56 57 58 59 60 61 62 63))
}

/// Make a call and hand back its answer with what it dropped.
pub fn call_and_drops(window: &mut dyn Window, call: Call) -> (Answer, Vec<u32>) {
    take_dropped();
    let answer = window.call(call);
    (answer, take_dropped())
}
