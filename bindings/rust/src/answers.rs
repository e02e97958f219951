//! What calls answer, and how it is read from the library's numbers.

use crate::raw::{self, NumberedAnswer};
use core::fmt;

/// Why a call was refused. A refusal leaves the window as it was, save `Unsound`. The value of an enum case is its number.
#[derive(Debug, Clone, Copy, PartialEq, Eq)]
#[repr(u32)]
pub enum Refusal {
    /// `new`: window_size is not within 1 to 65536.
    WindowSize = 1,
    /// `new`: n is not within 1 to 63.
    SparseCells = 2,
    /// `new`: demote_at is above n.
    DemoteAt = 3,
    /// `insert`: another sequence holds the position.
    Occupied = 4,
    /// `remove_range`, `stranger`, `write_losses`, `read_losses`: the range counts more than window_size sequences.
    RangeCount = 5,
    /// A list is shorter than it must be.
    ShortMemory = 6,
    /// The state is not sound: something other than the window wrote its memory.
    Unsound = 7,
    /// `release_retired`, `clear_bounded`: the number is above 256.
    Budget = 8,
    /// `set_base`: a base of 2147483648 or more.
    Base = 9,
    /// Every call that takes a sequence, a first or a last: it is 2147483648 or more.
    Sequence = 10,
    /// `write_losses`: the list has fewer places than there are words; `read_losses`: than the range has sequences.
    ShortList = 11,
    /// `read_losses`: a list that `write_losses` could write for no set of losses of this range.
    LossList = 12,
}

impl Refusal {
    const ALL: [Self; 12] = [
        Self::WindowSize,
        Self::SparseCells,
        Self::DemoteAt,
        Self::Occupied,
        Self::RangeCount,
        Self::ShortMemory,
        Self::Unsound,
        Self::Budget,
        Self::Base,
        Self::Sequence,
        Self::ShortList,
        Self::LossList,
    ];

    /// The number that the papers and the C interface give it.
    pub const fn number(self) -> u32 {
        self as u32
    }

    fn from_number(number: u32) -> Option<Self> {
        Self::ALL.into_iter().find(|refusal| refusal.number() == number)
    }
}

impl fmt::Display for Refusal {
    fn fmt(&self, f: &mut fmt::Formatter<'_>) -> fmt::Result {
        let why = match self {
            Self::WindowSize => "window_size is not within 1 to 65536",
            Self::SparseCells => "n is not within 1 to 63",
            Self::DemoteAt => "demote_at is above n",
            Self::Occupied => "another sequence holds the position",
            Self::RangeCount => "the range counts more than window_size sequences",
            Self::ShortMemory => "a list is too short",
            Self::Unsound => "the state is not sound",
            Self::Budget => "the number is above 256",
            Self::Base => "a base of 2147483648 or more",
            Self::Sequence => "a sequence, first or last of 2147483648 or more",
            Self::ShortList => "the list is shorter than what is to be written",
            Self::LossList => "the loss list of no set of losses of this range",
        };
        write!(f, "refused {}: {why}", self.number())
    }
}

impl core::error::Error for Refusal {}

/// What `insert` did.
#[derive(Debug, Clone, Copy, PartialEq, Eq)]
pub enum Inserted {
    /// The position was free.
    New,
    /// The sequence had this value, which is handed back.
    Replaced(u32),
}

/// What `release_retired` did.
#[derive(Debug, Clone, Copy, PartialEq, Eq)]
pub struct Released {
    /// Values handed back.
    pub values: u32,
    /// Units used: pages inspected and values handed back.
    pub units: u32,
}

/// A live pair that `step` found.
#[derive(Debug, Clone, Copy, PartialEq, Eq)]
pub struct NextPair {
    /// Its sequence.
    pub sequence: u32,
    /// Its value.
    pub value: u32,
    /// The cell to go on from.
    pub cell: u32,
}

/// What `step` found.
#[derive(Debug, Clone, Copy, PartialEq, Eq)]
pub struct Step {
    /// The next live pair; none if none is left.
    pub next: Option<NextPair>,
    /// The retired words that it read: one for each block from that of the cell given to that of the pair, or to the last.
    pub reads: u32,
}

/// The answer of a call that may hand back several values, with those values. They are there whatever the answer is.
#[derive(Debug, PartialEq, Eq)]
#[must_use = "the returned values are handed back to the caller"]
pub struct Outcome<'w, T> {
    /// What the call answered.
    pub answer: Result<T, Refusal>,
    /// The values handed back, in order.
    pub returned: &'w [u32],
}

/// Why a call was refused. An answer that is none of the call's own can come of an unsound state only.
fn refusal(answer: NumberedAnswer) -> Refusal {
    match answer.code {
        raw::REFUSED => Refusal::from_number(answer.first).unwrap_or(Refusal::Unsound),
        _ => Refusal::Unsound,
    }
}

pub(crate) fn done(answer: NumberedAnswer) -> Result<(), Refusal> {
    match answer.code {
        raw::DONE => Ok(()),
        _ => Err(refusal(answer)),
    }
}

pub(crate) fn inserted(answer: NumberedAnswer) -> Result<Inserted, Refusal> {
    match answer.code {
        raw::NEW => Ok(Inserted::New),
        raw::REPLACED => Ok(Inserted::Replaced(answer.first)),
        _ => Err(refusal(answer)),
    }
}

pub(crate) fn number(answer: NumberedAnswer) -> Result<u32, Refusal> {
    match answer.code {
        raw::FOUND => Ok(answer.first),
        _ => Err(refusal(answer)),
    }
}

pub(crate) fn found(answer: NumberedAnswer) -> Result<Option<u32>, Refusal> {
    match answer.code {
        raw::ABSENT => Ok(None),
        _ => number(answer).map(Some),
    }
}

pub(crate) fn released(answer: NumberedAnswer) -> Result<Released, Refusal> {
    match answer.code {
        raw::RELEASED => Ok(Released {
            values: answer.first,
            units: answer.second,
        }),
        _ => Err(refusal(answer)),
    }
}

pub(crate) fn stepped(answer: NumberedAnswer) -> Result<Step, Refusal> {
    let next = match answer.code {
        raw::DONE => None,
        raw::PAIR => Some(NextPair {
            sequence: answer.first,
            value: answer.second,
            cell: answer.third,
        }),
        _ => return Err(refusal(answer)),
    };
    Ok(Step { next, reads: answer.fourth })
}

/// A sequence and its value, if there is such a pair.
pub(crate) fn pair(answer: NumberedAnswer) -> Result<Option<(u32, u32)>, Refusal> {
    match answer.code {
        raw::ABSENT => Ok(None),
        raw::PAIR => Ok(Some((answer.first, answer.second))),
        _ => Err(refusal(answer)),
    }
}
