//! What a loss report must give, as far as it is known before the call: what the reader's list says, on any state; the words of the
//! writer, on a sound one.

use crate::calls::Random;
use crate::lists::some_list;
use crate::losses;
use crate::memory::{most_words, Memory, LOST, WORDS};
use crate::operations::{Call, LOSS_LIST, SHORT_LIST};

pub enum Due {
    /// No loss report, one that its arguments refuse, or the writer's on a state that is not sound.
    Open,
    Words(Vec<u32>),
    /// A byte for each sequence; none if the list is that of no set of losses.
    Lost(Option<Vec<u8>>),
}

impl Due {
    /// The refusal that the state or the reader's list decides.
    pub fn refusal(&self, call: &Call) -> Option<u32> {
        match self {
            Self::Words(words) if call.lengths[WORDS] < words.len() => Some(SHORT_LIST),
            Self::Lost(None) => Some(LOSS_LIST),
            _ => None,
        }
    }
}

/// What the list that is lent to the reader says.
pub fn read(call: &Call, memory: &Memory) -> Due {
    let list = memory.lists[WORDS].now(call.lengths[WORDS]);
    let lost = losses::read_list(call.numbers[0], call.range_count() as usize, list);
    Due::Lost(lost.ok().map(|lost| lost.into_iter().map(u8::from).collect()))
}

/// Whether the words are the list of some losses of the call's range.
pub fn is_list(call: &Call, words: &[u32]) -> bool {
    losses::read_list(call.numbers[0], call.range_count() as usize, words).is_ok()
}

/// About so many, or any number up to `most`.
fn about(random: &mut Random, due: usize, most: usize) -> usize {
    match random.below(8) {
        0..=1 => due,
        2 => due.saturating_sub(1),
        3 => random.below(due as u32 + 1) as usize,
        4 => due + 1,
        5 => 0,
        _ => most,
    }
    .min(most)
}

/// A writer's call with places for about the words that are due, if that is known, or for about as many as there can be.
pub fn with_places(random: &mut Random, call: &Call, due: &Due) -> Call {
    let words = match due {
        Due::Words(words) => words.len(),
        _ => most_words(call.range_count()),
    };
    let mut lengths = call.lengths;
    lengths[WORDS] = about(random, words, lengths[WORDS]);
    Call { lengths, ..*call }
}

/// A reader's call with a list that is right, or spoilt, or any, and with about as many bytes as the range has sequences.
pub fn with_list(random: &mut Random, call: &Call, memory: &mut Memory) -> Call {
    let mut lengths = call.lengths;
    let count = (call.range_count() as usize).min(lengths[LOST]);
    if random.percent(30) {
        lengths[LOST] = about(random, count, lengths[LOST]);
    }
    if random.percent(10) {
        lengths[WORDS] = random.below(lengths[WORDS] as u32 + 1) as usize;
    } else {
        let mut list = some_list(random, call.numbers[0] & 0x7fff_ffff, count);
        list.truncate(lengths[WORDS]);
        lengths[WORDS] = list.len();
        memory.lists[WORDS].put(&list);
        memory.remember(&[WORDS]);
    }
    Call { lengths, ..*call }
}
