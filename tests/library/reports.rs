//! Loss reports of the library, judged: the answer, and all of the list that a report may write.

use crate::declared::*;
use crate::library::{numbered, Library, Report};
use crate::losses::TOP_BIT;
use std::fmt::Debug;

pub const SHORT_LIST: u32 = 11;
pub const SHORT_MEMORY: u32 = 6;

/// An entry of a list that is written: a word or a byte.
pub trait Entry: Copy + Debug + PartialEq {
    fn other(self) -> Self;
}

impl Entry for u32 {
    fn other(self) -> Self {
        self ^ 1
    }
}

impl Entry for u8 {
    fn other(self) -> Self {
        self ^ 1
    }
}

/// What is due: the number that is told and the entries from the first place on; or a refusal, with the list left as it was.
pub type Due<T> = Result<(u32, Vec<T>), u32>;

/// What a report left: its answer, and the whole list.
#[derive(Clone, PartialEq)]
struct Left<T> {
    answer: NumberedAnswer,
    list: Vec<T>,
}

fn judge<T: Entry>(due: &Due<T>, before: &[T], left: &Left<T>) -> Result<(), String> {
    let (answer, list) = match due {
        Ok((number, entries)) => (numbered(FOUND, *number), [entries, &before[entries.len()..]].concat()),
        Err(refusal) => (numbered(REFUSED, *refusal), before.to_vec()),
    };
    if left.answer != answer {
        return Err(format!("a report answers {:?}, due is {due:?}", left.answer));
    }
    if left.list != list {
        return Err(format!("a report leaves {:?}, due is {due:?} over {before:?}", left.list));
    }
    Ok(())
}

/// One thing wrong in what a report left, to see that it is noticed.
#[derive(Debug, Clone, Copy, PartialEq)]
pub enum Wrong {
    RunOfTwoAsRange,
    RunCutAtTheWrap,
    WordLeftOut,
    ByteOfAnother,
    NumberOneMore,
    WrittenPastTheEnd,
    Refused,
    Taken,
    AnotherRefusal,
    WrittenAndRefused,
}

pub const WRONG: [Wrong; 10] = [
    Wrong::RunOfTwoAsRange,
    Wrong::RunCutAtTheWrap,
    Wrong::WordLeftOut,
    Wrong::ByteOfAnother,
    Wrong::NumberOneMore,
    Wrong::WrittenPastTheEnd,
    Wrong::Refused,
    Wrong::Taken,
    Wrong::AnotherRefusal,
    Wrong::WrittenAndRefused,
];

/// The words of a run that does not wrap.
fn run_words(first: u32, last: u32) -> Vec<u32> {
    if last - first < 2 { (first..=last).collect() } else { vec![first | TOP_BIT, last] }
}

impl Wrong {
    /// Of any list: `written` entries are written; none if this cannot be wrong there.
    fn in_any<T: Entry>(self, written: usize, before: &[T], mut left: Left<T>) -> Option<Left<T>> {
        let refused = left.answer.code == REFUSED;
        match self {
            Wrong::NumberOneMore if !refused => left.answer.first += 1,
            Wrong::WrittenPastTheEnd if !refused => *left.list.get_mut(written)? = before.get(written)?.other(),
            Wrong::Refused if !refused => left = Left { answer: numbered(REFUSED, SHORT_LIST), list: before.to_vec() },
            Wrong::Taken if refused => left.answer = numbered(FOUND, 0),
            Wrong::AnotherRefusal if refused => left.answer.first ^= 7,
            Wrong::WrittenAndRefused if refused => *left.list.first_mut()? = before.first()?.other(),
            _ => return None,
        }
        Some(left)
    }

    /// Of a list of words.
    fn in_words(self, before: &[u32], left: Left<u32>) -> Option<Left<u32>> {
        let written = if left.answer.code == FOUND { left.answer.first as usize } else { 0 };
        let words = &left.list[..written];
        let second = |at: usize| at > 0 && words[at - 1] >= TOP_BIT;
        let mut pairs = (1..written).map(|at| (at - 1, words[at - 1], words[at]));
        let other = match self {
            Wrong::RunOfTwoAsRange => {
                let (at, word, _) = pairs.find(|&(at, word, next)| !second(at) && next == (word + 1) % TOP_BIT)?;
                [&words[..at], &[word | TOP_BIT], &words[at + 1..]].concat()
            }
            Wrong::RunCutAtTheWrap => {
                let (at, word, last) = pairs.find(|&(_, word, next)| word >= TOP_BIT && next < word % TOP_BIT)?;
                [&words[..at], &run_words(word % TOP_BIT, TOP_BIT - 1), &run_words(0, last), &words[at + 2..]].concat()
            }
            Wrong::WordLeftOut => words.split_last()?.1.to_vec(),
            _ => return self.in_any(written, before, left),
        };
        let list = [&other, before.get(other.len()..)?].concat();
        Some(Left { answer: numbered(FOUND, other.len() as u32), list })
    }

    /// Of a list of bytes, of which a report that is taken writes `count`.
    fn in_bytes(self, count: usize, before: &[u8], mut left: Left<u8>) -> Option<Left<u8>> {
        match self {
            Wrong::ByteOfAnother if left.answer.code == FOUND => {
                left.list[0] = left.list[0].other();
                Some(left)
            }
            _ => self.in_any(count, before, left),
        }
    }
}

/// Makes reports and judges them, with one thing wrong in the first of them that can have it.
pub struct Reporter {
    pub wrong: Option<Wrong>,
}

impl Reporter {
    fn left<T: Entry>(&mut self, left: Left<T>, spoilt: impl Fn(Wrong, Left<T>) -> Option<Left<T>>) -> Left<T> {
        match self.wrong.and_then(|wrong| spoilt(wrong, left.clone())) {
            Some(other) => {
                self.wrong = None;
                other
            }
            None => left,
        }
    }

    /// The losses from first to last written over these words.
    pub fn write(
        &mut self, library: &mut Library, before: &[u32], [first, last]: [u32; 2], due: &Due<u32>, short: Option<u32>,
    ) -> Result<(), String> {
        let mut list = before.to_vec();
        let answer = library.report(Report::Write(&mut list), first, last, short)?;
        let left = self.left(Left { answer, list }, |wrong, left| wrong.in_words(before, left));
        judge(due, before, &left)
    }

    /// A list read, over these bytes.
    pub fn read(
        &mut self, library: &mut Library, words: &[u32], before: &[u8], [first, last]: [u32; 2], due: &Due<u8>, short: Option<u32>,
    ) -> Result<(), String> {
        let mut list = before.to_vec();
        let answer = library.report(Report::Read(words, &mut list), first, last, short)?;
        let count = due.as_ref().map_or(0, |(_, entries)| entries.len());
        let left = self.left(Left { answer, list }, |wrong, left| wrong.in_bytes(count, before, left));
        judge(due, before, &left).map_err(|why| format!("the list {words:?}: {why}"))
    }
}

/// What is due for words to be written: how many they are, and they.
pub fn due_words(words: Result<Vec<u32>, u32>) -> Due<u32> {
    words.map(|words| (words.len() as u32, words))
}

/// What is due for a list that says this: how many are lost, and a byte for each sequence.
pub fn due_bytes(lost: Result<Vec<bool>, u32>) -> Due<u8> {
    lost.map(|lost| (lost.iter().map(|&lost| u32::from(lost)).sum(), lost.into_iter().map(u8::from).collect()))
}
