//! The reader of loss lists on every short list, a run and not a theorem.
//!
//! For each range of 1 to 6 sequences, from three firsts, of which one makes it wrap: every list of up to 4 words, each a sequence of
//! the range, the one before it or the one after it, with and without its top bit. It is read or refused 12 as the definition says
//! (crates/model/specs/Losses.antt, is_loss_list_of: it is the writer's list for the sequences that it names), and 11 comes before.
//! The lists that are taken are those of all sets of losses, each once.

use crate::calls::Random;
use crate::library::Library;
use crate::line::Call;
use crate::losses;
use crate::reference::Answer;
use crate::reports::{due_bytes, Reporter, SHORT_LIST};
use std::collections::BTreeSet;

const FIRSTS: [u32; 3] = [0, 100, 2_147_483_645];
const LONGEST_RANGE: usize = 6;
const MOST_WORDS: usize = 4;

#[derive(Default)]
struct Counts {
    read: u64,
    taken: u64,
}

/// The words that lists are made of.
fn alphabet(first: u32, count: usize) -> Vec<u32> {
    let before = losses::sequence_at(first, losses::TOP_BIT as usize - 1);
    let sequences = (0..count + 2).map(|at| losses::sequence_at(before, at));
    sequences.flat_map(|sequence| [sequence, sequence | losses::TOP_BIT]).collect()
}

/// Every list of so many words.
fn lists(alphabet: &[u32], length: usize) -> impl Iterator<Item = Vec<u32>> + '_ {
    let base = alphabet.len();
    (0..base.pow(length as u32)).map(move |number| (0..length).map(|at| alphabet[number / base.pow(at as u32) % base]).collect())
}

/// The lists of all sets of losses.
fn lists_of_sets(first: u32, count: usize) -> BTreeSet<Vec<u32>> {
    let set = |bits: u32| (0..count).map(move |at| bits >> at & 1 == 1).collect::<Vec<bool>>();
    (0..1 << count).map(|bits| losses::words(first, &set(bits))).collect()
}

/// A window in which some sequences about the range are live, which does not matter to the reader.
fn some_window(random: &mut Random, first: u32) -> Result<Library, String> {
    let mut library = Library::new(random, 64, 8, 4)?;
    for at in (0..8).filter(|at| at % 3 != 1) {
        let call = Call::Insert { sequence: losses::sequence_at(first, at), value: 1 };
        library.call(call, false, &Answer::Inserted, &[])?;
    }
    Ok(library)
}

fn range(random: &mut Random, reporter: &mut Reporter, counts: &mut Counts, first: u32, count: usize) -> Result<(), String> {
    let mut library = some_window(random, first)?;
    let ends = [first, losses::sequence_at(first, count - 1)];
    let bytes: Vec<u8> = (0..count + 2).map(|_| random.any() as u8).collect();
    let alphabet = alphabet(first, count);
    let mut taken = BTreeSet::new();
    for list in (0..=MOST_WORDS).flat_map(|length| lists(&alphabet, length)) {
        let due = due_bytes(losses::read_list(first, count, &list));
        reporter.read(&mut library, &list, &bytes, ends, &due, None)?;
        reporter.read(&mut library, &list, &bytes[..count - 1], ends, &Err(SHORT_LIST), None)?;
        counts.read += 1;
        if due.is_ok() {
            counts.taken += 1;
            taken.insert(list);
        }
    }
    let sets = lists_of_sets(first, count);
    if taken != sets || sets.len() != 1 << count {
        return Err(format!("{count} sequences from {first}: {} lists are taken, the sets have {}", taken.len(), sets.len()));
    }
    Ok(())
}

pub fn all(mut reporter: Reporter) -> Result<String, String> {
    let (mut random, mut counts) = (Random::new(4), Counts::default());
    for first in FIRSTS {
        for count in 1..=LONGEST_RANGE {
            range(&mut random, &mut reporter, &mut counts, first, count)?;
        }
    }
    let Counts { read, taken } = counts;
    Ok(format!("{read} short lists, {taken} taken, those of all sets of up to {LONGEST_RANGE} sequences, {} refused 12", read - taken))
}
