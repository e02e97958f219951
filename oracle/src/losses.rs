//! Document 02's loss report (request S-4), written from its words: which
//! sequences of a range are lost, their list, and what a list says. The
//! reference for write_losses and read_losses.
//!
//! Refusals are those that do not hang on a list's length: 10, 5 and 12.

// The oracle and the tests use a part each.
#![allow(dead_code)]

/// The top bit of a word: the run that it begins ends with the next word.
pub const TOP_BIT: u32 = 1 << 31;

/// The sequence so many after `first`: order is circular, 2147483647 is followed by 0.
pub fn sequence_at(first: u32, distance: usize) -> u32 {
    (first + distance as u32) % TOP_BIT
}

/// How many after `first` a sequence comes; of a word the top bit does not count.
pub fn distance(first: u32, word: u32) -> usize {
    (word.wrapping_sub(first) % TOP_BIT) as usize
}

/// How many sequences there are from first to last; or refusal 10 or 5.
fn count(window_size: u32, first: u32, last: u32) -> Result<usize, u32> {
    if first >= TOP_BIT || last >= TOP_BIT {
        return Err(10);
    }
    match distance(first, last) + 1 {
        count if count > window_size as usize => Err(5),
        count => Ok(count),
    }
}

/// Whether each sequence from first to last is not live.
pub fn lost(
    window_size: u32,
    first: u32,
    last: u32,
    mut is_live: impl FnMut(u32) -> bool,
) -> Result<Vec<bool>, u32> {
    let count = count(window_size, first, last)?;
    Ok((0..count)
        .map(|at| !is_live(sequence_at(first, at)))
        .collect())
}

/// The runs of lost sequences: the distance of the first and of the last.
pub fn runs(lost: &[bool]) -> Vec<(usize, usize)> {
    let is_lost = |at: usize| lost.get(at) == Some(&true);
    let begins = (0..lost.len()).filter(|&at| is_lost(at) && (at == 0 || !is_lost(at - 1)));
    let ends = (0..lost.len()).filter(|&at| is_lost(at) && !is_lost(at + 1));
    begins.zip(ends).collect()
}

/// "A run of three or more is two words, the first with its top bit set; a
/// shorter run is single words."
pub fn words(first: u32, lost: &[bool]) -> Vec<u32> {
    let mut words = Vec::new();
    for (begin, end) in runs(lost) {
        if end - begin >= 2 {
            words.extend([sequence_at(first, begin) | TOP_BIT, sequence_at(first, end)]);
        } else {
            words.extend((begin..=end).map(|at| sequence_at(first, at)));
        }
    }
    words
}

/// Of `count` sequences whether each is named: a word names its sequence, one
/// with its top bit set and the word after it all from the one to the other.
pub fn named(first: u32, count: usize, words: &[u32]) -> Vec<bool> {
    let mut named = vec![false; count];
    let mut rest = words.iter();
    while let Some(&word) = rest.next() {
        let begin = distance(first, word);
        let end = if word < TOP_BIT {
            Some(begin)
        } else {
            rest.next().map(|&last| distance(first, last))
        };
        for at in begin..end.map_or(begin, |end| (end + 1).min(count)) {
            named[at] = true;
        }
    }
    named
}

/// "It takes exactly such lists": the losses that a list names, if it is the
/// writer's list for them; or refusal 12, "a list that the writer could write
/// for no set of losses".
pub fn read_list(first: u32, count: usize, list: &[u32]) -> Result<Vec<bool>, u32> {
    let named = named(first, count, list);
    if words(first, &named) == list {
        Ok(named)
    } else {
        Err(12)
    }
}

/// The same for a stated first and last.
pub fn read(window_size: u32, first: u32, last: u32, list: &[u32]) -> Result<Vec<bool>, u32> {
    read_list(first, count(window_size, first, last)?, list)
}
