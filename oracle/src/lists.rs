//! Loss lists for the reader: right ones, and such that are spoilt at a place.

use crate::calls::Random;
use crate::losses::{sequence_at, words, TOP_BIT};

/// A list for a range of `count` sequences from `first` on: that of random
/// losses, in two thirds of the cases spoilt, which now and then makes another
/// right one.
pub fn some_list(random: &mut Random, first: u32, count: usize) -> Vec<u32> {
    let percent = random.pick(&[0, 10, 30, 50, 50, 80, 100]);
    let lost: Vec<bool> = (0..count).map(|_| random.percent(percent)).collect();
    let list = words(first, &lost);
    match random.below(3) {
        0 => list,
        _ => spoilt(random, first, count, list),
    }
}

/// A word of the range, one before it or one after it, with and without its top bit.
pub fn some_word(random: &mut Random, first: u32, count: usize) -> u32 {
    let before = sequence_at(first, TOP_BIT as usize - 1);
    sequence_at(before, random.below(count as u32 + 2) as usize) | random.pick(&[0, 0, TOP_BIT])
}

fn spoilt(random: &mut Random, first: u32, count: usize, mut list: Vec<u32>) -> Vec<u32> {
    let way = random.below(8);
    if list.is_empty() || way < 2 {
        // A word too many.
        let at = random.below(list.len() as u32 + 1) as usize;
        list.insert(at, some_word(random, first, count));
        return list;
    }
    let at = random.below(list.len() as u32) as usize;
    match way {
        2 => list[at] ^= TOP_BIT,
        3 => {
            list[at] = list[at] & TOP_BIT
                | sequence_at(list[at] % TOP_BIT, random.pick(&[1, TOP_BIT as usize - 1]))
        }
        4 => drop(list.remove(at)),
        5 => list.insert(at, list[at]),
        6 => list.swap(0, at),
        // All of the list as single words.
        _ => {
            let lost = crate::losses::named(first, count, &list);
            list = (0..count)
                .filter(|&at| lost[at])
                .map(|at| sequence_at(first, at))
                .collect();
        }
    }
    list
}
