//! What the lent memory may hold: words of several kinds, and changes to a sound state.

use crate::calls::Random;
use crate::damage::damaged;
use crate::declared::Header;
use crate::memory::{capacity, named, Memory, BLOCKS, PAGES, SEQUENCES, VALUES};
use crate::soundness::State;

/// The kinds of words.
#[derive(Debug, Clone, Copy, PartialEq, Eq)]
pub enum Kind {
    AllBits,
    FewBits,
    SmallNumbers,
}

fn below(random: &mut Random, end: usize) -> usize {
    random.below(end as u32) as usize
}

fn few_bits(random: &mut Random) -> u64 {
    let bits = (0..random.below(4)).fold(0, |word, _| word | 1 << random.below(64));
    if random.percent(20) {
        !bits
    } else {
        bits
    }
}

fn word(random: &mut Random, kind: Kind) -> u64 {
    let most = random.pick(&[3, 65, 300]);
    match kind {
        Kind::AllBits => random.next(),
        Kind::FewBits => few_bits(random),
        Kind::SmallNumbers => random.below(most).into(),
    }
}

/// A word of any kind.
fn any_word(random: &mut Random) -> u64 {
    let kind = random.pick(&[Kind::AllBits, Kind::FewBits, Kind::SmallNumbers]);
    word(random, kind)
}

/// A count that wraps soon.
fn near_the_top(random: &mut Random) -> u64 {
    u64::MAX - u64::from(random.below(3))
}

/// All bits random, in the lists and around them.
pub fn fill_around(random: &mut Random, memory: &mut Memory) {
    for list in &mut memory.lists {
        list.whole().iter_mut().for_each(|word| *word = random.next());
    }
}

/// The header's counts and masks, of one kind; what the limits are on stays.
fn fill_header(random: &mut Random, memory: &mut Memory, kind: Kind) {
    // Every field is named, so that a new one is not left out.
    let Header {
        window_size: _, n, demote_at, len, retired_held, release_cursor, base, point,
        nonempty_summary, retired_blocks, single_demotions, range_demotions, promotions,
    } = &mut memory.header;
    for count in [len, retired_held, release_cursor, base, point] {
        *count = word(random, kind) as u32;
    }
    for field in [nonempty_summary, retired_blocks, promotions] {
        *field = word(random, kind);
    }
    for count in [single_demotions, range_demotions] {
        *count = if random.percent(25) { near_the_top(random) } else { word(random, kind) };
    }
    *n = 1 + random.below(63);
    *demote_at = random.below(*n + 1);
}

/// The lists' words of one kind. Most page kinds are small; each half of the time the sequences stand at their own positions, have 31
/// bits, and the base is one of them, so that a call goes on past its first look.
pub fn fill(random: &mut Random, memory: &mut Memory, kind: Kind) {
    fill_header(random, memory, kind);
    let capacity = capacity(memory.header.window_size) as u32;
    let placed = random.percent(50);
    let bits = random.pick(&[u32::MAX, u32::MAX >> 1]);
    for (cell, sequence) in (0..).zip(memory.lists[SEQUENCES].numbers()) {
        let any = word(random, kind) as u32;
        *sequence = if placed { any.wrapping_mul(capacity).wrapping_add(cell) } else { any } & bits;
    }
    if random.percent(50) {
        memory.header.base = random.pick(memory.lists[SEQUENCES].numbers()) & 0x7fff_ffff;
    }
    for (at, page) in memory.lists[PAGES].words().iter_mut().enumerate() {
        *page = if at % 3 == 0 && random.percent(80) { random.below(4).into() } else { word(random, kind) };
    }
    memory.lists[BLOCKS].words().iter_mut().for_each(|block| *block = word(random, kind));
}

/// Of each list that tells what the window holds, some elements copied from elsewhere in it; of the page words from any other, or from
/// the same word of another page.
pub fn copy_about(random: &mut Random, memory: &mut Memory) {
    let chance = random.pick(&[2, 20, 100]);
    let sequences = memory.lists[SEQUENCES].numbers();
    for cell in 0..sequences.len() {
        if random.percent(chance) {
            sequences[cell] = sequences[below(random, sequences.len())];
        }
    }
    for list in [PAGES, BLOCKS] {
        let words = memory.lists[list].words();
        let threes = words.len() / 3;
        for at in 0..words.len() {
            if random.percent(chance) {
                let from = if random.percent(50) { 3 * below(random, threes) + at % 3 } else { below(random, words.len()) };
                words[at] = words[from];
            }
        }
    }
}

/// A page, of some tries one that holds a value.
fn some_page(random: &mut Random, memory: &mut Memory) -> usize {
    let pages = memory.lists[PAGES].words();
    let count = pages.len() / 3;
    let mut page = below(random, count);
    for _ in 0..20 {
        if pages[3 * page] != 0 {
            break;
        }
        page = below(random, count);
    }
    page
}

fn change_word(random: &mut Random, word: &mut u64) {
    match random.below(4) {
        0 => *word = any_word(random),
        1 => *word = word.wrapping_add(1),
        _ => *word ^= 1 << random.below(64),
    }
}

fn change_number(random: &mut Random, number: &mut u32) {
    match random.below(5) {
        0 => *number = any_word(random) as u32,
        1 => *number = number.wrapping_add(1),
        2 => *number = number.wrapping_sub(1),
        3 => *number = random.pick(&[0, 1, 255, 256, 257, 1 << 31, u32::MAX]),
        _ => *number ^= 1 << random.below(32),
    }
}

fn change_page(random: &mut Random, memory: &mut Memory) {
    let page = some_page(random, memory);
    let at = 3 * page + below(random, 3);
    change_word(random, &mut memory.lists[PAGES].words()[at]);
}

fn change_block(random: &mut Random, memory: &mut Memory) {
    let blocks = memory.lists[BLOCKS].words();
    let at = below(random, blocks.len());
    change_word(random, &mut blocks[at]);
}

fn change_sequence(random: &mut Random, memory: &mut Memory) {
    let page = some_page(random, memory);
    let sequences = memory.lists[SEQUENCES].numbers();
    let at = (64 * page + below(random, 64)).min(sequences.len() - 1);
    match random.below(3) {
        0 => sequences[at] = sequences[below(random, sequences.len())],
        1 => sequences[at] = sequences[at].wrapping_add(64),
        _ => change_number(random, &mut sequences[at]),
    }
}

/// One page has the words of another, which may be empty.
fn exchange_pages(random: &mut Random, memory: &mut Memory) {
    let page = some_page(random, memory);
    let pages = memory.lists[PAGES].words();
    let other = below(random, pages.len() / 3);
    (0..3).for_each(|at| pages.swap(3 * page + at, 3 * other + at));
}

fn change_count(random: &mut Random, memory: &mut Memory) {
    let header = &mut memory.header;
    if random.percent(50) {
        change_number(random, &mut header.len);
    } else {
        change_number(random, &mut header.retired_held);
    }
}

fn change_cursor(random: &mut Random, memory: &mut Memory) {
    let pages = capacity(memory.header.window_size) as u32 / 64;
    let cursor = &mut memory.header.release_cursor;
    match random.below(3) {
        0 => *cursor = pages,
        1 => *cursor = random.below(2 * pages),
        _ => change_number(random, cursor),
    }
}

/// Another base, which may be where a value is, or another point.
fn change_base(random: &mut Random, memory: &mut Memory) {
    let header = &mut memory.header;
    match random.below(4) {
        0 => header.base = header.point,
        1 => header.base = random.pick(memory.lists[SEQUENCES].numbers()),
        2 => change_number(random, &mut header.base),
        _ => change_number(random, &mut header.point),
    }
}

fn change_masks(random: &mut Random, memory: &mut Memory) {
    let header = &mut memory.header;
    if random.percent(50) {
        change_word(random, &mut header.nonempty_summary);
    } else {
        change_word(random, &mut header.retired_blocks);
    }
}

/// Counts of demotions that wrap soon. A sound state stays sound.
pub fn change_demotions(random: &mut Random, memory: &mut Memory) {
    memory.header.single_demotions = near_the_top(random);
    memory.header.range_demotions = near_the_top(random);
}

/// Another window_size, N or demote_at, inside the limits; the lists are long enough still.
fn change_limits(random: &mut Random, memory: &mut Memory) {
    let header = &mut memory.header;
    match random.below(3) {
        0 => header.window_size = 1 + random.below(header.window_size),
        1 => header.n = header.demote_at.max(1) + random.below(64 - header.demote_at.max(1)),
        _ => header.demote_at = random.below(header.n + 1),
    }
}

type Change = fn(&mut Random, &mut Memory);

const CHANGES: [Change; 11] = [
    change_page,
    change_page,
    change_block,
    change_sequence,
    exchange_pages,
    change_count,
    change_cursor,
    change_base,
    change_masks,
    change_demotions,
    change_limits,
];

/// The header with the lists by their named lengths, as they were before the last call.
pub fn state_before(memory: &Memory, header: Header) -> State {
    let named = named(header.window_size);
    let numbers = |list: usize| memory.lists[list].numbers_before()[..named[list]].to_vec();
    let words = |list: usize| memory.lists[list].words_before()[..named[list]].to_vec();
    State { header, sequences: numbers(SEQUENCES), values: numbers(VALUES), pages: words(PAGES), blocks: words(BLOCKS) }
}

/// One change of a sound state, aimed at one clause of soundness.
pub fn break_one_clause(random: &mut Random, memory: &mut Memory) {
    let mut state = state_before(memory, memory.header);
    damaged(random, &mut state);
    memory.header = state.header;
    memory.lists[SEQUENCES].numbers()[..state.sequences.len()].copy_from_slice(&state.sequences);
    memory.lists[PAGES].words()[..state.pages.len()].copy_from_slice(&state.pages);
    memory.lists[BLOCKS].words()[..state.blocks.len()].copy_from_slice(&state.blocks);
}

/// One to three changes.
pub fn change(random: &mut Random, memory: &mut Memory) {
    for _ in 0..random.pick(&[1, 1, 1, 2, 3]) {
        random.pick(&CHANGES)(random, memory);
    }
}
