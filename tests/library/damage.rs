//! Changes to a copy of a sound state, most of them aimed at one clause.

use crate::calls::Random;
use crate::soundness::{bit, State, HALF};

fn below(random: &mut Random, end: usize) -> usize {
    random.below(end as u32) as usize
}

/// One of the pages that the test picks, if there is one.
fn page_where(random: &mut Random, state: &State, picks: impl Fn(&State, usize) -> bool) -> Option<usize> {
    let pages: Vec<usize> = (0..state.page_count()).filter(|&page| picks(state, page)).collect();
    (!pages.is_empty()).then(|| pages[below(random, pages.len())])
}

/// One of the bits of a word that are set, or of those that are not.
fn bit_where(random: &mut Random, word: u64, set: bool) -> Option<usize> {
    let places: Vec<usize> = (0..64).filter(|&at| bit(word, at) == set).collect();
    (!places.is_empty()).then(|| places[below(random, places.len())])
}

fn some_page(random: &mut Random, state: &State) -> Option<usize> {
    page_where(random, state, |state, page| state.occupied(page) != 0)
}

fn empty_page(random: &mut Random, state: &State) -> Option<usize> {
    page_where(random, state, |state, page| state.occupied(page) == 0)
}

fn kind_3(random: &mut Random, state: &mut State) -> Option<()> {
    let page = some_page(random, state)?;
    state.pages[3 * page] = 3;
    Some(())
}

fn kind_0_with_values(random: &mut Random, state: &mut State) -> Option<()> {
    let page = some_page(random, state)?;
    state.pages[3 * page] = 0;
    Some(())
}

fn kind_1_without_a_value(random: &mut Random, state: &mut State) -> Option<()> {
    let page = empty_page(random, state)?;
    state.pages[3 * page] = 1;
    Some(())
}

/// A position named that no filled cell has, for one that a cell has.
fn another_position_named(random: &mut Random, state: &mut State) -> Option<()> {
    let page = page_where(random, state, |state, page| state.kind(page) == 1)?;
    let word = state.occupied(page);
    let (from, to) = (bit_where(random, word, true)?, bit_where(random, word, false)?);
    state.pages[3 * page + 1] = word & !(1 << from) | 1 << to;
    Some(())
}

/// Two cells of one position; the counts follow.
fn one_position_twice(random: &mut Random, state: &mut State) -> Option<()> {
    let page = page_where(random, state, |state, page| {
        state.kind(page) == 1 && state.occupied(page).count_ones() > 1 && !state.retired(page)
    })?;
    let filled = state.filled(page);
    let cell = bit_where(random, filled, true)?;
    let other = bit_where(random, filled & !(1 << cell), true)?;
    let lost = state.sequences[64 * page + other] % 64;
    state.sequences[64 * page + other] = state.sequences[64 * page + cell];
    state.pages[3 * page + 1] &= !(1 << lost);
    state.blocks[3 * (page / 64) + 2] -= 1;
    state.header.len -= 1;
    Some(())
}

fn sequence_of_another_page(random: &mut Random, state: &mut State) -> Option<()> {
    let page = some_page(random, state)?;
    let filled = state.filled(page);
    let cell = 64 * page + bit_where(random, filled, true)?;
    state.sequences[cell] = state.sequences[cell].wrapping_add(64);
    Some(())
}

/// The top bit of a sequence in use, in a page that is retired or in one that is not.
fn sequence_of_32_bits(random: &mut Random, state: &mut State) -> Option<()> {
    let retired = random.percent(50);
    let page = page_where(random, state, |state, page| state.occupied(page) != 0 && state.retired(page) == retired)?;
    let filled = state.filled(page);
    let cell = 64 * page + bit_where(random, filled, true)?;
    state.sequences[cell] |= HALF;
    Some(())
}

/// A value of a sparse page in a cell from N on.
fn cell_past_n(random: &mut Random, state: &mut State) -> Option<()> {
    let page = page_where(random, state, |state, page| state.kind(page) == 1)?;
    let (filled, n) = (state.filled(page), state.header.n as usize);
    let from = bit_where(random, filled, true)?;
    let to = n + below(random, 64 - n);
    state.sequences[64 * page + to] = state.sequences[64 * page + from];
    state.pages[3 * page + 2] = filled & !(1 << from) | 1 << to;
    Some(())
}

/// Two cells of a dense page, one for the other.
fn dense_cells_exchanged(random: &mut Random, state: &mut State) -> Option<()> {
    let page = page_where(random, state, |state, page| state.kind(page) == 2)?;
    let filled = state.filled(page);
    let cell = bit_where(random, filled, true)?;
    let other = bit_where(random, filled & !(1 << cell), true)?;
    state.sequences.swap(64 * page + cell, 64 * page + other);
    Some(())
}

fn demote_at_of_n(random: &mut Random, state: &mut State) -> Option<()> {
    let _ = random;
    state.header.demote_at = state.header.n;
    Some(())
}

fn nonempty_bit(random: &mut Random, state: &mut State) -> Option<()> {
    let page = below(random, state.page_count());
    state.blocks[3 * (page / 64)] ^= 1 << (page % 64);
    Some(())
}

fn summary_bit(random: &mut Random, state: &mut State) -> Option<()> {
    state.header.nonempty_summary ^= 1 << below(random, state.block_count());
    Some(())
}

fn mark_on_an_empty_page(random: &mut Random, state: &mut State) -> Option<()> {
    let page = empty_page(random, state)?;
    state.blocks[3 * (page / 64) + 1] |= 1 << (page % 64);
    Some(())
}

fn live_word(random: &mut Random, state: &mut State) -> Option<()> {
    let block = below(random, state.block_count());
    state.blocks[3 * block + 2] = state.blocks[3 * block + 2].wrapping_add(1 + u64::from(random.below(3)));
    Some(())
}

fn len(random: &mut Random, state: &mut State) -> Option<()> {
    state.header.len = state.header.len.wrapping_add(1 + random.below(3));
    Some(())
}

fn retired_held(random: &mut Random, state: &mut State) -> Option<()> {
    state.header.retired_held = state.header.retired_held.wrapping_add(1 + random.below(3));
    Some(())
}

fn cursor_past_the_pages(random: &mut Random, state: &mut State) -> Option<()> {
    state.header.release_cursor = state.page_count() as u32 + random.below(2);
    Some(())
}

fn bit_past_the_last_page(random: &mut Random, state: &mut State) -> Option<()> {
    let pages = state.page_count();
    (pages < 64).then(|| state.blocks[below(random, 2)] |= 1 << (pages + below(random, 64 - pages)))
}

fn bit_past_the_last_block(random: &mut Random, state: &mut State) -> Option<()> {
    let blocks = state.block_count();
    let mask = 1 << (blocks + below(random, 64 - blocks));
    if random.percent(50) {
        state.header.nonempty_summary |= mask;
    } else {
        state.header.retired_blocks |= mask;
    }
    Some(())
}

fn block_mark(random: &mut Random, state: &mut State) -> Option<()> {
    state.header.retired_blocks |= 1 << below(random, state.block_count());
    Some(())
}

fn base_of_32_bits(random: &mut Random, state: &mut State) -> Option<()> {
    state.header.base |= HALF;
    if random.percent(20) {
        state.header.point |= HALF;
    }
    Some(())
}

/// Another base: the point is then mostly that of the old one.
fn another_base(random: &mut Random, state: &mut State) -> Option<()> {
    let base = state.header.base;
    let point = state.header.point;
    state.header.base = match random.below(4) {
        0 => base.wrapping_add(1),
        1 => base.wrapping_sub(1),
        2 => point,
        _ => random.any(),
    } % HALF;
    Some(())
}

fn another_point(random: &mut Random, state: &mut State) -> Option<()> {
    let point = state.header.point;
    let past = state.header.base.wrapping_add(state.header.window_size) % HALF;
    state.header.point = match random.below(6) {
        0 => point.wrapping_add(1),
        1 => point.wrapping_sub(1),
        2 => point | HALF,
        3 => state.header.base,
        4 => past,
        _ => random.any(),
    };
    Some(())
}

/// Any counts of demotions: the state stays sound.
fn any_demotions(random: &mut Random, state: &mut State) -> Option<()> {
    state.header.single_demotions = random.pick(&[0, u64::MAX - 1, u64::MAX]);
    state.header.range_demotions = random.next();
    Some(())
}

fn any_page_word(random: &mut Random, state: &mut State) -> Option<()> {
    let word = below(random, 3 * state.page_count());
    state.pages[word] ^= 1 << below(random, 64);
    Some(())
}

fn any_block_word(random: &mut Random, state: &mut State) -> Option<()> {
    let word = below(random, 3 * state.block_count());
    state.blocks[word] ^= 1 << below(random, 64);
    Some(())
}

fn any_sequence(random: &mut Random, state: &mut State) -> Option<()> {
    let cell = below(random, state.capacity());
    state.sequences[cell] ^= 1 << below(random, 32);
    Some(())
}

type Damage = fn(&mut Random, &mut State) -> Option<()>;

const DAMAGES: [Damage; 27] = [
    kind_3,
    kind_0_with_values,
    kind_1_without_a_value,
    another_position_named,
    one_position_twice,
    sequence_of_another_page,
    sequence_of_32_bits,
    cell_past_n,
    dense_cells_exchanged,
    demote_at_of_n,
    nonempty_bit,
    summary_bit,
    mark_on_an_empty_page,
    live_word,
    len,
    retired_held,
    cursor_past_the_pages,
    bit_past_the_last_page,
    bit_past_the_last_block,
    block_mark,
    base_of_32_bits,
    another_base,
    another_point,
    any_demotions,
    any_page_word,
    any_block_word,
    any_sequence,
];

/// One change, of those that the state has a place for.
pub fn damaged(random: &mut Random, state: &mut State) {
    while DAMAGES[below(random, DAMAGES.len())](random, state).is_none() {}
}
