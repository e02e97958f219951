//! The whole state of a window as a line of text, for comparisons with the
//! port's words: header, block words, and each page that holds a value.
//!
//! Header numbers; `|`; the words of each block; `|`; for each such page its
//! number, kind, occupied, filled and its cells in use as cell.sequence.value,
//! pages parted by `;`.

use crate::reference::{Memory, Window};
use crate::window::WindowHeader;

pub fn written(window: &dyn Window) -> String {
    let blocks = joined(window.block_words().iter());
    let pages: Vec<String> = (0..window.page_count())
        .filter(|&page| window.page_words(page).kind != 0)
        .map(|page| written_page(window, page))
        .collect();
    format!(
        "{}|{blocks}|{}",
        written_header(&window.header()),
        pages.join(";")
    )
}

fn written_header(header: &WindowHeader) -> String {
    let small = [
        header.window_size,
        header.n,
        header.demote_at,
        header.len,
        header.retired_held,
        header.release_cursor,
        header.base,
        header.point,
    ];
    let words = [
        header.nonempty_summary,
        header.retired_blocks,
        header.single_demotions,
        header.range_demotions,
        header.promotions,
    ];
    format!("{} {}", joined(small.iter()), joined(words.iter()))
}

fn written_page<M: Memory + ?Sized>(window: &M, page: usize) -> String {
    let words = window.page_words(page);
    let mut line = format!("{page} {} {} {}", words.kind, words.occupied, words.filled);
    for (cell, sequence, value) in window.page_cells(page) {
        line.push_str(&format!(" {cell}.{sequence}.{value}"));
    }
    line
}

fn joined<T: ToString>(numbers: impl Iterator<Item = T>) -> String {
    numbers
        .map(|number| number.to_string())
        .collect::<Vec<String>>()
        .join(" ")
}
