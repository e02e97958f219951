// Read-only access to the private fields of the source's window.
//
// `build` appends this file to a copy of the source, so that it stands in the
// same module as the private fields it reads. Nothing here writes.
//
// The words are given in the order in which the port keeps them: a page as
// kind, occupied, filled; a block as nonempty, retired, live.

/// The header of the port, read from the source's fields. The source has no
/// base and no point, and one count of demotions: base, point and the
/// demotions by cause are worked out beside it.
#[derive(Debug, Clone, Copy, PartialEq, Eq)]
pub struct WindowHeader {
    pub window_size: u32,
    pub n: u32,
    pub demote_at: u32,
    pub len: u32,
    pub retired_held: u32,
    pub release_cursor: u32,
    pub base: u32,
    pub point: u32,
    pub nonempty_summary: u64,
    pub retired_blocks: u64,
    pub single_demotions: u64,
    pub range_demotions: u64,
    pub promotions: u64,
}

/// One page as the port keeps it. A page that is not there is all zero.
#[derive(Debug, Clone, Copy, PartialEq, Eq)]
pub struct PageWords {
    /// 0 none, 1 sparse, 2 dense.
    pub kind: u64,
    pub occupied: u64,
    /// Bit c: cell c is in use. The source has no such word; it is read off
    /// the cells.
    pub filled: u64,
}

impl<T, const N: usize> Page<T, N> {
    /// The page's cells: N of them when sparse, 64 when dense.
    fn cells(&self) -> &[Option<Slot<T>>] {
        match self {
            Self::Sparse(page) => &page.entries,
            Self::Dense(page) => &page.slots,
        }
    }

    fn words(&self) -> PageWords {
        let filled = self
            .cells()
            .iter()
            .enumerate()
            .filter(|(_, cell)| cell.is_some())
            .fold(0, |word, (cell, _)| word | 1 << cell);
        PageWords {
            kind: match self {
                Self::Sparse(_) => 1,
                Self::Dense(_) => 2,
            },
            occupied: self.occupied(),
            filled,
        }
    }
}

impl<T, const N: usize> AdaptiveReceiverPacketWindow<T, N> {
    /// Retired values still held.
    pub fn retired_held(&self) -> u32 {
        self.retired_held
    }

    /// Pages that hold a value and are retired, by their own mark or by their
    /// block's: those that a release would inspect.
    pub fn retired_pages_held(&self) -> usize {
        (0..self.pages.len())
            .filter(|&page| self.pages[page].is_some() && !self.reachable(page))
            .count()
    }

    pub fn window_size(&self) -> u32 {
        self.window_size
    }

    pub fn header(
        &self,
        base: u32,
        point: u32,
        single_demotions: u64,
        range_demotions: u64,
    ) -> WindowHeader {
        WindowHeader {
            window_size: self.window_size,
            n: N as u32,
            demote_at: self.demote_at as u32,
            len: self.len,
            retired_held: self.retired_held,
            release_cursor: self.release_cursor,
            base,
            point,
            nonempty_summary: self.nonempty_summary,
            retired_blocks: self.retired_blocks,
            single_demotions,
            range_demotions,
            promotions: self.promotions as u64,
        }
    }

    pub fn capacity(&self) -> usize {
        self.index_mask + 1
    }

    pub fn page_count(&self) -> usize {
        self.pages.len()
    }

    /// Three words for each block: nonempty pages, retired pages, live values.
    pub fn block_words(&self) -> &[u64] {
        &self.page_masks
    }

    pub fn page_words(&self, page: usize) -> PageWords {
        self.pages[page].as_ref().map_or(
            PageWords {
                kind: 0,
                occupied: 0,
                filled: 0,
            },
            Page::words,
        )
    }

    /// The cells in use of one page by rising cell: cell, sequence, value.
    pub fn page_cells(&self, page: usize) -> impl Iterator<Item = (usize, u32, &T)> {
        self.pages[page]
            .iter()
            .flat_map(|page| page.cells().iter().enumerate())
            .filter_map(|(cell, slot)| {
                let slot = slot.as_ref()?;
                Some((cell, slot.sequence, &slot.value))
            })
    }
}
