//! Document 01's sentence on `check` and document 02's on the base and on sequences, clause by clause, over a header and its lent lists.

use crate::declared::Header;
use std::collections::BTreeSet;

/// A header and the lists that it speaks of, as a copy.
#[derive(Clone, PartialEq, Eq)]
pub struct State {
    pub header: Header,
    pub sequences: Vec<u32>,
    pub values: Vec<u32>,
    pub pages: Vec<u64>,
    pub blocks: Vec<u64>,
}

/// The clauses, in the sentence's order.
#[derive(Debug, Clone, Copy, PartialEq, Eq, PartialOrd, Ord)]
pub enum Clause {
    Kinds,
    NoneIsEmpty,
    OthersAreOccupied,
    OccupiedNamesTheFilled,
    EachOnce,
    OfThisPage,
    SequencesHave31Bits,
    SparseFillsTheFirstN,
    DenseByPosition,
    LiveDenseAboveDemoteAt,
    NonemptyWords,
    Summary,
    MarksOnNonemptyPages,
    LiveWords,
    Len,
    RetiredHeld,
    CursorIsAPage,
    BitsPastTheLastPage,
    BitsPastTheLastBlock,
    NoneHeldMeansNoMark,
    BaseHas31Bits,
    PointIsRight,
}

pub const CLAUSES: [Clause; 22] = [
    Clause::Kinds,
    Clause::NoneIsEmpty,
    Clause::OthersAreOccupied,
    Clause::OccupiedNamesTheFilled,
    Clause::EachOnce,
    Clause::OfThisPage,
    Clause::SequencesHave31Bits,
    Clause::SparseFillsTheFirstN,
    Clause::DenseByPosition,
    Clause::LiveDenseAboveDemoteAt,
    Clause::NonemptyWords,
    Clause::Summary,
    Clause::MarksOnNonemptyPages,
    Clause::LiveWords,
    Clause::Len,
    Clause::RetiredHeld,
    Clause::CursorIsAPage,
    Clause::BitsPastTheLastPage,
    Clause::BitsPastTheLastBlock,
    Clause::NoneHeldMeansNoMark,
    Clause::BaseHas31Bits,
    Clause::PointIsRight,
];

pub const HALF: u32 = 1 << 31;

pub fn bit(word: u64, at: usize) -> bool {
    at < 64 && word >> at & 1 == 1
}

fn bits(word: u64) -> impl Iterator<Item = usize> {
    (0..64).filter(move |&at| bit(word, at))
}

impl State {
    pub fn capacity(&self) -> usize {
        (self.header.window_size as usize).max(64).next_power_of_two()
    }

    pub fn page_count(&self) -> usize {
        self.capacity() / 64
    }

    pub fn block_count(&self) -> usize {
        self.page_count().div_ceil(64)
    }

    pub fn kind(&self, page: usize) -> u64 {
        self.pages[3 * page]
    }

    pub fn occupied(&self, page: usize) -> u64 {
        self.pages[3 * page + 1]
    }

    pub fn filled(&self, page: usize) -> u64 {
        self.pages[3 * page + 2]
    }

    fn nonempty(&self, block: usize) -> u64 {
        self.blocks[3 * block]
    }

    fn marks(&self, block: usize) -> u64 {
        self.blocks[3 * block + 1]
    }

    pub fn retired(&self, page: usize) -> bool {
        bit(self.header.retired_blocks, page / 64) || bit(self.marks(page / 64), page % 64)
    }

    /// The values of pages that are retired, or of those that are not.
    fn values_of(&self, pages: impl Iterator<Item = usize>, retired: bool) -> u64 {
        pages.filter(|&page| self.retired(page) == retired).map(|page| u64::from(self.occupied(page).count_ones())).sum()
    }

    /// Whether a page that is not retired has the sequence in a cell in use.
    fn live(&self, sequence: u32) -> bool {
        let page = sequence as usize % self.capacity() / 64;
        !self.retired(page) && bits(self.filled(page)).any(|cell| self.sequences[64 * page + cell] == sequence)
    }

    /// The first sequence from the base that is not live, at most window_size from it, modulo 2^31.
    fn point(&self) -> u32 {
        let after = |steps: u32| self.header.base.wrapping_add(steps) % HALF;
        let reach = (0..self.header.window_size).find(|&steps| !self.live(after(steps)));
        after(reach.unwrap_or(self.header.window_size))
    }

    fn page(&self, page: usize, broken: &mut BTreeSet<Clause>) {
        let (kind, occupied, filled) = (self.kind(page), self.occupied(page), self.filled(page));
        let mut fails = |clause, holds: bool| {
            if !holds {
                broken.insert(clause);
            }
        };
        fails(Clause::Kinds, kind <= 2);
        fails(Clause::NoneIsEmpty, kind != 0 || (occupied == 0 && filled == 0));
        fails(Clause::OthersAreOccupied, kind == 0 || occupied != 0);
        let sequence = |cell: usize| self.sequences[64 * page + cell] as usize;
        let mut named = 0;
        for cell in bits(filled) {
            let slot = sequence(cell) % 64;
            fails(Clause::EachOnce, !bit(named, slot));
            named |= 1 << slot;
            fails(Clause::OfThisPage, sequence(cell) % self.capacity() / 64 == page);
            fails(Clause::SequencesHave31Bits, sequence(cell) < HALF as usize);
            fails(Clause::SparseFillsTheFirstN, kind != 1 || cell < self.header.n as usize);
            fails(Clause::DenseByPosition, kind != 2 || slot == cell);
        }
        fails(Clause::OccupiedNamesTheFilled, named == occupied);
        fails(Clause::DenseByPosition, kind != 2 || filled == occupied);
        let (live, demote_at) = (!self.retired(page), self.header.demote_at);
        fails(Clause::LiveDenseAboveDemoteAt, kind != 2 || !live || demote_at == 0 || occupied.count_ones() > demote_at);
        fails(Clause::NonemptyWords, bit(self.nonempty(page / 64), page % 64) == (occupied != 0));
        fails(Clause::MarksOnNonemptyPages, !bit(self.marks(page / 64), page % 64) || occupied != 0);
    }

    /// Whether a cell in use of a retired page has a sequence of more than 31 bits.
    pub fn wide_in_a_retired_page(&self) -> bool {
        let wide = |page: usize| bits(self.filled(page)).any(|cell| self.sequences[64 * page + cell] >= HALF);
        (0..self.page_count()).any(|page| self.retired(page) && wide(page))
    }

    /// The clauses that do not hold; none of a sound state.
    pub fn broken(&self) -> BTreeSet<Clause> {
        let mut broken = BTreeSet::new();
        let (pages, blocks, header) = (self.page_count(), self.block_count(), self.header);
        for page in 0..pages {
            self.page(page, &mut broken);
        }
        let mut fails = |clause, holds: bool| {
            if !holds {
                broken.insert(clause);
            }
        };
        for block in 0..blocks {
            let own = 64 * block..(64 * block + 64).min(pages);
            fails(Clause::Summary, bit(header.nonempty_summary, block) == (self.nonempty(block) != 0));
            fails(Clause::LiveWords, self.blocks[3 * block + 2] == self.values_of(own.clone(), false));
            let past = |word: u64| bits(word).any(|at| at >= own.len());
            fails(Clause::BitsPastTheLastPage, !past(self.nonempty(block)) && !past(self.marks(block)));
            fails(Clause::NoneHeldMeansNoMark, header.retired_held != 0 || self.marks(block) == 0);
        }
        fails(Clause::Len, u64::from(header.len) == self.values_of(0..pages, false));
        fails(Clause::RetiredHeld, u64::from(header.retired_held) == self.values_of(0..pages, true));
        fails(Clause::CursorIsAPage, (header.release_cursor as usize) < pages);
        let past = |word: u64| bits(word).any(|at| at >= blocks);
        fails(Clause::BitsPastTheLastBlock, !past(header.nonempty_summary) && !past(header.retired_blocks));
        fails(Clause::NoneHeldMeansNoMark, header.retired_held != 0 || header.retired_blocks == 0);
        fails(Clause::BaseHas31Bits, header.base < HALF);
        fails(Clause::PointIsRight, header.point == self.point());
        broken
    }
}
