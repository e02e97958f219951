//! A window over the static library.

#[path = "reads.rs"]
mod reads;

use crate::calls::Random;
use crate::declared::*;
use crate::line::Call;
use crate::reference::{Answer, Window};
use crate::window::WindowHeader;
use reads::{reads_due, BLOCK_CELLS};

impl From<WindowHeader> for Header {
    fn from(header: WindowHeader) -> Self {
        Self {
            window_size: header.window_size,
            n: header.n,
            demote_at: header.demote_at,
            len: header.len,
            retired_held: header.retired_held,
            release_cursor: header.release_cursor,
            base: header.base,
            point: header.point,
            nonempty_summary: header.nonempty_summary,
            retired_blocks: header.retired_blocks,
            promotions: header.promotions,
            single_demotions: header.single_demotions,
            range_demotions: header.range_demotions,
        }
    }
}

const SHORT_MEMORY: u32 = 6;
const LARGE_NUMBER: u32 = 8;
pub const LARGEST_BUDGET: u32 = 256;

pub fn numbered(code: u32, first: u32) -> NumberedAnswer {
    NumberedAnswer {
        code,
        first,
        second: 0,
        third: 0,
        fourth: 0,
    }
}

/// The source's answer as the library must write it. Only iter's is more than one step.
fn wanted(answer: &Answer) -> NumberedAnswer {
    match *answer {
        Answer::Nothing => numbered(DONE, 0),
        Answer::Inserted => numbered(1, 0),
        Answer::Replaced(old) => numbered(2, old),
        Answer::Absent => numbered(3, 0),
        Answer::Number(number) => numbered(4, number),
        Answer::Refused(refusal) => numbered(REFUSED, refusal),
        Answer::Released { released, units } => NumberedAnswer {
            second: units,
            ..numbered(6, released)
        },
        Answer::Pair { sequence, value } => NumberedAnswer {
            second: value,
            ..numbered(PAIR, sequence)
        },
        Answer::Pairs(_) => unreachable!("no step of the library"),
    }
}

/// Whether the call has a form with the header lent.
pub fn has_host_form(call: Call) -> bool {
    matches!(call, Call::Insert { .. } | Call::Remove(_) | Call::ReleaseRetired(_))
}

/// Whether the call takes a return list. Every call is named, so that a new one is not left out.
fn with_list(call: Call) -> bool {
    match call {
        Call::Insert { .. } | Call::RemoveRange { .. } | Call::ReleaseRetired(_) | Call::Clear | Call::ClearBounded(_) => true,
        Call::New { .. } | Call::Get(_) | Call::Remove(_) | Call::SuccessorAfter(_) | Call::FirstFrom(_) => false,
        Call::Exchange { .. } | Call::Stranger { .. } | Call::Iter | Call::SetBase(_) | Call::TakeFront => false,
    }
}

/// A call of the loss report, with the lists that it is lent besides the window's.
pub enum Report<'l> {
    /// The list to write.
    Write(&'l mut [u32]),
    /// The list to read, the bytes to write.
    Read(&'l [u32], &'l mut [u8]),
}

/// The lent memory, with room past the named lengths.
#[derive(Clone, PartialEq, Eq)]
struct Lists {
    sequences: Vec<u32>,
    values: Vec<u32>,
    pages: Vec<u64>,
    blocks: Vec<u64>,
    returned: Vec<u32>,
}

/// How many elements of each list a call is lent.
#[derive(Clone, Copy)]
struct Lengths {
    cells: [usize; 2],
    words: [usize; 2],
    returned: usize,
}

const PAST: usize = 5;
const RETURNED: usize = 384;

impl Lengths {
    fn named(window_size: u32) -> Self {
        let capacity = (window_size as usize).max(64).next_power_of_two();
        let pages = capacity / 64;
        Self {
            cells: [capacity; 2],
            words: [3 * pages, 3 * pages.div_ceil(64)],
            returned: RETURNED,
        }
    }

    /// With one list one short, the last of them the return list.
    fn shortened(mut self, list: u32) -> Self {
        match list {
            0..=1 => self.cells[list as usize] -= 1,
            2..=3 => self.words[list as usize - 2] -= 1,
            _ => self.returned -= 1,
        }
        self
    }
}

/// A window over the library.
#[derive(Clone)]
pub struct Library {
    header: Header,
    lists: Lists,
    lengths: Lengths,
    /// What the counts of demotions were at first: single_demotions, range_demotions.
    demotions: [u64; 2],
}

fn any_words(random: &mut Random, length: usize) -> Vec<u64> {
    (0..length).map(|_| random.next()).collect()
}

fn any_numbers(random: &mut Random, length: usize) -> Vec<u32> {
    (0..length).map(|_| random.any()).collect()
}

impl Library {
    /// A window that `new` makes over memory of any content.
    pub fn new(random: &mut Random, window_size: u32, n: u32, demote_at: u32) -> Result<Self, String> {
        let lengths = Lengths::named(window_size.clamp(1, 65536));
        let mut library = Self {
            header: Header::default(),
            lists: Lists {
                sequences: any_numbers(random, lengths.cells[0] + PAST),
                values: any_numbers(random, lengths.cells[1] + PAST),
                pages: any_words(random, lengths.words[0] + PAST),
                blocks: any_words(random, lengths.words[1] + PAST),
                returned: any_numbers(random, lengths.returned + PAST),
            },
            lengths,
            demotions: [0; 2],
        };
        let step = library.made(lengths, window_size, n, demote_at);
        if step.answer != numbered(DONE, 0) || step.count != 0 {
            return Err(format!("new {window_size} {n} {demote_at}: {:?}", step.answer));
        }
        library.header = step.window;
        Ok(library)
    }

    /// The new window goes on from these counts of demotions. No call looks at them.
    pub fn count_demotions_from(&mut self, demotions @ [single, range]: [u64; 2]) {
        (self.header.single_demotions, self.header.range_demotions) = (single, range);
        self.demotions = demotions;
    }

    /// Refusal 1, 2 or 3: a header of zeros, and nothing is written.
    pub fn refused(random: &mut Random, window_size: u32, n: u32, demote_at: u32, refusal: u32) -> Result<(), String> {
        let mut library = Self::new(random, 64, 1, 0)?;
        let before = library.lists.clone();
        let step = library.made(library.lengths, window_size, n, demote_at);
        if step.answer != numbered(REFUSED, refusal) || step.count != 0 || step.window != Header::default() || library.lists != before {
            return Err(format!("new {window_size} {n} {demote_at}: {:?}, not refusal {refusal}", step.answer));
        }
        Ok(())
    }

    fn made(&mut self, lengths: Lengths, window_size: u32, n: u32, demote_at: u32) -> NumberedStep {
        let Lists { sequences: s, values: v, pages: p, blocks: b, .. } = &mut self.lists;
        let (sl, vl, pl, bl) = (lengths.cells[0], lengths.cells[1], lengths.words[0], lengths.words[1]);
        unsafe {
            packet_window_new(
                s.as_mut_ptr(), sl, v.as_mut_ptr(), vl, p.as_mut_ptr(), pl, b.as_mut_ptr(), bl,
                window_size, n, demote_at,
            )
        }
    }

    /// One step of the library, of any call but new, by the host form if `host` says so. For iter the step from `cell`.
    fn step(&mut self, lengths: Lengths, call: Call, host: bool, cell: u32) -> NumberedStep {
        if host {
            return self.host_step(lengths, call);
        }
        let w = self.header;
        let Lists { sequences, values, pages, blocks, returned } = &mut self.lists;
        let (sl, vl, pl, bl) = (lengths.cells[0], lengths.cells[1], lengths.words[0], lengths.words[1]);
        let (s, v, p, b) = (sequences.as_mut_ptr(), values.as_mut_ptr(), pages.as_mut_ptr(), blocks.as_mut_ptr());
        let (r, rl) = (returned.as_mut_ptr(), lengths.returned);
        unsafe {
            match call {
                Call::New { .. } => unreachable!("new makes a window, it is no call on one"),
                Call::Insert { sequence, value } => packet_window_insert(w, s, sl, v, vl, p, pl, b, bl, r, rl, sequence, value),
                Call::Get(sequence) => packet_window_get(w, s, sl, v, vl, p, pl, b, bl, sequence),
                Call::Remove(sequence) => packet_window_remove(w, s, sl, v, vl, p, pl, b, bl, sequence),
                Call::SetBase(base) => packet_window_set_base(w, s, sl, v, vl, p, pl, b, bl, base),
                Call::TakeFront => packet_window_take_front(w, s, sl, v, vl, p, pl, b, bl),
                Call::SuccessorAfter(sequence) => packet_window_successor_after(w, s, sl, v, vl, p, pl, b, bl, sequence),
                Call::FirstFrom(sequence) => packet_window_first_from(w, s, sl, v, vl, p, pl, b, bl, sequence),
                Call::Exchange { sequence, value } => packet_window_exchange(w, s, sl, v, vl, p, pl, b, bl, sequence, value),
                Call::Iter => packet_window_iter(w, s, sl, v, vl, p, pl, b, bl, cell),
                Call::Stranger { first, last } => packet_window_stranger(w, s, sl, v, vl, p, pl, b, bl, first, last),
                Call::RemoveRange { first, last } => packet_window_remove_range(w, s, sl, v, vl, p, pl, b, bl, r, rl, first, last),
                Call::ReleaseRetired(budget) => packet_window_release_retired(w, s, sl, v, vl, p, pl, b, bl, r, rl, budget),
                Call::Clear => packet_window_clear(w, s, sl, v, vl, p, pl, b, bl, r, rl),
                Call::ClearBounded(number) => packet_window_clear_bounded(w, s, sl, v, vl, p, pl, b, bl, r, rl, number),
            }
        }
    }

    /// The same by the host form: a copy of the header is lent, and comes back as the step's.
    fn host_step(&mut self, lengths: Lengths, call: Call) -> NumberedStep {
        let mut window = self.header;
        let w: *mut Header = &mut window;
        let Lists { sequences, values, pages, blocks, returned } = &mut self.lists;
        let (sl, vl, pl, bl) = (lengths.cells[0], lengths.cells[1], lengths.words[0], lengths.words[1]);
        let (s, v, p, b) = (sequences.as_mut_ptr(), values.as_mut_ptr(), pages.as_mut_ptr(), blocks.as_mut_ptr());
        let (r, rl) = (returned.as_mut_ptr(), lengths.returned);
        let NumberedOutcome { answer, count } = unsafe {
            match call {
                Call::Insert { sequence, value } => packet_window_host_insert(w, s, sl, v, vl, p, pl, b, bl, r, rl, sequence, value),
                Call::Remove(sequence) => packet_window_host_remove(w, s, sl, v, vl, p, pl, b, bl, sequence),
                Call::ReleaseRetired(budget) => packet_window_host_release_retired(w, s, sl, v, vl, p, pl, b, bl, r, rl, budget),
                _ => unreachable!("no host form"),
            }
        };
        NumberedStep { window, answer, count }
    }

    /// With one list one short: refusal 6, and nothing is written.
    pub fn short(&mut self, random: &mut Random, call: Call, host: bool) -> Result<(), String> {
        let lengths = self.lengths.shortened(random.below(if with_list(call) { 5 } else { 4 }));
        self.refuses(lengths, call, host, SHORT_MEMORY)
    }

    /// The call is refused so, and nothing is written.
    fn refuses(&mut self, lengths: Lengths, call: Call, host: bool, refusal: u32) -> Result<(), String> {
        let before = self.lists.clone();
        let step = self.step(lengths, call, host, 0);
        if step.answer != numbered(REFUSED, refusal) || step.count != 0 || step.window != self.header || self.lists != before {
            return Err(format!("{:?}, due is refusal {refusal}, with nothing altered", step.answer));
        }
        Ok(())
    }

    /// What a loss report of first to last answers, with one list of the window one short if `short` says so. It must alter nothing of
    /// the window.
    pub fn report(&mut self, report: Report, first: u32, last: u32, short: Option<u32>) -> Result<NumberedAnswer, String> {
        let before = self.lists.clone();
        let lengths = short.map_or(self.lengths, |list| self.lengths.shortened(list));
        let (w, Lengths { cells: [sl, vl], words: [pl, bl], .. }) = (self.header, lengths);
        let Lists { sequences: s, values: v, pages: p, blocks: b, .. } = &mut self.lists;
        let (s, v, p, b) = (s.as_mut_ptr(), v.as_mut_ptr(), p.as_mut_ptr(), b.as_mut_ptr());
        let step = unsafe {
            match report {
                Report::Write(words) => {
                    packet_window_write_losses(w, s, sl, v, vl, p, pl, b, bl, words.as_mut_ptr(), words.len(), first, last)
                }
                Report::Read(words, lost) => packet_window_read_losses(
                    w, s, sl, v, vl, p, pl, b, bl, words.as_ptr(), words.len(), lost.as_mut_ptr(), lost.len(), first, last,
                ),
            }
        };
        if step.window != self.header || step.count != 0 || self.lists != before {
            return Err(format!("a report of {first} to {last} altered the window, count {}", step.count));
        }
        Ok(step.answer)
    }

    /// A visit: the values that release_retired returns.
    pub fn visit(&mut self, budget: u32, host: bool) -> Result<Vec<u32>, String> {
        let step = self.step(self.lengths, Call::ReleaseRetired(budget), host, 0);
        self.header = step.window;
        match step.answer {
            NumberedAnswer { code: RELEASED, first, second, third: 0, fourth: 0 } if first == step.count && second <= budget => {
                Ok(self.lists.returned[..first as usize].to_vec())
            }
            other => Err(format!("a visit of {budget} answers {other:?}, count {}", step.count)),
        }
    }

    /// A visit that is refused: with a return list one place short, or with a budget that is too large.
    pub fn refused_visit(&mut self, budget: u32, host: bool) -> Result<(), String> {
        if budget > LARGEST_BUDGET {
            return self.refuses(self.lengths, Call::ReleaseRetired(budget), host, LARGE_NUMBER);
        }
        let mut lengths = self.lengths;
        lengths.returned -= 1;
        self.refuses(lengths, Call::ReleaseRetired(budget), host, SHORT_MEMORY)
    }

    /// How many values are held retired.
    pub fn held(&self) -> u32 {
        self.header.retired_held
    }

    pub fn page_count(&self) -> u32 {
        self.lengths.cells[0] as u32 / 64
    }

    /// The same window with its release cursor at this page.
    pub fn with_cursor(&self, page: u32) -> Self {
        let mut moved = self.clone();
        moved.header.release_cursor = page;
        moved
    }

    /// Whether check says that the state is sound.
    pub fn is_sound(&mut self) -> bool {
        let (w, Lengths { cells: [sl, vl], words: [pl, bl], .. }) = (self.header, self.lengths);
        let Lists { sequences: s, values: v, pages: p, blocks: b, .. } = &mut self.lists;
        let (s, v, p, b) = (s.as_mut_ptr(), v.as_mut_ptr(), p.as_mut_ptr(), b.as_mut_ptr());
        unsafe { packet_window_check(w, s, sl, v, vl, p, pl, b, bl) }.answer == numbered(DONE, 0)
    }

    /// The call on both, compared with what the source answered and dropped.
    pub fn call(&mut self, call: Call, host: bool, answer: &Answer, dropped: &[u32]) -> Result<(), String> {
        if let Answer::Pairs(pairs) = answer {
            return self.pairs(call, pairs);
        }
        let before = self.lists.returned.clone();
        let step = self.step(self.lengths, call, host, 0);
        self.header = step.window;
        let count = step.count as usize;
        if step.answer != wanted(answer) {
            return Err(format!("answer {:?}, the source's {answer:?}", step.answer));
        }
        if count != dropped.len() || self.lists.returned[..count] != *dropped {
            return Err(format!("returned {:?}, the source's {dropped:?}", &self.lists.returned[..count]));
        }
        if self.lists.returned[count..] != before[count..] {
            return Err("the return list past the count changed".to_string());
        }
        Ok(())
    }

    /// The pairs that iter gives from cell 0 until done are the source's; from any other cell it goes on with the same pairs.
    fn pairs(&mut self, call: Call, pairs: &[(u32, u32)]) -> Result<(), String> {
        let before = (self.header, self.lists.clone());
        let (mut cell, mut cells) = (0, Vec::new());
        while let Some((found, pair)) = self.next_pair(call, cell)? {
            cells.push((found, pair));
            cell = found + 1;
        }
        let found: Vec<_> = cells.iter().map(|&(_, pair)| pair).collect();
        if found != pairs {
            return Err(format!("iter gives {found:?}, the source {pairs:?}"));
        }
        let capacity = self.lengths.cells[0] as u32;
        let edges = (BLOCK_CELLS..capacity).step_by(BLOCK_CELLS as usize).flat_map(|start| [start - 1, start]);
        for cell in edges.chain([capacity - 1, capacity, capacity + 1, u32::MAX]) {
            let due = cells.iter().copied().find(|&(found, _)| found >= cell);
            let given = self.next_pair(call, cell)?;
            if given != due {
                return Err(format!("iter from {cell} gives {given:?}, from 0 on it gave {due:?}"));
            }
        }
        if before != (self.header, self.lists.clone()) {
            return Err("iter altered the window".to_string());
        }
        Ok(())
    }

    /// A step of iter: the cell that it found and the pair there, if it found one; its reads are those of document 02.
    fn next_pair(&mut self, call: Call, cell: u32) -> Result<Option<(u32, (u32, u32))>, String> {
        let answer = self.step(self.lengths, call, false, cell).answer;
        let given = match answer {
            NumberedAnswer { code: PAIR, first, second, third, .. } if third > cell => Some((third - 1, (first, second))),
            NumberedAnswer { code: DONE, first: 0, second: 0, third: 0, .. } => None,
            other => return Err(format!("iter from {cell}: {other:?}")),
        };
        let due = reads_due(self.lengths.cells[0] as u32, cell, given.map(|(found, _)| found));
        if answer.fourth != due {
            return Err(format!("iter from {cell}: {answer:?}, {due} reads are due"));
        }
        Ok(given)
    }

    /// The header as it must be beside the source's: the counts of demotions go on from those at first, modulo 2^64.
    fn due(&self, source: WindowHeader) -> Header {
        let [single, range] = self.demotions;
        let header = Header::from(source);
        Header {
            single_demotions: header.single_demotions.wrapping_add(single),
            range_demotions: header.range_demotions.wrapping_add(range),
            ..header
        }
    }

    /// What is not as the source has it: header, block words, and of the pages in `pages` words and cells in use.
    pub fn differs(&self, source: &dyn Window, pages: impl Iterator<Item = usize>) -> Option<String> {
        let due = self.due(source.header());
        if self.header != due {
            return Some(format!("header {:?}, due by the source's {due:?}", self.header));
        }
        let words = source.block_words();
        if self.lists.blocks[..words.len()] != *words {
            return Some(format!("block words, the source's {words:x?}"));
        }
        for page in pages {
            let words = source.page_words(page);
            if self.lists.pages[3 * page..3 * page + 3] != [words.kind, words.occupied, words.filled] {
                return Some(format!("words of page {page}, the source's {words:x?}"));
            }
            for (cell, sequence, value) in source.page_cells(page) {
                let at = 64 * page + cell;
                if (self.lists.sequences[at], self.lists.values[at]) != (sequence, value) {
                    return Some(format!("cell {cell} of page {page}, the source's {sequence} {value}"));
                }
            }
        }
        None
    }

    /// The header, and the lists by their named lengths.
    pub fn parts(&self) -> (Header, [&[u32]; 2], [&[u64]; 2]) {
        let (Lengths { cells, words, .. }, lists) = (self.lengths, &self.lists);
        let numbers = [&lists.sequences[..cells[0]], &lists.values[..cells[1]]];
        (self.header, numbers, [&lists.pages[..words[0]], &lists.blocks[..words[1]]])
    }

    /// The elements past the named lengths.
    pub fn past(&self) -> (Vec<u32>, Vec<u64>) {
        let Lengths { cells, words, .. } = self.lengths;
        let numbers = [&self.lists.sequences[cells[0]..], &self.lists.values[cells[1]..]].concat();
        (numbers, [&self.lists.pages[words[0]..], &self.lists.blocks[words[1]..]].concat())
    }
}
