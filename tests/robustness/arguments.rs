//! The arguments of calls: near the edges, near what the window holds, and any.

use crate::calls::Random;
use crate::declared::Header;
use crate::memory::{capacity, named, Memory, BLOCKS, LARGEST_WINDOW, PAGES, SEQUENCES};
use crate::operations::{form, Call, Numbers, LARGEST_BUDGET, OPERATIONS};

const HALF: u32 = 1 << 31;

fn edge(random: &mut Random, window_size: u32) -> u32 {
    let capacity = capacity(window_size) as u32;
    let near = random.pick(&[0, 64, 128, window_size, capacity, LARGEST_BUDGET, HALF, LARGEST_WINDOW]);
    near.wrapping_add(random.below(3)).wrapping_sub(1)
}

/// Most sequences of a list of calls are those of a capacity from `base` on. Inserts come in runs, of which `run` are to come, from
/// `next` after the base. Of the calls that empty the window or release, `emptying` in a hundred are made.
pub struct Arguments {
    base: u32,
    run: u32,
    next: u32,
    emptying: u32,
}

impl Arguments {
    pub fn new(random: &mut Random) -> Self {
        let base = random.pick(&[0, HALF - 64, HALF - 20, 12_345]);
        let base = if random.percent(50) { random.any() % HALF } else { base };
        Self { base, run: random.pick(&[0, 64, 500, 3000]), next: 0, emptying: random.pick(&[3, 15, 50]) }
    }

    /// Mostly of 31 bits; the lists of an unsound state, edges and numbers of any kind have others among them.
    fn sequence(&self, random: &mut Random, memory: &mut Memory) -> u32 {
        let window_size = memory.header.window_size;
        match random.below(20) {
            0..=10 => (self.base + random.below(capacity(window_size) as u32)) % HALF,
            11..=14 => {
                let sequences = memory.lists[SEQUENCES].numbers();
                random.pick(sequences)
            }
            15..=17 => edge(random, window_size),
            18 => random.pick(&[memory.header.base, memory.header.point]),
            _ => random.any(),
        }
    }

    /// A base: mostly below 2^31, where a run of inserts begins or near what the window holds.
    fn set_base(&self, random: &mut Random, memory: &mut Memory) -> u32 {
        match random.below(10) {
            0 => random.pick(&[HALF, HALF + 1, u32::MAX]),
            1..=3 => self.base,
            4 => (self.base + self.next) % HALF,
            5 => memory.header.point,
            _ => self.sequence(random, memory) % HALF,
        }
    }

    fn range(&self, random: &mut Random, memory: &mut Memory) -> [u32; 3] {
        let window_size = memory.header.window_size;
        let first = self.sequence(random, memory);
        let most = window_size.clamp(1, LARGEST_WINDOW);
        let count = match random.below(8) {
            0 => 1 + random.below(64.min(most)),
            1 => random.pick(&[1, 64, 65, 128, 4096]).min(most),
            2 => most,
            3 => edge(random, window_size),
            _ => 1 + random.below(most),
        };
        let last = first.wrapping_add(count).wrapping_sub(1) % HALF;
        match random.below(20) {
            0 => [first, last | HALF, 0],
            1 => [first, edge(random, window_size), 0],
            2 => [first, first.wrapping_add(most) % HALF, 0],
            _ => [first, last, 0],
        }
    }

    fn budget(random: &mut Random) -> u32 {
        match random.below(10) {
            0 => random.pick(&[257, 258, 512, HALF, u32::MAX]),
            1..=4 => random.pick(&[0, 1, 2, 255, 256]),
            _ => random.below(LARGEST_BUDGET + 1),
        }
    }

    fn window(random: &mut Random, memory: &Memory) -> [u32; 3] {
        let own = memory.lists[SEQUENCES].count() as u32;
        let window_size = random.pick(&[1, 2, 63, 64, 65, 128, 500, own / 2, own, own, 4096, LARGEST_WINDOW]);
        let n = random.pick(&[1, 2, 8, 62, 63]);
        let demote_at = random.pick(&[0, 1, n / 2, n - 1, n]);
        match random.below(12) {
            0 => [random.pick(&[0, LARGEST_WINDOW + 1, HALF, u32::MAX]), n, demote_at],
            1 => [window_size, random.pick(&[0, 64, 65, HALF, u32::MAX]), demote_at],
            2 => [window_size, n, random.pick(&[n + 1, n + 2, 64, HALF, u32::MAX])],
            3 => [0, 0, u32::MAX],
            _ => [window_size, n, demote_at],
        }
    }

    fn numbers(&self, random: &mut Random, memory: &mut Memory, kind: Numbers) -> [u32; 3] {
        match kind {
            Numbers::Window => Self::window(random, memory),
            Numbers::Sequence => [self.sequence(random, memory), 0, 0],
            Numbers::SequenceAndValue => [self.sequence(random, memory), random.any(), 0],
            Numbers::Range => self.range(random, memory),
            Numbers::Budget => [Self::budget(random), 0, 0],
            Numbers::Cell if random.percent(80) => [random.below(capacity(memory.header.window_size) as u32), 0, 0],
            Numbers::Cell => [edge(random, memory.header.window_size), 0, 0],
            Numbers::Base => [self.set_base(random, memory), 0, 0],
            Numbers::None => [0; 3],
        }
    }

    /// Any call, one as likely as another, with any arguments, on the header as it is and lists as long as they are.
    pub fn any(&self, random: &mut Random, memory: &mut Memory) -> Call {
        let operation = &OPERATIONS[random.below(OPERATIONS.len() as u32) as usize];
        let numbers = self.numbers(random, memory, operation.numbers);
        Call { operation, header: memory.header, lengths: memory.lengths(), numbers }
    }

    /// Any call, but few that empty the window or release.
    fn any_but_few(&self, random: &mut Random, memory: &mut Memory) -> Call {
        loop {
            let call = self.any(random, memory);
            let taken = match call.operation.call() {
                "new" => random.percent(4),
                "clear" | "clear_bounded" | "remove_range" | "release_retired" => random.percent(self.emptying),
                _ => true,
            };
            if taken {
                return call;
            }
        }
    }

    /// A call of a list that fills a window: runs of inserts, and others between them.
    pub fn filling(&mut self, random: &mut Random, memory: &mut Memory) -> Call {
        let call = self.any_but_few(random, memory);
        let capacity = capacity(memory.header.window_size) as u32;
        if self.run == 0 {
            if random.percent(2) {
                self.run = random.pick(&[1, 8, 64, 200]);
                self.next = random.below(capacity);
            }
            return call;
        }
        self.run -= 1;
        self.next = (self.next + random.pick(&[1, 1, 1, 1, 1, 2, 5])) % capacity;
        let operation = form("insert", random.percent(50)).expect("insert is a call");
        Call { operation, numbers: [(self.base + self.next) % HALF, random.any(), 0], ..call }
    }
}

/// A live sequence of the first page that is dense and not retired, in a sound state.
pub fn in_a_dense_page(random: &mut Random, memory: &mut Memory) -> Option<u32> {
    let Header { window_size, retired_blocks, .. } = memory.header;
    let blocks = memory.lists[BLOCKS].words().to_vec();
    let retired = |page: usize| retired_blocks >> (page / 64) & 1 == 1 || blocks[3 * (page / 64) + 1] >> (page % 64) & 1 == 1;
    let pages = memory.lists[PAGES].words();
    let page = (0..capacity(window_size) / 64).find(|&page| pages[3 * page] == 2 && !retired(page))?;
    let positions: Vec<usize> = (0..64).filter(|position| pages[3 * page + 1] >> position & 1 == 1).collect();
    Some(memory.lists[SEQUENCES].numbers()[64 * page + random.pick(&positions)])
}

/// The call with one of its lists shorter than the window_size names it.
pub fn with_a_short_list(random: &mut Random, call: &Call) -> Call {
    let named = named(call.window_size().clamp(1, LARGEST_WINDOW));
    let list = random.below(if call.operation.with_list() { 5 } else { 4 }) as usize;
    let mut lengths = call.lengths;
    let short = match random.below(4) {
        0 => 0,
        1 => random.below(named[list] as u32) as usize,
        _ => named[list] - 1,
    };
    lengths[list] = lengths[list].min(short);
    Call { lengths, ..*call }
}

/// The call with a header outside of the limits.
pub fn with_a_wrong_header(random: &mut Random, call: &Call) -> Call {
    let header = call.header;
    let header = match random.below(3) {
        0 => Header { window_size: random.pick(&[0, LARGEST_WINDOW + 1, HALF, u32::MAX]), ..header },
        1 => Header { n: random.pick(&[0, 64, 65, HALF, u32::MAX]), ..header },
        _ => Header { demote_at: random.pick(&[header.n.saturating_add(1), 64, HALF, u32::MAX]), ..header },
    };
    Call { header, ..*call }
}
