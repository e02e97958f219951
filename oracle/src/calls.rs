//! Seeded lists of calls for the line program.
//!
//! A list is made of short plans (a run of inserts, a drain, a range and what
//! follows it, a malformed line). The seed picks a profile: how large the
//! windows are, how full they get, how often sequences alias, how often lines
//! are malformed. The generator remembers some sequences that it put in and
//! some that it took out again, so that most calls meet a value; it keeps no
//! model of the window and needs none.
//!
//! Same seed and options, same list, on every machine.

use crate::line::Call;
use std::collections::VecDeque;

const HALF: u32 = 1 << 31;
const PAGE: u32 = 64;
const BLOCK: u32 = 64 * PAGE;
const LARGEST_WINDOW: u32 = 65_536;
const LARGEST_LINE_WINDOW: u32 = 4096;
const LARGEST_SMALL_WINDOW: u32 = 512;
/// Sequences remembered in one list.
const REMEMBERED: usize = 128;
/// Of so many calls, one comes with a number of more than 31 bits too.
const WIDE: u32 = 25;

/// The lowest 31 bits: a sequence as on the wire.
fn wire(number: u32) -> u32 {
    number & (HALF - 1)
}

/// splitmix64.
pub struct Random(u64);

impl Random {
    pub fn new(seed: u64) -> Self {
        Self(seed)
    }

    pub fn next(&mut self) -> u64 {
        self.0 = self.0.wrapping_add(0x9e37_79b9_7f4a_7c15);
        let mut word = self.0;
        word = (word ^ (word >> 30)).wrapping_mul(0xbf58_476d_1ce4_e5b9);
        word = (word ^ (word >> 27)).wrapping_mul(0x94d0_49bb_1331_11eb);
        word ^ (word >> 31)
    }

    /// A number below `bound`, which is not 0.
    pub fn below(&mut self, bound: u32) -> u32 {
        (self.next() % u64::from(bound)) as u32
    }

    pub fn between(&mut self, least: u32, most: u32) -> u32 {
        least + self.below(most - least + 1)
    }

    pub fn percent(&mut self, chance: u32) -> bool {
        self.below(100) < chance
    }

    pub fn pick<T: Copy>(&mut self, from: &[T]) -> T {
        from[self.below(from.len() as u32) as usize]
    }

    pub fn any(&mut self) -> u32 {
        self.next() as u32
    }
}

#[derive(Debug, Clone, Copy, Default)]
pub struct Options {
    /// Window sizes up to 65536.
    pub large: bool,
    /// Window sizes up to 512.
    pub small: bool,
    /// No malformed line, and an accepted `n` first.
    pub clean: bool,
}

/// One line of a list.
#[derive(Debug, Clone, PartialEq, Eq)]
pub enum Item {
    Call(Call),
    /// A line that prints `?` in every state, without its line feed.
    Malformed(Vec<u8>),
}

impl Item {
    pub fn line(&self) -> Vec<u8> {
        match self {
            Self::Call(call) => call.line().into_bytes(),
            Self::Malformed(line) => line.clone(),
        }
    }
}

/// The latest sequences of some kind.
#[derive(Debug, Default)]
struct Memory(VecDeque<u32>);

impl Memory {
    fn add(&mut self, sequence: u32) {
        if self.0.len() == REMEMBERED {
            self.0.pop_front();
        }
        self.0.push_back(sequence);
    }

    fn pick(&self, random: &mut Random) -> Option<u32> {
        if self.0.is_empty() {
            return None;
        }
        Some(self.0[random.below(self.0.len() as u32) as usize])
    }
}

/// What a list mostly does.
#[derive(Debug, Clone, Copy, PartialEq, Eq)]
enum Manner {
    /// A bit of everything.
    Mixed,
    /// Runs that fill pages, and drains that empty them again.
    Dense,
    /// Sequences that share positions.
    Alias,
    /// Ranges, clears and releases, with inserts into what they retired.
    Retire,
    /// Single values spread over pages and blocks.
    Spread,
}

const MANNERS: [Manner; 5] = [
    Manner::Mixed,
    Manner::Dense,
    Manner::Alias,
    Manner::Retire,
    Manner::Spread,
];

#[derive(Debug, Clone, Copy)]
enum Plan {
    Run,
    Put,
    InsertAgain,
    InsertAlias,
    Get,
    Exchange,
    Remove,
    Drain,
    Thin,
    Range,
    Clear,
    Budget,
    Search,
    Front,
}

/// How often each plan comes up in each manner, in the order of `MANNERS`.
const PLANS: [(Plan, [u32; 5]); 14] = [
    (Plan::Run, [6, 14, 6, 14, 3]),
    (Plan::Put, [12, 8, 8, 8, 30]),
    (Plan::InsertAgain, [6, 4, 6, 3, 4]),
    (Plan::InsertAlias, [6, 3, 24, 3, 6]),
    (Plan::Get, [8, 4, 8, 4, 6]),
    (Plan::Exchange, [8, 4, 6, 3, 5]),
    (Plan::Remove, [10, 10, 8, 5, 8]),
    (Plan::Drain, [3, 10, 3, 2, 2]),
    (Plan::Thin, [4, 14, 3, 3, 3]),
    (Plan::Range, [8, 8, 12, 14, 10]),
    (Plan::Clear, [2, 1, 2, 6, 2]),
    (Plan::Budget, [6, 3, 4, 16, 8]),
    (Plan::Search, [12, 6, 12, 6, 14]),
    (Plan::Front, [14, 10, 12, 10, 12]),
];

pub struct Generator {
    random: Random,
    options: Options,
    manner: Manner,
    /// Of 100 plans, so many are a malformed line.
    malformed: u32,
    /// Of 1000 plans, so many are a new `n`.
    renewals: u32,
    longest_run: u32,
    window_size: u32,
    n: u32,
    demote_at: u32,
    capacity: u32,
    /// Where the next run starts.
    head: u32,
    /// First sequence and length of the last run.
    last_run: (u32, u32),
    /// Sequences probably live.
    present: Memory,
    /// Sequences removed or retired lately.
    gone: Memory,
    /// About where the base is, and how many from it are probably live.
    base: u32,
    front: u32,
    next_value: u32,
    pending: VecDeque<Item>,
}

impl Generator {
    /// A list of about `calls` lines; that number only bounds the runs.
    pub fn new(seed: u64, calls: u32, options: Options) -> Self {
        let mut random = Random::new(seed);
        let manner = random.pick(&MANNERS);
        let malformed = if options.clean {
            0
        } else {
            random.pick(&[0, 2, 5, 20])
        };
        let renewals = random.pick(&[0, 5, 10, 40]);
        let longest_run = random
            .pick(&[3, 20, 70, 150, 300, 600, 5000])
            .min(calls / 4 * 3)
            .max(2);
        let mut generator = Self {
            random,
            options,
            manner,
            malformed,
            renewals,
            longest_run,
            window_size: 1,
            n: 1,
            demote_at: 0,
            capacity: PAGE,
            head: 0,
            last_run: (0, 1),
            present: Memory::default(),
            gone: Memory::default(),
            base: 0,
            front: 0,
            next_value: 1,
            pending: VecDeque::new(),
        };
        generator.open();
        generator
    }

    /// The next line.
    pub fn next(&mut self) -> Item {
        loop {
            if let Some(item) = self.pending.pop_front() {
                return item;
            }
            self.plan();
        }
    }

    /// How a list begins. Unless it is clean, some lists have lines before the
    /// first accepted `n`, which print `?` or a refusal.
    fn open(&mut self) {
        if !self.options.clean {
            for _ in 0..self.random.pick(&[0, 0, 0, 1, 4]) {
                match self.random.below(3) {
                    0 => self.refused_new(),
                    1 => self.malformed_line(),
                    _ => self.search(),
                }
            }
        }
        self.accepted_new();
    }

    fn plan(&mut self) {
        if self.random.percent(self.malformed) {
            return self.malformed_line();
        }
        if self.random.below(1000) < self.renewals {
            return match self.random.below(3) {
                0 => self.accepted_new(),
                _ => self.refused_new(),
            };
        }
        if self.random.percent(2) {
            self.head = self.region();
        }
        match self.choose() {
            Plan::Run => self.run(),
            Plan::Put => self.put(),
            Plan::InsertAgain => {
                let sequence = self.known();
                self.insert(sequence);
            }
            Plan::InsertAlias => self.insert_alias(),
            Plan::Get => {
                let sequence = self.wanted();
                self.call(Call::Get(sequence));
            }
            Plan::Exchange => {
                let (sequence, value) = (self.wanted(), self.value());
                self.call(Call::Exchange { sequence, value });
            }
            Plan::Remove => {
                let sequence = self.wanted();
                self.remove(sequence);
            }
            Plan::Drain => self.drain(),
            Plan::Thin => self.thin(),
            Plan::Range => self.range(),
            Plan::Clear => self.clear(Call::Clear),
            Plan::Budget => self.budget(),
            Plan::Search => self.search(),
            Plan::Front => self.front(),
        }
    }

    fn choose(&mut self) -> Plan {
        let weighed = PLANS.map(|(plan, weights)| (plan, weights[self.manner as usize]));
        let mut rest = self
            .random
            .below(weighed.iter().map(|(_, weight)| weight).sum());
        for (plan, weight) in weighed {
            if rest < weight {
                return plan;
            }
            rest -= weight;
        }
        unreachable!("the rest is below the sum of the weights")
    }

    /// A call, its sequences in 31 bits. One in `WIDE` comes twice: before it
    /// the same call with a number that has its top bit set, which is refused
    /// and alters nothing.
    fn call(&mut self, call: Call) {
        let call = call.map_sequences(wire);
        if self.random.below(WIDE) == 0 {
            let wide = self.wide(call);
            if wide != call {
                self.pending.push_back(Item::Call(wide));
            }
        }
        self.pending.push_back(Item::Call(call));
    }

    /// The call with the top bit of its sequence set; of its first, its last
    /// or both.
    fn wide(&mut self, call: Call) -> Call {
        let last_alone = match call {
            Call::RemoveRange { .. } | Call::Stranger { .. } => self.random.percent(40),
            _ => false,
        };
        let mut bits = match last_alone {
            true => [0, HALF],
            false => [HALF, self.random.pick(&[0, HALF])],
        }
        .into_iter();
        call.map_sequences(|number| number | bits.next().unwrap_or(0))
    }

    // Sequences and values.

    /// Near 0, before 2^31, where sequences wrap, or anywhere.
    fn region(&mut self) -> u32 {
        let before = self.random.below(200);
        let edge = self.random.pick(&[0, 0, 0, 0, PAGE, BLOCK]);
        match self.random.below(6) {
            0 => self.random.any(),
            1 => edge.wrapping_add(before),
            2 => 0,
            _ => edge.wrapping_sub(before),
        }
    }

    /// Mostly distinct, so that a list names which value went where; some
    /// come twice, as the window allows.
    fn value(&mut self) -> u32 {
        match self.random.below(24) {
            0 => self.random.pick(&[0, 1, 7, u32::MAX, HALF]),
            1 => self.random.any(),
            _ => {
                self.next_value += 1;
                self.next_value
            }
        }
    }

    /// Move the sequences that a call takes out of the window.
    fn forget(&mut self, taken: impl Fn(u32) -> bool) {
        for sequence in std::mem::take(&mut self.present.0) {
            if taken(sequence) {
                self.gone.add(sequence);
            } else {
                self.present.add(sequence);
            }
        }
    }

    /// A sequence that is probably live.
    fn known(&mut self) -> u32 {
        let head = self.head.wrapping_sub(1);
        self.present.pick(&mut self.random).unwrap_or(head)
    }

    /// A sequence that was taken out lately: its page may be retired.
    fn former(&mut self) -> u32 {
        let known = self.known();
        self.gone.pick(&mut self.random).unwrap_or(known)
    }

    /// Another sequence at the same position.
    fn alias_of(&mut self, sequence: u32) -> u32 {
        match self.random.below(4) {
            0 => sequence ^ (HALF >> 1),
            1 => sequence.wrapping_sub(self.capacity),
            2 => sequence.wrapping_add(self.capacity * self.random.between(1, 5)),
            _ => sequence.wrapping_add(self.capacity),
        }
    }

    /// A sequence to ask for: mostly present, else a neighbour, an alias, one
    /// that is gone or anything.
    fn wanted(&mut self) -> u32 {
        let known = self.known();
        match self.random.below(12) {
            0 => known.wrapping_add(1),
            1 => known.wrapping_sub(1),
            2 => self.alias_of(known),
            3 => self.random.any(),
            4 => self.former(),
            _ => known,
        }
    }

    // Plans.

    fn insert(&mut self, sequence: u32) {
        let value = self.value();
        self.present.add(wire(sequence));
        self.call(Call::Insert { sequence, value });
    }

    fn remove(&mut self, sequence: u32) {
        self.call(Call::Remove(sequence));
        self.forget(|held| held == wire(sequence));
    }

    fn remove_range(&mut self, first: u32, last: u32) {
        self.call(Call::RemoveRange { first, last });
        self.front = 0;
        let reach = last.wrapping_sub(first) & (HALF - 1);
        let positions = self.capacity - 1;
        if reach < self.window_size {
            self.forget(|held| held.wrapping_sub(first) & positions <= reach);
        }
    }

    /// Inserts in a row. Steps above 1 leave pages sparse or spread them.
    fn run(&mut self) {
        let longest = self.longest_run.min(self.window_size);
        let count = match self.random.below(4) {
            0 => longest,
            _ => self.random.between(1, longest),
        };
        let step = match self.random.below(10) {
            0 => 2,
            1 => 7,
            2 => PAGE,
            3 => PAGE + 1,
            _ => 1,
        };
        let first = match self.random.below(5) {
            0 => self.former(),
            1 => self.head.wrapping_add(self.random.below(self.window_size)),
            _ => self.head,
        };
        // As a receiver does: the positions ahead are emptied first.
        if self.random.percent(60) {
            let reach = (count * step).min(self.window_size) - 1;
            self.remove_range(first, first.wrapping_add(reach));
        }
        for index in 0..count {
            self.insert(first.wrapping_add(index * step));
        }
        self.last_run = (first, count);
        self.head = first.wrapping_add(count);
    }

    /// One value somewhere in the window.
    fn put(&mut self) {
        let sequence = self.head.wrapping_add(self.random.below(self.capacity));
        self.insert(sequence);
    }

    /// Refused, unless the sequence at its position is taken out before.
    fn insert_alias(&mut self) {
        let known = self.known();
        let alias = self.alias_of(known);
        if self.random.percent(50) {
            self.remove(known);
            self.insert(alias);
        } else {
            let value = self.value();
            self.call(Call::Insert {
                sequence: alias,
                value,
            });
        }
    }

    /// Remove the last run or a part of it, one by one, upwards or downwards.
    fn drain(&mut self) {
        let (first, count) = self.last_run;
        let upwards = self.random.percent(50);
        let removed = self.random.between(count.div_ceil(2), count);
        for index in 0..removed {
            let offset = if upwards { index } else { count - 1 - index };
            self.remove(first.wrapping_add(offset));
        }
        // What is left of the run, for the next drain.
        let left = (count - removed).max(1);
        self.last_run = match upwards {
            true => (first.wrapping_add(count - left), left),
            false => (first, left),
        };
    }

    /// Promote a page, or two neighbours, and take out about as many values as
    /// it takes to demote them.
    fn thin(&mut self) {
        if self.n > self.longest_run {
            return self.run();
        }
        let page = self.head & !(PAGE - 1);
        self.head = page.wrapping_add(self.random.pick(&[0, PAGE, 2 * PAGE]));
        let two = self.window_size >= 2 * PAGE && self.random.percent(40);
        if self.random.percent(70) {
            let reach = self.window_size.min(2 * PAGE) - 1;
            self.remove_range(page, page.wrapping_add(reach));
        }
        let (first, count) = self.fill(page);
        if two {
            let (second, _) = self.fill(page.wrapping_add(PAGE));
            let (from, to) = (self.kept(count), self.kept(count));
            let last = second.wrapping_add(count - 1 - to);
            self.remove_range(first.wrapping_add(from), last);
        } else {
            self.thin_page(first, count);
        }
    }

    /// Insert in a row into one page, more than a sparse page holds; first
    /// sequence and how many.
    fn fill(&mut self, page: u32) -> (u32, u32) {
        let count = (self.n + 2).min(PAGE);
        let first = page.wrapping_add(self.random.below(PAGE - count + 1));
        let upwards = self.random.percent(50);
        for index in 0..count {
            let offset = if upwards { index } else { count - 1 - index };
            self.insert(first.wrapping_add(offset));
        }
        self.last_run = (first, count);
        (first, count)
    }

    /// How many values a thinned page keeps: round demote_at, or any.
    fn kept(&mut self, count: u32) -> u32 {
        let kept = match self.random.below(5) {
            0 => self.demote_at + 1,
            1 => self.random.below(count),
            2 => self.demote_at.saturating_sub(1),
            _ => self.demote_at,
        };
        kept.min(count - 1)
    }

    fn thin_page(&mut self, first: u32, count: u32) {
        let kept = self.kept(count);
        let from = first.wrapping_add(kept);
        let last = first.wrapping_add(count - 1);
        match self.random.below(4) {
            0 => self.remove_range(from, last),
            // All positions but some of the kept: wraps where there is one page.
            1 => {
                let count = (self.window_size - 1).min(PAGE - kept);
                self.remove_range(from, from.wrapping_add(count));
            }
            _ => {
                for offset in kept..count {
                    self.remove(first.wrapping_add(offset));
                }
            }
        }
    }

    fn search(&mut self) {
        let sequence = match self.random.below(3) {
            0 => self.wanted() & !(PAGE - 1),
            1 => self.wanted() | (PAGE - 1),
            _ => self.wanted(),
        };
        match self.random.below(8) {
            0 => self.call(Call::Iter),
            1 => {
                let (first, last) = self.ends();
                self.call(Call::Stranger { first, last });
            }
            2..=4 => self.call(Call::FirstFrom(sequence)),
            _ => self.call(Call::SuccessorAfter(sequence)),
        }
    }

    /// A range to look for strangers in: mostly one whose sequences share
    /// positions with a value that is probably live.
    pub fn stranger(&mut self) -> Call {
        let (first, last) = match self.random.below(3) {
            0 => self.ends(),
            _ => {
                let known = self.known();
                let alias = self.alias_of(known);
                let count = self.random.between(1, self.window_size);
                let first = alias.wrapping_sub(self.random.below(count));
                (first, first.wrapping_add(count - 1))
            }
        };
        let call = Call::Stranger { first, last }.map_sequences(wire);
        match self.random.below(WIDE) {
            0 => self.wide(call),
            _ => call,
        }
    }

    /// Packets in a row next, but for those that are lost; some lists of loss
    /// reports ask for it.
    pub fn lossy_run(&mut self) {
        let count = self
            .random
            .between(1, self.window_size.min(self.longest_run.max(PAGE)));
        let (first, percent) = (wire(self.head), self.random.pick(&[3, 20, 50, 80]));
        if self.random.percent(60) {
            self.remove_range(first, first.wrapping_add(count - 1));
        }
        for offset in 0..count {
            if !self.random.percent(percent) {
                self.insert(first.wrapping_add(offset));
            }
        }
        self.last_run = (first, count);
        self.head = first.wrapping_add(count);
    }

    /// First and last of a range to report the losses of: the last run, round
    /// values that are probably live, short or long, or as for a stranger.
    pub fn report(&mut self) -> (u32, u32) {
        match self.random.below(6) {
            0 => match self.stranger() {
                Call::Stranger { first, last } => (first, last),
                _ => unreachable!("it asks for a stranger"),
            },
            1 => self.short_report(),
            2 | 3 => {
                let (first, count) = self.last_run;
                (wire(first), wire(first.wrapping_add(count - 1)))
            }
            _ => {
                let (first, last) = self.ends();
                (wire(first), wire(last))
            }
        }
    }

    /// The same of few sequences, also where values were, which may be retired.
    pub fn short_report(&mut self) -> (u32, u32) {
        let near = match self.random.below(3) {
            0 => self.former(),
            _ => self.known(),
        };
        let first = wire(near.wrapping_sub(self.random.below(12)));
        let count = self.random.between(1, self.window_size.min(24));
        (first, wire(first + count - 1))
    }

    fn range(&mut self) {
        let (first, last) = self.ends();
        if self.random.percent(40) {
            self.call(Call::Stranger { first, last });
        }
        if self.random.percent(80) {
            self.remove_range(first, last);
            self.after_retiring();
        }
    }

    /// First and last of a range.
    fn ends(&mut self) -> (u32, u32) {
        let known = self.known();
        let first = match self.random.below(6) {
            // Near the end of the capacity, so that the range wraps there.
            0 => (known | (self.capacity - 1)).wrapping_sub(self.random.below(PAGE + 9)),
            // At the edge of a page, or of a block.
            1 => known & !(PAGE - 1),
            2 => known & !(BLOCK - 1),
            3 => known.wrapping_sub(self.random.below(80)),
            _ => known,
        };
        let count = match self.random.below(20) {
            0 => 0,
            1 => self.window_size.wrapping_add(1),
            2..=4 => self.window_size,
            5 | 6 => 1,
            7..=10 => self.random.between(1, PAGE),
            11..=13 => self.random.between(1, 5 * PAGE),
            14 => PAGE * self.random.between(1, 6),
            15 => BLOCK * self.random.between(1, 4),
            16 => self.random.any(),
            _ => self.random.between(1, self.window_size),
        };
        let count = match self.random.below(10) {
            0 => count,
            _ => count.min(self.window_size.wrapping_add(1)),
        };
        (first, first.wrapping_add(count).wrapping_sub(1))
    }

    /// What a receiver does at its base.
    fn front(&mut self) {
        match self.random.below(8) {
            0 | 1 => {
                let base = self.some_base();
                self.set_base(base);
            }
            2..=4 => self.fill_front(),
            5 => {
                let alias = self.alias_of(self.base);
                self.insert(alias);
                self.take_front();
            }
            _ => {
                for _ in 0..self.random.between(1, 12) {
                    self.take_front();
                }
            }
        }
    }

    /// Where a base may be: at a value or near one, at its alias, where values
    /// were, near 2^31, before the last one, away from all values; or a number
    /// that is refused.
    fn some_base(&mut self) -> u32 {
        let known = self.known();
        let base = match self.random.below(14) {
            0 => HALF - self.random.between(1, 80),
            1 => 0,
            2 => self.random.any(),
            3 => known.wrapping_sub(self.random.below(80)),
            4 => self.base.wrapping_sub(self.random.below(80)),
            5 => self.last_run.0,
            6 => self.alias_of(known),
            7 => self.former(),
            8 | 9 => return self.random.pick(&[HALF, HALF + 1, u32::MAX, known | HALF]),
            _ => known,
        };
        wire(base)
    }

    fn set_base(&mut self, base: u32) {
        self.call(Call::SetBase(base));
        if base < HALF {
            (self.base, self.front) = (base, 0);
        }
    }

    /// The sequence so many after the base, in 31-bit circular order.
    fn after_base(&self, steps: u32) -> u32 {
        wire(self.base.wrapping_add(steps))
    }

    /// In order from the base, in a third of the cases with one hole that is
    /// filled late or never; then the front is taken. Where all of the window
    /// is live, now and then the sequence after it too.
    fn fill_front(&mut self) {
        let longest = self.longest_run.min(self.window_size);
        let count = match self.random.below(3) {
            0 => longest,
            _ => self.random.between(1, longest),
        };
        if self.random.percent(20) {
            let base = HALF - self.random.between(1, count);
            self.set_base(base);
        }
        if self.random.percent(60) {
            self.remove_range(self.base, self.after_base(count - 1));
        }
        let hole = self.random.below(3 * count);
        for steps in (0..count).filter(|&steps| steps != hole) {
            self.insert(self.after_base(steps));
        }
        self.front = hole.min(count);
        if hole < count && self.random.percent(70) {
            self.insert(self.after_base(hole));
            self.front = count;
        }
        if count == self.window_size && self.random.percent(40) {
            self.insert(self.after_base(count));
        }
        let taken = match self.random.below(6) {
            0 | 1 => 0,
            2 => count + 1,
            _ => self.random.between(1, 20),
        };
        for _ in 0..taken.min(200) {
            self.take_front();
        }
    }

    /// Its base moves if a value is probably there.
    fn take_front(&mut self) {
        self.call(Call::TakeFront);
        let base = self.base;
        if self.front > 0 || self.present.0.contains(&base) {
            self.front = self.front.saturating_sub(1);
            self.forget(|held| held == base);
            self.base = self.after_base(1);
        }
    }

    fn clear(&mut self, call: Call) {
        self.call(call);
        self.front = 0;
        self.forget(|_| true);
        self.after_retiring();
    }

    fn number(&mut self) -> u32 {
        match self.random.below(8) {
            0 => 255,
            1 => 256,
            2 => 257,
            3 => self.random.any(),
            4 => self.random.between(1, 256),
            _ => self.small_number(),
        }
    }

    fn small_number(&mut self) -> u32 {
        match self.random.below(6) {
            0 => 0,
            1 => 1,
            2 => 2,
            3 => 3,
            _ => self.random.between(1, 20),
        }
    }

    /// A release, or a bounded clear that leaves values retired and a series
    /// of small releases with other calls between.
    fn budget(&mut self) {
        if self.random.percent(30) {
            let number = self.number();
            return self.call(Call::ReleaseRetired(number));
        }
        if self.random.percent(50) {
            self.run();
        }
        let number = match self.random.below(4) {
            0 => self.number(),
            _ => self.small_number(),
        };
        self.clear(Call::ClearBounded(number));
        for _ in 0..self.random.between(1, 8) {
            match self.random.below(6) {
                0 => {
                    let former = self.former();
                    self.insert(former);
                }
                1 => self.search(),
                2 => self.put(),
                _ => {
                    let number = self.small_number();
                    self.call(Call::ReleaseRetired(number));
                }
            }
        }
    }

    /// What comes next to values just retired: inserts into their pages (which
    /// release them), questions about them, other ranges, releases.
    fn after_retiring(&mut self) {
        if self.random.percent(30) {
            return;
        }
        for _ in 0..self.random.between(1, 6) {
            let former = self.former();
            match self.random.below(11) {
                0 | 1 => self.insert(former),
                2 => {
                    let near = former.wrapping_add(self.random.below(PAGE));
                    self.insert(near);
                }
                3 => {
                    let alias = self.alias_of(former);
                    self.insert(alias);
                }
                4 => self.call(Call::Get(former)),
                5 => self.call(Call::Remove(former)),
                6 => {
                    let last = former.wrapping_add(self.random.below(self.window_size));
                    self.remove_range(former, last);
                }
                7 => self.search(),
                8 => {
                    self.set_base(wire(former));
                    self.take_front();
                }
                _ => {
                    let number = self.number();
                    self.call(Call::ReleaseRetired(number));
                }
            }
        }
    }

    // New windows.

    fn accepted_new(&mut self) {
        let limit = match self.options {
            Options { large: true, .. } => LARGEST_WINDOW,
            Options { small: true, .. } => LARGEST_SMALL_WINDOW,
            _ => LARGEST_LINE_WINDOW,
        };
        self.window_size = self.size(limit);
        self.capacity = self.window_size.max(PAGE).next_power_of_two();
        let n = match self.random.below(6) {
            0 => 1,
            1 => 2,
            2 => 8,
            3 => 63,
            _ => self.random.between(1, 63),
        };
        let demote_at = match self.random.below(6) {
            0 => 0,
            1 => 1,
            2 => n - 1,
            3 => n,
            _ => self.random.between(0, n),
        };
        (self.n, self.demote_at) = (n, demote_at);
        self.head = self.region();
        self.last_run = (self.head, 1);
        self.present = Memory::default();
        self.gone = Memory::default();
        (self.base, self.front) = (0, 0);
        self.call(Call::New {
            window_size: self.window_size,
            n,
            demote_at,
        });
    }

    fn size(&mut self, limit: u32) -> u32 {
        let power = 1 << self.random.between(6, limit.ilog2());
        let size = match self.random.below(10) {
            0 | 1 => self.random.between(1, PAGE),
            2 => power - 1,
            3 => power,
            4 => power + 1,
            5 => self.random.between(1, limit),
            6 => limit,
            _ => self.random.between(1, power),
        };
        size.min(limit)
    }

    /// Refusal 1, 2 or 3, or several of them at once.
    fn refused_new(&mut self) {
        let zero_size = self.random.percent(50);
        let bad_n = self.random.percent(50);
        let bad_demote_at = self.random.percent(50) || !(zero_size || bad_n);
        let window_size = match zero_size {
            true if self.options.large => {
                self.random.pick(&[0, LARGEST_WINDOW + 1, HALF, u32::MAX])
            }
            true => 0,
            false => self.size(LARGEST_LINE_WINDOW),
        };
        let n = if bad_n {
            self.random.pick(&[0, 64, 65, 256, u32::MAX])
        } else {
            self.random.between(1, 63)
        };
        let demote_at = if bad_demote_at {
            n.saturating_add(self.random.pick(&[1, 1, 2, 64, u32::MAX]))
        } else {
            self.random.between(0, n.min(63))
        };
        self.call(Call::New {
            window_size,
            n,
            demote_at,
        });
    }

    // Malformed lines.

    /// A line that prints `?` whatever came before it.
    fn malformed_line(&mut self) {
        let line = self.broken();
        self.pending.push_back(Item::Malformed(line));
    }

    /// A well-formed call that is spoilt in one place, or no call at all.
    fn broken(&mut self) -> Vec<u8> {
        let (letter, count) = self.random.pick(&[
            (b'n', 3),
            (b'i', 2),
            (b'g', 1),
            (b'r', 1),
            (b's', 1),
            (b'f', 1),
            (b'e', 2),
            (b'd', 2),
            (b'q', 2),
            (b'b', 1),
            (b'v', 1),
            (b'c', 0),
            (b'l', 0),
            (b'a', 1),
            (b't', 0),
        ]);
        let mut fields = Vec::new();
        for _ in 0..count {
            fields.push(self.random.between(1, 60).to_string().into_bytes());
        }
        match self.random.below(16) {
            0 => Vec::new(),
            1 => joined(&[self.random.pick(b"kmxz?!+0 ")], &fields),
            2 => joined(&[letter.to_ascii_uppercase()], &fields),
            3 => joined(&[letter, letter], &fields),
            4 => joined(b"", &fields),
            5 => {
                // No field to leave out: one too many instead.
                if fields.pop().is_none() {
                    fields.push(b"0".to_vec());
                }
                joined(&[letter], &fields)
            }
            6 => {
                fields.push(b"1".to_vec());
                joined(&[letter], &fields)
            }
            7 => {
                let mut line = joined(&[letter], &fields);
                line.push(b'\t');
                line
            }
            8 => {
                let mut line = joined(&[letter], &fields);
                line.push(self.random.pick(b"\r \0"));
                line
            }
            9 => {
                let mut line = vec![self.random.pick(b" \t\0")];
                line.extend(joined(&[letter], &fields));
                line
            }
            10 => {
                // Over 100 bytes.
                for _ in 0..self.random.between(50, 200) {
                    fields.push(b"1".to_vec());
                }
                joined(&[letter], &fields)
            }
            11 => self
                .random
                .pick(&[
                    "\u{fc}\t5".as_bytes(),
                    b"\xff\xfe",
                    b"g\t\xff",
                    b"g 5",
                    b"i 5 5",
                    b"\0",
                    b"\t",
                    b"#",
                    b"\xef\xbb\xbfl",
                ])
                .to_vec(),
            12 if !self.options.large => {
                let window_size = self.random.pick(&[4097, 8192, 65_536, 65_537, u32::MAX]);
                let n = self.random.pick(&["1", "64", "0"]);
                format!("n\t{window_size}\t{n}\t1").into_bytes()
            }
            _ => {
                let bad = self.bad_field();
                if fields.is_empty() {
                    fields.push(bad);
                } else {
                    let place = self.random.below(fields.len() as u32);
                    fields[place as usize] = bad;
                }
                joined(&[letter], &fields)
            }
        }
    }

    /// A field that is no number, or too large a one.
    fn bad_field(&mut self) -> Vec<u8> {
        match self.random.below(3) {
            0 => vec![b'9'; self.random.between(11, 300) as usize],
            1 => {
                let mut zeros = vec![b'0'; self.random.between(1, 120) as usize];
                zeros.push(b'5');
                zeros
            }
            _ => self
                .random
                .pick(&[
                    &b""[..],
                    b"00",
                    b"05",
                    b"+5",
                    b"-5",
                    b"-0",
                    b" 5",
                    b"5 ",
                    b"5 5",
                    b" ",
                    b"4294967296",
                    b"4294967300",
                    b"9999999999",
                    b"18446744073709551616",
                    b"18446744073709551621",
                    b"5\r",
                    b"5\0",
                    b"\05",
                    b"0x5",
                    b"5.0",
                    b"5e1",
                    b"1_0",
                    b"1,0",
                    b"five",
                    b"5/",
                    b"5:",
                    b"/",
                    b":",
                    "\u{665}".as_bytes(),
                    b"\xb2",
                ])
                .to_vec(),
        }
    }
}

fn joined(letter: &[u8], fields: &[Vec<u8>]) -> Vec<u8> {
    let mut line = letter.to_vec();
    for field in fields {
        line.push(b'\t');
        line.extend_from_slice(field);
    }
    line
}
