//! Random calls against the plain table of document 01 with document 02's base. Values are numbers of packet stores out of a pool: a
//! store that comes back must be out, so each comes back exactly once.

use packet_window::*;
use std::collections::{BTreeMap, HashSet};

/// xorshift64*
struct Random(u64);

impl Random {
    fn next(&mut self) -> u64 {
        self.0 ^= self.0 >> 12;
        self.0 ^= self.0 << 25;
        self.0 ^= self.0 >> 27;
        self.0.wrapping_mul(0x2545_f491_4f6c_dd1d)
    }

    fn below(&mut self, bound: u32) -> u32 {
        (((self.next() >> 32) * u64::from(bound)) >> 32) as u32
    }
}

/// Packet stores: those that are free, and those that the window has.
struct Pool {
    free: Vec<u32>,
    out: HashSet<u32>,
}

impl Pool {
    fn new(stores: u32) -> Self {
        Self { free: (0..stores).collect(), out: HashSet::new() }
    }

    /// Any free store, which the window is about to be given.
    fn take(&mut self, random: &mut Random) -> u32 {
        let at = random.below(self.free.len() as u32) as usize;
        self.free.swap_remove(at)
    }

    fn accepted(&mut self, store: u32) {
        assert!(self.out.insert(store));
    }

    fn refused(&mut self, store: u32) {
        self.free.push(store);
    }

    fn back(&mut self, store: u32) {
        assert!(self.out.remove(&store), "store {store} came back, and is not out");
        self.free.push(store);
    }

    fn all_back(&mut self, stores: &[u32]) {
        stores.iter().for_each(|&store| self.back(store));
    }
}

const TOP_BIT: u32 = 1 << 31;

/// The lowest 31 bits: a sequence as on the wire.
fn wire(number: u32) -> u32 {
    number & (TOP_BIT - 1)
}

/// At each position nothing or one pair.
struct Table {
    window_size: u32,
    capacity: u32,
    pairs: BTreeMap<u32, (u32, u32)>,
}

impl Table {
    fn new(window_size: u32) -> Self {
        Self { window_size, capacity: window_size.max(64).next_power_of_two(), pairs: BTreeMap::new() }
    }

    fn at(&self, sequence: u32) -> Option<(u32, u32)> {
        self.pairs.get(&(sequence % self.capacity)).copied()
    }

    fn get(&self, sequence: u32) -> Option<u32> {
        self.at(sequence).filter(|pair| pair.0 == sequence).map(|pair| pair.1)
    }

    fn put(&mut self, sequence: u32, value: u32) {
        self.pairs.insert(sequence % self.capacity, (sequence, value));
    }

    /// The first sequence by position from that of `start`, round the capacity.
    fn search(&self, start: u32) -> Option<u32> {
        let mut from_there = self.pairs.range(start % self.capacity..).chain(&self.pairs);
        from_there.next().map(|(_, pair)| pair.0)
    }

    fn count(first: u32, last: u32) -> u32 {
        wire(last.wrapping_sub(first)) + 1
    }

    /// The first sequence from the base that is not live, at most window_size from it.
    fn point(&self, base: u32) -> u32 {
        let after = |steps: u32| wire(base + steps);
        let reach = (0..self.window_size).find(|&steps| self.get(after(steps)).is_none());
        after(reach.unwrap_or(self.window_size))
    }

    /// Whether the pair is one that `stranger` may give for a range.
    fn is_stranger(&self, pair: (u32, u32), first: u32, count: u32) -> bool {
        let inside = |sequence: u32| sequence.wrapping_sub(first) % self.capacity < count;
        let outside = Self::count(first, pair.0) > count;
        self.at(pair.0) == Some(pair) && inside(pair.0) && outside
    }

    /// How many pairs a range held, which it no longer does.
    fn empty(&mut self, first: u32, count: u32) -> u32 {
        let capacity = self.capacity;
        let taken = (0..count).filter(|&offset| self.pairs.remove(&(first.wrapping_add(offset) % capacity)).is_some());
        taken.count() as u32
    }
}

/// A window with its table and the pool that its values come from. Most sequences lie within window_size from `base`; some
/// come in order, at the window's point.
struct Run<'m> {
    window: Window<'m>,
    table: Table,
    pool: Pool,
    random: Random,
    base: u32,
    seen: Seen,
}

/// What runs must have met at least once to show anything.
#[derive(Default)]
struct Seen {
    promotions: u64,
    single_demotions: u64,
    range_demotions: u64,
    refused: u64,
    replaced: u64,
    strangers: u64,
    fronts: u64,
    wide: u64,
    furthest_point: u32,
    most_retired: u32,
    returned_by_insert: u64,
    returned_by_release: u64,
}

impl Run<'_> {
    fn sequence(&mut self) -> u32 {
        match self.random.below(20) {
            0 => wire(self.random.next() as u32),
            1..=5 => wire(self.base + self.random.below(self.table.window_size)),
            6..=9 => self.window.point(),
            _ => wire(self.base + self.random.below(500.min(self.table.window_size))),
        }
    }

    fn insert(&mut self) {
        let (sequence, store) = (self.sequence(), self.pool.take(&mut self.random));
        let wanted = match self.table.at(sequence) {
            None => Ok(Inserted::New),
            Some((held, old)) if held == sequence => Ok(Inserted::Replaced(old)),
            Some(_) => Err(Refusal::Occupied),
        };
        let outcome = self.window.insert(sequence, store);
        assert_eq!(outcome.answer, wanted, "insert {sequence}");
        self.seen.returned_by_insert += outcome.returned.len() as u64;
        self.pool.all_back(outcome.returned);
        if wanted.is_err() {
            self.seen.refused += 1;
            return self.pool.refused(store);
        }
        if let Ok(Inserted::Replaced(old)) = wanted {
            self.seen.replaced += 1;
            self.pool.back(old);
        }
        self.pool.accepted(store);
        self.table.put(sequence, store);
    }

    fn exchange(&mut self) {
        let (sequence, store) = (self.sequence(), self.pool.take(&mut self.random));
        let old = self.table.get(sequence);
        assert_eq!(self.window.exchange(sequence, store), Ok(old), "exchange {sequence}");
        let Some(old) = old else {
            return self.pool.refused(store);
        };
        self.pool.back(old);
        self.pool.accepted(store);
        self.table.put(sequence, store);
    }

    fn remove(&mut self) {
        let sequence = self.sequence();
        let value = self.table.get(sequence);
        assert_eq!(self.window.remove(sequence), Ok(value), "remove {sequence}");
        if let Some(value) = value {
            self.pool.back(value);
            self.table.pairs.remove(&(sequence % self.table.capacity));
        }
    }

    fn take_front(&mut self) {
        let base = self.window.base();
        let value = self.table.get(base);
        assert_eq!(self.window.take_front(), Ok(value), "take_front at {base}");
        let moved = value.map_or(base, |_| wire(base + 1));
        assert_eq!(self.window.base(), moved);
        if let Some(value) = value {
            self.seen.fronts += 1;
            self.pool.back(value);
            self.table.pairs.remove(&(base % self.table.capacity));
        }
    }

    /// Most sequences lie elsewhere from now on, and the window's base follows.
    fn move_base(&mut self) {
        self.base = wire(self.base + self.random.below(self.table.window_size));
        assert_eq!((self.window.set_base(self.base), self.window.base()), (Ok(()), self.base));
    }

    /// A number with the top bit set is refused by every call that takes a sequence, and a base of that kind.
    fn wide(&mut self) {
        let (sequence, store, before) = (self.sequence(), self.pool.take(&mut self.random), *self.window.header());
        let wide = sequence | TOP_BIT;
        let refused = Err(Refusal::Sequence);
        assert_eq!(self.window.insert(wide, store).answer, Err(Refusal::Sequence), "insert {wide}");
        assert_eq!(self.window.exchange(wide, store), refused, "exchange {wide}");
        self.pool.refused(store);
        assert_eq!((self.window.get(wide), self.window.remove(wide)), (refused, refused), "get, remove {wide}");
        assert_eq!((self.window.first_from(wide), self.window.successor_after(wide)), (refused, refused), "searches from {wide}");
        for (first, last) in [(wide, sequence), (sequence, wide), (wide, wide)] {
            assert_eq!(self.window.remove_range(first, last).answer, Err(Refusal::Sequence), "remove_range {first} {last}");
            assert_eq!(self.window.stranger(first, last), Err(Refusal::Sequence), "stranger {first} {last}");
        }
        assert_eq!(self.window.set_base(wide), Err(Refusal::Base), "set_base {wide}");
        assert_eq!(*self.window.header(), before);
        self.seen.wide += 1;
    }

    fn look(&mut self) {
        let sequence = self.sequence();
        assert_eq!(self.window.get(sequence), Ok(self.table.get(sequence)), "get {sequence}");
        assert_eq!(self.window.first_from(sequence), Ok(self.table.search(sequence)), "first_from {sequence}");
        let successor = self.table.search(sequence.wrapping_add(1));
        assert_eq!(self.window.successor_after(sequence), Ok(successor), "successor_after {sequence}");
    }

    /// The ends of a range, now and then of one too long.
    fn range(&mut self) -> (u32, u32) {
        let first = self.sequence();
        let reach = match self.random.below(4) {
            0 => self.random.below(self.table.window_size + 2),
            _ => self.random.below(64.min(self.table.window_size)),
        };
        (first, wire(first + reach))
    }

    fn stranger(&mut self) {
        let (first, last) = self.range();
        let count = Table::count(first, last);
        let answer = self.window.stranger(first, last);
        let mut pairs = self.table.pairs.values();
        match answer {
            _ if count > self.table.window_size => assert_eq!(answer, Err(Refusal::RangeCount)),
            Ok(Some(pair)) => assert!(self.table.is_stranger(pair, first, count), "stranger {first} {last}"),
            _ => assert!(answer == Ok(None) && !pairs.any(|&pair| self.table.is_stranger(pair, first, count)), "stranger {first} {last}"),
        }
        self.seen.strangers += u64::from(matches!(answer, Ok(Some(_))));
    }

    fn remove_range(&mut self) {
        let (first, last) = self.range();
        let count = Table::count(first, last);
        let wanted = match count > self.table.window_size {
            true => Err(Refusal::RangeCount),
            false => Ok(self.table.empty(first, count)),
        };
        let outcome = self.window.remove_range(first, last);
        assert_eq!(outcome.answer, wanted, "remove_range {first} {last}");
        self.pool.all_back(outcome.returned);
    }

    fn release(&mut self) {
        let budget = self.random.below(260);
        let before = self.window.retired_held();
        let outcome = self.window.release_retired(budget);
        let released = outcome.returned.len() as u32;
        match outcome.answer {
            Ok(Released { values, units }) => assert!(budget <= 256 && values == released && (values..=budget).contains(&units)),
            Err(refusal) => assert!(budget > 256 && refusal == Refusal::Budget && released == 0),
        }
        self.seen.returned_by_release += u64::from(released);
        self.pool.all_back(outcome.returned);
        assert_eq!(self.window.retired_held(), before - released);
    }

    fn clear(&mut self) {
        let outcome = self.window.clear();
        assert_eq!(outcome.answer, Ok(()));
        self.pool.all_back(outcome.returned);
        self.table.pairs.clear();
    }

    fn clear_bounded(&mut self) {
        let number = self.random.below(260);
        let held = self.window.len() + self.window.retired_held();
        let outcome = self.window.clear_bounded(number);
        if number > 256 {
            return assert_eq!((outcome.answer, outcome.returned.len()), (Err(Refusal::Budget), 0));
        }
        assert_eq!((outcome.answer, outcome.returned.len()), (Ok(number.min(held)), number.min(held) as usize));
        self.pool.all_back(outcome.returned);
        self.table.pairs.clear();
    }

    /// The live pairs are the table's, and the state is sound.
    fn compare(&self) {
        assert_eq!(self.window.check(), Ok(()));
        let pairs: Result<Vec<_>, _> = self.window.iter().collect();
        let mut pairs = pairs.expect("a sound state");
        let mut wanted: Vec<_> = self.table.pairs.values().copied().collect();
        pairs.sort_unstable();
        wanted.sort_unstable();
        assert_eq!(pairs, wanted);
    }

    fn step(&mut self) {
        match self.random.below(1000) {
            0..=599 => self.insert(),
            600..=639 => self.exchange(),
            640..=799 => self.remove(),
            800..=839 => self.look(),
            840..=869 => self.take_front(),
            870..=899 => self.stranger(),
            900..=939 => self.remove_range(),
            940..=984 => self.release(),
            985..=987 => self.clear(),
            988..=990 => self.clear_bounded(),
            991..=992 => self.wide(),
            _ => self.move_base(),
        }
        let (base, point) = (self.window.base(), self.window.point());
        assert_eq!(point, self.table.point(base), "the point from {base}");
        self.seen.furthest_point = self.seen.furthest_point.max(wire(point.wrapping_sub(base)));
        assert_eq!(self.window.len() as usize, self.table.pairs.len());
        assert_eq!((self.window.len() + self.window.retired_held()) as usize, self.pool.out.len());
        self.seen.most_retired = self.seen.most_retired.max(self.window.retired_held());
    }

    /// Everything comes back, and no store is missing.
    fn finish(mut self, stores: u32, seen: &mut Seen) {
        seen.add(&self.seen, &self.window);
        self.clear();
        while self.window.has_retired() {
            let outcome = self.window.release_retired(MAX_RETIRED_RELEASED_PER_VISIT);
            assert!(!outcome.returned.is_empty());
            self.pool.all_back(outcome.returned);
        }
        assert!(self.window.is_released() && self.pool.out.is_empty());
        self.pool.free.sort_unstable();
        assert!(self.pool.free.into_iter().eq(0..stores));
    }
}

impl Seen {
    fn add(&mut self, other: &Self, window: &Window) {
        self.promotions += window.promotions();
        self.single_demotions += window.single_demotions();
        self.range_demotions += window.range_demotions();
        self.refused += other.refused;
        self.replaced += other.replaced;
        self.strangers += other.strangers;
        self.fronts += other.fronts;
        self.wide += other.wide;
        self.furthest_point = self.furthest_point.max(other.furthest_point);
        self.most_retired = self.most_retired.max(other.most_retired);
        self.returned_by_insert += other.returned_by_insert;
        self.returned_by_release += other.returned_by_release;
    }
}

fn run(seed: u64, window_size: u32, calls: u32, seen: &mut Seen) {
    let mut random = Random(seed.wrapping_mul(0x9e37_79b9_7f4a_7c15) | 1);
    let n = 1 + random.below(63);
    let demote_at = random.below(n + 1);
    let mut memory = OwnedMemory::new(window_size);
    let window = Window::new(memory.lend(), window_size, n, demote_at).expect("within the limits");
    let stores = capacity(window_size) as u32 + 1;
    let base = wire(random.next() as u32);
    let mut run = Run { window, table: Table::new(window_size), pool: Pool::new(stores), random, base, seen: Seen::default() };
    for call in 0..calls {
        run.step();
        if window_size <= 256 || call % 500 == 0 {
            run.compare();
        }
    }
    run.finish(stores, seen);
}

/// One run for each seed, on the window sizes in turn. None of what a run may meet has been missed.
fn runs(seeds: std::ops::RangeInclusive<u64>, window_sizes: &[u32], calls: u32) {
    let mut seen = Seen::default();
    for (seed, &window_size) in seeds.zip(window_sizes.iter().cycle()) {
        run(seed, window_size, calls, &mut seen);
    }
    assert!(seen.promotions > 0 && seen.single_demotions > 0 && seen.range_demotions > 0);
    assert!(seen.refused > 0 && seen.replaced > 0);
    assert!(seen.fronts > 0 && seen.wide > 0 && seen.furthest_point > 10);
    assert!(seen.strangers > 0 && seen.most_retired > 0 && seen.returned_by_insert > 0 && seen.returned_by_release > 0);
}

#[test]
fn small_windows() {
    runs(1..=60, &[1, 2, 63, 64, 65, 100, 128, 200], 3000);
}

#[test]
fn middle_windows() {
    runs(101..=120, &[300, 512, 1000, 2048, 4096], 6000);
}

#[test]
fn large_windows() {
    runs(201..=206, &[8192, 20000, 65536], 30000);
}
