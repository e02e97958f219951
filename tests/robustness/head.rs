//! A window over the static library beside the papers' plain table and the ledger of its stores. Every answer is held against the
//! table, every store that is handed back against the ledger.

use crate::calls::Random;
use crate::declared::*;
use crate::guarded::Mappings;
use crate::ledger::Ledger;
use crate::losses;
use crate::memory::{capacity, Memory, LISTS, LOST, RETURNED, WORDS};
use crate::operations::*;
use crate::reads::reads_due;
use crate::signals::watched;

/// A wrong end of a call, to show that it is noticed.
#[derive(Debug, Clone, Copy, PartialEq, Eq)]
pub enum Fault {
    /// A store is in a return list twice.
    Twice,
    /// The last store of a return list is left out.
    Never,
    /// A return list has another store's number.
    Another,
    /// A replaced store is not given.
    NotReplaced,
    /// A removed store stands in the answer of the next removal.
    Late,
    /// None retired is said while some are.
    NoneHeld,
    /// A release visit does nothing.
    Idle,
    /// The point stays where it was.
    StillPoint,
    /// Taking the front leaves the base.
    StillBase,
    /// The last word of a loss list is not told.
    WordLess,
    /// A loss list has another word.
    OtherWord,
    /// A loss is read as none, or none as a loss.
    OtherByte,
    /// A demotion is counted under the other cause.
    OtherCause,
    /// A visit counts a demotion.
    VisitDemotes,
}

crate::counted! {
    /// What the calls were.
    Tally {
        calls: "calls",
        hosted: "of these, by host forms",
        inserted: "values entered",
        replaced: "values replaced",
        occupied: "inserts refused 4",
        removed: "values removed",
        exchanged: "values exchanged",
        fronts: "values taken from the front",
        bases: "bases set",
        bases_refused: "bases refused 9",
        wide: "calls refused 10",
        points: "calls that left the point past the base",
        ranges: "ranges removed",
        ranges_refused: "ranges refused 5",
        emptied: "values retired by ranges and clears",
        visits: "release visits",
        clears: "clears",
        released: "values handed back in return lists",
        emptied_by_halves: "times that visits by the halves of their budgets left none retired",
        listed: "pairs listed by iter and compared",
        strangers: "answers of stranger with a pair",
        reports: "loss reports written and read back",
        reported: "losses in them",
        report_words: "words in them",
        reports_refused: "loss reports refused 5",
        reports_short: "loss reports refused 11",
        checked: "states checked",
        promotions: "promotions",
        demotions_by_remove: "demotions by remove",
        demotions_by_front: "demotions by taking the front",
        demotions_by_range: "demotions by ranges",
    }
}

pub struct Head {
    pub ledger: Ledger,
    pub tally: Tally,
    memory: Memory,
    table: Vec<Option<(u32, u32)>>,
    base: u32,
    seed: u64,
    /// Calls are made by their host forms, where there is one.
    by_start: bool,
    fault: Option<Fault>,
    late: u32,
}

fn demand(holds: bool, what: impl FnOnce() -> String) -> Result<(), String> {
    if holds {
        Ok(())
    } else {
        Err(what())
    }
}

impl Head {
    /// A window over memory of any content.
    pub fn new(mappings: &mut Mappings, random: &mut Random, seed: u64, window: [u32; 3], stores: u32, fault: Option<Fault>) -> Result<Self, String> {
        let mut memory = Memory::new(mappings, random, window[0]);
        for list in &mut memory.lists {
            list.whole().iter_mut().for_each(|word| *word = random.next());
        }
        let ledger = Ledger::new(stores);
        let table = vec![None; capacity(window[0])];
        let by_start = random.percent(50);
        let mut head = Self { ledger, tally: Tally::default(), memory, table, base: 0, seed, by_start, fault, late: 0 };
        head.renew(window)?;
        Ok(head)
    }

    pub fn window_size(&self) -> u32 {
        self.memory.header.window_size
    }

    /// The window made anew, of the same size, once it is empty.
    pub fn renew(&mut self, window: [u32; 3]) -> Result<(), String> {
        self.tally.promotions += self.memory.header.promotions;
        let answer = self.make("new", window)?;
        self.base = 0;
        demand(answer.code == DONE, || format!("new {window:?} answers {answer:?}"))
    }

    fn end_wrongly(&mut self, call: &Call, step: &mut NumberedStep) {
        if self.fault.is_none() {
            return;
        }
        let lent = self.memory.lent(call.lengths, call.operation.writes);
        let returned = self.memory.lists[RETURNED].numbers();
        let count = step.count as usize;
        let name = call.operation.call();
        let removed = name == "remove" && step.answer.code == FOUND;
        let written = name == "write_losses" && step.answer.code == FOUND && step.answer.first > 0;
        let read = name == "read_losses" && step.answer.code == FOUND;
        match self.fault {
            Some(Fault::Twice) if 0 < count && count < returned.len() => {
                returned[count] = returned[0];
                step.count += 1;
            }
            Some(Fault::Never) if 0 < count => step.count -= 1,
            Some(Fault::Another) if 0 < count => returned[0] ^= 1,
            Some(Fault::NotReplaced) if step.answer.code == REPLACED => {
                step.answer = NumberedAnswer { code: NEW, first: 0, ..step.answer };
            }
            Some(Fault::Late) if removed => std::mem::swap(&mut step.answer.first, &mut self.late),
            Some(Fault::NoneHeld) => step.window.retired_held = 0,
            Some(Fault::StillPoint) => step.window.point = self.memory.header.point,
            Some(Fault::StillBase) if name == "take_front" => step.window.base = self.memory.header.base,
            Some(Fault::WordLess) if written => step.answer.first -= 1,
            Some(Fault::OtherWord) if written => unsafe { *lent.starts[WORDS].cast::<u32>() ^= 1 },
            Some(Fault::OtherByte) if read => unsafe { *lent.starts[LOST] ^= 1 },
            Some(Fault::OtherCause) => {
                let [single, range] = demotions_counted(call.header, step.window);
                step.window.single_demotions = call.header.single_demotions.wrapping_add(range);
                step.window.range_demotions = call.header.range_demotions.wrapping_add(single);
            }
            Some(Fault::VisitDemotes) if name == "release_retired" => step.window.range_demotions += 1,
            _ => (),
        }
    }

    fn step(&mut self, call: &Call) -> NumberedStep {
        if self.fault == Some(Fault::Idle) && call.operation.call() == "release_retired" {
            let answer = NumberedAnswer { code: RELEASED, first: 0, second: 0, third: 0, fourth: 0 };
            return NumberedStep { window: call.header, answer, count: 0 };
        }
        if call.operation.by_start() {
            self.memory.place_header(call.header);
        }
        let lent = self.memory.lent(call.lengths, call.operation.writes);
        let run = || (call.operation.make)(call.header, &lent, call.numbers);
        let mut step = watched(self.seed, self.tally.calls, call, &self.memory, run);
        self.end_wrongly(call, &mut step);
        step
    }

    /// One call on the whole lists.
    fn make(&mut self, name: &str, numbers: [u32; 3]) -> Result<NumberedAnswer, String> {
        self.make_lent(name, numbers, self.memory.lengths())
    }

    /// One call; the stores of its return list are entered in the ledger as released, and the header's counts compared.
    fn make_lent(&mut self, name: &str, numbers: [u32; 3], lengths: [usize; LISTS]) -> Result<NumberedAnswer, String> {
        let operation = form(name, self.by_start).ok_or_else(|| format!("{name} is not in the library"))?;
        let call = Call { operation, header: self.memory.header, lengths, numbers };
        self.tally.calls += 1;
        self.tally.hosted += u64::from(operation.by_start());
        let step = self.step(&call);
        self.memory.header = step.window;
        let count = step.count as usize;
        let places = if operation.with_list() { call.lengths[RETURNED] } else { 0 };
        demand(count <= places, || format!("{name} {numbers:?}: count {count}"))?;
        for at in 0..count {
            let store = self.memory.lists[RETURNED].numbers()[at];
            self.ledger.released(store).map_err(|why| format!("{name} {numbers:?} returned it: {why}"))?;
            self.tally.released += 1;
        }
        if !operation.is_new() {
            self.demoted(&call)?;
        }
        Ok(step.answer)
    }

    /// The header's counts of demotions were raised by the call as it may; what they were raised by is tallied by its cause.
    fn demoted(&mut self, call: &Call) -> Result<(), String> {
        let (counted, most) = (demotions_counted(call.header, self.memory.header), call.operation.most_demotions());
        let holds = counted.iter().zip(most).all(|(&counted, most)| counted <= most);
        let name = call.operation.call();
        demand(holds, || format!("{name} {:?} counts {counted:?} demotions, single and of ranges", call.numbers))?;
        let [single, range] = counted;
        match name {
            "remove" => self.tally.demotions_by_remove += single,
            "take_front" => self.tally.demotions_by_front += single,
            _ => self.tally.demotions_by_range += range,
        }
        Ok(())
    }

    /// The header's counts are those of the ledger, its base and point those of the table.
    fn counted(&mut self) -> Result<(), String> {
        let counts = (self.memory.header.len, self.memory.header.retired_held);
        let kept = (self.ledger.live(), self.ledger.retired());
        demand(counts == kept, || format!("len and retired_held {counts:?}, the ledger's {kept:?}"))?;
        self.pointed()
    }

    /// The base is the table's, and the point is the first sequence from it that is not live. That those before it are live is looked
    /// for the seldomer the more they are, and each time of the last ones.
    fn pointed(&mut self) -> Result<(), String> {
        let Header { base, point, window_size, .. } = self.memory.header;
        let reach = range_count(base, point) - 1;
        let ends = reach == window_size || (reach < window_size && self.store_of(point).is_none());
        let from = if self.tally.calls % u64::from(reach + 16) == 0 { 0 } else { reach.saturating_sub(8) };
        let live = ends && (from..reach).all(|steps| self.store_of(after_base(base, steps)).is_some());
        self.tally.points += u64::from(reach > 0);
        demand(base == self.base && live, || format!("base and point {base} {point}, the table's base {}", self.base))
    }

    fn position(&self, sequence: u32) -> usize {
        sequence as usize & (self.table.len() - 1)
    }

    /// The store of a live sequence.
    fn store_of(&self, sequence: u32) -> Option<u32> {
        self.table[self.position(sequence)].filter(|&(live, _)| live == sequence).map(|(_, store)| store)
    }

    /// Whether the answer is the store, or absent if there is none.
    fn is_store(answer: NumberedAnswer, store: Option<u32>) -> bool {
        (answer.code, answer.first) == store.map_or((ABSENT, 0), |store| (FOUND, store))
    }

    pub fn insert(&mut self, sequence: u32, store: u32) -> Result<(), String> {
        let position = self.position(sequence);
        let answer = self.make("insert", [sequence, store, 0])?;
        let wrong = || format!("insert {sequence} {store} answers {answer:?}");
        match (self.table[position], answer.code, answer.first) {
            (None, NEW, 0) => self.tally.inserted += 1,
            (Some((live, old)), REPLACED, given) if live == sequence && given == old => {
                self.ledger.leaves(old)?;
                self.tally.replaced += 1;
            }
            (Some((live, _)), REFUSED, OCCUPIED) if live != sequence => {
                self.tally.occupied += 1;
                self.ledger.stays(store)?;
                return self.counted();
            }
            _ => return Err(wrong()),
        }
        self.ledger.enters(store)?;
        self.table[position] = Some((sequence, store));
        self.counted()
    }

    /// A call with a number that has its top bit set.
    pub fn refuses_wide(&mut self, name: &str, numbers: [u32; 3]) -> Result<(), String> {
        let answer = self.make(name, numbers)?;
        self.tally.wide += 1;
        demand((answer.code, answer.first) == (REFUSED, SEQUENCE), || format!("{name} {numbers:?} answers {answer:?}"))?;
        self.counted()
    }

    pub fn get(&mut self, sequence: u32) -> Result<(), String> {
        let store = self.store_of(sequence);
        let answer = self.make("get", [sequence, 0, 0])?;
        demand(Self::is_store(answer, store), || format!("get {sequence} answers {answer:?}, not {store:?}"))
    }

    /// Whether it was there.
    pub fn remove(&mut self, sequence: u32) -> Result<bool, String> {
        let (store, position) = (self.store_of(sequence), self.position(sequence));
        let answer = self.make("remove", [sequence, 0, 0])?;
        demand(Self::is_store(answer, store), || format!("remove {sequence} answers {answer:?}, not {store:?}"))?;
        if let Some(store) = store {
            self.table[position] = None;
            self.ledger.leaves(store)?;
            self.tally.removed += 1;
        }
        self.counted().map(|()| store.is_some())
    }

    /// Refused if it has its top bit.
    pub fn set_base(&mut self, base: u32) -> Result<(), String> {
        let taken = !is_wide(base);
        let answer = self.make("set_base", [base, 0, 0])?;
        let wanted = if taken { (DONE, 0) } else { (REFUSED, BASE) };
        demand((answer.code, answer.first) == wanted, || format!("set_base {base} answers {answer:?}, not {wanted:?}"))?;
        let tally = if taken { &mut self.tally.bases } else { &mut self.tally.bases_refused };
        *tally += 1;
        self.base = if taken { base } else { self.base };
        self.counted()
    }

    /// Whether there was a value.
    pub fn take_front(&mut self) -> Result<bool, String> {
        let (base, store, position) = (self.base, self.store_of(self.base), self.position(self.base));
        let answer = self.make("take_front", [0; 3])?;
        demand(Self::is_store(answer, store), || format!("take_front at {base} answers {answer:?}, not {store:?}"))?;
        if let Some(store) = store {
            self.table[position] = None;
            self.base = after_base(base, 1);
            self.ledger.leaves(store)?;
            self.tally.fronts += 1;
        }
        self.counted().map(|()| store.is_some())
    }

    pub fn exchange(&mut self, sequence: u32, store: u32) -> Result<(), String> {
        let (old, position) = (self.store_of(sequence), self.position(sequence));
        let answer = self.make("exchange", [sequence, store, 0])?;
        demand(Self::is_store(answer, old), || format!("exchange {sequence} answers {answer:?}, not {old:?}"))?;
        match old {
            None => self.ledger.stays(store)?,
            Some(old) => {
                self.ledger.leaves(old)?;
                self.ledger.enters(store)?;
                self.table[position] = Some((sequence, store));
                self.tally.exchanged += 1;
            }
        }
        self.counted()
    }

    /// The positions of a range emptied in the table, their stores retired in the ledger; how many they were.
    fn empty(&mut self, first: u32, count: u32) -> Result<u32, String> {
        let (start, mask) = (self.position(first), self.table.len() - 1);
        let mut emptied = 0;
        for at in start..start + count as usize {
            if let Some((_, store)) = self.table[at & mask].take() {
                self.ledger.retires(store)?;
                emptied += 1;
            }
        }
        self.tally.emptied += u64::from(emptied);
        Ok(emptied)
    }

    pub fn remove_range(&mut self, first: u32, last: u32) -> Result<(), String> {
        let count = range_count(first, last);
        let taken = count <= self.window_size();
        let wanted = if taken { (FOUND, self.empty(first, count)?) } else { (REFUSED, RANGE_COUNT) };
        let answer = self.make("remove_range", [first, last, 0])?;
        let tally = if taken { &mut self.tally.ranges } else { &mut self.tally.ranges_refused };
        *tally += 1;
        demand((answer.code, answer.first) == wanted, || format!("remove_range {first} {last} answers {answer:?}, not {wanted:?}"))?;
        self.counted()
    }

    pub fn clear(&mut self) -> Result<(), String> {
        self.empty(0, self.table.len() as u32)?;
        let answer = self.make("clear", [0; 3])?;
        self.tally.clears += 1;
        demand(answer.code == DONE, || format!("clear answers {answer:?}"))?;
        self.counted()
    }

    pub fn clear_bounded(&mut self, number: u32) -> Result<(), String> {
        self.empty(0, self.table.len() as u32)?;
        let released = number.min(self.ledger.retired());
        let answer = self.make("clear_bounded", [number, 0, 0])?;
        self.tally.clears += 1;
        demand((answer.code, answer.first) == (FOUND, released), || format!("clear_bounded {number} answers {answer:?}, not {released}"))?;
        self.counted()
    }

    pub fn release(&mut self, budget: u32) -> Result<(), String> {
        let held = self.ledger.retired();
        let answer = self.make("release_retired", [budget, 0, 0])?;
        self.tally.visits += 1;
        let released = held - self.ledger.retired();
        let right = answer.code == RELEASED && answer.first == released && released <= answer.second && answer.second <= budget;
        demand(right, || format!("release_retired {budget} answers {answer:?}, {released} came back"))?;
        self.counted()
    }

    /// Visits whose budgets' halves, rounded down, add up to the retired count leave none retired.
    pub fn release_all(&mut self, random: &mut Random) -> Result<(), String> {
        let held = self.ledger.retired();
        let mut halves = 0;
        while halves < held {
            let left = 2 * (held - halves).min(128);
            let budget = if random.percent(30) { left } else { random.pick(&[0, 1, 2, 3, 17, 100, 255, 256]) };
            self.release(budget)?;
            halves += budget / 2;
        }
        self.tally.emptied_by_halves += u64::from(held > 0);
        demand(self.ledger.retired() == 0, || format!("{} of {held} are retired after {halves} halves", self.ledger.retired()))
    }

    /// The pairs that iter gives are those of the table.
    pub fn list(&mut self) -> Result<(), String> {
        let (mut cell, mut found) = (0, 0);
        loop {
            let answer = self.make("iter", [cell, 0, 0])?;
            let NumberedAnswer { code, first, second, third, fourth } = answer;
            let due = reads_due(self.table.len() as u32, cell, (code == PAIR).then(|| third.wrapping_sub(1)));
            demand(fourth == due, || format!("iter {cell} answers {answer:?}, {due} reads are due"))?;
            if code == DONE {
                break;
            }
            demand(code == PAIR && third > cell, || format!("iter {cell} answers {answer:?}"))?;
            demand(self.store_of(first) == Some(second), || format!("iter gives {first} {second}, which the table has not"))?;
            (cell, found) = (third, found + 1);
        }
        self.tally.listed += u64::from(found);
        demand(found == self.ledger.live(), || format!("iter gives {found} pairs of {}", self.ledger.live()))
    }

    /// The first live sequence by position from the one given, or after it.
    fn search(&mut self, name: &str, sequence: u32, from: usize) -> Result<Option<u32>, String> {
        let mask = self.table.len() - 1;
        let wanted = (from..from + self.table.len()).find_map(|at| self.table[at & mask]).map(|(live, _)| live);
        let answer = self.make(name, [sequence, 0, 0])?;
        demand(Self::is_store(answer, wanted), || format!("{name} {sequence} answers {answer:?}, not {wanted:?}"))?;
        Ok(wanted)
    }

    pub fn first_from(&mut self, sequence: u32) -> Result<Option<u32>, String> {
        self.search("first_from", sequence, self.position(sequence))
    }

    pub fn successor_after(&mut self, sequence: u32) -> Result<Option<u32>, String> {
        self.search("successor_after", sequence, self.position(sequence) + 1)
    }

    /// Whether a live sequence at a position of the range is none of the range's.
    fn is_stranger(&self, live: u32, first: u32, count: u32) -> bool {
        let mask = self.table.len() - 1;
        let within = self.position(live).wrapping_sub(self.position(first)) & mask < count as usize;
        within && range_count(first, live) > count
    }

    pub fn stranger(&mut self, first: u32, last: u32) -> Result<(), String> {
        let (count, start, mask) = (range_count(first, last), self.position(first), self.table.len() - 1);
        let answer = self.make("stranger", [first, last, 0])?;
        let wrong = || format!("stranger {first} {last} answers {answer:?}");
        if count > self.window_size() {
            return demand((answer.code, answer.first) == (REFUSED, RANGE_COUNT), wrong);
        }
        let mut live = (start..start + count as usize).filter_map(|at| self.table[at & mask]);
        let none = !live.any(|(live, _)| self.is_stranger(live, first, count));
        let given = self.store_of(answer.first) == Some(answer.second) && self.is_stranger(answer.first, first, count);
        self.tally.strangers += u64::from(!none);
        demand(if none { answer.code == ABSENT } else { answer.code == PAIR && given }, wrong)
    }

    /// The loss report of a range, in a list with a place too few and then in one that is long enough: its words are those of the table's
    /// losses, and read back they are these losses.
    pub fn report(&mut self, random: &mut Random, first: u32, last: u32) -> Result<(), String> {
        let lost = losses::lost(self.window_size(), first, last, |sequence| self.store_of(sequence).is_some());
        let Ok(lost) = lost else {
            self.tally.reports_refused += 1;
            self.reports("write_losses", first, last, self.memory.lengths(), (REFUSED, RANGE_COUNT))?;
            return self.reports("read_losses", first, last, self.memory.lengths(), (REFUSED, RANGE_COUNT));
        };
        let words = losses::words(first, &lost);
        let mut lengths = self.memory.lengths();
        if !words.is_empty() && random.percent(50) {
            lengths[WORDS] = words.len() - 1;
            self.tally.reports_short += 1;
            self.reports("write_losses", first, last, lengths, (REFUSED, SHORT_LIST))?;
        }
        lengths[WORDS] = random.pick(&[words.len(), self.memory.lists[WORDS].count()]);
        self.reports("write_losses", first, last, lengths, (FOUND, words.len() as u32))?;
        let written = &self.memory.lists[WORDS].now::<u32>(lengths[WORDS])[..words.len()];
        demand(written == words, || format!("write_losses {first} {last} writes {written:?}, not {words:?}"))?;
        self.read_report(first, last, &words, &lost)
    }

    fn read_report(&mut self, first: u32, last: u32, words: &[u32], lost: &[bool]) -> Result<(), String> {
        let count = lost.iter().filter(|&&lost| lost).count();
        let mut lengths = self.memory.lengths();
        (lengths[WORDS], lengths[LOST]) = (words.len(), lost.len());
        self.memory.lists[WORDS].put(words);
        self.reports("read_losses", first, last, lengths, (FOUND, count as u32))?;
        let bytes = self.memory.lists[LOST].now::<u8>(lost.len());
        let told = bytes.iter().map(|&byte| u32::from(byte)).eq(lost.iter().map(|&lost| u32::from(lost)));
        self.tally.reports += 1;
        self.tally.reported += count as u64;
        self.tally.report_words += words.len() as u64;
        demand(told, || format!("read_losses {first} {last} of {words:?} writes {bytes:?}"))
    }

    /// A loss report answers so, and changes nothing.
    fn reports(&mut self, name: &str, first: u32, last: u32, lengths: [usize; LISTS], wanted: (u32, u32)) -> Result<(), String> {
        let header = self.memory.header;
        let answer = self.make_lent(name, [first, last, 0], lengths)?;
        let right = (answer.code, answer.first) == wanted && self.memory.header == header;
        demand(right, || format!("{name} {first} {last} answers {answer:?}, not {wanted:?}"))
    }

    /// check says that the state is sound.
    pub fn check(&mut self) -> Result<(), String> {
        let answer = self.make("check", [0; 3])?;
        self.tally.checked += 1;
        demand(answer.code == DONE, || format!("check answers {answer:?}"))
    }
}
