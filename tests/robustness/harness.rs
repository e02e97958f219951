//! Calls of the static library on any lent memory, between guard regions.
//!
//! `harness --calls COUNT`: lists of calls for the seeds from 1 on, until COUNT calls are made; then every kind of memory, call and
//! refusal must have been met. `harness FIRST LAST`: the lists of these seeds. `harness --self-test`: the faults of faults.rs, each of
//! which must be named. A seed decides its list of calls and the memory; a report says how to run it again.

mod arguments;
#[allow(dead_code)] // the line program's generator uses the rest
#[path = "../../oracle/src/calls.rs"]
mod calls;
mod contents;
mod counts;
#[path = "../library/damage.rs"]
mod damage;
#[path = "../library/declared.rs"]
mod declared;
mod faults;
mod guarded;
mod judge;
#[allow(dead_code)]
#[path = "../../oracle/src/line.rs"]
mod line;
#[path = "../../oracle/src/lists.rs"]
mod lists;
#[path = "../../oracle/src/losses.rs"]
mod losses;
mod memory;
mod operations;
#[path = "../library/reads.rs"]
mod reads;
mod reports;
#[path = "../library/sigaction.rs"]
mod sigaction;
mod signals;
#[allow(dead_code)] // the test of check uses the rest
#[path = "../library/soundness.rs"]
mod soundness;

use arguments::{in_a_dense_page, with_a_short_list, with_a_wrong_header, Arguments};
use calls::Random;
use contents::{break_one_clause, change, change_demotions, copy_about, fill, fill_around, state_before};
use counts::{Counts, Start, STARTS};
use declared::{Header, NumberedStep, FOUND};
use faults::Fault;
use guarded::Mappings;
use judge::{refused, Made};
use memory::{Memory, BLOCKS, HEADER, LOST, PAGES, RETURNED, SEQUENCES, VALUES, WORDS};
use operations::{after_base, Call, OCCUPIED, UNSOUND};
use reports::{with_list, with_places, Due};
use signals::{again, watched, Named};
use std::process::ExitCode;

/// The lists of a window, with the return list and the header.
const WINDOW_LISTS: [usize; 6] = [SEQUENCES, VALUES, PAGES, BLOCKS, RETURNED, HEADER];

/// A copy of header and lists of a window.
struct Saved {
    header: Header,
    lists: Vec<Vec<u64>>,
}

/// One list of calls.
struct List<'a> {
    seed: u64,
    number: u64,
    random: Random,
    arguments: Arguments,
    memory: Memory,
    start: Start,
    fault: Option<&'static Fault>,
    counts: &'a mut Counts,
}

impl<'a> List<'a> {
    fn new(seed: u64, mappings: &mut Mappings, counts: &'a mut Counts, fault: Option<&'static Fault>) -> Self {
        let mut random = Random::new(seed);
        let window_size = match random.below(20) {
            0..=5 => random.pick(&[1, 2, 63, 64]),
            6..=11 => random.pick(&[65, 127, 128, 129, 300, 512]),
            12..=17 => random.pick(&[1000, 2048, 4000, 4096]),
            18 => random.pick(&[4097, 8192, 10_000]),
            _ => random.pick(&[32_768, 65_535, 65_536]),
        };
        let memory = Memory::new(mappings, &mut random, window_size);
        let arguments = Arguments::new(&mut random);
        let mut list = Self { seed, number: 0, random, arguments, memory, start: Start::Sound, fault, counts };
        fill_around(&mut list.random, &mut list.memory);
        list.memory.remember(&[WORDS, LOST]);
        list.memory.header = Header { window_size, n: 1, demote_at: 0, ..Header::default() };
        list
    }

    /// Whether the state before the call was sound, by the clauses of document 01; not asked where it makes no difference.
    fn was_sound(&self, call: &Call, step: &NumberedStep) -> bool {
        if self.start == Start::Sound {
            return true;
        }
        let asked = call.operation.is_check() || matches!(refused(step.answer), Some(OCCUPIED | UNSOUND));
        asked && call.refusal().is_none() && state_before(&self.memory, call.header).broken().is_empty()
    }

    fn make(&self, call: &Call, writable: &[usize]) -> NumberedStep {
        let lent = self.memory.lent(call.lengths, writable);
        watched(self.seed, self.number, call, &self.memory, || {
            let mut step = (call.operation.make)(call.header, &lent, call.numbers);
            if let Some(fault) = self.fault {
                (fault.end)(call, &lent, &mut step);
            }
            step
        })
    }

    /// Whether the library's get finds the sequence, on the state as it is.
    fn is_live(&self, sequence: u32) -> bool {
        let operation = operations::find("get").expect("get is a call");
        let lent = self.memory.lent(self.memory.lengths(), &[]);
        (operation.make)(self.memory.header, &lent, [sequence, 0, 0]).answer.code == FOUND
    }

    /// What a loss report must give.
    fn due(&self, call: &Call) -> Due {
        let [first, last, _] = call.numbers;
        if call.refusal().is_some() {
            Due::Open
        } else if call.operation.reads_losses() {
            reports::read(call, &self.memory)
        } else if call.operation.writes_losses() && self.start == Start::Sound {
            let lost = losses::lost(call.header.window_size, first, last, |sequence| self.is_live(sequence));
            Due::Words(losses::words(first, &lost.expect("a range that is not refused")))
        } else {
            Due::Open
        }
    }

    fn call(&mut self, call: &Call) -> Result<(), String> {
        let due = self.due(call);
        self.call_due(call, &due)
    }

    /// The call made; what it left is judged and is the memory of the next one.
    fn call_due(&mut self, call: &Call, due: &Due) -> Result<(), String> {
        let refusal = call.refusal().or_else(|| due.refusal(call));
        // A host form writes the header back even if it is as it came.
        let writable = if refusal.is_none() { call.operation.writes } else { &[HEADER] };
        if call.operation.by_start() {
            self.memory.place_header(call.header);
        }
        self.number += 1;
        let step = self.make(call, writable);
        let sound = self.was_sound(call, &step);
        let made = Made { call, step: &step, memory: &self.memory, sound, due, refusal };
        made.judge().map_err(|why| format!("{why} in {}", Named(call)))?;
        self.counts.note(self.start, call, &step);
        if refusal.is_none() {
            self.memory.header = step.window;
            self.memory.remember(writable);
            self.stays_sound(call)?;
        }
        Ok(())
    }

    /// An accepted new makes a sound state, and every call keeps one sound, by the library's check; asked now and then.
    fn stays_sound(&mut self, call: &Call) -> Result<(), String> {
        if call.operation.is_new() {
            self.start = Start::Sound;
        }
        if self.start != Start::Sound || !self.random.percent(10) {
            return Ok(());
        }
        self.counts.checked += 1;
        let operation = operations::find("check").expect("check is a call");
        let check = Call { operation, header: self.memory.header, lengths: self.memory.lengths(), numbers: [0; 3] };
        match self.make(&check, &[]).answer {
            answer if refused(answer).is_none() => Ok(()),
            answer => Err(format!("check answers {answer:?} after {}", Named(call))),
        }
    }

    /// The call, or one in its place that header or lengths refuse.
    fn varied(&mut self, call: &Call) -> Result<(), String> {
        let call = match self.random.below(32) {
            0 => with_a_short_list(&mut self.random, call),
            1 => with_a_wrong_header(&mut self.random, call),
            _ => *call,
        };
        if call.operation.writes_losses() {
            let due = self.due(&call);
            let call = with_places(&mut self.random, &call, &due);
            return self.call_due(&call, &due);
        }
        let call = if call.operation.reads_losses() { with_list(&mut self.random, &call, &mut self.memory) } else { call };
        self.call(&call)
    }

    fn save(&mut self) -> Saved {
        let lists = WINDOW_LISTS.map(|list| self.memory.lists[list].whole().to_vec()).into();
        Saved { header: self.memory.header, lists }
    }

    fn restore(&mut self, saved: &Saved) {
        self.memory.header = saved.header;
        for (list, words) in WINDOW_LISTS.into_iter().zip(&saved.lists) {
            self.memory.lists[list].whole().copy_from_slice(words);
        }
    }

    fn call_named(&mut self, name: &str, numbers: [u32; 3]) -> Result<(), String> {
        let operation = operations::find(name).ok_or_else(|| format!("no call {name}"))?;
        self.call(&Call { operation, header: self.memory.header, lengths: self.memory.lengths(), numbers })
    }

    /// A window made by new.
    fn renew(&mut self) -> Result<(), String> {
        let n = self.random.pick(&[1, 2, 3, 8, 16, 32, 63]);
        let demote_at = self.random.below(n + 1);
        self.memory.remember(&WINDOW_LISTS);
        self.call_named("new", [self.memory.header.window_size, n, demote_at])
    }

    fn fill(&mut self, calls: u32) -> Result<(), String> {
        for _ in 0..calls {
            let call = self.arguments.filling(&mut self.random, &mut self.memory);
            self.varied(&call)?;
        }
        Ok(())
    }

    /// Calls on a sound state that fill it; half of the time most values are then retired, and more calls follow.
    fn fill_and_retire(&mut self, calls: u32) -> Result<(), String> {
        self.fill(calls)?;
        if self.random.percent(50) {
            let number = self.random.below(3);
            self.call_named("clear_bounded", [number, 0, 0])?;
            self.fill(100)?;
        }
        Ok(())
    }

    /// On a sound state: two pages in a row are filled, then dense pages thinned until they are sparse, by so many calls at most, of ranges
    /// or of single values; half of the time with counts of demotions that wrap soon.
    fn thin(&mut self, calls: u32) -> Result<(), String> {
        if self.random.percent(50) {
            change_demotions(&mut self.random, &mut self.memory);
        }
        let by_ranges = self.random.percent(30);
        let first = self.random.below(1 << 25) * 64;
        for more in 0..128 {
            let value = self.random.any();
            self.call_named("insert", [after_base(first, more), value, 0])?;
        }
        for _ in 0..calls {
            let Some(sequence) = in_a_dense_page(&mut self.random, &mut self.memory) else {
                return Ok(());
            };
            match self.random.below(3) {
                _ if by_ranges => {
                    // Half of the time it ends in the page after that, which then may be thinned too.
                    let more = self.random.below(64) + self.random.pick(&[0, 64]);
                    let more = more.min(self.memory.header.window_size - 1);
                    self.call_named("remove_range", [sequence, after_base(sequence, more), 0])?;
                }
                0 => self.call_named("remove", [sequence, 0, 0])?,
                1 => self.call_named("host_remove", [sequence, 0, 0])?,
                _ => {
                    self.call_named("set_base", [sequence, 0, 0])?;
                    self.call_named("take_front", [0; 3])?;
                }
            }
        }
        Ok(())
    }

    /// Memory that is not sound, of one start; from a sound state if it needs one.
    fn spoil(&mut self, start: Start, saved: &Saved) {
        self.restore(saved);
        self.memory.remember(&WINDOW_LISTS);
        self.start = start;
        match start {
            Start::Random(kind) => fill(&mut self.random, &mut self.memory, kind),
            Start::Copied => copy_about(&mut self.random, &mut self.memory),
            Start::OneClause => break_one_clause(&mut self.random, &mut self.memory),
            Start::Damaged => change(&mut self.random, &mut self.memory),
            Start::Sound => (),
        }
        self.memory.remember(&WINDOW_LISTS);
    }

    /// Calls on memory that is spoiled at first, after an accepted new, and now and then.
    fn unsound(&mut self, start: Start, calls: u32) -> Result<(), String> {
        let saved = self.save();
        for _ in 0..calls {
            if self.start != start || self.random.percent(10) {
                self.spoil(start, &saved);
            }
            let call = self.arguments.any(&mut self.random, &mut self.memory);
            self.varied(&call)?;
        }
        Ok(())
    }

    fn run(&mut self) -> Result<(), String> {
        let (start, _) = self.random.pick(&STARTS);
        self.renew()?;
        match start {
            Start::Sound => (0..6).try_for_each(|_| {
                self.fill_and_retire(1000)?;
                self.thin(200)
            }),
            Start::Random(_) => self.unsound(start, 3000),
            _ => {
                let calls = self.random.pick(&[100, 1000, 4000]);
                self.fill_and_retire(calls)?;
                self.unsound(start, 3000)
            }
        }
    }
}

fn list(seed: u64, mappings: &mut Mappings, counts: &mut Counts, fault: Option<&'static Fault>) -> Result<(), String> {
    let mut list = List::new(seed, mappings, counts, fault);
    let run = list.run();
    run.map_err(|why| format!("seed {seed}, call {}: {why}\n{}", list.number, again(seed)))
}

fn run(arguments: &[String]) -> Result<String, String> {
    let words: Vec<&str> = arguments.iter().map(String::as_str).collect();
    let number = |word: &str| word.parse::<u64>().map_err(|_| format!("no number: {word}"));
    let (first, last, calls, fault) = match words[..] {
        ["--self-test"] => return faults::self_test(),
        ["--calls", calls] => (1, u64::MAX, number(calls)?, None),
        [first, last] => (number(first)?, number(last)?, u64::MAX, None),
        [first, last, "--fault", name] => {
            (number(first)?, number(last)?, u64::MAX, Some(faults::find(name).ok_or("no such fault")?))
        }
        _ => return Err("usage: harness --calls COUNT | FIRST LAST [--fault NAME] | --self-test".to_string()),
    };
    let (mut mappings, mut counts) = (Mappings::default(), Counts::new());
    signals::watch("harness");
    let mut seed = first;
    while seed <= last && counts.total() < calls {
        list(seed, &mut mappings, &mut counts, fault)?;
        seed += 1;
    }
    counts.print();
    let missing = (last == u64::MAX).then(|| counts.missing()).flatten();
    missing.map_or(Ok(()), Err)?;
    Ok(format!("{} calls, seeds {first} to {}, each kept to its memory and its refusals", counts.total(), seed - 1))
}

fn main() -> ExitCode {
    let arguments: Vec<String> = std::env::args().skip(1).collect();
    match run(&arguments) {
        Ok(said) => {
            println!("{said}");
            ExitCode::SUCCESS
        }
        Err(why) => {
            println!("{why}");
            ExitCode::FAILURE
        }
    }
}
