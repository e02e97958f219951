//! The static library and the source in one process, on the same calls, timed in turn.
//!
//! `bench [WORD]`: the rows whose name has WORD in it, all without one. Each row is made on the library, on the source as
//! rustc inlines it, and on the source behind a call boundary; the three take turns in each round, and the median of the
//! rounds is shown, in nanoseconds a call. What the calls answered is summed, and the sums must be equal. In the rows marked
//! `host` the library's insert, remove and release_retired are its host forms.
//!
//! In the rows `front` packets come in order, each followed by a take_front a lag behind; on the source that is a remove. In the rows
//! marked `point` the point is asked for after each packet: on the library it is in the header, on the source it is looked for by a get
//! of each sequence from the base on. `front, 1 % lost`: one packet in a hundred never comes, and the base is set past it. `hole`: the
//! one sequence missing before half a window of live ones is inserted and removed again.
//!
//! In the rows `write_losses` a loss report is made over a whole window, full but for random losses, into a list that is always long
//! enough or, in the row marked `exact`, has just the places; on the source by a get of each sequence. In the row `read_losses` such a list
//! is read. The lists that they leave are in the sums, outside the time.

/// The source's work counters stay out.
macro_rules! count_work {
    ($($counter:tt)*) => {};
}

mod clock;
#[allow(dead_code)] // the comparison uses the rest
#[path = "../library/declared.rs"]
mod declared;
#[allow(dead_code)] // growth.rs uses the rest
mod subjects;
#[allow(dead_code)] // the oracle uses the rest
#[path = "../../oracle/target/window.rs"]
mod window;

use clock::{clock_time, processor_time};
use std::process::ExitCode;
use subjects::{listed, loss_words, Called, Host, Inlined, Library, Window, ABSENT};

const ROUNDS: usize = 25;
const CALLS: u32 = 100_000;
const SIZES: [u32; 4] = [64, 512, 4096, 65536];
/// Most work units of a visit.
const VISIT: u32 = 256;
/// Work units of a visit between packets.
const SHORT_VISIT: u32 = 64;
/// Where filled windows begin: inside a page, so that a range begins and ends inside pages.
const START: u32 = 17;

/// One call of a prepared list.
#[derive(Clone, Copy)]
enum Call {
    Insert(u32),
    Remove(u32),
}

/// One call of a show.
#[derive(Clone, Copy)]
enum Shown {
    Point(Call),
    RemoveRange(u32, u32),
    Visit,
}

/// What a row fills the window with and then does, again and again.
enum Work {
    /// Packets inserted in order, each removed when it is this many behind.
    InOrder { lag: u32 },
    /// A prepared list of inserts and removes; sequences go on from turn to turn by `span`.
    Arrivals { calls: Vec<Call>, span: u32 },
    /// The same with ranges and visits.
    Show { calls: Vec<Shown>, span: u32 },
    Get(Vec<u32>),
    SuccessorAfter(Vec<u32>),
    /// The window listed so many times.
    Iter { times: u32 },
    /// Windows that were filled where `holds` says so: ranges of so many positions removed, one after the other.
    Ranges { length: u32, holds: fn(u32) -> bool },
    /// Windows that were filled and cleared: so many visits of a release.
    Releases { visits: u32 },
    /// Windows that were filled with so many values: cleared.
    Clear { held: u32 },
    /// Visits of a release in a window that has nothing retired.
    NoneRetired,
    /// Packets inserted in order but those that are lost, and the front taken when it is this many behind; where it is absent, the base is
    /// set to the next one. With `point`, that is asked for after each packet.
    Front { lag: u32, lost: fn(u32) -> bool, point: bool },
    /// So many sequences live after the base, which is inserted and removed again and again. With `point`, that is asked for after each
    /// call.
    Hole { live: u32, point: bool },
    /// The losses of the whole window written to a list of so many places.
    WriteLosses { places: usize },
    /// A loss list of the whole window read.
    ReadLosses { words: Vec<u32> },
}

/// Sequences that are looked at for the point in one round, at most.
const SCANNED: u32 = 4_000_000;

/// How often so many sequences are looked at in one round.
fn times(scanned: u32) -> u32 {
    (CALLS / 2).min(SCANNED / scanned)
}

/// One packet in a hundred, at no equal distances.
fn one_percent(sequence: u32) -> bool {
    sequence.wrapping_mul(0x9e37_79b1) >> 16 < 655
}

impl Work {
    /// How many positions of a window are filled before each pass, outside the time; none for the work that goes on by itself.
    fn filled(&self, size: u32) -> Option<u32> {
        match self {
            Work::Ranges { .. } | Work::Releases { .. } => Some(size),
            Work::Clear { held } => Some(*held),
            _ => None,
        }
    }

    /// Where the base is before the first call. Sequences go on from `from`.
    fn base(&self, from: u32) -> u32 {
        match self {
            Work::Front { lag, .. } => from - lag,
            Work::Hole { .. } => START,
            _ => 0,
        }
    }

    /// How many calls are made in a filled window.
    fn calls_in_filled(&self, size: u32) -> u32 {
        match self {
            Work::Ranges { length, .. } => size / length,
            Work::Releases { visits } => *visits,
            _ => 1,
        }
    }

    /// The lists that are lent for it.
    fn lists(&self, size: u32) -> Lists {
        match self {
            Work::WriteLosses { places } => Lists { words: vec![u32::MAX; *places], lost: Vec::new() },
            Work::ReadLosses { words } => Lists { words: words.clone(), lost: vec![u8::MAX; size as usize] },
            _ => Lists::default(),
        }
    }

    /// Whether the position, counted from the first one filled, gets a value.
    fn holds(&self, at: u32) -> bool {
        match self {
            Work::Ranges { holds, .. } => holds(at),
            _ => true,
        }
    }
}

/// The lists of loss reports, empty in other rows.
#[derive(Default)]
struct Lists {
    words: Vec<u32>,
    lost: Vec<u8>,
}

impl Lists {
    fn sum(&self) -> u64 {
        let numbers = self.words.iter().map(|&word| u64::from(word)).chain(self.lost.iter().map(|&byte| u64::from(byte)));
        numbers.fold(0, |sum: u64, number| sum.wrapping_mul(31).wrapping_add(number))
    }
}

struct Row {
    name: &'static str,
    size: u32,
    /// By the host forms.
    host: bool,
    /// In the window before the first call.
    held: Vec<u32>,
    work: Work,
}

/// A small generator: xorshift.
struct Random(u64);

impl Random {
    fn below(&mut self, bound: u32) -> u32 {
        self.0 ^= self.0 << 13;
        self.0 ^= self.0 >> 7;
        self.0 ^= self.0 << 17;
        ((self.0 >> 33) % u64::from(bound)) as u32
    }
}

/// Packets in order, but that each one is lost with this chance and comes again a quarter of the window later; each is read
/// and removed half a window after its place. The list starts and ends with an empty window.
fn arrivals(size: u32, percent: u32) -> Work {
    let mut random = Random(0x9e37_79b9_7f4a_7c15);
    let span = CALLS / 2 / size * size + size;
    let mut again = vec![Vec::new(); (span + size) as usize];
    let mut calls = Vec::new();
    for at in 0..span + size / 2 {
        if at < span {
            if random.below(100) < percent {
                again[(at + size / 4) as usize].push(at);
            } else {
                calls.push(Call::Insert(at));
            }
        }
        calls.extend(again[at as usize].iter().map(|&sequence| Call::Insert(sequence)));
        if at >= size / 2 {
            calls.push(Call::Remove(at - size / 2));
        }
    }
    Work::Arrivals { calls, span: span + size }
}

/// Packets in order, of which one in twenty is lost and comes a quarter of the window later; each is removed half a window
/// after its place. For one packet in a thousand those next in order are given up: a range of 16 to 200 positions, at most
/// a quarter of the window, and every fourth time of 1,000 if that is at most a quarter of the window. What comes late for
/// its range is not inserted. Every sixteenth packet is followed by a visit. The list starts and ends with an empty window.
fn show(size: u32) -> Work {
    let mut random = Random(0x9e37_79b9_7f4a_7c15);
    let span = CALLS / 2 / size * size + size;
    let mut again = vec![Vec::new(); (span + size) as usize];
    let mut calls = Vec::new();
    let (mut next, mut ranges) = (0, 0);
    for at in 0..span + size / 2 {
        if at < span {
            if random.below(100) < 5 {
                again[(at + size / 4) as usize].push(at);
            } else {
                calls.push(Shown::Point(Call::Insert(at)));
            }
            if random.below(1000) == 0 && next + size / 2 <= at {
                ranges += 1;
                let long = ranges % 4 == 0 && size / 4 >= 1000;
                let length = if long { 1000 } else { (16 + random.below(185)).min(size / 4) };
                calls.push(Shown::RemoveRange(next, next + length - 1));
                next += length;
            }
        }
        let late = again[at as usize].iter().filter(|&&sequence| sequence >= next);
        calls.extend(late.map(|&sequence| Shown::Point(Call::Insert(sequence))));
        if next + size / 2 <= at {
            calls.push(Shown::Point(Call::Remove(next)));
            next += 1;
        }
        if at % 16 == 0 {
            calls.push(Shown::Visit);
        }
    }
    Work::Show { calls, span: span + size }
}

/// Sequences in a random order: those below the size that are `at` in a group of `each`.
fn asked(size: u32, each: u32, at: u32) -> Vec<u32> {
    let mut random = Random(0x2545_f491_4f6c_dd1d);
    let groups = size / each;
    (0..CALLS).map(|_| random.below(groups) * each + at).collect()
}

fn rows() -> Vec<Row> {
    let mut rows = Vec::new();
    for size in SIZES {
        let every = |step: usize| (0..size).step_by(step).collect::<Vec<u32>>();
        for (name, work) in [
            ("in order, lag 4, host", Work::InOrder { lag: 4 }),
            ("in order, lag half, host", Work::InOrder { lag: size / 2 }),
            ("front, lag 4, host", Work::Front { lag: 4, lost: |_| false, point: false }),
            ("release_retired, none retired, host", Work::NoneRetired),
            ("show, host", show(size)),
        ] {
            let held = if let Work::Front { lag, .. } = work { (size - lag..size).collect() } else { vec![] };
            rows.push(Row { name, size, host: true, held, work });
        }
        let mut row = |name, held, work| rows.push(Row { name, size, host: false, held, work });
        row("in order, lag 4", vec![], Work::InOrder { lag: 4 });
        row("in order, lag half", vec![], Work::InOrder { lag: size / 2 });
        row("1 % lost", vec![], arrivals(size, 1));
        row("10 % lost", vec![], arrivals(size, 10));
        let none: fn(u32) -> bool = |_| false;
        let half = size / 2;
        for (name, lag, lost, point) in [
            ("front, lag 4", 4, none, false),
            ("front, lag 4, point", 4, none, true),
            ("front, lag half", half, none, false),
            ("front, lag half, point", half, none, true),
            ("front, 1 % lost, lag half", half, one_percent, false),
            ("front, 1 % lost, lag half, point", half, one_percent, true),
        ] {
            let held = (size - lag..size).filter(|&sequence| !lost(sequence)).collect();
            row(name, held, Work::Front { lag, lost, point });
        }
        for (name, point) in [("hole before half", false), ("hole before half, point", true)] {
            row(name, (START + 1..=START + half).collect(), Work::Hole { live: half, point });
        }
        row("get, hit, dense", every(2), Work::Get(asked(size, 2, 0)));
        row("get, miss, dense", every(2), Work::Get(asked(size, 2, 1)));
        row("get, hit, sparse", every(16), Work::Get(asked(size, 16, 0)));
        row("get, miss, sparse", every(16), Work::Get(asked(size, 16, 1)));
        row("successor_after, sparse", every(100), Work::SuccessorAfter(asked(size, 1, 0)));
        row("iter, full", every(1), Work::Iter { times: (CALLS / size).max(1) });
        row("iter, nearly empty", vec![0, size / 3, size - 1], Work::Iter { times: CALLS / 64 });
        let all: fn(u32) -> bool = |_| true;
        for (name, length, holds) in [
            ("remove_range, 1", 1, all),
            ("remove_range, 64", 64, all),
            ("remove_range, 64, 5 % lost", 64, |at| at % 20 != 7),
            ("remove_range, 64, every second", 64, |at| at % 2 == 0),
            ("remove_range, 1000", 1000, all),
            ("remove_range, 65536", 65536, all),
        ] {
            if length <= size {
                row(name, vec![], Work::Ranges { length, holds });
            }
        }
        row("release_retired, none retired", vec![], Work::NoneRetired);
        if size > 256 {
            row("release_retired, much retired", vec![], Work::Releases { visits: size / 256 - 1 });
        }
        row("clear", vec![], Work::Clear { held: size.min(300) });
        row("show", vec![], show(size));
    }
    rows.extend(reports());
    rows
}

/// The size of the window that losses are reported of.
const REPORTED: u32 = 32768;

/// Loss reports of a whole window in which so many percent are lost at random.
fn reports() -> Vec<Row> {
    let (end, places) = (START + REPORTED - 1, loss_words(REPORTED));
    let lossy = |percent: u32| {
        let mut random = Random(0x9e37_79b9_7f4a_7c15);
        let held: Vec<u32> = (START..=end).filter(|_| random.below(100) >= percent).collect();
        let mut words = vec![0; places];
        let count = listed(|sequence| held.binary_search(&sequence).is_ok(), &mut words, START, end);
        words.truncate(count);
        (held, words)
    };
    let row = |name, held, work| Row { name, size: REPORTED, host: false, held, work };
    let mut rows = vec![
        row("write_losses, 0 % lost", lossy(0).0, Work::WriteLosses { places }),
        row("write_losses, 1 % lost", lossy(1).0, Work::WriteLosses { places }),
        row("write_losses, 10 % lost", lossy(10).0, Work::WriteLosses { places }),
    ];
    let (held, words) = lossy(10);
    rows.push(row("write_losses, 10 % lost, exact", held.clone(), Work::WriteLosses { places: words.len() }));
    rows.push(row("read_losses, 10 % lost", held, Work::ReadLosses { words }));
    rows
}

/// The windows emptied and filled anew, for visits cleared too: the sum of the answers, by which the windows are compared.
#[inline(never)]
fn prepare<W: Window>(windows: &mut [W], row: &Row) -> u64 {
    let mut sum = 0u64;
    let mut add = |answer: u64| sum = sum.wrapping_mul(31).wrapping_add(answer);
    let Some(filled) = row.work.filled(row.size) else {
        return 0;
    };
    for w in windows {
        add(w.clear());
        loop {
            let released = w.release_retired(VISIT);
            add(released);
            if released == 0 {
                break;
            }
        }
        for at in (0..filled).filter(|&at| row.work.holds(at)) {
            add(w.insert(START + at, !at));
        }
        if matches!(row.work, Work::Releases { .. }) {
            add(w.clear());
        }
    }
    sum
}

/// The row's calls once: how many there were, and the sum of what they answered. `from` is where sequences start. Work on
/// windows that were filled is done on each, other work on the first.
#[inline(always)]
fn work<W: Window>(windows: &mut [W], lists: &mut Lists, row: &Row, from: &mut u32) -> (u32, u64) {
    let mut sum = 0u64;
    let w = &mut windows[0];
    let mut add = |answer: u64| sum = sum.wrapping_mul(31).wrapping_add(answer);
    let calls = match &row.work {
        Work::InOrder { lag } => {
            let end = *from + CALLS / 2;
            for sequence in *from..end {
                add(w.insert(sequence, !sequence));
                add(w.remove(sequence.wrapping_sub(*lag)));
            }
            *from = end;
            CALLS
        }
        Work::Arrivals { calls, span } => {
            for call in calls {
                add(match *call {
                    Call::Insert(at) => w.insert(*from + at, at),
                    Call::Remove(at) => w.remove(*from + at),
                });
            }
            *from += span;
            calls.len() as u32
        }
        Work::Show { calls, span } => {
            for call in calls {
                add(match *call {
                    Shown::Point(Call::Insert(at)) => w.insert(*from + at, at),
                    Shown::Point(Call::Remove(at)) => w.remove(*from + at),
                    Shown::RemoveRange(first, last) => w.remove_range(*from + first, *from + last),
                    Shown::Visit => w.release_retired(SHORT_VISIT),
                });
            }
            *from += span;
            calls.len() as u32
        }
        Work::Get(sequences) => {
            sequences.iter().for_each(|&sequence| add(w.get(sequence)));
            sequences.len() as u32
        }
        Work::SuccessorAfter(sequences) => {
            sequences.iter().for_each(|&sequence| add(w.successor_after(sequence)));
            sequences.len() as u32
        }
        Work::Iter { times } => {
            let mut steps = 0;
            for _ in 0..*times {
                w.each(|sequence, value| {
                    add(u64::from(sequence) << 32 | u64::from(value));
                    steps += 1;
                });
                steps += 1;
            }
            steps
        }
        Work::Ranges { length, .. } => {
            for w in windows.iter_mut() {
                for range in 0..row.size / length {
                    let first = START + range * length;
                    add(w.remove_range(first, first + length - 1));
                }
            }
            row.size / length * windows.len() as u32
        }
        Work::Releases { visits } => {
            for w in windows.iter_mut() {
                (0..*visits).for_each(|_| add(w.release_retired(VISIT)));
            }
            visits * windows.len() as u32
        }
        Work::Clear { .. } => {
            windows.iter_mut().for_each(|w| add(w.clear()));
            windows.len() as u32
        }
        Work::NoneRetired => {
            (0..CALLS).for_each(|_| add(w.release_retired(VISIT)));
            CALLS
        }
        Work::Front { lag, lost, point } => {
            let (end, mut calls) = (*from + if *point { times(*lag) } else { CALLS / 2 }, 0);
            for sequence in *from..end {
                if !lost(sequence) {
                    add(w.insert(sequence, !sequence));
                    calls += 1;
                }
                let front = w.take_front();
                add(front);
                calls += 1;
                if front == ABSENT {
                    add(w.set_base(sequence + 1 - lag));
                    calls += 1;
                }
                if *point {
                    add(w.point());
                }
            }
            *from = end;
            calls
        }
        Work::Hole { live, point } => {
            let times = times(*live);
            for value in 0..times {
                add(w.insert(START, value));
                if *point {
                    add(w.point());
                }
                add(w.remove(START));
                if *point {
                    add(w.point());
                }
            }
            2 * times
        }
        Work::WriteLosses { .. } => {
            (0..times(row.size)).for_each(|_| add(w.write_losses(&mut lists.words, START, START + row.size - 1)));
            times(row.size)
        }
        Work::ReadLosses { .. } => {
            (0..times(row.size)).for_each(|_| add(w.read_losses(&lists.words, &mut lists.lost, START, START + row.size - 1)));
            times(row.size)
        }
    };
    (calls, sum)
}

/// Windows of one kind with their times: one, or as many as are filled for a pass.
struct Timed<W> {
    windows: Vec<W>,
    lists: Lists,
    passes: u32,
    clock: i64,
    from: u32,
    nanoseconds: Vec<f64>,
}

impl<W: Window> Timed<W> {
    /// Filled, and the row's calls made once, so that all memory was touched.
    fn new(row: &Row) -> Self {
        let (windows, passes) = match row.work.filled(row.size) {
            None => (1, 1),
            Some(filled) => {
                let calls = row.work.calls_in_filled(row.size);
                let least = if calls == 1 { 2 } else { 1 };
                let windows = (1024 / calls).min(64).min(65536 / row.size).max(least);
                (windows, 4 * 65536 / (windows * filled))
            }
        };
        let mut windows: Vec<W> = (0..windows).map(|_| W::new(row.size)).collect();
        for &sequence in &row.held {
            windows[0].insert(sequence, !sequence);
        }
        windows[0].set_base(row.work.base(row.size));
        let mut timed = Self { windows, lists: row.work.lists(row.size), passes, clock: clock_time(), from: row.size, nanoseconds: Vec::new() };
        timed.round(row);
        timed.nanoseconds.clear();
        timed
    }

    #[inline(never)]
    fn round(&mut self, row: &Row) -> u64 {
        let (mut calls, mut sum, mut time) = (0, 0u64, 0);
        for _ in 0..self.passes {
            let prepared = prepare(&mut self.windows, row);
            let start = processor_time();
            let (made, answers) = work(&mut self.windows, &mut self.lists, row, &mut self.from);
            time += processor_time() - start - self.clock;
            calls += made;
            for part in [prepared, answers, self.lists.sum()] {
                sum = sum.wrapping_mul(31).wrapping_add(part);
            }
        }
        self.nanoseconds.push(time as f64 / f64::from(calls));
        sum
    }

    fn median(&mut self) -> f64 {
        self.nanoseconds.sort_by(f64::total_cmp);
        self.nanoseconds[ROUNDS / 2]
    }
}

/// The row as one line of the table.
fn measured<L: Window>(row: &Row) -> Result<String, String> {
    let (mut library, mut inlined, mut called) = (Timed::<L>::new(row), Timed::<Inlined>::new(row), Timed::<Called>::new(row));
    for _ in 0..ROUNDS {
        let sums = [library.round(row), inlined.round(row), called.round(row)];
        if sums[0] != sums[1] || sums[0] != sums[2] {
            return Err(format!("{}, window {}: the answers differ, {sums:x?}", row.name, row.size));
        }
    }
    let (ours, theirs, behind) = (library.median(), inlined.median(), called.median());
    let (name, size) = (row.name, row.size);
    Ok(format!("| {name} | {size} | {ours:.1} | {theirs:.1} | {:.2} | {behind:.1} | {:.2} |", ours / theirs, ours / behind))
}

fn line(row: &Row) -> Result<String, String> {
    if row.host { measured::<Host>(row) } else { measured::<Library>(row) }
}

/// The first row is made once more before, outside the table: a processor that was idle is slower at first.
fn table(word: &str) -> Result<(), String> {
    let mut chosen = rows();
    chosen.retain(|row| row.name.contains(word));
    if let Some(first) = chosen.first() {
        line(first)?;
    }
    println!("| row | window | library | source | ratio | source, called | ratio |");
    println!("|---|---|---|---|---|---|---|");
    for row in &chosen {
        println!("{}", line(row)?);
    }
    Ok(())
}

fn main() -> ExitCode {
    match table(&std::env::args().nth(1).unwrap_or_default()) {
        Ok(()) => ExitCode::SUCCESS,
        Err(why) => {
            println!("{why}");
            ExitCode::FAILURE
        }
    }
}
