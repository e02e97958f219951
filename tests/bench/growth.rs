//! How the time of a call grows with the window's size and with the number of live values, library and source in turn.
//!
//! One line for each call in each window: the series, the call, the window's size, the live values, then the median of the
//! rounds in nanoseconds a call, of the library (insert, remove and release_retired by their host forms) and of the source
//! with each call behind a call boundary, where a point is looked for by a get of each sequence from the base on, and a loss
//! list made by a get of each sequence of its range. What the calls answered is summed, and the sums must be equal.

/// The source's work counters stay out.
macro_rules! count_work {
    ($($counter:tt)*) => {};
}

mod clock;
#[allow(dead_code)] // the comparison uses the rest
#[path = "../library/declared.rs"]
mod declared;
#[allow(dead_code)] // bench.rs uses the rest
mod subjects;
#[allow(dead_code)] // the oracle uses the rest
#[path = "../../oracle/target/window.rs"]
mod window;

use clock::{clock_time, processor_time};
use std::process::ExitCode;
use subjects::{loss_words, Called, Host, Window};

const ROUNDS: usize = 25;
const CALLS: u32 = 20_000;
const LARGEST: u32 = 65536;
/// Live values of the first series.
const FEW: u32 = 8;
/// Of this many sequences those are asked for that are asked for again and again.
const NEAR: u32 = 16;
const VISIT: u32 = 256;

/// The calls of a line. Live values lie at equal distances but for InOrder and the last five, where they lie in a row.
#[derive(Clone, Copy, PartialEq)]
enum Calls {
    /// The oldest value removed, the next one inserted.
    InOrder,
    /// Of a random live value.
    Get,
    /// Of a random one among few live values.
    GetNear,
    /// From a random position.
    SuccessorAfter,
    /// The same where all other positions are retired: a window filled, cleared, then given its live values.
    AmongRetired,
    FirstFrom,
    /// A step of a list of all.
    Iter,
    /// With nothing retired.
    Release,
    /// The front taken, the next value inserted at the point.
    Front,
    /// The base set past the oldest value, that removed, the next one inserted at the point.
    SetBase,
    /// Live values in a row after the base, which is inserted and removed; the point is asked for after each call.
    Hole,
    /// Values in a row of which one in a hundred is lost: their losses written.
    WriteLosses,
    /// That list read.
    ReadLosses,
}

const CALLS_NAMED: [(Calls, &str); 13] = [
    (Calls::InOrder, "insert and remove"),
    (Calls::Get, "get"),
    (Calls::GetNear, "get, 16 sequences"),
    (Calls::SuccessorAfter, "successor_after"),
    (Calls::AmongRetired, "successor_after, rest retired"),
    (Calls::FirstFrom, "first_from"),
    (Calls::Iter, "iter step"),
    (Calls::Release, "release_retired"),
    (Calls::Front, "insert at the point, take_front"),
    (Calls::SetBase, "insert at the point, set_base, remove"),
    (Calls::Hole, "hole before them filled and made again"),
    (Calls::WriteLosses, "write_losses over them, 1 % lost"),
    (Calls::ReadLosses, "read_losses over them, 1 % lost"),
];

/// Gets of a scan for the point or for losses in one round, at most.
const SCANNED: u32 = 2_000_000;

/// A window with its live values.
#[derive(Clone, Copy)]
struct Held {
    size: u32,
    live: u32,
}

impl Held {
    fn distance(self) -> u32 {
        self.size / self.live
    }
}

/// A small generator: xorshift.
struct Random(u64);

impl Random {
    fn below(&mut self, bound: u32) -> u32 {
        self.0 ^= self.0 << 13;
        self.0 ^= self.0 >> 7;
        self.0 ^= self.0 << 17;
        ((self.0 >> 33) % u64::from(bound)) as u32
    }
}

/// The sequences that the calls ask for.
fn asked(calls: Calls, held: Held) -> Vec<u32> {
    let mut random = Random(0x2545_f491_4f6c_dd1d);
    let mut one = || match calls {
        Calls::Get => random.below(held.live) * held.distance(),
        Calls::GetNear => {
            let near = held.live.min(NEAR);
            random.below(near) * (held.live / near) * held.distance()
        }
        _ => random.below(held.size),
    };
    (0..CALLS).map(|_| one()).collect()
}

/// The calls once: how many there were and the sum of their answers. `from` is the next sequence to insert.
#[inline(never)]
fn made<W: Window>(w: &mut W, lists: &mut Lists, calls: Calls, held: Held, asked: &[u32], from: &mut u32) -> (u32, u64) {
    let mut sum = 0u64;
    let mut add = |answer: u64| sum = sum.wrapping_mul(31).wrapping_add(answer);
    let mut count = CALLS;
    match calls {
        Calls::InOrder => {
            for sequence in *from..*from + CALLS / 2 {
                add(w.remove(sequence - held.live));
                add(w.insert(sequence, !sequence));
            }
            *from += CALLS / 2;
        }
        Calls::Get | Calls::GetNear => asked.iter().for_each(|&sequence| add(w.get(sequence))),
        Calls::SuccessorAfter | Calls::AmongRetired => asked.iter().for_each(|&sequence| add(w.successor_after(sequence))),
        Calls::FirstFrom => asked.iter().for_each(|&sequence| add(w.first_from(sequence))),
        Calls::Iter => {
            count = 0;
            while count < CALLS {
                w.each(|sequence, value| {
                    add(u64::from(sequence) << 32 | u64::from(value));
                    count += 1;
                });
                count += 1;
            }
        }
        Calls::Release => (0..CALLS).for_each(|_| add(w.release_retired(VISIT))),
        Calls::Front => {
            for sequence in *from..*from + CALLS / 2 {
                add(w.take_front());
                add(w.insert(sequence, !sequence));
            }
            *from += CALLS / 2;
        }
        Calls::SetBase => {
            for sequence in *from..*from + CALLS / 3 {
                add(w.set_base(sequence - held.live + 1));
                add(w.remove(sequence - held.live));
                add(w.insert(sequence, !sequence));
            }
            *from += CALLS / 3;
            count = CALLS / 3 * 3;
        }
        Calls::Hole => {
            count = CALLS.min(SCANNED / held.live);
            for value in 0..count / 2 {
                add(w.insert(0, value));
                add(w.point());
                add(w.remove(0));
                add(w.point());
            }
        }
        Calls::WriteLosses => {
            count = CALLS.min(SCANNED / held.live);
            (0..count).for_each(|_| add(w.write_losses(&mut lists.words, 0, held.live - 1)));
        }
        Calls::ReadLosses => {
            count = CALLS.min(SCANNED / held.live);
            (0..count).for_each(|_| add(w.read_losses(&lists.words, &mut lists.lost, 0, held.live - 1)));
        }
    }
    (count, sum)
}

/// The lists of loss reports.
struct Lists {
    words: Vec<u32>,
    lost: Vec<u8>,
}

/// A window with the times of its rounds.
struct Timed<W> {
    window: W,
    lists: Lists,
    from: u32,
    nanoseconds: Vec<f64>,
}

impl<W: Window> Timed<W> {
    fn new(calls: Calls, held: Held) -> Self {
        let mut window = W::new(held.size);
        if calls == Calls::AmongRetired {
            for sequence in 0..held.size {
                window.insert(sequence, sequence);
            }
            window.clear();
        }
        let reported = matches!(calls, Calls::WriteLosses | Calls::ReadLosses);
        let in_a_row = reported || matches!(calls, Calls::InOrder | Calls::Front | Calls::SetBase | Calls::Hole);
        let distance = if in_a_row { 1 } else { held.distance() };
        let first = u32::from(calls == Calls::Hole);
        let mut random = Random(0x9e37_79b9_7f4a_7c15);
        for at in (0..held.live.min(held.size - first)).filter(|_| !reported || random.below(100) > 0) {
            window.insert(first + at * distance, at);
        }
        let mut lists = Lists { words: vec![0; loss_words(held.live)], lost: vec![0; held.live as usize] };
        if calls == Calls::ReadLosses {
            let count = window.write_losses(&mut lists.words, 0, held.live - 1) as u32;
            lists.words.truncate(count as usize);
        }
        Self { window, lists, from: held.live, nanoseconds: Vec::new() }
    }

    fn round(&mut self, calls: Calls, held: Held, asked: &[u32], clock: i64) -> u64 {
        let start = processor_time();
        let (count, sum) = made(&mut self.window, &mut self.lists, calls, held, asked, &mut self.from);
        let time = processor_time() - start - clock;
        self.nanoseconds.push(time as f64 / f64::from(count));
        sum
    }

    /// Of the rounds but the first, in which memory is touched.
    fn median(&mut self) -> f64 {
        let times = &mut self.nanoseconds[1..];
        times.sort_by(f64::total_cmp);
        times[times.len() / 2]
    }
}

/// One line, without its series.
fn measured(calls: Calls, name: &str, held: Held) -> Result<String, String> {
    let (mut library, mut source) = (Timed::<Host>::new(calls, held), Timed::<Called>::new(calls, held));
    let (asked, clock) = (asked(calls, held), clock_time());
    let Held { size, live } = held;
    for _ in 0..=ROUNDS {
        let sums = [library.round(calls, held, &asked, clock), source.round(calls, held, &asked, clock)];
        if sums[0] != sums[1] {
            return Err(format!("{name}, window {size}, {live} live: the answers differ, {sums:x?}"));
        }
    }
    Ok(format!("{name}\t{size}\t{live}\t{:.1}\t{:.1}", library.median(), source.median()))
}

/// The series: the window's size with few live values, the size with every second position live, the live values.
fn series() -> Vec<(&'static str, Vec<Held>)> {
    let sizes = || (6..=16).map(|exponent| 1u32 << exponent);
    vec![
        ("size, 8 live", sizes().map(|size| Held { size, live: FEW }).collect()),
        ("size, half live", sizes().map(|size| Held { size, live: size / 2 }).collect()),
        ("live", (0..=16).map(|exponent| Held { size: LARGEST, live: 1 << exponent }).collect()),
    ]
}

/// All lines. The first is made once more before, as a processor that was idle is slower at first.
fn lines() -> Result<(), String> {
    let series = series();
    measured(CALLS_NAMED[0].0, CALLS_NAMED[0].1, series[0].1[0])?;
    println!("series\tcall\twindow\tlive\tlibrary\tsource");
    for (name, windows) in series {
        for (calls, call) in CALLS_NAMED {
            for &held in &windows {
                println!("{name}\t{}", measured(calls, call, held)?);
            }
        }
    }
    Ok(())
}

fn main() -> ExitCode {
    match lines() {
        Ok(()) => ExitCode::SUCCESS,
        Err(why) => {
            println!("{why}");
            ExitCode::FAILURE
        }
    }
}
