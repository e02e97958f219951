//! Seasons of shows on the static library, with a ledger of the packet stores kept outside of it.
//!
//! `soak FIRST LAST`: the seasons of these seeds. A season is one window and one pool of stores, and some shows. A packet takes a free
//! store and enters the window; a store that comes back, by an answer or in a return list, is free again. After each show and its
//! release visits every store must be free. `soak --self-test`: wrong ends of calls, each of which must be noticed. `soak --calls FILE ..`:
//! files of calls for the line program, each on a window and a pool of its own.

#[allow(dead_code)] // the line program's generator uses the rest
#[path = "../../oracle/src/calls.rs"]
mod calls;
#[path = "../library/declared.rs"]
mod declared;
#[allow(dead_code)] // the harness uses the rest
mod guarded;
mod head;
mod ledger;
#[allow(dead_code)]
#[path = "../../oracle/src/line.rs"]
mod line;
#[path = "../../oracle/src/losses.rs"]
mod losses;
#[allow(dead_code)]
mod memory;
#[allow(dead_code)]
mod operations;
#[path = "../library/reads.rs"]
mod reads;
mod replay;
mod show;
#[path = "../library/sigaction.rs"]
mod sigaction;
mod signals;

use calls::Random;
use guarded::Mappings;
use head::{Fault, Head, Tally};
use show::{Show, Traffic};
use signals::again;
use std::process::ExitCode;

const SHOWS: u32 = 6;

/// N and demote_at for a window of the size.
fn any_window(random: &mut Random, window_size: u32) -> [u32; 3] {
    let n = random.pick(&[1, 2, 8, 16, 63]);
    [window_size, n, random.below(n + 1)]
}

/// The totals of all seasons.
#[derive(Default)]
struct Totals {
    shows: u64,
    head: Tally,
    traffic: Traffic,
}

impl Totals {
    /// What was counted, by name.
    fn rows(&self) -> Vec<(&'static str, u64)> {
        let mut rows = vec![("shows", self.shows)];
        rows.extend(self.traffic.rows());
        rows.extend(self.head.rows());
        rows
    }
}

fn season(seed: u64, mappings: &mut Mappings, totals: &mut Totals, fault: Option<Fault>) -> Result<(), String> {
    let mut random = Random::new(seed);
    let window_size = random.pick(&[64, 65, 100, 500, 512, 1000, 4000, 4096, 8192, 20_000, 65_536]);
    let window = any_window(&mut random, window_size);
    let stores = window_size / 4 + 1 + random.below(2 * window_size);
    let mut head = Head::new(mappings, &mut random, seed, window, stores, fault)?;
    for _ in 0..SHOWS {
        let mut show = Show::new(&mut random, window_size);
        show.run(&mut random, &mut head)?;
        head.ledger.all_free()?;
        totals.shows += 1;
        totals.traffic.add(&show.traffic);
        if random.percent(50) {
            let window = any_window(&mut random, window_size);
            head.renew(window)?;
        }
    }
    head.renew(window)?;
    totals.head.add(&head.tally);
    Ok(())
}

/// Each wrong end of a call, and words of what is said of it.
const FAULTS: [(Fault, &str); 14] = [
    (Fault::Twice, "is Free, not Retired"),
    (Fault::Never, "the ledger's"),
    (Fault::Another, "not Retired"),
    (Fault::NotReplaced, "insert"),
    (Fault::Late, "remove"),
    (Fault::NoneHeld, "the ledger's"),
    (Fault::Idle, "retired after"),
    (Fault::StillPoint, "base and point"),
    (Fault::StillBase, "base and point"),
    (Fault::WordLess, "write_losses"),
    (Fault::OtherWord, "write_losses"),
    (Fault::OtherByte, "read_losses"),
    (Fault::OtherCause, "demotions"),
    (Fault::VisitDemotes, "demotions"),
];

fn self_test() -> Result<String, String> {
    ledger::self_test()?;
    let mut mappings = Mappings::default();
    for (fault, said) in FAULTS {
        let mut seasons = (1..=5).map(|seed| season(seed, &mut mappings, &mut Totals::default(), Some(fault)));
        match seasons.find_map(Result::err) {
            Some(why) if why.contains(said) => (),
            other => return Err(format!("{fault:?} was not noticed: {other:?}")),
        }
    }
    Ok(format!("a ledger told twice or never, and {} wrong ends of calls, each noticed", FAULTS.len()))
}

/// The calls of each file; every store is free after it.
fn replayed(files: &[&str]) -> Result<String, String> {
    let (mut mappings, mut tally) = (Mappings::default(), Tally::default());
    for file in files {
        tally.add(&replay::replay(file, &mut mappings)?);
    }
    let Tally { calls, inserted, removed, released, .. } = tally;
    Ok(format!("{} files, {calls} calls: {inserted} stores entered, {removed} came back by remove, {released} in return lists, none twice and none never", files.len()))
}

fn run(arguments: &[String]) -> Result<String, String> {
    let words: Vec<&str> = arguments.iter().map(String::as_str).collect();
    let number = |word: &str| word.parse::<u64>().map_err(|_| format!("no number: {word}"));
    signals::watch("soak");
    let (first, last) = match words[..] {
        ["--self-test"] => return self_test(),
        ["--calls", ref files @ ..] if !files.is_empty() => return replayed(files),
        [first, last] => (number(first)?, number(last)?),
        _ => return Err("usage: soak FIRST LAST | --calls FILE .. | --self-test".to_string()),
    };
    let (mut mappings, mut totals) = (Mappings::default(), Totals::default());
    for seed in first..=last {
        season(seed, &mut mappings, &mut totals, None).map_err(|why| format!("seed {seed}: {why}\n{}", again(seed)))?;
    }
    println!("| what | how often |\n|---|---|");
    totals.rows().iter().for_each(|(what, count)| println!("| {what} | {count} |"));
    let unmet = totals.rows().into_iter().find(|&(_, count)| count == 0 && last > first);
    unmet.map_or(Ok(()), |(what, _)| Err(format!("none: {what}")))?;
    let Totals { shows, head, .. } = totals;
    Ok(format!("{shows} shows, {} calls: every store free after each show, none twice", head.calls))
}

fn main() -> ExitCode {
    let arguments: Vec<String> = std::env::args().skip(1).collect();
    match run(&arguments) {
        Ok(said) => {
            println!("{said}");
            ExitCode::SUCCESS
        }
        Err(why) => {
            println!("{why}");
            ExitCode::FAILURE
        }
    }
}
