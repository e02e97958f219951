//! The static library against the source, in one process.
//!
//! `compare FIRST LAST CALLS [--large|--small]`: one list of calls for each seed, with more of stranger's among them. Each call is
//! made on the source and on the library, but for those with a sequence, first or last of 2147483648 or more: these the source would
//! take, and the library must refuse 10 and alter nothing. The answer, the returned values in order, the header with its base and point, all block
//! words, and words and cells in use of the pages that the call may have changed are compared after it, those of all pages after each
//! call on windows up to 512 and now and then on larger ones. Half of the calls that have a host form are made by it. Of half of the
//! windows the library's counts of demotions begin just below 2^64, and must be the source's with that start added, modulo 2^64.

/// The source's work counters stay out.
macro_rules! count_work {
    ($($counter:tt)*) => {};
}

#[allow(dead_code)] // the generator uses the rest
#[path = "../../oracle/src/calls.rs"]
mod calls;
#[allow(dead_code)] // the test of check uses the rest
mod declared;
#[allow(dead_code)]
mod library;
#[path = "../../oracle/src/line.rs"]
mod line;
mod program;
#[allow(dead_code)] // the oracle uses the rest
#[path = "../../oracle/src/reference.rs"]
mod reference;
#[path = "../../oracle/src/value.rs"]
mod value;
#[path = "../../oracle/target/window.rs"]
mod window;

use calls::{Generator, Item, Options, Random};
use declared::Header;
use library::{has_host_form, Library};
use line::Call;
use program::program;
use reference::{call_and_drops, fresh, Answer, Window};
use std::collections::BTreeMap;
use std::ops::RangeInclusive;
use std::process::ExitCode;

#[derive(Default)]
struct Counts {
    compared: u64,
    hosted: u64,
    refused: u64,
    strangers: u64,
    /// Fronts taken, and calls after which the point is past the base.
    fronts: u64,
    reached: u64,
    /// Calls refused 10, by their letter.
    wide: BTreeMap<char, u64>,
    /// Demotions that were compared, by the letter of the call.
    demotions: BTreeMap<char, u64>,
    /// Wraps of single_demotions, and of range_demotions.
    wraps: [u64; 2],
}

impl Counts {
    /// What a call raised the counts of demotions by.
    fn demoted(&mut self, call: Call, before: Header, after: Header) {
        let pairs = [(before.single_demotions, after.single_demotions), (before.range_demotions, after.range_demotions)];
        for (wraps, (before, after)) in self.wraps.iter_mut().zip(pairs) {
            let rise = after.wrapping_sub(before);
            if rise > 0 {
                *self.demotions.entry(call.letter()).or_default() += rise;
            }
            *wraps += u64::from(after < before);
        }
    }
}

struct Both {
    source: Box<dyn Window>,
    library: Library,
    past: (Vec<u32>, Vec<u64>),
}

impl Both {
    /// Every page that the call may have changed; every page if `all` is asked for.
    fn pages(&self, call: Call, all: bool) -> Vec<usize> {
        let count = self.source.page_count();
        match call {
            _ if all => (0..count).collect(),
            Call::RemoveRange { .. } | Call::ReleaseRetired(_) | Call::Clear | Call::ClearBounded(_) => (0..count).collect(),
            Call::Insert { sequence, .. } | Call::Exchange { sequence, .. } | Call::Remove(sequence) => {
                vec![sequence as usize / 64 % count]
            }
            Call::TakeFront => {
                let base = self.source.header().base;
                [base, base.wrapping_sub(1)].map(|sequence| sequence as usize / 64 % count).to_vec()
            }
            Call::New { .. } | Call::Get(_) | Call::SuccessorAfter(_) | Call::FirstFrom(_) => Vec::new(),
            Call::Stranger { .. } | Call::Iter | Call::SetBase(_) => Vec::new(),
        }
    }

    fn call(&mut self, random: &mut Random, counts: &mut Counts, call: Call) -> Result<(), String> {
        let host = has_host_form(call) && random.percent(50);
        if random.percent(2) {
            self.library.short(random, call, host)?;
            counts.refused += 1;
        }
        let before = self.library.parts().0;
        let (answer, dropped) = call_and_drops(self.source.as_mut(), call);
        self.library.call(call, host, &answer, &dropped)?;
        counts.compared += 1;
        counts.hosted += u64::from(host);
        counts.strangers += u64::from(matches!(answer, Answer::Pair { .. }));
        counts.fronts += u64::from(call == Call::TakeFront && answer != Answer::Absent);
        if answer == Answer::Refused(10) {
            *counts.wide.entry(call.letter()).or_default() += 1;
        }
        let header = self.library.parts().0;
        counts.reached += u64::from(header.point != header.base);
        let all = self.source.page_count() <= 8 || random.percent(1);
        let pages = self.pages(call, all);
        if let Some(difference) = self.library.differs(self.source.as_ref(), pages.into_iter()) {
            return Err(difference);
        }
        if self.library.past() != self.past {
            return Err("memory past the named lengths changed".to_string());
        }
        counts.demoted(call, before, header);
        Ok(())
    }
}

fn renewed(random: &mut Random, window_size: u32, n: u32, demote_at: u32) -> Result<Option<Both>, String> {
    match fresh(window_size, n, demote_at) {
        Ok(source) => {
            let mut library = Library::new(random, window_size, n, demote_at)?;
            if random.percent(50) {
                library.count_demotions_from([(); 2].map(|()| u64::MAX - u64::from(random.below(3))));
            }
            let past = library.past();
            let pages = 0..source.page_count();
            if let Some(difference) = library.differs(source.as_ref(), pages) {
                return Err(difference);
            }
            Ok(Some(Both { source, library, past }))
        }
        Err(refusal) => Library::refused(random, window_size, n, demote_at, refusal).map(|()| None),
    }
}

fn list(seed: u64, calls: u32, options: Options, counts: &mut Counts) -> Result<(), String> {
    let mut generator = Generator::new(seed, calls, options);
    let mut random = Random::new(!seed);
    let mut both: Option<Both> = None;
    for number in 0..calls {
        let Item::Call(call) = generator.next() else {
            continue;
        };
        let done = match (call, &mut both) {
            (Call::New { window_size, n, demote_at }, _) => {
                renewed(&mut random, window_size, n, demote_at).map(|made| both = made.or(both.take()))
            }
            (_, Some(both)) => both.call(&mut random, counts, call),
            (_, None) => Ok(()),
        };
        let failed = |call: Call, why| format!("seed {seed}, line {number}, {:?}: {why}", call.line());
        done.map_err(|why| failed(call, why))?;
        if let (Some(both), true) = (&mut both, random.percent(10)) {
            let call = generator.stranger();
            both.call(&mut random, counts, call).map_err(|why| failed(call, why))?;
        }
    }
    Ok(())
}

fn run(seeds: RangeInclusive<u64>, calls: u32, options: Options) -> Result<String, String> {
    let mut counts = Counts::default();
    for seed in seeds {
        list(seed, calls, options, &mut counts)?;
    }
    let Counts { compared, hosted, refused, strangers, fronts, reached, wide, demotions, wraps } = counts;
    if hosted == 0 || refused == 0 || strangers == 0 || fronts == 0 || reached == 0 {
        return Err("no host form compared, no short list refused, no stranger found, no front taken or no point past its base".to_string());
    }
    if wide.keys().collect::<String>() != "defgiqrs" {
        return Err(format!("refused 10 by the letters {wide:?} alone"));
    }
    if demotions.keys().collect::<String>() != "drt" || wraps.contains(&0) {
        return Err(format!("demotions by the letters {demotions:?}, and wraps of their counts {wraps:?}"));
    }
    let wide: u64 = wide.values().sum();
    let (by_range, by_remove, by_front) = (demotions[&'d'], demotions[&'r'], demotions[&'t']);
    let [single_wraps, range_wraps] = wraps;
    Ok(format!(
        "{compared} calls as the source, {hosted} by host forms, {refused} with a short list refused 6, {wide} with a number \
         of more than 31 bits refused 10, {strangers} strangers found, {fronts} fronts taken, {reached} points past their base, \
         {by_remove} demotions by remove, {by_front} by take_front, {by_range} by remove_range, {single_wraps} wraps of \
         single_demotions, {range_wraps} of range_demotions"
    ))
}

fn main() -> ExitCode {
    program(run)
}
