//! Request S-14, two visits against one, on the static library and on the source, in one process.
//!
//! `visits FIRST LAST CALLS [--large|--small]`: one list of calls for each seed, made on both. Where values are held retired after a
//! call, copies of the library's window are visited: what a visit of a returns and then a visit of b begins what one visit of a + b
//! returns, and is one value shorter at most; what a smaller budget returns begins what a larger one returns; and a visit that is
//! refused alters nothing. Half of the copies have their release cursor at any page, which no call need have reached; check must say
//! that they are sound. On the source, of which there is no copy, now and then by making the list of calls again.

/// The source's work counters stay out.
macro_rules! count_work {
    ($($counter:tt)*) => {};
}

#[allow(dead_code)] // the generator uses the rest
#[path = "../../oracle/src/calls.rs"]
mod calls;
#[allow(dead_code)] // the comparison with the source uses the rest
mod declared;
#[allow(dead_code)]
mod library;
#[path = "../../oracle/src/line.rs"]
mod line;
mod program;
#[allow(dead_code)]
#[path = "../../oracle/src/reference.rs"]
mod reference;
#[path = "../../oracle/src/value.rs"]
mod value;
#[path = "../../oracle/target/window.rs"]
mod window;

use calls::{Generator, Item, Options, Random};
use library::{Library, LARGEST_BUDGET};
use line::Call;
use program::program;
use reference::{call_and_drops, fresh, Answer, Window};
use std::ops::RangeInclusive;
use std::process::ExitCode;

#[derive(Default)]
struct Counts {
    states: u64,
    /// Two visits against one, and how often the one returned a value more.
    pairs: u64,
    missing: u64,
    /// A larger budget against a smaller one, and how often it returned more.
    larger: u64,
    longer: u64,
    refused: u64,
    sources: u64,
}

/// Pairs of budgets tried on each state.
const PAIRS: u32 = 4;

/// The values that visits return one after another.
type Visits<'a> = &'a dyn Fn(&[u32]) -> Result<Vec<u32>, String>;

/// A number up to 256, often small.
fn budget(random: &mut Random) -> u32 {
    match random.below(3) {
        0 => random.below(8),
        1 => random.between(0, LARGEST_BUDGET),
        _ => LARGEST_BUDGET,
    }
}

/// Visits of a and b against one of a + b: what the two return, and what the one does.
fn two_against_one(visits: Visits, a: u32, b: u32) -> Result<(Vec<u32>, Vec<u32>), String> {
    let (two, one) = (visits(&[a, b])?, visits(&[a + b])?);
    if !one.starts_with(&two) || one.len() > two.len() + 1 {
        return Err(format!("visits of {a} and {b} return {two:?}, one of {} {one:?}", a + b));
    }
    Ok((two, one))
}

/// A visit of `larger` against one of `smaller`: whether it returns more.
fn larger_budget(visits: Visits, smaller: u32, larger: u32) -> Result<bool, String> {
    let (few, many) = (visits(&[smaller])?, visits(&[larger])?);
    if !many.starts_with(&few) {
        return Err(format!("a visit of {larger} returns {many:?}, one of {smaller} {few:?}"));
    }
    Ok(many.len() > few.len())
}

/// Visits to a copy of the library's window.
fn library_visits(library: &Library, budgets: &[u32], host: bool) -> Result<Vec<u32>, String> {
    let mut copy = library.clone();
    let mut values = Vec::new();
    for &budget in budgets {
        values.extend(copy.visit(budget, host)?);
    }
    Ok(values)
}

/// A window on both, and the calls that made it.
struct Both {
    made: [u32; 3],
    calls: Vec<Call>,
    source: Box<dyn Window>,
    library: Library,
}

impl Both {
    fn call(&mut self, call: Call) -> Result<(), String> {
        let (answer, dropped) = call_and_drops(self.source.as_mut(), call);
        self.library.call(call, false, &answer, &dropped)?;
        self.calls.push(call);
        Ok(())
    }

    /// Visits to the source's window, made again.
    fn source_visits(&self, budgets: &[u32]) -> Result<Vec<u32>, String> {
        let [window_size, n, demote_at] = self.made;
        let mut again = fresh(window_size, n, demote_at).map_err(|refusal| format!("refusal {refusal}"))?;
        for &call in &self.calls {
            again.call(call);
        }
        let mut values = Vec::new();
        for &budget in budgets {
            let (Answer::Released { .. }, dropped) = call_and_drops(again.as_mut(), Call::ReleaseRetired(budget)) else {
                return Err(format!("the source refuses a visit of {budget}"));
            };
            values.extend(dropped);
        }
        Ok(values)
    }

    fn compare(&self, random: &mut Random, counts: &mut Counts) -> Result<(), String> {
        let (host, moved) = (random.percent(50), random.percent(50));
        let mut library = if moved { self.library.with_cursor(random.below(self.library.page_count())) } else { self.library.clone() };
        if moved && !library.is_sound() {
            return Err("with another cursor the state is not sound".to_string());
        }
        let visits: Visits = &|budgets| library_visits(&library, budgets, host);
        let sum = budget(random);
        let a = random.between(0, sum);
        let (two, one) = two_against_one(visits, a, sum - a)?;
        counts.pairs += 1;
        counts.missing += u64::from(one.len() > two.len());
        let (x, y) = (budget(random), budget(random));
        let (smaller, larger) = (x.min(y), x.max(y));
        if smaller < larger {
            counts.longer += u64::from(larger_budget(visits, smaller, larger)?);
            counts.larger += 1;
        }
        if random.percent(10) {
            let refused = random.pick(&[a, LARGEST_BUDGET + 1, u32::MAX]);
            library.refused_visit(refused, host)?;
            counts.refused += 1;
        }
        if !moved && random.percent(4) {
            let visits: Visits = &|budgets| self.source_visits(budgets);
            if two_against_one(visits, a, sum - a)? != (two, one) {
                return Err(format!("visits of {a} and {} return other values than the source's", sum - a));
            }
            larger_budget(visits, smaller, larger)?;
            counts.sources += 1;
        }
        Ok(())
    }
}

fn list(seed: u64, calls: u32, options: Options, counts: &mut Counts) -> Result<(), String> {
    let mut generator = Generator::new(seed, calls, options);
    let mut random = Random::new(!seed);
    let mut both: Option<Both> = None;
    for number in 0..calls {
        let Item::Call(call) = generator.next() else {
            continue;
        };
        let at = |why| format!("seed {seed}, line {number}, {:?}: {why}", call.line());
        if let Call::New { window_size, n, demote_at } = call {
            if let Ok(source) = fresh(window_size, n, demote_at) {
                let library = Library::new(&mut random, window_size, n, demote_at).map_err(at)?;
                both = Some(Both { made: [window_size, n, demote_at], calls: Vec::new(), source, library });
            }
            continue;
        }
        let Some(both) = &mut both else {
            continue;
        };
        both.call(call).map_err(at)?;
        if both.library.held() > 0 {
            counts.states += 1;
            for _ in 0..PAIRS {
                both.compare(&mut random, counts).map_err(at)?;
            }
        }
    }
    Ok(())
}

fn run(seeds: RangeInclusive<u64>, calls: u32, options: Options) -> Result<String, String> {
    let mut counts = Counts::default();
    for seed in seeds {
        list(seed, calls, options, &mut counts)?;
    }
    let Counts { states, pairs, missing, larger, longer, refused, sources } = counts;
    if missing == 0 || missing == pairs || longer == 0 || refused == 0 || sources == 0 {
        return Err("no value was missing or one always, no larger budget returned more, no visit was refused, or none made on the source".to_string());
    }
    Ok(format!(
        "{pairs} pairs of visits against one in {states} states, {missing} of them one value shorter, \
         {larger} larger budgets, {longer} of them longer, {refused} refused visits, {sources} pairs on the source"
    ))
}

fn main() -> ExitCode {
    program(run)
}
