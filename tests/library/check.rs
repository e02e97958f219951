//! `check` of the static library against the papers' clauses, in one process.
//!
//! `check FIRST LAST CALLS`: one list of calls for each seed. After each call its state must be sound; then a
//! copy is damaged, by a change that is aimed at one clause or by any, and check must refuse it 7 just if a clause does not hold.
//! At the end every clause must have been the only one broken of some copy. Memory of any content is tried with each list.

/// The source's work counters stay out.
macro_rules! count_work {
    ($($counter:tt)*) => {};
}

#[allow(dead_code)] // the generator uses the rest
#[path = "../../oracle/src/calls.rs"]
mod calls;
mod damage;
#[allow(dead_code)] // the comparison with the source uses the rest
mod declared;
#[allow(dead_code)]
mod library;
#[path = "../../oracle/src/line.rs"]
mod line;
mod program;
#[allow(dead_code)]
#[path = "../../oracle/src/reference.rs"]
mod reference;
mod soundness;
#[path = "../../oracle/src/value.rs"]
mod value;
#[path = "../../oracle/target/window.rs"]
mod window;

use calls::{Generator, Item, Options, Random};
use damage::damaged;
use declared::{packet_window_check, NumberedAnswer, DONE, REFUSED};
use library::Library;
use line::Call;
use program::program;
use reference::{call_and_drops, fresh, Window};
use soundness::{Clause, State, CLAUSES};
use std::collections::BTreeMap;
use std::ops::RangeInclusive;
use std::process::ExitCode;

#[derive(Default)]
struct Counts {
    sound: u64,
    unsound: u64,
    random: u64,
    alone: BTreeMap<Clause, u64>,
    /// Of these, states in which a retired page alone has a sequence of more than 31 bits.
    wide_and_retired: u64,
}

fn copied(library: &Library) -> State {
    let (header, [sequences, values], [pages, blocks]) = library.parts();
    State {
        header,
        sequences: sequences.to_vec(),
        values: values.to_vec(),
        pages: pages.to_vec(),
        blocks: blocks.to_vec(),
    }
}

const UNSOUND: u32 = 7;

/// Whether check says that the state is sound; it must not write.
fn checked(state: &mut State) -> Result<bool, String> {
    let before = state.clone();
    let State { header, sequences: s, values: v, pages: p, blocks: b } = state;
    let (s, sl, v, vl) = (s.as_mut_ptr(), s.len(), v.as_mut_ptr(), v.len());
    let (p, pl, b, bl) = (p.as_mut_ptr(), p.len(), b.as_mut_ptr(), b.len());
    let step = unsafe { packet_window_check(*header, s, sl, v, vl, p, pl, b, bl) };
    if step.count != 0 || step.window != before.header || *state != before {
        return Err("check wrote".to_string());
    }
    match step.answer {
        NumberedAnswer { code: DONE, first: 0, .. } => Ok(true),
        NumberedAnswer { code: REFUSED, first: UNSOUND, .. } => Ok(false),
        other => Err(format!("check answers {other:?}")),
    }
}

/// check's answer against the clauses.
fn compare(state: &mut State, counts: &mut Counts) -> Result<bool, String> {
    let broken = state.broken();
    let said = checked(state)?;
    if said != broken.is_empty() {
        return Err(format!("check says {said}, broken are {broken:?}"));
    }
    match broken.first() {
        None => counts.sound += 1,
        Some(&clause) => {
            counts.unsound += 1;
            if broken.len() == 1 {
                *counts.alone.entry(clause).or_default() += 1;
                counts.wide_and_retired += u64::from(clause == Clause::SequencesHave31Bits && state.wide_in_a_retired_page());
            }
        }
    }
    Ok(said)
}

/// A header inside the limits, and words and cells of any content.
fn any_state(random: &mut Random, window_size: u32) -> State {
    let mut state = copied(&Library::new(random, window_size, 8, 2).expect("a window within the limits"));
    let mut words: Vec<u64> = (0..8).map(|_| random.next()).collect();
    words.extend([0, 0, 0, 1, 2, u64::MAX]);
    let mut pick = |_| words[random.below(words.len() as u32) as usize];
    state.pages.iter_mut().for_each(|word| *word = pick(()));
    state.blocks.iter_mut().for_each(|word| *word = pick(()));
    state.header.nonempty_summary = pick(());
    state.header.retired_blocks = pick(());
    let point = pick(()) as u32;
    state.header.base = random.pick(&[0, 5, window_size, 1 << 31, u32::MAX]);
    state.header.point = random.pick(&[state.header.base, point]);
    state
}

fn list(seed: u64, calls: u32, counts: &mut Counts) -> Result<(), String> {
    let options = Options { large: false, small: seed % 2 == 0, clean: true };
    let mut generator = Generator::new(seed, calls, options);
    let mut random = Random::new(!seed);
    let mut both: Option<(Box<dyn Window>, Library)> = None;
    for number in 0..calls {
        let Item::Call(call) = generator.next() else {
            continue;
        };
        let at = |why| format!("seed {seed}, line {number}, {:?}: {why}", call.line());
        if let Call::New { window_size, n, demote_at } = call {
            if let Ok(source) = fresh(window_size, n, demote_at) {
                both = Some((source, Library::new(&mut random, window_size, n, demote_at).map_err(at)?));
            }
            continue;
        }
        let Some((source, library)) = &mut both else {
            continue;
        };
        let (answer, dropped) = call_and_drops(source.as_mut(), call);
        library.call(call, false, &answer, &dropped).map_err(at)?;
        let mut state = copied(library);
        if !compare(&mut state, counts).map_err(at)? {
            return Err(at("the state is not sound".to_string()));
        }
        damaged(&mut random, &mut state);
        compare(&mut state, counts).map_err(at)?;
    }
    for window_size in [64, 65, 512, 4096, 8192] {
        compare(&mut any_state(&mut random, window_size), counts)?;
        counts.random += 1;
    }
    Ok(())
}

fn run(seeds: RangeInclusive<u64>, calls: u32) -> Result<String, String> {
    let mut counts = Counts::default();
    for seed in seeds {
        list(seed, calls, &mut counts)?;
    }
    let Counts { sound, unsound, random, alone, wide_and_retired } = counts;
    if let Some(clause) = CLAUSES.iter().find(|clause| !alone.contains_key(clause)) {
        return Err(format!("no copy with {clause:?} alone broken: {alone:?}"));
    }
    let wide_and_live = alone[&Clause::SequencesHave31Bits] - wide_and_retired;
    if wide_and_retired == 0 || wide_and_live == 0 {
        return Err(format!("a sequence of more than 31 bits in {wide_and_live} live and {wide_and_retired} retired pages"));
    }
    let least = alone.values().min().copied().unwrap_or(0);
    Ok(format!(
        "{sound} states sound, {unsound} refused 7, each clause alone broken in {least} or more, by a sequence of more than 31 bits in \
         {wide_and_live} live and {wide_and_retired} retired pages, {random} of any content"
    ))
}

fn main() -> ExitCode {
    program(|seeds, calls, _| run(seeds, calls))
}
