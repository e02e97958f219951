//! Request S-4, the loss report, on the static library and on the source, in one process.
//!
//! `losses FIRST LAST CALLS [--large|--small]`: one list of calls for each seed, made on both, with runs of packets among them in which
//! some are lost. After some calls the losses of a range are written: the words are those worked out from the source's get of each
//! sequence (oracle/src/losses.rs), into a list of exactly so many places, into a longer one, whose other places stay, and with one place
//! fewer refused 11. They are read back, and so is another list, right or spoilt. Nothing of the window is altered.
//!
//! `losses lists`: every short list read (short_lists.rs). `losses naks FOLDER`: real traffic (naks.rs). `losses self-test FOLDER`: each of
//! them with one thing wrong, which must be noticed.

/// The source's work counters stay out.
macro_rules! count_work {
    ($($counter:tt)*) => {};
}

#[allow(dead_code)] // the generator uses the rest
#[path = "../../oracle/src/calls.rs"]
mod calls;
#[allow(dead_code)] // the comparison with the source uses the rest
mod declared;
#[allow(dead_code)]
mod library;
#[path = "../../oracle/src/line.rs"]
mod line;
#[path = "../../oracle/src/lists.rs"]
mod lists;
#[path = "../../oracle/src/losses.rs"]
mod losses;
mod naks;
mod program;
#[allow(dead_code)]
#[path = "../../oracle/src/reference.rs"]
mod reference;
mod reports;
mod short_lists;
#[allow(dead_code)] // the run of ACKs uses the rest
mod traffic;
#[path = "../../oracle/src/value.rs"]
mod value;
#[path = "../../oracle/target/window.rs"]
mod window;

use calls::{Generator, Item, Options, Random};
use library::Library;
use line::Call;
use program::{ended, program};
use reference::{call_and_drops, fresh, Window};
use reports::{due_bytes, due_words, Reporter, Wrong, SHORT_LIST, SHORT_MEMORY, WRONG};
use std::ops::RangeInclusive;
use std::process::ExitCode;

#[derive(Default)]
struct Counts {
    reports: u64,
    /// Reports without a loss, and with nothing but losses.
    empty: u64,
    all_lost: u64,
    /// Runs of one, of two and of more.
    runs: [u64; 3],
    /// Runs over 2147483647 to 0.
    wraps: u64,
    /// Reports in which a lost sequence is held retired, or another one is live at its position.
    retired: u64,
    aliased: u64,
    /// Lists of the reader's that are taken, and refused 12.
    taken: u64,
    spoilt: u64,
    /// Reports refused, by their refusal.
    refused: [u64; 13],
}

impl Counts {
    /// What did not occur.
    fn missing(&self) -> Vec<&'static str> {
        let Counts { empty, all_lost, runs, wraps, retired, aliased, taken, spoilt, refused, .. } = self;
        let kinds = [
            (*empty, "a report without a loss"),
            (*all_lost, "one of losses alone"),
            (runs[0], "a run of one"),
            (runs[1], "a run of two"),
            (runs[2], "a longer run"),
            (*wraps, "a run over the wrap"),
            (*retired, "a loss that is held retired"),
            (*aliased, "a loss at the position of a live value"),
            (*taken, "a list that is taken"),
            (*spoilt, "one refused 12"),
            (refused[5], "a report refused 5"),
            (refused[6], "one refused 6"),
            (refused[10], "one refused 10"),
            (refused[11], "one refused 11"),
        ];
        kinds.into_iter().filter(|&(count, _)| count == 0).map(|(_, kind)| kind).collect()
    }

    /// The kinds of losses of a range.
    fn losses(&mut self, first: u32, lost: &[bool]) {
        self.reports += 1;
        self.empty += u64::from(!lost.contains(&true));
        self.all_lost += u64::from(!lost.contains(&false));
        for (begin, end) in losses::runs(lost) {
            self.runs[(end - begin).min(2)] += 1;
            self.wraps += u64::from(losses::sequence_at(first, end) < losses::sequence_at(first, begin));
        }
    }
}

/// A window on both.
struct Both {
    source: Box<dyn Window>,
    library: Library,
}

/// Pages of a range that are looked through for what lies in them.
const LOOKED_THROUGH: usize = 16;

impl Both {
    fn call(&mut self, call: Call) -> Result<(), String> {
        let (answer, dropped) = call_and_drops(self.source.as_mut(), call);
        self.library.call(call, false, &answer, &dropped)
    }

    /// Whether a lost sequence is held retired, and whether another sequence is live at the position of one.
    fn behind_losses(&self, first: u32, lost: &[bool]) -> (bool, bool) {
        let pages = self.source.page_count();
        let is_lost = |distance: usize| lost.get(distance) == Some(&true);
        let (mut retired, mut aliased) = (false, false);
        for page in (0..lost.len().div_ceil(64) + 1).take(LOOKED_THROUGH.min(pages)).map(|at| (first as usize / 64 + at) % pages) {
            for (_, sequence, _) in self.source.page_cells(page) {
                let behind = (sequence.wrapping_sub(first)) as usize % (64 * pages);
                retired |= is_lost(losses::distance(first, sequence));
                aliased |= is_lost(behind) && losses::distance(first, sequence) >= lost.len() && self.source.is_live(sequence);
            }
        }
        (retired, aliased)
    }

    /// A report of a range that is refused: with lists that are long enough, and with none.
    fn refused(&mut self, reporter: &mut Reporter, refusal: u32, ends: [u32; 2], random: &mut Random) -> Result<(), String> {
        let list = lists::some_list(random, ends[0] % losses::TOP_BIT, 9);
        for places in [0, 9] {
            reporter.write(&mut self.library, &vec![random.any(); places], ends, &Err(refusal), None)?;
            reporter.read(&mut self.library, &list, &vec![random.any() as u8; places], ends, &Err(refusal), None)?;
        }
        Ok(())
    }

    /// The losses written and read back.
    fn written(&mut self, reporter: &mut Reporter, ends: [u32; 2], lost: &[bool], random: &mut Random) -> Result<(), String> {
        let words = losses::words(ends[0], lost);
        let due = due_words(Ok(words.clone()));
        let list: Vec<u32> = (0..words.len() + 1 + random.below(4) as usize).map(|_| random.any()).collect();
        for places in [words.len(), list.len()] {
            reporter.write(&mut self.library, &list[..places], ends, &due, None)?;
        }
        if !words.is_empty() {
            reporter.write(&mut self.library, &list[..words.len() - 1], ends, &Err(SHORT_LIST), None)?;
        }
        self.read(reporter, ends, lost.len(), &words, random).map(|_| ())
    }

    /// A list read: whether it is taken.
    fn read(&mut self, reporter: &mut Reporter, ends: [u32; 2], count: usize, list: &[u32], random: &mut Random) -> Result<bool, String> {
        let due = due_bytes(losses::read_list(ends[0], count, list));
        let bytes: Vec<u8> = (0..count + random.below(4) as usize).map(|_| random.any() as u8).collect();
        reporter.read(&mut self.library, list, &bytes, ends, &due, None)?;
        reporter.read(&mut self.library, list, &bytes[..count - 1], ends, &Err(SHORT_LIST), None)?;
        Ok(due.is_ok())
    }

    /// With a list of the window one short both are refused 6, whatever else is wrong.
    fn short(&mut self, reporter: &mut Reporter, ends: [u32; 2], random: &mut Random) -> Result<(), String> {
        let (short, due) = (random.below(4), SHORT_MEMORY);
        reporter.write(&mut self.library, &[7; 3], ends, &Err(due), Some(short))?;
        reporter.read(&mut self.library, &[losses::TOP_BIT], &[7; 3], ends, &Err(due), Some(short))
    }

    fn report(&mut self, reporter: &mut Reporter, counts: &mut Counts, ends: [u32; 2], random: &mut Random) -> Result<(), String> {
        if random.percent(3) {
            counts.refused[SHORT_MEMORY as usize] += 1;
            self.short(reporter, ends, random)?;
        }
        let [first, last] = ends;
        let lost = match losses::lost(self.source.window_size(), first, last, |sequence| self.source.is_live(sequence)) {
            Ok(lost) => lost,
            Err(refusal) => {
                counts.refused[refusal as usize] += 1;
                return self.refused(reporter, refusal, ends, random);
            }
        };
        counts.losses(first, &lost);
        counts.refused[SHORT_LIST as usize] += u64::from(lost.contains(&true));
        let (retired, aliased) = self.behind_losses(first, &lost);
        counts.retired += u64::from(retired);
        counts.aliased += u64::from(aliased);
        self.written(reporter, ends, &lost, random)?;
        let list = lists::some_list(random, first, lost.len());
        match self.read(reporter, ends, lost.len(), &list, random)? {
            true => counts.taken += 1,
            false => counts.spoilt += 1,
        }
        Ok(())
    }
}

fn list(seed: u64, calls: u32, options: Options, reporter: &mut Reporter, counts: &mut Counts) -> Result<(), String> {
    let mut generator = Generator::new(seed, calls, options);
    let mut random = Random::new(!seed);
    let mut both: Option<Both> = None;
    let often = if options.large { 6 } else { 25 };
    for number in 0..calls {
        let Item::Call(call) = generator.next() else {
            continue;
        };
        let at = |why| format!("seed {seed}, line {number}, {:?}: {why}", call.line());
        if let Call::New { window_size, n, demote_at } = call {
            if let Ok(source) = fresh(window_size, n, demote_at) {
                both = Some(Both { source, library: Library::new(&mut random, window_size, n, demote_at).map_err(at)? });
            }
            continue;
        }
        let Some(both) = &mut both else {
            continue;
        };
        both.call(call).map_err(at)?;
        if random.percent(2) {
            generator.lossy_run();
        }
        if random.percent(often) || both.library.held() > 0 && random.percent(often) {
            let (first, last) = generator.report();
            both.report(reporter, counts, [first, last], &mut random).map_err(at)?;
        }
    }
    Ok(())
}

fn random_lists(seeds: RangeInclusive<u64>, calls: u32, options: Options, mut reporter: Reporter) -> Result<String, String> {
    let mut counts = Counts::default();
    for seed in seeds {
        list(seed, calls, options, &mut reporter, &mut counts)?;
    }
    if !counts.missing().is_empty() {
        return Err(format!("what did not occur: {}", counts.missing().join(", ")));
    }
    let Counts { reports, empty, all_lost, runs: [one, two, more], wraps, retired, aliased, taken, spoilt, refused } = counts;
    let [wide, long, short] = [refused[10], refused[5], refused[6]];
    Ok(format!(
        "{reports} reports as the source's get, {empty} without a loss, {all_lost} of losses alone; {one} runs of one, {two} of two, \
         {more} longer, {wraps} over the wrap; {retired} reports with a loss held retired, {aliased} with one at a live value's position; \
         {short} refused 6, {wide} refused 10, {long} refused 5; {taken} other lists read, {spoilt} refused 12"
    ))
}

/// Each thing wrong in the first report that can have it, which must be noticed; the short lists have the reader's only.
fn self_test(folder: &str) -> Result<String, String> {
    let mut noticed = 0;
    let options = Options { small: true, clean: true, large: false };
    for wrong in WRONG {
        let words_only = matches!(wrong, Wrong::RunOfTwoAsRange | Wrong::RunCutAtTheWrap | Wrong::WordLeftOut);
        let spoilt = || Reporter { wrong: Some(wrong) };
        let mut runs = vec![random_lists(9401..=9420, 2000, options, spoilt())];
        if !words_only {
            runs.push(short_lists::all(spoilt()));
        }
        for run in runs {
            match run {
                Err(why) if why.contains("a report ") => noticed += 1,
                other => return Err(format!("{wrong:?}: {other:?}")),
            }
        }
    }
    Ok(format!("{noticed} wrong reports and {} wrong connections, each noticed", naks::self_test(folder)?))
}

fn main() -> ExitCode {
    let arguments: Vec<String> = std::env::args().skip(1).collect();
    let right = || Reporter { wrong: None };
    match &arguments.iter().map(String::as_str).collect::<Vec<_>>()[..] {
        ["lists"] => ended(short_lists::all(right())),
        ["naks", folder] => ended(naks::all(folder)),
        ["self-test", folder] => ended(self_test(folder)),
        _ => program(|seeds, calls, options| random_lists(seeds, calls, options, right())),
    }
}
