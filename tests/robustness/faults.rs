//! Calls that do what no call may: the harness must name each of them.

use crate::declared::{Header, NumberedAnswer, NumberedStep, ABSENT, DONE, FOUND, PAIR, REFUSED};
use crate::memory::{Lent, BLOCKS, HEADER, LOST, PAGES, RETURNED, SEQUENCES, VALUES, WORDS};
use crate::operations::{demotions_counted, is_wide, Call, LOSS_LIST, OCCUPIED, RANGE_COUNT, SEQUENCE, SHORT_LIST, SHORT_MEMORY, UNSOUND};
use crate::judge::refused;
use std::ops::Not;
use std::process::Command;

/// A wrong end of a call, and what the report of it says.
pub struct Fault {
    pub name: &'static str,
    pub end: fn(&Call, &Lent, &mut NumberedStep),
    pub said: &'static str,
}

const OUTSIDE: &str = "access outside of the lent memory";
/// A write next to a list faults, or changes what stands between the list and the guard region.
const WRITTEN: &str = "outside";
/// A demotion under another cause than the call's, or too many.
const DEMOTIONS: &str = "demotions, single and of ranges, at most";

fn refusal(number: u32) -> NumberedAnswer {
    NumberedAnswer { code: REFUSED, first: number, second: 0, third: 0, fourth: 0 }
}

fn found(number: u32) -> NumberedAnswer {
    NumberedAnswer { code: FOUND, first: number, second: 0, third: 0, fourth: 0 }
}

/// Element `at` of a list of numbers, of words, or of the bytes of losses.
fn number(lent: &Lent, list: usize, at: isize) -> *mut u32 {
    unsafe { lent.starts[list].cast::<u32>().offset(at) }
}

fn word(lent: &Lent, list: usize, at: isize) -> *mut u64 {
    unsafe { lent.starts[list].cast::<u64>().offset(at) }
}

fn byte(lent: &Lent, at: isize) -> *mut u8 {
    unsafe { lent.starts[LOST].offset(at) }
}

fn changed<T: Not<Output = T>>(place: *mut T) {
    unsafe { place.write_volatile(!place.read_volatile()) }
}

/// Whether the arguments of a call of that name do not refuse it.
fn taken(call: &Call, name: &str) -> bool {
    call.operation.name == name && call.refusal().is_none()
}

fn raise(count: &mut u64) {
    *count = count.wrapping_add(1);
}

fn single_rose(call: &Call, step: &NumberedStep) -> bool {
    demotions_counted(call.header, step.window)[0] > 0
}

/// What the call counted as single demotions is counted as those of ranges, and the other way round.
fn counts_as_the_other(call: &Call, step: &mut NumberedStep) {
    let [single, range] = demotions_counted(call.header, step.window);
    step.window.single_demotions = call.header.single_demotions.wrapping_add(range);
    step.window.range_demotions = call.header.range_demotions.wrapping_add(single);
}

/// Whether a loss list was written, or read.
fn written(call: &Call, step: &NumberedStep) -> bool {
    call.operation.writes_losses() && step.answer.code == FOUND
}

fn read(call: &Call, step: &NumberedStep) -> bool {
    call.operation.reads_losses() && step.answer.code == FOUND
}

macro_rules! fault {
    ($name:literal, $said:expr, |$call:ident, $lent:ident, $step:ident| $end:expr) => {
        Fault { name: $name, said: $said, end: |$call, $lent, $step| { let _ = ($call, $lent, &$step); $end } }
    };
}

pub static FAULTS: &[Fault] = &[
    fault!("reads-past-the-sequences", OUTSIDE, |call, lent, step| unsafe {
        number(lent, SEQUENCES, lent.lengths[SEQUENCES] as isize).read_volatile();
    }),
    fault!("reads-past-the-pages", OUTSIDE, |call, lent, step| unsafe {
        word(lent, PAGES, lent.lengths[PAGES] as isize).read_volatile();
    }),
    fault!("reads-before-the-values", OUTSIDE, |call, lent, step| unsafe {
        number(lent, VALUES, -1).read_volatile();
    }),
    fault!("writes-past-the-return-list", WRITTEN, |call, lent, step| {
        if taken(call, "insert") {
            changed(number(lent, RETURNED, lent.lengths[RETURNED] as isize));
        }
    }),
    fault!("writes-before-the-blocks", WRITTEN, |call, lent, step| {
        if taken(call, "clear") {
            changed(word(lent, BLOCKS, -1));
        }
    }),
    fault!("writes-past-the-header", WRITTEN, |call, lent, step| {
        if call.operation.by_start() {
            changed(word(lent, HEADER, lent.lengths[HEADER] as isize));
        }
    }),
    fault!("writes-the-header-when-refused", "the header changed outside its first 0", |call, lent, step| {
        if call.operation.by_start() && call.refusal().is_some() {
            changed(word(lent, HEADER, 0));
        }
    }),
    fault!("writes-what-it-reads", OUTSIDE, |call, lent, step| {
        if taken(call, "get") {
            changed(number(lent, VALUES, 0));
        }
    }),
    fault!("writes-when-refused", OUTSIDE, |call, lent, step| {
        if call.refusal().is_some() && lent.lengths[SEQUENCES] > 0 {
            changed(number(lent, SEQUENCES, 0));
        }
    }),
    fault!("writes-when-occupied", "changed outside its first 0", |call, lent, step| {
        if refused(step.answer) == Some(OCCUPIED) {
            changed(number(lent, VALUES, 0));
        }
    }),
    fault!("writes-past-the-named-length", "pages changed outside its first", |call, lent, step| {
        let named = call.named()[PAGES];
        if taken(call, "remove") && named < lent.lengths[PAGES] {
            changed(word(lent, PAGES, named as isize));
        }
    }),
    fault!("writes-past-the-count", "returned changed outside its first", |call, lent, step| {
        if taken(call, "remove_range") && (step.count as usize) < lent.lengths[RETURNED] {
            changed(number(lent, RETURNED, step.count as isize));
        }
    }),
    fault!("does-not-end", "no end in", |call, lent, step| loop {
        std::hint::spin_loop();
    }),
    fault!("traps", "trap in", |call, lent, step| unsafe { std::arch::asm!("ud2") }),
    fault!("code-8", "answers NumberedAnswer { code: 8", |call, lent, step| step.answer.code = 8),
    fault!("code-of-another-call", "answers NumberedAnswer { code: 0", |call, lent, step| {
        if taken(call, "get") {
            step.answer = NumberedAnswer { code: DONE, ..step.answer };
        }
    }),
    fault!("a-number-not-used", "with numbers that are not used", |call, lent, step| {
        if step.answer.code == ABSENT {
            step.answer.first = 1;
        }
    }),
    fault!("reads-of-another-call", "0 reads are due", |call, lent, step| {
        if taken(call, "get") {
            step.answer.fourth = 1;
        }
    }),
    fault!("one-read-too-few-when-done", "reads are due", |call, lent, step| {
        if taken(call, "iter") && step.answer.code == DONE {
            step.answer.fourth = step.answer.fourth.saturating_sub(1);
        }
    }),
    fault!("a-read-at-every-page", "reads are due", |call, lent, step| {
        if taken(call, "iter") && step.answer.code == PAIR {
            step.answer.fourth = (step.answer.third - 1) / 64 - call.numbers[0] / 64 + 1;
        }
    }),
    fault!("refusal-0", "answers NumberedAnswer { code: 7, first: 0", |call, lent, step| step.answer = refusal(0)),
    fault!("refusal-13", "answers NumberedAnswer { code: 7, first: 13", |call, lent, step| step.answer = refusal(13)),
    fault!("refuses-6-what-it-takes", "refuses Some(6)", |call, lent, step| {
        if taken(call, "exchange") {
            step.answer = refusal(SHORT_MEMORY);
        }
    }),
    fault!("refuses-7-a-sound-state", "refuses Some(7) on a sound state", |call, lent, step| {
        if taken(call, "successor_after") {
            step.answer = refusal(UNSOUND);
        }
    }),
    fault!("passes-an-unsound-state", "says that the state is sound, which it is not", |call, lent, step| {
        if call.operation.is_check() && refused(step.answer) == Some(UNSOUND) {
            step.answer = NumberedAnswer { code: DONE, first: 0, ..step.answer };
        }
    }),
    fault!("takes-what-it-refuses", "not refusal Some(", |call, lent, step| {
        if call.operation.name == "clear_bounded" && call.refusal().is_some() {
            step.answer = found(0);
        }
    }),
    fault!("refuses-in-another-order", "not refusal Some(", |call, lent, step| {
        if call.refusal() == Some(SHORT_MEMORY) {
            step.answer = refusal(5);
        }
    }),
    fault!("takes-a-sequence-of-32-bits", "not refusal Some(10)", |call, lent, step| {
        if call.refusal() == Some(SEQUENCE) && call.operation.name == "get" {
            step.answer = NumberedAnswer { code: ABSENT, first: 0, second: 0, third: 0, fourth: 0 };
        }
    }),
    fault!("refuses-5-before-10", "not refusal Some(10)", |call, lent, step| {
        if call.refusal() == Some(SEQUENCE) && call.range_count() > call.header.window_size {
            step.answer = refusal(RANGE_COUNT);
        }
    }),
    fault!("another-header-when-refused", "header Header", |call, lent, step| {
        if call.refusal().is_some() {
            step.window = Header { len: !step.window.len, ..step.window };
        }
    }),
    fault!("another-header-when-reading", "header Header", |call, lent, step| {
        if taken(call, "iter") {
            step.window.promotions ^= 1 << 40;
        }
    }),
    fault!("another-window-size", "header Header", |call, lent, step| {
        if taken(call, "insert") {
            step.window.window_size ^= 1;
        }
    }),
    fault!("another-base", "header Header", |call, lent, step| {
        if taken(call, "remove") {
            step.window.base ^= 1;
        }
    }),
    fault!("base-that-does-not-move", "header Header", |call, lent, step| {
        if taken(call, "take_front") {
            step.window.base = call.header.base;
        }
    }),
    fault!("more-than-the-base-set", "header Header", |call, lent, step| {
        if taken(call, "set_base") {
            step.window.single_demotions ^= 1;
        }
    }),
    fault!("insert-counts-a-demotion", DEMOTIONS, |call, lent, step| {
        if taken(call, "insert") {
            raise(&mut step.window.single_demotions);
        }
    }),
    fault!("exchange-counts-a-demotion", DEMOTIONS, |call, lent, step| {
        if taken(call, "exchange") {
            raise(&mut step.window.single_demotions);
        }
    }),
    fault!("clear-counts-a-demotion", DEMOTIONS, |call, lent, step| {
        if taken(call, "clear") {
            raise(&mut step.window.range_demotions);
        }
    }),
    fault!("a-bounded-clear-counts-a-demotion", DEMOTIONS, |call, lent, step| {
        if taken(call, "clear_bounded") {
            raise(&mut step.window.range_demotions);
        }
    }),
    fault!("release-counts-a-demotion", DEMOTIONS, |call, lent, step| {
        if taken(call, "host_release_retired") {
            raise(&mut step.window.range_demotions);
        }
    }),
    fault!("remove-counts-as-a-range", DEMOTIONS, |call, lent, step| {
        if taken(call, "remove") {
            counts_as_the_other(call, step);
        }
    }),
    fault!("the-host-form-counts-as-a-range", DEMOTIONS, |call, lent, step| {
        if taken(call, "host_remove") {
            counts_as_the_other(call, step);
        }
    }),
    fault!("front-counts-as-a-range", DEMOTIONS, |call, lent, step| {
        if taken(call, "take_front") {
            counts_as_the_other(call, step);
        }
    }),
    fault!("a-range-counts-as-single", DEMOTIONS, |call, lent, step| {
        if taken(call, "remove_range") {
            counts_as_the_other(call, step);
        }
    }),
    fault!("remove-counts-two", DEMOTIONS, |call, lent, step| {
        if taken(call, "remove") && single_rose(call, step) {
            raise(&mut step.window.single_demotions);
        }
    }),
    fault!("a-range-counts-three", DEMOTIONS, |call, lent, step| {
        if taken(call, "remove_range") && demotions_counted(call.header, step.window) == [0, 2] {
            raise(&mut step.window.range_demotions);
        }
    }),
    fault!("a-demotion-not-counted", "pages became sparse", |call, lent, step| {
        if taken(call, "take_front") {
            step.window.single_demotions = call.header.single_demotions;
        }
    }),
    fault!("a-demotion-of-a-range-not-counted", "pages became sparse", |call, lent, step| {
        if taken(call, "remove_range") {
            step.window.range_demotions = call.header.range_demotions;
        }
    }),
    fault!("a-single-count-that-does-not-wrap", "pages became sparse", |call, lent, step| {
        if taken(call, "remove") && step.window.single_demotions < call.header.single_demotions {
            step.window.single_demotions = u64::MAX;
        }
    }),
    fault!("a-count-of-ranges-that-does-not-wrap", "pages became sparse", |call, lent, step| {
        if taken(call, "remove_range") && step.window.range_demotions < call.header.range_demotions {
            step.window.range_demotions = u64::MAX;
        }
    }),
    fault!("point-that-does-not-move", "check answers", |call, lent, step| {
        if taken(call, "insert") {
            step.window.point = call.header.point;
        }
    }),
    fault!("count-without-a-list", "count 1, at most 0", |call, lent, step| {
        if taken(call, "first_from") {
            step.count = 1;
        }
    }),
    fault!("count-above-the-list", "at most", |call, lent, step| {
        if taken(call, "release_retired") {
            step.count = lent.lengths[RETURNED] as u32 + 1;
        }
    }),
    fault!("count-one-less", "returned changed outside its first", |call, lent, step| step.count = step.count.saturating_sub(1)),
    fault!("held-one-less", "held and handed back", |call, lent, step| {
        if taken(call, "release_retired") && step.window.retired_held > 0 {
            step.window.retired_held -= 1;
        }
    }),
    fault!("reads-past-the-words", OUTSIDE, |call, lent, step| {
        if read(call, step) {
            unsafe { number(lent, WORDS, lent.lengths[WORDS] as isize).read_volatile() };
        }
    }),
    fault!("writes-a-word-too-many", "words changed outside its first", |call, lent, step| {
        if written(call, step) && (step.answer.first as usize) < lent.lengths[WORDS] {
            changed(number(lent, WORDS, step.answer.first as isize));
        }
    }),
    fault!("writes-words-that-do-not-fit", WRITTEN, |call, lent, step| {
        if call.operation.writes_losses() && refused(step.answer) == Some(SHORT_LIST) && lent.lengths[WORDS] > 0 {
            changed(number(lent, WORDS, 0));
        }
    }),
    fault!("writes-a-byte-too-many", "lost changed outside its first", |call, lent, step| {
        if read(call, step) && (call.range_count() as usize) < lent.lengths[LOST] {
            changed(byte(lent, call.range_count() as isize));
        }
    }),
    fault!("writes-a-byte-of-a-wrong-list", OUTSIDE, |call, lent, step| {
        if refused(step.answer) == Some(LOSS_LIST) {
            changed(byte(lent, 0));
        }
    }),
    fault!("a-report-that-writes-the-window", OUTSIDE, |call, lent, step| {
        if written(call, step) {
            changed(number(lent, SEQUENCES, 0));
        }
    }),
    fault!("a-report-with-another-header", "header Header", |call, lent, step| {
        if read(call, step) {
            step.window.len ^= 1;
        }
    }),
    fault!("a-report-with-another-word", "reports other losses", |call, lent, step| {
        if written(call, step) && step.answer.first > 0 {
            changed(number(lent, WORDS, 0));
        }
    }),
    fault!("a-report-with-another-byte", "reports other losses", |call, lent, step| {
        if read(call, step) {
            changed(byte(lent, 0));
        }
    }),
    fault!("one-loss-too-many", "reports other losses", |call, lent, step| {
        if read(call, step) {
            step.answer.first += 1;
        }
    }),
    fault!("refuses-11-what-fits", "refuses Some(11) on a sound state", |call, lent, step| {
        if written(call, step) && step.answer.first as usize == lent.lengths[WORDS] {
            step.answer = refusal(SHORT_LIST);
        }
    }),
    fault!("refuses-11-before-5", "not refusal Some(5)", |call, lent, step| {
        if call.operation.is_report() && call.refusal() == Some(RANGE_COUNT) {
            step.answer = refusal(SHORT_LIST);
        }
    }),
    fault!("refuses-12-before-11", "not refusal Some(11)", |call, lent, step| {
        if call.refusal() == Some(SHORT_LIST) {
            step.answer = refusal(LOSS_LIST);
        }
    }),
    fault!("takes-a-wrong-list", "not refusal Some(12)", |call, lent, step| {
        if refused(step.answer) == Some(LOSS_LIST) {
            step.answer = found(0);
        }
    }),
    fault!("refuses-12-a-right-list", "refuses Some(12)", |call, lent, step| {
        if read(call, step) {
            step.answer = refusal(LOSS_LIST);
        }
    }),
    fault!("refuses-7-a-report", "refuses Some(7) on arguments that are taken", |call, lent, step| {
        if written(call, step) && is_wide(call.header.base) {
            step.answer = refusal(UNSOUND);
        }
    }),
    fault!("words-left-by-new", "words are left", |call, lent, step| {
        if taken(call, "new") {
            changed(word(lent, BLOCKS, 0));
        }
    }),
];

pub fn find(name: &str) -> Option<&'static Fault> {
    FAULTS.iter().find(|fault| fault.name == name)
}

/// Seeds in which each fault must be met.
const SEEDS: [&str; 2] = ["1", "60"];

/// Each fault in a process of its own, which must fail and say what and where it was.
pub fn self_test() -> Result<String, String> {
    let program = std::env::current_exe().map_err(|error| error.to_string())?;
    for fault in FAULTS {
        let run = Command::new(&program).args(SEEDS).args(["--fault", fault.name]).output();
        let run = run.map_err(|error| error.to_string())?;
        let said = String::from_utf8_lossy(&run.stdout);
        let named = said.starts_with("seed ") && said.contains(", call ") && said.contains("again: ");
        if run.status.success() || !named || !said.contains(fault.said) {
            return Err(format!("fault {} was not named: {:?}\n{said}", fault.name, run.status));
        }
    }
    Ok(format!("{} faults, each named", FAULTS.len()))
}
