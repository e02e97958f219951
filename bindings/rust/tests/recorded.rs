//! The recorded answers of the source (tests/recorded of the repository), with the calls made through this interface.

#[path = "../../../oracle/src/line.rs"]
mod line;

use line::Call;
use packet_window::*;
use std::fmt::Write;
use std::fs;
use std::path::{Path, PathBuf};

fn absent_or(number: Result<Option<u32>, Refusal>) -> Result<String, Refusal> {
    number.map(|number| number.map_or("-".to_string(), |number| number.to_string()))
}

/// What the call answered, as the line program writes it, and the values that follow the counts.
type Said = (Result<String, Refusal>, Vec<String>);

fn with_list<T>(outcome: Outcome<T>, said: fn(T) -> String) -> Said {
    (outcome.answer.map(said), outcome.returned.iter().map(u32::to_string).collect())
}

fn inserted(done: Inserted) -> String {
    match done {
        Inserted::New => "+".to_string(),
        Inserted::Replaced(old) => format!("={old}"),
    }
}

fn listed(window: &Window) -> Said {
    let pairs: Result<Vec<_>, _> = window.iter().map(|pair| pair.map(|(sequence, value)| format!("{sequence}:{value}"))).collect();
    match pairs {
        Ok(pairs) => (Ok(pairs.len().to_string()), pairs),
        Err(refusal) => (Err(refusal), Vec::new()),
    }
}

fn make(window: &mut Window, call: Call) -> Said {
    let alone = |answer| (answer, Vec::new());
    match call {
        Call::New { .. } => unreachable!("new makes a window"),
        Call::Insert { sequence, value } => with_list(window.insert(sequence, value), inserted),
        Call::Get(sequence) => alone(absent_or(window.get(sequence))),
        Call::Remove(sequence) => alone(absent_or(window.remove(sequence))),
        Call::SuccessorAfter(sequence) => alone(absent_or(window.successor_after(sequence))),
        Call::FirstFrom(sequence) => alone(absent_or(window.first_from(sequence))),
        Call::Exchange { sequence, value } => alone(absent_or(window.exchange(sequence, value))),
        Call::RemoveRange { first, last } => with_list(window.remove_range(first, last), |number| number.to_string()),
        Call::Stranger { first, last } => alone(absent_or(window.stranger(first, last).map(|pair| pair.map(|pair| pair.0)))),
        Call::ClearBounded(number) => with_list(window.clear_bounded(number), |number| number.to_string()),
        Call::ReleaseRetired(budget) => with_list(window.release_retired(budget), |Released { values, units }| format!("{values}:{units}")),
        Call::Clear => with_list(window.clear(), |()| ".".to_string()),
        Call::Iter => listed(window),
        Call::SetBase(base) => alone(window.set_base(base).map(|()| ".".to_string())),
        Call::TakeFront => alone(absent_or(window.take_front())),
    }
}

/// The line of a call: letter, answer, the window's counts, values. No window has counts of 0.
fn line_of(letter: char, (answer, values): Said, header: Header) -> String {
    let answer = answer.unwrap_or_else(|refusal| format!("!{}", refusal.number()));
    let Header { len, retired_held, promotions, single_demotions, range_demotions, .. } = header;
    let demotions = single_demotions.wrapping_add(range_demotions);
    let mut line = format!("{letter}\t{answer}\t{len}\t{retired_held}\t{promotions}\t{demotions}");
    for value in values {
        write!(line, "\t{value}").expect("a string takes it");
    }
    line
}

/// The memory, and the header of the window that is in it, if one is.
struct Lines {
    memory: OwnedMemory,
    header: Option<Header>,
    largest: u32,
}

impl Lines {
    fn renew(&mut self, window_size: u32, n: u32, demote_at: u32) -> String {
        let mut memory = OwnedMemory::new(window_size);
        let answer = match Window::new(memory.lend(), window_size, n, demote_at) {
            Ok(window) => {
                self.header = Some(*window.header());
                self.memory = memory;
                Ok(".".to_string())
            }
            Err(refusal) => Err(refusal),
        };
        line_of('n', (answer, Vec::new()), self.header.unwrap_or_default())
    }

    fn call(&mut self, call: Call) -> Option<String> {
        let mut window = Window::from_parts(self.header?, self.memory.lend()).expect("a sound state");
        let said = make(&mut window, call);
        self.header = Some(*window.header());
        Some(line_of(call.letter(), said, *window.header()))
    }

    fn answer(&mut self, line: &[u8]) -> Option<String> {
        match Call::read(line)? {
            Call::New { window_size, .. } if window_size > self.largest => None,
            Call::New { window_size, n, demote_at } => Some(self.renew(window_size, n, demote_at)),
            call => self.call(call),
        }
    }
}

fn inputs() -> Vec<PathBuf> {
    let folder = Path::new(env!("CARGO_MANIFEST_DIR")).join("../../tests/recorded");
    let files = fs::read_dir(folder).expect("the recorded files").map(|file| file.expect("a file").path());
    files.filter(|path| path.extension().is_some_and(|extension| extension == "in")).collect()
}

/// How many calls the file made; its answers are the recorded ones.
fn replay(path: &Path) -> usize {
    let input = fs::read(path).expect("a recorded file");
    let wanted = fs::read_to_string(path.with_extension("out")).expect("its answers");
    let mut wanted = wanted.lines();
    let large = path.to_string_lossy().ends_with(".large.in");
    let mut lines = Lines { memory: OwnedMemory::new(1), header: None, largest: if large { u32::MAX } else { 4096 } };
    let mut calls = 0;
    for (number, line) in input.split_inclusive(|&byte| byte == b'\n').enumerate() {
        let said = lines.answer(line.strip_suffix(b"\n").unwrap_or(line));
        calls += usize::from(said.is_some());
        assert_eq!(said.as_deref().unwrap_or("?"), wanted.next().unwrap_or("no line"), "{}, line {}", path.display(), number + 1);
    }
    assert_eq!(wanted.next(), None, "{}: more answers than lines", path.display());
    calls
}

#[test]
fn recorded_answers() {
    let files = inputs();
    let calls: usize = files.iter().map(|path| replay(path)).sum();
    assert!(files.len() > 100 && calls > 10000, "{} files, {calls} calls", files.len());
}
