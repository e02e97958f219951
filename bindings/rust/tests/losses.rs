//! The recorded loss reports (tests/recorded of the repository, losses-*.txt), made through this interface.
//!
//! A list has a place more than it needs, which stays; then just as many, with the same answer; then one fewer, which is refused.

#[path = "../../../oracle/src/line.rs"]
mod line;
#[path = "../../../oracle/src/report.rs"]
mod report;

use line::Call;
use packet_window::*;
use report::{answer_text, list_text, lost_text, Report};
use std::collections::BTreeMap;
use std::fs;
use std::path::{Path, PathBuf};

/// What a place holds that no report wrote.
const OTHER: u8 = 0xa5;
const OTHER_WORD: u32 = 0xa5a5_a5a5;

/// Makes a call. Its answer is compared in recorded.rs; calls that alter nothing are left out.
fn make(window: &mut Window, call: Call) {
    let _ = match call {
        Call::New { .. } => unreachable!("new makes a window"),
        Call::Insert { sequence, value } => window.insert(sequence, value).answer.err(),
        Call::Exchange { sequence, value } => window.exchange(sequence, value).err(),
        Call::Remove(sequence) => window.remove(sequence).err(),
        Call::RemoveRange { first, last } => window.remove_range(first, last).answer.err(),
        Call::ReleaseRetired(budget) => window.release_retired(budget).answer.err(),
        Call::Clear => window.clear().answer.err(),
        Call::ClearBounded(number) => window.clear_bounded(number).answer.err(),
        Call::SetBase(base) => window.set_base(base).err(),
        Call::TakeFront => window.take_front().err(),
        Call::Get(_) | Call::SuccessorAfter(_) | Call::FirstFrom(_) | Call::Stranger { .. } | Call::Iter => None,
    };
}

/// The list of the losses from first to last.
fn write(window: &Window, first: u32, last: u32) -> Result<Vec<u32>, Refusal> {
    let into = |places: usize| {
        let mut words = vec![OTHER_WORD; places];
        let answer = window.write_losses(first, last, &mut words).map(<[u32]>::to_vec);
        (answer, words)
    };
    let most = loss_words(window.header().window_size) + 1;
    let (answer, words) = into(most);
    let list = answer.clone().unwrap_or_default();
    assert_eq!(words, [&list[..], &vec![OTHER_WORD; most - list.len()]].concat());
    assert_eq!(into(list.len()), (answer.clone(), list.clone()));
    if let Some(fewer) = list.len().checked_sub(1) {
        assert_eq!(into(fewer), (Err(Refusal::ShortList), vec![OTHER_WORD; fewer]));
    }
    answer
}

/// What a list says of the sequences from first to last.
fn read(window: &Window, first: u32, last: u32, list: &[u32]) -> Result<Vec<bool>, Refusal> {
    let into = |places: usize| {
        let mut lost = vec![OTHER; places];
        (window.read_losses(first, last, list, &mut lost), lost)
    };
    let refused = |refusal: Refusal, places: usize| assert_eq!(into(places), (Err(refusal), vec![OTHER; places]));
    // Of a range that is refused any length will do.
    let count = (last.wrapping_sub(first) & 0x7fff_ffff).min(window.header().window_size) as usize + 1;
    let (answer, bytes) = into(count + 1);
    match answer {
        Err(refusal @ (Refusal::Sequence | Refusal::RangeCount)) => refused(refusal, 0),
        _ => refused(Refusal::ShortList, count - 1),
    }
    let number = answer.inspect_err(|&refusal| refused(refusal, count + 1))?;
    assert_eq!(into(count), (answer, bytes[..count].to_vec()));
    assert!(bytes[..count].iter().all(|&byte| byte <= 1) && bytes[count..] == [OTHER]);
    let lost: Vec<bool> = bytes[..count].iter().map(|&byte| byte == 1).collect();
    assert_eq!(number as usize, lost.iter().filter(|&&lost| lost).count());
    Ok(lost)
}

/// What a report answers, as it is recorded.
fn said(window: &Window, report: &Report) -> String {
    match report {
        Report::Write { first, last } => answer_text(write(window, *first, *last).map_err(Refusal::number), |words| list_text(&words)),
        Report::Read { first, last, list } => {
            answer_text(read(window, *first, *last, list).map_err(Refusal::number), |lost| lost_text(&lost))
        }
    }
}

/// The reports of a file, counted by their kind and the first sign of their answer.
fn replay(path: &Path, counts: &mut BTreeMap<String, usize>) {
    let (mut memory, mut header) = (OwnedMemory::new(1), Header::default());
    for (number, line) in fs::read_to_string(path).expect("a recorded file").lines().enumerate() {
        if line.starts_with('#') {
            continue;
        }
        let at = format!("{}, line {}", path.display(), number + 1);
        if let Some((report, answer)) = Report::read(line) {
            let window = Window::from_parts(header, memory.lend()).expect("a sound state");
            let answer = answer.expect("an answer");
            assert_eq!(said(&window, &report), answer, "{at}");
            let kind = if answer.starts_with('!') || answer == "-" { answer } else { "taken" };
            *counts.entry(format!("{} {kind}", line.split('\t').next().unwrap_or_default())).or_default() += 1;
            continue;
        }
        match Call::read(line.as_bytes()).unwrap_or_else(|| panic!("{at}: no call")) {
            Call::New { window_size, n, demote_at } => {
                memory = OwnedMemory::new(window_size);
                header = *Window::new(memory.lend(), window_size, n, demote_at).expect("a window").header();
            }
            call => {
                let mut window = Window::from_parts(header, memory.lend()).expect("a sound state");
                make(&mut window, call);
                header = *window.header();
            }
        }
    }
}

fn files() -> Vec<PathBuf> {
    let folder = Path::new(env!("CARGO_MANIFEST_DIR")).join("../../tests/recorded");
    let files = fs::read_dir(folder).expect("the recorded files").map(|file| file.expect("a file").path());
    files.filter(|path| path.file_name().is_some_and(|name| name.to_string_lossy().starts_with("losses-"))).collect()
}

#[test]
fn recorded_loss_reports() {
    let mut counts = BTreeMap::new();
    files().iter().for_each(|path| replay(path, &mut counts));
    let kinds = ["write taken", "write -", "write !5", "write !10", "read taken", "read !5", "read !10", "read !12"];
    assert_eq!(counts.len(), kinds.len(), "{counts:?}");
    assert!(kinds.iter().all(|&kind| counts.get(kind).is_some_and(|&count| count >= 3)), "{counts:?}");
    assert!(counts.values().sum::<usize>() > 1500, "{counts:?}");
}
