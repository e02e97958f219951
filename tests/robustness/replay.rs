//! A file of calls on the static library, with a ledger of the packet stores: an insert or exchange takes a free store in place of the
//! value that the file names.

use crate::calls::Random;
use crate::guarded::Mappings;
use crate::head::{Head, Tally};
use crate::line::Call;

/// More than the window of the line program can hold, live and retired together.
const STORES: u32 = 10_000;

/// The calls of a file, of which the first makes the window and no other does.
pub fn read(file: &str) -> Result<([u32; 3], Vec<Call>), String> {
    let text = std::fs::read(file).map_err(|why| format!("{file}: {why}"))?;
    let lines = text.strip_suffix(b"\n").unwrap_or(&text).split(|&byte| byte == b'\n');
    let calls: Option<Vec<Call>> = lines.map(Call::read).collect();
    let calls = calls.ok_or_else(|| format!("{file}: a line that is no call"))?;
    match calls.split_first() {
        Some((&Call::New { window_size, n, demote_at }, rest)) if !rest.iter().any(|call| matches!(call, Call::New { .. })) => {
            Ok(([window_size, n, demote_at], rest.to_vec()))
        }
        _ => Err(format!("{file}: not one n, in the first line")),
    }
}

/// Makes the calls, then clears and releases until every store must be free again. Every answer is held against document 01's plain table
/// and every store against the ledger.
pub fn replay(file: &str, mappings: &mut Mappings) -> Result<Tally, String> {
    let (window, calls) = read(file)?;
    let mut random = Random::new(1);
    let mut head = Head::new(mappings, &mut random, 1, window, STORES, None)?;
    for (at, &call) in calls.iter().enumerate() {
        make(&mut head, &mut random, call).map_err(|why| format!("{file}, line {}: {why}", at + 2))?;
    }
    head.clear()?;
    head.release_all(&mut random)?;
    head.ledger.all_free()?;
    Ok(head.tally)
}

fn make(head: &mut Head, random: &mut Random, call: Call) -> Result<(), String> {
    match call {
        Call::New { .. } => Err("a second n".to_string()),
        Call::Insert { sequence, .. } => {
            let store = free(head, random)?;
            head.insert(sequence, store)
        }
        Call::Exchange { sequence, .. } => {
            let store = free(head, random)?;
            head.exchange(sequence, store)
        }
        Call::Get(sequence) => head.get(sequence),
        Call::Remove(sequence) => head.remove(sequence).map(|_| ()),
        Call::SuccessorAfter(sequence) => head.successor_after(sequence).map(|_| ()),
        Call::FirstFrom(sequence) => head.first_from(sequence).map(|_| ()),
        Call::RemoveRange { first, last } => head.remove_range(first, last),
        Call::Stranger { first, last } => head.stranger(first, last),
        Call::ClearBounded(number) => head.clear_bounded(number),
        Call::ReleaseRetired(budget) => head.release(budget),
        Call::Clear => head.clear(),
        Call::Iter => head.list(),
        Call::SetBase(base) => head.set_base(base),
        Call::TakeFront => head.take_front().map(|_| ()),
    }
}

fn free(head: &mut Head, random: &mut Random) -> Result<u32, String> {
    head.ledger.take(random).ok_or_else(|| "no store is free".to_string())
}
