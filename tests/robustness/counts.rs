//! What was met: kinds of memory, calls, refusals, demotions, capacities.

use crate::contents::Kind;
use crate::declared::{Header, NumberedStep};
use crate::judge::refused;
use crate::memory::{capacity, LARGEST_WINDOW};
use crate::operations::{demotions_counted, Call, OPERATIONS, REFUSALS, SHORT_LIST};

/// What the memory held when a list of calls began.
#[derive(Debug, Clone, Copy, PartialEq, Eq)]
pub enum Start {
    Sound,
    OneClause,
    Damaged,
    Copied,
    Random(Kind),
}

pub const STARTS: [(Start, &str); 7] = [
    (Start::Sound, "sound, reached by calls"),
    (Start::OneClause, "then one clause of soundness broken"),
    (Start::Damaged, "then bits, words or counts changed"),
    (Start::Copied, "then words copied about"),
    (Start::Random(Kind::AllBits), "random: all bits"),
    (Start::Random(Kind::FewBits), "random: few bits"),
    (Start::Random(Kind::SmallNumbers), "random: small numbers"),
];

/// Calls by start and operation, and answers by start and the refusal's number, 0 if none.
pub struct Counts {
    calls: Vec<Vec<u64>>,
    refusals: Vec<Vec<u64>>,
    /// Answers on sound states, by operation and code.
    answers: Vec<[u64; 8]>,
    /// Sound states that check was asked about.
    pub checked: u64,
    /// Calls on sound states that hold retired values.
    retired: u64,
    /// Loss lists written on sound states, by their words, 0, 1, 2 and more; and those that did not fit.
    written: [u64; 4],
    short: u64,
    /// Demotions counted on sound states, by operation; ranges that counted two; wraps of single_demotions and of range_demotions.
    demotions: Vec<u64>,
    twice: u64,
    wraps: [u64; 2],
    /// Calls by the capacity's exponent.
    windows: [u64; 17],
}

impl Counts {
    pub fn new() -> Self {
        let calls = vec![vec![0; OPERATIONS.len()]; STARTS.len()];
        let refusals = vec![vec![0; REFUSALS as usize + 1]; STARTS.len()];
        let answers = vec![[0; 8]; OPERATIONS.len()];
        let demotions = vec![0; OPERATIONS.len()];
        let (checked, retired, short, twice) = (0, 0, 0, 0);
        Self { calls, refusals, answers, checked, retired, written: [0; 4], short, demotions, twice, wraps: [0; 2], windows: [0; 17] }
    }

    pub fn total(&self) -> u64 {
        self.calls.iter().flatten().sum()
    }

    pub fn note(&mut self, start: Start, call: &Call, step: &NumberedStep) {
        let at = STARTS.iter().position(|&(other, _)| other == start).expect("a start of the table");
        let operation = OPERATIONS.iter().position(|other| std::ptr::eq(other, call.operation)).expect("a call of the table");
        self.calls[at][operation] += 1;
        self.refusals[at][refused(step.answer).unwrap_or(0) as usize] += 1;
        if start == Start::Sound {
            self.answers[operation][step.answer.code as usize] += 1;
            self.retired += u64::from(call.header.retired_held > 0);
            if call.operation.writes_losses() {
                self.note_report(step);
            }
            if call.operation.most_demotions() != [0, 0] {
                self.note_demotions(operation, call.header, step.window);
            }
        }
        let window_size = call.header.window_size.clamp(1, LARGEST_WINDOW);
        self.windows[capacity(window_size).ilog2() as usize] += 1;
    }

    fn note_report(&mut self, step: &NumberedStep) {
        match refused(step.answer) {
            None => self.written[step.answer.first.min(3) as usize] += 1,
            Some(SHORT_LIST) => self.short += 1,
            Some(_) => (),
        }
    }

    fn note_demotions(&mut self, operation: usize, before: Header, after: Header) {
        let counted = demotions_counted(before, after);
        self.demotions[operation] += counted.iter().sum::<u64>();
        self.twice += u64::from(counted[1] == 2);
        self.wraps[0] += u64::from(after.single_demotions < before.single_demotions);
        self.wraps[1] += u64::from(after.range_demotions < before.range_demotions);
    }

    /// A start, a call, a refusal, an answer or a demotion that was never met.
    pub fn missing(&self) -> Option<String> {
        for (operation, answers) in OPERATIONS.iter().zip(&self.answers) {
            if let Some(code) = operation.codes.iter().find(|&&code| answers[code as usize] == 0) {
                return Some(format!("no {} that answers {code}", operation.name));
            }
        }
        for (at, (_, start)) in STARTS.iter().enumerate() {
            if let Some(operation) = (0..OPERATIONS.len()).find(|&operation| self.calls[at][operation] == 0) {
                return Some(format!("no {} on memory {start}", OPERATIONS[operation].name));
            }
            let unsound = at != 0;
            if let Some(number) = (1..=REFUSALS as usize).find(|&number| self.refusals[at][number] == 0 && (number != 7 || unsound)) {
                return Some(format!("no refusal {number} on memory {start}"));
            }
        }
        if self.short == 0 || self.written.contains(&0) {
            return Some(format!("no loss list on a sound state of 0, 1, 2 or more words, or refused: {:?}, {}", self.written, self.short));
        }
        let mut counted = OPERATIONS.iter().zip(&self.demotions).filter(|(operation, _)| operation.most_demotions() != [0, 0]);
        if let Some((operation, _)) = counted.find(|&(_, &demotions)| demotions == 0) {
            return Some(format!("no demotion by {} on a sound state", operation.name));
        }
        if self.twice == 0 || self.wraps.contains(&0) {
            return Some(format!("no range of two demotions, or no wrap of a count: {}, {:?}", self.twice, self.wraps));
        }
        (self.retired == 0).then(|| "no sound state with retired values".to_string())
    }

    pub fn print(&self) {
        let joined = |row: &[u64]| row.iter().map(u64::to_string).collect::<Vec<_>>().join(" | ");
        println!("| memory | {} | all |", OPERATIONS.iter().map(|operation| operation.name).collect::<Vec<_>>().join(" | "));
        println!("|---|{}---|", "---|".repeat(OPERATIONS.len()));
        for (row, (_, start)) in self.calls.iter().zip(STARTS) {
            println!("| {start} | {} | {} |", joined(row), row.iter().sum::<u64>());
        }
        let numbers: String = (2..=REFUSALS).map(|number| format!(" {number} |")).collect();
        println!("\n| memory | taken | refused 1 |{numbers}\n|---|---|{}", "---|".repeat(REFUSALS as usize));
        for (row, (_, start)) in self.refusals.iter().zip(STARTS) {
            println!("| {start} | {} |", joined(row));
        }
        println!("\n| on sound states | code 0 | 1 | 2 | 3 | 4 | 5 | 6 | 7 |\n|---|---|---|---|---|---|---|---|---|");
        for (answers, operation) in self.answers.iter().zip(OPERATIONS) {
            println!("| {} | {} |", operation.name, joined(answers));
        }
        println!("\n| capacity | calls |\n|---|---|");
        for (power, calls) in self.windows.iter().enumerate().filter(|&(_, &calls)| calls > 0) {
            println!("| {} | {calls} |", 1 << power);
        }
        println!("\n{} calls on sound states that hold retired values, {} states checked", self.retired, self.checked);
        println!("loss lists on sound states of 0, 1, 2 and more words: {:?}, and {} that did not fit", self.written, self.short);
        let demotions = OPERATIONS.iter().zip(&self.demotions).filter(|(operation, _)| operation.most_demotions() != [0, 0]);
        let demotions: Vec<String> = demotions.map(|(operation, demotions)| format!("{demotions} by {}", operation.name)).collect();
        let (twice, [single, range]) = (self.twice, self.wraps);
        println!(
            "demotions on sound states: {}; {twice} ranges of two; single_demotions wrapped {single} times, range_demotions {range}\n",
            demotions.join(", ")
        );
    }
}
