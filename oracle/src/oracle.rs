//! The line program of documents 01 and 02 over the unchanged source.
//!
//! Reads calls from standard input, writes one line of answer for each.
//! `--large` lifts the limit of 4096 on window_size. `--words` writes in place
//! of each answer the window's whole state after the line (`-` if there is none).
//! `--losses` reads a file of loss reports (tests/recorded/README.md) and writes
//! its lines again, each report with its answer.

/// The source's work counters stay out.
macro_rules! count_work {
    ($($counter:tt)*) => {};
}

mod line;
mod losses;
mod reference;
mod report;
mod state;
mod value;
#[path = "../target/window.rs"]
mod window;

use line::Call;
use reference::{call_and_drops, fresh, Answer, Window};
use report::{answer_text, list_text, lost_text, Report};
use std::fmt::Write as _;
use std::io::{self, Read, Write as _};
use std::process::ExitCode;

const LARGEST_WINDOW: u32 = 4096;

/// What is written for a line.
#[derive(Clone, Copy)]
enum Output {
    Answers,
    States,
    Reports,
}

struct Program {
    largest_window: u32,
    window: Option<Box<dyn Window>>,
}

impl Program {
    /// The answer to one line, without its line feed.
    fn answer(&mut self, line: &[u8]) -> String {
        Call::read(line)
            .and_then(|call| self.answer_call(call))
            .unwrap_or_else(|| "?".to_string())
    }

    fn answer_call(&mut self, call: Call) -> Option<String> {
        let (answer, dropped) = match call {
            Call::New {
                window_size,
                n,
                demote_at,
            } => (self.renew(window_size, n, demote_at)?, Vec::new()),
            _ => call_and_drops(self.window.as_deref_mut()?, call),
        };
        Some(written(call.letter(), &answer, self.counts(), &dropped))
    }

    /// What an accepted new drops of the window before it is not printed: new
    /// has no return list.
    fn renew(&mut self, window_size: u32, n: u32, demote_at: u32) -> Option<Answer> {
        if window_size > self.largest_window {
            return None;
        }
        Some(match fresh(window_size, n, demote_at) {
            Ok(window) => {
                self.window = Some(window);
                Answer::Nothing
            }
            Err(refusal) => Answer::Refused(refusal),
        })
    }

    /// A line of a file of loss reports: a report with its answer, another line
    /// as it is, with its call made.
    fn reported(&mut self, line: &[u8]) -> io::Result<String> {
        let text = String::from_utf8_lossy(line);
        if let Some((report, _)) = Report::read(&text) {
            let answer = self.report(&report).ok_or(io::ErrorKind::InvalidData)?;
            return Ok(format!("{}\t{answer}", report.line()));
        }
        if !line.starts_with(b"#") && self.answer(line) == "?" {
            return Err(io::Error::new(
                io::ErrorKind::InvalidData,
                format!("no call, no report: {text}"),
            ));
        }
        Ok(text.into_owned())
    }

    fn report(&self, report: &Report) -> Option<String> {
        let window = self.window.as_deref()?;
        let size = window.window_size();
        Some(match report {
            Report::Write { first, last } => {
                let lost = losses::lost(size, *first, *last, |sequence| window.is_live(sequence));
                answer_text(lost, |lost| list_text(&losses::words(*first, &lost)))
            }
            Report::Read { first, last, list } => {
                answer_text(losses::read(size, *first, *last, list), |lost| {
                    lost_text(&lost)
                })
            }
        })
    }

    fn state(&self) -> String {
        self.window
            .as_deref()
            .map_or_else(|| "-".to_string(), state::written)
    }

    /// Len, retired_held, promotions and demotions; 0 with no window.
    fn counts(&self) -> [u64; 4] {
        self.window
            .as_ref()
            .map_or([0; 4], |window| window.counts())
    }
}

fn written(letter: char, answer: &Answer, counts: [u64; 4], dropped: &[u32]) -> String {
    let mut line = format!("{letter}\t{}", written_answer(answer));
    for count in counts {
        write!(line, "\t{count}").expect("a string takes all");
    }
    for value in dropped {
        write!(line, "\t{value}").expect("a string takes all");
    }
    if let Answer::Pairs(pairs) = answer {
        for (sequence, value) in pairs {
            write!(line, "\t{sequence}:{value}").expect("a string takes all");
        }
    }
    line
}

fn written_answer(answer: &Answer) -> String {
    match answer {
        Answer::Nothing => ".".to_string(),
        Answer::Inserted => "+".to_string(),
        Answer::Replaced(old) => format!("={old}"),
        Answer::Absent => "-".to_string(),
        Answer::Refused(refusal) => format!("!{refusal}"),
        Answer::Number(number) => number.to_string(),
        Answer::Released { released, units } => format!("{released}:{units}"),
        Answer::Pair { sequence, .. } => sequence.to_string(),
        Answer::Pairs(pairs) => pairs.len().to_string(),
    }
}

/// The lines of the input. The last may lack its line feed; nothing after the
/// last line feed is no line.
fn lines(input: &[u8]) -> impl Iterator<Item = &[u8]> {
    input
        .split_inclusive(|&byte| byte == b'\n')
        .map(|line| line.strip_suffix(b"\n").unwrap_or(line))
}

fn run(largest_window: u32, wanted: Output) -> io::Result<()> {
    let mut input = Vec::new();
    io::stdin().lock().read_to_end(&mut input)?;
    let mut output = io::BufWriter::new(io::stdout().lock());
    let mut program = Program {
        largest_window,
        window: None,
    };
    for line in lines(&input) {
        let written = match wanted {
            Output::Reports => program.reported(line)?,
            Output::Answers => program.answer(line),
            Output::States => {
                program.answer(line);
                program.state()
            }
        };
        writeln!(output, "{written}")?;
    }
    output.flush()
}

fn main() -> ExitCode {
    let (mut largest_window, mut wanted) = (LARGEST_WINDOW, Output::Answers);
    for argument in std::env::args().skip(1) {
        match argument.as_str() {
            "--large" => largest_window = u32::MAX,
            "--words" => wanted = Output::States,
            "--losses" => wanted = Output::Reports,
            _ => {
                eprintln!("usage: oracle [--large] [--words|--losses] < calls");
                return ExitCode::from(2);
            }
        }
    }
    match run(largest_window, wanted) {
        Ok(()) => ExitCode::SUCCESS,
        Err(error) => {
            eprintln!("oracle: {error}");
            ExitCode::FAILURE
        }
    }
}
