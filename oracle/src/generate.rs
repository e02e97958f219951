//! Writes a seeded call file for the line program to standard output.
//!
//! `generate SEED CALLS [--large|--small] [--pairs] [--strangers] [--clean]`
//!
//! `generate SEED CALLS --losses`: a file of loss reports, on windows up to 512
//! (tests/recorded/README.md).

mod calls;
mod line;
mod lists;
mod losses;
mod report;

use calls::{Generator, Item, Options, Random};
use line::Call;
use report::Report;
use std::io::{self, Write};
use std::process::ExitCode;

/// The most sequences that a list is made for.
const LISTED: usize = 24;

struct Arguments {
    seed: u64,
    calls: u32,
    options: Options,
    /// An `l` line after each call.
    pairs: bool,
    /// A `q` line after each call.
    strangers: bool,
    /// Loss reports between the calls.
    losses: bool,
}

fn arguments() -> Option<Arguments> {
    let mut words = std::env::args().skip(1);
    let seed = words.next()?.parse().ok()?;
    let calls = words.next()?.parse().ok()?;
    let mut options = Options::default();
    let mut pairs = false;
    let mut strangers = false;
    let mut losses = false;
    for word in words {
        match word.as_str() {
            "--large" => options.large = true,
            "--small" => options.small = true,
            "--pairs" => pairs = true,
            "--strangers" => strangers = true,
            "--clean" => options.clean = true,
            "--losses" => {
                losses = true;
                (options.small, options.clean) = (true, true);
            }
            _ => return None,
        }
    }
    Some(Arguments {
        seed,
        calls,
        options,
        pairs,
        strangers,
        losses,
    })
}

/// `calls` lines, not counting the `l` and `q` lines that `--pairs` and
/// `--strangers` add. Unless it is clean, one file in four lacks its last line
/// feed.
fn file(arguments: &Arguments) -> Vec<u8> {
    let Arguments {
        seed,
        calls,
        options,
        pairs,
        strangers,
        losses,
    } = *arguments;
    let mut generator = Generator::new(seed, calls, options);
    let mut random = Random::new(!seed);
    let mut file = Vec::new();
    for _ in 0..calls {
        let item = generator.next();
        push_line(&mut file, &item);
        if pairs && matches!(item, Item::Call(_)) {
            push_line(&mut file, &Item::Call(Call::Iter));
        }
        if strangers && matches!(item, Item::Call(_)) {
            let call = generator.stranger();
            push_line(&mut file, &Item::Call(call));
        }
        if losses && random.percent(3) {
            generator.lossy_run();
        }
        if losses && random.percent(40) {
            writeln!(file, "{}", report(&mut generator, &mut random).line())
                .expect("a vector takes all");
        }
    }
    if !options.clean && random.percent(25) {
        file.pop();
    }
    file
}

/// A report, in half of the cases one that reads a list. Of a long range, the
/// list is one of its first sequences.
fn report(generator: &mut Generator, random: &mut Random) -> Report {
    let writes = random.percent(50);
    let (first, last) = match writes || random.percent(20) {
        true => generator.report(),
        false => generator.short_report(),
    };
    if writes {
        return Report::Write { first, last };
    }
    let count = (losses::distance(first, last) + 1).min(LISTED);
    let list = lists::some_list(random, first % losses::TOP_BIT, count);
    Report::Read { first, last, list }
}

fn push_line(file: &mut Vec<u8>, item: &Item) {
    file.extend(item.line());
    file.push(b'\n');
}

fn main() -> ExitCode {
    let Some(arguments) = arguments() else {
        eprintln!("usage: generate SEED CALLS [--large|--small] [--pairs] [--strangers] [--clean] | SEED CALLS --losses");
        return ExitCode::from(2);
    };
    match io::stdout().lock().write_all(&file(&arguments)) {
        Ok(()) => ExitCode::SUCCESS,
        Err(error) => {
            eprintln!("generate: {error}");
            ExitCode::FAILURE
        }
    }
}
