//! Calls for tests/bench/instructions to count: `instructions WORK SUBJECT`.

/// The source's work counters stay out.
macro_rules! count_work {
    ($($counter:tt)*) => {};
}

#[allow(dead_code)] // the comparison uses the rest
#[path = "../library/declared.rs"]
mod declared;
#[allow(dead_code)] // bench.rs uses the rest
mod subjects;
#[allow(dead_code)] // the oracle uses the rest
#[path = "../../oracle/target/window.rs"]
mod window;

use subjects::{Called, Host, Library, Window};

const SIZE: u32 = 4096;
/// Calls of a kind.
const CALLS: u32 = SIZE;
const VISIT: u32 = 256;

/// Packets inserted in order, each removed when it is half a window behind.
fn in_order(mut w: impl Window) -> u64 {
    let lag = SIZE / 2;
    let mut sum = 0;
    for sequence in 0..CALLS + lag {
        if sequence < CALLS {
            sum ^= w.insert(sequence, sequence);
        }
        if sequence >= lag {
            sum ^= w.remove(sequence - lag);
        }
    }
    sum
}

/// The values of every second position.
fn get(mut w: impl Window) -> u64 {
    for sequence in (0..SIZE).step_by(2) {
        w.insert(sequence, sequence);
    }
    (0..CALLS).fold(0, |sum, sequence| sum ^ w.get(2 * sequence % SIZE))
}

/// Visits with nothing retired.
fn none_retired(mut w: impl Window) -> u64 {
    (0..CALLS).fold(0, |sum, _| sum ^ w.release_retired(VISIT))
}

fn work(name: &str, w: impl Window) -> u64 {
    match name {
        "in-order" => in_order(w),
        "get" => get(w),
        "none-retired" => none_retired(w),
        _ => panic!("no such work: {name}"),
    }
}

fn main() {
    let arguments: Vec<String> = std::env::args().skip(1).collect();
    let [name, subject] = &arguments[..] else {
        panic!("usage: instructions WORK SUBJECT");
    };
    let sum = match subject.as_str() {
        "host" => work(name, Host::new(SIZE)),
        "library" => work(name, Library::new(SIZE)),
        "source" => work(name, Called::new(SIZE)),
        _ => panic!("no such subject: {subject}"),
    };
    println!("{CALLS} {sum:x}");
}
