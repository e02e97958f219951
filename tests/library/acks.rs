//! Request S-1's point on real SRT traffic, on the static library and on the source, in one process.
//!
//! `acks FOLDER`: the connections of FOLDER, arrivals-*.txt and ack-vectors.txt (its README.md). Each call is made on both, and answers and
//! headers compared. The base is set to the first sequence, each arrival is inserted, and the point must be the number of every ACK; the
//! base is set past numbers that the receiver gave up. Once more with the front taken for what each ACK covers. And each vector by
//! itself: what had been received when the ACK was sent, the last first.
//!
//! `acks FOLDER --self-test`: the same with one thing wrong in each connection, which must be noticed.

/// The source's work counters stay out.
macro_rules! count_work {
    ($($counter:tt)*) => {};
}

#[allow(dead_code)] // the generator uses the rest
#[path = "../../oracle/src/calls.rs"]
mod calls;
#[allow(dead_code)] // the comparison with the source uses the rest
mod declared;
#[allow(dead_code)]
mod library;
#[path = "../../oracle/src/line.rs"]
mod line;
#[allow(dead_code)] // those with seeds use the rest
mod program;
#[allow(dead_code)]
#[path = "../../oracle/src/reference.rs"]
mod reference;
mod traffic;
#[path = "../../oracle/src/value.rs"]
mod value;
#[path = "../../oracle/target/window.rs"]
mod window;

use calls::Random;
use library::Library;
use line::Call;
use program::ended;
use reference::{call_and_drops, fresh, Answer, Window};
use std::process::ExitCode;
use traffic::{add, distance, Event, LAST, WINDOW_SIZE};

/// An ACK, and what had been received: first and last, as offsets from the first sequence.
struct Vector {
    first: u32,
    number: u32,
    given_up: bool,
    received: Vec<(u32, u32)>,
}

/// A line of ack-vectors.txt: the connection's name, and the vector.
fn vector(line: &str) -> Option<(&str, Vector)> {
    let fields: Vec<&str> = line.split('\t').collect();
    let &[name, _, first, number, _, class, received] = &fields[..] else {
        return None;
    };
    let span = |span: &str| {
        let (first, last) = span.split_once('-').unwrap_or((span, span));
        Some((first.parse().ok()?, last.parse().ok()?))
    };
    let received = received.split(',').map(span).collect::<Option<Vec<(u32, u32)>>>()?;
    Some((name, Vector { first: first.parse().ok()?, number: number.parse().ok()?, given_up: class == "givenup", received }))
}

type Connection = traffic::Connection<Vector>;

fn connections(folder: &str) -> Result<Vec<Connection>, String> {
    traffic::connections(folder, "ack-vectors.txt", vector)
}

#[derive(Default)]
struct Counts {
    calls: u64,
    acks: u64,
    given_up: u64,
    fronts: u64,
    wrapped: u64,
}

/// A window on both.
struct Both<'c> {
    source: Box<dyn Window>,
    library: Library,
    counts: &'c mut Counts,
}

impl<'c> Both<'c> {
    fn new(random: &mut Random, counts: &'c mut Counts, first: u32) -> Result<Self, String> {
        let source = fresh(WINDOW_SIZE, 8, 4).map_err(|refusal| format!("refusal {refusal}"))?;
        let mut both = Self { source, library: Library::new(random, WINDOW_SIZE, 8, 4)?, counts };
        both.call(Call::SetBase(first))?;
        Ok(both)
    }

    fn call(&mut self, call: Call) -> Result<Answer, String> {
        let (answer, dropped) = call_and_drops(self.source.as_mut(), call);
        self.library.call(call, false, &answer, &dropped)?;
        self.counts.calls += 1;
        self.library.differs(self.source.as_ref(), 0..0).map_or(Ok(answer), Err)
    }

    fn base(&self) -> u32 {
        self.library.parts().0.base
    }

    fn insert(&mut self, sequence: u32) -> Result<(), String> {
        match self.call(Call::Insert { sequence, value: !sequence })? {
            Answer::Inserted | Answer::Replaced(_) => Ok(()),
            other => Err(format!("insert {sequence} answers {other:?}")),
        }
    }

    /// The point is the number of the ACK.
    fn acknowledges(&mut self, number: u32) -> Result<(), String> {
        let header = self.library.parts().0;
        self.counts.acks += 1;
        self.counts.wrapped += u64::from(number < header.base);
        if header.point == number {
            return Ok(());
        }
        Err(format!("the point is {}, the ACK's number {number}", header.point))
    }

    /// The base moved to a sequence by taking the front; what never came is passed over.
    fn take_to(&mut self, sequence: u32) -> Result<(), String> {
        while self.base() != sequence {
            let base = self.base();
            match self.call(Call::TakeFront)? {
                Answer::Number(value) if value == !base => self.counts.fronts += 1,
                Answer::Absent => {
                    self.counts.given_up += 1;
                    self.call(Call::SetBase(add(base, 1)))?;
                }
                other => return Err(format!("the front at {base} is {other:?}")),
            }
        }
        Ok(())
    }
}

impl Connection {
    fn first(&self) -> u32 {
        self.vectors[0].first
    }

    /// The events in their order. Values stay, or the front is taken for what each ACK covers.
    fn run(&self, random: &mut Random, counts: &mut Counts, taking: bool) -> Result<(), String> {
        let mut both = Both::new(random, counts, self.first())?;
        for event in &self.events {
            let ahead = |sequence: u32, both: &Both| distance(both.base(), sequence) < LAST / 2;
            match *event {
                Event::Nak(_) => (),
                // A receiver that has taken the front inserts nothing before it.
                Event::Data(sequence) if taking && !ahead(sequence, &both) => (),
                Event::Data(sequence) => both.insert(sequence)?,
                Event::Ack(number) => {
                    both.acknowledges(number)?;
                    if taking {
                        both.take_to(number)?;
                        both.acknowledges(number)?;
                    }
                }
                Event::Taken(sequence) if !ahead(sequence, &both) => (),
                Event::Taken(sequence) if taking => both.take_to(sequence)?,
                Event::Taken(sequence) => {
                    both.call(Call::SetBase(sequence))?;
                }
            }
        }
        Ok(())
    }

    /// The ACKs of the events are those of the vectors.
    fn same_acks(&self) -> Result<(), String> {
        let acks = self.events.iter().filter_map(|event| if let Event::Ack(number) = event { Some(*number) } else { None });
        if acks.eq(self.vectors.iter().map(|vector| vector.number)) {
            return Ok(());
        }
        Err("other ACKs than in ack-vectors.txt".to_string())
    }
}

impl Vector {
    /// What had been received, the last first. The base is set past what was given up: the last number missing before the ACK's.
    fn run(&self, random: &mut Random, counts: &mut Counts) -> Result<(), String> {
        let mut both = Both::new(random, counts, self.first)?;
        for &(first, last) in self.received.iter().rev() {
            for offset in (first..=last).rev() {
                both.insert(add(self.first, offset))?;
            }
        }
        if self.given_up {
            let passed = distance(self.first, self.number);
            let base = self.received.iter().map(|&(first, _)| first).filter(|&first| first < passed).max();
            both.call(Call::SetBase(add(self.first, base.unwrap_or(passed))))?;
        }
        both.acknowledges(self.number)
    }
}

fn all(connections: &[Connection]) -> Result<String, String> {
    let mut random = Random::new(1);
    let [mut kept, mut taken, mut alone] = [(); 3].map(|()| Counts::default());
    for connection in connections {
        let named = |why: String| format!("{}: {why}", connection.name);
        connection.same_acks().map_err(named)?;
        connection.run(&mut random, &mut kept, false).map_err(|why| named(format!("values kept: {why}")))?;
        connection.run(&mut random, &mut taken, true).map_err(|why| named(format!("the front taken: {why}")))?;
        for vector in &connection.vectors {
            vector.run(&mut random, &mut alone).map_err(|why| named(format!("ACK {}: {why}", vector.number)))?;
        }
    }
    if connections.len() < 8 || kept.wrapped == 0 || taken.fronts == 0 || taken.given_up == 0 || alone.acks != kept.acks {
        return Err("fewer than 8 connections, no wrap, no front taken, nothing given up, or other ACKs alone".to_string());
    }
    Ok(format!(
        "{} ACKs of {} connections, each the point, {} of them after a wrap; {} fronts taken, {} numbers given up; {} calls as the source",
        kept.acks, connections.len(), kept.wrapped, taken.fronts, taken.given_up, kept.calls + taken.calls + alone.calls,
    ))
}

/// One thing wrong at the first ACK of a connection.
#[derive(Debug, Clone, Copy)]
enum Wrong {
    /// The arrival before its number is left out.
    LeftOut,
    /// Its number itself has arrived.
    TooEarly,
    /// It carries the next number.
    AnotherNumber,
    /// The base is one before the first sequence.
    AnotherBase,
}

impl Wrong {
    fn of(self, mut connection: Connection) -> Result<Connection, String> {
        let number = connection.vectors[0].number;
        let at = connection.events.iter().position(|event| *event == Event::Ack(number)).ok_or("no ACK")?;
        match self {
            Wrong::LeftOut => connection.events.retain(|event| *event != Event::Data(add(number, LAST))),
            Wrong::TooEarly => connection.events.insert(at, Event::Data(number)),
            Wrong::AnotherNumber => connection.events[at] = Event::Ack(add(number, 1)),
            Wrong::AnotherBase => connection.vectors[0].first = add(connection.vectors[0].first, LAST),
        }
        Ok(connection)
    }
}

fn self_test(folder: &str) -> Result<String, String> {
    let mut noticed = 0;
    for wrong in [Wrong::LeftOut, Wrong::TooEarly, Wrong::AnotherNumber, Wrong::AnotherBase] {
        for connection in connections(folder)? {
            let connection = wrong.of(connection)?;
            for taking in [false, true] {
                match connection.run(&mut Random::new(1), &mut Counts::default(), taking) {
                    Err(why) if why.starts_with("the point is") => noticed += 1,
                    other => return Err(format!("{}, {wrong:?}, front taken {taking}: {other:?}", connection.name)),
                }
            }
        }
    }
    Ok(format!("{noticed} wrong connections, each noticed"))
}

fn run(arguments: &[String]) -> Result<String, String> {
    match &arguments.iter().map(String::as_str).collect::<Vec<_>>()[..] {
        [folder] => all(&connections(folder)?),
        [folder, "--self-test"] => self_test(folder),
        _ => Err("arguments: FOLDER [--self-test]".to_string()),
    }
}

fn main() -> ExitCode {
    let arguments: Vec<String> = std::env::args().skip(1).collect();
    ended(run(&arguments))
}
