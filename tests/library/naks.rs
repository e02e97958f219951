//! The loss report on real SRT traffic: the sequences of every NAK are those that the library lists for its span.
//!
//! Each arrival is inserted, on the library and on the source. At each NAK the list of the sequences from its first to its last names
//! what the NAK names, is the one that nak-vectors.txt has for S-4, and is what the source's get says. libsrt writes a run of exactly two
//! as a range; so the NAK itself is read as the same losses if its list is the library's, and refused 12 if not.

use crate::calls::Random;
use crate::library::Library;
use crate::line::Call;
use crate::losses;
use crate::reference::{call_and_drops, fresh, Window};
use crate::reports::{due_bytes, due_words, Reporter};
use crate::traffic::{self, add, hexadecimal, Event, WINDOW_SIZE};

/// A NAK: its words, and those of S-4 for its span.
struct Vector {
    nak: Vec<u32>,
    words: Vec<u32>,
}

type Connection = traffic::Connection<Vector>;

/// A line of nak-vectors.txt: the connection's name, and the vector.
fn vector(line: &str) -> Option<(&str, Vector)> {
    let fields: Vec<&str> = line.split('\t').collect();
    let &[name, _, _, _, _, nak, words, _] = &fields[..] else {
        return None;
    };
    let nak = hexadecimal(nak)?;
    let words = if words == "=" { nak.clone() } else { hexadecimal(words)? };
    Some((name, Vector { nak, words }))
}

fn connections(folder: &str) -> Result<Vec<Connection>, String> {
    traffic::connections(folder, "nak-vectors.txt", vector)
}

#[derive(Default)]
struct Counts {
    naks: u64,
    lost: usize,
    wrapped: u64,
    runs_of_two: u64,
}

/// A window on both.
struct Both {
    source: Box<dyn Window>,
    library: Library,
}

impl Both {
    fn new(random: &mut Random) -> Result<Self, String> {
        let source = fresh(WINDOW_SIZE, 8, 4).map_err(|refusal| format!("refusal {refusal}"))?;
        Ok(Self { source, library: Library::new(random, WINDOW_SIZE, 8, 4)? })
    }

    fn insert(&mut self, sequence: u32) -> Result<(), String> {
        let call = Call::Insert { sequence, value: !sequence };
        let (answer, dropped) = call_and_drops(self.source.as_mut(), call);
        self.library.call(call, false, &answer, &dropped)
    }

    /// What a NAK names is what is not live from its first sequence to its last.
    fn reports(&mut self, counts: &mut Counts, Vector { nak, words }: &Vector) -> Result<(), String> {
        let (first, last) = (nak[0] % losses::TOP_BIT, nak[nak.len() - 1]);
        let lost = losses::lost(WINDOW_SIZE, first, last, |sequence| self.source.is_live(sequence));
        let lost = lost.map_err(|refusal| format!("refusal {refusal}"))?;
        let named = losses::named(first, lost.len(), nak);
        if named != lost || losses::words(first, &lost) != *words {
            return Err(format!("the NAK {nak:x?} does not name what is lost from {first} to {last}"));
        }
        let reporter = &mut Reporter { wrong: None };
        let (ends, bytes) = ([first, last], vec![9; lost.len()]);
        reporter.write(&mut self.library, &vec![9; words.len() + 1], ends, &due_words(Ok(words.clone())), None)?;
        reporter.read(&mut self.library, words, &bytes, ends, &due_bytes(Ok(named.clone())), None)?;
        let read = if nak == words { Ok(named) } else { Err(12) };
        reporter.read(&mut self.library, nak, &bytes, ends, &due_bytes(read), None)?;
        counts.naks += 1;
        counts.lost += lost.iter().filter(|&&lost| lost).count();
        counts.wrapped += u64::from(last < first);
        counts.runs_of_two += u64::from(nak != words);
        Ok(())
    }
}

fn run(connection: &Connection, counts: &mut Counts) -> Result<(), String> {
    let mut both = Both::new(&mut Random::new(1))?;
    let mut vectors = connection.vectors.iter();
    for event in &connection.events {
        match event {
            Event::Data(sequence) => both.insert(*sequence)?,
            Event::Nak(words) => match vectors.next() {
                Some(vector) if vector.nak == *words => both.reports(counts, vector)?,
                _ => return Err(format!("the NAK {words:x?} is not that of nak-vectors.txt")),
            },
            Event::Ack(_) | Event::Taken(_) => (),
        }
    }
    if vectors.next().is_some() { Err("fewer NAKs than in nak-vectors.txt".to_string()) } else { Ok(()) }
}

pub fn all(folder: &str) -> Result<String, String> {
    let (connections, mut counts) = (connections(folder)?, Counts::default());
    for connection in &connections {
        run(connection, &mut counts).map_err(|why| format!("{}: {why}", connection.name))?;
    }
    let Counts { naks, lost, wrapped, runs_of_two } = counts;
    if connections.len() < 8 || wrapped == 0 || runs_of_two == 0 || runs_of_two == naks {
        return Err("fewer than 8 connections, no NAK over the wrap, none with a run of two, or none without".to_string());
    }
    Ok(format!(
        "{naks} NAKs of {} connections name what the report does, {lost} losses, {wrapped} over the wrap, {runs_of_two} with a run of two as a range",
        connections.len(),
    ))
}

/// One thing wrong at the first NAK of a connection.
#[derive(Debug, Clone, Copy)]
enum Wrong {
    /// Its first sequence has arrived.
    Arrived,
    /// It names the sequences one further on, of which the last has arrived.
    AnotherSequence,
    /// S-4's words for it are one more.
    AnotherWord,
}

impl Wrong {
    fn of(self, mut connection: Connection) -> Result<Connection, String> {
        let Vector { nak, words } = &mut connection.vectors[0];
        let at = connection.events.iter().position(|event| *event == Event::Nak(nak.clone())).ok_or("no NAK")?;
        match self {
            Wrong::Arrived => connection.events.insert(at, Event::Data(nak[0] % losses::TOP_BIT)),
            Wrong::AnotherSequence => {
                let further = |word: &u32| word & losses::TOP_BIT | add(*word, 1);
                *nak = nak.iter().map(further).collect();
                *words = words.iter().map(further).collect();
                connection.events[at] = Event::Nak(nak.clone());
            }
            Wrong::AnotherWord => words.push(add(nak[nak.len() - 1], 2)),
        }
        Ok(connection)
    }
}

/// How many wrong connections there are, each noticed.
pub fn self_test(folder: &str) -> Result<u64, String> {
    let mut noticed = 0;
    for wrong in [Wrong::Arrived, Wrong::AnotherSequence, Wrong::AnotherWord] {
        for connection in connections(folder)? {
            let connection = wrong.of(connection)?;
            match run(&connection, &mut Counts::default()) {
                Err(why) if why.contains("does not name what is lost") => noticed += 1,
                other => return Err(format!("{}, {wrong:?}: {other:?}", connection.name)),
            }
        }
    }
    Ok(noticed)
}
