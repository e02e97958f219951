//! Real SRT traffic (../shared/data/srt, its README.md): the connections with their events and the vectors that a file has for them.

use std::fs;

/// More than a connection has sequences, so that none of them share a position.
pub const WINDOW_SIZE: u32 = 4096;
pub const LAST: u32 = u32::MAX >> 1;

pub fn add(sequence: u32, steps: u32) -> u32 {
    sequence.wrapping_add(steps) & LAST
}

pub fn distance(from: u32, to: u32) -> u32 {
    to.wrapping_sub(from) & LAST
}

#[derive(Debug, Clone, PartialEq, Eq)]
pub enum Event {
    Data(u32),
    Ack(u32),
    /// The words of its loss list.
    Nak(Vec<u32>),
    /// Delivered to the application: what has not come before it is given up.
    Taken(u32),
}

pub struct Connection<V> {
    pub name: String,
    pub events: Vec<Event>,
    pub vectors: Vec<V>,
}

/// Numbers in base 16, parted by spaces.
pub fn hexadecimal(text: &str) -> Option<Vec<u32>> {
    text.split(' ').map(|word| u32::from_str_radix(word, 16).ok()).collect()
}

fn event(line: &str) -> Option<Event> {
    let (kind, rest) = line.split_once(' ')?.1.split_once(' ')?;
    let sequence = || hexadecimal(rest.split(' ').next()?).map(|words| words[0]);
    match kind {
        "data" => sequence().map(Event::Data),
        "ack" => sequence().map(Event::Ack),
        "nak" => hexadecimal(rest).map(Event::Nak),
        "taken" => sequence().map(Event::Taken),
        _ => None,
    }
}

/// The connections that the file of vectors names, `vector` being the name and the vector of a line.
pub fn connections<V>(folder: &str, file: &str, vector: impl Fn(&str) -> Option<(&str, V)>) -> Result<Vec<Connection<V>>, String> {
    let read = |file: &str| fs::read_to_string(format!("{folder}/{file}")).map_err(|why| format!("{file}: {why}"));
    let told = read(file)?;
    let lines = told.lines().filter(|line| !line.starts_with('#'));
    let mut connections: Vec<Connection<V>> = Vec::new();
    for line in lines {
        let (name, vector) = vector(line).ok_or_else(|| format!("{file}: {line}"))?;
        if connections.last().is_none_or(|last| last.name != name) {
            let arrivals = read(&format!("arrivals-{name}.txt"))?;
            let events = arrivals.lines().filter(|line| !line.starts_with('#')).filter_map(event).collect();
            connections.push(Connection { name: name.to_string(), events, vectors: Vec::new() });
        }
        connections.last_mut().expect("one was pushed").vectors.push(vector);
    }
    Ok(connections)
}
