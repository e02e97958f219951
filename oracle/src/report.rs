//! Loss reports as lines among the calls of a file (tests/recorded/README.md):
//! how a line is read, how it is written.

// The oracle, the generator and the tests use a part each.
#![allow(dead_code)]

/// What is asked for.
#[derive(Debug, Clone, PartialEq, Eq)]
pub enum Report {
    /// The list of the losses from first to last.
    Write { first: u32, last: u32 },
    /// What a list says of them.
    Read {
        first: u32,
        last: u32,
        list: Vec<u32>,
    },
}

impl Report {
    /// A line without its line feed; and the answer at its end, if it has one.
    pub fn read(line: &str) -> Option<(Self, Option<&str>)> {
        let fields: Vec<&str> = line.split('\t').collect();
        let (report, rest) = match fields[..] {
            ["write", first, last, ref rest @ ..] => (
                Self::Write {
                    first: first.parse().ok()?,
                    last: last.parse().ok()?,
                },
                rest,
            ),
            ["read", first, last, list, ref rest @ ..] => (
                Self::Read {
                    first: first.parse().ok()?,
                    last: last.parse().ok()?,
                    list: list_read(list)?,
                },
                rest,
            ),
            _ => return None,
        };
        match *rest {
            [] => Some((report, None)),
            [answer] => Some((report, Some(answer))),
            _ => None,
        }
    }

    /// Its line, without answer and line feed.
    pub fn line(&self) -> String {
        match self {
            Self::Write { first, last } => format!("write\t{first}\t{last}"),
            Self::Read { first, last, list } => {
                format!("read\t{first}\t{last}\t{}", list_text(list))
            }
        }
    }
}

/// The words of a list parted by spaces; `-` for none.
pub fn list_text(list: &[u32]) -> String {
    match list {
        [] => "-".to_string(),
        _ => list
            .iter()
            .map(u32::to_string)
            .collect::<Vec<String>>()
            .join(" "),
    }
}

fn list_read(text: &str) -> Option<Vec<u32>> {
    match text {
        "-" => Some(Vec::new()),
        _ => text.split(' ').map(|word| word.parse().ok()).collect(),
    }
}

/// A digit for each sequence: 1 if it is lost, 0 if not.
pub fn lost_text(lost: &[bool]) -> String {
    lost.iter()
        .map(|&lost| if lost { '1' } else { '0' })
        .collect()
}

/// An answer, or a refusal as the line program writes it.
pub fn answer_text<T>(answer: Result<T, u32>, text: impl Fn(T) -> String) -> String {
    answer.map_or_else(|refusal| format!("!{refusal}"), text)
}
