//! Calls of the line program: what a line says, how it is read, how it is
//! written.

// The oracle reads lines and the generator writes them: each uses a part.
#![allow(dead_code)]

/// One well-formed line.
#[derive(Debug, Clone, Copy, PartialEq, Eq)]
pub enum Call {
    New {
        window_size: u32,
        n: u32,
        demote_at: u32,
    },
    Insert {
        sequence: u32,
        value: u32,
    },
    Get(u32),
    Remove(u32),
    SuccessorAfter(u32),
    FirstFrom(u32),
    Exchange {
        sequence: u32,
        value: u32,
    },
    RemoveRange {
        first: u32,
        last: u32,
    },
    Stranger {
        first: u32,
        last: u32,
    },
    ClearBounded(u32),
    ReleaseRetired(u32),
    Clear,
    Iter,
    SetBase(u32),
    TakeFront,
}

/// A field is decimal without leading zeros and at most 4294967295. Anything
/// else, a carriage return included, is none.
fn number(field: &[u8]) -> Option<u32> {
    if field.is_empty() || (field[0] == b'0' && field.len() > 1) {
        return None;
    }
    field.iter().try_fold(0u32, |number, &byte| {
        if !byte.is_ascii_digit() {
            return None;
        }
        number.checked_mul(10)?.checked_add(u32::from(byte - b'0'))
    })
}

impl Call {
    /// Read a line without its line feed. `None` where document 01 prints `?`
    /// whatever the state is.
    pub fn read(line: &[u8]) -> Option<Self> {
        let mut parts = line.split(|&byte| byte == b'\t');
        let &[letter] = parts.next()? else {
            return None;
        };
        let fields = parts.map(number).collect::<Option<Vec<u32>>>()?;
        Some(match (letter, fields.as_slice()) {
            (b'n', &[window_size, n, demote_at]) => Self::New {
                window_size,
                n,
                demote_at,
            },
            (b'i', &[sequence, value]) => Self::Insert { sequence, value },
            (b'g', &[sequence]) => Self::Get(sequence),
            (b'r', &[sequence]) => Self::Remove(sequence),
            (b's', &[sequence]) => Self::SuccessorAfter(sequence),
            (b'f', &[sequence]) => Self::FirstFrom(sequence),
            (b'e', &[sequence, value]) => Self::Exchange { sequence, value },
            (b'd', &[first, last]) => Self::RemoveRange { first, last },
            (b'q', &[first, last]) => Self::Stranger { first, last },
            (b'b', &[number]) => Self::ClearBounded(number),
            (b'v', &[number]) => Self::ReleaseRetired(number),
            (b'c', &[]) => Self::Clear,
            (b'l', &[]) => Self::Iter,
            (b'a', &[base]) => Self::SetBase(base),
            (b't', &[]) => Self::TakeFront,
            _ => return None,
        })
    }

    pub fn letter(&self) -> char {
        match self {
            Self::New { .. } => 'n',
            Self::Insert { .. } => 'i',
            Self::Get(_) => 'g',
            Self::Remove(_) => 'r',
            Self::SuccessorAfter(_) => 's',
            Self::FirstFrom(_) => 'f',
            Self::Exchange { .. } => 'e',
            Self::RemoveRange { .. } => 'd',
            Self::Stranger { .. } => 'q',
            Self::ClearBounded(_) => 'b',
            Self::ReleaseRetired(_) => 'v',
            Self::Clear => 'c',
            Self::Iter => 'l',
            Self::SetBase(_) => 'a',
            Self::TakeFront => 't',
        }
    }

    fn fields(&self) -> Vec<u32> {
        match *self {
            Self::New {
                window_size,
                n,
                demote_at,
            } => vec![window_size, n, demote_at],
            Self::Insert { sequence, value } | Self::Exchange { sequence, value } => {
                vec![sequence, value]
            }
            Self::RemoveRange { first, last } | Self::Stranger { first, last } => {
                vec![first, last]
            }
            Self::Get(number)
            | Self::Remove(number)
            | Self::SuccessorAfter(number)
            | Self::FirstFrom(number)
            | Self::ClearBounded(number)
            | Self::ReleaseRetired(number)
            | Self::SetBase(number) => vec![number],
            Self::Clear | Self::Iter | Self::TakeFront => Vec::new(),
        }
    }

    /// The call with another number in place of each sequence, first and last.
    /// A base is none of these.
    pub fn map_sequences(self, mut other: impl FnMut(u32) -> u32) -> Self {
        match self {
            Self::Insert { sequence, value } => Self::Insert {
                sequence: other(sequence),
                value,
            },
            Self::Exchange { sequence, value } => Self::Exchange {
                sequence: other(sequence),
                value,
            },
            Self::Get(sequence) => Self::Get(other(sequence)),
            Self::Remove(sequence) => Self::Remove(other(sequence)),
            Self::SuccessorAfter(sequence) => Self::SuccessorAfter(other(sequence)),
            Self::FirstFrom(sequence) => Self::FirstFrom(other(sequence)),
            Self::RemoveRange { first, last } => Self::RemoveRange {
                first: other(first),
                last: other(last),
            },
            Self::Stranger { first, last } => Self::Stranger {
                first: other(first),
                last: other(last),
            },
            Self::New { .. }
            | Self::ClearBounded(_)
            | Self::ReleaseRetired(_)
            | Self::Clear
            | Self::Iter
            | Self::SetBase(_)
            | Self::TakeFront => self,
        }
    }

    /// Whether a sequence, first or last is 2147483648 or more.
    pub fn has_wide_sequence(self) -> bool {
        self.map_sequences(|number| number & (u32::MAX >> 1)) != self
    }

    /// The line of this call, without its line feed.
    pub fn line(&self) -> String {
        let mut line = String::from(self.letter());
        for field in self.fields() {
            line.push('\t');
            line.push_str(&field.to_string());
        }
        line
    }
}
