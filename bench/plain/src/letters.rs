//! The letters that nodes send to one another, and their bytes in files.

use crate::fields::Fields;
use crate::LONGEST_VALUE;

/// Bytes of a letter: those that may be a value of the log take no memory of their own.
#[derive(Clone, Debug, PartialEq, Eq)]
pub enum Bytes {
    Short { len: u8, bytes: [u8; LONGEST_VALUE] },
    Long(Box<[u8]>),
}

impl Bytes {
    pub fn new(slice: &[u8]) -> Bytes {
        if slice.len() > LONGEST_VALUE {
            return Bytes::Long(slice.into());
        }
        let mut bytes = [0; LONGEST_VALUE];
        bytes[..slice.len()].copy_from_slice(slice);
        Bytes::Short {
            len: slice.len() as u8,
            bytes,
        }
    }

    pub fn as_slice(&self) -> &[u8] {
        match self {
            Bytes::Short { len, bytes } => &bytes[..usize::from(*len)],
            Bytes::Long(bytes) => bytes,
        }
    }
}

#[derive(Clone, Copy, Debug, PartialEq, Eq)]
struct VoteRow {
    place: u64,
    ballot: u64,
    at: u32,
    len: u32,
}

/// Votes as a promise reports them, with all their values in one place.
#[derive(Clone, Debug, Default, PartialEq, Eq)]
pub struct Votes {
    rows: Vec<VoteRow>,
    values: Vec<u8>,
}

/// A vote that is reported.
#[derive(Clone, Copy, Debug, PartialEq, Eq)]
pub struct Vote<'a> {
    pub place: u64,
    pub ballot: u64,
    pub value: &'a [u8],
}

impl Votes {
    pub fn with_capacity(rows: usize, values: usize) -> Votes {
        Votes {
            rows: Vec::with_capacity(rows),
            values: Vec::with_capacity(values),
        }
    }

    pub fn push(&mut self, vote: Vote) {
        self.rows.push(VoteRow {
            place: vote.place,
            ballot: vote.ballot,
            at: self.values.len() as u32,
            len: vote.value.len() as u32,
        });
        self.values.extend_from_slice(vote.value);
    }

    pub fn len(&self) -> usize {
        self.rows.len()
    }

    pub fn is_empty(&self) -> bool {
        self.rows.is_empty()
    }

    pub fn iter(&self) -> impl Iterator<Item = Vote<'_>> {
        self.rows.iter().map(|row| {
            let at = row.at as usize;
            Vote {
                place: row.place,
                ballot: row.ballot,
                value: &self.values[at..at + row.len as usize],
            }
        })
    }

    /// The votes of both, at each place that of the higher ballot.
    pub fn joined(&self, other: &Votes) -> Votes {
        let rows = self.len().max(other.len());
        let mut joined = Votes::with_capacity(rows, self.values.len().max(other.values.len()));
        let mut theirs = other.iter().peekable();
        for own in self.iter() {
            while let Some(vote) = theirs.next_if(|vote| vote.place < own.place) {
                joined.push(vote);
            }
            match theirs.next_if(|vote| vote.place == own.place) {
                Some(vote) if vote.ballot > own.ballot => joined.push(vote),
                _ => joined.push(own),
            }
        }
        theirs.for_each(|vote| joined.push(vote));
        joined
    }
}

#[derive(Clone, Debug, PartialEq, Eq)]
pub enum Note {
    Prepare {
        ballot: u64,
        place: u64,
    },
    Promise {
        ballot: u64,
        place: u64,
        votes: Votes,
    },
    Accept {
        ballot: u64,
        place: u64,
        value: Bytes,
    },
    Voted {
        ballot: u64,
        place: u64,
        value: Bytes,
    },
    Higher {
        ballot: u64,
    },
    Known {
        place: u64,
        value: Bytes,
    },
}

#[derive(Clone, Debug, PartialEq, Eq)]
pub struct Letter {
    pub from: u8,
    pub to: u8,
    pub note: Note,
}

fn put_numbers(out: &mut Vec<u8>, kind: u8, numbers: &[u64]) {
    out.push(kind);
    for number in numbers {
        out.extend(number.to_be_bytes());
    }
}

fn put_votes(out: &mut Vec<u8>, votes: &Votes) {
    for vote in votes.iter() {
        out.extend(vote.place.to_be_bytes());
        out.extend(vote.ballot.to_be_bytes());
        out.push(vote.value.len() as u8);
        out.extend_from_slice(vote.value);
    }
}

/// The bytes of a letter: sender, addressee, kind, and its fields in order, of a vote its value with its length.
pub fn letter_bytes(letter: &Letter) -> Vec<u8> {
    let mut out = vec![letter.from, letter.to];
    match &letter.note {
        Note::Prepare { ballot, place } => put_numbers(&mut out, 0, &[*ballot, *place]),
        Note::Promise {
            ballot,
            place,
            votes,
        } => {
            put_numbers(&mut out, 1, &[*ballot, *place]);
            put_votes(&mut out, votes);
        }
        Note::Accept {
            ballot,
            place,
            value,
        } => {
            put_numbers(&mut out, 2, &[*ballot, *place]);
            out.extend_from_slice(value.as_slice());
        }
        Note::Voted {
            ballot,
            place,
            value,
        } => {
            put_numbers(&mut out, 3, &[*ballot, *place]);
            out.extend_from_slice(value.as_slice());
        }
        Note::Higher { ballot } => put_numbers(&mut out, 4, &[*ballot]),
        Note::Known { place, value } => {
            put_numbers(&mut out, 5, &[*place]);
            out.extend_from_slice(value.as_slice());
        }
    }
    out
}

fn votes_of(fields: &mut Fields) -> Option<Votes> {
    let mut votes = Votes::default();
    while !fields.is_empty() {
        let place = fields.u64()?;
        let ballot = fields.u64()?;
        let len = usize::from(fields.u8()?);
        let value = fields.bytes(len)?;
        votes.push(Vote {
            place,
            ballot,
            value,
        });
    }
    Some(votes)
}

/// The letter that bytes spell.
pub fn read_letter(bytes: &[u8]) -> Option<Letter> {
    let mut fields = Fields::new(bytes);
    let from = fields.u8()?;
    let to = fields.u8()?;
    let note = match fields.u8()? {
        0 => Note::Prepare {
            ballot: fields.u64()?,
            place: fields.u64()?,
        },
        1 => Note::Promise {
            ballot: fields.u64()?,
            place: fields.u64()?,
            votes: votes_of(&mut fields)?,
        },
        2 => Note::Accept {
            ballot: fields.u64()?,
            place: fields.u64()?,
            value: Bytes::new(fields.rest()),
        },
        3 => Note::Voted {
            ballot: fields.u64()?,
            place: fields.u64()?,
            value: Bytes::new(fields.rest()),
        },
        4 => Note::Higher {
            ballot: fields.u64()?,
        },
        5 => Note::Known {
            place: fields.u64()?,
            value: Bytes::new(fields.rest()),
        },
        _ => return None,
    };
    Some(Letter { from, to, note })
}
