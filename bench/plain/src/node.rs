//! A node over records in memory: proposer, acceptor and learner.

use crate::command::read_command;
use crate::letters::{Bytes, Letter, Note, Vote, Votes};
use crate::machine::{Machine, Output};
use crate::names::ByNumber;
use crate::places::Places;
use crate::{LONGEST_VALUE, MOST_PLACES};

const MOST_ROUNDS: u64 = 1 << 40;

/// A node tells of so many learned places at a prepare.
const MOST_KNOWN: usize = 64;

#[derive(Clone, Copy, Debug, PartialEq, Eq)]
pub enum NodeFault {
    NotLeading = 1,
    LogFull,
    RoundsSpent,
    ValueTooLong,
}

#[derive(Clone, Debug, PartialEq, Eq)]
pub struct Numbered {
    pub place: u64,
    pub output: Output,
}

/// What outlives a crash.
#[derive(Default)]
struct Records {
    tried: u64,
    // The greatest of the promised row and of all votes' ballots.
    promised: u64,
    votes: Places,
    ballots: Vec<u64>,
    learned: Places,
}

enum Role {
    Idle,
    Preparing {
        ballot: u64,
        place: u64,
        counted: u8,
        joined: Votes,
    },
    Leading {
        ballot: u64,
        next: u64,
    },
}

/// The voters for a ballot and a value at a place, and the next such.
struct Tally {
    ballot: u64,
    voters: u8,
    value: Bytes,
    next: Option<Box<Tally>>,
}

pub struct Node {
    id: u8,
    members: u8,
    records: Records,
    role: Role,
    hint: u64,
    tallies: ByNumber<u64, Tally>,
    // So many places are learned without a gap, and so many of them applied and released.
    prefix: u64,
    applied: u64,
    machine: Machine,
}

fn is_place(place: u64) -> bool {
    (1..=MOST_PLACES).contains(&place)
}

fn is_value(value: &Bytes) -> bool {
    value.as_slice().len() <= LONGEST_VALUE
}

fn node_of(ballot: u64) -> u8 {
    (ballot % 8) as u8
}

fn are_votes(ballot: u64, place: u64, votes: &Votes) -> bool {
    let mut least = place;
    votes.iter().all(|vote| {
        let is_vote = least <= vote.place
            && is_place(vote.place)
            && vote.value.len() <= LONGEST_VALUE
            && vote.ballot < ballot;
        least = vote.place.saturating_add(1);
        is_vote
    })
}

/// The least ballot of a node above a number, where there is one.
pub fn least_above(above: u64, node: u8) -> Option<u64> {
    let round = above / 8;
    let next = if u64::from(node) > above % 8 && round > 0 {
        round
    } else {
        round + 1
    };
    (next < MOST_ROUNDS).then(|| next * 8 + u64::from(node))
}

impl Records {
    fn vote(&self, place: u64) -> Option<Vote<'_>> {
        let value = self.votes.get(place)?;
        Some(Vote {
            place,
            ballot: self.ballots[place as usize],
            value,
        })
    }

    fn votes_from(&self, place: u64) -> Votes {
        let (rows, bytes) = self.votes.most_from(place);
        let mut votes = Votes::with_capacity(rows, bytes);
        for (place, value) in self.votes.iter_from(place) {
            votes.push(Vote {
                place,
                ballot: self.ballots[place as usize],
                value,
            });
        }
        votes
    }

    fn put_vote(&mut self, place: u64, ballot: u64, value: &[u8]) {
        let at = place as usize;
        if at >= self.ballots.len() {
            self.ballots.resize(at + 1, 0);
        }
        self.ballots[at] = ballot;
        self.votes.put(place, value);
        self.promised = self.promised.max(ballot);
    }
}

impl Tally {
    fn new(ballot: u64, value: &Bytes) -> Tally {
        Tally {
            ballot,
            voters: 0,
            value: value.clone(),
            next: None,
        }
    }

    /// The tally for a ballot and a value.
    fn of(&mut self, ballot: u64, value: &Bytes) -> &mut Tally {
        if self.ballot == ballot && self.value.as_slice() == value.as_slice() {
            return self;
        }
        self.next
            .get_or_insert_with(|| Box::new(Tally::new(ballot, value)))
            .of(ballot, value)
    }
}

impl Node {
    pub fn new(id: u8, members: u8) -> Node {
        Node {
            id,
            members,
            records: Records::default(),
            role: Role::Idle,
            hint: 0,
            tallies: ByNumber::default(),
            prefix: 0,
            applied: 0,
            machine: Machine::new(),
        }
    }

    fn is_majority(&self, voters: u8) -> bool {
        2 * voters.count_ones() > u32::from(self.members)
    }

    fn to_all(&self, note: Note) -> Vec<Letter> {
        let mut letters = Vec::with_capacity(usize::from(self.members));
        self.put_to_all(&mut letters, note);
        letters
    }

    fn put_to_all(&self, letters: &mut Vec<Letter>, note: Note) {
        for to in 0..self.members - 1 {
            letters.push(self.letter(to, note.clone()));
        }
        letters.push(self.letter(self.members - 1, note));
    }

    fn letter(&self, to: u8, note: Note) -> Letter {
        Letter {
            from: self.id,
            to,
            note,
        }
    }

    fn is_heeded(&self, letter: &Letter) -> bool {
        if letter.from >= self.members || letter.to != self.id {
            return false;
        }
        match &letter.note {
            Note::Prepare { ballot, place } => is_place(*place) && node_of(*ballot) == letter.from,
            Note::Promise {
                ballot,
                place,
                votes,
            } => {
                is_place(*place)
                    && node_of(*ballot) == letter.to
                    && are_votes(*ballot, *place, votes)
            }
            Note::Accept {
                ballot,
                place,
                value,
            } => is_place(*place) && is_value(value) && node_of(*ballot) == letter.from,
            Note::Voted { place, value, .. } => is_place(*place) && is_value(value),
            Note::Higher { .. } => true,
            Note::Known { place, value } => is_place(*place) && is_value(value),
        }
    }

    pub fn receive(&mut self, letter: &Letter) -> Vec<Letter> {
        if !self.is_heeded(letter) {
            return Vec::new();
        }
        let from = letter.from;
        match &letter.note {
            Note::Prepare { ballot, place } => return self.take_prepare(from, *ballot, *place),
            Note::Promise {
                ballot,
                place,
                votes,
            } => return self.take_promise(from, *ballot, *place, votes),
            Note::Accept {
                ballot,
                place,
                value,
            } => return self.take_accept(from, *ballot, *place, value),
            Note::Voted {
                ballot,
                place,
                value,
            } => self.take_voted(from, *ballot, *place, value),
            Note::Higher { ballot } => self.take_higher(*ballot),
            Note::Known { place, value } => self.learn(*place, value.as_slice()),
        }
        Vec::new()
    }

    fn take_prepare(&mut self, from: u8, ballot: u64, place: u64) -> Vec<Letter> {
        let known = self.records.learned.iter_from(place).take(MOST_KNOWN);
        let mut letters: Vec<Letter> = Vec::new();
        for (place, value) in known {
            let value = Bytes::new(value);
            letters.push(self.letter(from, Note::Known { place, value }));
        }
        let promised = self.records.promised;
        let note = if ballot > promised {
            let votes = self.records.votes_from(place);
            self.records.promised = ballot;
            Note::Promise {
                ballot,
                place,
                votes,
            }
        } else {
            Note::Higher { ballot: promised }
        };
        letters.push(self.letter(from, note));
        letters
    }

    fn take_promise(&mut self, from: u8, ballot: u64, place: u64, votes: &Votes) -> Vec<Letter> {
        let Role::Preparing {
            ballot: own,
            place: first,
            counted,
            joined,
        } = &mut self.role
        else {
            return Vec::new();
        };
        let voter = 1 << from;
        if *own != ballot || *first != place || *counted & voter != 0 {
            return Vec::new();
        }
        *counted |= voter;
        if joined.is_empty() {
            joined.clone_from(votes);
        } else if !votes.is_empty() {
            *joined = joined.joined(votes);
        }
        let counted = *counted;
        if !self.is_majority(counted) {
            return Vec::new();
        }
        let Role::Preparing { joined, .. } = std::mem::replace(&mut self.role, Role::Idle) else {
            return Vec::new();
        };
        let (letters, next) = self.proposals(ballot, place, &joined);
        self.role = Role::Leading { ballot, next };
        letters
    }

    /// What is proposed at the places that were reported, and the place behind them.
    fn proposals(&self, ballot: u64, first: u64, joined: &Votes) -> (Vec<Letter>, u64) {
        let mut letters = Vec::with_capacity(joined.len() * usize::from(self.members));
        let mut next = first;
        for vote in joined.iter() {
            for place in next..=vote.place {
                let value = if place == vote.place {
                    vote.value
                } else {
                    &[0]
                };
                let value = Bytes::new(value);
                let note = Note::Accept {
                    ballot,
                    place,
                    value,
                };
                self.put_to_all(&mut letters, note);
            }
            next = vote.place + 1;
        }
        (letters, next)
    }

    fn take_accept(&mut self, from: u8, ballot: u64, place: u64, value: &Bytes) -> Vec<Letter> {
        let promised = self.records.promised;
        if ballot < promised {
            return vec![self.letter(from, Note::Higher { ballot: promised })];
        }
        let value = match self.records.vote(place) {
            Some(vote) if vote.ballot == ballot => Bytes::new(vote.value),
            _ => {
                self.records.put_vote(place, ballot, value.as_slice());
                value.clone()
            }
        };
        self.to_all(Note::Voted {
            ballot,
            place,
            value,
        })
    }

    fn take_voted(&mut self, from: u8, ballot: u64, place: u64, value: &Bytes) {
        if self.records.learned.contains(place) {
            return;
        }
        let members = u32::from(self.members);
        let first = self
            .tallies
            .entry(place)
            .or_insert_with(|| Tally::new(ballot, value));
        let tally = first.of(ballot, value);
        tally.voters |= 1 << from;
        if 2 * tally.voters.count_ones() > members {
            self.learn(place, value.as_slice());
        }
    }

    fn learn(&mut self, place: u64, value: &[u8]) {
        if !self.records.learned.contains(place) {
            self.records.learned.put(place, value);
            self.tallies.remove(&place);
        }
    }

    fn take_higher(&mut self, ballot: u64) {
        self.hint = self.hint.max(ballot);
        match &self.role {
            Role::Preparing { ballot: own, .. } | Role::Leading { ballot: own, .. }
                if *own < ballot =>
            {
                self.role = Role::Idle;
            }
            _ => {}
        }
    }

    /// How many places are learned without a gap.
    fn prefix(&mut self) -> u64 {
        while self.records.learned.contains(self.prefix + 1) {
            self.prefix += 1;
        }
        self.prefix
    }

    pub fn lead(&mut self) -> Result<Vec<Letter>, NodeFault> {
        let prefix = self.prefix();
        if prefix >= MOST_PLACES {
            return Err(NodeFault::LogFull);
        }
        let used = self.records.tried.max(self.records.promised).max(self.hint);
        let Some(ballot) = least_above(used, self.id) else {
            return Err(NodeFault::RoundsSpent);
        };
        let place = prefix + 1;
        self.records.tried = ballot;
        self.role = Role::Preparing {
            ballot,
            place,
            counted: 0,
            joined: Votes::default(),
        };
        Ok(self.to_all(Note::Prepare { ballot, place }))
    }

    pub fn offer(&mut self, value: &[u8]) -> Result<Vec<Letter>, NodeFault> {
        let Role::Leading { ballot, next } = &mut self.role else {
            return Err(NodeFault::NotLeading);
        };
        if value.len() > LONGEST_VALUE {
            return Err(NodeFault::ValueTooLong);
        }
        if *next > MOST_PLACES {
            return Err(NodeFault::LogFull);
        }
        let note = Note::Accept {
            ballot: *ballot,
            place: *next,
            value: Bytes::new(value),
        };
        *next += 1;
        Ok(self.to_all(note))
    }

    /// The outputs of the places learned without a gap behind the last released one, without MAPs that have ended.
    pub fn release(&mut self, now: u64) -> Vec<Numbered> {
        let prefix = self.prefix();
        let mut released = Vec::with_capacity((prefix - self.applied) as usize);
        for place in self.applied + 1..=prefix {
            let Some(value) = self.records.learned.get(place) else {
                break;
            };
            let (command, _) = read_command(value);
            let output = self.machine.apply(&command);
            let has_ended = matches!(&output, Output::Map { start, len, .. }
                if start + u64::from(*len) <= now);
            if !has_ended {
                released.push(Numbered { place, output });
            }
        }
        self.applied = prefix;
        released
    }

    pub fn restart(&mut self) {
        self.role = Role::Idle;
        self.hint = 0;
        self.tallies.clear();
        self.prefix = 0;
        self.applied = 0;
        self.machine = Machine::new();
    }
}
