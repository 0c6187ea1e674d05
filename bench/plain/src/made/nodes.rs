//! What comes to three or five nodes: letters of their own, late, lost, twice and forged, and what they are asked.

use crate::command::{command_bytes, Channel, Command, CutSettings, FlowKind, Phy};
use crate::letters::{letter_bytes, read_letter, Bytes, Letter, Note, Vote, Votes};
use crate::made::commands::CommandMaker;
use crate::node::Node;
use crate::random::Random;
use crate::records::put_record;
use crate::LAST_TIME;
use std::collections::VecDeque;

/// So many letters are under way.
const UNDER_WAY: usize = 2000;

struct Maker {
    commands: CommandMaker,
    random: Random,
    nodes: Vec<Node>,
    letters: VecDeque<Letter>,
    // When the last request was sent.
    sent: u64,
    // The node that was asked to lead last.
    leader: u8,
}

pub fn receive_record(node: u8, letter: &Letter) -> Vec<u8> {
    let mut record = vec![0, node];
    record.extend(letter_bytes(letter));
    record
}

pub fn lead_record(node: u8) -> Vec<u8> {
    vec![1, node]
}

pub fn offer_record(node: u8, value: &[u8]) -> Vec<u8> {
    let mut record = vec![2, node];
    record.extend_from_slice(value);
    record
}

pub fn release_record(node: u8, now: u64) -> Vec<u8> {
    let mut record = vec![3, node];
    record.extend(now.to_be_bytes());
    record
}

impl Maker {
    /// A command that is good wherever it comes in the log, where the channel is set.
    fn made_command(&mut self) -> Command {
        let random = &mut self.random;
        self.sent += 3;
        let ch = random.below(2) as u8;
        match random.below(20) {
            0 => Command::Channel(Channel {
                id: ch,
                ucd: 7,
                phy: random.one_of(&[Phy::Tdma, Phy::Advanced]),
                short_max: 16,
                ranging_backoff: (2, 5),
                data_backoff: (3, 8),
                base: 1000,
            }),
            1..=5 => Command::Flow {
                ch,
                modem: 50,
                tag: random.below(12) as u32,
                last: LAST_TIME - random.below(2),
                kind: FlowKind::BestEffort(random.below(8) as u8),
            },
            6..=13 => Command::Request {
                ch,
                sid: random.between(1, 12) as u16,
                n: random.between(1, 60) as u16,
                sent: 900 + self.sent,
            },
            _ => Command::Cut {
                ch,
                len: random.between(1, 120) as u16,
                not_before: 0,
                ack: 900 + self.sent,
                set: CutSettings::NONE,
            },
        }
    }

    fn made_value(&mut self) -> Vec<u8> {
        match self.random.below(20) {
            0 => vec![7; self.random.below(67) as usize],
            1 => Vec::new(),
            2..=4 => self.commands.next_one().0,
            _ => command_bytes(&self.made_command()),
        }
    }

    fn made_place(&mut self) -> u64 {
        match self.random.below(60) {
            0 => self.random.between(1_000_001, 1_000_003),
            1 => 0,
            2 => self.random.number(),
            _ => self.random.below(200),
        }
    }

    fn made_ballot(&mut self) -> u64 {
        let rounds = self.random.one_of(&[2, 10, 1 << 20, (1 << 40) - 1]);
        let round = self.random.between(1, rounds);
        round * 8 + self.random.below(5)
    }

    fn made_votes(&mut self, place: u64) -> Votes {
        let mut votes = Votes::default();
        let mut at = place;
        for _ in 0..self.random.below(4) {
            let value = self.made_value();
            let ballot = self.made_ballot();
            votes.push(Vote {
                place: at,
                ballot,
                value: &value,
            });
            at = at.saturating_add(self.random.below(3));
        }
        votes
    }

    fn forged(&mut self) -> Letter {
        let ballot = self.made_ballot();
        let place = self.made_place();
        let value = self.made_value();
        let value = Bytes::new(&value);
        let note = match self.random.below(6) {
            0 => Note::Prepare { ballot, place },
            1 => Note::Promise {
                ballot,
                place,
                votes: self.made_votes(place),
            },
            2 => Note::Accept {
                ballot,
                place,
                value,
            },
            3 => Note::Voted {
                ballot,
                place,
                value,
            },
            4 => Note::Higher { ballot },
            _ => Note::Known { place, value },
        };
        Letter {
            from: self.random.below(5) as u8,
            to: self.random.below(self.nodes.len() as u64) as u8,
            note,
        }
    }

    fn next_letter(&mut self, forged_percent: u64) -> Letter {
        if self.random.percent(forged_percent) || self.letters.is_empty() {
            return self.forged();
        }
        let at = self.random.below(self.letters.len().min(9) as u64) as usize;
        if self.random.percent(10) {
            return self.letters[at].clone();
        }
        match self.letters.remove(at) {
            Some(letter) => letter,
            None => self.forged(),
        }
    }

    fn send(&mut self, letters: Vec<Letter>) {
        for letter in letters {
            if self.random.below(500) != 0 {
                self.letters.push_back(letter);
            }
        }
        while self.letters.len() > UNDER_WAY {
            self.letters.pop_front();
        }
    }

    fn made_receive(&mut self, forged_percent: u64) -> Vec<u8> {
        let letter = self.next_letter(forged_percent);
        // One in a hundred comes to another node than it names.
        let node = if self.random.percent(1) { 0 } else { letter.to };
        let sent = self.nodes[usize::from(node)].receive(&letter);
        self.send(sent);
        receive_record(node, &letter)
    }

    fn made_offer(&mut self, other: u8) -> Vec<u8> {
        let node = if self.random.percent(95) {
            self.leader
        } else {
            other
        };
        let value = self.made_value();
        if let Ok(sent) = self.nodes[usize::from(node)].offer(&value) {
            self.send(sent);
        }
        offer_record(node, &value)
    }

    fn next_one(&mut self, forged_percent: u64) -> Vec<u8> {
        let node = self.random.below(self.nodes.len() as u64) as u8;
        match self.random.below(4000) {
            0 => {
                if let Ok(sent) = self.nodes[usize::from(node)].lead() {
                    self.send(sent);
                }
                self.leader = node;
                lead_record(node)
            }
            1..=160 => self.made_offer(node),
            161..=220 => {
                let now = self.random.below(10_000);
                self.nodes[usize::from(node)].release(now);
                release_record(node, now)
            }
            221..=222 => {
                self.nodes[usize::from(node)].restart();
                vec![4, node]
            }
            _ => self.made_receive(forged_percent),
        }
    }
}

/// An even seed has three nodes, an odd one five; every fourth has forged letters.
pub fn made(seed: u64, count: usize) -> Vec<u8> {
    let members = if seed % 2 == 0 { 3 } else { 5 };
    let forged_percent = if seed % 4 < 2 { 0 } else { 5 };
    let mut maker = Maker {
        commands: CommandMaker::new(seed, true),
        random: Random::new(seed ^ 0xAAAA),
        nodes: (0..members).map(|id| Node::new(id, members)).collect(),
        letters: VecDeque::new(),
        sent: 0,
        leader: 0,
    };
    let mut file = Vec::new();
    put_record(&mut file, &[members]);
    for _ in 0..count {
        let record = maker.next_one(forged_percent);
        debug_assert!(record[0] != 0 || read_letter(&record[2..]).is_some());
        put_record(&mut file, &record);
    }
    file
}
