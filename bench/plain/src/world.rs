//! A run of three nodes under one leader: its events, the script of them, and the lines that `upsched run` prints.

use crate::command::{command_bytes, Channel, Command, CutSettings, FlowKind, Phy};
use crate::letters::Letter;
use crate::lines::{put, put_hex, put_output};
use crate::node::{Node, NodeFault};
use crate::LAST_TIME;

const MEMBERS: u8 = 3;

pub enum Event {
    Lead(usize),
    Offer(usize, Vec<u8>),
    Deliver(usize),
    Release(usize, u64),
}

/// What is offered: a channel, 32 flows, and then requests with a cut after each 32 of them.
fn command(i: u64) -> Command {
    match i {
        0 => Command::Channel(Channel {
            id: 1,
            ucd: 7,
            phy: Phy::Tdma,
            short_max: 16,
            ranging_backoff: (2, 5),
            data_backoff: (3, 8),
            base: 1000,
        }),
        1..=32 => Command::Flow {
            ch: 1,
            modem: i as u32,
            tag: 1,
            last: LAST_TIME,
            kind: FlowKind::BestEffort((i % 8) as u8),
        },
        _ if i % 33 == 0 => Command::Cut {
            ch: 1,
            len: 4096,
            not_before: 0,
            ack: i,
            set: CutSettings::NONE,
        },
        _ => Command::Request {
            ch: 1,
            sid: (i % 33) as u16,
            n: (1 + i % 40) as u16,
            sent: i,
        },
    }
}

/// So many events: node 0 leads and offers, two nodes vote and learn, and last they release.
pub fn one_leader(count: usize) -> Vec<Event> {
    let mut events = vec![Event::Lead(0)];
    events.extend([0, 1, 3, 4].map(Event::Deliver));
    for i in 0.. {
        let first = 5 + 9 * i;
        if events.len() + 2 >= count {
            break;
        }
        events.push(Event::Offer(0, command_bytes(&command(i as u64))));
        events.extend([0, 1, 3, 6, 4, 7].map(|k| Event::Deliver(first + k)));
    }
    events.truncate(count.saturating_sub(2));
    events.extend([0, 1].map(|node| Event::Release(node, 0)));
    events
}

/// The events as a script.
pub fn script(events: &[Event]) -> String {
    let mut out = format!("members = {MEMBERS}\n");
    for event in events {
        out.push_str("[[event]]\n");
        match event {
            Event::Lead(node) => {
                put!(out, "kind = \"lead\"\nnode = {node}\n");
            }
            Event::Offer(node, value) => {
                put!(out, "kind = \"offer\"\nnode = {node}\nvalue = \"");
                put_hex(&mut out, value);
                out.push_str("\"\n");
            }
            Event::Deliver(letter) => {
                put!(out, "kind = \"deliver\"\nletter = {letter}\n");
            }
            Event::Release(node, now) => {
                put!(out, "kind = \"release\"\nnode = {node}\nnow = {now}\n");
            }
        }
    }
    out
}

/// Nodes, the letters that they sent, and how many outputs were released.
struct World {
    nodes: Vec<Node>,
    letters: Vec<Letter>,
    outputs: usize,
}

impl World {
    fn send(&mut self, out: &mut String, sent: Result<Vec<Letter>, NodeFault>) {
        match sent {
            Ok(letters) => {
                put!(out, "sent {}\n", letters.len());
                self.letters.extend(letters);
            }
            Err(fault) => {
                put!(out, "fault {}\n", fault as u8);
            }
        }
    }

    fn release(&mut self, out: &mut String, node: usize, now: u64) {
        let released = self.nodes[node].release(now);
        put!(out, "released {}\n", released.len());
        for one in &released {
            put!(out, "place {} ", one.place);
            put_output(out, &one.output);
            out.push('\n');
        }
        self.outputs += released.len();
    }

    fn run(&mut self, out: &mut String, event: &Event) {
        match event {
            Event::Lead(node) => {
                let sent = self.nodes[*node].lead();
                self.send(out, sent);
            }
            Event::Offer(node, value) => {
                let sent = self.nodes[*node].offer(value);
                self.send(out, sent);
            }
            Event::Deliver(letter) => {
                let letter = &self.letters[*letter];
                let sent = self.nodes[usize::from(letter.to)].receive(letter);
                self.send(out, Ok(sent));
            }
            Event::Release(node, now) => self.release(out, *node, *now),
        }
    }
}

/// The lines of the run.
pub fn run(events: &[Event]) -> String {
    let mut world = World {
        nodes: (0..MEMBERS).map(|id| Node::new(id, MEMBERS)).collect(),
        letters: Vec::new(),
        outputs: 0,
    };
    let mut out = String::new();
    for (i, event) in events.iter().enumerate() {
        put!(out, "{i} ");
        world.run(&mut out, event);
    }
    let letters = world.letters.len();
    put!(
        out,
        "letters {letters} outputs {} transmissions 0\n",
        world.outputs
    );
    out
}
