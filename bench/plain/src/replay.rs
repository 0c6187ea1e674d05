//! Files of inputs played again, with a line for each answer.

use crate::body::{cell_at, decode, encode, Element, Head, MapBody, MapFault};
use crate::command::{command_bytes, read_command};
use crate::fields::Fields;
use crate::letters::{letter_bytes, read_letter, Letter};
use crate::lines::{heard_line, put, put_fault, put_hex, put_output, put_sending};
use crate::machine::{Machine, Output};
use crate::modem::Modem;
use crate::node::{Node, NodeFault};
use crate::records::records;

/// Minislots whose cells are told of each body.
const LOOKED_AT: [u16; 9] = [0, 1, 7, 100, 1000, 4095, 4096, 9000, 16383];

pub enum ModemEvent {
    Hear(Output, u64),
    Want(u8, u16, u16),
    Tick(u8, u64, u64),
    BeginAnew,
}

pub enum NodeEvent {
    Receive(Letter),
    Lead,
    Offer(Vec<u8>),
    Release(u64),
    Restart,
}

/// The lines of the answers to a file of a kind of inputs.
pub fn replay(kind: &str, file: &[u8]) -> Option<String> {
    match kind {
        "commands" | "all_commands" => Some(replay_commands(file)),
        "bodies" => replay_bodies(file),
        "modems" => replay_modems(file),
        "nodes" => replay_nodes(file),
        _ => None,
    }
}

fn replay_commands(file: &[u8]) -> String {
    let mut out = String::new();
    let mut machine = Machine::new();
    for (i, record) in records(file).enumerate() {
        let (command, is_command) = read_command(record);
        put!(out, "{} {} ", i + 1, is_command);
        put_output(&mut out, &machine.apply(&command));
        if is_command {
            out.push(' ');
            put_hex(&mut out, &command_bytes(&command));
        }
        out.push('\n');
    }
    out
}

/// A body as its bytes (0), or as a head and elements (1).
pub fn read_body(record: &[u8]) -> Option<Result<MapBody, MapFault>> {
    let mut fields = Fields::new(record);
    if fields.u8()? == 0 {
        return Some(decode(fields.rest()));
    }
    let head = Head {
        channel: fields.u8()?,
        ucd: fields.u8()?,
        start: fields.u32()?,
        ack: fields.u32()?,
        ranging_backoff: (fields.u8()?, fields.u8()?),
        data_backoff: (fields.u8()?, fields.u8()?),
    };
    let mut elements = Vec::new();
    while !fields.is_empty() {
        elements.push(Element::of_word(fields.u32()?));
    }
    Some(MapBody::new(head, elements))
}

fn replay_bodies(file: &[u8]) -> Option<String> {
    let mut out = String::new();
    for record in records(file) {
        match read_body(record)? {
            Ok(map) => {
                put_hex(&mut out, &encode(&map));
                for x in LOOKED_AT {
                    match cell_at(&map, x) {
                        Some((sid, iuc)) => {
                            put!(out, " {sid}.{iuc}");
                        }
                        None => out.push_str(" none"),
                    }
                }
            }
            Err(fault) => put_fault(&mut out, fault),
        }
        out.push('\n');
    }
    Some(out)
}

pub fn read_output(fields: &mut Fields) -> Option<Output> {
    match fields.u8()? {
        0 => Some(Output::Nothing),
        1 => Some(Output::ChannelSet {
            ch: fields.u8()?,
            ucd: fields.u8()?,
        }),
        2 => Some(Output::Assigned {
            modem: fields.u32()?,
            ch: fields.u8()?,
            sid: fields.u16()?,
            first: fields.u64()?,
            last: fields.u64()?,
        }),
        3 => Some(Output::Map {
            ch: fields.u8()?,
            start: fields.u64()?,
            len: fields.u16()?,
            bytes: fields.rest().to_vec(),
        }),
        4 => Some(Output::Refused(fields.u8()?)),
        _ => None,
    }
}

/// Which modem, and what comes to it.
pub fn read_modem_event(record: &[u8]) -> Option<(usize, ModemEvent)> {
    let mut fields = Fields::new(record);
    let kind = fields.u8()?;
    let modem = usize::from(fields.u8()?);
    let event = match kind {
        0 => {
            let near = fields.u64()?;
            ModemEvent::Hear(read_output(&mut fields)?, near)
        }
        1 => ModemEvent::Want(fields.u8()?, fields.u16()?, fields.u16()?),
        2 => ModemEvent::Tick(fields.u8()?, fields.u64()?, fields.u64()?),
        3 => ModemEvent::BeginAnew,
        _ => return None,
    };
    Some((modem, event))
}

fn put_modem_answer(out: &mut String, modem: &mut Modem, event: &ModemEvent) {
    match event {
        ModemEvent::Hear(output, near) => out.push_str(heard_line(modem.hear(output, *near))),
        ModemEvent::Want(ch, sid, n) => match modem.want(*ch, *sid, *n) {
            Ok(()) => out.push_str("done"),
            Err(fault) => {
                put!(out, "want-refused {}", fault as u8);
            }
        },
        ModemEvent::Tick(ch, slot, random) => match modem.tick(*ch, *slot, *random) {
            Ok(sending) => put_sending(out, sending),
            Err(_) => out.push_str("refused 7 TimeBack"),
        },
        ModemEvent::BeginAnew => {
            *modem = Modem::new(modem.id());
            out.push_str("done");
        }
    }
}

/// Four modems, whose ids are 0 to 3.
fn replay_modems(file: &[u8]) -> Option<String> {
    let mut out = String::new();
    let mut modems = [0, 1, 2, 3].map(Modem::new);
    for record in records(file) {
        let (modem, event) = read_modem_event(record)?;
        put_modem_answer(&mut out, modems.get_mut(modem)?, &event);
        out.push('\n');
    }
    Some(out)
}

/// Which node, and what comes to it.
pub fn read_node_event(record: &[u8]) -> Option<(usize, NodeEvent)> {
    let mut fields = Fields::new(record);
    let kind = fields.u8()?;
    let node = usize::from(fields.u8()?);
    let event = match kind {
        0 => NodeEvent::Receive(read_letter(fields.rest())?),
        1 => NodeEvent::Lead,
        2 => NodeEvent::Offer(fields.rest().to_vec()),
        3 => NodeEvent::Release(fields.u64()?),
        4 => NodeEvent::Restart,
        _ => return None,
    };
    Some((node, event))
}

fn put_letters(out: &mut String, letters: &[Letter]) {
    put!(out, "sent {}", letters.len());
    for letter in letters {
        out.push_str("\nletter ");
        put_hex(out, &letter_bytes(letter));
    }
}

fn put_sent(out: &mut String, sent: Result<Vec<Letter>, NodeFault>) {
    match sent {
        Ok(letters) => put_letters(out, &letters),
        Err(fault) => {
            put!(out, "fault {}", fault as u8);
        }
    }
}

fn put_node_answer(out: &mut String, node: &mut Node, event: &NodeEvent) {
    match event {
        NodeEvent::Receive(letter) => put_letters(out, &node.receive(letter)),
        NodeEvent::Lead => put_sent(out, node.lead()),
        NodeEvent::Offer(value) => put_sent(out, node.offer(value)),
        NodeEvent::Release(now) => {
            let released = node.release(*now);
            put!(out, "released {}", released.len());
            for one in &released {
                put!(out, "\nplace {} ", one.place);
                put_output(out, &one.output);
            }
        }
        NodeEvent::Restart => {
            node.restart();
            out.push_str("done");
        }
    }
}

/// The first record says how many members there are.
fn replay_nodes(file: &[u8]) -> Option<String> {
    let mut out = String::new();
    let mut records = records(file);
    let members = *records.next()?.first()?;
    let mut nodes: Vec<Node> = (0..members).map(|id| Node::new(id, members)).collect();
    for record in records {
        let (node, event) = read_node_event(record)?;
        put_node_answer(&mut out, nodes.get_mut(node)?, &event);
        out.push('\n');
    }
    Some(out)
}
