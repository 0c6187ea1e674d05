//! The timed calls of a shape, in processor time.

use crate::body::{decode, encode, MapBody};
use crate::command::{read_command, Command};
use crate::fields::Fields;
use crate::machine::Machine;
use crate::modem::Modem;
use crate::node::Node;
use crate::records::records;
use crate::replay::{read_modem_event, read_node_event, ModemEvent, NodeEvent};
use crate::shapes::{APPLY, DECODE, ENCODE, MODEM, NODE};
use std::hint::black_box;

#[repr(C)]
struct Timespec {
    seconds: i64,
    nanos: i64,
}

extern "C" {
    fn clock_gettime(clock: i32, time: *mut Timespec) -> i32;
}

const PROCESS_CPU_TIME: i32 = 2;

/// The processor time that the process has used, in nanoseconds.
fn cpu_nanos() -> u64 {
    let mut time = Timespec {
        seconds: 0,
        nanos: 0,
    };
    // SAFETY: the call writes to `time` alone, which has the layout that it wants on 64-bit Linux.
    unsafe { clock_gettime(PROCESS_CPU_TIME, &mut time) };
    time.seconds as u64 * 1_000_000_000 + time.nanos as u64
}

/// How a shape is run: in so many rounds, each with its timed calls so many times over.
#[derive(Clone, Copy)]
struct Plan {
    rounds: u32,
    repeats: u32,
}

/// Runs rounds: each makes what is there before, and then the timed calls over it. The nanoseconds of these.
fn time_rounds<S>(plan: Plan, make: impl Fn() -> S, calls: impl Fn(&mut S)) -> u64 {
    let mut nanos = 0;
    for _ in 0..plan.rounds {
        let mut made = make();
        let start = cpu_nanos();
        for _ in 0..plan.repeats {
            calls(&mut made);
        }
        nanos += cpu_nanos() - start;
        black_box(&mut made);
    }
    nanos
}

fn time_codec(plan: Plan, kind: u8, bodies: &[&[u8]]) -> Option<u64> {
    if kind == DECODE {
        let decode_all = |_: &mut ()| {
            for body in bodies {
                let _ = black_box(decode(black_box(body)));
            }
        };
        return Some(time_rounds(plan, || (), decode_all));
    }
    let maps: Vec<MapBody> = bodies.iter().filter_map(|body| decode(body).ok()).collect();
    let encode_all = |_: &mut ()| {
        for map in &maps {
            black_box(encode(black_box(map)));
        }
    };
    Some(time_rounds(plan, || (), encode_all))
}

fn apply_all(machine: &mut Machine, commands: &[Command]) {
    for command in commands {
        black_box(machine.apply(black_box(command)));
    }
}

fn time_apply(plan: Plan, before: &[&[u8]], timed: &[&[u8]]) -> u64 {
    let commands = |records: &[&[u8]]| -> Vec<Command> {
        records
            .iter()
            .map(|record| read_command(record).0)
            .collect()
    };
    let before = commands(before);
    let timed = commands(timed);
    let make = || {
        let mut machine = Machine::new();
        apply_all(&mut machine, &before);
        machine
    };
    time_rounds(plan, make, |machine| apply_all(machine, &timed))
}

fn come_all(modem: &mut Modem, events: &[ModemEvent]) {
    for event in events {
        match event {
            ModemEvent::Hear(output, near) => {
                black_box(modem.hear(black_box(output), *near));
            }
            ModemEvent::Want(ch, sid, n) => {
                let _ = black_box(modem.want(*ch, *sid, *n));
            }
            ModemEvent::Tick(ch, slot, random) => {
                let _ = black_box(modem.tick(*ch, *slot, *random));
            }
            ModemEvent::BeginAnew => *modem = Modem::new(0),
        }
    }
}

fn time_modem(plan: Plan, before: &[&[u8]], timed: &[&[u8]]) -> Option<u64> {
    let events = |records: &[&[u8]]| -> Option<Vec<ModemEvent>> {
        let events = records
            .iter()
            .map(|record| Some(read_modem_event(record)?.1));
        events.collect()
    };
    let before = events(before)?;
    let timed = events(timed)?;
    let make = || {
        let mut modem = Modem::new(0);
        come_all(&mut modem, &before);
        modem
    };
    Some(time_rounds(plan, make, |modem| come_all(modem, &timed)))
}

fn act_all(node: &mut Node, events: &[NodeEvent]) {
    for event in events {
        match event {
            NodeEvent::Receive(letter) => {
                black_box(node.receive(black_box(letter)));
            }
            NodeEvent::Lead => {
                let _ = black_box(node.lead());
            }
            NodeEvent::Offer(value) => {
                let _ = black_box(node.offer(black_box(value)));
            }
            NodeEvent::Release(now) => {
                black_box(node.release(*now));
            }
            NodeEvent::Restart => node.restart(),
        }
    }
}

fn time_node(plan: Plan, before: &[&[u8]], timed: &[&[u8]]) -> Option<u64> {
    let events = |records: &[&[u8]]| -> Option<Vec<NodeEvent>> {
        let events = records
            .iter()
            .map(|record| Some(read_node_event(record)?.1));
        events.collect()
    };
    let before = events(before)?;
    let timed = events(timed)?;
    let make = || {
        let mut node = Node::new(1, 3);
        act_all(&mut node, &before);
        node
    };
    Some(time_rounds(plan, make, |node| act_all(node, &timed)))
}

/// Runs a shape's file, in at most so many rounds. How many calls were timed, and their nanoseconds; of what isn't
/// whole the timed calls are left out.
pub fn time(file: &[u8], most_rounds: u32, is_whole: bool) -> Option<(u64, u64)> {
    let mut records = records(file);
    let mut first = Fields::new(records.next()?);
    let kind = first.u8()?;
    let rounds = first.u32()?.min(most_rounds);
    let repeats = first.u32()?;
    let repeats = if is_whole { repeats } else { 0 };
    let before_count = first.u32()? as usize;
    let all: Vec<&[u8]> = records.collect();
    let (before, timed) = all.split_at_checked(before_count)?;
    let plan = Plan { rounds, repeats };
    let nanos = match kind {
        ENCODE | DECODE => time_codec(plan, kind, timed)?,
        APPLY => time_apply(plan, before, timed),
        MODEM => time_modem(plan, before, timed)?,
        NODE => time_node(plan, before, timed)?,
        _ => return None,
    };
    let calls = u64::from(rounds) * u64::from(repeats) * timed.len() as u64;
    Some((calls, nanos))
}
