//! Commands, mostly good ones, which follow what a machine answered to those before.

use crate::command::{
    command_bytes, read_command, Channel, ChannelSettings, Command, CutSettings, FlowKind, Phy, OWN,
};
use crate::machine::{Machine, Output};
use crate::random::Random;
use crate::records::put_record;
use crate::LAST_TIME;
use std::collections::VecDeque;

/// So many commands are made with the same weights.
const STRETCH: usize = 2000;

/// So many SIDs of a channel are asked for again and again.
const MOST_TOLD: usize = 160;

/// How often each kind of command is made, while a stretch lasts.
#[derive(Clone, Copy)]
struct Weights {
    flow: u64,
    drop: u64,
    request: u64,
    cut: u64,
    // Flows have names of their own, and leases without an end: a channel's SIDs are spent by these.
    is_filling: bool,
    timed_percent: u64,
    most_minislots: u64,
    channels: u64,
}

pub struct CommandMaker {
    pub random: Random,
    // Cuts have settings too, channels change, and flows are for ranging.
    is_whole: bool,
    machine: Machine,
    weights: Weights,
    left: usize,
    // So many channels were set at first.
    opened: u8,
    // By channel, where its MAPs reach to, the greatest SID that was told, and those told last.
    now: [u64; 256],
    sids: [u16; 256],
    told: Vec<VecDeque<u16>>,
    // By channel, what it was set to last.
    settings: Vec<ChannelSettings>,
}

/// A back-off, mostly a good one.
fn backoff(random: &mut Random) -> (u8, u8) {
    let start = random.below(16) as u8;
    (start, start.max(random.below(17) as u8))
}

/// The back-off of a cut: the channel's, one of its own, or none at all.
fn told_backoff(random: &mut Random) -> (u8, u8) {
    match random.below(20) {
        0..=9 => OWN,
        10 => (random.below(16) as u8, 255),
        _ => backoff(random),
    }
}

fn settings_of(channel: &Channel) -> ChannelSettings {
    ChannelSettings {
        ucd: channel.ucd,
        phy: channel.phy,
        short_max: channel.short_max,
        ranging_backoff: channel.ranging_backoff,
        data_backoff: channel.data_backoff,
    }
}

fn base_of(random: &mut Random) -> u64 {
    match random.below(10) {
        0..=6 => random.below(5000),
        7 | 8 => (1 << 32) - random.below(20_000),
        _ => LAST_TIME - random.below(2_000_000),
    }
}

impl CommandMaker {
    /// Of commands of all kinds where it is whole, else of channels, flows on request, with unsolicited grants or
    /// polled, drops, requests, and cuts without settings.
    pub fn new(seed: u64, is_whole: bool) -> CommandMaker {
        let mut random = Random::new(seed);
        let weights = weights(&mut random);
        let unset = ChannelSettings {
            ucd: 0,
            phy: Phy::Tdma,
            short_max: 1,
            ranging_backoff: (0, 0),
            data_backoff: (0, 0),
        };
        CommandMaker {
            random,
            is_whole,
            settings: vec![unset; 256],
            machine: Machine::new(),
            weights,
            left: STRETCH,
            opened: 0,
            now: [0; 256],
            sids: [0; 256],
            told: vec![VecDeque::new(); 256],
        }
    }

    fn channel_id(&mut self) -> u8 {
        if self.random.percent(2) {
            return self.random.below(256) as u8;
        }
        self.random.below(self.weights.channels) as u8
    }

    /// A number near one that is given, or one at a limit.
    fn time_near(&mut self, time: u64, reach: u64) -> u64 {
        match self.random.below(200) {
            0 => LAST_TIME,
            1 => LAST_TIME + 1,
            2 => self.random.number(),
            3 => 0,
            _ => (time + self.random.below(reach)).saturating_sub(self.random.below(reach)),
        }
    }

    /// The first four commands set channels, so that the others find them.
    fn opening_channel(&mut self) -> Command {
        let id = self.opened;
        self.opened += 1;
        let Command::Channel(channel) = self.made_channel() else {
            return Command::Noop;
        };
        self.now[usize::from(id)] = channel.base;
        Command::Channel(Channel {
            id,
            short_max: channel.short_max + 1,
            data_backoff: (2, 8),
            ranging_backoff: (0, 15),
            ..channel
        })
    }

    fn made_channel(&mut self) -> Command {
        let random = &mut self.random;
        Command::Channel(Channel {
            id: if random.percent(70) {
                random.below(4) as u8
            } else {
                random.below(256) as u8
            },
            ucd: random.below(256) as u8,
            phy: random.one_of(&[Phy::Tdma, Phy::Advanced]),
            short_max: random.below(40) as u16,
            ranging_backoff: backoff(random),
            data_backoff: backoff(random),
            base: base_of(random),
        })
    }

    /// Mostly a count that may come next, and the PHY and the size that go with it.
    fn made_change(&mut self) -> Command {
        let ch = self.channel_id();
        let random = &mut self.random;
        let before = self.settings[usize::from(ch)];
        let other = ChannelSettings {
            ucd: before.ucd.wrapping_add(1),
            phy: random.one_of(&[Phy::Tdma, Phy::Advanced]),
            short_max: random.below(40) as u16,
            ranging_backoff: backoff(random),
            data_backoff: backoff(random),
        };
        let settings = match random.below(10) {
            0..=5 => other,
            6 | 7 => ChannelSettings {
                ranging_backoff: other.ranging_backoff,
                data_backoff: other.data_backoff,
                ..before
            },
            8 => ChannelSettings {
                ucd: before.ucd,
                ..other
            },
            _ => ChannelSettings {
                ucd: random.below(256) as u8,
                ..other
            },
        };
        Command::Change { ch, settings }
    }

    fn made_kind(&mut self, now: u64) -> FlowKind {
        let is_timed = self.random.percent(self.weights.timed_percent);
        let base = self.time_near(now, 3000);
        let random = &mut self.random;
        if !is_timed {
            return FlowKind::BestEffort(random.below(9) as u8);
        }
        let interval = match random.below(20) {
            0 => random.below(1_000_002) as u32,
            1 => random.below(4) as u32,
            _ => random.between(5, 2000) as u32,
        };
        let jitter = random.below(u64::from(interval) + 1) as u32;
        if self.is_whole && random.percent(40) {
            let size = random.below(257) as u16;
            let made = FlowKind::Station {
                size,
                interval,
                jitter,
                base,
            };
            return match random.percent(50) {
                true => made,
                false => FlowKind::Initial {
                    size,
                    interval,
                    jitter,
                    base,
                },
            };
        }
        if random.percent(40) {
            return FlowKind::Poll {
                interval,
                jitter,
                base,
            };
        }
        let most = random.one_of(&[4, 30, 257]);
        FlowKind::Ugs {
            size: random.below(most) as u16,
            interval,
            jitter,
            base,
        }
    }

    fn made_flow(&mut self) -> Command {
        let ch = self.channel_id();
        let now = self.now[usize::from(ch)];
        let kind = self.made_kind(now);
        let is_filling = self.weights.is_filling;
        let last = match self.random.below(10) {
            0..=2 if !is_filling => self.time_near(now + 1000, 1500),
            _ => LAST_TIME,
        };
        let random = &mut self.random;
        Command::Flow {
            ch,
            modem: random.below(6) as u32,
            tag: if is_filling {
                random.number() as u32
            } else {
                random.below(60) as u32
            },
            last,
            kind,
        }
    }

    fn made_sid(&mut self, ch: u8) -> u16 {
        if self.random.percent(1) {
            return self.random.number() as u16;
        }
        let told = &self.told[usize::from(ch)];
        if !told.is_empty() && self.random.percent(80) {
            let at = self.random.below(told.len() as u64) as usize;
            return told[at];
        }
        let most = u64::from(self.sids[usize::from(ch)]);
        self.random.below(most + 2) as u16
    }

    fn made_request(&mut self) -> Command {
        let ch = self.channel_id();
        let now = self.now[usize::from(ch)];
        let most = self.random.one_of(&[4, 40, 258]);
        Command::Request {
            ch,
            sid: self.made_sid(ch),
            n: self.random.below(most) as u16,
            sent: self.time_near(now, 300),
        }
    }

    fn made_settings(&mut self) -> CutSettings {
        let random = &mut self.random;
        let most = random.one_of(&[1, 30, self.weights.most_minislots, 4099]);
        CutSettings {
            keep: random.below(most) as u16,
            ranging: told_backoff(random),
            data: told_backoff(random),
        }
    }

    fn made_cut(&mut self) -> Command {
        let ch = self.channel_id();
        let now = self.now[usize::from(ch)];
        let most = self.weights.most_minislots;
        let not_before = match self.random.below(4) {
            0 => self.time_near(now, 100),
            _ => 0,
        };
        let set = match self.is_whole && self.random.percent(40) {
            true => self.made_settings(),
            false => CutSettings::NONE,
        };
        Command::Cut {
            ch,
            set,
            len: match self.random.below(100) {
                0 => self.random.number() as u16,
                1 => 4096,
                _ => self.random.below(most) as u16,
            },
            not_before,
            ack: self.time_near(now, 200),
        }
    }

    fn made_command(&mut self) -> Command {
        if self.opened < 4 {
            return self.opening_channel();
        }
        let weights = self.weights;
        let total = weights.flow + weights.drop + weights.request + weights.cut;
        let chosen = self.random.below(total);
        if self.random.percent(1) {
            return self.made_channel();
        }
        if self.is_whole && self.random.percent(3) {
            return self.made_change();
        }
        if chosen < weights.flow {
            return self.made_flow();
        }
        if chosen < weights.flow + weights.request {
            return self.made_request();
        }
        if chosen < weights.flow + weights.request + weights.cut {
            return self.made_cut();
        }
        let ch = self.channel_id();
        Command::Drop {
            ch,
            sid: self.made_sid(ch),
        }
    }

    fn damage(&mut self, bytes: &mut Vec<u8>) {
        let random = &mut self.random;
        let len = bytes.len() as u64;
        match random.below(4) {
            0 => bytes.truncate(random.below(len) as usize),
            1 => bytes.push(random.number() as u8),
            2 => bytes[0] = random.below(if self.is_whole { 12 } else { 10 }) as u8,
            _ => bytes[random.below(len) as usize] = random.number() as u8,
        }
    }

    /// The next command's bytes, and what the machine answers.
    pub fn next_one(&mut self) -> (Vec<u8>, Output) {
        if self.left == 0 {
            self.left = STRETCH;
            self.weights = weights(&mut self.random);
        }
        self.left -= 1;
        let mut bytes = command_bytes(&self.made_command());
        if self.random.percent(2) {
            self.damage(&mut bytes);
        }
        let command = read_command(&bytes).0;
        let output = self.machine.apply(&command);
        match &output {
            Output::ChannelSet { ch, .. } => {
                let now = &mut self.settings[usize::from(*ch)];
                *now = match command {
                    Command::Channel(channel) => settings_of(&channel),
                    Command::Change { settings, .. } => settings,
                    _ => *now,
                };
            }
            Output::Map { ch, start, len, .. } => {
                self.now[usize::from(*ch)] = start + u64::from(*len);
            }
            Output::Assigned { ch, sid, .. } => {
                let most = &mut self.sids[usize::from(*ch)];
                *most = (*sid).max(*most);
                let told = &mut self.told[usize::from(*ch)];
                told.push_back(*sid);
                if told.len() > MOST_TOLD {
                    told.pop_front();
                }
            }
            _ => {}
        }
        (bytes, output)
    }
}

fn weights(random: &mut Random) -> Weights {
    let is_filling = random.percent(20);
    Weights {
        flow: if is_filling {
            2000
        } else {
            random.one_of(&[1, 10, 60])
        },
        drop: random.one_of(&[1, 10]),
        request: random.one_of(&[10, 60, 200]),
        cut: random.one_of(&[5, 30]),
        is_filling,
        timed_percent: random.one_of(&[0, 10, 50]),
        most_minislots: random.one_of(&[20, 300, 4098]),
        channels: if is_filling { 1 } else { 4 },
    }
}

pub fn made(seed: u64, count: usize, is_whole: bool) -> Vec<u8> {
    let mut maker = CommandMaker::new(seed, is_whole);
    let mut file = Vec::new();
    for _ in 0..count {
        put_record(&mut file, &maker.next_one().0);
    }
    file
}

/// The same commands as a plan; bytes that spell none are left out.
pub fn plan(file: &[u8]) -> String {
    let mut out = String::new();
    for record in crate::records::records(file) {
        if let (command, true) = read_command(record) {
            put_table(&mut out, &command);
        }
    }
    out
}

fn put_table(out: &mut String, command: &Command) {
    use crate::lines::put;
    out.push_str("[[command]]\n");
    match *command {
        Command::Noop => out.push_str("kind = \"noop\"\n"),
        Command::Channel(channel) => put_channel(out, &channel),
        Command::Change { ch, settings } => {
            put!(out, "kind = \"change\"\nch = {ch}\n");
            put_settings(out, &settings);
        }
        Command::Flow {
            ch,
            modem,
            tag,
            last,
            kind,
        } => {
            put!(
                out,
                "kind = \"flow\"\nch = {ch}\nmodem = {modem}\ntag = {tag}\nlast = {last}\n"
            );
            put_service(out, kind);
        }
        Command::Drop { ch, sid } => {
            put!(out, "kind = \"drop\"\nch = {ch}\nsid = {sid}\n");
        }
        Command::Request { ch, sid, n, sent } => {
            put!(
                out,
                "kind = \"request\"\nch = {ch}\nsid = {sid}\nn = {n}\nsent = {sent}\n"
            );
        }
        Command::Cut {
            ch,
            len,
            not_before,
            ack,
            set,
        } => {
            put!(out, "kind = \"cut\"\nch = {ch}\nlen = {len}\n");
            put!(out, "not_before = {not_before}\nack = {ack}\n");
            if set != CutSettings::NONE {
                put!(out, "keep = {}\n", set.keep);
                put_backoffs(out, set.ranging, set.data);
            }
        }
    }
}

fn put_channel(out: &mut String, channel: &Channel) {
    use crate::lines::put;
    let Channel { id, base, .. } = *channel;
    put!(out, "kind = \"channel\"\nch = {id}\nbase = {base}\n");
    put_settings(out, &settings_of(channel));
}

fn put_settings(out: &mut String, settings: &ChannelSettings) {
    use crate::lines::put;
    let ChannelSettings { ucd, short_max, .. } = *settings;
    let phy = match settings.phy {
        Phy::Tdma => "tdma",
        Phy::Advanced => "advanced",
    };
    put!(
        out,
        "ucd = {ucd}\nphy = \"{phy}\"\nshort_max = {short_max}\n"
    );
    put_backoffs(out, settings.ranging_backoff, settings.data_backoff);
}

fn put_backoffs(out: &mut String, ranging: (u8, u8), sending: (u8, u8)) {
    use crate::lines::put;
    put!(out, "ranging = [{}, {}]\n", ranging.0, ranging.1);
    put!(out, "data = [{}, {}]\n", sending.0, sending.1);
}

fn put_sized(out: &mut String, service: &str, size: u16, interval: u32, jitter: u32, base: u64) {
    use crate::lines::put;
    put!(
        out,
        "service = \"{service}\"\nsize = {size}\ninterval = {interval}\n"
    );
    put!(out, "jitter = {jitter}\nbase = {base}\n");
}

fn put_service(out: &mut String, kind: FlowKind) {
    use crate::lines::put;
    match kind {
        FlowKind::BestEffort(priority) => {
            put!(out, "service = \"best_effort\"\npriority = {priority}\n");
        }
        FlowKind::Ugs {
            size,
            interval,
            jitter,
            base,
        } => put_sized(out, "ugs", size, interval, jitter, base),
        FlowKind::Poll {
            interval,
            jitter,
            base,
        } => {
            put!(out, "service = \"poll\"\ninterval = {interval}\n");
            put!(out, "jitter = {jitter}\nbase = {base}\n");
        }
        FlowKind::Station {
            size,
            interval,
            jitter,
            base,
        } => put_sized(out, "station", size, interval, jitter, base),
        FlowKind::Initial {
            size,
            interval,
            jitter,
            base,
        } => put_sized(out, "initial", size, interval, jitter, base),
    }
}
