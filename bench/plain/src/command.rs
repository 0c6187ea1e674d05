//! Commands and their bytes.

use crate::fields::Fields;
use crate::LAST_TIME;

#[derive(Clone, Copy, Debug, PartialEq, Eq)]
pub enum Phy {
    Tdma,
    Advanced,
}

#[derive(Clone, Copy, Debug, PartialEq, Eq)]
pub struct Channel {
    pub id: u8,
    pub ucd: u8,
    pub phy: Phy,
    pub short_max: u16,
    pub ranging_backoff: (u8, u8),
    pub data_backoff: (u8, u8),
    pub base: u64,
}

#[derive(Clone, Copy, Debug, PartialEq, Eq)]
pub enum FlowKind {
    BestEffort(u8),
    Ugs {
        size: u16,
        interval: u32,
        jitter: u32,
        base: u64,
    },
    Poll {
        interval: u32,
        jitter: u32,
        base: u64,
    },
    Station {
        size: u16,
        interval: u32,
        jitter: u32,
        base: u64,
    },
    Initial {
        size: u16,
        interval: u32,
        jitter: u32,
        base: u64,
    },
}

/// What a channel that changes has from then on.
#[derive(Clone, Copy, Debug, PartialEq, Eq)]
pub struct ChannelSettings {
    pub ucd: u8,
    pub phy: Phy,
    pub short_max: u16,
    pub ranging_backoff: (u8, u8),
    pub data_backoff: (u8, u8),
}

/// The back-off of a cut that stands for the channel's own.
pub const OWN: (u8, u8) = (255, 255);

/// What a cut sets: so many minislots stay free of requests' grants, and the back-offs that its MAP has.
#[derive(Clone, Copy, Debug, PartialEq, Eq)]
pub struct CutSettings {
    pub keep: u16,
    pub ranging: (u8, u8),
    pub data: (u8, u8),
}

impl CutSettings {
    pub const NONE: CutSettings = CutSettings {
        keep: 0,
        ranging: OWN,
        data: OWN,
    };
}

#[derive(Clone, Copy, Debug, PartialEq, Eq)]
pub enum Command {
    Noop,
    Channel(Channel),
    Change {
        ch: u8,
        settings: ChannelSettings,
    },
    Flow {
        ch: u8,
        modem: u32,
        tag: u32,
        last: u64,
        kind: FlowKind,
    },
    Drop {
        ch: u8,
        sid: u16,
    },
    Request {
        ch: u8,
        sid: u16,
        n: u16,
        sent: u64,
    },
    Cut {
        ch: u8,
        len: u16,
        not_before: u64,
        ack: u64,
        set: CutSettings,
    },
}

fn channel_of(fields: &mut Fields, phy: Phy) -> Option<Command> {
    Some(Command::Channel(Channel {
        id: fields.u8()?,
        ucd: fields.u8()?,
        phy,
        short_max: fields.u16()?,
        ranging_backoff: (fields.u8()?, fields.u8()?),
        data_backoff: (fields.u8()?, fields.u8()?),
        base: fields.u64()?,
    }))
}

fn change_of(fields: &mut Fields) -> Option<Command> {
    let ch = fields.u8()?;
    let ucd = fields.u8()?;
    let phy = match fields.u8()? {
        0 => Phy::Tdma,
        1 => Phy::Advanced,
        _ => return None,
    };
    let settings = ChannelSettings {
        ucd,
        phy,
        short_max: fields.u16()?,
        ranging_backoff: (fields.u8()?, fields.u8()?),
        data_backoff: (fields.u8()?, fields.u8()?),
    };
    Some(Command::Change { ch, settings })
}

fn cut_of(fields: &mut Fields, is_set: bool) -> Option<Command> {
    let ch = fields.u8()?;
    let len = fields.u16()?;
    let not_before = fields.u64()?;
    let ack = fields.u64()?;
    let set = match is_set {
        true => CutSettings {
            keep: fields.u16()?,
            ranging: (fields.u8()?, fields.u8()?),
            data: (fields.u8()?, fields.u8()?),
        },
        false => CutSettings::NONE,
    };
    if is_set && set == CutSettings::NONE {
        return None;
    }
    Some(Command::Cut {
        ch,
        len,
        not_before,
        ack,
        set,
    })
}

fn kind_of(fields: &mut Fields) -> Option<FlowKind> {
    match fields.u8()? {
        0 => Some(FlowKind::BestEffort(fields.u8()?)),
        1 => Some(FlowKind::Ugs {
            size: fields.u16()?,
            interval: fields.u32()?,
            jitter: fields.u32()?,
            base: fields.u64()?,
        }),
        2 => Some(FlowKind::Poll {
            interval: fields.u32()?,
            jitter: fields.u32()?,
            base: fields.u64()?,
        }),
        3 => Some(FlowKind::Station {
            size: fields.u16()?,
            interval: fields.u32()?,
            jitter: fields.u32()?,
            base: fields.u64()?,
        }),
        4 => Some(FlowKind::Initial {
            size: fields.u16()?,
            interval: fields.u32()?,
            jitter: fields.u32()?,
            base: fields.u64()?,
        }),
        _ => None,
    }
}

fn flow_of(fields: &mut Fields, is_leased: bool) -> Option<Command> {
    let ch = fields.u8()?;
    let modem = fields.u32()?;
    let tag = fields.u32()?;
    let last = if is_leased { fields.u64()? } else { LAST_TIME };
    if is_leased && last == LAST_TIME {
        return None;
    }
    let kind = kind_of(fields)?;
    Some(Command::Flow {
        ch,
        modem,
        tag,
        last,
        kind,
    })
}

fn command_of(fields: &mut Fields) -> Option<Command> {
    match fields.u8()? {
        0 => Some(Command::Noop),
        1 => channel_of(fields, Phy::Tdma),
        6 => channel_of(fields, Phy::Advanced),
        2 => flow_of(fields, false),
        7 => flow_of(fields, true),
        3 => Some(Command::Drop {
            ch: fields.u8()?,
            sid: fields.u16()?,
        }),
        4 => Some(Command::Request {
            ch: fields.u8()?,
            sid: fields.u16()?,
            n: fields.u16()?,
            sent: fields.u64()?,
        }),
        5 => cut_of(fields, false),
        9 => cut_of(fields, true),
        10 => change_of(fields),
        _ => None,
    }
}

/// The command that bytes spell, and true; a noop and false where they spell none.
pub fn read_command(bytes: &[u8]) -> (Command, bool) {
    let mut fields = Fields::new(bytes);
    match command_of(&mut fields) {
        Some(command) if fields.is_empty() => (command, true),
        _ => (Command::Noop, false),
    }
}

fn put_channel(out: &mut Vec<u8>, channel: &Channel) {
    out.extend([
        match channel.phy {
            Phy::Tdma => 1,
            Phy::Advanced => 6,
        },
        channel.id,
        channel.ucd,
    ]);
    out.extend(channel.short_max.to_be_bytes());
    out.extend([channel.ranging_backoff.0, channel.ranging_backoff.1]);
    out.extend([channel.data_backoff.0, channel.data_backoff.1]);
    out.extend(channel.base.to_be_bytes());
}

fn put_change(out: &mut Vec<u8>, ch: u8, settings: &ChannelSettings) {
    let phy = match settings.phy {
        Phy::Tdma => 0,
        Phy::Advanced => 1,
    };
    out.extend([10, ch, settings.ucd, phy]);
    out.extend(settings.short_max.to_be_bytes());
    out.extend([settings.ranging_backoff.0, settings.ranging_backoff.1]);
    out.extend([settings.data_backoff.0, settings.data_backoff.1]);
}

fn put_cut(out: &mut Vec<u8>, ch: u8, len: u16, not_before: u64, ack: u64, set: CutSettings) {
    let is_set = set != CutSettings::NONE;
    out.extend([if is_set { 9 } else { 5 }, ch]);
    out.extend(len.to_be_bytes());
    out.extend(not_before.to_be_bytes());
    out.extend(ack.to_be_bytes());
    if is_set {
        out.extend(set.keep.to_be_bytes());
        out.extend([set.ranging.0, set.ranging.1, set.data.0, set.data.1]);
    }
}

fn put_timing(out: &mut Vec<u8>, interval: u32, jitter: u32, base: u64) {
    out.extend(interval.to_be_bytes());
    out.extend(jitter.to_be_bytes());
    out.extend(base.to_be_bytes());
}

fn kind_byte(kind: FlowKind) -> u8 {
    match kind {
        FlowKind::BestEffort(_) => 0,
        FlowKind::Ugs { .. } => 1,
        FlowKind::Poll { .. } => 2,
        FlowKind::Station { .. } => 3,
        FlowKind::Initial { .. } => 4,
    }
}

fn put_kind(out: &mut Vec<u8>, kind: FlowKind) {
    out.push(kind_byte(kind));
    match kind {
        FlowKind::BestEffort(priority) => out.push(priority),
        FlowKind::Ugs {
            size,
            interval,
            jitter,
            base,
        }
        | FlowKind::Station {
            size,
            interval,
            jitter,
            base,
        }
        | FlowKind::Initial {
            size,
            interval,
            jitter,
            base,
        } => {
            out.extend(size.to_be_bytes());
            put_timing(out, interval, jitter, base);
        }
        FlowKind::Poll {
            interval,
            jitter,
            base,
        } => put_timing(out, interval, jitter, base),
    }
}

fn put_flow(out: &mut Vec<u8>, ch: u8, modem: u32, tag: u32, last: u64, kind: FlowKind) {
    out.extend([if last == LAST_TIME { 2 } else { 7 }, ch]);
    out.extend(modem.to_be_bytes());
    out.extend(tag.to_be_bytes());
    if last != LAST_TIME {
        out.extend(last.to_be_bytes());
    }
    put_kind(out, kind);
}

pub fn command_bytes(command: &Command) -> Vec<u8> {
    let mut out = Vec::with_capacity(37);
    match *command {
        Command::Noop => out.push(0),
        Command::Channel(channel) => put_channel(&mut out, &channel),
        Command::Change { ch, settings } => put_change(&mut out, ch, &settings),
        Command::Flow {
            ch,
            modem,
            tag,
            last,
            kind,
        } => put_flow(&mut out, ch, modem, tag, last, kind),
        Command::Drop { ch, sid } => {
            out.extend([3, ch]);
            out.extend(sid.to_be_bytes());
        }
        Command::Request { ch, sid, n, sent } => {
            out.extend([4, ch]);
            out.extend(sid.to_be_bytes());
            out.extend(n.to_be_bytes());
            out.extend(sent.to_be_bytes());
        }
        Command::Cut {
            ch,
            len,
            not_before,
            ack,
            set,
        } => put_cut(&mut out, ch, len, not_before, ack, set),
    }
    out
}
