//! The scheduler: commands in, outputs out.

use crate::command::{Channel, ChannelSettings, Command};
use crate::cut::Filling;
use crate::table::{is_good_channel, CutAsked, Refusal, Table};

#[derive(Clone, Debug, PartialEq, Eq)]
pub enum Output {
    Nothing,
    ChannelSet {
        ch: u8,
        ucd: u8,
    },
    Assigned {
        modem: u32,
        ch: u8,
        sid: u16,
        first: u64,
        last: u64,
    },
    Map {
        ch: u8,
        start: u64,
        len: u16,
        bytes: Vec<u8>,
    },
    Refused(u8),
}

pub struct Machine {
    tables: Vec<Option<Box<Table>>>,
    filling: Filling,
}

impl Machine {
    pub fn new() -> Machine {
        Machine {
            tables: Vec::new(),
            filling: Filling::new(),
        }
    }

    pub fn apply(&mut self, command: &Command) -> Output {
        match self.applied(command) {
            Ok(output) => output,
            Err(refusal) => Output::Refused(refusal as u8),
        }
    }

    fn table(&mut self, ch: u8) -> Result<&mut Table, Refusal> {
        match self.tables.get_mut(usize::from(ch)) {
            Some(Some(table)) => Ok(table),
            _ => Err(Refusal::NoChannel),
        }
    }

    fn set_channel(&mut self, channel: Channel) -> Result<Output, Refusal> {
        if !is_good_channel(&channel) {
            return Err(Refusal::BadValue);
        }
        let place = usize::from(channel.id);
        if place >= self.tables.len() {
            self.tables.resize_with(place + 1, || None);
        }
        let table = &mut self.tables[place];
        if table.is_some() {
            return Err(Refusal::ChannelThere);
        }
        *table = Some(Box::new(Table::new(channel)));
        Ok(Output::ChannelSet {
            ch: channel.id,
            ucd: channel.ucd,
        })
    }

    fn change_channel(&mut self, ch: u8, settings: &ChannelSettings) -> Result<Output, Refusal> {
        self.table(ch)?.change(settings)?;
        Ok(Output::ChannelSet {
            ch,
            ucd: settings.ucd,
        })
    }

    fn applied(&mut self, command: &Command) -> Result<Output, Refusal> {
        match *command {
            Command::Noop => Ok(Output::Nothing),
            Command::Channel(channel) => self.set_channel(channel),
            Command::Change { ch, settings } => self.change_channel(ch, &settings),
            Command::Flow {
                ch,
                modem,
                tag,
                last,
                kind,
            } => {
                let lease = self.table(ch)?.add_flow(modem, tag, last, kind)?;
                Ok(Output::Assigned {
                    modem,
                    ch,
                    sid: lease.sid,
                    first: lease.first,
                    last: lease.last,
                })
            }
            Command::Drop { ch, sid } => {
                self.table(ch)?.drop_flow(sid)?;
                Ok(Output::Nothing)
            }
            Command::Request { ch, sid, n, sent } => {
                self.table(ch)?.request(sid, n, sent)?;
                Ok(Output::Nothing)
            }
            Command::Cut {
                ch,
                len,
                not_before,
                ack,
                set,
            } => self.cut(
                ch,
                &CutAsked {
                    len,
                    not_before,
                    ack,
                    set,
                },
            ),
        }
    }

    fn cut(&mut self, ch: u8, asked: &CutAsked) -> Result<Output, Refusal> {
        let Some(Some(table)) = self.tables.get_mut(usize::from(ch)) else {
            return Err(Refusal::NoChannel);
        };
        let (start, bytes) = table.cut(&mut self.filling, asked)?;
        Ok(Output::Map {
            ch,
            start,
            len: asked.len,
            bytes,
        })
    }
}

impl Default for Machine {
    fn default() -> Machine {
        Machine::new()
    }
}
