//! What comes to four modems: outputs of a machine near their times, damaged ones, wants and minislots.

use crate::body::{encode, Head, MapBody};
use crate::machine::Output;
use crate::made::bodies::made_elements;
use crate::made::commands::CommandMaker;
use crate::random::Random;
use crate::records::put_record;
use std::collections::VecDeque;

/// So many MAPs are kept, to be heard again.
const KEPT: usize = 12;

/// So many SIDs are kept, of which modems that begin anew hear.
const MOST_TOLD: usize = 200;

/// After so many events on average a modem begins anew.
const LIFE: u64 = 4000;

/// A modem's minislots go on by channel.
struct Maker {
    commands: CommandMaker,
    random: Random,
    told: VecDeque<Output>,
    maps: VecDeque<Output>,
    slots: [[u64; 256]; 4],
}

pub fn put_output(record: &mut Vec<u8>, output: &Output) {
    match output {
        Output::Nothing => record.push(0),
        Output::ChannelSet { ch, ucd } => record.extend([1, *ch, *ucd]),
        Output::Assigned {
            modem,
            ch,
            sid,
            first,
            last,
        } => {
            record.push(2);
            record.extend(modem.to_be_bytes());
            record.push(*ch);
            record.extend(sid.to_be_bytes());
            record.extend(first.to_be_bytes());
            record.extend(last.to_be_bytes());
        }
        Output::Map {
            ch,
            start,
            len,
            bytes,
        } => {
            record.extend([3, *ch]);
            record.extend(start.to_be_bytes());
            record.extend(len.to_be_bytes());
            record.extend_from_slice(bytes);
        }
        Output::Refused(number) => record.extend([4, *number]),
    }
}

pub fn hear_record(modem: u8, output: &Output, near: u64) -> Vec<u8> {
    let mut record = vec![0, modem];
    record.extend(near.to_be_bytes());
    put_output(&mut record, output);
    record
}

pub fn want_record(modem: u8, ch: u8, sid: u16, n: u16) -> Vec<u8> {
    let mut record = vec![1, modem, ch];
    record.extend(sid.to_be_bytes());
    record.extend(n.to_be_bytes());
    record
}

pub fn tick_record(modem: u8, ch: u8, slot: u64, random: u64) -> Vec<u8> {
    let mut record = vec![2, modem, ch];
    record.extend(slot.to_be_bytes());
    record.extend(random.to_be_bytes());
    record
}

impl Maker {
    /// A MAP of its own over the SIDs that are given first.
    fn made_map(&mut self) -> Output {
        let random = &mut self.random;
        let count = random.between(1, 40) as usize;
        let mut elements = made_elements(random, count, count.saturating_sub(3));
        for element in &mut elements {
            element.sid = match random.below(5) {
                0 => 0x3FFF,
                _ => random.below(40) as u16,
            };
        }
        let ch = random.below(4) as u8;
        let modem = random.below(4) as usize;
        let start = self.slots[modem][usize::from(ch)] + random.below(200);
        let head = Head {
            channel: ch,
            ucd: random.below(256) as u8,
            start: start as u32,
            ack: (start as u32).wrapping_sub(random.below(300) as u32),
            ranging_backoff: (0, 0),
            data_backoff: (random.below(16) as u8, random.below(16) as u8),
        };
        let ucd = self.maps.iter().find_map(|map| match map {
            Output::Map { ch: of, bytes, .. } if *of == ch => bytes.get(1).copied(),
            _ => None,
        });
        let head = Head {
            ucd: ucd.unwrap_or(head.ucd),
            ..head
        };
        match MapBody::new(head, elements) {
            Ok(map) => Output::Map {
                ch,
                start,
                len: 1,
                bytes: encode(&map),
            },
            Err(_) => Output::Nothing,
        }
    }

    /// The machine's next output.
    fn next_output(&mut self) -> Output {
        let (_, output) = self.commands.next_one();
        let (list, most) = match output {
            Output::Map { .. } => (&mut self.maps, KEPT),
            Output::ChannelSet { .. } | Output::Assigned { .. } => (&mut self.told, MOST_TOLD),
            Output::Nothing | Output::Refused(_) => return output,
        };
        list.push_back(output.clone());
        if list.len() > most {
            list.pop_front();
        }
        output
    }

    fn made_output(&mut self) -> Output {
        match self.random.below(20) {
            0 | 1 => return self.made_map(),
            2..=6 => return self.next_output(),
            _ => {}
        }
        let list = match self.random.percent(30) {
            true => &self.told,
            false => &self.maps,
        };
        if list.is_empty() {
            return self.next_output();
        }
        let at = self.random.below(list.len() as u64) as usize;
        let mut output = list[at].clone();
        if let Output::Map { bytes, .. } = &mut output {
            if self.random.percent(3) {
                let at = self.random.below(bytes.len() as u64) as usize;
                bytes[at] = self.random.number() as u8;
            }
        }
        output
    }

    fn made_hear(&mut self) -> Vec<u8> {
        let modem = self.random.below(4) as u8;
        let output = self.made_output();
        let near = match &output {
            Output::Map { ch, start, .. } => {
                let slot = &mut self.slots[usize::from(modem)][usize::from(*ch)];
                let early = start.saturating_sub(self.random.below(30));
                match self.random.below(20_000) {
                    0 => self.random.number() >> 1,
                    1 => start + self.random.below(1 << 33),
                    2..=6000 => {
                        *slot = early.max(*slot);
                        *slot
                    }
                    _ => early.min(*slot),
                }
            }
            _ => 0,
        };
        hear_record(modem, &output, near)
    }

    /// A modem that begins anew hears of a channel's setting and of SIDs in the next records.
    fn made_anew(&mut self) -> Vec<u8> {
        let modem = self.random.below(4) as u8;
        self.slots[usize::from(modem)] = [0; 256];
        vec![3, modem]
    }

    fn made_tick(&mut self) -> Vec<u8> {
        let modem = self.random.below(4) as u8;
        let ch = self.random.below(4) as u8;
        let slot = &mut self.slots[usize::from(modem)][usize::from(ch)];
        *slot += self.random.one_of(&[1, 1, 1, 1, 2, 10]);
        let at = match self.random.below(50) {
            0 => slot.saturating_sub(20),
            _ => *slot,
        };
        let number = self.random.number();
        let random = self.random.one_of(&[0, 0, 1, 2, number]);
        tick_record(modem, ch, at, random)
    }

    fn made_want(&mut self) -> Vec<u8> {
        let modem = self.random.below(4) as u8;
        let ch = self.random.below(4) as u8;
        let n = self.random.below(258) as u16;
        let at = self.random.below(MOST_TOLD as u64) as usize;
        match self.told.get(at) {
            Some(Output::Assigned { modem, ch, sid, .. }) if *modem < 4 => {
                want_record(*modem as u8, *ch, *sid, n)
            }
            _ => want_record(modem, ch, self.random.below(60) as u16, n),
        }
    }

    fn next_one(&mut self) -> Vec<u8> {
        if self.random.below(LIFE) == 0 {
            return self.made_anew();
        }
        match self.random.below(20) {
            0..=6 => self.made_hear(),
            7..=17 => self.made_tick(),
            _ => self.made_want(),
        }
    }
}

pub fn made(seed: u64, count: usize) -> Vec<u8> {
    let mut maker = Maker {
        commands: CommandMaker::new(seed, true),
        random: Random::new(seed ^ 0x5555),
        told: VecDeque::new(),
        maps: VecDeque::new(),
        slots: [[0; 256]; 4],
    };
    let mut file = Vec::new();
    for _ in 0..count {
        let record = maker.next_one();
        put_record(&mut file, &record);
    }
    file
}
