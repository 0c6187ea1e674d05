//! MAP bodies, good ones and damaged ones.

use crate::body::{encode, Element, Head, MapBody, NULL};
use crate::random::Random;
use crate::records::put_record;
use std::cmp::Ordering;

fn made_head(random: &mut Random) -> Head {
    let mut byte = || random.number() as u8;
    let ranging_backoff = (byte(), byte());
    let data_backoff = (byte(), byte());
    let channel = byte();
    let ucd = byte();
    Head {
        channel,
        ucd,
        start: random.number() as u32,
        ack: random.number() as u32,
        ranging_backoff,
        data_backoff,
    }
}

/// An IUC that is neither the Null's nor an expansion's.
fn made_iuc(random: &mut Random) -> u8 {
    match random.below(15) as u8 {
        NULL => 6,
        iuc => iuc,
    }
}

/// So many elements of which one, at a place, is the first Null.
pub fn made_elements(random: &mut Random, count: usize, null: usize) -> Vec<Element> {
    let step = random.one_of(&[2, 40, 64]);
    let mut elements = Vec::new();
    let mut offset = 0;
    for i in 0..count {
        offset = (offset + random.below(step) as u16).min(0x3FFF);
        if i > null {
            offset = random.below(1 << 14) as u16;
        }
        elements.push(Element {
            sid: random.below(1 << 14) as u16,
            iuc: match i.cmp(&null) {
                Ordering::Less => made_iuc(random),
                Ordering::Equal => NULL,
                Ordering::Greater => random.below(15) as u8,
            },
            offset,
        });
    }
    elements
}

fn damage(random: &mut Random, bytes: &mut Vec<u8>) {
    let len = bytes.len() as u64;
    match random.below(6) {
        0 => bytes.truncate(random.below(len + 1) as usize),
        1 => bytes.push(random.number() as u8),
        2 => bytes[2] = random.number() as u8,
        3 => bytes[3] = random.number() as u8,
        _ => {
            for _ in 0..random.between(1, 4) {
                let at = random.below(len) as usize;
                bytes[at] = random.number() as u8;
            }
        }
    }
}

fn made_bytes(random: &mut Random) -> Vec<u8> {
    let most = random.one_of(&[4, 30, 255]);
    let count = random.between(1, most) as usize;
    let null = random.below(count as u64) as usize;
    let elements = made_elements(random, count, null);
    let head = made_head(random);
    let mut bytes = match MapBody::new(head, elements) {
        Ok(map) => encode(&map),
        Err(_) => Vec::new(),
    };
    if bytes.len() >= 4 && random.percent(40) {
        damage(random, &mut bytes);
    }
    bytes
}

/// A head and elements, of which some are no body's.
fn put_elements(random: &mut Random, record: &mut Vec<u8>) {
    let most = random.one_of(&[4, 60, 258]);
    let count = random.below(most + 1) as usize;
    let null = random.below(count as u64 + 2) as usize;
    let mut elements = made_elements(random, count, null);
    if count > 0 && random.percent(40) {
        let at = random.below(count as u64) as usize;
        elements[at] = Element::of_word(random.number() as u32);
    }
    let head = made_head(random);
    record.extend([head.channel, head.ucd]);
    record.extend(head.start.to_be_bytes());
    record.extend(head.ack.to_be_bytes());
    record.extend([head.ranging_backoff.0, head.ranging_backoff.1]);
    record.extend([head.data_backoff.0, head.data_backoff.1]);
    for element in elements {
        record.extend(element.word().to_be_bytes());
    }
}

pub fn made(seed: u64, count: usize) -> Vec<u8> {
    let mut random = Random::new(seed);
    let mut file = Vec::new();
    for _ in 0..count {
        let mut record = Vec::new();
        if random.percent(70) {
            record.push(0);
            record.extend(made_bytes(&mut random));
        } else {
            record.push(1);
            put_elements(&mut random, &mut record);
        }
        put_record(&mut file, &record);
    }
    file
}
