//! The body of a version 1 MAP message.

pub const REQUEST: u8 = 1;
pub const INITIAL_MAINTENANCE: u8 = 3;
pub const STATION_MAINTENANCE: u8 = 4;
pub const SHORT_DATA_GRANT: u8 = 5;
pub const LONG_DATA_GRANT: u8 = 6;
pub const NULL: u8 = 7;
pub const ADVANCED_SHORT_DATA_GRANT: u8 = 9;
pub const ADVANCED_LONG_DATA_GRANT: u8 = 10;
pub const ADVANCED_UNSOLICITED_GRANT: u8 = 11;
pub const EXPANSION: u8 = 15;

/// The SID that addresses every modem.
pub const EVERYBODY: u16 = 0x3FFF;

/// So many bytes stand before the elements.
pub const HEAD: usize = 16;

const MOST_ELEMENTS: usize = 255;

#[derive(Clone, Copy, Debug, PartialEq, Eq)]
pub struct Element {
    pub sid: u16,
    pub iuc: u8,
    pub offset: u16,
}

impl Element {
    pub fn of_word(word: u32) -> Element {
        Element {
            sid: (word >> 18) as u16,
            iuc: (word >> 14 & 15) as u8,
            offset: (word & 0x3FFF) as u16,
        }
    }

    pub fn word(self) -> u32 {
        word(self.sid, self.iuc, self.offset)
    }
}

pub fn word(sid: u16, iuc: u8, offset: u16) -> u32 {
    u32::from(sid) << 18 | u32::from(iuc) << 14 | u32::from(offset)
}

/// Times are as on the wire; each back-off is its start and its end.
#[derive(Clone, Copy, Debug, PartialEq, Eq)]
pub struct Head {
    pub channel: u8,
    pub ucd: u8,
    pub start: u32,
    pub ack: u32,
    pub ranging_backoff: (u8, u8),
    pub data_backoff: (u8, u8),
}

#[derive(Clone, Copy, Debug, PartialEq, Eq)]
pub enum MapFault {
    Short,
    Trailing,
    Expansion(usize),
    OutOfOrder(usize),
    NoNull,
    TooMany,
}

#[derive(Clone, Debug, PartialEq, Eq)]
pub struct MapBody {
    head: Head,
    elements: Vec<Element>,
    null: usize,
}

impl MapBody {
    pub fn new(head: Head, elements: Vec<Element>) -> Result<MapBody, MapFault> {
        if elements.len() > MOST_ELEMENTS {
            return Err(MapFault::TooMany);
        }
        let null = first_null(elements.iter().map(|element| element.word()))?;
        Ok(MapBody {
            head,
            elements,
            null,
        })
    }

    pub fn head(&self) -> &Head {
        &self.head
    }

    pub fn elements(&self) -> &[Element] {
        &self.elements
    }
}

/// Is a word's IUC the Null's or an expansion's?
fn is_special(word: u32) -> bool {
    let both = u32::from(NULL) << 14;
    word & both == both
}

fn is_expansion(word: u32) -> bool {
    let expansion = u32::from(EXPANSION) << 14;
    word & expansion == expansion
}

/// The place of the first Null among elements' words, or the first fault from left to right.
fn first_null(mut words: impl Iterator<Item = u32>) -> Result<usize, MapFault> {
    let mut last = 0;
    let mut i = 0;
    loop {
        let Some(word) = words.next() else {
            return Err(MapFault::NoNull);
        };
        let offset = word & 0x3FFF;
        if offset < last || is_special(word) {
            if is_expansion(word) {
                return Err(MapFault::Expansion(i));
            }
            if offset < last {
                return Err(MapFault::OutOfOrder(i));
            }
            break;
        }
        last = offset;
        i += 1;
    }
    match words.position(is_expansion) {
        Some(behind) => Err(MapFault::Expansion(i + 1 + behind)),
        None => Ok(i),
    }
}

/// A body as it stands in its bytes: the head, the elements' words and the place of the first Null.
#[derive(Clone, Copy)]
pub struct Outline<'a> {
    pub head: Head,
    pub words: &'a [[u8; 4]],
    pub null: usize,
}

impl Outline<'_> {
    pub fn element(&self, i: usize) -> Element {
        Element::of_word(u32::from_be_bytes(self.words[i]))
    }
}

fn u32_at(bytes: &[u8; HEAD], at: usize) -> u32 {
    u32::from_be_bytes([bytes[at], bytes[at + 1], bytes[at + 2], bytes[at + 3]])
}

/// Reads a body in place, or tells its first fault.
pub fn judge(bytes: &[u8]) -> Result<Outline<'_>, MapFault> {
    let Some((front, rest)) = bytes.split_first_chunk::<HEAD>() else {
        return Err(MapFault::Short);
    };
    let wanted = 4 * usize::from(front[2]);
    if rest.len() < wanted {
        return Err(MapFault::Short);
    }
    if rest.len() > wanted {
        return Err(MapFault::Trailing);
    }
    let (words, _) = rest.as_chunks::<4>();
    let null = first_null(words.iter().map(|word| u32::from_be_bytes(*word)))?;
    let head = Head {
        channel: front[0],
        ucd: front[1],
        start: u32_at(front, 4),
        ack: u32_at(front, 8),
        ranging_backoff: (front[12], front[13]),
        data_backoff: (front[14], front[15]),
    };
    Ok(Outline { head, words, null })
}

pub fn decode(bytes: &[u8]) -> Result<MapBody, MapFault> {
    let outline = judge(bytes)?;
    let words = outline.words.iter();
    Ok(MapBody {
        head: outline.head,
        elements: words
            .map(|word| Element::of_word(u32::from_be_bytes(*word)))
            .collect(),
        null: outline.null,
    })
}

/// The bytes of a body: its head, and no element yet, but room for so many.
pub fn with_head(head: &Head, count: usize) -> Vec<u8> {
    let mut bytes = vec![0; HEAD + 4 * count];
    bytes[0] = head.channel;
    bytes[1] = head.ucd;
    bytes[2] = count as u8;
    bytes[4..8].copy_from_slice(&head.start.to_be_bytes());
    bytes[8..12].copy_from_slice(&head.ack.to_be_bytes());
    bytes[12] = head.ranging_backoff.0;
    bytes[13] = head.ranging_backoff.1;
    bytes[14] = head.data_backoff.0;
    bytes[15] = head.data_backoff.1;
    bytes
}

pub fn encode(map: &MapBody) -> Vec<u8> {
    let mut bytes = with_head(&map.head, map.elements.len());
    let (words, _) = bytes[HEAD..].as_chunks_mut::<4>();
    for (place, element) in words.iter_mut().zip(&map.elements) {
        *place = element.word().to_be_bytes();
    }
    bytes
}

/// The SID and IUC of the interval that minislot x of the MAP lies in.
pub fn cell_at(map: &MapBody, x: u16) -> Option<(u16, u8)> {
    let intervals = &map.elements[..=map.null];
    let begun = intervals.partition_point(|element| element.offset <= x);
    if begun == 0 || begun == intervals.len() {
        return None;
    }
    let element = intervals[begun - 1];
    Some((element.sid, element.iuc))
}
