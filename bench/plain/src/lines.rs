//! What is answered, as lines of text.

use crate::body::MapFault;
use crate::machine::Output;
use crate::modem::{Heard, Sending};
use crate::LAST_TIME;

pub fn put_hex(out: &mut String, bytes: &[u8]) {
    const DIGITS: &[u8; 16] = b"0123456789abcdef";
    for byte in bytes {
        out.push(char::from(DIGITS[usize::from(byte >> 4)]));
        out.push(char::from(DIGITS[usize::from(byte & 15)]));
    }
}

/// Writes to a text, which never fails.
macro_rules! put {
    ($out:expr, $($words:tt)*) => {{
        use std::fmt::Write as _;
        let _ = write!($out, $($words)*);
    }};
}
pub(crate) use put;

pub fn put_output(out: &mut String, output: &Output) {
    match output {
        Output::Nothing => out.push_str("nothing"),
        Output::ChannelSet { ch, ucd } => {
            put!(out, "channel {ch} ucd {ucd}");
        }
        Output::Assigned {
            modem,
            ch,
            sid,
            first,
            last,
        } => {
            put!(out, "assigned modem {modem} channel {ch} sid {sid}");
            if *first != 0 || *last != LAST_TIME {
                put!(out, " first {first} last {last}");
            }
        }
        Output::Map {
            ch,
            start,
            len,
            bytes,
        } => {
            put!(out, "map channel {ch} start {start} len {len} ");
            put_hex(out, bytes);
        }
        Output::Refused(number) => {
            put!(out, "refused {number}");
        }
    }
}

pub fn put_fault(out: &mut String, fault: MapFault) {
    match fault {
        MapFault::Short => out.push_str("body 1"),
        MapFault::Trailing => out.push_str("body 2"),
        MapFault::Expansion(i) => {
            put!(out, "body 3 {i}");
        }
        MapFault::OutOfOrder(i) => {
            put!(out, "body 4 {i}");
        }
        MapFault::NoNull => out.push_str("body 5"),
        MapFault::TooMany => out.push_str("body 7"),
    }
}

pub fn heard_line(heard: Heard) -> &'static str {
    match heard {
        Heard::Taken => "heard taken",
        Heard::NotMine => "heard not-mine",
        Heard::OtherUcd => "heard other-ucd",
        Heard::Past => "heard past",
        Heard::Unreadable => "heard unreadable",
    }
}

pub fn put_sending(out: &mut String, sending: Option<Sending>) {
    match sending {
        None => out.push_str("idle"),
        Some(Sending::Unicast(sid)) => {
            put!(out, "unicast {sid}");
        }
        Some(Sending::Polled(sid, n)) => {
            put!(out, "polled {sid} {n}");
        }
        Some(Sending::Request(sid, n)) => {
            put!(out, "request {sid} {n}");
        }
        Some(Sending::Ranging(sid)) => {
            put!(out, "ranging {sid}");
        }
    }
}
