//! A modem: it hears MAPs, keeps what they give it, and says what it sends at each minislot.

use crate::body::{
    judge, Element, Head, Outline, ADVANCED_LONG_DATA_GRANT, ADVANCED_SHORT_DATA_GRANT,
    ADVANCED_UNSOLICITED_GRANT, EVERYBODY, LONG_DATA_GRANT, REQUEST, SHORT_DATA_GRANT,
    STATION_MAINTENANCE,
};
use crate::machine::Output;
use std::collections::VecDeque;

/// Times are below this.
const TIME_LIMIT: u64 = 1 << 63;

const MOST_TRIES: u8 = 16;

#[derive(Clone, Copy, Debug, PartialEq, Eq)]
pub enum Heard {
    Taken,
    NotMine,
    OtherUcd,
    Past,
    Unreadable,
}

#[derive(Clone, Copy, Debug, PartialEq, Eq)]
pub enum WantFault {
    NotMine = 1,
    Waiting,
    BadSize,
}

#[derive(Clone, Copy, Debug, PartialEq, Eq)]
pub enum Sending {
    Unicast(u16),
    Polled(u16, u16),
    Request(u16, u16),
    Ranging(u16),
}

#[derive(Clone, Copy, Debug, PartialEq, Eq)]
pub struct TimeBack;

#[derive(Clone, Copy, PartialEq, Eq)]
struct Lease {
    first: u64,
    last: u64,
    sid: u16,
}

/// Minislots of a MAP that are the modem's, or open to all.
#[derive(Clone, Copy, PartialEq, Eq)]
struct Kept {
    start: u64,
    len: u16,
    sid: u16,
    iuc: u8,
}

impl Kept {
    fn stop(&self) -> u64 {
        self.start + u64::from(self.len)
    }
}

#[derive(Clone, Copy, PartialEq, Eq)]
enum Progress {
    Unsent(Option<u16>),
    Sent(u64),
}

/// What a MAP says of a want.
#[derive(Clone, Copy, PartialEq, Eq)]
enum Answer {
    Unasked,
    Lost,
    Pending,
    Granted,
}

#[derive(Clone, Copy)]
struct Want {
    progress: Progress,
    sid: u16,
    n: u16,
    tries: u8,
    answer: Answer,
}

/// What a modem knows of a channel. Leases and wants are in the order of their SIDs, kept ones of their starts.
struct Site {
    ch: u8,
    ucd: Option<u8>,
    backoff: (u8, u8),
    clock: u64,
    // A bit for each SID modulo 64 of which there is a lease.
    sids: u64,
    leases: Vec<Lease>,
    grants: VecDeque<Kept>,
    open: VecDeque<Kept>,
    wants: Vec<Want>,
    // Up to this minislot no want loses its last lease.
    wants_until: u64,
}

pub struct Modem {
    id: u32,
    sites: Vec<Site>,
}

fn lets_transmit(iuc: u8) -> bool {
    answers_request(iuc) || iuc == ADVANCED_UNSOLICITED_GRANT
}

fn answers_request(iuc: u8) -> bool {
    matches!(
        iuc,
        SHORT_DATA_GRANT | LONG_DATA_GRANT | ADVANCED_SHORT_DATA_GRANT | ADVANCED_LONG_DATA_GRANT
    )
}

/// The time with these low 32 bits from 2^31 minislots before a time to less than 2^31 after it.
pub fn extend(bits: u32, near: u64) -> Option<u64> {
    let distance = i64::from(bits.wrapping_sub(near as u32) as i32);
    near.checked_add_signed(distance)
        .filter(|time| *time < TIME_LIMIT)
}

/// Keeps one in its place, unless it is kept, as where a MAP is heard again.
fn keep(kept: &mut VecDeque<Kept>, one: Kept) {
    match kept.back() {
        Some(back) if back.start >= one.start => keep_within(kept, one),
        _ => kept.push_back(one),
    }
}

fn keep_within(kept: &mut VecDeque<Kept>, one: Kept) {
    let at = kept.partition_point(|k| k.start < one.start);
    let mut same_start = kept.range(at..).take_while(|k| k.start == one.start);
    if !same_start.any(|k| *k == one) {
        kept.insert(at, one);
    }
}

fn let_go(kept: &mut VecDeque<Kept>, clock: u64) {
    while kept.front().is_some_and(|front| front.stop() <= clock) {
        kept.pop_front();
    }
}

fn covering(kept: &VecDeque<Kept>, at: u64) -> impl Iterator<Item = &Kept> {
    kept.iter()
        .take_while(move |k| k.start <= at)
        .filter(move |k| at < k.stop())
}

impl Site {
    fn new(ch: u8) -> Site {
        Site {
            ch,
            ucd: None,
            backoff: (0, 0),
            clock: 0,
            sids: 0,
            leases: Vec::new(),
            grants: VecDeque::new(),
            open: VecDeque::new(),
            wants: Vec::new(),
            wants_until: u64::MAX,
        }
    }

    fn may_own(&self, sid: u16) -> bool {
        self.sids >> (sid % 64) & 1 == 1
    }

    fn leases_of(&self, sid: u16) -> &[Lease] {
        let from = self.leases.partition_point(|l| l.sid < sid);
        let rest = &self.leases[from..];
        let count = rest.iter().take_while(|l| l.sid == sid).count();
        &rest[..count]
    }

    fn is_own_at(&self, sid: u16, at: u64) -> bool {
        let mut leases = self.leases_of(sid).iter();
        leases.any(|l| l.first <= at && at <= l.last)
    }

    fn is_own_from(&self, sid: u16, clock: u64) -> bool {
        self.leases_of(sid).iter().any(|l| clock <= l.last)
    }

    fn add_lease(&mut self, lease: Lease) {
        if self.leases_of(lease.sid).contains(&lease) {
            return;
        }
        let at = self.leases.partition_point(|l| l.sid <= lease.sid);
        self.leases.insert(at, lease);
        self.sids |= 1 << (lease.sid % 64);
    }

    /// The clock goes on: what ended is let go, and wants whose leases are all over.
    fn pass_to(&mut self, clock: u64) {
        self.clock = clock;
        let_go(&mut self.grants, clock);
        let_go(&mut self.open, clock);
        if clock > self.wants_until {
            self.forget_ended_wants();
        }
    }

    fn forget_ended_wants(&mut self) {
        let mut wants = std::mem::take(&mut self.wants);
        wants.retain(|w| self.is_own_from(w.sid, self.clock));
        self.wants_until = wants
            .iter()
            .map(|w| self.last_of(w.sid))
            .min()
            .unwrap_or(u64::MAX);
        self.wants = wants;
    }

    /// The last minislot of all leases of a SID.
    fn last_of(&self, sid: u16) -> u64 {
        let lasts = self.leases_of(sid).iter().map(|l| l.last);
        lasts.max().unwrap_or(0)
    }

    fn place_of(&self, sid: u16) -> Result<usize, usize> {
        self.wants.binary_search_by_key(&sid, |w| w.sid)
    }

    fn want(&mut self, sid: u16, n: u16) -> Result<(), WantFault> {
        if !self.is_own_from(sid, self.clock) {
            return Err(WantFault::NotMine);
        }
        if !(1..=255).contains(&n) {
            return Err(WantFault::BadSize);
        }
        let Err(at) = self.place_of(sid) else {
            return Err(WantFault::Waiting);
        };
        let want = Want {
            progress: Progress::Unsent(None),
            sid,
            n,
            tries: 0,
            answer: Answer::Unasked,
        };
        self.wants.insert(at, want);
        self.wants_until = self.wants_until.min(self.last_of(sid));
        Ok(())
    }

    fn send(&mut self, at: u64, random: u64) -> Option<Sending> {
        let own = covering(&self.grants, at).map(|k| (k.sid, k.iuc)).min();
        match own {
            Some((sid, iuc)) if lets_transmit(iuc) => Some(Sending::Unicast(sid)),
            Some((sid, STATION_MAINTENANCE)) => Some(Sending::Ranging(sid)),
            Some((sid, REQUEST)) => self.poll(sid, at),
            _ if covering(&self.open, at).next().is_some() => self.share(at, random),
            _ => None,
        }
    }

    fn poll(&mut self, sid: u16, at: u64) -> Option<Sending> {
        let place = self.place_of(sid).ok()?;
        let want = &mut self.wants[place];
        match want.progress {
            Progress::Sent(_) => None,
            Progress::Unsent(_) => {
                want.progress = Progress::Sent(at);
                Some(Sending::Polled(sid, want.n))
            }
        }
    }

    /// The unsent want of the least SID takes part in a minislot that is open to all.
    fn share(&mut self, at: u64, random: u64) -> Option<Sending> {
        let place = self
            .wants
            .iter()
            .position(|w| matches!(w.progress, Progress::Unsent(_)) && self.is_own_at(w.sid, at))?;
        let (start, end) = self.backoff;
        let want = &mut self.wants[place];
        let number = match want.progress {
            Progress::Unsent(Some(number)) => number,
            _ => {
                let exponent = (u16::from(start) + u16::from(want.tries))
                    .min(u16::from(end))
                    .min(15);
                (random & ((1 << exponent) - 1)) as u16
            }
        };
        if number == 0 {
            want.progress = Progress::Sent(at);
            return Some(Sending::Request(want.sid, want.n));
        }
        want.progress = Progress::Unsent(Some(number - 1));
        None
    }

    fn take(&mut self, outline: &Outline, start: u64, clock: u64) {
        self.pass_to(clock);
        for pair in outline.words[..=outline.null].windows(2) {
            let element = Element::of_word(u32::from_be_bytes(pair[0]));
            if element.sid != EVERYBODY && !self.may_own(element.sid) {
                continue;
            }
            let behind = Element::of_word(u32::from_be_bytes(pair[1]));
            if element.offset < behind.offset {
                self.take_interval(Kept {
                    start: start + u64::from(element.offset),
                    len: behind.offset - element.offset,
                    sid: element.sid,
                    iuc: element.iuc,
                });
            }
        }
        self.backoff = outline.head.data_backoff;
    }

    fn take_interval(&mut self, interval: Kept) {
        if interval.sid == EVERYBODY && interval.iuc == REQUEST && self.clock < interval.stop() {
            keep(&mut self.open, interval);
        }
        if !self.may_own(interval.sid) {
            return;
        }
        let from = self.leases.partition_point(|l| l.sid < interval.sid);
        for lease in &self.leases[from..] {
            if lease.sid != interval.sid {
                break;
            }
            let start = interval.start.max(lease.first);
            let stop = interval.stop().min(lease.last.saturating_add(1));
            if start < stop && self.clock < stop {
                let piece = Kept {
                    start,
                    len: (stop - start) as u16,
                    ..interval
                };
                keep(&mut self.grants, piece);
            }
        }
    }

    /// The MAP decides the wants that were sent before its Ack Time.
    fn decide(&mut self, outline: &Outline, start: u64) {
        let Some(ack) = extend(outline.head.ack, start) else {
            return;
        };
        let mut is_asked = false;
        for i in 0..self.wants.len() {
            let want = self.wants[i];
            let asks = matches!(want.progress, Progress::Sent(at) if at < ack)
                && self.is_own_at(want.sid, start);
            self.wants[i].answer = if asks { Answer::Lost } else { Answer::Unasked };
            is_asked |= asks;
        }
        if !is_asked {
            return;
        }
        self.hear_answers(outline);
        self.wants.retain_mut(|want| match want.answer {
            Answer::Unasked | Answer::Pending => true,
            Answer::Granted => false,
            Answer::Lost => {
                want.tries += 1;
                want.progress = Progress::Unsent(None);
                want.tries < MOST_TRIES
            }
        });
    }

    fn hear_answers(&mut self, outline: &Outline) {
        for i in 0..outline.null {
            let element = outline.element(i);
            if element.offset < outline.element(i + 1).offset {
                self.hear_answer(element, Answer::Granted);
            }
        }
        for i in outline.null + 1..outline.words.len() {
            self.hear_answer(outline.element(i), Answer::Pending);
        }
    }

    /// An answer stands over none; granted ones are told before pending ones.
    fn hear_answer(&mut self, element: Element, answer: Answer) {
        if !answers_request(element.iuc) || !self.may_own(element.sid) {
            return;
        }
        if let Ok(place) = self.place_of(element.sid) {
            let want = &mut self.wants[place];
            if want.answer == Answer::Lost {
                want.answer = answer;
            }
        }
    }
}

impl Modem {
    pub fn new(id: u32) -> Modem {
        Modem {
            id,
            sites: Vec::new(),
        }
    }

    pub fn id(&self) -> u32 {
        self.id
    }

    fn site(&mut self, ch: u8) -> Option<&mut Site> {
        let place = self.sites.binary_search_by_key(&ch, |s| s.ch).ok()?;
        Some(&mut self.sites[place])
    }

    fn site_or_new(&mut self, ch: u8) -> &mut Site {
        let place = match self.sites.binary_search_by_key(&ch, |s| s.ch) {
            Ok(place) => place,
            Err(place) => {
                self.sites.insert(place, Site::new(ch));
                place
            }
        };
        &mut self.sites[place]
    }

    pub fn want(&mut self, ch: u8, sid: u16, n: u16) -> Result<(), WantFault> {
        match self.site(ch) {
            Some(site) => site.want(sid, n),
            None => Err(WantFault::NotMine),
        }
    }

    pub fn tick(&mut self, ch: u8, slot: u64, random: u64) -> Result<Option<Sending>, TimeBack> {
        let Some(site) = self.site(ch) else {
            return Ok(None);
        };
        if site.ucd.is_none() {
            return Ok(None);
        }
        if slot < site.clock {
            return Err(TimeBack);
        }
        let sending = site.send(slot, random);
        site.pass_to(slot + 1);
        Ok(sending)
    }

    pub fn hear(&mut self, output: &Output, near: u64) -> Heard {
        match output {
            Output::Nothing | Output::Refused(_) => Heard::NotMine,
            Output::ChannelSet { ch, ucd } => {
                self.site_or_new(*ch).ucd = Some(*ucd);
                Heard::Taken
            }
            Output::Assigned { modem, .. } if *modem != self.id => Heard::NotMine,
            Output::Assigned {
                ch,
                sid,
                first,
                last,
                ..
            } => {
                let lease = Lease {
                    first: *first,
                    last: *last,
                    sid: *sid,
                };
                self.site_or_new(*ch).add_lease(lease);
                Heard::Taken
            }
            Output::Map { bytes, .. } => self.hear_map(bytes, near),
        }
    }

    fn hear_map(&mut self, bytes: &[u8], near: u64) -> Heard {
        let Ok(outline) = judge(bytes) else {
            return Heard::Unreadable;
        };
        let Head {
            channel,
            ucd,
            start,
            ..
        } = outline.head;
        let Some(start) = extend(start, near) else {
            return Heard::Unreadable;
        };
        let stop = start + u64::from(outline.element(outline.null).offset);
        if stop >= TIME_LIMIT {
            return Heard::Unreadable;
        }
        let Some(site) = self.site(channel) else {
            return Heard::OtherUcd;
        };
        if site.ucd != Some(ucd) {
            return Heard::OtherUcd;
        }
        let clock = site.clock.max(near);
        if stop <= clock {
            site.pass_to(clock);
            return Heard::Past;
        }
        site.decide(&outline, start);
        site.take(&outline, start, clock);
        Heard::Taken
    }
}
