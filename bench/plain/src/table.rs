//! What is kept of a channel: a row for each SID that was given, due times, and requests by rank.

use crate::body::{
    word, Head, ADVANCED_LONG_DATA_GRANT, ADVANCED_SHORT_DATA_GRANT, ADVANCED_UNSOLICITED_GRANT,
    EVERYBODY, INITIAL_MAINTENANCE, LONG_DATA_GRANT, REQUEST, SHORT_DATA_GRANT,
    STATION_MAINTENANCE,
};
use crate::command::{Channel, ChannelSettings, CutSettings, FlowKind, Phy, OWN};
use crate::cut::Filling;
use crate::dues::Dues;
use crate::names::ByNumber;
use crate::{LAST_SID, LAST_TIME};
use std::cmp::Reverse;
use std::collections::BinaryHeap;

const MOST_WAITING: usize = 118;
const LONGEST_INTERVAL: u32 = 1_000_000;
const MOST_MINISLOTS: u16 = 4096;

#[derive(Clone, Copy, Debug, PartialEq, Eq)]
pub enum Refusal {
    NoChannel = 1,
    ChannelThere,
    NoFlow,
    SidsSpent,
    Busy,
    OldRequest,
    BadValue,
}

#[derive(Clone, Copy)]
enum Service {
    /// No flow: it was dropped, or its lease is over.
    None,
    BestEffort {
        priority: u8,
    },
    Ugs {
        size: u8,
        interval: u32,
        jitter: u32,
    },
    Poll {
        interval: u32,
        jitter: u32,
    },
    /// Intervals for the ranging of its SID, or openings for everybody's first one.
    Ranging {
        is_opening: bool,
        size: u8,
        interval: u32,
        jitter: u32,
    },
}

#[derive(Clone, Copy)]
struct Row {
    modem: u32,
    tag: u32,
    first: u64,
    last: u64,
    // A request that was sent before is an old one.
    accepts_from: u64,
    service: Service,
    waits: bool,
}

#[derive(Clone, Copy)]
struct Waiting {
    last: u64,
    // The element that grants it or tells that it is pending, without its offset.
    element: u32,
    n: u16,
    priority: u8,
}

impl Waiting {
    fn sid(&self) -> u16 {
        (self.element >> 18) as u16
    }
}

/// A lease as it is told.
#[derive(Clone, Copy)]
pub struct Lease {
    pub sid: u16,
    pub first: u64,
    pub last: u64,
}

/// What a cut asks of a channel.
pub struct CutAsked {
    pub len: u16,
    pub not_before: u64,
    pub ack: u64,
    pub set: CutSettings,
}

impl CutAsked {
    fn is_good(&self, start: u64) -> bool {
        (1..=MOST_MINISLOTS).contains(&self.len)
            && self.not_before <= LAST_TIME
            && self.ack <= LAST_TIME
            && start + u64::from(self.len) <= LAST_TIME
            && self.set.keep <= MOST_MINISLOTS
            && (self.set.ranging == OWN || is_backoff(self.set.ranging))
            && (self.set.data == OWN || is_backoff(self.set.data))
    }
}

/// What comes by itself for a flow.
#[derive(Clone, Copy)]
struct Periodic {
    // The element of each placement, without its offset.
    element: u32,
    size: u16,
    interval: u32,
    jitter: u32,
    last: u64,
}

pub struct Table {
    channel: Channel,
    next_start: u64,
    ack: u64,
    rows: Vec<Row>,
    names: ByNumber<(u32, u32), u16>,
    // When leases end that do, the earliest first.
    ends: BinaryHeap<Reverse<(u64, u16)>>,
    // The SIDs whose leases are over, the least first.
    free: BinaryHeap<Reverse<u16>>,
    dues: Dues,
    // The places of the polls that are due in a cut.
    polls: Vec<u16>,
    poll_flows: usize,
    // The places of what is for ranging and due in a cut.
    ranging: Vec<u16>,
    ranging_flows: usize,
    // By priority, the greater first, and then by arrival.
    waiting: Vec<Waiting>,
    // No lease of one that waits ends before this minislot.
    waiting_until: u64,
}

fn is_backoff((start, end): (u8, u8)) -> bool {
    start <= end && end <= 15
}

pub fn is_good_channel(channel: &Channel) -> bool {
    is_backoff(channel.ranging_backoff)
        && is_backoff(channel.data_backoff)
        && channel.short_max > 0
        && channel.base <= LAST_TIME
}

/// The count of a change is the channel's, under which its bursts stay as they are, or the next one.
fn is_good_change(channel: &Channel, settings: &ChannelSettings) -> bool {
    let is_same = settings.phy == channel.phy && settings.short_max == channel.short_max;
    is_backoff(settings.ranging_backoff)
        && is_backoff(settings.data_backoff)
        && settings.short_max > 0
        && match settings.ucd.wrapping_sub(channel.ucd) {
            0 => is_same,
            further => further == 1,
        }
}

fn is_schedule(interval: u32, jitter: u32, base: u64) -> bool {
    (1..=LONGEST_INTERVAL).contains(&interval) && jitter < interval && base <= LAST_TIME
}

fn is_good_kind(kind: FlowKind) -> bool {
    match kind {
        FlowKind::BestEffort(priority) => priority <= 7,
        FlowKind::Ugs {
            size,
            interval,
            jitter,
            base,
        }
        | FlowKind::Station {
            size,
            interval,
            jitter,
            base,
        }
        | FlowKind::Initial {
            size,
            interval,
            jitter,
            base,
        } => (1..=255).contains(&size) && is_schedule(interval, jitter, base),
        FlowKind::Poll {
            interval,
            jitter,
            base,
        } => is_schedule(interval, jitter, base),
    }
}

impl Channel {
    fn grant_iuc(&self, n: u16) -> u8 {
        match (self.phy, n <= self.short_max) {
            (Phy::Tdma, true) => SHORT_DATA_GRANT,
            (Phy::Tdma, false) => LONG_DATA_GRANT,
            (Phy::Advanced, true) => ADVANCED_SHORT_DATA_GRANT,
            (Phy::Advanced, false) => ADVANCED_LONG_DATA_GRANT,
        }
    }

    fn unsolicited_iuc(&self, n: u16) -> u8 {
        match self.phy {
            Phy::Tdma => self.grant_iuc(n),
            Phy::Advanced => ADVANCED_UNSOLICITED_GRANT,
        }
    }
}

impl Periodic {
    /// The first due time, from one on, whose window ends at the bound or later.
    fn pass_over(&self, due: u64, bound: u64) -> u64 {
        let window_end = due + u64::from(self.jitter);
        if bound <= window_end {
            return due;
        }
        let interval = u64::from(self.interval);
        due + (bound - window_end).div_ceil(interval) * interval
    }

    /// Places what is due before the MAP's end. The next due time.
    fn run(&self, filling: &mut Filling, due: u64) -> u64 {
        let start = filling.start();
        let end = filling.end();
        let mut due = self.pass_over(due, start);
        while due < end {
            if filling.is_full() {
                return self.pass_over(due, end);
            }
            let hi = due + u64::from(self.jitter);
            match filling.first_fit(self.size, due.max(start), hi, self.last) {
                Some(fit) => filling.place(fit, self.size, self.element),
                None if hi >= end => return due,
                None => {}
            }
            due += u64::from(self.interval);
        }
        due
    }
}

impl Row {
    /// What comes for the flow of a SID, of its unsolicited grants.
    fn grants(&self, channel: &Channel, sid: u16) -> Option<Periodic> {
        let Service::Ugs {
            size,
            interval,
            jitter,
        } = self.service
        else {
            return None;
        };
        let size = u16::from(size);
        Some(Periodic {
            element: word(sid, channel.unsolicited_iuc(size), 0),
            size,
            interval,
            jitter,
            last: self.last,
        })
    }

    fn polls(&self, sid: u16) -> Option<Periodic> {
        let Service::Poll { interval, jitter } = self.service else {
            return None;
        };
        Some(Periodic {
            element: word(sid, REQUEST, 0),
            size: 1,
            interval,
            jitter,
            last: self.last,
        })
    }

    fn ranging(&self, sid: u16) -> Option<Periodic> {
        let Service::Ranging {
            is_opening,
            size,
            interval,
            jitter,
        } = self.service
        else {
            return None;
        };
        Some(Periodic {
            element: match is_opening {
                true => word(EVERYBODY, INITIAL_MAINTENANCE, 0),
                false => word(sid, STATION_MAINTENANCE, 0),
            },
            size: u16::from(size),
            interval,
            jitter,
            last: self.last,
        })
    }
}

impl Table {
    pub fn new(channel: Channel) -> Table {
        Table {
            channel,
            next_start: channel.base,
            ack: 0,
            rows: Vec::new(),
            names: ByNumber::default(),
            ends: BinaryHeap::new(),
            free: BinaryHeap::new(),
            dues: Dues::default(),
            polls: Vec::new(),
            poll_flows: 0,
            ranging: Vec::new(),
            ranging_flows: 0,
            waiting: Vec::new(),
            waiting_until: LAST_TIME,
        }
    }

    pub fn add_flow(
        &mut self,
        modem: u32,
        tag: u32,
        last: u64,
        kind: FlowKind,
    ) -> Result<Lease, Refusal> {
        if let Some(sid) = self.names.get(&(modem, tag)) {
            let row = &self.rows[usize::from(*sid) - 1];
            if row.last >= self.next_start {
                return Ok(Lease {
                    sid: *sid,
                    first: row.first,
                    last: row.last,
                });
            }
        }
        if !is_good_kind(kind) || last > LAST_TIME || last < self.next_start {
            return Err(Refusal::BadValue);
        }
        let lease = self.next_lease(last)?;
        self.put(modem, tag, lease, kind);
        Ok(lease)
    }

    /// A lease of the least SID that was never given, or whose lease is over.
    fn next_lease(&mut self, last: u64) -> Result<Lease, Refusal> {
        if let Some(Reverse(sid)) = self.free.pop() {
            return Ok(Lease {
                sid,
                first: self.next_start,
                last,
            });
        }
        if self.rows.len() == usize::from(LAST_SID) {
            return Err(Refusal::SidsSpent);
        }
        let sid = self.rows.len() as u16 + 1;
        Ok(Lease {
            sid,
            first: 0,
            last,
        })
    }

    fn put(&mut self, modem: u32, tag: u32, lease: Lease, kind: FlowKind) {
        let place = usize::from(lease.sid) - 1;
        let row = Row {
            modem,
            tag,
            first: lease.first,
            last: lease.last,
            accepts_from: lease.first,
            service: self.service_of(place, kind),
            waits: false,
        };
        match self.rows.get_mut(place) {
            Some(before) => {
                if self.names.get(&(before.modem, before.tag)) == Some(&lease.sid) {
                    self.names.remove(&(before.modem, before.tag));
                }
                *before = row;
            }
            None => self.rows.push(row),
        }
        self.names.insert((modem, tag), lease.sid);
        if lease.last < LAST_TIME {
            self.ends.push(Reverse((lease.last, lease.sid)));
        }
    }

    /// How the flow of a SID is served; its first due time is noted.
    fn service_of(&mut self, place: usize, kind: FlowKind) -> Service {
        match kind {
            FlowKind::BestEffort(priority) => Service::BestEffort { priority },
            FlowKind::Ugs {
                size,
                interval,
                jitter,
                base,
            } => {
                self.dues.set(place, base);
                Service::Ugs {
                    size: size as u8,
                    interval,
                    jitter,
                }
            }
            FlowKind::Poll {
                interval,
                jitter,
                base,
            } => {
                self.dues.set(place, base);
                self.poll_flows += 1;
                self.polls.reserve(self.poll_flows);
                Service::Poll { interval, jitter }
            }
            FlowKind::Station {
                size,
                interval,
                jitter,
                base,
            }
            | FlowKind::Initial {
                size,
                interval,
                jitter,
                base,
            } => {
                self.dues.set(place, base);
                self.ranging_flows += 1;
                self.ranging.reserve(self.ranging_flows);
                Service::Ranging {
                    is_opening: matches!(kind, FlowKind::Initial { .. }),
                    size: size as u8,
                    interval,
                    jitter,
                }
            }
        }
    }

    fn row_of(&mut self, sid: u16) -> Option<&mut Row> {
        let row = self.rows.get_mut(usize::from(sid).checked_sub(1)?)?;
        match row.service {
            Service::None => None,
            _ => Some(row),
        }
    }

    /// Ends the flow of a SID; of its waiting request nothing is done.
    fn end_flow(&mut self, place: usize) {
        let row = &mut self.rows[place];
        match row.service {
            Service::None | Service::BestEffort { .. } => {}
            Service::Ugs { .. } => self.dues.forget(place),
            Service::Poll { .. } => {
                self.dues.forget(place);
                self.poll_flows -= 1;
            }
            Service::Ranging { .. } => {
                self.dues.forget(place);
                self.ranging_flows -= 1;
            }
        }
        row.service = Service::None;
        row.waits = false;
    }

    pub fn drop_flow(&mut self, sid: u16) -> Result<(), Refusal> {
        let Some(row) = self.row_of(sid) else {
            return Err(Refusal::NoFlow);
        };
        if row.waits {
            self.waiting.retain(|w| w.sid() != sid);
        }
        self.end_flow(usize::from(sid) - 1);
        Ok(())
    }

    pub fn request(&mut self, sid: u16, n: u16, sent: u64) -> Result<(), Refusal> {
        let is_room = self.waiting.len() < MOST_WAITING;
        let iuc = self.channel.grant_iuc(n);
        let Some(row) = self.row_of(sid) else {
            return Err(Refusal::NoFlow);
        };
        let priority = match row.service {
            Service::BestEffort { priority } => priority,
            Service::Poll { .. } => 7,
            Service::Ugs { .. } | Service::Ranging { .. } | Service::None => {
                return Err(Refusal::BadValue)
            }
        };
        if !(1..=255).contains(&n) || sent > LAST_TIME || row.last < sent {
            return Err(Refusal::BadValue);
        }
        if sent < row.accepts_from {
            return Err(Refusal::OldRequest);
        }
        if row.waits || !is_room {
            return Err(Refusal::Busy);
        }
        row.waits = true;
        row.accepts_from = sent + 1;
        let waiting = Waiting {
            last: row.last,
            element: word(sid, iuc, 0),
            n,
            priority,
        };
        self.waiting_until = self.waiting_until.min(waiting.last);
        let mut at = self.waiting.len();
        while at > 0 && self.waiting[at - 1].priority < priority {
            at -= 1;
        }
        self.waiting.insert(at, waiting);
        Ok(())
    }

    /// Gives the channel other settings. Requests that wait are told by its new PHY and sizes.
    pub fn change(&mut self, settings: &ChannelSettings) -> Result<(), Refusal> {
        if !is_good_change(&self.channel, settings) {
            return Err(Refusal::BadValue);
        }
        self.channel = Channel {
            ucd: settings.ucd,
            phy: settings.phy,
            short_max: settings.short_max,
            ranging_backoff: settings.ranging_backoff,
            data_backoff: settings.data_backoff,
            ..self.channel
        };
        for waiting in &mut self.waiting {
            let iuc = self.channel.grant_iuc(waiting.n);
            waiting.element = word(waiting.sid(), iuc, 0);
        }
        Ok(())
    }

    /// The start of the next MAP, and its bytes.
    pub fn cut(
        &mut self,
        filling: &mut Filling,
        asked: &CutAsked,
    ) -> Result<(u64, Vec<u8>), Refusal> {
        let start = self.next_start.max(asked.not_before);
        if !asked.is_good(start) {
            return Err(Refusal::BadValue);
        }
        filling.open(start, asked.len);
        self.ack = self.ack.max(asked.ack.min(start));
        self.serve_periodic(filling);
        self.serve_waiting(filling, u32::from(asked.set.keep));
        let channel = self.channel;
        let told = |pair: (u8, u8), own: (u8, u8)| if pair == OWN { own } else { pair };
        let head = Head {
            channel: channel.id,
            ucd: channel.ucd,
            start: start as u32,
            ack: self.ack as u32,
            ranging_backoff: told(asked.set.ranging, channel.ranging_backoff),
            data_backoff: told(asked.set.data, channel.data_backoff),
        };
        let bytes = filling.draw(&head, self.waiting.iter().map(|w| w.element));
        self.close(filling.end());
        Ok((start, bytes))
    }

    fn serve_periodic(&mut self, filling: &mut Filling) {
        let channel = self.channel;
        let rows = &self.rows;
        let polls = &mut self.polls;
        let ranging = &mut self.ranging;
        polls.clear();
        ranging.clear();
        self.dues.for_each_before(filling.end(), |place, due| {
            let row = &rows[place];
            match row.grants(&channel, place as u16 + 1) {
                Some(periodic) => *due = periodic.run(filling, *due),
                None if matches!(row.service, Service::Ranging { .. }) => {
                    ranging.push(place as u16);
                }
                None => polls.push(place as u16),
            }
        });
        let polls = polls
            .iter()
            .map(|it| (*it, rows[usize::from(*it)].polls(*it + 1)));
        let ranging = ranging
            .iter()
            .map(|it| (*it, rows[usize::from(*it)].ranging(*it + 1)));
        for (place, periodic) in polls.chain(ranging) {
            let at = usize::from(place);
            if let Some(periodic) = periodic {
                let due = self.dues.time(at);
                *due = periodic.run(filling, *due);
                self.dues.note(at);
            }
        }
    }

    /// Grants requests by rank, where so many minislots stay free. Left are those that still wait and whose leases go
    /// on to the MAP's end.
    fn serve_waiting(&mut self, filling: &mut Filling, keep: u32) {
        // No run of so many minislots is free any more.
        let mut spent = u16::MAX;
        let mut seen = 0;
        let mut kept = 0;
        while seen < self.waiting.len() && !filling.is_full() {
            let waiting = self.waiting[seen];
            seen += 1;
            let is_left = u32::from(waiting.n) + keep <= filling.free();
            if is_left && waiting.n < spent && self.is_granted(filling, waiting, &mut spent) {
                continue;
            }
            if kept + 1 < seen {
                self.waiting[kept] = waiting;
            }
            kept += 1;
        }
        if kept < seen {
            self.waiting.drain(kept..seen);
        }
        let end = filling.end();
        if self.waiting_until < end {
            self.waiting.retain(|w| w.last >= end);
            let lasts = self.waiting.iter().map(|w| w.last);
            self.waiting_until = lasts.min().unwrap_or(LAST_TIME);
        }
    }

    /// Places a request where it fits.
    fn is_granted(&mut self, filling: &mut Filling, waiting: Waiting, spent: &mut u16) -> bool {
        let n = waiting.n;
        let end = filling.end();
        let hi = end.saturating_sub(u64::from(n));
        match filling.first_fit(n, filling.start(), hi, waiting.last) {
            Some(fit) => {
                filling.place(fit, n, waiting.element);
                self.rows[usize::from(waiting.sid()) - 1].waits = false;
                true
            }
            None => {
                if waiting.last >= end {
                    *spent = n;
                }
                false
            }
        }
    }

    /// The MAPs reach to an end: the flows go whose leases end before, and their SIDs are free.
    fn close(&mut self, end: u64) {
        self.next_start = end;
        while let Some(Reverse((last, sid))) = self.ends.peek().copied() {
            if last >= end {
                break;
            }
            self.ends.pop();
            self.end_flow(usize::from(sid) - 1);
            self.free.push(Reverse(sid));
        }
    }
}
