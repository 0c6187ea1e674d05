//! The kinds of work that are timed: what is there before, and the calls that are counted.

use crate::body::{encode, Head, MapBody};
use crate::command::{command_bytes, Channel, Command, CutSettings, FlowKind, Phy};
use crate::letters::{Bytes, Letter, Note, Votes};
use crate::machine::{Machine, Output};
use crate::made::bodies::made_elements;
use crate::made::modems::{hear_record, tick_record, want_record};
use crate::made::nodes::{lead_record, offer_record, receive_record, release_record};
use crate::random::Random;
use crate::records::put_record;
use crate::LAST_TIME;

pub const ENCODE: u8 = 0;
pub const DECODE: u8 = 1;
pub const APPLY: u8 = 2;
pub const MODEM: u8 = 3;
pub const NODE: u8 = 4;

/// A kind of work. The timed calls are made `repeats` times over in each of so many rounds, each of which begins anew.
pub struct Shape {
    pub name: String,
    pub kind: u8,
    pub rounds: u32,
    pub repeats: u32,
    pub before: Vec<Vec<u8>>,
    pub timed: Vec<Vec<u8>>,
}

impl Shape {
    /// The shape as a file: kind, rounds, repeats and how many records come before the timed ones; then the records.
    pub fn file(&self) -> Vec<u8> {
        let mut first = vec![self.kind];
        first.extend(self.rounds.to_be_bytes());
        first.extend(self.repeats.to_be_bytes());
        first.extend((self.before.len() as u32).to_be_bytes());
        let mut file = Vec::new();
        put_record(&mut file, &first);
        for record in self.before.iter().chain(&self.timed) {
            put_record(&mut file, record);
        }
        file
    }
}

fn codec_shapes() -> Vec<Shape> {
    let mut shapes = Vec::new();
    for count in [3, 60, 255] {
        let mut random = Random::new(count as u64);
        let bodies: Vec<Vec<u8>> = (0..16)
            .map(|_| {
                let elements = made_elements(&mut random, count, count - 1);
                let head = Head {
                    channel: 1,
                    ucd: 7,
                    start: 1000,
                    ack: 990,
                    ranging_backoff: (2, 5),
                    data_backoff: (3, 8),
                };
                MapBody::new(head, elements).map_or(Vec::new(), |map| encode(&map))
            })
            .collect();
        for (kind, word) in [(ENCODE, "encode"), (DECODE, "decode")] {
            shapes.push(Shape {
                name: format!("{word} {count} elements"),
                kind,
                rounds: 1,
                repeats: 300_000 / (count as u32 + 10),
                before: Vec::new(),
                timed: bodies.clone(),
            });
        }
    }
    shapes
}

fn channel(id: u8) -> Command {
    Command::Channel(Channel {
        id,
        ucd: 7,
        phy: Phy::Tdma,
        short_max: 16,
        ranging_backoff: (2, 5),
        data_backoff: (3, 8),
        base: 1000,
    })
}

fn flow(ch: u8, tag: u32, last: u64, kind: FlowKind) -> Command {
    Command::Flow {
        ch,
        modem: 50 + tag % 16,
        tag,
        last,
        kind,
    }
}

fn best_effort(ch: u8, tag: u32) -> Command {
    flow(ch, tag, LAST_TIME, FlowKind::BestEffort(tag as u8 % 8))
}

fn ugs(ch: u8, tag: u32, size: u16, interval: u32, base: u64) -> Command {
    let jitter = interval / 2;
    flow(
        ch,
        tag,
        LAST_TIME,
        FlowKind::Ugs {
            size,
            interval,
            jitter,
            base,
        },
    )
}

fn request(ch: u8, sid: u16, n: u16, sent: u64) -> Command {
    Command::Request { ch, sid, n, sent }
}

fn cut(ch: u8, len: u16) -> Command {
    Command::Cut {
        ch,
        len,
        not_before: 0,
        ack: 2000,
        set: CutSettings::NONE,
    }
}

/// A channel with a flow of unsolicited grants and twenty of best effort, SIDs 2 to 21.
fn few(ch: u8) -> Vec<Command> {
    let mut commands = vec![channel(ch), ugs(ch, 0, 4, 100, 1000)];
    commands.extend((1..=20).map(|tag| best_effort(ch, tag)));
    commands
}

/// A channel with so many flows, the last of them of unsolicited grants.
fn many(ch: u8, count: u32) -> Vec<Command> {
    let mut commands = vec![channel(ch)];
    commands.extend((1..count).map(|tag| best_effort(ch, tag)));
    commands.push(ugs(ch, 0, 4, 100, 1000));
    commands
}

/// A channel on which each MAP of 240 minislots has 60 grants, and 118 requests wait for good.
fn full(ch: u8) -> Vec<Command> {
    let mut commands = vec![channel(ch)];
    commands.extend((0..60).map(|tag| ugs(ch, tag, 1, 240, 1000 + 4 * u64::from(tag))));
    commands.extend((0..118).map(|tag| best_effort(ch, 100 + tag)));
    commands.extend((61..179).map(|sid| request(ch, sid, 3, 990)));
    commands
}

/// A channel on which 118 requests wait that are longer than its MAPs.
fn crowded(ch: u8) -> Vec<Command> {
    let mut commands = vec![channel(ch)];
    commands.extend((0..118).map(|tag| best_effort(ch, tag)));
    commands.extend((1..=118).map(|sid| request(ch, sid, 255, 990)));
    commands
}

fn on_all(make: impl Fn(u8) -> Vec<Command>) -> Vec<Command> {
    (0..255).flat_map(make).collect()
}

fn apply(name: &str, rounds: u32, repeats: u32, before: &[Command], timed: &[Command]) -> Shape {
    Shape {
        name: format!("apply {name}"),
        kind: APPLY,
        rounds,
        repeats,
        before: before.iter().map(command_bytes).collect(),
        timed: timed.iter().map(command_bytes).collect(),
    }
}

fn flow_shapes() -> Vec<Shape> {
    let channels: Vec<Command> = (0..=255).map(channel).collect();
    let some: Vec<Command> = (0..64).map(|tag| best_effort(1, tag)).collect();
    let all: Vec<Command> = (0..8191).map(|tag| best_effort(1, tag)).collect();
    let mut filled = vec![channel(1)];
    filled.extend_from_slice(&all);
    let short = (0..8191).map(|tag| flow(1, 10_000 + tag, 1010, FlowKind::BestEffort(1)));
    let mut over = vec![channel(1)];
    over.extend(short);
    over.push(cut(1, 100));
    let on_255 = on_all(|ch| (0..20).map(|tag| best_effort(ch, tag)).collect());
    let drops = |sids: &[u16]| -> Vec<Command> {
        sids.iter()
            .map(|sid| Command::Drop { ch: 1, sid: *sid })
            .collect()
    };
    let few_sids: Vec<u16> = (2..=21).collect();
    let spread: Vec<u16> = (1..100).map(|k| k * 80).collect();
    vec![
        apply("noop", 20, 100, &[], &[Command::Noop; 100]),
        apply("channel, 256 of them", 20, 1, &[], &channels),
        apply("flow, 64 on a channel", 200, 1, &channels[1..2], &some),
        apply("flow, 8,191 on a channel", 5, 1, &channels[1..2], &all),
        apply("flow asked for again, 8,191 there", 3, 1, &filled, &all),
        apply(
            "flow of a SID that comes back, 8,191 there",
            3,
            1,
            &over,
            &all,
        ),
        apply("flow, 20 on each of 255 channels", 5, 1, &channels, &on_255),
        apply("drop, few there", 200, 1, &few(1), &drops(&few_sids)),
        apply("drop, 8,191 there", 5, 1, &many(1, 8191), &drops(&spread)),
    ]
}

fn request_shapes() -> Vec<Shape> {
    let on = |ch: u8| -> Vec<Command> { (2..=21).map(|sid| request(ch, sid, 3, 990)).collect() };
    let mut until_118 = vec![channel(1)];
    until_118.extend((1..=118).map(|tag| best_effort(1, tag)));
    let all_118: Vec<Command> = (1..=118).map(|sid| request(1, sid, 3, 990)).collect();
    let spread: Vec<Command> = (1..=100).map(|k| request(1, k * 80, 3, 990)).collect();
    let mut with_cut = Vec::new();
    for turn in 0..50 {
        with_cut.extend((2..=21).map(|sid| request(1, sid, 3, 990 + turn * 100)));
        with_cut.push(cut(1, 100));
    }
    vec![
        apply("request, few there", 200, 1, &few(1), &on(1)),
        apply("request, up to 118 wait", 100, 1, &until_118, &all_118),
        apply("request, 8,191 there", 5, 1, &many(1, 8191), &spread),
        apply(
            "request, few on each of 255 channels",
            5,
            1,
            &on_all(few),
            &on_all(on),
        ),
        apply(
            "20 requests and their cut by turns",
            10,
            1,
            &few(1),
            &with_cut,
        ),
    ]
}

fn cuts_on_all(len: u16) -> Vec<Command> {
    (0..255).map(|ch| cut(ch, len)).collect()
}

fn cut_shapes() -> Vec<Shape> {
    let one = [cut(1, 100)];
    let all = cuts_on_all(100);
    let asked = on_all(|ch| {
        let mut commands = few(ch);
        commands.extend((2..=21).map(|sid| request(ch, sid, 3, 990)));
        commands
    });
    let mut timed = vec![channel(1)];
    timed.extend((0..8191).map(|tag| ugs(1, tag, 4, 1_000_000, 1000 + 122 * u64::from(tag))));
    let few_on_all = on_all(few);
    vec![
        apply("cut, few there", 2, 3000, &few(1), &one),
        apply("cut, few on each of 255 channels", 2, 20, &few_on_all, &all),
        apply(
            "cut, 20 requests granted, 255 channels",
            10,
            1,
            &asked,
            &all,
        ),
        apply("cut, 8,191 there", 2, 1000, &many(1, 8191), &one),
        apply("cut, 8,191 with due times", 2, 500, &timed, &one),
    ]
}

fn crowded_shapes() -> Vec<Shape> {
    let granted = on_all(|ch| {
        let mut commands = crowded(ch);
        commands.truncate(119);
        commands.extend((1..=118).map(|sid| request(ch, sid, 3, 990)));
        commands
    });
    let granting = cuts_on_all(200);
    let full_on_all = on_all(full);
    let filling = cuts_on_all(240);
    let (one, longer) = ([cut(1, 100)], [cut(1, 240)]);
    vec![
        apply("cut, 118 wait", 2, 1000, &crowded(1), &one),
        apply(
            "cut, 60 of 118 granted, 255 channels",
            5,
            1,
            &granted,
            &granting,
        ),
        apply(
            "cut, 60 placements and 118 wait",
            2,
            1000,
            &full(1),
            &longer,
        ),
        apply("cut, the same, 255 channels", 2, 4, &full_on_all, &filling),
    ]
}

/// What a machine answers to commands and then to so many cuts.
fn outputs(commands: &[Command], cuts: usize, len: u16) -> (Vec<Output>, Vec<Output>) {
    let mut machine = Machine::new();
    let set = commands
        .iter()
        .map(|command| machine.apply(command))
        .collect();
    let maps = (0..cuts).map(|_| machine.apply(&cut(1, len))).collect();
    (set, maps)
}

/// Hears of the channel and of the SIDs that are its own, whichever modem they were given to.
fn introduced(set: &[Output], own: impl Fn(u16) -> bool) -> Vec<Vec<u8>> {
    let mut records = Vec::new();
    for output in set {
        match output {
            Output::Assigned {
                ch,
                sid,
                first,
                last,
                ..
            } if own(*sid) => {
                let told = Output::Assigned {
                    modem: 0,
                    ch: *ch,
                    sid: *sid,
                    first: *first,
                    last: *last,
                };
                records.push(hear_record(0, &told, 0));
            }
            Output::ChannelSet { .. } => records.push(hear_record(0, output, 0)),
            _ => {}
        }
    }
    records
}

fn start_of(map: &Output) -> u64 {
    match map {
        Output::Map { start, .. } => *start,
        _ => 0,
    }
}

fn modem(name: &str, rounds: u32, before: Vec<Vec<u8>>, timed: Vec<Vec<u8>>) -> Shape {
    Shape {
        name: name.to_string(),
        kind: MODEM,
        rounds,
        repeats: 1,
        before,
        timed,
    }
}

/// A channel with so many flows of unsolicited grants in each MAP of 240 minislots.
fn granting(flows: u32) -> Vec<Command> {
    let mut commands = vec![channel(1)];
    commands.extend((0..flows).map(|tag| ugs(1, tag, 2, 240, 1000 + 4 * u64::from(tag))));
    commands
}

fn hear_shapes() -> Vec<Shape> {
    let hears = |maps: &[Output]| -> Vec<Vec<u8>> {
        maps.iter()
            .map(|map| hear_record(0, map, start_of(map)))
            .collect()
    };
    let mut shapes = Vec::new();
    let (set, maps) = outputs(&granting(1), 500, 240);
    shapes.push(modem(
        "hear 3 elements",
        10,
        introduced(&set, |sid| sid == 1),
        hears(&maps),
    ));
    let (set, maps) = outputs(&granting(29), 500, 240);
    let one = introduced(&set, |sid| sid == 1);
    shapes.push(modem(
        "hear 59 elements, one SID its own",
        5,
        one,
        hears(&maps),
    ));
    let own = introduced(&set, |_| true);
    shapes.push(modem(
        "hear 59 elements, all 29 SIDs its own",
        5,
        own,
        hears(&maps),
    ));
    let (set, maps) = outputs(&full(1), 500, 240);
    let one = introduced(&set, |sid| sid == 1);
    shapes.push(modem(
        "hear 239 elements, one SID its own",
        3,
        one,
        hears(&maps),
    ));
    shapes
}

fn tick_shapes() -> Vec<Shape> {
    let ticks = |count: u64, random: u64| -> Vec<Vec<u8>> {
        (0..count)
            .map(|k| tick_record(0, 1, 1000 + k, random))
            .collect()
    };
    let hear = |before: &mut Vec<Vec<u8>>, maps: &[Output]| {
        before.extend(maps.iter().map(|map| hear_record(0, map, 1000)));
    };
    let (set, maps) = outputs(&granting(1), 8, 240);
    let mut alone = introduced(&set, |sid| sid == 1);
    hear(&mut alone, &maps);
    let (set, maps) = outputs(&granting(29), 8, 240);
    let mut own = introduced(&set, |_| true);
    hear(&mut own, &maps);
    let mut commands = vec![channel(1)];
    commands.extend((0..60).map(|tag| best_effort(1, tag)));
    let (set, maps) = outputs(&commands, 8, 240);
    let mut wanting = introduced(&set, |_| true);
    wanting.extend((1..=60).map(|sid| want_record(0, 1, sid, 3)));
    hear(&mut wanting, &maps);
    vec![
        modem("tick, one SID its own", 20, alone, ticks(1920, 0)),
        modem("tick, 29 SIDs its own", 20, own, ticks(1920, 0)),
        modem("tick, open to all, 60 wants", 20, wanting, ticks(1920, 7)),
    ]
}

fn want_shapes() -> Vec<Shape> {
    let mut shapes = Vec::new();
    for count in [60, 1000] {
        let mut commands = vec![channel(1)];
        commands.extend((0..count).map(|tag| best_effort(1, tag)));
        let (set, _) = outputs(&commands, 0, 1);
        let wants = (1..=60).map(|sid| want_record(0, 1, sid, 3)).collect();
        let name = format!("want, {count} SIDs its own");
        shapes.push(modem(&name, 100, introduced(&set, |_| true), wants));
    }
    shapes
}

/// The value at a place: the log has a channel and flows, then requests and cuts by turns.
fn value_at(place: u64) -> Vec<u8> {
    let command = match place {
        1 => channel(1),
        2..=21 => best_effort(1, place as u32),
        _ if place % 2 == 0 => request(1, 1 + (place % 20) as u16, 8, 900 + place),
        _ => cut(1, 100),
    };
    command_bytes(&command)
}

/// To node 1, which all these are for.
fn letter(from: u8, note: Note) -> Vec<u8> {
    receive_record(1, &Letter { from, to: 1, note })
}

fn accept_at(place: u64) -> Vec<u8> {
    letter(
        0,
        Note::Accept {
            ballot: 8,
            place,
            value: Bytes::new(&value_at(place)),
        },
    )
}

fn voted_at(from: u8, place: u64) -> Vec<u8> {
    letter(
        from,
        Note::Voted {
            ballot: 8,
            place,
            value: Bytes::new(&value_at(place)),
        },
    )
}

fn known_at(place: u64) -> Vec<u8> {
    letter(
        0,
        Note::Known {
            place,
            value: Bytes::new(&value_at(place)),
        },
    )
}

fn prepare(ballot: u64, place: u64) -> Vec<u8> {
    letter(0, Note::Prepare { ballot, place })
}

fn promise(from: u8, ballot: u64, place: u64) -> Vec<u8> {
    letter(
        from,
        Note::Promise {
            ballot,
            place,
            votes: Votes::default(),
        },
    )
}

/// Node 1 leads at ballot 9 from a place on.
fn leading(place: u64) -> Vec<Vec<u8>> {
    vec![lead_record(1), promise(0, 9, place), promise(2, 9, place)]
}

/// Node 1 after it has voted at so many places and learned them.
struct Behind {
    places: u64,
    rounds: u32,
    before: Vec<Vec<u8>>,
}

impl Behind {
    fn new(places: u64, rounds: u32) -> Behind {
        let before = (1..=places).flat_map(|place| [accept_at(place), known_at(place)]);
        Behind {
            places,
            rounds,
            before: before.collect(),
        }
    }

    fn shape(&self, name: &str, further: Vec<Vec<u8>>, timed: Vec<Vec<u8>>) -> Shape {
        Shape {
            name: format!("{name}, {} places behind", self.places),
            kind: NODE,
            rounds: self.rounds,
            repeats: 1,
            before: self.before.iter().cloned().chain(further).collect(),
            timed,
        }
    }

    /// The next thousand places.
    fn next(&self) -> std::ops::Range<u64> {
        self.places + 1..self.places + 1001
    }

    fn acceptor_shapes(&self) -> Vec<Shape> {
        let first = self.places + 1;
        let prepares = (2..500).map(|k| prepare(8 * k, first)).collect();
        let early = (2..12).map(|k| prepare(8 * k, 1)).collect();
        let accepts: Vec<Vec<u8>> = self.next().map(accept_at).collect();
        vec![
            self.shape("prepare", vec![], prepares),
            self.shape("prepare from place 1", vec![], early),
            self.shape("accept", vec![], accepts.clone()),
            self.shape("accept again", accepts.clone(), accepts),
        ]
    }

    fn learner_shapes(&self) -> Vec<Shape> {
        let votes = self.next().flat_map(|p| [voted_at(0, p), voted_at(1, p)]);
        let known: Vec<Vec<u8>> = self.next().map(known_at).collect();
        let mut learned = vec![release_record(1, 0)];
        learned.extend_from_slice(&known);
        let release = vec![release_record(1, 0)];
        vec![
            self.shape("voted", vec![], votes.collect()),
            self.shape("known", vec![], known),
            self.shape("release of 1,000 places", learned, release),
        ]
    }

    fn proposer_shapes(&self) -> Vec<Shape> {
        let first = self.places + 1;
        let led = (0..300).flat_map(|k| {
            let ballot = 9 + 8 * k;
            let promised = |from| promise(from, ballot, first);
            [lead_record(1), promised(0), promised(2)]
        });
        let leads = (0..500).map(|_| lead_record(1));
        let offers = self.next().map(|p| offer_record(1, &value_at(p)));
        let higher = (2..1002).map(|k| letter(0, Note::Higher { ballot: 8 * k }));
        vec![
            self.shape("lead", vec![], leads.collect()),
            self.shape(
                "lead and two promises",
                vec![accept_at(first)],
                led.collect(),
            ),
            self.shape("offer", leading(first), offers.collect()),
            self.shape("higher", vec![], higher.collect()),
        ]
    }

    fn shapes(&self) -> Vec<Shape> {
        let mut shapes = self.acceptor_shapes();
        shapes.extend(self.learner_shapes());
        shapes.extend(self.proposer_shapes());
        shapes
    }
}

/// How many things are held, and the two shapes that `held` compares.
type Pair = (usize, Shape, Shape);

/// A shape of which only what comes before matters: one timed call follows.
fn holding(kind: u8, before: Vec<Vec<u8>>, timed: Vec<u8>) -> Shape {
    Shape {
        name: String::new(),
        kind,
        rounds: 1,
        repeats: 1,
        before,
        timed: vec![timed],
    }
}

fn held_commands(count: usize, many: &[Command], one: &[Command]) -> Pair {
    let shape = |commands: &[Command]| {
        let before = commands.iter().map(command_bytes).collect();
        holding(APPLY, before, command_bytes(&Command::Noop))
    };
    (count, shape(many), shape(one))
}

/// 8,000 flows on each of four channels, or one on each that is asked for again.
pub fn held_flows() -> Pair {
    let flows = |tag_of: fn(u32) -> u32| -> Vec<Command> {
        let on = |ch| {
            std::iter::once(channel(ch)).chain((0..8000).map(move |k| best_effort(ch, tag_of(k))))
        };
        (0..4).flat_map(on).collect()
    };
    held_commands(4 * 7999, &flows(|k| k), &flows(|_| 0))
}

/// 118 requests on each of 255 channels, or one on each that is made again.
pub fn held_requests() -> Pair {
    let requests = |sid_of: fn(u16) -> u16| -> Vec<Command> {
        let on = |ch| {
            let flows = (0..118).map(move |tag| best_effort(ch, tag));
            let asked = (1..=118).map(move |sid| request(ch, sid_of(sid), 255, 990));
            std::iter::once(channel(ch)).chain(flows).chain(asked)
        };
        (0..255).flat_map(on).collect()
    };
    held_commands(255 * 117, &requests(|sid| sid), &requests(|_| 1))
}

/// What comes to node 1 of a channel and then of 100,000 cuts, at places from 1 on, or all cuts at place 2.
fn held_letters(note_of: fn(u64, Bytes) -> Note) -> Pair {
    let shape = |place_of: fn(u64) -> u64| {
        let first = note_of(1, Bytes::new(&command_bytes(&channel(1))));
        let cut = Bytes::new(&command_bytes(&cut(1, 100)));
        let cuts = (2..=100_001).map(|place| note_of(place_of(place), cut.clone()));
        let before = std::iter::once(first)
            .chain(cuts)
            .map(|note| letter(0, note));
        holding(NODE, before.collect(), lead_record(1))
    };
    (99_999, shape(|place| place), shape(|_| 2))
}

/// 100,001 votes of a node, or two.
pub fn held_votes() -> Pair {
    held_letters(|place, value| Note::Accept {
        ballot: 8,
        place,
        value,
    })
}

/// 100,001 places that a node learned, or two; it has their outputs too.
pub fn held_places() -> Pair {
    held_letters(|place, value| Note::Known { place, value })
}

/// 29 intervals of each of 1,000 MAPs that are heard ahead, or none of MAPs that are over.
pub fn held_intervals() -> Pair {
    let (set, maps) = outputs(&granting(29), 1000, 240);
    let shape = |near: u64| {
        let mut before = introduced(&set, |_| true);
        before.extend(maps.iter().map(|map| hear_record(0, map, near)));
        holding(MODEM, before, tick_record(0, 1, 1_000_000, 0))
    };
    (29 * 1000, shape(1000), shape(1_000_000))
}

/// All kinds of work.
pub fn shapes() -> Vec<Shape> {
    let mut shapes = codec_shapes();
    shapes.extend(flow_shapes());
    shapes.extend(request_shapes());
    shapes.extend(cut_shapes());
    shapes.extend(crowded_shapes());
    shapes.extend(hear_shapes());
    shapes.extend(tick_shapes());
    shapes.extend(want_shapes());
    shapes.extend(Behind::new(10, 5).shapes());
    shapes.extend(Behind::new(100_000, 1).shapes());
    shapes
}
