//! Bodies and answers that were worked out by hand.

use crate::body::{decode, MapFault};
use crate::command::{
    command_bytes, read_command, Channel, ChannelSettings, Command, CutSettings, FlowKind, Phy, OWN,
};
use crate::letters::{Letter, Note};
use crate::machine::{Machine, Output};
use crate::modem::{extend, Heard, Modem, Sending};
use crate::node::{least_above, Node};
use crate::LAST_TIME;

fn channel(base: u64) -> Command {
    Command::Channel(Channel {
        id: 1,
        ucd: 7,
        phy: Phy::Tdma,
        short_max: 16,
        ranging_backoff: (2, 5),
        data_backoff: (3, 8),
        base,
    })
}

fn flow(modem: u32, tag: u32, kind: FlowKind) -> Command {
    Command::Flow {
        ch: 1,
        modem,
        tag,
        last: LAST_TIME,
        kind,
    }
}

fn ugs(tag: u32, size: u16, interval: u32, jitter: u32, base: u64) -> Command {
    flow(
        49 + tag,
        tag,
        FlowKind::Ugs {
            size,
            interval,
            jitter,
            base,
        },
    )
}

fn best_effort(tag: u32) -> Command {
    flow(50, tag, FlowKind::BestEffort(0))
}

fn request(sid: u16, n: u16, sent: u64) -> Command {
    Command::Request {
        ch: 1,
        sid,
        n,
        sent,
    }
}

fn cut(len: u16, not_before: u64, ack: u64) -> Command {
    Command::Cut {
        ch: 1,
        len,
        not_before,
        ack,
        set: CutSettings::NONE,
    }
}

fn set_cut(len: u16, keep: u16, ranging: (u8, u8), data: (u8, u8)) -> Command {
    Command::Cut {
        ch: 1,
        len,
        not_before: 0,
        ack: 0,
        set: CutSettings {
            keep,
            ranging,
            data,
        },
    }
}

fn keeping(len: u16, keep: u16) -> Command {
    set_cut(len, keep, OWN, OWN)
}

/// What the channel is changed to: a count, a PHY and the size of a short grant, and its back-offs as they were.
fn change(ucd: u8, phy: Phy, short_max: u16) -> Command {
    Command::Change {
        ch: 1,
        settings: ChannelSettings {
            ucd,
            phy,
            short_max,
            ranging_backoff: (2, 5),
            data_backoff: (3, 8),
        },
    }
}

fn station(tag: u32, size: u16, interval: u32, jitter: u32, base: u64) -> Command {
    flow(
        50,
        tag,
        FlowKind::Station {
            size,
            interval,
            jitter,
            base,
        },
    )
}

fn initial(size: u16, interval: u32, jitter: u32, base: u64) -> Command {
    flow(
        0,
        1,
        FlowKind::Initial {
            size,
            interval,
            jitter,
            base,
        },
    )
}

fn poll(tag: u32, interval: u32, base: u64) -> Command {
    flow(
        50,
        tag,
        FlowKind::Poll {
            interval,
            jitter: 0,
            base,
        },
    )
}

fn hex(bytes: &[u8]) -> String {
    let mut out = String::new();
    crate::lines::put_hex(&mut out, bytes);
    out
}

fn unhex(digits: &str) -> Vec<u8> {
    let digits: Vec<u8> = digits.bytes().filter(|b| *b != b' ').collect();
    let digit = |b: u8| char::from(b).to_digit(16).unwrap() as u8;
    digits
        .chunks(2)
        .map(|p| digit(p[0]) * 16 + digit(p[1]))
        .collect()
}

fn applied(commands: &[Command]) -> Vec<Output> {
    let mut machine = Machine::new();
    commands
        .iter()
        .map(|command| machine.apply(command))
        .collect()
}

/// The elements, in hexadecimal, of the MAP that the last command makes.
fn words(commands: &[Command]) -> String {
    match applied(commands).last() {
        Some(Output::Map { bytes, .. }) => hex(&bytes[16..]),
        other => panic!("no MAP: {other:?}"),
    }
}

fn first_map() -> Vec<Command> {
    vec![
        channel(1000),
        best_effort(1),
        request(1, 20, 990),
        cut(100, 0, 995),
    ]
}

const FIRST_BODY: &str = "01070300000003e8000003e30205030800058000fffc40140001c064";

#[test]
fn maps_have_their_elements() {
    let four = |jitter: u32| -> Vec<Command> {
        let mut commands = vec![channel(1000)];
        commands.extend((1..=4).map(|tag| ugs(tag, 4, 40, jitter, 1000)));
        commands.push(cut(40, 0, 0));
        commands
    };
    let mut late = vec![channel(1000), ugs(1, 8, 40, 20, 1005), cut(10, 0, 0)];
    let rows = [
        (first_map(), "00058000fffc40140001c064"),
        (vec![channel(1000), cut(1, 0, 0)], "fffc40000001c001"),
        (
            vec![
                channel(1000),
                best_effort(1),
                request(1, 255, 990),
                cut(100, 0, 0),
            ],
            "fffc40000001c06400058064",
        ),
        (four(8), "0005400000094004000d4008fffc400c0001c028"),
        (four(12), "0005400000094004000d40080011400cfffc40100001c028"),
        (late.clone(), "fffc40000001c00a"),
    ];
    for (commands, elements) in rows {
        assert_eq!(words(&commands), elements);
    }
    late.push(cut(30, 0, 0));
    assert_eq!(words(&late), "00054000fffc40080001c01e");
    match applied(&first_map()).last() {
        Some(Output::Map { bytes, .. }) => assert_eq!(hex(bytes), FIRST_BODY),
        other => panic!("no MAP: {other:?}"),
    }
}

#[test]
fn the_fullest_map_has_240_elements() {
    let mut commands = vec![channel(1000), ugs(1, 1, 64, 0, 1002)];
    commands.extend((2..=120).map(best_effort));
    commands.extend((2..=119).map(|sid| request(sid, 1, 990)));
    commands.push(request(120, 1, 990));
    commands.push(cut(4096, 0, 0));
    let outputs = applied(&commands);
    assert_eq!(outputs[outputs.len() - 2], Output::Refused(5));
    let Some(Output::Map { bytes, .. }) = outputs.last() else {
        panic!("no MAP");
    };
    assert_eq!(bytes.len(), 976);
    assert_eq!(bytes[2], 0xF0);
    let elements = hex(&bytes[16..]);
    assert!(elements.starts_with("fffc400000054002"));
    assert!(elements.contains("0001d000"));
    assert!(elements.ends_with("01dd5000"));
}

#[test]
fn commands_are_refused_by_number() {
    let with = |further: &[Command]| {
        let mut commands = first_map();
        commands.extend_from_slice(further);
        applied(&commands).pop().unwrap()
    };
    let on_two = Command::Cut {
        ch: 2,
        len: 1,
        not_before: 0,
        ack: 0,
        set: CutSettings::NONE,
    };
    let rows = [
        (vec![request(1, 20, 990)], 6),
        (vec![cut(0, 0, 0)], 7),
        (vec![on_two], 1),
        (vec![channel(1000)], 2),
        (
            vec![Command::Drop { ch: 1, sid: 1 }, request(1, 20, 1990)],
            3,
        ),
    ];
    for (further, number) in rows {
        assert_eq!(with(&further), Output::Refused(number));
    }
    for (not_before, expected) in [(1050, 1100), (1200, 1200)] {
        match with(&[cut(10, not_before, 0)]) {
            Output::Map { start, .. } => assert_eq!(start, expected),
            other => panic!("no MAP: {other:?}"),
        }
    }
}

#[test]
fn cuts_keep_minislots() {
    let asks = |sizes: &[u16]| -> Vec<Command> {
        let mut commands = vec![channel(1000)];
        for (i, n) in sizes.iter().enumerate() {
            commands.push(best_effort(i as u32 + 1));
            commands.push(request(i as u16 + 1, *n, 990));
        }
        commands
    };
    let mut taken = vec![channel(1000), ugs(1, 96, 100, 0, 1000), best_effort(2)];
    taken.push(request(2, 1, 990));
    let rows = [
        (asks(&[92]), keeping(100, 8), "00058000fffc405c0001c064"),
        (asks(&[93]), keeping(100, 8), "fffc40000001c06400058064"),
        (
            asks(&[93, 10]),
            keeping(100, 8),
            "00094000fffc400a0001c06400058064",
        ),
        (
            asks(&[50, 43]),
            keeping(100, 8),
            "00058000fffc40320001c06400098064",
        ),
        (taken, keeping(100, 8), "00058000fffc40600001c06400094064"),
        (asks(&[1]), keeping(10, 100), "fffc40000001c00a0005400a"),
        (asks(&[]), keeping(1, 4096), "fffc40000001c001"),
    ];
    for (mut commands, cut, elements) in rows {
        commands.push(cut);
        assert_eq!(words(&commands), elements);
    }
    let refused = [
        keeping(10, 4097),
        set_cut(10, 0, OWN, (9, 8)),
        set_cut(10, 0, OWN, (0, 16)),
        set_cut(10, 0, (255, 254), OWN),
        set_cut(10, 0, (3, 255), OWN),
    ];
    for cut in refused {
        assert_eq!(applied(&[channel(1000), cut])[1], Output::Refused(7));
    }
    let told = applied(&[channel(1000), set_cut(1, 0, OWN, (0, 0)), cut(1, 0, 0)]);
    for (output, backoffs) in told[1..].iter().zip(["02050000", "02050308"]) {
        match output {
            Output::Map { bytes, .. } => assert_eq!(hex(&bytes[12..16]), backoffs),
            other => panic!("no MAP: {other:?}"),
        }
    }
}

#[test]
fn channels_change() {
    let with = |change: Command| applied(&[channel(1000), change]).pop();
    let rows = [
        (change(8, Phy::Tdma, 8), Ok(8)),
        (change(7, Phy::Tdma, 16), Ok(7)),
        (change(7, Phy::Tdma, 8), Err(7)),
        (change(7, Phy::Advanced, 16), Err(7)),
        (change(9, Phy::Tdma, 16), Err(7)),
        (change(6, Phy::Tdma, 16), Err(7)),
        (change(8, Phy::Tdma, 0), Err(7)),
    ];
    for (change, wanted) in rows {
        let output = match wanted {
            Ok(ucd) => Output::ChannelSet { ch: 1, ucd },
            Err(number) => Output::Refused(number),
        };
        assert_eq!(with(change), Some(output));
    }
    let asked = [channel(1000), best_effort(1), request(1, 16, 990)];
    let shorter = change(8, Phy::Tdma, 8);
    let rows = [
        (
            vec![shorter, cut(100, 0, 995)],
            "01080300000003e8000003e30205030800058000fffc40100001c064",
        ),
        (
            vec![cut(10, 0, 0), shorter, cut(10, 0, 0)],
            "01080300000003f20000000002050308fffc40000001c00a0005800a",
        ),
        (
            vec![change(8, Phy::Advanced, 16), cut(100, 0, 0)],
            "01080300000003e8000000000205030800064000fffc40100001c064",
        ),
    ];
    for (further, body) in rows {
        match applied(&[asked.as_slice(), &further].concat()).last() {
            Some(Output::Map { bytes, .. }) => assert_eq!(hex(bytes), body),
            other => panic!("no MAP: {other:?}"),
        }
    }
}

const OPENED: &str = "fffc4000fffcc00afffc40280001c064";

#[test]
fn flows_for_ranging_have_intervals() {
    let mut many = vec![
        channel(1000),
        initial(10, 100, 60, 1000),
        station(1, 2, 100, 20, 1000),
        poll(2, 50, 1001),
        flow(
            50,
            3,
            FlowKind::Ugs {
                size: 4,
                interval: 40,
                jitter: 0,
                base: 1002,
            },
        ),
        best_effort(4),
        request(5, 30, 990),
        cut(80, 0, 995),
    ];
    let first = "fffc4000000c400100114002fffcc00600090010fffc40120011402afffc402e000c4033fffc40340001c05000158050";
    let second = "fffc400000114002fffc4006000c4015fffcc01600090020fffc40220011402afffc402e000c4047fffc40480001c05000158050";
    assert_eq!(words(&many), first);
    many.push(cut(80, 0, 0));
    assert_eq!(words(&many), second);
    let on = |commands: &[Command]| [&[channel(1000)], commands].concat();
    let wide = || initial(40, 1000, 30, 1000);
    let rows = [
        (
            on(&[station(1, 2, 40, 8, 1000), cut(100, 0, 0)]),
            "00050000fffc400200050028fffc402a00050050fffc40520001c064",
        ),
        (on(&[initial(30, 1000, 50, 1010), cut(100, 0, 0)]), OPENED),
        (
            on(&[
                ugs(1, 4, 40, 0, 1000),
                initial(40, 1000, 10, 1000),
                cut(100, 0, 0),
            ]),
            "00054000fffc400400054028fffc402c00054050fffc40540001c064",
        ),
        (
            on(&[wide(), cut(20, 0, 0), cut(60, 0, 0)]),
            "fffcc000fffc40280001c03c",
        ),
        (
            on(&[wide(), cut(20, 0, 0), cut(20, 0, 0), cut(60, 0, 0)]),
            "fffc40000001c03c",
        ),
    ];
    for (commands, elements) in rows {
        assert_eq!(words(&commands), elements);
    }
    let refused = [
        on(&[station(1, 2, 40, 8, 1000), request(1, 5, 990)]),
        on(&[initial(30, 1000, 50, 1010), request(1, 5, 990)]),
        on(&[station(1, 0, 40, 8, 1000)]),
        on(&[initial(256, 1000, 50, 1010)]),
        on(&[initial(30, 1000, 1000, 1010)]),
    ];
    for commands in refused {
        assert_eq!(applied(&commands).pop(), Some(Output::Refused(7)));
    }
}

#[test]
fn openings_end_with_their_lease() {
    for (last, elements) in [(1038, "fffc40000001c064"), (1039, OPENED)] {
        let Command::Flow { kind, .. } = initial(30, 1000, 50, 1010) else {
            panic!("no flow");
        };
        let leased = Command::Flow {
            ch: 1,
            modem: 0,
            tag: 1,
            last,
            kind,
        };
        assert_eq!(words(&[channel(1000), leased, cut(100, 0, 0)]), elements);
    }
}

#[test]
fn commands_have_one_spelling() {
    let rows = [
        (
            station(1, 2, 40, 8, 1000),
            "02010000003200000001030002000000280000000800000000000003e8",
        ),
        (
            initial(30, 1000, 50, 1010),
            "0201000000000000000104001e000003e80000003200000000000003f2",
        ),
        (change(8, Phy::Tdma, 8), "0a010800000802050308"),
        (change(8, Phy::Advanced, 8), "0a010801000802050308"),
        (
            set_cut(1, 0, OWN, (0, 0)),
            "09010001000000000000000000000000000000000000ffff0000",
        ),
    ];
    for (command, digits) in rows {
        assert_eq!(hex(&command_bytes(&command)), digits);
        assert_eq!(read_command(&unhex(digits)), (command, true));
    }
    let none = [
        "02010000003200000001050002000000280000000800000000000003e8",
        "0a010802000802050308",
        "0a0108000008020503",
        "09010001000000000000000000000000000000000000ffffffff",
    ];
    for digits in none {
        assert_eq!(read_command(&unhex(digits)), (Command::Noop, false));
    }
}

#[test]
fn bodies_have_one_first_fault() {
    let head = |count: &str| format!("0107{count}00000003e8000003e302050308");
    let rows = [
        ("01".repeat(15), Err(MapFault::Short)),
        (
            format!("{}0000000000000000", head("03")),
            Err(MapFault::Short),
        ),
        (format!("{FIRST_BODY}00"), Err(MapFault::Trailing)),
        (format!("{}fffc4000", head("01")), Err(MapFault::NoNull)),
        (
            format!("{}fffc400a000540090001c00a", head("03")),
            Err(MapFault::OutOfOrder(1)),
        ),
        (
            format!("{}0003c0000001c001", head("02")),
            Err(MapFault::Expansion(0)),
        ),
        (FIRST_BODY.replacen("010703 00", "010703ff", 1), Ok(())),
    ];
    for (digits, expected) in rows {
        assert_eq!(decode(&unhex(&digits)).map(|_| ()), expected);
    }
}

#[test]
fn times_extend_near_a_reference() {
    assert_eq!(extend(5, 4_294_967_293), Some(4_294_967_301));
    assert_eq!(extend(0xFFFF_FFFF, 0), None);
    assert_eq!(extend(7, (1 << 63) - 1), None);
}

#[test]
fn a_modem_sends_in_its_grants() {
    let mut commands = vec![
        channel(1000),
        ugs(1, 4, 10, 4, 1000),
        ugs(2, 4, 10, 4, 1000),
    ];
    commands.extend([cut(10, 0, 0), cut(10, 0, 0), cut(10, 0, 0)]);
    let outputs = applied(&commands);
    let mut modem = Modem::new(50);
    assert_eq!(modem.hear(&outputs[0], 0), Heard::Taken);
    assert_eq!(modem.hear(&outputs[1], 0), Heard::Taken);
    assert_eq!(modem.hear(&outputs[2], 0), Heard::NotMine);
    for map in [5, 5, 3] {
        assert_eq!(modem.hear(&outputs[map], 1003), Heard::Taken);
    }
    let rows = [
        (1003, Some(Sending::Unicast(1))),
        (1012, None),
        (1021, Some(Sending::Unicast(1))),
        (1024, None),
    ];
    for (slot, sending) in rows {
        assert_eq!(modem.tick(1, slot, 0), Ok(sending));
    }
    assert_eq!(modem.hear(&outputs[3], 1022), Heard::Past);
}

#[test]
fn a_modem_draws_a_number_for_its_want() {
    let outputs = applied(&[channel(1000), best_effort(1), cut(100, 0, 0)]);
    let mut modem = Modem::new(50);
    for output in &outputs {
        modem.hear(output, 1000);
    }
    assert_eq!(modem.want(1, 1, 20), Ok(()));
    let rows = [
        (1000, None),
        (1001, None),
        (1002, Some(Sending::Request(1, 20))),
    ];
    for (slot, sending) in rows {
        assert_eq!(modem.tick(1, slot, 10), Ok(sending));
    }
}

#[test]
fn a_modem_ranges() {
    let mut outputs = applied(&[channel(1000), best_effort(1), cut(8, 0, 0)]);
    let Some(Output::Map { bytes, .. }) = outputs.last_mut() else {
        panic!("no MAP");
    };
    bytes[2] = 4;
    bytes.truncate(16);
    for word in [0x0005_0000_u32, 0xFFFC_C002, 0xFFFC_4006, 0x0001_C008] {
        bytes.extend(word.to_be_bytes());
    }
    let mut modem = Modem::new(50);
    for output in &outputs {
        assert_eq!(modem.hear(output, 1000), Heard::Taken);
    }
    assert_eq!(modem.want(1, 1, 20), Ok(()));
    let rows = [
        (1001, Some(Sending::Ranging(1))),
        (1002, None),
        (1005, None),
        (1006, Some(Sending::Request(1, 20))),
    ];
    for (slot, sending) in rows {
        assert_eq!(modem.tick(1, slot, 0), Ok(sending));
    }
}

#[test]
fn the_least_ballot_of_a_node() {
    let last = 8_796_093_022_200;
    let rows = [
        ((0, 1), Some(9)),
        ((8, 0), Some(16)),
        ((8, 2), Some(10)),
        ((10, 0), Some(16)),
        ((last, 0), None),
        ((last, 1), Some(last + 1)),
    ];
    for ((above, node), ballot) in rows {
        assert_eq!(least_above(above, node), ballot);
    }
}

#[test]
fn three_nodes_agree_and_release() {
    let mut nodes = [0, 1, 2].map(|id| Node::new(id, 3));
    let mut letters: Vec<Letter> = nodes[0].lead().unwrap();
    let values = [channel(1000), cut(1, 0, 0)].map(|command| command_bytes(&command));
    let mut offered = 0;
    while let Some(letter) = (!letters.is_empty()).then(|| letters.remove(0)) {
        letters.extend(nodes[usize::from(letter.to)].receive(&letter));
        if letters.is_empty() && offered < values.len() {
            letters.extend(nodes[0].offer(&values[offered]).unwrap());
            offered += 1;
        }
    }
    for node in &mut nodes {
        let outputs = node.release(0);
        assert_eq!(outputs[0].output, Output::ChannelSet { ch: 1, ucd: 7 });
        assert!(matches!(
            &outputs[1].output,
            Output::Map {
                start: 1000,
                len: 1,
                ..
            }
        ));
    }
    nodes[0].restart();
    let prepare = nodes[0].lead().unwrap().remove(0);
    assert_eq!(
        prepare.note,
        Note::Prepare {
            ballot: 16,
            place: 3
        }
    );
}
