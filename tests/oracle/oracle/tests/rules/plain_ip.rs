//! Request 2, tables in plain IP packets: what depends on the mode and what does not, over the maker's seeds. The named
//! cases say more of single packets.

use std::collections::BTreeSet;

use face::{Call, Engine, Kind, Modes, Narrowed, Options};
use maker::{Calls, Input, Operation};
use oracle::answers::answers;
use oracle::cases::{self, Writer};
use oracle::named::{Requested, requested};
use original::Original;
use plain::Plain;

use crate::subject::{LIMITS, changed};
use oracle::builders::*;
use oracle::datagrams::Heads;

const SEEDS: u64 = 400;

fn inputs() -> impl Iterator<Item = Input> {
    (0..SEEDS).flat_map(maker::plain_ip_inputs)
}

/// A packet by the second filter, with an output that is long enough; `None` is unchanged.
fn narrow(options: Options, modes: Modes, packet: &[u8]) -> Option<Vec<u8>> {
    let answer = Plain::narrow(Kind::Packet, options, modes, 0, packet, packet.len());
    changed(answer)
}

/// Packets that are not too long to be narrowed.
fn packets() -> impl Iterator<Item = Input> {
    inputs().filter(|input| input.kind == Kind::Packet && input.bytes.len() <= 65_539)
}

fn is_plain_ip(packet: &[u8]) -> bool {
    matches!(packet.get(1), Some(1 | 2))
}

#[test]
fn the_modes_byte_has_one_bit() {
    assert_eq!(Modes::default(), Modes::OFF);
    assert_eq!(Modes::from_bits(0), Some(Modes::OFF));
    assert_eq!(Modes::from_bits(1), Some(Modes::PLAIN_IP));
    assert!((2..=255).all(|bits| Modes::from_bits(bits).is_none()));
    assert_eq!((Modes::OFF.bits(), Modes::PLAIN_IP.bits()), (0, 1));
}

/// Narrowing what is narrowed finds nothing to do, or does the same once more.
#[test]
fn twice_is_once() {
    let (mut same, mut unchanged) = (0, 0);
    for input in packets().filter(|input| is_plain_ip(&input.bytes)) {
        let again = |packet: &[u8]| narrow(input.options, Modes::PLAIN_IP, packet);
        let Some(once) = again(&input.bytes) else {
            continue;
        };
        match again(&once) {
            None => unchanged += 1,
            Some(twice) => {
                assert_eq!(twice, once);
                same += 1;
            }
        }
    }
    assert!(same > 100 && unchanged > 300, "{same} {unchanged}");
}

/// All that the first wants, the second wants.
fn wants_less(first: &Options, second: &Options) -> bool {
    let pairs = [
        (first.caption, second.caption),
        (first.carousel, second.carousel),
        (first.eit, second.eit),
        (first.other, second.other),
    ];
    pairs.into_iter().all(|(less, more)| !less || more)
}

/// The combinations of wishes for the service of these options, or for all.
fn alike(options: Options) -> impl Iterator<Item = Options> {
    (0..16).map(move |bits: u8| {
        let other = if bits & 8 == 0 { Options::OTHER_OFF } else { 0 };
        let wishes = Options::from_flags(bits & 7 | other, 0);
        Options {
            service: options.service,
            ..wishes
        }
    })
}

/// Demand 3 of one packet: what more wishes leave, narrowed by fewer, is what fewer leave.
#[test]
fn fewer_wishes_after_more_wishes_are_fewer_wishes() {
    let mut rewritten = 0;
    for input in packets().step_by(3) {
        let less = input.options;
        let by = |options, packet: &[u8]| {
            narrow(options, Modes::PLAIN_IP, packet).unwrap_or_else(|| packet.to_vec())
        };
        let direct = by(less, &input.bytes);
        for more in alike(less).filter(|more| wants_less(&less, more)) {
            let first = by(more, &input.bytes);
            rewritten += usize::from(first != input.bytes);
            assert_eq!(by(less, &first), direct, "{less:?} after {more:?}");
        }
    }
    assert!(rewritten > 500, "{rewritten}");
}

/// What the second filter answers to the pushes of calls.
fn written(calls: &Calls, options: Options, modes: Modes) -> Vec<Call> {
    let mut filter = match Plain::start(calls.limits, options, modes) {
        Ok(filter) => filter,
        Err(_) => return Vec::new(),
    };
    let mut answers = Vec::new();
    for operation in &calls.operations {
        if let Operation::Push { chunk, .. } = operation {
            // One output for all, so that no call is refused for it.
            answers.extend(filter.push(chunk, 262_400));
        }
    }
    answers
}

/// The packets of an output, which has nothing else.
fn split(mut out: &[u8]) -> Vec<&[u8]> {
    let mut packets = Vec::new();
    while let [_, _, high, low, ..] = *out {
        let (packet, rest) = out.split_at(4 + usize::from(u16::from_be_bytes([high, low])));
        packets.push(packet);
        out = rest;
    }
    packets
}

/// Demand 3 over streams, with the mode in both: each packet of the first comes from one of the second, in order, and is
/// that packet narrowed.
#[test]
fn less_is_less_with_the_mode_in_both() {
    let (mut compared, mut narrowed) = (0, 0);
    for seed in 0..SEEDS {
        let calls = maker::plain_ip_calls(seed);
        let less = calls.options;
        let more = Options {
            carousel: true,
            eit: true,
            other: true,
            ..less
        };
        if less.copies_all() || more.copies_all() {
            continue;
        }
        let [first, second] = [less, more].map(|options| {
            let answers = written(&calls, options, Modes::PLAIN_IP);
            answers
                .into_iter()
                .flat_map(|call| call.out)
                .collect::<Vec<u8>>()
        });
        let mut theirs = split(&second).into_iter();
        for ours in split(&first) {
            let by =
                |packet: &[u8]| narrow(less, Modes::PLAIN_IP, packet).unwrap_or(packet.to_vec());
            let from = theirs.find(|packet| by(packet) == ours);
            compared += 1;
            narrowed += usize::from(from.expect("it comes from none") != ours && is_plain_ip(ours));
        }
    }
    assert!(compared > 5_000 && narrowed > 100, "{compared} {narrowed}");
}

/// With the mode off the base answers, the original among it, and no plain IP packet is rewritten.
#[test]
fn off_is_the_base() {
    let mut known = 0;
    for input in inputs() {
        let Input {
            kind,
            options,
            identifier,
            room,
            ..
        } = input;
        let answer = Plain::narrow(kind, options, Modes::OFF, identifier, &input.bytes, room);
        if kind == Kind::Packet && is_plain_ip(&input.bytes) {
            assert!(!matches!(answer, Narrowed::Changed { .. }));
        }
        if Original::knows(&options, &Modes::OFF) {
            known += 1;
            let original =
                Original::narrow(kind, options, Modes::OFF, identifier, &input.bytes, room);
            assert_eq!(answer, original);
        }
    }
    assert!(known > 1_000, "{known}");
}

/// So it is over streams of plain IP: the original and the second filter answer alike.
#[test]
fn off_is_the_base_over_calls() {
    let mut known = 0;
    for seed in 0..SEEDS {
        let mut made = maker::plain_ip_calls(seed);
        made.modes = Modes::OFF;
        if Original::knows(&made.options, &made.modes) {
            known += 1;
            let mut writer = Writer::default();
            writer.calls(&cases::Calls::from(&made));
            let [original, plain] = [answers::<Original>, answers::<Plain>];
            assert_eq!(original(&writer.bytes), plain(&writer.bytes), "seed {seed}");
        }
    }
    assert!(known > 80, "{known}");
}

/// The mode changes nothing but packets of plain IP that were unchanged.
#[test]
fn on_nothing_else_changes() {
    let mut rewritten = 0;
    for input in inputs() {
        let Input {
            kind,
            options,
            identifier,
            room,
            ..
        } = input;
        let by = |modes| Plain::narrow(kind, options, modes, identifier, &input.bytes, room);
        let (on, off) = (by(Modes::PLAIN_IP), by(Modes::OFF));
        if on != off {
            assert!(kind == Kind::Packet && is_plain_ip(&input.bytes));
            assert_eq!(off, Narrowed::Unchanged);
            rewritten += 1;
        }
    }
    assert!(rewritten > 700, "{rewritten}");
}

/// Learning, dropping and all counts but those of bytes and rewritten packets are as with the mode off.
#[test]
fn calls_differ_in_what_is_rewritten_alone() {
    let (mut more, mut calls_seen) = (0, 0);
    for seed in 0..SEEDS {
        let calls = maker::plain_ip_calls(seed);
        let [on, off] =
            [Modes::PLAIN_IP, Modes::OFF].map(|modes| written(&calls, calls.options, modes));
        assert_eq!(on.len(), off.len());
        for (on, off) in on.iter().zip(&off) {
            let without = |call: &Call| {
                let counts = call.counts;
                (
                    counts.accepted,
                    counts.written,
                    counts.skipped,
                    counts.lost,
                    call.held,
                )
            };
            assert_eq!(without(on), without(off), "seed {seed}");
            assert!(on.counts.rewritten >= off.counts.rewritten && on.out.len() <= off.out.len());
            more += on.counts.rewritten - off.counts.rewritten;
            calls_seen += 1;
        }
    }
    assert!(more > 1_500 && calls_seen > 1_000, "{more} {calls_seen}");
}

/// The mode is no reason for a refusal.
#[test]
fn the_refusals_are_the_same() {
    for flags in 0..32 {
        let options = Options::from_flags(flags, 0x0401);
        for limits in [LIMITS, face::Limits { maps: 0, ..LIMITS }] {
            let [on, off] = [Modes::PLAIN_IP, Modes::OFF]
                .map(|modes| Plain::start(limits, options, modes).err());
            assert_eq!(on, off);
        }
    }
    let by = |length: usize, room| {
        Plain::narrow(
            Kind::Packet,
            ALL,
            Modes::PLAIN_IP,
            0,
            &vec![1; length],
            room,
        )
    };
    assert_eq!(by(65_540, 65_540), Narrowed::Refused(5));
    assert_eq!(by(65_539, 65_538), Narrowed::Refused(6));
    assert_eq!(by(65_539, 65_539), Narrowed::Unchanged);
}

/// What is named for request 2: both modes, every kind, each answer, starts and pushes.
#[test]
fn the_cases_of_request_2_occur() {
    let (mut kinds, mut unchanged, mut rewritten, mut off, mut calls) =
        (BTreeSet::new(), 0, 0, 0, 0);
    for case in requested() {
        match case {
            Requested::Narrowing(case) if case.input.modes == Modes::PLAIN_IP => {
                kinds.insert(format!("{:?}", case.input.kind));
                unchanged += usize::from(case.answer == Some(Narrowed::Unchanged));
                rewritten += usize::from(matches!(case.answer, Some(Narrowed::Changed { .. })));
            }
            Requested::Narrowing(case) => off += usize::from(case.name.ends_with(", mode off")),
            Requested::Calls(series) => calls += usize::from(series.case.modes == Modes::PLAIN_IP),
        }
    }
    assert_eq!(kinds.len(), 3);
    assert!(
        unchanged > 70 && rewritten > 60 && off > 40 && calls > 15,
        "{unchanged} {rewritten} {off} {calls}"
    );
}

/// The builders of the named cases: lengths and checksums of one packet, worked out apart from them.
#[test]
fn heads_are_written_out() {
    let heads = Heads::v4().around(&[0xab]);
    let expected =
        "7F 01 001D 4500 001D 1234 4000 4011 7C9D C0000201 E9FC0001 0FA0 0FA1 0009 899B AB";
    assert_eq!(heads, hex(expected));
    let longer = Heads::v4().words(6).around(&[]);
    assert_eq!(longer[..8], hex("7F 01 0020 4600 0020"));
    let six = Heads::v6().around(&[]);
    assert_eq!(six[..12], hex("7F 02 0030 60000000 0008 1140"));
}

/// The benchmarks' stream of plain IP: its tables are narrowed in the mode alone, and of single packets nothing is cut.
#[test]
fn the_air_in_plain_ip_is_narrowed_in_the_mode() {
    let options = Options {
        carousel: false,
        ..NO_CAPTIONS
    };
    let stream = maker::plain_ip_air(7, 60_000);
    let rewritten = |modes| {
        let mut filter = Plain::start(LIMITS, options, modes).expect("limits in range");
        let call = filter
            .push(&stream, stream.len())
            .expect("a chunk that fits");
        call.counts.rewritten
    };
    assert_eq!(rewritten(Modes::OFF), 0);
    assert_eq!(rewritten(Modes::PLAIN_IP), 6, "the MPT of each service");
    for packet in maker::plain_ip_uncut(7, 8, 64) {
        assert_eq!(narrow(options, Modes::PLAIN_IP, &packet), None);
        let captions_alone = Options::captions_only(None);
        assert!(narrow(captions_alone, Modes::PLAIN_IP, &packet).is_some());
    }
    for packet in maker::plain_ip_plts(7, 64) {
        assert_eq!(narrow(only(0x0500), Modes::PLAIN_IP, &packet), None);
        assert!(narrow(only(0x0405), Modes::PLAIN_IP, &packet).is_some());
    }
}
