//! Streams: 01's examples 11 and 12, starts and calls at each limit, and what one call leaves to the next.
//! Beside each that was built by hand stands its answer; small ones from seeds are the original's to judge.

use face::{Call, Counts, Limits, Options};
use maker::Case;

use crate::builders::*;

#[derive(Debug, Clone, PartialEq, Eq)]
pub struct NamedStream {
    pub name: String,
    pub case: Case,
    /// `None`: it is not stated here.
    pub answer: Option<Answer>,
}

/// What a stream is answered: its start's refusal, or each call and at the end how many identifiers are dropped.
#[derive(Debug, Clone, PartialEq, Eq)]
pub enum Answer {
    Refused(u8),
    Ran {
        calls: Vec<Result<Call, u8>>,
        dropped: u32,
    },
}

/// All of them, in the order in which they are written.
pub fn streams() -> Vec<NamedStream> {
    [
        examples(),
        refused_starts(),
        starts(),
        chunk_lengths(),
        packet_lengths(),
        outputs(),
        copy_all(),
        known(),
        byte_by_byte(),
        fragments(),
        maps(),
        cut_heads(),
        packets_that_stay(),
        from_seeds(),
    ]
    .concat()
}

/// P is 2,048, and so is the longest chunk.
pub(super) const LIMITS: Limits = Limits {
    work: 4_096,
    total: 4_096,
    most: 4_096,
    maps: 32_768,
};
pub(super) const P: usize = 2_048;

fn stream(
    name: impl Into<String>,
    options: Options,
    chunks: &[Vec<u8>],
    calls: Vec<Result<Call, u8>>,
    dropped: u32,
) -> NamedStream {
    NamedStream {
        name: name.into(),
        case: Case {
            limits: LIMITS,
            options,
            room: LIMITS.work,
            cuts: chunks.iter().map(Vec::len).collect(),
            bytes: chunks.concat(),
        },
        answer: Some(Answer::Ran { calls, dropped }),
    }
}

/// Captions off, and no identifier is dropped.
fn plain(name: &str, chunks: &[Vec<u8>], calls: Vec<Result<Call, u8>>) -> NamedStream {
    stream(name, NO_CAPTIONS, chunks, calls, 0)
}

impl NamedStream {
    /// The same with other limits.
    fn limited(mut self, limits: Limits) -> Self {
        self.case.limits = limits;
        self
    }

    /// The same with an output of another length.
    fn lent(mut self, room: usize) -> Self {
        self.case.room = room;
        self
    }
}

// Calls

/// Nothing accepted and nothing written.
pub(super) fn holding(held: usize) -> Call {
    Call {
        counts: Counts::default(),
        held,
        out: Vec::new(),
    }
}

/// A packet with what is written of it: as it is, narrowed, or nothing.
pub(super) type Sent = (Vec<u8>, Option<Vec<u8>>);

/// These packets, accepted in one call.
pub(super) fn packets(packets: &[Sent]) -> Call {
    let written: Vec<_> = packets.iter().filter_map(|(_, out)| out.clone()).collect();
    let narrowed = |(packet, out): &&Sent| out.as_ref().is_some_and(|written| written != packet);
    let out = written.concat();
    Call {
        counts: Counts {
            bytes: out.len() as u64,
            accepted: packets.len() as u64,
            written: written.len() as u64,
            rewritten: packets.iter().filter(narrowed).count() as u64,
            ..Counts::default()
        },
        held: 0,
        out,
    }
}

pub(super) fn passes(packet: &[u8]) -> Sent {
    (packet.to_vec(), Some(packet.to_vec()))
}

/// One packet that is written as it is.
pub(super) fn passed(packet: &[u8]) -> Call {
    packets(&[passes(packet)])
}

pub(super) fn skipped(skipped: u64, held: usize) -> Call {
    let counts = Counts {
        skipped,
        ..Counts::default()
    };
    Call {
        counts,
        ..holding(held)
    }
}

// Streams

/// Example 12's packet.
pub(super) fn short() -> Vec<u8> {
    hex("7F FF 00 01 AA")
}

/// A packet of this length that is no MMTP.
pub(super) fn filler(length: usize) -> Vec<u8> {
    tlv(0xff, &vec![0; length - 4])
}

fn examples() -> Vec<NamedStream> {
    let whole = [short(), vec![0]].concat();
    let calls = vec![Ok(passed(&short())), Ok(holding(1))];
    vec![
        plain("example 11", &[whole], vec![Ok(skipped(3, 3))]),
        plain("example 12", &[short(), vec![0]], calls),
    ]
}

pub(super) fn limits(work: usize, total: usize, most: usize, maps: usize) -> Limits {
    Limits {
        work,
        total,
        most,
        maps,
    }
}

/// Each refusal of a start alone, the lowest of several, and chunks behind it that are read past.
fn refused_starts() -> Vec<NamedStream> {
    let refused = |name: &str, limits: Limits, chunks: &[Vec<u8>], number: u8| NamedStream {
        answer: Some(Answer::Refused(number)),
        ..stream(name, NO_CAPTIONS, chunks, vec![], 0).limited(limits)
    };
    let longest = u32::MAX as usize;
    [
        ("a work room of 4,095", limits(4_095, 1, 1, 32_768), 1),
        ("a work room of 131,079", limits(131_079, 1, 1, 32_768), 1),
        ("no fragment room", limits(4_096, 0, 0, 32_768), 2),
        ("messages of no bytes", limits(4_096, 1, 0, 32_768), 2),
        ("messages above T", limits(4_096, 8, 9, 32_768), 2),
        ("the highest M", limits(4_096, 8, longest, 32_768), 2),
        ("a map room of 32,767", limits(4_096, 1, 1, 32_767), 3),
        ("a map room of 32,769", limits(4_096, 1, 1, 32_769), 3),
        ("no room at all", limits(0, 0, 0, 0), 1),
        ("neither fragments nor maps", limits(4_096, 0, 0, 0), 2),
    ]
    .into_iter()
    .flat_map(|(name, limits, number)| {
        [
            refused(name, limits, &[], number),
            refused(
                &format!("{name}, two chunks"),
                limits,
                &[short(), vec![0]],
                number,
            ),
        ]
    })
    .collect()
}

/// The shortest and the longest rooms, with and without calls.
fn starts() -> Vec<NamedStream> {
    let rooms = [
        ("the shortest rooms", limits(4_096, 1, 1, 32_768)),
        (
            "the longest rooms",
            limits(131_078, 1_048_576, 1_048_576, 32_768),
        ),
    ];
    let with = |(name, limits)| {
        let calls = vec![Ok(passed(&short()))];
        [
            stream(name, NO_CAPTIONS, &[short()], calls, 0).limited(limits),
            stream(format!("{name}, no calls"), NO_CAPTIONS, &[], vec![], 0).limited(limits),
        ]
    };
    rooms.into_iter().flat_map(with).collect()
}

/// Chunks of nothing, of the longest length, and one byte longer.
fn chunk_lengths() -> Vec<NamedStream> {
    let (full, longer) = (filler(P), filler(P + 1));
    let taken = || Ok(passed(&full));
    vec![
        plain(
            "a chunk of nothing",
            &[vec![], short(), vec![]],
            vec![Ok(holding(0)), Ok(passed(&short())), Ok(holding(0))],
        ),
        plain("a chunk of W-P bytes", &[full.clone()], vec![taken()]),
        plain(
            "a chunk of W-P+1 bytes, then one that is taken",
            &[longer, full.clone()],
            vec![Err(5), taken()],
        ),
    ]
}

/// Packets of P bytes and of one more. A refused call leaves what was held.
fn packet_lengths() -> Vec<NamedStream> {
    let (full, longer) = (filler(P), filler(P + 1));
    let (front, last) = full.split_at(P - 1);
    let (front, last) = (front.to_vec(), last.to_vec());
    let behind = [last.clone(), filler(P - 1)].concat();
    let both = packets(&[passes(&full), passes(&filler(P - 1))]);
    vec![
        plain(
            "a packet above P starts none",
            &[longer[..P].to_vec()],
            vec![Ok(skipped(P as u64 - 3, 3))],
        ),
        plain(
            "a work room full but for one byte",
            &[front.clone(), behind],
            vec![Ok(holding(P - 1)), Ok(both)],
        ),
        plain(
            "too long while bytes are held",
            &[front, longer, last],
            vec![Ok(holding(P - 1)), Err(5), Ok(passed(&full))],
        ),
    ]
}

/// Outputs exactly as long as held bytes and chunk, and one byte shorter.
fn outputs() -> Vec<NamedStream> {
    let packet = short();
    let (front, rest) = packet.split_at(3);
    let taken = || Ok(passed(&packet));
    vec![
        plain("an output as long as the chunk", &[short()], vec![taken()]).lent(5),
        plain("an output one byte shorter", &[short()], vec![Err(6)]).lent(4),
        plain(
            "no output, and a chunk of nothing",
            &[vec![]],
            vec![Ok(holding(0))],
        )
        .lent(0),
        plain(
            "an output too short for held bytes and chunk, then long enough",
            &[front.to_vec(), vec![0; 3], rest.to_vec()],
            vec![Ok(holding(3)), Err(6), taken()],
        )
        .lent(5),
        plain(
            "too long a chunk and too short an output",
            &[filler(P + 1)],
            vec![Err(5)],
        )
        .lent(0),
    ]
}

/// Everything is wanted: chunks are copied, packets or not.
fn copy_all() -> Vec<NamedStream> {
    let chunk = [short(), vec![0]].concat();
    let copied = Call {
        counts: Counts {
            bytes: chunk.len() as u64,
            ..Counts::default()
        },
        held: 0,
        out: chunk.clone(),
    };
    let case = |name, room, call| stream(name, ALL, &[chunk.clone()], vec![call], 0).lent(room);
    vec![
        case("copy-all writes what is no packet", 6, Ok(copied)),
        case("copy-all, an output one byte shorter", 5, Err(6)),
    ]
}

/// Services 0401 and 0402 with their MPTs on f001 and f002, and after them video, captions and carousels. Each
/// packet stands with what is written of it with captions off.
pub(super) fn broadcast() -> Vec<Sent> {
    let packages = [service_at(0x0401, 0xf001), service_at(0x0402, 0xf002)];
    let mpts = |captions: bool| {
        [(0xf001, 11, 12), (0xf002, 21, 22)].map(|(at, caption_at, carousel_at)| {
            let mut entries = vec![video(5), carousel(carousel_at)];
            if captions {
                entries.insert(1, caption(caption_at));
            }
            tables(at, &[mpt(&entries)])
        })
    };
    let plt = tables(0, &[plt(&packages)]);
    let mut packets = vec![(media(5), None), passes(&plt)];
    let narrowed = mpts(true).into_iter().zip(mpts(false).map(Some));
    packets.extend(narrowed);
    for (identifier, stays) in [(5, true), (11, false), (12, true), (21, false), (99, true)] {
        packets.push((media(identifier), stays.then(|| media(identifier))));
    }
    packets
}

pub(super) fn bytes(packets: &[Sent]) -> Vec<u8> {
    packets
        .iter()
        .flat_map(|(packet, _)| packet.clone())
        .collect()
}

/// Before the tables nothing but signalling is written; after them captions go, from the tables too.
fn known() -> Vec<NamedStream> {
    let all = broadcast();
    let (tables, media) = all.split_at(4);
    vec![
        stream(
            "captions go, in one chunk",
            NO_CAPTIONS,
            &[bytes(&all)],
            vec![Ok(packets(&all))],
            2,
        ),
        stream(
            "captions go, what is known goes from call to call",
            NO_CAPTIONS,
            &[bytes(tables), bytes(media)],
            vec![Ok(packets(tables)), Ok(packets(media))],
            2,
        ),
    ]
}

/// The same in chunks of one byte, and chunks of nothing behind them: 1,024 calls, the most of a case.
fn byte_by_byte() -> Vec<NamedStream> {
    let all = broadcast();
    let mut chunks: Vec<_> = bytes(&all).into_iter().map(|byte| vec![byte]).collect();
    let mut calls = Vec::new();
    for packet in &all {
        calls.extend((1..packet.0.len()).map(|held| Ok(holding(held))));
        calls.push(Ok(packets(std::slice::from_ref(packet))));
    }
    chunks.resize(1_024, vec![]);
    calls.resize(1_024, Ok(holding(0)));
    vec![stream("1,024 calls", NO_CAPTIONS, &chunks, calls, 2)]
}

/// An MPT in two fragments, a call each. It is learned, not narrowed; above M it is given up.
fn fragments() -> Vec<NamedStream> {
    let message = pa(&[mpt(&[video(5), caption(11)])]);
    let (first, last) = message.split_at(20);
    let parts = [fragment(1, first), fragment(3, last)].map(|part| signalling(0xf001, &part));
    let plt = tables(0, &[plt(&[service_at(0x0401, 0xf001)])]);
    let chunks = [
        plt.clone(),
        parts[0].clone(),
        parts[1].clone(),
        [media(5), media(11)].concat(),
    ];
    let calls = |media: Call| {
        let mut calls: Vec<_> = chunks[..3].iter().map(|chunk| Ok(passed(chunk))).collect();
        calls.push(Ok(media));
        calls
    };
    let learned = packets(&[passes(&media(5)), (media(11), None)]);
    let withheld = packets(&[(media(5), None), (media(11), None)]);
    let most = |most| limits(4_096, 4_096, most, 32_768);
    vec![
        stream(
            "a message of M bytes in fragments",
            NO_CAPTIONS,
            &chunks,
            calls(learned),
            1,
        )
        .limited(most(message.len())),
        stream(
            "a message of M+1 bytes in fragments",
            NO_CAPTIONS,
            &chunks,
            calls(withheld),
            0,
        )
        .limited(most(message.len() - 1)),
    ]
}

/// MPTs on 64 identifiers are known; one more is lost and counted.
fn maps() -> Vec<NamedStream> {
    let of = |identifiers: std::ops::Range<u16>| -> Vec<_> {
        identifiers
            .map(|identifier| passes(&tables(identifier, &[mpt(&[])])))
            .collect()
    };
    let (few, rest) = (of(1..33), of(33..66));
    let mut lost = packets(&rest);
    lost.counts.lost = 1;
    let chunks = [bytes(&few), bytes(&rest)];
    vec![plain("65 MPTs", &chunks, vec![Ok(packets(&few)), Ok(lost)])]
}

/// PA bodies cut in their count or in an entry, with a PLT where a reader past the cut would find one: nothing is
/// learned, until a whole PLT comes.
fn cut_heads() -> Vec<NamedStream> {
    let (list, found) = (plt(&[]), tables(0, &[plt(&[])]));
    let case = |name: &str, body: &[u8]| {
        let message = [&long_message(0, body)[..], &[0], &list].concat();
        let all = [
            passes(&signalling(0, &whole(&message))),
            (media(99), None),
            passes(&found),
            passes(&media(99)),
        ];
        plain(name, &[bytes(&all)], vec![Ok(packets(&all))])
    };
    vec![
        case("a PA body with no count", &[]),
        case("a PA body whose entry is cut", &[1, 0x80, 5, 0]),
        case(
            "a PA body whose second entry is cut",
            &[2, 0x80, 5, 0, 1, 0x80],
        ),
        case(
            "a PA body with a PLT where entries are announced",
            &[&[2][..], &list].concat(),
        ),
        case("a PA body of a count of 255 alone", &[255]),
    ]
}

/// Packets that narrowing leaves, each between two that it changes: they go out byte for byte.
fn packets_that_stay() -> Vec<NamedStream> {
    let assets = [video(1), caption(2)];
    let changed = [&assets[..], &assets[..1]].map(|entries| tables(5, &[mpt(entries)]));
    let message = pa(&[mpt(&assets)]);
    let mut unreadable = mpt(&assets);
    unreadable[10] += 1;
    let cut = pa_with_tail(&[mpt(&assets)], &[0x20, 0, 0, 1]);
    let left = [
        tables(0, &[plt(&[service_at(0x0401, 0xf001)])]),
        tables(5, &[mpt(&assets[..1])]),
        tables(5, &[unreadable]),
        signalling(5, &whole(&cut)),
        signalling(5, &[&whole(&pa(&[]))[..], &[1, 2, 3]].concat()),
        signalling(5, &aggregate(&[message.clone()])),
        signalling(5, &fragment(1, &message)),
        tlv(2, &[vec![0x60; 48], mmtp(2, 5, &whole(&message))].concat()),
        tlv(0xfe, &message),
        tlv(0xff, &[]),
    ];
    let between = || (changed[0].clone(), Some(changed[1].clone()));
    let mut all = vec![between()];
    all.extend(left.iter().flat_map(|packet| [passes(packet), between()]));
    vec![plain(
        "packets that stay between changed ones",
        &[bytes(&all)],
        vec![Ok(packets(&all))],
    )]
}

/// Streams of at most this many bytes, of as many seeds.
const SMALL: usize = 1_400;
const SEEDS: u64 = 400;

fn from_seeds() -> Vec<NamedStream> {
    let cases = (0..SEEDS).map(|seed| (seed, maker::case(seed)));
    cases
        .filter(|(_, case)| case.bytes.len() <= SMALL)
        .map(|(seed, case)| NamedStream {
            name: format!("small stream, seed {seed}"),
            case,
            answer: None,
        })
        .collect()
}
