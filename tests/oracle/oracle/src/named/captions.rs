//! Request 1, a recording of captions and tables: starts that are refused, and what is written and dropped of small
//! broadcasts, by the captions-only profile above all.

use face::{Limits, Options};

use super::calls::{NamedCalls, Step, asked, calls, lent, refused, sent};
use super::streams::{LIMITS, P, Sent, broadcast, bytes, packets};
use super::streams::{filler, holding, limits, passed, passes, short, skipped};
use super::wishes::{NEITHER, audio, combinations};
use crate::builders::*;

pub(super) fn captions() -> Vec<NamedCalls> {
    [
        starts(),
        refused_starts(),
        captions_only(),
        unwanted_signalling(),
        shared_identifiers(),
        carousel_data(),
        copy_all(),
        questions(),
        refused_pushes(),
        outputs(),
        as_a_stream(),
        most_operations(),
    ]
    .concat()
}

// Starts

/// Each combination of wishes, with a service named and without, and no operation: 9 where captions and other assets
/// are both off.
fn starts() -> Vec<NamedCalls> {
    let case = |(wanted, options): (String, Options)| {
        [None, Some(0x0401)].map(|service| {
            let options = Options { service, ..options };
            let of = if service.is_some() { "0401" } else { "all" };
            let mut case = calls(format!("a start of {of}, {wanted} wanted"), options, vec![]);
            if !options.caption && !options.other {
                case.answer = Err(9);
            }
            case
        })
    };
    combinations().flat_map(case).collect()
}

/// 9 comes after 1, 2 and 3.
fn refused_starts() -> Vec<NamedCalls> {
    let case = |name: &str, limits: Limits, number| {
        let name = format!("neither captions nor other assets, {name}");
        refused(&name, limits, NEITHER, number)
    };
    let without_others = |name: &str, limits: Limits, number| {
        let name = format!("captions only, {name}");
        refused(&name, limits, Options::captions_only(None), number)
    };
    vec![
        case("calls behind it", LIMITS, 9),
        case("the shortest rooms", limits(4_096, 1, 1, 32_768), 9),
        case("a work room of 4,095", limits(4_095, 1, 1, 32_768), 1),
        case("no fragment room", limits(4_096, 0, 0, 32_768), 2),
        case("messages above T", limits(4_096, 8, 9, 32_768), 2),
        case("a map room of 32,767", limits(4_096, 1, 1, 32_767), 3),
        case("a map room of 32,769", limits(4_096, 1, 1, 32_769), 3),
        case("no room at all", limits(0, 0, 0, 0), 1),
        case("neither fragments nor maps", limits(4_096, 0, 0, 0), 2),
        without_others("a work room of 131,079", limits(131_079, 1, 1, 32_768), 1),
        without_others("messages of no bytes", limits(4_096, 1, 0, 32_768), 2),
        without_others("a map room of 32,767", limits(4_096, 1, 1, 32_767), 3),
    ]
}

// Broadcasts

fn gone(packet: Vec<u8>) -> Sent {
    (packet, None)
}

fn narrowed(before: Vec<u8>, after: Vec<u8>) -> Sent {
    (before, Some(after))
}

/// The media of an identifier.
fn written(identifier: u16) -> Sent {
    passes(&media(identifier))
}

fn unwritten(identifier: u16) -> Sent {
    gone(media(identifier))
}

/// The PLT with service 0401 at f001.
fn one_service() -> Sent {
    passes(&tables(0, &[plt(&[service_at(0x0401, 0xf001)])]))
}

/// The MPT at f001, and what is left of it.
fn list(before: &[Vec<u8>], after: &[Vec<u8>]) -> Sent {
    let at = |entries: &[Vec<u8>]| tables(0xf001, &[mpt(entries)]);
    narrowed(at(before), at(after))
}

/// A message that teaches nothing.
fn other_message(identifier: u16) -> Vec<u8> {
    signalling(identifier, &whole(&long_message(0x7000, &[1])))
}

fn data_message(identifier: u16) -> Vec<u8> {
    signalling(identifier, &whole(&data()))
}

/// Clock packets, in IPv4 and in IPv6: what stands behind port 123 is not read.
fn clocks() -> [Vec<u8>; 2] {
    [(1, 20), (2, 40)].map(|(kind, header): (u8, usize)| {
        let mut payload = vec![0x45; header + 8];
        payload[header + 2..header + 4].copy_from_slice(&123_u16.to_be_bytes());
        tlv(kind, &[payload, mmtp(0, 5, b"clock")].concat())
    })
}

/// Packets that carry no MMTP.
fn apart() -> Vec<Sent> {
    let [v4, v6] = clocks();
    let packets = [tlv(0xfe, b"control"), v4, tlv(0xff, &[]), v6];
    packets.iter().map(|packet| passes(packet)).collect()
}

/// Services 0401 and 0402, with video at 5, captions at 11 and 21, carousels at 12 and 22, audio at 13. What stays of
/// each list are its captions.
fn two_services() -> [Sent; 3] {
    let packages = [service_at(0x0401, 0xf001), service_at(0x0402, 0xf002)];
    let first = [video(5), caption(11), carousel(12), audio(13)];
    let second = [caption(21), video(5), carousel(22)];
    let at = |identifier, entries: &[Vec<u8>]| tables(identifier, &[mpt(entries)]);
    [
        passes(&tables(0, &[plt(&packages)])),
        narrowed(at(0xf001, &first), at(0xf001, &first[1..2])),
        narrowed(at(0xf002, &second), at(0xf002, &second[..1])),
    ]
}

/// The media of an identifier, written or not.
fn if_kept(identifier: u16, kept: bool) -> Sent {
    if kept {
        written(identifier)
    } else {
        unwritten(identifier)
    }
}

/// The media of both services by the profile: with those of service 0402, or without.
fn captions_alone(theirs: bool) -> Vec<Sent> {
    let all = [
        (0, true),
        (5, false),
        (11, true),
        (12, false),
        (13, false),
        (21, theirs),
        (22, false),
        (99, true),
        (0xf001, true),
        (0xf002, theirs),
    ];
    all.map(|(identifier, kept)| if_kept(identifier, kept))
        .to_vec()
}

/// The profile over whole small broadcasts: of all services, and of one.
fn captions_only() -> Vec<NamedCalls> {
    let [list, ours, theirs] = two_services();
    let one = tables(0, &[plt(&[service_at(0x0401, 0xf001)])]);
    let of_all = [list.clone(), ours.clone(), theirs.clone()];
    let of_one = [narrowed(list.0, one), ours, gone(theirs.0)];
    let early = [unwritten(5), unwritten(11), unwritten(99)];
    let eit = [gone(other_message(0x8000)), unwritten(0x8000)];
    let carousels = [gone(data_message(99)), unwritten(99), written(98)];
    let case = |name, service: Option<u16>, tables: &[Sent], dropped: u32| {
        let steps = vec![
            asked(1),
            sent(&[&early[..], &apart()].concat()),
            sent(tables),
            asked(dropped),
            sent(&[captions_alone(service.is_none()), apart()].concat()),
            sent(&eit),
            sent(&carousels),
            asked(dropped + 1),
        ];
        calls(name, Options::captions_only(service), steps)
    };
    let service = Some(0x0401);
    vec![
        case("captions only, of all services", None, &of_all, 5),
        case("captions only, of service 0401", service, &of_one, 7),
    ]
}

/// Signalling on the identifier of an unwanted asset goes, and is learned from before.
fn unwanted_signalling() -> Vec<NamedCalls> {
    let both = [video(5), caption(11)];
    let known = [one_service(), list(&both, &both[1..])];
    let messages = [
        gone(other_message(5)),
        passes(&other_message(11)),
        passes(&other_message(0)),
        passes(&other_message(0xf001)),
        passes(&other_message(99)),
        gone(signalling(5, &fragment(1, &[1, 2]))),
        gone(tables(5, &[mpt(&both)])),
    ];
    let moved = tables(0, &[plt(&[service_at(0x0401, 5)])]);
    let learned = [passes(&moved), written(5)];
    let at_five = |entries: &[Vec<u8>]| tables(5, &[mpt(entries)]);
    let again = [
        narrowed(at_five(&[video(7), caption(11)]), at_five(&[caption(11)])),
        unwritten(7),
    ];
    vec![calls(
        "signalling on the identifier of an unwanted asset",
        NO_OTHERS,
        vec![
            sent(&[passes(&other_message(5))]),
            sent(&known),
            asked(1),
            sent(&messages),
            asked(1),
            // The list that came on 5 is that of the service now: it names 5 as video, and the MPT's identifier is kept.
            sent(&learned),
            asked(0),
            sent(&again),
            asked(1),
        ],
    )]
}

/// Identifiers that assets of two kinds share: kept for one of them, they are kept.
fn shared_identifiers() -> Vec<NamedCalls> {
    let assets = [
        video(5),
        caption(5),
        carousel(6),
        audio(6),
        video(7),
        caption(8),
    ];
    let case = |name, options, left: &[usize], dropped: &[u16]| {
        let left: Vec<_> = left.iter().map(|&nth| assets[nth].clone()).collect();
        let known = [one_service(), list(&assets, &left)];
        let media = (5..=8).chain([0x8000]);
        let media = media.map(|at| if_kept(at, !dropped.contains(&at)));
        let media: Vec<_> = media.collect();
        let number = asked(dropped.len() as u32);
        calls(name, options, vec![sent(&known), number, sent(&media)])
    };
    let profile = Options::captions_only(None);
    let mut cases = vec![
        case("shared, other assets off", NO_OTHERS, &[1, 2, 5], &[7]),
        case("shared, captions only", profile, &[1, 5], &[6, 7, 0x8000]),
        case("shared, captions off", NO_CAPTIONS, &[0, 2, 3, 4], &[8]),
    ];
    cases.extend(shared_by_services());
    cases
}

/// A caption of ours where the other service has its video, and the other way round.
fn shared_by_services() -> Vec<NamedCalls> {
    let packages = [service_at(0x0401, 0xf001), service_at(0x0402, 0xf002)];
    let one = tables(0, &[plt(&packages[..1])]);
    let at = |identifier, entries: &[Vec<u8>]| tables(identifier, &[mpt(entries)]);
    let known = [
        narrowed(tables(0, &[plt(&packages)]), one),
        narrowed(
            at(0xf001, &[caption(5), video(6)]),
            at(0xf001, &[caption(5)]),
        ),
        gone(at(0xf002, &[video(5), caption(6)])),
    ];
    let options = Options {
        other: false,
        ..only(0x0401)
    };
    let media = [written(5), unwritten(6), unwritten(0xf002)];
    let steps = vec![sent(&known), asked(2), sent(&media)];
    vec![calls("shared with another service", options, steps)]
}

/// Data carousels: the wish of carousels decides, except where a list names the identifier.
fn carousel_data() -> Vec<NamedCalls> {
    let assets = [video(5), caption(11)];
    let known = [one_service(), list(&assets, &assets[1..])];
    let with = [
        passes(&data_message(99)),
        written(99),
        gone(data_message(5)),
        unwritten(5),
        passes(&data_message(11)),
        written(11),
    ];
    let without = [
        gone(data_message(99)),
        unwritten(99),
        gone(data_message(5)),
        unwritten(5),
        passes(&data_message(11)),
        written(11),
        passes(&data_message(0)),
        written(0),
    ];
    let case = |name, options, data: &[Sent], dropped: [u32; 2]| {
        let steps = vec![
            sent(&known),
            asked(dropped[0]),
            sent(data),
            asked(dropped[1]),
        ];
        calls(name, options, steps)
    };
    let profile = Options::captions_only(None);
    vec![
        case("data, other assets off", NO_OTHERS, &with, [1, 1]),
        case("data, captions only", profile, &without, [2, 3]),
    ]
}

/// Only with all four wishes, and no service, is everything copied and nothing learned.
fn copy_all() -> Vec<NamedCalls> {
    let chunk = [short(), vec![0]].concat();
    let copied = |chunk: &[u8]| {
        let mut call = holding(0);
        call.counts.bytes = chunk.len() as u64;
        call.out = chunk.to_vec();
        Ok(call)
    };
    let assets = [video(5), caption(11)];
    let known = [one_service().0, list(&assets, &[]).0].concat();
    let copies = vec![
        lent(6, chunk.clone(), copied(&chunk)),
        asked(0),
        lent(4_096, known.clone(), copied(&known)),
        asked(0),
        lent(5, chunk.clone(), Err(6)),
    ];
    let reads = vec![
        lent(6, chunk, Ok(skipped(3, 3))),
        asked(0),
        sent_behind(3, &[one_service(), list(&assets, &assets[1..])]),
        asked(1),
    ];
    vec![
        calls("copy-all with all four wishes", ALL, copies),
        calls("no copy-all without other assets", NO_OTHERS, reads),
    ]
}

/// A push of packets behind so many held bytes, which are skipped for them.
fn sent_behind(held: u64, all: &[Sent]) -> Step {
    let mut call = packets(all);
    call.counts.skipped = held;
    lent(LIMITS.work, bytes(all), Ok(call))
}

/// How many identifiers are dropped: before anything is known, after each table, after changes.
fn questions() -> Vec<NamedCalls> {
    let first = [video(5), caption(11), audio(6)];
    let second = [caption(5), video(7)];
    let third = [carousel(8)];
    let empty = passes(&tables(0, &[plt(&[])]));
    let case = |name, options, dropped: [u32; 6], third_left: &[Vec<u8>]| {
        let tables = [
            one_service(),
            list(&first, &first[1..2]),
            list(&second, &second[..1]),
            list(&third, third_left),
            empty.clone(),
        ];
        let mut steps = vec![asked(dropped[0])];
        for (packet, dropped) in tables.iter().zip(&dropped[1..]) {
            steps.extend([sent(std::slice::from_ref(packet)), asked(*dropped)]);
        }
        calls(name, options, steps)
    };
    let profile = Options::captions_only(None);
    vec![
        case(
            "questions, other assets off",
            NO_OTHERS,
            [0, 0, 2, 1, 0, 0],
            &third,
        ),
        case("questions, captions only", profile, [1, 1, 3, 2, 2, 1], &[]),
    ]
}

/// Refused pushes between other operations change nothing.
fn refused_pushes() -> Vec<NamedCalls> {
    let assets = [video(5), caption(11)];
    let (front, rest) = (media(11)[..9].to_vec(), media(11)[9..].to_vec());
    let whole = media(11).len();
    let steps = vec![
        lent(P + 1, filler(P + 1), Err(5)),
        asked(0),
        lent(9, one_service().0, Err(6)),
        asked(0),
        sent(&[one_service(), list(&assets, &assets[1..])]),
        asked(1),
        lent(9, front, Ok(holding(9))),
        lent(0, filler(P + 1), Err(5)),
        asked(1),
        lent(whole - 1, rest.clone(), Err(6)),
        lent(8, vec![], Err(6)),
        asked(1),
        lent(whole, rest, Ok(passed(&media(11)))),
        sent(&[unwritten(5)]),
        asked(1),
    ];
    vec![calls("refused pushes between others", NO_OTHERS, steps)]
}

/// Each push has an output of its own.
fn outputs() -> Vec<NamedCalls> {
    let packet = short();
    let taken = || Ok(passed(&packet));
    let steps = vec![
        lent(0, vec![], Ok(holding(0))),
        lent(5, short(), taken()),
        lent(6, short(), taken()),
        lent(4, short(), Err(6)),
        lent(262_400, short(), taken()),
        lent(0, short(), Err(6)),
        lent(5, short(), taken()),
    ];
    vec![calls("an output for each push", NO_OTHERS, steps)]
}

/// What streams are answered, calls are.
fn as_a_stream() -> Vec<NamedCalls> {
    let all = broadcast();
    let (tables, media) = all.split_at(4);
    vec![calls(
        "captions go, by calls",
        NO_CAPTIONS,
        vec![asked(0), sent(tables), asked(2), sent(media), asked(2)],
    )]
}

/// 1,024 operations, the most of a case.
fn most_operations() -> Vec<NamedCalls> {
    let pair = || [lent(0, vec![], Ok(holding(0))), asked(1)];
    let steps = (0..512).flat_map(|_| pair()).collect();
    vec![calls(
        "1,024 operations",
        Options::captions_only(None),
        steps,
    )]
}
