//! Request 2, tables in plain IP packets: which packets are narrowed with the mode on, and where that shows the difference the
//! same with the mode off. Each sentence of the request and of its reading about heads has a few.

use face::{Modes, Narrowed, Options};

use super::{Named, cut, packet};
use crate::builders::*;
use crate::datagrams::{Heads, IP};

pub(super) fn plain_ip() -> Vec<Named> {
    [
        written_out(),
        narrowed(),
        versions(),
        short_headers(),
        fragments(),
        protocols(),
        lengths(),
        ports(),
        cut_heads(),
        first_bytes(),
    ]
    .concat()
}

/// The MMTP packet of an MPT.
pub(super) fn listing(entries: &[Vec<u8>]) -> Vec<u8> {
    mmtp(2, 0xf001, &whole(&pa(&[mpt(entries)])))
}

/// It lists a video and a caption.
pub(super) fn both() -> Vec<u8> {
    listing(&[video(1), caption(2)])
}

/// What is left of it without captions.
pub(super) fn one() -> Vec<u8> {
    listing(&[video(1)])
}

pub(super) fn in_mode(case: Named, modes: Modes) -> Named {
    let mut case = case;
    case.name = format!("plain IP, {}", case.name);
    case.input.modes = modes;
    case
}

pub(super) fn on(
    name: impl Into<String>,
    options: Options,
    bytes: Vec<u8>,
    answer: Narrowed,
) -> Named {
    in_mode(packet(name, options, bytes, answer), Modes::PLAIN_IP)
}

/// The packet with the mode off, which stays.
pub(super) fn off(name: &str, options: Options, bytes: Vec<u8>) -> Named {
    let name = format!("{name}, mode off");
    in_mode(
        packet(name, options, bytes, Narrowed::Unchanged),
        Modes::OFF,
    )
}

/// A packet of which the caption goes, and the same with the mode off.
pub(super) fn narrows(name: &str, before: Vec<u8>, after: Vec<u8>) -> Vec<Named> {
    vec![
        on(name, NO_CAPTIONS, before.clone(), cut(after)),
        off(name, NO_CAPTIONS, before),
    ]
}

/// With these heads the caption goes.
pub(super) fn heads_narrow(name: &str, heads: &Heads) -> Vec<Named> {
    narrows(name, heads.around(&both()), heads.around(&one()))
}

/// A packet that is not narrowed, whatever the mode.
pub(super) fn stays(name: impl Into<String>, bytes: Vec<u8>) -> Named {
    on(name, NO_CAPTIONS, bytes, Narrowed::Unchanged)
}

fn heads_stay(name: impl Into<String>, heads: &Heads) -> Named {
    stays(name, heads.around(&both()))
}

/// With these bytes at a place.
pub(super) fn with(mut bytes: Vec<u8>, at: usize, other: &[u8]) -> Vec<u8> {
    bytes[at..at + other.len()].copy_from_slice(other);
    bytes
}

/// Byte by byte; its checksums were worked out apart from all that is here.
fn written_out() -> Vec<Named> {
    let heads = |tlv: &str, header: &str, udp: &str| {
        format!(
            "7F 01 {tlv} 45 00 {tlv} 1234 4000 40 11 {header} C0000201 E9FC0001 0FA0 0FA1 {udp} \
             00 02 F001 00000000 00000000"
        )
    };
    let video = "00 00000000 01 11 68766331 00 01 00 F100 0000";
    let caption = "00 00000000 01 22 73747070 00 01 00 F130 0000";
    let message = |length: &str, table: &str| {
        format!("00 00 0000 00 {length} 01 2005{table} 2005{table} 00 02 04 00 00 00")
    };
    let before = [
        heads("0065", "7C55", "0051 E600"),
        message("00000034", "002B"),
        format!("02 {video} {caption}"),
    ];
    let after = [
        heads("0053", "7C67", "003F 0F42"),
        message("00000022", "0019"),
        format!("01 {video}"),
    ];
    let [before, after] = [before, after].map(|parts| hex(&parts.concat()));
    narrows("written out", before, after)
}

fn narrowed() -> Vec<Named> {
    let options = (6..=15).flat_map(|words| {
        let name = format!("IPv4 with a header of {} bytes", 4 * usize::from(words));
        heads_narrow(&name, &Heads::v4().words(words))
    });
    let heads = Heads::v4();
    let wrong = with(heads.around(&one()), heads.udp_checksum_at(), &[1, 2]);
    let usual = [
        heads_narrow("IPv4 with a header of 20 bytes", &heads),
        heads_narrow("IPv6", &Heads::v6()),
        heads_narrow(
            "IPv6, class and flow",
            &Heads::v6().put(0, &[0x6f, 0xff, 9, 9]),
        ),
        heads_narrow(
            "IPv4, service and life",
            &heads.put(1, &[0xff]).put(8, &[0]),
        ),
        vec![stays("nothing to cut, a wrong checksum stays", wrong)],
    ];
    usual.concat().into_iter().chain(options).collect()
}

fn versions() -> Vec<Named> {
    let four = [0, 3, 5, 6, 15].map(|version: u8| {
        let heads = Heads::v4().put(0, &[version << 4 | 5]);
        heads_stay(format!("IPv4 with version {version}"), &heads)
    });
    let six = [0, 4, 5, 7, 14].map(|version: u8| {
        let heads = Heads::v6().put(0, &[version << 4]);
        heads_stay(format!("IPv6 with version {version}"), &heads)
    });
    let other = |heads: Heads, kind: u8| with(heads.around(&both()), 1, &[kind]);
    let swapped = [
        stays("an IPv6 packet as type 1", other(Heads::v6(), 1)),
        stays("an IPv4 packet as type 2", other(Heads::v4(), 2)),
    ];
    four.into_iter().chain(six).chain(swapped).collect()
}

/// MMTP stands where 01 looks for it, and is learned from; all that the header has room for is right.
fn short_headers() -> Vec<Named> {
    let case = |words: u8| {
        let name = format!("IPv4 with a header of {} bytes", 4 * words);
        heads_stay(name, &Heads::v4().words(words))
    };
    (0..5).map(case).collect()
}

fn fragments() -> Vec<Named> {
    let flagged = |fragment: u16| Heads::v4().put(6, &fragment.to_be_bytes());
    let fragment = |name: &str, number| heads_stay(name, &flagged(number));
    [
        vec![
            fragment("more fragments", 0x2000),
            fragment("more fragments, don't fragment", 0x6000),
            fragment("a fragment at 8", 0x0001),
            fragment("a fragment at 2,048", 0x0100),
            fragment("a fragment at 32,768", 0x1000),
            fragment("the last fragment", 0x1fff),
            fragment("a fragment in the middle", 0x2001),
            fragment("all bits of the fragment field", 0xffff),
        ],
        heads_narrow("neither flag", &flagged(0)),
        heads_narrow("the reserved bit", &flagged(0x8000)),
        heads_narrow("the reserved bit and don't fragment", &flagged(0xc000)),
    ]
    .concat()
}

fn protocols() -> Vec<Named> {
    let four = [0, 1, 6, 16, 18, 41, 136, 255]
        .map(|number| heads_stay(format!("protocol {number}"), &Heads::v4().put(9, &[number])));
    let six = [0, 6, 16, 43, 44, 59, 60, 136].map(|number| {
        let heads = Heads::v6().put(6, &[number]);
        heads_stay(format!("next header {number}"), &heads)
    });
    // The options header is as long as a UDP header, and UDP follows it.
    let options = [
        &[17, 0, 1, 4, 0, 0, 0, 0][..],
        &Heads::v4().around(&both())[IP + 20..],
    ]
    .concat();
    let heads = Heads::v6().put(6, &[60]);
    let behind = heads_stay_around("UDP behind options", &heads, &options);
    four.into_iter().chain(six).chain([behind]).collect()
}

/// The IPv6 header with other content than UDP.
fn heads_stay_around(name: &str, heads: &Heads, content: &[u8]) -> Named {
    let mut payload = heads.around(&[])[IP..IP + heads.header()].to_vec();
    payload[4..6].copy_from_slice(&(content.len() as u16).to_be_bytes());
    payload.extend(content);
    stays(name, tlv(2, &payload))
}

fn lengths() -> Vec<Named> {
    let (four, six) = (Heads::v4(), Heads::v6());
    let sizes = [(&four, IP + 2, "IPv4"), (&six, IP + 4, "IPv6")];
    let case = |(heads, ip_at, name): (&Heads, usize, &str)| {
        let right = heads.around(&both());
        let udp_at = heads.udp_length_at();
        let length = |at: usize| u16::from_be_bytes([right[at], right[at + 1]]);
        let wrong = |what: &str, at: usize, number: u16| {
            let name = format!("{name}, {what} {number}");
            stays(name, with(right.clone(), at, &number.to_be_bytes()))
        };
        let (ip, udp) = (length(ip_at), length(udp_at));
        let padded = [&right[IP..], &[0]].concat();
        let padded = tlv(right[1], &padded);
        let shorter = tlv(right[1], &right[IP..right.len() - 1]);
        let beyond = with(padded.clone(), ip_at, &(ip + 1).to_be_bytes());
        vec![
            wrong("an IP length of", ip_at, ip - 1),
            wrong("an IP length of", ip_at, ip + 1),
            wrong("an IP length of", ip_at, 0),
            wrong("an IP length of", ip_at, ip ^ 0x0100),
            wrong("a UDP length of", udp_at, udp - 1),
            wrong("a UDP length of", udp_at, udp + 1),
            wrong("a UDP length of", udp_at, 0),
            wrong("a UDP length of", udp_at, 7),
            wrong("a UDP length of", udp_at, 8),
            wrong("a UDP length of", udp_at, udp | 0x8000),
            stays(format!("{name}, padding behind"), padded),
            stays(format!("{name}, a byte behind UDP"), beyond),
            stays(format!("{name}, a byte is missing"), shorter),
        ]
    };
    sizes.into_iter().flat_map(case).collect()
}

fn ports() -> Vec<Named> {
    [("IPv4", Heads::v4()), ("IPv6", Heads::v6())]
        .into_iter()
        .flat_map(|(name, heads)| {
            let to = |port| heads.clone().ports(4_000, port);
            let mut cases = vec![heads_stay(format!("{name} to port 123"), &to(123))];
            cases.extend(heads_narrow(&format!("{name} to port 122"), &to(122)));
            let from = heads.clone().ports(123, 4_001);
            cases.extend(heads_narrow(&format!("{name} from port 123"), &from));
            cases
        })
        .collect()
}

fn cut_heads() -> Vec<Named> {
    let case = |name: &str, heads: Heads, cuts: &[usize]| -> Vec<Named> {
        let right = heads.around(&both());
        let cut = |length: &usize| {
            let name = format!("{name}, the first {length} bytes");
            stays(name, tlv(right[1], &right[IP..IP + length]))
        };
        cuts.iter().map(cut).collect()
    };
    // Ends with its UDP header, all lengths right.
    let bare = |heads: Heads| heads.around(&[]);
    [
        case(
            "IPv4",
            Heads::v4(),
            &[0, 1, 9, 19, 20, 23, 24, 27, 28, 39, 40],
        ),
        case("IPv6", Heads::v6(), &[0, 1, 39, 40, 43, 44, 47, 48, 59, 60]),
        vec![
            stays("IPv4, no MMTP", bare(Heads::v4())),
            stays("IPv6, no MMTP", bare(Heads::v6())),
            stays("no payload at all, type 1", vec![0x7f, 1, 0]),
        ],
    ]
    .concat()
}

/// Of the TLV head only the type is read: the payload is what is behind it.
fn first_bytes() -> Vec<Named> {
    let (four, six) = (Heads::v4(), Heads::v6());
    let begun = |heads: &Heads, content: &[u8], length: [u8; 2]| {
        let packet = with(heads.around(content), 0, &[0]);
        with(packet, 2, &length)
    };
    let narrowed = |heads: &Heads| with(heads.around(&one()), 0, &[0]);
    [
        narrows(
            "another mark and length, IPv4",
            begun(&four, &both(), [0xff; 2]),
            narrowed(&four),
        ),
        narrows(
            "another mark and length, IPv6",
            begun(&six, &both(), [0, 0]),
            narrowed(&six),
        ),
    ]
    .concat()
}
