//! Request 2, tables in plain IP packets: what narrowing leaves of them with the mode on, lengths and checksums above all, and
//! what it does not touch. The heads are those of `plain_ip.rs`.

use std::slice::from_ref;

use face::{Modes, Narrowed, Options};

use super::plain_ip::{both, heads_narrow, in_mode, narrows, off, on, one, stays, with};
use super::{Named, counted, cut, listed, payload, table};
use crate::builders::*;
use crate::datagrams::{Heads, IP};

pub(super) fn worked_out() -> Vec<Named> {
    [
        checksums_in(),
        zero_checksums(),
        sums_of_zero(),
        same_bytes(),
        parities(),
        inside(),
        not_inside(),
        compressed_beside(),
        alone(),
        outputs(),
    ]
    .concat()
}

/// What comes in is not verified, what goes out is right.
fn checksums_in() -> Vec<Named> {
    let (four, six) = (Heads::v4(), Heads::v6());
    let header_at = IP + 10;
    let case = |name: &str, heads: &Heads, wrong: &[(usize, [u8; 2])]| {
        let spoil = |bytes, (at, sum): &(usize, [u8; 2])| with(bytes, *at, sum);
        let before = wrong.iter().fold(heads.around(&both()), spoil);
        narrows(name, before, heads.around(&one()))
    };
    let udp = |heads: &Heads| (heads.udp_checksum_at(), [0xab, 0xcd]);
    [
        case("a wrong header checksum", &four, &[(header_at, [1, 2])]),
        case("a header checksum of zero", &four, &[(header_at, [0, 0])]),
        case("a wrong UDP checksum, IPv4", &four, &[udp(&four)]),
        case("a wrong UDP checksum, IPv6", &six, &[udp(&six)]),
        case("both wrong", &four, &[(header_at, [9, 9]), udp(&four)]),
        case(
            "a UDP checksum of ffff",
            &four,
            &[(four.udp_checksum_at(), [0xff; 2])],
        ),
    ]
    .concat()
}

/// In IPv4 it stays zero, in IPv6 it is worked out.
fn zero_checksums() -> Vec<Named> {
    let four = Heads::v4().unsummed();
    let options = Heads::v4().words(9).unsummed();
    let six = Heads::v6();
    let wrong = with(four.around(&both()), IP + 10, &[7, 7]);
    let missing = six.clone().unsummed().around(&both());
    [
        heads_narrow("no UDP checksum, IPv4", &four),
        heads_narrow("no UDP checksum, IPv4 with options", &options),
        narrows(
            "no UDP checksum, a wrong one of the header",
            wrong,
            four.around(&one()),
        ),
        narrows("no UDP checksum, IPv6", missing, six.around(&one())),
    ]
    .concat()
}

fn sums_of_zero() -> Vec<Named> {
    let case = |name: &str, heads: Heads| {
        let heads = heads.with_udp_sum_zero(&one());
        assert_eq!(heads.udp_checksum(&one()), 0xffff);
        heads_narrow(name, &heads)
    };
    let header = Heads::v4().with_header_sum_zero(&one());
    assert_eq!(header.around(&one())[IP + 10..IP + 12], [0, 0]);
    [
        case("a UDP sum that comes out as zero, IPv4", Heads::v4()),
        case("a UDP sum that comes out as zero, IPv6", Heads::v6()),
        case("a UDP sum of zero, IPv4 with options", Heads::v4().words(7)),
        heads_narrow("a header sum that comes out as zero", &header),
        case("both sums come out as zero", header),
    ]
    .concat()
}

/// The PLT of one service: "changed even to the same bytes".
fn same_bytes() -> Vec<Named> {
    let list = mmtp(2, 0, &whole(&pa(&[plt(&[service_at(0x0401, 0xf001)])])));
    let (four, six) = (Heads::v4(), Heads::v6());
    let case = |name: &str, before: Vec<u8>, after: Vec<u8>| {
        let name = format!("the same tables, {name}");
        vec![
            on(&name, only(0x0401), before.clone(), listed(after)),
            off(&name, only(0x0401), before),
        ]
    };
    let spoilt =
        |heads: &Heads, sum: [u8; 2]| with(heads.around(&list), heads.udp_checksum_at(), &sum);
    let header = with(four.around(&list), IP + 10, &[0xff, 0xff]);
    let zero = four.clone().with_udp_sum_zero(&list);
    let unsummed = four.clone().unsummed().around(&list);
    [
        case("IPv4", four.around(&list), four.around(&list)),
        case("IPv6", six.around(&list), six.around(&list)),
        case(
            "a wrong UDP checksum, IPv4",
            spoilt(&four, [1, 2]),
            four.around(&list),
        ),
        case(
            "a wrong UDP checksum, IPv6",
            spoilt(&six, [1, 2]),
            six.around(&list),
        ),
        case("no UDP checksum, IPv4", unsummed.clone(), unsummed),
        case(
            "no UDP checksum, IPv6",
            spoilt(&six, [0, 0]),
            six.around(&list),
        ),
        case("a wrong header checksum", header, four.around(&list)),
        case("a UDP sum of zero", zero.around(&list), zero.around(&list)),
    ]
    .concat()
}

/// Lengths of both parities, before and after.
fn parities() -> Vec<Named> {
    let around = |heads: &Heads, entries: &[Vec<u8>], tail: &[u8]| {
        let message = pa(&[mpt_of(0x20, entries, tail)]);
        heads.around(&mmtp(2, 0xf001, &whole(&message)))
    };
    let odd = asset(&[2, 3], "stpp", &[0], &[here(9)], &[]);
    let cases = [
        (caption(2), vec![]),
        (caption(2), vec![7]),
        (odd.clone(), vec![]),
        (odd, vec![7]),
    ];
    cases
        .into_iter()
        .zip(1..)
        .flat_map(|((gone, tail), nth)| {
            [("IPv4", Heads::v4()), ("IPv6", Heads::v6())].map(|(version, heads)| {
                let before = around(&heads, &[video(1), gone.clone()], &tail);
                let after = around(&heads, &[video(1)], &tail);
                let name = format!("{version}, parity {nth}");
                on(name, NO_CAPTIONS, before, cut(after))
            })
        })
        .collect()
}

/// What is narrowed is what is narrowed in compressed packets.
fn inside() -> Vec<Named> {
    let extended = |entries: &[Vec<u8>]| {
        let mut packet = mmtp(2, 0xf001, &[1, 2, 3, 4, 0, 0, 0, 1, 9]);
        packet[0] = 0x22;
        packet.extend(whole(&pa(&[mpt(entries)])));
        Heads::v4().around(&packet)
    };
    let two = |packages: &[Vec<u8>], entries: &[Vec<u8>]| {
        let message = pa(&[plt(packages), mpt(entries)]);
        Heads::v6().around(&mmtp(2, 0, &whole(&message)))
    };
    let [before, after] = [vec![video(1), caption(2)], vec![video(1)]];
    let behind = [both(), vec![1, 2, 3]].concat();
    let packages = [service_at(0x0402, 0xf002), service_at(0x0401, 0xf001)];
    let options = Options {
        caption: false,
        ..only(0x0401)
    };
    let answer = counted(two(&packages[1..], &after), [0, 0, 1], [1, 0, 0]);
    let heads = Heads::v4();
    [
        narrows("counter and extension", extended(&before), extended(&after)),
        narrows(
            "bytes behind the message",
            heads.around(&behind),
            heads.around(&one()),
        ),
        vec![on(
            "a PLT and an MPT",
            options,
            two(&packages, &before),
            answer,
        )],
    ]
    .concat()
}

fn not_inside() -> Vec<Named> {
    let message = pa(&[mpt(&[video(1), caption(2)])]);
    let case = |name, payload: &[u8]| stays(name, Heads::v4().around(&mmtp(2, 0xf001, payload)));
    let media = mmtp(0, 0xf001, &whole(&message));
    vec![
        case("aggregated", &aggregate(from_ref(&message))),
        case("a fragment of a message", &fragment(1, &message)),
        case(
            "a message of another number",
            &whole(&long_message(0x7000, &message)),
        ),
        case("no payload", &[]),
        stays("payload type 0", Heads::v4().around(&media)),
    ]
}

/// The types 0x20 and 0x60 remain untouched, 0x21 and 0x61 are narrowed as without the mode.
fn compressed_beside() -> Vec<Named> {
    let behind = |byte: u8, length: usize, content: &[u8]| {
        let mut head = vec![0; length];
        head[2] = byte;
        tlv(3, &[head, content.to_vec()].concat())
    };
    let narrows = |byte: u8| {
        let name = format!("compressed header {byte:#04x}");
        on(
            name,
            NO_CAPTIONS,
            behind(byte, 3, &both()),
            cut(behind(byte, 3, &one())),
        )
    };
    // The heads that a sender compresses, lengths and checksums included, change nothing.
    let right = Heads::v4().around(&both());
    vec![
        stays("compressed header 0x20", behind(0x20, 23, &both())),
        stays("compressed header 0x60", behind(0x60, 45, &both())),
        stays(
            "compressed, with an IPv4 packet",
            behind(0x61, 3, &right[IP..]),
        ),
        narrows(0x21),
        narrows(0x61),
    ]
}

/// The mode is about packets: a table and a payload alone are as without.
fn alone() -> Vec<Named> {
    let stays = || Narrowed::Unchanged;
    let (before, after) = (mpt(&[video(1), caption(2)]), mpt(&[video(1)]));
    let list = plt(&[service_at(0x0402, 1), service_at(0x0401, 2)]);
    let ours = plt(&[service_at(0x0401, 2)]);
    let inside = |table: &Vec<u8>| whole(&pa(from_ref(table)));
    let ip = Heads::v4().around(&both());
    let (one, two) = (inside(&before), inside(&list));
    let (left, own) = (cut(inside(&after)), listed(inside(&ours)));
    [
        table("a table", NO_CAPTIONS, before.clone(), cut(after)),
        table("a table that stays", NO_CAROUSELS, before, stays()),
        table("a PLT", only(0x0401), list, listed(ours)),
        payload("a payload", NO_CAPTIONS, 9, one.clone(), left),
        payload("a PLT in a payload", only(0x0401), 0, two, own),
        payload("a payload that stays", ALL, 9, one, stays()),
        payload("an IP packet as a payload", NO_CAPTIONS, 9, ip, stays()),
    ]
    .map(|case| in_mode(case, Modes::PLAIN_IP))
    .to_vec()
}

/// An output one byte short, and the longest packet.
fn outputs() -> Vec<Named> {
    let before = Heads::v6().around(&both());
    let short = before.len() - 1;
    let heads = Heads::v4();
    let filled = |entries: &[Vec<u8>], tail: usize| {
        let message = pa(&[mpt_of(0x20, entries, &vec![0xff; tail])]);
        heads.around(&mmtp(2, 0xf001, &whole(&message)))
    };
    let entries = [video(1), caption(2)];
    let tail = 65_539 - filled(&entries, 0).len();
    vec![
        on(
            "an output one byte short",
            NO_CAPTIONS,
            before,
            Narrowed::Refused(6),
        )
        .lent(short),
        on(
            "the longest packet",
            NO_CAPTIONS,
            filled(&entries, tail),
            cut(filled(&entries[..1], tail)),
        ),
    ]
}
