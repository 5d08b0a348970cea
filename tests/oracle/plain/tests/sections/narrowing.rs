//! 01 "Narrowing".

use crate::build::*;
use face::{Kind, Narrowed, Options};

fn narrow_payload(options: Options, identifier: u16, payload: &[u8]) -> Option<Vec<u8>> {
    changed(narrow(Kind::Payload, options, identifier, payload))
}

fn narrow_packet(options: Options, packet: &[u8]) -> Option<Vec<u8>> {
    changed(narrow(Kind::Packet, options, 0xFFFF, packet))
}

/// M without its caption.
fn narrowed_m() -> Vec<u8> {
    mpt(&[entry(0x11, "hvc1", 0xF100)])
}

#[test]
fn a_packet_is_narrowed_with_all_its_lengths() {
    let body = [payload(0x00, &pa(&[m()])), hex("EEEE")].concat();
    let expected = tables(0xF000, &[narrowed_m()]);
    assert_eq!(
        narrow_packet(NO_CAPTIONS, &signal(0xF000, &body)),
        Some(expected.clone())
    );
    let call = feed(&mut filter(NO_CAPTIONS), &[signal(0xF000, &body)]);
    assert_eq!(
        (call.out, call.counts.written, call.counts.rewritten),
        (expected, 1, 1)
    );
}

#[test]
fn head_entries_take_the_lengths_and_nothing_else() {
    let with = |head: &str, tables: &[Vec<u8>]| {
        payload(0, &message(0, &[hex(head), tables.concat()].concat()))
    };
    let other = hex("AA 01 0001 BB");
    let before = with("03 010203FF 040506FF 070809FF", &[other.clone(), m()]);
    let after = with(
        "03 01020001 04050019 070809FF",
        &[other.clone(), narrowed_m()],
    );
    assert_eq!(
        narrow_payload(NO_CAPTIONS, 1, &before),
        Some(after),
        "more entries than tables"
    );
    let before = with("01 010203FF", &[other.clone(), m()]);
    let after = with("01 01020001", &[other, narrowed_m()]);
    assert_eq!(
        narrow_payload(NO_CAPTIONS, 1, &before),
        Some(after),
        "more tables than entries"
    );
}

#[test]
fn fewer_than_four_bytes_behind_the_tables_stay_and_a_cut_table_leaves_all() {
    let with = |table: Vec<u8>, rest: &str| {
        payload(0, &message(0, &[pa_body(&[table]), hex(rest)].concat()))
    };
    for rest in ["AA", "AABB", "AABBCC", "AABB0000"] {
        let expected = Some(with(narrowed_m(), rest));
        assert_eq!(
            narrow_payload(NO_CAPTIONS, 1, &with(m(), rest)),
            expected,
            "{rest}"
        );
    }
    assert_eq!(narrow_payload(NO_CAPTIONS, 1, &with(m(), "AABB0001")), None);
}

#[test]
fn unreadable_tables_stay_beside_changed_ones() {
    let mut unread = m();
    unread[10] = 3;
    let before = payload(0, &pa(&[unread.clone(), m()]));
    let after = payload(0, &pa(&[unread, narrowed_m()]));
    assert_eq!(narrow_payload(NO_CAPTIONS, 1, &before), Some(after));
}

#[test]
fn only_whole_unaggregated_pa_messages_are_narrowed() {
    let with = |flags| narrow_payload(NO_CAPTIONS, 1, &payload(flags, &pa(&[m()])));
    let expected = |flags| Some(payload(flags, &pa(&[narrowed_m()])));
    assert_eq!(with(0x3E), expected(0x3E), "bits 1 to 5 do not hinder");
    for flags in [0x01, 0x40, 0x80, 0xC0] {
        assert_eq!(with(flags), None, "{flags:02X}");
    }
    let other = payload(0, &message(0x8003, &pa_body(&[m()])));
    assert_eq!(narrow_payload(NO_CAPTIONS, 1, &other), None);
    let mut cut = payload(0, &pa(&[m()]));
    cut.pop();
    assert_eq!(narrow_payload(NO_CAPTIONS, 1, &cut), None);
}

#[test]
fn only_rewritable_signalling_packets_are_narrowed() {
    let mmtp = |payload_type| mmtp(payload_type, 1, &payload(0, &pa(&[m()])));
    let behind = |front: Vec<u8>| [front, mmtp(2)].concat();
    assert!(narrow_packet(NO_CAPTIONS, &tlv(3, &behind(hex("0000 21")))).is_some());
    assert_eq!(narrow_packet(NO_CAPTIONS, &rewritable(&mmtp(3))), None);
    let partial = [hex("0000 20"), vec![0; 20]].concat();
    assert_eq!(narrow_packet(NO_CAPTIONS, &tlv(3, &behind(partial))), None);
    let ipv6 = tlv(2, &behind(vec![0; 48]));
    assert_eq!(narrow_packet(NO_CAPTIONS, &ipv6), None);
    assert!(passes(&mut filter(NO_CAPTIONS), &ipv6), "written as it is");
}

#[test]
fn of_a_packets_first_bytes_only_the_type_is_read() {
    let mut packet = tables(1, &[m()]);
    let expected = tables(1, &[narrowed_m()]);
    packet[2..4].copy_from_slice(&[0, 0]);
    assert_eq!(narrow_packet(NO_CAPTIONS, &packet), Some(expected.clone()));
    packet[0] = 0x47;
    let other_mark = [&[0x47], &expected[1..]].concat();
    assert_eq!(narrow_packet(NO_CAPTIONS, &packet), Some(other_mark));
    packet[1] = 0xFE;
    assert_eq!(narrow_packet(NO_CAPTIONS, &packet), None);
    assert_eq!(narrow_packet(NO_CAPTIONS, &packet[..3]), None);
}

#[test]
fn a_plt_is_narrowed_on_identifier_0_alone() {
    let two = payload(0, &pa(&[plt(&[package(1, 0xF000), package(2, 0xF001)])]));
    let one = payload(0, &pa(&[plt(&[package(2, 0xF001)])]));
    assert_eq!(narrow_payload(only(2), 0, &two), Some(one));
    assert_eq!(narrow_payload(only(2), 1, &two), None);
    assert_eq!(narrow_payload(NO_CAPTIONS, 0, &two), None, "no service");
}

#[test]
fn the_last_entry_of_a_service_stays_at_any_location() {
    let elsewhere = hex("02 0001 05 01 AA");
    let table = plt(&[
        package(1, 0xF000),
        elsewhere.clone(),
        hex("03 000100 00 F002"),
    ]);
    assert_eq!(narrow_table(only(1), &table), Some(plt(&[elsewhere])));
}

#[test]
fn a_plt_narrowed_to_itself_is_rewritten_and_what_follows_goes() {
    let one = payload(0, &pa(&[plt(&[package(1, 0xF000)])]));
    let followed = [&one[..], &hex("EE")].concat();
    assert_eq!(narrow_payload(only(1), 0, &followed), Some(one.clone()));
    let call = feed(&mut filter(only(1)), &[signal(0, &one)]);
    assert_eq!((call.counts.rewritten, call.out), (1, signal(0, &one)));
}

#[test]
fn bytes_behind_the_last_entry_stay() {
    let with = |table: &[u8]| self::table(0x20, &[&table[4..], &hex("AABB")].concat());
    assert_eq!(
        narrow_table(NO_CAPTIONS, &with(&m())),
        Some(with(&narrowed_m()))
    );
}

#[test]
fn a_table_alone_ends_at_its_own_length() {
    assert_eq!(
        narrow_table(NO_CAPTIONS, &[m(), hex("AABB")].concat()),
        Some(narrowed_m())
    );
    assert_eq!(narrow_table(NO_CAPTIONS, &m()[..m().len() - 1]), None);
}

#[test]
fn entries_that_stayed_and_went_are_counted_by_kind() {
    let kinds = [
        "stpp", "aapp", "hvc1", "mp4a", "stpp", "hvc1", "aapp", "stpp",
    ];
    let entries: Vec<_> = kinds.iter().map(|kind| entry_at(1, kind, &[], 0)).collect();
    let unread = table(0x20, &hex("00"));
    let input = payload(
        0,
        &pa(&[mpt(&entries), unread, mpt(&[entry(1, "mp4a", 1)])]),
    );
    let counts = |options| match narrow(Kind::Payload, options, 0, &input) {
        Narrowed::Changed { stayed, went, .. } => (stayed, went),
        other => panic!("{other:?}"),
    };
    assert_eq!(counts(NO_CAPTIONS), ([0, 2, 4], [3, 0, 0]));
    assert_eq!(
        counts(Options {
            carousel: false,
            ..NO_CAPTIONS
        }),
        ([0, 0, 4], [3, 2, 0])
    );
}

#[test]
fn beside_a_changed_plt_all_entries_stayed() {
    let input = payload(0, &pa(&[m(), plt(&[package(1, 0xF000)])]));
    let expected = Narrowed::Changed {
        out: input.clone(),
        stayed: [1, 0, 1],
        went: [0; 3],
    };
    assert_eq!(narrow(Kind::Payload, only(1), 0, &input), expected);
}

#[test]
fn narrowing_looks_at_nothing_learned() {
    let mut filter = filter(Options {
        caption: false,
        ..only(1)
    });
    feed(&mut filter, &[signal(0, &payload(0, &data_message()))]);
    let call = feed(&mut filter, &[tables(0, &[m()])]);
    assert_eq!(
        (call.counts.rewritten, call.out),
        (1, tables(0, &[narrowed_m()]))
    );
}
