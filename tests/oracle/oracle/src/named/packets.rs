//! The readings that concern a packet by itself: its headers, and which packets are narrowed at all.

use face::{Narrowed, Options};

use super::{Named, cut, packet};
use crate::builders::*;

pub(super) fn packets() -> Vec<Named> {
    [
        header_at_the_end(),
        not_rewritable(),
        eit_off(),
        unread_header_bits(),
        first_bytes_of_a_packet(),
        payload_types(),
    ]
    .concat()
}

/// A packet around the payload of these entries: the caption goes, the video stays.
fn packet_narrows(name: impl Into<String>, around: impl Fn(&[u8]) -> Vec<u8>) -> Named {
    let [before, after] = [vec![video(1), caption(2)], vec![video(1)]]
        .map(|entries| around(&whole(&pa(&[mpt(&entries)]))));
    packet(name, NO_CAPTIONS, before, cut(after))
}

/// A packet around the same payload that stays as it is.
fn packet_stays(name: impl Into<String>, around: impl Fn(&[u8]) -> Vec<u8>) -> Named {
    let before = around(&whole(&pa(&[mpt(&[video(1), caption(2)])])));
    packet(name, NO_CAPTIONS, before, Narrowed::Unchanged)
}

/// An MMTP packet with a counter and an extension of one byte in its head.
fn with_counter_and_extension(identifier: u16, payload: &[u8]) -> Vec<u8> {
    let mut packet = mmtp(2, identifier, &[1, 2, 3, 4, 0, 0, 0, 1, 9]);
    packet[0] = 0x22;
    packet.extend(payload);
    packet
}

fn header_at_the_end() -> Vec<Named> {
    let head = |length: usize| move |_: &[u8]| compressed(&mmtp(2, 1, &[])[..length]);
    let extended =
        |length: usize| move |_: &[u8]| compressed(&with_counter_and_extension(1, &[])[..length]);
    vec![
        packet_stays("r07 the MMTP header ends the packet", head(12)),
        packet_stays("r07 the MMTP header is cut by one byte", head(11)),
        packet_stays("r07 the extension ends the packet", extended(21)),
        packet_stays("r07 the extension is cut by one byte", extended(20)),
        packet_stays("r07 no MMTP header", head(0)),
        packet_narrows("r07 counter and extension before the payload", |payload| {
            compressed(&with_counter_and_extension(1, payload))
        }),
    ]
}

fn not_rewritable() -> Vec<Named> {
    let behind = |kind: u8, head: Vec<u8>| {
        move |payload: &[u8]| tlv(kind, &[head.clone(), mmtp(2, 1, payload)].concat())
    };
    let compressed_as = |byte: u8, length: usize| {
        let mut head = vec![0; length];
        head[2] = byte;
        behind(3, head)
    };
    vec![
        packet_stays("r08 IPv4 with a header of 0", behind(1, vec![0x40; 8])),
        packet_stays("r08 IPv4 with a header of 20", behind(1, vec![0x45; 28])),
        packet_stays("r08 IPv6", behind(2, vec![0x60; 48])),
        packet_stays("r08 compressed header 0x20", compressed_as(0x20, 23)),
        packet_stays("r08 compressed header 0x60", compressed_as(0x60, 45)),
        packet_stays(
            "r08 compressed header of no known kind",
            compressed_as(0x40, 3),
        ),
        packet_narrows("r08 compressed header 0x21", compressed_as(0x21, 3)),
        packet_narrows("r08 compressed header 0x61", compressed_as(0x61, 3)),
    ]
}

fn eit_off() -> Vec<Named> {
    let neither = Options {
        eit: false,
        ..NO_CAPTIONS
    };
    let sent = |entries: &[Vec<u8>]| tables(0x8000, &[mpt(entries)]);
    let before = sent(&[video(1), caption(2)]);
    vec![
        packet(
            "r22 EIT off, captions off, on 0x8000",
            neither,
            before.clone(),
            cut(sent(&[video(1)])),
        ),
        packet(
            "r22 EIT off alone, on 0x8000",
            NO_EIT,
            before,
            Narrowed::Unchanged,
        ),
    ]
}

fn unread_header_bits() -> Vec<Named> {
    let first = |byte: u8| {
        move |payload: &[u8]| {
            let mut packet = mmtp(2, 1, payload);
            packet[0] = byte;
            compressed(&packet)
        }
    };
    let high = |payload: &[u8]| compressed(&mmtp(0xc2, 1, payload));
    vec![
        packet_narrows("r28 the MMTP version", first(0xc0)),
        packet_narrows("r28 the FEC bits", first(0x18)),
        packet_narrows("r28 all bits but counter and extension", first(0xdd)),
        packet_narrows("r28 the two high bits of the payload type", high),
    ]
}

fn first_bytes_of_a_packet() -> Vec<Named> {
    let sent = |payload: &[u8]| signalling(1, payload);
    let [before, after] = [vec![video(1), caption(2)], vec![video(1)]]
        .map(|entries| sent(&whole(&pa(&[mpt(&entries)]))));
    let begun = |first: [u8; 4]| [&first[..], &before[4..]].concat();
    let mut narrowed = after;
    narrowed[0] = 0;
    let mut cases = vec![packet(
        "of a packet's first bytes only the type is read",
        NO_CAPTIONS,
        begun([0, 3, 0xff, 0xff]),
        cut(narrowed),
    )];
    for kind in [0, 1, 2, 4, 0xfe, 0xff] {
        let name = format!("a packet of type {kind:#04x}");
        let bytes = begun([0x7f, kind, before[2], before[3]]);
        cases.push(packet(name, NO_CAPTIONS, bytes, Narrowed::Unchanged));
    }
    for length in [0, 1, 2, 3, 4, 6, 7] {
        let name = format!("the first {length} bytes of a packet");
        let bytes = before[..length].to_vec();
        cases.push(packet(name, NO_CAPTIONS, bytes, Narrowed::Unchanged));
    }
    cases
}

fn payload_types() -> Vec<Named> {
    let typed = |kind: u8| move |payload: &[u8]| compressed(&mmtp(kind, 1, payload));
    vec![
        packet_stays("a packet of payload type 0", typed(0)),
        packet_stays("a packet of payload type 1", typed(1)),
        packet_stays("a packet of payload type 3", typed(3)),
        packet_stays("a packet of payload type 63", typed(63)),
    ]
}
