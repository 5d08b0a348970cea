//! The readings that concern packets, and 01's "Finding packets" and "From packet to payload": what is
//! found, read, passed and written.

use face::{Counts, Limits};

use crate::subject::{LIMITS, each};
use oracle::builders::*;

/// A type, a length and a next byte make a start; the candidate is followed by `next`.
#[test]
fn a_start_has_a_known_type_and_0x7f_behind_it() {
    each(|filter| {
        let accepted = |packet_type: u8, next: u8| {
            let chunk = [0x7f, packet_type, 0, 0, next];
            filter.started(NO_CAPTIONS).send(&chunk).counts.accepted
        };
        let known = [1, 2, 3, 0xfe, 0xff];
        for packet_type in 0..=255 {
            assert_eq!(
                accepted(packet_type, 0x7f),
                u64::from(known.contains(&packet_type))
            );
            assert_eq!(accepted(packet_type, 0x7e), 0);
        }
    });
}

#[test]
fn a_packet_that_is_cut_is_held_until_it_is_whole() {
    let packet = tlv(0xff, &[1, 2, 3]);
    each(|filter| {
        let mut run = filter.started(NO_CAPTIONS);
        for (nth, byte) in packet[..6].iter().enumerate() {
            let call = run.send(&[*byte]);
            assert_eq!((call.held, call.counts), (nth + 1, Counts::default()));
        }
        assert_eq!(run.send(&packet[6..]).out, packet);
    });
}

/// Signalling of other headers is read and not rewritten; what is at no known place passes unread.
#[test]
fn the_place_of_the_mmtp_follows_the_header() {
    let message = whole(&pa(&[mpt(&[caption(1)])]));
    let packet = |kind, place, payload_type, payload| {
        let mut bytes = vec![0; place];
        bytes[2] = kind;
        tlv(3, &[bytes, mmtp(payload_type, 9, payload)].concat())
    };
    each(|filter| {
        let mut run = filter.started(NO_CAPTIONS);
        for (kind, place, rewritable) in [(0x21, 3, 1), (0x61, 3, 1), (0x20, 23, 0), (0x60, 45, 0)]
        {
            let call = run.send(&packet(kind, place, 2, &message));
            assert_eq!(
                (call.counts.written, call.counts.rewritten),
                (1, rewritable)
            );
            assert!(!run.passes(&packet(kind, place, 0, &[])));
        }
        assert!(run.passes(&packet(0x22, 3, 2, &message)));
        for other in [
            tlv(3, &[0, 0]),
            tlv(3, &[0, 0, 0x60]),
            tlv(0xfe, &message),
            tlv(0xff, &[]),
        ] {
            assert!(run.passes(&other));
        }
    });
}

/// A header that ends with the packet is read, and what is read and isn't ready is not written; one byte
/// less is unread and passes.
#[test]
fn r07_an_mmtp_header_that_ends_at_the_last_byte() {
    let mut counter = mmtp(0, 0xf100, &[0; 4]);
    counter[0] = 0x20;
    let mut extension = mmtp(0, 0xf100, &[0, 0, 0, 2, 0xaa, 0xbb]);
    extension[0] = 0x02;
    let mut both = mmtp(0, 0xf100, &[0, 0, 0, 0, 0, 0, 0, 1, 0xaa]);
    both[0] = 0x22;
    each(|filter| {
        let mut run = filter.started(NO_CAPTIONS);
        for header in [&mmtp(0, 0xf100, &[]), &counter, &extension, &both] {
            assert!(!run.passes(&compressed(header)));
            assert!(run.passes(&compressed(&header[..header.len() - 1])));
        }
        let mut run = filter.started(NO_EIT);
        assert!(!run.passes(&signalling(0x8000, &[])));
        assert!(run.passes(&signalling(0x8001, &[])));
    });
}

#[test]
fn r08_an_ipv4_header_of_0_is_taken_literally() {
    let ip = |head: &str| tlv(1, &[hex(head), mmtp(0, 0xf100, &[])].concat());
    each(|filter| {
        let mut run = filter.started(NO_CAPTIONS);
        assert!(!run.passes(&ip("40 00 12 34 00 00 00 00")));
        assert!(run.passes(&ip("40 00 00 7B 00 00 00 00")));
        assert!(run.passes(&tlv(1, &hex("40 00 12"))));
        assert!(run.passes(&tlv(1, &hex("40 00 12 34 00 00 00"))));
        assert!(run.passes(&tlv(1, &[])));
    });
}

#[test]
fn r08_protocol_and_lengths_of_ip_are_not_read() {
    let ip = |packet_type, header: usize, first, port: [u8; 2]| {
        let mut packet = vec![first; header];
        packet.extend([0xee, 0xee, port[0], port[1], 0xee, 0xee, 0xee, 0xee]);
        packet.extend(mmtp(0, 0xf100, &[]));
        tlv(packet_type, &packet)
    };
    each(|filter| {
        let mut run = filter.started(NO_CAPTIONS);
        for (packet_type, header, first) in [(1, 20, 0xe5), (1, 60, 0xef), (2, 40, 0xee)] {
            assert!(!run.passes(&ip(packet_type, header, first, [0x12, 0x34])));
            assert!(run.passes(&ip(packet_type, header, first, [0, 123])));
        }
    });
}

#[test]
fn r13_written_includes_rewritten() {
    each(|filter| {
        let mut run = filter.started(NO_CAPTIONS);
        let call = run.send(&tables(0xf000, &[mpt(&[video(1), caption(2)])]));
        let out = tables(0xf000, &[mpt(&[video(1)])]);
        let counts = Counts {
            bytes: out.len() as u64,
            accepted: 1,
            written: 1,
            rewritten: 1,
            ..Counts::default()
        };
        assert_eq!((call.counts, call.out), (counts, out));
    });
}

#[test]
fn r17_a_candidate_above_p_is_skipped_byte_by_byte() {
    let limits = Limits {
        work: 4_096,
        ..LIMITS
    };
    each(|filter| {
        let inside = hex("7F FF 00 01 AA");
        let mut run = filter.started_with(limits, NO_CAPTIONS);
        let call = run.send(&[hex("7F FF 07 FD"), inside.clone()].concat());
        assert_eq!((call.counts.skipped, call.out), (4, inside.clone()));
        let call = run.send(&[hex("7F FF 07 FC"), inside.clone()].concat());
        assert_eq!((call.counts.skipped, call.held), (0, 9));
    });
}

#[test]
fn r22_eit_off_drops_8000_of_any_payload_type() {
    each(|filter| {
        let mut run = filter.started(NO_EIT);
        run.send(&tables(0, &[plt(&[service_at(0x0401, 0x8000)])]));
        assert!(!run.passes(&tables(0x8000, &[mpt(&[video(0x8000)])])));
        assert!(run.passes(&media(0xf100)), "ready: the MPT was observed");
        for payload_type in [0, 1, 2, 3, 63] {
            assert!(!run.passes(&compressed(&mmtp(payload_type, 0x8000, &[0]))));
        }
    });
}

#[test]
fn r27_refusals_5_and_6_hold_in_copy_all() {
    each(|filter| {
        let limits = Limits {
            work: 4_096,
            ..LIMITS
        };
        let mut run = filter.started_with(limits, ALL);
        assert_eq!(run.push(&[0x7f; 2_049], 10_000), Err(5));
        assert_eq!(run.push(&[0x7f; 2_048], 2_047), Err(6));
        let call = run.send(&[0x7f; 2_048]);
        let counts = Counts {
            bytes: 2_048,
            ..Counts::default()
        };
        assert_eq!((call.counts, call.held), (counts, 0));
        assert_eq!((call.out, run.dropped()), (vec![0x7f; 2_048], 0));
    });
}

#[test]
fn r28_version_and_fec_bits_are_not_read() {
    let mut header = mmtp(0xc2, 0xf000, &whole(&pa(&[mpt(&[caption(1)])])));
    header[0] = 0xdd;
    each(|filter| {
        let call = filter.started(NO_CAPTIONS).send(&compressed(&header));
        assert_eq!(call.counts.rewritten, 1);
    });
}
