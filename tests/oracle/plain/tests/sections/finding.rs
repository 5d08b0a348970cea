//! 01 "Finding packets".

use crate::build::*;
use face::{Counts, Engine, Limits};

#[test]
fn only_five_types_start_a_packet() {
    let accepted = |kind| {
        feed(&mut filter(NO_CAPTIONS), &[tlv(kind, &[])])
            .counts
            .accepted
            == 1
    };
    let kinds: Vec<u8> = (0..=255).filter(|&kind| accepted(kind)).collect();
    assert_eq!(kinds, [0x01, 0x02, 0x03, 0xFE, 0xFF]);
}

#[test]
fn a_call_reports_all_that_happened() {
    let chunk = [
        hex("00 11"),
        hex("7F FE 0001 22"),
        tables(0xF000, &[m()]),
        media(1),
        hex("7F 03 00"),
    ];
    let call = feed(&mut filter(NO_CAPTIONS), &chunk);
    let bytes = call.out.len() as u64;
    assert_eq!(bytes, 5 + (chunk[2].len() as u64 - 18));
    let counts = Counts {
        bytes,
        accepted: 3,
        written: 2,
        rewritten: 1,
        skipped: 2,
        lost: 0,
    };
    assert_eq!((call.counts, call.held), (counts, 3));
}

#[test]
fn every_byte_is_accepted_skipped_or_held_wherever_the_run_is_cut() {
    let stream = [
        hex("7F 7F"),
        tlv(0xFE, &hex("7F 05 00")),
        hex("00"),
        tlv(0xFF, &[]),
    ]
    .concat();
    for cut in 0..=stream.len() {
        let mut filter = filter(NO_CAPTIONS);
        let calls = [&stream[..cut], &stream[cut..]].map(|chunk| {
            let before = filter.held();
            let call = feed(&mut filter, &[chunk.to_vec()]);
            // Nothing is dropped, so the bytes written are the accepted packets' bytes.
            let after = call.counts.bytes as usize + call.counts.skipped as usize + call.held;
            assert_eq!(before + chunk.len(), after, "cut at {cut}");
            call
        });
        let expected = if cut == 9 { 2 } else { 1 };
        let accepted: u64 = calls.iter().map(|call| call.counts.accepted).sum();
        assert_eq!(
            accepted, expected,
            "only at 9 is the first packet's next byte not there yet"
        );
    }
}

#[test]
fn a_candidate_above_p_is_skipped_and_its_inside_searched() {
    let mut small = filter_within(
        Limits {
            work: 4_096,
            ..LIMITS
        },
        NO_CAPTIONS,
    );
    let call = feed(&mut small, &[hex("7F FF 07FD"), tlv(0xFE, &[])]);
    assert_eq!(
        (call.counts.skipped, call.counts.accepted),
        (4, 1),
        "2,049 bytes"
    );
    let call = feed(&mut small, &[hex("7F FF 07FC"), tlv(0xFE, &[])]);
    assert_eq!((call.counts.skipped, call.held), (0, 8), "2,048 bytes");
}

#[test]
fn copy_all_writes_the_chunk_and_holds_nothing() {
    let mut filter = filter(ALL);
    let chunk = hex("00 7F FF 00 10 AA");
    let call = feed(&mut filter, std::slice::from_ref(&chunk));
    assert_eq!((call.out, call.held), (chunk, 0));
    assert_eq!(
        call.counts,
        Counts {
            bytes: 6,
            ..Counts::default()
        }
    );
    feed(
        &mut filter,
        &[signal(5, &payload(0, &data_message())), media(5)],
    );
    assert_eq!((filter.held(), filter.dropped()), (0, 0));
}
