//! The readings that concern narrowing. Their inputs and answers are named cases (`named/readings.rs`); what a
//! stream shows of them stands here.

use face::{Kind, Modes, Narrowed, Options};
use oracle::builders::*;
use oracle::named::{Named, named};

use crate::subject::{LIMITS, each};

/// Asserts that the named cases whose names start so have the answers that stand beside them.
fn holds(start: &str) {
    let cases: Vec<Named> = named()
        .into_iter()
        .filter(|case| case.name.starts_with(start))
        .collect();
    assert!(!cases.is_empty(), "no case is named {start}");
    each(|filter| {
        for Named {
            name,
            input,
            answer,
        } in &cases
        {
            let found = filter.answer(input);
            assert_eq!(Some(found), *answer, "{name}");
        }
    });
}

#[test]
fn r02_leftover_bytes_of_a_pa_body_stay() {
    holds("r02 ");
}

#[test]
fn r03_narrowing_keeps_the_last_entry_of_the_service_at_any_location() {
    holds("r03 ");
}

#[test]
fn r04_an_asset_has_the_layout_of_asset_size() {
    holds("r04 ");
}

#[test]
fn r05_narrowing_reads_one_message() {
    holds("r05 ");
}

#[test]
fn r07_an_mmtp_header_that_ends_with_the_packet() {
    holds("r07 ");
}

#[test]
fn r08_only_two_compressed_headers_are_rewritable() {
    holds("r08 ");
}

#[test]
fn r10_tables_0x11_to_0x20_are_mpts() {
    holds("r10 ");
}

#[test]
fn r14_a_plt_rewritten_to_the_same_bytes_is_changed() {
    holds("r14 ");
    let payload = whole(&pa(&[plt(&[service_at(0x0401, 1)])]));
    each(|filter| {
        let call = filter.started(only(0x0401)).send(&signalling(0, &payload));
        assert_eq!(call.counts.rewritten, 1);
        assert_eq!(call.out, signalling(0, &payload));
    });
}

#[test]
fn r15_head_entries_take_the_lengths_of_the_walked_tables() {
    holds("r15 ");
}

#[test]
fn r16_lengths_do_not_wrap() {
    holds("r16 ");
}

#[test]
fn r18_a_cut_table_leaves_the_whole_message() {
    holds("r18 ");
}

#[test]
fn r19_a_name_of_two_bytes_is_a_service() {
    holds("r19 ");
}

#[test]
fn r20_entries_go_by_kind_alone() {
    holds("r20 ");
    let payload = |entries: &[Vec<u8>]| whole(&pa(&[mpt(entries), mpt_of(0x11, entries, &[])]));
    let options = Options {
        caption: false,
        ..only(0x0401)
    };
    let (before, after) = ([video(5), caption(5), carousel(5)], [video(5), carousel(5)]);
    each(|filter| {
        let mut run = filter.started(options);
        run.send(&tables(0, &[plt(&[service_at(0x0402, 0xf002)])]));
        let call = run.send(&signalling(0xf001, &payload(&before)));
        assert_eq!(call.out, signalling(0xf001, &payload(&after)));
    });
}

#[test]
fn r21_flag_bits_1_to_5_and_the_counter_do_not_hinder() {
    holds("r21 ");
}

#[test]
fn r22_eit_off_does_not_hinder_narrowing() {
    holds("r22 ");
}

#[test]
fn r24_bytes_after_the_last_entry_stay_and_entries_end_with_their_table() {
    holds("r24 ");
}

#[test]
fn r25_locations_have_their_types_sizes() {
    holds("r25 ");
}

#[test]
fn r26_entries_count_as_caption_carousel_and_other() {
    holds("r26 ");
}

#[test]
fn r27_narrowing_refuses_in_copy_all_too() {
    holds("r27 ");
}

#[test]
fn r28_version_and_fec_bits_are_not_read() {
    holds("r28 ");
}

#[test]
fn a_packet_is_read_by_its_type_and_its_payload_type() {
    holds("of a packet's ");
    holds("a packet of type ");
    holds("a packet of payload type ");
    holds("the first ");
}

/// Whether the bytes are one packet, of its head's length.
fn is_packet(bytes: &[u8]) -> bool {
    match bytes {
        [0x7f, 1 | 2 | 3 | 0xfe | 0xff, high, low, rest @ ..] => {
            rest.len() == usize::from(u16::from_be_bytes([*high, *low]))
        }
        _ => false,
    }
}

/// Every named packet, pushed between two that narrowing changes: what narrowing leaves goes out byte for byte.
#[test]
fn a_packet_that_narrowing_leaves_goes_out_as_it_is() {
    let [around, narrowed] =
        [vec![video(1), caption(2)], vec![video(1)]].map(|entries| tables(9, &[mpt(&entries)]));
    let cases = named();
    let packets = cases
        .iter()
        .filter(|case| case.input.kind == Kind::Packet && is_packet(&case.input.bytes))
        .filter(|case| case.input.bytes.len() + 2 * around.len() <= LIMITS.work / 2);
    let packets: Vec<_> = packets.collect();
    each(|filter| {
        let (mut left, mut changed) = (0, 0);
        for Named { name, input, .. } in &packets {
            let packet = &input.bytes;
            let out = match (filter.narrow)(
                Kind::Packet,
                NO_CAPTIONS,
                Modes::OFF,
                0,
                packet,
                packet.len(),
            ) {
                Narrowed::Changed { out, .. } => out,
                _ => packet.clone(),
            };
            let mut run = filter.started(NO_CAPTIONS);
            run.send(&tables(0, &[plt(&[])]));
            let call = run.send(&[&around[..], packet, &around].concat());
            let written = [&narrowed[..], &out, &narrowed].concat();
            assert_eq!(call.out, written, "{name}");
            let rewritten = call.counts.rewritten - 2;
            left += 1 - rewritten;
            changed += rewritten;
        }
        assert!(left > 50 && changed > 20, "{left} left, {changed} changed");
    });
}
