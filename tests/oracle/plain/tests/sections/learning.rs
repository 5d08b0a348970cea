//! 01 "What is learned", seen by how many identifiers are dropped afterwards.

use crate::build::*;
use face::{Engine, Limits, Options};
use plain::Plain;

const PACKAGE: u16 = 0xF000;

/// A filter without captions that knows one package of service 0400, with its MPT at F000 still to come.
fn knowing_one_package(limits: Limits) -> Plain {
    let mut filter = filter_within(limits, NO_CAPTIONS);
    feed(
        &mut filter,
        &[tables(0, &[plt(&[package(0x0400, PACKAGE)])])],
    );
    filter
}

/// How many captions are dropped when these payloads come on the package's MPT identifier.
fn dropped_after(payloads: &[Vec<u8>]) -> u32 {
    let mut filter = knowing_one_package(LIMITS);
    let packets: Vec<_> = payloads
        .iter()
        .map(|payload| signal(PACKAGE, payload))
        .collect();
    feed(&mut filter, &packets);
    filter.dropped()
}

/// A PA message with one caption.
fn caption() -> Vec<u8> {
    pa(&[m()])
}

/// A message of an aggregate, behind a length of two bytes.
fn sized(message: &[u8]) -> Vec<u8> {
    [&(message.len() as u16).to_be_bytes()[..], message].concat()
}

#[test]
fn fragments_are_joined_in_order() {
    let message = caption();
    let (first, middle, last) = (&message[..5], &message[5..30], &message[30..]);
    assert_eq!(
        dropped_after(&[
            payload(0x40, first),
            payload(0x80, middle),
            payload(0xC0, last)
        ]),
        1
    );
    assert_eq!(
        dropped_after(&[payload(0x40, first), payload(0x80, middle)]),
        0
    );
    assert_eq!(
        dropped_after(&[
            payload(0x80, first),
            payload(0x80, middle),
            payload(0xC0, last)
        ]),
        0
    );
    assert_eq!(
        dropped_after(&[payload(0x40, &message), vec![0x80], vec![0xC0]]),
        1,
        "no bodies"
    );
    assert_eq!(
        dropped_after(&[vec![0x40], payload(0xC0, &message)]),
        1,
        "a first without body"
    );
}

#[test]
fn a_joined_message_has_the_firsts_flags() {
    let aggregate = [sized(&[]), sized(&caption())].concat();
    let (first, last) = aggregate.split_at(9);
    assert_eq!(
        dropped_after(&[payload(0x41, first), payload(0xC0, last)]),
        1
    );
    assert_eq!(
        dropped_after(&[payload(0x40, first), payload(0xC1, last)]),
        0
    );
}

#[test]
fn a_whole_or_a_new_first_drops_a_held_fragment() {
    let message = caption();
    let (first, last) = (payload(0x40, &message[..9]), payload(0xC0, &message[9..]));
    assert_eq!(
        dropped_after(&[first.clone(), vec![0x00], last.clone()]),
        0,
        "a whole of one byte"
    );
    assert_eq!(
        dropped_after(&[first.clone(), vec![], last.clone()]),
        1,
        "an empty payload"
    );
    assert_eq!(
        dropped_after(&[payload(0x40, &hex("AA")), first.clone(), last.clone()]),
        1
    );
    assert_eq!(dropped_after(&[first, payload(0x40, &hex("AA")), last]), 0);
}

#[test]
fn a_message_above_m_is_discarded_but_not_on_its_first() {
    let message = caption();
    let dropped = |most, pieces: &[Vec<u8>]| {
        let mut filter = knowing_one_package(Limits { most, ..LIMITS });
        for piece in pieces {
            feed(&mut filter, &[signal(PACKAGE, piece)]);
        }
        filter.dropped()
    };
    let halves = [payload(0x40, &message[..9]), payload(0xC0, &message[9..])];
    assert_eq!(dropped(message.len(), &halves), 1);
    assert_eq!(dropped(message.len() - 1, &halves), 0);
    let empty_last = [payload(0x40, &message), vec![0xC0]];
    assert_eq!(dropped(message.len(), &empty_last), 1);
    assert_eq!(dropped(message.len() - 1, &empty_last), 0);
    assert_eq!(
        dropped(1, &[payload(0x00, &message)]),
        1,
        "M is not tested on a whole"
    );
}

#[test]
fn a_discarded_fragment_gives_its_room_back() {
    let message = caption();
    let mut filter = knowing_one_package(Limits {
        total: 100,
        most: 100,
        ..LIMITS
    });
    feed(&mut filter, &[signal(1, &payload(0x40, &[0; 60]))]);
    let halves = [payload(0x40, &message[..9]), payload(0xC0, &message[9..])]
        .map(|half| signal(PACKAGE, &half));
    feed(&mut filter, &halves);
    assert_eq!(
        filter.dropped(),
        0,
        "{} bytes do not fit beside 60",
        message.len()
    );
    feed(&mut filter, &[signal(1, &payload(0x80, &[0; 41]))]);
    feed(&mut filter, &halves);
    assert_eq!(filter.dropped(), 1, "101 bytes discarded the 60");
}

#[test]
fn a_first_takes_room_if_it_fits_into_the_total_even_above_m() {
    let message = caption();
    for (other, dropped) in [(80, 0), (101, 1)] {
        let mut filter = knowing_one_package(Limits {
            total: 100,
            most: 70,
            ..LIMITS
        });
        let pieces = [payload(0x40, &message), vec![0xC0]].map(|piece| signal(PACKAGE, &piece));
        feed(
            &mut filter,
            &[signal(1, &payload(0x40, &vec![0; other])), pieces.concat()],
        );
        assert_eq!(
            filter.dropped(),
            dropped,
            "{other} bytes on another identifier"
        );
    }
}

#[test]
fn the_total_is_tested_to_the_byte() {
    let message = caption();
    for (other, dropped) in [(100 - message.len(), 1), (101 - message.len(), 0)] {
        let mut filter = knowing_one_package(Limits {
            total: 100,
            most: 100,
            ..LIMITS
        });
        let pieces = [payload(0x40, &message), vec![0xC0]].map(|piece| signal(PACKAGE, &piece));
        feed(
            &mut filter,
            &[signal(1, &payload(0x40, &vec![0; other])), pieces.concat()],
        );
        assert_eq!(filter.dropped(), dropped, "{other} bytes held beside");
    }
}

#[test]
fn at_most_256_fragments_are_held() {
    let message = caption();
    for (others, dropped) in [(255, 1), (256, 0)] {
        let mut filter = knowing_one_package(LIMITS);
        let firsts: Vec<_> = (1..=others)
            .map(|identifier| signal(identifier, &[0x40]))
            .collect();
        feed(&mut filter, &firsts);
        feed(
            &mut filter,
            &[
                signal(1, &[0x40]),
                signal(PACKAGE, &payload(0x40, &message)),
            ],
        );
        feed(&mut filter, &[signal(PACKAGE, &[0xC0])]);
        assert_eq!(
            filter.dropped(),
            dropped,
            "{others} others, one of them twice"
        );
    }
}

#[test]
fn aggregates_are_walked_by_their_lengths() {
    let long = |message: &[u8]| [&hex("0000")[..], &sized(message)].concat();
    let unread = hex("0000 07 000000FF");
    let after = |flags, parts: &[Vec<u8>]| dropped_after(&[payload(flags, &parts.concat())]);
    assert_eq!(after(0x01, &[sized(&unread), sized(&caption())]), 1);
    assert_eq!(after(0x03, &[long(&unread), long(&caption())]), 1);
    assert_eq!(
        after(0x01, &[sized(&caption()), hex("FFFF 00")]),
        1,
        "earlier messages count"
    );
    assert_eq!(after(0x01, &[hex("FFFF"), sized(&caption())]), 0);
    assert_eq!(
        after(0x01, &[hex("0001 FF"), sized(&caption())]),
        1,
        "one byte"
    );
    assert_eq!(
        after(0x03, &[hex("0001 FF"), sized(&caption())]),
        0,
        "over 65,535 bytes"
    );
    assert_eq!(
        after(0x02, &[caption(), hex("AA")]),
        1,
        "bit 1 means nothing without bit 0"
    );
}

#[test]
fn a_message_that_does_not_fit_is_not_found() {
    let with_length = |length: u32| {
        let message = [&hex("0000 07"), &length.to_be_bytes()[..], &pa_body(&[m()])].concat();
        dropped_after(&[payload(0x00, &message)])
    };
    let fitting = pa_body(&[m()]).len() as u32;
    assert_eq!(with_length(fitting), 1);
    assert_eq!(with_length(fitting + 1), 0);
    assert_eq!(with_length(fitting + 0x1_0000), 0);
    assert_eq!(with_length(u32::MAX), 0);
}

#[test]
fn message_8003_fills_the_data_set_if_it_fits() {
    let mut filter = filter(NO_CAROUSELS);
    feed(
        &mut filter,
        &[signal(5, &payload(0, &hex("8003 00 00000001")))],
    );
    assert_eq!(filter.dropped(), 0);
    feed(
        &mut filter,
        &[signal(5, &payload(0, &hex("8003 00 00000001 AA")))],
    );
    assert_eq!(filter.dropped(), 1);
}

#[test]
fn a_data_identifier_is_asked_for_once_before_its_payload() {
    let both = [sized(&data_message()), sized(&caption())].concat();
    assert_eq!(dropped_after(&[payload(0x01, &both)]), 1);
    assert_eq!(
        dropped_after(&[payload(0x00, &data_message()), payload(0x00, &caption())]),
        0
    );
}

#[test]
fn a_cut_table_ends_the_walk_and_earlier_ones_count() {
    let with = |body: Vec<u8>| dropped_after(&[payload(0, &message(0, &body))]);
    let walked = [hex("00"), m(), hex("20 05 0001")].concat();
    assert_eq!(with(walked.clone()), 1);
    assert_eq!(
        with([hex("01 20 05 FFFF"), m()].concat()),
        1,
        "the head's lengths are not read"
    );
    assert_eq!(with([hex("04"), vec![0xFF; 16], m()].concat()), 1);
    assert_eq!(with([hex("00 20 05 0100"), m()].concat()), 0);
    assert_eq!(with(walked[..1].to_vec()), 0);
    assert_eq!(with([hex("FF"), m()].concat()), 0, "a cut head entry");
}

#[test]
fn a_plt_counts_on_identifier_0_and_only_if_all_reads() {
    let dropped = |identifier, table: Vec<u8>| {
        let mut filter = filter(only(0x0400));
        feed(&mut filter, &[tables(identifier, &[table])]);
        filter.dropped()
    };
    let foreign = [package(0x0401, 0xF001), package(0x0402, 0xF002)];
    assert_eq!(dropped(0, plt(&foreign)), 2);
    assert_eq!(dropped(1, plt(&foreign)), 0);
    assert_eq!(
        dropped(0, table(0x80, &[hex("03"), foreign.concat()].concat())),
        0
    );
    assert_eq!(
        dropped(0, table(0x81, &[hex("02"), foreign.concat()].concat())),
        0
    );
    assert_eq!(
        dropped(0, plt(&[hex("02 0401 06"), package(0x0402, 0xF002)])),
        0,
        "location type 6"
    );
}

#[test]
fn only_the_latest_plt_counts() {
    let mut filter = filter(only(0x0400));
    feed(
        &mut filter,
        &[tables(
            0,
            &[plt(&[package(0x0401, 0xF001), package(0x0402, 0xF002)])],
        )],
    );
    feed(
        &mut filter,
        &[tables(0, &[plt(&[package(0x0403, 0xF003)])])],
    );
    assert_eq!(filter.dropped(), 1);
    assert!(passes(&mut filter, &signal(0xF001, &[])));
}

#[test]
fn locations_have_their_sizes() {
    for (kind, size) in [(1, 13), (2, 37), (3, 7), (4, 37)] {
        let mut name_and_location = hex("02 0401");
        name_and_location.extend([kind]);
        name_and_location.extend(vec![0; size - 1]);
        let mut filter = filter(only(0x0400));
        feed(
            &mut filter,
            &[tables(
                0,
                &[plt(&[name_and_location, package(0x0402, 0xF002)])],
            )],
        );
        assert_eq!(
            filter.dropped(),
            1,
            "type {kind}: the package behind it is read, it names nothing"
        );
        assert!(!passes(&mut filter, &media(0xF002)));
    }
    let mut filter = filter(only(0x0400));
    feed(
        &mut filter,
        &[tables(
            0,
            &[plt(&[hex("02 0401 05 03 010203"), package(0x0402, 0xF002)])],
        )],
    );
    assert_eq!(filter.dropped(), 1);
}

#[test]
fn only_a_two_byte_name_is_a_service_and_a_repeated_one_keeps_the_last() {
    let dropped = |packages: &[Vec<u8>]| {
        let mut filter = filter(only(0x0400));
        feed(&mut filter, &[tables(0, &[plt(packages)])]);
        filter.dropped()
    };
    assert_eq!(
        dropped(&[hex("03 040100 00 F001"), hex("01 04 00 F002")]),
        0
    );
    let mut filter = filter(only(0x0400));
    let twice = [
        package(0x0401, 0xF001),
        package(0x0402, 0xF009),
        package(0x0401, 0xF002),
    ];
    feed(&mut filter, &[tables(0, &[plt(&twice)])]);
    assert_eq!(filter.dropped(), 2);
    assert!(!passes(&mut filter, &signal(0xF002, &[])));
    assert!(passes(&mut filter, &signal(0xF001, &[])));
}

#[test]
fn mpts_are_numbered_11_to_20() {
    let learned = |number| {
        dropped_after(&[payload(
            0,
            &pa(&[mpt_numbered(number, &[entry(1, "stpp", 0xF130)])]),
        )]) == 1
    };
    let numbers: Vec<u8> = (0..=255).filter(|&number| learned(number)).collect();
    assert_eq!(numbers, (0x11..=0x20).collect::<Vec<u8>>());
}

#[test]
fn a_later_mpt_replaces_the_list_whatever_its_number() {
    let captions = |number, identifiers: &[u16]| {
        let entries: Vec<_> = identifiers
            .iter()
            .map(|&pid| entry(1, "stpp", pid))
            .collect();
        payload(0, &pa(&[mpt_numbered(number, &entries)]))
    };
    assert_eq!(
        dropped_after(&[captions(0x20, &[1, 2, 3]), captions(0x11, &[4])]),
        1
    );
}

#[test]
fn an_asset_has_its_first_type_0_location() {
    let mut filter = knowing_one_package(LIMITS);
    let locations = hex("03 000000000000 00 0005 00 0006");
    let nowhere = entry_at(2, "stpp", &hex("05 00"), 1);
    let packet = tables(
        PACKAGE,
        &[mpt(&[entry_at(1, "stpp", &locations, 3), nowhere])],
    );
    feed(&mut filter, &[packet]);
    assert_eq!(filter.dropped(), 1);
    assert!(!passes(&mut filter, &media(5)));
    assert!(passes(&mut filter, &media(6)));
}

#[test]
fn an_entrys_flags_lengthen_it() {
    let with = |clock: &str| {
        let entry = [
            hex("FF 00000000 02 AABB 73747070"),
            hex(clock),
            hex("01 00 F130 0002 CCDD"),
        ]
        .concat();
        dropped_after(&[payload(0, &pa(&[mpt(&[entry.clone(), entry])]))])
    };
    for clock in ["00", "FE", "01 0000", "01 01FE", "01 0001 11223344"] {
        assert_eq!(with(clock), 1, "{clock}");
    }
    for clock in ["01", "01 0001", "00 00"] {
        assert_eq!(with(clock), 0, "{clock}");
    }
}

#[test]
fn the_65th_list_is_lost() {
    let mut filter = filter(NO_CAPTIONS);
    let lists: Vec<_> = (1..=64)
        .map(|identifier| tables(identifier, &[mpt(&[])]))
        .collect();
    assert_eq!(feed(&mut filter, &lists).counts.lost, 0);
    let unread = table(0x20, &hex("00"));
    let two = pa(&[m(), unread, mpt(&[])]);
    let aggregate = payload(0x01, &[sized(&two), sized(&two)].concat());
    let packets = [signal(65, &aggregate), signal(66, &payload(0, &two))];
    assert_eq!(
        feed(&mut filter, &packets).counts.lost,
        6,
        "two of each message"
    );
    assert_eq!(
        feed(&mut filter, &[tables(64, &[m()])]).counts.lost,
        0,
        "it has a place"
    );
    feed(
        &mut filter,
        &[tables(0, &[plt(&[package(1, 64), package(2, 65)])])],
    );
    assert_eq!(filter.dropped(), 1, "the caption of 64");
    assert!(
        !passes(&mut filter, &media(0xF100)),
        "no list is held for 65"
    );
}

#[test]
fn only_payload_type_2_is_observed() {
    let mut filter = knowing_one_package(LIMITS);
    for payload_type in (0..64).filter(|&payload_type| payload_type != 2) {
        feed(
            &mut filter,
            &[rewritable(&mmtp(
                payload_type,
                PACKAGE,
                &payload(0, &caption()),
            ))],
        );
    }
    assert_eq!(filter.dropped(), 0);
}

#[test]
fn a_packet_is_observed_before_it_is_dropped() {
    let mut filter = filter(Options {
        eit: false,
        ..NO_CAPTIONS
    });
    feed(
        &mut filter,
        &[tables(0, &[plt(&[package(0x0400, 0x8000)])])],
    );
    let call = feed(&mut filter, &[tables(0x8000, &[m()])]);
    assert_eq!((call.counts.written, filter.dropped()), (0, 2));
}
