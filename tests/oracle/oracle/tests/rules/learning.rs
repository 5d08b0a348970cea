//! The readings that concern what is learned, and what is dropped or ready by it. Learning is seen by the
//! number of dropped identifiers and by whether media is written.

use std::collections::BTreeSet;

use crate::subject::{Run, Subject, each};
use face::Options;
use oracle::builders::*;
use original::Parts;

/// Makes the packages known; their MPTs are still missing.
fn know(run: &mut Run, packages: &[Vec<u8>]) {
    run.send(&tables(0, &[plt(packages)]));
}

#[test]
fn r01_a_pa_after_8003_in_the_same_payload_is_learned() {
    let captions = |identifiers: &[u16]| {
        let entries: Vec<_> = identifiers.iter().map(|&at| caption(at)).collect();
        pa(&[mpt(&entries)])
    };
    each(|filter| {
        let mut run = filter.started(NO_CAPTIONS);
        know(&mut run, &[service_at(0x0401, 0xf000)]);
        run.send(&signalling(0xf000, &aggregate(&[data(), captions(&[1])])));
        assert_eq!(run.dropped(), 1);
        run.send(&signalling(0xf000, &whole(&captions(&[1, 2]))));
        assert_eq!(run.dropped(), 1, "the next payload is not observed");
    });
}

#[test]
fn r03_learning_takes_the_last_entry_at_a_type_0_location() {
    let elsewhere = package(&[4, 1], &[5, 0]);
    each(|filter| {
        let mut run = filter.started(only(0x0401));
        know(&mut run, &[service_at(0x0401, 0xf000), elsewhere.clone()]);
        run.send(&tables(0xf000, &[mpt(&[])]));
        assert!(run.passes(&media(0xf100)));
    });
}

#[test]
fn r04_assets_are_learned_by_the_layout_of_asset_size() {
    let clocks: [&[u8]; 4] = [&[0xfe], &[1, 1, 0xfe], &[0xff, 0, 1, 9, 9, 9, 9], &[0]];
    each(|filter| {
        for clock in clocks {
            let first = asset(&[7, 7], "hvc1", clock, &[vec![5, 1, 9], here(3)], &[1, 1]);
            let mut run = filter.started(NO_CAPTIONS);
            know(&mut run, &[service_at(0x0401, 0xf000)]);
            run.send(&tables(0xf000, &[mpt(&[first, caption(4)])]));
            assert!(run.passes(&media(3)), "clock {clock:?}");
            assert!(!run.passes(&media(4)), "clock {clock:?}");
        }
    });
}

#[test]
fn an_assets_identifier_is_that_of_its_first_type_0_location() {
    let places = [vec![5, 0], here(1), here(2)];
    let entry = asset(&[1], "stpp", &[0], &places, &[]);
    each(|filter| {
        let mut run = filter.started(NO_CAPTIONS);
        know(&mut run, &[service_at(0x0401, 0xf000)]);
        run.send(&tables(0xf000, &[mpt(std::slice::from_ref(&entry))]));
        assert!(!run.passes(&media(1)));
        assert!(run.passes(&media(2)));
    });
}

#[test]
fn r06_ready_is_no_latch() {
    each(|filter| {
        let mut run = filter.started(NO_CAPTIONS);
        assert!(!run.passes(&media(0xf100)));
        know(&mut run, &[service_at(0x0401, 0xf000)]);
        assert!(!run.passes(&media(0xf100)));
        run.send(&tables(0xf000, &[mpt(&[])]));
        assert!(run.passes(&media(0xf100)));
        know(&mut run, &[service_at(0x0401, 0xf001)]);
        assert!(!run.passes(&media(0xf100)));
    });
}

#[test]
fn r09_8003_on_identifier_0_ends_the_learning_of_plts() {
    let packages = [service_at(0x0400, 0xf000), service_at(0x0401, 0xf001)];
    each(|filter| {
        let mut run = filter.started(only(0x0401));
        run.send(&signalling(0, &whole(&data())));
        let call = run.send(&tables(0, &[plt(&packages)]));
        assert_eq!(run.dropped(), 0, "0400's MPT would be dropped");
        assert_eq!(call.counts.rewritten, 1, "narrowing goes on");
    });
}

/// 64 identifiers with an MPT each, 0 among them, and no PLT.
fn fill_places(run: &mut Run) {
    for identifier in 0..64 {
        let call = run.send(&tables(identifier, &[mpt(&[video(1)])]));
        assert_eq!(call.counts.lost, 0);
    }
}

#[test]
fn r10_every_identifier_takes_one_of_64_places() {
    each(|filter| {
        let mut run = filter.started(NO_CAPTIONS);
        fill_places(&mut run);
        know(&mut run, &[service_at(0x0401, 64)]);
        assert_eq!(run.send(&tables(64, &[mpt(&[caption(9)])])).counts.lost, 1);
        assert_eq!(run.dropped(), 0, "it is not kept");
        assert!(!run.passes(&media(9)));
        know(&mut run, &[service_at(0x0401, 63)]);
        assert_eq!(run.send(&tables(63, &[mpt(&[caption(9)])])).counts.lost, 0);
        assert_eq!(run.dropped(), 1, "a held list is still replaced");
    });
}

#[test]
fn r10_table_numbers_of_one_identifier_replace_each_other() {
    each(|filter| {
        let mut run = filter.started(NO_CAPTIONS);
        know(&mut run, &[service_at(0x0401, 0xf000)]);
        run.send(&tables(
            0xf000,
            &[mpt_of(0x11, &[caption(1), caption(2)], &[])],
        ));
        assert_eq!(run.dropped(), 2);
        run.send(&tables(0xf000, &[mpt_of(0x20, &[caption(3)], &[])]));
        assert_eq!(run.dropped(), 1);
        for number in [0x10, 0x21] {
            run.send(&tables(0xf000, &[mpt_of(number, &[], &[])]));
            assert_eq!(run.dropped(), 1, "{number:02x} is no MPT");
        }
    });
}

#[test]
fn r10_an_mpt_with_no_listed_asset_is_held() {
    let unlisted = asset(&[1], "hvc1", &[0], &[vec![5, 0]], &[]);
    for entries in [vec![], vec![unlisted]] {
        each(|filter| {
            let mut run = filter.started(NO_CAPTIONS);
            know(&mut run, &[service_at(0x0401, 0xf000)]);
            run.send(&tables(0xf000, &[mpt(&entries)]));
            assert!(run.passes(&media(0xf100)));
        });
    }
}

#[test]
fn r11_lost_counts_each_readable_mpt() {
    let mut unreadable = mpt(&[video(1)]);
    unreadable[10] = 2;
    each(|filter| {
        let mut run = filter.started(NO_CAPTIONS);
        fill_places(&mut run);
        let lost = [mpt(&[]), unreadable.clone(), mpt_of(0x11, &[video(1)], &[])];
        assert_eq!(run.send(&tables(64, &lost)).counts.lost, 2);
        assert_eq!(run.send(&tables(63, &lost)).counts.lost, 0);
    });
}

#[test]
fn r18_mpts_before_a_cut_table_are_learned_and_nothing_is_narrowed() {
    let message = pa_with_tail(&[mpt(&[caption(1)])], &[0x20, 0, 0, 1]);
    let packet = signalling(0xf000, &whole(&message));
    each(|filter| {
        let mut run = filter.started(NO_CAPTIONS);
        know(&mut run, &[service_at(0x0401, 0xf000)]);
        assert!(run.passes(&packet));
        assert_eq!(run.dropped(), 1);
    });
}

/// A PA body of a count and some bytes behind it, then an empty PLT: its message ends with it, or before the PLT.
fn behind(count: u8, bytes: usize, inside: bool) -> Vec<u8> {
    let head = [&[count][..], &vec![0xaa; bytes]].concat();
    let body = [&head[..], &plt(&[])].concat();
    let mut message = long_message(0, &body);
    if !inside {
        message[3..7].copy_from_slice(&(head.len() as u32).to_be_bytes());
    }
    signalling(0, &whole(&message))
}

/// No PLT, no media: an empty PLT makes the filter ready, where it is found.
#[test]
fn tables_behind_a_cut_count_or_entry_teach_nothing() {
    let empty = [long_message(0, &[]), vec![0], plt(&[])].concat();
    each(|filter| {
        let ready = |packet: &[u8]| {
            let mut run = filter.started(NO_CAPTIONS);
            assert!(run.passes(packet), "signalling goes out as it is");
            run.passes(&media(99))
        };
        for count in [0, 1, 2, 255] {
            let wanted = 4 * usize::from(count);
            assert!(ready(&behind(count, wanted, true)), "{count}: not cut");
            assert!(!ready(&behind(count, wanted, false)), "{count}: no table");
            for bytes in 0..wanted {
                assert!(!ready(&behind(count, bytes, false)), "{count}, {bytes}");
            }
            for bytes in 0..wanted.saturating_sub(plt(&[]).len()) {
                assert!(!ready(&behind(count, bytes, true)), "{count}, {bytes}");
            }
        }
        assert!(!ready(&signalling(0, &whole(&empty))), "no count");
    });
}

/// The same of an MPT, alone, in an aggregate and joined from fragments.
#[test]
fn an_mpt_behind_a_cut_entry_is_not_learned() {
    let body = |count: u8| [&[count][..], &mpt(&[caption(1)])].concat();
    let payloads = |count: u8| {
        let message = long_message(0, &body(count));
        let (first, last) = message.split_at(9);
        [
            vec![whole(&message)],
            vec![aggregate(std::slice::from_ref(&message))],
            vec![fragment(1, first), fragment(3, last)],
        ]
    };
    each(|filter| {
        for (count, dropped) in [(0, 1), (8, 0), (255, 0)] {
            for payloads in payloads(count) {
                let mut run = filter.started(NO_CAPTIONS);
                know(&mut run, &[service_at(0x0401, 0xf000)]);
                for payload in payloads {
                    run.send(&signalling(0xf000, &payload));
                }
                assert_eq!(run.dropped(), dropped, "{count} entries are announced");
                assert_eq!(run.passes(&media(99)), dropped == 1, "ready");
            }
        }
    });
}

#[test]
fn r19_a_repeated_services_earlier_identifier_is_forgotten() {
    each(|filter| {
        let mut run = filter.started(only(0x0401));
        know(
            &mut run,
            &[service_at(0x0401, 0xf000), service_at(0x0401, 0xf001)],
        );
        run.send(&tables(0xf000, &[mpt(&[])]));
        assert!(!run.passes(&media(0xf100)));
        run.send(&tables(0xf001, &[mpt(&[])]));
        assert!(run.passes(&media(0xf100)));
        assert_eq!(run.dropped(), 0);
    });
}

#[test]
fn r19_a_foreign_package_elsewhere_or_without_a_two_byte_name_names_nothing() {
    let foreign = [
        package(&[4, 2], &[5, 0]),
        package(&[4, 2, 0], &here(0xf002)),
        package(&[4], &here(0xf003)),
        package(&[], &here(0xf004)),
    ];
    each(|filter| {
        let mut run = filter.started(only(0x0401));
        know(&mut run, &foreign);
        assert_eq!(run.dropped(), 0);
        know(&mut run, &[service_at(0x0402, 0xf002)]);
        assert_eq!(run.dropped(), 1);
    });
}

#[test]
fn r22_8000_is_observed_before_it_is_dropped() {
    let options = face::Options {
        eit: false,
        ..NO_CAPTIONS
    };
    each(|filter| {
        let mut run = filter.started(options);
        know(&mut run, &[service_at(0x0401, 0x8000)]);
        assert!(!run.passes(&tables(0x8000, &[mpt(&[caption(1)])])));
        assert_eq!(run.dropped(), 2);
    });
}

#[test]
fn r23_8000_counts_once_with_eit_off_and_0_never() {
    let options = face::Options {
        eit: false,
        ..only(0x0401)
    };
    each(|filter| {
        let mut run = filter.started(options);
        assert_eq!(run.dropped(), 1);
        know(
            &mut run,
            &[service_at(0x0402, 0x8000), service_at(0x0403, 0)],
        );
        assert_eq!(run.dropped(), 1);
        know(&mut run, &[service_at(0x0401, 0x8000)]);
        assert_eq!(run.dropped(), 1);
        know(&mut run, &[service_at(0x0402, 0xf000)]);
        assert_eq!(run.dropped(), 2);
    });
}

/// An entry that ends behind its table, though inside the message, does not read.
#[test]
fn r24_entries_are_learned_within_the_tables_own_length() {
    let mut short = mpt(&[caption(1)]);
    short[3] -= 1;
    each(|filter| {
        let mut run = filter.started(NO_CAPTIONS);
        know(&mut run, &[service_at(0x0401, 0xf000)]);
        run.send(&tables(0xf000, &[short.clone()]));
        assert!(!run.passes(&media(0xf100)));
    });
}

#[test]
fn r25_a_type_0_location_has_the_upper_byte_first() {
    each(|filter| {
        let mut run = filter.started(NO_CAPTIONS);
        know(&mut run, &[service_at(0x0401, 0x1234)]);
        run.send(&tables(0x1234, &[mpt(&[caption(0x5678)])]));
        assert!(!run.passes(&media(0x5678)));
        assert!(run.passes(&media(0x7856)));
    });
}

/// The bench measures the original's parts, each by itself: together they are the original.
#[test]
fn the_originals_parts_learn_and_decide_alike() {
    let map = pa(&[mpt(&[caption(1), carousel(2), video(3)])]);
    let (first, rest) = map.split_at(9);
    let (middle, last) = rest.split_at(9);
    let packages = [service_at(0x0401, 0xf000), service_at(0x0402, 0xf001)];
    let payloads = [
        (0, whole(&pa(&[plt(&packages)]))),
        (0xf000, whole(&map)),
        (0xf000, whole(&map)),
        (0xf002, whole(&data())),
        (0xf001, fragment(1, first)),
        (0xf001, fragment(2, middle)),
        (0xf001, fragment(3, last)),
    ];
    let options = Options {
        carousel: false,
        service: Some(0x0401),
        ..NO_CAPTIONS
    };
    let mut run = Subject::original().started(options);
    let mut parts = Parts::new(options);
    let mut changes = Vec::new();
    for (identifier, payload) in payloads {
        run.send(&signalling(identifier, &payload));
        changes.push(parts.observe(identifier, &payload));
        if changes.ends_with(&[true]) {
            parts.decide();
        }
        assert_eq!(parts.dropped().len(), run.dropped() as usize);
    }
    assert_eq!(changes, [true, true, false, true, false, false, true]);
    assert_eq!(parts.dropped(), &BTreeSet::from([1, 2, 0xf001, 0xf002]));
}
