//! 01 "Keep, drop, ready".

use crate::build::*;
use face::{Engine, Options};
use plain::Plain;

/// A filter that saw a PLT with packages 0400 at F000 and 0401 at F001, and both their MPTs.
fn knowing_two_packages(options: Options) -> Plain {
    let mut filter = filter(options);
    let ours = [
        entry(1, "hvc1", 0x10),
        entry(2, "stpp", 0x11),
        entry(3, "aapp", 0x12),
        entry(4, "mp4a", 0x13),
    ];
    let theirs = [
        entry(1, "hvc1", 0x20),
        entry(2, "stpp", 0x21),
        entry(4, "mp4a", 0x13),
    ];
    feed(
        &mut filter,
        &[
            tables(
                0,
                &[plt(&[package(0x0400, 0xF000), package(0x0401, 0xF001)])],
            ),
            tables(0xF000, &[mpt(&ours)]),
            tables(0xF001, &[mpt(&theirs)]),
        ],
    );
    filter
}

fn dropped_of(filter: &mut Plain, identifiers: &[u16]) -> Vec<u16> {
    let drops = |identifier: &u16| !passes(filter, &media(*identifier));
    identifiers.iter().copied().filter(drops).collect()
}

const EACH: [u16; 9] = [0, 0x10, 0x11, 0x12, 0x13, 0x20, 0x21, 0xF000, 0xF001];

#[test]
fn all_that_a_foreign_package_names_is_dropped_unless_it_is_kept() {
    let mut filter = knowing_two_packages(only(0x0400));
    assert_eq!(dropped_of(&mut filter, &EACH), [0x20, 0x21, 0xF001]);
    assert_eq!(filter.dropped(), 3);
}

#[test]
fn wishes_drop_the_assets_of_their_kind() {
    let mut filter = knowing_two_packages(NO_CAPTIONS);
    assert_eq!(dropped_of(&mut filter, &EACH), [0x11, 0x21]);
    let mut filter = knowing_two_packages(NO_CAROUSELS);
    assert_eq!(dropped_of(&mut filter, &EACH), [0x12]);
    let mut filter = knowing_two_packages(Options {
        caption: false,
        ..only(0x0401)
    });
    assert_eq!(
        dropped_of(&mut filter, &EACH),
        [0x10, 0x11, 0x12, 0x21, 0xF000]
    );
}

#[test]
fn identifier_0_is_never_dropped() {
    let mut filter = filter(only(0x0400));
    let both = plt(&[package(0x0400, 0xF000), package(0x0401, 0)]);
    feed(
        &mut filter,
        &[tables(0, &[both]), tables(0xF000, &[mpt(&[])])],
    );
    assert_eq!(filter.dropped(), 0);
    assert!(passes(&mut filter, &media(0)));
}

#[test]
fn the_data_set_is_dropped_with_carousels_off_unless_kept() {
    let data: Vec<_> = [0, 5, 0x10]
        .iter()
        .map(|&pid| signal(pid, &payload(0, &data_message())))
        .collect();
    let mut without = knowing_two_packages(NO_CAROUSELS);
    assert_eq!(
        feed(&mut without, &data).counts.written,
        2,
        "5 goes, 0x10 is kept"
    );
    assert_eq!(without.dropped(), 2);
    assert!(!passes(&mut without, &media(5)));
    let mut with = knowing_two_packages(NO_CAPTIONS);
    feed(&mut with, &data);
    assert!(passes(&mut with, &media(5)));
}

#[test]
fn eit_off_drops_8000_even_when_kept_and_counts_it_once() {
    let mut filter = filter(NO_EIT);
    assert_eq!(filter.dropped(), 1);
    assert!(!passes(&mut filter, &signal(0x8000, &[])));
    feed(
        &mut filter,
        &[
            tables(0, &[plt(&[package(0x0400, 0x8000)])]),
            tables(0x8000, &[mpt(&[])]),
        ],
    );
    assert!(!passes(&mut filter, &media(0x8000)));
    assert!(passes(&mut filter, &media(0x7FFF)));
    assert_eq!(filter.dropped(), 1);
    let mut both = knowing_two_packages(Options {
        eit: false,
        ..only(0x0400)
    });
    feed(&mut both, &[tables(0, &[plt(&[package(0x0401, 0x8000)])])]);
    assert_eq!(both.dropped(), 1, "dropped by its package too");
}

#[test]
fn nothing_but_signalling_is_written_before_all_lists_are_held() {
    let mut filter = filter(NO_CAPTIONS);
    feed(&mut filter, &[tables(0xF001, &[mpt(&[])])]);
    assert!(!passes(&mut filter, &media(0x10)), "no PLT");
    feed(
        &mut filter,
        &[tables(0, &[plt(&[package(1, 0xF000), package(2, 0xF001)])])],
    );
    assert!(!passes(&mut filter, &media(0x10)), "no list for F000");
    assert!(passes(&mut filter, &signal(0x10, &[])));
    feed(&mut filter, &[tables(0xF000, &[mpt(&[])])]);
    assert!(passes(&mut filter, &media(0x10)));
    feed(
        &mut filter,
        &[tables(0, &[plt(&[package(1, 0xF000), package(3, 0xF002)])])],
    );
    assert!(!passes(&mut filter, &media(0x10)), "no latch");
}

#[test]
fn with_a_service_only_its_own_list_is_needed() {
    let mut filter = filter(only(1));
    feed(&mut filter, &[tables(0xF000, &[mpt(&[])])]);
    feed(&mut filter, &[tables(0, &[plt(&[package(2, 0xF000)])])]);
    assert!(!passes(&mut filter, &media(0x10)), "the service is missing");
    feed(
        &mut filter,
        &[tables(0, &[plt(&[package(1, 0xF000), package(2, 0xF001)])])],
    );
    assert!(passes(&mut filter, &media(0x10)));
}

#[test]
fn an_empty_plt_is_ready_only_without_a_service() {
    let ready = |options| {
        let mut filter = filter(options);
        feed(&mut filter, &[tables(0, &[plt(&[])])]);
        passes(&mut filter, &media(0x10))
    };
    assert!(ready(NO_CAPTIONS));
    assert!(!ready(only(1)));
}
