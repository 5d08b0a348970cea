//! 02 [1], a recording of captions and tables: the wish of other assets.

use crate::build::*;
use face::{Engine, Kind, Limits, Modes, Narrowed, Options};
use plain::Plain;

const NEITHER: Options = Options {
    caption: false,
    ..NO_OTHERS
};

fn start(limits: Limits, options: Options) -> Option<u8> {
    Plain::start(limits, options, Modes::OFF).err()
}

#[test]
fn start_refuses_captions_and_other_assets_both_off() {
    for flags in 0..32 {
        let options = Options::from_flags(flags, 0x0400);
        let both_off = !options.caption && !options.other;
        let expected = both_off.then_some(9);
        assert_eq!(start(LIMITS, options), expected, "{flags:02X}");
    }
}

#[test]
fn start_gives_9_after_3() {
    let mut limits = Limits { maps: 0, ..LIMITS };
    assert_eq!(start(limits, NEITHER), Some(3));
    limits.most = 0;
    assert_eq!(start(limits, NEITHER), Some(2));
    limits.work = 0;
    assert_eq!(start(limits, NEITHER), Some(1));
}

#[test]
fn copy_all_needs_all_four() {
    let chunk = hex("7F FF 00 01 AA 00");
    let call = |options| filter(options).push(&chunk, 6).expect("room for six");
    assert_eq!(call(ALL).out, chunk);
    assert_eq!(call(NO_OTHERS).counts.skipped, 3, "example 11");
}

#[test]
fn m_keeps_its_caption_alone() {
    let captions = mpt(&[entry(0x22, "stpp", 0xF130)]);
    assert_eq!(narrow_table(NO_OTHERS, &m()), Some(captions.clone()));
    assert_eq!(narrow_table(NO_OTHERS, &captions), None);
    let profile = Options::captions_only(None);
    assert_eq!(narrow_table(profile, &m()), Some(captions));
}

#[test]
fn narrowing_alone_refuses_nothing_and_takes_everything_out() {
    let emptied = hex("20 05 00 07 00 02 04 00 00 00 00");
    let answer = narrow(Kind::Table, NEITHER, 0, &m());
    let (stayed, went) = ([0; 3], [1, 0, 1]);
    let expected = Narrowed::Changed {
        out: emptied,
        stayed,
        went,
    };
    assert_eq!(answer, expected);
    let short = Plain::narrow(Kind::Table, NEITHER, Modes::OFF, 0, &m(), m().len() - 1);
    assert_eq!(short, Narrowed::Refused(6));
}

#[test]
fn what_is_neither_caption_nor_carousel_is_other() {
    let named = [entry(1, "stpp", 1), entry(2, "aapp", 2)];
    let kinds = ["hvc1", "mp4a", "STPP", "aapq", "asgd"];
    let others = kinds.map(|kind| entry(3, kind, 3));
    let both = mpt(&[&others[..], &named].concat());
    assert_eq!(narrow_table(NO_OTHERS, &both), Some(mpt(&named)));
    let unlisted = entry_at(4, "hvc1", &[], 0);
    let both = mpt(&[unlisted, entry(1, "stpp", 1)]);
    assert_eq!(narrow_table(NO_OTHERS, &both), Some(mpt(&named[..1])));
}

/// A filter that saw a PLT with package 0400 at F000, and its MPT: video at 10, a caption at 11, a carousel at 12, and
/// at 13 a caption and audio.
fn knowing_one_package(options: Options) -> Plain {
    let mut filter = filter(options);
    let assets = [
        entry(1, "hvc1", 0x10),
        entry(2, "stpp", 0x11),
        entry(3, "aapp", 0x12),
        entry(4, "mp4a", 0x13),
        entry(5, "stpp", 0x13),
    ];
    let packets = [
        tables(0, &[plt(&[package(0x0400, 0xF000)])]),
        tables(0xF000, &[mpt(&assets)]),
    ];
    feed(&mut filter, &packets);
    filter
}

const EACH: [u16; 8] = [0, 0x10, 0x11, 0x12, 0x13, 0x99, 0x8000, 0xF000];

/// The identifiers whose media is dropped, if their signalling is as well.
fn dropped_of(filter: &mut Plain) -> Vec<u16> {
    let media = EACH.map(|identifier| !passes(filter, &media(identifier)));
    let signals = EACH.map(|identifier| !passes(filter, &signal(identifier, &[])));
    assert_eq!(media, signals);
    let dropped = EACH.into_iter().zip(media).filter(|(_, dropped)| *dropped);
    dropped.map(|(identifier, _)| identifier).collect()
}

#[test]
fn listed_other_assets_are_dropped_and_no_others() {
    let mut filter = knowing_one_package(NO_OTHERS);
    assert_eq!(dropped_of(&mut filter), [0x10], "0x13 is a caption's too");
    assert_eq!(filter.dropped(), 1);
    let mut filter = knowing_one_package(NO_CAPTIONS);
    assert_eq!(dropped_of(&mut filter), [0x11], "0x13 is audio's too");
}

#[test]
fn the_captions_only_profile() {
    for service in [None, Some(0x0400)] {
        let mut filter = knowing_one_package(Options::captions_only(service));
        assert_eq!(dropped_of(&mut filter), [0x10, 0x12, 0x8000]);
        assert_eq!(filter.dropped(), 3);
        let data = signal(0x99, &payload(0, &data_message()));
        assert!(!passes(&mut filter, &data), "carousels are off");
        assert_eq!(filter.dropped(), 4);
        assert!(!passes(&mut filter, &media(0x99)));
    }
}

#[test]
fn control_and_clock_packets_stay() {
    let mut filter = knowing_one_package(Options::captions_only(None));
    let mut clock = vec![0x45; 28];
    clock[22..24].copy_from_slice(&123_u16.to_be_bytes());
    clock.extend(mmtp(0, 0x10, &[]));
    for packet in [tlv(0xFE, &hex("AABB")), tlv(0xFF, &[]), tlv(0x01, &clock)] {
        assert!(passes(&mut filter, &packet));
    }
}

#[test]
fn what_is_not_listed_waits_for_the_lists_and_passes() {
    let mut filter = filter(Options::captions_only(None));
    assert!(!passes(&mut filter, &media(0x99)), "no PLT");
    assert!(passes(&mut filter, &signal(0x10, &[])), "nothing is listed");
    let mut filter = knowing_one_package(Options::captions_only(None));
    assert!(passes(&mut filter, &media(0x99)));
    let moved = [tables(0xF000, &[mpt(&[entry(1, "hvc1", 0x99)])])];
    feed(&mut filter, &moved);
    assert!(!passes(&mut filter, &media(0x99)), "listed now");
    assert!(passes(&mut filter, &media(0x10)), "no longer");
}

/// What is dropped is learned from all the same.
#[test]
fn signalling_on_an_unwanted_assets_identifier_is_observed() {
    let mut filter = knowing_one_package(NO_OTHERS);
    assert!(!passes(&mut filter, &tables(0x10, &[mpt(&[])])));
    let moved = tables(0, &[plt(&[package(0x0400, 0x10)])]);
    assert!(passes(&mut filter, &moved));
    assert!(passes(&mut filter, &media(0x10)), "it has a list");
}
