//! Request 1, the wish of other assets: what is listed and is neither caption nor carousel. The named cases say more of
//! it; here is that nothing else depends on the wish.

use face::{Kind, Modes, Narrowed, Options};

use crate::subject::{Subject, changed, each_knowing};
use oracle::builders::*;

/// All ways to want something: 16 combinations of wishes, with a service and without.
fn all() -> impl Iterator<Item = Options> {
    (0..32).map(|flags| Options::from_flags(flags, 0x0401))
}

#[test]
fn flags_tell_all_wishes() {
    for (flags, options) in (0..).zip(all()) {
        assert_eq!(options.flags(), flags);
        assert_eq!(options.other, flags & 0x10 == 0);
        assert_eq!(options.copies_all(), flags == 7);
    }
    assert_eq!(Options::captions_only(None).flags(), 0x11);
    assert_eq!(Options::captions_only(Some(1)).flags(), 0x19);
}

/// An MPT of these entries, by itself or in a payload or packet.
fn around(kind: Kind, entries: &[Vec<u8>]) -> Vec<u8> {
    match kind {
        Kind::Table => mpt(entries),
        Kind::Payload => whole(&pa(&[mpt(entries)])),
        Kind::Packet => tables(1, &[mpt(entries)]),
    }
}

/// Every combination, as a table, in a payload and in a packet: entries of unwanted kinds go, whatever else is wanted.
#[test]
fn narrowing_takes_out_what_is_not_wanted() {
    let entries = [video(1), caption(2), carousel(3), entry(9, "asgd", 4)];
    for options in all() {
        let wanted = [
            options.other,
            options.caption,
            options.carousel,
            options.other,
        ];
        let left = entries.iter().zip(wanted).filter(|(_, wanted)| *wanted);
        let left: Vec<_> = left.map(|(entry, _)| entry.clone()).collect();
        let after = (left.len() < entries.len()).then_some(left);
        each_knowing(options, |filter| {
            for kind in [Kind::Table, Kind::Payload, Kind::Packet] {
                let before = around(kind, &entries);
                let answer = (filter.narrow)(kind, options, Modes::OFF, 1, &before, before.len());
                let after = after.as_ref().map(|left| around(kind, left));
                assert_eq!(changed(answer), after, "{options:?}");
            }
        });
    }
}

#[test]
fn narrowing_is_refused_for_nothing_but_lengths() {
    for options in all() {
        each_knowing(options, |filter| {
            let narrow = |length, room| {
                (filter.narrow)(Kind::Table, options, Modes::OFF, 0, &vec![0; length], room)
            };
            assert_eq!(narrow(65_540, 65_540), Narrowed::Refused(5));
            assert_eq!(narrow(2, 1), Narrowed::Refused(6));
            assert_eq!(narrow(2, 2), Narrowed::Unchanged);
        });
    }
}

/// Which of these identifiers are written when 0401 at f001 has video at 5, a caption at 11 and a carousel at 12, and
/// 0402 at f002 video at 6.
fn written(filter: &Subject, options: Options) -> Vec<u16> {
    let mut run = filter.started(options);
    let packages = [service_at(0x0401, 0xf001), service_at(0x0402, 0xf002)];
    run.send(&tables(0, &[plt(&packages)]));
    run.send(&tables(
        0xf001,
        &[mpt(&[video(5), caption(11), carousel(12)])],
    ));
    run.send(&tables(0xf002, &[mpt(&[video(6)])]));
    let identifiers = [0, 5, 6, 11, 12, 99, 0x8000, 0xf001, 0xf002];
    let mut passed = |packet: fn(u16) -> Vec<u8>| -> Vec<u16> {
        let written = |at: &u16| run.passes(&packet(*at));
        identifiers.into_iter().filter(written).collect()
    };
    let (media, messages) = (passed(media), passed(|at| signalling(at, &[])));
    assert_eq!(
        media, messages,
        "what is dropped is dropped in every packet"
    );
    let never = identifiers.len() - media.len();
    assert_eq!(run.dropped() as usize, never, "{options:?}");
    for apart in [tlv(0xfe, &[1]), tlv(0xff, &[]), clock()] {
        assert!(run.passes(&apart), "control, null and clock packets stay");
    }
    media
}

/// An IPv4 packet to port 123.
fn clock() -> Vec<u8> {
    let mut payload = vec![0x45; 28];
    payload[22..24].copy_from_slice(&[0, 123]);
    tlv(1, &[payload, mmtp(0, 5, &[])].concat())
}

/// Every combination with which a filter starts and that does not copy all.
#[test]
fn listed_assets_alone_are_dropped() {
    let started = |options: &Options| (options.caption || options.other) && !options.copies_all();
    for options in all().filter(started) {
        let ours = options.service.is_none();
        let expected = [
            (0, true),
            (5, options.other),
            (6, options.other && ours),
            (11, options.caption),
            (12, options.carousel),
            (99, true),
            (0x8000, options.eit),
            (0xf001, true),
            (0xf002, ours),
        ];
        let expected = expected.into_iter().filter(|(_, stays)| *stays);
        let expected: Vec<u16> = expected.map(|(identifier, _)| identifier).collect();
        each_knowing(options, |filter| {
            assert_eq!(written(filter, options), expected, "{options:?}");
        });
    }
}

#[test]
fn without_other_assets_nothing_is_copied() {
    let chunk = hex("7F FF 00 01 AA 00");
    each_knowing(NO_OTHERS, |filter| {
        let call = filter.started(NO_OTHERS).send(&chunk);
        assert_eq!((call.counts.skipped, call.held), (3, 3));
    });
    each_knowing(ALL, |filter| {
        assert_eq!(filter.started(ALL).send(&chunk).out, chunk);
    });
}
