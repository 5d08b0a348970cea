//! 01's refusal numbers: each limit from both sides, the lowest number first, and nothing changed.

use face::{Call, Counts, Kind, Limits, Modes, Narrowed, Options};

use crate::subject::{LIMITS, each, each_knowing};
use oracle::builders::*;

fn start(limits: Limits, expected: Option<u8>) {
    each(|filter| {
        assert_eq!(
            (filter.start)(limits, ALL, Modes::OFF).err(),
            expected,
            "{limits:?}"
        )
    });
}

#[test]
fn starts() {
    for (work, refusal) in [
        (4_095, Some(1)),
        (4_096, None),
        (131_078, None),
        (131_079, Some(1)),
    ] {
        start(Limits { work, ..LIMITS }, refusal);
    }
    for (total, most, refusal) in [
        (0, 0, Some(2)),
        (1, 0, Some(2)),
        (1, 1, None),
        (1, 2, Some(2)),
        (16_777_216, 16_777_216, None),
        (16_777_217, 1, Some(2)),
    ] {
        start(
            Limits {
                total,
                most,
                ..LIMITS
            },
            refusal,
        );
    }
    for (maps, refusal) in [(32_767, Some(3)), (32_768, None), (32_769, Some(3))] {
        start(Limits { maps, ..LIMITS }, refusal);
    }
}

#[test]
fn the_lowest_number_is_given() {
    let limits = Limits {
        work: 0,
        total: 0,
        most: 0,
        maps: 0,
    };
    start(limits, Some(1));
    start(
        Limits {
            work: 4_096,
            ..limits
        },
        Some(2),
    );
    start(
        Limits {
            work: 4_096,
            total: 1,
            most: 1,
            ..limits
        },
        Some(3),
    );
    each(|filter| {
        let mut run = filter.started(NO_CAPTIONS);
        assert_eq!(run.push(&[0; 65_540], 0), Err(5));
        let narrowed = (filter.narrow)(Kind::Table, ALL, Modes::OFF, 0, &[0; 65_540], 0);
        assert_eq!(narrowed, Narrowed::Refused(5));
    });
}

/// Neither captions nor other assets: 9, after 1, 2 and 3. Every other combination starts.
#[test]
fn wishes() {
    for flags in 0..32 {
        let options = Options::from_flags(flags, 0x0401);
        let refusal = (flags & 0x11 == 0x10).then_some(9);
        each_knowing(options, |filter| {
            let start = |limits| (filter.start)(limits, options, Modes::OFF).err();
            assert_eq!(start(LIMITS), refusal, "{flags:#x}");
            assert_eq!(start(Limits { maps: 0, ..LIMITS }), Some(3), "{flags:#x}");
            assert_eq!(start(Limits { most: 0, ..LIMITS }), Some(2), "{flags:#x}");
            assert_eq!(start(Limits { work: 0, ..LIMITS }), Some(1), "{flags:#x}");
        });
    }
}

/// W of an odd length: P is half of it rounded down, and the chunk may have the rest.
#[test]
fn calls() {
    let limits = Limits {
        work: 4_097,
        ..LIMITS
    };
    each(|filter| {
        let mut run = filter.started_with(limits, NO_CAPTIONS);
        assert_eq!(run.push(&[0; 2_050], 5_000), Err(5));
        assert_eq!(run.push(&[0; 2_049], 2_048), Err(6));
        assert_eq!(run.push(&[0; 2_049], 2_049).map(|call| call.held), Ok(3));
        assert_eq!(run.push(&[0; 7], 9), Err(6), "held bytes take room too");
        assert_eq!(run.push(&[0; 7], 10).map(|call| call.held), Ok(3));
    });
}

#[test]
fn a_refused_call_changes_nothing() {
    let packet = hex("7F FF 00 01 AA");
    each(|filter| {
        let mut run = filter.started(NO_CAPTIONS);
        run.send(&packet[..3]);
        assert_eq!(run.push(&packet[3..], 4), Err(6));
        assert_eq!(run.held(), 3);
        let counts = Counts {
            bytes: 5,
            accepted: 1,
            written: 1,
            ..Counts::default()
        };
        let call = Call {
            counts,
            held: 0,
            out: packet.clone(),
        };
        assert_eq!(run.push(&packet[3..], 5), Ok(call));
    });
}

#[test]
fn narrowings() {
    let mut table = mpt(&[caption(1)]);
    table.resize(65_539, 0);
    each(|filter| {
        for kind in [Kind::Table, Kind::Payload, Kind::Packet] {
            let narrow =
                |input, room| (filter.narrow)(kind, NO_CAPTIONS, Modes::OFF, 0, input, room);
            assert_eq!(narrow(&[0; 65_540], 70_000), Narrowed::Refused(5));
            assert_eq!(narrow(&[0; 65_539], 65_538), Narrowed::Refused(6));
            assert_eq!(narrow(&[0; 65_539], 65_539), Narrowed::Unchanged);
            assert_eq!(narrow(&[], 0), Narrowed::Unchanged);
        }
        assert_eq!(filter.table(NO_CAPTIONS, &table), Some(mpt(&[])));
    });
}
