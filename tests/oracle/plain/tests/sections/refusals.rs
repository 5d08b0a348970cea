//! 01 "Rooms and their ends" and "Refusal numbers".

use crate::build::*;
use face::{Engine, Kind, Limits, Modes, Narrowed};
use plain::Plain;

fn start(change: impl FnOnce(&mut Limits)) -> Option<u8> {
    let mut limits = LIMITS;
    change(&mut limits);
    Plain::start(limits, NO_CAPTIONS, Modes::OFF).err()
}

#[test]
fn start_refuses_each_limit_out_of_range() {
    assert_eq!(start(|limits| limits.work = 4_095), Some(1));
    assert_eq!(start(|limits| limits.work = 4_096), None);
    assert_eq!(start(|limits| limits.work = 131_078), None);
    assert_eq!(start(|limits| limits.work = 131_079), Some(1));
    assert_eq!(
        start(|limits| (limits.total, limits.most) = (0, 0)),
        Some(2)
    );
    assert_eq!(start(|limits| (limits.total, limits.most) = (1, 1)), None);
    assert_eq!(start(|limits| limits.total = 16_777_216), None);
    assert_eq!(start(|limits| limits.total = 16_777_217), Some(2));
    assert_eq!(start(|limits| limits.most = 0), Some(2));
    assert_eq!(start(|limits| limits.most = limits.total + 1), Some(2));
    assert_eq!(start(|limits| limits.maps -= 1), Some(3));
    assert_eq!(start(|limits| limits.maps += 1), Some(3));
}

#[test]
fn start_gives_the_lowest_number() {
    assert_eq!(
        start(|limits| *limits = Limits {
            work: 0,
            total: 0,
            most: 0,
            maps: 0
        }),
        Some(1)
    );
    assert_eq!(
        start(|limits| (limits.total, limits.maps) = (0, 0)),
        Some(2)
    );
}

#[test]
fn push_refuses_a_long_chunk_and_a_short_output() {
    for options in [NO_CAPTIONS, ALL] {
        let mut filter = filter(options);
        assert_eq!(filter.push(&[0; 32_769], 32_769), Err(5));
        assert_eq!(filter.push(&[0; 32_769], 0), Err(5));
        assert_eq!(filter.push(&[0; 32_768], 32_767), Err(6));
        assert!(filter.push(&[0; 32_768], 32_768).is_ok());
    }
}

#[test]
fn the_longest_chunk_follows_the_packet_limit() {
    let mut widest = filter_within(
        Limits {
            work: 131_078,
            ..LIMITS
        },
        ALL,
    );
    assert_eq!(widest.push(&[0; 65_540], 65_540), Err(5));
    assert!(widest.push(&[0; 65_539], 65_539).is_ok());
    let mut odd = filter_within(
        Limits {
            work: 4_097,
            ..LIMITS
        },
        ALL,
    );
    assert_eq!(odd.push(&[0; 2_050], 2_050), Err(5));
    assert!(odd.push(&[0; 2_049], 2_049).is_ok());
}

#[test]
fn a_refused_push_changes_nothing() {
    let mut filter = filter(NO_CAPTIONS);
    feed(&mut filter, &[hex("7F FF 00 02 AA")]);
    assert_eq!(
        filter.push(&hex("BB"), 5),
        Err(6),
        "five bytes are held, one comes"
    );
    assert_eq!(filter.held(), 5);
    assert_eq!(
        filter.push(&hex("BB"), 6).expect("room for six").out,
        hex("7F FF 00 02 AA BB")
    );
}

#[test]
fn narrowing_refuses_long_input_and_short_output() {
    for kind in [Kind::Table, Kind::Payload, Kind::Packet] {
        let narrow =
            |length, room| Plain::narrow(kind, NO_CAPTIONS, Modes::OFF, 0, &vec![0; length], room);
        assert_eq!(narrow(65_540, 65_540), Narrowed::Refused(5));
        assert_eq!(narrow(65_540, 0), Narrowed::Refused(5));
        assert_eq!(narrow(65_539, 65_538), Narrowed::Refused(6));
        assert_eq!(narrow(65_539, 65_539), Narrowed::Unchanged);
    }
}
