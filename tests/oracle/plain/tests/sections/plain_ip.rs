//! Request 2, "Tables in plain IP packets": which packets are narrowed with the mode on, and what their heads say then.
//! The packets are written out, their checksums too.

use crate::build::*;
use face::{Engine, Kind, Modes, Narrowed};
use plain::Plain;

/// From 10.0.0.1 to 10.0.0.2, to stand before M.
const V4: &str = "7F 01 0065 45 00 0065 0000 0000 01 11 A586 0A000001 0A000002 1000 2000 0051 5636";
/// What goes out without captions.
const V4_AFTER: &str =
    "7F 01 0053 45 00 0053 0000 0000 01 11 A598 0A000001 0A000002 1000 2000 003F 7F77";
/// The same from fd00::1 to fd00::2.
const V6: &str = "7F 02 0079 60000000 0051 11 01 FD000000 00000000 00000000 00000001
                  FD000000 00000000 00000000 00000002 1000 2000 0051 7034";
const V6_AFTER: &str = "7F 02 0067 60000000 003F 11 01 FD000000 00000000 00000000 00000001
                        FD000000 00000000 00000000 00000002 1000 2000 003F 9975";

/// These heads before the MMTP packet of M, or of what is left of it without captions.
fn around(heads: &str, captions: bool) -> Vec<u8> {
    let table = if captions {
        m()
    } else {
        mpt(&[entry(0x11, "hvc1", 0xF100)])
    };
    let content = mmtp(2, 1, &payload(0, &pa(&[table])));
    [hex(heads), content].concat()
}

fn narrowed(packet: &[u8]) -> Option<Vec<u8>> {
    let modes = Modes::PLAIN_IP;
    changed(Plain::narrow(
        Kind::Packet,
        NO_CAPTIONS,
        modes,
        0,
        packet,
        packet.len(),
    ))
}

/// Each byte, counted from the IP header, that is changed alone so that the packet stays.
fn stays(heads: &str, changes: &[(usize, u8)]) {
    for &(at, byte) in changes {
        let mut packet = around(heads, true);
        packet[4 + at] = byte;
        assert_eq!(narrowed(&packet), None, "{at} {byte:#x}");
    }
}

#[test]
fn lengths_and_checksums_are_worked_out() {
    assert_eq!(narrowed(&around(V4, true)), Some(around(V4_AFTER, false)));
    assert_eq!(narrowed(&around(V6, true)), Some(around(V6_AFTER, false)));
}

#[test]
fn with_the_mode_off_they_stay() {
    for heads in [V4, V6] {
        let packet = around(heads, true);
        let answer = narrow(Kind::Packet, NO_CAPTIONS, 0, &packet);
        assert_eq!(answer, Narrowed::Unchanged);
    }
}

#[test]
fn what_is_no_whole_udp_datagram_stays() {
    let fragments = [(6, 0x20), (6, 0x01), (6, 0x10), (7, 0x01), (6, 0x3F)];
    let lengths = [
        (2, 1),
        (3, 0x64),
        (3, 0x66),
        (25, 0x50),
        (25, 0x52),
        (25, 7),
    ];
    stays(V4, &[(0, 0x55), (0, 0x65), (0, 0x44), (9, 6), (9, 0)]);
    stays(V4, &fragments);
    stays(V4, &lengths);
    stays(
        V6,
        &[(0, 0x40), (0, 0x70), (6, 0), (6, 44), (4, 1), (5, 0x50)],
    );
    stays(V6, &[(5, 0x52), (45, 0x50), (45, 0x52), (44, 1)]);
    for heads in [V4, V6] {
        let padded = [around(heads, true), vec![0]].concat();
        assert_eq!(narrowed(&padded), None);
    }
}

#[test]
fn port_123_stays() {
    for heads in [V4, V6] {
        let clock = heads.replace("2000 0051", "007B 0051");
        assert_eq!(narrowed(&around(&clock, true)), None);
    }
}

#[test]
fn reserved_and_dont_fragment_are_not_read() {
    for flags in ["4000", "8000", "C000"] {
        let with = |heads: &str| heads.replace("0000 0000 01", &format!("0000 {flags} 01"));
        let out = narrowed(&around(&with(V4), true)).expect("it is narrowed");
        assert_eq!(out[10..12], hex(flags));
        assert_eq!(out[..10], around(V4_AFTER, false)[..10]);
    }
}

#[test]
fn checksums_that_come_in_are_not_verified() {
    let wrong = V4.replace("A586", "0000").replace("5636", "FFFF");
    assert_eq!(
        narrowed(&around(&wrong, true)),
        Some(around(V4_AFTER, false))
    );
}

#[test]
fn a_zero_udp_checksum_stays_in_ipv4_alone() {
    let [before, after] = [V4.replace("5636", "0000"), V4_AFTER.replace("7F77", "0000")];
    assert_eq!(
        narrowed(&around(&before, true)),
        Some(around(&after, false))
    );
    let before = V6.replace("7034", "0000");
    assert_eq!(
        narrowed(&around(&before, true)),
        Some(around(V6_AFTER, false))
    );
}

/// The source port is greater by the checksum that would go out, which makes a sum of all ones.
#[test]
fn a_udp_sum_of_zero_goes_out_as_ones() {
    let before = V4.replace("1000 2000", "8F77 2000");
    let after = V4_AFTER
        .replace("1000 2000", "8F77 2000")
        .replace("7F77", "FFFF");
    assert_eq!(
        narrowed(&around(&before, true)),
        Some(around(&after, false))
    );
    let before = V6.replace("1000 2000", "A975 2000");
    let after = V6_AFTER
        .replace("1000 2000", "A975 2000")
        .replace("9975", "FFFF");
    assert_eq!(
        narrowed(&around(&before, true)),
        Some(around(&after, false))
    );
}

#[test]
fn in_a_stream_they_count_as_rewritten() {
    let packets = [around(V4, true), around(V6, true)];
    let mut filter = Plain::start(LIMITS, NO_CAPTIONS, Modes::PLAIN_IP).expect("limits in range");
    let call = feed(&mut filter, &packets);
    assert_eq!((call.counts.written, call.counts.rewritten), (2, 2));
    let out = [around(V4_AFTER, false), around(V6_AFTER, false)];
    assert_eq!(call.out, out.concat());
}
