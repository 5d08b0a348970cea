//! 01 "From packet to payload". Before any PLT an MMTP packet that is read and no signalling is not written,
//! and one that is unread passes: so a run tells which of the two a packet was.

use crate::build::*;

fn read(packet: &[u8]) -> bool {
    !passes(&mut filter(NO_CAPTIONS), packet)
}

/// Asserts that an MMTP header of 12 bytes is read behind these bytes, and not where it is one byte short.
fn assert_reads_behind(kind: u8, front: &[u8]) {
    let whole = [front, &mmtp(0, 1, &[])].concat();
    assert!(
        read(&tlv(kind, &whole)),
        "type {kind:02X}, {} bytes before",
        front.len()
    );
    assert!(
        !read(&tlv(kind, &whole[..whole.len() - 1])),
        "type {kind:02X}, cut short"
    );
}

#[test]
fn compressed_headers_give_their_offsets() {
    for (header, offset) in [(0x21, 3), (0x61, 3), (0x20, 23), (0x60, 45)] {
        let mut front = vec![0; offset];
        front[2] = header;
        assert_reads_behind(0x03, &front);
    }
    assert!(!read(&tlv(
        0x03,
        &[&hex("0000 22"), &mmtp(0, 1, &[])[..]].concat()
    )));
    assert!(!read(&tlv(0x03, &hex("0000"))));
}

#[test]
fn ip_headers_give_their_offsets() {
    for words in [0, 5, 15] {
        let mut front = vec![0; words * 4 + 8];
        front[0] = 0x40 | words as u8;
        assert_reads_behind(0x01, &front);
    }
    assert_reads_behind(0x02, &[0xFF; 48]);
    assert!(!read(&tlv(0x01, &[])));
}

#[test]
fn port_123_passes() {
    let with_port = |port: &str| {
        [
            &[0; 40],
            &hex("0000")[..],
            &hex(port),
            &[0; 4],
            &mmtp(0, 1, &[]),
        ]
        .concat()
    };
    assert!(!read(&tlv(0x02, &with_port("007B"))));
    assert!(read(&tlv(0x02, &with_port("017B"))));
}

#[test]
fn other_types_pass_unread() {
    for kind in [0xFE, 0xFF] {
        assert!(!read(&tlv(
            kind,
            &[&hex("0000 61"), &mmtp(0, 1, &[])[..]].concat()
        )));
    }
}

#[test]
fn flags_lengthen_the_mmtp_header() {
    for (flags, more) in [
        (0x20, "00000000"),
        (0x02, "0000 0003 AABBCC"),
        (0x22, "00000002 0000 0001 AA"),
    ] {
        let mut header = [mmtp(0, 1, &[]), hex(more)].concat();
        header[0] = flags;
        assert!(read(&rewritable(&header)), "flags {flags:02X}");
        header.pop();
        assert!(!read(&rewritable(&header)), "flags {flags:02X}, cut short");
    }
}

#[test]
fn only_the_low_six_bits_of_byte_1_are_the_payload_type() {
    assert!(
        !read(&rewritable(&mmtp(0xC2, 1, &[]))),
        "signalling is written"
    );
    assert!(read(&rewritable(&mmtp(0x22, 1, &[]))));
}
