//! The outermost layer: TLV packets, and the ways in which one carries an MMTP packet,
//! those that a filter reads and those that it passes unread.

use crate::rng::Rng;
use crate::tags::Tag;

pub(crate) const SYNC: u8 = 0x7f;
/// The bytes before a packet's payload.
pub(crate) const HEADER: usize = 4;
pub(crate) const IPV4: u8 = 0x01;
pub(crate) const IPV6: u8 = 0x02;
pub(crate) const COMPRESSED: u8 = 0x03;
pub(crate) const CONTROL: u8 = 0xfe;
pub(crate) const NULL: u8 = 0xff;
pub(crate) const CLOCK_PORT: u16 = 123;
/// The shortest, which has no options.
pub(crate) const IPV4_HEADER: usize = 20;
pub(crate) const IPV6_HEADER: usize = 40;
pub(crate) const UDP_HEADER: usize = 8;

#[derive(Clone, Copy)]
pub(crate) enum Carrier {
    /// The third byte, which says what of the IP header is left.
    Compressed(u8),
    V4 {
        /// The header's length in four-byte words.
        words: u8,
        port: u16,
    },
    V6 {
        port: u16,
    },
}

/// A packet of this type. Payloads past 65,535 bytes are cut there, as no length field could tell of more.
pub(crate) fn packet(kind: u8, payload: &[u8]) -> Vec<u8> {
    let length = payload.len().min(usize::from(u16::MAX));
    let mut out = vec![SYNC, kind];
    out.extend_from_slice(&(length as u16).to_be_bytes());
    out.extend_from_slice(&payload[..length]);
    out
}

pub(crate) fn carry(rng: &mut Rng, carrier: Carrier, mmtp: &[u8]) -> Vec<u8> {
    let (kind, mut payload) = match carrier {
        Carrier::Compressed(header) => (COMPRESSED, compressed(rng, header)),
        Carrier::V4 { words, port } => {
            let header = udp(rng, usize::from(words) * 4, port);
            (IPV4, [&[0x40 | words], &header[1..]].concat())
        }
        Carrier::V6 { port } => (IPV6, udp(rng, IPV6_HEADER, port)),
    };
    payload.extend_from_slice(mmtp);
    packet(kind, &payload)
}

fn compressed(rng: &mut Rng, header: u8) -> Vec<u8> {
    let rest = match header {
        0x20 => 20,
        0x60 => 42,
        _ => 0,
    };
    [rng.bytes(2), vec![header], rng.bytes(rest)].concat()
}

fn udp(rng: &mut Rng, header: usize, port: u16) -> Vec<u8> {
    let mut out = rng.bytes(header + UDP_HEADER);
    out[header + 2..header + 4].copy_from_slice(&port.to_be_bytes());
    out
}

/// A carrier that is read, mostly one that is rewritable.
pub(crate) fn carrier(rng: &mut Rng) -> Carrier {
    let port = rng.pick(&[0x0400, 0x1234, 124, 0x7b00, 122]);
    let words = rng.pick(&[0, 1, 5, 5, 5, 6, 15]);
    let (tag, carrier) = rng.weighted(&[
        (60, (Tag::Header61, Carrier::Compressed(0x61))),
        (12, (Tag::Header21, Carrier::Compressed(0x21))),
        (7, (Tag::Header20, Carrier::Compressed(0x20))),
        (7, (Tag::Header60, Carrier::Compressed(0x60))),
        (7, (Tag::TypeV4, Carrier::V4 { words, port })),
        (7, (Tag::TypeV6, Carrier::V6 { port })),
    ]);
    rng.note(tag);
    if let Carrier::V4 { words, .. } = carrier {
        rng.note(match words {
            0 => Tag::V4HeaderZero,
            5 => Tag::V4HeaderPlain,
            _ => Tag::V4HeaderOther,
        });
    }
    carrier
}

/// A carrier whose content is passed unread.
pub(crate) fn unread_carrier(rng: &mut Rng) -> Carrier {
    let unknown = rng.pick(&[0x00, 0x01, 0x22, 0x40, 0x62, 0xe1, 0xff]);
    let words = rng.pick(&[0, 5, 6]);
    let port = CLOCK_PORT;
    let (tag, carrier) = rng.weighted(&[
        (40, (Tag::HeaderUnknown, Carrier::Compressed(unknown))),
        (30, (Tag::V4Clock, Carrier::V4 { words, port })),
        (30, (Tag::V6Clock, Carrier::V6 { port })),
    ]);
    rng.note(tag);
    carrier
}
