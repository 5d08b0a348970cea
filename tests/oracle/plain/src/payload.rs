//! 01 "From packet to payload": from a TLV packet to its MMTP packet, and from there to the MMTP payload.
//! `None` everywhere means that the packet passes unread.

use crate::finding::HEAD;
use crate::reader::Reader;

/// The port that passes a packet: NTP.
const NTP: u16 = 123;
const SIGNALLING: u8 = 2;

/// An MMTP packet that was read.
pub struct Mmtp<'a> {
    pub rewritable: bool,
    pub identifier: u16,
    pub payload: &'a [u8],
    payload_type: u8,
}

impl Mmtp<'_> {
    pub fn is_signalling(&self) -> bool {
        self.payload_type == SIGNALLING
    }
}

/// The MMTP packet inside a TLV packet. Of the first four bytes only the type is read.
pub fn mmtp(packet: &[u8]) -> Option<Mmtp<'_>> {
    let mut reader = Reader::new(packet);
    let kind = reader.take(HEAD)?[1];
    let (offset, rewritable) = match kind {
        0x01 => (udp_body(reader, ipv4_header(reader)?)?, false),
        0x02 => (udp_body(reader, 40)?, false),
        0x03 => compressed(reader)?,
        _ => return None,
    };
    reader.take(offset)?;
    header(reader, rewritable)
}

/// Taken literally, even where it is 0 (DECISIONS R8).
fn ipv4_header(mut reader: Reader) -> Option<usize> {
    Some(usize::from(reader.u8()? % 16) * 4)
}

/// The offset behind the UDP header that follows an IP header of `header` bytes.
fn udp_body(mut reader: Reader, header: usize) -> Option<usize> {
    reader.take(header + 2)?;
    (reader.u16()? != NTP).then_some(header + 8)
}

/// The offset behind a compressed IP header, and whether the packet is rewritable.
fn compressed(mut reader: Reader) -> Option<(usize, bool)> {
    match reader.take(3)?[2] {
        0x21 | 0x61 => Some((3, true)),
        0x20 => Some((23, false)),
        0x60 => Some((45, false)),
        _ => None,
    }
}

/// The MMTP header. One that ends at the last byte leaves an empty payload (DECISIONS R7).
fn header(mut reader: Reader, rewritable: bool) -> Option<Mmtp> {
    let flags = reader.u8()?;
    let payload_type = reader.u8()? & 0x3F;
    let identifier = reader.u16()?;
    reader.take(8)?;
    if flags & 0x20 != 0 {
        reader.take(4)?;
    }
    if flags & 0x02 != 0 {
        reader.take(2)?;
        reader.sized_by_u16()?;
    }
    Some(Mmtp {
        rewritable,
        identifier,
        payload: reader.rest(),
        payload_type,
    })
}
