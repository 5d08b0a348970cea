//! The MMTP packet header, as far as 01 reads it.

/// What is read of an MMTP packet. The payload is the rest of the caller's bytes.
#[derive(Debug, Clone, Copy, PartialEq, Eq)]
pub struct Read<'a> {
    pub packet_id: u16,
    pub payload_type: u8,
    pub payload: &'a [u8],
}

/// The twelve bytes that every header has, and what its flags add. The version and the FEC bits are not
/// read. `None` where the header is cut short.
pub fn read(bytes: &[u8]) -> Option<Read<'_>> {
    let (header, rest) = bytes.split_first_chunk::<12>()?;
    let rest = after_counter(header[0], rest)?;
    Some(Read {
        packet_id: u16::from_be_bytes([header[2], header[3]]),
        payload_type: header[1] & 0x3f,
        payload: after_extension(header[0], rest)?,
    })
}

/// The packet counter, four bytes where flag 0x20 is on.
fn after_counter(flags: u8, rest: &[u8]) -> Option<&[u8]> {
    if flags & 0x20 == 0 {
        return Some(rest);
    }
    rest.get(4..)
}

/// The header extension where flag 0x02 is on: a type, a 16-bit length and as many bytes.
fn after_extension(flags: u8, rest: &[u8]) -> Option<&[u8]> {
    if flags & 0x02 == 0 {
        return Some(rest);
    }
    let (&[_, _, high, low], rest) = rest.split_first_chunk::<4>()?;
    rest.get(usize::from(u16::from_be_bytes([high, low]))..)
}
