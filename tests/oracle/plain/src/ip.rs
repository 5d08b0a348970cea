//! Request 2, tables in plain IP packets: which packets of IPv4 and IPv6 the mode lets be rewritten, and their lengths and
//! checksums, which are worked out afresh (RFC 768, 791, 1071, 8200). What is inside the datagram is read elsewhere.

use crate::finding::HEAD;
use crate::narrowing::be16;
use crate::reader::Reader;

/// The protocol, or next header, of UDP.
const UDP: u8 = 17;
const UDP_HEADER: usize = 8;
/// Where the UDP header has its length and its checksum.
const UDP_LENGTH: usize = 4;
const UDP_CHECKSUM: usize = 6;
const IPV4_HEADER_LEAST: usize = 20;
const IPV6_HEADER: usize = 40;
/// More fragments and the fragment offset. The two bits above them, reserved and don't fragment, are not read.
const FRAGMENT: u16 = 0x3FFF;

/// A UDP datagram that is all that its IP header has behind it.
pub struct Datagram {
    version: Version,
    /// The length of the IP header.
    header: usize,
    /// Whether it goes out with a UDP checksum: a zero one stays zero in IPv4.
    summed: bool,
}

#[derive(Clone, Copy)]
enum Version {
    Four,
    Six,
}

/// The datagram of a TLV packet of type 0x01 or 0x02, if there is nothing in its heads that the mode passes by. Of the TLV
/// head the type alone is read, so the payload is what there is behind it.
pub fn datagram(packet: &[u8]) -> Option<Datagram> {
    let mut reader = Reader::new(packet);
    match reader.take(HEAD)?[1] {
        0x01 => ipv4(reader.rest()),
        0x02 => ipv6(reader.rest()),
        _ => None,
    }
}

fn ipv4(payload: &[u8]) -> Option<Datagram> {
    let fixed = payload.get(..IPV4_HEADER_LEAST)?;
    let header = usize::from(fixed[0] % 16) * 4;
    let total = usize::from(u16_at(fixed, 2));
    let fragment = u16_at(fixed, 6) & FRAGMENT;
    let right = fixed[0] / 16 == 4
        && header >= IPV4_HEADER_LEAST
        && total == payload.len()
        && fragment == 0
        && fixed[9] == UDP;
    let checksum = udp_checksum(payload.get(header..)?)?;
    right.then_some(Datagram {
        version: Version::Four,
        header,
        summed: checksum != 0,
    })
}

/// The next header must be UDP itself: none of the extension headers is stepped over.
fn ipv6(payload: &[u8]) -> Option<Datagram> {
    let (fixed, behind) = payload.split_at_checked(IPV6_HEADER)?;
    let length = usize::from(u16_at(fixed, 4));
    let right = fixed[0] / 16 == 6 && length == behind.len() && fixed[6] == UDP;
    udp_checksum(behind)?;
    right.then_some(Datagram {
        version: Version::Six,
        header: IPV6_HEADER,
        summed: true,
    })
}

/// The checksum that stands in a UDP header whose length is that of all the bytes. It is not verified.
fn udp_checksum(udp: &[u8]) -> Option<u16> {
    let header = udp.get(..UDP_HEADER)?;
    let agrees = usize::from(u16_at(header, UDP_LENGTH)) == udp.len();
    agrees.then(|| u16_at(header, UDP_CHECKSUM))
}

impl Datagram {
    /// Works lengths and checksums out for a TLV payload that has this datagram's heads before other content.
    pub fn work_out(&self, payload: &mut [u8]) {
        let total = payload.len();
        let (head, udp) = payload.split_at_mut(self.header);
        match self.version {
            Version::Four => {
                put(head, 2, total);
                put_u16(head, 10, 0);
                put_u16(head, 10, checksum(head));
            }
            Version::Six => put(head, 4, udp.len()),
        }
        put(udp, UDP_LENGTH, udp.len());
        put_u16(udp, UDP_CHECKSUM, 0);
        if self.summed {
            let sum = checksum(&[&self.pseudo_header(head, udp.len()), &*udp].concat());
            // Zero would say that there is none.
            put_u16(udp, UDP_CHECKSUM, if sum == 0 { 0xFFFF } else { sum });
        }
    }

    /// What UDP's checksum covers beside the datagram: both addresses, its length, and the number of UDP.
    fn pseudo_header(&self, head: &[u8], length: usize) -> Vec<u8> {
        let length = be16(length);
        match self.version {
            Version::Four => [&head[12..20], &[0, UDP], &length].concat(),
            Version::Six => [&head[8..40], &[0, 0], &length, &[0, 0, 0, UDP]].concat(),
        }
    }
}

/// The internet checksum: the complement of the one's complement sum of the 16-bit words. The last byte of an odd number is
/// the upper half of its word.
fn checksum(bytes: &[u8]) -> u16 {
    let mut sum = 0_u16;
    for pair in bytes.chunks(2) {
        let word = u16::from_be_bytes([pair[0], pair.get(1).copied().unwrap_or(0)]);
        let (added, carry) = sum.overflowing_add(word);
        // A carry out of the top comes in at the bottom; the sum behind one is too small to carry again.
        sum = added + u16::from(carry);
    }
    !sum
}

fn u16_at(bytes: &[u8], at: usize) -> u16 {
    u16::from_be_bytes([bytes[at], bytes[at + 1]])
}

fn put_u16(bytes: &mut [u8], at: usize, number: u16) {
    bytes[at..at + 2].copy_from_slice(&number.to_be_bytes());
}

fn put(bytes: &mut [u8], at: usize, length: usize) {
    bytes[at..at + 2].copy_from_slice(&be16(length));
}

#[cfg(test)]
mod tests {
    use super::checksum;

    /// RFC 1071, section 3: the words 0001 f203 f4f5 f6f7 add up to ddf2.
    #[test]
    fn the_example_of_rfc_1071() {
        let bytes = [0x00, 0x01, 0xF2, 0x03, 0xF4, 0xF5, 0xF6, 0xF7];
        assert_eq!(checksum(&bytes), !0xDDF2);
    }

    /// A header with the widely printed checksum b861, which is left out here and put in there.
    #[test]
    fn a_well_known_ipv4_header() {
        let mut header = [
            0x45, 0x00, 0x00, 0x73, 0x00, 0x00, 0x40, 0x00, 0x40, 0x11, 0x00, 0x00, 0xC0, 0xA8,
            0x00, 0x01, 0xC0, 0xA8, 0x00, 0xC7,
        ];
        assert_eq!(checksum(&header), 0xB861);
        header[10..12].copy_from_slice(&[0xB8, 0x61]);
        assert_eq!(checksum(&header), 0, "with its checksum in it all is ones");
    }

    #[test]
    fn an_odd_byte_is_an_upper_half() {
        assert_eq!(checksum(&[0x12]), !0x1200);
        assert_eq!(checksum(&[0x00, 0x01, 0x12]), !0x1201);
    }

    #[test]
    fn carries_come_in_at_the_bottom() {
        assert_eq!(checksum(&[]), 0xFFFF);
        assert_eq!(checksum(&[0xFF, 0xFF, 0x00, 0x01]), !1);
        assert_eq!(checksum(&[0xFF; 65_535]), !0xFF00);
        assert_eq!(checksum(&[0xFF, 0xFF, 0xFF, 0xFF]), 0);
    }
}
