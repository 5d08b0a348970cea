//! Internet checksums as arithmetic: a run of bytes is a number, and its remainder modulo 65,535 is the sum of its 16-bit
//! words (RFC 1071). The maker's packets and the recount of a filter's checksums rest on it; no filter does.

/// The protocol, or next header, of UDP.
pub const UDP: u8 = 17;
/// Where the checksum stands in an IPv4 and in a UDP header.
pub const IPV4_CHECKSUM: usize = 10;
pub const UDP_CHECKSUM: usize = 6;

const MODULUS: u64 = 65_535;

/// The checksum that an IPv4 header must have, whatever stands in its place.
pub fn ipv4_checksum(header: &[u8]) -> u16 {
    let others = remainder(&header[..IPV4_CHECKSUM]) + remainder(&header[IPV4_CHECKSUM + 2..]);
    // A sum of all ones leaves nothing to add.
    ((MODULUS - others % MODULUS) % MODULUS) as u16
}

/// The checksum that a UDP datagram between these addresses must have, whatever stands in its place; it is never 0.
pub fn udp_checksum(addresses: &[u8], udp: &[u8]) -> u16 {
    let pseudo = remainder(addresses) + u64::from(UDP) + udp.len() as u64;
    let others = remainder(&udp[..UDP_CHECKSUM]) + remainder(&udp[UDP_CHECKSUM + 2..]);
    (MODULUS - (pseudo + others) % MODULUS) as u16
}

/// The bytes are taken four at a time, since 2 to the 32nd leaves 1 as well; zeros fill the last four up.
fn remainder(bytes: &[u8]) -> u64 {
    let (fours, rest) = bytes.as_chunks::<4>();
    let mut last = [0; 4];
    last[..rest.len()].copy_from_slice(rest);
    let numbers = fours.iter().chain([&last]);
    let sum: u64 = numbers
        .map(|four| u64::from(u32::from_be_bytes(*four)))
        .sum();
    sum % MODULUS
}

#[cfg(test)]
mod tests {
    use super::{ipv4_checksum, remainder, udp_checksum};

    #[test]
    fn the_example_of_rfc_1071() {
        assert_eq!(
            remainder(&[0x00, 0x01, 0xf2, 0x03, 0xf4, 0xf5, 0xf6, 0xf7]),
            0xddf2
        );
        assert_eq!(remainder(&[0x00, 0x01, 0xf2]), 0xf201);
        assert_eq!(remainder(&[0xff; 6]), 0);
    }

    /// A header with the widely printed checksum b861.
    #[test]
    fn a_well_known_ipv4_header() {
        let mut header = [
            0x45, 0x00, 0x00, 0x73, 0x00, 0x00, 0x40, 0x00, 0x40, 0x11, 0xb8, 0x61, 0xc0, 0xa8,
            0x00, 0x01, 0xc0, 0xa8, 0x00, 0xc7,
        ];
        assert_eq!(ipv4_checksum(&header), 0xb861);
        header[4..6].copy_from_slice(&[0xb8, 0x61]);
        assert_eq!(ipv4_checksum(&header), 0, "and not 0xffff");
    }

    #[test]
    fn a_udp_checksum_is_never_0() {
        let addresses = [0; 8];
        let mut udp = [0, 0, 0, 123, 0, 9, 0, 0, 0xab];
        let sum = udp_checksum(&addresses, &udp);
        assert_eq!(sum, !(123 + 9 + 17 + 9 + 0xab00));
        udp[..2].copy_from_slice(&sum.to_be_bytes());
        assert_eq!(udp_checksum(&addresses, &udp), 0xffff);
    }
}
