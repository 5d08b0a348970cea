//! Plain IP packets around an MMTP packet, for the named cases and the tests of request 2: heads that are right, and then
//! what a case changes of them. Checksums are the maker's.

use maker::sums::{self, IPV4_CHECKSUM, UDP_CHECKSUM};

use crate::builders::{hex, tlv};

/// The offset of an IP packet in its TLV packet.
pub const IP: usize = 4;

/// The heads of a packet of IPv4 or IPv6.
#[derive(Debug, Clone, PartialEq, Eq)]
pub struct Heads {
    kind: u8,
    ip: Vec<u8>,
    /// Source and destination.
    ports: [u16; 2],
    /// Whether it has a UDP checksum, or zero in its place.
    summed: bool,
}

impl Heads {
    /// From 192.0.2.1 to 233.252.0.1, without options.
    pub fn v4() -> Self {
        Self::of(1, hex("45 00 0000 1234 4000 40 11 0000 C0000201 E9FC0001"))
    }

    /// From 2001:db8::1 to ff3e::8000:1.
    pub fn v6() -> Self {
        let fixed = hex("60 00 00 00 0000 11 40");
        let source = hex("20010DB8 00000000 00000000 00000001");
        let target = hex("FF3E0000 00000000 00000000 80000001");
        Self::of(2, [fixed, source, target].concat())
    }

    fn of(kind: u8, ip: Vec<u8>) -> Self {
        Self {
            kind,
            ip,
            ports: [4_000, 4_001],
            summed: true,
        }
    }

    /// With an IPv4 header of so many words: options behind the addresses, or an end before them.
    pub fn words(mut self, words: u8) -> Self {
        let options = (0..).map(|nth: u8| nth.wrapping_mul(37));
        let length = usize::from(words) * 4;
        self.ip.extend(options.take(40));
        self.ip.truncate(length);
        self.put(0, &[0x40 | words])
    }

    /// With these bytes at a place of the IP header, as far as it goes.
    pub fn put(mut self, at: usize, bytes: &[u8]) -> Self {
        for (place, byte) in self.ip.iter_mut().skip(at).zip(bytes) {
            *place = *byte;
        }
        self
    }

    pub fn ports(self, source: u16, target: u16) -> Self {
        Self {
            ports: [source, target],
            ..self
        }
    }

    /// With a UDP checksum of zero.
    pub fn unsummed(self) -> Self {
        Self {
            summed: false,
            ..self
        }
    }

    /// The length of the IP header: UDP is behind it.
    pub fn header(&self) -> usize {
        self.ip.len()
    }

    /// The packet, with right lengths and checksums, as far as its header has places for them.
    pub fn around(&self, mmtp: &[u8]) -> Vec<u8> {
        let mut udp: Vec<u8> = self
            .ports
            .iter()
            .flat_map(|port| port.to_be_bytes())
            .collect();
        udp.extend(((mmtp.len() + 8) as u16).to_be_bytes());
        udp.extend([0, 0]);
        udp.extend(mmtp);
        let (at, length) = match self.kind {
            1 => (2, self.header() + udp.len()),
            _ => (4, udp.len()),
        };
        let mut heads = self.clone().put(at, &(length as u16).to_be_bytes());
        if self.kind == 1 && self.header() >= 20 {
            let sum = sums::ipv4_checksum(&heads.ip);
            heads = heads.put(IPV4_CHECKSUM, &sum.to_be_bytes());
        }
        if let Some(addresses) = self.addresses().filter(|_| self.summed) {
            let sum = sums::udp_checksum(addresses, &udp);
            udp[UDP_CHECKSUM..UDP_CHECKSUM + 2].copy_from_slice(&sum.to_be_bytes());
        }
        tlv(self.kind, &[heads.ip, udp].concat())
    }

    fn addresses(&self) -> Option<&[u8]> {
        match self.kind {
            1 => self.ip.get(12..20),
            _ => self.ip.get(8..40),
        }
    }

    /// From the port with which the UDP sum over this MMTP packet comes out as zero.
    pub fn with_udp_sum_zero(self, mmtp: &[u8]) -> Self {
        let target = self.ports[1];
        let without = self.ports(0, target);
        let sum = without.udp_checksum(mmtp);
        without.ports(sum, target)
    }

    /// With the identification with which the header sum around this MMTP packet comes out as zero.
    pub fn with_header_sum_zero(self, mmtp: &[u8]) -> Self {
        let without = self.put(4, &[0, 0]);
        let packet = without.around(mmtp);
        let sum = packet[IP + IPV4_CHECKSUM..][..2].to_vec();
        without.put(4, &sum)
    }

    /// The UDP checksum of the packet around this MMTP packet.
    pub fn udp_checksum(&self, mmtp: &[u8]) -> u16 {
        let packet = self.around(mmtp);
        let at = self.udp_checksum_at();
        u16::from_be_bytes([packet[at], packet[at + 1]])
    }

    /// Where it stands in the packet.
    pub fn udp_checksum_at(&self) -> usize {
        IP + self.header() + UDP_CHECKSUM
    }

    /// Where the UDP length stands.
    pub fn udp_length_at(&self) -> usize {
        IP + self.header() + 4
    }
}
