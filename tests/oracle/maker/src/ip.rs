//! Plain IP: IPv4 and IPv6 packets around a UDP datagram, written as a sender writes them or odd in one place, with
//! checksums that are right, zero or wrong, or that come out as zero once a table is narrowed.

use crate::rng::Rng;
use crate::sums::{self, IPV4_CHECKSUM, UDP, UDP_CHECKSUM};
use crate::tags::Tag;
use crate::tlv::{self, CLOCK_PORT, IPV4, IPV4_HEADER, IPV6, IPV6_HEADER, UDP_HEADER};

/// How often, in percent, a packet is odd.
const ODD: usize = 22;
/// The words of an IPv4 header without options.
const WORDS_LEAST: u8 = 5;
/// The offsets of fields in an IPv4 header.
const TOTAL: usize = 2;
const IDENTIFICATION: usize = 4;
const FRAGMENT: usize = 6;
const PROTOCOL: usize = 9;
/// And in an IPv6 header.
const LENGTH: usize = 4;
const NEXT_HEADER: usize = 6;
/// The longest TLV payload.
pub(crate) const PAYLOAD_MOST: usize = 65_535;

/// An IP packet under way.
struct Datagram {
    kind: u8,
    /// The length of the IP header.
    header: usize,
    bytes: Vec<u8>,
}

/// A packet around this MMTP packet, mostly such that its tables are narrowed.
pub(crate) fn packet(rng: &mut Rng, mmtp: &[u8]) -> Vec<u8> {
    if rng.chance(ODD) {
        return odd(rng, mmtp).packet();
    }
    let mut datagram = Datagram::new(rng, mmtp);
    datagram.sum();
    datagram.spoil_sums(rng);
    note(rng, &datagram);
    datagram.packet()
}

/// A packet around an MMTP packet of which narrowing leaves the other one: often the checksums come out as zero then.
pub(crate) fn foreseen(rng: &mut Rng, before: &[u8], after: &[u8]) -> Vec<u8> {
    let mut datagram = Datagram::new(rng, after);
    let zero_sum = rng.chance(60);
    if zero_sum {
        rng.note(Tag::UdpSumZero);
        datagram.choose_source_port();
    }
    if datagram.kind == IPV4 && rng.chance(40) {
        rng.note(Tag::HeaderSumZero);
        datagram.choose_identification();
    }
    if before == after {
        rng.note(Tag::SameBytes);
    }
    datagram.carry(before);
    datagram.sum();
    if !zero_sum {
        datagram.spoil_sums(rng);
    } else if rng.chance(50) {
        datagram.wrong_sums(rng);
    }
    datagram.packet()
}

/// A packet of IPv4 without options, as a sender writes it.
pub(crate) fn usual(rng: &mut Rng, mmtp: &[u8]) -> Vec<u8> {
    let mut datagram = Datagram::v4(rng, WORDS_LEAST, mmtp);
    datagram.put_head(FRAGMENT, &[0x40, 0]);
    datagram.sum();
    datagram.packet()
}

fn note(rng: &mut Rng, datagram: &Datagram) {
    let v4 = datagram.kind == IPV4;
    let even = datagram.bytes.len().is_multiple_of(2);
    let facts = [
        (Tag::IpV4, v4),
        (Tag::IpV6, !v4),
        (Tag::IpOptions, v4 && datagram.header > IPV4_HEADER),
        (Tag::IpLongestHeader, v4 && datagram.header == 60),
        (Tag::IpFlags, v4 && datagram.bytes[FRAGMENT] == 0xc0),
        (Tag::IpOddLength, !even),
        (Tag::IpEvenLength, even),
    ];
    for (tag, _) in facts.into_iter().filter(|(_, fact)| *fact) {
        rng.note(tag);
    }
}

impl Datagram {
    fn new(rng: &mut Rng, mmtp: &[u8]) -> Self {
        if rng.chance(40) {
            return Self::v6(rng, mmtp);
        }
        let options = rng.within(6..=15) as u8;
        let words = rng.pick(&[WORDS_LEAST, options]);
        Self::v4(rng, words, mmtp)
    }

    /// Of a header under five words those fields are written that lie in it.
    fn v4(rng: &mut Rng, words: u8, mmtp: &[u8]) -> Self {
        let mut datagram = Self::around(rng, IPV4, usize::from(words) * 4, mmtp);
        datagram.bytes[0] = 0x40 | words;
        // The reserved bit and don't fragment, in all ways.
        let flags = rng.pick(&[0, 0x40, 0x40, 0x80, 0xc0]);
        datagram.put_head(FRAGMENT, &[flags, 0]);
        datagram.put_head(PROTOCOL, &[UDP]);
        datagram.lengths();
        datagram
    }

    fn v6(rng: &mut Rng, mmtp: &[u8]) -> Self {
        let mut datagram = Self::around(rng, IPV6, IPV6_HEADER, mmtp);
        datagram.bytes[0] = 0x60 | datagram.bytes[0] & 0x0f;
        datagram.put_head(NEXT_HEADER, &[UDP]);
        datagram.lengths();
        datagram
    }

    fn around(rng: &mut Rng, kind: u8, header: usize, mmtp: &[u8]) -> Self {
        let mut bytes = rng.bytes(header + UDP_HEADER);
        let port = rng.pick(&[0x0400, 0x1234, 124, 0x7b00, 122]);
        bytes[header + 2..header + 4].copy_from_slice(&u16::to_be_bytes(port));
        let mut datagram = Self {
            kind,
            header,
            bytes,
        };
        datagram.carry(mmtp);
        datagram
    }

    /// Puts another MMTP packet in, as far as a TLV length can tell of it.
    fn carry(&mut self, mmtp: &[u8]) {
        self.bytes.truncate(self.header + UDP_HEADER);
        self.bytes.extend_from_slice(mmtp);
        self.bytes.truncate(PAYLOAD_MOST);
        self.lengths();
    }

    fn put(&mut self, at: usize, bytes: &[u8]) {
        self.bytes[at..at + bytes.len()].copy_from_slice(bytes);
    }

    fn put_head(&mut self, at: usize, bytes: &[u8]) {
        if at + bytes.len() <= self.header {
            self.put(at, bytes);
        }
    }

    fn lengths(&mut self) {
        let (total, udp) = (self.bytes.len(), self.bytes.len() - self.header);
        let (at, length) = match self.kind {
            IPV4 => (TOTAL, total),
            _ => (LENGTH, udp),
        };
        self.put_head(at, &(length as u16).to_be_bytes());
        self.put(self.header + 4, &(udp as u16).to_be_bytes());
    }

    /// Right checksums, for a header that has addresses.
    fn sum(&mut self) {
        if self.kind == IPV4 {
            let sum = sums::ipv4_checksum(&self.bytes[..self.header]);
            self.put_head(IPV4_CHECKSUM, &sum.to_be_bytes());
        }
        let sum = self.udp_sum();
        self.put(self.header + UDP_CHECKSUM, &sum.to_be_bytes());
    }

    fn udp_sum(&self) -> u16 {
        let (head, udp) = self.bytes.split_at(self.header);
        let addresses = match self.kind {
            IPV4 => &head[12..20],
            _ => &head[8..40],
        };
        sums::udp_checksum(addresses, udp)
    }

    /// What is missing to a sum of all ones becomes the source port.
    fn choose_source_port(&mut self) {
        self.put(self.header, &[0, 0]);
        let sum = self.udp_sum();
        self.put(self.header, &sum.to_be_bytes());
    }

    /// The same for the header.
    fn choose_identification(&mut self) {
        self.put(IDENTIFICATION, &[0, 0]);
        let sum = sums::ipv4_checksum(&self.bytes[..self.header]);
        self.put(IDENTIFICATION, &sum.to_be_bytes());
    }

    /// Leaves the checksums, or makes them zero or wrong.
    fn spoil_sums(&mut self, rng: &mut Rng) {
        match rng.below(10) {
            0..4 => {}
            4..7 => {
                let v4 = self.kind == IPV4;
                rng.note(if v4 { Tag::UdpZeroV4 } else { Tag::UdpZeroV6 });
                self.put(self.header + UDP_CHECKSUM, &[0, 0]);
            }
            _ => self.wrong_sums(rng),
        }
    }

    /// Wrong ones, that of UDP not zero in IPv4, where that says that there is none.
    fn wrong_sums(&mut self, rng: &mut Rng) {
        rng.note(Tag::WrongSums);
        let sum = rng.number() | 1;
        self.put(self.header + UDP_CHECKSUM, &sum.to_be_bytes());
        if self.kind == IPV4 {
            let sum = rng.number();
            self.put_head(IPV4_CHECKSUM, &sum.to_be_bytes());
        }
    }

    fn packet(&self) -> Vec<u8> {
        tlv::packet(self.kind, &self.bytes)
    }
}

/// A packet whose tables are not narrowed, though all but one thing is right.
fn odd(rng: &mut Rng, mmtp: &[u8]) -> Datagram {
    if rng.chance(10) {
        return short_header(rng, mmtp);
    }
    let mut datagram = Datagram::new(rng, mmtp);
    datagram.sum();
    match rng.below(8) {
        0 | 1 => odd_length(rng, &mut datagram),
        2 => {
            rng.note(Tag::IpPadding);
            let padding = rng.some_bytes(1..=9);
            datagram.bytes.extend(padding);
        }
        3 => {
            rng.note(Tag::IpCut);
            let end = rng.below(datagram.header + UDP_HEADER + 13);
            datagram.bytes.truncate(end);
            if end >= datagram.header + UDP_HEADER && rng.chance(50) {
                datagram.lengths();
            }
        }
        4 => {
            rng.note(Tag::IpClock);
            let at = datagram.header + 2;
            datagram.put(at, &CLOCK_PORT.to_be_bytes());
            datagram.sum();
        }
        5 => odd_version(rng, &mut datagram),
        _ if datagram.kind == IPV4 => odd_v4(rng, &mut datagram),
        _ => {
            rng.note(Tag::IpNextHeader);
            let next = rng.pick(&[0, 6, 16, 18, 43, 44, 50, 59, 60, 255]);
            datagram.put(NEXT_HEADER, &[next]);
        }
    }
    datagram
}

/// An IPv4 header under five words, with MMTP where it is looked for.
fn short_header(rng: &mut Rng, mmtp: &[u8]) -> Datagram {
    rng.note(Tag::IpHeaderShort);
    let words = rng.pick(&[0, 1, 2, 3, 4, 4, 4]);
    Datagram::v4(rng, words, mmtp)
}

/// Fragments and other protocols.
fn odd_v4(rng: &mut Rng, datagram: &mut Datagram) {
    let offset = rng.within(1..=0x1fff) as u16;
    let offset = rng.pick(&[1, 0x0100, 0x1000, 0x1fff, offset]);
    let (tag, fragment) = rng.pick(&[
        (Tag::IpMoreFragments, 0x2000),
        (Tag::IpOffset, offset),
        (Tag::IpMoreAndOffset, 0x2000 | offset),
        (Tag::IpProtocol, 0),
    ]);
    rng.note(tag);
    if tag == Tag::IpProtocol {
        let protocol = rng.pick(&[0, 1, 6, 16, 18, 41, 0x91, 255]);
        datagram.put(PROTOCOL, &[protocol]);
    } else {
        let flags = rng.pick(&[0, 0x4000, 0x8000]);
        datagram.put(FRAGMENT, &u16::to_be_bytes(fragment | flags));
    }
    datagram.sum();
}

/// The length in the IP header or that of UDP is another one.
fn odd_length(rng: &mut Rng, datagram: &mut Datagram) {
    let udp = datagram.bytes.len() - datagram.header;
    let (tag, at, right) = match (datagram.kind, rng.below(3)) {
        (IPV4, 0) => (Tag::IpLengthWrong, TOTAL, datagram.bytes.len()),
        (_, 0) => (Tag::IpLengthWrong, LENGTH, udp),
        _ => (Tag::UdpLengthWrong, datagram.header + 4, udp),
    };
    let right = right as u16;
    let near = right.wrapping_add(rng.pick(&[1, 2, 4, 0xffff, 0xfffe, 0xfff8, 20, 40]));
    let wrong = rng.pick(&[near, near, near, 0, 7, 8, right ^ 0x0100, right ^ 0x8000]);
    rng.note(tag);
    if tag == Tag::UdpLengthWrong && wrong < 8 {
        rng.note(Tag::UdpLengthUnder8);
    }
    datagram.put(at, &wrong.to_be_bytes());
}

/// Another version, or the other's packet type.
fn odd_version(rng: &mut Rng, datagram: &mut Datagram) {
    rng.note(Tag::IpVersion);
    let other = IPV4 + IPV6 - datagram.kind;
    if rng.chance(25) {
        datagram.kind = other;
        return;
    }
    let right = datagram.bytes[0] >> 4;
    let version = (right + rng.within(1..=15) as u8) % 16;
    let version = rng.pick(&[version, 10 - right]);
    datagram.bytes[0] = version << 4 | datagram.bytes[0] & 0x0f;
}
